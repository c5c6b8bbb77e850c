/* Stands in for libFuzzer where it can't be linked: random bytes from a seed, half of them new and half a change of earlier ones. */
#include <stdint.h>
#include <stdio.h>
#include <stdlib.h>

int LLVMFuzzerTestOneInput(const uint8_t *data, size_t size);

#define MOST 120
#define KEPT 64

static uint64_t state;

static uint32_t random_below(uint32_t n)
{
    state = state * 6364136223846793005u + 1442695040888963407u;
    return (uint32_t)(state >> 33) % n;
}

int main(int argc, char **argv)
{
    static uint8_t kept[KEPT][MOST];
    static size_t sizes[KEPT];
    unsigned long runs = argc > 1 ? strtoul(argv[1], NULL, 10) : 100000;
    state = argc > 2 ? strtoul(argv[2], NULL, 10) : 1;
    fprintf(stderr, "fuzz: %lu runs from seed %lu\n", runs, (unsigned long)state);
    for (unsigned long run = 0; run < runs; run++) {
        uint32_t at = random_below(KEPT);
        if (sizes[at] == 0 || random_below(2) == 0) {
            sizes[at] = 1 + random_below(MOST);
            for (size_t k = 0; k < sizes[at]; k++)
                kept[at][k] = (uint8_t)random_below(256);
        } else {
            kept[at][random_below((uint32_t)sizes[at])] = (uint8_t)random_below(256);
        }
        LLVMFuzzerTestOneInput(kept[at], sizes[at]);
        if ((run + 1) % 1000000 == 0)
            fprintf(stderr, "fuzz: %lu of %lu runs\n", run + 1, runs);
    }
    return 0;
}
