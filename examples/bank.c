/* Writes a bank as a file, reads it back, and shows what damaged files are answered with. docs/bank-files.md explains these bytes. */
#include "alf.h"

#include <stdio.h>
#include <string.h>

/* What a bank holds of luma filter 20, chroma alternative 1 and the third cross-component filter of Cr: coefficients, then clips. */
static const int16_t luma[24] = {
    2, -3, 5, -3, 1, -8, 14, -8, 1, 0, -11, 40,
    1024, 1024, 1024, 1024, 1024, 1024, 128, 1024, 1024, 1024, 128, 32,
};
static const int16_t chroma[12] = {-2, 4, 7, 4, -2, 16, 1024, 1024, 128, 128, 32, 8};
static const int16_t cross_component[7] = {0, 4, -8, 0, 16, -1, 0};

static int16_t bank[ALF_BANK_NUMBERS], read_back[ALF_BANK_NUMBERS];
static uint8_t file[ALF_BANK_FILE_BYTES];

static void make_bank(void)
{
    memcpy(bank + 0 * 752 + 24 * 20, luma, sizeof luma);
    memcpy(bank + 1 * 752 + 600 + 12 * 1, chroma, sizeof chroma);
    memcpy(bank + 7 * 752 + 696 + 28 * 1 + 7 * 2, cross_component, sizeof cross_component);
}

/* Field by field: a tag, a length of two bytes, and as many bytes as it says. */
static void print_fields(uint32_t length)
{
    for (uint32_t at = 0, next; at < length; at = next) {
        next = at + 3 + 256 * file[at + 1] + file[at + 2];
        for (uint32_t k = at; k < next; k++)
            printf("%s%02x", k == at ? "  " : " ", file[k]);
        printf("\n");
    }
}

static void print_answer(const char *what, uint32_t length)
{
    uint8_t bit_depth = 0;
    uint8_t answer = alf_bank_read(file, length, read_back, ALF_BANK_NUMBERS, &bit_depth);
    printf("%s: fault %d: %s\n", what, answer, alf_meaning(answer));
}

/* One byte of the file is another one while it is read. */
static void print_answer_with(const char *what, uint32_t length, uint32_t at, uint8_t byte)
{
    uint8_t sound = file[at];
    file[at] = byte;
    print_answer(what, length);
    file[at] = sound;
}

int main(void)
{
    uint32_t length;
    uint8_t bit_depth;
    make_bank();
    uint8_t answer = alf_bank_write(10, bank, ALF_BANK_NUMBERS, file, sizeof file, &length);
    if (answer != ALF_ACCEPTED) {
        fprintf(stderr, "alf_bank_write: fault %d: %s\n", answer, alf_meaning(answer));
        return 1;
    }
    printf("the file, %u bytes:\n", (unsigned)length);
    print_fields(length);

    answer = alf_bank_read(file, length, read_back, ALF_BANK_NUMBERS, &bit_depth);
    if (answer != ALF_ACCEPTED || memcmp(bank, read_back, sizeof bank) != 0) {
        fprintf(stderr, "alf_bank_read: fault %d: %s\n", answer, alf_meaning(answer));
        return 1;
    }
    printf("read back: bit depth %d, the same bank\n", bit_depth);

    print_answer_with("bit depth 7", length, 3, 7);
    print_answer_with("a clip of 1025", length, 22, 1);
    print_answer("the last byte is missing", length - 1);
    print_answer_with("a tag of 9", length, 4, 9);
    print_answer_with("luma filter 25", length, 8, 25);
    print_answer("nothing in it", 0);
    return 0;
}
