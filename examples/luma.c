/* Filters a luma plane of 64 by 64 samples, and shows what a wrong input is answered with. */
#include "alf.h"

#include <stdio.h>

enum { SIZE = 64 };

/* One CTB of 64 in one tile, slice and subpicture; no virtual boundaries. */
static const uint8_t zero[1] = {0};
static uint8_t subpic_across[64];

/* Every fixed filter weighs the samples above and below (coefficient 6) and left and right (11), 16 of 128 each. */
static int16_t bank[8 * 752], fixed_filters[64 * 12];
static uint8_t fixed_map[16 * 25];
static const uint8_t slice_params[11] = {0};
static const uint8_t ctb_params[8] = {1, 0, 0, 0, 0, 0, 0, 0};
static const uint32_t ctb_list[1] = {0};

static uint16_t luma[SIZE * SIZE], output[SIZE * SIZE];

static uint8_t filter(uint32_t width)
{
    return alf_luma(
        width, SIZE, 6, 10, 0, 1, true, true,
        NULL, 0, NULL, 0, zero, 1, zero, 1, zero, 1, zero, 1, subpic_across, 64,
        slice_params, 11, bank, 8 * 752, ctb_params, 8, ctb_list, 1,
        fixed_filters, 64 * 12, fixed_map, 16 * 25,
        luma, SIZE * SIZE, output, SIZE * SIZE);
}

static void print_row(const char *name, const uint16_t *row)
{
    printf("%-7s", name);
    for (int x = 0; x < 12; x++)
        printf("%5d", row[x]);
    printf("\n");
}

int main(void)
{
    for (int k = 0; k < 64; k++)
        fixed_filters[12 * k + 6] = fixed_filters[12 * k + 11] = 16;
    for (int k = 0; k < SIZE * SIZE; k++)
        luma[k] = k % SIZE % 4 < 2 ? 400 : 600;

    uint8_t answer = filter(SIZE);
    if (answer != ALF_ACCEPTED) {
        fprintf(stderr, "alf_luma: fault %d: %s\n", answer, alf_meaning(answer));
        return 1;
    }
    print_row("before", luma);
    print_row("after", output);

    answer = filter(SIZE + 4);
    printf("width 68: fault %d: %s\n", answer, alf_meaning(answer));
    return 0;
}
