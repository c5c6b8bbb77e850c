/*
 * The adaptive loop filter in plain C, in the shape that decoders give it, to measure the proved library against.
 *
 * - Planes were padded beforehand: each has a margin of at least three samples that repeats its rim, so nothing is clamped at the picture's
 *   sides. There are no switches and no virtual boundaries.
 * - A CTB at a time. Its classes first, in the shape of the reference decoder: second differences once for each cell of 2 by 2 samples,
 *   summed along a row of cells for each block, then over rows of cells.
 * - Then blocks of 4 by 4. For luma the block's class picks coefficients and clips, its transpose their order, and each tap runs over the
 *   four samples of a row. Chroma and cross-component have one filter for a CTB, so they can also go by whole rows of it: BLOCK says which.
 * - The chroma formats share one code. Cross-component, whose inner loop depends on the format, is inlined once for each. - Arithmetic
 * is in int, as decoders have it. With differences and clips in 16 bits, as the library has them, gcc 12 at -O3 made whole rows
 *   of chroma about three times and of cross-component one and a half times as quick as here; luma got no quicker.
 *
 * The taps of a block are spelled one after the other, each over four samples, because gcc makes vector code of that where the machine has
 * 32-bit minima (-march=native); with all taps of one sample after the other, luma stays scalar there too.
 */
#include <stdbool.h>
#include <stddef.h>
#include <stdint.h>
#include <stdlib.h>
#include <string.h>

/* The file is compiled more than once, with other options. VARIANT tells the builds apart. */
#define JOIN(name, variant) name##_##variant
#define WITH_VARIANT(name, variant) JOIN(name, variant)
#define NAME(name) WITH_VARIANT(baseline_##name, VARIANT)

/* The side of a block of chroma and cross-component: 4, or 0 for whole rows of a CTB. */
#ifndef BLOCK
#define BLOCK 4
#endif
#define LINES (BLOCK ? BLOCK : 1)

enum { MAX_BLOCKS = 128 / 4, MAX_CELLS = 128 / 2 + 2, APS = 752, CLASSES = 25 };

/* What the library is given too, in the same layout. Width and height are those of luma; sub_width and sub_height are how many luma samples
 * a chroma sample spans, across and down. */
struct input {
    int32_t width, height, ctb_log2, bit_depth, sub_width, sub_height;
    const uint8_t *slice_map, *slice_params, *ctb_params, *fixed_map;
    const int16_t *bank, *fixed_filters;
};

/* A padded plane: its first sample, and how far apart rows are. */
struct plane {
    const uint16_t *first;
    ptrdiff_t stride;
};

/* A CTB's part of a plane: where it begins, how much of it lies in the picture, how many rows a whole one has, and whether the line-buffer
 * rule is on. */
struct area {
    int x, y, width, height, rows;
    bool line;
};

/* ---- CTBs */

static inline int smaller(int a, int b) { return a < b ? a : b; }

static inline int clamp(int low, int high, int value) { return value < low ? low : value > high ? high : value; }

static int ctb_columns(const struct input *in) { return (in->width + (1 << in->ctb_log2) - 1) >> in->ctb_log2; }

static int ctb_count(const struct input *in) { return ctb_columns(in) * ((in->height + (1 << in->ctb_log2) - 1) >> in->ctb_log2); }

/* In samples of a plane of which each spans so many luma samples, across and down. */
static struct area area_of(const struct input *in, int address, int across, int down)
{
    int columns = (1 << in->ctb_log2) / across, rows = (1 << in->ctb_log2) / down;
    int x = address % ctb_columns(in) * columns, y = address / ctb_columns(in) * rows;
    int height = in->height / down - y;
    return (struct area){x, y, smaller(columns, in->width / across - x), smaller(rows, height), rows, height >= rows};
}

static struct area luma_area(const struct input *in, int address) { return area_of(in, address, 1, 1); }

static struct area chroma_area(const struct input *in, int address) { return area_of(in, address, in->sub_width, in->sub_height); }

static const uint8_t *slice_of(const struct input *in, int address) { return in->slice_params + 11 * in->slice_map[address]; }

static const uint16_t *sample_at(const struct plane *plane, int x, int y) { return plane->first + y * plane->stride + x; }

/* A CTB that is not filtered keeps its samples. */
static void copy_area(const struct area *a, const struct plane *plane, uint16_t *restrict output, int width)
{
    for (int y = a->y; y < a->y + a->height; y++)
        memcpy(output + (ptrdiff_t)y * width + a->x, sample_at(plane, a->x, y), a->width * sizeof *output);
}

/* ---- classes */

/* By direction: vertical, horizontal, and the two diagonals. */
enum { V, H, D0, D1, DIRECTIONS };

/* Of one CTB: the sums along a row of cells over the four cells of each block's window. Row 0 lies at the sample rows -2 and -1. */
struct sums {
    int of[DIRECTIONS][MAX_CELLS][MAX_BLOCKS];
};

/* The second differences of a row of cells, two in each: at its upper left and its lower right sample. b and c are the cells' two rows, a
 * and d those above and below. Column 0 of the rows is the first cell's. */
static void cell_row(const uint16_t *restrict a, const uint16_t *restrict b, const uint16_t *restrict c, const uint16_t *restrict d,
                     int cells, int of[restrict DIRECTIONS][MAX_CELLS])
{
    for (int k = 0; k < cells; k++) {
        int x = 2 * k, upper = 2 * b[x], lower = 2 * c[x + 1];
        of[V][k] = abs(upper - a[x] - c[x]) + abs(lower - b[x + 1] - d[x + 1]);
        of[H][k] = abs(upper - b[x - 1] - b[x + 1]) + abs(lower - c[x] - c[x + 2]);
        of[D0][k] = abs(upper - a[x - 1] - c[x + 1]) + abs(lower - b[x] - d[x + 2]);
        of[D1][k] = abs(upper - a[x + 1] - c[x - 1]) + abs(lower - b[x + 2] - d[x]);
    }
}

/* Rows next to the line-buffer boundary, four rows above the CTB's bottom, do not see past it. */
static void sum_cells(const struct area *a, const struct plane *luma, struct sums *restrict sums)
{
    for (int r = 0; r < a->height / 2 + 2; r++) {
        int y = 2 * r - 2;
        const uint16_t *row = sample_at(luma, a->x - 2, a->y + y);
        const uint16_t *above = a->line && y == a->rows - 4 ? row : row - luma->stride;
        const uint16_t *below = a->line && y == a->rows - 6 ? row + luma->stride : row + 2 * luma->stride;
        int cells[DIRECTIONS][MAX_CELLS];
        cell_row(above, row, row + luma->stride, below, a->width / 2 + 2, cells);
        for (int d = 0; d < DIRECTIONS; d++)
            for (int b = 0; b < a->width / 4; b++)
                sums->of[d][r][b] = cells[d][2 * b] + cells[d][2 * b + 1] + cells[d][2 * b + 2] + cells[d][2 * b + 3];
    }
}

/* Class and transpose from the four sums; the products need 64 bits at 12 bits a sample. */
static uint8_t class_of(const int sum[DIRECTIONS], int factor, int bit_depth)
{
    static const uint8_t activities[16] = {0, 1, 2, 2, 2, 2, 2, 3, 3, 3, 3, 3, 3, 3, 3, 4};
    static const uint8_t transposes[8] = {0, 1, 0, 2, 2, 3, 1, 3};
    bool vertical = sum[V] > sum[H], falling = sum[D0] > sum[D1];
    int hv1 = vertical ? sum[V] : sum[H], hv0 = vertical ? sum[H] : sum[V], hv = vertical ? 1 : 3;
    int d1 = falling ? sum[D0] : sum[D1], d0 = falling ? sum[D1] : sum[D0], d = falling ? 0 : 2;
    bool diagonal = (int64_t)d1 * hv0 > (int64_t)hv1 * d0;
    int large = diagonal ? d1 : hv1, small = diagonal ? d0 : hv0;
    int first = diagonal ? d : hv, second = diagonal ? hv : d;
    int strength = 2 * large > 9 * small ? 2 : large > 2 * small ? 1 : 0;
    int class = activities[smaller(15, ((sum[V] + sum[H]) * factor) >> (bit_depth - 1))];
    if (strength)
        class += ((first & 1) * 2 + strength) * 5;
    return class + 32 * transposes[2 * first + (second >> 1)];
}

/* The classes of a CTB's blocks, row by row. The rows of blocks beside the line-buffer boundary have three rows of cells, others four. */
static void classify(const struct area *a, const struct plane *luma, int bit_depth, uint8_t *restrict classes, ptrdiff_t stride)
{
    struct sums sums;
    sum_cells(a, luma, &sums);
    for (int k = 0; k < a->height / 4; k++) {
        bool over = a->line && 4 * k == a->rows - 8, under = a->line && 4 * k == a->rows - 4;
        int first = 2 * k + under, last = 2 * k + (over ? 2 : 3);
        for (int b = 0; b < a->width / 4; b++) {
            int sum[DIRECTIONS] = {0};
            for (int r = first; r <= last; r++)
                for (int d = 0; d < DIRECTIONS; d++)
                    sum[d] += sums.of[d][r][b];
            classes[k * stride + b] = class_of(sum, over || under ? 3 : 2, bit_depth);
        }
    }
}

void NAME(classes)(const struct input *in, const struct plane *luma, uint8_t *restrict class_map)
{
    ptrdiff_t stride = in->width / 4;
    for (int address = 0; address < ctb_count(in); address++) {
        struct area a = luma_area(in, address);
        classify(&a, luma, in->bit_depth, class_map + a.y / 4 * stride + a.x / 4, stride);
    }
}

/* ---- luma */

/* Of one row: how far away, in samples, the rows lie that the taps read, and the shift. */
struct rows {
    ptrdiff_t one, two, three;
    int shift;
};

/* By the row's distance from the CTB's bottom: near the line-buffer boundary the taps stay on the row's side of it. */
static struct rows luma_rows(const struct area *a, int y, ptrdiff_t stride)
{
    switch (a->line ? a->rows - y : 0) {
    case 5:
    case 4:
        return (struct rows){0, 0, 0, 10};
    case 6:
    case 3:
        return (struct rows){stride, stride, stride, 7};
    case 7:
    case 2:
        return (struct rows){stride, 2 * stride, 2 * stride, 7};
    default:
        return (struct rows){stride, 2 * stride, 3 * stride, 7};
    }
}

/* The filters of a CTB's luma set, by class. */
struct filters {
    const int16_t *coeff[CLASSES], *clip[CLASSES];
};

static void luma_filters(const struct input *in, int address, const int16_t *no_clip, struct filters *filters)
{
    int set = in->ctb_params[8 * address + 3];
    for (int k = 0; k < CLASSES; k++) {
        if (set < 16) {
            filters->coeff[k] = in->fixed_filters + 12 * in->fixed_map[CLASSES * set + k];
            filters->clip[k] = no_clip;
        } else {
            filters->coeff[k] = in->bank + APS * slice_of(in, address)[1 + set - 16] + 24 * k;
            filters->clip[k] = filters->coeff[k] + 12;
        }
    }
}

static inline int clipped(int clip, int change) { return clamp(-clip, clip, change); }

/* Adds a tap to the sums of four samples: the samples that lie the same way before and after each. */
static inline void add_tap(int sum[4], const uint16_t *restrict p, ptrdiff_t away, int coeff, int clip)
{
    for (int i = 0; i < 4; i++)
        sum[i] += coeff * (clipped(clip, p[i + away] - p[i]) + clipped(clip, p[i - away] - p[i]));
}

/* Four samples of a row. */
static inline void luma_row(const uint16_t *restrict p, const struct rows *at, const int16_t *restrict f, const int16_t *restrict c,
                            int max, uint16_t *restrict out)
{
    int sum[4] = {64, 64, 64, 64};
    add_tap(sum, p, at->three, f[0], c[0]);
    add_tap(sum, p, at->two + 1, f[1], c[1]);
    add_tap(sum, p, at->two, f[2], c[2]);
    add_tap(sum, p, at->two - 1, f[3], c[3]);
    add_tap(sum, p, at->one + 2, f[4], c[4]);
    add_tap(sum, p, at->one + 1, f[5], c[5]);
    add_tap(sum, p, at->one, f[6], c[6]);
    add_tap(sum, p, at->one - 1, f[7], c[7]);
    add_tap(sum, p, at->one - 2, f[8], c[8]);
    add_tap(sum, p, 3, f[9], c[9]);
    add_tap(sum, p, 2, f[10], c[10]);
    add_tap(sum, p, 1, f[11], c[11]);
    for (int i = 0; i < 4; i++)
        out[i] = clamp(0, max, p[i] + (sum[i] >> at->shift));
}

/* One block; p and out are at its first sample. */
static void luma_block(const uint16_t *restrict p, ptrdiff_t stride, const struct rows at[4], const struct filters *filters, uint8_t class,
                       int max, uint16_t *restrict out, ptrdiff_t out_stride)
{
    static const uint8_t orders[4][12] = {{0, 1, 2, 3, 4, 5, 6, 7, 8, 9, 10, 11},
                                          {9, 4, 10, 8, 1, 5, 11, 7, 3, 0, 2, 6},
                                          {0, 3, 2, 1, 8, 7, 6, 5, 4, 9, 10, 11},
                                          {9, 8, 10, 4, 3, 7, 11, 5, 1, 0, 2, 6}};
    const uint8_t *order = orders[class >> 5];
    const int16_t *coeff = filters->coeff[class & 31], *clip = filters->clip[class & 31];
    int16_t f[12], c[12];
    for (int j = 0; j < 12; j++) {
        f[j] = coeff[order[j]];
        c[j] = clip[order[j]];
    }
    for (int r = 0; r < 4; r++)
        luma_row(p + r * stride, &at[r], f, c, max, out + r * out_stride);
}

static void luma_ctb(const struct input *in, const struct area *a, const struct filters *filters, const struct plane *luma,
                     uint16_t *restrict output)
{
    uint8_t classes[MAX_BLOCKS * MAX_BLOCKS];
    classify(a, luma, in->bit_depth, classes, MAX_BLOCKS);
    for (int y = 0; y < a->height; y += 4) {
        struct rows at[4];
        for (int r = 0; r < 4; r++)
            at[r] = luma_rows(a, y + r, luma->stride);
        const uint16_t *p = sample_at(luma, a->x, a->y + y);
        uint16_t *out = output + (ptrdiff_t)(a->y + y) * in->width + a->x;
        for (int x = 0; x < a->width; x += 4)
            luma_block(p + x, luma->stride, at, filters, classes[y / 4 * MAX_BLOCKS + x / 4], (1 << in->bit_depth) - 1, out + x, in->width);
    }
}

void NAME(luma)(const struct input *in, const struct plane *luma, uint16_t *restrict output)
{
    int16_t no_clip[12];
    for (int j = 0; j < 12; j++)
        no_clip[j] = 1 << in->bit_depth;
    for (int address = 0; address < ctb_count(in); address++) {
        struct area a = luma_area(in, address);
        struct filters filters;
        if (in->ctb_params[8 * address]) {
            luma_filters(in, address, no_clip, &filters);
            luma_ctb(in, &a, &filters, luma, output);
        } else {
            copy_area(&a, luma, output, in->width);
        }
    }
}

/* ---- chroma */

static struct rows chroma_rows(const struct area *a, int y, ptrdiff_t stride)
{
    switch (a->line ? a->rows - y : 0) {
    case 3:
    case 2:
        return (struct rows){0, 0, 0, 10};
    case 4:
    case 1:
        return (struct rows){stride, stride, 0, 7};
    default:
        return (struct rows){stride, 2 * stride, 0, 7};
    }
}

static inline int tap(const uint16_t *p, ptrdiff_t away, int coeff, int clip)
{
    return coeff * (clipped(clip, p[away] - p[0]) + clipped(clip, p[-away] - p[0]));
}

/* A row of a CTB; f has six coefficients and six clips. */
static inline void chroma_row(const uint16_t *restrict p, int count, struct rows at, const int16_t *restrict f, int max, uint16_t *restrict out)
{
    int f0 = f[0], f1 = f[1], f2 = f[2], f3 = f[3], f4 = f[4], f5 = f[5];
    int c0 = f[6], c1 = f[7], c2 = f[8], c3 = f[9], c4 = f[10], c5 = f[11];
    for (int x = 0; x < count; x++) {
        int sum = tap(p + x, at.two, f0, c0) + tap(p + x, at.one + 1, f1, c1) + tap(p + x, at.one, f2, c2) +
                  tap(p + x, at.one - 1, f3, c3) + tap(p + x, 2, f4, c4) + tap(p + x, 1, f5, c5);
        out[x] = clamp(0, max, p[x] + ((sum + 64) >> at.shift));
    }
}

/* Four samples of a block's row, tap by tap as in luma. */
static inline void chroma_four(const uint16_t *restrict p, const struct rows *at, const int16_t *restrict f, int max, uint16_t *restrict out)
{
    int sum[4] = {64, 64, 64, 64};
    add_tap(sum, p, at->two, f[0], f[6]);
    add_tap(sum, p, at->one + 1, f[1], f[7]);
    add_tap(sum, p, at->one, f[2], f[8]);
    add_tap(sum, p, at->one - 1, f[3], f[9]);
    add_tap(sum, p, 2, f[4], f[10]);
    add_tap(sum, p, 1, f[5], f[11]);
    for (int i = 0; i < 4; i++)
        out[i] = clamp(0, max, p[i] + (sum[i] >> at->shift));
}

/* A CTB, block by block; blocks fit, since its sides are multiples of 4 also where the picture cuts it. Not inlined, so that what finds the
 * CTB takes no registers from the loops. */
static __attribute__((noinline)) void chroma_ctb(const struct area *a, const struct plane *chroma, const int16_t *f, int max,
                                                 uint16_t *restrict output, int width)
{
    int count = BLOCK ? BLOCK : a->width;
    for (int y = 0; y < a->height; y += LINES) {
        struct rows at[LINES];
        for (int r = 0; r < LINES; r++)
            at[r] = chroma_rows(a, y + r, chroma->stride);
        const uint16_t *p = sample_at(chroma, a->x, a->y + y);
        uint16_t *out = output + (ptrdiff_t)(a->y + y) * width + a->x;
        for (int x = 0; x < a->width; x += count)
            for (int r = 0; r < LINES; r++)
                if (BLOCK)
                    chroma_four(p + r * chroma->stride + x, &at[r], f, max, out + r * width + x);
                else
                    chroma_row(p, count, at[r], f, max, out);
    }
}

void NAME(chroma)(const struct input *in, int32_t component, const struct plane *chroma, uint16_t *restrict output)
{
    int width = in->width / in->sub_width, max = (1 << in->bit_depth) - 1;
    for (int address = 0; address < ctb_count(in); address++) {
        struct area a = chroma_area(in, address);
        const uint8_t *params = in->ctb_params + 8 * address;
        if (params[1 + component])
            chroma_ctb(&a, chroma, in->bank + APS * slice_of(in, address)[8] + 600 + 12 * params[4 + component], max, output, width);
        else
            copy_area(&a, chroma, output, width);
    }
}

/* ---- cross-component */

/* Inlined with constants for the ratio (across and down: luma samples a chroma sample), so that each format has loops of its own. */
#define FOR_RATIO static inline __attribute__((always_inline))

/* y is a chroma row; the luma row at it decides. */
static struct rows cross_rows(const struct area *a, int y, int down, ptrdiff_t stride)
{
    switch (a->line ? down * (a->rows - y) : 0) {
    case 5:
    case 4:
        return (struct rows){0, 0, 0, 7};
    case 6:
    case 3:
        return (struct rows){stride, stride, 0, 7};
    default:
        return (struct rows){stride, 2 * stride, 0, 7};
    }
}

/* A row of a CTB's chroma, q, from luma, p. */
FOR_RATIO void cross_row(const uint16_t *restrict p, const uint16_t *restrict q, int count, int across, struct rows at,
                         const int16_t *restrict f, int bit_depth, uint16_t *restrict out)
{
    const uint16_t *restrict above = p - at.one, *restrict below = p + at.one, *restrict second = p + at.two;
    int f0 = f[0], f1 = f[1], f2 = f[2], f3 = f[3], f4 = f[4], f5 = f[5], f6 = f[6];
    int half = 1 << (bit_depth - 1), max = (1 << bit_depth) - 1;
    for (int k = 0; k < count; k++) {
        int x = across * k, m = p[x];
        int sum = f0 * (above[x] - m) + f1 * (p[x - 1] - m) + f2 * (p[x + 1] - m) + f3 * (below[x - 1] - m) + f4 * (below[x] - m) +
                  f5 * (below[x + 1] - m) + f6 * (second[x] - m);
        out[k] = clamp(0, max, q[k] + clamp(-half, half - 1, (sum + 64) >> 7));
    }
}

/* Adds a tap to the sums of four samples: luma at `away` from each sample's own. */
FOR_RATIO void add_cross_tap(int sum[4], const uint16_t *restrict p, int across, ptrdiff_t away, int coeff)
{
    for (int i = 0; i < 4; i++)
        sum[i] += coeff * (p[across * i + away] - p[across * i]);
}

/* Four samples of a block's row. */
FOR_RATIO void cross_four(const uint16_t *restrict p, const uint16_t *restrict q, int across, const struct rows *at,
                          const int16_t *restrict f, int bit_depth, uint16_t *restrict out)
{
    int half = 1 << (bit_depth - 1), max = (1 << bit_depth) - 1;
    int sum[4] = {64, 64, 64, 64};
    add_cross_tap(sum, p, across, -at->one, f[0]);
    add_cross_tap(sum, p, across, -1, f[1]);
    add_cross_tap(sum, p, across, 1, f[2]);
    add_cross_tap(sum, p, across, at->one - 1, f[3]);
    add_cross_tap(sum, p, across, at->one, f[4]);
    add_cross_tap(sum, p, across, at->one + 1, f[5]);
    add_cross_tap(sum, p, across, at->two, f[6]);
    for (int i = 0; i < 4; i++)
        out[i] = clamp(0, max, q[i] + clamp(-half, half - 1, sum[i] >> 7));
}

FOR_RATIO void cross_ctb(const struct area *a, int across, int down, const struct plane *luma, const struct plane *chroma, const int16_t *f,
                         int bit_depth, uint16_t *restrict output, int width)
{
    int count = BLOCK ? BLOCK : a->width;
    for (int y = 0; y < a->height; y += LINES) {
        struct rows at[LINES];
        for (int r = 0; r < LINES; r++)
            at[r] = cross_rows(a, y + r, down, luma->stride);
        const uint16_t *p = sample_at(luma, across * a->x, down * (a->y + y)), *q = sample_at(chroma, a->x, a->y + y);
        uint16_t *out = output + (ptrdiff_t)(a->y + y) * width + a->x;
        for (int x = 0; x < a->width; x += count)
            for (int r = 0; r < LINES; r++)
                if (BLOCK)
                    cross_four(p + down * r * luma->stride + across * x, q + r * chroma->stride + x, across, &at[r], f, bit_depth,
                               out + r * width + x);
                else
                    cross_row(p, q, count, across, at[r], f, bit_depth, out);
    }
}

FOR_RATIO void cross_plane(const struct input *in, int across, int down, int component, const struct plane *luma, const struct plane *chroma,
                           uint16_t *restrict output)
{
    int width = in->width / across;
    for (int address = 0; address < ctb_count(in); address++) {
        struct area a = chroma_area(in, address);
        int index = in->ctb_params[8 * address + 6 + component];
        const int16_t *f = in->bank + APS * slice_of(in, address)[9 + component] + 696 + 28 * component + 7 * (index - 1);
        if (index)
            cross_ctb(&a, across, down, luma, chroma, f, in->bit_depth, output, width);
        else
            copy_area(&a, chroma, output, width);
    }
}

/* The chroma plane needs no margin: each sample is corrected from luma alone. */
void NAME(cross_component)(const struct input *in, int32_t component, const struct plane *luma, const struct plane *chroma,
                           uint16_t *restrict output)
{
    if (in->sub_width == 1)
        cross_plane(in, 1, 1, component, luma, chroma, output);
    else if (in->sub_height == 1)
        cross_plane(in, 2, 1, component, luma, chroma, output);
    else
        cross_plane(in, 2, 2, component, luma, chroma, output);
}
