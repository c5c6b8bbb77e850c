/* Arbitrary arguments for the C interface: never a crash, never a write on rejection, never a number that no fault has.
 *
 * The bytes that a fuzzer gives become a call: a picture that is accepted, made from a few of them, then changes at places and to numbers
 * and lengths that the others choose. So both the ways to reject and the filters behind them are reached. Banks and bank files are made in
 * the same way. */
#include "../../include/alf.h"
#include "bank_files.h"
#include "buffers.h"
#include "bytes.h"

#include <stdio.h>
#include <stdlib.h>
#include <string.h>

enum operation { CLASSES, LUMA_FILTER, CHROMA_FILTER, CROSS_COMPONENT, ISOLATED_TEST, CLIP_CAUSES, BANK_WRITE, BANK_READ, OPERATIONS };

static const char *const names[OPERATIONS] = {
    "classes", "luma", "chroma", "cross-component", "isolated", "clip causes", "bank write", "bank read",
};

/* How many answers there are: accepted, and the faults. */
#define ANSWERS (ALF_FIELD_OUT_OF_PLACE + 1)

/* How many chroma formats there are: luma alone, 4:2:0, 4:2:2 and 4:4:4. */
#define FORMATS 4

/* How many calls of each operation had each answer; and for libFuzzer, which looks here for what is new, by chroma format, or by how the
 * bank or the file was made. */
#define KINDS (FORMATS > BANK_FILE_STYLES ? FORMATS : BANK_FILE_STYLES)
static unsigned long answers[OPERATIONS][ANSWERS];
__attribute__((section("__libfuzzer_extra_counters"))) static uint8_t reached[OPERATIONS * ANSWERS * KINDS];

static struct buffer buffers[BUFFERS];

/* The numbers and switches of a call. */
struct scalars {
    uint32_t width, height;
    uint8_t ctb_log2, bit_depth, chroma_format;
    uint32_t slice_count;
    bool across_tiles, across_slices;
    uint8_t component;
    uint32_t x, y;
};

static void print_answers(void)
{
    fprintf(stderr, "calls by answer %8d", 0);
    for (int n = 1; n < ANSWERS; n++)
        fprintf(stderr, "%8d", n);
    for (int op = 0; op < OPERATIONS; op++) {
        fprintf(stderr, "\n%-15s ", names[op]);
        for (int n = 0; n < ANSWERS; n++)
            fprintf(stderr, "%8lu", answers[op][n]);
    }
    fprintf(stderr, "\n");
}

/* Every entry below n. */
static void fill(int name, size_t length, uint32_t *state, uint32_t n)
{
    set_length(&buffers[name], length);
    for (size_t k = 0; k < buffers[name].length; k++)
        put(&buffers[name], k, random_below(state, n));
}

/* Every entry from -128 to 127, or for a clip 0 to 2^bit_depth. */
static void fill_bank(uint32_t *state, uint8_t bit_depth)
{
    set_length(&buffers[BANK], ALF_BANK_NUMBERS);
    for (size_t k = 0; k < buffers[BANK].length; k++)
        put(&buffers[BANK], k, is_clip(k) ? random_below(state, (1u << bit_depth) + 1) : random_below(state, 256) - 128);
    set_length(&buffers[FIXED_FILTERS], 768);
    for (size_t k = 0; k < 768; k++)
        put(&buffers[FIXED_FILTERS], k, random_below(state, 256) - 128);
}

/* Eight numbers a CTB, within what each may be; no APS set is used, so no slice needs one. */
static void fill_ctb_params(uint32_t *state, size_t ctbs, bool chroma)
{
    static const uint8_t below[8] = {2, 2, 2, 16, 8, 8, 5, 5};
    set_length(&buffers[CTB_PARAMS], 8 * ctbs);
    for (size_t k = 0; k < buffers[CTB_PARAMS].length; k++)
        put(&buffers[CTB_PARAMS], k, chroma || k % 8 == 0 || k % 8 == 3 ? random_below(state, below[k % 8]) : 0);
}

/* Maps of stripes, rows or columns of CTBs: every corner of such a map is allowed. */
static void fill_map(int name, size_t columns, size_t rows, uint32_t numbers, bool by_row)
{
    set_length(&buffers[name], columns * rows);
    for (size_t k = 0; k < columns * rows; k++)
        put(&buffers[name], k, (uint32_t)(by_row ? k / columns : k % columns) % numbers);
}

/* How many samples a chroma plane has; with luma alone there is none. */
static size_t chroma_length(const struct scalars *s)
{
    /* how many luma samples a chroma sample stands for, SubWidthC * SubHeightC */
    static const size_t luma_samples[FORMATS] = {0, 4, 2, 1};
    return s->chroma_format == 0 ? 0 : (size_t)s->width * s->height / luma_samples[s->chroma_format];
}

/* A picture that is accepted, from a few bytes. */
static struct scalars make_picture(struct bytes *from)
{
    uint32_t style = take(from), state = take4(from) | 1;
    struct scalars s = {
        8 + 8 * (take(from) % 16), 8 + 8 * (take(from) % 16), (uint8_t)(5 + take(from) % 3), (uint8_t)(8 + take(from) % 5),
        (uint8_t)(take(from) % FORMATS), 1 + take(from) % 4, style & 1, style & 2, (style >> 2) & 1, 0, 0,
    };
    s.x = take(from) % s.width;
    s.y = take(from) % s.height;
    size_t ctb = (size_t)1 << s.ctb_log2;
    size_t columns = (s.width + ctb - 1) / ctb, rows = (s.height + ctb - 1) / ctb;
    set_length(&buffers[VIRTUAL_COLUMNS], s.width > 8 ? (style >> 3) & 1 : 0);
    set_length(&buffers[VIRTUAL_ROWS], s.height > 8 ? (style >> 4) & 1 : 0);
    if (buffers[VIRTUAL_COLUMNS].length)
        put(&buffers[VIRTUAL_COLUMNS], 0, 8 + 8 * (take(from) % (s.width / 8 - 1)));
    if (buffers[VIRTUAL_ROWS].length)
        put(&buffers[VIRTUAL_ROWS], 0, 8 + 8 * (take(from) % (s.height / 8 - 1)));
    fill_map(TILE_COLUMNS, columns, 1, 64, false);
    fill_map(TILE_ROWS, rows, 1, 64, false);
    fill_map(SLICE_MAP, columns, rows, s.slice_count, style & 32);
    fill_map(SUBPIC_MAP, columns, rows, 64, style & 64);
    fill(SUBPIC_ACROSS, 64, &state, 2);
    fill(SLICE_PARAMS, 11 * s.slice_count, &state, 8);
    fill_bank(&state, s.bit_depth);
    fill_ctb_params(&state, columns * rows, s.chroma_format != 0);
    fill(CTB_LIST, take(from) % 20, &state, (uint32_t)(columns * rows));
    fill(FIXED_MAP, 400, &state, 64);
    fill(LUMA, s.width * s.height, &state, 1u << s.bit_depth);
    fill(CHROMA, chroma_length(&s), &state, 1u << s.bit_depth);
    fill(REGION, s.width * s.height / 64, &state, 2);
    fill(CLASS_MAP, s.width * s.height / 16, &state, 256);
    fill(LUMA_OUTPUT, s.width * s.height, &state, 65536);
    fill(CHROMA_OUTPUT, chroma_length(&s), &state, 65536);
    fill(ISOLATED, 1, &state, 256);
    fill(CAUSES, 4, &state, 256);
    return s;
}

/* Changes one number or switch, one length or one entry. */
static void change(struct scalars *s, struct bytes *from)
{
    enum { NUMBERS = 11 };
    uint32_t what = take(from) % (NUMBERS + 2 * PICTURE_BUFFERS);
    switch (what) {
    case 0: s->width = take4(from); return;
    case 1: s->height = take4(from); return;
    case 2: s->ctb_log2 = (uint8_t)take(from); return;
    case 3: s->bit_depth = (uint8_t)take(from); return;
    case 4: s->chroma_format = (uint8_t)take(from); return;
    case 5: s->slice_count = take4(from); return;
    case 6: s->across_tiles = take(from) & 1; return;
    case 7: s->across_slices = take(from) & 1; return;
    case 8: s->component = (uint8_t)take(from); return;
    case 9: s->x = take4(from); return;
    case 10: s->y = take4(from); return;
    }
    int name = (int)(what - NUMBERS) / 2;
    struct buffer *b = &buffers[name];
    if ((what - NUMBERS) % 2 == 0) {
        /* the isolation test writes one byte, whatever length is asked for */
        if (name != ISOLATED)
            set_length(b, take4(from) % (MOST_ENTRIES + 1));
    } else if (b->length > 0) {
        size_t at = take4(from) % b->length;
        put(b, at, take4(from));
    }
}

#define SLICE(name) first_of(&buffers[name]), buffers[name].length
#define PICTURE                                                                                                                              \
    s->width, s->height, s->ctb_log2, s->bit_depth, s->chroma_format, s->slice_count, s->across_tiles, s->across_slices,                     \
        SLICE(VIRTUAL_COLUMNS), SLICE(VIRTUAL_ROWS), SLICE(TILE_COLUMNS), SLICE(TILE_ROWS), SLICE(SLICE_MAP), SLICE(SUBPIC_MAP),             \
        SLICE(SUBPIC_ACROSS)
#define PARAMETERS SLICE(SLICE_PARAMS), SLICE(BANK), SLICE(CTB_PARAMS), SLICE(CTB_LIST)

static uint8_t call(enum operation op, const struct scalars *s)
{
    switch (op) {
    case CLASSES:
        return alf_classes(PICTURE, SLICE(LUMA), SLICE(CLASS_MAP));
    case LUMA_FILTER:
        return alf_luma(PICTURE, PARAMETERS, SLICE(FIXED_FILTERS), SLICE(FIXED_MAP), SLICE(LUMA), SLICE(LUMA_OUTPUT));
    case CHROMA_FILTER:
        return alf_chroma(PICTURE, s->component, PARAMETERS, SLICE(CHROMA), SLICE(CHROMA_OUTPUT));
    case CROSS_COMPONENT:
        return alf_cross_component(PICTURE, s->component, PARAMETERS, SLICE(LUMA), SLICE(CHROMA), SLICE(CHROMA_OUTPUT));
    case ISOLATED_TEST:
        return alf_isolated(PICTURE, SLICE(REGION), first_of(&buffers[ISOLATED]));
    case CLIP_CAUSES:
        return alf_clip_causes(PICTURE, s->x, s->y, SLICE(CAUSES));
    case BANK_WRITE:
        return alf_bank_write(s->bit_depth, SLICE(BANK), SLICE(BANK_FILE), first_of(&buffers[FILE_LENGTH]));
    default:
        return alf_bank_read(SLICE(BANK_FILE), SLICE(READ_BANK), first_of(&buffers[READ_DEPTH]));
    }
}

static void fail(const char *what, enum operation op, unsigned number)
{
    fprintf(stderr, "fuzz: %s: %s (answer %u)\n", names[op], what, number);
    abort();
}

/* The buffer that an operation writes where it accepts; and the number beside it, where there is one. */
static int output_of(enum operation op)
{
    static const int outputs[OPERATIONS] = {CLASS_MAP, LUMA_OUTPUT, CHROMA_OUTPUT, CHROMA_OUTPUT, ISOLATED, CAUSES, BANK_FILE, READ_BANK};
    return outputs[op];
}

static bool is_output(enum operation op, int name)
{
    return name == output_of(op) || (op == BANK_WRITE && name == FILE_LENGTH) || (op == BANK_READ && name == READ_DEPTH);
}

/* Whether an operation can give n for entry k of its output. */
static bool can_be(enum operation op, const struct scalars *s, size_t k, unsigned n)
{
    switch (op) {
    case CLASSES:
        return n % 32 < 25 && n / 32 < 4;
    case ISOLATED_TEST:
        return n < 2;
    case CLIP_CAUSES:
        /* left and right, the last two, have no line-buffer boundary */
        return n <= ALF_CLIP_SUBPICTURE && (k < 2 || n != ALF_CLIP_LINE_BUFFER_BOUNDARY);
    default:
        return n < 1u << s->bit_depth;
    }
}

/* What holds of an accepted output whatever the input was: each entry is one that the operation can give. */
static void check_entries(enum operation op, const struct scalars *s)
{
    const struct buffer *b = &buffers[output_of(op)];
    for (size_t k = 0; k < b->length; k++) {
        const uint8_t *at = (const uint8_t *)first_of(b) + k * b->width;
        unsigned n = b->width == 2 ? at[0] | at[1] << 8 : at[0];
        if (!can_be(op, s, k, n))
            fail("an output entry out of range", op, 0);
    }
}

/* What holds of an accepted call whatever the input was. */
static void check_accepted(enum operation op, const struct scalars *s)
{
    const char *wrong = NULL;
    if (op == BANK_WRITE)
        wrong = wrong_after_write(buffers, s->bit_depth);
    else if (op == BANK_READ)
        wrong = wrong_after_read(buffers);
    else
        check_entries(op, s);
    if (wrong != NULL)
        fail(wrong, op, 0);
}

/* What the bytes make of the operation's arguments. Sets which kind of input it is. */
static struct scalars make_call(enum operation op, struct bytes *from, unsigned *kind)
{
    struct scalars s = {0};
    if (op == BANK_WRITE) {
        *kind = make_bank(buffers, from, &s.bit_depth);
    } else if (op == BANK_READ) {
        *kind = make_file(buffers, from);
    } else {
        s = make_picture(from);
        while (from->next < from->end)
            change(&s, from);
        *kind = s.chroma_format % FORMATS;
    }
    return s;
}

int LLVMFuzzerTestOneInput(const uint8_t *data, size_t size)
{
    struct bytes from = {data, data + size};
    unsigned kind;
    if (buffers[0].end == NULL) {
        make_buffers(buffers);
        atexit(print_answers);
    }
    enum operation op = take(&from) % OPERATIONS;
    struct scalars s = make_call(op, &from, &kind);
    for (int name = 0; name < BUFFERS; name++)
        remember(&buffers[name]);
    uint8_t number = call(op, &s);
    if (number >= ANSWERS)
        fail("a number that no fault has", op, number);
    for (int name = 0; name < BUFFERS; name++)
        if ((number != 0 || !is_output(op, name)) && !unchanged(&buffers[name]))
            fail(number ? "something was written on rejection" : "an input was written", op, number);
    if (number == 0)
        check_accepted(op, &s);
    answers[op][number]++;
    reached[(op * ANSWERS + number) * KINDS + kind] = 1;
    return 0;
}
