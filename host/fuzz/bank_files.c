#include "bank_files.h"
#include "../../include/alf.h"

#include <string.h>

bool is_clip(size_t k)
{
    size_t at = k % 752;
    return at < 600 ? at % 24 >= 12 : at < 696 && (at - 600) % 12 >= 6;
}

/* The filter that number k of a bank is of: 25, 8 and 8 in an APS. */
static size_t filter_of(size_t k)
{
    size_t at = k % 752;
    return 41 * (k / 752) + (at < 600 ? at / 24 : at < 696 ? 25 + (at - 600) / 12 : 33 + (at - 696) / 7);
}

/* A bank that is accepted, in which one filter in `share` is not 0. */
static void fill_filters(struct buffer *bank, uint32_t *state, uint8_t bit_depth, uint32_t share)
{
    bool filled[8 * 41];
    for (size_t filter = 0; filter < 8 * 41; filter++)
        filled[filter] = random_below(state, share) == 0;
    set_length(bank, ALF_BANK_NUMBERS);
    for (size_t k = 0; k < ALF_BANK_NUMBERS; k++) {
        uint32_t number = is_clip(k) ? random_below(state, (1u << bit_depth) + 1) : random_below(state, 256) - 128;
        put(bank, k, filled[filter_of(k)] ? number : 0);
    }
}

static void fill_any(struct buffer *b, size_t length, uint32_t *state)
{
    set_length(b, length);
    for (size_t k = 0; k < b->length; k++)
        put(b, k, random_below(state, UINT32_MAX));
}

/* One filter in how many is not 0, by style. */
static const uint32_t shares[BANK_FILE_STYLES] = {400, 60, 10, 1};

/* A few changes at most, so that many calls are accepted, or rejected by what stands far behind. */
static uint32_t take_changes(struct bytes *from)
{
    return take(from) % 4;
}

/* Changes the bit depth, a length or a number. */
static void change_bank(struct buffer buffers[BUFFERS], struct bytes *from, uint8_t *bit_depth)
{
    struct buffer *bank = &buffers[BANK];
    uint32_t what = take(from) % 8;
    if (what == 0) {
        *bit_depth = (uint8_t)take(from);
    } else if (what == 1) {
        set_length(bank, take4(from) % (MOST_ENTRIES + 1));
    } else if (what == 2) {
        set_length(&buffers[BANK_FILE], take4(from) % (MOST_ENTRIES + 1));
    } else if (bank->length > 0) {
        size_t at = take4(from) % bank->length;
        put(bank, at, what == 3 ? take4(from) : take(from));
    }
}

unsigned make_bank(struct buffer buffers[BUFFERS], struct bytes *from, uint8_t *bit_depth)
{
    unsigned style = take(from) % BANK_FILE_STYLES;
    uint32_t state = take4(from) | 1;
    *bit_depth = (uint8_t)(8 + take(from) % 5);
    fill_filters(&buffers[BANK], &state, *bit_depth, shares[style]);
    fill_any(&buffers[BANK_FILE], ALF_BANK_FILE_BYTES + take(from) % 3, &state);
    fill_any(&buffers[FILE_LENGTH], 1, &state);
    for (uint32_t changes = take_changes(from); changes > 0; changes--)
        change_bank(buffers, from, bit_depth);
    return style;
}

/* A file while it is made. */
struct file {
    size_t length;
    uint8_t bytes[MOST_ENTRIES];
};

static void append(struct file *f, uint32_t byte)
{
    if (f->length < MOST_ENTRIES)
        f->bytes[f->length++] = (uint8_t)byte;
}

/* Where the field that begins at `at` ends; the file's end where it is cut short. */
static size_t field_end(const struct file *f, size_t at)
{
    if (f->length - at < 3)
        return f->length;
    size_t size = 3 + 256 * (size_t)f->bytes[at + 1] + f->bytes[at + 2];
    return f->length - at < size ? f->length : at + size;
}

/* Where field k begins, or the last one where there are fewer. */
static size_t field_start(const struct file *f, uint32_t k)
{
    size_t at = 0;
    while (k-- > 0 && field_end(f, at) < f->length)
        at = field_end(f, at);
    return at;
}

static void drop_field(struct file *f, size_t at)
{
    size_t end = field_end(f, at);
    memmove(f->bytes + at, f->bytes + end, f->length - end);
    f->length -= end - at;
}

/* Field `at` once more, behind the file. */
static void repeat_field(struct file *f, size_t at)
{
    for (size_t end = field_end(f, at); at < end; at++)
        append(f, f->bytes[at]);
}

/* Changes a byte or a field, cuts the file, or appends to it. */
static void change_file(struct file *f, struct bytes *from)
{
    uint32_t what = take(from) % 8;
    if (f->length == 0 || what == 0) {
        append(f, take(from));
        return;
    }
    size_t at = field_start(f, take(from));
    switch (what) {
    case 1: f->length = take4(from) % f->length; return;
    case 2: drop_field(f, at); return;
    case 3: repeat_field(f, at); return;
    case 4:
        repeat_field(f, at);
        drop_field(f, at);
        return;
    default:
        /* near the front of a field, where its tag, length and leading numbers are, or anywhere */
        at = what == 5 ? take4(from) % f->length : at + take(from) % 45;
        if (at < f->length)
            f->bytes[at] = (uint8_t)take(from);
    }
}

/* A file that the library writes of a bank that is accepted. */
static void real_file(struct file *f, struct buffer *bank, struct bytes *from, uint32_t share)
{
    uint32_t state = take4(from) | 1, length = 0;
    uint8_t bit_depth = (uint8_t)(8 + take(from) % 5);
    fill_filters(bank, &state, bit_depth, share);
    alf_bank_write(bit_depth, first_of(bank), bank->length, f->bytes, MOST_ENTRIES, &length);
    f->length = length;
}

/* The bytes as they are, behind a good bit depth or not. */
static void bytes_as_file(struct file *f, struct bytes *from, bool behind_depth)
{
    f->length = 0;
    if (behind_depth) {
        append(f, 1);
        append(f, 0);
        append(f, 1);
        append(f, 8 + take(from) % 5);
    }
    while (from->next < from->end)
        append(f, take(from));
}

unsigned make_file(struct buffer buffers[BUFFERS], struct bytes *from)
{
    static struct file f;
    unsigned style = take(from) % BANK_FILE_STYLES;
    uint32_t state = 1 + take(from);
    fill_any(&buffers[READ_BANK], ALF_BANK_NUMBERS, &state);
    fill_any(&buffers[READ_DEPTH], 1, &state);
    if (take(from) % 32 == 1)
        set_length(&buffers[READ_BANK], take4(from) % (MOST_ENTRIES + 1));
    if (style < 2) {
        bytes_as_file(&f, from, style == 1);
    } else {
        real_file(&f, &buffers[BANK], from, style == 2 ? 100 : 1 + take(from) % 20);
        for (uint32_t changes = take_changes(from); changes > 0; changes--)
            change_file(&f, from);
    }
    set_length(&buffers[BANK_FILE], f.length);
    memcpy(first_of(&buffers[BANK_FILE]), f.bytes, f.length);
    return style;
}

static uint32_t entry4(const struct buffer *b)
{
    uint32_t n;
    memcpy(&n, first_of(b), sizeof n);
    return n;
}

const char *wrong_after_write(const struct buffer buffers[BUFFERS], uint8_t bit_depth)
{
    static int16_t bank[ALF_BANK_NUMBERS];
    const struct buffer *file = &buffers[BANK_FILE];
    size_t length = entry4(&buffers[FILE_LENGTH]);
    uint8_t depth = 0;
    if (length > file->length || length > ALF_BANK_FILE_BYTES)
        return "a file is longer than a file can be";
    if (memcmp((uint8_t *)first_of(file) + length, file->before + length, file->length - length) != 0)
        return "something was written behind the file";
    if (alf_bank_read(first_of(file), length, bank, ALF_BANK_NUMBERS, &depth) != 0)
        return "a file that was written is not accepted";
    return depth == bit_depth && memcmp(bank, first_of(&buffers[BANK]), sizeof bank) == 0 ? NULL : "another bank is read than was written";
}

const char *wrong_after_read(const struct buffer buffers[BUFFERS])
{
    static uint8_t again[ALF_BANK_FILE_BYTES];
    const struct buffer *file = &buffers[BANK_FILE], *bank = &buffers[READ_BANK];
    uint8_t bit_depth = *(const uint8_t *)first_of(&buffers[READ_DEPTH]);
    uint32_t length = 0;
    if (alf_bank_write(bit_depth, first_of(bank), bank->length, again, sizeof again, &length) != 0)
        return "what was read is not accepted for writing";
    return length == file->length && memcmp(again, first_of(file), length) == 0 ? NULL : "an accepted file is not what is written of it";
}
