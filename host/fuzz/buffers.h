/* Memory for the arguments of a call: each buffer ends at an inaccessible page, so that a read or a write behind it is a crash. */
#ifndef BUFFERS_H
#define BUFFERS_H

#include <stddef.h>
#include <stdint.h>

/* Which argument a buffer is for. */
enum buffer_name {
    VIRTUAL_COLUMNS,
    VIRTUAL_ROWS,
    TILE_COLUMNS,
    TILE_ROWS,
    SLICE_MAP,
    SUBPIC_MAP,
    SUBPIC_ACROSS,
    SLICE_PARAMS,
    BANK,
    CTB_PARAMS,
    CTB_LIST,
    FIXED_FILTERS,
    FIXED_MAP,
    LUMA,
    CHROMA,
    REGION,
    CLASS_MAP,
    LUMA_OUTPUT,
    CHROMA_OUTPUT,
    ISOLATED,
    CAUSES,
    /* those before are the arguments of an operation on a picture, those from here on of bank files, the bank with them */
    PICTURE_BUFFERS,
    BANK_FILE = PICTURE_BUFFERS,
    FILE_LENGTH,
    READ_BANK,
    READ_DEPTH,
    BUFFERS
};

/* The most entries that a buffer is made for. */
#define MOST_ENTRIES 16384

struct buffer {
    uint8_t *end;     /* the first byte of the inaccessible page */
    size_t width;     /* bytes an entry */
    size_t length;    /* entries */
    uint8_t *before;  /* a copy from before the call */
};

/* All of them, of no length; once. Ends the program where memory can't be had. */
void make_buffers(struct buffer buffers[BUFFERS]);

/* The first entry. */
void *first_of(const struct buffer *b);

/* Makes it as long, at most MOST_ENTRIES, at its front: entries that are new are 0. */
void set_length(struct buffer *b, size_t length);

/* Entry k by value; what does not fit the entry's width is cut. */
void put(struct buffer *b, size_t k, uint32_t value);

/* Remembers what stands in the buffer; and whether it still does. */
void remember(struct buffer *b);
int unchanged(const struct buffer *b);

#endif
