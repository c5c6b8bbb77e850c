/* Banks and bank files for the fuzz run, and what holds of them after a call. */
#ifndef BANK_FILES_H
#define BANK_FILES_H

#include "buffers.h"
#include "bytes.h"

#include <stdbool.h>

/* Whether number k of a bank is a clip. */
bool is_clip(size_t k);

/* How many ways there are to make a bank or a file. */
#define BANK_FILE_STYLES 4

/* For the writer: a bank that is accepted, and room, then what the bytes change of them. Sets the bit depth to be passed; returns the
 * style. */
unsigned make_bank(struct buffer buffers[BUFFERS], struct bytes *from, uint8_t *bit_depth);

/* For the reader: a file, of the bytes as they are, behind a good bit depth, or a real one, written by the library from a bank with few
 * filters or all, in which the bytes change something. Returns the style. */
unsigned make_file(struct buffer buffers[BUFFERS], struct bytes *from);

/* What is wrong after an accepted call, or NULL. A written file is followed by what stood there, and read it gives the bank and the depth
 * again. A read file is what is written of the bank and the depth that it gave. */
const char *wrong_after_write(const struct buffer buffers[BUFFERS], uint8_t bit_depth);
const char *wrong_after_read(const struct buffer buffers[BUFFERS]);

#endif
