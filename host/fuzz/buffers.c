#define _DEFAULT_SOURCE
#include "buffers.h"

#include <stdio.h>
#include <stdlib.h>
#include <string.h>
#include <sys/mman.h>

#define PAGE 4096

static size_t entry_width(int name)
{
    switch (name) {
    case VIRTUAL_COLUMNS:
    case VIRTUAL_ROWS:
    case BANK:
    case FIXED_FILTERS:
    case LUMA:
    case CHROMA:
    case LUMA_OUTPUT:
    case CHROMA_OUTPUT:
    case READ_BANK:
        return 2;
    case CTB_LIST:
    case FILE_LENGTH:
        return 4;
    default:
        return 1;
    }
}

void make_buffers(struct buffer buffers[BUFFERS])
{
    for (int name = 0; name < BUFFERS; name++) {
        struct buffer *b = &buffers[name];
        b->width = entry_width(name);
        b->length = 0;
        size_t room = MOST_ENTRIES * b->width;
        uint8_t *memory = mmap(NULL, room + PAGE, PROT_READ | PROT_WRITE, MAP_PRIVATE | MAP_ANONYMOUS, -1, 0);
        b->before = malloc(room);
        if (memory == MAP_FAILED || b->before == NULL || mprotect(memory + room, PAGE, PROT_NONE) != 0) {
            fprintf(stderr, "fuzz: no memory for the buffers\n");
            exit(2);
        }
        b->end = memory + room;
    }
}

void *first_of(const struct buffer *b)
{
    return b->end - b->length * b->width;
}

void set_length(struct buffer *b, size_t length)
{
    size_t old = b->length;
    b->length = length < MOST_ENTRIES ? length : MOST_ENTRIES;
    /* what is new is at the front; zeros, so that a call does not depend on earlier ones */
    if (b->length > old)
        memset(first_of(b), 0, (b->length - old) * b->width);
}

void put(struct buffer *b, size_t k, uint32_t value)
{
    memcpy((uint8_t *)first_of(b) + k * b->width, &value, b->width);
}

void remember(struct buffer *b)
{
    memcpy(b->before, first_of(b), b->length * b->width);
}

int unchanged(const struct buffer *b)
{
    return memcmp(b->before, first_of(b), b->length * b->width) == 0;
}
