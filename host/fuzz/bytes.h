/* The bytes that a fuzzer gives, and numbers made from them. */
#ifndef BYTES_H
#define BYTES_H

#include <stdint.h>

/* One by one; zeros when they are used up. */
struct bytes {
    const uint8_t *next, *end;
};

static inline uint32_t take(struct bytes *from)
{
    return from->next < from->end ? *from->next++ : 0;
}

static inline uint32_t take4(struct bytes *from)
{
    uint32_t n = take(from);
    n |= take(from) << 8;
    n |= take(from) << 16;
    return n | take(from) << 24;
}

/* Numbers for what is large, repeated by their seed, which is not 0. */
static inline uint32_t random_below(uint32_t *state, uint32_t n)
{
    *state ^= *state << 13;
    *state ^= *state >> 17;
    *state ^= *state << 5;
    return *state % n;
}

#endif
