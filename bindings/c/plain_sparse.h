/* Bits of which few are 1 bits, as a list of positions: the answers by walking over these. */
#ifndef PLAIN_SPARSE_H
#define PLAIN_SPARSE_H

#include <stdbool.h>
#include <stddef.h>
#include <stdint.h>

enum { ONES = 600 };

/* The positions of the 1 bits among bits_len bits. */
struct plain {
    size_t ones;
    uint64_t bits_len;
    uint64_t positions[ONES];
};

static bool plain_bit(const struct plain *plain, uint64_t position)
{
    for (size_t i = 0; i < plain->ones; i++)
        if (plain->positions[i] == position) return true;
    return false;
}

static uint64_t plain_rank(const struct plain *plain, bool one, uint64_t position)
{
    uint64_t count = 0;
    for (size_t i = 0; i < plain->ones; i++) count += plain->positions[i] < position;
    return one ? count : position - count;
}

/* The position of the bit with a rank, or bits_len: a 0 bit is as far on as there are 1 bits before it. */
static uint64_t plain_select(const struct plain *plain, bool one, uint64_t rank)
{
    if (rank >= plain_rank(plain, one, plain->bits_len)) return plain->bits_len;
    if (one) return plain->positions[rank];
    for (size_t i = 0; i < plain->ones && plain->positions[i] <= rank; i++) rank++;
    return rank;
}

/* The first position with such a bit at or after `from`, or bits_len; the last at or before it, or UINT64_MAX. */
static uint64_t plain_next(const struct plain *plain, bool one, uint64_t from)
{
    uint64_t best = plain->bits_len;
    if (from >= plain->bits_len) return best;
    if (!one)
        while (from < best && plain_bit(plain, from)) from++;
    for (size_t i = plain->ones; one && i-- > 0;)
        if (plain->positions[i] >= from) best = plain->positions[i];
    return one ? best : from;
}

static uint64_t plain_previous(const struct plain *plain, bool one, uint64_t from)
{
    uint64_t best = UINT64_MAX;
    if (plain->bits_len == 0) return best;
    if (from >= plain->bits_len) from = plain->bits_len - 1;
    if (!one)
        while (from != UINT64_MAX && plain_bit(plain, from)) from--; /* wraps before the first */
    for (size_t i = 0; one && i < plain->ones; i++)
        if (plain->positions[i] <= from) best = plain->positions[i];
    return one ? best : from;
}

#endif
