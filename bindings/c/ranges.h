/* Ranges of bits and whole bit vectors without tables, against loops over all bits. */
#ifndef RANGES_H
#define RANGES_H

#include "common.h"

#include <string.h>

/* The count of a range, and the bits next to a position: of each kind, on either side; the bits end anywhere. */
static inline void nearest_bits(const uint64_t *words, size_t words_len, uint64_t bits, uint64_t from, uint64_t to)
{
    uint64_t got, ones = 0;
    for (uint64_t i = from; i < to; i++)
        ones += bit_of(words, i);
    MUST(bitm_bits_count_range(words, words_len, bits, true, from, to, &got) == BITM_OK && got == ones);
    MUST(bitm_bits_count_range(words, words_len, bits, false, from, to, &got) == BITM_OK && got == to - from - ones);
    for (uint64_t kind = 0; kind < 2; kind++) {
        uint64_t next = from, previous = from < bits ? from : bits - 1;
        while (next < bits && bit_of(words, next) != kind) next++;
        uint32_t status = bitm_bits_next(words, words_len, bits, kind, from, &got);
        MUST(next < bits ? status == BITM_OK && got == next : status == BITM_NONE);
        while (previous < bits && bit_of(words, previous) != kind) previous--; /* wraps before the first */
        status = bitm_bits_previous(words, words_len, bits, kind, from, &got);
        MUST(previous < bits ? status == BITM_OK && got == previous : status == BITM_NONE);
    }
}

/* One write to a range: each bit of it as it has to be, and no other bit changed. */
static inline void write_range(uint64_t *words, const uint64_t *before, size_t words_len, uint64_t bits, uint64_t from,
                               uint64_t to, int kind)
{
    MUST((kind == 2 ? bitm_bits_flip_range(words, words_len, bits, from, to)
                    : bitm_bits_fill_range(words, words_len, bits, from, to, kind != 0)) == BITM_OK);
    for (uint64_t i = 0; i < 64 * (uint64_t)words_len; i++) {
        uint64_t was = bit_of(before, i), inside = i >= from && i < to;
        MUST(bit_of(words, i) == (!inside ? was : kind == 2 ? 1 - was : (uint64_t)kind));
    }
}

/* A copy of a range to another position, and whether both are equal then: no other bit is changed. */
static inline void copy_and_compare(uint64_t *words, const uint64_t *before, const uint64_t *from, size_t words_len)
{
    const uint64_t bits = 64 * (uint64_t)words_len, begin = draw() % (bits + 1), to_begin = draw() % (bits + 1);
    const uint64_t most = bits - (begin > to_begin ? begin : to_begin), count = draw() % (most + 1);
    uint64_t got = UNTOUCHED, equal = 1;
    MUST(bitm_bits_copy_range(words, words_len, to_begin, from, words_len, begin, count) == BITM_OK);
    for (uint64_t i = 0; i < bits; i++) {
        const bool inside = i >= to_begin && i - to_begin < count;
        MUST(bit_of(words, i) == (inside ? bit_of(from, begin + i - to_begin) : bit_of(before, i)));
    }
    MUST(bitm_bits_equal_range(words, words_len, to_begin, from, words_len, begin, count, &got) == BITM_OK && got == 1);
    for (uint64_t i = 0; i < count; i++)
        if (bit_of(words, begin + i) != bit_of(before, to_begin + i)) equal = 0;
    MUST(bitm_bits_equal_range(words, words_len, begin, before, words_len, to_begin, count, &got) == BITM_OK);
    MUST(got == equal);
    MUST(bitm_bits_equal_range(words, words_len, begin, words, words_len, begin, count, &got) == BITM_OK && got == 1);
    got = UNTOUCHED;
    MUST(bitm_bits_equal_range(words, words_len, bits, from, words_len, 0, 1, &got) == BITM_NONE && got == UNTOUCHED);
    MUST(bitm_bits_copy_range(words, words_len, to_begin, from, words_len, begin, most + 1) == BITM_NONE);
    MUST(bitm_bits_copy_range(words, words_len, UINT64_MAX, from, words_len, 0, 2) == BITM_NONE);
    MUST(bitm_bits_copy_range(words, words_len, bits, from, words_len, bits, 0) == BITM_OK);
}

typedef uint32_t combination(uint64_t *, size_t, const uint64_t *, size_t);

static inline void combine(combination *call, int kind, const uint64_t *first, const uint64_t *second, size_t words_len)
{
    uint64_t *words = malloc(8 * words_len + 1);
    MUST(words);
    memcpy(words, first, 8 * words_len);
    MUST(call(words, words_len, second, words_len + 1) == BITM_BAD_SIZE && memcmp(words, first, 8 * words_len) == 0);
    MUST(call(words, words_len, second, words_len) == BITM_OK);
    for (size_t i = 0; i < words_len; i++) {
        uint64_t a = first[i], b = second[i];
        MUST(words[i] == (kind == 0 ? a & b : kind == 1 ? a | b : kind == 2 ? a ^ b : a & ~b));
    }
    free(words);
}

static inline void ranges_of(size_t words_len)
{
    uint64_t *words = malloc(8 * words_len + 1), *before = malloc(8 * words_len + 1);
    uint64_t *other = malloc(8 * words_len + 1), bits = 64 * (uint64_t)words_len;
    MUST(words && before && other);
    for (unsigned turn = 0; turn < 400; turn++) {
        for (size_t i = 0; i < words_len; i++) {
            words[i] = turn % 4 == 0 ? draw() : turn % 4 == 1 ? 0 : turn % 4 == 2 ? UINT64_MAX : draw() & draw();
            if (turn % 4 != 0 && draw() % 8 == 0) words[i] ^= (uint64_t)1 << draw() % 64;
        }
        memcpy(before, words, 8 * words_len);
        uint64_t a = draw() % (bits + 1), b = draw() % (bits + 1);
        uint64_t from = a < b ? a : b, to = turn % 16 == 0 ? from : a < b ? b : a;
        const uint64_t end = turn % 2 ? bits : to + draw() % (bits - to + 1);
        nearest_bits(words, words_len, end, from, to);
        for (int kind = 0; kind < 3; kind++) {
            write_range(words, before, words_len, end, from, to, kind);
            copy_and_compare(words, memcpy(other, words, 8 * words_len), before, words_len);
            combine(bitm_bits_and, 0, words, before, words_len), combine(bitm_bits_or, 1, words, before, words_len);
            combine(bitm_bits_xor, 2, words, before, words_len),
                combine(bitm_bits_and_not, 3, words, before, words_len);
            memcpy(words, before, 8 * words_len);
        }
    }
    free(words);
    free(before);
    free(other);
}

static inline void ranges(void)
{
    const size_t lens[] = {0, 1, 2, 3, 9};
    for (size_t i = 0; i < sizeof lens / sizeof *lens; i++)
        ranges_of(lens[i]);
}

#endif
