/* The hints of words by docs/FORMAT.md, from the bits alone: beside what the library writes and takes. And blocks as
 * they were written before there were hints. */
#ifndef HINTED_H
#define HINTED_H

#include "common.h"
#include "summed.h"

#include <string.h>

/* Of words with that many 1 bits, in room for all: first the hints of the 1 bits, then those of the 0 bits. */
static inline void plain_hints_in(const uint64_t *words, size_t words_len, size_t ones, uint64_t *hints, size_t room)
{
    uint64_t seen[2] = {0, 0}, *const of[2] = {hints + (ones + 255) / 256, hints};
    for (size_t i = 0; i < room; i++) hints[i] = UINT64_MAX;
    for (uint64_t at = 0; at < 64 * (uint64_t)words_len; at++) {
        const uint64_t one = bit_of(words, at), k = seen[one]++ / 128;
        if (seen[one] % 128 != 1) continue;
        of[one][k / 2] ^= (at ^ UINT32_MAX) << 32 * (k % 2); /* that half was 2^32 - 1 */
    }
}

static inline void plain_hints(const uint64_t *words, size_t words_len, size_t ones, uint64_t *hints)
{
    plain_hints_in(words, words_len, ones, hints, bitm_hints_len(ones, words_len));
}

/* Whether hints are those of the words. */
static inline bool are_hints(const uint64_t *hints, size_t hints_len, const uint64_t *words, size_t words_len,
                             size_t ones)
{
    uint64_t *const plain = malloc(8 * hints_len + 8);
    MUST(plain);
    plain_hints_in(words, words_len, ones, plain, hints_len);
    bool same = true;
    for (size_t i = 0; i < hints_len; i++) same = same && hints[i] == plain[i];
    free(plain);
    return same;
}

/* And whether they are as many as there have to be. */
static inline bool has_hints(const uint64_t *hints, size_t hints_len, const uint64_t *words, size_t words_len,
                             size_t ones)
{
    return hints_len == bitm_hints_len(ones, words_len) && are_hints(hints, hints_len, words, words_len, ones);
}

/* Whether a matrix has the hints of its words. */
static inline bool has_matrix_hints(const struct bitm_matrix *matrix)
{
    size_t ones = 0;
    for (size_t i = 0; i < 64 * matrix->words_len; i++) ones += bit_of(matrix->words, i);
    return matrix->hints_len == bitm_hints_room(matrix->words_len) &&
           are_hints(matrix->hints, matrix->hints_len, matrix->words, matrix->words_len, ones);
}

/* Writes the block without its last section, which is the one of hints, to as many words at most: how many it has. */
static inline size_t without_hints(const uint64_t *block, uint64_t *to)
{
    const size_t left = block[11] - 1, head = (16 + 4 * (left + 1) + 7) / 8 * 8, shorter = (16 + 4 * left + 7) / 8 * 8;
    const uint64_t *const hints = block + 16 + 4 * left;
    const size_t end = hints[1] / 8 - (head - shorter);
    MUST(hints[0] == 22);
    memcpy(to, block, 8 * shorter);
    memcpy(to + shorter, block + head, 8 * (end - shorter));
    for (size_t i = 0; i < left; i++) to[17 + 4 * i] -= 8 * (head - shorter);
    for (size_t i = 16 + 4 * left; i < shorter; i++) to[i] = 0;
    to[2] = 8 * end, to[11] = left;
    to[14] = checksum(to + 16, shorter - 16), to[15] = checksum(to, 15);
    return end;
}

#endif
