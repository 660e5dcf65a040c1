/* What the C programs share: a test that ends the program, numbers that are drawn, and calls of an index and its lists.
 */
#ifndef COMMON_H
#define COMMON_H

#include "../../include/bitm.h"

#include <stdio.h>
#include <stdlib.h>

#define MUST(condition)                                                            \
    do {                                                                           \
        if (!(condition)) {                                                        \
            fprintf(stderr, "%s:%d: not so: %s\n", __FILE__, __LINE__, #condition); \
            exit(1);                                                               \
        }                                                                          \
    } while (0)

/* A number that no call writes where it does not return BITM_OK. */
#define UNTOUCHED 77

static uint64_t seed = 0x9E3779B97F4A7C15u;

static inline uint64_t draw(void)
{
    seed ^= seed << 13;
    seed ^= seed >> 7;
    seed ^= seed << 17;
    return seed;
}

/* Other draws, where the program is given a number. */
static inline void take_seed(int argc, char **argv)
{
    if (argc > 1)
        seed += strtoull(argv[1], NULL, 10);
}

static inline uint64_t bit_of(const uint64_t *words, uint64_t position)
{
    return words[position / 64] >> (position % 64) & 1;
}

/* The largest number of `width` bits. */
static inline uint64_t largest(uint64_t width) { return width == 64 ? UINT64_MAX : ((uint64_t)1 << width) - 1; }

/* The item of a list of answers where the call of one query answers this. */
static inline uint64_t item_of(uint32_t status, uint64_t answer)
{
    return status == BITM_OK ? answer : status == BITM_NONE ? BITM_NO_ANSWER : BITM_WRONG_TABLES;
}

/* An index of all bits of the words, without samples. */
static inline struct bitm_index index_over(const uint64_t *words, size_t words_len, const uint64_t *upper,
                                           size_t upper_len, const uint64_t *lower, size_t lower_len)
{
    const struct bitm_index index = {.words = words, .words_len = words_len, .upper = upper, .upper_len = upper_len,
                                     .lower = lower, .lower_len = lower_len, .bits_len = 64 * (uint64_t)words_len};
    return index;
}

/* The index whose bits end there. */
static inline struct bitm_index cut_at(struct bitm_index index, uint64_t bits_len)
{
    index.bits_len = bits_len;
    return index;
}

/* The index with samples of one kind. */
static inline struct bitm_index with_samples(struct bitm_index index, bool one, const struct bitm_samples *samples)
{
    if (one)
        index.ones = *samples;
    else
        index.zeros = *samples;
    return index;
}

static inline uint32_t sampled_select(const struct bitm_index *index, bool one, const struct bitm_samples *samples,
                                      uint64_t rank, uint64_t *out)
{
    const struct bitm_index sampled = with_samples(*index, one, samples);
    return bitm_index_select(&sampled, one, rank, out);
}

static inline uint32_t check_samples(const struct bitm_index *index, bool one, const struct bitm_samples *samples)
{
    const struct bitm_index sampled = with_samples(*index, one, samples);
    return bitm_index_check_samples(&sampled, one);
}

static const struct bitm_list_counts no_counts = {UNTOUCHED, UNTOUCHED};

/* A list's status, whose counts are those of its codes, or as they were. */
static inline uint32_t counted(uint32_t status, const uint64_t *out, size_t out_len, struct bitm_list_counts counts)
{
    uint64_t missing = 0, wrong = 0;
    for (size_t i = 0; status == BITM_OK && i < out_len; i++) {
        missing += out[i] == BITM_NO_ANSWER;
        wrong += out[i] == BITM_WRONG_TABLES;
    }
    if (status == BITM_OK)
        MUST(counts.missing == missing && counts.wrong == wrong);
    else
        MUST(counts.missing == UNTOUCHED && counts.wrong == UNTOUCHED);
    return status;
}

static inline uint32_t rank_list(const struct bitm_index *index, bool one, const uint64_t *positions,
                                 size_t positions_len, uint64_t *out, size_t out_len)
{
    struct bitm_list_counts counts = no_counts;
    const uint32_t status = bitm_index_rank_list(index, one, positions, positions_len, out, out_len, &counts);
    return counted(status, out, out_len, counts);
}

static inline uint32_t select_list(const struct bitm_index *index, bool one, const uint64_t *ranks, size_t ranks_len,
                                   uint64_t *out, size_t out_len)
{
    struct bitm_list_counts counts = no_counts;
    const uint32_t status = bitm_index_select_list(index, one, ranks, ranks_len, out, out_len, &counts);
    return counted(status, out, out_len, counts);
}

static inline uint32_t sampled_select_list(const struct bitm_index *index, bool one, const struct bitm_samples *samples,
                                           const uint64_t *ranks, size_t ranks_len, uint64_t *out, size_t out_len)
{
    const struct bitm_index sampled = with_samples(*index, one, samples);
    return select_list(&sampled, one, ranks, ranks_len, out, out_len);
}

typedef uint32_t value_list_call(const struct bitm_sequence *, const uint64_t *, size_t, uint64_t *, size_t,
                                 struct bitm_list_counts *);

static inline uint32_t value_list(value_list_call *call, const struct bitm_sequence *sequence, const uint64_t *values,
                                  size_t values_len, uint64_t *out, size_t out_len)
{
    struct bitm_list_counts counts = no_counts;
    const uint32_t status = call(sequence, values, values_len, out, out_len, &counts);
    return counted(status, out, out_len, counts);
}

static inline uint32_t first_at_least_list(const struct bitm_sequence *sequence, const uint64_t *values,
                                           size_t values_len, uint64_t *out, size_t out_len)
{
    return value_list(bitm_sequence_first_at_least_list, sequence, values, values_len, out, out_len);
}

#endif
