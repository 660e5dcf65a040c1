/* Selection by samples, for the C host: right samples find what the plain loop finds; spoilt ones find nothing wrong
 * where the tables are right, and nothing outside where they are not. */
#ifndef SAMPLED_H
#define SAMPLED_H

#include "common.h"

#include <string.h>

/* An index of drawn words, each array in a block of the exact size. */
static inline struct bitm_index drawn_index(size_t words_len)
{
    const size_t upper_len = bitm_index_upper_len(words_len), lower_len = bitm_index_lower_len(words_len);
    uint64_t *words = malloc(8 * words_len), *upper = malloc(8 * upper_len), *lower = malloc(8 * lower_len), ones;
    MUST(words && upper && lower);
    for (size_t i = 0; i < words_len; i++)
        words[i] = draw();
    MUST(bitm_index_build(words, words_len, upper, upper_len, lower, lower_len, &ones) == BITM_OK);
    return index_over(words, words_len, upper, upper_len, lower, lower_len);
}

/* An array of the index, to be changed. */
static inline uint64_t *writable(const uint64_t *of_index) { return (uint64_t *)(uintptr_t)of_index; }

static inline void free_index(struct bitm_index index)
{
    free(writable(index.words));
    free(writable(index.upper));
    free(writable(index.lower));
}

/* A number that no call writes where it answers no BITM_OK. */
#define UNWRITTEN 79

/* The samples of one kind, each list in a block of the exact size. */
static inline struct bitm_samples built_samples(const struct bitm_index *view, bool one, uint32_t log2)
{
    size_t most = bitm_index_samples_len(view->words_len, log2);
    uint32_t *room = malloc(4 * most + 4), *samples;
    uint64_t *starts = malloc(8 * view->upper_len + 8), used = UNWRITTEN;
    MUST(room && starts);
    for (size_t i = 0; i <= most; i++) room[i] = UNWRITTEN;
    starts[view->upper_len] = UNWRITTEN;
    if (most > 0)
        MUST(bitm_index_build_samples(view, one, log2, room, most - 1, starts, view->upper_len, &used) ==
             BITM_BAD_SIZE);
    MUST(bitm_index_build_samples(view, one, log2, room, most, starts, view->upper_len + 1, &used) == BITM_BAD_SIZE &&
         used == UNWRITTEN);
    MUST(bitm_index_build_samples(view, one, log2, room, most, starts, view->upper_len, &used) == BITM_OK &&
         used <= most);
    for (size_t i = used; i <= most; i++) MUST(room[i] == UNWRITTEN);
    MUST(starts[view->upper_len] == UNWRITTEN);
    samples = malloc(4 * used + 1);
    MUST(samples);
    memcpy(samples, room, 4 * used);
    free(room);
    struct bitm_samples made = {samples, used, starts, view->upper_len, log2, 0};
    return made;
}

static inline void free_samples(struct bitm_samples made)
{
    free((void *)(uintptr_t)made.samples);
    free((void *)(uintptr_t)made.starts);
}

/* A list of ranks answers each as the call of one rank does. */
static inline void sampled_list(const struct bitm_index *view, const struct bitm_samples *made, bool one)
{
    uint64_t ranks[32], answers[32];
    for (int i = 0; i < 32; i++)
        ranks[i] = i == 0 ? UINT64_MAX : draw() % (64 * view->words_len + 2);
    MUST(sampled_select_list(view, one, made, ranks, 32, answers, 32) == BITM_OK);
    for (int i = 0; i < 32; i++) {
        uint64_t got = UNWRITTEN;
        uint32_t status = sampled_select(view, one, made, ranks[i], &got);
        MUST(status != BITM_BAD_SIZE && answers[i] == item_of(status, got));
    }
    answers[0] = UNWRITTEN;
    MUST(sampled_select_list(view, one, made, ranks, 32, answers, 31) == BITM_BAD_SIZE && answers[0] == UNWRITTEN);
}

/* Every selection of both kinds by samples, of right tables. */
static inline void sampled_queries(const struct bitm_index *view, uint32_t log2)
{
    struct bitm_samples of_ones = built_samples(view, true, log2);
    struct bitm_samples of_zeros = built_samples(view, false, log2);
    uint64_t got, ones = 0, zeros = 0, bits = (uint64_t)view->words_len * 64;
    for (uint64_t i = 0; i < bits; i++) {
        if (bit_of(view->words, i)) {
            MUST(sampled_select(view, true, &of_ones, ones++, &got) == BITM_OK && got == i);
        } else {
            MUST(sampled_select(view, false, &of_zeros, zeros++, &got) == BITM_OK && got == i);
        }
    }
    got = UNWRITTEN;
    MUST(sampled_select(view, true, &of_ones, ones, &got) == BITM_NONE);
    MUST(sampled_select(view, true, &of_ones, SIZE_MAX, &got) == BITM_NONE);
    MUST(sampled_select(view, false, &of_zeros, zeros, &got) == BITM_NONE);
    MUST(sampled_select(view, false, &of_zeros, SIZE_MAX, &got) == BITM_NONE && got == UNWRITTEN);
    sampled_list(view, &of_ones, true);
    sampled_list(view, &of_zeros, false);
    free_samples(of_ones);
    free_samples(of_zeros);
}

/* Any samples: where the tables are right an answer is that of the search without them; else a position is inside and
 * has the bit. */
static inline void any_samples(const struct bitm_index *view, int right, const struct bitm_samples *made,
                                   uint64_t kind)
{
    uint64_t bits = (uint64_t)view->words_len * 64, ranks[100], listed[100];
    for (unsigned i = 0; i < 100; i++)
        ranks[i] = i == 0 ? UINT64_MAX : draw() % (bits + 2);
    MUST(sampled_select_list(view, kind, made, ranks, 100, listed, 100) == BITM_OK);
    for (unsigned i = 0; i < 100; i++) {
        uint64_t got = UNWRITTEN, want = UNWRITTEN;
        uint32_t status = sampled_select(view, kind, made, ranks[i], &got);
        uint32_t wanted = bitm_index_select(view, kind, ranks[i], &want);
        MUST(status != BITM_BAD_SIZE && (status == BITM_OK || got == UNWRITTEN));
        MUST(status != BITM_OK || (got < bits && bit_of(view->words, got) == kind));
        MUST(!right || (status == wanted && got == want));
        MUST(!right || listed[i] == (wanted == BITM_OK ? want : BITM_NO_ANSWER));
        MUST(listed[i] >= BITM_WRONG_TABLES || (listed[i] < bits && bit_of(view->words, listed[i]) == kind));
    }
}

/* Each sample and each start in turn set to 0, to all ones and to anything; then lists too long, too short and none. */
static inline void spoilt_samples(const struct bitm_index *view, int right, uint64_t kind)
{
    struct bitm_samples made = built_samples(view, kind, 7);
    uint32_t *samples = (uint32_t *)(uintptr_t)made.samples;
    uint64_t *starts = (uint64_t *)(uintptr_t)made.starts;
    for (size_t turn = 0; turn < 3 * made.samples_len; turn++) {
        uint32_t kept = samples[turn / 3];
        samples[turn / 3] = turn % 3 == 0 ? 0 : turn % 3 == 1 ? UINT32_MAX : (uint32_t)draw();
        any_samples(view, right, &made, kind);
        samples[turn / 3] = kept;
    }
    for (size_t turn = 0; turn < 3 * made.starts_len; turn++) {
        uint64_t kept = starts[turn / 3];
        starts[turn / 3] = turn % 3 == 0 ? 1 : turn % 3 == 1 ? UINT64_MAX : draw();
        any_samples(view, right, &made, kind);
        starts[turn / 3] = kept;
    }
    for (uint32_t log2 = 0; log2 < 40; log2++) {
        struct bitm_samples other = made;
        other.log2 = log2;
        any_samples(view, right, &other, kind);
    }
    struct bitm_samples fewer = made, no_starts = made, none = {NULL, 0, NULL, 0, UINT32_MAX, UINT32_MAX};
    fewer.samples_len = made.samples_len / 2;
    no_starts.starts_len = 0;
    any_samples(view, right, &fewer, kind);
    any_samples(view, right, &no_starts, kind);
    any_samples(view, right, &none, kind);
    free_samples(made);
}

/* Spoilt samples of right tables and of wrong ones. */
static inline void spoilt_everything(size_t words_len)
{
    const struct bitm_index view = drawn_index(words_len);
    uint64_t *const upper = writable(view.upper), *const lower = writable(view.lower);
    spoilt_samples(&view, 1, 1);
    spoilt_samples(&view, 1, 0);
    for (int turn = 0; turn < 10; turn++) {
        for (size_t i = 0; i < view.lower_len; i++)
            lower[i] = turn == 0 ? 0 : turn == 1 ? UINT64_MAX : draw();
        upper[0] = turn % 2 ? draw() : 0;
        spoilt_samples(&view, 0, 1);
        spoilt_samples(&view, 0, 0);
    }
    free_index(view);
}

#endif
