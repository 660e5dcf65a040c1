/* What a rank could cost on this machine, beside what it costs: limits LOG2 ROUNDS [huge]
 *
 * Over 2^LOG2 random bits, with huge pages where `huge` is given: one random word (the least that memory allows), a rank
 * written by hand for the same tables, in the loop that is timed and as a call that promises what bitm.h does, and the
 * library's. Each is timed in a chain (the next position depends on the answer), in a loop (independent positions) and
 * over lists of 4096. By hand a list takes two passes over blocks of 32: the first copies the entry and the last word,
 * the second counts. Rows are those of calls.c; the last column is the sum of the answers: of one row's name it is the
 * same for all forms of a rank. */
#define _GNU_SOURCE
#define BITM_MUST_USE /* every status is BITM_OK here, and testing them all would be timed */
#include "../include/bitm.h"
#include "clock.h"

#include <stdio.h>
#include <stdlib.h>
#include <string.h>
#include <sys/mman.h>

#define QUERIES ((size_t)1 << 17)
#define LIST ((size_t)4096)
#define BLOCK ((size_t)32)
#define PAGE ((size_t)1 << 21)

static uint64_t asked[QUERIES], answers[LIST];
static struct bitm_index index_;
static bool huge;

/* Zeros that begin at a huge page, in pages of the size that was asked. */
static void *some(size_t bytes)
{
    char *at = mmap(NULL, bytes + 2 * PAGE, PROT_READ | PROT_WRITE, MAP_PRIVATE | MAP_ANONYMOUS, -1, 0);
    if (at == MAP_FAILED) abort();
    at = (char *)(((uintptr_t)at + PAGE - 1) / PAGE * PAGE);
    madvise(at, bytes + PAGE, huge ? MADV_HUGEPAGE : MADV_NOHUGEPAGE);
    return at;
}

static inline uint64_t ones(uint64_t word)
{
    return (uint64_t)__builtin_popcountll(word);
}

/* The ones before the 512 bits of a position, by the two tables, where `entry` is the lower one's. */
static inline uint64_t before(const uint64_t *upper, uint64_t entry, uint64_t position)
{
    return upper[position >> 32] + (uint32_t)entry + ((entry >> (33 - 11 * (position >> 9 & 3))) >> 32 & 0x7FF);
}

static inline uint64_t last_ones(uint64_t word, uint64_t position)
{
    return ones(word & ((UINT64_C(1) << (position % 64)) - 1));
}

static inline uint64_t word_at(uint64_t position)
{
    return index_.words[position / 64];
}

/* Each word is looked at only if it lies before the position: the processor guesses where they end, and runs ahead. */
static inline uint64_t whole_by_tests(const uint64_t *words, uint64_t position)
{
    const uint64_t count = position / 64 % 8;
    words += position / 512 * 8;
    uint64_t sum = 0;
#pragma GCC unroll 8
    for (uint64_t i = 0; i < 7; i++) {
        if (i == count) break;
        sum += ones(words[i]);
    }
    return sum;
}

/* All words are counted, those past the position as 0: there is nothing to guess. */
static inline uint64_t whole_by_masks(const uint64_t *words, uint64_t position)
{
    static const uint64_t kept[16] = {~0ull, ~0ull, ~0ull, ~0ull, ~0ull, ~0ull, ~0ull, ~0ull};
    const uint64_t *masks = kept + 8 - position / 64 % 8;
    uint64_t sum = 0;
    words += position / 512 * 8;
    for (int i = 0; i < 7; i++) sum += ones(words[i] & masks[i]);
    return sum;
}

static inline uint64_t rank_by_tests(uint64_t position)
{
    return before(index_.upper, index_.lower[position / 2048], position) + last_ones(word_at(position), position) +
           whole_by_tests(index_.words, position);
}

static inline uint64_t rank_by_masks(uint64_t position)
{
    return before(index_.upper, index_.lower[position / 2048], position) + last_ones(word_at(position), position) +
           whole_by_masks(index_.words, position);
}

/* ---- by hand, as calls that know of the index what their argument says, and promise what bitm.h does */

static inline bool is_fitting(const struct bitm_index *index)
{
    return index->words_len >> 58 == 0 && index->upper_len == (index->words_len + ((size_t)1 << 26) - 1) >> 26 &&
           index->lower_len == (index->words_len + 31) / 32 && index->bits_len <= 64 * (uint64_t)index->words_len;
}

/* The ones before a position below bits_len, of which the entry and the word were read. The last 512 bits may have fewer
 * than eight words. */
static inline uint64_t counted(const struct bitm_index *index, uint64_t entry, uint64_t word, uint64_t position)
{
    const bool are_whole = position / 512 < index->words_len / 8;
    return before(index->upper, entry, position) + last_ones(word, position) +
           (are_whole ? whole_by_masks(index->words, position) : whole_by_tests(index->words, position));
}

__attribute__((noinline)) static uint32_t checked_rank(const struct bitm_index *index, bool one, uint64_t position,
                                                       uint64_t *out)
{
    if (!is_fitting(index)) return BITM_BAD_SIZE;
    if (position > index->bits_len) return BITM_NONE;
    uint64_t rank = 0;
    if (position > 0) { /* the last bit before it: the position itself may have no word */
        const uint64_t last = position - 1, word = index->words[last / 64];
        rank = counted(index, index->lower[last / 2048], word, last) + (word >> (last % 64) & 1);
    }
    if (rank > position) return BITM_WRONG;
    *out = one ? rank : position - rank;
    return BITM_OK;
}

__attribute__((noinline)) static uint32_t checked_list(const struct bitm_index *index, bool one,
                                                       const uint64_t *positions, size_t positions_len, uint64_t *out,
                                                       size_t out_len, struct bitm_list_counts *counts)
{
    if (!is_fitting(index) || out_len != positions_len) return BITM_BAD_SIZE;
    counts->missing = counts->wrong = 0;
    for (size_t from = 0; from < positions_len; from += BLOCK) {
        const size_t len = positions_len - from < BLOCK ? positions_len - from : BLOCK;
        uint64_t entries[BLOCK], words[BLOCK];
        for (size_t i = 0; i < len; i++) {
            const uint64_t position = positions[from + i];
            if (position >= index->bits_len) continue;
            entries[i] = index->lower[position / 2048];
            words[i] = index->words[position / 64];
        }
        for (size_t i = 0; i < len; i++) {
            const uint64_t position = positions[from + i];
            uint64_t rank = 0;
            uint32_t status = BITM_OK;
            if (position < index->bits_len) {
                rank = counted(index, entries[i], words[i], position);
                if (rank > position) status = BITM_WRONG;
                if (!one) rank = position - rank;
            } else
                status = checked_rank(index, one, position, &rank);
            counts->missing += status == BITM_NONE, counts->wrong += status == BITM_WRONG;
            out[from + i] = status == BITM_OK ? rank : status == BITM_NONE ? BITM_NO_ANSWER : BITM_WRONG_TABLES;
        }
    }
    return BITM_OK;
}

static inline uint64_t rank_by_call(uint64_t position)
{
    uint64_t rank = 0;
    checked_rank(&index_, true, position, &rank);
    return rank;
}

static void list_by_call(const uint64_t *positions)
{
    static struct bitm_list_counts counts;
    checked_list(&index_, true, positions, LIST, answers, LIST, &counts);
}

static inline uint64_t rank_by_library(uint64_t position)
{
    uint64_t rank = 0;
    bitm_index_rank(&index_, true, position, &rank);
    return rank;
}

static void list_of_words(const uint64_t *positions)
{
    for (size_t i = 0; i < LIST; i++) answers[i] = word_at(positions[i]);
}

#define LIST_BY(whole) \
    static void list_##whole(const uint64_t *positions) \
    { \
        for (size_t from = 0; from < LIST; from += BLOCK) { \
            uint64_t entries[BLOCK], words[BLOCK]; \
            for (size_t i = 0; i < BLOCK; i++) { \
                entries[i] = index_.lower[positions[from + i] / 2048]; \
                words[i] = word_at(positions[from + i]); \
            } \
            for (size_t i = 0; i < BLOCK; i++) { \
                const uint64_t position = positions[from + i]; \
                answers[from + i] = before(index_.upper, entries[i], position) + last_ones(words[i], position) + \
                                    whole(index_.words, position); \
            } \
        } \
    }
LIST_BY(whole_by_tests)
LIST_BY(whole_by_masks)

static void list_by_library(const uint64_t *positions)
{
    static struct bitm_list_counts counts;
    bitm_index_rank_list(&index_, true, positions, LIST, answers, LIST, &counts);
}

/* A row: the least time of the rounds. */
static void row(const char *name, const char *by, int log2, double least, uint64_t sum)
{
    printf("%s,%s%s,%d,even,%.2f,ns,%llu\n", name, by, huge ? " with huge pages" : "", log2, least / (double)QUERIES,
           (unsigned long long)sum);
}

#define LEAST(name, by, body) \
    do { \
        double least = 1e18; \
        uint64_t sum = 0; \
        for (int round = 0; round < rounds; round++) { \
            const double start = used(); \
            sum = 0; \
            body \
            const double took = used() - start; \
            if (took < least) least = took; \
        } \
        row(name, by, log2, least, sum); \
    } while (0)
/* The answer moves the next position by nothing or by one place: the sums of all forms are the same. */
#define FORMS(name, by, answer, list) \
    LEAST(name "_chained", by, for (size_t i = 0; i < QUERIES; i++) sum += answer(asked[i] ^ (sum & 1));); \
    LEAST(name "_loop", by, for (size_t i = 0; i < QUERIES; i++) sum += answer(asked[i]);); \
    LEAST(name "_list", by, for (size_t from = 0; from < QUERIES; from += LIST) { \
        list(asked + from); \
        for (size_t i = 0; i < LIST; i++) sum += answers[i]; \
    })

static void compare(uint64_t bits)
{
    uint64_t state = 2463534242088117;
    for (int i = 0; i < 100000; i++) {
        const uint64_t position = i < 1000 ? bits - 1 - (uint64_t)i : draw(&state) % bits, rank = rank_by_library(position);
        if (rank_by_tests(position) != rank || rank_by_masks(position) != rank || rank_by_call(position) != rank) {
            fprintf(stderr, "limits: the forms differ at %llu\n", (unsigned long long)position);
            exit(1);
        }
    }
}

/* The calls by hand answer as those of the library at the end too, of zeros, past the end, and for a wrong length. */
static void compare_calls(uint64_t bits)
{
    const uint64_t positions[5] = {bits, bits + 1, 0, UINT64_MAX, bits / 2 + 7};
    uint64_t mine[5] = {0}, rank[5] = {0}, own = 0, answer = 0;
    struct bitm_list_counts missing = {0}, counts = {0};
    struct bitm_index bad = index_;
    bool same = true;
    bad.lower_len++;
    for (int one = 0; one < 2; one++) {
        for (int i = 0; i < 5; i++) {
            const uint32_t status = bitm_index_rank(&index_, one, positions[i], &answer);
            same &= checked_rank(&index_, one, positions[i], &own) == status && own == answer;
        }
        same &= checked_list(&index_, one, positions, 5, mine, 5, &missing) == BITM_OK;
        same &= bitm_index_rank_list(&index_, one, positions, 5, rank, 5, &counts) == BITM_OK;
        same &= memcmp(mine, rank, sizeof mine) == 0 && memcmp(&missing, &counts, sizeof counts) == 0;
        same &= checked_rank(&bad, one, 1, &own) == BITM_BAD_SIZE;
        same &= checked_list(&bad, one, positions, 5, mine, 5, &missing) == BITM_BAD_SIZE;
    }
    if (same) return;
    fprintf(stderr, "limits: the calls by hand are not as the library's\n");
    exit(1);
}

static void measure(int log2, int rounds)
{
    FORMS("word", "limit", word_at, list_of_words);
    FORMS("rank", "by hand (tests)", rank_by_tests, list_whole_by_tests);
    FORMS("rank", "by hand (masks)", rank_by_masks, list_whole_by_masks);
    FORMS("rank", "by hand (call)", rank_by_call, list_by_call);
    FORMS("rank", "C", rank_by_library, list_by_library);
}

int main(int argc, char **argv)
{
    const int log2 = argc > 2 ? atoi(argv[1]) : 0, rounds = argc > 2 ? atoi(argv[2]) : 0;
    huge = argc == 4 && strcmp(argv[3], "huge") == 0;
    if (log2 < 12 || log2 > 33 || rounds < 1 || argc > 4 || (argc == 4 && !huge)) {
        fprintf(stderr, "limits LOG2 ROUNDS [huge], LOG2 from 12 to 33\n");
        return 2;
    }
    const size_t len = (size_t)1 << (log2 - 6), upper_len = bitm_index_upper_len(len), lower_len = bitm_index_lower_len(len);
    uint64_t *words = some(len * 8), *upper = some(upper_len * 8), *lower = some(lower_len * 8), state = 88172645463325252, count;
    for (size_t i = 0; i < len; i++) words[i] = draw(&state);
    if (bitm_index_build(words, len, upper, upper_len, lower, lower_len, &count) != BITM_OK) return 1;
    index_ = (struct bitm_index){.words = words, .words_len = len, .upper = upper, .upper_len = upper_len, .lower = lower,
                                 .lower_len = lower_len, .bits_len = 64 * len};
    compare(64 * len);
    compare_calls(64 * len);
    for (size_t i = 0; i < QUERIES; i++) asked[i] = draw(&state) % (64 * len - 1) / 2 * 2;
    measure(log2, rounds);
    return 0;
}
