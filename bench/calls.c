/* Times the calls of the C library over 2^LOG2 random bits, and over a sequence of a quarter as many numbers: calls LOG2
 * ROUNDS. Rows, words, numbers, queries and clock are those of the crate `tool_bench`, so the last column (the sum of the
 * answers) is the same too. */
#define _GNU_SOURCE
#define BITM_MUST_USE /* every status is BITM_OK here, and testing them all would be timed */
#include "../include/bitm.h"
#include "clock.h"

#include <stdio.h>
#include <stdlib.h>

#define QUERIES ((size_t)1 << 17)
#define EACH(call, ...) for (size_t i = 0; i < QUERIES; i++) { uint64_t got = 0; call(__VA_ARGS__, asked[i], &got); sum += got; }
#define ADD for (size_t i = 0; i < QUERIES; i++) sum += answers[i];
#define ALL(call, ...) call(__VA_ARGS__, asked, QUERIES, answers, QUERIES, &counts); ADD
#define ALL_NUMBERS(call, ...) call(__VA_ARGS__, asked, QUERIES, answers, QUERIES, &written); ADD
#define ROW(name, by, body) ROW_OF(QUERIES, name, by, body)
#define ROW_OF(count, name, by, body) \
    do { \
        double least = 1e18; \
        uint64_t sum = 0; \
        for (int round = 0; round < rounds; round++) { \
            double start = used(); \
            sum = 0; \
            body \
            double took = used() - start; \
            if (took < least) least = took; \
        } \
        printf("%s,%s,%d,even,%.2f,ns,%llu\n", name, by, log2, least / (double)(count), (unsigned long long)sum); \
    } while (0)

static uint64_t asked[QUERIES], answers[QUERIES];
static struct bitm_list_counts counts;

static void ask(uint64_t limit)
{
    uint64_t state = 2463534242088117;
    for (size_t i = 0; i < QUERIES; i++) asked[i] = draw(&state) % (limit ? limit : 1);
}

static void *some(size_t count, size_t size)
{
    void *made = calloc(count ? count : 1, size);
    if (!made) abort();
    return made;
}

static struct bitm_samples samples_of(const struct bitm_index *index, bool one)
{
    size_t most = bitm_index_samples_len(index->words_len, 13);
    uint32_t *samples = some(most, 4);
    uint64_t *starts = some(index->upper_len, 8), count;
    if (bitm_index_build_samples(index, one, 13, samples, most, starts, index->upper_len, &count) != BITM_OK) abort();
    return (struct bitm_samples){samples, count, starts, index->upper_len, 13, 0};
}

/* Rows of numbers of which each is by less than 1000 greater than the one before it. */
static void numbers(int log2, int rounds, size_t count)
{
    uint64_t state = 88172645463325252, last = 0, width, written, *items = some(count, 8);
    for (size_t i = 0; i < count; i++) items[i] = last += draw(&state) % 1000;
    struct bitm_sequence_lens of;
    if (bitm_sequence_sizes(count, last, &of) != BITM_OK) abort();
    uint64_t *low = some(of.low_len, 8), *words = some(of.words_len, 8);
    uint64_t *upper = some(of.upper_len, 8), *lower = some(of.lower_len, 8);
    if (bitm_sequence_build(items, count, low, of.low_len, words, of.words_len, upper, of.upper_len, lower, of.lower_len,
                            &width) != BITM_OK)
        abort();
    struct bitm_sequence of_numbers = {count, width, low, of.low_len, words, of.words_len, upper, of.upper_len, lower,
                                       of.lower_len, NULL, 0};
    ask(count);
    ROW("sequence_get", "C", EACH(bitm_sequence_get, &of_numbers));
    ROW("sequence_get_list", "C", ALL_NUMBERS(bitm_sequence_get_list, &of_numbers));
    ask(last);
    ROW("sequence_first_at_least", "C", EACH(bitm_sequence_first_at_least, &of_numbers));
    ROW("sequence_first_at_least_list", "C", ALL(bitm_sequence_first_at_least_list, &of_numbers));
    ROW_OF(count, "sequence_in_order", "C",
        for (size_t at = 0; at < count; at += 1024) {
            bitm_sequence_items(&of_numbers, at, answers, 1024, &written);
            for (size_t i = 0; i < written; i++) sum += answers[i];
        });
}

/* Rows of the block of an index: building it, which sums its words, comparing its checksums, and its check. */
static void blocks(int log2, int rounds, const uint64_t *words, size_t len)
{
    uint64_t size;
    if (bitm_index_block_size(64 * len, &size) != BITM_OK) abort();
    uint64_t *block = some(size, 8);
    ROW_OF(size, "build_block_a_word", "C", sum += bitm_index_block_build(words, len, 64 * len, block, size) == BITM_OK;);
    ROW_OF(size, "checksums_a_word", "C", sum += bitm_block_check(block, size) == BITM_OK;);
    ROW_OF(size, "check_block_a_word", "C", sum += bitm_index_block_check(block, size) == BITM_OK;);
    free(block);
}

int main(int argc, char **argv)
{
    if (argc != 3) return 2;
    int log2 = atoi(argv[1]), rounds = atoi(argv[2]);
    if (log2 < 10 || log2 > 33) return 2;
    size_t len = (size_t)1 << (log2 - 6), upper_len = bitm_index_upper_len(len), lower_len = bitm_index_lower_len(len);
    uint64_t *words = some(len, 8), *upper = some(upper_len, 8), *lower = some(lower_len, 8);
    uint64_t state = 88172645463325252, ones;
    for (size_t i = 0; i < len; i++) {
        words[i] = draw(&state);
        draw(&state);
        draw(&state);
    }
    double start = used();
    if (bitm_index_build(words, len, upper, upper_len, lower, lower_len, &ones) != BITM_OK) return 1;
    printf("build_a_word,C,%d,even,%.2f,ns,%llu\n", log2, (used() - start) / (double)len, (unsigned long long)ones);
    struct bitm_index plain = {words, len, upper, upper_len, lower, lower_len, 64 * len, {0}, {0}, {0, 0}}, sampled = plain;
    sampled.ones = samples_of(&plain, true);
    sampled.zeros = samples_of(&plain, false);
    ask(64 * len);
    ROW("rank", "C", EACH(bitm_index_rank, &plain, true));
    ROW("rank_list", "C", ALL(bitm_index_rank_list, &plain, true));
    ask(ones);
    ROW("select", "C binary", EACH(bitm_index_select, &plain, true));
    ROW("select", "C sampled", EACH(bitm_index_select, &sampled, true));
    ROW("select_list", "C", ALL(bitm_index_select_list, &plain, true));
    ROW("select_list", "C sampled", ALL(bitm_index_select_list, &sampled, true));
    ask(64 * len - ones);
    ROW("select0", "C binary", EACH(bitm_index_select, &plain, false));
    ROW("select0", "C sampled", EACH(bitm_index_select, &sampled, false));
    ROW("select0_list", "C", ALL(bitm_index_select_list, &plain, false));
    ROW("select0_list", "C sampled", ALL(bitm_index_select_list, &sampled, false));
    numbers(log2, rounds, (size_t)1 << (log2 - 2));
    blocks(log2, rounds, words, len);
    return 0;
}
