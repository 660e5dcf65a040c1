/* Builds an index into a mapped file, maps the file again read-only, queries it, and compares every answer with a plain
 * loop. Then queries with spoilt tables and samples, wrong lengths and no words. Each block has the exact size, so that
 * the sanitizers see a read or write of one number too far. */
#define _GNU_SOURCE
#include "common.h"
#include "ranges.h"
#include "sampled.h"

#include <fcntl.h>
#include <string.h>
#include <sys/mman.h>
#include <unistd.h>

/* Every rank and every selection, one by one. Answers the number of ones. */
static uint64_t single_queries(const struct bitm_index *view)
{
    uint64_t got, ones = 0, zeros = 0, bits = (uint64_t)view->words_len * 64;
    for (uint64_t i = 0; i < bits; i++) {
        MUST(bitm_index_rank(view, true, i, &got) == BITM_OK && got == ones);
        MUST(bitm_index_rank(view, false, i, &got) == BITM_OK && got == zeros);
        if (bit_of(view->words, i)) {
            MUST(bitm_index_select(view, true, ones++, &got) == BITM_OK && got == i);
        } else {
            MUST(bitm_index_select(view, false, zeros++, &got) == BITM_OK && got == i);
        }
    }
    MUST(bitm_index_rank(view, true, bits, &got) == BITM_OK && got == ones);
    MUST(bitm_index_rank(view, false, bits, &got) == BITM_OK && got == zeros);
    got = UNTOUCHED;
    MUST(bitm_index_rank(view, true, bits + 1, &got) == BITM_NONE &&
         bitm_index_rank(view, true, SIZE_MAX, &got) == BITM_NONE);
    MUST(bitm_index_select(view, true, ones, &got) == BITM_NONE &&
         bitm_index_select(view, true, SIZE_MAX, &got) == BITM_NONE);
    MUST(bitm_index_select(view, false, zeros, &got) == BITM_NONE &&
         bitm_index_select(view, false, SIZE_MAX, &got) == BITM_NONE);
    MUST(got == UNTOUCHED);
    return ones;
}

/* A list of queries answers each as the call of one query does where the tables are right, and a list of ranks over
 * any; a list of selections over wrong tables finds bits of the kind. */
static void list_of_queries(const struct bitm_index *view, bool select, bool one, bool same)
{
    uint64_t queries[32], answers[32], bits = (uint64_t)view->words_len * 64;
    for (int i = 0; i < 32; i++)
        queries[i] = i == 0 ? UINT64_MAX : draw() % (bits + 2);
    MUST((select ? select_list : rank_list)(view, one, queries, 32, answers, 32) == BITM_OK);
    for (int i = 0; i < 32; i++) {
        uint64_t got = UNTOUCHED;
        uint32_t status = (select ? bitm_index_select : bitm_index_rank)(view, one, queries[i], &got);
        MUST(status != BITM_BAD_SIZE && (!same || answers[i] == item_of(status, got)));
        MUST(same || answers[i] >= BITM_WRONG_TABLES || (answers[i] < bits && bit_of(view->words, answers[i]) == one));
    }
    answers[0] = UNTOUCHED;
    MUST((select ? select_list : rank_list)(view, one, queries, 32, answers, 31) == BITM_BAD_SIZE);
    MUST(answers[0] == UNTOUCHED);
    MUST((select ? select_list : rank_list)(view, one, NULL, 0, NULL, 0) == BITM_OK);
}

static void lists_of_queries(const struct bitm_index *view, bool right)
{
    list_of_queries(view, false, true, true);
    list_of_queries(view, false, false, true);
    list_of_queries(view, true, true, right);
    list_of_queries(view, true, false, right);
}

/* The bits next to each position, by the tables, with and without samples, and next to positions past the end. */
static void next_and_previous(const struct bitm_index *view)
{
    const uint64_t bits = view->bits_len;
    for (int one = 0; one < 2; one++) {
        uint64_t got, last = UINT64_MAX;
        for (uint64_t i = 0; i < bits; i++) {
            if (bit_of(view->words, i) == (uint64_t)one) {
                for (uint64_t k = last + 1; k <= i && i - k < 70; k++)
                    MUST(bitm_index_next(view, one, k, &got) == BITM_OK && got == i);
                last = i;
            }
            const uint32_t status = bitm_index_previous(view, one, i, &got);
            MUST(last == UINT64_MAX ? status == BITM_NONE : status == BITM_OK && got == last);
        }
        got = UNTOUCHED;
        MUST(last + 1 >= bits || bitm_index_next(view, one, last + 1, &got) == BITM_NONE);
        MUST(bitm_index_next(view, one, bits, &got) == BITM_NONE &&
             bitm_index_next(view, one, UINT64_MAX, &got) == BITM_NONE);
        MUST(got == UNTOUCHED);
        for (int far = 0; far < 2; far++) {
            const uint32_t status = bitm_index_previous(view, one, far ? UINT64_MAX : bits, &got);
            MUST(last == UINT64_MAX ? status == BITM_NONE : status == BITM_OK && got == last);
        }
    }
}

/* The positions of all 1 bits, in one buffer and three at a time. */
static void positions_of_ones(const uint64_t *words, size_t words_len, uint64_t ones)
{
    uint64_t *positions = malloc(8 * (ones + 2)), few[3], written, at = 0, bits = (uint64_t)words_len * 64;
    MUST(positions);
    positions[ones] = UNTOUCHED;
    MUST(bitm_bits_positions(words, words_len, 64 * words_len, true, 0, positions, ones + 1, &written) == BITM_OK &&
         written == ones);
    MUST(positions[ones] == UNTOUCHED);
    for (uint64_t i = 0; i < bits; i++)
        if (bit_of(words, i)) {
            MUST(positions[at] == i);
            if (at % 7 == 0) {
                uint64_t want = ones - at < 3 ? ones - at : 3;
                MUST(bitm_bits_positions(words, words_len, 64 * words_len, true, i, few, 3, &written) == BITM_OK &&
                     written == want);
                MUST(memcmp(few, positions + at, 8 * want) == 0);
            }
            at++;
        }
    MUST(bitm_bits_positions(words, words_len, 64 * words_len, true, SIZE_MAX, few, 3, &written) == BITM_OK &&
         written == 0);
    free(positions);
}

static uint64_t word_of_kind(int kind, size_t i)
{
    switch (kind) {
    case 0: return 0;
    case 1: return UINT64_MAX;
    case 2: return draw();
    case 3: return draw() & draw() & draw() & draw();
    default: return i % 97 == 5 ? (uint64_t)1 << i % 31 : 0;
    }
}

/* A file: a header, the words, both tables. It is built through one mapping and queried through another, read-only
 * one. */
static void in_a_file(size_t words_len, int kind)
{
    struct bitm_stored s, again;
    MUST(bitm_stored_index(64 * words_len, 0, 0, 0, 0, &s) == BITM_OK && s.words.len == words_len);
    char name[] = "bitm-XXXXXX";
    int file = mkstemp(name);
    MUST(file >= 0 && unlink(name) == 0 && ftruncate(file, (off_t)s.size) == 0);
    uint64_t *mapped = mmap(NULL, s.size, PROT_READ | PROT_WRITE, MAP_SHARED, file, 0);
    MUST(mapped != MAP_FAILED);
    memcpy(mapped, &s, sizeof s);
    uint64_t *words = bitm_stored_room(mapped, s.words), ones, got;
    for (size_t i = 0; i < words_len; i++)
        words[i] = word_of_kind(kind, i);
    MUST(bitm_index_build(words, words_len, bitm_stored_room(mapped, s.upper), s.upper.len,
                          bitm_stored_room(mapped, s.lower), s.lower.len, &ones) == BITM_OK);
    MUST(munmap(mapped, s.size) == 0);

    const uint64_t *read = mmap(NULL, s.size, PROT_READ, MAP_SHARED, file, 0);
    MUST(read != MAP_FAILED && close(file) == 0);
    MUST(bitm_stored_read(read, s.size / 8, &again) == BITM_OK && memcmp(&again, &s, sizeof s) == 0);
    const struct bitm_index view = bitm_stored_index_of(read, &again);
    MUST(bitm_index_check(&view) == BITM_OK && single_queries(&view) == ones);
    MUST(bitm_bits_count(view.words, words_len, 64 * words_len, true, &got) == BITM_OK && got == ones);
    MUST(bitm_bits_count(view.words, words_len, 64 * words_len, false, &got) == BITM_OK &&
         got == 64 * words_len - ones);
    lists_of_queries(&view, true);
    next_and_previous(&view);
    sampled_queries(&view, 7);
    sampled_queries(&view, 12);
    positions_of_ones(view.words, words_len, ones);
    MUST(munmap((void *)(uintptr_t)read, s.size) == 0);
}

/* Any tables: a rank is at most its index, or the tables are called wrong, exactly where there are that many bits, and
 * a position that is found has the bit. Answers how often tables were called wrong. */
static unsigned any_tables(const struct bitm_index *view, unsigned queries)
{
    uint64_t bits = (uint64_t)view->words_len * 64;
    unsigned wrong = 0;
    for (unsigned i = 0; i < queries; i++) {
        uint64_t query = i == 0 ? UINT64_MAX : i == 1 ? bits - 1 : draw() % (bits + 3), got = UNTOUCHED;
        for (uint64_t kind = 0; kind < 2; kind++) {
            got = UNTOUCHED;
            uint32_t status = bitm_index_rank(view, kind, query, &got);
            wrong += status == BITM_WRONG;
            MUST(query <= bits ? status == BITM_OK || status == BITM_WRONG : status == BITM_NONE);
            MUST(status == BITM_OK ? got <= query : got == UNTOUCHED);
        }
        for (uint64_t kind = 0; kind < 2; kind++) {
            got = UNTOUCHED;
            uint32_t status = bitm_index_select(view, kind, query, &got);
            wrong += status == BITM_WRONG;
            MUST(status != BITM_BAD_SIZE && (status == BITM_OK || got == UNTOUCHED));
            MUST(status != BITM_OK || (got < bits && bit_of(view->words, got) == kind));
            got = UNTOUCHED;
            status = bitm_index_next(view, kind, query, &got);
            MUST(status != BITM_BAD_SIZE && (status == BITM_OK || got == UNTOUCHED));
            MUST(status != BITM_OK || (got >= query && got < bits && bit_of(view->words, got) == kind));
            got = UNTOUCHED;
            status = bitm_index_previous(view, kind, query, &got);
            MUST(status != BITM_BAD_SIZE && (status == BITM_OK || got == UNTOUCHED));
            MUST(status != BITM_OK || (got <= query && got < bits && bit_of(view->words, got) == kind));
        }
    }
    return wrong;
}

/* Each entry of both tables in turn set to 0, to all ones and to anything; then all entries at once. */
static void spoilt_tables(size_t words_len)
{
    const struct bitm_index view = drawn_index(words_len);
    uint64_t *const words = writable(view.words), *const upper = writable(view.upper), *const lower = writable(view.lower);
    const size_t upper_len = view.upper_len, lower_len = view.lower_len;
    size_t turns = 3 * (upper_len + lower_len);
    unsigned each = (unsigned)(10000 / turns) + 1, wrong = 0;
    for (size_t turn = 0; turn < turns; turn++) {
        uint64_t *entry = turn / 3 < upper_len ? upper + turn / 3 : lower + (turn / 3 - upper_len), kept = *entry;
        *entry = turn % 3 == 0 ? 0 : turn % 3 == 1 ? UINT64_MAX : draw();
        MUST(bitm_index_check(&view) == (*entry == kept ? BITM_OK : BITM_WRONG));
        wrong += any_tables(&view, each);
        *entry = kept;
    }
    words[words_len / 2] ^= 1;
    MUST(bitm_index_check(&view) == BITM_WRONG);
    any_tables(&view, 1000);
    words[words_len / 2] ^= 1;
    MUST(bitm_index_check(&view) == BITM_OK && any_tables(&view, 1000) == 0);
    for (int turn = 0; turn < 10; turn++) {
        for (size_t i = 0; i < lower_len; i++)
            lower[i] = turn == 0 ? 0 : turn == 1 ? UINT64_MAX : draw();
        for (size_t i = 0; i < upper_len; i++)
            upper[i] = turn % 2 ? draw() : 0;
        wrong += any_tables(&view, 1000);
        lists_of_queries(&view, false);
    }
    MUST(wrong > 0);
    free_index(view);
}

/* Lengths that do not fit: the status, and nothing is written or read. */
static void wrong_lengths(void)
{
    uint64_t words[33] = {1}, got = UNTOUCHED;
    uint64_t upper[2] = {UNTOUCHED, UNTOUCHED}, lower[3] = {UNTOUCHED, UNTOUCHED, UNTOUCHED};
    MUST(bitm_index_build(words, 33, upper, 1, lower, 1, &got) == BITM_BAD_SIZE);
    MUST(bitm_index_build(words, 33, upper, 2, lower, 2, &got) == BITM_BAD_SIZE);
    MUST(bitm_index_build(words, 33, upper, 1, lower, 3, &got) == BITM_BAD_SIZE);
    MUST(bitm_index_build(words, (size_t)1 << 60, upper, 1, lower, 2, &got) == BITM_BAD_SIZE);
    MUST(got == UNTOUCHED && upper[0] == UNTOUCHED && lower[0] == UNTOUCHED && lower[2] == UNTOUCHED);
    MUST(bitm_index_build(words, 33, upper, 1, lower, 2, &got) == BITM_OK && got == 1);
    got = UNTOUCHED;
    struct bitm_index bad[] = {
        index_over(words, 33, upper, 1, lower, 1), index_over(words, 33, upper, 0, lower, 2),
        index_over(words, 32, upper, 1, lower, 2), index_over(words, 0, upper, 1, lower, 2),
        index_over(words, (size_t)1 << 60, upper, 1, lower, 2), index_over(NULL, 0, NULL, 0, lower, 1),
        cut_at(index_over(words, 33, upper, 1, lower, 2), 64 * 33 + 1),
    };
    for (size_t i = 0; i < sizeof bad / sizeof *bad; i++) {
        MUST(bitm_index_check(&bad[i]) == BITM_BAD_SIZE && bitm_index_rank(&bad[i], true, 0, &got) == BITM_BAD_SIZE);
        MUST(bitm_index_rank(&bad[i], false, 0, &got) == BITM_BAD_SIZE &&
             bitm_index_select(&bad[i], true, 0, &got) == BITM_BAD_SIZE);
        MUST(bitm_index_select(&bad[i], false, 0, &got) == BITM_BAD_SIZE);
        MUST(rank_list(&bad[i], true, words, 1, &got, 1) == BITM_BAD_SIZE);
        MUST(select_list(&bad[i], false, words, 1, &got, 1) == BITM_BAD_SIZE && got == UNTOUCHED);
    }
    MUST(bitm_bits_count(words, (size_t)1 << 60, 64 * ((size_t)1 << 60), true, &got) == BITM_BAD_SIZE &&
         got == UNTOUCHED);
    MUST(bitm_bits_positions(words, (size_t)1 << 60, 64 * ((size_t)1 << 60), true, 0, upper, 1, &got) ==
             BITM_BAD_SIZE &&
         got == UNTOUCHED);
}

static void no_words(void)
{
    uint64_t got = UNTOUCHED;
    struct bitm_index none = index_over(NULL, 0, NULL, 0, NULL, 0);
    MUST(bitm_index_build(NULL, 0, NULL, 0, NULL, 0, &got) == BITM_OK && got == 0);
    MUST(bitm_index_check(&none) == BITM_OK && bitm_index_rank(&none, true, 0, &got) == BITM_OK && got == 0);
    got = UNTOUCHED;
    MUST(bitm_index_rank(&none, true, 1, &got) == BITM_NONE && bitm_index_select(&none, true, 0, &got) == BITM_NONE &&
         got == UNTOUCHED);
}

/* Bits and fragments, with numbers computed by hand. */
static void bits_and_fragments(void)
{
    uint64_t words[3] = {0, 0, 0}, got;
    MUST(bitm_bits_set(words, 3, 64 * 3, 100, true) == BITM_OK && words[1] == (uint64_t)1 << 36);
    MUST(bitm_bits_get(words, 3, 64 * 3, 100, &got) == BITM_OK && got == 1);
    MUST(bitm_bits_get(words, 3, 64 * 3, 99, &got) == BITM_OK && got == 0 &&
         bitm_bits_get(words, 3, 64 * 3, 192, &got) == BITM_NONE);
    MUST(bitm_bits_set(words, 3, 64 * 3, 192, true) == BITM_NONE);
    MUST(bitm_bits_set(words, 3, 64 * 3, 100, false) == BITM_OK && words[1] == 0);
    MUST(bitm_bits_set_number(words, 3, 64 * 3, 60, 10, 0x3FF) == BITM_OK && words[0] == (uint64_t)0xF << 60 &&
         words[1] == 0x3F);
    MUST(bitm_bits_get_number(words, 3, 64 * 3, 59, 12, &got) == BITM_OK && got == 0x7FE);
    MUST(bitm_bits_get_number(words, 3, 64 * 3, 181, 12, &got) == BITM_NONE);
    MUST(bitm_bits_get_number(words, 3, 64 * 3, SIZE_MAX, 60, &got) == BITM_NONE);
    MUST(bitm_bits_get_number(words, 3, 64 * 3, 0, 65, &got) == BITM_NONE &&
         bitm_bits_set_number(words, 3, 64 * 3, 0, 65, 0) == BITM_NONE);
    MUST(bitm_bits_get_number(words, 3, 64 * 3, 0, UINT32_MAX, &got) == BITM_NONE);
    MUST(bitm_bits_get_number(words, 3, 64 * 3, 6, 64, &got) == BITM_OK && got == ((uint64_t)0x3FF << 54));
    MUST(bitm_bits_set_number(words, 3, 64 * 3, 6, 64, 0x123456789ABCDEF0) == BITM_OK &&
         words[0] == 0x8D159E26AF37BC00);
    MUST(words[1] == 4 && bitm_bits_get_number(words, 3, 64 * 3, 6, 64, &got) == BITM_OK && got == 0x123456789ABCDEF0);
    MUST(bitm_bits_get_number(words, 3, 64 * 3, 129, 64, &got) == BITM_NONE &&
         bitm_bits_set_number(words, 3, 64 * 3, 129, 64, 0) == BITM_NONE);
    MUST(bitm_bits_set_number(words, 3, 64 * 3, 128, 63, UINT64_MAX) == BITM_OK && words[2] == UINT64_MAX >> 1);
    for (size_t i = 0; i < 14; i++) /* numbers of 13 bits, of which 14 fit in 192 */
        MUST(bitm_bits_set_fragment(words, 3, 64 * 3, i, 13, i * 500) == BITM_OK);
    for (size_t i = 0; i < 14; i++)
        MUST(bitm_bits_get_fragment(words, 3, 64 * 3, i, 13, &got) == BITM_OK && got == i * 500 && got < 1 << 13);
    MUST(bitm_bits_get_fragment(words, 3, 64 * 3, 14, 13, &got) == BITM_NONE &&
         bitm_bits_set_fragment(words, 3, 64 * 3, 14, 13, 0) == BITM_NONE);
    MUST(bitm_bits_get_fragment(words, 3, 64 * 3, SIZE_MAX, 63, &got) == BITM_NONE);
    MUST(bitm_bits_set_fragment(words, 3, 64 * 3, SIZE_MAX, 63, 0) == BITM_NONE);
    MUST(bitm_bits_set_fragment(words, 3, 64 * 3, 1, 64, 77) == BITM_OK && words[1] == 77);
    MUST(bitm_bits_get_fragment(words, 3, 64 * 3, 1, 64, &got) == BITM_OK && got == 77);
    MUST(bitm_bits_get_fragment(words, 3, 64 * 3, 3, 64, &got) == BITM_NONE &&
         bitm_bits_set_fragment(words, 3, 64 * 3, 3, 64, 0) == BITM_NONE);
    MUST(bitm_bits_set_fragment(words, 3, 64 * 3, 1, 65, 0) == BITM_NONE &&
         bitm_bits_set_fragment(words, 3, 64 * 3, 0, 257, 0) == BITM_NONE);
}

int main(int argc, char **argv)
{
    take_seed(argc, argv);
    const size_t lens[] = {1, 2, 7, 8, 9, 31, 32, 33, 64, 100, 333};
    for (size_t i = 0; i < sizeof lens / sizeof *lens; i++)
        for (int kind = 0; kind < 5; kind++)
            in_a_file(lens[i], kind);
    in_a_file(0, 0);
    spoilt_tables(1);
    spoilt_tables(33);
    spoilt_tables(100);
    spoilt_tables(1000);
    spoilt_everything(1);
    spoilt_everything(100);
    spoilt_everything(333);
    wrong_lengths();
    no_words();
    bits_and_fragments();
    ranges();
    puts("C host: all answers as the plain loop's, and none of spoilt tables and samples outside");
    return 0;
}
