/* All queries of an index, with and without samples, right and spoilt ones, of bits that end anywhere, against plain
 * loops: each length from 0 to 200 bits, and longer ones that are drawn. And over any tables, where no answer is
 * outside. */
#include "common.h"

#include <string.h>

enum { UNWRITTEN = 79, QUERIES = 70, MOST = 100 };

static uint64_t plain_rank(const uint64_t *words, bool one, uint64_t position)
{
    uint64_t count = 0;
    for (uint64_t i = 0; i < position; i++) count += bit_of(words, i) == one;
    return count;
}

/* The position of the bit with a rank, or the length. */
static uint64_t plain_select(const uint64_t *words, uint64_t len, bool one, uint64_t rank)
{
    for (uint64_t i = 0; i < len; i++)
        if (bit_of(words, i) == one && rank-- == 0) return i;
    return len;
}

/* The first position with such a bit at or after `from`, or the length; the last at or before it, or UINT64_MAX. */
static uint64_t plain_next(const uint64_t *words, uint64_t len, bool one, uint64_t from)
{
    while (from < len && bit_of(words, from) != one) from++;
    return from < len ? from : len;
}
static uint64_t plain_previous(const uint64_t *words, uint64_t len, bool one, uint64_t from)
{
    if (from >= len) from = len - 1;
    while (from < len && bit_of(words, from) != one) from--; /* wraps before the first, and of no bits */
    return from < len ? from : UINT64_MAX;
}

static uint64_t draw_query(uint64_t len)
{
    const uint64_t kind = draw() % 8;
    return kind == 0 ? UINT64_MAX - draw() % 3 : kind == 1 ? len - draw() % 3 : draw() % (len + 2);
}

/* A status and what it wrote: BITM_OK with a position of the kind, or another status and nothing. */
static bool found(const struct bitm_index *index, bool one, uint32_t status, uint64_t position)
{
    MUST(status == BITM_OK || status == BITM_NONE || status == BITM_WRONG);
    MUST(status == BITM_OK || position == UNWRITTEN);
    MUST(status != BITM_OK || (position < index->bits_len && bit_of(index->words, position) == one));
    return status == BITM_OK;
}

/* The bits next to a position, by the tables and by the words. */
static void query_beside(const struct bitm_index *index, bool one, uint64_t from, bool right)
{
    const uint64_t *words = index->words, len = index->bits_len;
    const uint64_t next = plain_next(words, len, one, from), previous = plain_previous(words, len, one, from);
    uint64_t out = UNWRITTEN;
    const uint32_t after = bitm_index_next(index, one, from, &out);
    MUST(!found(index, one, after, out) || out >= from);
    MUST(!right || (after == (next < len ? BITM_OK : BITM_NONE) && (after != BITM_OK || out == next)));
    out = UNWRITTEN;
    const uint32_t before = bitm_index_previous(index, one, from, &out);
    MUST(!found(index, one, before, out) || out <= from);
    MUST(!right || (before == (previous < len ? BITM_OK : BITM_NONE) && (before != BITM_OK || out == previous)));
    out = UNWRITTEN;
    MUST(bitm_bits_next(words, index->words_len, len, one, from, &out) == (next < len ? BITM_OK : BITM_NONE));
    MUST(out == (next < len ? next : UNWRITTEN));
    out = UNWRITTEN;
    MUST(bitm_bits_previous(words, index->words_len, len, one, from, &out) == (previous < len ? BITM_OK : BITM_NONE));
    MUST(out == (previous < len ? previous : UNWRITTEN));
}

static void query_all(const struct bitm_index *index, bool right)
{
    const uint64_t *words = index->words, len = index->bits_len;
    uint64_t queries[QUERIES], ranks[QUERIES], positions[QUERIES];
    for (int one = 0; one < 2; one++) {
        for (int i = 0; i < QUERIES; i++) queries[i] = draw_query(len);
        MUST(rank_list(index, one, queries, QUERIES, ranks, QUERIES) == BITM_OK);
        MUST(select_list(index, one, queries, QUERIES, positions, QUERIES) == BITM_OK);
        MUST(rank_list(index, one, queries, QUERIES, ranks, QUERIES - 1) == BITM_BAD_SIZE);
        for (int i = 0; i < QUERIES; i++) {
            uint64_t rank = UNWRITTEN, position = UNWRITTEN;
            const uint32_t ranked = bitm_index_rank(index, one, queries[i], &rank);
            const uint32_t selected = bitm_index_select(index, one, queries[i], &position);
            MUST(ranked == BITM_OK || rank == UNWRITTEN);
            MUST((ranked == BITM_NONE) == (queries[i] > len));
            MUST(ranks[i] == (ranked == BITM_OK ? rank : ranked == BITM_NONE ? BITM_NO_ANSWER : BITM_WRONG_TABLES));
            MUST(ranked != BITM_OK || rank <= queries[i]);
            found(index, one, selected, position);
            MUST(positions[i] >= BITM_WRONG_TABLES ||
                 (positions[i] < len && bit_of(words, positions[i]) == (uint64_t)one));
            query_beside(index, one, queries[i], right);
            if (!right) continue;
            const uint64_t wanted = plain_select(words, len, one, queries[i]);
            MUST(ranked != BITM_WRONG && (ranked != BITM_OK || rank == plain_rank(words, one, queries[i])));
            MUST(selected == (wanted < len ? BITM_OK : BITM_NONE) && (selected != BITM_OK || position == wanted));
            MUST(positions[i] == (wanted < len ? wanted : BITM_NO_ANSWER));
        }
        uint64_t count;
        MUST(bitm_index_count(index, one, &count) == BITM_OK && count == plain_rank(words, one, len));
        MUST(bitm_bits_count(words, index->words_len, len, one, &count) == BITM_OK &&
             count == plain_rank(words, one, len));
    }
}

/* Every position and every rank of the length, one by one. */
static void query_each(const struct bitm_index *index)
{
    const uint64_t *words = index->words, len = index->bits_len;
    for (int one = 0; one < 2; one++) {
        uint64_t got, all[200], written, rank = 0;
        for (uint64_t i = 0; i <= len; i++) {
            MUST(bitm_index_rank(index, one, i, &got) == BITM_OK && got == rank);
            query_beside(index, one, i, true);
            if (i < len && bit_of(words, i) == (uint64_t)one)
                MUST(bitm_index_select(index, one, rank++, &got) == BITM_OK && got == i);
        }
        got = UNWRITTEN;
        MUST(bitm_index_rank(index, one, len + 1, &got) == BITM_NONE);
        MUST(bitm_index_select(index, one, rank, &got) == BITM_NONE && got == UNWRITTEN);
        MUST(bitm_index_positions(index, one, 0, all, 200, &written) == BITM_OK && written == rank);
        for (uint64_t k = 0; k < rank; k++) MUST(bitm_index_select(index, one, k, &got) == BITM_OK && got == all[k]);
        MUST(bitm_bits_positions(words, index->words_len, len, one, 0, all, 200, &written) == BITM_OK &&
             written == rank);
        for (uint64_t k = 0; k < rank; k++) MUST(bitm_index_select(index, one, k, &got) == BITM_OK && got == all[k]);
    }
}

/* Bits of that length in words that have anything past the end: without samples, with right ones, and with spoilt ones;
 * then over any tables. */
static void of_length(uint64_t bits_len, size_t n, int turn)
{
    const size_t m = bitm_index_upper_len(n), k = bitm_index_lower_len(n), most = bitm_index_samples_len(n, 7);
    uint64_t words[MOST], upper[1], lower[4], ones, starts[2][1], used[2];
    uint32_t samples[2][MOST];
    MUST(m <= 1 && k <= 4 && most <= MOST && n <= MOST);
    for (size_t i = 0; i < n; i++) words[i] = turn % 4 == 3 ? UINT64_MAX : turn % 3 ? draw() : draw() & draw() & draw();
    MUST(bitm_index_build(words, n, upper, m, lower, k, &ones) == BITM_OK);
    struct bitm_index index = cut_at(index_over(words, n, upper, m, lower, k), bits_len);
    MUST(bitm_index_check(&index) == BITM_OK);
    query_all(&index, true);
    if (bits_len <= 200) query_each(&index);
    for (int one = 0; one < 2; one++) {
        MUST(bitm_index_build_samples(&index, one, 7, samples[one], most, starts[one], m, &used[one]) == BITM_OK);
        *(one ? &index.ones : &index.zeros) = (struct bitm_samples){samples[one], used[one], starts[one], m, 7, 0};
        MUST(bitm_index_check_samples(&index, one) == BITM_OK);
    }
    query_all(&index, true);
    if (bits_len <= 200) query_each(&index);
    for (int spoilt = 0; spoilt < 5; spoilt++) {
        for (int one = 0; one < 2; one++) {
            if (used[one] > 0) samples[one][draw() % used[one]] = (uint32_t)(draw() >> draw() % 64);
            starts[one][0] = draw() >> draw() % 64;
        }
        index.ones.reserved = (uint32_t)draw(), index.reserved[1] = draw(); /* no call reads them */
        query_all(&index, true);
        if (bits_len <= 200) query_each(&index);
    }
    for (int spoilt = 0; n > 0 && spoilt < 5; spoilt++) {
        lower[draw() % k] = draw();
        upper[0] = spoilt < 3 ? 0 : draw();
        query_all(&index, false);
    }
    index.bits_len = 64 * n + 1;
    MUST(bitm_index_rank(&index, 1, 0, &ones) == BITM_BAD_SIZE &&
         bitm_index_select(&index, 0, 0, &ones) == BITM_BAD_SIZE);
}

int main(int argc, char **argv)
{
    take_seed(argc, argv);
    for (int turn = 0; turn < 60; turn++) {
        const size_t n = 1 + draw() % MOST;
        of_length(64 * n - draw() % 64, n, turn);
    }
    for (uint64_t bits_len = 0; bits_len <= 200; bits_len++)
        for (int turn = 0; turn < 8; turn++)
            of_length(bits_len, bitm_bits_words_len(bits_len) + (size_t)turn % 2 * (draw() % 3), turn);
    puts("C host: all queries of an index, with and without samples, of each length");
    return 0;
}
