/* Queries of an index and of a sequence over any tables: what each may answer, and over right tables plain counting. */
#ifndef QUERIES_H
#define QUERIES_H

#include "fuzz.h"

enum { QUERIES = 12, NUMBERS = 1024 };

/* Samples of the input, or built; in two arrays, of which `which` is the first. */
static inline struct bitm_samples samples_of(struct input *from, const struct bitm_index *x, bool one, unsigned which)
{
    const uint32_t log2 = (uint32_t)take(from, 1) % 34;
    const size_t most = bitm_index_samples_len(x->words_len, log2 ? log2 : 7);
    uint64_t *const starts = numbers_of(which, x->upper_len), used = most;
    uint32_t *const samples = array(which + 1, 4 * most);
    take_bytes(from, samples, 4 * most);
    if (take(from, 1) % 2 && bitm_index_build_samples(x, one, log2, samples, most, starts, x->upper_len, &used) != BITM_OK)
        used = 0;
    spoil(from, starts, x->upper_len);
    const struct bitm_samples some = {samples, used, starts, x->upper_len, log2, 0};
    return some;
}

static inline bool bit_is(const struct bitm_index *x, bool one, uint64_t position)
{
    return position < x->bits_len && bit_of(x->words, position) == one;
}

/* How many bits of a kind there are before a position that is inside. */
static inline uint64_t counted_before(const struct bitm_index *x, bool one, uint64_t position)
{
    uint64_t ones = 0;
    for (uint64_t i = 0; i < position / 64; i++) ones += (uint64_t)__builtin_popcountll(x->words[i]);
    for (uint64_t i = position / 64 * 64; i < position; i++) ones += bit_of(x->words, i);
    return one ? ones : position - ones;
}

static inline void query_rank(const struct bitm_index *x, bool one, uint64_t position, bool right)
{
    uint64_t out = UNTOUCHED;
    const uint32_t status = bitm_index_rank(x, one, position, &out);
    answered(0 + one, status, out);
    MUST((status == BITM_NONE) == (position > x->bits_len));
    if (status != BITM_OK) MUST(out == UNTOUCHED && (status == BITM_NONE || (status == BITM_WRONG && !right)));
    else MUST(out <= position && (!right || out == counted_before(x, one, position)));
}

static inline void query_select(const struct bitm_index *x, bool one, uint64_t rank, bool right)
{
    uint64_t out = UNTOUCHED;
    const uint32_t status = bitm_index_select(x, one, rank, &out);
    answered(2 + one, status, out);
    if (status != BITM_OK) MUST(out == UNTOUCHED && (status == BITM_NONE || (status == BITM_WRONG && !right)));
    else MUST(bit_is(x, one, out) && (!right || counted_before(x, one, out) == rank));
    if (right) MUST((status == BITM_OK) == (rank < counted_before(x, one, x->bits_len)));
}

/* The nearest bit of a kind from a position on, or before it. */
static inline void query_near(const struct bitm_index *x, bool one, uint64_t from, bool right)
{
    uint64_t out = UNTOUCHED, before = UNTOUCHED, last = from < x->bits_len ? from + 1 : x->bits_len, next = from;
    const uint32_t status = bitm_index_next(x, one, from, &out);
    const uint32_t status_before = bitm_index_previous(x, one, from, &before);
    answered(4 + one, status, out), answered(6 + one, status_before, before);
    MUST(status == BITM_OK ? out >= from && bit_is(x, one, out) : out == UNTOUCHED);
    MUST(status_before == BITM_OK ? before <= from && bit_is(x, one, before) : before == UNTOUCHED);
    if (!right) return;
    while (next < x->bits_len && !bit_is(x, one, next)) next++;
    while (last > 0 && !bit_is(x, one, last - 1)) last--;
    MUST(next < x->bits_len ? status == BITM_OK && out == next : status == BITM_NONE);
    MUST(last > 0 ? status_before == BITM_OK && before == last - 1 : status_before == BITM_NONE);
}

static inline void query_lists(const struct bitm_index *x, bool one, const uint64_t *queries, bool right)
{
    uint64_t ranks[QUERIES], positions[QUERIES], single;
    MUST(rank_list(x, one, queries, QUERIES, ranks, QUERIES) == BITM_OK);
    MUST(select_list(x, one, queries, QUERIES, positions, QUERIES) == BITM_OK);
    for (unsigned i = 0; i < QUERIES; i++) {
        const uint32_t status = bitm_index_rank(x, one, queries[i], &single);
        MUST(ranks[i] == (status == BITM_OK     ? single
                          : status == BITM_NONE ? BITM_NO_ANSWER
                                                : BITM_WRONG_TABLES));
        MUST(positions[i] >= BITM_WRONG_TABLES || bit_is(x, one, positions[i]));
        if (right) MUST(positions[i] == (bitm_index_select(x, one, queries[i], &single) == BITM_OK ? single : BITM_NO_ANSWER));
    }
}

/* Calls that read no tables: right whatever these hold. */
static inline void query_words(const struct bitm_index *x, bool one, uint64_t from)
{
    uint64_t out = UNTOUCHED, found[QUERIES], written, next = from;
    MUST(bitm_index_count(x, one, &out) == BITM_OK && out == counted_before(x, one, x->bits_len));
    MUST(bitm_index_positions(x, one, from, found, QUERIES, &written) == BITM_OK && written <= QUERIES);
    for (uint64_t i = 0; i < written; i++, next++) {
        while (next < x->bits_len && !bit_is(x, one, next)) next++;
        MUST(found[i] == next);
    }
}

static inline void query_index(const struct bitm_index *x, struct input *from)
{
    const uint32_t check = bitm_index_check(x);
    MUST((check == BITM_BAD_SIZE) == (bitm_index_fault(x) != NULL));
    if (check == BITM_BAD_SIZE) return;
    uint64_t queries[QUERIES];
    for (unsigned i = 0; i < QUERIES; i++) queries[i] = take_number(from, x->bits_len);
    for (int one = 0; one < 2; one++) {
        for (unsigned i = 0; i < QUERIES; i++) {
            query_rank(x, one, queries[i], check == BITM_OK);
            query_select(x, one, queries[i], check == BITM_OK);
            query_near(x, one, queries[i], check == BITM_OK);
        }
        query_lists(x, one, queries, check == BITM_OK);
        query_words(x, one, queries[0]);
        const uint32_t samples = bitm_index_check_samples(x, one);
        MUST(samples == BITM_OK || samples == BITM_WRONG);
    }
}

/* The numbers that the parts say, or fewer where they are not those of a sequence. */
static inline size_t decoded(const struct bitm_sequence *s, uint64_t *numbers)
{
    size_t found = 0;
    for (uint64_t at = 0; at < 64 * s->words_len && found < s->len && found < NUMBERS; at++) {
        if (!bit_of(s->words, at)) continue;
        uint64_t low = 0;
        for (uint64_t i = 0; i < s->width; i++) low |= bit_of(s->low, found * s->width + i) << i;
        numbers[found] = ((at - found) << s->width) + low, found++;
    }
    return found;
}

/* One value or index. `numbers` are those of a right sequence, NULL for parts that are none. */
static inline void query_sequence_once(const struct bitm_sequence *s, uint64_t value, const uint64_t *numbers)
{
    uint64_t out = UNTOUCHED, first = UNTOUCHED, last = UNTOUCHED, is_there = UNTOUCHED, below = 0, upto = 0;
    const uint32_t got = bitm_sequence_get(s, value, &out), at_least = bitm_sequence_first_at_least(s, value, &first);
    const uint32_t at_most = bitm_sequence_last_at_most(s, value, &last), has = bitm_sequence_contains(s, value, &is_there);
    answered(20, got, out), answered(21, at_least, first), answered(22, at_most, last), answered(23, has, is_there);
    MUST((got == BITM_NONE) == (value >= s->len) && (got != BITM_OK ? out == UNTOUCHED : true));
    MUST(at_least == BITM_OK ? first < s->len : first == UNTOUCHED);
    MUST(at_most == BITM_OK ? last < s->len : last == UNTOUCHED);
    MUST(has == BITM_OK ? is_there < 2 : has == BITM_WRONG && is_there == UNTOUCHED);
    if (!numbers) return;
    for (size_t i = 0; i < s->len; i++) below += numbers[i] < value, upto += numbers[i] <= value;
    MUST(value >= s->len || (got == BITM_OK && out == numbers[value]));
    MUST(below < s->len ? at_least == BITM_OK && first == below : at_least == BITM_NONE);
    MUST(upto > 0 ? at_most == BITM_OK && last == upto - 1 : at_most == BITM_NONE);
    MUST(has == BITM_OK && is_there == (below < upto));
}

static inline void query_sequence_lists(const struct bitm_sequence *s, const uint64_t *values, const uint64_t *numbers)
{
    uint64_t first[QUERIES], last[QUERIES], is_there[QUERIES], items[QUERIES], got[QUERIES], written, single;
    MUST(value_list(bitm_sequence_first_at_least_list, s, values, QUERIES, first, QUERIES) == BITM_OK);
    MUST(value_list(bitm_sequence_last_at_most_list, s, values, QUERIES, last, QUERIES) == BITM_OK);
    MUST(value_list(bitm_sequence_contains_list, s, values, QUERIES, is_there, QUERIES) == BITM_OK);
    for (unsigned i = 0; i < QUERIES; i++) {
        MUST(first[i] < s->len || first[i] >= BITM_WRONG_TABLES);
        MUST(last[i] < s->len || last[i] >= BITM_WRONG_TABLES);
        MUST(is_there[i] < 2 || is_there[i] == BITM_WRONG_TABLES);
        if (!numbers) continue;
        MUST(first[i] == (bitm_sequence_first_at_least(s, values[i], &single) == BITM_OK ? single : BITM_NO_ANSWER));
        MUST(last[i] == (bitm_sequence_last_at_most(s, values[i], &single) == BITM_OK ? single : BITM_NO_ANSWER));
        MUST(bitm_sequence_contains(s, values[i], &single) == BITM_OK && is_there[i] == single);
    }
    const uint64_t left = values[0] < s->len ? s->len - values[0] : 0, most = left < QUERIES ? left : QUERIES;
    MUST(bitm_sequence_items(s, values[0], items, QUERIES, &written) == (written == most ? BITM_OK : BITM_WRONG));
    MUST(written <= most);
    for (uint64_t i = 0; numbers && i < written; i++) MUST(items[i] == numbers[values[0] + i]);
    MUST(!numbers || written == most);
    const uint32_t status = bitm_sequence_get_list(s, values, QUERIES, got, QUERIES, &written);
    for (uint64_t i = 0; numbers && i < written; i++) MUST(got[i] == numbers[values[i]]);
    if (written == QUERIES) MUST(status == BITM_OK);
    else MUST(written < QUERIES && status == (values[written] < s->len ? BITM_WRONG : BITM_NONE));
    MUST(!numbers || status != BITM_WRONG);
}

/* A walk that is moved on to each value in turn. */
static inline void query_walk(const struct bitm_sequence *s, const uint64_t *values, const uint64_t *numbers)
{
    struct bitm_sequence_walk walk = {.sequence = *s};
    uint64_t out = UNTOUCHED, at = 0;
    uint32_t status = bitm_sequence_walk_from(&walk, 0, &out);
    for (unsigned i = 0; i < 2 * QUERIES && status == BITM_OK; i++) {
        MUST(bitm_sequence_walk_index(&walk) < s->len && (!numbers || (bitm_sequence_walk_index(&walk) == at && out == numbers[at])));
        status = i % 2 ? bitm_sequence_walk_next(&walk, &out) : bitm_sequence_walk_to(&walk, values[i / 2], &out);
        at += i % 2;
        while (numbers && i % 2 == 0 && at < s->len && numbers[at] < values[i / 2]) at++;
    }
    MUST(status == BITM_OK || (status == BITM_NONE && (!numbers || at == s->len)) || (status == BITM_WRONG && !numbers));
}

static inline void query_sequence(const struct bitm_sequence *s, struct input *from)
{
    static uint64_t decoded_numbers[NUMBERS];
    const uint32_t check = bitm_sequence_check(s);
    MUST((check == BITM_BAD_SIZE) == (bitm_sequence_fault(s) != NULL));
    if (check == BITM_BAD_SIZE) return;
    const bool right = check == BITM_OK && s->len <= NUMBERS;
    if (right) MUST(decoded(s, decoded_numbers) == s->len);
    for (size_t i = 1; right && i < s->len; i++) MUST(decoded_numbers[i - 1] <= decoded_numbers[i]);
    uint64_t values[QUERIES];
    for (unsigned i = 0; i < QUERIES; i++)
        values[i] = take(from, 1) % 2 && right && s->len ? decoded_numbers[take_below(from, s->len)] + take(from, 1) % 3 - 1
                                                         : take_number(from, s->len);
    for (unsigned i = 0; i < QUERIES; i++) query_sequence_once(s, values[i], right ? decoded_numbers : NULL);
    query_sequence_lists(s, values, right ? decoded_numbers : NULL);
    query_walk(s, values, right ? decoded_numbers : NULL);
}

#endif
