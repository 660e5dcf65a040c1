/* Every array ends at a page that may not be touched. Words, tables, samples and parts hold random numbers, rightly
 * built or not. Each status has to be one of the header's, nothing may be written where it is not BITM_OK, and a
 * position or rank that is answered has to index an array of the caller's. */
#define _DEFAULT_SOURCE
#include "guard.h"
#include "sets.h"

enum { MOST = 40 }; /* words of a bit vector */

static struct guarded words_of, upper_of, lower_of, samples_of, starts_of, queries_of, out_of, low_of;

static uint64_t *numbers(const struct guarded *block, size_t count, bool fill)
{
    uint64_t *at = ends_at_the_guard(block, 8 * count);
    for (size_t i = 0; fill && i < count; i++) at[i] = draw() % 3 ? draw() >> draw() % 64 : UINT64_MAX - draw() % 3;
    return at;
}

/* One answer: a status of the header's, and the output as it was unless it is BITM_OK. */
static bool answered(uint32_t status, uint64_t out)
{
    MUST(status <= BITM_UNSORTED);
    MUST(status == BITM_OK || out == UNTOUCHED);
    return status == BITM_OK;
}

/* A list of ranks or of selections, each of which indexes an array of the caller's of an item for each bit and one
 * more. */
static void query_a_list(const struct bitm_index *view, bool select, bool one, const uint64_t *queries,
                         size_t queries_len, uint64_t *out, unsigned char *mine)
{
    MUST((select ? select_list : rank_list)(view, one, queries, queries_len, out, queries_len) == BITM_OK);
    for (size_t i = 0; i < queries_len; i++) {
        if (out[i] >= BITM_WRONG_TABLES) continue;
        MUST(select ? out[i] < view->bits_len && bit_of(view->words, out[i]) == one : out[i] <= queries[i]);
        mine[out[i]] = 1;
    }
}

/* The first bits of the same words: answers are before the end. */
static unsigned long query_cut(const struct bitm_index *view, bool right, unsigned char *mine)
{
    const struct bitm_index bits = cut_at(*view, draw() % (64 * view->words_len + 1));
    for (unsigned turn = 0; turn < 10; turn++) {
        const size_t query = draw() % 4 ? draw() % (bits.bits_len + 3) : draw();
        for (unsigned kind = 0; kind < 8; kind++) {
            uint64_t out = UNTOUCHED;
            const bool one = !(kind & 1);
            const uint32_t status = (kind < 2   ? bitm_index_rank
                                     : kind < 4 ? bitm_index_select
                                     : kind < 6 ? bitm_index_next
                                                : bitm_index_previous)(&bits, one, query, &out);
            MUST(kind > 1 || (query > bits.bits_len ? status == BITM_NONE : status != BITM_NONE));
            MUST(!right || status == BITM_OK || status == BITM_NONE);
            if (!answered(status, out)) continue;
            MUST(kind < 2 ? out <= query : out < bits.bits_len && bit_of(view->words, out) == one);
            MUST(kind < 4 || (kind < 6 ? out >= query : out <= query));
            mine[out] = 1;
        }
    }
    return 80;
}

/* Queries an index over random words, whose tables are right or random; an answer indexes an array of the caller's. */
static unsigned long query_an_index(void)
{
    size_t n = draw() % (MOST + 1), bits = 64 * n;
    uint64_t *words = numbers(&words_of, n, true), ones;
    size_t uppers = bitm_index_upper_len(n), lowers = bitm_index_lower_len(n);
    uint64_t *upper = numbers(&upper_of, uppers, true), *lower = numbers(&lower_of, lowers, true);
    const bool right = draw() % 4 == 0;
    if (right) MUST(bitm_index_build(words, n, upper, uppers, lower, lowers, &ones) == BITM_OK);
    const struct bitm_index view = index_over(words, n, upper, uppers, lower, lowers);
    MUST(!right || bitm_index_check(&view) == BITM_OK);

    uint32_t log2 = (uint32_t)(draw() % 12);
    size_t room = bitm_index_samples_len(n, log2);
    uint32_t *samples = ends_at_the_guard(&samples_of, 4 * room);
    for (size_t i = 0; i < room; i++) samples[i] = (uint32_t)draw();
    uint64_t *starts = numbers(&starts_of, uppers, true), used = room;
    if (draw() % 2)
        MUST(bitm_index_build_samples(&view, true, log2, samples, room, starts, uppers, &used) == BITM_OK &&
             used <= room);
    const struct bitm_samples by = {samples, used, starts, uppers, log2, 0};
    struct bitm_stored stored;
    MUST(check_samples(&view, true, &by) != BITM_BAD_SIZE && check_samples(&view, false, &by) != BITM_BAD_SIZE);
    MUST(bitm_stored_read(words, n, &stored) == BITM_WRONG);

    unsigned char *mine = ends_at_the_guard(&low_of, bits + 1); /* one byte for each position, and the end */
    for (unsigned turn = 0; turn < 40; turn++) {
        size_t query = draw() % 4 ? draw() % (bits + 3) : draw();
        uint64_t out = UNTOUCHED;
        for (unsigned kind = 0; kind < 2; kind++) {
            out = UNTOUCHED;
            uint32_t status = bitm_index_rank(&view, kind, query, &out);
            MUST(query <= bits ? status == BITM_OK || (status == BITM_WRONG && !right) : status == BITM_NONE);
            if (!answered(status, out)) continue;
            MUST(out <= query);
            mine[out] = 1;
        }
        for (unsigned kind = 0; kind < 4; kind++) {
            out = UNTOUCHED;
            const bool one = !(kind & 1);
            uint32_t status = kind < 2 ? bitm_index_select(&view, one, query, &out)
                                       : sampled_select(&view, one, &by, query, &out);
            if (!answered(status, out)) continue;
            mine[out] = (unsigned char)bit_of(words, out);
            MUST(mine[out] == one);
        }
        out = UNTOUCHED;
        if (answered(bitm_bits_get_number(words, n, 64 * n, query, (uint32_t)(draw() % 70), &out), out))
            MUST(query <= bits);
        MUST(bitm_bits_set_number(words, n, 64 * n, bits + draw() % 9, 1, 1) == BITM_NONE);
        out = UNTOUCHED;
        if (answered(bitm_bits_get_fragment(words, n, 64 * n, query, (uint32_t)(draw() % 70), &out), out))
            MUST(n || !out);
        MUST(bitm_bits_xor_number(words, n, 64 * n, bits + draw() % 9, 1, 1) == BITM_NONE);
    }

    size_t count = draw() % 40;
    uint64_t *queries = numbers(&queries_of, count, true), *out = numbers(&out_of, count, false);
    for (size_t i = 0; i < count; i++)
        if (draw() % 2) queries[i] %= bits + 3;
    for (int one = 0; one < 2; one++) {
        const struct bitm_index sampled = with_samples(view, one, &by);
        query_a_list(&view, false, one, queries, count, out, mine);
        query_a_list(&view, true, one, queries, count, out, mine);
        query_a_list(&sampled, true, one, queries, count, out, mine);
    }
    uint64_t written = UNTOUCHED;
    MUST(bitm_bits_positions(words, n, 64 * n, true, draw() % (bits + 2), out, count, &written) == BITM_OK &&
         written <= count);
    return 40 * 10 + 11 + query_cut(&view, right, mine);
}

/* Queries a sequence whose parts are those of numbers, or random. */
static unsigned long query_a_sequence(void)
{
    size_t n = draw() % 60;
    uint64_t *items = numbers(&queries_of, n, false), last = 0;
    for (size_t i = 0; i < n; i++) items[i] = last += draw() >> (40 + draw() % 20);
    struct bitm_sequence_lens lens;
    MUST(bitm_sequence_sizes(n, last, &lens) == BITM_OK);
    uint64_t *low = numbers(&low_of, lens.low_len, true), *words = numbers(&words_of, lens.words_len, true);
    uint64_t *upper = numbers(&upper_of, lens.upper_len, true), *lower = numbers(&lower_of, lens.lower_len, true);
    uint64_t width = lens.width;
    if (draw() % 2)
        MUST(bitm_sequence_build(items, n, low, lens.low_len, words, lens.words_len, upper, lens.upper_len, lower,
                                 lens.lower_len, &width) == BITM_OK);
    const size_t hints_len = draw() % 4 ? bitm_hints_len(n, lens.words_len) : 0;
    const struct bitm_sequence view = {n,     width,          low,   lens.low_len,   words,
                                       lens.words_len, upper, lens.upper_len, lower, lens.lower_len,
                                       numbers(&samples_of, hints_len, true), hints_len};
    for (unsigned turn = 0; turn < 40; turn++) {
        size_t index = draw() % 4 ? draw() % (n + 2) : draw();
        uint64_t out = UNTOUCHED;
        if (answered(bitm_sequence_get(&view, index, &out), out)) MUST(index < n);
        size_t room = draw() % 70;
        uint64_t *some = numbers(&out_of, room, false), written = UNTOUCHED;
        const uint64_t left = index < n ? n - index : 0, most = left < room ? left : room;
        MUST(bitm_sequence_items(&view, index, some, room, &written) == (written == most ? BITM_OK : BITM_WRONG));
        MUST(written <= most);
        out = UNTOUCHED;
        uint64_t value = draw() >> draw() % 64;
        if (answered(bitm_sequence_contains(&view, value, &out), out)) MUST(out <= 1);
        for (unsigned kind = 0; kind < 2; kind++) {
            out = UNTOUCHED;
            if (!answered((kind ? bitm_sequence_first_at_least : bitm_sequence_last_at_most)(&view, value, &out), out))
                continue;
            MUST(out < n);
            items[out] = value;
        }
    }
    size_t count = draw() % 40;
    uint64_t *queries = numbers(&starts_of, count, true), *out = numbers(&out_of, count, false), written = UNTOUCHED;
    MUST(first_at_least_list(&view, queries, count, out, count) == BITM_OK);
    for (size_t i = 0; i < count; i++) MUST(out[i] < n || out[i] >= BITM_WRONG_TABLES);
    MUST(value_list(bitm_sequence_last_at_most_list, &view, queries, count, out, count) == BITM_OK);
    for (size_t i = 0; i < count; i++) MUST(out[i] < n || out[i] >= BITM_WRONG_TABLES);
    MUST(value_list(bitm_sequence_contains_list, &view, queries, count, out, count) == BITM_OK);
    for (size_t i = 0; i < count; i++) MUST(out[i] <= 1 || out[i] == BITM_WRONG_TABLES);
    for (size_t i = 0; n > 0 && i < count; i++) queries[i] %= n + (draw() % 16 == 0);
    const uint32_t status = bitm_sequence_get_list(&view, queries, count, out, count, &written);
    MUST(written <= count && status == (written == count ? BITM_OK : queries[written] < n ? BITM_WRONG : BITM_NONE));
    return 204;
}

/* Ranges of random words, inside and past the end, and two bit vectors of lengths that may differ. */
static unsigned long query_ranges(void)
{
    size_t n = draw() % (MOST + 1), bits = 64 * n, others = draw() % 4 ? n : draw() % (MOST + 1);
    uint64_t *words = numbers(&words_of, n, true), *other = numbers(&low_of, others, true);
    for (unsigned turn = 0; turn < 10; turn++) {
        size_t from = draw() % 4 ? draw() % (bits + 2) : draw(), to = draw() % 4 ? draw() % (bits + 2) : draw();
        const uint32_t wanted = from <= to && to <= bits ? BITM_OK : BITM_NONE;
        uint64_t out = UNTOUCHED;
        MUST(bitm_bits_count_range(words, n, 64 * n, true, from, to, &out) == wanted);
        MUST(wanted == BITM_OK ? out <= to - from : out == UNTOUCHED);
        MUST(bitm_bits_fill_range(words, n, 64 * n, from, to, draw() % 2) == wanted);
        MUST(bitm_bits_flip_range(words, n, 64 * n, from, to) == wanted);
        for (unsigned kind = 0; kind < 4; kind++) {
            out = UNTOUCHED;
            const uint32_t status =
                (kind < 2 ? bitm_bits_next : bitm_bits_previous)(words, n, bits, !(kind & 1), from, &out);
            if (answered(status, out)) MUST(out < bits && bit_of(words, out) == !(kind & 1));
        }
        const size_t count = draw() % 4 ? draw() % (bits + 2) : draw();
        const bool fits = from <= bits && count <= bits - from,
                   fits_other = to <= 64 * others && count <= 64 * others - to;
        out = UNTOUCHED;
        if (answered(bitm_bits_equal_range(words, n, from, other, others, to, count, &out), out)) MUST(out <= 1);
        MUST((out == UNTOUCHED) == !(fits && fits_other));
        MUST(bitm_bits_copy_range(words, n, from, other, others, to, count) ==
             (fits && fits_other ? BITM_OK : BITM_NONE));
        const uint32_t same = n == others ? BITM_OK : BITM_BAD_SIZE;
        MUST(bitm_bits_and(words, n, other, others) == same && bitm_bits_or(words, n, other, others) == same);
        MUST(bitm_bits_xor(words, n, other, others) == same && bitm_bits_and_not(words, n, other, others) == same);
    }
    return 130;
}

/* Reads and writes of bytes at the end of the bytes, and past it. */
static unsigned long query_bytes(void)
{
    const size_t n = draw() % 20;
    uint8_t *bytes = ends_at_the_guard(&words_of, n);
    for (unsigned turn = 0; turn < 10; turn++) {
        const uint64_t first = draw() % 8 ? draw() % (8 * n + 9) : draw();
        uint64_t out = UNTOUCHED;
        uint32_t few = UNTOUCHED;
        const bool fits = first / 8 + 8 <= n && first / 8 < n, fits4 = first / 8 + 4 <= n && first / 8 < n;
        MUST(bitm_bytes_get57(bytes, n, first, &out) == (fits ? BITM_OK : BITM_NONE) && (fits || out == UNTOUCHED));
        MUST(bitm_bytes_get25(bytes, n, first, &few) == (fits4 ? BITM_OK : BITM_NONE) && (fits4 || few == UNTOUCHED));
        MUST(bitm_bytes_init57(bytes, n, first, draw()) == (fits ? BITM_OK : BITM_NONE));
        MUST(bitm_bytes_set57(bytes, n, first, draw(), draw()) == (fits ? BITM_OK : BITM_NONE));
        MUST(bitm_bytes_init25(bytes, n, first, (uint32_t)draw()) == (fits4 ? BITM_OK : BITM_NONE));
        MUST(bitm_bytes_set25(bytes, n, first, (uint32_t)draw(), (uint32_t)draw()) == (fits4 ? BITM_OK : BITM_NONE));
    }
    return 60;
}

int main(int argc, char **argv)
{
    take_seed(argc, argv);
    struct guarded *const blocks[] = {&words_of,  &upper_of,   &lower_of, &samples_of,
                                      &starts_of, &queries_of, &out_of,   &low_of};
    for (size_t i = 0; i < sizeof blocks / sizeof *blocks; i++) *blocks[i] = guard(1 << 16);
    sets();
    unsigned long calls = 0;
    while (calls < 10000000) calls += query_an_index() + query_a_sequence() + query_ranges() + query_bytes();
    puts("C host: ten million calls over random tables and parts, each array against a page that may not be touched");
    return 0;
}
