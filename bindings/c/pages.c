/* Bit vectors of many pages, none of which may be touched before a call: each page that the call touches is opened and
 * counted. A query touches few of them, as its bound on reads says, so a body that reads everything first is seen. Each
 * array, and each number that is written, is once where such pages end and once where they begin, beside a page that
 * stays closed: a read or write of one number outside, on either side, ends the program. */
#define _DEFAULT_SOURCE
#include "hinted.h"
#include "pages_of_blocks.h"

/* The bounds of bitm.h: a rank reads one lower entry, a selection 23, and both eight words of one block. */
static void query_an_index(const struct bitm_index *whole, uint64_t *queries, uint64_t *out, uint64_t *one)
{
    const struct bitm_index cut = cut_at(*whole, (uint64_t)WORDS * 64 - 7);
    struct bitm_list_counts *counts = counts_placed();
    for (unsigned turn = 0; turn < 80; turn++) {
        const struct bitm_index *const index = turn % 2 ? whole : &cut;
        const bool kind = turn / 2 % 2;
        const uint64_t position = draw() % ((uint64_t)WORDS * 64 - 7), rank = position / 3;
        TOUCHES(1, 1, 0, bitm_index_rank(index, kind, position, one));
        TOUCHES(1, 23, 0, bitm_index_select(index, kind, rank, one));
        TOUCHES(2, 24, 0, bitm_index_next(index, kind, rank, one));
        TOUCHES(2, 24, 0, bitm_index_previous(index, kind, rank + 100, one));
        TOUCHES(2, 0, 0, bitm_index_positions(index, kind, rank, out, LIST, one));
        for (size_t i = 0; i < LIST; i++) queries[i] = draw() % ((size_t)WORDS * 16);
        TOUCHES(LIST, LIST, 0, bitm_index_rank_list(index, kind, queries, LIST, out, LIST, counts));
        TOUCHES(LIST, 23 * LIST, 0, bitm_index_select_list(index, kind, queries, LIST, out, LIST, counts));
        MUST(counts->missing == 0 && counts->wrong == 0);
    }
    TOUCHES(WORDS, 0, 0, bitm_index_count(&cut, true, one));
    TOUCHES(WORDS, 0, 0, bitm_index_count(&cut, false, one));
}

/* Samples of one kind: built with eight words read; queried with two samples, or two for each query of a list. */
static void query_by_samples(const struct bitm_index *index, bool kind, uint64_t *queries, uint64_t *out, uint64_t *one)
{
    const size_t most = bitm_index_samples_len(WORDS, 7);
    struct bitm_list_counts *counts = counts_placed();
    uint32_t *samples = placed(OF_SAMPLES, 4 * most);
    uint64_t *starts = placed(OF_STARTS, 8);
    for (size_t i = 0; i < most; i++) samples[i] = UNTOUCHED;
    TOUCHES_ANY(bitm_index_build_samples(index, kind, 7, samples, most, starts, 1, one));
    MUST(touched[OF_WORDS] <= 8 && *one < most);
    for (size_t i = *one; i < most; i++) MUST(samples[i] == UNTOUCHED);
    uint32_t *kept = samples;
    if (at_the_end) { /* just as many, against the page after them */
        kept = placed(OF_SAMPLES, 4 * *one);
        for (size_t i = *one; i-- > 0;) kept[i] = samples[i];
    }
    const struct bitm_samples by = {kept, *one, starts, 1, 7, 0};
    const struct bitm_index sampled = with_samples(*index, kind, &by);
    TOUCHES_ANY(bitm_index_check_samples(&sampled, kind));
    MUST(touched[OF_WORDS] <= 8);
    for (unsigned turn = 0; turn < 20; turn++) {
        const uint64_t rank = draw() % ((uint64_t)WORDS * 16);
        TOUCHES(1, 23, 0, bitm_index_select(&sampled, kind, rank, one));
        for (size_t i = 0; i < LIST; i++) queries[i] = draw() % ((size_t)WORDS * 16);
        TOUCHES(LIST, 23 * LIST, 0, bitm_index_select_list(&sampled, kind, queries, LIST, out, LIST, counts));
    }
}

/* Bits and ranges, inside a page or of two pages side by side; two bit vectors are combined whole. */
static void query_bits(uint64_t *words, uint64_t *out, uint64_t *one)
{
    const uint64_t bits = (uint64_t)WORDS * 64, end = bits - 3;
    uint64_t *other = placed(OF_LOW, 8 * WORDS);
    for (unsigned turn = 0; turn < 20; turn++) {
        const uint64_t at = draw() % (bits - 2000), i = at / 50;
        TOUCHES(1, 0, 0, bitm_bits_get(words, WORDS, end, at, one));
        TOUCHES(2, 0, 0, bitm_bits_get_number(words, WORDS, end, at, 50, one));
        TOUCHES(2, 0, 0, bitm_bits_get_fragment(words, WORDS, end, i, 50, one));
        TOUCHES(1, 0, 0, bitm_bits_set(words, WORDS, end, at, true));
        TOUCHES(2, 0, 0, bitm_bits_set_number(words, WORDS, end, at, 50, at));
        TOUCHES(2, 0, 0, bitm_bits_xor_number(words, WORDS, end, at, 50, at));
        TOUCHES(2, 0, 0, bitm_bits_set_fragment(words, WORDS, end, i, 50, at));
        TOUCHES(3, 0, 0, bitm_bits_swap_fragments(words, WORDS, end, i, i + 1, 50));
        TOUCHES(1, 0, 0, bitm_bits_fill_fragments(words, WORDS, end, 1 + turn % 64, at, at_the_end ? 3 : 40));
        TOUCHES(2, 0, 0, bitm_bits_count_range(words, WORDS, end, turn % 2, at, at + 1000, one));
        TOUCHES(2, 0, 0, bitm_bits_fill_range(words, WORDS, end, at, at + 40, true));
        TOUCHES(2, 0, 0, bitm_bits_flip_range(words, WORDS, end, at + 10, at + 1000));
        TOUCHES(2, 0, 0, bitm_bits_next(words, WORDS, end, true, at, one));
        TOUCHES(2, 0, 0, bitm_bits_next(words, WORDS, end, false, at, one));
        TOUCHES(2, 0, 0, bitm_bits_previous(words, WORDS, end, true, at + 1000, one));
        TOUCHES(2, 0, 0, bitm_bits_previous(words, WORDS, end, false, at + 1000, one));
        TOUCHES(2, 0, 0, bitm_bits_positions(words, WORDS, end, turn % 2, at, out, LIST, one));
        TOUCHES(1, 0, 0, bitm_bits_clear_from(words, WORDS, bits - 100 - turn));
        TOUCHES(2, 0, 2, bitm_bits_copy_range(words, WORDS, at, other, WORDS, bits - at - 1000, 1000));
        TOUCHES(2, 0, 2, bitm_bits_equal_range(words, WORDS, at, other, WORDS, bits - at - 1000, 1000, one));
        MUST(*one == 1);
    }
    TOUCHES_ANY(bitm_bits_count(words, WORDS, bits, true, one));
    TOUCHES_ANY(bitm_bits_count(words, WORDS, end, false, one));
    TOUCHES_ANY(bitm_bits_or(words, WORDS, other, WORDS));
    TOUCHES_ANY(bitm_bits_xor(words, WORDS, other, WORDS));
    TOUCHES_ANY(bitm_bits_and(words, WORDS, other, WORDS));
    TOUCHES_ANY(bitm_bits_and_not(words, WORDS, other, WORDS));
    TOUCHES_ANY(bitm_bits_copy_range(words, WORDS, 0, other, WORDS, 0, bits));
    TOUCHES_ANY(bitm_bits_equal_range(words, WORDS, 0, other, WORDS, 0, bits, one));
    MUST(*one == 1);
    TOUCHES_ANY(bitm_bits_copy_range(words, WORDS, 0, other, WORDS, 1, bits - 1));
    TOUCHES_ANY(bitm_bits_copy_range(words, WORDS, 65, other, WORDS, 0, bits - 65));
    TOUCHES_ANY(bitm_bits_fill_range(words, WORDS, bits, 0, bits, true));
    TOUCHES_ANY(bitm_bits_flip_range(words, WORDS, bits, 0, bits));
    TOUCHES_ANY(bitm_bits_clear_from(words, WORDS, 0));
}

/* Bytes whose first or last one is beside a closed page. */
static void query_the_bytes(uint64_t *one)
{
    uint8_t *bytes = placed(OF_LOW, 9);
    uint32_t *few = placed(OF_SAMPLES, 4);
    for (unsigned first = 0; first < 16; first++) {
        TOUCHES_ANY(bitm_bytes_get57(bytes, 9, first, one));
        TOUCHES_ANY(bitm_bytes_init57(bytes, 9, first, draw()));
        TOUCHES_ANY(bitm_bytes_set57(bytes, 9, first, draw(), draw()));
        TOUCHES_ANY(bitm_bytes_get25(bytes, 9, 32 + first, few));
        TOUCHES_ANY(bitm_bytes_init25(bytes, 9, 32 + first, (uint32_t)draw()));
        TOUCHES_ANY(bitm_bytes_set25(bytes, 9, 32 + first, (uint32_t)draw(), (uint32_t)draw()));
    }
    TOUCHES_ANY(bitm_bits_select_in_word(UINT64_MAX, 63, one));
}

/* By hints a selection takes one of these and nine words. Numbers that are drawn like these are never far from their
 * hint, and those that share high bits end near where they begin: no table is touched. */
static void query_by_hints(struct bitm_sequence view, uint64_t last, uint64_t *one)
{
    const size_t len = bitm_hints_len(view.len, view.words_len);
    uint64_t *hints = placed(OF_SAMPLES, 8 * len);
    plain_hints(view.words, view.words_len, view.len, hints);
    view.hints = hints, view.hints_len = len;
    TOUCHES_ANY(bitm_sequence_check(&view));
    const struct bitm_sparse sparse = {view, last + 1, {0, 0}};
    for (unsigned turn = 0; turn < 20; turn++) {
        const size_t index = draw() % ITEMS;
        const uint64_t value = draw() % last;
        TOUCHES(2, 0, 2, bitm_sequence_get(&view, index, one));
        TOUCHES(3, 0, 12, bitm_sequence_first_at_least(&view, value, one));
        TOUCHES(3, 0, 12, bitm_sequence_last_at_most(&view, value, one));
        TOUCHES(3, 0, 14, bitm_sequence_contains(&view, value, one));
        TOUCHES(3, 0, 14, bitm_sparse_get(&sparse, value, one));
        TOUCHES(3, 0, 12, bitm_sparse_rank(&sparse, turn % 2, value, one));
        TOUCHES(2, 0, 2, bitm_sparse_select(&sparse, true, index, one));
    }
}

/* A number takes one selection and its low bits; a search for a value two, and low bits of the few numbers that share
 * high bits. The eight words of a selection may be of two pages here. */
static void query_a_sequence(uint64_t *one)
{
    uint64_t *items = placed(OF_QUERIES, 8 * ITEMS), last = 0, width;
    for (size_t i = 1; i < ITEMS; i++) items[i] = last += draw() >> 30;
    items[0] = 0;
    struct bitm_sequence_lens *room = placed(OF_ONE, sizeof *room), of;
    TOUCHES_ANY(bitm_sequence_sizes(ITEMS, last, room));
    of = *room;
    uint64_t *low = placed(OF_LOW, 8 * of.low_len), *words = placed(OF_WORDS, 8 * of.words_len);
    uint64_t *upper = placed(OF_UPPER, 8 * of.upper_len), *lower = placed(OF_LOWER, 8 * of.lower_len);
    TOUCHES_ANY(bitm_sequence_build(items, ITEMS, low, of.low_len, words, of.words_len, upper, of.upper_len, lower,
                                    of.lower_len, one));
    width = *one;
    const struct bitm_sequence view = {ITEMS, width,        low,   of.low_len,   words,  of.words_len,
                                       upper, of.upper_len, lower, of.lower_len, NULL, 0};
    TOUCHES_ANY(bitm_sequence_check(&view));
    uint64_t *queries = placed(OF_QUERIES, 8 * LIST), *out = placed(OF_OUT, 8 * LIST);
    for (unsigned turn = 0; turn < 20; turn++) {
        const size_t index = draw() % (ITEMS - LIST);
        const uint64_t value = draw() % last;
        TOUCHES(2, 23, 2, bitm_sequence_get(&view, index, one));
        TOUCHES(4, 46, 12, bitm_sequence_first_at_least(&view, value, one));
        TOUCHES(4, 46, 12, bitm_sequence_last_at_most(&view, value, one));
        TOUCHES(4, 46, 14, bitm_sequence_contains(&view, value, one));
        TOUCHES(3, 23, 2, bitm_sequence_items(&view, index, out, LIST, one));
        for (size_t i = 0; i < LIST; i++) queries[i] = draw() % ITEMS;
        TOUCHES(2 * LIST, 23 * LIST, 2 * LIST, bitm_sequence_get_list(&view, queries, LIST, out, LIST, one));
        for (size_t i = 0; i < LIST; i++) queries[i] = draw() % last;
        TOUCHES(4 * LIST, 46 * LIST, 12 * LIST,
                bitm_sequence_first_at_least_list(&view, queries, LIST, out, LIST, counts_placed()));
        TOUCHES(4 * LIST, 46 * LIST, 12 * LIST,
                bitm_sequence_last_at_most_list(&view, queries, LIST, out, LIST, counts_placed()));
        TOUCHES(6 * LIST, 69 * LIST, 14 * LIST,
                bitm_sequence_contains_list(&view, queries, LIST, out, LIST, counts_placed()));
    }
    query_sparse_bits(&view, last, one);
    query_by_hints(view, last, one);
}

/* A level is built in arrays of its own, with seeds and without, and so are all levels. */
static void build_a_hash(uint64_t *one)
{
    uint64_t *hashes = placed(OF_LOW, 8 * LIST), *words = placed(OF_OUT, 8 * LIST),
             *again = placed(OF_STARTS, 8 * LIST);
    for (size_t i = 0; i < LIST; i++) hashes[i] = draw();
    TOUCHES_ANY(bitm_hash_level(hashes, LIST, 0, words, LIST, again, LIST, one));
    MUST(*one < LIST);
    uint64_t *sorted = placed(OF_QUERIES, 8 * LIST);
    uint8_t *seeds = placed(OF_SAMPLES, LIST);
    for (size_t i = 0; i < LIST; i++) hashes[i] = draw();
    TOUCHES_ANY(
        bitm_hash_level_seeded(hashes, LIST, 0, 4, words, LIST, seeds, LIST, again, LIST, sorted, LIST, one));
    MUST(*one < LIST);
    uint64_t *made_sizes = placed(OF_QUERIES, 8 * LEVELS), *counted = placed(OF_COUNTS, 8), *left = placed(OF_UPPER, 8);
    const uint64_t kept = *left; /* of the upper table, whose block is used for the number */
    uint64_t *all = placed(OF_OUT, 8 * LEVELS);
    for (size_t i = 0; i < LIST; i++) hashes[i] = draw();
    TOUCHES_ANY(bitm_hash_build(hashes, LIST, 100, all, LEVELS, again, 1, made_sizes, LEVELS, counted, one, left));
    MUST(*left == 0 && *counted == *one && *one <= LEVELS && made_sizes[0] == 1);
    *left = kept;
}

/* A number touches a word of each level, and one lower entry. */
static void query_a_hash(const struct bitm_index *index, uint64_t *out, uint64_t *one)
{
    uint64_t *sizes = placed(OF_QUERIES, 8 * LEVELS), *keys = placed(OF_STARTS, 8 * LIST);
    for (size_t i = 0; i < LEVELS; i++) sizes[i] = WORDS / LEVELS;
    const struct bitm_hash hash = {*index, sizes, LEVELS, SIZE_MAX};
    for (unsigned turn = 0; turn < 20; turn++) {
        uint64_t key = draw();
        while (bitm_hash_get(&hash, key, one) != BITM_OK) key++;
        TOUCHES(LEVELS, 1, 0, bitm_hash_get(&hash, key, one));
        for (size_t i = 0; i < LIST; i++) keys[i] = draw();
        TOUCHES(LEVELS * LIST, LIST, 0, bitm_hash_get_list(&hash, keys, LIST, out, LIST, counts_placed()));
    }
}

/* A header, of which the first 24 words are read; and those of no samples and of a sequence are written. */
static void query_a_file(void)
{
    uint64_t *file = placed(OF_WORDS, 8 * WORDS);
    struct bitm_stored *header = placed(OF_OUT, sizeof *header), *read = placed(OF_LOW, sizeof *read);
    struct bitm_sequence_lens *lens = placed(OF_QUERIES, sizeof *lens);
    *lens = (struct bitm_sequence_lens){0, 0, 1, 1, 1};
    TOUCHES_ANY(bitm_stored_sequence(3, lens, header));
    TOUCHES_ANY(bitm_stored_index(64 * (WORDS / 2), 7, 9, 8, 9, header));
    MUST(header->words.len == WORDS / 2 && header->size < 8 * (uint64_t)WORDS);
    *(struct bitm_stored *)(void *)file = *header;
    TOUCHES(1, 0, 1, bitm_stored_read(file, WORDS, read));
    MUST(read->size == header->size);
}

static void query_everything(void)
{
    uint64_t *words = placed(OF_WORDS, 8 * WORDS), *upper = placed(OF_UPPER, 8), *lower = placed(OF_LOWER, 8 * LOWERS);
    uint64_t *queries = placed(OF_QUERIES, 8 * LIST), *out = placed(OF_OUT, 8 * LIST), *one = placed(OF_ONE, 8);
    for (size_t i = 0; i < WORDS; i++) words[i] = draw();
    TOUCHES_ANY(bitm_index_build(words, WORDS, upper, 1, lower, LOWERS, one));
    const struct bitm_index index = index_over(words, WORDS, upper, 1, lower, LOWERS);
    TOUCHES_ANY(bitm_index_check(&index));
    query_an_index(&index, queries, out, one);
    query_a_hash(&index, out, one);
    build_a_hash(one);
    query_by_samples(&index, true, queries, out, one);
    query_by_samples(&index, false, queries, out, one);
    query_bits(words, out, one);
    query_the_bytes(one);
    query_a_sequence(one);
    open_sparse_bits(one);
    query_a_tree(one);
    query_a_matrix(one);
    build_a_text(one);
    query_a_text(one);
    query_a_dictionary(one);
    query_seeds_in_a_block(one);
    query_strings(one);
    query_a_file();
}

int main(int argc, char **argv)
{
    take_seed(argc, argv);
    page = (size_t)sysconf(_SC_PAGESIZE);
    for (size_t i = 0; i < BLOCKS; i++) blocks[i] = guard((i == OF_WORDS ? 24 : 8) * WORDS); /* of strings too */
    struct sigaction action = {.sa_sigaction = open_page, .sa_flags = SA_SIGINFO};
    MUST(sigaction(SIGSEGV, &action, NULL) == 0);
    for (int end = 0; end < 2; end++) {
        at_the_end = end;
        query_everything();
    }
    puts("C host: queries touch few of many pages, and no call a number beside an array, before it or after it");
    return 0;
}
