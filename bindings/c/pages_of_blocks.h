/* Structures in blocks of many pages, of which those are counted that a query touches: sparse bits, a tree, a matrix, a
 * text, a dictionary and strings. */
#ifndef PAGES_OF_BLOCKS_H
#define PAGES_OF_BLOCKS_H

#include "pages.h"

/* Sparse bits over the positions of a sequence: a rank is a search for a value and a 1 bit a number; for a 0 bit a
 * number is read for each binary digit of how many there are. */
static void query_sparse_bits(const struct bitm_sequence *positions, uint64_t last, uint64_t *one)
{
    enum { DIGITS = 20 };
    const struct bitm_sparse sparse = {*positions, last + 1, {0, 0}};
    uint64_t *queries = placed(OF_QUERIES, 8 * LIST), *out = placed(OF_OUT, 8 * LIST);
    for (unsigned turn = 0; turn < 20; turn++) {
        const uint64_t position = draw() % last, rank = draw() % ITEMS;
        const bool kind = turn % 2;
        TOUCHES(4, 46, 14, bitm_sparse_get(&sparse, position, one));
        TOUCHES(4, 46, 12, bitm_sparse_rank(&sparse, kind, position, one));
        TOUCHES(2, 23, 2, bitm_sparse_select(&sparse, true, rank, one));
        TOUCHES(2 * DIGITS, 23 * DIGITS, 2 * DIGITS, bitm_sparse_select(&sparse, false, position / 2, one));
        TOUCHES(6, 69, 14, bitm_sparse_next(&sparse, true, position, one));
        TOUCHES(6, 69, 14, bitm_sparse_previous(&sparse, true, position, one));
        for (size_t i = 0; i < LIST; i++) queries[i] = draw() % last;
        TOUCHES(6 * LIST, 69 * LIST, 14 * LIST,
                bitm_sparse_get_list(&sparse, queries, LIST, out, LIST, counts_placed()));
        TOUCHES(4 * LIST, 46 * LIST, 12 * LIST,
                bitm_sparse_rank_list(&sparse, kind, queries, LIST, out, LIST, counts_placed()));
        for (size_t i = 0; i < LIST; i++) queries[i] = draw() % ITEMS;
        TOUCHES(2 * LIST, 23 * LIST, 2 * LIST,
                bitm_sparse_select_list(&sparse, true, queries, LIST, out, LIST, counts_placed()));
    }
}

/* The block of sparse bits, of which the header and the directory are read. */
static void open_sparse_bits(uint64_t *one)
{
    uint64_t *positions = placed(OF_QUERIES, 8 * ITEMS), last = 0;
    for (size_t i = 0; i < ITEMS; i++) positions[i] = last += 1 + (draw() >> 36);
    TOUCHES_ANY(bitm_sparse_size(ITEMS, last, one));
    const uint64_t words = *one;
    uint64_t *block = placed(OF_WORDS, 8 * words);
    TOUCHES_ANY(bitm_sparse_build(positions, ITEMS, last + 1, block, words));
    TOUCHES_ANY(bitm_sparse_check(block, words));
    struct bitm_sparse *sparse = placed(OF_STARTS, sizeof *sparse);
    *sparse = (struct bitm_sparse){0};
    TOUCHES(2, 0, 0, bitm_sparse_open(block, words, sparse));
    TOUCHES_ANY(bitm_block_check(block, words));
    TOUCHES(2, 0, 0, bitm_block_extended_size(block, words, 7, ITEMS / 128, one));
    struct bitm_section *section = placed(OF_STARTS, sizeof *section);
    *section = (struct bitm_section){0};
    TOUCHES(2, 0, 0, bitm_block_section(block, words, 3, section));
}

/* A tree in a block, of nodes with two children and of leaves: its words take 32 pages, its hints 8. A query touches a
 * hint and nine words, which may be of two pages here, and two words more; no table, which would be another page. */
static void query_a_tree(uint64_t *one)
{
    uint64_t *degrees = placed(OF_LOW, 8 * (ITEMS - 1));
    for (size_t node = 0; node < ITEMS - 1; node++) degrees[node] = node < ITEMS / 2 - 1 ? 2 : 0;
    TOUCHES_ANY(bitm_tree_size(ITEMS - 1, one));
    const uint64_t words = *one;
    uint64_t *block = placed(OF_WORDS, 8 * words);
    TOUCHES_ANY(bitm_tree_build(degrees, ITEMS - 1, block, words));
    TOUCHES_ANY(bitm_tree_check(block, words));
    struct bitm_tree *tree = placed(OF_STARTS, sizeof *tree);
    *tree = (struct bitm_tree){0};
    TOUCHES(2, 0, 0, bitm_tree_open(block, words, tree));
    for (unsigned turn = 0; turn < 20; turn++) {
        const size_t node = 1 + draw() % (ITEMS - 2), inner = draw() % (ITEMS / 2 - 1);
        TOUCHES(3, 0, 0, bitm_tree_parent(tree, node, one));
        MUST(*one == (node - 1) / 2);
        TOUCHES(3, 0, 0, bitm_tree_degree(tree, node, one));
        TOUCHES(3, 0, 0, bitm_tree_child(tree, inner, turn % 2, one));
        MUST(*one == 2 * inner + 1 + turn % 2);
        TOUCHES(3, 0, 0, bitm_tree_is_leaf(tree, node, one));
    }
}

/* A matrix in a block, whose words take 32 pages. For each bit of the width a number takes eight words, which may be of
 * two pages here, a rank and a range twice as many, and a selection as a number; all take a page or two of tables. */
static void query_a_matrix(uint64_t *one)
{
    enum { WIDTH = 4, TABLES = 4 };
    const size_t len = WORDS / 2;
    uint64_t *numbers = placed(OF_LOW, 8 * len), *scratch = placed(OF_OUT, 16 * len), words;
    for (size_t i = 0; i < len; i++) numbers[i] = draw() >> (64 - WIDTH);
    TOUCHES_ANY(bitm_matrix_size(len, WIDTH, false, false, one));
    words = *one;
    uint64_t *block = placed(OF_WORDS, 8 * words);
    TOUCHES_ANY(bitm_matrix_build(numbers, len, WIDTH, false, false, scratch, 2 * len, block, words));
    TOUCHES_ANY(bitm_matrix_check(block, words));
    struct bitm_matrix *matrix = placed(OF_STARTS, sizeof *matrix);
    *matrix = (struct bitm_matrix){0};
    TOUCHES(2, 0, 0, bitm_matrix_open(block, words, matrix));
    for (unsigned turn = 0; turn < 20; turn++) {
        const size_t at = draw() % (len / 2), end = at + 1 + draw() % (len / 2);
        const uint64_t number = draw() >> (64 - WIDTH);
        TOUCHES(2 * WIDTH + TABLES, 0, 0, bitm_matrix_get(matrix, at, one));
        TOUCHES(4 * WIDTH + TABLES, 0, 0, bitm_matrix_rank(matrix, number, at, one));
        TOUCHES(6 * WIDTH + TABLES, 0, 0, bitm_matrix_select(matrix, number, at / 20, one));
        TOUCHES(4 * WIDTH + TABLES, 0, 0, bitm_matrix_count_less(matrix, at, end, number, one));
        TOUCHES(4 * WIDTH + TABLES, 0, 0, bitm_matrix_quantile(matrix, at, end, (end - at) / 2, one));
    }
}

/* The index of a text is built in memory that is as long as it has to be, of numbers and of bytes. */
static void build_a_text(uint64_t *one)
{
    enum { LEN = 5000, LETTERS = 5, STEP = 8 };
    uint64_t *numbers = placed(OF_LOW, 8 * LEN);
    for (size_t i = 0; i < LEN; i++) numbers[i] = draw() % LETTERS;
    TOUCHES_ANY(bitm_text_size(LEN, 3, LETTERS, STEP, one));
    uint64_t words = *one, same, *block = placed(OF_WORDS, 8 * words);
    TOUCHES_ANY(bitm_text_size_letters(LEN, LETTERS, STEP, &same, one));
    MUST(same == words);
    uint32_t *scratch = placed(OF_OUT, 4 * *one);
    TOUCHES_ANY(bitm_text_build(numbers, LEN, LETTERS, STEP, scratch, *one, block, words));
    TOUCHES_ANY(bitm_text_check(block, words));
    struct bitm_text *text = placed(OF_STARTS, sizeof *text);
    *text = (struct bitm_text){0};
    TOUCHES(2, 0, 0, bitm_text_open(block, words, text));
    uint8_t *bytes = placed(OF_LOW, LEN);
    uint64_t *len = placed(OF_COUNTS, 8);
    for (size_t i = 0; i < LEN; i++) bytes[i] = (uint8_t)(draw() % LETTERS * 60);
    TOUCHES_ANY(bitm_text_size_bytes(bytes, LEN, STEP, len, one));
    words = *len, block = placed(OF_WORDS, 8 * words), scratch = placed(OF_OUT, 4 * *one);
    TOUCHES_ANY(bitm_text_build_bytes(bytes, LEN, STEP, scratch, *one, block, words));
    TOUCHES_ANY(bitm_text_check(block, words));
}

/* The index of a text that is one letter again and again, so that the order of its suffixes is known: the shorter ones
 * are first. The words of its letters take 32 pages, those of its marks 8, and the starts and the samples 16 and more.
 * A count ranks at two ends, at one position of each level: a page for each, where those of the marks would be
 * 8 more; a part is of one position, and positions also take a page or two of the marks. */
static void query_a_text(uint64_t *one)
{
    enum { WIDTH = 4, STEP = 8, STARTS = 1 << 13, COUNT = 2 * WIDTH, PART = COUNT + 2, POSITIONS = COUNT + 5 };
    const size_t len = WORDS / 2 - STEP, sampled = len / STEP + 1;
    uint64_t *numbers = placed(OF_LOW, 8 * (len + 1)), *scratch = placed(OF_OUT, 16 * (len + 1));
    struct bitm_text *text = placed(OF_STARTS, sizeof *text);
    *text = (struct bitm_text){.first = len, .step = STEP, .starts_len = STARTS, .samples_len = sampled};
    uint64_t of_letters, of_marks;
    MUST(bitm_matrix_size(len, WIDTH, false, false, &of_letters) == BITM_OK &&
         bitm_matrix_size(len + 1, 1, false, false, &of_marks) == BITM_OK);
    uint64_t *letters = placed(OF_WORDS, 8 * (of_letters + of_marks)), *marks = letters + of_letters;
    for (size_t i = 0; i <= len; i++) numbers[i] = 0;
    MUST(bitm_matrix_build(numbers, len, WIDTH, false, false, scratch, 2 * len, letters, of_letters) == BITM_OK);
    for (size_t row = 0; row <= len; row++) numbers[row] = (len - row) % STEP == 0;
    MUST(bitm_matrix_build(numbers, len + 1, 1, false, false, scratch, 2 * (len + 1), marks, of_marks) == BITM_OK);
    MUST(bitm_matrix_open(letters, of_letters, &text->letters) == BITM_OK);
    MUST(bitm_matrix_open(marks, of_marks, &text->marks) == BITM_OK);
    uint64_t *starts = placed(OF_LOWER, 8 * STARTS), *samples = placed(OF_SAMPLES, 8 * sampled);
    for (size_t letter = 0; letter < STARTS; letter++) starts[letter] = letter ? len + 1 : 1;
    for (size_t k = 0; k < sampled; k++) samples[k] = (len - k * STEP) | (uint64_t)(len - k * STEP) << 32;
    text->starts = starts, text->samples = samples;
    uint64_t *pattern = placed(OF_QUERIES, 8 * LIST), *out = placed(OF_OUT, 8 * LIST);
    uint8_t *as_bytes = placed(OF_COUNTS, LIST), *bytes = placed(OF_OUT, LIST);
    for (size_t i = 0; i < LIST; i++) pattern[i] = 0, as_bytes[i] = 0;
    TOUCHES(0, 0, 0, bitm_text_len(text, one));
    for (unsigned turn = 0; turn < 20; turn++) {
        const size_t from = draw() % (len - 2 * LIST);
        TOUCHES(COUNT, 1, 0, bitm_text_count(text, pattern, LIST, one));
        MUST(*one == len - LIST + 1);
        TOUCHES(COUNT, 1, 0, bitm_text_count_bytes(text, as_bytes, LIST, one));
        TOUCHES(POSITIONS, 1, 0, bitm_text_locate(text, pattern, LIST, from, out, LIST, one));
        MUST(*one == LIST && out[0] == len - LIST - from);
        TOUCHES(POSITIONS, 1, 0, bitm_text_locate_bytes(text, as_bytes, LIST, from, out, LIST, one));
        TOUCHES(PART, 1, 0, bitm_text_extract(text, from, out, LIST));
        TOUCHES(PART, 1, 0, bitm_text_extract_bytes(text, from, bytes, LIST));
    }
}

/* The parts of a dictionary of the numbers that such steps reach, in memory of their own. */
static struct bitm_dictionary dictionary_made(void)
{
    enum { MOST = ITEMS, SIZES = 256, STEP = 977 };
    uint64_t *hashes = malloc(8 * ITEMS), *words = malloc(8 * MOST), *again = malloc(8 * MOST),
             *sizes = malloc(8 * SIZES), *upper = malloc(8), *lower = malloc(8 * MOST / 32), *keys = malloc(8 * ITEMS),
             levels, len, left, number;
    MUST(hashes && words && again && sizes && upper && lower && keys);
    for (size_t i = 0; i < ITEMS; i++) hashes[i] = STEP * i;
    MUST(bitm_hash_build(hashes, ITEMS, 100, words, MOST, again, MOST, sizes, SIZES, &levels, &len, &left) == BITM_OK);
    MUST(left == 0 && bitm_index_build(words, len, upper, 1, lower, bitm_index_lower_len(len), &number) == BITM_OK);
    const struct bitm_dictionary made = {
        .hash = {index_over(words, len, upper, 1, lower, bitm_index_lower_len(len)), sizes, levels, ITEMS},
        .keys = keys,
        .keys_len = ITEMS};
    for (size_t i = 0; i < ITEMS; i++) {
        MUST(bitm_hash_get(&made.hash, STEP * i, &number) == BITM_OK);
        keys[number] = STEP * i;
    }
    free(hashes), free(again);
    return made;
}

/* A dictionary in a block: a key touches a word of each level, the words of a rank, an entry of each table, the sizes
 * and one key. */
static void query_a_dictionary(uint64_t *one)
{
    enum { OTHERS = 8 };
    static struct bitm_dictionary made;
    if (made.keys_len == 0) made = dictionary_made();
    const size_t height = made.hash.sizes_len;
    uint64_t *out = placed(OF_OUT, 8 * LIST), *queries = placed(OF_QUERIES, 8 * LIST);
    TOUCHES_ANY(bitm_dictionary_size(made.hash.index.words_len, height, ITEMS, one));
    uint64_t words = *one, *block = placed(OF_WORDS, 8 * words);
    TOUCHES_ANY(bitm_dictionary_build(&made, block, words));
    TOUCHES_ANY(bitm_dictionary_check(block, words));
    struct bitm_dictionary *dictionary = placed(OF_STARTS, sizeof *dictionary);
    *dictionary = (struct bitm_dictionary){0};
    TOUCHES(2, 0, 0, bitm_dictionary_open(block, words, dictionary));
    for (unsigned turn = 0; turn < 20; turn++) {
        const uint64_t key = made.keys[draw() % ITEMS];
        TOUCHES(height + OTHERS, 0, 0, bitm_dictionary_find(dictionary, key, one));
        for (size_t i = 0; i < LIST; i++) queries[i] = made.keys[draw() % 9];
        TOUCHES(LIST * (height + OTHERS), 0, 0,
                bitm_dictionary_find_list(dictionary, queries, LIST, out, LIST, counts_placed()));
    }
    TOUCHES_ANY(bitm_hash_block_size(made.hash.index.words_len, height, one));
    words = *one, block = placed(OF_WORDS, 8 * words);
    TOUCHES_ANY(bitm_hash_block_build(made.hash.index.words, made.hash.index.words_len, made.hash.sizes, height, 7,
                                      block, words));
    TOUCHES_ANY(bitm_hash_block_check(block, words));
    struct bitm_hash *hash = placed(OF_STARTS, sizeof *hash);
    *hash = (struct bitm_hash){0};
    TOUCHES(2, 0, 0, bitm_hash_block_open(block, words, hash, one));
    MUST(*one == 7);
}

/* A hash with seeds in a block: opening looks at the first words, and not at the bytes; a number touches a word and a
 * seed of each level. */
static void query_seeds_in_a_block(uint64_t *one)
{
    enum { MOST = ITEMS, SIZES = 256, OTHERS = 8 };
    static uint64_t *words, *again, *sizes, *keys, *hashes, *sorted, levels, filled, left;
    static uint8_t *seeds;
    if (words == NULL) {
        words = malloc(8 * MOST), again = malloc(8 * MOST), sizes = malloc(8 * SIZES), seeds = malloc(MOST);
        keys = malloc(8 * ITEMS), hashes = malloc(8 * ITEMS), sorted = malloc(8 * ITEMS);
        MUST(words && again && sizes && seeds && keys && hashes && sorted);
        for (size_t i = 0; i < ITEMS; i++) keys[i] = hashes[i] = draw();
        MUST(bitm_hash_build_seeded(hashes, ITEMS, 100, 2, words, MOST, seeds, MOST, again, MOST, sorted, ITEMS, sizes,
                                    SIZES, &levels, &filled, &left) == BITM_OK && left == 0);
    }
    TOUCHES_ANY(bitm_hash_block_size_seeded(filled, levels, one));
    const uint64_t len = *one;
    uint64_t *block = placed(OF_WORDS, 8 * len);
    TOUCHES_ANY(bitm_hash_block_build_seeded(words, filled, seeds, filled, sizes, levels, 7, block, len));
    TOUCHES_ANY(bitm_hash_block_check_seeded(block, len));
    struct bitm_seeded_hash *hash = placed(OF_STARTS, sizeof *hash);
    *hash = (struct bitm_seeded_hash){.seeds = NULL};
    TOUCHES(2, 0, 0, bitm_hash_block_open_seeded(block, len, hash, one));
    MUST(*one == 7);
    for (unsigned turn = 0; turn < 20; turn++)
        TOUCHES(2 * levels + OTHERS, 0, 0, bitm_hash_get_seeded(hash, keys[draw() % ITEMS], one));
}

/* Strings of eight bytes, the numbers that such steps reach, and a hash of their hashes, in memory of their own. */
static uint64_t spelled[ITEMS], ends_of[ITEMS];

static struct bitm_hash strings_hashed(void)
{
    enum { MOST = ITEMS, SIZES = 256, STEP = 977 };
    uint64_t *hashes = malloc(8 * ITEMS), *words = malloc(8 * MOST), *again = malloc(8 * MOST),
             *sizes = malloc(8 * SIZES), *upper = malloc(8), *lower = malloc(8 * MOST / 32), levels, len, left, number;
    MUST(hashes && words && again && sizes && upper && lower);
    for (size_t i = 0; i < ITEMS; i++) spelled[i] = STEP * i, ends_of[i] = 8 * i + 8;
    MUST(bitm_strings_hashes((const uint8_t *)spelled, 8 * ITEMS, ends_of, ITEMS, 0, hashes, ITEMS) == BITM_OK);
    MUST(bitm_hash_build(hashes, ITEMS, 100, words, MOST, again, MOST, sizes, SIZES, &levels, &len, &left) == BITM_OK);
    MUST(left == 0 && bitm_index_build(words, len, upper, 1, lower, bitm_index_lower_len(len), &number) == BITM_OK);
    free(hashes), free(again);
    return (struct bitm_hash){index_over(words, len, upper, 1, lower, bitm_index_lower_len(len)), sizes, levels, ITEMS};
}

/* Strings in a block: one touches what a hash touches, its starts, which may be of two pages, and as its bytes. */
static void query_strings(uint64_t *one)
{
    enum { OTHERS = 8 };
    static struct bitm_hash made;
    if (made.keys == 0) made = strings_hashed();
    const size_t height = made.sizes_len;
    const uint8_t *const bytes = (const uint8_t *)spelled;
    uint64_t *out = placed(OF_OUT, 8 * LIST), *ends = placed(OF_QUERIES, 8 * LIST);
    TOUCHES_ANY(bitm_strings_size(made.index.words_len, height, ITEMS, 8 * ITEMS, one));
    const uint64_t words = *one;
    uint64_t *block = placed(OF_WORDS, 8 * words);
    TOUCHES_ANY(bitm_strings_build(&made, 0, bytes, 8 * ITEMS, ends_of, ITEMS, block, words));
    TOUCHES_ANY(bitm_strings_check(block, words));
    struct bitm_strings *strings = placed(OF_STARTS, sizeof *strings);
    *strings = (struct bitm_strings){0};
    TOUCHES(2, 0, 0, bitm_strings_open(block, words, strings));
    for (size_t i = 0; i < LIST; i++) ends[i] = 8 * i + 8;
    for (unsigned turn = 0; turn < 20; turn++) {
        const uint64_t at = draw() % (ITEMS - LIST), key = spelled[at];
        TOUCHES(height + OTHERS, 0, 0, bitm_strings_find(strings, (const uint8_t *)&key, 8, one));
        TOUCHES(4, 0, 0, bitm_strings_get(strings, at, one, out));
        TOUCHES(LIST * (height + OTHERS), 0, 0,
                bitm_strings_find_list(strings, bytes + 8 * at, 8 * LIST, ends, LIST, out, LIST, counts_placed()));
    }
}

#endif
