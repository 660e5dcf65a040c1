/* Writes to standard output blocks of drawn bits, sequences, sparse bits, hashes with and without seeds, dictionaries,
 * strings, matrices, trees and tries, each after what it was made of: six words (the kind of the block, DICTIONARY or
 * SEEDED; how many bits, numbers, 1 bits, keys, strings or nodes; the width of numbers or labels, how many bits, or the
 * percent of a hash; how many words are given; how many words the block has; the seed of a hash), the given words, and
 * the block.
 * bindings/tests/test_formats.py writes the same blocks by docs/FORMAT.md. */
#include "common.h"

#include <string.h>

/* A dictionary and a hash with seeds are of kind 5, as a hash. */
enum { WORDS = 4000, SCRATCH = 2 * WORDS, DICTIONARY = 50, SEEDED = 51 };

static uint64_t given[WORDS], scratch[SCRATCH], block[2 * WORDS + 400];

static void put(const uint64_t *words, size_t len) { MUST(fwrite(words, 8, len, stdout) == len); }

static void put_seeded(uint64_t kind, uint64_t len, uint64_t width, size_t given_len, size_t block_len, uint64_t with)
{
    const uint64_t head[6] = {kind, len, width, given_len, block_len, with};
    put(head, 6), put(given, given_len), put(block, block_len);
}

static void put_block(uint64_t kind, uint64_t len, uint64_t width, size_t given_len, size_t block_len)
{
    put_seeded(kind, len, width, given_len, block_len, 0);
}

static void of_bits(uint64_t len)
{
    uint64_t words;
    const size_t n = bitm_bits_words_len(len);
    for (size_t i = 0; i < n; i++) given[i] = draw();
    MUST(bitm_index_block_size(len, &words) == BITM_OK && words <= sizeof block / 8);
    memset(block, UNTOUCHED, sizeof block);
    MUST(bitm_index_block_build(given, n, len, block, words) == BITM_OK);
    put_block(2, len, 0, n, words);
}

static void of_sequence(size_t len, uint64_t most)
{
    uint64_t words, sum = draw() % most;
    for (size_t i = 0; i < len; i++) given[i] = sum, sum += draw() % most;
    MUST(bitm_sequence_block_size(len, len ? given[len - 1] : 0, &words) == BITM_OK && words <= sizeof block / 8);
    memset(block, UNTOUCHED, sizeof block);
    MUST(bitm_sequence_block_build(given, len, block, words) == BITM_OK);
    put_block(3, len, 0, len, words);
}

static void of_sparse(size_t ones, uint64_t most, uint64_t more)
{
    uint64_t words, next = draw() % most;
    for (size_t i = 0; i < ones; i++) given[i] = next, next += 1 + draw() % most;
    const uint64_t last = ones ? given[ones - 1] : 0, bits = last + (ones > 0) + more;
    MUST(bitm_sparse_size(ones, last, &words) == BITM_OK && words <= sizeof block / 8);
    memset(block, UNTOUCHED, sizeof block);
    MUST(bitm_sparse_build(given, ones, bits, block, words) == BITM_OK);
    put_block(4, ones, bits, ones, words);
}

/* With quarters where how is 1 or 3, and with hints where it is 2 or 3. */
static void of_matrix(size_t len, uint32_t width, size_t how)
{
    uint64_t words;
    const bool quarters = how % 2, hints = how / 2;
    for (size_t i = 0; i < len; i++) given[i] = draw() >> (64 - width);
    MUST(bitm_matrix_size(len, width, quarters, hints, &words) == BITM_OK && words <= sizeof block / 8);
    memset(block, UNTOUCHED, sizeof block);
    MUST(bitm_matrix_build(given, len, width, quarters, hints, scratch, 2 * len, block, words) == BITM_OK);
    put_block(6, len, width + 256 * how, len, words);
}

static uint64_t level_words[SCRATCH], again[SCRATCH], upper[1], lower[SCRATCH / 32], sizes[256];

/* The hash of the hashes in scratch, which are moved: its levels are written. */
static struct bitm_hash hash_of(size_t keys, uint32_t percent)
{
    uint64_t levels, filled, left, ones;
    MUST(bitm_hash_build(scratch, keys, percent, level_words, SCRATCH, again, SCRATCH, sizes, 256, &levels, &filled,
                         &left) == BITM_OK &&
         left == 0);
    const size_t lowers = bitm_index_lower_len(filled), uppers = bitm_index_upper_len(filled);
    MUST(bitm_index_build(level_words, filled, upper, uppers, lower, lowers, &ones) == BITM_OK && ones == keys);
    return (struct bitm_hash){.index = index_over(level_words, filled, upper, uppers, lower, lowers),
                              .sizes = sizes,
                              .sizes_len = levels,
                              .keys = keys};
}

static void of_hash(size_t keys, uint32_t percent)
{
    uint64_t words;
    for (size_t i = 0; i < keys; i++) given[i] = draw();
    const uint64_t with = draw();
    memcpy(scratch, given, 8 * keys);
    const struct bitm_hash hash = hash_of(keys, percent);
    MUST(bitm_hash_block_size(hash.index.words_len, hash.sizes_len, &words) == BITM_OK && words <= sizeof block / 8);
    memset(block, UNTOUCHED, sizeof block);
    MUST(bitm_hash_block_build(level_words, hash.index.words_len, sizes, hash.sizes_len, with, block, words) ==
         BITM_OK);
    put_seeded(5, keys, percent, keys, words, with);
}

/* The number of tries stands after the hashes. */
static void of_seeded(size_t keys, uint32_t percent, uint16_t tries)
{
    static uint64_t sorted[WORDS];
    static uint8_t seeds[SCRATCH];
    uint64_t words, levels, filled, left;
    for (size_t i = 0; i < keys; i++) scratch[i] = given[i] = draw();
    given[keys] = tries;
    const uint64_t with = draw();
    MUST(bitm_hash_build_seeded(scratch, keys, percent, tries, level_words, SCRATCH, seeds, SCRATCH, again, SCRATCH,
                                sorted, keys, sizes, 256, &levels, &filled, &left) == BITM_OK && left == 0);
    MUST(bitm_hash_block_size_seeded(filled, levels, &words) == BITM_OK && words <= sizeof block / 8);
    memset(block, UNTOUCHED, sizeof block);
    MUST(bitm_hash_block_build_seeded(level_words, filled, seeds, filled, sizes, levels, with, block, words) ==
         BITM_OK);
    put_seeded(SEEDED, keys, percent, keys + 1, words, with);
}

static void of_dictionary(size_t keys, uint32_t percent)
{
    static uint64_t placed[WORDS];
    uint64_t words, number;
    for (size_t i = 0; i < keys; i++) given[i] = draw();
    const uint64_t with = draw();
    for (size_t i = 0; i < keys; i++) scratch[i] = given[i] + with;
    const struct bitm_dictionary made = {
        .hash = hash_of(keys, percent), .keys = placed, .keys_len = keys, .seed = with};
    for (size_t i = 0; i < keys; i++) {
        MUST(bitm_hash_get(&made.hash, given[i] + with, &number) == BITM_OK && number < keys);
        placed[number] = given[i];
    }
    MUST(bitm_dictionary_size(made.hash.index.words_len, made.hash.sizes_len, keys, &words) == BITM_OK &&
         words <= sizeof block / 8);
    memset(block, UNTOUCHED, sizeof block);
    MUST(bitm_dictionary_build(&made, block, words) == BITM_OK);
    put_seeded(DICTIONARY, keys, percent, keys, words, with);
}

/* Strings of 3 to 12 bytes, of which the first two say which it is, and an empty one: where each ends, and their bytes.
 */
static void of_strings(size_t count, uint32_t percent)
{
    uint64_t words, len = 0;
    uint8_t *const bytes = (uint8_t *)(given + count);
    memset(given, 0, sizeof given);
    for (size_t i = 0; i < count; i++) {
        const size_t more = i ? 1 + draw() % 10 : 0;
        if (i) bytes[len++] = (uint8_t)i, bytes[len++] = (uint8_t)(i >> 8);
        for (size_t k = 0; k < more; k++) bytes[len++] = (uint8_t)draw();
        given[i] = len;
    }
    const uint64_t with = draw();
    MUST(bitm_strings_hashes(bytes, len, given, count, with, scratch, count) == BITM_OK);
    const struct bitm_hash hash = hash_of(count, percent);
    MUST(bitm_strings_size(hash.index.words_len, hash.sizes_len, count, len, &words) == BITM_OK &&
         words <= sizeof block / 8);
    memset(block, UNTOUCHED, sizeof block);
    MUST(bitm_strings_build(&hash, with, bytes, len, given, count, block, words) == BITM_OK);
    put_seeded(12, count, percent, count + (len + 7) / 8, words, with);
}

/* The degrees of a tree, at most `most` each: a node has a child where no later one would have a parent else. */
static void draw_degrees(size_t nodes, uint64_t most)
{
    size_t known = 1;
    for (size_t i = 0; i < nodes; i++) {
        uint64_t degree = draw() % (most + 1);
        if (known == i + 1 && degree == 0) degree = 1;
        given[i] = degree < nodes - known ? degree : nodes - known;
        known += given[i];
    }
}

static void of_tree(size_t nodes, uint64_t most)
{
    uint64_t words;
    draw_degrees(nodes, most);
    MUST(bitm_tree_size(nodes, &words) == BITM_OK && words <= sizeof block / 8);
    memset(block, UNTOUCHED, sizeof block);
    MUST(bitm_tree_build(given, nodes, block, words) == BITM_OK);
    put_block(7, nodes, 0, nodes, words);
}

/* The labels of up to four children: the number of each in their two highest bits. */
static void of_trie(size_t nodes, uint32_t width, bool has_ends)
{
    uint64_t words, *label = given + nodes;
    draw_degrees(nodes, width == 1 ? 2 : 4);
    for (size_t i = 0; i < nodes; i++)
        for (uint64_t k = 0; k < given[i]; k++)
            *label++ = width <= 2 ? k : (k << (width - 2)) + (draw() >> (66 - width));
    const size_t ends = has_ends ? (nodes + 63) / 64 : 0;
    for (size_t i = 0; i < ends; i++) label[i] = draw();
    MUST(bitm_trie_size(nodes, width, has_ends, &words) == BITM_OK && words <= sizeof block / 8);
    memset(block, UNTOUCHED, sizeof block);
    MUST(bitm_trie_build(given, nodes, given + nodes, nodes - 1, width, label, ends, block, words) == BITM_OK);
    put_block(9, nodes, width, 2 * nodes - 1 + ends, words);
}

int main(int argc, char **argv)
{
    static const uint64_t of_len[] = {0, 1, 63, 64, 100, 2048, 2049, 5000, 64 * WORDS};
    static const uint32_t widths[] = {1, 2, 3, 8, 31, 64};
    static const size_t nodes[] = {1, 2, 31, 32, 100, 1500};
    take_seed(argc, argv);
    for (size_t i = 0; i < sizeof of_len / sizeof *of_len; i++) of_bits(of_len[i]);
    for (size_t i = 0; i < 9; i++) of_sequence(i < 4 ? i : 100 * i, (uint64_t)1 << 6 * i);
    for (size_t i = 0; i < 18; i++) of_sparse(i < 8 ? i / 2 : 50 * i, (uint64_t)1 << 3 * i, i % 2 * 1000);
    for (size_t i = 0; i < 6; i++)
        for (size_t k = 0; k < 16; k++) of_matrix(k < 8 ? k / 4 : k < 12 ? 6 : 1000 / (i + 1), widths[i], k % 4);
    for (size_t i = 0; i < 9; i++) of_hash(i < 4 ? i : 200 * i, i % 3 ? 100 : 25 * (uint32_t)i);
    for (size_t i = 0; i < 12; i++)
        of_seeded(i < 4 ? i : 60 * i, i % 3 ? 100 : 25 * (uint32_t)i, (uint16_t)(i == 11 ? 300 : 5 * i));
    for (size_t i = 0; i < 9; i++) of_dictionary(i < 4 ? i : 200 * i, i % 3 ? 100 : 200);
    for (size_t i = 0; i < 9; i++) of_strings(i < 4 ? i : 200 * i, i % 3 ? 100 : 200);
    for (size_t i = 0; i < 6; i++)
        for (uint64_t most = 1; most < 4; most++) of_tree(nodes[i], most);
    for (size_t i = 0; i < 6; i++)
        for (size_t k = 0; k < 6; k++) of_trie(nodes[i], widths[k] - (widths[k] == 64), i % 2 == k % 2);
    return 0;
}
