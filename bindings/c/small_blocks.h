/* A small block of each kind, written into the caller's memory of ROOM words. Each call returns how many it takes. */
#ifndef SMALL_BLOCKS_H
#define SMALL_BLOCKS_H

#include "common.h"

#include <string.h>

#define FOUND 0x13198a2e03707344 /* the hash of a key of the hashes */
enum { ROOM = 512, BITS = 100 };

static inline size_t small_index(uint64_t *block)
{
    const uint64_t words[2] = {0x5a, 1};
    uint64_t len;
    MUST(bitm_index_block_size(BITS, &len) == BITM_OK && len <= ROOM);
    MUST(bitm_index_block_build(words, 2, BITS, block, len) == BITM_OK);
    return len;
}

static inline size_t small_sequence(uint64_t *block)
{
    const uint64_t items[3] = {2, 3, 5};
    uint64_t len;
    MUST(bitm_sequence_block_size(3, 5, &len) == BITM_OK && len <= ROOM);
    MUST(bitm_sequence_block_build(items, 3, block, len) == BITM_OK);
    return len;
}

static inline size_t small_sparse(uint64_t *block)
{
    const uint64_t positions[3] = {2, 3, 5};
    uint64_t len;
    MUST(bitm_sparse_size(3, 5, &len) == BITM_OK && len <= ROOM);
    MUST(bitm_sparse_build(positions, 3, BITS, block, len) == BITM_OK);
    return len;
}

static inline size_t small_matrix_with(bool quarters, bool hints, uint64_t *block)
{
    const uint64_t numbers[3] = {2, 3, 5};
    uint64_t len, scratch[6];
    MUST(bitm_matrix_size(3, 3, quarters, hints, &len) == BITM_OK && len <= ROOM);
    MUST(bitm_matrix_build(numbers, 3, 3, quarters, hints, scratch, 6, block, len) == BITM_OK);
    return len;
}
static inline size_t small_matrix(uint64_t *block) { return small_matrix_with(false, false, block); }
static inline size_t small_matrix_of_quarters(uint64_t *block) { return small_matrix_with(true, false, block); }
static inline size_t small_matrix_of_hints(uint64_t *block) { return small_matrix_with(false, true, block); }
static inline size_t small_matrix_of_both(uint64_t *block) { return small_matrix_with(true, true, block); }

static inline size_t small_tree(uint64_t *block)
{
    const uint64_t degrees[4] = {2, 1, 0, 0};
    uint64_t len;
    MUST(bitm_tree_size(4, &len) == BITM_OK && len <= ROOM && bitm_tree_build(degrees, 4, block, len) == BITM_OK);
    return len;
}

static inline size_t small_trie(uint64_t *block)
{
    const uint64_t degrees[4] = {2, 1, 0, 0}, labels[3] = {'a', 'b', 'e'}, ends[1] = {14};
    uint64_t len;
    MUST(bitm_trie_size(4, 8, true, &len) == BITM_OK && len <= ROOM);
    MUST(bitm_trie_build(degrees, 4, labels, 3, 8, ends, 1, block, len) == BITM_OK);
    return len;
}

static inline size_t small_text(uint64_t *block)
{
    const uint8_t *const banana = (const uint8_t *)"banana";
    uint64_t len, room;
    uint32_t scratch[64];
    MUST(bitm_text_size_bytes(banana, 6, 32, &len, &room) == BITM_OK && len <= ROOM && room <= 64);
    MUST(bitm_text_build_bytes(banana, 6, 32, scratch, room, block, len) == BITM_OK);
    return len;
}

static inline size_t small_text_of_numbers(uint64_t *block)
{
    const uint64_t numbers[5] = {3, 1, 4, 1, 5};
    uint64_t len, room;
    uint32_t scratch[64];
    MUST(bitm_text_size_letters(5, 8, 2, &len, &room) == BITM_OK && len <= ROOM && room <= 64);
    MUST(bitm_text_build(numbers, 5, 8, 2, scratch, room, block, len) == BITM_OK);
    return len;
}

/* The levels of a hash of three keys, with an index, for the kinds that have one. */
struct small_levels {
    uint64_t words[64], sizes[256], upper[1], lower[2], used, levels;
    uint8_t seeds[64];
};

static inline struct bitm_hash small_hash_of(const uint64_t *hashes, bool seeded, struct small_levels *it)
{
    uint64_t of[3], again[64], sorted[3], left, ones;
    memcpy(of, hashes, sizeof of);
    if (seeded)
        MUST(bitm_hash_build_seeded(of, 3, 100, 64, it->words, 64, it->seeds, 64, again, 64, sorted, 3, it->sizes, 256,
                                    &it->levels, &it->used, &left) == BITM_OK);
    else
        MUST(bitm_hash_build(of, 3, 100, it->words, 64, again, 64, it->sizes, 256, &it->levels, &it->used, &left) ==
             BITM_OK);
    MUST(left == 0 && bitm_index_lower_len(it->used) <= 2);
    const size_t lowers = bitm_index_lower_len(it->used);
    MUST(bitm_index_build(it->words, it->used, it->upper, 1, it->lower, lowers, &ones) == BITM_OK);
    const struct bitm_index index = {.words = it->words, .words_len = it->used, .upper = it->upper, .upper_len = 1,
                                     .lower = it->lower, .lower_len = lowers, .bits_len = 64 * it->used};
    return (struct bitm_hash){.index = index, .sizes = it->sizes, .sizes_len = it->levels, .keys = 3};
}

static const uint64_t small_keys[3] = {0x243f6a8885a308d3, FOUND, 0xa4093822299f31d0};

static inline size_t small_hash(uint64_t *block)
{
    static struct small_levels it;
    uint64_t len;
    small_hash_of(small_keys, false, &it);
    MUST(bitm_hash_block_size(it.used, it.levels, &len) == BITM_OK && len <= ROOM);
    MUST(bitm_hash_block_build(it.words, it.used, it.sizes, it.levels, 7, block, len) == BITM_OK);
    return len;
}

static inline size_t small_seeded_hash(uint64_t *block)
{
    static struct small_levels it;
    uint64_t len;
    small_hash_of(small_keys, true, &it);
    MUST(bitm_hash_block_size_seeded(it.used, it.levels, &len) == BITM_OK && len <= ROOM);
    MUST(bitm_hash_block_build_seeded(it.words, it.used, it.seeds, it.used, it.sizes, it.levels, 7, block, len) ==
         BITM_OK);
    return len;
}

static inline size_t small_dictionary(uint64_t *block)
{
    static struct small_levels it;
    uint64_t len, number, placed[3];
    struct bitm_dictionary of = {.hash = small_hash_of(small_keys, false, &it), .keys = placed, .keys_len = 3};
    for (int i = 0; i < 3; i++) { /* by the seed 0 a key is its hash */
        MUST(bitm_hash_get(&of.hash, small_keys[i], &number) == BITM_OK);
        placed[number] = small_keys[i];
    }
    MUST(bitm_dictionary_size(it.used, it.levels, 3, &len) == BITM_OK && len <= ROOM);
    MUST(bitm_dictionary_build(&of, block, len) == BITM_OK);
    return len;
}

static inline size_t small_strings(uint64_t *block)
{
    static struct small_levels it;
    const uint8_t *const spelled = (const uint8_t *)"anabobeve";
    const uint64_t ends[3] = {3, 6, 9};
    uint64_t hashes[3], len;
    MUST(bitm_strings_hashes(spelled, 9, ends, 3, 1, hashes, 3) == BITM_OK);
    const struct bitm_hash hash = small_hash_of(hashes, false, &it);
    MUST(bitm_strings_size(it.used, it.levels, 3, 9, &len) == BITM_OK && len <= ROOM);
    MUST(bitm_strings_build(&hash, 1, spelled, 9, ends, 3, block, len) == BITM_OK);
    return len;
}

#endif
