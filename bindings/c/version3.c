/* Blocks of version 3 of the format, one of each kind: they are opened, checked and queried, a changed word is seen,
 * and what is extended has version 4. The argument is the file of the blocks, which stand one after another in it:
 * bindings/tests/version_3.blocks, which bindings/tests/test_formats.py writes by docs/FORMAT.md. */
#include "common.h"

#include <string.h>

enum { ROOM = 512, NOTE = 1 << 16 };

#define BYTES(text) (const uint8_t *)(text), sizeof(text) - 1

static uint64_t block[ROOM], longer[ROOM];

/* Whether the block is as it was written and holds its kind: bits whose every third is a 1 bit, squares, .. */
static bool is_right(size_t len)
{
    struct bitm_index bits;
    struct bitm_sequence squares;
    struct bitm_sparse sparse;
    struct bitm_hash hash;
    struct bitm_seeded_hash seeded;
    struct bitm_dictionary keys;
    struct bitm_matrix numbers;
    struct bitm_tree tree;
    struct bitm_text text;
    struct bitm_trie trie;
    struct bitm_strings strings;
    uint64_t seed, one = 0;
    MUST(bitm_block_check(block, len) == BITM_OK);
    switch (block[1]) {
    case 2:
        MUST(bitm_index_block_check(block, len) == BITM_OK && bitm_index_block_open(block, len, &bits) == BITM_OK);
        return bitm_index_select(&bits, true, 5, &one) == BITM_OK && one == 15;
    case 3:
        MUST(bitm_sequence_block_check(block, len) == BITM_OK);
        MUST(bitm_sequence_block_open(block, len, &squares) == BITM_OK);
        return bitm_sequence_get(&squares, 7, &one) == BITM_OK && one == 49;
    case 4:
        MUST(bitm_sparse_check(block, len) == BITM_OK && bitm_sparse_open(block, len, &sparse) == BITM_OK);
        return bitm_sparse_select(&sparse, true, 7, &one) == BITM_OK && one == 49;
    case 5:
        if (bitm_dictionary_check(block, len) == BITM_OK) {
            MUST(bitm_dictionary_open(block, len, &keys) == BITM_OK);
            return bitm_dictionary_find(&keys, 49, &one) == BITM_OK && keys.keys[one] == 49;
        }
        if (bitm_hash_block_check_seeded(block, len) == BITM_OK) {
            MUST(bitm_hash_block_open_seeded(block, len, &seeded, &seed) == BITM_OK && seed == 7);
            return bitm_hash_get_seeded(&seeded, 49, &one) == BITM_OK && one < 40;
        }
        MUST(bitm_hash_block_check(block, len) == BITM_OK && bitm_hash_block_open(block, len, &hash, &seed) == BITM_OK);
        return seed == 7 && bitm_hash_get(&hash, 49, &one) == BITM_OK && one < 40;
    case 6:
        MUST(bitm_matrix_check(block, len) == BITM_OK && bitm_matrix_open(block, len, &numbers) == BITM_OK);
        return bitm_matrix_get(&numbers, 4, &one) == BITM_OK && one == 5;
    case 7:
        MUST(bitm_tree_check(block, len) == BITM_OK && bitm_tree_open(block, len, &tree) == BITM_OK);
        return bitm_tree_parent(&tree, 3, &one) == BITM_OK && one == 2;
    case 8:
        MUST(bitm_text_check(block, len) == BITM_OK && bitm_text_open(block, len, &text) == BITM_OK);
        return bitm_text_count_bytes(&text, BYTES("ana"), &one) == BITM_OK && one == 2;
    case 9:
        MUST(bitm_trie_check(block, len) == BITM_OK && bitm_trie_open(block, len, &trie) == BITM_OK);
        return bitm_trie_find_bytes(&trie, BYTES("be"), &one) == BITM_OK && one == 3;
    default:
        MUST(bitm_strings_check(block, len) == BITM_OK && bitm_strings_open(block, len, &strings) == BITM_OK);
        MUST(strings.kind == block[1] && bitm_strings_find(&strings, BYTES("eve"), &one) == BITM_NONE);
        return bitm_strings_find(&strings, BYTES("bob"), &one) == BITM_OK && one < 2;
    }
}

/* With a note the block has version 4 and holds what it held. */
static void extend(size_t len)
{
    const uint64_t note = 0x65746f6e;
    uint64_t more;
    MUST(bitm_block_extended_size(block, len, NOTE, 4, &more) == BITM_OK && more <= ROOM);
    MUST(bitm_block_extend(block, len, NOTE, 4, &note, 1, longer, more) == BITM_OK);
    MUST(memcmp(longer, "bitmtab\4", 8) == 0);
    memcpy(block, longer, 8 * more);
    MUST(is_right(more));
}

static void one_block(size_t len)
{
    MUST(memcmp(block, "bitmtab\3", 8) == 0 && is_right(len));
    for (size_t i = 0; i < len; i++) {
        block[i] ^= (uint64_t)1 << i % 64;
        MUST(bitm_block_check(block, len) == BITM_WRONG);
        block[i] ^= (uint64_t)1 << i % 64;
    }
    extend(len);
}

int main(int argc, char **argv)
{
    int blocks = 0;
    FILE *const file = argc == 2 ? fopen(argv[1], "rb") : NULL;
    MUST(file);
    for (; fread(block, 8, 3, file) == 3; blocks++) {
        const size_t len = block[2] / 8;
        MUST(len <= ROOM && fread(block + 3, 8, len - 3, file) == len - 3);
        one_block(len);
    }
    MUST(feof(file) && fclose(file) == 0 && blocks == 12);
    puts("C: blocks of version 3 are opened, checked and queried, and extended as blocks of version 4");
    return 0;
}
