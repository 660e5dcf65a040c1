/* A block in which one bit was flipped, or of which words are missing, is refused by the check of its kind, without
 * sections of a caller's own and with one. */
#include "small_blocks.h"

static const struct kind {
    const char *name;
    size_t (*build)(uint64_t *);
    uint32_t (*check)(const uint64_t *, size_t);
} kinds[] = {
    {"index", small_index, bitm_index_block_check},
    {"sequence", small_sequence, bitm_sequence_block_check},
    {"sparse", small_sparse, bitm_sparse_check},
    {"hash", small_hash, bitm_hash_block_check},
    {"seeded hash", small_seeded_hash, bitm_hash_block_check_seeded},
    {"dictionary", small_dictionary, bitm_dictionary_check},
    {"strings", small_strings, bitm_strings_check},
    {"tree", small_tree, bitm_tree_check},
    {"trie", small_trie, bitm_trie_check},
    {"matrix", small_matrix, bitm_matrix_check},
    {"matrix with quarters", small_matrix_of_quarters, bitm_matrix_check},
    {"matrix with hints", small_matrix_of_hints, bitm_matrix_check},
    {"matrix with both", small_matrix_of_both, bitm_matrix_check},
    {"text", small_text, bitm_text_check},
    {"text of numbers", small_text_of_numbers, bitm_text_check},
};

static void refused(const struct kind *kind, uint64_t *block, size_t len)
{
    MUST(kind->check(block, len) == BITM_OK && bitm_block_check(block, len) == BITM_OK);
    for (size_t bit = 0; bit < 64 * len; bit++) {
        block[bit / 64] ^= (uint64_t)1 << bit % 64;
        if (kind->check(block, len) != BITM_WRONG || bitm_block_check(block, len) != BITM_WRONG)
            printf("%s: bit %zu\n", kind->name, bit), abort();
        block[bit / 64] ^= (uint64_t)1 << bit % 64;
    }
    for (size_t less = 0; less < len; less++) MUST(kind->check(block, less) == BITM_WRONG);
}

int main(int argc, char **argv)
{
    static uint64_t block[ROOM], noted[ROOM + 16];
    take_seed(argc, argv);
    const uint64_t note[2] = {draw(), draw() >> 8}; /* of 15 bytes */
    uint64_t noted_len;
    for (const struct kind *kind = kinds; kind < kinds + sizeof kinds / sizeof *kinds; kind++) {
        const size_t len = kind->build(block);
        refused(kind, block, len);
        MUST(bitm_block_extended_size(block, len, 65536, 15, &noted_len) == BITM_OK && noted_len <= ROOM + 16);
        MUST(bitm_block_extend(block, len, 65536, 15, note, 2, noted, noted_len) == BITM_OK);
        refused(kind, noted, noted_len);
    }
    puts("C: a block of each kind in which one bit was flipped is refused, with a section of a caller's own too");
    return 0;
}
