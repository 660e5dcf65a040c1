/* A struct that an open call writes need not be initialized: one that holds garbage is written as one of zeros is. */
#include "small_blocks.h"

static uint64_t block[ROOM];

/* Opens the block into a struct of garbage, and into one of zeros: `of` queries both alike. */
#define OPENS(type, open, len, of)                                                                                     \
    do {                                                                                                               \
        struct type garbage, zeros = {0};                                                                              \
        memset(&garbage, 0xa5, sizeof garbage);                                                                        \
        MUST(open(block, len, &garbage) == BITM_OK && open(block, len, &zeros) == BITM_OK);                            \
        uint64_t of_garbage, of_zeros;                                                                                 \
        MUST(of(&garbage, &of_garbage) == BITM_OK && of(&zeros, &of_zeros) == BITM_OK && of_garbage == of_zeros);      \
    } while (0)

static uint32_t of_index(const struct bitm_index *it, uint64_t *one) { return bitm_index_rank(it, true, BITS, one); }
static uint32_t of_sequence(const struct bitm_sequence *it, uint64_t *one) { return bitm_sequence_get(it, 2, one); }
static uint32_t of_sparse(const struct bitm_sparse *it, uint64_t *one) { return bitm_sparse_select(it, true, 2, one); }
static uint32_t of_tree(const struct bitm_tree *tree, uint64_t *one) { return bitm_tree_parent(tree, 3, one); }
static uint32_t of_trie(const struct bitm_trie *trie, uint64_t *one) { return bitm_trie_label(trie, 3, one); }
static uint32_t of_matrix(const struct bitm_matrix *it, uint64_t *one) { return bitm_matrix_get(it, 2, one); }
static uint32_t of_text(const struct bitm_text *text, uint64_t *one) { return bitm_text_len(text, one); }

static uint32_t open_hash(const uint64_t *it, size_t len, struct bitm_hash *hash)
{
    uint64_t seed;
    return bitm_hash_block_open(it, len, hash, &seed);
}
static uint32_t of_hash(const struct bitm_hash *hash, uint64_t *one) { return bitm_hash_get(hash, FOUND, one); }

static uint32_t open_seeded_hash(const uint64_t *it, size_t len, struct bitm_seeded_hash *hash)
{
    uint64_t seed;
    return bitm_hash_block_open_seeded(it, len, hash, &seed);
}
static uint32_t of_seeded_hash(const struct bitm_seeded_hash *it, uint64_t *one)
{
    return bitm_hash_get_seeded(it, FOUND, one);
}

static uint32_t of_dictionary(const struct bitm_dictionary *it, uint64_t *one)
{
    return bitm_dictionary_find(it, FOUND, one);
}
static uint32_t of_strings(const struct bitm_strings *it, uint64_t *one)
{
    return bitm_strings_find(it, (const uint8_t *)"bob", 3, one);
}

static uint32_t open_section(const uint64_t *it, size_t len, struct bitm_section *section)
{
    return bitm_block_section(it, len, 1, section);
}
static uint32_t of_section(const struct bitm_section *section, uint64_t *one)
{
    *one = section->role;
    return section->words_len ? BITM_OK : BITM_NONE;
}

static void each_kind(void)
{
    size_t len = small_index(block);
    OPENS(bitm_index, bitm_index_block_open, len, of_index);
    OPENS(bitm_section, open_section, len, of_section);
    len = small_sequence(block);
    OPENS(bitm_sequence, bitm_sequence_block_open, len, of_sequence);
    len = small_sparse(block);
    OPENS(bitm_sparse, bitm_sparse_open, len, of_sparse);
    len = small_matrix(block);
    OPENS(bitm_matrix, bitm_matrix_open, len, of_matrix);
    len = small_tree(block);
    OPENS(bitm_tree, bitm_tree_open, len, of_tree);
    len = small_trie(block);
    OPENS(bitm_trie, bitm_trie_open, len, of_trie);
    len = small_text(block);
    OPENS(bitm_text, bitm_text_open, len, of_text);
    len = small_hash(block);
    OPENS(bitm_hash, open_hash, len, of_hash);
    len = small_seeded_hash(block);
    OPENS(bitm_seeded_hash, open_seeded_hash, len, of_seeded_hash);
    len = small_dictionary(block);
    OPENS(bitm_dictionary, bitm_dictionary_open, len, of_dictionary);
    len = small_strings(block);
    OPENS(bitm_strings, bitm_strings_open, len, of_strings);
}

int main(int argc, char **argv)
{
    take_seed(argc, argv);
    each_kind();
    puts("C: a struct that is opened need not be initialized");
    return 0;
}
