/* A mapped file of one block, of each kind in turn: its header and directory are right, so that it is opened, and its
 * sections hold anything. It is queried again and again; each answer is within its range. The mapping can't be written
 * to, and lies between pages that may not be touched. The program's second word says how many millions of queries. */
#define _GNU_SOURCE
#include "guard.h"

#include <string.h>

enum { LEN = 3000, SMALLEST = 40, ROOM = 8 * 4096, A_BLOCK = 400, WIDTH = 12 };

static uint64_t numbers[LEN], scratch[2 * LEN];
static uint64_t asked, answered;

/* A kind of blocks: how one of `len` items is made, in how many words; how many of these `open` looks at; how it is
 * opened; and one query of each call. */
struct kind {
    const char *name;
    uint64_t (*built)(uint64_t *block, size_t len);
    size_t head;
    bool (*opens)(const uint64_t *block, size_t words);
    void (*query)(uint64_t number, uint64_t other);
};

/* Notes an answer, which a call gives with BITM_OK alone and which is in its range then. */
static void within(uint32_t status, uint64_t out, bool is_in_range)
{
    asked++;
    if (status == BITM_OK) {
        answered++;
        MUST(is_in_range);
    } else
        MUST((status == BITM_NONE || status == BITM_WRONG) && out == UNTOUCHED);
}

/* The call `name` with these arguments, and what its answer `out` has to be. */
#define QUERY(condition, name, ...)                       \
    do {                                                  \
        uint64_t out = UNTOUCHED;                         \
        const uint32_t status = name(__VA_ARGS__, &out);  \
        within(status, out, condition);                   \
    } while (0)

/* Numbers in rising order, `most` apart at most. */
static void draw_rising(size_t len, uint64_t most)
{
    uint64_t number = draw() % most;
    for (size_t i = 0; i < len; i++, number += 1 + draw() % most) numbers[i] = number;
}

/* ---- bits with their index */

static struct bitm_index bits;

static uint64_t bits_built(uint64_t *block, size_t len)
{
    uint64_t words;
    for (size_t i = 0; i < LEN; i++) numbers[i] = draw() & (draw() | draw());
    MUST(bitm_index_block_size(20 * len, &words) == BITM_OK && 8 * words <= ROOM);
    MUST(bitm_index_block_build(numbers, (20 * len + 63) / 64, 20 * len, block, words) == BITM_OK);
    return words;
}

static bool bits_open(const uint64_t *block, size_t words)
{
    return bitm_index_block_open(block, words, &bits) == BITM_OK;
}

static void bits_queried(uint64_t at, uint64_t other)
{
    const bool one = other & 1;
    QUERY(at <= bits.bits_len && out <= at, bitm_index_rank, &bits, one, at);
    QUERY(out < bits.bits_len && bit_of(bits.words, out) == one, bitm_index_select, &bits, one, at);
    QUERY(at <= out && out < bits.bits_len && bit_of(bits.words, out) == one, bitm_index_next, &bits, one, at);
    QUERY(out <= at && out < bits.bits_len && bit_of(bits.words, out) == one, bitm_index_previous, &bits, one, at);
}

/* ---- a sequence */

static struct bitm_sequence sequence;

static uint64_t sequence_built(uint64_t *block, size_t len)
{
    uint64_t words;
    draw_rising(len, (uint64_t)1 << draw() % 30);
    MUST(bitm_sequence_block_size(len, numbers[len - 1], &words) == BITM_OK && 8 * words <= ROOM);
    MUST(bitm_sequence_block_build(numbers, len, block, words) == BITM_OK);
    return words;
}

static bool sequence_opens(const uint64_t *block, size_t words)
{
    return bitm_sequence_block_open(block, words, &sequence) == BITM_OK;
}

static void sequence_queried(uint64_t at, uint64_t other)
{
    QUERY(at < sequence.len, bitm_sequence_get, &sequence, at);
    QUERY(out < sequence.len, bitm_sequence_first_at_least, &sequence, other);
    QUERY(out < sequence.len, bitm_sequence_last_at_most, &sequence, other);
    QUERY(out <= 1, bitm_sequence_contains, &sequence, other);
}

/* ---- bits of which few are 1 bits */

static struct bitm_sparse sparse;

static uint64_t sparse_built(uint64_t *block, size_t len)
{
    uint64_t words;
    draw_rising(len, (uint64_t)1 << draw() % 30);
    const uint64_t last = numbers[len - 1];
    MUST(bitm_sparse_size(len, last, &words) == BITM_OK && 8 * words <= ROOM);
    MUST(bitm_sparse_build(numbers, len, last + 1 + draw() % 100, block, words) == BITM_OK);
    return words;
}

static bool sparse_opens(const uint64_t *block, size_t words)
{
    return bitm_sparse_open(block, words, &sparse) == BITM_OK;
}

static void sparse_queried(uint64_t at, uint64_t other)
{
    const bool one = other & 1;
    const uint64_t position = other % (sparse.bits_len + 2);
    QUERY(position < sparse.bits_len && out <= 1, bitm_sparse_get, &sparse, position);
    QUERY(position <= sparse.bits_len && out <= position, bitm_sparse_rank, &sparse, one, position);
    QUERY(out < sparse.bits_len, bitm_sparse_select, &sparse, one, at);
    QUERY(position <= out && out < sparse.bits_len, bitm_sparse_next, &sparse, one, position);
    QUERY(out <= position && out < sparse.bits_len, bitm_sparse_previous, &sparse, one, position);
}

/* ---- a tree */

static struct bitm_tree tree;

static uint64_t tree_built(uint64_t *block, size_t len)
{
    uint64_t words, known = 1;
    const uint64_t most = 1 + draw() % 9;
    for (size_t i = 0; i < len; i++) { /* where no node after this one would be known, it has a child at least */
        const uint64_t needed = known == i + 1 && i + 1 < len, degree = needed + draw() % most;
        numbers[i] = degree < len - known ? degree : len - known;
        known += numbers[i];
    }
    MUST(bitm_tree_size(len, &words) == BITM_OK && 8 * words <= ROOM);
    MUST(bitm_tree_build(numbers, len, block, words) == BITM_OK);
    return words;
}

static bool tree_opens(const uint64_t *block, size_t words)
{
    return bitm_tree_open(block, words, &tree) == BITM_OK;
}

static void tree_queried(uint64_t node, uint64_t other)
{
    const bool is = node < tree.len;
    QUERY(is && out < node, bitm_tree_parent, &tree, node);
    QUERY(is && node < out && out < tree.len, bitm_tree_child, &tree, node, other % 4);
    QUERY(is && out < tree.len, bitm_tree_degree, &tree, node);
    QUERY(is && out <= 1, bitm_tree_is_leaf, &tree, node);
    QUERY(is && out < tree.len, bitm_tree_child_rank, &tree, node);
    QUERY(is && out == node + 1 && out < tree.len, bitm_tree_next_sibling, &tree, node);
    QUERY(is && out + 1 == node, bitm_tree_previous_sibling, &tree, node);
}

/* ---- a trie */

static struct bitm_trie trie;

static uint64_t trie_built(uint64_t *block, size_t len)
{
    static uint64_t labels[LEN], ends[(LEN + 63) / 64];
    uint64_t words, labelled = 1;
    (void)tree_built(block, len); /* draws the degrees */
    for (size_t i = 0; i < len; i++) /* labels of siblings rise */
        for (uint64_t k = 0, label = draw() % 8; k < numbers[i]; k++, label += 1 + draw() % 8)
            labels[labelled++] = label;
    MUST(bitm_trie_size(len, 8, true, &words) == BITM_OK && 8 * words <= ROOM);
    MUST(bitm_trie_build(numbers, len, labels + 1, len - 1, 8, ends, (len + 63) / 64, block, words) == BITM_OK);
    return words;
}

static bool trie_opens(const uint64_t *block, size_t words)
{
    return bitm_trie_open(block, words, &trie) == BITM_OK;
}

static void trie_queried(uint64_t node, uint64_t other)
{
    const bool is = node < trie.tree.len;
    const uint64_t word[4] = {other & 255, other >> 8 & 7, other >> 16 & 7, other >> 24 & 7};
    uint64_t labels[2], first = UNTOUCHED;
    QUERY(is && node > 0 && out < 256, bitm_trie_label, &trie, node);
    QUERY(is && out <= 1, bitm_trie_is_end, &trie, node);
    QUERY(is && node < out && out < trie.tree.len, bitm_trie_child, &trie, node, word[1]);
    QUERY(out < trie.tree.len, bitm_trie_find, &trie, word, other % 5);
    QUERY(first < trie.tree.len && out <= 4, bitm_trie_longest, &trie, word, 4, &first);
    QUERY(is && out <= node, bitm_trie_word, &trie, node, labels, 2);
}

/* ---- a wavelet matrix */

static struct bitm_matrix matrix;

static uint64_t matrix_with(uint64_t *block, size_t len, bool quarters, bool hints)
{
    uint64_t words;
    for (size_t i = 0; i < len; i++) numbers[i] = draw() >> (64 - WIDTH) & draw();
    MUST(bitm_matrix_size(len, WIDTH, quarters, hints, &words) == BITM_OK && 8 * words <= ROOM);
    MUST(bitm_matrix_build(numbers, len, WIDTH, quarters, hints, scratch, 2 * len, block, words) == BITM_OK);
    return words;
}

static uint64_t matrix_built(uint64_t *block, size_t len)
{
    return matrix_with(block, len, false, false);
}

static uint64_t quarters_built(uint64_t *block, size_t len)
{
    return matrix_with(block, len, true, false);
}

static uint64_t hints_built(uint64_t *block, size_t len)
{
    return matrix_with(block, len, false, true);
}

static uint64_t both_built(uint64_t *block, size_t len)
{
    return matrix_with(block, len, true, true);
}

static bool matrix_opens(const uint64_t *block, size_t words)
{
    return bitm_matrix_open(block, words, &matrix) == BITM_OK;
}

static void matrix_queried(uint64_t at, uint64_t other)
{
    const uint64_t number = other >> 8 & ((1 << WIDTH) - 1), end = other % (matrix.len + 1);
    const uint64_t start = at < end ? at : end, len = end - start;
    QUERY(at < matrix.len && out < 1 << WIDTH, bitm_matrix_get, &matrix, at);
    QUERY(at <= matrix.len && out <= at, bitm_matrix_rank, &matrix, number, at);
    QUERY(out < matrix.len, bitm_matrix_select, &matrix, number, other % 3);
    QUERY(out <= len, bitm_matrix_count_less, &matrix, start, end, number);
    QUERY(out < 1 << WIDTH, bitm_matrix_quantile, &matrix, start, end, len / 2);
    QUERY(number <= out && out < 1 << WIDTH, bitm_matrix_next_value, &matrix, start, end, number);
    QUERY(out < number, bitm_matrix_previous_value, &matrix, start, end, number);
}

/* ---- a hash with seeds */

static struct bitm_seeded_hash seeded;

static uint64_t seeded_built(uint64_t *block, size_t len)
{
    enum { SIZES = 256, LEVELS = 1000 };
    static uint64_t level_words[LEVELS], again[LEVELS], sizes[SIZES];
    static uint8_t seeds[LEVELS];
    uint64_t words, levels, filled, left;
    for (size_t i = 0; i < len; i++) numbers[i] = draw();
    MUST(bitm_hash_build_seeded(numbers, len, 100, 4, level_words, LEVELS, seeds, LEVELS, again, LEVELS, scratch, len,
                                sizes, SIZES, &levels, &filled, &left) == BITM_OK && left == 0);
    MUST(bitm_hash_block_size_seeded(filled, levels, &words) == BITM_OK && 8 * words <= ROOM);
    MUST(bitm_hash_block_build_seeded(level_words, filled, seeds, filled, sizes, levels, 7, block, words) == BITM_OK);
    return words;
}

static bool seeded_opens(const uint64_t *block, size_t words)
{
    uint64_t with;
    return bitm_hash_block_open_seeded(block, words, &seeded, &with) == BITM_OK && with == 7;
}

static void seeded_queried(uint64_t at, uint64_t other)
{
    QUERY(out < seeded.hash.keys, bitm_hash_get_seeded, &seeded, at);
    QUERY(out < seeded.hash.keys, bitm_hash_get_seeded, &seeded, other);
}

static const struct kind kinds[] = {
    {"bits", bits_built, 32, bits_open, bits_queried},
    {"sequence", sequence_built, 40, sequence_opens, sequence_queried},
    {"sparse bits", sparse_built, 40, sparse_opens, sparse_queried},
    {"tree", tree_built, 32, tree_opens, tree_queried},
    {"trie", trie_built, 40, trie_opens, trie_queried},
    {"matrix", matrix_built, 40, matrix_opens, matrix_queried},
    {"matrix with quarters", quarters_built, 40, matrix_opens, matrix_queried},
    {"matrix with hints", hints_built, 40, matrix_opens, matrix_queried},
    {"matrix with both", both_built, 48, matrix_opens, matrix_queried},
    {"hash with seeds", seeded_built, 40, seeded_opens, seeded_queried},
};
enum { KINDS = sizeof kinds / sizeof *kinds };

/* Other words than those of the block's sections: some or all, of anything, of few bits, 0, all ones, or a bit off. */
static void spoil(uint64_t *block, size_t head, size_t words)
{
    const uint64_t way = draw() % 6, share = 1 + draw() % 8;
    for (size_t at = head; at < words; at++)
        if (draw() % 8 < share)
            block[at] = way == 0   ? draw()
                        : way == 1 ? draw() & draw() & draw()
                        : way == 2 ? 0
                        : way == 3 ? UINT64_MAX
                        : way == 4 ? block[at] ^ (uint64_t)1 << draw() % 64
                                   : draw() >> draw() % 64;
}

/* Maps the file between pages that may not be touched. */
static uint64_t *mapped(int file, int how)
{
    const struct guarded block = guard(ROOM);
    MUST(mmap(block.page, block.room, how, MAP_SHARED | MAP_FIXED, file, 0) == block.page);
    return (uint64_t *)(void *)block.page;
}

int main(int argc, char **argv)
{
    take_seed(argc, argv);
    const uint64_t queries = 1000000 * (argc > 2 ? strtoull(argv[2], NULL, 10) : 10);
    char name[] = "bitm-XXXXXX";
    const int file = mkstemp(name);
    MUST(file >= 0 && unlink(name) == 0 && ftruncate(file, ROOM) == 0);
    uint64_t *const written = mapped(file, PROT_READ | PROT_WRITE);
    const uint64_t *const read = mapped(file, PROT_READ);
    static uint64_t block[ROOM / 8], of_kind[KINDS];
    for (size_t turn = 0; asked < queries; turn++) {
        const struct kind *const kind = &kinds[turn % KINDS];
        const size_t len = SMALLEST + draw() % (LEN - SMALLEST);
        const uint64_t words = kind->built(block, len), before = asked;
        spoil(block, kind->head, words);
        uint64_t *const to = written + (ROOM / 8 - words); /* it ends where the page begins that may not be touched */
        memcpy(to, block, 8 * words);
        MUST(kind->opens(read + (to - written), words));
        for (unsigned k = 0; k < A_BLOCK; k++) kind->query(draw() % 16 ? draw() % (len + 2) : draw(), draw());
        of_kind[turn % KINDS] += asked - before;
    }
    MUST(answered > asked / 8 && close(file) == 0);
    printf("hostile blocks: each answer of a query is in its range:");
    for (unsigned k = 0; k < KINDS; k++) printf(" %s %llu", kinds[k].name, (unsigned long long)of_kind[k]);
    printf("\n");
    return 0;
}
