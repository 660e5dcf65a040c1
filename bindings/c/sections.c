/* A trie whose sections lie apart, each beside a page that may not be touched on either side: its queries, and those of
 * its tree, answer as over the block, and read no number outside a section. Sections without a bit are called wrong. */
#define _DEFAULT_SOURCE
#include "places.h"

enum { MOST = 400, WIDTH = 9 };
enum { OF_WORDS = OF_MORE, OF_UPPER, OF_LOWER, OF_HINTS, OF_LABELS, OF_ENDS, OF_ROOM, OF_MATCHED };

static uint64_t block[4096], degrees[MOST], labels[MOST], ends[MOST / 64 + 1];

/* A trie of `len` nodes in the block, of up to three children a node, whose labels are the numbers of the nodes. */
static struct bitm_trie built(size_t len)
{
    struct bitm_trie trie = {0};
    uint64_t words;
    for (size_t node = 0, known = 1; node < len; node++) {
        const size_t left = len - known, least = known == node + 1 && left;
        size_t degree = least + draw() % 3;
        degrees[node] = degree = degree < left ? degree : left;
        known += degree;
        labels[node] = node + 1;
    }
    for (size_t i = 0; i <= MOST / 64; i++) ends[i] = draw();
    MUST(bitm_trie_size(len, WIDTH, true, &words) == BITM_OK && 8 * words <= sizeof block);
    MUST(bitm_trie_build(degrees, len, labels, len - 1, WIDTH, ends, (len + 63) / 64, block, words) == BITM_OK);
    MUST(bitm_trie_open(block, words, &trie) == BITM_OK && trie.tree.len == len);
    return trie;
}

/* The same trie, with a copy of each section in memory of its own. */
static struct bitm_trie apart(struct bitm_trie trie)
{
    trie.tree.words = copied(OF_WORDS, trie.tree.words, trie.tree.words_len);
    trie.tree.upper = copied(OF_UPPER, trie.tree.upper, trie.tree.upper_len);
    trie.tree.lower = copied(OF_LOWER, trie.tree.lower, trie.tree.lower_len);
    trie.tree.hints = copied(OF_HINTS, trie.tree.hints, trie.tree.hints_len);
    trie.labels = copied(OF_LABELS, trie.labels, trie.labels_len);
    trie.ends = copied(OF_ENDS, trie.ends, trie.ends_len);
    return trie;
}

/* Both structs answer the same, which is written at the guard. */
#define SAME(call_of_one, call_of_other)                                   \
    do {                                                                   \
        uint64_t *out = out_at_the_guard(), first;                         \
        const uint32_t status = (call_of_one);                             \
        first = *out;                                                      \
        out = out_at_the_guard();                                          \
        MUST((call_of_other) == status && *out == first);                  \
    } while (0)

static void node_of(const struct bitm_trie *one, const struct bitm_trie *other, size_t node)
{
    const struct bitm_tree *const tree = &one->tree, *const copy = &other->tree;
    const uint64_t word[2] = {node % 4, node};
    SAME(bitm_trie_label(one, node, out), bitm_trie_label(other, node, out));
    SAME(bitm_trie_is_end(one, node, out), bitm_trie_is_end(other, node, out));
    SAME(bitm_tree_parent(tree, node, out), bitm_tree_parent(copy, node, out));
    SAME(bitm_tree_degree(tree, node, out), bitm_tree_degree(copy, node, out));
    SAME(bitm_tree_is_leaf(tree, node, out), bitm_tree_is_leaf(copy, node, out));
    SAME(bitm_tree_next_sibling(tree, node, out), bitm_tree_next_sibling(copy, node, out));
    SAME(bitm_tree_previous_sibling(tree, node, out), bitm_tree_previous_sibling(copy, node, out));
    SAME(bitm_tree_child_rank(tree, node, out), bitm_tree_child_rank(copy, node, out));
    for (size_t k = 0; k < 4; k++) SAME(bitm_tree_child(tree, node, k, out), bitm_tree_child(copy, node, k, out));
    for (size_t k = 1; k < 5; k++)
        SAME(bitm_trie_child(one, node, node + k, out), bitm_trie_child(other, node, node + k, out));
    SAME(bitm_trie_find(one, word, 2, out), bitm_trie_find(other, word, 2, out));
    uint64_t *const matched = placed(OF_MATCHED, 8);
    SAME(bitm_trie_longest(one, word, 2, out, matched), bitm_trie_longest(other, word, 2, out, matched));
    uint64_t *const room = placed(OF_ROOM, 8 * (node % 9));
    SAME(bitm_trie_word(one, node, room, node % 9, out), bitm_trie_word(other, node, room, node % 9, out));
}

/* Sections in which no bit is 1 are those of no trie, and a query that needs one says so. */
static void without_bits(struct bitm_trie trie)
{
    uint64_t *out, word[1] = {1};
    uint32_t status;
    memset(placed(OF_WORDS, 8 * trie.tree.words_len), 0, 8 * trie.tree.words_len);
    memset(placed(OF_UPPER, 8 * trie.tree.upper_len), 0, 8 * trie.tree.upper_len);
    memset(placed(OF_LOWER, 8 * trie.tree.lower_len), 0, 8 * trie.tree.lower_len);
    memset(placed(OF_HINTS, 8 * trie.tree.hints_len), 0, 8 * trie.tree.hints_len);
    ANSWER(bitm_tree_parent(&trie.tree, 1, out));
    MUST(status == BITM_WRONG);
    ANSWER(bitm_trie_child(&trie, 1, 2, out));
    MUST(status == BITM_WRONG);
    ANSWER(bitm_trie_find(&trie, word, 1, out));
    MUST(status == BITM_WRONG);
    ANSWER(bitm_trie_word(&trie, 1, NULL, 0, out));
    MUST(status == BITM_WRONG);
}

static void tests(void)
{
    for (size_t len = 2; len <= MOST; len += 1 + len / 8) {
        const struct bitm_trie trie = built(len), other = apart(trie);
        for (size_t node = 0; node < len + 2; node++) node_of(&trie, &other, node);
        without_bits(other);
    }
}

int main(int argc, char **argv)
{
    take_seed(argc, argv);
    on_either_side(sizeof block, tests);
    puts("C host: a trie whose sections lie apart answers as its block does, and reads nothing beside them");
    return 0;
}
