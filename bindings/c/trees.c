/* Trees in blocks: the answers beside a plain tree of parents; degrees that are those of no tree; blocks of which each
 * byte is changed, each prefix, and blocks whose words and tables hold random numbers. All is beside pages that may not
 * be touched (places.h). */
#define _DEFAULT_SOURCE
#include "changed.h"
#include "hinted.h"

enum { NODES = 3000, SMALL = 9, LIST = 64, ROOM = 1 << 16, OF_DEGREES = OF_MORE };
#include "plain_tree.h"

/* The block of the tree, at the guard, of degrees that are so too. */
static uint64_t *built(const struct plain_tree *tree, uint64_t *words)
{
    MUST(bitm_tree_size(tree->len, words) == BITM_OK && *words % 8 == 0);
    uint64_t *block = untouched_at(OF_BLOCK, 8 * *words); /* memory that is written may hold anything */
    uint64_t *degrees = placed(OF_DEGREES, 8 * tree->len);
    memcpy(degrees, tree->degrees, 8 * tree->len);
    MUST(bitm_tree_build(degrees, tree->len, block, *words) == BITM_OK);
    return block;
}

static void answers_as(const struct plain_tree *plain, const struct bitm_tree *tree)
{
    uint64_t *out;
    uint32_t status;
    MUST(tree->len == plain->len);
    for (size_t node = 0; node < plain->len; node++) {
        const uint64_t degree = plain->degrees[node];
        parent_as(plain, tree, node);
        ANSWER(bitm_tree_degree(tree, node, out));
        MUST(status == BITM_OK && *out == degree);
        for (uint64_t k = 0; k < degree; k += 1 + degree / 50) {
            ANSWER(bitm_tree_child(tree, node, k, out));
            MUST(status == BITM_OK && *out == plain->first[node] + k);
        }
        ANSWER(bitm_tree_is_leaf(tree, node, out));
        MUST(status == BITM_OK && *out == (degree == 0));
        const uint64_t rank = node == 0 ? 0 : node - plain->first[plain->parents[node]];
        ANSWER(bitm_tree_child_rank(tree, node, out));
        MUST(node == 0 ? status == BITM_NONE : status == BITM_OK && *out == rank);
        ANSWER(bitm_tree_previous_sibling(tree, node, out));
        MUST(rank == 0 ? status == BITM_NONE : status == BITM_OK && *out == node - 1);
        const bool is_last = node == 0 || rank + 1 == plain->degrees[plain->parents[node]];
        ANSWER(bitm_tree_next_sibling(tree, node, out));
        MUST(is_last ? status == BITM_NONE : status == BITM_OK && *out == node + 1);
        ANSWER(bitm_tree_child(tree, node, degree, out));
        MUST(status == BITM_NONE);
        ANSWER(bitm_tree_child(tree, node, UINT64_MAX, out));
        MUST(status == BITM_NONE);
    }
    for (int far = 0; far < 2; far++) {
        const size_t node = far ? SIZE_MAX : plain->len;
        ANSWER(bitm_tree_parent(tree, node, out));
        MUST(status == BITM_NONE);
        ANSWER(bitm_tree_degree(tree, node, out));
        MUST(status == BITM_NONE);
        ANSWER(bitm_tree_child(tree, node, 0, out));
        MUST(status == BITM_NONE);
        ANSWER(bitm_tree_is_leaf(tree, node, out));
        MUST(status == BITM_NONE);
        ANSWER(bitm_tree_child_rank(tree, node, out));
        MUST(status == BITM_NONE);
        ANSWER(bitm_tree_next_sibling(tree, node, out));
        MUST(status == BITM_NONE);
        ANSWER(bitm_tree_previous_sibling(tree, node, out));
        MUST(status == BITM_NONE);
    }
}

/* Nodes, some of which are none, and what lists of them answer. */
struct asked {
    uint64_t nodes[LIST], ks[LIST], of_list[3][LIST];
};

static void ask_lists(const struct bitm_tree *tree, struct asked *it)
{
    struct bitm_list_counts counts = no_counts;
    uint32_t status;
    for (size_t i = 0; i < LIST; i++) {
        it->nodes[i] = i % 16 ? draw() % (tree->len + 1) : draw();
        it->ks[i] = draw() % 3;
    }
    status = bitm_tree_parent_list(tree, it->nodes, LIST, it->of_list[0], LIST, &counts);
    MUST(counted(status, it->of_list[0], LIST, counts) == BITM_OK);
    counts = no_counts;
    status = bitm_tree_degree_list(tree, it->nodes, LIST, it->of_list[1], LIST, &counts);
    MUST(counted(status, it->of_list[1], LIST, counts) == BITM_OK);
    counts = no_counts;
    status = bitm_tree_child_list(tree, it->nodes, LIST, it->ks, LIST, it->of_list[2], LIST, &counts);
    MUST(counted(status, it->of_list[2], LIST, counts) == BITM_OK);
}

/* Lists beside the calls of one query. */
static void lists_as_single_calls(const struct bitm_tree *tree)
{
    struct asked it;
    uint64_t *out, *const nodes = it.nodes, *const ks = it.ks, *const list = it.of_list[0];
    uint32_t status;
    ask_lists(tree, &it);
    for (size_t i = 0; i < LIST; i++) {
        ANSWER(bitm_tree_parent(tree, nodes[i], out));
        MUST(it.of_list[0][i] == item_of(status, *out));
        ANSWER(bitm_tree_degree(tree, nodes[i], out));
        MUST(it.of_list[1][i] == item_of(status, *out));
        ANSWER(bitm_tree_child(tree, nodes[i], ks[i], out));
        MUST(it.of_list[2][i] == item_of(status, *out));
    }
    struct bitm_list_counts counts = no_counts;
    memset(it.of_list, UNTOUCHED, sizeof it.of_list);
    for (size_t less = 1; less < 3; less++) {
        MUST(bitm_tree_parent_list(tree, nodes, LIST, list, LIST - less, &counts) == BITM_BAD_SIZE);
        MUST(bitm_tree_degree_list(tree, nodes, LIST - less, list, LIST, &counts) == BITM_BAD_SIZE);
        MUST(bitm_tree_child_list(tree, nodes, LIST, ks, LIST - less, list, LIST, &counts) == BITM_BAD_SIZE);
        MUST(bitm_tree_child_list(tree, nodes, LIST, ks, LIST, list, LIST - less, &counts) == BITM_BAD_SIZE);
    }
    MUST(counts.missing == UNTOUCHED && counts.wrong == UNTOUCHED && is_untouched(it.of_list, sizeof it.of_list));
    MUST(bitm_tree_parent_list(tree, NULL, 0, NULL, 0, &counts) == BITM_OK && counts.missing == 0 && counts.wrong == 0);
}

/* Whatever the block holds: lists answer within the range of the calls of one query. */
static void lists_within(const struct bitm_tree *tree)
{
    struct asked it;
    ask_lists(tree, &it);
    for (size_t i = 0; i < LIST; i++) {
        const uint64_t node = it.nodes[i], parent = it.of_list[0][i], degree = it.of_list[1][i],
                       child = it.of_list[2][i];
        const bool is = node < tree->len;
        MUST(parent < BITM_WRONG_TABLES ? is && parent < node : (parent == BITM_NO_ANSWER) == (node == 0 || !is));
        MUST(degree < BITM_WRONG_TABLES ? is && degree < tree->len : (degree == BITM_NO_ANSWER) == !is);
        MUST(child < BITM_WRONG_TABLES ? node < child && child < tree->len : child == BITM_NO_ANSWER || is);
    }
}

/* Whatever the block holds: every call returns, within its range, and each way up ends. */
static void answers_within(const void *opened)
{
    const struct bitm_tree *const tree = opened;
    uint64_t *out;
    uint32_t status;
    for (size_t node = 0; node < tree->len + 2; node++) {
        const bool is = node < tree->len;
        ANSWER(bitm_tree_parent(tree, node, out));
        MUST(status == BITM_OK ? is && *out < node : (status == BITM_NONE) == (node == 0 || !is));
        ANSWER(bitm_tree_degree(tree, node, out));
        MUST(status == BITM_OK ? is && *out < tree->len : (status == BITM_NONE) == !is);
        for (uint64_t k = 0; k < 4; k++) {
            ANSWER(bitm_tree_child(tree, node, k, out));
            MUST(status == BITM_OK ? node < *out && *out < tree->len
                                   : status == BITM_NONE || (status == BITM_WRONG && is));
        }
        ANSWER(bitm_tree_is_leaf(tree, node, out));
        MUST(status == BITM_OK ? is && *out < 2 : (status == BITM_NONE) == !is);
        ANSWER(bitm_tree_child_rank(tree, node, out));
        MUST(status == BITM_OK ? is && *out < tree->len : (status == BITM_NONE) == (node == 0 || !is));
        ANSWER(bitm_tree_next_sibling(tree, node, out));
        MUST(status != BITM_OK || (*out == node + 1 && *out < tree->len));
        ANSWER(bitm_tree_previous_sibling(tree, node, out));
        MUST(status != BITM_OK || (*out + 1 == node && is));
    }
    lists_within(tree);
}

/* A block that was written before there were hints is that of the same tree. */
static void no_hints(const struct plain_tree *plain, const uint64_t *block)
{
    static uint64_t older[ROOM / 8];
    const size_t words = without_hints(block, older);
    struct bitm_tree tree = {.hints_len = UNTOUCHED};
    MUST(bitm_tree_check(older, words) == BITM_OK && bitm_tree_open(older, words, &tree) == BITM_OK);
    MUST(tree.hints_len == 0);
    answers_as(plain, &tree);
}

/* Without its hints a tree answers as with them; whatever these hold, each answer is in its range. */
static void other_hints(const struct plain_tree *plain, struct bitm_tree tree)
{
    uint64_t *const hints = malloc(8 * tree.hints_len);
    MUST(hints && has_hints(tree.hints, tree.hints_len, tree.words, tree.words_len, tree.len));
    draw_words(hints, tree.hints_len);
    tree.hints = hints;
    answers_within(&tree);
    for (size_t i = 0; i < tree.hints_len; i++) hints[i] = draw() % tree.len | draw() % tree.len << 32;
    answers_within(&tree);
    tree.hints = NULL, tree.hints_len = 0;
    answers_as(plain, &tree);
    free(hints);
}

static void drawn_trees(void)
{
    static const uint64_t most[] = {1, 2, 3, 10, 100, NODES};
    static struct plain_tree plain;
    for (size_t i = 0; i < 60; i++) {
        uint64_t words;
        const size_t len = i < 12 ? i + 1 : 1 + draw() % NODES;
        draw_tree(&plain, len, most[i % (sizeof most / sizeof *most)]);
        uint64_t *block = built(&plain, &words);
        struct bitm_tree tree = {0};
        MUST(bitm_tree_open(block, words, &tree) == BITM_OK);
        MUST(bitm_tree_check(block, words) == BITM_OK);
        answers_as(&plain, &tree);
        lists_as_single_calls(&tree);
        other_hints(&plain, tree);
        no_hints(&plain, block);
    }
}

/* Degrees that are those of no tree, blocks that are too long or too short: nothing is written. */
static void no_trees(void)
{
    static const uint64_t none[][SMALL] = {
        {0, 0}, {1, 1}, {0, 1}, {2, 0}, {3, 0}, {UINT64_MAX, 1}, {UINT64_MAX, 2}, {0, 0, 2}, {1, 0, 1}, {2, 0, 1},
    };
    uint64_t words, room[80];
    MUST(bitm_tree_size(SMALL, &words) == BITM_OK && words < 80);
    for (size_t i = 0; i < sizeof none / sizeof *none; i++) {
        memset(room, UNTOUCHED, sizeof room);
        const size_t len = i < 7 ? 2 : 3;
        MUST(bitm_tree_size(len, &words) == BITM_OK);
        MUST(bitm_tree_build(none[i], len, room, words) == BITM_WRONG);
        MUST(bitm_tree_build(none[i], len, room, words - 1) == BITM_BAD_SIZE);
        MUST(bitm_tree_build(none[i], len, room, words + 8) == BITM_BAD_SIZE);
        MUST(is_untouched(room, sizeof room));
    }
    static const uint64_t four[4] = {2, 0, 1, 0};
    MUST(bitm_tree_build(NULL, 0, room, words) == BITM_WRONG);
    for (size_t len = 0; len < 80; len++) {
        MUST(bitm_tree_build(four, 4, room, len) == (len == words ? BITM_OK : BITM_BAD_SIZE));
        MUST(len >= words || is_untouched(room, sizeof room));
    }
    words = UNTOUCHED;
    MUST(bitm_tree_size((size_t)1 << 60, &words) == BITM_BAD_SIZE && words == UNTOUCHED);
    MUST(bitm_tree_size(SIZE_MAX, &words) == BITM_BAD_SIZE && words == UNTOUCHED);
    MUST(bitm_tree_size(((size_t)1 << 60) - 1, &words) == BITM_OK && words < (uint64_t)1 << 59);
}

static uint32_t open_block(const uint64_t *block, size_t words, void *opened)
{
    return bitm_tree_open(block, words, opened);
}

static const struct kind of_tree = {32, sizeof(struct bitm_tree), bitm_tree_check, open_block, answers_within};

static void changed_blocks(void)
{
    static struct plain_tree plain;
    uint64_t words;
    draw_tree(&plain, SMALL, 3);
    uint64_t *const block = built(&plain, &words);
    changed_bytes(&of_tree, block, words, 1);
    cut_off(&of_tree, block, words);
}

/* Random words after a right header, and random words alone. */
static void random_blocks(void)
{
    static struct plain_tree plain;
    struct bitm_tree tree;
    for (size_t turn = 0; turn < 400; turn++) {
        uint64_t words;
        draw_tree(&plain, 1 + draw() % 700, 1 + draw() % 9);
        uint64_t *const block = built(&plain, &words);
        spoil(block, of_tree.head, words, turn);
        MUST(opens(&of_tree, block, words, &tree));
        answers_within(&tree);
        if (bitm_tree_check(block, words) == BITM_OK) answers_as(&plain, &tree), lists_as_single_calls(&tree);
        draw_words(block, words);
        MUST(refuses(&of_tree, block, words));
    }
}

/* Structs whose lengths are not those of the number of nodes. */
static void wrong_lengths(void)
{
    static struct plain_tree plain;
    uint64_t words, *out;
    uint32_t status;
    draw_tree(&plain, 200, 4);
    uint64_t *const block = built(&plain, &words);
    struct bitm_tree tree = {0};
    MUST(bitm_tree_open(block, words, &tree) == BITM_OK);
    for (size_t i = 0; i < 11; i++) {
        struct bitm_tree bad = tree;
        if (i == 0) bad.len = 0;
        if (i == 1) bad.len = SIZE_MAX;
        if (i == 2) bad.len = (size_t)1 << 60;
        if (i == 3) bad.words_len--;
        if (i == 4) bad.words_len = 0;
        if (i == 5) bad.upper_len = 0;
        if (i == 6) bad.upper_len++;
        if (i == 7) bad.lower_len = 0;
        if (i == 8) bad.len += 64;
        if (i == 9) bad.hints_len--;
        if (i == 10) bad.hints_len++;
        ANSWER(bitm_tree_parent(&bad, 1, out));
        MUST(status == BITM_BAD_SIZE);
        ANSWER(bitm_tree_child(&bad, 0, 0, out));
        MUST(status == BITM_BAD_SIZE);
        ANSWER(bitm_tree_degree(&bad, 0, out));
        MUST(status == BITM_BAD_SIZE);
        ANSWER(bitm_tree_is_leaf(&bad, 0, out));
        MUST(status == BITM_BAD_SIZE);
        ANSWER(bitm_tree_child_rank(&bad, 1, out));
        MUST(status == BITM_BAD_SIZE);
        ANSWER(bitm_tree_next_sibling(&bad, 1, out));
        MUST(status == BITM_BAD_SIZE);
        ANSWER(bitm_tree_previous_sibling(&bad, 1, out));
        MUST(status == BITM_BAD_SIZE);
        const uint64_t one = 1;
        struct bitm_list_counts counts = no_counts;
        out = out_at_the_guard();
        MUST(bitm_tree_parent_list(&bad, &one, 1, out, 1, &counts) == BITM_BAD_SIZE);
        MUST(bitm_tree_degree_list(&bad, &one, 1, out, 1, &counts) == BITM_BAD_SIZE);
        MUST(bitm_tree_child_list(&bad, &one, 1, &one, 1, out, 1, &counts) == BITM_BAD_SIZE);
        MUST(*out == UNTOUCHED && counts.missing == UNTOUCHED && counts.wrong == UNTOUCHED);
    }
}

static void tests(void)
{
    drawn_trees();
    no_trees();
    changed_blocks();
    random_blocks();
    wrong_lengths();
}

int main(int argc, char **argv)
{
    take_seed(argc, argv);
    on_either_side(ROOM, tests);
    printf("trees: blocks answer as a plain tree, each changed byte and each prefix is refused, and queries of any "
           "words stay within their range\n");
    return 0;
}
