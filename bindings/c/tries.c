/* Tries in blocks: the answers beside a plain trie of parents and labels, over drawn words; parts that are those of no
 * trie; blocks of which each byte is changed, each prefix, and blocks whose sections hold random numbers. All is beside
 * pages that may not be touched (places.h). */
#define _DEFAULT_SOURCE
#include "changed.h"
#include "hinted.h"

enum { NODES = 900, SMALL = 9, DEEP = NODES + 3 };
#include "plain_tree.h"
enum { OF_DEGREES = OF_MORE, OF_LABELS, OF_ENDS, OF_WORD, OF_BYTES, OF_MATCHED, OF_ROOM, OF_TRIE };

/* A trie as arrays; the root's label is not one. */
struct plain {
    struct plain_tree tree;
    size_t width;
    uint64_t labels[NODES], ends[(NODES + 63) / 64];
    bool has_ends;
};

/* Labels for `count` children from node `first` on, which rise. */
static void draw_labels(struct plain *trie, uint64_t first, uint64_t count)
{
    uint64_t least = 0;
    for (uint64_t k = 0; k < count; k++) {
        const uint64_t room = largest(trie->width) - (count - 1 - k) - least, most = room < 5     ? room
                                                                                     : draw() % 3 ? 4
                                                                                                  : room;
        trie->labels[first + k] = least + draw() % (most + 1);
        least = trie->labels[first + k] + 1;
    }
}

/* A drawn trie, whose tree is that of draw_tree. */
static void draw_trie(struct plain *trie, size_t len, size_t width, uint64_t most)
{
    draw_tree(&trie->tree, len, width < 10 && most > (uint64_t)1 << width ? (uint64_t)1 << width : most);
    trie->width = width, trie->has_ends = draw() % 4;
    for (size_t node = 0; node < len; node++) draw_labels(trie, trie->tree.first[node], trie->tree.degrees[node]);
    for (size_t i = 0; i < sizeof trie->ends / sizeof *trie->ends; i++) trie->ends[i] = draw();
}

static void *given(unsigned place, const void *from, size_t size)
{
    return size ? memcpy(placed(place, size), from, size) : NULL;
}

/* Builds into a block from parts that are at the guard. */
static uint32_t build(const struct plain *trie, size_t labels_len, uint32_t width, size_t ends_len, uint64_t *block,
                      size_t words)
{
    const uint64_t *degrees = given(OF_DEGREES, trie->tree.degrees, 8 * trie->tree.len);
    const uint64_t *labels = given(OF_LABELS, trie->labels + 1, 8 * labels_len);
    const uint64_t *ends = given(OF_ENDS, trie->ends, 8 * ends_len);
    return bitm_trie_build(degrees, trie->tree.len, labels, labels_len, width, ends, ends_len, block, words);
}

static size_t ends_len(const struct plain *trie) { return trie->has_ends ? (trie->tree.len + 63) / 64 : 0; }

/* The block of the trie, at the guard. */
static uint64_t *built(const struct plain *trie, uint64_t *words)
{
    const uint32_t width = (uint32_t)trie->width;
    MUST(bitm_trie_size(trie->tree.len, width, trie->has_ends, words) == BITM_OK && *words % 8 == 0);
    uint64_t *block = untouched_at(OF_BLOCK, 8 * *words); /* memory that is written may hold anything */
    MUST(build(trie, trie->tree.len - 1, width, ends_len(trie), block, *words) == BITM_OK);
    return block;
}

/* ---- queries by words, of labels and of bytes: both answer the same */

static const uint8_t *as_bytes(const uint64_t *word, size_t len)
{
    uint8_t *bytes = placed(OF_BYTES, len);
    for (size_t i = 0; i < len; i++) {
        if (word[i] > 255) return NULL;
        bytes[i] = (uint8_t)word[i];
    }
    return bytes;
}

static uint32_t find(const struct bitm_trie *trie, const uint64_t *word, size_t len, uint64_t *node)
{
    uint64_t *out;
    uint32_t status;
    word = given(OF_WORD, word, 8 * len);
    ANSWER(bitm_trie_find(trie, word, len, out));
    const uint32_t first = status;
    *node = *out;
    const uint8_t *bytes = as_bytes(word, len);
    if (bytes) {
        ANSWER(bitm_trie_find_bytes(trie, bytes, len, out));
        MUST(status == first && *out == *node);
    }
    return first;
}

static uint32_t longest(const struct bitm_trie *trie, const uint64_t *word, size_t len, uint64_t *node, uint64_t *count)
{
    uint64_t *out, *const matched = untouched_at(OF_MATCHED, 8);
    const uint64_t untouched = *matched;
    uint32_t status;
    word = given(OF_WORD, word, 8 * len);
    ANSWER(bitm_trie_longest(trie, word, len, out, matched));
    MUST(status == BITM_OK || *matched == untouched);
    const uint32_t first = status;
    *node = *out, *count = *matched, *matched = untouched;
    const uint8_t *bytes = as_bytes(word, len);
    if (bytes) {
        ANSWER(bitm_trie_longest_bytes(trie, bytes, len, out, matched));
        MUST(status == first && *out == *node && *matched == *count);
    }
    return first;
}

/* ---- beside the plain trie */

/* The child with the label; 0 where there is none. */
static uint64_t plain_child(const struct plain *plain, uint64_t node, uint64_t label)
{
    for (uint64_t k = 0; k < plain->tree.degrees[node]; k++)
        if (plain->labels[plain->tree.first[node] + k] == label) return plain->tree.first[node] + k;
    return 0;
}

static void word_as(const struct plain *plain, const struct bitm_trie *trie, const uint64_t *word, size_t len)
{
    uint64_t at = 0, node, found, matched;
    size_t count = 0;
    for (; count < len; count++, at = node)
        if ((node = plain_child(plain, at, word[count])) == 0) break;
    const uint32_t status = find(trie, word, len, &found);
    MUST(count == len ? status == BITM_OK && found == at : status == BITM_NONE);
    MUST(longest(trie, word, len, &node, &matched) == BITM_OK && node == at && matched == count);
}

/* The word that leads to a node, at the end of a list with other room, and what is found by it and by others. */
static void words_of(const struct plain *plain, const struct bitm_trie *trie, size_t node)
{
    static uint64_t word[DEEP];
    uint64_t *out;
    uint32_t status;
    size_t len = 0;
    for (size_t at = node; at != 0; at = plain->tree.parents[at]) word[DEEP - 3 - ++len] = plain->labels[at];
    const uint64_t *const from = word + DEEP - 3 - len;
    const size_t room = draw() % 3 ? len + draw() % 4 : draw() % (len + 1);
    uint64_t *const list = untouched_at(OF_ROOM, 8 * room);
    ANSWER(bitm_trie_word(trie, node, list, room, out));
    MUST(status == BITM_OK && *out == len);
    if (room >= len) MUST(is_untouched(list, 8 * (room - len)) && memcmp(list + room - len, from, 8 * len) == 0);
    word_as(plain, trie, from, len);
    word_as(plain, trie, from, len ? draw() % len : 0);
    word[DEEP - 3] = draw() % 3 ? draw() % 256 : draw(), word[DEEP - 2] = draw() % 256;
    word_as(plain, trie, from, len + 1 + draw() % 2);
    if (len > 0) {
        word[DEEP - 3 - len + draw() % len] ^= 1 + draw() % 3;
        word_as(plain, trie, from, len);
    }
}

static void answers_as(const struct plain *plain, const struct bitm_trie *trie)
{
    uint64_t *out;
    uint32_t status;
    MUST(trie->tree.len == plain->tree.len && trie->width == plain->width && trie->ends_len == ends_len(plain));
    for (size_t node = 0; node < plain->tree.len; node++) {
        ANSWER(bitm_trie_label(trie, node, out));
        MUST(node == 0 ? status == BITM_NONE : status == BITM_OK && *out == plain->labels[node]);
        ANSWER(bitm_trie_is_end(trie, node, out));
        MUST(plain->has_ends ? status == BITM_OK && *out == bit_of(plain->ends, node) : status == BITM_NONE);
        parent_as(&plain->tree, &trie->tree, node);
        for (uint64_t k = 0; k < plain->tree.degrees[node]; k += 1 + plain->tree.degrees[node] / 50) {
            const uint64_t child = plain->tree.first[node] + k;
            for (uint64_t more = 0; more < 3; more++) {
                const uint64_t label = plain->labels[child] + more, is = plain_child(plain, node, label);
                ANSWER(bitm_trie_child(trie, node, label, out));
                MUST(is ? status == BITM_OK && *out == is : status == BITM_NONE);
            }
        }
        ANSWER(bitm_trie_child(trie, node, UINT64_MAX, out));
        MUST(status == BITM_NONE);
        if (plain->tree.len < 60 || draw() % 8 == 0) words_of(plain, trie, node);
    }
    for (int far = 0; far < 2; far++) {
        const size_t node = far ? SIZE_MAX : plain->tree.len;
        uint64_t *const list = untouched_at(OF_ROOM, 16);
        ANSWER(bitm_trie_label(trie, node, out));
        MUST(status == BITM_NONE);
        ANSWER(bitm_trie_is_end(trie, node, out));
        MUST(status == BITM_NONE);
        ANSWER(bitm_trie_child(trie, node, plain->labels[plain->tree.len - 1], out));
        MUST(status == BITM_NONE);
        ANSWER(bitm_trie_word(trie, node, list, 2, out));
        MUST(status == BITM_NONE && is_untouched(list, 16));
    }
    word_as(plain, trie, NULL, 0);
}

/* Whatever the block holds: every call returns, within its range. */
static void answers_within(const void *opened)
{
    const struct bitm_trie *const trie = opened;
    const size_t len = trie->tree.len;
    uint64_t *out, word[3], node_found, matched;
    uint32_t status;
    for (size_t node = 0; node < len + 2; node += 1 + len / 300) {
        const bool is = node < len;
        ANSWER(bitm_trie_label(trie, node, out));
        MUST(is && node > 0 ? status == BITM_OK && *out <= largest(trie->width) : status == BITM_NONE);
        ANSWER(bitm_trie_is_end(trie, node, out));
        MUST(is && trie->ends_len > 0 ? status == BITM_OK && *out < 2 : status == BITM_NONE);
        for (size_t k = 0; k < 3; k++) {
            word[k] = draw() >> draw() % 64;
            ANSWER(bitm_trie_child(trie, node, word[k], out));
            MUST(status == BITM_OK ? node < *out && *out < len : status == BITM_NONE || (status == BITM_WRONG && is));
        }
        uint64_t *const list = untouched_at(OF_ROOM, 8 * (node % 5));
        ANSWER(bitm_trie_word(trie, node, list, node % 5, out));
        MUST(status == BITM_OK ? is && *out <= node : (status == BITM_NONE) == !is);
        if (status == BITM_OK && *out <= node % 5) MUST(is_untouched(list, 8 * (node % 5 - *out)));
        status = find(trie, word, 3, &node_found);
        MUST(status == BITM_OK ? node_found < len : status == BITM_NONE || status == BITM_WRONG);
        status = longest(trie, word, 3, &node_found, &matched);
        MUST(status == BITM_OK ? node_found < len && matched <= 3 : status == (len ? BITM_WRONG : BITM_NONE));
    }
}

/* A block that was written before there were hints is that of the same trie. */
static void no_hints(const struct plain *plain, const uint64_t *block)
{
    static uint64_t older[1 << 13];
    const size_t words = without_hints(block, older);
    struct bitm_trie trie = {.tree = {.hints_len = UNTOUCHED}};
    MUST(bitm_trie_check(older, words) == BITM_OK && bitm_trie_open(older, words, &trie) == BITM_OK);
    MUST(trie.tree.hints_len == 0);
    answers_as(plain, &trie);
}

static void drawn_tries(void)
{
    static const uint64_t most[] = {1, 2, 3, 10, 100, NODES};
    static const size_t widths[] = {1, 2, 7, 8, 8, 13, 32, 63};
    static struct plain plain;
    for (size_t i = 0; i < 60; i++) {
        uint64_t words;
        draw_trie(&plain, i < 12 ? i + 1 : 1 + draw() % NODES, widths[i % 8], most[i % 6]);
        uint64_t *block = built(&plain, &words);
        struct bitm_trie *const trie = placed(OF_TRIE, sizeof *trie);
        *trie = (struct bitm_trie){0};
        MUST(bitm_trie_open(block, words, trie) == BITM_OK && bitm_trie_check(block, words) == BITM_OK);
        MUST(has_hints(trie->tree.hints, trie->tree.hints_len, trie->tree.words, trie->tree.words_len, trie->tree.len));
        answers_as(&plain, trie);
        trie->tree.hints_len = 0;
        answers_as(&plain, trie);
        no_hints(&plain, block);
    }
}

/* ---- parts of no trie: nothing is written */

static struct plain four(void)
{
    return (struct plain){
        .tree = {.len = 4, .degrees = {2, 0, 1, 0}}, .width = 8, .labels = {9, 'a', 'b', 'e'}, .ends = {14}};
}

static void refused_in(struct plain trie, uint32_t wanted, size_t labels_len, uint32_t width, size_t ends, size_t words)
{
    uint64_t *const room = untouched_at(OF_BLOCK, 8 * words);
    MUST(build(&trie, labels_len, width, ends, room, words) == wanted && is_untouched(room, 8 * words));
}

/* Whatever the labels and the degrees are, a wrong length comes first. */
static void refused(struct plain trie, uint32_t wanted, size_t labels_len, uint32_t width, size_t ends)
{
    refused_in(trie, wanted, labels_len, width, ends, 88);
    refused_in(trie, BITM_BAD_SIZE, labels_len, width, ends, 87);
    refused_in(trie, BITM_BAD_SIZE, labels_len, width, 2, 88);
    refused_in(trie, BITM_BAD_SIZE, labels_len + 1, width, ends, 88);
}

static void no_tries(void)
{
    struct plain trie = four();
    static const uint32_t not_widths[] = {0, 64, 256, 264, UINT32_MAX};
    for (size_t i = 0; i < 5; i++) {
        uint64_t words = UNTOUCHED;
        refused(trie, BITM_BAD_SIZE, 3, not_widths[i], 1);
        MUST(bitm_trie_size(4, not_widths[i], true, &words) == BITM_BAD_SIZE && words == UNTOUCHED);
    }
    refused_in(trie, BITM_BAD_SIZE, 2, 8, 1, 88);
    refused(trie, BITM_BAD_SIZE, 4, 8, 1);
    refused(trie, BITM_WRONG, 3, 6, 1); /* 'a' has seven bits */
    refused(trie, BITM_BAD_SIZE, 3, 8, 2);
    trie.labels[2] = 'a';
    refused(trie, BITM_WRONG, 3, 8, 1);
    trie = four(), trie.labels[1] = 'c';
    refused(trie, BITM_WRONG, 3, 8, 1);
    trie = four(), trie.tree.degrees[0] = 1;
    refused(trie, BITM_WRONG, 3, 8, 1);
    trie = four(), trie.tree.len = 0;
    refused_in(trie, BITM_WRONG, 0, 8, 0, 72); /* a header of 40 words, and a word with its tables and a hint */
    refused(trie, BITM_BAD_SIZE, 0, 8, 0);
    trie = four();
    for (size_t len = 0; len <= 96; len++) {
        uint64_t *const room = untouched_at(OF_BLOCK, 768);
        MUST(build(&trie, 3, 8, 1, room, len) == (len == 88 ? BITM_OK : BITM_BAD_SIZE));
        MUST(len == 88 || is_untouched(room, 768));
    }
    uint64_t words = UNTOUCHED;
    MUST(bitm_trie_size((size_t)1 << 57, 1, false, &words) == BITM_BAD_SIZE && words == UNTOUCHED);
    MUST(bitm_trie_size(SIZE_MAX, 63, true, &words) == BITM_BAD_SIZE && words == UNTOUCHED);
    MUST(bitm_trie_size(((size_t)1 << 57) - 1, 63, true, &words) == BITM_OK && words < (uint64_t)1 << 59);
    MUST(bitm_trie_size(4, 8, true, &words) == BITM_OK && words == 88); /* docs/FORMAT.md */
    MUST(bitm_trie_size(4, 8, false, &words) == BITM_OK && words == 80);
}

/* ---- other blocks, and other structs */

static uint32_t open_block(const uint64_t *block, size_t words, void *opened)
{
    return bitm_trie_open(block, words, opened);
}

static const struct kind of_trie = {40, sizeof(struct bitm_trie), bitm_trie_check, open_block, answers_within};

static void changed_blocks(void)
{
    static struct plain plain;
    uint64_t words;
    draw_trie(&plain, SMALL, 8, 3);
    uint64_t *const block = built(&plain, &words);
    changed_bytes(&of_trie, block, words, 5);
    cut_off(&of_trie, block, words);
}

/* Random words after a right header, and random words alone. */
static void random_blocks(void)
{
    static struct plain plain;
    struct bitm_trie trie;
    for (size_t turn = 0; turn < 400; turn++) {
        uint64_t words;
        draw_trie(&plain, 1 + draw() % 500, 1 + draw() % 63, 1 + draw() % 9);
        uint64_t *const block = built(&plain, &words);
        spoil(block, of_trie.head, words, turn);
        MUST(opens(&of_trie, block, words, &trie));
        answers_within(&trie);
        if (bitm_trie_check(block, words) == BITM_OK) answers_as(&plain, &trie);
        draw_words(block, words);
        MUST(refuses(&of_trie, block, words));
    }
}

/* Structs whose lengths are not those of the number of nodes and of the width. */
static void wrong_lengths(void)
{
    static struct plain plain;
    uint64_t words, *out, at, count;
    uint32_t status;
    draw_trie(&plain, 200, 8, 4), plain.has_ends = true;
    uint64_t *const block = built(&plain, &words);
    struct bitm_trie trie = {0};
    MUST(bitm_trie_open(block, words, &trie) == BITM_OK);
    for (size_t i = 0; i < 17; i++) {
        struct bitm_trie bad = trie;
        size_t *const lens[] = {&bad.tree.words_len, &bad.tree.upper_len, &bad.tree.lower_len,
                                &bad.tree.hints_len, &bad.labels_len,     &bad.ends_len};
        if (i < 6)
            --*lens[i];
        else if (i < 12)
            ++*lens[i - 6];
        if (i == 12) bad.tree.len = 0;
        if (i == 13) bad.tree.len = SIZE_MAX;
        if (i == 14) bad.width = 0;
        if (i == 15) bad.width = 64;
        if (i == 16) bad.width = 256 + 8;
        ANSWER(bitm_trie_label(&bad, 1, out));
        MUST(status == BITM_BAD_SIZE);
        ANSWER(bitm_trie_is_end(&bad, 1, out));
        MUST(status == BITM_BAD_SIZE);
        ANSWER(bitm_trie_child(&bad, 0, 1, out));
        MUST(status == BITM_BAD_SIZE);
        uint64_t *const list = untouched_at(OF_ROOM, 16);
        ANSWER(bitm_trie_word(&bad, 1, list, 2, out));
        MUST(status == BITM_BAD_SIZE && is_untouched(list, 16));
        MUST(find(&bad, plain.labels, 1, &at) == BITM_BAD_SIZE &&
             longest(&bad, plain.labels, 1, &at, &count) == BITM_BAD_SIZE);
    }
    const uint64_t none[1] = {0};
    const struct bitm_trie empty = {
        .width = 1,
        .tree = {.words = none, .words_len = 1, .upper = none, .upper_len = 1, .lower = none, .lower_len = 1}};
    MUST(find(&empty, plain.labels, 0, &at) == BITM_NONE && longest(&empty, plain.labels, 0, &at, &count) == BITM_NONE);
    answers_within(&empty);
    trie.ends_len = 0;
    ANSWER(bitm_trie_is_end(&trie, 1, out)); /* a trie without ends */
    MUST(status == BITM_NONE);
}

static void tests(void)
{
    drawn_tries();
    no_tries();
    changed_blocks();
    random_blocks();
    wrong_lengths();
}

int main(int argc, char **argv)
{
    take_seed(argc, argv);
    on_either_side((size_t)1 << 16, tests);
    printf(
        "tries: blocks answer as a plain trie, each changed byte and each prefix is refused, and queries of any words "
        "stay within their range\n");
    return 0;
}
