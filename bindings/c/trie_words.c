/* Tries of sorted words: their blocks beside those of drawn tries in which these words end, words that do not rise,
 * starts that are those of no words, and other lengths. All is beside pages that may not be touched (places.h). */
#define _DEFAULT_SOURCE
#include "changed.h"

enum { NODES = 250 };
#include "plain_tree.h"
enum { OF_BYTES = OF_MORE, OF_STARTS, OF_SCRATCH, OF_GROWN, OF_DEGREES, OF_LABELS, OF_ENDS };

/* A trie as arrays, whose labels are bytes; the root's label is not one. A word ends at each leaf, and at other nodes.
 */
struct plain {
    struct plain_tree tree;
    uint64_t labels[NODES], ends[(NODES + 63) / 64];
};

/* The words that end at its nodes, in the order of a dictionary. */
struct words {
    size_t count;
    uint64_t starts[NODES + 1];
    uint8_t bytes[NODES * NODES], path[NODES];
};

static void draw_trie(struct plain *trie, size_t len, uint64_t most)
{
    draw_tree(&trie->tree, len, most);
    memset(trie->ends, 0, sizeof trie->ends);
    for (size_t node = 0; node < len; node++) {
        const uint64_t degree = trie->tree.degrees[node];
        for (uint64_t k = 0; k < degree; k++) /* the labels rise, and leave room for those that follow */
            trie->labels[trie->tree.first[node] + k] = k * (256 / degree) + draw() % (256 / degree);
        if (degree == 0 || draw() % 3 == 0) trie->ends[node / 64] |= (uint64_t)1 << node % 64;
    }
}

static void gather(const struct plain *trie, struct words *words, size_t node, size_t depth)
{
    if (bit_of(trie->ends, node)) {
        const uint64_t start = words->starts[words->count];
        memcpy(words->bytes + start, words->path, depth);
        words->starts[++words->count] = start + depth;
    }
    for (uint64_t k = 0; k < trie->tree.degrees[node]; k++) {
        const uint64_t child = trie->tree.first[node] + k;
        words->path[depth] = (uint8_t)trie->labels[child];
        gather(trie, words, child, depth + 1);
    }
}

static const void *given(unsigned place, const void *from, size_t size)
{
    return size ? memcpy(placed(place, size), from, size) : placed(place, 0);
}

static uint32_t nodes_of(const uint8_t *bytes, size_t bytes_len, const uint64_t *starts, size_t starts_len,
                         uint64_t *nodes)
{
    uint64_t *out;
    uint32_t status;
    ANSWER(bitm_trie_nodes_of_words(given(OF_BYTES, bytes, bytes_len), bytes_len,
                                    given(OF_STARTS, starts, 8 * starts_len), starts_len, out));
    *nodes = *out;
    return status;
}

/* Builds into a block that is untouched where it is refused. */
static uint32_t build(const uint8_t *bytes, size_t bytes_len, const uint64_t *starts, size_t starts_len,
                      size_t scratch_len, size_t block_len, uint64_t **block)
{
    uint64_t *const scratch = untouched_at(OF_SCRATCH, 8 * scratch_len);
    *block = untouched_at(OF_GROWN, 8 * block_len);
    const uint32_t status =
        bitm_trie_build_words(given(OF_BYTES, bytes, bytes_len), bytes_len, given(OF_STARTS, starts, 8 * starts_len),
                              starts_len, scratch, scratch_len, *block, block_len);
    MUST(status == BITM_OK || is_untouched(*block, 8 * block_len));
    return status;
}

/* The block of the words is that of the trie in which they end. */
static void grown_as(const struct plain *trie, const struct words *words)
{
    const size_t len = trie->tree.len, ends = (len + 63) / 64, bytes = words->starts[words->count];
    uint64_t nodes, size, *block;
    MUST(nodes_of(words->bytes, bytes, words->starts, words->count + 1, &nodes) == BITM_OK && nodes == len);
    MUST(bitm_trie_size(len, 8, true, &size) == BITM_OK);
    MUST(build(words->bytes, bytes, words->starts, words->count + 1, 3 * len - 2 + ends, size, &block) == BITM_OK);
    uint64_t *const wanted = untouched_at(OF_BLOCK, 8 * size);
    MUST(bitm_trie_build(given(OF_DEGREES, trie->tree.degrees, 8 * len), len,
                         given(OF_LABELS, trie->labels + 1, 8 * len - 8), len - 1, 8,
                         given(OF_ENDS, trie->ends, 8 * ends), ends, wanted, size) == BITM_OK);
    MUST(memcmp(block, wanted, 8 * size) == 0 && bitm_trie_check(block, size) == BITM_OK);
    for (size_t i = 0; i < 4; i++) { /* another length */
        const size_t lens[2] = {3 * len - 2 + ends - (i == 0) + (i == 1), size - (i == 2) + (i == 3)};
        MUST(build(words->bytes, bytes, words->starts, words->count + 1, lens[0], lens[1], &block) == BITM_BAD_SIZE);
    }
}

static void drawn_words(void)
{
    static const uint64_t most[] = {1, 2, 3, 10, 100, 256};
    static struct plain trie;
    static struct words words;
    for (size_t i = 0; i < 60; i++) {
        draw_trie(&trie, i < 12 ? i + 1 : 1 + draw() % NODES, most[i % 6]);
        words.count = 0, words.starts[0] = 0;
        gather(&trie, &words, 0, 0);
        grown_as(&trie, &words);
    }
}

/* ---- no words, and words that do not rise */

/* No words, whatever the lengths are. */
static void refused(const char *bytes, size_t bytes_len, const uint64_t *starts, size_t starts_len)
{
    uint64_t nodes, *block;
    const uint8_t *const at = (const uint8_t *)bytes;
    MUST(nodes_of(at, bytes_len, starts, starts_len, &nodes) == BITM_BAD_SIZE && nodes == UNTOUCHED);
    MUST(build(at, bytes_len, starts, starts_len, 14, 88, &block) == BITM_BAD_SIZE);
}

/* Two words that do not rise, of which so many letters are not shared with the word before: the lengths are those of a
 * node more. */
static void unsorted(const char *bytes, size_t bytes_len, const uint64_t *starts, size_t letters)
{
    const uint8_t *const at = (const uint8_t *)bytes;
    const size_t scratch_len = 3 * letters + 2, block_len = letters ? 88 : 80; /* without labels a section less */
    uint64_t nodes, *block;
    MUST(nodes_of(at, bytes_len, starts, 3, &nodes) == BITM_UNSORTED && nodes == UNTOUCHED);
    MUST(build(at, bytes_len, starts, 3, scratch_len, block_len, &block) == BITM_UNSORTED);
    MUST(build(at, bytes_len, starts, 3, scratch_len + 1, block_len, &block) == BITM_BAD_SIZE);
    MUST(build(at, bytes_len, starts, 3, scratch_len, block_len + 8, &block) == BITM_BAD_SIZE);
}

static void no_words(void)
{
    static const uint64_t falls[3] = {0, 2, 1}, past[2] = {0, 5}, far[2] = {0, UINT64_MAX}, twice[3] = {0, 2, 4};
    static const uint64_t less[3] = {1, 2, 3}, shorter[3] = {0, 2, 3}, empty[3] = {2, 2, 2}, one[2] = {3, 3};
    uint64_t nodes;
    refused("abab", 4, falls, 0);
    refused("abab", 4, falls, 3);
    refused("abab", 4, past, 2);
    refused("abab", 4, far, 2);
    unsorted("abab", 4, twice, 2);
    unsorted("abab", 4, less, 2);
    unsorted("abab", 4, shorter, 2);
    unsorted("abab", 4, empty, 0);
    unsorted("\177\200\177", 3, (const uint64_t[]){1, 2, 3}, 2); /* bytes have no sign */
    MUST(nodes_of((const uint8_t *)"abab", 4, one, 2, &nodes) == BITM_OK && nodes == 1);
    MUST(nodes_of((const uint8_t *)"abab", 4, one, 1, &nodes) == BITM_OK && nodes == 1);
    MUST(nodes_of((const uint8_t *)"\177\200", 2, (const uint64_t[]){0, 1, 2}, 3, &nodes) == BITM_OK && nodes == 3);
}

static void tests(void)
{
    drawn_words();
    no_words();
}

int main(int argc, char **argv)
{
    take_seed(argc, argv);
    on_either_side((size_t)1 << 17, tests);
    printf(
        "trie_words: the block of sorted words is that of the trie in which they end, and other words are refused\n");
    return 0;
}
