/* Which length is wrong: a fault is named exactly where a call returns BITM_BAD_SIZE, by the name of the length. And
 * which versions of the library fit a header. */
#define bitm_version version_of_the_test
#include "common.h"
#undef bitm_version

#include <string.h>

enum { WORDS = 96, LOWERS = 3, TURNS = 200000 };

static uint32_t linked;
uint32_t version_of_the_test(void) { return linked; }

static uint64_t words[WORDS], upper[2], lower[LOWERS + 1], low[8], sizes[260];
static const uint64_t zeros[4096];
static const uint8_t seeds[WORDS];

/* A right length, or one near it, or a huge one. */
static size_t near_to(size_t right)
{
    switch (draw() % 8) {
    case 0: return right + 1;
    case 1: return right - (right > 0);
    case 2: return ((size_t)1 << 58) - draw() % 2;
    case 3: return SIZE_MAX - draw() % 2;
    default: return right;
    }
}

/* Whether a fault is named where, and only where, the status says so, and by a name of the struct. */
static bool agrees(uint32_t status, const char *fault, const char *names)
{
    if ((status == BITM_BAD_SIZE) != (fault != NULL)) return false;
    if (!fault) return true;
    char name[32] = " ";
    const size_t len = strcspn(fault, " ");
    MUST(len < sizeof name - 2);
    memcpy(name + 1, fault, len);
    name[len + 1] = ' ', name[len + 2] = '\0';
    return strstr(names, name) != NULL;
}

/* None, or as many words as the hints take, or nearly so. */
static size_t drawn_hints(size_t ones, size_t words_len)
{
    return draw() % 2 ? near_to(bitm_hints_len(ones, words_len)) : 0;
}

/* Lengths past the memory are wrong ones, which no call may take for right. */
static void drawn(void)
{
    uint64_t out;
    const size_t words_len = near_to(WORDS - draw() % 40), inside = words_len <= WORDS ? words_len : WORDS;
    const size_t uppers = near_to(bitm_index_upper_len(inside)), lowers = near_to(bitm_index_lower_len(inside));
    const struct bitm_index index = {.words = words, .words_len = words_len, .upper = upper, .upper_len = uppers,
                                     .lower = lower, .lower_len = lowers, .bits_len = near_to(64 * inside)};
    if (words_len <= WORDS || words_len >= (size_t)1 << 58) {
        MUST(agrees(bitm_index_rank(&index, true, 0, &out), bitm_index_fault(&index),
                    " words_len upper_len lower_len bits_len "));
        MUST(agrees(bitm_bits_next(words, words_len, index.bits_len, true, UINT64_MAX, &out),
                    bitm_bits_fault(words_len, index.bits_len), " words_len bits_len "));
        const struct bitm_hash hash = {index, sizes, near_to(256), 7};
        MUST(agrees(bitm_hash_get(&hash, 5, &out), bitm_hash_fault(&hash), " words_len upper_len lower_len sizes_len "));
        const struct bitm_seeded_hash seeded = {.hash = hash, .seeds = seeds,
                                                .seeds_len = draw() % 2 ? near_to(words_len) : 0};
        MUST(agrees(bitm_hash_get_seeded(&seeded, 5, &out), bitm_seeded_hash_fault(&seeded),
                    " words_len upper_len lower_len sizes_len seeds_len "));
        const uint64_t width = draw() % 66;
        const size_t len = draw() % 8 ? draw() % 8 : ((size_t)1 << 56) - draw() % 2;
        const struct bitm_sequence sequence = {len, width, low, near_to(bitm_bits_words_len(len % 8 * width)), words,
                                               words_len, upper, uppers, lower, lowers, zeros,
                                               drawn_hints(len, words_len)};
        MUST(agrees(bitm_sequence_get(&sequence, 0, &out), bitm_sequence_fault(&sequence),
                    " len width low_len words_len upper_len lower_len hints_len "));
    }
}

/* Lengths of words and of their tables, near those of that many bits, which fit in `zeros`. */
static void drawn_tables(uint64_t bits, size_t *words_len, size_t *upper_len, size_t *lower_len)
{
    const size_t right = bitm_bits_words_len(bits);
    *words_len = near_to(right);
    *upper_len = near_to(bitm_index_upper_len(right)), *lower_len = near_to(bitm_index_lower_len(right));
}

static struct bitm_tree drawn_tree(void)
{
    const size_t few = draw() % 3000, many = ((size_t)1 << (draw() % 2 ? 57 : 60)) - draw() % 2;
    struct bitm_tree tree = {
        .len = draw() % 8 ? few : many, .words = zeros, .upper = zeros, .lower = zeros, .hints = zeros};
    drawn_tables(2 * few + 1, &tree.words_len, &tree.upper_len, &tree.lower_len);
    tree.hints_len = drawn_hints(tree.len, tree.words_len);
    return tree;
}

static void drawn_nodes(void)
{
    uint64_t out;
    const struct bitm_tree tree = drawn_tree();
    MUST(agrees(bitm_tree_degree(&tree, 0, &out), bitm_tree_fault(&tree), " len words_len upper_len lower_len hints_len "));
    struct bitm_trie trie = {.tree = tree, .width = draw() % 66, .labels = zeros, .ends = zeros};
    const size_t nodes = tree.len % 4096;
    trie.labels_len = near_to(bitm_bits_words_len((nodes ? nodes - 1 : 0) * trie.width));
    trie.ends_len = draw() % 2 ? near_to(bitm_bits_words_len(nodes)) : 0;
    MUST(agrees(bitm_trie_label(&trie, 1, &out), bitm_trie_fault(&trie),
                " len tree.len width labels_len ends_len words_len upper_len lower_len hints_len "));
}

static struct bitm_matrix drawn_matrix(size_t len, uint64_t width)
{
    struct bitm_matrix matrix = {.len = draw() % 8 ? len : (size_t)1 << (57 + draw() % 7), .width = width,
                                 .words = zeros, .upper = zeros, .lower = zeros, .ones = zeros, .zeros = zeros,
                                 .quarters = zeros, .hints = zeros};
    drawn_tables(len * width, &matrix.words_len, &matrix.upper_len, &matrix.lower_len);
    matrix.ones_len = near_to(width), matrix.zeros_len = near_to(width);
    matrix.quarters_len = draw() % 2 ? near_to((bitm_bits_words_len(len * width) + 7) / 8) : 0;
    matrix.hints_len = draw() % 2 ? near_to(bitm_hints_room(matrix.words_len)) : 0;
    return matrix;
}

static void drawn_numbers(void)
{
    uint64_t out;
    const size_t len = draw() % 500;
    const struct bitm_matrix matrix = drawn_matrix(len, draw() % 66);
    MUST(agrees(bitm_matrix_get(&matrix, 0, &out), bitm_matrix_fault(&matrix),
                " len width words_len upper_len lower_len ones_len zeros_len quarters_len hints_len "));
    struct bitm_text text = {.letters = drawn_matrix(len, 1 + draw() % 8), .starts = zeros, .starts_len = draw() % 9,
                             .samples = zeros, .samples_len = draw() % 9, .first = near_to(len), .used = zeros};
    text.marks = drawn_matrix(near_to(len + 1) % 2048, draw() % 8 ? 1 : 2);
    text.step = draw() % 4 ? 32 : ((uint64_t)1 << 32) - draw() % 2;
    text.step = draw() % 8 ? text.step : 0;
    text.used_len = draw() % 2 ? near_to(4) : 0;
    MUST(agrees(bitm_text_len(&text, &out), bitm_text_fault(&text),
                " len letters.len marks.len marks.width first step used_len width words_len upper_len lower_len "
                "ones_len zeros_len quarters_len "));
    struct bitm_sparse sparse = {.positions = {.len = draw() % 8, .width = draw() % 66, .low = zeros, .words = zeros,
                                               .upper = zeros, .lower = zeros, .hints = zeros}, .bits_len = draw()};
    drawn_tables(draw() % 4096, &sparse.positions.words_len, &sparse.positions.upper_len, &sparse.positions.lower_len);
    sparse.positions.low_len = near_to(bitm_bits_words_len(sparse.positions.len * sparse.positions.width));
    sparse.positions.hints_len = drawn_hints(sparse.positions.len, sparse.positions.words_len);
    MUST(agrees(bitm_sparse_rank(&sparse, true, 0, &out), bitm_sparse_fault(&sparse),
                " len width low_len words_len upper_len lower_len hints_len "));
}

static void drawn_shards(void)
{
    uint64_t out;
    struct bitm_shard_location location;
    struct bitm_index none[4] = {{0}, {0}, {0}, {0}};
    const size_t counts = draw() % 5;
    const struct bitm_prefixes both = {.bits = zeros, .bits_len = counts, .ones = zeros, .ones_len = near_to(counts)};
    MUST(agrees(bitm_shards_find(&both, BITM_ONES, 0, &location), bitm_prefixes_fault(&both), " bits_len ones_len "));
    const struct bitm_shards shards = {.counts = both, .shards = none, .shards_len = near_to(counts ? counts - 1 : 0)};
    MUST(agrees(bitm_shards_rank(&shards, true, 0, &out), bitm_shards_fault(&shards),
                " bits_len ones_len shards_len "));
}

static void by_hand(void)
{
    struct bitm_index index = index_over(words, WORDS, upper, 1, lower, LOWERS);
    MUST(!bitm_index_fault(&index) && !bitm_bits_fault(WORDS, 64 * WORDS) && !bitm_tables_fault(0, 0, 0));
    index.bits_len++;
    MUST(strcmp(bitm_index_fault(&index), "bits_len is above 64 * words_len") == 0);
    index.upper_len = 0;
    MUST(strcmp(bitm_index_fault(&index), "upper_len is not bitm_index_upper_len(words_len)") == 0);
    MUST(strcmp(bitm_tables_fault(33, 1, 1), "lower_len is not bitm_index_lower_len(words_len)") == 0);
    MUST(strcmp(bitm_bits_fault((size_t)1 << 58, 7), "words_len is 2^58 or more") == 0);
    struct bitm_sequence sequence = {3, 5, low, 2, words, WORDS, upper, 1, lower, LOWERS, NULL, 0};
    MUST(strcmp(bitm_sequence_fault(&sequence), "low_len is not bitm_bits_words_len(len * width)") == 0);
    sequence.low_len = 1, sequence.hints_len = 1;
    MUST(strcmp(bitm_sequence_fault(&sequence), "hints_len is neither 0 nor bitm_hints_len(len, words_len)") == 0);
    MUST(bitm_hints_len(3, WORDS) == 1 + 24 && bitm_hints_len(SIZE_MAX, WORDS) == 24 && bitm_hints_len(1, 0) == 0);
    MUST(bitm_hints_len(256, 4) == 1 && bitm_hints_len(257, 5) == 3 && bitm_hints_len(7, (size_t)1 << 26) == 0);
    MUST(bitm_hints_len(0, ((size_t)1 << 26) - 1) == ((size_t)1 << 24) && bitm_hints_len(7, SIZE_MAX) == 0);
    MUST(bitm_hints_room(0) == 1 && bitm_hints_room(4) == 2 && bitm_hints_room(5) == 3);
    MUST(bitm_hints_room(((size_t)1 << 26) - 1) == ((size_t)1 << 24) + 1 && bitm_hints_room((size_t)1 << 26) == 0);
    sequence.hints_len = 0;
    MUST(!bitm_sequence_fault(&sequence));
    struct bitm_tree tree = {.len = 4, .words = zeros, .words_len = 1, .upper = zeros, .upper_len = 1};
    tree.lower = zeros;
    MUST(strcmp(bitm_tree_fault(&tree), "lower_len is not bitm_index_lower_len(words_len)") == 0);
    tree.lower_len = 1;
    MUST(!bitm_tree_fault(&tree));
    struct bitm_trie trie = {.tree = tree, .width = 8, .labels = zeros, .labels_len = 2};
    MUST(strcmp(bitm_trie_fault(&trie), "labels_len is not bitm_bits_words_len((tree.len - 1) * width)") == 0);
    trie.labels_len = 1;
    MUST(!bitm_trie_fault(&trie));
}

static void versions(void)
{
    linked = BITM_VERSION_NUMBER;
    MUST(bitm_version_fits());
    for (linked = 0; linked < 30000; linked++) { /* the same series is the same first two numbers, or from 1.0 on the first */
        const bool same = BITM_VERSION_NUMBER < 10000 ? linked / 100 == BITM_VERSION_NUMBER / 100
                                                      : linked / 10000 == BITM_VERSION_NUMBER / 10000;
        MUST(bitm_version_fits() == (same && linked >= BITM_VERSION_NUMBER));
    }
}

int main(int argc, char **argv)
{
    take_seed(argc, argv);
    uint64_t ones;
    MUST(bitm_index_build(words, WORDS, upper, 1, lower, LOWERS, &ones) == BITM_OK);
    by_hand();
    for (int i = 0; i < TURNS; i++) drawn(), drawn_nodes(), drawn_numbers(), drawn_shards();
    versions();
    puts("C: a fault is named exactly where a call returns BITM_BAD_SIZE; versions of one series fit");
    return 0;
}
