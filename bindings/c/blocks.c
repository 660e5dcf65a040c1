/* Blocks of bits and of sequences: what is opened answers as words and numbers beside it; words and numbers that fit in
 * no block; blocks of which each byte is changed, each prefix, and blocks whose words and tables hold random numbers.
 * All is beside pages that may not be touched (places.h). */
#define _DEFAULT_SOURCE
#include "changed.h"
#include "hinted.h"

enum { WORDS = 150, ITEMS = 900, SMALL = 9 };
enum { OF_GIVEN = OF_MORE };

/* Room for a block. */
static uint64_t *block_of(uint64_t words)
{
    MUST(words % 8 == 0);
    return untouched_at(OF_BLOCK, 8 * words);
}

/* ---- bits */

static uint64_t words_of[WORDS];

static uint64_t *bits_built(uint64_t bits_len, uint64_t *words)
{
    uint64_t *out;
    uint32_t status;
    const size_t n = bitm_bits_words_len(bits_len);
    ANSWER(bitm_index_block_size(bits_len, out));
    MUST(status == BITM_OK);
    *words = *out;
    uint64_t *given = placed(OF_GIVEN, 8 * n), *block = block_of(*words);
    memcpy(given, words_of, 8 * n);
    MUST(bitm_index_block_build(given, n, bits_len, block, *words) == BITM_OK);
    return block;
}

static void index_answers(const struct bitm_index *index, uint64_t bits_len)
{
    uint64_t *out, ranks[2] = {0, 0};
    uint32_t status;
    MUST(index->bits_len == bits_len && index->ones.samples_len == 0 && index->ones.starts_len == 0);
    MUST(index->zeros.samples_len == 0 && index->zeros.starts_len == 0 && bitm_index_fault(index) == NULL);
    for (uint64_t i = 0; i < bits_len; i++) {
        const bool bit = bit_of(words_of, i);
        ANSWER(bitm_index_rank(index, true, i, out));
        MUST(status == BITM_OK && *out == ranks[1]);
        ANSWER(bitm_index_select(index, bit, ranks[bit], out));
        MUST(status == BITM_OK && *out == i);
        ranks[bit]++;
    }
    ANSWER(bitm_index_rank(index, false, bits_len, out));
    MUST(status == BITM_OK && *out == ranks[0]);
    ANSWER(bitm_index_select(index, true, ranks[1], out));
    MUST(status == BITM_NONE && bitm_index_check(index) == BITM_OK);
}

static void index_within(const void *opened)
{
    const struct bitm_index *const index = opened;
    uint64_t *out;
    uint32_t status;
    MUST(bitm_index_fault(index) == NULL);
    for (uint64_t i = 0; i < index->bits_len + 2; i += 1 + index->bits_len / 40) {
        ANSWER(bitm_index_rank(index, i % 2, i, out));
        MUST(status == BITM_OK ? *out <= i && i <= index->bits_len : (status == BITM_NONE) == (i > index->bits_len));
        ANSWER(bitm_index_select(index, i % 2, i / 3, out));
        MUST(status != BITM_OK || (*out < index->bits_len && bit_of(index->words, *out) == i % 2));
    }
}

static uint32_t open_index(const uint64_t *block, size_t words, void *opened)
{
    return bitm_index_block_open(block, words, opened);
}

static const struct kind of_bits = {32, sizeof(struct bitm_index), bitm_index_block_check, open_index, index_within};

static void drawn_bits(void)
{
    for (size_t turn = 0; turn < 60; turn++) {
        uint64_t words;
        struct bitm_index index;
        const uint64_t bits_len = turn < 4 ? turn * 63 : draw() % (64 * WORDS + 1);
        for (size_t i = 0; i < WORDS; i++) words_of[i] = turn % 3 ? draw() : draw() & draw() & draw() & draw();
        uint64_t *block = bits_built(bits_len, &words);
        MUST(opens(&of_bits, block, words, &index) && bitm_index_block_check(block, words) == BITM_OK);
        index_answers(&index, bits_len);
        draw_words(block + of_bits.head, words - of_bits.head);
        MUST(opens_to_queries(&of_bits, block, words));
    }
}

static void no_bits(void)
{
    uint64_t words, *out, *block;
    uint32_t status;
    ANSWER(bitm_index_block_size(UINT64_MAX - 62, out));
    MUST(status == BITM_BAD_SIZE);
    ANSWER(bitm_index_block_size(UINT64_MAX - 63, out));
    MUST(status == BITM_OK && *out < (uint64_t)1 << 59);
    MUST(bitm_index_block_size(100, &words) == BITM_OK && words == 56); /* docs/FORMAT.md */
    block = block_of(words + 8);
    MUST(bitm_index_block_build(words_of, 1, 100, block, words) == BITM_BAD_SIZE);
    MUST(bitm_index_block_build(words_of, 2, UINT64_MAX, block, words) == BITM_BAD_SIZE);
    for (size_t len = 0; len < words + 8; len++)
        if (len != words) MUST(bitm_index_block_build(words_of, 2, 100, block, len) == BITM_BAD_SIZE);
    MUST(is_untouched(block, 8 * (words + 8)));
}

static void changed_bits(void)
{
    uint64_t words;
    uint64_t *const block = bits_built(100, &words);
    changed_bytes(&of_bits, block, words, 1);
    cut_off(&of_bits, block, words);
}

/* ---- sequences */

static uint64_t items_of[ITEMS];

static uint64_t *sequence_built(size_t len, uint64_t *words)
{
    uint64_t *out;
    uint32_t status;
    ANSWER(bitm_sequence_block_size(len, len ? items_of[len - 1] : 0, out));
    MUST(status == BITM_OK);
    *words = *out;
    uint64_t *given = placed(OF_GIVEN, 8 * len), *block = block_of(*words);
    memcpy(given, items_of, 8 * len);
    MUST(bitm_sequence_block_build(given, len, block, *words) == BITM_OK);
    return block;
}

static void sequence_answers(const struct bitm_sequence *sequence, size_t len)
{
    uint64_t *out;
    uint32_t status;
    MUST(sequence->len == len && bitm_sequence_fault(sequence) == NULL && bitm_sequence_check(sequence) == BITM_OK);
    for (size_t i = 0, first = 0; i < len; i++) {
        ANSWER(bitm_sequence_get(sequence, i, out));
        MUST(status == BITM_OK && *out == items_of[i]);
        if (items_of[first] < items_of[i]) first = i;
        ANSWER(bitm_sequence_first_at_least(sequence, items_of[i], out));
        MUST(status == BITM_OK && *out == first);
    }
    ANSWER(bitm_sequence_get(sequence, len, out));
    MUST(status == BITM_NONE);
}

static void sequence_within(const void *opened)
{
    const struct bitm_sequence *const sequence = opened;
    uint64_t *out;
    uint32_t status;
    MUST(bitm_sequence_fault(sequence) == NULL);
    for (size_t i = 0; i < sequence->len + 2; i += 1 + sequence->len / 40) {
        ANSWER(bitm_sequence_get(sequence, i, out));
        MUST(status == BITM_OK || (status == BITM_NONE) == (i >= sequence->len));
        ANSWER(bitm_sequence_first_at_least(sequence, draw(), out));
        MUST(status != BITM_OK || *out < sequence->len);
    }
}

static uint32_t open_sequence(const uint64_t *block, size_t words, void *opened)
{
    return bitm_sequence_block_open(block, words, opened);
}

static const struct kind of_sequence = {40, sizeof(struct bitm_sequence), bitm_sequence_block_check, open_sequence,
                                        sequence_within};

static void draw_items(size_t len, uint64_t most)
{
    uint64_t sum = 0;
    for (size_t i = 0; i < len; i++) {
        const uint64_t step = draw() % (most + 1);
        sum = sum + step < sum ? UINT64_MAX : sum + step;
        items_of[i] = sum;
    }
}

/* A block that was written before there were hints is that of the same sequence. */
static void no_hints(const uint64_t *block, size_t len)
{
    static uint64_t older[4096];
    const size_t words = without_hints(block, older);
    struct bitm_sequence sequence = {.hints_len = UNTOUCHED};
    MUST(bitm_sequence_block_check(older, words) == BITM_OK && opens(&of_sequence, older, words, &sequence));
    MUST(sequence.hints_len == 0);
    sequence_answers(&sequence, len);
}

static void drawn_sequences(void)
{
    for (size_t turn = 0; turn < 60; turn++) {
        uint64_t words;
        struct bitm_sequence sequence;
        const size_t len = turn < 6 ? turn : draw() % (ITEMS + 1);
        draw_items(len, turn % 4 ? (uint64_t)1 << draw() % 63 : 1);
        uint64_t *block = sequence_built(len, &words);
        MUST(opens(&of_sequence, block, words, &sequence) && bitm_sequence_block_check(block, words) == BITM_OK);
        sequence_answers(&sequence, len);
        MUST(has_hints(sequence.hints, sequence.hints_len, sequence.words, sequence.words_len, len));
        no_hints(block, len);
        draw_words(block + of_sequence.head, words - of_sequence.head);
        MUST(opens_to_queries(&of_sequence, block, words));
    }
}

static void no_sequences(void)
{
    static const uint64_t falls[4] = {2, 3, 5, 4};
    uint64_t words, *out, *block;
    uint32_t status;
    ANSWER(bitm_sequence_block_size((size_t)1 << 56, 7, out));
    MUST(status == BITM_BAD_SIZE);
    ANSWER(bitm_sequence_block_size(0, 7, out));
    MUST(status == BITM_BAD_SIZE);
    draw_items(4, 9);
    MUST(bitm_sequence_block_size(4, items_of[3], &words) == BITM_OK);
    block = block_of(words + 8);
    for (size_t len = 0; len < 80; len++) /* four numbers, the last of them 4: no low bits, and 72 words */
        MUST(bitm_sequence_block_build(falls, 4, block, len) == (len == 72 ? BITM_UNSORTED : BITM_BAD_SIZE));
    for (size_t len = 0; len < words + 8; len++)
        if (len != words) MUST(bitm_sequence_block_build(items_of, 4, block, len) == BITM_BAD_SIZE);
    MUST(is_untouched(block, 8 * (words + 8)));
}

static void changed_sequences(void)
{
    uint64_t words;
    draw_items(SMALL, 7);
    uint64_t *const block = sequence_built(SMALL, &words);
    changed_bytes(&of_sequence, block, words, 1);
    cut_off(&of_sequence, block, words);
}

static void tests(void)
{
    drawn_bits();
    no_bits();
    changed_bits();
    drawn_sequences();
    no_sequences();
    changed_sequences();
}

int main(int argc, char **argv)
{
    take_seed(argc, argv);
    on_either_side(8 * 4096, tests);
    printf("blocks: bits and sequences answer as the words and numbers beside them, and each changed byte and each prefix "
           "is refused\n");
    return 0;
}
