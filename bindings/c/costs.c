/* Calls that would not end within hours if they went on by what the memory claims, or went over all that is kept for
 * each number: no time is measured, since the program ends. */
#include "common.h"

#include <string.h>

/* The words of a part of a block, in the memory of the block. */
static uint64_t *inside(uint64_t *block, const uint64_t *part) { return block + (part - block); }

/* The index of banana with a sample each 2^32 - 1 letters, whose marks say that no position is sampled: a walk to a
 * sampled position ends where the text does. */
static void a_walk_is_no_longer_than_the_text(void)
{
    const uint8_t *const banana = (const uint8_t *)"banana";
    uint64_t words, needed, positions[7], written = UNTOUCHED;
    MUST(bitm_text_size_bytes(banana, 6, UINT32_MAX, &words, &needed) == BITM_OK);
    uint64_t *const block = calloc(words, 8);
    uint32_t *const scratch = calloc(needed, 4);
    MUST(block && scratch);
    MUST(bitm_text_build_bytes(banana, 6, UINT32_MAX, scratch, needed, block, words) == BITM_OK);
    struct bitm_text text = {0};
    MUST(bitm_text_open(block, words, &text) == BITM_OK && text.step == UINT32_MAX);
    MUST(bitm_text_locate_bytes(&text, banana + 1, 1, 0, positions, 7, &written) == BITM_OK && written == 3);
    MUST(positions[0] == 5 && positions[1] == 3 && positions[2] == 1);
    memset(inside(block, text.marks.words), 0, 8 * text.marks.words_len);
    memset(inside(block, text.marks.upper), 0, 8 * text.marks.upper_len);
    memset(inside(block, text.marks.lower), 0, 8 * text.marks.lower_len);
    for (size_t from = 0; from < 3; from++) {
        written = UNTOUCHED;
        MUST(bitm_text_locate_bytes(&text, banana + 1, 1, from, positions, 7, &written) == BITM_WRONG);
        MUST(written == UNTOUCHED);
    }
    free(scratch);
    free(block);
}

/* The most frequent of 2^20 distinct numbers, of which each of the greater half, which comes last, stands there twice.
 */
static void the_most_frequent_of_many(void)
{
    enum { HALF = 1 << 19, KINDS = 2 * HALF, LEN = HALF + 2 * HALF };
    uint64_t *const numbers = calloc(LEN, 8), *const scratch = calloc(2 * LEN, 8);
    uint64_t *const found = calloc(KINDS, 8), *const counts = calloc(KINDS, 8), words, written;
    MUST(numbers && scratch && found && counts);
    for (size_t i = 0; i < HALF; i++) {
        numbers[i] = i;
        numbers[HALF + 2 * i] = numbers[HALF + 2 * i + 1] = HALF + i;
    }
    MUST(bitm_matrix_size(LEN, 20, false, false, &words) == BITM_OK);
    uint64_t *const block = calloc(words, 8);
    MUST(block && bitm_matrix_build(numbers, LEN, 20, false, false, scratch, 2 * LEN, block, words) == BITM_OK);
    struct bitm_matrix matrix = {0};
    MUST(bitm_matrix_open(block, words, &matrix) == BITM_OK);
    for (size_t room = KINDS; room > 0; room /= 32) {
        MUST(bitm_matrix_top(&matrix, 0, LEN, found, room, counts, room, &written) == BITM_OK && written == room);
        for (size_t i = 0; i < room; i++) MUST(found[i] == (i + HALF) % KINDS && counts[i] == (i < HALF ? 2u : 1u));
    }
    free(block);
    free(counts);
    free(found);
    free(scratch);
    free(numbers);
}

int main(void)
{
    a_walk_is_no_longer_than_the_text();
    the_most_frequent_of_many();
    printf("costs: a walk ends with its text, and the most frequent of 2^20 distinct numbers are found\n");
    return 0;
}
