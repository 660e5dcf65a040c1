/* Drawn numbers as an array, what matrices in blocks are compared with. Where a program defines NUMBERS and WORDS: matrices
 * of as many numbers and words at most, and the loops over their ranges. */
#ifndef PLAIN_NUMBERS_H
#define PLAIN_NUMBERS_H

#include "changed.h"

/* Numbers of `width` bits, of which about `kinds` differ, or any. */
static inline void draw_numbers(uint64_t *numbers, size_t len, uint32_t width, uint64_t kinds)
{
    const uint64_t first = draw();
    for (size_t i = 0; i < len; i++) numbers[i] = (kinds == 0 ? draw() : first * (1 + draw() % kinds)) & largest(width);
}

#ifdef NUMBERS

static uint64_t numbers[NUMBERS], scratch[2 * NUMBERS], block[WORDS];

/* Sorted copies of the numbers of a range. */
static int by_number(const void *one, const void *other)
{
    const uint64_t a = *(const uint64_t *)one, b = *(const uint64_t *)other;
    return (a > b) - (a < b);
}

static void sort_range(size_t start, size_t end, uint64_t *sorted)
{
    memcpy(sorted, numbers + start, 8 * (end - start));
    qsort(sorted, end - start, 8, by_number);
}

/* A matrix of drawn numbers, with quarters or without, and with hints or without. */
static struct bitm_matrix drawn(size_t len, uint32_t width, uint64_t kinds)
{
    uint64_t words;
    struct bitm_matrix matrix = {0};
    const bool quarters = draw() % 2 == 1, hints = draw() % 2 == 1;
    draw_numbers(numbers, len, width, kinds);
    MUST(bitm_matrix_size(len, width, quarters, hints, &words) == BITM_OK && words <= WORDS);
    MUST(bitm_matrix_build(numbers, len, width, quarters, hints, scratch, 2 * len, block, words) == BITM_OK);
    MUST(bitm_matrix_open(block, words, &matrix) == BITM_OK);
    return matrix;
}

/* Ranges of matrices of each width, all numbers in turn 0, go to range_as; ranges that are none, and structs of wrong
 * lengths, to all_are with the status that each call has to return. */
static void each_range(void (*range_as)(const struct bitm_matrix *matrix, size_t turn, size_t start, size_t end),
                       void (*all_are)(const struct bitm_matrix *matrix, size_t start, size_t end, uint32_t wanted))
{
    for (uint32_t i = 0; i < 96; i++) {
        const size_t len = i < 6 ? i : draw() % (NUMBERS + 1);
        struct bitm_matrix matrix = drawn(len, 1 + i % 64, i % 3 == 2 ? 0 : 1 + 9 * (i % 3));
        for (size_t turn = 0; turn < 12; turn++) {
            const size_t start = turn == 0 ? 0 : draw() % (len + 1);
            range_as(&matrix, turn, start, turn == 0 ? len : start + draw() % (len - start + 1));
        }
        all_are(&matrix, 0, len + 1, BITM_NONE);
        all_are(&matrix, len, SIZE_MAX, BITM_NONE);
        all_are(&matrix, SIZE_MAX, SIZE_MAX, BITM_NONE);
        if (len > 0) all_are(&matrix, len, len - 1, BITM_NONE);
        matrix.ones_len++;
        all_are(&matrix, 0, len, BITM_BAD_SIZE);
        matrix.ones_len--, matrix.width = 65;
        all_are(&matrix, 0, len, BITM_BAD_SIZE);
    }
}

/* Matrices whose words and tables hold random numbers. */
static void each_spoilt(void (*within)(const struct bitm_matrix *matrix))
{
    for (size_t turn = 0; turn < 400; turn++) {
        const struct bitm_matrix matrix = drawn(1 + draw() % NUMBERS, 1 + (uint32_t)(draw() % 64), draw() % 9);
        spoil(block, 40, WORDS, turn);
        within(&matrix);
    }
}

#endif

#endif
