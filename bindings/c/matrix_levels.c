/* Matrices that are built level by level: the blocks are those that are built at once, and each level sorts the numbers
 * by its bit; levels of other lengths, widths and depths, which leave all as it was. All is beside pages that may not
 * be touched (places.h). */
#define _DEFAULT_SOURCE
#include "plain_numbers.h"

enum { NUMBERS = 300, SMALL = 9, ROOM = 2 * NUMBERS + 200 };
enum { OF_NUMBERS = OF_MORE, OF_SCRATCH };

/* The block of the numbers that is built at once. */
static const uint64_t *at_once(const uint64_t *numbers, size_t len, uint32_t width, bool quarters, bool hints,
                               uint64_t *words)
{
    static uint64_t scratch[2 * NUMBERS], block[ROOM];
    MUST(bitm_matrix_size(len, width, quarters, hints, words) == BITM_OK && *words <= ROOM);
    MUST(bitm_matrix_build(numbers, len, width, quarters, hints, scratch, 2 * len, block, *words) == BITM_OK);
    return block;
}

/* Level by level: after each one the numbers with a 0 bit stand before those with a 1 bit, in their order. */
static void levels_as(const uint64_t *plain, size_t len, uint32_t width, bool quarters, bool hints)
{
    uint64_t before[NUMBERS], words;
    const uint64_t *const whole = at_once(plain, len, width, quarters, hints, &words);
    uint64_t *const block = untouched_at(OF_BLOCK, 8 * words), *const numbers = copied(OF_NUMBERS, plain, len);
    for (uint32_t depth = 0; depth < width; depth++) {
        uint64_t *const scratch = untouched_at(OF_SCRATCH, 8 * len);
        if (len > 0) memcpy(before, numbers, 8 * len);
        MUST(bitm_matrix_write_level(numbers, len, width, quarters, hints, depth, scratch, len, block, words) ==
             BITM_OK);
        size_t to = 0;
        for (uint64_t bit = 0; bit < 2; bit++)
            for (size_t i = 0; i < len; i++)
                if ((before[i] >> (width - 1 - depth) & 1) == bit) MUST(numbers[to++] == before[i]);
    }
    MUST(bitm_matrix_seal(len, width, quarters, hints, block, words) == BITM_OK);
    MUST(memcmp(block, whole, 8 * words) == 0 && bitm_matrix_check(block, words) == BITM_OK);
}

/* Bits above the width are not read: the block is that of the numbers without them. */
static void drawn_matrices(void)
{
    uint64_t numbers[NUMBERS], higher[NUMBERS], words;
    for (uint32_t i = 0; i < 132; i++) {
        const size_t len = i < 6 ? i : draw() % NUMBERS;
        const uint32_t width = 1 + i % 64;
        draw_numbers(numbers, len, width, i % 3 == 2 ? 0 : 1 + 3 * (i % 3));
        levels_as(numbers, len, width, i % 2 == 1, i % 4 > 1);
        for (size_t k = 0; k < len; k++) higher[k] = numbers[k] | (draw() & ~largest(width));
        const uint64_t *const whole = at_once(numbers, len, width, true, i % 4 > 1, &words);
        uint64_t *const block = untouched_at(OF_BLOCK, 8 * words), *const sorted = copied(OF_NUMBERS, higher, len);
        for (uint32_t depth = 0; depth < width; depth++)
            MUST(bitm_matrix_write_level(sorted, len, width, true, i % 4 > 1, depth, placed(OF_SCRATCH, 8 * len), len,
                                         block, words) == BITM_OK);
        MUST(bitm_matrix_seal(len, width, true, i % 4 > 1, block, words) == BITM_OK);
        MUST(memcmp(block, whole, 8 * words) == 0);
    }
}

/* ---- what is refused */

static const uint64_t small[SMALL] = {3, 1, 4, 1, 5, 9, 2, 6, 5};

/* A level of the small numbers, and the rest of the block, of other arguments: nothing is written. */
static void no_level(uint32_t width, bool quarters, bool hints, uint32_t depth, size_t scratch_len, size_t words)
{
    uint64_t *const numbers = copied(OF_NUMBERS, small, SMALL), *const scratch =
                                                                    untouched_at(OF_SCRATCH, 8 * scratch_len);
    uint64_t *const block = untouched_at(OF_BLOCK, 8 * words);
    MUST(bitm_matrix_write_level(numbers, SMALL, width, quarters, hints, depth, scratch, scratch_len, block, words) ==
         BITM_BAD_SIZE);
    MUST(memcmp(numbers, small, 8 * SMALL) == 0 && is_untouched(scratch, 8 * scratch_len));
    MUST(is_untouched(block, 8 * words));
}

static void no_seal(size_t len, uint32_t width, bool quarters, bool hints, size_t words)
{
    uint64_t *const block = untouched_at(OF_BLOCK, 8 * words);
    MUST(bitm_matrix_seal(len, width, quarters, hints, block, words) == BITM_BAD_SIZE);
    MUST(is_untouched(block, 8 * words));
}

static void no_levels(void)
{
    static const uint32_t bad[] = {0, 65, 256, 257, UINT32_MAX}, past[] = {4, 5, 64, 256, UINT32_MAX};
    uint64_t words;
    MUST(bitm_matrix_size(SMALL, 4, false, false, &words) == BITM_OK && words == 80);
    for (size_t len = 0; len < 110; len++) {
        if (len != words) no_level(4, false, false, 0, SMALL, len), no_seal(SMALL, 4, false, false, len);
        if (len != words + 8) no_level(4, true, false, 3, SMALL, len), no_seal(SMALL, 4, true, false, len);
        if (len != words + 8) no_level(4, false, true, 3, SMALL, len), no_seal(SMALL, 4, false, true, len);
        if (len != words + 24) no_level(4, true, true, 3, SMALL, len), no_seal(SMALL, 4, true, true, len);
        if (len != SMALL) no_level(4, false, false, 1, len, words);
    }
    for (size_t i = 0; i < 5; i++) {
        no_level(4, false, false, past[i], SMALL, words);
        no_level(bad[i], false, false, 0, SMALL, words), no_seal(SMALL, bad[i], false, false, words);
    }
    no_seal((size_t)1 << 63, 1, false, false, words), no_seal((size_t)1 << 57, 64, false, true, words);
    no_seal(SIZE_MAX, 64, true, false, words);
    MUST(bitm_matrix_write_level(NULL, 0, 1, false, false, 1, NULL, 0, untouched_at(OF_BLOCK, 8 * 56), 56) ==
         BITM_BAD_SIZE);
}

static void tests(void)
{
    drawn_matrices();
    no_levels();
}

int main(int argc, char **argv)
{
    take_seed(argc, argv);
    on_either_side(8 * ROOM, tests);
    puts("matrix levels: block by block those that are built at once, and what is refused leaves all as it was");
    return 0;
}
