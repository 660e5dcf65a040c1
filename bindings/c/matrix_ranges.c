/* Ranges of numbers of a matrix in a block: the answers beside those of a sorted copy of the range; blocks whose words and
 * tables hold random numbers; ranges that are none, and structs of wrong lengths. The number that is written is beside
 * a page that may not be touched (places.h). */
#define _DEFAULT_SOURCE
#define NUMBERS 300
#define WORDS 800
#include "plain_numbers.h"

static uint64_t sorted[NUMBERS];

/* How many of the sorted numbers are less than the bound. */
static size_t below(size_t size, uint64_t bound)
{
    size_t count = 0;
    while (count < size && sorted[count] < bound) count++;
    return count;
}

static void bound_as_sorted(const struct bitm_matrix *matrix, size_t start, size_t end, uint64_t bound)
{
    uint64_t *out;
    uint32_t status;
    const size_t size = end - start, less = below(size, bound);
    ANSWER(bitm_matrix_count_less(matrix, start, end, bound, out));
    MUST(status == BITM_OK && *out == less);
    ANSWER(bitm_matrix_next_value(matrix, start, end, bound, out));
    MUST(less < size ? status == BITM_OK && *out == sorted[less] : status == BITM_NONE);
    ANSWER(bitm_matrix_previous_value(matrix, start, end, bound, out));
    MUST(less > 0 ? status == BITM_OK && *out == sorted[less - 1] : status == BITM_NONE);
}

static void range_as_sorted(const struct bitm_matrix *matrix, size_t turn, size_t start, size_t end)
{
    uint64_t *out;
    uint32_t status;
    const size_t size = end - start;
    (void)turn;
    sort_range(start, end, sorted);
    for (size_t k = 0; k < size; k += 1 + size / 20) {
        ANSWER(bitm_matrix_quantile(matrix, start, end, k, out));
        MUST(status == BITM_OK && *out == sorted[k]);
        bound_as_sorted(matrix, start, end, sorted[k]);
        bound_as_sorted(matrix, start, end, sorted[k] + 1);
    }
    for (int far = 0; far < 2; far++) {
        ANSWER(bitm_matrix_quantile(matrix, start, end, far ? SIZE_MAX : size, out));
        MUST(status == BITM_NONE);
    }
    bound_as_sorted(matrix, start, end, 0);
    bound_as_sorted(matrix, start, end, draw() & largest(matrix->width));
    bound_as_sorted(matrix, start, end, UINT64_MAX);
}

/* The status of each of the four calls. */
static void all_are(const struct bitm_matrix *matrix, size_t start, size_t end, uint32_t wanted)
{
    uint64_t *out;
    uint32_t status;
    ANSWER(bitm_matrix_count_less(matrix, start, end, 1, out));
    MUST(status == wanted);
    ANSWER(bitm_matrix_quantile(matrix, start, end, 0, out));
    MUST(status == wanted);
    ANSWER(bitm_matrix_next_value(matrix, start, end, 0, out));
    MUST(status == wanted);
    ANSWER(bitm_matrix_previous_value(matrix, start, end, UINT64_MAX, out));
    MUST(status == wanted);
}

/* Whatever the block holds: a count is at most that of the range, and a number on its side of the bound. */
static void ranges_within(const struct bitm_matrix *matrix)
{
    uint64_t *out;
    uint32_t status;
    for (size_t turn = 0; turn < 40; turn++) {
        const size_t start = draw() % (matrix->len + 2), end = draw() % (matrix->len + 2), k = draw() % (matrix->len + 2);
        const uint64_t bound = draw() & largest(matrix->width);
        const bool is_range = start <= end && end <= matrix->len, has_k = is_range && k < end - start;
        ANSWER(bitm_matrix_count_less(matrix, start, end, bound, out));
        MUST(status == BITM_OK ? is_range && *out <= end - start : (status == BITM_NONE) == !is_range);
        ANSWER(bitm_matrix_quantile(matrix, start, end, k, out));
        MUST(status == BITM_OK ? has_k && *out <= largest(matrix->width) : (status == BITM_NONE) == !has_k);
        ANSWER(bitm_matrix_next_value(matrix, start, end, bound, out));
        MUST(status == BITM_OK ? is_range && *out >= bound && *out <= largest(matrix->width) : is_range || status == BITM_NONE);
        ANSWER(bitm_matrix_previous_value(matrix, start, end, bound, out));
        MUST(status == BITM_OK ? is_range && *out < bound : is_range || status == BITM_NONE);
    }
}

static void tests(void)
{
    each_range(range_as_sorted, all_are);
    each_spoilt(ranges_within);
}

int main(int argc, char **argv)
{
    take_seed(argc, argv);
    on_either_side(8, tests);
    printf("matrix_ranges: ranges answer as sorted copies of them, and within their bounds over any words\n");
    return 0;
}
