/* The distinct, the most frequent and the common numbers of ranges of a matrix in a block: the answers beside those of
 * sorted copies of the ranges, with room for all and for fewer; blocks whose words and tables hold random numbers; ranges
 * that are none, and structs of wrong lengths. What is written is beside a page that may not be touched (places.h). */
#define _DEFAULT_SOURCE
#define NUMBERS 200
#define WORDS 700
#include "plain_numbers.h"

enum { OF_TALLIES = OF_MORE };

struct tally {
    uint64_t number, count;
};

/* The most frequent first, and of equally frequent ones the least. */
static int by_count(const void *one, const void *other)
{
    const struct tally *const a = one, *const b = other;
    return a->count != b->count ? (a->count < b->count) - (a->count > b->count) : by_number(&a->number, &b->number);
}

/* The distinct numbers of a range, rising, with how often each is there. */
static size_t tallies_of(size_t start, size_t end, struct tally *all)
{
    uint64_t sorted[NUMBERS];
    size_t kinds = 0;
    sort_range(start, end, sorted);
    for (size_t i = 0; i < end - start; i++) {
        if (i == 0 || sorted[i] != sorted[i - 1]) all[kinds++] = (struct tally){sorted[i], 0};
        all[kinds - 1].count++;
    }
    return kinds;
}

/* Whether the first of the written items are these tallies, and the items after them untouched. */
static void are(const struct tally *wanted, size_t kinds, size_t room, const uint64_t *list, const uint64_t *counts)
{
    for (size_t i = 0; i < kinds; i++) MUST(list[i] == wanted[i].number && (!counts || counts[i] == wanted[i].count));
    MUST(is_untouched(list + kinds, 8 * (room - kinds)) && (!counts || is_untouched(counts + kinds, 8 * (room - kinds))));
}

static void tallies_as(const struct bitm_matrix *matrix, size_t start, size_t end, size_t room, uint64_t from)
{
    struct tally all[NUMBERS], later[NUMBERS];
    uint64_t *out, *list = untouched_at(OF_LIST, 8 * room), *counts = untouched_at(OF_TALLIES, 8 * room);
    uint32_t status;
    size_t kinds = tallies_of(start, end, all), coming = 0;
    for (size_t i = 0; i < kinds; i++)
        if (all[i].number >= from) later[coming++] = all[i];
    if (coming > room) coming = room;
    ANSWER(bitm_matrix_distinct(matrix, start, end, from, list, room, counts, room, out));
    MUST(status == BITM_OK && *out == coming);
    are(later, coming, room, list, counts);
    qsort(all, kinds, sizeof *all, by_count);
    if (kinds > room) kinds = room;
    list = untouched_at(OF_LIST, 8 * room), counts = untouched_at(OF_TALLIES, 8 * room);
    ANSWER(bitm_matrix_top(matrix, start, end, list, room, counts, room, out));
    MUST(status == BITM_OK && *out == kinds);
    are(all, kinds, room, list, counts);
}

static void shared_as(const struct bitm_matrix *matrix, size_t start, size_t end, size_t room, uint64_t from)
{
    struct tally one[NUMBERS], other[NUMBERS], both[NUMBERS];
    uint64_t *out, *list = untouched_at(OF_LIST, 8 * room);
    uint32_t status;
    const size_t second = draw() % (matrix->len + 1), last = second + draw() % (matrix->len - second + 1);
    const size_t first_kinds = tallies_of(start, end, one), second_kinds = tallies_of(second, last, other);
    size_t kinds = 0;
    for (size_t i = 0; i < first_kinds && kinds < room; i++)
        for (size_t k = 0; k < second_kinds; k++)
            if (one[i].number == other[k].number && one[i].number >= from) both[kinds++] = one[i];
    ANSWER(bitm_matrix_intersect(matrix, start, end, second, last, from, list, room, out));
    MUST(status == BITM_OK && *out == kinds);
    are(both, kinds, room, list, NULL);
}

/* The status of each of the three calls, which write nothing; where counts_len is not 4, of those with counts. */
static void each_is(const struct bitm_matrix *matrix, size_t start, size_t end, size_t counts_len, uint32_t wanted)
{
    uint64_t *out, *const list = untouched_at(OF_LIST, 8 * 4), *const counts = untouched_at(OF_TALLIES, 8 * counts_len);
    uint32_t status;
    ANSWER(bitm_matrix_distinct(matrix, start, end, 0, list, 4, counts, counts_len, out));
    MUST(status == wanted);
    ANSWER(bitm_matrix_top(matrix, start, end, list, 4, counts, counts_len, out));
    MUST(status == wanted);
    for (int second = 0; second < 2 && counts_len == 4; second++) {
        ANSWER(second ? bitm_matrix_intersect(matrix, 0, 0, start, end, 0, list, 4, out)
                      : bitm_matrix_intersect(matrix, start, end, 0, 0, 0, list, 4, out));
        MUST(status == wanted);
    }
    MUST(is_untouched(list, 8 * 4) && is_untouched(counts, 8 * counts_len));
}

static void all_are(const struct bitm_matrix *matrix, size_t start, size_t end, uint32_t wanted)
{
    each_is(matrix, start, end, 4, wanted);
}

static void range_as_tallies(const struct bitm_matrix *matrix, size_t turn, size_t start, size_t end)
{
    const size_t room = turn < 3 ? matrix->len : draw() % 8;
    const uint64_t from = turn % 2 && matrix->len ? numbers[draw() % matrix->len] + draw() % 2 : 0;
    tallies_as(matrix, start, end, room, from);
    shared_as(matrix, start, end, room, from);
    if (turn > 0) return;
    tallies_as(matrix, start, end, room, UINT64_MAX);
    each_is(matrix, start, end, 3, BITM_BAD_SIZE);
}

/* Whatever the block holds: numbers rise from a bound on, counts are those of a range, and what is behind is untouched. */
static void rises(const uint64_t *list, uint64_t kinds, size_t room, uint64_t from, uint64_t width)
{
    MUST(kinds <= room && is_untouched(list + kinds, 8 * (room - kinds)));
    for (size_t i = 0; i < kinds; i++) MUST(list[i] >= from && list[i] <= largest(width) && (i == 0 || list[i - 1] < list[i]));
}

static void counts_within(const uint64_t *counts, uint64_t kinds, size_t room, size_t most)
{
    MUST(kinds <= room && is_untouched(counts + kinds, 8 * (room - kinds)));
    for (size_t i = 0; i < kinds; i++) MUST(counts[i] >= 1 && counts[i] <= most);
}

static void lists_within(const struct bitm_matrix *matrix)
{
    for (size_t turn = 0; turn < 30; turn++) {
        uint64_t *out;
        uint32_t status;
        const size_t start = draw() % (matrix->len + 2), end = draw() % (matrix->len + 2), room = draw() % 40;
        const uint64_t from = draw() & largest(matrix->width);
        const bool is_range = start <= end && end <= matrix->len;
        uint64_t *list = untouched_at(OF_LIST, 8 * room), *counts = untouched_at(OF_TALLIES, 8 * room);
        ANSWER(bitm_matrix_distinct(matrix, start, end, from, list, room, counts, room, out));
        MUST((status == BITM_NONE) == !is_range);
        if (status == BITM_OK) rises(list, *out, room, from, matrix->width), counts_within(counts, *out, room, end - start);
        list = untouched_at(OF_LIST, 8 * room), counts = untouched_at(OF_TALLIES, 8 * room);
        ANSWER(bitm_matrix_top(matrix, start, end, list, room, counts, room, out));
        MUST((status == BITM_NONE) == !is_range);
        if (status == BITM_OK) counts_within(counts, *out, room, end - start);
        for (size_t i = 0; status == BITM_OK && i < *out; i++) MUST(list[i] <= largest(matrix->width));
        list = untouched_at(OF_LIST, 8 * room);
        ANSWER(bitm_matrix_intersect(matrix, start, end, 0, matrix->len, from, list, room, out));
        MUST((status == BITM_NONE) == !is_range);
        if (status == BITM_OK) rises(list, *out, room, from, matrix->width);
    }
}

static void tests(void)
{
    each_range(range_as_tallies, all_are);
    each_spoilt(lists_within);
}

int main(int argc, char **argv)
{
    take_seed(argc, argv);
    on_either_side(8 * NUMBERS, tests);
    printf("matrix_tallies: distinct, most frequent and common numbers as loops find them, and within their bounds over any words\n");
    return 0;
}
