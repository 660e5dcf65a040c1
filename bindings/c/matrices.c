/* Matrices in blocks: the answers beside a plain array of numbers; numbers that fit in no block; blocks of which each
 * byte is changed, each prefix, and blocks whose words and tables hold random numbers. All is beside pages that may not
 * be touched (places.h). */
#define _DEFAULT_SOURCE
#include "hinted.h"
#include "plain_numbers.h"

enum { NUMBERS = 700, SMALL = 9, LIST = 64 };

/* What a block has besides. */
enum { COMPACT = 0, QUARTERS = 1, HINTS = 2, EITHER = 3, HOWS = 4 };

/* A list of numbers as an array. */
struct plain {
    size_t len;
    uint32_t width;
    uint64_t numbers[NUMBERS];
};

enum { OF_NUMBERS = OF_MORE, OF_SCRATCH, OF_ASKED, OF_INDICES, OF_RANKS };

static void draw_plain(struct plain *plain, size_t len, uint32_t width, uint64_t kinds)
{
    plain->len = len;
    plain->width = width;
    draw_numbers(plain->numbers, len, width, kinds);
}

/* The block of the numbers, which ends at the guard, as they and the scratch do. */
static uint64_t *built(const struct plain *plain, size_t how, uint64_t *words)
{
    const bool quarters = how & QUARTERS, hints = how & HINTS;
    MUST(bitm_matrix_size(plain->len, plain->width, quarters, hints, words) == BITM_OK && *words % 8 == 0);
    uint64_t *block = untouched_at(OF_BLOCK, 8 * *words); /* memory that is written may hold anything */
    uint64_t *numbers = placed(OF_NUMBERS, 8 * plain->len);
    uint64_t *scratch = placed(OF_SCRATCH, 16 * plain->len);
    memcpy(numbers, plain->numbers, 8 * plain->len);
    MUST(bitm_matrix_build(numbers, plain->len, plain->width, quarters, hints, scratch, 2 * plain->len, block,
                           *words) == BITM_OK);
    return block;
}

/* One number of the list, or none of it: its ranks and its indices. */
static void number_as(const struct plain *plain, const struct bitm_matrix *matrix, uint64_t number)
{
    uint64_t *out, before = 0;
    uint32_t status;
    for (size_t i = 0; i < plain->len; i++) {
        ANSWER(bitm_matrix_rank(matrix, number, i, out));
        MUST(status == BITM_OK && *out == before);
        if (plain->numbers[i] != number) continue;
        ANSWER(bitm_matrix_select(matrix, number, before, out));
        MUST(status == BITM_OK && *out == i);
        before++;
    }
    ANSWER(bitm_matrix_rank(matrix, number, plain->len, out));
    MUST(status == BITM_OK && *out == before);
    for (int far = 0; far < 2; far++) {
        ANSWER(bitm_matrix_rank(matrix, number, far ? SIZE_MAX : plain->len + 1, out));
        MUST(status == BITM_NONE);
        ANSWER(bitm_matrix_select(matrix, number, far ? SIZE_MAX : before, out));
        MUST(status == BITM_NONE);
    }
}

static void answers_as(const struct plain *plain, const struct bitm_matrix *matrix)
{
    uint64_t *out;
    uint32_t status;
    MUST(matrix->len == plain->len && matrix->width == plain->width);
    for (size_t i = 0; i < plain->len; i++) {
        ANSWER(bitm_matrix_get(matrix, i, out));
        MUST(status == BITM_OK && *out == plain->numbers[i]);
    }
    ANSWER(bitm_matrix_get(matrix, plain->len, out));
    MUST(status == BITM_NONE);
    ANSWER(bitm_matrix_get(matrix, SIZE_MAX, out));
    MUST(status == BITM_NONE);
    for (size_t i = 0; i < 4 && plain->len > 0; i++) number_as(plain, matrix, plain->numbers[draw() % plain->len]);
    number_as(plain, matrix, draw() & largest(plain->width));
    number_as(plain, matrix, UINT64_MAX); /* of more bits than the width, but for 64 */
}

/* The numbers at a list of indices, up to the first that has none; the status is that of its single call. */
static void numbers_as_single_calls(const struct bitm_matrix *matrix, const uint64_t *indices)
{
    uint64_t *of_list = untouched_at(OF_LIST, 8 * LIST), *written = out_at_the_guard(), numbers[LIST], *out;
    uint32_t status, of_all;
    MUST(bitm_matrix_get_list(matrix, indices, LIST, of_list, LIST - 1, written) == BITM_BAD_SIZE);
    MUST(bitm_matrix_get_list(matrix, indices, LIST - 1, of_list, LIST, written) == BITM_BAD_SIZE);
    MUST(*written == UNTOUCHED && is_untouched(of_list, 8 * LIST));
    of_all = bitm_matrix_get_list(matrix, indices, LIST, of_list, LIST, written);
    const uint64_t count = *written;
    MUST(count <= LIST && (of_all == BITM_OK) == (count == LIST));
    memcpy(numbers, of_list, sizeof numbers);
    for (size_t i = 0; i < LIST; i++) {
        MUST(i < count || is_untouched(&numbers[i], 8));
        if (i > count) continue;
        ANSWER(bitm_matrix_get(matrix, indices[i], out));
        MUST(i < count ? status == BITM_OK && numbers[i] == *out : status != BITM_OK && status == of_all);
    }
    MUST(bitm_matrix_get_list(matrix, NULL, 0, NULL, 0, written) == BITM_OK && *written == 0);
}

/* Lists of other lengths than the others' are refused. */
static void lists_of_wrong_lengths(const struct bitm_matrix *matrix, const uint64_t *numbers, const uint64_t *ks)
{
    uint64_t *const list = untouched_at(OF_LIST, 8 * LIST);
    struct bitm_list_counts *const counts = counts_at_the_guard();
    for (size_t less = 1; less < 3; less++) {
        MUST(bitm_matrix_rank_list(matrix, numbers, LIST, ks, LIST, list, LIST - less, counts) == BITM_BAD_SIZE);
        MUST(bitm_matrix_rank_list(matrix, numbers, LIST, ks, LIST - less, list, LIST, counts) == BITM_BAD_SIZE);
        MUST(bitm_matrix_select_list(matrix, numbers, LIST, ks, LIST, list, LIST - less, counts) == BITM_BAD_SIZE);
        MUST(bitm_matrix_select_list(matrix, numbers, LIST - less, ks, LIST, list, LIST, counts) == BITM_BAD_SIZE);
    }
    MUST(counts->missing == UNTOUCHED && counts->wrong == UNTOUCHED && is_untouched(list, 8 * LIST));
    MUST(bitm_matrix_rank_list(matrix, NULL, 0, NULL, 0, NULL, 0, counts) == BITM_OK && counts->missing == 0);
    MUST(bitm_matrix_select_list(matrix, NULL, 0, NULL, 0, NULL, 0, counts) == BITM_OK && counts->wrong == 0);
}

typedef uint32_t list_call(const struct bitm_matrix *, const uint64_t *, size_t, const uint64_t *, size_t, uint64_t *,
                           size_t, struct bitm_list_counts *);
typedef uint32_t single_call(const struct bitm_matrix *, uint64_t, size_t, uint64_t *);

/* A list of numbers, each with an index or a rank, beside the call of one query. */
static void list_as_single_calls(const struct bitm_matrix *matrix, list_call *all, single_call *single,
                                 const uint64_t *numbers, const uint64_t *ks)
{
    uint64_t *const of_list = untouched_at(OF_LIST, 8 * LIST), *out;
    struct bitm_list_counts *const counts = counts_at_the_guard();
    uint32_t status = all(matrix, numbers, LIST, ks, LIST, of_list, LIST, counts);
    MUST(counted(status, of_list, LIST, *counts) == BITM_OK);
    for (size_t i = 0; i < LIST; i++) {
        ANSWER(single(matrix, numbers[i], ks[i], out));
        MUST(of_list[i] == item_of(status, *out));
    }
}

/* Lists of numbers, some of which are none. */
static void lists_as_single_calls(const struct bitm_matrix *matrix)
{
    uint64_t *numbers = placed(OF_ASKED, 8 * LIST), *indices = placed(OF_INDICES, 8 * LIST);
    uint64_t *ranks = placed(OF_RANKS, 8 * LIST);
    for (size_t i = 0; i < LIST; i++) {
        indices[i] = i % 16 ? draw() % (matrix->len + 1) : draw();
        ranks[i] = draw() % 3;
        numbers[i] = draw() & largest(matrix->width);
        if (i % 4 && bitm_matrix_get(matrix, indices[i], &numbers[i]) != BITM_OK) numbers[i] = 1;
    }
    numbers_as_single_calls(matrix, indices);
    lists_of_wrong_lengths(matrix, numbers, ranks);
    list_as_single_calls(matrix, bitm_matrix_rank_list, bitm_matrix_rank, numbers, indices);
    list_as_single_calls(matrix, bitm_matrix_select_list, bitm_matrix_select, numbers, ranks);
}

/* Whatever the block holds: every call returns, within its range. */
static void answers_within(const void *opened)
{
    const struct bitm_matrix *const matrix = opened;
    uint64_t *out;
    uint32_t status;
    for (size_t i = 0; i < matrix->len + 2; i++) {
        const bool is = i < matrix->len;
        ANSWER(bitm_matrix_get(matrix, i, out));
        MUST(status == BITM_OK ? is && *out <= largest(matrix->width) : (status == BITM_NONE) == !is);
        const uint64_t number = (status == BITM_OK ? *out : draw()) & largest(matrix->width);
        ANSWER(bitm_matrix_rank(matrix, number, i, out));
        MUST(status == BITM_OK ? i <= matrix->len && *out <= i : (status == BITM_NONE) == (i > matrix->len));
        ANSWER(bitm_matrix_select(matrix, number, draw() % 3, out));
        MUST(status == BITM_OK ? *out < matrix->len : status == BITM_NONE || status == BITM_WRONG);
    }
}

static void drawn_matrices(void)
{
    static struct plain plain;
    for (uint32_t i = 0; i < 96; i++) {
        uint64_t words;
        draw_plain(&plain, i < 12 ? i : draw() % NUMBERS, 1 + i % 64, i % 3 == 2 ? 0 : 1 + 3 * (i % 3));
        const size_t how = i % HOWS;
        uint64_t *block = built(&plain, how, &words);
        struct bitm_matrix matrix = {0};
        MUST(bitm_matrix_open(block, words, &matrix) == BITM_OK);
        MUST(bitm_matrix_check(block, words) == BITM_OK);
        MUST(matrix.quarters_len == (how & QUARTERS ? (matrix.words_len + 7) / 8 : 0));
        MUST(how & HINTS ? has_matrix_hints(&matrix) : matrix.hints_len == 0);
        answers_as(&plain, &matrix);
        lists_as_single_calls(&matrix);
    }
}

/* Numbers and widths that fit in no block, blocks and scratches that are too long or too short: nothing is written. */
static void no_matrices(void)
{
    static const uint64_t numbers[SMALL] = {3, 1, 4, 1, 5, 9, 2, 6, 5};
    static const uint32_t bad[] = {0, 65, 256, 257, UINT32_MAX};
    uint64_t words, room[100], scratch[2 * SMALL + 2];
    MUST(bitm_matrix_size(SMALL, 4, true, true, &words) == BITM_OK && words == 104); /* of a longer directory */
    MUST(bitm_matrix_size(SMALL, 4, true, false, &words) == BITM_OK && words == 88);
    MUST(bitm_matrix_size(SMALL, 4, false, true, &words) == BITM_OK && words == 88);
    MUST(bitm_matrix_size(SMALL, 4, false, false, &words) == BITM_OK && words == 80);
    memset(room, UNTOUCHED, sizeof room), memset(scratch, UNTOUCHED, sizeof scratch);
    /* 9 has 4 bits */
    MUST(bitm_matrix_build(numbers, SMALL, 3, false, false, scratch, 2 * SMALL, room, words) == BITM_WRONG);
    MUST(bitm_matrix_build(numbers, SMALL, 3, false, false, scratch, 2 * SMALL, room, 0) == BITM_BAD_SIZE);
    MUST(bitm_matrix_build(numbers, SMALL, 3, false, false, scratch, 0, room, words) == BITM_BAD_SIZE);
    for (size_t how = 0; how < HOWS; how++) {
        const bool quarters = how & QUARTERS, hints = how & HINTS;
        const size_t right = how == EITHER ? words + 24 : how ? words + 8 : words;
        for (size_t len = 0; len < 110; len++)
            if (len != right)
                MUST(bitm_matrix_build(numbers, SMALL, 4, quarters, hints, scratch, 2 * SMALL, room, len) ==
                     BITM_BAD_SIZE);
    }
    for (size_t len = 0; len <= 2 * SMALL + 2; len++)
        if (len != 2 * SMALL)
            MUST(bitm_matrix_build(numbers, SMALL, 4, false, false, scratch, len, room, words) == BITM_BAD_SIZE);
    for (size_t i = 0; i < sizeof bad / sizeof *bad; i++) {
        uint64_t out = UNTOUCHED;
        MUST(bitm_matrix_size(SMALL, bad[i], false, i % 2, &out) == BITM_BAD_SIZE && out == UNTOUCHED);
        MUST(bitm_matrix_build(numbers, SMALL, bad[i], false, false, scratch, 2 * SMALL, room, words) == BITM_BAD_SIZE);
    }
    MUST(is_untouched(room, sizeof room) && is_untouched(scratch, sizeof scratch));
    words = UNTOUCHED;
    MUST(bitm_matrix_size((size_t)1 << 63, 1, false, false, &words) == BITM_BAD_SIZE && words == UNTOUCHED);
    MUST(bitm_matrix_size((size_t)1 << 57, 64, false, true, &words) == BITM_BAD_SIZE && words == UNTOUCHED);
    MUST(bitm_matrix_size(SIZE_MAX, 64, false, false, &words) == BITM_BAD_SIZE && words == UNTOUCHED);
    MUST(bitm_matrix_size(((size_t)1 << 63) - 1, 1, false, true, &words) == BITM_OK && words < (uint64_t)1 << 59);
    /* no position of 2^26 words or more fits in a hint: its section has no words then */
    uint64_t with, without;
    MUST(bitm_matrix_size((size_t)1 << 32, 1, false, true, &with) == BITM_OK);
    MUST(bitm_matrix_size((size_t)1 << 32, 1, false, false, &without) == BITM_OK && with == without);
    MUST(bitm_matrix_size(((size_t)1 << 32) - 64, 1, false, true, &with) == BITM_OK);
    MUST(bitm_matrix_size(((size_t)1 << 32) - 64, 1, false, false, &without) == BITM_OK);
    MUST(with == without + ((size_t)1 << 24) + 8);
}

static uint32_t open_block(const uint64_t *block, size_t words, void *opened)
{
    return bitm_matrix_open(block, words, opened);
}

/* After six sections at most, and after seven. */
static const struct kind of_matrix = {40, sizeof(struct bitm_matrix), bitm_matrix_check, open_block, answers_within};
static const struct kind of_seven = {48, sizeof(struct bitm_matrix), bitm_matrix_check, open_block, answers_within};

static const struct kind *kind_of(size_t how) { return how == EITHER ? &of_seven : &of_matrix; }

static void changed_blocks(void)
{
    static struct plain plain;
    uint64_t words;
    draw_plain(&plain, SMALL, 3, 0);
    for (size_t how = 0; how < HOWS; how++) {
        uint64_t *const block = built(&plain, how, &words);
        changed_bytes(kind_of(how), block, words, 1);
        cut_off(kind_of(how), block, words);
    }
}

/* Other numbers in the quarters: the checksums may be right, the quarters are not. */
static void other_quarters(void)
{
    static struct plain plain;
    uint64_t words;
    draw_plain(&plain, 600, 9, 5);
    uint64_t *const block = built(&plain, QUARTERS, &words);
    struct bitm_matrix matrix = {0};
    MUST(bitm_matrix_open(block, words, &matrix) == BITM_OK && matrix.quarters_len == 11);
    uint64_t *const quarters = block + (matrix.quarters - block);
    for (size_t i = 0; i < matrix.quarters_len; i++) {
        quarters[i] = draw();
        answers_within(&matrix);
        MUST(bitm_matrix_check(block, words) == BITM_WRONG);
    }
}

/* Other numbers in the hints: the checksums may be right, the hints are not. A selection goes astray at most within its
 * range; a number and a rank do not depend on hints, and a list of selections goes without. */
static void other_hints(void)
{
    static struct plain plain;
    uint64_t words, *out;
    uint32_t status;
    draw_plain(&plain, 600, 9, 5);
    for (size_t how = HINTS; how < HOWS; how++) {
        uint64_t *const block = built(&plain, how, &words);
        struct bitm_matrix matrix = {0};
        MUST(bitm_matrix_open(block, words, &matrix) == BITM_OK && matrix.hints_len == 23);
        uint64_t *const hints = block + (matrix.hints - block);
        for (size_t i = 0; i < matrix.hints_len; i++) {
            hints[i] = draw();
            answers_within(&matrix);
            MUST(bitm_matrix_check(block, words) == BITM_WRONG);
        }
        struct bitm_matrix bare = matrix;
        bare.hints = NULL, bare.hints_len = 0;
        answers_as(&plain, &bare);
        for (size_t i = 0; i < plain.len; i++) {
            ANSWER(bitm_matrix_get(&matrix, i, out));
            MUST(status == BITM_OK && *out == plain.numbers[i]);
        }
        lists_as_single_calls(&bare);
    }
}

/* Random words after a right header, and random words alone. */
static void random_blocks(void)
{
    static struct plain plain;
    struct bitm_matrix matrix;
    for (size_t turn = 0; turn < 400; turn++) {
        uint64_t words;
        draw_plain(&plain, 1 + draw() % 300, 1 + (uint32_t)(draw() % 64), draw() % 9);
        const size_t how = turn / 2 % HOWS;
        uint64_t *const block = built(&plain, how, &words);
        spoil(block, kind_of(how)->head, words, turn);
        MUST(opens(kind_of(how), block, words, &matrix));
        answers_within(&matrix);
        if (!(how & HINTS)) lists_as_single_calls(&matrix); /* lists go without hints */
        if (bitm_matrix_check(block, words) == BITM_OK) answers_as(&plain, &matrix);
        draw_words(block, words);
        MUST(refuses(kind_of(how), block, words));
    }
}

/* Structs whose lengths are not those of the numbers. */
static void wrong_lengths(void)
{
    static struct plain plain;
    uint64_t words, *out;
    uint32_t status;
    draw_plain(&plain, 200, 5, 4);
    uint64_t *const block = built(&plain, EITHER, &words);
    struct bitm_matrix matrix = {0};
    MUST(bitm_matrix_open(block, words, &matrix) == BITM_OK);
    for (size_t i = 0; i < 18; i++) {
        struct bitm_matrix bad = matrix;
        if (i == 0) bad.len = 0;
        if (i == 1) bad.len = SIZE_MAX;
        if (i == 2) bad.len += 64;
        if (i == 3) bad.words_len--;
        if (i == 4) bad.words_len = 0;
        if (i == 5) bad.upper_len = 0;
        if (i == 6) bad.upper_len++;
        if (i == 7) bad.lower_len = 0;
        if (i == 8) bad.ones_len--;
        if (i == 9) bad.zeros_len++;
        if (i == 10) bad.width = 0;
        if (i == 11) bad.width = 6;
        if (i == 12) bad.width = 256 + 5;
        if (i == 13) bad.width = UINT64_MAX;
        if (i == 14) bad.quarters_len--;
        if (i == 15) bad.quarters_len++;
        if (i == 16) bad.hints_len--;
        if (i == 17) bad.hints_len++;
        ANSWER(bitm_matrix_get(&bad, 1, out));
        MUST(status == BITM_BAD_SIZE);
        ANSWER(bitm_matrix_rank(&bad, 1, 1, out));
        MUST(status == BITM_BAD_SIZE);
        ANSWER(bitm_matrix_select(&bad, 1, 0, out));
        MUST(status == BITM_BAD_SIZE);
        const uint64_t one = 1;
        uint64_t written = UNTOUCHED;
        struct bitm_list_counts *const counts = counts_at_the_guard();
        out = out_at_the_guard();
        MUST(bitm_matrix_get_list(&bad, &one, 1, out, 1, &written) == BITM_BAD_SIZE && written == UNTOUCHED);
        MUST(bitm_matrix_rank_list(&bad, &one, 1, &one, 1, out, 1, counts) == BITM_BAD_SIZE);
        MUST(bitm_matrix_select_list(&bad, &one, 1, &one, 1, out, 1, counts) == BITM_BAD_SIZE);
        MUST(*out == UNTOUCHED && counts->missing == UNTOUCHED && counts->wrong == UNTOUCHED);
    }
}

/* A section of the role of quarters or of hints, after the sections of a matrix that has none: the block opens as that
 * matrix or not at all, and where its check passes it is that matrix. Hints of another length are none. */
static void of_the_role(uint64_t role, bool quarters)
{
    enum { COUNT = 3, MOST = 40, ROOM = 256 };
    const uint64_t numbers[COUNT] = {1, 2, 3};
    uint64_t scratch[2 * COUNT], words, more, items[MOST], block[ROOM], to[ROOM], out;
    MUST(bitm_matrix_size(COUNT, 8, quarters, false, &words) == BITM_OK && words <= ROOM);
    MUST(bitm_matrix_build(numbers, COUNT, 8, quarters, false, scratch, 2 * COUNT, block, words) == BITM_OK);
    for (size_t count = 0; count < MOST; count++) {
        for (size_t i = 0; i < count; i++) items[i] = draw() % 3 ? draw() : draw() % 3;
        MUST(bitm_block_extended_size(block, words, role, count, &more) == BITM_OK && more <= ROOM);
        MUST(bitm_block_extend(block, words, role, count, items, count, to, more) == BITM_OK);
        MUST(bitm_block_check(to, more) == BITM_OK);
        struct bitm_matrix matrix;
        const uint32_t opened = bitm_matrix_open(to, more, &matrix), checked = bitm_matrix_check(to, more);
        MUST(opened == BITM_OK || (role == 6 && opened == BITM_WRONG && checked == BITM_WRONG));
        MUST(role == 6 || matrix.hints_len == (count == bitm_hints_room(matrix.words_len) ? count : 0));
        MUST(role == 6 || matrix.hints_len > 0 || checked == BITM_OK);
        for (size_t i = 0; opened == BITM_OK && i < COUNT; i++) {
            const uint32_t status = bitm_matrix_get(&matrix, i, &out);
            MUST(status == BITM_OK ? out < 256 : status == BITM_WRONG);
            MUST(checked != BITM_OK || (status == BITM_OK && out == numbers[i]));
        }
    }
}

static void tests(void)
{
    drawn_matrices();
    no_matrices();
    changed_blocks();
    other_quarters();
    other_hints();
    random_blocks();
    wrong_lengths();
    of_the_role(6, false);
    of_the_role(22, false);
    of_the_role(22, true);
}

int main(int argc, char **argv)
{
    take_seed(argc, argv);
    on_either_side(8 * (2 * NUMBERS + 200), tests);
    printf("matrices: blocks answer as a plain array, each changed byte and each prefix is refused, and queries of any "
           "words stay within their range\n");
    return 0;
}
