/* Sparse bits in blocks: the answers beside a plain list of positions; positions that fit in no block; blocks of which
 * each byte is changed, each prefix, and blocks whose words and tables hold random numbers. All is beside pages that
 * may not be touched (places.h). */
#define _DEFAULT_SOURCE
#include "changed.h"
#include "hinted.h"
#include "plain_sparse.h"

enum { SMALL = 9, LIST = 64 };

enum { OF_STRUCT = OF_MORE, OF_POSITIONS, OF_ASKED };

/* ---- blocks */

/* A number up to `most`, which may be any. */
static uint64_t up_to(uint64_t most) { return most == UINT64_MAX ? draw() : draw() % (most + 1); }

/* Drawn positions, each from 1 to `most` after the one before it; and some bits after the last. */
static void draw_positions(struct plain *plain, size_t ones, uint64_t most)
{
    uint64_t next = draw() % most;
    plain->ones = ones;
    for (size_t i = 0; i < ones; i++) {
        plain->positions[i] = next;
        next += 1 + draw() % most;
    }
    plain->bits_len = ones > 0 ? plain->positions[ones - 1] + 1 + draw() % 3 * (draw() % most) : draw() % most;
}

static uint64_t last_of(const struct plain *plain) { return plain->ones > 0 ? plain->positions[plain->ones - 1] : 0; }

/* The block of the bits, which ends at the guard, as the positions do. */
static uint64_t *built(const struct plain *plain, uint64_t *words)
{
    uint64_t *out;
    uint32_t status;
    ANSWER(bitm_sparse_size(plain->ones, last_of(plain), out));
    MUST(status == BITM_OK && *out % 8 == 0);
    *words = *out;
    uint64_t *block = untouched_at(OF_BLOCK, 8 * *words); /* memory that is written may hold anything */
    uint64_t *positions = placed(OF_POSITIONS, 8 * plain->ones);
    memcpy(positions, plain->positions, 8 * plain->ones);
    MUST(bitm_sparse_build(positions, plain->ones, plain->bits_len, block, *words) == BITM_OK);
    return block;
}

/* The queries of one number, as a position or a rank, of either kind of bit. */
static void number_as(const struct plain *plain, const struct bitm_sparse *sparse, uint64_t number)
{
    const uint64_t len = plain->bits_len;
    uint64_t *out;
    uint32_t status;
    ANSWER(bitm_sparse_get(sparse, number, out));
    MUST(number < len ? status == BITM_OK && *out == plain_bit(plain, number) : status == BITM_NONE);
    for (int one = 0; one < 2; one++) {
        ANSWER(bitm_sparse_rank(sparse, one, number, out));
        MUST(number <= len ? status == BITM_OK && *out == plain_rank(plain, one, number) : status == BITM_NONE);
        const uint64_t selected = plain_select(plain, one, number);
        ANSWER(bitm_sparse_select(sparse, one, number, out));
        MUST(selected < len ? status == BITM_OK && *out == selected : status == BITM_NONE);
        const uint64_t next = plain_next(plain, one, number), previous = plain_previous(plain, one, number);
        ANSWER(bitm_sparse_next(sparse, one, number, out));
        MUST(next < len ? status == BITM_OK && *out == next : status == BITM_NONE);
        ANSWER(bitm_sparse_previous(sparse, one, number, out));
        MUST(previous != UINT64_MAX ? status == BITM_OK && *out == previous : status == BITM_NONE);
    }
}

static void answers_as(const struct plain *plain, const struct bitm_sparse *sparse)
{
    MUST(sparse->bits_len == plain->bits_len && sparse->positions.len == plain->ones);
    for (uint64_t i = 0; i < 40; i++) number_as(plain, sparse, i);
    for (size_t i = 0; i < plain->ones; i += 1 + draw() % 8)
        for (uint64_t side = 0; side < 3; side++) number_as(plain, sparse, plain->positions[i] + side - 1);
    for (uint64_t side = 0; side < 5; side++) {
        number_as(plain, sparse, plain->bits_len + side - 2);
        number_as(plain, sparse, plain->ones + side - 2);
        number_as(plain, sparse, plain->bits_len - plain->ones + side - 2);
        number_as(plain, sparse, UINT64_MAX - side);
    }
    for (size_t i = 0; i < 20 && plain->bits_len > 0; i++) number_as(plain, sparse, draw() % plain->bits_len);
}

/* Lists of other lengths are refused, and lists of nothing are not. */
static void lists_of_wrong_lengths(const struct bitm_sparse *sparse, const uint64_t *numbers)
{
    uint64_t *const list = untouched_at(OF_LIST, 8 * LIST);
    struct bitm_list_counts *counts = counts_at_the_guard();
    for (size_t less = 1; less < 3; less++)
        for (int one = 0; one < 2; one++) {
            MUST(bitm_sparse_get_list(sparse, numbers, LIST - less, list, LIST, counts) == BITM_BAD_SIZE);
            MUST(bitm_sparse_get_list(sparse, numbers, LIST, list, LIST - less, counts) == BITM_BAD_SIZE);
            MUST(bitm_sparse_rank_list(sparse, one, numbers, LIST - less, list, LIST, counts) == BITM_BAD_SIZE);
            MUST(bitm_sparse_rank_list(sparse, one, numbers, LIST, list, LIST - less, counts) == BITM_BAD_SIZE);
            MUST(bitm_sparse_select_list(sparse, one, numbers, LIST - less, list, LIST, counts) == BITM_BAD_SIZE);
            MUST(bitm_sparse_select_list(sparse, one, numbers, LIST, list, LIST - less, counts) == BITM_BAD_SIZE);
        }
    MUST(counts->missing == UNTOUCHED && counts->wrong == UNTOUCHED && is_untouched(list, 8 * LIST));
    MUST(bitm_sparse_get_list(sparse, NULL, 0, NULL, 0, counts) == BITM_OK && counts->missing == 0);
    counts = counts_at_the_guard();
    MUST(bitm_sparse_rank_list(sparse, true, NULL, 0, NULL, 0, counts) == BITM_OK && counts->wrong == 0);
    counts = counts_at_the_guard();
    MUST(bitm_sparse_select_list(sparse, false, NULL, 0, NULL, 0, counts) == BITM_OK && counts->missing == 0);
}

typedef uint32_t list_call(const struct bitm_sparse *, bool, const uint64_t *, size_t, uint64_t *, size_t,
                           struct bitm_list_counts *);
typedef uint32_t single_call(const struct bitm_sparse *, bool, uint64_t, uint64_t *);

/* A list of numbers beside the call of one query. */
static void list_as_single_calls(const struct bitm_sparse *sparse, list_call *all, single_call *single, bool one,
                                 const uint64_t *numbers)
{
    uint64_t *const list = untouched_at(OF_LIST, 8 * LIST), *out;
    struct bitm_list_counts *const counts = counts_at_the_guard();
    uint32_t status = all(sparse, one, numbers, LIST, list, LIST, counts);
    MUST(counted(status, list, LIST, *counts) == BITM_OK);
    for (size_t i = 0; i < LIST; i++) {
        ANSWER(single(sparse, one, numbers[i], out));
        MUST(list[i] == item_of(status, *out));
    }
}

/* The calls of a bit take no kind of bits. */
static uint32_t get_list(const struct bitm_sparse *sparse, bool one, const uint64_t *numbers, size_t numbers_len,
                         uint64_t *out, size_t out_len, struct bitm_list_counts *counts)
{
    (void)one;
    return bitm_sparse_get_list(sparse, numbers, numbers_len, out, out_len, counts);
}

static uint32_t get(const struct bitm_sparse *sparse, bool one, uint64_t number, uint64_t *out)
{
    (void)one;
    return bitm_sparse_get(sparse, number, out);
}

/* Lists of numbers, some of which are no positions. */
static void lists_as_single_calls(const struct bitm_sparse *sparse)
{
    uint64_t *numbers = placed(OF_ASKED, 8 * LIST);
    for (size_t i = 0; i < LIST; i++) {
        numbers[i] = i % 16 == 0 ? draw() : up_to(i % 2 ? sparse->bits_len : sparse->positions.len) + i % 3 / 2;
        if (i % 4 == 1 && bitm_sequence_get(&sparse->positions, i, &numbers[i]) != BITM_OK) numbers[i] = i;
    }
    lists_of_wrong_lengths(sparse, numbers);
    list_as_single_calls(sparse, get_list, get, true, numbers);
    for (int one = 0; one < 2; one++) {
        list_as_single_calls(sparse, bitm_sparse_rank_list, bitm_sparse_rank, one, numbers);
        list_as_single_calls(sparse, bitm_sparse_select_list, bitm_sparse_select, one, numbers);
    }
}

/* Whatever the block holds: every call of a number returns, within its range. */
static void number_within(const struct bitm_sparse *sparse, uint64_t number)
{
    const uint64_t len = sparse->bits_len;
    uint64_t *out;
    uint32_t status;
    ANSWER(bitm_sparse_get(sparse, number, out));
    MUST(status == BITM_OK ? number < len && *out < 2 : status == (number >= len ? BITM_NONE : BITM_WRONG));
    for (int one = 0; one < 2; one++) {
        ANSWER(bitm_sparse_rank(sparse, one, number, out));
        const bool is_wrong = status == BITM_WRONG;
        MUST(status == BITM_OK ? number <= len && *out <= number : status == (number > len ? BITM_NONE : BITM_WRONG));
        ANSWER(bitm_sparse_select(sparse, one, number, out));
        MUST(status == BITM_OK ? *out < len : status == BITM_NONE || status == BITM_WRONG);
        ANSWER(bitm_sparse_next(sparse, one, number, out));
        MUST(status == BITM_OK ? number <= *out && *out < len : status == BITM_NONE || status == BITM_WRONG);
        MUST(!is_wrong || status == BITM_WRONG); /* there was no rank to select by */
        ANSWER(bitm_sparse_rank(sparse, one, number < len ? number + 1 : len, out));
        const bool was_wrong = status == BITM_WRONG;
        ANSWER(bitm_sparse_previous(sparse, one, number, out));
        MUST(status == BITM_OK ? *out <= number && *out < len : status == BITM_NONE || status == BITM_WRONG);
        MUST(!was_wrong || status == BITM_WRONG);
    }
}

static void answers_within(const void *opened)
{
    const struct bitm_sparse *const sparse = opened;
    for (uint64_t i = 0; i < 8; i++) number_within(sparse, i);
    for (uint64_t side = 0; side < 5; side++) {
        number_within(sparse, sparse->bits_len + side - 2);
        number_within(sparse, sparse->positions.len + side - 2);
        number_within(sparse, UINT64_MAX - side);
    }
    for (size_t i = 0; i < 8; i++) number_within(sparse, up_to(sparse->bits_len));
}

/* The struct has the numbers of the header, and points to the sections of the directory. */
static void is_over(const uint64_t *block, const struct bitm_sparse *sparse)
{
    const struct bitm_sequence *const it = &sparse->positions;
    const uint64_t *const starts[5] = {it->words, it->upper, it->lower, it->low, it->hints};
    const size_t lens[5] = {it->words_len, it->upper_len, it->lower_len, it->low_len, it->hints_len};
    MUST(it->len == block[3] && it->width == block[4] && sparse->bits_len == block[9]);
    for (size_t i = 0; i < 5; i++) MUST(starts[i] == block + block[17 + 4 * i] / 8 && lens[i] == block[18 + 4 * i]);
    MUST(has_hints(it->hints, it->hints_len, it->words, it->words_len, it->len));
    MUST(sparse->reserved[0] == 0 && sparse->reserved[1] == 0);
}

/* A block that was written before there were hints is that of the same bits. */
static void no_hints(const struct plain *plain, const uint64_t *block)
{
    static uint64_t older[2 * ONES + 200];
    const size_t words = without_hints(block, older);
    struct bitm_sparse sparse = {.positions = {.hints_len = UNTOUCHED}};
    MUST(bitm_sparse_check(older, words) == BITM_OK && bitm_sparse_open(older, words, &sparse) == BITM_OK);
    MUST(sparse.positions.hints_len == 0);
    answers_as(plain, &sparse);
}

static void drawn_bits(void)
{
    static struct plain plain;
    for (unsigned i = 0; i < 120; i++) {
        uint64_t words;
        draw_positions(&plain, i < 12 ? i / 2 : draw() % ONES, (uint64_t)1 << i % 40);
        uint64_t *block = built(&plain, &words);
        struct bitm_sparse *const sparse = placed(OF_STRUCT, sizeof *sparse);
        *sparse = (struct bitm_sparse){0};
        MUST(bitm_sparse_open(block, words, sparse) == BITM_OK && bitm_sparse_check(block, words) == BITM_OK);
        is_over(block, sparse);
        answers_as(&plain, sparse);
        lists_as_single_calls(sparse);
        no_hints(&plain, block);
    }
}

/* As many bits as there can be: a list is refused where an answer of it could be a code. */
static void most_bits(void)
{
    static struct plain plain = {.ones = 3, .positions = {5, (uint64_t)1 << 40, 0}};
    const uint64_t asked = 5;
    for (uint64_t less = 0; less < 5; less++) {
        uint64_t words, *out;
        plain.bits_len = UINT64_MAX - less;
        plain.positions[2] = UINT64_MAX - less - 1;
        uint64_t *const block = built(&plain, &words);
        struct bitm_sparse sparse = {0};
        MUST(bitm_sparse_open(block, words, &sparse) == BITM_OK && bitm_sparse_check(block, words) == BITM_OK);
        answers_as(&plain, &sparse);
        answers_within(&sparse);
        const uint32_t fits = less < 2 ? BITM_BAD_SIZE : BITM_OK;
        struct bitm_list_counts *const counts = counts_at_the_guard();
        out = out_at_the_guard();
        MUST(bitm_sparse_get_list(&sparse, &asked, 1, out, 1, counts) == fits);
        MUST(bitm_sparse_rank_list(&sparse, false, &asked, 1, out, 1, counts) == fits);
        MUST(bitm_sparse_select_list(&sparse, false, &asked, 1, out, 1, counts) == fits);
        MUST(fits == BITM_OK ? *out == 6 : *out == UNTOUCHED && counts->missing == UNTOUCHED);
        if (fits == BITM_OK) lists_as_single_calls(&sparse);
    }
}

/* Positions that fit in no block, and blocks that are too long or too short: nothing is written. */
static void no_bits(void)
{
    static const uint64_t positions[SMALL] = {0, 1, 4, 9, 16, 25, 36, 49, 64};
    static const uint64_t falls[3] = {7, 9, 8}, twice[3] = {7, 8, 8};
    uint64_t words, room[100];
    MUST(bitm_sparse_size(SMALL, 64, &words) == BITM_OK && words == 80);
    memset(room, UNTOUCHED, sizeof room);
    for (size_t len = 0; len < 100; len++) {
        const bool fits = len == 80; /* a header of 40 words, and five sections of at most eight */
        if (!fits) MUST(bitm_sparse_build(positions, SMALL, 65, room, len) == BITM_BAD_SIZE);
        MUST(bitm_sparse_build(positions, SMALL, 64, room, len) == (fits ? BITM_WRONG : BITM_BAD_SIZE));
        MUST(bitm_sparse_build(positions, SMALL, 0, room, len) == (fits ? BITM_WRONG : BITM_BAD_SIZE));
        MUST(bitm_sparse_build(falls, 3, 100, room, len) == (fits ? BITM_UNSORTED : BITM_BAD_SIZE));
        MUST(bitm_sparse_build(twice, 3, 3, room, len) == (fits ? BITM_UNSORTED : BITM_BAD_SIZE)); /* and past */
    }
    MUST(is_untouched(room, sizeof room));
    for (size_t i = 0; i < 3; i++) {
        uint64_t out = UNTOUCHED;
        MUST(bitm_sparse_size(i == 0 ? 0 : i == 1 ? (size_t)1 << 56 : SIZE_MAX, 7, &out) == BITM_BAD_SIZE);
        MUST(out == UNTOUCHED);
    }
    MUST(bitm_sparse_size(((size_t)1 << 56) - 1, UINT64_MAX, &words) == BITM_OK);
}

static uint32_t open_block(const uint64_t *block, size_t words, void *opened)
{
    return bitm_sparse_open(block, words, opened);
}

static const struct kind of_sparse = {40, sizeof(struct bitm_sparse), bitm_sparse_check, open_block, answers_within};

/* And the block of a sequence. */
static void changed_blocks(void)
{
    static struct plain plain;
    uint64_t words;
    draw_positions(&plain, SMALL, 100);
    uint64_t *const block = built(&plain, &words);
    changed_bytes(&of_sparse, block, words, 1);
    cut_off(&of_sparse, block, words);
    MUST(bitm_sequence_block_build(plain.positions, SMALL, block, words) == BITM_OK);
    MUST(refuses(&of_sparse, block, words));
}

/* Random words after a right header, and random words alone. */
static void random_blocks(void)
{
    static struct plain plain;
    struct bitm_sparse sparse;
    for (size_t turn = 0; turn < 400; turn++) {
        uint64_t words;
        draw_positions(&plain, 1 + draw() % 300, (uint64_t)1 << turn % 20);
        uint64_t *const block = built(&plain, &words);
        spoil(block, of_sparse.head, words, turn);
        MUST(opens(&of_sparse, block, words, &sparse));
        answers_within(&sparse);
        lists_as_single_calls(&sparse);
        if (bitm_sparse_check(block, words) == BITM_OK) answers_as(&plain, &sparse);
        draw_words(block, words);
        MUST(refuses(&of_sparse, block, words));
    }
}

/* Structs whose lengths are not those of a sequence, or that have other bits than the block was made of. */
static void other_structs(void)
{
    static struct plain plain;
    const uint64_t asked = 1;
    uint64_t words, *out;
    uint32_t status;
    draw_positions(&plain, 200, 50);
    uint64_t *const block = built(&plain, &words);
    struct bitm_sparse sparse = {0};
    MUST(bitm_sparse_open(block, words, &sparse) == BITM_OK);
    for (size_t i = 0; i < 13; i++) {
        struct bitm_sparse bad = sparse;
        if (i == 0) bad.positions.len = SIZE_MAX;
        if (i == 1) bad.positions.len += 64;
        if (i == 2) bad.positions.words_len = (size_t)1 << 58;
        if (i == 3) bad.positions.words_len += 64;
        if (i == 4) bad.positions.upper_len = 0;
        if (i == 5) bad.positions.upper_len++;
        if (i == 6) bad.positions.lower_len = 0;
        if (i == 7) bad.positions.low_len--;
        if (i == 8) bad.positions.low_len++;
        if (i == 9) bad.positions.width = 64;
        if (i == 10) bad.positions.width += 256;
        if (i == 11) bad.positions.hints_len--;
        if (i == 12) bad.positions.hints_len++;
        struct bitm_list_counts *const counts = counts_at_the_guard();
        ANSWER(bitm_sparse_get(&bad, 1, out));
        MUST(status == BITM_BAD_SIZE);
        for (int one = 0; one < 2; one++) {
            ANSWER(bitm_sparse_rank(&bad, one, 1, out));
            MUST(status == BITM_BAD_SIZE);
            ANSWER(bitm_sparse_select(&bad, one, 1, out));
            MUST(status == BITM_BAD_SIZE);
            ANSWER(bitm_sparse_next(&bad, one, 1, out));
            MUST(status == BITM_BAD_SIZE);
            ANSWER(bitm_sparse_previous(&bad, one, 1, out));
            MUST(status == BITM_BAD_SIZE);
            MUST(bitm_sparse_rank_list(&bad, one, &asked, 1, out, 1, counts) == BITM_BAD_SIZE);
            MUST(bitm_sparse_select_list(&bad, one, &asked, 1, out, 1, counts) == BITM_BAD_SIZE);
        }
        MUST(bitm_sparse_get_list(&bad, &asked, 1, out, 1, counts) == BITM_BAD_SIZE);
        MUST(*out == UNTOUCHED && counts->missing == UNTOUCHED && counts->wrong == UNTOUCHED);
    }
    for (uint64_t len = 0; len < 400; len++) { /* fewer bits than the positions say: no position is outside */
        struct bitm_sparse bad = sparse;
        bad.bits_len = len;
        answers_within(&bad);
        lists_as_single_calls(&bad);
    }
}

static void tests(void)
{
    drawn_bits();
    most_bits();
    no_bits();
    changed_blocks();
    random_blocks();
    other_structs();
}

int main(int argc, char **argv)
{
    take_seed(argc, argv);
    on_either_side(8 * (2 * ONES + 200), tests);
    printf("sparse: blocks answer as a list of positions, each changed byte and each prefix is refused, and queries of "
           "any words stay within their range\n");
    return 0;
}
