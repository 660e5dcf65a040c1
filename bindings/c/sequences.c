/* Builds monotone integer sequences, queries them, by hints too, and compares every answer with the numbers. Then
 * queries with wrong lengths and with each part spoilt. Each block has the exact size, so that the sanitizers see a read
 * or write of one number too far. */
#include "hinted.h"

/* A block of the exact size. */
static uint64_t *block_of(uint64_t count)
{
    uint64_t *block = malloc(count ? 8 * count : 1);
    MUST(block);
    for (uint64_t i = 0; i < count; i++)
        block[i] = UNTOUCHED;
    return block;
}

/* The last number at most a value, and whether it is one: of each number and of what is beside it. */
static void around_values(const struct bitm_sequence *view, const uint64_t *items)
{
    for (size_t i = 0; i <= view->len; i++)
        for (int beside = 0; beside < 3; beside++) {
            uint64_t value = i == view->len ? draw() : items[i] + (uint64_t)beside - 1, got; /* may wrap */
            size_t count = 0;
            while (count < view->len && items[count] <= value) count++;
            uint32_t status = bitm_sequence_last_at_most(view, value, &got);
            MUST(count ? status == BITM_OK && got == count - 1 : status == BITM_NONE);
            MUST(bitm_sequence_contains(view, value, &got) == BITM_OK);
            MUST(got == (count && items[count - 1] == value));
            uint64_t listed;
            MUST(value_list(bitm_sequence_last_at_most_list, view, &value, 1, &listed, 1) == BITM_OK);
            MUST(listed == (count ? count - 1 : BITM_NO_ANSWER));
            MUST(value_list(bitm_sequence_contains_list, view, &value, 1, &listed, 1) == BITM_OK && listed == got);
        }
}

/* Lists of values answer each as the call of one value does. */
static void lists_of_values(const struct bitm_sequence *view, const uint64_t *items)
{
    uint64_t values[40], firsts[40], lasts[40], there[40], got;
    for (int i = 0; i < 40; i++)
        values[i] = view->len && i % 2 ? items[draw() % view->len] + draw() % 3 - 1 : draw() >> draw() % 64;
    MUST(first_at_least_list(view, values, 40, firsts, 40) == BITM_OK);
    MUST(value_list(bitm_sequence_last_at_most_list, view, values, 40, lasts, 40) == BITM_OK);
    MUST(value_list(bitm_sequence_contains_list, view, values, 40, there, 40) == BITM_OK);
    for (int i = 0; i < 40; i++) {
        const uint32_t first = bitm_sequence_first_at_least(view, values[i], &got);
        MUST(first == BITM_OK ? firsts[i] == got : first == BITM_NONE && firsts[i] == BITM_NO_ANSWER);
        const uint32_t last = bitm_sequence_last_at_most(view, values[i], &got);
        MUST(last == BITM_OK ? lasts[i] == got : last == BITM_NONE && lasts[i] == BITM_NO_ANSWER);
        MUST(bitm_sequence_contains(view, values[i], &got) == BITM_OK && there[i] == got);
    }
}

/* The numbers from each index on: all, three and none. */
static void in_order(const struct bitm_sequence *view, const uint64_t *items, uint64_t *out)
{
    uint64_t written;
    for (size_t from = 0; from <= view->len + 1; from++) {
        size_t left = from < view->len ? view->len - from : 0, rooms[] = {view->len + 1, 3, 0};
        for (int k = 0; k < 3; k++) {
            size_t room = rooms[k] < view->len + 1 ? rooms[k] : view->len + 1, most = left < room ? left : room;
            for (size_t i = 0; i <= view->len; i++) out[i] = UNTOUCHED;
            MUST(bitm_sequence_items(view, from, out, room, &written) == BITM_OK && written == most);
            MUST(most == 0 || memcmp(out, items + from, 8 * most) == 0);
            for (size_t i = most; i <= view->len; i++) MUST(out[i] == UNTOUCHED);
        }
    }
    for (size_t i = 0; i <= view->len; i++) out[i] = UNTOUCHED;
}

/* Each number by its index, and each value beside a number, against the numbers themselves. */
static void query_sequence(const struct bitm_sequence *view, const uint64_t *items)
{
    uint64_t got, written, *indexes = block_of(view->len + 1), *out = block_of(view->len + 1);
    for (size_t i = 0; i <= view->len; i++)
        indexes[i] = i;
    for (size_t i = 0; i < view->len; i++) {
        MUST(bitm_sequence_get(view, i, &got) == BITM_OK && got == items[i]);
        size_t first = i;
        while (first > 0 && items[first - 1] == items[i])
            first--;
        MUST(bitm_sequence_first_at_least(view, items[i], &got) == BITM_OK && got == first);
        uint64_t before = first ? items[first - 1] + 1 : 0; /* no number is between */
        MUST(bitm_sequence_first_at_least(view, before, &got) == BITM_OK && got == first);
    }
    around_values(view, items);
    lists_of_values(view, items);
    in_order(view, items, out);
    got = UNTOUCHED;
    MUST(bitm_sequence_get(view, view->len, &got) == BITM_NONE && bitm_sequence_get(view, SIZE_MAX, &got) == BITM_NONE);
    if (view->len == 0 || items[view->len - 1] < UINT64_MAX) {
        uint64_t above = view->len ? items[view->len - 1] + 1 : 0;
        MUST(bitm_sequence_first_at_least(view, above, &got) == BITM_NONE);
        MUST(bitm_sequence_first_at_least(view, UINT64_MAX, &got) == BITM_NONE && got == UNTOUCHED);
    }
    MUST(bitm_sequence_get_list(view, indexes, view->len, out, view->len, &written) == BITM_OK && written == view->len);
    MUST(bitm_sequence_get_list(view, indexes, view->len + 1, out, view->len + 1, &written) == BITM_NONE);
    MUST(written == view->len && out[view->len] == UNTOUCHED && memcmp(out, items, 8 * view->len) == 0);
    MUST(bitm_sequence_get_list(view, indexes, view->len + 1, out, view->len, &written) == BITM_BAD_SIZE);
    free(indexes);
    free(out);
}

/* Any parts: a number exactly where there is one or the parts are called wrong, and an index that is inside. */
static unsigned any_parts(const struct bitm_sequence *view, unsigned queries)
{
    unsigned wrong = 0;
    for (unsigned i = 0; i < queries; i++) {
        uint64_t index = draw() % (view->len + 2), value = draw() >> draw() % 64, got = UNTOUCHED, written = UNTOUCHED;
        uint32_t status = bitm_sequence_get(view, index, &got);
        MUST(index < view->len ? status == BITM_OK || status == BITM_WRONG : status == BITM_NONE);
        MUST(status == BITM_OK || got == UNTOUCHED);
        wrong += status == BITM_WRONG;
        uint64_t one = UNTOUCHED;
        /* a list may find another number, or none, in parts of no sequence */
        status = bitm_sequence_get_list(view, &index, 1, &one, 1, &written);
        MUST(index < view->len ? status == BITM_OK || status == BITM_WRONG : status == BITM_NONE);
        MUST(written == (status == BITM_OK) && (written == 1 || one == UNTOUCHED));
        wrong += status == BITM_WRONG;
        got = UNTOUCHED;
        status = bitm_sequence_first_at_least(view, value, &got);
        /* a list may find another index in parts of no sequence */
        MUST(first_at_least_list(view, &value, 1, &one, 1) == BITM_OK);
        MUST(one < view->len || one == BITM_NO_ANSWER || one == BITM_WRONG_TABLES);
        uint64_t kept = one;
        MUST(first_at_least_list(view, &value, 1, &one, 0) == BITM_BAD_SIZE && one == kept);
        MUST(status == BITM_OK ? got < view->len : status != BITM_BAD_SIZE && got == UNTOUCHED);
        wrong += status == BITM_WRONG;
        MUST(value_list(bitm_sequence_last_at_most_list, view, &value, 1, &one, 1) == BITM_OK);
        MUST(one < view->len || one == BITM_NO_ANSWER || one == BITM_WRONG_TABLES);
        MUST(value_list(bitm_sequence_contains_list, view, &value, 1, &one, 1) == BITM_OK);
        MUST(one <= 1 || one == BITM_WRONG_TABLES);
        got = UNTOUCHED;
        status = bitm_sequence_last_at_most(view, value, &got);
        MUST(status == BITM_OK ? got < view->len : status != BITM_BAD_SIZE && got == UNTOUCHED);
        got = UNTOUCHED;
        status = bitm_sequence_contains(view, value, &got);
        MUST(status == BITM_OK ? got <= 1 : status == BITM_WRONG && got == UNTOUCHED);
        wrong += status == BITM_WRONG;
        uint64_t left = index < view->len ? view->len - index : 0;
        uint64_t some[4] = {UNTOUCHED, UNTOUCHED, UNTOUCHED, UNTOUCHED};
        status = bitm_sequence_items(view, index, some, 3, &written);
        MUST(written <= 3 && written <= left && (status == BITM_OK) == (written == 3 || written == left));
        MUST(status == BITM_OK || status == BITM_WRONG);
        for (uint64_t k = written; k < 4; k++) MUST(some[k] == UNTOUCHED);
        wrong += status == BITM_WRONG;
    }
    return wrong;
}

static int compare(const void *a, const void *b)
{
    uint64_t x = *(const uint64_t *)a, y = *(const uint64_t *)b;
    return x < y ? -1 : x > y;
}

/* Low bits, words, their tables and their hints; and how many numbers each has. */
enum { PARTS = 5 };

/* Each number of the first parts in turn set to 0, to all ones and to anything. */
static unsigned spoilt_parts(const struct bitm_sequence *view, uint64_t *const parts[PARTS], const uint64_t lens[PARTS],
                             int count)
{
    unsigned wrong = 0;
    for (int part = 0; part < count; part++)
        for (uint64_t turn = 0; turn < 3 * lens[part]; turn++) {
            uint64_t *entry = parts[part] + turn / 3, kept = *entry;
            *entry = turn % 3 == 0 ? 0 : turn % 3 == 1 ? UINT64_MAX : draw();
            /* Other low bits or words may be those of other numbers; their tables and hints have no other value. */
            uint32_t status = bitm_sequence_check(view);
            MUST(*entry == kept ? status == BITM_OK : part < 2 ? status != BITM_BAD_SIZE : status == BITM_WRONG);
            MUST(any_parts(view, 100) == 0 || status == BITM_WRONG);
            wrong += any_parts(view, 100);
            *entry = kept;
        }
    MUST(any_parts(view, 100) == 0);
    return wrong;
}

/* All numbers of a part are drawn. */
static void spoil(uint64_t *part, uint64_t len)
{
    for (uint64_t i = 0; i < len; i++) part[i] = draw() >> draw() % 64;
}

/* Lengths that do not fit: the status, and nothing is written. */
static void wrong_lengths(const struct bitm_sequence *view, const uint64_t *items)
{
    struct bitm_sequence bad[6] = {*view, *view, *view, *view, *view, *view};
    bad[0].width = 64, bad[1].low_len++, bad[2].upper_len++, bad[3].len = (size_t)1 << 56;
    bad[4].hints_len = bitm_hints_len(view->len, view->words_len) + 1, bad[5].hints_len = SIZE_MAX;
    for (int i = 0; i < 6; i++) {
        uint64_t got = UNTOUCHED;
        MUST(bitm_sequence_fault(&bad[i]) != NULL);
        MUST(bitm_sequence_get(&bad[i], 0, &got) == BITM_BAD_SIZE && bitm_sequence_check(&bad[i]) == BITM_BAD_SIZE);
        MUST(bitm_sequence_first_at_least(&bad[i], 0, &got) == BITM_BAD_SIZE && got == UNTOUCHED);
        MUST(bitm_sequence_get_list(&bad[i], items, 0, NULL, 0, &got) == BITM_BAD_SIZE && got == UNTOUCHED);
        MUST(bitm_sequence_items(&bad[i], 0, NULL, 0, &got) == BITM_BAD_SIZE && got == UNTOUCHED);
    }
}

/* The same answers by hints; and whatever these hold, each answer is in its range. */
static unsigned by_hints(const struct bitm_sequence *view, const uint64_t *items, uint64_t *hints)
{
    unsigned wrong = 0;
    query_sequence(view, items);
    MUST(bitm_sequence_fault(view) == NULL && bitm_sequence_check(view) == BITM_OK && any_parts(view, 100) == 0);
    for (int turn = 0; turn < 10; turn++) {
        spoil(hints, view->hints_len);
        const bool are_right = has_hints(hints, view->hints_len, view->words, view->words_len, view->len);
        MUST(bitm_sequence_check(view) == (are_right ? BITM_OK : BITM_WRONG));
        wrong += any_parts(view, 100);
    }
    plain_hints(view->words, view->words_len, view->len, hints);
    return wrong;
}

/* A sequence of len numbers of that many bits, of any for 0: built, queried, with wrong lengths, and spoilt part by part. Answers how
 * often parts were called wrong. */
static unsigned sequence_of(size_t len, int bits)
{
    uint64_t *items = block_of(len), width = UNTOUCHED;
    for (size_t i = 0; i < len; i++)
        items[i] = draw() >> (bits ? 64 - (unsigned)bits : draw() % 64);
    qsort(items, len, 8, compare);
    struct bitm_sequence_lens of;
    MUST(bitm_sequence_sizes(len, len ? items[len - 1] : 0, &of) == BITM_OK);
    MUST(64 * (of.low_len + of.words_len) <= len * (of.width + 3) + 126);
    uint64_t *low = block_of(of.low_len), *words = block_of(of.words_len);
    uint64_t *upper = block_of(of.upper_len), *lower = block_of(of.lower_len);
    MUST(bitm_sequence_build(items, len, low, of.low_len, words, of.words_len - 1, upper, of.upper_len, lower,
                             of.lower_len, &width) == BITM_BAD_SIZE);
    MUST(bitm_sequence_build(items, len, low, of.low_len + 1, words, of.words_len, upper, of.upper_len, lower,
                             of.lower_len, &width) == BITM_BAD_SIZE);
    MUST(width == UNTOUCHED && words[0] == UNTOUCHED && lower[0] == UNTOUCHED);
    MUST(bitm_sequence_build(items, len, low, of.low_len, words, of.words_len, upper, of.upper_len, lower, of.lower_len,
                             &width) == BITM_OK && width == of.width);
    struct bitm_sequence view = {len,   width,        low,   of.low_len,   words,  of.words_len,
                                 upper, of.upper_len, lower, of.lower_len, NULL, 0};
    query_sequence(&view, items);
    MUST(bitm_sequence_check(&view) == BITM_OK && any_parts(&view, 100) == 0);
    wrong_lengths(&view, items);
    const size_t hints_len = bitm_hints_len(len, of.words_len);
    uint64_t *const parts[PARTS] = {low, words, upper, lower, block_of(hints_len)};
    const uint64_t lens[PARTS] = {of.low_len, of.words_len, of.upper_len, of.lower_len, hints_len};
    unsigned wrong = spoilt_parts(&view, parts, lens, 4);
    plain_hints(words, of.words_len, len, parts[4]);
    view.hints = parts[4], view.hints_len = hints_len;
    wrong += by_hints(&view, items, parts[4]) + spoilt_parts(&view, parts, lens, PARTS);
    for (int part = 0; part < PARTS; part++) spoil(parts[part], lens[part]);
    wrong += any_parts(&view, 1000);
    view.hints_len = 0;
    wrong += any_parts(&view, 1000);
    free(items);
    for (int part = 0; part < PARTS; part++)
        free(parts[part]);
    return wrong;
}

static void sequences(void)
{
    const size_t lens[] = {0, 1, 2, 3, 7, 64, 65, 300};
    const int bits[] = {0, 1, 6, 9, 30, 64};
    unsigned wrong = sequence_of(2000, 1); /* of two high parts, which end far from each other */
    for (size_t i = 0; i < sizeof lens / sizeof *lens; i++)
        for (size_t k = 0; k < sizeof bits / sizeof *bits; k++)
            wrong += sequence_of(lens[i], bits[k]);
    MUST(wrong > 0);
    /* numbers computed by hand: of each one low bit, and the high bits as the position of a 1 bit */
    const uint64_t primes[] = {2, 3, 5, 7, 11, 13, 24}, falling[] = {2, 3, 5, 7, 13, 11, 24};
    uint64_t low[1] = {UNTOUCHED}, words[1] = {UNTOUCHED}, upper[1] = {UNTOUCHED}, lower[1] = {UNTOUCHED};
    uint64_t width = UNTOUCHED;
    MUST(bitm_sequence_build(falling, 7, low, 1, words, 1, upper, 1, lower, 1, &width) == BITM_UNSORTED);
    MUST(low[0] == UNTOUCHED && words[0] == UNTOUCHED && upper[0] == UNTOUCHED && lower[0] == UNTOUCHED);
    MUST(width == UNTOUCHED && bitm_sequence_build(primes, 7, low, 1, words, 1, upper, 1, lower, 1, &width) == BITM_OK);
    MUST(width == 1 && low[0] == 0x3E && words[0] == 0x40A56);
    struct bitm_sequence_lens of = {UNTOUCHED, 0, 0, 0, 0};
    MUST(bitm_sequence_sizes((size_t)1 << 56, 1, &of) == BITM_BAD_SIZE);
    MUST(bitm_sequence_sizes(0, 1, &of) == BITM_BAD_SIZE && of.width == UNTOUCHED);
}

int main(int argc, char **argv)
{
    take_seed(argc, argv);
    sequences();
    puts("C host: sequences answer as their numbers do, and spoilt parts nothing outside");
    return 0;
}
