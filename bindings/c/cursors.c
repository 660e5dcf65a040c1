/* Cursors over sequences: each moves as a plain loop over its numbers does; intersections and unions are those of plain
 * loops, in one call or in several. Over parts of no sequence, with any numbers in the cursors, each call returns. All
 * memory ends where a page begins that may not be touched. */
#define _DEFAULT_SOURCE // MAP_ANONYMOUS
#include "guard.h"

#include <string.h>

enum { MOST = 200, LISTS = 5, ROOM = LISTS * MOST + 1, TURNS = 1200 };

/* A sequence and its numbers, of which those before index at were passed. */
struct list {
    uint64_t numbers[MOST], *words, *lower, *low;
    size_t len, at;
    struct guarded blocks[4];
    struct bitm_sequence made;
};

static struct list lists[LISTS];
static struct guarded of_cursors, of_out, of_one;
static uint64_t expected[ROOM];

/* A number that a call writes, and the number before it. */
static uint64_t *one_number(void)
{
    uint64_t *one = ends_at_the_guard(&of_one, 8);
    one[0] = one[-1] = UNTOUCHED;
    return one;
}

/* The sequence of a list's numbers. */
static void build(struct list *list)
{
    struct bitm_sequence_lens of;
    const uint64_t last = list->len > 0 ? list->numbers[list->len - 1] : 0;
    uint64_t width;
    MUST(bitm_sequence_sizes(list->len, last, &of) == BITM_OK);
    list->low = ends_at_the_guard(&list->blocks[0], 8 * of.low_len);
    list->words = ends_at_the_guard(&list->blocks[1], 8 * of.words_len);
    uint64_t *upper = ends_at_the_guard(&list->blocks[2], 8 * of.upper_len);
    list->lower = ends_at_the_guard(&list->blocks[3], 8 * of.lower_len);
    MUST(bitm_sequence_build(list->numbers, list->len, list->low, of.low_len, list->words, of.words_len, upper,
                             of.upper_len, list->lower, of.lower_len, &width) == BITM_OK);
    list->made = (struct bitm_sequence){list->len, width,        list->low,   of.low_len,   list->words, of.words_len,
                                        upper,     of.upper_len, list->lower, of.lower_len, NULL,        0};
}

/* A sequence of drawn numbers: dense or sparse, with equal ones; sometimes of none, or with the greatest of 64 bits. */
static void make(struct list *list)
{
    uint64_t number = 0;
    const uint64_t most = draw() % 3 ? 1 + draw() % 5 : (uint64_t)1 << draw() % 46, unit = draw() % 4 ? 1 : 1000;
    list->len = draw() % 6 ? draw() % MOST : draw() % 3, list->at = 0;
    for (size_t i = 0; i < list->len; i++) list->numbers[i] = number += draw() % most * (draw() % 20 ? 1 : unit);
    if (list->len > 0 && draw() % 8 == 0) list->numbers[list->len - 1] = UINT64_MAX;
    build(list);
}

/* That a cursor is over its list, at the number of the list's index. */
static void stands(const struct bitm_cursor *cursor, const struct list *list)
{
    MUST(memcmp(&cursor->sequence, &list->made, sizeof list->made) == 0 && cursor->index == list->at);
    if (list->at == list->len) return;
    MUST(cursor->number == list->numbers[list->at]);
    MUST(cursor->position == (cursor->number >> list->made.width) + list->at);
}

/* Cursors at the first numbers of the given number of sequences. */
static struct bitm_cursor *started(size_t n)
{
    struct bitm_cursor *cursors = ends_at_the_guard(&of_cursors, n * sizeof *cursors);
    cursors[-1] = (struct bitm_cursor){.index = UNTOUCHED};
    for (size_t i = 0; i < n; i++) {
        make(&lists[i]);
        cursors[i] =
            (struct bitm_cursor){.sequence = lists[i].made, .index = draw(), .position = draw(), .number = draw()};
        MUST(bitm_cursor_start(&cursors[i]) == BITM_OK);
        stands(&cursors[i], &lists[i]);
        MUST(cursors[-1].index == UNTOUCHED && cursors[-1].sequence.len == 0);
    }
    return cursors;
}

/* Moves a cursor and its list on to a value near the number there. */
static void move(struct bitm_cursor *cursor, struct list *list)
{
    uint64_t *out = one_number();
    const uint64_t here = list->at < list->len ? list->numbers[list->at] : 9;
    const uint64_t less = here < UINT64_MAX ? draw() % (here + 1) : draw();
    const uint64_t value = draw() % 8 ? here + draw() % 9 : draw() % 4 ? here + draw() % 3000 : less;
    while (list->at < list->len && list->numbers[list->at] < value) list->at++;
    MUST(bitm_cursor_next(cursor, value, out) == (list->at < list->len ? BITM_OK : BITM_NONE));
    MUST(out[0] == (list->at < list->len ? list->numbers[list->at] : UNTOUCHED) && out[-1] == UNTOUCHED);
    stands(cursor, list);
}

static bool has(const struct list *list, uint64_t value)
{
    size_t at = list->at;
    while (at < list->len && list->numbers[at] < value) at++;
    return at < list->len && list->numbers[at] == value;
}

/* The numbers from a value on that stand in all of the lists, or in any. */
static size_t merged(size_t n, bool of_all, uint64_t from)
{
    size_t count = 0;
    for (bool more = true; more;) {
        uint64_t least = UINT64_MAX;
        more = false;
        for (size_t i = 0; i < n; i++)
            for (size_t at = lists[i].at; at < lists[i].len; at++)
                if (lists[i].numbers[at] >= from && lists[i].numbers[at] <= least)
                    least = lists[i].numbers[at], more = true;
        bool wanted = more;
        for (size_t i = 0; of_all && i < n; i++) wanted = wanted && has(&lists[i], least);
        if (wanted) expected[count++] = least;
        if (least == UINT64_MAX) break;
        from = least + 1;
    }
    return count;
}

static uint32_t merge(bool of_all, struct bitm_cursor *cursors, size_t n, uint64_t from, uint64_t *out, size_t room,
                      uint64_t *written)
{
    return of_all ? bitm_cursors_intersect(cursors, n, from, out, room, written)
                  : bitm_cursors_union(cursors, n, from, out, room, written);
}

/* A merge in parts of some numbers, each from one more than the last number of the part before. */
static void merge_all(bool of_all)
{
    const size_t n = draw() % 2 ? 2 : 1 + draw() % LISTS;
    /* two are merged by blocks where there is room for 64 */
    const size_t room = draw() % 2 ? draw() % 20 : draw() % 2 ? 60 + draw() % 60 : ROOM;
    struct bitm_cursor *cursors = started(n);
    for (size_t i = 0; i < n; i++)
        for (uint64_t turn = draw() % 8; turn > 0; turn--) move(&cursors[i], &lists[i]);
    uint64_t from = draw() % 4 ? draw() % 100 : 0, written = 0, *one = one_number(),
             *out = ends_at_the_guard(&of_out, 8 * room);
    const size_t count = merged(n, of_all, from);
    out[-1] = UNTOUCHED;
    for (size_t done = 0;; done += written) {
        for (size_t i = 0; i < room; i++) out[i] = UNTOUCHED;
        MUST(merge(of_all, cursors, n, from, out, room, one) == BITM_OK);
        written = *one;
        MUST(written == (count - done < room ? count - done : room) && one[-1] == UNTOUCHED && out[-1] == UNTOUCHED);
        MUST(cursors[-1].index == UNTOUCHED && cursors[-1].sequence.len == 0);
        MUST(memcmp(out, expected + done, 8 * written) == 0);
        for (size_t i = written; i < room; i++) MUST(out[i] == UNTOUCHED);
        if (written < room || room == 0 || out[room - 1] == UINT64_MAX) return;
        from = out[room - 1] + 1;
    }
}

/* Parts of no sequence, and any numbers in the cursors. */
static void wrong(void)
{
    const size_t n = draw() % 2 ? 2 : 1 + draw() % LISTS, room = draw() % 120;
    struct bitm_cursor *cursors = started(n), before[LISTS];
    for (size_t i = 0; i < n; i++) {
        for (int turn = 0; turn < 4; turn++) lists[i].words[draw() % lists[i].made.words_len] ^= draw() & draw();
        if (lists[i].made.low_len > 0) lists[i].low[draw() % lists[i].made.low_len] = draw();
        lists[i].lower[draw() % lists[i].made.lower_len] = draw() >> draw() % 64;
        if (draw() % 2) cursors[i].index = draw() % 2 ? draw() : draw() % (lists[i].len + 1);
        if (draw() % 2) cursors[i].position = draw() % 2 ? draw() : draw() % (64 * lists[i].made.words_len);
        if (draw() % 2) cursors[i].number = draw() >> draw() % 64;
        before[i] = cursors[i];
    }
    uint64_t *out = ends_at_the_guard(&of_out, 8 * room), written = UNTOUCHED, value = 0;
    for (int turn = 0; turn < 30; turn++) {
        struct bitm_cursor *one = &cursors[draw() % n];
        uint64_t item = UNTOUCHED;
        value += draw() % 30;
        const struct bitm_cursor was = *one;
        uint32_t status = bitm_cursor_next(one, value, &item);
        MUST(status == BITM_OK ? item >= value : (status == BITM_NONE || status == BITM_WRONG) && item == UNTOUCHED);
        if (status == BITM_WRONG) MUST(memcmp(one, &was, sizeof was) == 0);
        if (draw() % 8) continue;
        status = bitm_cursor_start(one);
        MUST(status == BITM_OK ||
             (status == BITM_WRONG && memcmp(&one->sequence, &was.sequence, sizeof was.sequence) == 0));
    }
    for (int of_all = 0; of_all < 2; of_all++) {
        const uint32_t status = merge(of_all, cursors, n, value, out, room, &written);
        MUST(status == BITM_OK ? written <= room : status == BITM_WRONG);
        for (size_t i = 0; status == BITM_OK && i < written; i++) MUST(out[i] >= (i ? out[i - 1] + 1 : value));
    }
    for (size_t i = 0; i < n; i++)
        MUST(memcmp(&before[i].sequence, &cursors[i].sequence, sizeof before->sequence) == 0);
}

/* Lengths that are wrong, and no cursors. */
static void lengths(void)
{
    struct bitm_cursor *cursors = started(2), kept = cursors[1];
    uint64_t one = UNTOUCHED, *out = ends_at_the_guard(&of_out, 16);
    cursors[1].sequence.lower_len++, kept.sequence.lower_len++;
    MUST(bitm_cursor_start(&cursors[1]) == BITM_BAD_SIZE && bitm_cursor_next(&cursors[1], 0, &one) == BITM_BAD_SIZE);
    MUST(memcmp(&cursors[1], &kept, sizeof kept) == 0 && one == UNTOUCHED);
    MUST(bitm_cursors_union(cursors, 2, 0, out, 2, &one) == BITM_WRONG && one == UNTOUCHED);
    MUST(bitm_cursors_intersect(cursors + 1, 1, 0, out, 2, &one) == BITM_WRONG && one == UNTOUCHED);
    MUST(bitm_cursors_intersect(NULL, 0, 0, out, 2, &one) == BITM_BAD_SIZE && one == UNTOUCHED);
    MUST(bitm_cursors_union(NULL, 0, 0, out, 2, &one) == BITM_OK && one == 0);
}

/* A wrong length at each index, where no call of its cursor is needed: no room, or a list before it that has ended. */
static void length_at_each_place(void)
{
    for (size_t at = 0; at < 3; at++) {
        struct bitm_cursor *cursors = started(3), kept[3];
        uint64_t one = UNTOUCHED, *out = ends_at_the_guard(&of_out, 16);
        for (size_t i = 0; i < 3; i++) cursors[i].index = cursors[i].sequence.len;
        cursors[at].sequence.lower_len++;
        memcpy(kept, cursors, sizeof kept);
        out[0] = out[1] = UNTOUCHED;
        for (int of_all = 0; of_all < 2; of_all++)
            for (size_t room = 0; room < 3; room += 2)
                MUST(merge(of_all, cursors, 3, 0, out, room, &one) == BITM_WRONG);
        MUST(memcmp(kept, cursors, sizeof kept) == 0 && one == UNTOUCHED && out[0] == UNTOUCHED && out[1] == UNTOUCHED);
    }
}

/* A cursor outside of its words, over parts of one number without a 1 bit: it answers up to 3, and then turns out
 * wrong. */
static struct bitm_cursor up_to_3(void)
{
    static uint64_t none, upper, lower, ones;
    MUST(bitm_index_build(&none, 1, &upper, 1, &lower, 1, &ones) == BITM_OK && ones == 0);
    const struct bitm_sequence sequence = {1, 0, NULL, 0, &none, 1, &upper, 1, &lower, 1, NULL, 0};
    return (struct bitm_cursor){.sequence = sequence, .index = 0, .position = 64, .number = 3};
}

/* Such a cursor at each index among two over 1 to 9: a merge is BITM_OK as long as no cursor that it moves is wrong. */
static void wrong_at_each_place(void)
{
    for (size_t turn = 0; turn < 24; turn++) {
        const size_t at = turn % 3, room = turn / 3 % 4;
        const bool of_all = turn >= 12;
        struct bitm_cursor *cursors = ends_at_the_guard(&of_cursors, 3 * sizeof *cursors);
        for (size_t i = 0; i < 3; i++) {
            for (lists[i].len = 0; lists[i].len < 9; lists[i].len++) lists[i].numbers[lists[i].len] = lists[i].len + 1;
            build(&lists[i]), cursors[i] = (struct bitm_cursor){.sequence = lists[i].made};
            MUST(bitm_cursor_start(&cursors[i]) == BITM_OK);
        }
        cursors[at] = up_to_3();
        uint64_t one = UNTOUCHED, *out = ends_at_the_guard(&of_out, 8 * room);
        const size_t right = of_all ? 1 : 2; /* 3, or 2 and 3; then 4 is looked for */
        MUST(merge(of_all, cursors, 3, 2, out, room, &one) == (room <= right ? BITM_OK : BITM_WRONG));
        MUST(one == (room <= right ? room : UNTOUCHED));
        for (size_t i = 0; i < room && i < right; i++) MUST(out[i] == (of_all ? 3 : 2 + i));
    }
}

static void no_numbers(void)
{
    uint64_t out[2] = {UNTOUCHED, UNTOUCHED}, one = UNTOUCHED;
    struct bitm_cursor cursor = up_to_3(), kept = cursor;
    MUST(bitm_cursor_start(&cursor) == BITM_WRONG && memcmp(&cursor, &kept, sizeof kept) == 0);
    MUST(bitm_cursor_next(&cursor, 3, &one) == BITM_OK && one == 3 && memcmp(&cursor, &kept, sizeof kept) == 0);
    one = UNTOUCHED;
    MUST(bitm_cursor_next(&cursor, 4, &one) == BITM_WRONG && memcmp(&cursor, &kept, sizeof kept) == 0);
    MUST(bitm_cursors_union(&cursor, 1, 4, out, 2, &one) == BITM_WRONG && one == UNTOUCHED);
    MUST(bitm_cursors_intersect(&cursor, 1, 4, out, 2, &one) == BITM_WRONG && one == UNTOUCHED);
}

int main(int argc, char **argv)
{
    take_seed(argc, argv);
    of_cursors = guard((LISTS + 1) * sizeof(struct bitm_cursor)), of_out = guard(8 * (ROOM + 1)), of_one = guard(16);
    for (size_t i = 0; i < LISTS; i++)
        for (size_t k = 0; k < 4; k++) lists[i].blocks[k] = guard(8 * 4 * MOST);
    for (int turn = 0; turn < TURNS; turn++) {
        struct bitm_cursor *cursor = started(1);
        for (int step = 0; step < 60; step++) move(cursor, &lists[0]);
        merge_all(false), merge_all(true), wrong();
    }
    lengths(), length_at_each_place(), wrong_at_each_place(), no_numbers();
    puts("C: cursors, intersections and unions are those of plain loops, and end over parts of no sequence");
    return 0;
}
