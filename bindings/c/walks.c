/* Walks through sequences: from an index, one by one, and on to a value, as plain loops over the numbers do; and over
 * parts of no sequence, where they end. */
#include "common.h"

#include <string.h>

enum { MOST = 400, TURNS = 3000 };

static uint64_t numbers[MOST], low[MOST + 1], words[3 * MOST], upper[1], lower[64];

/* A sequence of drawn numbers: dense, sparse, with equal ones; sometimes of none. */
static struct bitm_sequence drawn(size_t len)
{
    struct bitm_sequence_lens of;
    uint64_t width, number = 0;
    const uint64_t step = draw() % 3 ? 1 + draw() % 4 : (uint64_t)1 << draw() % 50;
    for (size_t i = 0; i < len; i++) numbers[i] = number += draw() % step;
    MUST(bitm_sequence_sizes(len, number, &of) == BITM_OK && of.low_len <= MOST && of.words_len <= 3 * MOST);
    MUST(of.upper_len <= 1 && of.lower_len <= 64);
    MUST(bitm_sequence_build(numbers, len, low, of.low_len, words, of.words_len, upper, of.upper_len, lower,
                             of.lower_len, &width) == BITM_OK);
    const struct bitm_sequence made = {len, width, low, of.low_len, words, of.words_len, upper, of.upper_len, lower,
                                       of.lower_len, NULL, 0};
    return made;
}

/* Where the walk should stand, and that it does. */
static void stands(const struct bitm_sequence_walk *walk, uint32_t status, uint64_t out, size_t at, size_t len)
{
    MUST(status == (at < len ? BITM_OK : BITM_NONE));
    MUST(at < len ? out == numbers[at] && bitm_sequence_walk_index(walk) == at : out == UNTOUCHED);
}

static void right(void)
{
    const size_t len = draw() % 5 ? draw() % MOST : draw() % 3;
    struct bitm_sequence_walk walk = {.sequence = drawn(len)};
    size_t at = draw() % (len + 2);
    uint64_t out = UNTOUCHED;
    uint32_t status = bitm_sequence_walk_from(&walk, at, &out);
    stands(&walk, status, out, at, len);
    for (int turn = 0; turn < 200 && at < len; turn++) {
        out = UNTOUCHED;
        if (draw() % 2) {
            status = bitm_sequence_walk_next(&walk, &out), at++;
        } else {
            const uint64_t value = draw() % 4 ? numbers[at] + draw() % 300 : draw() % (numbers[len - 1] + 2);
            status = bitm_sequence_walk_to(&walk, value, &out);
            while (at < len && numbers[at] < value) at++;
        }
        stands(&walk, status, out, at, len);
    }
    if (at < len) return;
    out = UNTOUCHED; /* at its end it stays */
    MUST(bitm_sequence_walk_next(&walk, &out) == BITM_NONE && bitm_sequence_walk_to(&walk, 0, &out) == BITM_NONE);
    MUST(out == UNTOUCHED && bitm_sequence_walk_index(&walk) == len);
}

/* Parts of no sequence: each step is to a later index, below the length, so the walk ends. */
static void wrong(void)
{
    const size_t len = 1 + draw() % (MOST - 1);
    struct bitm_sequence_walk walk = {.sequence = drawn(len)};
    for (int i = 0; i < 4; i++) words[draw() % walk.sequence.words_len] ^= draw() & draw();
    lower[draw() % walk.sequence.lower_len] = draw() >> draw() % 64;
    uint64_t out = UNTOUCHED, before = 0, steps = 0;
    uint32_t status = bitm_sequence_walk_from(&walk, 0, &out);
    for (; status == BITM_OK; steps++) {
        const uint64_t index = bitm_sequence_walk_index(&walk);
        MUST(index < len && (steps == 0 || index > before) && steps < len);
        before = index;
        status = draw() % 8 ? bitm_sequence_walk_next(&walk, &out)
                            : bitm_sequence_walk_to(&walk, out == UINT64_MAX ? out : out + 1, &out);
        if (status == BITM_OK && bitm_sequence_walk_index(&walk) == before) break; /* numbers that fall: it stands still */
    }
    MUST(status == BITM_OK || status == BITM_NONE || status == BITM_WRONG);
    walk.sequence.lower_len++;
    MUST(bitm_sequence_walk_from(&walk, 0, &out) == BITM_BAD_SIZE && bitm_sequence_walk_next(&walk, &out) == BITM_NONE);
}

int main(int argc, char **argv)
{
    take_seed(argc, argv);
    for (int turn = 0; turn < TURNS; turn++) right(), wrong();
    puts("C: walks through sequences go as plain loops do, and end over parts of no sequence");
    return 0;
}
