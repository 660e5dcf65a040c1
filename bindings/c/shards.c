/* Builds a few shards, some of them empty, and compares each answer with a plain count over the joined bits. Then wrong
 * lengths, and prefix counts that were spoilt: an answer is inside, or there is none. */
#include "common.h"

enum { MOST_SHARDS = 6, MOST_WORDS = 40, MOST_QUERIES = MOST_SHARDS * MOST_WORDS * 64 + 3 };

static uint64_t words[MOST_SHARDS][MOST_WORDS], upper[MOST_SHARDS][1], lower[MOST_SHARDS][2];
static uint64_t bits_of[MOST_SHARDS], ones_of[MOST_SHARDS], bits[MOST_SHARDS + 1], ones[MOST_SHARDS + 1];
static struct bitm_index index_of[MOST_SHARDS];
static unsigned char joined[MOST_SHARDS * MOST_WORDS * 64];
static uint64_t joined_len;

/* Draws shards of up to 40 words, and the joined bits. */
static struct bitm_shards drawn(size_t count)
{
    joined_len = 0;
    for (size_t k = 0; k < count; k++) {
        const size_t n = draw() % 3 ? draw() % (MOST_WORDS + 1) : draw() % 2;
        const uint64_t kind = draw() % 4;
        for (size_t i = 0; i < n; i++)
            words[k][i] = kind == 0 ? 0 : kind == 1 ? UINT64_MAX : kind == 2 ? draw() : draw() & draw() & draw();
        MUST(bitm_index_build(words[k], n, upper[k], bitm_index_upper_len(n), lower[k], bitm_index_lower_len(n),
                              &ones_of[k]) == BITM_OK);
        index_of[k] = cut_at(index_over(words[k], n, upper[k], bitm_index_upper_len(n), lower[k], bitm_index_lower_len(n)),
                             n ? 64 * n - draw() % 64 : 0);
        bits_of[k] = index_of[k].bits_len;
        MUST(bitm_index_count(&index_of[k], true, &ones_of[k]) == BITM_OK);
        for (uint64_t i = 0; i < bits_of[k]; i++)
            joined[joined_len++] = (unsigned char)bit_of(words[k], i);
    }
    MUST(bitm_prefix_sums(bits_of, count, bits, count + 1) == BITM_OK && bits[count] == joined_len);
    MUST(bitm_prefix_sums(ones_of, count, ones, count + 1) == BITM_OK);
    MUST(bitm_prefix_sums_check(bits_of, count, bits, count + 1) == BITM_OK);
    const struct bitm_shards shards = {.counts = {bits, count + 1, ones, count + 1}, .shards = index_of, .shards_len = count};
    return shards;
}

/* The location of a number of a kind, by going over the shards. */
static void compare_location(const struct bitm_shards *shards, uint32_t kind, uint64_t number)
{
    uint64_t left = number;
    struct bitm_shard_location at = {UNTOUCHED, UNTOUCHED};
    const uint32_t status = bitm_shards_find(&shards->counts, kind, number, &at);
    for (size_t k = 0; k < shards->shards_len; k++) {
        const uint64_t has = kind == BITM_POSITIONS ? bits_of[k] : kind == BITM_ONES ? ones_of[k] : bits_of[k] - ones_of[k];
        if (left < has) {
            MUST(status == BITM_OK && at.shard == k && at.within == left);
            return;
        }
        left -= has;
    }
    MUST(status == BITM_NONE && at.shard == UNTOUCHED && at.within == UNTOUCHED);
}

/* The nearest bit on either side of a position, by going over the joined bits. */
static void compare_near(const struct bitm_shards *shards, int one, uint64_t from)
{
    uint64_t next = from, before = from < joined_len ? from + 1 : joined_len, got = UNTOUCHED;
    while (next < joined_len && joined[next] != one) next++;
    while (before > 0 && joined[before - 1] != one) before--;
    MUST(bitm_shards_next(shards, one, from, &got) == (next < joined_len ? BITM_OK : BITM_NONE));
    MUST(got == (next < joined_len ? next : UNTOUCHED));
    got = UNTOUCHED;
    MUST(bitm_shards_previous(shards, one, from, &got) == (before ? BITM_OK : BITM_NONE));
    MUST(got == (before ? before - 1 : UNTOUCHED));
}

typedef uint32_t list_call(const struct bitm_shards *, bool, const uint64_t *, size_t, uint64_t *, size_t, uint64_t *,
                           size_t, struct bitm_list_counts *);
typedef uint32_t single_call(const struct bitm_shards *, bool, uint64_t, uint64_t *);

/* A list of queries beside the call of one. */
static void compare_list(const struct bitm_shards *shards, list_call *all, single_call *single, bool one,
                         const uint64_t *queries, size_t len, size_t room_len)
{
    static uint64_t out[MOST_QUERIES], room[3 * MOST_QUERIES + MOST_SHARDS + 1];
    struct bitm_list_counts counts = no_counts;
    uint64_t want;
    uint32_t status = all(shards, one, queries, len, out, len, room, room_len, &counts);
    MUST(counted(status, out, len, counts) == BITM_OK);
    for (size_t i = 0; i < len; i++) {
        status = single(shards, one, queries[i], &want);
        MUST((status == BITM_OK || status == BITM_NONE) && out[i] == item_of(status, want));
    }
}

/* Lists of positions and ranks, of some past the end too, in groups by shard or each by itself. */
static void compare_lists(const struct bitm_shards *shards, size_t room_len)
{
    static uint64_t queries[MOST_QUERIES];
    const size_t len = joined_len + 3;
    for (size_t i = 0; i < len; i++)
        queries[i] = i * 911 % len; /* in a mixed order */
    queries[0] = UINT64_MAX;
    for (int one = 0; one < 2; one++) {
        compare_list(shards, bitm_shards_rank_list, bitm_shards_rank, one, queries, len, room_len);
        compare_list(shards, bitm_shards_select_list, bitm_shards_select, one, queries, len, room_len);
    }
}

static void compare_all(const struct bitm_shards *shards)
{
    uint64_t count[2] = {0, 0}, got;
    for (uint64_t i = 0; i <= joined_len; i++) {
        for (int one = 0; one < 2; one++) {
            MUST(bitm_shards_rank(shards, one, i, &got) == BITM_OK && got == count[one]);
            compare_near(shards, one, i);
        }
        compare_location(shards, BITM_POSITIONS, i);
        if (i == joined_len) break;
        const int bit = joined[i];
        MUST(bitm_shards_select(shards, bit, count[bit], &got) == BITM_OK && got == i);
        compare_location(shards, bit ? BITM_ONES : BITM_ZEROS, count[bit]++);
    }
    got = UNTOUCHED;
    for (int one = 0; one < 2; one++) {
        MUST(bitm_shards_rank(shards, one, joined_len + 1, &got) == BITM_NONE);
        MUST(bitm_shards_rank(shards, one, UINT64_MAX, &got) == BITM_NONE);
        MUST(bitm_shards_select(shards, one, count[one], &got) == BITM_NONE);
        MUST(bitm_shards_select(shards, one, UINT64_MAX, &got) == BITM_NONE);
        compare_location(shards, one ? BITM_ONES : BITM_ZEROS, count[one]);
        compare_near(shards, one, joined_len + 1);
        compare_near(shards, one, UINT64_MAX);
    }
    MUST(got == UNTOUCHED);
    compare_lists(shards, 3 * (joined_len + 3) + shards->shards_len + 1);
    compare_lists(shards, 3 * (joined_len + 3) + shards->shards_len);
    compare_lists(shards, 0);
}

static void wrong_list(const struct bitm_shards *shards, size_t out_len)
{
    const uint64_t query = 0;
    uint64_t out[2] = {UNTOUCHED, UNTOUCHED};
    struct bitm_list_counts counts = {UNTOUCHED, UNTOUCHED};
    MUST(bitm_shards_rank_list(shards, true, &query, 1, out, out_len, NULL, 0, &counts) == BITM_BAD_SIZE);
    MUST(bitm_shards_select_list(shards, false, &query, 1, out, out_len, NULL, 0, &counts) == BITM_BAD_SIZE);
    MUST(out[0] == UNTOUCHED && out[1] == UNTOUCHED && counts.missing == UNTOUCHED && counts.wrong == UNTOUCHED);
}

static void wrong_lengths(struct bitm_shards shards)
{
    uint64_t got = UNTOUCHED;
    struct bitm_shard_location at = {UNTOUCHED, UNTOUCHED};
    MUST(bitm_shards_find(&shards.counts, 3, 0, &at) == BITM_BAD_SIZE);
    MUST(bitm_shards_find(&shards.counts, UINT32_MAX, 0, &at) == BITM_BAD_SIZE);
    shards.shards_len++;
    MUST(bitm_shards_rank(&shards, true, 0, &got) == BITM_BAD_SIZE);
    MUST(bitm_shards_select(&shards, false, 0, &got) == BITM_BAD_SIZE);
    MUST(bitm_shards_next(&shards, true, 0, &got) == BITM_BAD_SIZE);
    MUST(bitm_shards_previous(&shards, false, 0, &got) == BITM_BAD_SIZE);
    wrong_list(&shards, 1);
    shards.shards_len--;
    wrong_list(&shards, 2);
    bits[shards.shards_len] = UINT64_MAX - 1; /* a rank of all bits might be a code */
    wrong_list(&shards, 1);
    bits[shards.shards_len] = joined_len;
    shards.counts.ones_len--;
    MUST(bitm_shards_rank(&shards, true, 0, &got) == BITM_BAD_SIZE);
    MUST(bitm_shards_find(&shards.counts, BITM_ONES, 0, &at) == BITM_BAD_SIZE);
    shards.counts.ones_len = shards.counts.bits_len = 0;
    MUST(bitm_shards_select(&shards, true, 0, &got) == BITM_BAD_SIZE);
    MUST(bitm_shards_find(&shards.counts, BITM_POSITIONS, 0, &at) == BITM_BAD_SIZE);
    MUST(got == UNTOUCHED && at.shard == UNTOUCHED && at.within == UNTOUCHED);
}

/* Of a list over spoilt counts: the answer of the single call, or another that is inside. */
static void spoilt_lists(const struct bitm_shards *shards, int one)
{
    uint64_t queries[40], out[40], room[3 * 40 + MOST_SHARDS + 1];
    struct bitm_list_counts counts;
    const uint64_t claimed = bits[shards->shards_len];
    for (int i = 0; i < 40; i++)
        queries[i] = draw() % 3 ? draw() % (joined_len + 2) : draw();
    if (bitm_shards_rank_list(shards, one, queries, 40, out, 40, room, sizeof room / 8, &counts) == BITM_OK)
        for (int i = 0; i < 40; i++)
            MUST(out[i] < BITM_WRONG_TABLES ? queries[i] <= claimed && out[i] <= queries[i]
                                            : (out[i] == BITM_NO_ANSWER) == (queries[i] > claimed));
    else
        MUST(claimed >= BITM_WRONG_TABLES);
    if (bitm_shards_select_list(shards, one, queries, 40, out, 40, room, sizeof room / 8, &counts) == BITM_OK)
        for (int i = 0; i < 40; i++)
            MUST(out[i] >= BITM_WRONG_TABLES || out[i] < claimed);
    else
        MUST(claimed >= BITM_WRONG_TABLES);
}

/* How many of a kind the counts claim before a shard: no 0 bits where they claim more 1 bits than bits. */
static uint64_t claimed_before(uint32_t kind, size_t shard)
{
    if (kind == BITM_ZEROS) return bits[shard] < ones[shard] ? 0 : bits[shard] - ones[shard];
    return kind == BITM_ONES ? ones[shard] : bits[shard];
}

/* A location by counts that may hold anything: one where they claim the number to be, none, or that they are wrong. */
static void spoilt_location(const struct bitm_shards *shards, uint32_t kind, uint64_t number)
{
    struct bitm_shard_location at = {UNTOUCHED, UNTOUCHED};
    const uint64_t all = claimed_before(kind, shards->shards_len), first = claimed_before(kind, 0);
    const uint32_t status = bitm_shards_find(&shards->counts, kind, number, &at);
    if (status == BITM_OK)
        MUST(number < all && at.shard < shards->shards_len && claimed_before(kind, at.shard) + at.within == number &&
             number < claimed_before(kind, at.shard + 1));
    else
        MUST(at.shard == UNTOUCHED && at.within == UNTOUCHED);
    MUST((status == BITM_NONE) == (all <= number) && (status != BITM_WRONG || number < first));
}

/* Counts that claim a bit before the first shard: its location and its queries are wrong, and nothing is written. */
static void wrong_first(const struct bitm_shards *shards)
{
    uint64_t got = UNTOUCHED;
    struct bitm_shard_location at = {UNTOUCHED, UNTOUCHED};
    bits[0] = ones[0] = 1;
    if (bits[shards->shards_len] > 0 && shards->shards_len > 0)
        MUST(bitm_shards_find(&shards->counts, BITM_POSITIONS, 0, &at) == BITM_WRONG &&
             bitm_shards_rank(shards, true, 0, &got) == BITM_WRONG);
    if (ones[shards->shards_len] > 0 && shards->shards_len > 0)
        MUST(bitm_shards_find(&shards->counts, BITM_ONES, 0, &at) == BITM_WRONG &&
             bitm_shards_select(shards, true, 0, &got) == BITM_WRONG);
    MUST(got == UNTOUCHED && at.shard == UNTOUCHED && at.within == UNTOUCHED);
    bits[0] = ones[0] = 0;
}

/* Prefix counts of which one is any number: answers are inside, and a position that is found has the bit in a shard. */
static void spoilt(const struct bitm_shards *shards)
{
    for (int round = 0; round < 300; round++) {
        uint64_t *const list = draw() % 2 ? bits : ones, at = draw() % shards->counts.bits_len, was = list[at], got;
        list[at] = draw() % 2 ? draw() >> draw() % 64 : was + draw() % 5 - 2;
        const uint64_t claimed = bits[shards->shards_len], number = draw() % 3 ? draw() % (joined_len + 2) : draw();
        const int one = draw() % 2;
        const uint32_t ranked = bitm_shards_rank(shards, one, number, &got);
        MUST(ranked == BITM_OK ? number <= claimed && got <= number : (ranked == BITM_NONE) == (number > claimed));
        const uint32_t selected = bitm_shards_select(shards, one, number, &got);
        if (selected == BITM_OK) {
            size_t in = 0;
            for (size_t k = 0; k < shards->shards_len; k++)
                in += got - bits[k] < bits_of[k] && bit_of(words[k], got - bits[k]) == (uint64_t)one;
            MUST(got < claimed && in > 0);
        } else
            MUST(selected == BITM_NONE || selected == BITM_WRONG);
        const uint32_t next = bitm_shards_next(shards, one, number, &got);
        MUST(next == BITM_OK ? number <= got && got < claimed : next == BITM_NONE || next == BITM_WRONG);
        const uint32_t previous = bitm_shards_previous(shards, one, number, &got);
        MUST(previous == BITM_OK ? got <= number && got < claimed : previous == BITM_NONE || previous == BITM_WRONG);
        spoilt_lists(shards, one);
        for (uint32_t kind = BITM_ZEROS; kind <= BITM_POSITIONS; kind++)
            spoilt_location(shards, kind, draw() % 2 ? number : draw() % 4);
        list[at] = was;
    }
}

static void sums(void)
{
    uint64_t numbers[3] = {UINT64_MAX, 0, 1}, out[4] = {UNTOUCHED, UNTOUCHED, UNTOUCHED, UNTOUCHED};
    MUST(bitm_prefix_sums(numbers, 3, out, 4) == BITM_BAD_SIZE && bitm_prefix_sums(numbers, 2, out, 4) == BITM_BAD_SIZE);
    for (int i = 0; i < 4; i++)
        MUST(out[i] == UNTOUCHED);
    MUST(bitm_prefix_sums(numbers, 2, out, 3) == BITM_OK && !out[0] && out[1] == UINT64_MAX && out[2] == UINT64_MAX);
    MUST(bitm_prefix_sums_check(numbers, 2, out, 3) == BITM_OK && bitm_prefix_sums_check(numbers, 3, out, 4) == BITM_WRONG);
    MUST(bitm_prefix_sums_check(numbers, 2, out, 2) == BITM_WRONG && bitm_prefix_sums_check(NULL, 0, out, 1) == BITM_OK);
    for (int i = 0; i < 3; i++) {
        out[i]++;
        MUST(bitm_prefix_sums_check(numbers, 2, out, 3) == BITM_WRONG);
        out[i]--;
    }
}

int main(int argc, char **argv)
{
    take_seed(argc, argv);
    sums();
    for (size_t round = 0; round < 60; round++) {
        const struct bitm_shards shards = drawn(round % (MOST_SHARDS + 1));
        compare_all(&shards);
        wrong_lengths(shards);
        wrong_first(&shards);
        spoilt(&shards);
    }
    puts("shards: 60 of up to six indexes answer as counting, also over spoilt counts");
    return 0;
}
