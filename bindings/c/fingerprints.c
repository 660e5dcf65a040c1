/* Fingerprints of keys: each key is found, and another value only by a fingerprint that stands there, alone and in a
 * list, for each width; over words, tables and sizes that may hold anything a number is below the count of keys. */
#define _DEFAULT_SOURCE
#include "places.h"

enum { KEYS = 300, LEVELS = 256, ROOM = 1000, DRAWS = 2000 };
enum { OF_WORDS = OF_MORE, OF_UPPER, OF_LOWER, OF_SIZES, OF_PRINTS, OF_KEYS, OF_MARKS };

static uint64_t *keys, *marks;

/* The hash of all keys. */
static struct bitm_hash built(void)
{
    uint64_t hashes[KEYS], again[ROOM], room[ROOM], upper[1], lower[ROOM], sizes[LEVELS], levels, used, left, ones;
    keys = placed(OF_KEYS, 8 * KEYS), marks = placed(OF_MARKS, 8 * KEYS);
    for (int i = 0; i < KEYS; i++) hashes[i] = keys[i] = draw(), marks[i] = draw();
    MUST(bitm_hash_build(hashes, KEYS, 100, room, ROOM, again, ROOM, sizes, LEVELS, &levels, &used, &left) == BITM_OK);
    const size_t lowers = bitm_index_lower_len(used);
    MUST(left == 0 && bitm_index_build(room, used, upper, 1, lower, lowers, &ones) == BITM_OK);
    return (struct bitm_hash){index_over(copied(OF_WORDS, room, used), used, copied(OF_UPPER, upper, 1), 1,
                                         copied(OF_LOWER, lower, lowers), lowers),
                              copied(OF_SIZES, sizes, levels), levels, KEYS};
}

/* Number k of the fingerprints, bit by bit. */
static uint64_t print_at(const uint64_t *prints, uint32_t width, uint64_t k)
{
    uint64_t found = 0;
    for (uint32_t i = 0; i < width; i++) found |= (uint64_t)bit_of(prints, k * width + i) << i;
    return found;
}

/* What a look-up has to answer. */
static uint32_t sought(const struct bitm_hash *hash, const uint64_t *prints, size_t len, uint32_t width, uint64_t key,
                       uint64_t mark, uint64_t *out)
{
    uint64_t number;
    const uint32_t status = bitm_hash_get(hash, key, &number);
    if (status != BITM_OK) return status;
    if (width && number >= 64 * len / width) return BITM_WRONG;
    if (print_at(prints, width, number) != (mark & largest(width))) return BITM_NONE;
    *out = number;
    return BITM_OK;
}

/* One key, alone and in a list, as `sought` says. */
static uint32_t same(const struct bitm_hash *hash, const uint64_t *prints, size_t len, uint32_t width, uint64_t key,
                     uint64_t mark)
{
    uint64_t right = UNTOUCHED, *out = out_at_the_guard(), *listed = placed(OF_LIST, 8);
    struct bitm_list_counts *counts = counts_at_the_guard();
    const uint32_t status = sought(hash, prints, len, width, key, mark, &right);
    MUST(bitm_hash_find(hash, prints, len, width, key, mark, out) == status && *out == right);
    MUST(bitm_hash_find_list(hash, prints, len, width, &key, 1, &mark, 1, listed, 1, counts) == BITM_OK);
    MUST(counts->missing == (status == BITM_NONE) && counts->wrong == (status == BITM_WRONG));
    MUST(*listed == item_of(status, right));
    return status;
}

/* Whether so many of the tries, which hit with a chance of 2^-width each, have hit as may be expected: but for one in
 * 10^12 draws they do. The chance of k hits or more is at most mean^k / k!; many are within eight times their deviation. */
static bool are_expected(uint64_t hits, uint64_t tries, uint32_t width)
{
    const double mean = (double)tries / (width < 64 ? (double)((uint64_t)1 << width) : 0x1p64);
    const double off = (double)hits - mean;
    double chance = 1;
    if (mean >= 64) return off * off <= 64 * mean;
    for (uint64_t k = 1; k <= hits; k++) chance *= mean / (double)k;
    return chance > 1e-12;
}

/* Values that are drawn have the number of a key, most of them, and its fingerprint as often as chance has it. */
static void by_chance(const struct bitm_hash *hash, const uint64_t *prints, size_t len, uint32_t width)
{
    uint64_t numbered = 0, kept = 0;
    for (int i = 0; i < DRAWS; i++) {
        uint64_t number;
        const uint64_t key = draw();
        numbered += bitm_hash_get(hash, key, &number) == BITM_OK;
        kept += same(hash, prints, len, width, key, draw()) == BITM_OK;
    }
    MUST(numbered > DRAWS / 2 && are_expected(kept, numbered, width));
}

/* Fingerprints of one width, in as few words as they take. */
static void of_width(const struct bitm_hash *hash, uint32_t width)
{
    const size_t len = bitm_bits_words_len((uint64_t)KEYS * width);
    uint64_t *prints = placed(OF_PRINTS, 8 * len), *out = placed(OF_LIST, 8 * KEYS), found[KEYS];
    struct bitm_list_counts *counts = counts_at_the_guard();
    for (size_t i = 0; i < len; i++) prints[i] = draw();
    const uint64_t last = len ? prints[len - 1] : 0;
    MUST(bitm_hash_set_prints(hash, keys, KEYS, marks, KEYS, prints, len, width) == BITM_OK);
    MUST(bitm_hash_find_list(hash, prints, len, width, keys, KEYS, marks, KEYS, out, KEYS, counts) == BITM_OK);
    MUST(counts->missing == 0 && counts->wrong == 0);
    memcpy(found, out, sizeof found);
    for (int i = 0; i < KEYS; i++) {
        uint64_t number;
        MUST(bitm_hash_get(hash, keys[i], &number) == BITM_OK && found[i] == number);
        MUST(print_at(prints, width, number) == (marks[i] & largest(width)));
        MUST(same(hash, prints, len, width, keys[i], marks[i]) == BITM_OK);
        MUST(same(hash, prints, len, width, keys[i], marks[i] ^ 1) == (width ? BITM_NONE : BITM_OK));
    }
    by_chance(hash, prints, len, width);
    const uint32_t behind = (uint32_t)(64 * len - (uint64_t)KEYS * width); /* bits after the last fingerprint */
    if (behind) MUST(prints[len - 1] >> (64 - behind) == last >> (64 - behind));
}

/* What is refused leaves all as it was; a key without a number, or without room, is told, and the others are written. */
static void refused(const struct bitm_hash *hash)
{
    uint64_t *prints = untouched_at(OF_PRINTS, 8 * KEYS), *list = untouched_at(OF_LIST, 16), out = UNTOUCHED;
    struct bitm_list_counts counts = no_counts;
    struct bitm_hash many = *hash;
    const size_t long_words = (size_t)1 << 58;
    many.sizes_len = LEVELS + 1;
    MUST(bitm_hash_set_prints(hash, keys, 2, marks, 1, prints, KEYS, 8) == BITM_BAD_SIZE);
    MUST(bitm_hash_set_prints(hash, keys, 2, marks, 2, prints, KEYS, 65) == BITM_BAD_SIZE);
    MUST(bitm_hash_set_prints(hash, keys, 2, marks, 2, prints, long_words, 8) == BITM_BAD_SIZE);
    MUST(bitm_hash_set_prints(&many, keys, 2, marks, 2, prints, KEYS, 8) == BITM_BAD_SIZE);
    MUST(bitm_hash_find(hash, prints, KEYS, 65, keys[0], 1, &out) == BITM_BAD_SIZE);
    MUST(bitm_hash_find(hash, prints, long_words, 8, keys[0], 1, &out) == BITM_BAD_SIZE);
    MUST(bitm_hash_find(&many, prints, KEYS, 8, keys[0], 1, &out) == BITM_BAD_SIZE && out == UNTOUCHED);
    MUST(bitm_hash_find_list(hash, prints, KEYS, 8, keys, 2, marks, 1, list, 2, &counts) == BITM_BAD_SIZE);
    MUST(bitm_hash_find_list(hash, prints, KEYS, 8, keys, 2, marks, 2, list, 1, &counts) == BITM_BAD_SIZE);
    MUST(bitm_hash_find_list(&many, prints, KEYS, 8, keys, 2, marks, 2, list, 2, &counts) == BITM_BAD_SIZE);
    MUST(is_untouched(list, 16) && is_untouched(prints, 8 * KEYS));
    MUST(memcmp(&counts, &no_counts, sizeof counts) == 0);

    MUST(bitm_hash_set_prints(hash, keys, KEYS, marks, KEYS, prints, KEYS - 1, 64) == BITM_WRONG);
    for (int i = 0; i < KEYS; i++) {
        MUST(bitm_hash_get(hash, keys[i], &out) == BITM_OK);
        if (out < KEYS - 1) MUST(prints[out] == marks[i]);
        MUST(same(hash, prints, KEYS - 1, 64, keys[i], marks[i]) == (out < KEYS - 1 ? BITM_OK : BITM_WRONG));
    }
}

/* Words, tables, sizes and fingerprints that were drawn. */
static void hostile(void)
{
    enum { MOST = 40 };
    uint64_t some[MOST], table[1], table2[2], widths[9], prints[MOST];
    unsigned wrong = 0, found = 0;
    for (int turn = 0; turn < 200000; turn++) {
        const size_t len = 1 + draw() % MOST, levels = draw() % 9, prints_len = draw() % MOST;
        for (size_t i = 0; i < MOST; i++) some[i] = draw() & draw(), prints[i] = draw();
        table[0] = draw();
        for (size_t i = 0; i < bitm_index_lower_len(len); i++) table2[i] = draw() >> (draw() % 64);
        for (size_t i = 0; i < levels; i++) widths[i] = draw() % 50 == 0 ? draw() : draw() % 9;
        const struct bitm_hash hash = {index_over(some, len, table, 1, table2, bitm_index_lower_len(len)), widths,
                                       levels, draw() % 3000};
        const uint32_t width = (uint32_t)(draw() % 65), status = same(&hash, prints, prints_len, width, draw(), draw());
        wrong += status == BITM_WRONG, found += status == BITM_OK;
    }
    MUST(wrong > 1000 && found > 100);
}

/* Over drawn words, tables and sizes too, each fingerprint goes where a look-up of its key says, one after another. */
static void set_over_any(void)
{
    enum { MOST = 40, SOME = 50 };
    uint64_t some[MOST], table[1], table2[2], widths[9], prints[MOST], right[MOST], hashes[SOME], own[SOME];
    unsigned wrong = 0, good = 0;
    for (int turn = 0; turn < 20000; turn++) {
        const size_t len = 1 + draw() % MOST, levels = draw() % 9, prints_len = draw() % MOST, n = draw() % SOME;
        const uint32_t width = (uint32_t)(draw() % 65);
        for (size_t i = 0; i < MOST; i++) some[i] = turn % 2 ? draw() & draw() : UINT64_MAX, right[i] = prints[i] = draw();
        for (size_t i = 0; i < n; i++) hashes[i] = draw(), own[i] = draw();
        table[0] = draw() >> (draw() % 64);
        for (size_t i = 0; i < bitm_index_lower_len(len); i++) table2[i] = draw() >> (draw() % 64);
        for (size_t i = 0; i < levels; i++) widths[i] = draw() % 50 == 0 ? draw() : draw() % 9;
        const struct bitm_hash hash = {index_over(some, len, table, 1, table2, bitm_index_lower_len(len)), widths,
                                       levels, draw() % 3000};
        bool all = true;
        for (size_t i = 0; i < n; i++) {
            uint64_t number;
            const bool has = bitm_hash_get(&hash, hashes[i], &number) == BITM_OK &&
                             (number + 1) * width <= 64 * (uint64_t)prints_len;
            for (uint32_t b = 0; has && b < width; b++) {
                const uint64_t bit = 1ULL << (number * width + b) % 64, at = (number * width + b) / 64;
                right[at] = own[i] >> b & 1 ? right[at] | bit : right[at] & ~bit;
            }
            all = all && has;
        }
        const uint32_t status = bitm_hash_set_prints(&hash, hashes, n, own, n, prints, prints_len, width);
        MUST(status == (all ? BITM_OK : BITM_WRONG) && memcmp(prints, right, sizeof prints) == 0);
        wrong += n && !all, good += n && all;
    }
    MUST(wrong > 1000 && good > 10);
}

static void tests(void)
{
    const struct bitm_hash hash = built();
    for (uint32_t width = 0; width <= 64; width++) of_width(&hash, width);
    refused(&hash);
    hostile();
    set_over_any();
}

int main(int argc, char **argv)
{
    take_seed(argc, argv);
    on_either_side(8 * ROOM, tests);
    puts("C host: keys are found by their fingerprints, and other values only by one that stands there");
    return 0;
}
