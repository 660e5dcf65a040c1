/* Minimal perfect hashes, with a seed for each word and without: levels that are those of a plain loop, numbers of their
 * own for all keys, all levels in one call, statuses, and numbers below the count of keys whatever the tables and sizes
 * hold. With LARGE in the environment: also 10^7 keys. */
#include "common.h"

#include <string.h>

enum { LEVELS = 256, MOST = 40 };

static uint64_t sizes[LEVELS];

static void *room(uint64_t items, size_t size)
{
    void *at = calloc(items + 1, size);
    MUST(at != NULL);
    return at;
}

/* Number `level` of the generator splitmix64 that begins at the hash. */
static uint64_t spread(uint64_t hash, uint32_t level)
{
    uint64_t z = hash + (level + 1) * 0x9E3779B97F4A7C15u;
    z = (z ^ z >> 30) * 0xBF58476D1CE4E5B9u;
    z = (z ^ z >> 27) * 0x94D049BB133111EBu;
    return z ^ z >> 31;
}

/* It as a fraction of fewer than 2^32. */
static uint64_t fraction(uint64_t z, uint64_t of)
{
    return ((z >> 32) * of + ((z & UINT32_MAX) * of >> 32)) >> 32;
}

static uint64_t position(uint64_t hash, uint32_t level, size_t level_words)
{
    return fraction(spread(hash, level), 64 * level_words);
}

/* And of a level with seeds: the word that it is a fraction of, and a bit by the seed. */
static uint64_t seeded_position(uint64_t hash, uint32_t level, size_t level_words, uint8_t seed)
{
    const uint64_t z = spread(hash, level), x = z + seed * 0x9E3779B97F4A7C15u;
    return 64 * fraction(z, level_words) + ((x ^ x >> 32) * 0xBF58476D1CE4E5B9u >> 58);
}

/* A level, and the hashes that it leaves, against a loop that counts the hashes of each bit. */
static uint64_t right_level(uint64_t *hashes, uint64_t count, uint32_t level, uint64_t *ones, size_t len)
{
    uint64_t *before = room(count, sizeof *before), *again = room(len, sizeof *again), left = UNTOUCHED, kept = 0;
    uint8_t *hits = room(64 * len, 1);
    memcpy(before, hashes, count * sizeof *hashes);
    for (uint64_t i = 0; i < count; i++) {
        uint8_t *hit = &hits[position(before[i], level, len)];
        *hit = (uint8_t)(*hit ? 2 : 1);
    }
    memset(ones, UNTOUCHED, len * sizeof *ones); /* memory that is written may hold anything */
    MUST(bitm_hash_level(hashes, count, level, ones, len, again, len, &left) == BITM_OK && left <= count);
    for (uint64_t p = 0; p < 64 * len; p++) MUST(bit_of(ones, p) == (hits[p] == 1));
    for (uint64_t i = 0; i < count; i++)
        if (hits[position(before[i], level, len)] != 1) MUST(kept < left && hashes[kept++] == before[i]);
    MUST(kept == left);
    free(before), free(again), free(hits);
    return left;
}

/* Each key has a number of its own, alone and in a list; what is no key has a number below their count, or none. */
static void numbers_of_their_own(const struct bitm_hash *hash, const uint64_t *keys)
{
    const uint64_t count = hash->keys;
    uint64_t *numbers = room(count, sizeof *numbers), out;
    bool *used = room(count, sizeof *used);
    struct bitm_list_counts counts;
    MUST(bitm_hash_get_list(hash, keys, count, numbers, count, &counts) == BITM_OK);
    MUST(counts.missing == 0 && counts.wrong == 0);
    for (uint64_t i = 0; i < count; i++) {
        MUST(bitm_hash_get(hash, keys[i], &out) == BITM_OK && out < count && !used[out] && numbers[i] == out);
        used[out] = true;
    }
    for (int turn = 0; turn < 3000; turn++) {
        const uint64_t other = draw();
        uint64_t listed;
        out = UNTOUCHED;
        const uint32_t status = bitm_hash_get(hash, other, &out);
        MUST(status == BITM_OK ? out < count : status == BITM_NONE && out == UNTOUCHED);
        MUST(bitm_hash_get_list(hash, &other, 1, &listed, 1, &counts) == BITM_OK && counts.wrong == 0);
        MUST(listed == (status == BITM_OK ? out : BITM_NO_ANSWER) && counts.missing == (status == BITM_NONE));
    }
    free(numbers), free(used);
}

/* The levels of that many keys, made one by one and in one call, by which each key has a number of its own. */
static void number(uint64_t count, uint32_t percent)
{
    const size_t most = 4 * (count * percent / 6400 + 1) + LEVELS, first = bitm_hash_level_len(count, percent);
    uint64_t *keys = room(count, sizeof *keys), *hashes = room(count, sizeof *hashes);
    uint64_t *words = room(most, sizeof *words), *again = room(first, sizeof *again), upper[1], ones, left = count;
    size_t begin = 0, levels = 0;
    for (uint64_t i = 0; i < count; i++) hashes[i] = keys[i] = draw();
    for (; left > 0; levels++) {
        MUST(levels < LEVELS);
        sizes[levels] = bitm_hash_level_len(left, percent);
        MUST(sizes[levels] == left * percent / 6400 + 1 && begin + sizes[levels] <= most);
        left = right_level(hashes, left, (uint32_t)levels, words + begin, sizes[levels]);
        begin += sizes[levels];
    }
    const size_t uppers = bitm_index_upper_len(begin), lowers = bitm_index_lower_len(begin);
    uint64_t *lower = room(lowers, sizeof *lower);
    MUST(uppers <= 1 && bitm_index_build(words, begin, upper, uppers, lower, lowers, &ones) == BITM_OK &&
         ones == count);
    const struct bitm_hash hash = {.index = index_over(words, begin, upper, uppers, lower, lowers),
                                   .sizes = sizes, .sizes_len = levels, .keys = count};
    numbers_of_their_own(&hash, keys);

    uint64_t *all = room(most, sizeof *all), all_sizes[LEVELS], all_levels, used, all_left;
    memcpy(hashes, keys, count * sizeof *keys);
    memset(all, UNTOUCHED, most * sizeof *all);
    MUST(bitm_hash_build(hashes, count, percent, all, most, again, first, all_sizes, LEVELS, &all_levels, &used,
                         &all_left) == BITM_OK);
    MUST(all_left == 0 && all_levels == levels && used == begin && memcmp(all, words, begin * sizeof *all) == 0);
    MUST(memcmp(all_sizes, sizes, levels * sizeof *sizes) == 0);
    free(keys), free(hashes), free(words), free(again), free(lower), free(all);
}

/* How many bits of each word one of the hashes falls on alone by a seed, and on which bits how many fall. */
static void alone_by(const uint64_t *hashes, uint64_t count, uint32_t level, size_t len, uint8_t seed, uint8_t *hits,
                     uint8_t *alone)
{
    memset(hits, 0, 64 * len);
    for (uint64_t i = 0; i < count; i++) {
        uint8_t *hit = &hits[seeded_position(hashes[i], level, len, seed)];
        *hit = (uint8_t)(*hit ? 2 : 1);
    }
    for (size_t w = 0; w < len; w++) {
        alone[w] = 0;
        for (int p = 0; p < 64; p++) alone[w] = (uint8_t)(alone[w] + (hits[64 * w + (size_t)p] == 1));
    }
}

/* A level with seeds by itself is the one of the call that builds all: its words and seeds, and the hashes that are left.
 */
static void level_by_itself(const uint64_t *before, uint64_t count, uint32_t level, uint16_t tries, const uint64_t *ones,
                            const uint8_t *seeds, size_t len, const uint64_t *kept, uint64_t left)
{
    uint64_t *hashes = room(count, 8), *sorted = room(count, 8), *words = room(len, 8), *again = room(len, 8);
    uint64_t found = UNTOUCHED;
    uint8_t *own = room(len, 1);
    memcpy(hashes, before, 8 * count);
    memset(words, UNTOUCHED, 8 * len), memset(own, UNTOUCHED, len);
    MUST(bitm_hash_level_seeded(hashes, count, level, tries, words, len, own, len, again, len, sorted, count, &found) ==
         BITM_OK);
    MUST(found == left && memcmp(words, ones, 8 * len) == 0 && memcmp(own, seeds, len) == 0);
    MUST(memcmp(hashes, kept, 8 * left) == 0);
    free(hashes), free(sorted), free(words), free(again), free(own);
}

/* Each word has the first of the seeds by which most fall on a bit alone, and these bits; the others are left. */
static uint64_t right_seeds(uint64_t *hashes, uint64_t count, uint32_t level, unsigned tries, const uint64_t *ones,
                            const uint8_t *seeds, size_t len)
{
    uint64_t *before = memcpy(room(count, 8), hashes, 8 * count);
    uint8_t *hits = room(64 * len, 1), *alone = room(len, 1), *most = room(len, 1), *best = room(len, 1);
    uint64_t left = 0;
    for (unsigned seed = 0; seed < tries; seed++) {
        alone_by(hashes, count, level, len, (uint8_t)seed, hits, alone);
        for (size_t w = 0; w < len; w++)
            if (alone[w] > most[w]) most[w] = alone[w], best[w] = (uint8_t)seed;
    }
    MUST(memcmp(best, seeds, len) == 0);
    memset(hits, 0, 64 * len);
    for (uint64_t i = 0; i < count; i++) {
        uint8_t *hit = &hits[seeded_position(hashes[i], level, len, best[fraction(spread(hashes[i], level), len)])];
        *hit = (uint8_t)(*hit ? 2 : 1);
    }
    for (uint64_t p = 0; p < 64 * len; p++) MUST(bit_of(ones, p) == (hits[p] == 1));
    for (uint64_t i = 0; i < count; i++)
        if (hits[seeded_position(hashes[i], level, len, best[fraction(spread(hashes[i], level), len)])] != 1)
            hashes[left++] = hashes[i];
    level_by_itself(before, count, level, (uint16_t)tries, ones, seeds, len, hashes, left);
    free(before), free(hits), free(alone), free(most), free(best);
    return left;
}

/* Each key has a number of its own, alone, in a list and by its fingerprint. */
static void numbers_by_seeds(const struct bitm_seeded_hash *hash, const uint64_t *keys)
{
    const uint64_t count = hash->hash.keys;
    uint64_t *numbers = room(count, sizeof *numbers), *found = room(count, sizeof *found), *prints = room(count, 8), out;
    bool *used = room(count, sizeof *used);
    struct bitm_list_counts counts;
    MUST(bitm_hash_get_list_seeded(hash, keys, count, numbers, count, &counts) == BITM_OK);
    MUST(counts.missing == 0 && counts.wrong == 0);
    MUST(bitm_hash_set_prints_seeded(hash, keys, count, keys, count, prints, count, 64) == BITM_OK);
    MUST(bitm_hash_find_list_seeded(hash, prints, count, 64, keys, count, keys, count, found, count, &counts) == BITM_OK);
    MUST(counts.missing == 0 && counts.wrong == 0);
    for (uint64_t i = 0; i < count; i++) {
        MUST(bitm_hash_get_seeded(hash, keys[i], &out) == BITM_OK && out < count && !used[out] && numbers[i] == out);
        MUST(found[i] == out && prints[out] == keys[i]);
        MUST(bitm_hash_find_seeded(hash, prints, count, 64, keys[i], keys[i], &out) == BITM_OK && out == found[i]);
        MUST(bitm_hash_find_seeded(hash, prints, count, 64, keys[i], keys[i] ^ 1, &out) == BITM_NONE);
        used[out] = true;
    }
    free(numbers), free(found), free(prints), free(used);
}

/* The levels of that many keys with seeds, against a loop, and the numbers of the keys. */
static void number_seeded(uint64_t count, uint16_t tries)
{
    const size_t most = 4 * (count * 100 / 6400 + 1) + LEVELS, first = bitm_hash_level_len(count, 100);
    uint64_t *keys = room(count, 8), *hashes = room(count, 8), *sorted = room(count, 8), *words = room(most, 8);
    uint64_t *again = room(first, 8), upper[1], ones, levels, used, left, still = count;
    uint8_t *seeds = room(most, 1);
    for (uint64_t i = 0; i < count; i++) hashes[i] = keys[i] = draw();
    memset(words, UNTOUCHED, 8 * most), memset(seeds, UNTOUCHED, most);
    MUST(bitm_hash_build_seeded(hashes, count, 100, tries, words, most, seeds, most, again, first, sorted, count, sizes,
                                LEVELS, &levels, &used, &left) == BITM_OK && left == 0);
    memcpy(hashes, keys, 8 * count);
    for (size_t level = 0, begin = 0; level < levels; begin += sizes[level++]) {
        MUST(sizes[level] == bitm_hash_level_len(still, 100));
        still = right_seeds(hashes, still, (uint32_t)level, tries < 256 ? tries : 256, words + begin, seeds + begin,
                            sizes[level]);
    }
    MUST(still == 0);
    const size_t uppers = bitm_index_upper_len(used), lowers = bitm_index_lower_len(used);
    uint64_t *lower = room(lowers, 8);
    MUST(bitm_index_build(words, used, upper, uppers, lower, lowers, &ones) == BITM_OK && ones == count);
    struct bitm_seeded_hash hash = {.hash = {.index = index_over(words, used, upper, uppers, lower, lowers),
                                             .sizes = sizes, .sizes_len = levels, .keys = count},
                                    .seeds = seeds, .seeds_len = used};
    numbers_by_seeds(&hash, keys);
    uint64_t out = UNTOUCHED;
    hash.seeds_len = used + 1;
    MUST(bitm_hash_get_seeded(&hash, 7, &out) == BITM_BAD_SIZE && out == UNTOUCHED);
    hash.seeds_len = 0; /* then it is the hash without seeds */
    for (int turn = 0; turn < 100; turn++) {
        uint64_t plain = UNTOUCHED, by_none = UNTOUCHED;
        const uint64_t key = draw();
        MUST(bitm_hash_get_seeded(&hash, key, &by_none) == bitm_hash_get(&hash.hash, key, &plain) && plain == by_none);
    }
    free(keys), free(hashes), free(sorted), free(words), free(again), free(seeds), free(lower);
}

/* Keys of which two are equal are left, and no other. */
static void equal_keys(void)
{
    enum { KEYS = 100, ROOM = 1000 };
    uint64_t hashes[KEYS], words[ROOM], again[ROOM], levels, used, left;
    for (int i = 0; i < KEYS; i++) hashes[i] = draw();
    hashes[70] = hashes[3];
    const uint64_t twice = hashes[3];
    MUST(bitm_hash_build(hashes, KEYS, 100, words, ROOM, again, ROOM, sizes, LEVELS, &levels, &used, &left) == BITM_OK);
    MUST(left == 2 && hashes[0] == twice && hashes[1] == twice && levels <= LEVELS && used <= ROOM);
}

/* Numbers over words, tables and sizes that were drawn: below the number of keys, or none. */
static void hostile(void)
{
    uint64_t words[MOST], upper[1], lower[2], out;
    unsigned wrong = 0;
    for (int turn = 0; turn < 200000; turn++) {
        const size_t len = 1 + draw() % MOST, levels = draw() % 9;
        const uint64_t keys = draw() % 3000;
        for (size_t i = 0; i < len; i++) words[i] = draw() & draw();
        upper[0] = draw();
        for (size_t i = 0; i < bitm_index_lower_len(len); i++) lower[i] = draw() >> (draw() % 64);
        for (size_t i = 0; i < levels; i++) sizes[i] = draw() % 50 == 0 ? draw() : draw() % 9;
        const struct bitm_hash hash = {.index = index_over(words, len, upper, 1, lower, bitm_index_lower_len(len)),
                                       .sizes = sizes, .sizes_len = levels, .keys = keys};
        out = UNTOUCHED;
        const uint64_t key = draw();
        const uint32_t status = bitm_hash_get(&hash, key, &out);
        uint64_t listed;
        struct bitm_list_counts counts;
        MUST(bitm_hash_get_list(&hash, &key, 1, &listed, 1, &counts) == BITM_OK);
        MUST(listed < keys || listed >= BITM_WRONG_TABLES);
        MUST(counts.missing == (listed == BITM_NO_ANSWER) && counts.wrong == (listed == BITM_WRONG_TABLES));
        if (status == BITM_OK) MUST(out < keys);
        else MUST((status == BITM_NONE || status == BITM_WRONG) && out == UNTOUCHED);
        wrong += status == BITM_WRONG;
    }
    MUST(wrong > 1000);
}

/* Over drawn words, tables and sizes too, a list answers each of its hashes as it is answered alone. */
static void lists_are_alike(void)
{
    enum { KEYS = 70 };
    uint64_t words[MOST], upper[1], lower[2], keys[KEYS], listed[KEYS];
    uint8_t seeds[MOST];
    for (int turn = 0; turn < 3000; turn++) {
        const size_t len = 1 + draw() % MOST, levels = draw() % 9, n = draw() % KEYS;
        for (size_t i = 0; i < len; i++) words[i] = draw() & draw(), seeds[i] = (uint8_t)draw();
        upper[0] = turn % 2 ? 0 : draw();
        for (size_t i = 0; i < bitm_index_lower_len(len); i++) lower[i] = draw() >> (draw() % 64);
        for (size_t i = 0; i < levels; i++) sizes[i] = draw() % 30 == 0 ? draw() : draw() % 9;
        for (size_t i = 0; i < n; i++) keys[i] = draw();
        const struct bitm_seeded_hash hash = {
            .hash = {.index = index_over(words, len, upper, 1, lower, bitm_index_lower_len(len)),
                     .sizes = sizes, .sizes_len = levels, .keys = draw() % 3000},
            .seeds = seeds, .seeds_len = turn % 3 ? len : 0};
        struct bitm_list_counts counts;
        for (int with_seeds = 0; with_seeds < 2; with_seeds++) {
            MUST((with_seeds ? bitm_hash_get_list_seeded(&hash, keys, n, listed, n, &counts)
                             : bitm_hash_get_list(&hash.hash, keys, n, listed, n, &counts)) == BITM_OK);
            for (size_t i = 0; i < n; i++) {
                uint64_t out = UNTOUCHED;
                const uint32_t status = with_seeds ? bitm_hash_get_seeded(&hash, keys[i], &out)
                                                   : bitm_hash_get(&hash.hash, keys[i], &out);
                MUST(listed[i] == item_of(status, out));
            }
        }
    }
}

/* What is refused leaves all as it was. */
static void refused(void)
{
    uint64_t some[3] = {5, 6, 7}, zeros[2] = {8, 9}, out = UNTOUCHED, left = UNTOUCHED;
    const struct bitm_index index = index_over(zeros, 2, some, 1, some, 1);
    const uint64_t none[1] = {0}, more[1] = {3}, two[1] = {2};
    const struct bitm_hash bad = {index_over(zeros, 2, some, 1, some, 2), sizes, 0, 1};
    const struct bitm_hash past = {cut_at(index, 129), sizes, 0, 1}, many = {index, sizes, LEVELS + 1, 1};
    const struct bitm_hash empty = {index, NULL, 0, 1}, wrong[] = {{index, none, 1, 1}, {index, more, 1, 1}};
    uint8_t seeds[2] = {3, 4};
    const struct bitm_hash few = {index, two, 1, 0}; /* a number that is not below the count */
    const size_t too_many = (size_t)1 << 58;
    uint64_t used = UNTOUCHED, levels = UNTOUCHED;
    MUST(bitm_hash_level(some, 3, 0, NULL, 0, NULL, 0, &left) == BITM_BAD_SIZE);
    MUST(bitm_hash_level(some, 3, 0, zeros, 2, zeros, 1, &left) == BITM_BAD_SIZE);
    MUST(bitm_hash_level(some, 3, 0, zeros, too_many, zeros, too_many, &left) == BITM_BAD_SIZE);
    MUST(bitm_hash_build(some, 3, 100, zeros, too_many, zeros, 2, sizes, LEVELS, &levels, &used, &left) ==
         BITM_BAD_SIZE);
    MUST(bitm_hash_build_seeded(some, 3, 100, 4, zeros, 2, seeds, 1, zeros, 2, zeros, 3, sizes, LEVELS, &levels, &used,
                                &left) == BITM_BAD_SIZE);
    MUST(bitm_hash_build_seeded(some, 3, 100, 4, zeros, 2, seeds, 2, zeros, 2, zeros, 2, sizes, LEVELS, &levels, &used,
                                &left) == BITM_BAD_SIZE);
    MUST(bitm_hash_level_seeded(some, 3, 0, 4, NULL, 0, NULL, 0, NULL, 0, zeros, 3, &left) == BITM_BAD_SIZE);
    MUST(bitm_hash_level_seeded(some, 3, 0, 4, zeros, 2, seeds, 2, zeros, 1, zeros, 3, &left) == BITM_BAD_SIZE);
    MUST(bitm_hash_level_seeded(some, 3, 0, 4, zeros, 2, seeds, 1, zeros, 2, zeros, 3, &left) == BITM_BAD_SIZE);
    MUST(bitm_hash_level_seeded(some, 3, 0, 4, zeros, 2, seeds, 2, zeros, 2, zeros, 2, &left) == BITM_BAD_SIZE);
    MUST(bitm_hash_level_seeded(some, 3, 0, 4, zeros, too_many, seeds, too_many, zeros, too_many, zeros, 3, &left) ==
         BITM_BAD_SIZE);
    MUST(levels == UNTOUCHED && used == UNTOUCHED && seeds[0] == 3 && seeds[1] == 4);
    MUST(bitm_hash_get(&bad, 7, &out) == BITM_BAD_SIZE && bitm_hash_get(&many, 7, &out) == BITM_BAD_SIZE);
    MUST(bitm_hash_get(&empty, 7, &out) == BITM_NONE && bitm_hash_get(&past, 7, &out) == BITM_NONE);
    for (int i = 0; i < 2; i++) MUST(bitm_hash_get(&wrong[i], 7, &out) == BITM_WRONG);
    for (uint64_t key = 0; key < 100; key++) MUST(bitm_hash_get(&few, key, &out) != BITM_OK);
    MUST(some[0] == 5 && some[1] == 6 && some[2] == 7 && zeros[0] == 8 && zeros[1] == 9);
    MUST(out == UNTOUCHED && left == UNTOUCHED);
}

int main(int argc, char **argv)
{
    take_seed(argc, argv);
    for (uint64_t count = 0; count < 70; count++) number(count, 100);
    number(3000, 100), number(3000, 200), number(3000, 312);
    if (getenv("LARGE")) number(10000000, 100);
    for (uint64_t count = 0; count < 70; count++) number_seeded(count, (uint16_t)(count % 9));
    number_seeded(3000, 1), number_seeded(3000, 64), number_seeded(3000, 300);
    equal_keys();
    refused();
    hostile();
    lists_are_alike();
    puts("C host: perfect hashes number their keys, and answer below their count whatever the tables hold");
    return 0;
}
