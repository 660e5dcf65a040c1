/* Strings one after another as a plain list, their hashes, and the block that is built of them, each beside a page that may
 * not be touched. */
#ifndef PLAIN_STRINGS_H
#define PLAIN_STRINGS_H

#include "changed.h"

enum { STRINGS = 300, MOST = 300, SMALL = 7, LEVELS = 256, ROOM = 1000, BYTES = 40000 };

enum { OF_STRUCT = OF_MORE, OF_WORDS, OF_UPPER, OF_LOWER, OF_SIZES, OF_BYTES, OF_ENDS, OF_ASKED, OF_LEN, OF_STARTS, OF_TEXT };

/* ---- strings one after another, and a hash of them */

struct plain {
    size_t count;
    uint64_t ends[STRINGS];
    uint8_t bytes[BYTES];
};

static size_t begin_of(const struct plain *plain, size_t i) { return i ? plain->ends[i - 1] : 0; }

static size_t all_of(const struct plain *plain) { return begin_of(plain, plain->count); }

static bool is_string(const struct plain *plain, size_t i, const uint8_t *string, size_t len)
{
    const size_t begin = begin_of(plain, i);
    return plain->ends[i] - begin == len && (len == 0 || memcmp(plain->bytes + begin, string, len) == 0);
}

static bool is_one_of(const struct plain *plain, size_t count, const uint8_t *string, size_t len)
{
    for (size_t i = 0; i < count; i++)
        if (is_string(plain, i, string, len)) return true;
    return false;
}

/* Drawn strings of up to `longest` bytes, some of them 0, of which no two are equal. */
static inline void draw_strings(struct plain *plain, size_t count, size_t longest)
{
    plain->count = 0;
    while (plain->count < count) {
        const size_t begin = all_of(plain), len = draw() % (longest + 1);
        for (size_t i = 0; i < len; i++) plain->bytes[begin + i] = (uint8_t)(draw() % 8 ? draw() : 0);
        if (is_one_of(plain, plain->count, plain->bytes + begin, len)) continue;
        plain->ends[plain->count++] = begin + len;
    }
}

static uint64_t rotated(uint64_t x, unsigned count) { return x << count | x >> (64 - count); }

static void sip_round(uint64_t v[4])
{
    v[0] += v[1], v[1] = rotated(v[1], 13) ^ v[0], v[0] = rotated(v[0], 32);
    v[2] += v[3], v[3] = rotated(v[3], 16) ^ v[2];
    v[0] += v[3], v[3] = rotated(v[3], 21) ^ v[0];
    v[2] += v[1], v[1] = rotated(v[1], 17) ^ v[2], v[2] = rotated(v[2], 32);
}

/* SipHash-1-3 with the key (with_seed, 0), a byte at a time. */
static uint64_t plain_hash(const uint8_t *string, size_t len, uint64_t with_seed)
{
    uint64_t v[4] = {with_seed ^ 0x736f6d6570736575, 0x646f72616e646f6d, with_seed ^ 0x6c7967656e657261,
                     0x7465646279746573};
    uint64_t word = 0;
    for (size_t i = 0; i < len / 8 * 8 + 8; i++) {
        const uint64_t byte = i < len ? string[i] : i % 8 == 7 ? len % 256 : 0;
        word |= byte << i % 8 * 8;
        if (i % 8 != 7) continue;
        v[3] ^= word, sip_round(v), v[0] ^= word, word = 0;
    }
    v[2] ^= 0xff;
    for (unsigned i = 0; i < 3; i++) sip_round(v);
    return v[0] ^ v[1] ^ v[2] ^ v[3];
}

static uint8_t *bytes_placed(unsigned place, const uint8_t *bytes, size_t len)
{
    uint8_t *const to = placed(place, len);
    return len ? memcpy(to, bytes, len) : to;
}

/* A hash of the strings by a seed, whose parts end at the guard. */
static struct bitm_hash hash_of(const struct plain *plain, uint64_t with_seed)
{
    static uint64_t room[ROOM], again[ROOM], each[LEVELS];
    uint64_t levels, words_len, left, ones, *out;
    uint32_t status;
    const size_t count = plain->count, all = all_of(plain);
    const uint8_t *const bytes = bytes_placed(OF_BYTES, plain->bytes, all);
    const uint64_t *const ends = copied(OF_ENDS, plain->ends, count);
    uint64_t *const hashes = untouched_at(OF_LIST, 8 * count);
    MUST(bitm_strings_hashes(bytes, all, ends, count, with_seed, hashes, count) == BITM_OK);
    for (size_t i = 0; i < count; i++) {
        const uint8_t *const string = plain->bytes + begin_of(plain, i);
        const size_t len = plain->ends[i] - begin_of(plain, i);
        MUST(hashes[i] == plain_hash(string, len, with_seed));
        ANSWER(bitm_strings_hash(bytes_placed(OF_ASKED, string, len), len, with_seed, out));
        MUST(status == BITM_OK && *out == hashes[i]);
    }
    MUST(bitm_hash_build(hashes, count, 100, room, ROOM, again, ROOM, each, LEVELS, &levels, &words_len, &left) ==
         BITM_OK && left == 0);
    const size_t uppers = bitm_index_upper_len(words_len), lowers = bitm_index_lower_len(words_len);
    uint64_t *words = placed(OF_WORDS, 8 * words_len), *upper = placed(OF_UPPER, 8 * uppers),
             *lower = placed(OF_LOWER, 8 * lowers), *sizes = placed(OF_SIZES, 8 * levels);
    memcpy(words, room, 8 * words_len), memcpy(sizes, each, 8 * levels);
    MUST(bitm_index_build(words, words_len, upper, uppers, lower, lowers, &ones) == BITM_OK && ones == count);
    return (struct bitm_hash){index_over(words, words_len, upper, uppers, lower, lowers), sizes, levels, count};
}

static uint64_t words_of(const struct plain *plain, const struct bitm_hash *hash)
{
    uint64_t *out;
    uint32_t status;
    ANSWER(bitm_strings_size(hash->index.words_len, hash->sizes_len, plain->count, all_of(plain), out));
    MUST(status == BITM_OK && *out % 8 == 0);
    return *out;
}

static uint32_t build(const struct plain *plain, const struct bitm_hash *hash, uint64_t with_seed, uint64_t *block,
                      size_t words)
{
    const size_t all = all_of(plain);
    const uint8_t *const bytes = bytes_placed(OF_BYTES, plain->bytes, all);
    const uint64_t *const ends = copied(OF_ENDS, plain->ends, plain->count);
    return bitm_strings_build(hash, with_seed, bytes, all, ends, plain->count, block, words);
}

/* The block of the strings, which ends at the guard. */
static inline uint64_t *built(const struct plain *plain, uint64_t with_seed, uint64_t *words)
{
    const struct bitm_hash hash = hash_of(plain, with_seed);
    *words = words_of(plain, &hash);
    uint64_t *const block = untouched_at(OF_BLOCK, 8 * *words);
    MUST(build(plain, &hash, with_seed, block, *words) == BITM_OK);
    return block;
}

#endif
