/* Hashes with seeds in blocks: the numbers beside those of the same hash in memory; parts of which no block is made;
 * blocks of hashes without seeds; blocks of which each byte is changed, each prefix, and blocks whose words, tables,
 * seeds and sizes hold random numbers. All is beside pages that may not be touched (places.h). */
#define _DEFAULT_SOURCE
#include "changed.h"

enum { KEYS = 10000, MOST = 600, SMALL = 9, LEVELS = 256, ROOM = 3000, HEAD = 40 };

enum { OF_STRUCT = OF_MORE, OF_WORDS, OF_UPPER, OF_LOWER, OF_SIZES, OF_SEEDS, OF_BYTES };

/* A hash of drawn keys, of which each part ends at the guard. */
struct made {
    struct bitm_seeded_hash hash;
    uint64_t seed, keys[KEYS];
};

static void make(struct made *made, size_t count, uint16_t tries)
{
    static uint64_t hashes[KEYS], sorted[KEYS], room[ROOM], again[ROOM], each[LEVELS];
    static uint8_t own[ROOM];
    uint64_t levels, words_len, left, ones;
    for (size_t i = 0; i < count; i++) hashes[i] = made->keys[i] = draw();
    MUST(bitm_hash_build_seeded(hashes, count, 100, tries, room, ROOM, own, ROOM, again, ROOM, sorted, count, each,
                                LEVELS, &levels, &words_len, &left) == BITM_OK && left == 0);
    const size_t uppers = bitm_index_upper_len(words_len), lowers = bitm_index_lower_len(words_len);
    uint64_t *words = copied(OF_WORDS, room, words_len), *sizes = copied(OF_SIZES, each, levels),
             *upper = placed(OF_UPPER, 8 * uppers), *lower = placed(OF_LOWER, 8 * lowers);
    uint8_t *seeds = placed(OF_SEEDS, words_len);
    memcpy(seeds, own, words_len);
    MUST(bitm_index_build(words, words_len, upper, uppers, lower, lowers, &ones) == BITM_OK && ones == count);
    const struct bitm_index index = index_over(words, words_len, upper, uppers, lower, lowers);
    made->hash = (struct bitm_seeded_hash){{index, sizes, levels, count}, seeds, words_len};
    made->seed = draw();
}

/* The block of the hash, which ends at the guard. */
static uint64_t *built(const struct made *made, uint64_t *words)
{
    const struct bitm_hash *hash = &made->hash.hash;
    uint64_t *out;
    uint32_t status;
    ANSWER(bitm_hash_block_size_seeded(hash->index.words_len, hash->sizes_len, out));
    MUST(status == BITM_OK && *out % 8 == 0);
    *words = *out;
    uint64_t *block = untouched_at(OF_BLOCK, 8 * *words);
    MUST(bitm_hash_block_build_seeded(hash->index.words, hash->index.words_len, made->hash.seeds, made->hash.seeds_len,
                                      hash->sizes, hash->sizes_len, made->seed, block, *words) == BITM_OK);
    return block;
}

/* The block of the same levels without the seeds. */
static uint64_t *plain_built(const struct made *made, uint64_t *words)
{
    const struct bitm_hash *hash = &made->hash.hash;
    MUST(bitm_hash_block_size(hash->index.words_len, hash->sizes_len, words) == BITM_OK);
    uint64_t *block = untouched_at(OF_BLOCK, 8 * *words);
    MUST(bitm_hash_block_build(hash->index.words, hash->index.words_len, hash->sizes, hash->sizes_len, made->seed,
                               block, *words) == BITM_OK);
    return block;
}

/* ---- the two kinds of hashes */

struct opened {
    struct bitm_seeded_hash hash;
    uint64_t seed;
};

static uint32_t open_seeded(const uint64_t *block, size_t words, void *opened)
{
    struct opened *const it = opened;
    return bitm_hash_block_open_seeded(block, words, &it->hash, &it->seed);
}

static uint32_t open_plain(const uint64_t *block, size_t words, void *opened)
{
    struct opened *const it = opened;
    return bitm_hash_block_open(block, words, &it->hash.hash, &it->seed);
}

/* Whatever the block holds, the call returns, and a number is below the number of keys. */
static void number_within(const struct bitm_seeded_hash *hash, uint64_t hash_of)
{
    uint64_t *out;
    uint32_t status;
    ANSWER(bitm_hash_get_seeded(hash, hash_of, out));
    MUST(status == BITM_OK ? *out < hash->hash.keys : status == BITM_NONE || status == BITM_WRONG);
}

static void some_within(const void *opened) { number_within(&((const struct opened *)opened)->hash, draw()); }

static void none_within(const void *opened) { MUST(opened == NULL); } /* it is not opened */

static const struct kind of_seeded = {HEAD, sizeof(struct opened), bitm_hash_block_check_seeded, open_seeded,
                                      some_within};
static const struct kind of_plain = {HEAD, sizeof(struct opened), bitm_hash_block_check, open_plain, none_within};

/* ---- answers */

/* The hash in the block answers as the hash in memory, and each key has a number of its own. */
static void numbers_as(const struct made *made, const struct bitm_seeded_hash *hash)
{
    static bool used[KEYS];
    const size_t count = made->hash.hash.keys;
    memset(used, 0, sizeof used);
    MUST(hash->hash.keys == count && bitm_seeded_hash_fault(hash) == NULL);
    MUST(bitm_index_check(&hash->hash.index) == BITM_OK && hash->hash.index.ones.samples_len == 0);
    MUST(hash->hash.index.bits_len == 64 * hash->hash.index.words_len);
    for (size_t i = 0; i < count + 100; i++) {
        const uint64_t hash_of = i < count ? made->keys[i] : draw();
        uint64_t *out;
        uint32_t status;
        ANSWER(bitm_hash_get_seeded(&made->hash, hash_of, out));
        const uint64_t number = *out;
        const uint32_t expected = status;
        ANSWER(bitm_hash_get_seeded(hash, hash_of, out));
        MUST(status == expected && *out == number && (i >= count || (status == BITM_OK && !used[number])));
        if (i < count) used[number] = true;
    }
}

/* The parts lie in the block: the words before the tables, seeds and sizes; the seeds are those that were given. */
static void is_over(const uint64_t *block, uint64_t words, const struct bitm_seeded_hash *hash, const struct made *made)
{
    const struct bitm_index *index = &hash->hash.index;
    const uint8_t *const bytes = (const uint8_t *)block, *const sizes = (const uint8_t *)hash->hash.sizes;
    MUST(index->words == block + HEAD && index->upper >= index->words + index->words_len);
    MUST(index->lower >= index->upper + index->upper_len);
    MUST(hash->seeds >= (const uint8_t *)(index->lower + index->lower_len) && (hash->seeds - bytes) % 64 == 0);
    MUST(hash->seeds_len == index->words_len && hash->seeds + hash->seeds_len <= sizes);
    MUST(sizes + 8 * hash->hash.sizes_len <= bytes + 8 * words);
    MUST(memcmp(hash->seeds, made->hash.seeds, hash->seeds_len) == 0);
    for (const uint8_t *after = hash->seeds + hash->seeds_len; after < sizes; after++) MUST(*after == 0);
}

static void drawn_keys(void)
{
    static struct made made;
    for (unsigned i = 0; i < 40; i++) {
        uint64_t words;
        make(&made, i < 12 ? i : i == 39 ? KEYS : draw() % MOST, (uint16_t)(i % 7 * 10));
        uint64_t *block = built(&made, &words);
        struct opened *const it = placed(OF_STRUCT, sizeof *it);
        MUST(refuses(&of_plain, block, words) && bitm_dictionary_check(block, words) == BITM_WRONG);
        MUST(opens(&of_seeded, block, words, it) && it->seed == made.seed);
        MUST(bitm_hash_block_check_seeded(block, words) == BITM_OK);
        is_over(block, words, &it->hash, &made);
        numbers_as(&made, &it->hash);
        block = plain_built(&made, &words);
        MUST(opens(&of_plain, block, words, it) && bitm_hash_block_check(block, words) == BITM_OK);
        MUST(refuses(&of_seeded, block, words));
    }
}

/* The seeds are those bytes that are passed, and as many as the block has. */
static void other_bytes(void)
{
    static struct made made;
    uint64_t words;
    make(&made, 300, 30);
    const uint64_t *block = built(&made, &words);
    struct opened *const it = placed(OF_STRUCT, sizeof *it);
    const uint8_t *const bytes = memcpy(placed(OF_BYTES, 8 * words), block, 8 * words);
    for (size_t len = 0; len < 8 * words + 9; len++) {
        memset(it, UNTOUCHED, sizeof *it);
        const uint32_t status = bitm_hash_block_open_seeded_bytes(block, words, bytes, len, &it->hash, &it->seed);
        MUST(status == (len == 8 * words ? BITM_OK : BITM_BAD_SIZE));
        MUST(status == BITM_OK || is_untouched(it, sizeof *it));
        if (status != BITM_OK) continue;
        MUST(it->hash.seeds == bytes + block[29] && it->hash.seeds_len == made.hash.seeds_len);
        numbers_as(&made, &it->hash);
    }
    MUST(bitm_hash_block_open_seeded_bytes(block, words - 1, bytes, 0, &it->hash, &it->seed) == BITM_WRONG);
}

/* ---- what is refused */

static void builds_none(const struct made *made, size_t seeds, size_t levels, uint64_t words)
{
    const struct bitm_index *index = &made->hash.hash.index;
    uint64_t *block = untouched_at(OF_BLOCK, 8 * words);
    MUST(bitm_hash_block_build_seeded(index->words, index->words_len, made->hash.seeds, seeds, made->hash.hash.sizes,
                                      levels, 7, block, words) == BITM_BAD_SIZE);
    MUST(is_untouched(block, 8 * words));
}

static void no_blocks(void)
{
    static struct made made;
    const size_t most = ((size_t)1 << 58) - 1;
    uint64_t words, *out;
    uint32_t status;
    make(&made, 200, 20);
    built(&made, &words);
    const size_t seeds = made.hash.seeds_len, levels = made.hash.hash.sizes_len;
    for (size_t len = 0; len < words + 9; len++)
        if (len != words) builds_none(&made, seeds, levels, len);
    builds_none(&made, seeds - 1, levels, words), builds_none(&made, 0, levels, words);
    builds_none(&made, seeds, levels - 1, words);
    uint64_t *const sizes = (uint64_t *)made.hash.hash.sizes;
    sizes[0]++, builds_none(&made, seeds, levels, words), sizes[0]--;
    for (size_t i = 0; i < 4; i++) {
        ANSWER(bitm_hash_block_size_seeded(i & 1 ? most + 1 : most, i & 2 ? 257 : 256, out));
        MUST(status == (i ? BITM_BAD_SIZE : BITM_OK));
    }
    ANSWER(bitm_hash_block_size_seeded(2, 2, out));
    MUST(status == BITM_OK && *out == 80); /* docs/FORMAT.md */
}

static void changed_blocks(void)
{
    static struct made made;
    uint64_t words;
    make(&made, SMALL, 9);
    uint64_t *const block = built(&made, &words);
    changed_bytes(&of_seeded, block, words, 1);
    cut_off(&of_seeded, block, words);
}

/* Random words after a right header, and random words alone. */
static void random_blocks(void)
{
    static struct made made;
    struct opened it;
    for (size_t turn = 0; turn < 400; turn++) {
        uint64_t words;
        make(&made, 1 + draw() % 300, 5);
        uint64_t *const block = built(&made, &words);
        spoil(block, HEAD, words, turn);
        MUST(opens(&of_seeded, block, words, &it));
        for (size_t i = 0; i < 40; i++)
            number_within(&it.hash, i < 20 ? made.keys[draw() % made.hash.hash.keys] : draw());
        draw_words(block, words);
        MUST(refuses(&of_seeded, block, words));
    }
}

static void tests(void)
{
    drawn_keys();
    other_bytes();
    no_blocks();
    changed_blocks();
    random_blocks();
}

int main(int argc, char **argv)
{
    take_seed(argc, argv);
    on_either_side(8 * (KEYS + ROOM), tests);
    printf("seeded_blocks: blocks number as the hashes in memory, each changed byte and each prefix is refused, and a "
           "number is below the number of keys in any words\n");
    return 0;
}
