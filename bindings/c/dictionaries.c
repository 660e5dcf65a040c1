/* Hashes and dictionaries in blocks: the answers beside a plain list of keys; parts of which no block is made; blocks of
 * which each byte is changed, each prefix, and blocks whose words, tables, sizes and keys hold random numbers. All is
 * beside pages that may not be touched (places.h). */
#define _DEFAULT_SOURCE
#include "changed.h"

enum { KEYS = 10000, MOST = 600, SMALL = 9, LIST = 64, LEVELS = 256, ROOM = 3000 };

enum { OF_STRUCT = OF_MORE, OF_WORDS, OF_UPPER, OF_LOWER, OF_SIZES, OF_KEYS, OF_ASKED };

/* ---- keys, the levels that number them, and the parts of a dictionary */

struct plain {
    size_t count;
    uint64_t keys[KEYS];
};

static int by_value(const void *a, const void *b)
{
    const uint64_t x = *(const uint64_t *)a, y = *(const uint64_t *)b;
    return (x > y) - (x < y);
}

/* Drawn keys of which no two are equal, in order; at the ends of the range too. */
static void draw_keys(struct plain *plain, size_t count, unsigned bits)
{
    uint64_t next = 0;
    plain->count = count;
    for (size_t i = 0; i < count; i++) plain->keys[i] = next, next += 1 + (draw() >> (64 - bits));
    if (count > 2) plain->keys[count - 1] = UINT64_MAX;
}

static bool is_key(const struct plain *plain, uint64_t key)
{
    return bsearch(&key, plain->keys, plain->count, sizeof key, by_value) != NULL;
}

/* The parts of a dictionary of the keys, each of which ends at the guard. */
static struct bitm_dictionary parts_of(const struct plain *plain, uint64_t with_seed)
{
    static uint64_t hashes[KEYS], room[ROOM], again[ROOM], each[LEVELS];
    uint64_t levels, words_len, left, ones, number;
    const size_t count = plain->count;
    for (size_t i = 0; i < count; i++) hashes[i] = plain->keys[i] + with_seed; /* wraps */
    MUST(bitm_hash_build(hashes, count, 100, room, ROOM, again, ROOM, each, LEVELS, &levels, &words_len, &left) ==
         BITM_OK && left == 0);
    const size_t uppers = bitm_index_upper_len(words_len), lowers = bitm_index_lower_len(words_len);
    uint64_t *words = placed(OF_WORDS, 8 * words_len), *upper = placed(OF_UPPER, 8 * uppers),
             *lower = placed(OF_LOWER, 8 * lowers), *sizes = placed(OF_SIZES, 8 * levels),
             *keys = placed(OF_KEYS, 8 * count);
    memcpy(words, room, 8 * words_len), memcpy(sizes, each, 8 * levels);
    MUST(bitm_index_build(words, words_len, upper, uppers, lower, lowers, &ones) == BITM_OK && ones == count);
    const struct bitm_dictionary made = {.hash = {index_over(words, words_len, upper, uppers, lower, lowers), sizes,
                                                  levels, count},
                                         .keys = keys, .keys_len = count, .seed = with_seed};
    for (size_t i = 0; i < count; i++) {
        MUST(bitm_hash_get(&made.hash, plain->keys[i] + with_seed, &number) == BITM_OK);
        keys[number] = plain->keys[i];
    }
    return made;
}

/* The block of the parts, which ends at the guard. */
static uint64_t *built(const struct bitm_dictionary *made, uint64_t *words)
{
    uint64_t *out;
    uint32_t status;
    ANSWER(bitm_dictionary_size(made->hash.index.words_len, made->hash.sizes_len, made->keys_len, out));
    MUST(status == BITM_OK && *out % 8 == 0);
    *words = *out;
    uint64_t *block = untouched_at(OF_BLOCK, 8 * *words);
    MUST(bitm_dictionary_build(made, block, *words) == BITM_OK);
    return block;
}

/* The same without the keys. */
static uint64_t *hash_built(const struct bitm_dictionary *made, uint64_t *words)
{
    const struct bitm_hash *hash = &made->hash;
    uint64_t *out;
    uint32_t status;
    ANSWER(bitm_hash_block_size(hash->index.words_len, hash->sizes_len, out));
    MUST(status == BITM_OK && *out % 8 == 0);
    *words = *out;
    uint64_t *block = untouched_at(OF_BLOCK, 8 * *words);
    MUST(bitm_hash_block_build(hash->index.words, hash->index.words_len, hash->sizes, hash->sizes_len, made->seed, block,
                               *words) == BITM_OK);
    return block;
}

/* ---- answers */

/* A number is found exactly for what is a key, and the key stands there. */
static void number_as(const struct plain *plain, const struct bitm_dictionary *dictionary, uint64_t key)
{
    uint64_t *out;
    uint32_t status;
    ANSWER(bitm_dictionary_find(dictionary, key, out));
    MUST(status == (is_key(plain, key) ? BITM_OK : BITM_NONE));
    MUST(status != BITM_OK || (*out < plain->count && dictionary->keys[*out] == key));
}

static void answers_as(const struct plain *plain, const struct bitm_dictionary *dictionary)
{
    MUST(dictionary->keys_len == plain->count && dictionary->hash.keys == plain->count);
    MUST(bitm_dictionary_fault(dictionary) == NULL && dictionary->hash.index.ones.samples_len == 0);
    MUST(dictionary->hash.index.bits_len == 64 * dictionary->hash.index.words_len);
    for (size_t i = 0; i < plain->count; i++)
        for (uint64_t side = 0; side < 3; side++) number_as(plain, dictionary, plain->keys[i] + side - 1);
    for (uint64_t i = 0; i < 200; i++) number_as(plain, dictionary, i < 100 ? i : draw());
}

/* Lists of keys and other numbers beside the call of one; lists of other lengths, and of nothing. */
static void list_as_single_calls(const struct bitm_dictionary *dictionary)
{
    uint64_t *asked = placed(OF_ASKED, 8 * LIST), *list = untouched_at(OF_LIST, 8 * LIST), *out;
    uint32_t status;
    for (size_t i = 0; i < LIST; i++)
        asked[i] = i % 4 && dictionary->keys_len ? dictionary->keys[draw() % dictionary->keys_len] + i % 4 / 3 : draw();
    struct bitm_list_counts *counts = counts_at_the_guard();
    for (size_t less = 1; less < 3; less++) {
        MUST(bitm_dictionary_find_list(dictionary, asked, LIST - less, list, LIST, counts) == BITM_BAD_SIZE);
        MUST(bitm_dictionary_find_list(dictionary, asked, LIST, list, LIST - less, counts) == BITM_BAD_SIZE);
    }
    MUST(counts->missing == UNTOUCHED && counts->wrong == UNTOUCHED && is_untouched(list, 8 * LIST));
    MUST(bitm_dictionary_find_list(dictionary, NULL, 0, NULL, 0, counts) == BITM_OK && counts->missing == 0);
    counts = counts_at_the_guard();
    status = bitm_dictionary_find_list(dictionary, asked, LIST, list, LIST, counts);
    MUST(counted(status, list, LIST, *counts) == BITM_OK);
    for (size_t i = 0; i < LIST; i++) {
        ANSWER(bitm_dictionary_find(dictionary, asked[i], out));
        MUST(list[i] == item_of(status, *out));
    }
}

/* Whatever the block holds: every call returns, and the key stands at the number that is found. */
static void number_within(const struct bitm_hash *hash, uint64_t hash_of)
{
    uint64_t *out;
    uint32_t status;
    ANSWER(bitm_hash_get(hash, hash_of, out));
    MUST(status == BITM_OK ? *out < hash->keys : status == BITM_NONE || status == BITM_WRONG);
}

static void answers_within(const struct bitm_dictionary *dictionary)
{
    uint64_t *out;
    uint32_t status;
    for (size_t i = 0; i < 40; i++) {
        const uint64_t key = i % 2 && dictionary->keys_len ? dictionary->keys[draw() % dictionary->keys_len] : draw();
        ANSWER(bitm_dictionary_find(dictionary, key, out));
        MUST(status == BITM_OK ? *out < dictionary->keys_len && dictionary->keys[*out] == key
                               : status == BITM_NONE || status == BITM_WRONG);
        number_within(&dictionary->hash, key);
    }
    list_as_single_calls(dictionary);
}

/* ---- blocks */

static uint32_t open_dictionary(const uint64_t *block, size_t words, void *opened)
{
    return bitm_dictionary_open(block, words, opened);
}

struct opened_hash {
    struct bitm_hash hash;
    uint64_t seed;
};

static uint32_t open_hash(const uint64_t *block, size_t words, void *opened)
{
    struct opened_hash *const it = opened;
    return bitm_hash_block_open(block, words, &it->hash, &it->seed);
}

static void hash_within(const void *opened) { number_within(&((const struct opened_hash *)opened)->hash, draw()); }

static void some_within(const void *opened)
{
    if (draw() % 16 == 0) answers_within(opened);
}

static const struct kind of_dictionary = {40, sizeof(struct bitm_dictionary), bitm_dictionary_check, open_dictionary,
                                          some_within};
static const struct kind of_hash = {40, sizeof(struct opened_hash), bitm_hash_block_check, open_hash, hash_within};

/* The parts lie in the block, the words before the tables, sizes and keys. */
static void is_over(const uint64_t *block, uint64_t words, const struct bitm_dictionary *dictionary)
{
    const struct bitm_index *index = &dictionary->hash.index;
    MUST(index->words == block + 40 && index->upper >= index->words + index->words_len);
    MUST(index->lower >= index->upper + index->upper_len && dictionary->hash.sizes >= index->lower + index->lower_len);
    MUST(dictionary->keys >= dictionary->hash.sizes + dictionary->hash.sizes_len);
    MUST(dictionary->keys + dictionary->keys_len <= block + words);
}

/* A hash in a block numbers the keys as the parts do. */
static void numbers_as(const struct plain *plain, const struct bitm_dictionary *made, const struct bitm_hash *hash)
{
    MUST(hash->keys == plain->count && bitm_hash_fault(hash) == NULL);
    MUST(hash->index.bits_len == 64 * hash->index.words_len && bitm_index_check(&hash->index) == BITM_OK);
    for (size_t i = 0; i < plain->count + 30; i++) {
        const uint64_t hash_of = i < plain->count ? plain->keys[i] + made->seed : draw();
        uint64_t *out;
        uint32_t status, expected;
        ANSWER(bitm_hash_get(&made->hash, hash_of, out));
        const uint64_t number = *out;
        expected = status;
        ANSWER(bitm_hash_get(hash, hash_of, out));
        MUST(status == expected && *out == number);
    }
}

static void drawn_keys(void)
{
    static struct plain plain;
    for (unsigned i = 0; i < 60; i++) {
        uint64_t words;
        struct opened_hash hash;
        draw_keys(&plain, i < 12 ? i : i == 59 ? KEYS : draw() % MOST, 1 + i % 50);
        const struct bitm_dictionary made = parts_of(&plain, i % 3 ? draw() : i);
        answers_as(&plain, &made);
        uint64_t *block = hash_built(&made, &words);
        struct bitm_dictionary *const dictionary = placed(OF_STRUCT, sizeof *dictionary);
        MUST(opens(&of_hash, block, words, &hash) && hash.seed == made.seed);
        MUST(!opens(&of_dictionary, block, words, dictionary));
        MUST(bitm_hash_block_check(block, words) == BITM_OK && bitm_dictionary_check(block, words) == BITM_WRONG);
        numbers_as(&plain, &made, &hash.hash);
        block = built(&made, &words);
        MUST(opens(&of_dictionary, block, words, dictionary) && bitm_dictionary_check(block, words) == BITM_OK);
        MUST(opens(&of_hash, block, words, &hash) && hash.seed == made.seed);
        MUST(bitm_hash_block_check(block, words) == BITM_OK && dictionary->seed == made.seed);
        MUST(dictionary->reserved[0] == 0 && dictionary->reserved[1] == 0);
        is_over(block, words, dictionary);
        numbers_as(&plain, &made, &hash.hash);
        answers_as(&plain, dictionary);
        list_as_single_calls(dictionary);
    }
}

/* Whether a build of no block leaves the block as it was. */
static void builds_none(const struct bitm_dictionary *made, uint64_t words, uint32_t expected)
{
    uint64_t *block = untouched_at(OF_BLOCK, 8 * words);
    MUST(bitm_dictionary_build(made, block, words) == expected && is_untouched(block, 8 * words));
}

static void builds_no_hash(const struct bitm_dictionary *made, size_t levels, uint64_t words)
{
    uint64_t *block = untouched_at(OF_BLOCK, 8 * words);
    MUST(bitm_hash_block_build(made->hash.index.words, made->hash.index.words_len, made->hash.sizes, levels, 7, block,
                               words) == BITM_BAD_SIZE);
    MUST(is_untouched(block, 8 * words));
}

/* Parts that are those of no dictionary, and blocks that are too long or too short: nothing is written. */
static void no_dictionary(void)
{
    static struct plain plain;
    uint64_t words, hash_words;
    draw_keys(&plain, 50, 40);
    const struct bitm_dictionary made = parts_of(&plain, 3);
    uint64_t *keys = (uint64_t *)made.keys, *sizes = (uint64_t *)made.hash.sizes,
             *lower = (uint64_t *)made.hash.index.lower, *levels = (uint64_t *)made.hash.index.words;
    built(&made, &words), hash_built(&made, &hash_words);
    for (size_t len = 0; len < words + 9; len++) {
        if (len != words) builds_none(&made, len, BITM_BAD_SIZE);
        if (len != hash_words) builds_no_hash(&made, made.hash.sizes_len, len);
    }
    for (size_t i = 0; i < plain.count; i++) {
        const uint64_t key = keys[i], others[] = {key + 1, key - 1, draw(), keys[(i + 1) % plain.count]};
        for (size_t other = 0; other < 4; other++) {
            uint64_t number = UNTOUCHED;
            keys[i] = others[other];
            const uint32_t status = bitm_hash_get(&made.hash, keys[i] + made.seed, &number);
            if (status != BITM_OK || number != i) builds_none(&made, words, BITM_WRONG); /* it has not this number by chance */
        }
        keys[i] = key;
    }
    sizes[0]++, builds_none(&made, words, BITM_WRONG), builds_no_hash(&made, made.hash.sizes_len, hash_words), sizes[0]--;
    builds_no_hash(&made, made.hash.sizes_len - 1, hash_words);
    lower[0] ^= 1, builds_none(&made, words, BITM_WRONG), lower[0] ^= 1;
    levels[0] ^= 1, builds_none(&made, words, BITM_WRONG), levels[0] ^= 1;
    built(&made, &words);
}

/* Lengths that no block has, and the most that one has. */
static void no_sizes(void)
{
    const size_t most = ((size_t)1 << 58) - 1;
    uint64_t *out;
    uint32_t status;
    for (size_t i = 0; i < 8; i++) {
        ANSWER(bitm_dictionary_size(i & 1 ? most + 1 : most, i & 2 ? 257 : 256, i & 4 ? most + 1 : most, out));
        MUST(status == (i ? BITM_BAD_SIZE : BITM_OK));
    }
    for (size_t i = 0; i < 4; i++) {
        ANSWER(bitm_hash_block_size(i & 1 ? SIZE_MAX : most, i & 2 ? SIZE_MAX : 256, out));
        MUST(status == (i ? BITM_BAD_SIZE : BITM_OK));
    }
    ANSWER(bitm_dictionary_size(2, 2, 12, out));
    MUST(status == BITM_OK && *out == 88); /* docs/FORMAT.md */
}

static void changed_blocks(void)
{
    static struct plain plain;
    uint64_t words;
    draw_keys(&plain, SMALL, 60);
    const struct bitm_dictionary made = parts_of(&plain, 9);
    uint64_t *const block = built(&made, &words);
    changed_bytes(&of_dictionary, block, words, 1);
    changed_bytes(&of_hash, block, words, 1);
    cut_off(&of_dictionary, block, words);
    cut_off(&of_hash, block, words);
}

/* Random words after a right header, and random words alone. */
static void random_blocks(void)
{
    static struct plain plain;
    struct bitm_dictionary dictionary;
    struct opened_hash hash;
    for (size_t turn = 0; turn < 400; turn++) {
        uint64_t words;
        draw_keys(&plain, 1 + draw() % 300, 40);
        const struct bitm_dictionary made = parts_of(&plain, draw());
        uint64_t *const block = built(&made, &words);
        spoil(block, of_dictionary.head, words, turn);
        MUST(opens(&of_dictionary, block, words, &dictionary) && opens(&of_hash, block, words, &hash));
        answers_within(&dictionary);
        answers_within(&(struct bitm_dictionary){hash.hash, made.keys, made.keys_len, hash.seed, {0, 0}});
        if (bitm_dictionary_check(block, words) == BITM_OK) answers_as(&plain, &dictionary);
        draw_words(block, words);
        MUST(refuses(&of_dictionary, block, words) && refuses(&of_hash, block, words));
    }
}

/* Structs whose lengths are not right, or whose parts are not those of a dictionary. */
static void other_structs(void)
{
    static struct plain plain;
    const uint64_t asked = 1;
    uint64_t *out;
    uint32_t status;
    draw_keys(&plain, 200, 50);
    const struct bitm_dictionary made = parts_of(&plain, 5);
    struct bitm_list_counts *const counts = counts_at_the_guard();
    for (size_t i = 0; i < 8; i++) {
        struct bitm_dictionary bad = made;
        if (i == 0) bad.keys_len--;
        if (i == 1) bad.hash.keys++;
        if (i == 2) bad.hash.sizes_len = 257;
        if (i == 3) bad.hash.index.words_len = (size_t)1 << 58;
        if (i == 4) bad.hash.index.words_len += 64;
        if (i == 5) bad.hash.index.upper_len = 0;
        if (i == 6) bad.hash.index.lower_len++;
        if (i == 7) bad.hash.index.lower_len = 0;
        MUST(bitm_dictionary_fault(&bad) != NULL);
        ANSWER(bitm_dictionary_find(&bad, 1, out));
        MUST(status == BITM_BAD_SIZE);
        MUST(bitm_dictionary_find_list(&bad, &asked, 1, out, 1, counts) == BITM_BAD_SIZE && *out == UNTOUCHED);
        MUST(counts->missing == UNTOUCHED && counts->wrong == UNTOUCHED);
        builds_none(&bad, 400, BITM_BAD_SIZE);
    }
    uint64_t *sizes = (uint64_t *)made.hash.sizes;
    sizes[0] = 0;
    ANSWER(bitm_dictionary_find(&made, plain.keys[0], out));
    MUST(status == BITM_WRONG);
    MUST(bitm_dictionary_find_list(&made, plain.keys, 1, out, 1, counts) == BITM_OK && *out == BITM_WRONG_TABLES);
    MUST(counts->wrong == 1);
}

static void tests(void)
{
    drawn_keys();
    no_dictionary();
    no_sizes();
    changed_blocks();
    random_blocks();
    other_structs();
}

int main(int argc, char **argv)
{
    take_seed(argc, argv);
    on_either_side(8 * (KEYS + ROOM), tests);
    printf("dictionaries: blocks answer as a list of keys, each changed byte and each prefix is refused, and a key stands "
           "at the number that is found in any words\n");
    return 0;
}
