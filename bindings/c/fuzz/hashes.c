/* Perfect hashes of keys of the input, and over words, tables, sizes and keys that are spoilt. */
#include "queries.h"

enum { KEYS = 200, SIZES = 256 };

static uint64_t keys[KEYS], moved[KEYS], numbers[KEYS], used[KEYS];

/* Each number is one of its own below the number of keys. */
static void distinct(const struct bitm_hash *hash)
{
    memset(used, 0, sizeof used);
    for (size_t i = 0; i < hash->keys; i++) {
        uint64_t number;
        MUST(bitm_hash_get(hash, keys[i], &number) == BITM_OK && number < hash->keys && !used[number]);
        used[number] = 1;
    }
}

/* Any hash of anything: a number below the keys, and in a list the same. */
static void query(const struct bitm_hash *hash, size_t count)
{
    struct bitm_list_counts counts = no_counts;
    uint32_t status = bitm_hash_get_list(hash, keys, count, numbers, count, &counts);
    MUST((status == BITM_BAD_SIZE) == (bitm_hash_fault(hash) != NULL));
    status = counted(status, numbers, count, counts);
    for (size_t i = 0; i < count; i++) {
        uint64_t number = UNTOUCHED;
        const uint32_t single = bitm_hash_get(hash, keys[i], &number);
        answered(30, single, number);
        MUST(single == BITM_OK ? number < hash->keys : number == UNTOUCHED);
        MUST((single == BITM_BAD_SIZE) == (status == BITM_BAD_SIZE));
        if (status == BITM_OK)
            MUST(numbers[i] == (single == BITM_OK ? number : single == BITM_NONE ? BITM_NO_ANSWER : BITM_WRONG_TABLES));
    }
}

int LLVMFuzzerTestOneInput(const uint8_t *data, size_t size)
{
    struct input from = {data, size};
    const size_t count = take_below(&from, KEYS);
    const uint32_t percent = (uint32_t)take_number(&from, 100);
    const size_t first = bitm_hash_level_len(count, percent % 400), room = first * (1 + take(&from, 1) % 8) + take(&from, 1);
    const size_t sizes_len = take(&from, 1) % 4 ? SIZES : take_below(&from, SIZES);
    uint64_t state = take(&from, 8), levels = 0, used_words = 0, left = 0, ones;
    for (size_t i = 0; i < count; i++) keys[i] = state = state * 6364136223846793005u + 1442695040888963407u;
    spoil(&from, keys, count); /* equal ones, too */
    memcpy(moved, keys, sizeof keys);
    uint64_t *const words = numbers_of(0, room), *const again = numbers_of(1, first), *const sizes = numbers_of(2, sizes_len);
    MUST(bitm_hash_build(moved, count, percent % 400, words, room, again, first, sizes, sizes_len, &levels, &used_words,
                         &left) == BITM_OK);
    MUST(levels <= sizes_len && used_words <= room && left <= count);
    const size_t uppers = bitm_index_upper_len(used_words), lowers = bitm_index_lower_len(used_words);
    uint64_t *const at = numbers_of(3, used_words), *const upper = numbers_of(4, uppers), *const lower = numbers_of(5, lowers);
    if (used_words) memcpy(at, words, 8 * used_words);
    MUST(bitm_index_build(at, used_words, upper, uppers, lower, lowers, &ones) == BITM_OK && ones == count - left);
    struct bitm_hash hash = {.index = {.words = at, .words_len = used_words, .upper = upper, .upper_len = uppers,
                                       .lower = lower, .lower_len = lowers, .bits_len = 64 * used_words},
                             .sizes = sizes, .sizes_len = levels, .keys = count};
    if (left == 0) distinct(&hash);
    spoil(&from, at, used_words), spoil(&from, upper, uppers), spoil(&from, lower, lowers), spoil(&from, sizes, levels);
    if (take(&from, 1) % 4 == 3) hash.keys = take_number(&from, count);
    if (take(&from, 1) == 7) hash.index.lower_len++;
    query(&hash, count);
    return 0;
}
