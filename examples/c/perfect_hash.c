/* Perfect hash: values by key in an array without gaps, with no key kept. */
#include <bitm.h>
#include <inttypes.h>
#include <stdio.h>

enum { KEYS = 5, ROOM = 256 }; /* room for the words of all levels */

static uint64_t hash_of(const char *key) /* FNV-1a; any good 64-bit hash will do */
{
    uint64_t hash = 14695981039346656037u;
    for (; *key; key++) hash = (hash ^ (unsigned char)*key) * 1099511628211u;
    return hash;
}

int main(void)
{
    const char *const keys[KEYS] = {"zero", "one", "two", "three", "four"};
    uint64_t hashes[KEYS], words[ROOM], again[ROOM], sizes[256], upper[1], lower[ROOM / 32];
    uint64_t levels, used, left, ones, number, values[KEYS];
    for (int i = 0; i < KEYS; i++) hashes[i] = hash_of(keys[i]);
    if (bitm_hash_build(hashes, KEYS, 100, words, ROOM, again, ROOM, sizes, 256, &levels, &used, &left) != BITM_OK ||
        left > 0) return 1;
    const size_t lowers = bitm_index_lower_len(used);
    if (bitm_index_build(words, used, upper, 1, lower, lowers, &ones) != BITM_OK) return 1;
    const struct bitm_hash hash = {.index = {.words = words, .words_len = used, .upper = upper, .upper_len = 1,
                                             .lower = lower, .lower_len = lowers, .bits_len = 64 * used},
                                   .sizes = sizes, .sizes_len = levels, .keys = KEYS};
    for (uint64_t i = 0; i < KEYS; i++)
        if (bitm_hash_get(&hash, hash_of(keys[i]), &number) == BITM_OK) values[number] = i;
    if (bitm_hash_get(&hash, hash_of("three"), &number) == BITM_OK) printf("three: %" PRIu64 "\n", values[number]);
    if (bitm_hash_get(&hash, hash_of("one"), &number) == BITM_OK) printf("one: %" PRIu64 "\n", values[number]);
    return 0;
}
