/* Hashes of strings: those that Rust's standard library gives, lists that are none, and strings that collide by FNV-1a
 * under each seed. All is beside pages that may not be touched (places.h). */
#define _DEFAULT_SOURCE
#include "plain_strings.h"

/* `core::hash::SipHasher13::new_with_keys(seed, 0)` of Rust 1.95, of the first `len` of the bytes 0, 1, 2, .. modulo
 * 256; with the seed 0 it is std's `DefaultHasher`. */
static void hashes_of_rust(void)
{
    static const struct {
        uint64_t seed, len, hash;
    } known[] = {{0, 0, 0xd1fba762150c532c},
                 {1, 0, 0xc44a0ebf4e962581},
                 {0x0706050403020100, 1, 0x5bb2c195fe70a449},
                 {0x0706050403020100, 7, 0x3dd20bc6123b60e0},
                 {0x0706050403020100, 8, 0x5124317f8cfc24cb},
                 {0x0706050403020100, 9, 0x9d1f9dbb9125d122},
                 {0x0706050403020100, 17, 0xf0f41b97a64c8426},
                 {0x0706050403020100, 300, 0xa2fa13b0e57d2054}};
    uint8_t bytes[300];
    uint64_t *out;
    uint32_t status;
    for (size_t i = 0; i < sizeof bytes; i++) bytes[i] = (uint8_t)i;
    for (size_t i = 0; i < sizeof known / sizeof *known; i++) {
        ANSWER(bitm_strings_hash(bytes_placed(OF_BYTES, bytes, known[i].len), known[i].len, known[i].seed, out));
        MUST(status == BITM_OK && *out == known[i].hash);
    }
}

static void lists_that_are_none(void)
{
    uint64_t one = UNTOUCHED;
    const uint64_t ends[2] = {2, 1};
    MUST(bitm_strings_hashes((const uint8_t *)"ab", 2, ends, 1, 0, &one, 1) == BITM_OK && one != UNTOUCHED);
    one = UNTOUCHED;
    MUST(bitm_strings_hashes((const uint8_t *)"ab", 2, ends, 2, 0, &one, 1) == BITM_BAD_SIZE);
    MUST(bitm_strings_hashes((const uint8_t *)"ab", 1, ends, 1, 0, &one, 1) == BITM_BAD_SIZE);
    MUST(bitm_strings_hashes((const uint8_t *)"ab", 2, NULL, 0, 0, NULL, 0) == BITM_BAD_SIZE && one == UNTOUCHED);
    MUST(bitm_strings_hashes(NULL, 0, NULL, 0, 0, NULL, 0) == BITM_OK);
}

static int by_number(const void *a, const void *b)
{
    const uint64_t x = *(const uint64_t *)a, y = *(const uint64_t *)b;
    return (x > y) - (x < y);
}

/* 512 strings, two for each first byte. By FNV-1a that begins with its basis xor a seed, whatever the seed is, one pair
 * has one hash: which one depends on the seed's lowest byte alone. */
static void strings_that_no_seed_of_fnv_tells_apart(void)
{
    enum { TAIL = 25, LEN = TAIL + 1, COUNT = 512 };
    static const uint8_t tails[2][TAIL + 1] = {
        "\xdc\x24\x83\xa9\x7c\x04\x1a\x4e\xa4\x5c\xf8\x48\xb1\x43\x91\xe3\x8c\x94\x92\x36\x48\x98\x35\xff\x90",
        "\x2a\xde\x2d\xc7\x2b\x21\x69\x4b\xf6\x82\xce\xea\xb7\x15\x0d\x67\xc2\x26\x94\xcc\xdf\x0d\x0e\xaa\x90"};
    uint8_t bytes[COUNT * LEN];
    uint64_t ends[COUNT], hashes[COUNT];
    for (size_t i = 0; i < COUNT; i++) {
        bytes[i * LEN] = (uint8_t)(i / 2), ends[i] = (i + 1) * LEN;
        memcpy(bytes + i * LEN + 1, tails[i % 2], TAIL);
    }
    for (uint64_t turn = 0; turn < 1000; turn++) {
        MUST(bitm_strings_hashes(bytes, sizeof bytes, ends, COUNT, turn < 256 ? turn : draw(), hashes, COUNT) ==
             BITM_OK);
        qsort(hashes, COUNT, sizeof *hashes, by_number);
        for (size_t i = 1; i < COUNT; i++) MUST(hashes[i - 1] != hashes[i]);
    }
}

static void tests(void)
{
    hashes_of_rust();
    lists_that_are_none();
    strings_that_no_seed_of_fnv_tells_apart();
}

int main(int argc, char **argv)
{
    take_seed(argc, argv);
    on_either_side(BYTES, tests);
    puts("hashes of strings: those of Rust's SipHash-1-3, and a seed tells apart what FNV-1a does not");
    return 0;
}
