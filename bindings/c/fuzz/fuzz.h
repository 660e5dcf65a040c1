/* What the fuzzers share: numbers that are taken from the input, arrays that end where a page begins that may not be
 * touched, and counters by which libFuzzer sees what the archive answers, in which it cannot see the code.
 *     clang -g -O1 -fsanitize=fuzzer,address,undefined bindings/c/fuzz/index.c ARCHIVE -o index
 *     ./index -max_total_time=60 -max_len=4096 NEW_FOLDER bindings/c/fuzz/corpus/index */
#ifndef FUZZ_H
#define FUZZ_H

#define _GNU_SOURCE

#include "../guard.h"

#include <string.h>

/* The input from here to its end. */
struct input {
    const uint8_t *at;
    size_t left;
};

static inline void take_bytes(struct input *from, void *to, size_t bytes)
{
    const size_t got = bytes < from->left ? bytes : from->left;
    memset(to, 0, bytes);
    if (got > 0) memcpy(to, from->at, got);
    from->at += got, from->left -= got;
}

/* The next bytes as a number, 0 where the input has ended. */
static inline uint64_t take(struct input *from, size_t bytes)
{
    uint64_t number;
    uint8_t got[sizeof number] = {0};
    take_bytes(from, got, bytes);
    memcpy(&number, got, sizeof number);
    return number;
}

static inline uint64_t take_below(struct input *from, uint64_t end)
{
    const uint64_t number = take(from, end > 256 ? 2 : 1);
    return end ? number % end : 0;
}

/* Any number: small ones, those near a limit, powers of two, and all the rest. */
static inline uint64_t take_number(struct input *from, uint64_t limit)
{
    const uint64_t how = take(from, 1);
    if (how < 96) return take(from, 1);
    if (how < 160) return limit + take(from, 1) - 128;
    if (how < 192) return ((uint64_t)1 << how % 64) - take(from, 1) % 2;
    return how < 224 ? take_below(from, limit) : take(from, 8);
}

/* Each array has a block of its own, which is mapped once. */
enum { ROOM = 1 << 16, ARRAYS = 10 };
static struct guarded blocks[ARRAYS];

static inline void *array(unsigned which, size_t bytes)
{
    if (!blocks[which].page) blocks[which] = guard(ROOM);
    return ends_at_the_guard(&blocks[which], bytes);
}

static inline uint64_t *numbers_of(unsigned which, size_t len) { return array(which, 8 * len); }

/* Changes items of a list, as long as the input says so. */
static inline void spoil(struct input *from, uint64_t *items, size_t len)
{
    for (uint64_t changes = take(from, 1) % 8; changes > 0 && len > 0; changes--) {
        const uint64_t at = take_below(from, len), how = take(from, 1);
        items[at] = how < 64 ? items[at] + how - 32 : how < 128 ? items[at] ^ (uint64_t)1 << how % 64 : take(from, 8);
    }
}

/* What an answer was: a counter for each call, status and binary digits of the answer. */
__attribute__((section("__libfuzzer_extra_counters"))) static uint8_t answers[1 << 14];
static inline void answered(unsigned call, uint32_t status, uint64_t out)
{
    unsigned digits = 0;
    for (; status == BITM_OK && out; out >>= 1) digits++;
    answers[(call * 8 + status) * 65 % (1 << 14) + digits]++;
}

#endif
