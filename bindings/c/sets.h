/* Bits at lists of positions, and pairs of bit vectors, of every length from 0 to 200 bits, against loops over all bits.
 * Words and positions end at a page that may not be touched. */
#ifndef SETS_H
#define SETS_H

#include "guard.h"

#include <string.h>

enum { SET_BITS = 200, SET_WORDS = SET_BITS / 64 + 2 };

static struct guarded first_of, second_of, positions_of;

/* Words at a guard, of bits that were drawn with one of three shares of 1 bits. */
static inline uint64_t *drawn_words(const struct guarded *block, size_t words_len)
{
    uint64_t *const words = ends_at_the_guard(block, 8 * words_len);
    const unsigned share = (unsigned)(draw() % 4);
    for (size_t i = 0; i < words_len; i++)
        words[i] = share == 0 ? draw() : share == 1 ? draw() & draw() & draw() & draw() : share == 2 ? 0 : UINT64_MAX;
    return words;
}

/* A position before the end, at it, far past it, or of a word behind the last. */
static inline uint64_t drawn_position(uint64_t bits_len)
{
    switch (draw() % 8) {
    case 0: return bits_len + draw() % 70;
    case 1: return draw();
    case 2: return UINT64_MAX - draw() % 2;
    default: return bits_len ? draw() % bits_len : 0;
    }
}

/* A list of which some positions stand twice: each bit as a loop over the list says, and no other bit changed. */
static inline void set_a_list(uint64_t bits_len, size_t words_len, size_t count, bool value)
{
    uint64_t *const words = drawn_words(&first_of, words_len), before[SET_WORDS], outside = UNTOUCHED, past = 0;
    uint64_t *const positions = ends_at_the_guard(&positions_of, 8 * count);
    for (size_t k = 0; k < count; k++)
        positions[k] = k && draw() % 4 == 0 ? positions[draw() % k] : drawn_position(bits_len);
    for (size_t k = 0; k < count; k++) past += positions[k] >= bits_len;
    memcpy(before, words, 8 * words_len);
    MUST(bitm_bits_set_list(words, words_len, 64 * (uint64_t)words_len + 1, positions, count, value, &outside) ==
         BITM_BAD_SIZE);
    MUST(outside == UNTOUCHED && memcmp(words, before, 8 * words_len) == 0);
    MUST(bitm_bits_set_list(words, words_len, bits_len, positions, count, value, &outside) == BITM_OK);
    MUST(outside == past);
    for (uint64_t i = 0; i < 64 * (uint64_t)words_len; i++) {
        bool listed = false;
        for (size_t k = 0; k < count; k++) listed |= positions[k] == i && i < bits_len;
        MUST(bit_of(words, i) == (listed ? value : bit_of(before, i)));
    }
}

/* Whether two bit vectors meet, and whether one is in the other, as a loop over the first bits_len bits says. */
static inline void compare_sets(const uint64_t *a, const uint64_t *b, size_t words_len, uint64_t bits_len)
{
    uint64_t meet = 0, subset = 1, got = UNTOUCHED;
    for (uint64_t i = 0; i < bits_len; i++) {
        meet |= bit_of(a, i) & bit_of(b, i);
        subset &= (1 - bit_of(a, i)) | bit_of(b, i);
    }
    MUST(bitm_bits_intersects(a, words_len, b, words_len, 64 * (uint64_t)words_len + 1, &got) == BITM_BAD_SIZE);
    MUST(bitm_bits_is_subset(a, words_len, b, words_len, UINT64_MAX, &got) == BITM_BAD_SIZE && got == UNTOUCHED);
    if (bits_len > 0) {
        const size_t fewer = (bits_len - 1) / 64;
        MUST(bitm_bits_intersects(a, words_len, b, fewer, bits_len, &got) == BITM_BAD_SIZE);
        MUST(bitm_bits_is_subset(a, fewer, b, words_len, bits_len, &got) == BITM_BAD_SIZE && got == UNTOUCHED);
    }
    MUST(bitm_bits_intersects(a, words_len, b, words_len, bits_len, &got) == BITM_OK && got == meet);
    MUST(bitm_bits_is_subset(a, words_len, b, words_len, bits_len, &got) == BITM_OK && got == subset);
}

/* Two bit vectors that were drawn; one with itself; and two that meet, or do not, in one bit alone. */
static inline void compare_drawn(uint64_t bits_len, size_t words_len)
{
    uint64_t *const a = drawn_words(&first_of, words_len), *const b = drawn_words(&second_of, words_len);
    compare_sets(a, b, words_len, bits_len);
    compare_sets(a, a, words_len, bits_len);
    for (size_t i = 0; i < words_len; i++) b[i] &= a[i];
    compare_sets(b, a, words_len, bits_len);
    for (uint64_t i = 0; i < 64 * (uint64_t)words_len; i++) {
        for (size_t k = 0; k < words_len; k++) a[k] = draw(), b[k] = ~a[k];
        b[i / 64] ^= (uint64_t)1 << i % 64;
        compare_sets(a, b, words_len, bits_len);
    }
}

static inline void sets(void)
{
    first_of = guard(8 * SET_WORDS), second_of = guard(8 * SET_WORDS), positions_of = guard(1 << 10);
    for (uint64_t bits_len = 0; bits_len <= SET_BITS; bits_len++)
        for (size_t more = 0; more < 2; more++) {
            const size_t words_len = bitm_bits_words_len(bits_len) + more;
            for (unsigned turn = 0; turn < 20; turn++) set_a_list(bits_len, words_len, draw() % 40, turn % 2);
            set_a_list(bits_len, words_len, 0, true);
            compare_drawn(bits_len, words_len);
        }
    uint64_t got = UNTOUCHED, bit = 1;
    MUST(bitm_bits_set_list(NULL, 0, 0, NULL, 0, true, &got) == BITM_OK && got == 0);
    MUST(bitm_bits_set_list(&bit, 1, 64, NULL, 0, false, &got) == BITM_OK && got == 0 && bit == 1);
    MUST(bitm_bits_intersects(NULL, 0, NULL, 0, 0, &got) == BITM_OK && got == 0);
    MUST(bitm_bits_is_subset(NULL, 0, NULL, 0, 0, &got) == BITM_OK && got == 1);
}

#endif
