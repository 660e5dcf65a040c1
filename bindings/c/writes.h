/* Reads and writes of bits, fragments and ends, against a loop over all bits: no other bit is changed. And numbers and
 * bytes computed by hand. */
#ifndef WRITES_H
#define WRITES_H

#include "leaves.h"

/* Bytes that are written by hand. */
static void bytes_by_hand(void)
{
    uint8_t bytes[10] = {0};
    MUST(bitm_bytes_init57(bytes, 10, 11, 0x1FF) == BITM_OK && bytes[1] == 0xF8 && bytes[2] == 0x0F && bytes[3] == 0);
    MUST(bitm_bytes_init25(bytes, 10, 11, 0x1FF) == BITM_OK && bytes[1] == 0xF8 && bytes[2] == 0x0F && bytes[3] == 0);
    MUST(bitm_bytes_set57(bytes, 10, 12, 1, 0x0F) == BITM_OK && bytes[1] == 0x18 && bytes[2] == 0x0F);
    MUST(bitm_bytes_set25(bytes, 10, 16, 0x102, 0xFFF) == BITM_OK && bytes[1] == 0x18 && bytes[2] == 2 &&
         bytes[3] == 1);
    for (int i = 4; i < 10; i++) MUST(bytes[i] == 0);
}

/* Widths, lengths and words, by hand. */
static void numbers_by_hand(void)
{
    uint64_t got;
    MUST(bitm_bits_words_len(0) == 0 && bitm_bits_words_len(1) == 1 && bitm_bits_words_len(64) == 1);
    MUST(bitm_bits_words_len(65) == 2 && bitm_bits_words_len(UINT64_MAX) == (size_t)1 << 58);
    MUST(bitm_bits_to_store(0) == 0 && bitm_bits_to_store(1) == 1 && bitm_bits_to_store(255) == 8);
    MUST(bitm_bits_to_store(256) == 9 && bitm_bits_to_store(UINT64_MAX) == 64);
    MUST(bitm_bits_select_in_word(0x8000000000000005, 0, &got) == BITM_OK && got == 0);
    MUST(bitm_bits_select_in_word(0x8000000000000005, 1, &got) == BITM_OK && got == 2);
    MUST(bitm_bits_select_in_word(0x8000000000000005, 2, &got) == BITM_OK && got == 63);
    MUST(bitm_optimal_log2(50, 100, 13) == 12 && bitm_optimal_log2(75, 100, 13) == 13);
    MUST(bitm_optimal_log2(1, 100, 13) == 7 && bitm_optimal_log2(0, 100, 13) == 7);
    MUST(bitm_index_upper_len(0) == 0 && bitm_index_upper_len(1) == 1 &&
         bitm_index_upper_len(((size_t)1 << 26) + 1) == 2);
    MUST(bitm_index_lower_len(0) == 0 && bitm_index_lower_len(32) == 1 && bitm_index_lower_len(33) == 2);
    MUST(bitm_index_samples_len(70, 0) == 35 && bitm_index_samples_len(70, 8) == 18);
    MUST(bitm_index_samples_len(70, UINT32_MAX) == 1);
    MUST(bitm_hash_level_len(0, 100) == 1 && bitm_hash_level_len(640, 100) == 11 && bitm_hash_level_len(640, 0) == 6);
}

/* Whether the words are those before, but for the len bits from begin on: these are of the value. */
static void others_are_kept(const uint64_t *before, uint64_t begin, uint64_t len, uint64_t value)
{
    for (uint64_t i = 0; i < 64 * WORDS; i++) {
        bool inside = i >= begin && i - begin < len;
        MUST(bit_of(words, i) == (inside ? i - begin < 64 ? value >> (i - begin) & 1 : 0 : bit_of(before, i)));
    }
}

/* The number that the len bits from begin on spell, by a loop. */
static uint64_t spelled(uint64_t begin, uint32_t len)
{
    uint64_t value = 0;
    for (uint32_t i = 0; i < len; i++) value |= bit_of(words, begin + i) << i;
    return value;
}

/* A bit, bits and a fragment of the words, as the loop reads them. */
static void reads_are_right(uint64_t at, uint32_t len)
{
    uint64_t got;
    MUST(bitm_bits_get(words, WORDS, 64 * WORDS, at, &got) == BITM_OK && got == bit_of(words, at));
    at %= 64 * WORDS - 63;
    MUST(bitm_bits_get_number(words, WORDS, 64 * WORDS, at, len, &got) == BITM_OK && got == spelled(at, len));
    at %= len ? 64 * WORDS / len : 1;
    MUST(bitm_bits_get_fragment(words, WORDS, 64 * WORDS, at, len, &got) == BITM_OK && got == spelled(at * len, len));
}

static void bits_and_nothing_else(void)
{
    uint64_t before[WORDS];
    const uint64_t bits = 64 * WORDS;
    for (uint64_t turn = 0; turn < 3000; turn++) {
        for (size_t i = 0; i < WORDS; i++) words[i] = draw();
        memcpy(before, words, sizeof words);
        uint64_t value = draw(), at = turn < bits ? turn : draw() % bits;
        uint32_t len = (uint32_t)(draw() % 65);
        reads_are_right(at, len);
        switch (turn % 7) {
        case 0:
            MUST(bitm_bits_set(words, WORDS, 64 * WORDS, at, value & 1) == BITM_OK);
            others_are_kept(before, at, 1, value);
            break;
        case 1:
            at %= bits - 63;
            MUST(bitm_bits_set_number(words, WORDS, 64 * WORDS, at, len, value) == BITM_OK);
            others_are_kept(before, at, len, value);
            break;
        case 2:
            at %= len ? bits / len : 1;
            MUST(bitm_bits_set_fragment(words, WORDS, 64 * WORDS, at, len, value) == BITM_OK);
            others_are_kept(before, at * len, len, value);
            break;
        case 3: {
            at %= bits - 63;
            const uint64_t mask = len < 64 ? ((uint64_t)1 << len) - 1 : UINT64_MAX, was = spelled(at, len);
            MUST(bitm_bits_xor_number(words, WORDS, 64 * WORDS, at, len, value) == BITM_OK);
            others_are_kept(before, at, len, was ^ (value & mask));
            break;
        }
        case 4: {
            const uint64_t most = len ? bits / len : 9, i = draw() % most, k = draw() % most;
            MUST(bitm_bits_swap_fragments(words, WORDS, 64 * WORDS, i, k, len) == BITM_OK);
            for (uint64_t p = 0; p < bits; p++) {
                const uint64_t of = len == 0 ? bits : p / len, from = of == i   ? p + len * (k - i)
                                                                      : of == k ? p + len * (i - k)
                                                                                : p;
                MUST(bit_of(words, p) == bit_of(before, from));
            }
            break;
        }
        case 5: {
            const uint64_t count = draw() % (len ? bits / len + 1 : 9);
            MUST(bitm_bits_fill_fragments(words, WORDS, 64 * WORDS, len, value, count) == BITM_OK);
            for (uint64_t p = 0; p < bits; p++)
                MUST(bit_of(words, p) == (p < len * count ? value >> p % len & 1 : bit_of(before, p)));
            break;
        }
        default:
            at = turn % 8 == 7 ? at / 64 * 64 : at;
            MUST(bitm_bits_clear_from(words, WORDS, at) == BITM_OK);
            others_are_kept(before, at, bits, 0);
        }
    }
    memcpy(before, words, sizeof words);
    MUST(bitm_bits_clear_from(words, WORDS, bits) == BITM_OK &&
         bitm_bits_clear_from(words, WORDS, SIZE_MAX) == BITM_OK);
    MUST(bitm_bits_clear_from(NULL, 0, 0) == BITM_OK);
    MUST(bitm_bits_set(words, WORDS, 64 * WORDS, bits, true) == BITM_NONE);
    MUST(bitm_bits_set(words, WORDS, 64 * WORDS, SIZE_MAX, true) == BITM_NONE);
    MUST(bitm_bits_set_number(words, WORDS, 64 * WORDS, bits - 3, 4, 9) == BITM_NONE);
    MUST(bitm_bits_set_number(words, WORDS, 64 * WORDS, 0, 65, 9) == BITM_NONE);
    MUST(bitm_bits_set_fragment(words, WORDS, 64 * WORDS, bits / 7, 7, 9) == BITM_NONE);
    MUST(bitm_bits_set_fragment(words, WORDS, 64 * WORDS, 0, 65, 9) == BITM_NONE &&
         memcmp(words, before, sizeof words) == 0);
}

#endif
