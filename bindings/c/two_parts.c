/* More than 2^33 bits, so that the upper table has three entries: a mapping of 0 bits but for a few 1 bits, whose
 * positions are the answers. Takes some seconds; run by hand (crates/bitm_c/README.md). */
#define _GNU_SOURCE
#include "common.h"
#include "sampled.h"

#include <sys/mman.h>

#define BLOCK ((uint64_t)1 << 32)

int main(void)
{
    const size_t words_len = ((size_t)1 << 27) + 77;
    const size_t upper_len = bitm_index_upper_len(words_len), lower_len = bitm_index_lower_len(words_len);
    const uint64_t bits = (uint64_t)words_len * 64;
    const uint64_t positions[] = {0, 5, 2047, 2048, 123456789, BLOCK - 1,
                               BLOCK, BLOCK + 2049, 2 * BLOCK - 1, 2 * BLOCK, bits - 1};
    const size_t ones = sizeof positions / sizeof *positions;
    const int flags = MAP_PRIVATE | MAP_ANONYMOUS | MAP_NORESERVE;
    uint64_t *words = mmap(NULL, 8 * words_len, PROT_READ | PROT_WRITE, flags, -1, 0);
    uint64_t *upper = malloc(8 * upper_len), *lower = malloc(8 * lower_len), got, found[20];
    MUST(words != MAP_FAILED && upper && lower && upper_len == 3);
    for (size_t i = 0; i < ones; i++)
        words[positions[i] / 64] |= (uint64_t)1 << positions[i] % 64;
    MUST(bitm_index_build(words, words_len, upper, upper_len, lower, lower_len, &got) == BITM_OK && got == ones);
    MUST(upper[0] == 0 && upper[1] == 6 && upper[2] == 9);
    struct bitm_index view = index_over(words, words_len, upper, upper_len, lower, lower_len);
    MUST(bitm_index_check(&view) == BITM_OK);
    for (size_t i = 0; i < ones; i++) {
        MUST(bitm_index_select(&view, true, i, &got) == BITM_OK && got == positions[i]);
        MUST(bitm_index_rank(&view, true, positions[i], &got) == BITM_OK && got == i);
        MUST(bitm_index_rank(&view, true, positions[i] + 1, &got) == BITM_OK && got == i + 1);
        uint64_t next = i + 1 < ones ? positions[i + 1] : bits;
        if (positions[i] + 1 < next) { /* the 0 bit after it, and the last one before the next */
            MUST(bitm_index_select(&view, false, positions[i] - i, &got) == BITM_OK && got == positions[i] + 1);
            MUST(bitm_index_select(&view, false, next - 1 - (i + 1), &got) == BITM_OK && got == next - 1);
        }
    }
    for (size_t i = 0; i < ones; i++) {
        uint64_t next = i + 1 < ones ? positions[i + 1] : bits;
        MUST(bitm_index_next(&view, true, positions[i], &got) == BITM_OK && got == positions[i]);
        MUST(bitm_index_previous(&view, true, next - 1, &got) == BITM_OK && got == positions[i]);
        MUST(i == 0 || (bitm_index_next(&view, true, positions[i - 1] + 1, &got) == BITM_OK && got == positions[i]));
    }
    MUST(bitm_index_select(&view, true, ones, &got) == BITM_NONE &&
         bitm_index_select(&view, false, bits - ones, &got) == BITM_NONE);
    /* one sample of 1 bits for each upper block, which has six, three and two of them, less than 2^7; of 0 bits one
     * for each 2^13, where 2^32 less six, or less three, is rounded up to 2^19 of them */
    struct bitm_samples of_ones = built_samples(&view, true, 7);
    struct bitm_samples of_zeros = built_samples(&view, false, 13);
    MUST(of_ones.samples_len == 3 && of_ones.starts[0] == 0 && of_ones.starts[1] == 1 && of_ones.starts[2] == 2);
    MUST(of_ones.samples[0] == 0 && of_ones.samples[1] == 0 && of_ones.samples[2] == 0);
    MUST(of_zeros.starts[0] == 0 && of_zeros.starts[1] == 524288 && of_zeros.starts[2] == 1048576);
    for (size_t i = 0; i < ones; i++) {
        MUST(sampled_select(&view, true, &of_ones, i, &got) == BITM_OK && got == positions[i]);
        uint64_t next = i + 1 < ones ? positions[i + 1] : bits;
        if (positions[i] + 1 < next) {
            MUST(sampled_select(&view, false, &of_zeros, positions[i] - i, &got) == BITM_OK && got == positions[i] + 1);
            MUST(sampled_select(&view, false, &of_zeros, next - 1 - (i + 1), &got) == BITM_OK && got == next - 1);
        }
    }
    MUST(sampled_select(&view, true, &of_ones, ones, &got) == BITM_NONE);
    MUST(sampled_select(&view, false, &of_zeros, bits - ones, &got) == BITM_NONE);
    MUST(bitm_bits_positions(words, words_len, 64 * words_len, true, 6, found, 20, &got) == BITM_OK && got == ones - 2);
    MUST(found[0] == 2047 && found[8] == bits - 1);
    /* spoilt upper entries: any answer is a position with the bit */
    for (int turn = 0; turn < 300; turn++) {
        upper[turn % 3] = turn % 4 == 0 ? UINT64_MAX : draw() >> turn % 60;
        for (uint64_t rank = 0; rank <= ones; rank++) {
            MUST(bitm_index_select(&view, true, rank, &got) != BITM_OK || (got < bits && bit_of(words, got)));
            MUST(bitm_index_select(&view, false, draw() % bits, &got) != BITM_OK ||
                 (got < bits && !bit_of(words, got)));
        }
    }
    MUST(bitm_index_check(&view) == BITM_WRONG);
    puts("C host of two upper blocks and more: all answers as computed by hand");
    return 0;
}
