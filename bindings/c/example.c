/* An index over an array, with the header as it is installed. */
#include <bitm.h>

#include <stdio.h>
#include <stdlib.h>

int main(void)
{
    const uint64_t words[40] = {[1] = (uint64_t)1 << 36, [39] = 1}; /* 1 bits at positions 100 and 2496 */
    size_t upper_len = bitm_index_upper_len(40), lower_len = bitm_index_lower_len(40);
    uint64_t *upper = malloc(8 * upper_len), *lower = malloc(8 * lower_len), ones, rank, position;
    if (!upper || !lower)
        return 1;
    if (bitm_index_build(words, 40, upper, upper_len, lower, lower_len, &ones) != BITM_OK)
        return 1;
    struct bitm_index index = {.words = words, .words_len = 40, .upper = upper, .upper_len = upper_len,
                               .lower = lower, .lower_len = lower_len, .bits_len = 64 * 40};
    if (bitm_index_rank(&index, true, 101, &rank) != BITM_OK ||
        bitm_index_select(&index, true, 1, &position) != BITM_OK)
        return 1;
    printf("%llu bits are 1, %llu of them before position 101, the second at %llu\n", (unsigned long long)ones,
           (unsigned long long)rank, (unsigned long long)position);
    free(upper);
    free(lower);
    return ones == 2 && rank == 1 && position == 2496 ? 0 : 1;
}
