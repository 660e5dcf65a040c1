/* Posting lists: which documents hold both of two words. Each list is a sequence; walks go on to each other's. */
#include <bitm.h>
#include <inttypes.h>
#include <stdio.h>

enum { ROOM = 8 }; /* words and table entries of each part: more than these lists need */

struct list {
    uint64_t low[ROOM], words[ROOM], upper[ROOM], lower[ROOM];
    struct bitm_sequence sequence;
};

static uint32_t build(struct list *to, const uint64_t *documents, size_t count)
{
    struct bitm_sequence_lens of;
    uint64_t width;
    if (bitm_sequence_sizes(count, documents[count - 1], &of) != BITM_OK || of.low_len > ROOM || of.words_len > ROOM)
        return BITM_BAD_SIZE;
    to->sequence = (struct bitm_sequence){count, of.width, to->low, of.low_len, to->words, of.words_len,
                                          to->upper, of.upper_len, to->lower, of.lower_len, NULL, 0};
    return bitm_sequence_build(documents, count, to->low, of.low_len, to->words, of.words_len, to->upper,
                               of.upper_len, to->lower, of.lower_len, &width);
}

int main(void)
{
    const uint64_t rank[] = {3, 17, 40, 99}, select[] = {1, 3, 8, 40, 41, 57, 80};
    struct list a, b;
    uint64_t x, y;
    if (build(&a, rank, 4) != BITM_OK || build(&b, select, 7) != BITM_OK) return 1;
    struct bitm_sequence_walk in_a = {.sequence = a.sequence}, in_b = {.sequence = b.sequence};
    uint32_t status = bitm_sequence_walk_from(&in_a, 0, &x) | bitm_sequence_walk_from(&in_b, 0, &y);
    printf("both words:");
    while (status == BITM_OK && bitm_sequence_walk_to(&in_b, x, &y) == BITM_OK) {
        if (x == y) printf(" %" PRIu64, x);
        status = x == y ? bitm_sequence_walk_next(&in_a, &x) : bitm_sequence_walk_to(&in_a, y, &x);
    }
    printf("\n");
    return 0;
}
