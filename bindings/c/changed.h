/* Blocks that are not as they were built: with a changed byte, cut off, or with random words. */
#ifndef CHANGED_H
#define CHANGED_H

#include "places.h"

/* A kind of blocks: how many words the header and the directory have, at which opening looks; how large the struct is
 * that opening writes; the calls that check and open a block; and queries of what was opened, be it what it may. */
struct kind {
    size_t head, size;
    uint32_t (*check)(const uint64_t *block, size_t words);
    uint32_t (*open)(const uint64_t *block, size_t words, void *opened);
    void (*query)(const void *opened);
};

/* Whether a block is opened; where it is refused, the struct is as it was. */
static inline bool opens(const struct kind *kind, const uint64_t *block, size_t words, void *opened)
{
    const uint32_t status = kind->open(block, words, memset(opened, UNTOUCHED, kind->size));
    MUST(status == BITM_OK || (status == BITM_WRONG && is_untouched(opened, kind->size)));
    return status == BITM_OK;
}

/* The same, with queries of what is opened. */
static inline bool opens_to_queries(const struct kind *kind, const uint64_t *block, size_t words)
{
    void *const opened = malloc(kind->size);
    MUST(opened);
    const bool is_open = opens(kind, block, words, opened);
    if (is_open) kind->query(opened);
    free(opened);
    return is_open;
}

/* Whether neither opening nor the check takes a block. */
static inline bool refuses(const struct kind *kind, const uint64_t *block, size_t words)
{
    return !opens_to_queries(kind, block, words) && kind->check(block, words) == BITM_WRONG;
}

/* Each byte changed to others, one in `step` of the 255: the check refuses it, and opening does in the head. */
static inline void changed_bytes(const struct kind *kind, uint64_t *block, size_t words, unsigned step)
{
    unsigned char *const bytes = (unsigned char *)block;
    for (size_t at = 0; at < 8 * words; at++)
        for (unsigned change = 1; change < 256; change += step) {
            bytes[at] ^= (unsigned char)change;
            MUST(kind->check(block, words) == BITM_WRONG);
            MUST(opens_to_queries(kind, block, words) == (at >= 8 * kind->head));
            bytes[at] ^= (unsigned char)change;
        }
}

/* Each prefix of what is placed as the block, moved so that it ends or begins at the guard too. */
static inline void cut_off(const struct kind *kind, uint64_t *block, size_t words)
{
    uint64_t *const whole = malloc(8 * words);
    MUST(whole && block == placed(OF_BLOCK, 8 * words));
    memcpy(whole, block, 8 * words);
    for (size_t len = 0; len < words; len++) {
        const uint64_t *const prefix = memcpy(placed(OF_BLOCK, 8 * len), whole, 8 * len);
        MUST(refuses(kind, prefix, len));
    }
    memcpy(block, whole, 8 * words);
    MUST(!opens_to_queries(kind, block, SIZE_MAX) && kind->check(block, words) == BITM_OK);
    free(whole);
}

static inline void draw_words(uint64_t *words, size_t len)
{
    for (size_t i = 0; i < len; i++) words[i] = draw();
}

/* Random words after the head: from turn to turn more of them stay as they were, and of every other turn have few 1
 * bits. */
static inline void spoil(uint64_t *block, size_t head, size_t words, size_t turn)
{
    const uint64_t share = turn % 8;
    for (size_t at = head; at < words; at++)
        if (draw() % 8 >= share) block[at] = share % 2 ? draw() : draw() & draw() & draw();
}

#endif
