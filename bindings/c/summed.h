/* The checksum of words by docs/FORMAT.md, for tests that write blocks themselves. */
#ifndef SUMMED_H
#define SUMMED_H

#include <stddef.h>
#include <stdint.h>

/* A chain with one more word. */
static inline uint64_t mixed(uint64_t h, uint64_t word)
{
    h = (h ^ word) * 0x9e3779b97f4a7c15u;
    return h ^ h >> 32;
}

/* Of version 4: each of four chains takes one of every four words, and the first what is left over. */
static inline uint64_t checksum(const uint64_t *words, size_t len)
{
    uint64_t chains[4] = {len, 1, 2, 3};
    for (size_t i = 0; i < len; i++) {
        uint64_t *const chain = chains + (i < len / 4 * 4 ? i % 4 : 0);
        *chain = mixed(*chain, words[i]);
    }
    return mixed(mixed(mixed(chains[0], chains[1]), chains[2]), chains[3]);
}

#endif
