/* Keys of a perfect hash, and their hashes. */
#ifndef BITM_KEYS_H
#define BITM_KEYS_H

#include "values.h"

#define MARK_BLAKE 0x687361686d746962u /* "bitmhash": files of version 0.2.0, whose keys are hashed by BLAKE2b */
#define MARK_SIP 0x327361686d746962u   /* "bitmhas2": by SipHash-1-3 */

/* The kinds of keys, for bitm_key_hash: keys of different kinds may have the same bytes. */
enum { TEXT = 1, BYTES = 2, NUMBER = 3, LARGE_NUMBER = 4 };

/* The hash of the bytes of a key, and what its fingerprint is of. -1 and an error. */
static inline int bytes_hash(const char *at, size_t len, uint64_t seed, uint64_t kind, uint64_t out[2])
{
    if (LIKELY(bitm_key_hash((const uint8_t *)at, len, seed, kind, &out[0], &out[1]) == BITM_OK))
        return 0;
    (void)wrong();
    return -1;
}

/* Whether it can be a key; the hash and the fingerprint of a key, and those of each key of a list. */
int is_key(PyObject *key);
int key_hash(PyObject *key, uint64_t mark, uint64_t seed, uint64_t out[2]);
typedef struct {
    uint64_t *hashes, *prints;
    size_t count;
} Keys;
int keys_hash(Keys *it, PyObject *keys, uint64_t mark, uint64_t seed);
void keys_drop(Keys *it);

#endif
