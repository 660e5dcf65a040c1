/* Files: the value that one holds, which is read where it lies: a block, or parts in a file of version 2, which nothing
 * writes. */
#include "keys.h"

/* Whether a file is a block, by its first word (docs/FORMAT.md): of version 4, or of version 3, which is read alone. */
static int is_block(const uint64_t *file, size_t words)
{
    return words > 0 && (file[0] == 0x046261746d746962 || file[0] == 0x036261746d746962);
}

/* In version 2 a perfect hash is an index with these numbers after it: mark, keys, bits of a fingerprint, seed, number
 * of sizes, words of fingerprints; then the sizes and the fingerprints. */
enum { TAIL = 6 };

PyObject *not_whole(Memory *it)
{
    DROP(it);
    PyErr_SetString(PyExc_ValueError, "it is not a stored index, sequence, hash, dictionary, strings, tree, trie, "
                                      "matrix, text or sparse bits of this format, or not all of it");
    return NULL;
}

static PyObject *load_hash(Memory *it, const uint64_t *tail, size_t left)
{
    if (tail[4] > left - TAIL || tail[5] > left - TAIL - tail[4])
        return not_whole(it);
    it->mark = tail[0];
    it->seeded.hash.keys = tail[1];
    it->print_width = tail[2];
    it->seed = tail[3];
    it->seeded.hash.index = it->index;
    it->seeded.hash.sizes = tail + TAIL;
    it->seeded.hash.sizes_len = tail[4];
    it->prints = tail + TAIL + tail[4];
    it->prints_len = tail[5];
    return value_over(BORROWED(Hash_Type), it, hash_opened);
}

PyObject *stored_load(PyObject *module, PyObject *file)
{
    struct bitm_stored header;
    const void *at;
    size_t words;
    Memory *it = memory_new();
    (void)module;
    if (it == NULL || memory_items(it, file, 8, &at, &words)) {
        DROP(it);
        return NULL;
    }
    if (is_block(at, words)) {
        it->block = at;
        it->block_len = words;
        return value_in(it);
    }
    if (bitm_stored_read(at, words, &header) != BITM_OK)
        return not_whole(it);
    if (header.kind == BITM_STORED_SEQUENCE) {
        it->sequence = bitm_stored_sequence_of(at, &header);
        return value_over(BORROWED(Sequence_Type), it, sequence_opened);
    }
    it->index = bitm_stored_index_of(at, &header);
    it->log2s[0] = header.ones_log2;
    it->log2s[1] = header.zeros_log2;
    size_t used = (size_t)(header.size / 8);
    const uint64_t *tail = (const uint64_t *)at + used;
    if (words - used >= TAIL && (tail[0] == MARK_SIP || tail[0] == MARK_BLAKE))
        return load_hash(it, tail, words - used);
    return value_over(BORROWED(Index_Type), it, index_opened);
}
