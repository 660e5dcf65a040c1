/* The block of an index: what is saved. Samples are in sections after those of its kind (docs/FORMAT.md). */
#include "values.h"

enum { OF_THE_KIND = 3 };

/* The roles of the samples of 0 bits and of 1 bits, and of the sections directly after these, in which the first word
 * is the logarithm of their distance, and the others say for each upper block how many samples stand before it. */
static const struct {
    uint64_t samples, starts;
} ROLES[2] = {{8, 0x306174736d746962}, {7, 0x316174736d746962}};

/* ---- opened */

/* Takes the samples of a kind from their two sections, where these are there and as long as those of the index. */
static void samples_taken(Memory *it, int one)
{
    struct bitm_index *index = &it->index;
    struct bitm_section samples = {0}, starts = {0};
    size_t i = OF_THE_KIND;
    for (;; i++) {
        if (bitm_block_section(it->block, it->block_len, i, &samples) != BITM_OK ||
            bitm_block_section(it->block, it->block_len, i + 1, &starts) != BITM_OK)
            return;
        if (samples.role == ROLES[one].samples && starts.role == ROLES[one].starts)
            break;
    }
    const uint64_t log2 = starts.words_len == 0 ? 0 : starts.words[0];
    if (log2 < 7 || log2 > 31 || starts.count != 8 * ((uint64_t)index->upper_len + 1) ||
        samples.count > bitm_index_samples_len(index->words_len, (uint32_t)log2))
        return;
    *(one ? &index->ones : &index->zeros) = (struct bitm_samples){
        (const void *)samples.words, (size_t)samples.count, starts.words + 1, index->upper_len, (uint32_t)log2, 0};
    it->log2s[one ? 0 : 1] = log2;
}

int index_block_opened(Memory *it)
{
    if (block_opened(it, index_opened, bitm_index_block_open(it->block, it->block_len, &it->index) == BITM_OK))
        return -1;
    samples_taken(it, 1);
    samples_taken(it, 0);
    return 0;
}

/* ---- built */

/* Adds a section to the block, which is another then. -1 and an error. */
static int extended(Memory *it, uint64_t role, uint64_t count, const uint64_t *words, size_t words_len)
{
    uint64_t len, *made = NULL;
    uint32_t status = bitm_block_extended_size(it->block, it->block_len, role, count, &len);
    if (status == BITM_OK && len <= (uint64_t)PY_SSIZE_T_MAX / 8)
        made = aligned_new(8 * (size_t)len);
    if (made == NULL) {
        PyErr_NoMemory();
        return -1;
    }
    Py_BEGIN_ALLOW_THREADS
    status = bitm_block_extend(it->block, it->block_len, role, count, words, words_len, made, (size_t)len);
    Py_END_ALLOW_THREADS
    aligned_free(it->own[0]);
    it->own[0] = made;
    it->own_bytes = 8 * (size_t)len;
    it->block = made;
    it->block_len = (size_t)len;
    if (status != BITM_OK)
        (void)wrong();
    return status == BITM_OK ? 0 : -1;
}

/* Adds both sections of samples, in rooms for `most` samples and for the starts. -1 and an error. */
static int sampled_in(Memory *it, int one, uint32_t log2, uint64_t *samples, size_t most, uint64_t *starts)
{
    const size_t upper_len = it->index.upper_len;
    uint64_t used = 0;
    uint32_t status;
    memset(samples, 0, 4 * most + 4); /* up to the end of the last word */
    starts[0] = log2;
    Py_BEGIN_ALLOW_THREADS
    status = bitm_index_build_samples(&it->index, one, log2, (uint32_t *)(void *)samples, most, starts + 1, upper_len,
                                      &used);
    Py_END_ALLOW_THREADS
    if (status != BITM_OK) {
        (void)wrong();
        return -1;
    }
    if (extended(it, ROLES[one].samples, used, samples, (size_t)(used + 1) / 2) ||
        extended(it, ROLES[one].starts, 8 * ((uint64_t)upper_len + 1), starts, upper_len + 1))
        return -1;
    return index_block_opened(it);
}

static int sampled(Memory *it, int one, uint32_t log2)
{
    const size_t most = bitm_index_samples_len(it->index.words_len, log2);
    uint64_t *samples = room_for((uint64_t)most / 2 + 1), *starts = room_for((uint64_t)it->index.upper_len + 1);
    int status = samples == NULL || starts == NULL ? -1 : sampled_in(it, one, log2, samples, most, starts);
    free(samples);
    free(starts);
    return status;
}

/* Writes the block of an index without samples into memory of its own. -1 and an error. */
static int plain_built(Memory *it, const struct bitm_index *from)
{
    uint64_t len, *block;
    uint32_t status = bitm_index_block_size(from->bits_len, &len);
    if (status == BITM_OK && (block = block_room(it, len)) != NULL) {
        Py_BEGIN_ALLOW_THREADS
        status = bitm_index_block_build(from->words, from->words_len, from->bits_len, block, (size_t)len);
        Py_END_ALLOW_THREADS
    }
    if (PyErr_Occurred())
        return -1;
    if (status == BITM_OK)
        return index_block_opened(it);
    PyErr_SetString(PyExc_ValueError, "an index of that many bits cannot be stored");
    return -1;
}

Memory *index_in_block(Memory *from)
{
    const struct bitm_index *index = &from->index;
    const uint32_t log2s[2] = {index->zeros.log2, index->ones.log2};
    Memory *it = memory_new();
    int status = it == NULL ? -1 : plain_built(it, index);
    for (int one = 1; one >= 0 && status == 0; one--)
        if (log2s[one] != 0)
            status = sampled(it, one, log2s[one] < 7 ? 7 : log2s[one]);
    if (status)
        Py_CLEAR(it);
    return it;
}
