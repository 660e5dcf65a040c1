/* A minimal perfect hash of hashes, as the blocks of a dictionary, of strings and of keys have one. */
#include "values.h"

int wanted_take(Wanted *it, PyObject *percent, PyObject *seed, PyObject *progress)
{
    uint64_t bits;
    if (number_or(seed, 0, "the seed", &it->seed) || number_or(percent, 100, "percent", &bits) ||
        progress_take(progress, &it->progress))
        return -1;
    it->percent = bits > UINT32_MAX ? UINT32_MAX : (uint32_t)bits;
    it->seeds = seed == NULL || seed == Py_None ? 2 : 1;
    return 0;
}

/* All levels together have some e^(100 / percent) times the words of the first, and each has one at least. */
int levels_room(Levels *it, size_t count, uint32_t percent, uint16_t tries, PyObject *progress)
{
    *it = (Levels){.count = count, .percent = percent, .tries = tries, .progress = progress};
    it->first = bitm_hash_level_len(count, percent);
    if (it->first > (size_t)PY_SSIZE_T_MAX / 128) {
        PyErr_NoMemory();
        return -1;
    }
    it->most = 8 * it->first + 2 * LEVELS;
    it->hashes = room_for(count);
    it->words = it->hashes == NULL ? NULL : room_for(it->most);
    it->again = it->words == NULL ? NULL : room_for(it->first);
    it->upper = it->again == NULL ? NULL : room_for(bitm_index_upper_len(it->most));
    it->lower = it->upper == NULL ? NULL : room_for(bitm_index_lower_len(it->most));
    if (it->lower == NULL || tries == 0)
        return it->lower == NULL ? -1 : 0;
    it->sorted = room_for(count);
    it->seeds = it->sorted == NULL ? NULL : (uint8_t *)room_for((it->most + 7) / 8);
    return it->seeds == NULL ? -1 : 0;
}

void levels_drop(Levels *it)
{
    uint64_t *all[] = {it->hashes, it->words, it->again, it->upper, it->lower, it->sorted};
    for (size_t i = 0; i < sizeof all / sizeof *all; i++)
        free(all[i]);
    free(it->seeds);
}

/* The words of all levels in one call, with seeds or without. Needs no GIL. */
static uint32_t words_at_once(Levels *it)
{
    if (it->tries == 0)
        return bitm_hash_build(it->hashes, it->count, it->percent, it->words, it->most, it->again, it->first, it->sizes,
                               LEVELS, &it->levels, &it->used, &it->left);
    return bitm_hash_build_seeded(it->hashes, it->count, it->percent, it->tries, it->words, it->most, it->seeds,
                                  it->most, it->again, it->first, it->sorted, it->count, it->sizes, LEVELS, &it->levels,
                                  &it->used, &it->left);
}

/* The next level, of `len` words, for the hashes that are left. Needs no GIL. */
static uint32_t level_built(Levels *it, size_t len)
{
    const uint32_t level = (uint32_t)it->levels++;
    uint64_t *words = it->words + it->used;
    uint8_t *seeds = it->seeds + (it->tries == 0 ? 0 : it->used);
    const size_t left = (size_t)it->left;
    it->sizes[level] = len;
    it->used += len;
    if (it->tries == 0)
        return bitm_hash_level(it->hashes, left, level, words, len, it->again, len, &it->left);
    return bitm_hash_level_seeded(it->hashes, left, level, it->tries, words, len, seeds, len, it->again, len,
                                  it->sorted, it->count, &it->left);
}

/* The same words level by level, with a call of progress after each. -1 and an error. */
static int words_by_levels(Levels *it, uint32_t *status)
{
    it->left = it->count;
    it->levels = it->used = 0;
    while (it->left > 0 && it->levels < LEVELS) {
        const size_t len = bitm_hash_level_len((size_t)it->left, it->percent);
        if (len > it->most - it->used)
            return 0;
        Py_BEGIN_ALLOW_THREADS
        *status = level_built(it, len);
        Py_END_ALLOW_THREADS
        if (*status != BITM_OK)
            return 0;
        if (progressed(it->progress, it->count - it->left, it->count))
            return -1;
    }
    return it->count == 0 ? progressed(it->progress, 0, 0) : 0;
}

/* The tables of the words. Needs no GIL. */
static uint32_t tables_built(Levels *it, struct bitm_hash *out)
{
    const size_t used = (size_t)it->used;
    uint64_t ones;
    *out = (struct bitm_hash){.index = {.words = it->words,
                                        .words_len = used,
                                        .upper = it->upper,
                                        .upper_len = bitm_index_upper_len(used),
                                        .lower = it->lower,
                                        .lower_len = bitm_index_lower_len(used),
                                        .bits_len = 64 * it->used},
                              .sizes = it->sizes,
                              .sizes_len = (size_t)it->levels,
                              .keys = it->count};
    return bitm_index_build(it->words, used, it->upper, out->index.upper_len, it->lower, out->index.lower_len, &ones);
}

int levels_built(Levels *it, struct bitm_hash *out)
{
    uint32_t status = BITM_OK;
    if (it->progress != NULL && words_by_levels(it, &status))
        return -1;
    Py_BEGIN_ALLOW_THREADS
    if (it->progress == NULL)
        status = words_at_once(it);
    if (status == BITM_OK && it->left == 0)
        status = tables_built(it, out);
    Py_END_ALLOW_THREADS
    if (status == BITM_OK)
        return it->left > 0;
    (void)wrong();
    return -1;
}

/* ---- equal hashes */

static int by_size(const void *one, const void *other)
{
    const uint64_t a = *(const uint64_t *)one, b = *(const uint64_t *)other;
    return (a > b) - (a < b);
}

/* Whether a hash stands twice among sorted ones. */
static int is_twice(const uint64_t *sorted, size_t count, uint64_t hash)
{
    size_t from = 0, stop = count;
    while (from < stop) { /* the first that is not below it */
        const size_t middle = from + (stop - from) / 2;
        if (sorted[middle] < hash)
            from = middle + 1;
        else
            stop = middle;
    }
    return from + 1 < count && sorted[from] == hash && sorted[from + 1] == hash;
}

int levels_twins(Levels *it, const uint64_t *hashes, size_t pair[2])
{
    const size_t left = (size_t)it->left;
    size_t one = 0, other;
    Py_BEGIN_ALLOW_THREADS
    qsort(it->hashes, left, 8, by_size);
    while (one < it->count && !is_twice(it->hashes, left, hashes[one]))
        one++;
    other = one + 1;
    while (other < it->count && hashes[other] != hashes[one])
        other++;
    Py_END_ALLOW_THREADS
    pair[0] = one;
    pair[1] = other;
    return other < it->count;
}
