/* bitm.PerfectHash: how one is made, in one block, with seeds or without. */
#include "keys.h"

/* ---- opened */

/* Fills in what lies in the block of a hash: whether it has all. The section after those of the hash has the
 * fingerprints, a word with their width and their words, and its role is the mark, which says how keys are hashed. */
enum { PRINTS_SECTION = 4 }; /* of a hash without seeds, which are one section more */
static int block_taken(Memory *it)
{
    struct bitm_section prints = {0};
    size_t at = PRINTS_SECTION;
    if (bitm_hash_block_open_seeded(it->block, it->block_len, &it->seeded, &it->seed) == BITM_OK)
        at++;
    else if (bitm_hash_block_open(it->block, it->block_len, &it->seeded.hash, &it->seed) != BITM_OK)
        return 0;
    if (bitm_block_section(it->block, it->block_len, at, &prints) != BITM_OK || prints.words_len == 0 ||
        prints.count != 8 * (uint64_t)prints.words_len)
        return 0;
    it->mark = prints.role;
    it->print_width = prints.words[0];
    it->prints = prints.words + 1;
    it->prints_len = prints.words_len - 1;
    return 1;
}

int hash_opened(Memory *it)
{
    const struct bitm_hash *hash = &it->seeded.hash;
    uint64_t out;
    int is_taken = it->block == NULL || block_taken(it), is_marked = it->mark == MARK_SIP || it->mark == MARK_BLAKE;
    it->seeded.hash.index.bits_len = 64 * (uint64_t)hash->index.words_len;
    /* No more keys than bits: so the bits of the fingerprints are far below 2^64. */
    if (is_taken && is_marked && it->print_width <= 64 && hash->index.words_len <= (size_t)1 << 50 &&
        hash->keys <= hash->index.bits_len) {
        if (it->prints_len == bitm_bits_words_len(hash->keys * it->print_width) &&
            bitm_hash_get_seeded(&it->seeded, 0, &out) != BITM_BAD_SIZE)
            return 0;
    }
    if (it->block == NULL || !is_of_other_kind(it, hash_opened))
        PyErr_SetString(PyExc_ValueError, "it is not a perfect hash that was saved here, or not all of it");
    return -1;
}

/* ---- made */

typedef struct {
    uint64_t width, percent, seed, mark, tries;
    int is_any_seed;
    PyObject *keys, *progress; /* borrowed of hash_init, which holds them */
} Settings;

/* The words of the section of fingerprints, in a piece of malloc's. NULL and an error. */
static uint64_t *prints_built(const struct bitm_seeded_hash *hash, const Keys *keys, uint64_t width, size_t *len)
{
    *len = 1 + bitm_bits_words_len(hash->hash.keys * width);
    uint64_t *made = room_for(*len);
    uint32_t status;
    if (made == NULL)
        return NULL;
    memset(made, 0, 8 * *len);
    made[0] = width;
    Py_BEGIN_ALLOW_THREADS
    status = bitm_hash_set_prints_seeded(hash, keys->hashes, keys->count, keys->prints, keys->count, made + 1, *len - 1,
                                         (uint32_t)width);
    Py_END_ALLOW_THREADS
    if (status == BITM_OK)
        return made;
    free(made);
    (void)wrong();
    return NULL;
}

/* The words of the block of the hash without fingerprints, in a piece of malloc's. NULL and an error. */
static uint64_t *plain_built(const struct bitm_seeded_hash *hash, uint64_t seed, size_t *len)
{
    const struct bitm_hash *plain = &hash->hash;
    const uint64_t *words = plain->index.words;
    const size_t words_len = plain->index.words_len;
    uint64_t wanted;
    uint32_t status = hash->seeds != NULL ? bitm_hash_block_size_seeded(words_len, plain->sizes_len, &wanted)
                                          : bitm_hash_block_size(words_len, plain->sizes_len, &wanted);
    uint64_t *made = status == BITM_OK ? room_for(wanted) : NULL;
    if (made == NULL)
        return PyErr_Occurred() ? NULL : (uint64_t *)PyErr_NoMemory();
    *len = (size_t)wanted;
    Py_BEGIN_ALLOW_THREADS
    if (hash->seeds != NULL)
        status = bitm_hash_block_build_seeded(words, words_len, hash->seeds, hash->seeds_len, plain->sizes,
                                              plain->sizes_len, seed, made, *len);
    else
        status = bitm_hash_block_build(words, words_len, plain->sizes, plain->sizes_len, seed, made, *len);
    Py_END_ALLOW_THREADS
    if (status == BITM_OK)
        return made;
    free(made);
    (void)wrong();
    return NULL;
}

/* Writes the block with fingerprints into memory of its own. -1 and an error. */
static int block_built(Memory *it, const uint64_t *plain, size_t plain_len, uint64_t mark, const uint64_t *prints,
                       size_t prints_len)
{
    uint64_t len, *block;
    uint32_t status = bitm_block_extended_size(plain, plain_len, mark, 8 * (uint64_t)prints_len, &len);
    if (status != BITM_OK || (block = block_room(it, len)) == NULL)
        return PyErr_Occurred() ? -1 : (PyErr_NoMemory(), -1);
    Py_BEGIN_ALLOW_THREADS
    status =
        bitm_block_extend(plain, plain_len, mark, 8 * (uint64_t)prints_len, prints, prints_len, block, (size_t)len);
    Py_END_ALLOW_THREADS
    if (status == BITM_OK)
        return hash_opened(it);
    (void)wrong();
    return -1;
}

Memory *hash_in_block(Memory *from)
{
    size_t plain_len = 0, prints_len = 1 + from->prints_len;
    uint64_t *prints = room_for(prints_len), *plain = NULL;
    if (prints == NULL)
        return NULL;
    prints[0] = from->print_width;
    if (from->prints_len > 0)
        memcpy(prints + 1, from->prints, 8 * from->prints_len);
    plain = plain_built(&from->seeded, from->seed, &plain_len);
    Memory *it = plain == NULL ? NULL : memory_new();
    if (it != NULL && block_built(it, plain, plain_len, from->mark, prints, prints_len))
        Py_CLEAR(it);
    free(prints);
    free(plain);
    return it;
}

/* The hash of keys in rooms for its levels. -1 and an error; 1 where hashes are left. */
static int built_in(Memory *it, const Keys *keys, const Settings *how, Levels *in)
{
    struct bitm_seeded_hash hash = {.seeds = in->seeds};
    size_t prints_len = 0, plain_len = 0;
    Py_BEGIN_ALLOW_THREADS
    memcpy(in->hashes, keys->hashes, 8 * keys->count);
    Py_END_ALLOW_THREADS
    const int is_left = levels_built(in, &hash.hash);
    if (is_left)
        return is_left;
    hash.seeds_len = in->seeds == NULL ? 0 : hash.hash.index.words_len;
    uint64_t *prints = prints_built(&hash, keys, how->width, &prints_len);
    uint64_t *plain = prints == NULL ? NULL : plain_built(&hash, it->seed, &plain_len);
    int made = plain == NULL ? -1 : block_built(it, plain, plain_len, how->mark, prints, prints_len);
    free(prints);
    free(plain);
    return made;
}

static uint32_t percent_of(const Settings *how)
{
    return how->percent > UINT32_MAX ? UINT32_MAX : (uint32_t)how->percent;
}

/* Says which keys are equal, or, where no other seed is tried, have one hash: -1 and an error; 1 else. */
static int say_twins(Levels *in, const Keys *keys, const Settings *how, int is_last)
{
    size_t pair[2];
    if (!levels_twins(in, keys->hashes, pair))
        return is_last ? refuse("keys have no number: take another seed") : 1;
    PyObject *said = more("equal_keys", Py_BuildValue("(Onn)", how->keys, (Py_ssize_t)pair[0], (Py_ssize_t)pair[1]));
    const int are_equal = said != NULL && said != Py_None;
    if (are_equal)
        PyErr_SetObject(PyExc_ValueError, said);
    Py_XDECREF(said);
    if (said == NULL || are_equal)
        return -1;
    return is_last ? say_one_hash("keys", pair) : 1;
}

static int build(Memory *it, const Keys *keys, const Settings *how, int is_last)
{
    Levels levels;
    int made = levels_room(&levels, keys->count, percent_of(how), (uint16_t)how->tries, how->progress);
    if (made == 0)
        made = built_in(it, keys, how, &levels);
    if (made > 0)
        made = say_twins(&levels, keys, how, is_last);
    levels_drop(&levels);
    return made;
}

/* ---- __init__ */

/* The hash of keys by a seed: NULL and an error; NULL alone where hashes are left, unless the seed is the last. */
static Memory *built(const Settings *how, uint64_t seed, int is_last)
{
    Keys keys;
    if (keys_hash(&keys, how->keys, how->mark, seed))
        return NULL;
    Memory *it = memory_new();
    int status = -1;
    if (it != NULL) {
        it->seed = seed;
        status = build(it, &keys, how, is_last);
    }
    keys_drop(&keys);
    if (status == 0)
        return it;
    DROP(it);
    return NULL;
}

static int mark_of(PyObject *hash, uint64_t *mark)
{
    *mark = MARK_SIP;
    if (hash == NULL || (PyUnicode_Check(hash) && PyUnicode_CompareWithASCIIString(hash, "siphash") == 0))
        return 0;
    *mark = MARK_BLAKE;
    if (PyUnicode_Check(hash) && PyUnicode_CompareWithASCIIString(hash, "blake2b") == 0)
        return 0;
    PyErr_Format(PyExc_ValueError, "hash is 'siphash' or 'blake2b', not %R", hash);
    return -1;
}

static int settings_take(Settings *it, PyObject *keys, PyObject *const given[6])
{
    const int is_seeded = given[4] != NULL && given[4] != Py_None;
    if (number_or(given[0], 16, "bits", &it->width) || number_or(given[1], 100, "percent", &it->percent) ||
        number_or(given[2], 0, "the seed", &it->seed) || mark_of(given[3], &it->mark) ||
        number_or(given[4], 0, "tries", &it->tries) || progress_take(given[5], &it->progress))
        return -1;
    it->keys = keys;
    /* Of an iterator the keys come but once. */
    it->is_any_seed = (given[2] == NULL || given[2] == Py_None) && !PyIter_Check(keys);
    if (it->width > 64)
        PyErr_SetString(PyExc_ValueError, "a fingerprint has at most 64 bits");
    else if (is_seeded && (it->tries == 0 || it->tries > 256))
        PyErr_SetString(PyExc_ValueError, "tries are 1 to 256 seeds, or None");
    return PyErr_Occurred() ? -1 : 0;
}

int hash_init(PyObject *self, PyObject *args, PyObject *keywords)
{
    static char *names[] = {"keys", "bits", "percent", "seed", "hash", "tries", "progress", NULL};
    PyObject *keys, *given[6] = {NULL, NULL, NULL, NULL, NULL, NULL};
    Settings how;
    if (!PyArg_ParseTupleAndKeywords(args, keywords, "O|$OOOOOO:PerfectHash", names, &keys, &given[0], &given[1],
                                     &given[2], &given[3], &given[4], &given[5]))
        return -1;
    Py_INCREF(keys);
    Py_XINCREF(given[5]);
    Memory *it = settings_take(&how, keys, given) ? NULL : built(&how, how.seed, !how.is_any_seed);
    if (it == NULL && !PyErr_Occurred())
        it = built(&how, 1, 1);
    Py_DECREF(keys);
    Py_XDECREF(given[5]);
    return value_made(self, it, it != NULL);
}
