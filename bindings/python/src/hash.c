/* bitm.PerfectHash: what it is asked. */
#include "keys.h"

/* ---- queries */

/* The hash and the fingerprint of a key, and the memory, borrowed: NULL and an error. To hash a str runs no Python
 * code; to hash another key may, which may close the value. */
static Memory *hashed(PyObject *self, PyObject *key, uint64_t both[2])
{
    Memory *it = memory_of(self);
    Py_ssize_t len;
    if (it == NULL)
        return NULL;
    if (LIKELY(Py_IS_TYPE(key, &PyUnicode_Type)) && LIKELY(it->mark == MARK_SIP)) {
        const char *at = PyUnicode_AsUTF8AndSize(key, &len);
        if (LIKELY(at != NULL))
            return bytes_hash(at, (size_t)len, it->seed, TEXT, both) ? NULL : it;
        PyErr_Clear(); /* lone surrogates */
    }
    return key_hash(key, it->mark, it->seed, both) ? NULL : memory_of(self);
}

/* The number of a key: 1, 0 where it has none, -1 and an error. */
static int found(PyObject *self, PyObject *key, uint64_t *out)
{
    uint64_t both[2];
    const Memory *it = hashed(self, key, both);
    if (it == NULL)
        return -1;
    uint32_t status = bitm_hash_find_seeded(&it->seeded, it->prints, it->prints_len, (uint32_t)it->print_width, both[0],
                                            both[1], out);
    if (status == BITM_OK || status == BITM_NONE)
        return status == BITM_OK;
    (void)wrong();
    return -1;
}

static PyObject *hash_get(PyObject *self, PyObject *const *args, Py_ssize_t count, PyObject *keywords)
{
    return number_or_default(self, found, args, count, keywords);
}

/* With no call but those of Python and of the library. */
static __attribute__((flatten)) PyObject *hash_subscript(PyObject *self, PyObject *key)
{
    return number_or_error(self, found, key);
}

static int hash_contains(PyObject *self, PyObject *key)
{
    uint64_t out = 0;
    if (!is_key(key))
        return memory_of(self) == NULL ? -1 : 0;
    return found(self, key, &out);
}

static PyObject *hash_get_list(PyObject *self, PyObject *const *args, Py_ssize_t count, PyObject *keywords)
{
    static const char *const names[] = {"keys", "*missing"};
    PyObject *given[2], *made = NULL;
    Answers answers;
    Keys keys = {NULL, NULL, 0};
    if (pick("get_list", names, 1, 2, args, count, keywords, given) ||
        answers_begin(&answers, given[0], given[1], SOME))
        return NULL;
    Memory *it = memory_of(self);
    int is_hashed = it != NULL && keys_hash(&keys, given[0], it->mark, it->seed) == 0;
    it = is_hashed ? memory_kept(self) : NULL; /* hashing may have run code that closed it */
    if (it != NULL && answers_room(&answers, keys.count) == 0) {
        struct bitm_list_counts counts = {0, 0};
        uint32_t status;
        Py_BEGIN_ALLOW_THREADS
        status =
            bitm_hash_find_list_seeded(&it->seeded, it->prints, it->prints_len, (uint32_t)it->print_width, keys.hashes,
                                       keys.count, keys.prints, keys.count, answers.out, keys.count, &counts);
        Py_END_ALLOW_THREADS
        made = status != BITM_OK || counts.wrong ? wrong() : answers_end(&answers, counts.missing);
    }
    answers_drop(&answers);
    if (is_hashed)
        keys_drop(&keys);
    DROP(it);
    return made;
}

/* ---- the rest */

static Py_ssize_t hash_len(PyObject *self)
{
    Memory *it = memory_of(self);
    return it == NULL ? -1 : (Py_ssize_t)it->seeded.hash.keys; /* no more than bits, which are in memory */
}

static int is_right(const Memory *it)
{
    const struct bitm_index *index = &it->seeded.hash.index;
    uint64_t ones = 0;
    if (it->block != NULL && it->seeded.seeds != NULL)
        return bitm_hash_block_check_seeded(it->block, it->block_len) == BITM_OK;
    if (it->block != NULL)
        return bitm_hash_block_check(it->block, it->block_len) == BITM_OK;
    return bitm_index_check(index) == BITM_OK && bitm_index_rank(index, true, index->bits_len, &ones) == BITM_OK &&
           ones == it->seeded.hash.keys;
}

static PyObject *hash_check(PyObject *self, PyObject *none)
{
    (void)none;
    return value_checked(self, is_right);
}

REPR(hash, "keys=%zu, width=%llu", it->seeded.hash.keys, (unsigned long long)it->print_width)

ATTRIBUTE(hash, seed, seed)
ATTRIBUTE(hash, bits, print_width)

static PyObject *hash_name(PyObject *self, void *none)
{
    const Memory *it = memory_of(self);
    (void)none;
    return it == NULL ? NULL : PyUnicode_FromString(it->mark == MARK_SIP ? "siphash" : "blake2b");
}

static PyObject *hash_has_seeds(PyObject *self, void *none)
{
    const Memory *it = memory_of(self);
    (void)none;
    return it == NULL ? NULL : boxed_bit(it->seeded.seeds != NULL);
}

static PyMethodDef methods[] = {KEYWORDS("get", hash_get, "($self, key, default=None)", HASH_GET),
                                KEYWORDS("get_list", hash_get_list, "($self, keys, *, missing=None)", HASH_GET_LIST),
                                METHOD("check", hash_check, METH_NOARGS, "($self, /)", HASH_CHECK),
                                VALUE_METHODS("PerfectHash(['zero', 'one'])"),
                                {NULL, NULL, 0, NULL}};
static PyGetSetDef attributes[] = {VALUE_CLOSED("PerfectHash(['zero', 'one'])"),
                                   {"seed", hash_seed, NULL, DOC(HASH_SEED), NULL},
                                   {"bits", hash_bits, NULL, DOC(HASH_BITS), NULL},
                                   {"hash", hash_name, NULL, DOC(HASH_HASH), NULL},
                                   {"has_seeds", hash_has_seeds, NULL, DOC(HASH_HAS_SEEDS), NULL},
                                   {NULL, NULL, NULL, NULL, NULL}};

static PyType_Slot slots[] = {VALUE_SLOTS(HASH_DOC, hash_init, methods, attributes, hash_repr),
                              {Py_sq_contains, hash_contains},
                              {Py_mp_length, hash_len},
                              {Py_mp_subscript, hash_subscript},
                              {0, NULL}};
PyType_Spec hash_spec = {"bitm.PerfectHash", sizeof(Value), 0, VALUE_FLAGS, slots};
