/* bitm.Dictionary: numbers in a dictionary, in one block of memory. */
#include "values.h"

int dictionary_opened(Memory *it)
{
    return block_opened(it, dictionary_opened,
                        bitm_dictionary_open(it->block, it->block_len, &it->dictionary) == BITM_OK);
}

/* ---- made */

/* The parts of the dictionary of keys by a seed, in the rooms of the levels and one for the keys at their numbers: 0; 1
 * where hashes are left; -1 and an error. */
static int parts_built(const uint64_t *keys, Levels *in, uint64_t *placed, struct bitm_dictionary *out)
{
    uint64_t number_there = 0;
    uint32_t status = BITM_OK;
    for (size_t i = 0; i < in->count; i++)
        in->hashes[i] = keys[i] + out->seed; /* modulo 2^64 */
    const int is_left = levels_built(in, &out->hash);
    if (is_left)
        return is_left;
    out->keys = placed, out->keys_len = in->count;
    Py_BEGIN_ALLOW_THREADS
    for (size_t i = 0; i < in->count && status == BITM_OK; i++) {
        status = bitm_hash_get(&out->hash, keys[i] + out->seed, &number_there);
        if (status == BITM_OK)
            placed[number_there] = keys[i];
    }
    Py_END_ALLOW_THREADS
    return status == BITM_OK ? 0 : (wrong(), -1);
}

/* Says which keys are equal, as their hashes are: -1, or 1 where none are. */
static int say_twins(const uint64_t *keys, Levels *in, uint64_t seed)
{
    size_t pair[2];
    for (size_t i = 0; i < in->left; i++)
        in->hashes[i] -= seed;
    return levels_twins(in, keys, pair) ? say_equal("keys", pair, boxed(keys[pair[0]])) : 1;
}

/* Writes the block of the parts into memory of its own. -1 and an error. */
static int block_built(Memory *it, const struct bitm_dictionary *parts)
{
    uint64_t len, *block;
    uint32_t status = bitm_dictionary_size(parts->hash.index.words_len, parts->hash.sizes_len, parts->keys_len, &len);
    if (status != BITM_OK || (block = block_room(it, len)) == NULL)
        return PyErr_Occurred() ? -1 : (PyErr_NoMemory(), -1);
    Py_BEGIN_ALLOW_THREADS
    status = bitm_dictionary_build(parts, block, (size_t)len);
    Py_END_ALLOW_THREADS
    if (status == BITM_OK)
        return dictionary_opened(it);
    PyErr_SetString(PyExc_ValueError, "a key comes twice");
    return -1;
}

/* The dictionary of keys by the first seed that leaves no hash. -1 and an error. */
static int built(Memory *it, const uint64_t *keys, Levels *in, uint64_t *placed, const Wanted *how)
{
    int status = 1;
    for (int i = 0; i < how->seeds && status > 0; i++) {
        struct bitm_dictionary parts = {.seed = how->seed + (uint64_t)i};
        status = parts_built(keys, in, placed, &parts);
        if (status == 0)
            return block_built(it, &parts);
        if (status > 0)
            status = say_twins(keys, in, parts.seed);
    }
    return refuse("keys have no number: take another seed");
}

static int dictionary_init(PyObject *self, PyObject *args, PyObject *keywords)
{
    static char *names[] = {"keys", "percent", "seed", "progress", NULL};
    PyObject *from, *percent = NULL, *seed = NULL, *progress = NULL;
    uint64_t *keys = NULL, *placed = NULL;
    size_t count;
    Levels levels = {0};
    Wanted how;
    if (!PyArg_ParseTupleAndKeywords(args, keywords, "O|$OOO:Dictionary", names, &from, &percent, &seed, &progress))
        return -1;
    Py_XINCREF(progress);
    const int taken =
        wanted_take(&how, percent, seed, progress) == 0 && (keys = integers_all(from, "a key", &count)) != NULL &&
        levels_room(&levels, count, how.percent, 0, how.progress) == 0 && (placed = room_for(count)) != NULL;
    Memory *it = taken ? memory_new() : NULL;
    int is_made = it != NULL && built(it, keys, &levels, placed, &how) == 0;
    levels_drop(&levels);
    free(placed);
    free(keys);
    Py_XDECREF(progress);
    return value_made(self, it, is_made);
}

/* ---- queries */

/* The number of a key: 1, 0 where it has none, -1 and an error. */
static inline int found(PyObject *self, PyObject *key, uint64_t *out)
{
    uint64_t sought;
    if (number(key, "a key", &sought))
        return -1;
    Memory *it = memory_of(self);
    if (it == NULL)
        return -1;
    uint32_t status = bitm_dictionary_find(&it->dictionary, sought, out);
    if (LIKELY(status == BITM_OK || status == BITM_NONE))
        return status == BITM_OK;
    (void)wrong();
    return -1;
}

static PyObject *dictionary_get(PyObject *self, PyObject *const *args, Py_ssize_t count, PyObject *keywords)
{
    return number_or_default(self, found, args, count, keywords);
}

static PyObject *dictionary_subscript(PyObject *self, PyObject *key) { return number_or_error(self, found, key); }

static int dictionary_contains(PyObject *self, PyObject *key)
{
    uint64_t sought, out;
    int is_number = equal_number(key, &sought);
    Memory *it = is_number < 0 ? NULL : memory_of(self);
    if (it == NULL)
        return -1;
    if (!is_number)
        return 0;
    uint32_t status = bitm_dictionary_find(&it->dictionary, sought, &out);
    if (status == BITM_OK || status == BITM_NONE)
        return status == BITM_OK;
    (void)wrong();
    return -1;
}

static uint32_t numbers(const Memory *it, bool one, const uint64_t *in, uint64_t *out, size_t count,
                        struct bitm_list_counts *counts)
{
    (void)one;
    return bitm_dictionary_find_list(&it->dictionary, in, count, out, count, counts);
}

static PyObject *dictionary_get_list(PyObject *self, PyObject *const *args, Py_ssize_t count, PyObject *keywords)
{
    return ask_list(self, numbers, true, SOME, "get_list", "a key", args, count, keywords);
}

/* ---- the rest */

static Py_ssize_t dictionary_len(PyObject *self)
{
    Memory *it = memory_of(self);
    return it == NULL ? -1 : (Py_ssize_t)it->dictionary.keys_len; /* they are in memory */
}

/* The keys, as a view of the block. */
static PyObject *dictionary_keys(PyObject *self, void *none)
{
    Memory *it = memory_kept(self);
    (void)none;
    if (it == NULL)
        return NULL;
    PyObject *window = window_of(it, it->dictionary.keys, it->dictionary.keys_len, 8);
    PyObject *made = window == NULL ? NULL : PyMemoryView_FromObject(window);
    Py_XDECREF(window);
    DROP(it);
    return made;
}

static PyObject *dictionary_iter(PyObject *self)
{
    PyObject *keys = dictionary_keys(self, NULL), *made = keys == NULL ? NULL : PyObject_GetIter(keys);
    Py_XDECREF(keys);
    return made;
}

ATTRIBUTE(dictionary, seed, dictionary.seed)

BLOCK_CHECK(dictionary)

REPR(dictionary, "keys=%zu", it->dictionary.keys_len)

#define OF(rest) EXAMPLE("squares = Dictionary([4, 9, 49])") THEN(rest)
static PyMethodDef methods[] = {
    KEYWORDS("get", dictionary_get, "($self, key, default=None)",
             "The number of a key, or the default for what is no key." OF("squares.get(5, -1)") PRINTS("-1")),
    KEYWORDS("get_list", dictionary_get_list, "($self, queries, *, missing=None)",
             "The numbers of many keys, in their manner." OF("squares.get_list([49, 5], missing=9)[1]") PRINTS("9")),
    METHOD("check", dictionary_check, METH_NOARGS, "($self, /)",
           "Whether the block is as it was written and holds a dictionary: looks at all of it." OF("squares.check()")
               PRINTS("True")),
    VALUE_METHODS("Dictionary([4, 9, 49])"),
    {NULL, NULL, 0, NULL}};

static PyGetSetDef attributes[] = {
    {"keys", dictionary_keys, NULL,
     DOC("The keys in the order of their numbers, to be read." OF("squares.keys[squares[49]]") PRINTS("49")), NULL},
    {"seed", dictionary_seed, NULL, DOC("What is added to each key to hash it." OF("squares.seed") PRINTS("0")), NULL},
    VALUE_CLOSED("Dictionary([4, 9, 49])"),
    {NULL, NULL, NULL, NULL, NULL}};

#define DICTIONARY_DOC                                                                                                 \
    "Dictionary(keys, *, percent=100, seed=None, progress=None)\n--\n\n"                                               \
    "Numbers, each with a number of its own below how many there are, in one block of memory: a minimal\n"             \
    "perfect hash and the keys, so that a number that is no key has none.\n\n"                                         \
    "A key takes about 67 bits. percent is how many bits the levels have for each 100 keys. progress is\n"             \
    "called as for a PerfectHash. ValueError where keys are equal: it says which." EXAMPLE(                            \
        "squares = Dictionary([4, 9, 49])")                                                                            \
        THEN("49 in squares, 50 in squares, sorted(squares[key] for key in squares)")                                  \
            PRINTS("(True, False, [0, 1, 2])")

static PyType_Slot slots[] = {VALUE_SLOTS(DICTIONARY_DOC, dictionary_init, methods, attributes, dictionary_repr),
                              {Py_tp_iter, dictionary_iter},
                              {Py_sq_contains, dictionary_contains},
                              {Py_mp_length, dictionary_len},
                              {Py_mp_subscript, dictionary_subscript},
                              {0, NULL}};
PyType_Spec dictionary_spec = {"bitm.Dictionary", sizeof(Value), 0, VALUE_FLAGS, slots};
