/* bitm.Strings: strings of bytes, each with a number, in one block of memory. */
#include "values.h"

int strings_opened(Memory *it)
{
    return block_opened(it, strings_opened, bitm_strings_open(it->block, it->block_len, &it->strings) == BITM_OK);
}

/* ---- strings of Python's */

/* The bytes of a string, and the object that keeps them. */
typedef struct {
    PyObject *kept;
    const uint8_t *at;
    size_t len;
} String;

/* Of bytes, a bytearray or a memoryview of bytes, or a str, whose bytes are those of its UTF-8: 1, 0 where it is none
 * of these, -1 and an error. */
static int string_take(String *it, PyObject *from)
{
    Py_ssize_t len;
    if (PyUnicode_Check(from)) {
        it->at = (const uint8_t *)PyUnicode_AsUTF8AndSize(from, &len);
        it->kept = it->at == NULL ? NULL : Py_NewRef(from);
        it->len = it->at == NULL ? 0 : (size_t)len;
        return it->at == NULL ? -1 : 1;
    }
    if (!PyBytes_Check(from) && !PyByteArray_Check(from) && !PyMemoryView_Check(from))
        return 0;
    int found = bytes_kept(from, &it->kept);
    if (found > 0) {
        it->at = (const uint8_t *)PyBytes_AsString(it->kept);
        it->len = (size_t)PyBytes_Size(it->kept);
    }
    return found;
}

/* The same with a TypeError for what is none. */
static int string_needed(String *it, PyObject *from)
{
    int found = string_take(it, from);
    if (found == 0)
        PyErr_Format(PyExc_TypeError, "a string is bytes or a str, not %R", from);
    return found > 0 ? 0 : -1;
}

/* Strings one after another, and where each ends: as the library takes them. */
typedef struct {
    uint8_t *bytes;
    uint64_t *ends;
    size_t len, count, bytes_room, ends_room;
} Spelled;

static void spelled_drop(Spelled *it)
{
    free(it->bytes);
    free(it->ends);
}

/* A piece of malloc's for `least` items of the given size and more to come, in place of another, which stays where this
 * is NULL and MemoryError. */
static void *grown(void *at, size_t *room, size_t least, size_t size)
{
    const size_t twice = *room < 32 ? 64 : 2 * *room, wanted = least < twice ? twice : least;
    if (at != NULL && least <= *room)
        return at;
    void *made = wanted > (size_t)PY_SSIZE_T_MAX / size ? NULL : realloc(at, size * wanted);
    if (made == NULL)
        PyErr_NoMemory();
    else
        *room = wanted;
    return made;
}

/* Room for more bytes and one more string. -1 and an error. */
static int spelled_room(Spelled *it, size_t more_bytes)
{
    uint8_t *bytes = grown(it->bytes, &it->bytes_room, it->len + more_bytes, 1);
    it->bytes = bytes == NULL ? it->bytes : bytes;
    uint64_t *ends = bytes == NULL ? NULL : grown(it->ends, &it->ends_room, it->count + 1, 8);
    it->ends = ends == NULL ? it->ends : ends;
    return ends == NULL ? -1 : 0;
}

static int spelled_put(Spelled *it, PyObject *from)
{
    String string;
    if (string_needed(&string, from))
        return -1;
    int status = spelled_room(it, string.len);
    if (status == 0) {
        memcpy(it->bytes + it->len, string.at, string.len);
        it->len += string.len;
        it->ends[it->count++] = it->len;
    }
    Py_DECREF(string.kept);
    return status;
}

/* Copies the strings of an iterable, after none. -1 and an error. Given back by spelled_drop, also then. */
static int spelled_take(Spelled *it, PyObject *from)
{
    *it = (Spelled){0};
    if (PyUnicode_Check(from)) {
        PyErr_SetString(PyExc_TypeError, "strings are a list of bytes or of str, and no str");
        return -1;
    }
    PyObject *iterator = spelled_room(it, 0) ? NULL : PyObject_GetIter(from), *item;
    while (iterator != NULL && (item = next_item(iterator, it->count)) != NULL) {
        int failed = spelled_put(it, item);
        Py_DECREF(item);
        if (failed)
            break;
    }
    Py_XDECREF(iterator);
    return PyErr_Occurred() ? -1 : 0;
}

/* ---- made */

/* Writes the block of strings that a hash numbers into memory of its own. -1 and an error. */
static int block_built(Memory *it, const Spelled *from, const struct bitm_hash *hash, uint64_t seed)
{
    uint64_t len, *block;
    uint32_t status = bitm_strings_size(hash->index.words_len, hash->sizes_len, from->count, from->len, &len);
    if (status != BITM_OK || (block = block_room(it, len)) == NULL)
        return PyErr_Occurred() ? -1 : (PyErr_NoMemory(), -1);
    Py_BEGIN_ALLOW_THREADS
    status = bitm_strings_build(hash, seed, from->bytes, from->len, from->ends, from->count, block, (size_t)len);
    Py_END_ALLOW_THREADS
    if (status == BITM_OK)
        return strings_opened(it);
    (void)wrong();
    return -1;
}

/* The hash of each string by a seed. -1 and an error. */
static int hashes_built(const Spelled *from, uint64_t seed, uint64_t *hashes)
{
    uint32_t status;
    Py_BEGIN_ALLOW_THREADS
    status = bitm_strings_hashes(from->bytes, from->len, from->ends, from->count, seed, hashes, from->count);
    Py_END_ALLOW_THREADS
    return status == BITM_OK ? 0 : refuse("there are too many strings");
}

static String string_of(const Spelled *from, size_t at)
{
    const uint64_t begin = at == 0 ? 0 : from->ends[at - 1];
    return (String){.at = from->bytes + begin, .len = (size_t)(from->ends[at] - begin)};
}

/* Says which strings are equal, or, by the last seed, have one hash: -1 and an error; 1 where another seed may do. */
static int say_twins(const Spelled *from, Levels *in, uint64_t seed, int is_last)
{
    size_t pair[2];
    uint64_t *hashes = room_for(from->count);
    const int failed = hashes == NULL || hashes_built(from, seed, hashes);
    const int are_found = !failed && levels_twins(in, hashes, pair);
    free(hashes);
    if (!are_found)
        return failed ? -1 : 1;
    const String one = string_of(from, pair[0]), other = string_of(from, pair[1]);
    if (one.len == other.len && memcmp(one.at, other.at, one.len) == 0)
        return say_equal("strings", pair, shortened(one.at, one.len));
    return is_last ? say_one_hash("strings", pair) : 1;
}

/* By the first seed that gives no two strings one hash. -1 and an error. */
static int built(Memory *it, const Spelled *from, Levels *in, const Wanted *how)
{
    int status = 1;
    for (int i = 0; i < how->seeds && status > 0; i++) {
        const uint64_t seed = how->seed + (uint64_t)i;
        struct bitm_hash hash;
        status = hashes_built(from, seed, in->hashes) ? -1 : levels_built(in, &hash);
        if (status == 0)
            return block_built(it, from, &hash, seed);
        if (status > 0)
            status = say_twins(from, in, seed, i + 1 == how->seeds);
    }
    return refuse("strings have no number: take another seed");
}

static int strings_init(PyObject *self, PyObject *args, PyObject *keywords)
{
    static char *names[] = {"strings", "percent", "seed", "progress", NULL};
    PyObject *from, *percent = NULL, *seed = NULL, *progress = NULL;
    Spelled spelled = {0};
    Levels levels = {0};
    Wanted how;
    if (!PyArg_ParseTupleAndKeywords(args, keywords, "O|$OOO:Strings", names, &from, &percent, &seed, &progress))
        return -1;
    Py_XINCREF(progress);
    const int taken = wanted_take(&how, percent, seed, progress) == 0 && spelled_take(&spelled, from) == 0 &&
                      levels_room(&levels, spelled.count, how.percent, 0, how.progress) == 0;
    Memory *it = taken ? memory_new() : NULL;
    int is_made = it != NULL && built(it, &spelled, &levels, &how) == 0;
    levels_drop(&levels);
    spelled_drop(&spelled);
    Py_XDECREF(progress);
    return value_made(self, it, is_made);
}

/* ---- the number of a string */

static uint32_t find(const Memory *it, String *string, uint64_t *out)
{
    uint32_t status = it == NULL ? BITM_WRONG : bitm_strings_find(&it->strings, string->at, string->len, out);
    Py_DECREF(string->kept);
    return status;
}

static PyObject *strings_find(PyObject *self, PyObject *query)
{
    String string;
    uint64_t out;
    if (string_needed(&string, query))
        return NULL;
    const Memory *it = memory_of(self);
    uint32_t status = find(it, &string, &out);
    return it == NULL ? NULL : answer_or_none(status, &out);
}

/* What is no string is none of the strings, and so is a str that has no UTF-8. */
static int strings_contains(PyObject *self, PyObject *query)
{
    String string;
    uint64_t out;
    int is_string = string_take(&string, query);
    if (is_string < 0 && !PyErr_ExceptionMatches(PyExc_UnicodeEncodeError))
        return -1;
    if (is_string < 0)
        PyErr_Clear();
    const Memory *it = memory_of(self);
    uint32_t status = is_string > 0 ? find(it, &string, &out) : BITM_NONE;
    if (it == NULL || status == BITM_OK || status == BITM_NONE)
        return it == NULL ? -1 : status == BITM_OK;
    (void)wrong();
    return -1;
}

static PyObject *strings_find_list(PyObject *self, PyObject *const *args, Py_ssize_t count, PyObject *keywords)
{
    static const char *const names[] = {"strings", "*missing"};
    PyObject *given[2], *made = NULL;
    Answers answers;
    Spelled spelled;
    if (pick("find_list", names, 1, 2, args, count, keywords, given) ||
        answers_begin(&answers, given[0], given[1], SOME))
        return NULL;
    Memory *it = spelled_take(&spelled, given[0]) ? NULL : memory_kept(self);
    if (it != NULL && answers_room(&answers, spelled.count) == 0) {
        struct bitm_list_counts counts = {0, 0};
        uint32_t status;
        Py_BEGIN_ALLOW_THREADS
        status = bitm_strings_find_list(&it->strings, spelled.bytes, spelled.len, spelled.ends, spelled.count,
                                        answers.out, spelled.count, &counts);
        Py_END_ALLOW_THREADS
        made = status != BITM_OK || counts.wrong ? wrong() : answers_end(&answers, counts.missing);
    }
    answers_drop(&answers);
    spelled_drop(&spelled);
    DROP(it);
    return made;
}

/* ---- the string of a number */

static uint64_t length(const Memory *it)
{
    return it->strings.hash.keys;
} /* less than the starts, which are in memory */
static Py_ssize_t strings_len(PyObject *self) { return value_len(self, length); }

static PyObject *string_at(const Memory *it, Py_ssize_t index, int from_end)
{
    uint64_t begin, len;
    const uint64_t at = from_end ? from_front(index, length(it)) : (uint64_t)index;
    uint32_t status = bitm_strings_get(&it->strings, (size_t)at, &begin, &len);
    if (LIKELY(status == BITM_OK))
        return PyBytes_FromStringAndSize((const char *)it->strings.bytes + begin, (Py_ssize_t)len);
    return status == BITM_NONE ? outside(index, length(it), "strings") : wrong();
}

static PyObject *strings_item(PyObject *self, Py_ssize_t index)
{
    const Memory *it = memory_of(self);
    return it == NULL ? NULL : string_at(it, index, 0);
}

static PyObject *slice_of(const Memory *it, Py_ssize_t start, Py_ssize_t step, Py_ssize_t count)
{
    PyObject *made = PyList_New(count);
    for (Py_ssize_t i = 0; made != NULL && i < count; i++) {
        PyObject *item = string_at(it, start + i * step, 0);
        if (item == NULL || PyList_SetItem(made, i, item))
            Py_CLEAR(made);
    }
    return made;
}

static PyObject *strings_subscript(PyObject *self, PyObject *key)
{
    Py_ssize_t start, stop, step, index = 0;
    const int is_slice = PySlice_Check(key);
    if (is_slice ? PySlice_Unpack(key, &start, &stop, &step) : index_of(key, &index))
        return NULL;
    Memory *it = memory_kept(self);
    if (it == NULL)
        return NULL;
    PyObject *found = NULL;
    if (is_slice) {
        Py_ssize_t count = PySlice_AdjustIndices((Py_ssize_t)length(it), &start, &stop, step);
        found = slice_of(it, start, step, count);
    } else {
        found = string_at(it, index, 1);
    }
    DROP(it);
    return found;
}

static PyObject *strings_iter(PyObject *self) { return memory_of(self) == NULL ? NULL : PySeqIter_New(self); }

/* ---- the rest */

ATTRIBUTE(strings, seed, strings.seed)

BLOCK_CHECK(strings)

REPR(strings, "strings=%zu", it->strings.hash.keys)

#define OF(rest) EXAMPLE("names = Strings(['ada', 'bob', 'eve'])") THEN(rest)
static PyMethodDef methods[] = {
    METHOD("find", strings_find, METH_O, "($self, string, /)",
           "The number of a string, bytes or a str as its UTF-8; None where it is none of the strings." OF(
               "names.find(b'bo')") THEN("names[names.find('bob')]") PRINTS("b'bob'")),
    KEYWORDS("find_list", strings_find_list, "($self, strings, *, missing=None)",
             "The numbers of many strings: a list, or an array for an array." OF(
                 "names.find_list(['eve', b'bo'], missing=9)[1]") PRINTS("9")),
    METHOD("check", strings_check, METH_NOARGS, "($self, /)",
           "Whether the block is as it was written and holds strings: looks at all of it." OF("names.check()")
               PRINTS("True")),
    VALUE_METHODS("Strings(['ada', 'bob'])"),
    {NULL, NULL, 0, NULL}};

static PyGetSetDef attributes[] = {
    {"seed", strings_seed, NULL, DOC("The key of the hashes of the strings." OF("names.seed") PRINTS("0")), NULL},
    VALUE_CLOSED("Strings(['ada', 'bob'])"),
    {NULL, NULL, NULL, NULL, NULL}};

#define STRINGS_DOC                                                                                                    \
    "Strings(strings, *, percent=100, seed=None, progress=None)\n--\n\n"                                               \
    "Strings, each with a number of its own below how many there are, in one block of memory: a minimal\n"             \
    "perfect hash and the strings, so that any other string has no number.\n\n"                                        \
    "A string is bytes, or a str as its UTF-8, and comes back as bytes; it takes these and about 67 bits.\n\n"         \
    "percent is how many bits the levels have for each 100 strings; seed is the key of their hashes,\n"                \
    "SipHash-1-3: where it is not given 0, or 1 if that gives two strings one hash. progress is called as\n"           \
    "for a PerfectHash. ValueError where strings are equal: it says which." EXAMPLE(                                   \
        "names = Strings(['ada', 'bob', 'eve'])")                                                                      \
        THEN("'bob' in names, 'bo' in names, names[names.find('eve')], len(names)") PRINTS("(True, False, b'eve', 3)")

static PyType_Slot slots[] = {VALUE_SLOTS(STRINGS_DOC, strings_init, methods, attributes, strings_repr),
                              {Py_tp_iter, strings_iter},
                              {Py_sq_length, strings_len},
                              {Py_sq_item, strings_item},
                              {Py_sq_contains, strings_contains},
                              {Py_mp_length, strings_len},
                              {Py_mp_subscript, strings_subscript},
                              {0, NULL}};
PyType_Spec strings_spec = {"bitm.Strings", sizeof(Value), 0, VALUE_FLAGS, slots};
