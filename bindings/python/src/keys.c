/* Hashes of keys: two numbers of 64 bits for each, its hash and what its fingerprint is of. */
#include "keys.h"

/* A number of 64 bits, with a sign or without: BITM_OK. Needs no GIL. */
static uint32_t number_hash(uint64_t number_there, int is_signed, uint64_t seed, uint64_t out[2])
{
    uint8_t bytes[9] = {0};
    memcpy(bytes, &number_there, 8);
    int is_large = !is_signed && number_there >> 63; /* then as int.to_bytes(.., signed=True) writes it */
    return bitm_key_hash(bytes, is_large ? 9 : 8, seed, is_large ? LARGE_NUMBER : NUMBER, &out[0], &out[1]);
}

/* The answer of a function of bitm/_more.py for a key and the seed. */
static PyObject *by_python(const char *name, PyObject *key, uint64_t seed)
{
    return more(name, Py_BuildValue("(OK)", key, (unsigned long long)seed));
}

static int blake_hash(PyObject *key, uint64_t seed, uint64_t out[2])
{
    unsigned long long first, second;
    PyObject *both = by_python("blake", key, seed);
    int status = both == NULL || !PyArg_ParseTuple(both, "KK", &first, &second) ? -1 : 0;
    Py_XDECREF(both);
    if (status == 0) {
        out[0] = first;
        out[1] = second;
    }
    return status;
}

static int object_hash(PyObject *bytes, uint64_t seed, uint64_t kind, uint64_t out[2])
{
    char *at;
    Py_ssize_t len;
    if (bytes == NULL || PyBytes_AsStringAndSize(bytes, &at, &len))
        return -1;
    return bytes_hash(at, (size_t)len, seed, kind, out);
}

static int text_hash(PyObject *key, uint64_t seed, uint64_t out[2])
{
    Py_ssize_t len;
    const char *at = PyUnicode_AsUTF8AndSize(key, &len);
    if (at != NULL)
        return bytes_hash(at, (size_t)len, seed, TEXT, out);
    PyErr_Clear(); /* lone surrogates */
    PyObject *kept = PyUnicode_AsEncodedString(key, "utf-8", "surrogatepass");
    int status = object_hash(kept, seed, TEXT, out);
    Py_XDECREF(kept);
    return status;
}

static int int_hash(PyObject *key, uint64_t seed, uint64_t out[2])
{
    int is_more;
    long long found = PyLong_AsLongLongAndOverflow(key, &is_more);
    if (found == -1 && PyErr_Occurred())
        return -1;
    if (!is_more)
        return bytes_hash((const char *)&found, 8, seed, NUMBER, out);
    PyObject *kept = by_python("int_bytes", key, seed);
    int status = object_hash(kept, seed, LARGE_NUMBER, out);
    Py_XDECREF(kept);
    return status;
}

/* A key of another type than str, int and bytes themselves: of a subclass, or what has __index__. */
static int other_hash(PyObject *key, uint64_t seed, uint64_t out[2])
{
    if (PyUnicode_Check(key))
        return text_hash(key, seed, out);
    if (PyBytes_Check(key))
        return object_hash(key, seed, BYTES, out);
    PyObject *whole = PyNumber_Index(key);
    int status = whole == NULL ? -1 : int_hash(whole, seed, out);
    Py_XDECREF(whole);
    return status;
}

int key_hash(PyObject *key, uint64_t mark, uint64_t seed, uint64_t out[2])
{
    if (LIKELY(mark == MARK_SIP)) {
        if (Py_IS_TYPE(key, &PyUnicode_Type))
            return text_hash(key, seed, out);
        if (Py_IS_TYPE(key, &PyLong_Type))
            return int_hash(key, seed, out);
        if (Py_IS_TYPE(key, &PyBytes_Type))
            return object_hash(key, seed, BYTES, out);
    }
    if (is_key(key))
        return mark == MARK_SIP ? other_hash(key, seed, out) : blake_hash(key, seed, out);
    PyErr_Format(PyExc_TypeError, "a key is a str, bytes or an int, not %R", key);
    return -1;
}

int is_key(PyObject *key) { return PyUnicode_Check(key) || PyBytes_Check(key) || PyIndex_Check(key); }

void keys_drop(Keys *it)
{
    free(it->hashes);
    free(it->prints);
}

/* Room for that many keys. */
static int keys_room(Keys *it, size_t room)
{
    uint64_t *hashes = room > (size_t)PY_SSIZE_T_MAX / 16 ? NULL : realloc(it->hashes, 8 * room + 8);
    it->hashes = hashes == NULL ? it->hashes : hashes;
    uint64_t *prints = hashes == NULL ? NULL : realloc(it->prints, 8 * room + 8);
    it->prints = prints == NULL ? it->prints : prints;
    if (prints != NULL)
        return 0;
    PyErr_NoMemory();
    return -1;
}

static void keys_put(Keys *it, size_t at, const uint64_t both[2])
{
    it->hashes[at] = both[0];
    it->prints[at] = both[1];
}

/* Of an array of whole numbers, without the GIL. */
static int array_hash(Keys *it, PyObject *keys, uint64_t seed)
{
    Integers from;
    if (integers_take(&from, keys, "a key"))
        return -1;
    int failed = keys_room(it, from.len);
    if (!failed) {
        uint32_t status = BITM_OK;
        it->count = from.len;
        Py_BEGIN_ALLOW_THREADS(void)
        integers_load(&from, 0, from.len, it->prints); /* also those below 0 */
        for (size_t i = 0; i < from.len && status == BITM_OK; i++) {
            uint64_t both[2] = {0, 0};
            status = number_hash(it->prints[i], from.is_signed, seed, both);
            keys_put(it, i, both);
        }
        Py_END_ALLOW_THREADS
        failed = status == BITM_OK ? 0 : (wrong(), -1);
    }
    integers_drop(&from);
    return failed;
}

static int each_hash(Keys *it, PyObject *keys, uint64_t mark, uint64_t seed)
{
    PyObject *iterator = PyObject_GetIter(keys), *key;
    size_t room = 0;
    while (iterator != NULL && (key = next_item(iterator, it->count)) != NULL) {
        uint64_t both[2];
        int status = key_hash(key, mark, seed, both);
        Py_DECREF(key);
        if (status == 0 && it->count == room)
            status = keys_room(it, room = room == 0 ? 64 : 2 * room);
        if (status)
            break;
        keys_put(it, it->count++, both);
    }
    Py_XDECREF(iterator);
    return PyErr_Occurred() ? -1 : 0;
}

int keys_hash(Keys *it, PyObject *keys, uint64_t mark, uint64_t seed)
{
    PyObject *is_whole = Py_False;
    int is_array = mark == MARK_SIP ? is_instance(keys, "numpy", "ndarray") : 0;
    *it = (Keys){NULL, NULL, 0};
    if (is_array < 0)
        return -1;
    if (is_array && PyObject_CheckBuffer(keys)) {
        is_whole = more("is_whole", PyTuple_Pack(1, keys));
        Py_XDECREF(is_whole);
    }
    int status = is_whole == NULL     ? -1
                 : is_whole == Py_True ? array_hash(it, keys, seed)
                                       : each_hash(it, keys, mark, seed);
    if (status)
        keys_drop(it);
    return status;
}
