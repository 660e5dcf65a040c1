/* bitm.BitVector: what it is made of. */
#include "vector.h"

/* A vector of a class that has the words of a new BitVector, which is dropped: that one was filled where no other
 * thread could reach it. An object of a subclass is the collector's from its birth, so that gc.get_objects() gives it
 * to all. */
PyObject *vector_as(PyObject *type, Vector *made)
{
    if (made == NULL || type == BORROWED(Vector_Type))
        return (PyObject *)made;
    Vector *it = vector_new((PyTypeObject *)type, 0);
    if (it != NULL && vector_take(it, made))
        Py_CLEAR(it);
    DROP(made);
    return (PyObject *)it;
}

/* Copies the first bits into a new vector, which nobody else has yet: without the GIL, but from another BitVector,
 * whose bits may change meanwhile. */
static void copied(Vector *made, PyObject *from, const Bits *bits)
{
    if (PyObject_TypeCheck(from, Vector_Type)) {
        vector_copy_range(made, 0, bits, 0, made->bits.len);
        return;
    }
    Py_BEGIN_ALLOW_THREADS
    vector_copy_range(made, 0, bits, 0, made->bits.len);
    Py_END_ALLOW_THREADS
}

/* The first bits of words, copied; of all where no length is given. */
static Vector *of_words(PyObject *from, int is_given, uint64_t length)
{
    Bits bits;
    Vector *made = NULL;
    Memory *it = memory_new();
    if (it != NULL && memory_words(it, from, &bits.words, &bits.words_len, &bits.len) == 0) {
        uint64_t len = is_given ? length : bits.len;
        if (len > bits.len)
            PyErr_Format(PyExc_ValueError, "the buffer has %llu bits, not %llu", (unsigned long long)bits.len,
                         (unsigned long long)len);
        else if ((made = vector_new(Vector_Type, len)) != NULL)
            copied(made, from, &bits);
    }
    DROP(it);
    return made;
}

PyObject *vector_from_words(PyObject *type, ARGUMENTS)
{
    static const char *const names[] = {"words", "length"};
    PyObject *given[2];
    uint64_t length;
    if (pick("from_words", names, 1, 2, args, count, keywords, given) || number_or(given[1], 0, "the length", &length))
        return NULL;
    return vector_as(type, of_words(given[0], given[1] != NULL && given[1] != Py_None, length));
}

/* ---- bits */

/* Whether each character is 0 or 1; the bits of those before the first that is not. Needs no GIL. */
static int read_text(Vector *to, const char *text)
{
    for (uint64_t i = 0; i < to->bits.len; i++) {
        if (text[i] == '1')
            bitm_set_bit_at(to->words, i, true);
        else if (text[i] != '0')
            return 0;
    }
    return 1;
}

static Vector *of_text(PyObject *text)
{
    Py_ssize_t count;
    int is_text;
    const char *at = PyUnicode_AsUTF8AndSize(text, &count);
    Vector *made = at == NULL ? NULL : vector_new(Vector_Type, (uint64_t)count);
    if (made == NULL)
        return NULL;
    Py_BEGIN_ALLOW_THREADS
    is_text = read_text(made, at);
    Py_END_ALLOW_THREADS
    if (!is_text) {
        PyErr_SetString(PyExc_ValueError, "a string of bits has 0 and 1 alone");
        Py_CLEAR(made);
    }
    return made;
}

/* NumPy packs the bits itself. */
static Vector *of_array(PyObject *array)
{
    PyObject *both = more("packed_bits", PyTuple_Pack(1, array)), *bytes = NULL;
    Vector *made = NULL;
    unsigned long long count;
    if (both != NULL && PyArg_ParseTuple(both, "OK", &bytes, &count))
        made = of_words(bytes, 1, count);
    Py_XDECREF(both);
    return made;
}

static Vector *of_iterable(PyObject *from)
{
    PyObject *iterator = PyObject_GetIter(from), *value;
    Vector *made = iterator == NULL ? NULL : vector_new(Vector_Type, 0);
    while (made != NULL && (value = next_item(iterator, (size_t)made->bits.len)) != NULL) {
        int bit = -1;
        if (PyUnicode_Check(value) || PyBytes_Check(value))
            PyErr_Format(PyExc_TypeError, "a bit is true or false, not %R", value);
        else
            bit = PyObject_IsTrue(value);
        Py_DECREF(value);
        if (bit < 0 || vector_resize(made, made->bits.len + 1))
            break;
        bitm_set_bit_at(made->words, made->bits.len - 1, bit);
    }
    Py_XDECREF(iterator);
    if (PyErr_Occurred())
        Py_CLEAR(made);
    return made;
}

Vector *vector_of(PyObject *from)
{
    if (PyUnicode_Check(from))
        return of_text(from);
    int is_of_words = PyObject_TypeCheck(from, Vector_Type) ? 1 : is_instance(from, "bitarray", "bitarray"),
        is_array = is_of_words ? 0 : is_instance(from, "numpy", "ndarray");
    if (is_of_words < 0 || is_array < 0)
        return NULL;
    if (is_of_words)
        return of_words(from, 0, 0);
    if (is_array)
        return of_array(from);
    if (PyBytes_Check(from) || PyByteArray_Check(from) || PyMemoryView_Check(from)) {
        PyErr_SetString(PyExc_TypeError, "bytes are not bits: see BitVector.from_words, or pass a string of 0 and 1");
        return NULL;
    }
    return of_iterable(from);
}

PyObject *vector_from_bits(PyObject *type, PyObject *from) { return vector_as(type, vector_of(from)); }
