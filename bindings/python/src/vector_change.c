/* bitm.BitVector: what changes its bits, and what two vectors make. */
#include "vector.h"

PyObject *vector_fill(PyObject *self, ARGUMENTS)
{
    Vector *it = (Vector *)self;
    uint64_t range[2];
    int bit;
    if (range_of(it, "fill", 0, args, count, keywords, &bit, range))
        return NULL;
    if (bitm_bits_fill_range(WRITTEN(it), range[0], range[1], bit) != BITM_OK)
        return range_outside(it, range);
    Py_RETURN_NONE;
}

PyObject *vector_flip(PyObject *self, ARGUMENTS)
{
    Vector *it = (Vector *)self;
    uint64_t range[2];
    int bit;
    if (range_of(it, "flip", 1, args, count, keywords, &bit, range))
        return NULL;
    if (bitm_bits_flip_range(WRITTEN(it), range[0], range[1]) != BITM_OK)
        return range_outside(it, range);
    Py_RETURN_NONE;
}

/* ---- two vectors */

PyObject *vector_copy(PyObject *self, PyObject *none)
{
    const Bits *bits = &((Vector *)self)->bits;
    (void)none;
    return (PyObject *)vector_of_range(bits, 0, bits->len);
}

typedef uint32_t (*combination)(uint64_t *, size_t, const uint64_t *, size_t);

static int combine(Vector *it, const Vector *other, combination call)
{
    if (it->bits.len == other->bits.len)
        return call(it->words, it->bits.words_len, other->bits.words, other->bits.words_len) == BITM_OK ? 0 : -1;
    PyErr_Format(PyExc_ValueError, "the bit vectors have different lengths, %llu and %llu bits",
                 (unsigned long long)it->bits.len, (unsigned long long)other->bits.len);
    return -1;
}

/* Into a copy of one, or in place: into a copy too where both are the same vector, for the words may not overlap. */
static PyObject *combined(PyObject *self, PyObject *other, combination call, int is_new)
{
    if (!PyObject_TypeCheck(self, Vector_Type) || !PyObject_TypeCheck(other, Vector_Type))
        Py_RETURN_NOTIMPLEMENTED;
    PyObject *made = is_new ? vector_copy(self, NULL) : Py_NewRef(self);
    PyObject *with = !is_new && self == other ? vector_copy(self, NULL) : Py_NewRef(other);
    if (made == NULL || with == NULL || combine((Vector *)made, (Vector *)with, call))
        Py_CLEAR(made);
    Py_XDECREF(with);
    return made;
}

PyObject *vector_and(PyObject *a, PyObject *b) { return combined(a, b, bitm_bits_and, 1); }
PyObject *vector_or(PyObject *a, PyObject *b) { return combined(a, b, bitm_bits_or, 1); }
PyObject *vector_xor(PyObject *a, PyObject *b) { return combined(a, b, bitm_bits_xor, 1); }
PyObject *vector_iand(PyObject *a, PyObject *b) { return combined(a, b, bitm_bits_and, 0); }
PyObject *vector_ior(PyObject *a, PyObject *b) { return combined(a, b, bitm_bits_or, 0); }
PyObject *vector_ixor(PyObject *a, PyObject *b) { return combined(a, b, bitm_bits_xor, 0); }

PyObject *vector_and_not(PyObject *self, PyObject *other)
{
    if (PyObject_TypeCheck(other, Vector_Type))
        return combined(self, other, bitm_bits_and_not, 1);
    PyErr_Format(PyExc_TypeError, "a BitVector is needed, not %R", Py_TYPE(other));
    return NULL;
}

PyObject *vector_invert(PyObject *self)
{
    Vector *made = (Vector *)vector_copy(self, NULL);
    if (made != NULL && bitm_bits_flip_range(WRITTEN(made), 0, made->bits.len) != BITM_OK)
        Py_CLEAR(made);
    return (PyObject *)made;
}

/* As bitarray's: << brings bits to lower positions, and 0 bits come in at the end. */
static PyObject *shifted(PyObject *self, PyObject *by, int is_left)
{
    uint64_t gap;
    if (!PyObject_TypeCheck(self, Vector_Type))
        Py_RETURN_NOTIMPLEMENTED;
    if (number(by, "a shift", &gap)) {
        if (PyErr_ExceptionMatches(PyExc_OverflowError)) {
            PyErr_Clear();
            PyErr_SetString(PyExc_ValueError, "a shift has to be at least 0 and below 2**64");
        }
        return NULL;
    }
    const Bits *bits = &((Vector *)self)->bits;
    Vector *made = vector_new(Vector_Type, bits->len);
    if (made != NULL && gap < bits->len)
        vector_copy_range(made, is_left ? 0 : gap, bits, is_left ? gap : 0, bits->len - gap);
    return (PyObject *)made;
}

PyObject *vector_lshift(PyObject *self, PyObject *by) { return shifted(self, by, 1); }
PyObject *vector_rshift(PyObject *self, PyObject *by) { return shifted(self, by, 0); }

PyObject *vector_concat(PyObject *self, PyObject *other)
{
    if (!PyObject_TypeCheck(other, Vector_Type)) {
        PyErr_Format(PyExc_TypeError, "a BitVector is needed, not %R", Py_TYPE(other));
        return NULL;
    }
    const Bits *a = &((Vector *)self)->bits, *b = &((Vector *)other)->bits;
    Vector *made = vector_new(Vector_Type, a->len + b->len);
    if (made != NULL) {
        vector_copy_range(made, 0, a, 0, a->len);
        vector_copy_range(made, a->len, b, 0, b->len);
    }
    return (PyObject *)made;
}
