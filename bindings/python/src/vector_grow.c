/* bitm.BitVector: slice assignment, and what changes its length. */
#include "vector.h"

/* Puts other bits (not its own) in place of those from start to stop. */
static int splice(Vector *it, uint64_t start, uint64_t stop, const Bits *other)
{
    if (stop - start == other->len) {
        vector_copy_range(it, start, other, 0, other->len);
        return 0;
    }
    Vector *made = vector_is_used(it) ? NULL : vector_new(Vector_Type, it->bits.len - (stop - start) + other->len);
    if (made == NULL)
        return -1;
    vector_copy_range(made, 0, &it->bits, 0, start);
    vector_copy_range(made, start, other, 0, other->len);
    vector_copy_range(made, start + other->len, &it->bits, stop, it->bits.len - stop);
    int status = vector_take(it, made);
    DROP(made);
    return status;
}

/* ---- slices whose items are `step` apart: count of them from start on */

static int slice_delete(Vector *it, Py_ssize_t start, Py_ssize_t step, Py_ssize_t count)
{
    if (count == 0)
        return 0;
    if (vector_is_used(it))
        return -1;
    Py_ssize_t first = step < 0 ? start + (count - 1) * step : start, gap = step < 0 ? -step : step, to = first;
    for (Py_ssize_t from = first; from < (Py_ssize_t)it->bits.len; from++)
        if ((from - first) % gap != 0 || (from - first) / gap >= count)
            bitm_set_bit_at(it->words, (uint64_t)to++, bitm_bit_at(it->words, (uint64_t)from));
    return vector_resize(it, it->bits.len - (uint64_t)count);
}

static int slice_assign(Vector *it, Py_ssize_t start, Py_ssize_t step, Py_ssize_t count, const Bits *other)
{
    if (other->len != (uint64_t)count) {
        PyErr_Format(PyExc_ValueError, "%llu bits cannot replace a slice of %zd", (unsigned long long)other->len,
                     count);
        return -1;
    }
    for (Py_ssize_t i = 0; i < count; i++)
        bitm_set_bit_at(it->words, (uint64_t)(start + i * step), bitm_bit_at(other->words, (uint64_t)i));
    return 0;
}

static int slice_fill(Vector *it, Py_ssize_t start, Py_ssize_t step, Py_ssize_t count, int bit)
{
    if (step == 1)
        return bitm_bits_fill_range(WRITTEN(it), (uint64_t)start, (uint64_t)(start + count), bit) == BITM_OK ? 0 : -1;
    for (Py_ssize_t i = 0; i < count; i++)
        bitm_set_bit_at(it->words, (uint64_t)(start + i * step), bit);
    return 0;
}

/* Assigns a bit to each, or other bits, or with NULL deletes them. */
static int assign_slice(Vector *it, PyObject *key, PyObject *value)
{
    static const Bits nothing;
    Py_ssize_t start, stop, step;
    Vector *other = NULL;
    int bit = 0, is_bit = value != NULL && (PyBool_Check(value) || PyLong_Check(value));
    if (PySlice_Unpack(key, &start, &stop, &step) || (is_bit && (bit = bit_of(value)) < 0))
        return -1;
    if (value != NULL && !is_bit && (other = vector_of(value)) == NULL) /* a copy, also of itself */
        return -1;
    Py_ssize_t count = PySlice_AdjustIndices((Py_ssize_t)it->bits.len, &start, &stop, step);
    const Bits *bits = other == NULL ? &nothing : &other->bits;
    int status;
    if (is_bit)
        status = slice_fill(it, start, step, count, bit);
    else if (step == 1)
        status = splice(it, (uint64_t)start, (uint64_t)(start + count), bits);
    else if (value == NULL)
        status = slice_delete(it, start, step, count);
    else
        status = slice_assign(it, start, step, count, bits);
    DROP(other);
    return status;
}

int vector_assign(PyObject *self, PyObject *key, PyObject *value)
{
    static const Bits nothing;
    Vector *it = (Vector *)self;
    Py_ssize_t index;
    if (PySlice_Check(key))
        return assign_slice(it, key, value);
    int bit = index_of(key, &index) ? -1 : value == NULL ? 0 : bit_of(value);
    if (bit < 0)
        return -1;
    uint64_t position = from_front(index, it->bits.len);
    if (value == NULL && position < it->bits.len)
        return splice(it, position, position + 1, &nothing);
    if (LIKELY(value != NULL && bitm_bits_set(WRITTEN(it), position, bit) == BITM_OK))
        return 0;
    (void)outside(index, it->bits.len, "bits");
    return -1;
}

/* ---- growth */

PyObject *vector_append(PyObject *self, PyObject *value)
{
    Vector *it = (Vector *)self;
    int bit = bit_of(value);
    if (bit < 0 || vector_resize(it, it->bits.len + 1) || bitm_bits_set(WRITTEN(it), it->bits.len - 1, bit) != BITM_OK)
        return NULL;
    Py_RETURN_NONE;
}

PyObject *vector_extend(PyObject *self, PyObject *values)
{
    Vector *it = (Vector *)self, *other = vector_of(values);
    if (other == NULL)
        return NULL;
    uint64_t before = it->bits.len;
    int status = vector_resize(it, before + other->bits.len);
    if (status == 0)
        vector_copy_range(it, before, &other->bits, 0, other->bits.len);
    DROP(other);
    if (status)
        return NULL;
    Py_RETURN_NONE;
}

PyObject *vector_iconcat(PyObject *self, PyObject *values)
{
    PyObject *done = vector_extend(self, values);
    Py_XDECREF(done);
    return done == NULL ? NULL : Py_NewRef(self);
}

PyObject *vector_insert(PyObject *self, ARGUMENTS)
{
    static const char *const names[] = {"index", "bit"};
    Vector *it = (Vector *)self;
    PyObject *given[2];
    if (pick("insert", names, 2, 2, args, count, keywords, given))
        return NULL;
    Py_ssize_t at = PyNumber_AsSsize_t(given[0], NULL), end = at, step = 1;
    int bit = at == -1 && PyErr_Occurred() ? -1 : bit_of(given[1]);
    if (bit < 0)
        return NULL;
    uint64_t word = (uint64_t)bit;
    Bits one = {&word, 1, 1};
    (void)PySlice_AdjustIndices((Py_ssize_t)it->bits.len, &at, &end, step); /* as a list does */
    if (splice(it, (uint64_t)at, (uint64_t)at, &one))
        return NULL;
    Py_RETURN_NONE;
}

PyObject *vector_pop(PyObject *self, ARGUMENTS)
{
    static const char *const names[] = {"index"};
    static const Bits nothing;
    Vector *it = (Vector *)self;
    PyObject *given[1];
    uint64_t position;
    if (pick("pop", names, 0, 1, args, count, keywords, given))
        return NULL;
    Py_ssize_t index = given[0] == NULL ? -1 : PyNumber_AsSsize_t(given[0], PyExc_IndexError);
    if ((given[0] != NULL && index == -1 && PyErr_Occurred()) || inside(index, it->bits.len, "bits", &position))
        return NULL;
    int bit = bitm_bit_at(it->bits.words, position);
    int is_last = position + 1 == it->bits.len;
    if (is_last ? vector_resize(it, position) : splice(it, position, position + 1, &nothing))
        return NULL;
    return PyBool_FromLong(bit);
}

PyObject *vector_clear(PyObject *self, PyObject *none)
{
    (void)none;
    if (vector_resize((Vector *)self, 0))
        return NULL;
    Py_RETURN_NONE;
}
