/* bitm.BitVector: queries, and numbers in bits. */
#include "vector.h"

/* ---- ranges */

/* Bit, start and stop of count, fill and flip (which has no bit). */
int range_of(Vector *it, const char *name, int skip, ARGUMENTS, int *bit, uint64_t range[2])
{
    static const char *const names[] = {"bit", "start", "stop"};
    PyObject *given[3] = {NULL, NULL, NULL};
    if (pick(name, names + skip, 0, 3 - skip, args, count, keywords, given + skip) ||
        number_or(given[1], 0, "the start", &range[0]) || number_or(given[2], 0, "the stop", &range[1]))
        return -1;
    *bit = given[0] == NULL ? 1 : bit_of(given[0]);
    if (given[2] == NULL || given[2] == Py_None)
        range[1] = it->bits.len;
    return *bit < 0 ? -1 : 0;
}

PyObject *range_outside(const Vector *it, const uint64_t range[2])
{
    PyErr_Format(PyExc_IndexError, "bits from %llu to %llu, of %llu bits", (unsigned long long)range[0],
                 (unsigned long long)range[1], (unsigned long long)it->bits.len);
    return NULL;
}

PyObject *vector_count(PyObject *self, ARGUMENTS)
{
    Vector *it = (Vector *)self;
    uint64_t range[2], out = 0;
    int bit;
    if (range_of(it, "count", 0, args, count, keywords, &bit, range))
        return NULL;
    if (bitm_bits_count_range(BITS(it->bits), bit, range[0], range[1], &out) != BITM_OK)
        return range_outside(it, range);
    return boxed(out);
}

typedef uint32_t (*nearest)(const uint64_t *, size_t, uint64_t, bool, uint64_t, uint64_t *);

static PyObject *near(PyObject *self, PyObject *query, nearest call, int bit)
{
    uint64_t from, out = 0;
    if (number(query, "a position", &from))
        return NULL;
    uint32_t status = call(BITS(((Vector *)self)->bits), bit, from, &out);
    return answer_or_none(status, &out);
}

PyObject *vector_next_one(PyObject *self, PyObject *query) { return near(self, query, bitm_bits_next, 1); }
PyObject *vector_next_zero(PyObject *self, PyObject *query) { return near(self, query, bitm_bits_next, 0); }
PyObject *vector_previous_one(PyObject *self, PyObject *query) { return near(self, query, bitm_bits_previous, 1); }
PyObject *vector_previous_zero(PyObject *self, PyObject *query) { return near(self, query, bitm_bits_previous, 0); }

/* The position of the first such bit in a range: 1 and the position, 0 where there is none, -1 and an error. */
static int find_in(PyObject *self, const char *name, ARGUMENTS, uint64_t *out)
{
    static const char *const names[] = {"bit", "start", "stop"};
    PyObject *given[3];
    uint64_t start, stop;
    if (pick(name, names, 1, 3, args, count, keywords, given) || number_or(given[1], 0, "the start", &start) ||
        number_or(given[2], UINT64_MAX, "the stop", &stop))
        return -1;
    int bit = bit_of(given[0]);
    if (bit < 0)
        return -1;
    Bits bits = ((Vector *)self)->bits;
    bits.len = stop < bits.len ? stop : bits.len;
    return bitm_bits_next(BITS(bits), bit, start, out) == BITM_OK;
}

PyObject *vector_find(PyObject *self, ARGUMENTS)
{
    uint64_t out = 0;
    int found = find_in(self, "find", args, count, keywords, &out);
    return found < 0 ? NULL : found ? boxed(out) : PyLong_FromLong(-1);
}

PyObject *vector_index(PyObject *self, ARGUMENTS)
{
    uint64_t out = 0;
    int found = find_in(self, "index", args, count, keywords, &out);
    if (found == 0)
        PyErr_SetString(PyExc_ValueError, "there is no such bit");
    return found > 0 ? boxed(out) : NULL;
}

PyObject *vector_any(PyObject *self, PyObject *none)
{
    (void)none;
    return PyBool_FromLong(bits_contains(self, Py_True));
}

PyObject *vector_all(PyObject *self, PyObject *none)
{
    (void)none;
    return PyBool_FromLong(!bits_contains(self, Py_False));
}

/* ---- numbers in bits */

/* Begin or index, width and value of a number: width and value are such as fit a number of 64 bits. */
static int numbers_of(const char *call, const char *const *names, int most, ARGUMENTS, uint64_t out[3])
{
    PyObject *given[3];
    if (pick(call, names, most, most, args, count, keywords, given))
        return -1;
    for (int i = 0; i < most; i++)
        if (number(given[i], names[i], &out[i]))
            return -1;
    if (out[1] > 64) {
        PyErr_Format(PyExc_ValueError, "a number has at most 64 bits, not %llu", (unsigned long long)out[1]);
        return -1;
    }
    if (most == 3 && out[1] < 64 && out[2] >> out[1]) {
        PyErr_Format(PyExc_OverflowError, "%llu does not fit in %llu bits", (unsigned long long)out[2],
                     (unsigned long long)out[1]);
        return -1;
    }
    return 0;
}

static PyObject *number_outside(const Vector *it, const char *what, const uint64_t found[3])
{
    PyErr_Format(PyExc_IndexError, "%s %llu with %llu bits, of %llu bits", what, (unsigned long long)found[0],
                 (unsigned long long)found[1], (unsigned long long)it->bits.len);
    return NULL;
}

PyObject *vector_get_bits(PyObject *self, ARGUMENTS)
{
    static const char *const names[] = {"begin", "length"};
    const Vector *it = (Vector *)self;
    uint64_t found[3], out = 0;
    if (numbers_of("get_bits", names, 2, args, count, keywords, found))
        return NULL;
    if (bitm_bits_get_number(BITS(it->bits), found[0], (uint32_t)found[1], &out) != BITM_OK)
        return number_outside(it, "the number from position", found);
    return boxed(out);
}

PyObject *vector_set_bits(PyObject *self, ARGUMENTS)
{
    static const char *const names[] = {"begin", "length", "value"};
    const Vector *it = (Vector *)self;
    uint64_t found[3];
    if (numbers_of("set_bits", names, 3, args, count, keywords, found))
        return NULL;
    if (bitm_bits_set_number(WRITTEN(it), found[0], (uint32_t)found[1], found[2]) != BITM_OK)
        return number_outside(it, "the number from position", found);
    Py_RETURN_NONE;
}

PyObject *vector_get_fragment(PyObject *self, ARGUMENTS)
{
    static const char *const names[] = {"index", "width"};
    const Vector *it = (Vector *)self;
    uint64_t found[3], out = 0;
    if (numbers_of("get_fragment", names, 2, args, count, keywords, found))
        return NULL;
    if (bitm_bits_get_fragment(BITS(it->bits), found[0], (uint32_t)found[1], &out) != BITM_OK)
        return number_outside(it, "the number at index", found);
    return boxed(out);
}

PyObject *vector_set_fragment(PyObject *self, ARGUMENTS)
{
    static const char *const names[] = {"index", "width", "value"};
    const Vector *it = (Vector *)self;
    uint64_t found[3];
    if (numbers_of("set_fragment", names, 3, args, count, keywords, found))
        return NULL;
    if (bitm_bits_set_fragment(WRITTEN(it), found[0], (uint32_t)found[1], found[2]) != BITM_OK)
        return number_outside(it, "the number at index", found);
    Py_RETURN_NONE;
}
