/* bitm.BitVector. Calls that read or write its words keep the GIL, since another thread may change them. Arguments are
 * taken first, for they may run Python code that changes the length: words and length are looked at afterwards. */
#ifndef BITM_VECTOR_H
#define BITM_VECTOR_H
#include "core.h"

typedef struct {
    PyObject_HEAD Bits bits; /* those past the length are 0 */
    uint64_t *words;
    size_t room; /* words that there are */
    Py_ssize_t exports, shape, stride;
    PyObject *weak;
} Vector;

/* Its bits, as calls take them that write. */
#define WRITTEN(it) (it)->words, (it)->bits.words_len, (it)->bits.len

#define ARGUMENTS PyObject *const *args, Py_ssize_t count, PyObject *keywords

/* A new vector of the given number of 0 bits; NULL and MemoryError. */
Vector *vector_new(PyTypeObject *type, uint64_t len);

/* A new BitVector of count bits from a position on. The caller knows that they are inside. */
Vector *vector_of_range(const Bits *from, uint64_t begin, uint64_t count);

/* Copies bits that are inside both. */
void vector_copy_range(Vector *to, uint64_t to_begin, const Bits *from, uint64_t from_begin, uint64_t count);

/* A new BitVector of what from_bits takes. */
Vector *vector_of(PyObject *from);

/* Another length, whose new bits are 0; all bits of another vector, whose own these become. -1 and BufferError where
 * others use the words. */
int vector_resize(Vector *it, uint64_t len);
int vector_take(Vector *it, Vector *other);
int vector_is_used(const Vector *it);

/* The buffer of its words, which locks the length until it is released. A class of Python's may have other buffers. */
int vector_buffer(PyObject *self, Py_buffer *out, int flags);
void vector_release(PyObject *self, Py_buffer *held);

/* A vector of a class that has the words of a new BitVector, or of NULL and an error; takes the reference. */
PyObject *vector_as(PyObject *type, Vector *made);

/* vector_make.c, vector_list.c */
PyObject *vector_from_bits(PyObject *type, PyObject *from);
PyObject *vector_from_words(PyObject *type, ARGUMENTS);
PyObject *vector_from_indices(PyObject *type, ARGUMENTS);
PyObject *vector_set_list(PyObject *self, ARGUMENTS);

/* vector_query.c */
int range_of(Vector *it, const char *name, int skip, ARGUMENTS, int *bit, uint64_t range[2]);
PyObject *range_outside(const Vector *it, const uint64_t range[2]);
PyObject *vector_count(PyObject *self, ARGUMENTS);
PyObject *vector_find(PyObject *self, ARGUMENTS);
PyObject *vector_index(PyObject *self, ARGUMENTS);
PyObject *vector_any(PyObject *self, PyObject *none);
PyObject *vector_all(PyObject *self, PyObject *none);
PyObject *vector_next_one(PyObject *self, PyObject *from);
PyObject *vector_next_zero(PyObject *self, PyObject *from);
PyObject *vector_previous_one(PyObject *self, PyObject *from);
PyObject *vector_previous_zero(PyObject *self, PyObject *from);
PyObject *vector_get_bits(PyObject *self, ARGUMENTS);
PyObject *vector_set_bits(PyObject *self, ARGUMENTS);
PyObject *vector_get_fragment(PyObject *self, ARGUMENTS);
PyObject *vector_set_fragment(PyObject *self, ARGUMENTS);

/* vector_change.c */
PyObject *vector_fill(PyObject *self, ARGUMENTS);
PyObject *vector_flip(PyObject *self, ARGUMENTS);
PyObject *vector_copy(PyObject *self, PyObject *none);
PyObject *vector_and(PyObject *a, PyObject *b);
PyObject *vector_or(PyObject *a, PyObject *b);
PyObject *vector_xor(PyObject *a, PyObject *b);
PyObject *vector_iand(PyObject *a, PyObject *b);
PyObject *vector_ior(PyObject *a, PyObject *b);
PyObject *vector_ixor(PyObject *a, PyObject *b);
PyObject *vector_and_not(PyObject *a, PyObject *b);
PyObject *vector_invert(PyObject *self);
PyObject *vector_lshift(PyObject *self, PyObject *by);
PyObject *vector_rshift(PyObject *self, PyObject *by);
PyObject *vector_concat(PyObject *self, PyObject *other);

/* vector_grow.c */
int vector_assign(PyObject *self, PyObject *key, PyObject *value);
PyObject *vector_append(PyObject *self, PyObject *value);
PyObject *vector_extend(PyObject *self, PyObject *values);
PyObject *vector_iconcat(PyObject *self, PyObject *values);
PyObject *vector_insert(PyObject *self, ARGUMENTS);
PyObject *vector_pop(PyObject *self, ARGUMENTS);
PyObject *vector_clear(PyObject *self, PyObject *none);

#endif
