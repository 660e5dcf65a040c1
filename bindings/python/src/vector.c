/* bitm.BitVector: its memory, and the type. */
#include "vector.h"
#include "vector_docs.h"

int vector_is_used(const Vector *it)
{
    if (it->exports > 0)
        PyErr_SetString(PyExc_BufferError, "others use its words (an index, a memoryview): its length cannot change");
    return it->exports > 0;
}

/* Other words, of which the first bits are meant. */
static void replace(Vector *it, uint64_t *words, size_t room, uint64_t len)
{
    it->words = words;
    it->room = room;
    Bits bits = {words, bitm_bits_words_len(len), len};
    it->bits = bits;
}

int vector_resize(Vector *it, uint64_t len)
{
    size_t before = it->bits.words_len, after = bitm_bits_words_len(len), room = it->room;
    uint64_t *words = it->words;
    if (len == it->bits.len)
        return 0;
    if (vector_is_used(it))
        return -1;
    if (after > room) {
        room = it->bits.len > 0 && after < room + room / 8 + 8 ? room + room / 8 + 8 : after;
        words = room > (size_t)PY_SSIZE_T_MAX / 8 ? NULL : aligned_resize(words, 8 * before, 8 * room);
        if (words == NULL) {
            PyErr_NoMemory();
            return -1;
        }
    }
    if (after > before)
        memset(words + before, 0, 8 * (after - before));
    replace(it, words, room, len);
    return bitm_bits_clear_from(WRITTEN(it)) == BITM_OK ? 0 : -1;
}

int vector_take(Vector *it, Vector *other)
{
    Vector before = *it;
    if (vector_is_used(it))
        return -1;
    replace(it, other->words, other->room, other->bits.len);
    replace(other, before.words, before.room, before.bits.len);
    return 0;
}

Vector *vector_new(PyTypeObject *type, uint64_t len)
{
    size_t words = bitm_bits_words_len(len), room = words < 1 ? 1 : words;
    uint64_t *own = room > (size_t)PY_SSIZE_T_MAX / 8 ? NULL : aligned_new(8 * room);
    if (own == NULL)
        return (Vector *)PyErr_NoMemory();
    Vector *it = (Vector *)PyType_GenericAlloc(type, 0);
    if (it == NULL)
        aligned_free(own);
    else
        replace(it, own, room, len);
    return it;
}

static PyObject *vector_create(PyTypeObject *type, PyObject *args, PyObject *keywords)
{
    (void)args;
    (void)keywords;
    return (PyObject *)vector_new(type, 0); /* whole without __init__ too */
}

static int vector_init(PyObject *self, PyObject *args, PyObject *keywords)
{
    static char *names[] = {"length", NULL};
    PyObject *given = NULL;
    uint64_t len = 0;
    if (!PyArg_ParseTupleAndKeywords(args, keywords, "|O:BitVector", names, &given) ||
        (given != NULL && number(given, "the length", &len)))
        return -1;
    Vector *made = vector_new(Vector_Type, len);
    int status = made == NULL ? -1 : vector_take((Vector *)self, made);
    DROP(made);
    return status;
}

static void vector_dealloc(PyObject *self)
{
    Vector *it = (Vector *)self;
    PyTypeObject *type = Py_TYPE(self);
    if (it->weak != NULL)
        PyObject_ClearWeakRefs(self);
    aligned_free(it->words);
    ((freefunc)PyType_GetSlot(type, Py_tp_free))(self);
    Py_DECREF(type);
}

void vector_copy_range(Vector *to, uint64_t to_begin, const Bits *from, uint64_t from_begin, uint64_t count)
{
    if (bitm_bits_copy_range(to->words, to->bits.words_len, to_begin, from->words, from->words_len, from_begin,
                             count) != BITM_OK)
        return; /* not reached: each caller names ranges that are inside */
}

Vector *vector_of_range(const Bits *from, uint64_t begin, uint64_t count)
{
    Vector *made = vector_new(Vector_Type, count);
    if (made != NULL)
        vector_copy_range(made, 0, from, begin, count);
    return made;
}

static PyObject *vector_repr(PyObject *self)
{
    const Bits *bits = &((Vector *)self)->bits;
    uint64_t ones = 0;
    char digits[65] = {0};
    if (bits->len > 64) {
        uint32_t status = bitm_bits_count(BITS(*bits), true, &ones);
        return status == BITM_OK
                   ? shown_as(self, "bits=%llu, ones=%llu", (unsigned long long)bits->len, (unsigned long long)ones)
                   : wrong();
    }
    for (uint64_t i = 0; i < bits->len; i++)
        digits[i] = bitm_bit_at(bits->words, i) ? '1' : '0';
    return shown_as(self, "'%s'", digits);
}

/* ---- memory */

int vector_buffer(PyObject *self, Py_buffer *out, int flags)
{
    Vector *it = (Vector *)self;
    out->obj = NULL;
    if (flags & PyBUF_WRITABLE) {
        PyErr_SetString(PyExc_BufferError, "the words can only be read: bits past the length stay 0");
        return -1;
    }
    it->shape = (Py_ssize_t)it->bits.words_len;
    it->stride = 8;
    out->buf = it->words;
    out->obj = Py_NewRef(self);
    out->len = 8 * it->shape;
    out->itemsize = 8;
    out->readonly = 1;
    out->ndim = 1;
    out->format = flags & PyBUF_FORMAT ? "Q" : NULL;
    out->shape = flags & PyBUF_ND ? &it->shape : NULL;
    out->strides = (flags & PyBUF_STRIDES) == PyBUF_STRIDES ? &it->stride : NULL;
    out->suboffsets = NULL;
    out->internal = NULL;
    it->exports++;
    return 0;
}

void vector_release(PyObject *self, Py_buffer *held)
{
    (void)held;
    ((Vector *)self)->exports--;
}

static PyObject *vector_words(PyObject *self, void *none)
{
    (void)none;
    return PyMemoryView_FromObject(self);
}

static PyObject *vector_tobytes(PyObject *self, PyObject *none)
{
    const Bits *bits = &((Vector *)self)->bits;
    (void)none;
    return PyBytes_FromStringAndSize((const char *)bits->words, (Py_ssize_t)(bits->len / 8 + (bits->len % 8 != 0)));
}

static PyObject *vector_sizeof(PyObject *self, PyObject *none)
{
    (void)none;
    return PyLong_FromSize_t(sizeof(Vector) + 8 * ((Vector *)self)->room);
}

/* ---- the type */

#define PLAIN(name, arguments, text) METHOD(#name, vector_##name, METH_O, arguments, text)
#define NO_ARGUMENT(name, arguments, text) METHOD(#name, vector_##name, METH_NOARGS, arguments, text)
#define NAMED(name, arguments, text) KEYWORDS(#name, vector_##name, arguments, text)
#define OF_CLASS(name, arguments, text)                                                                                \
    METHOD(#name, vector_##name, METH_FASTCALL | METH_KEYWORDS | METH_CLASS, arguments, text)
static PyMethodDef methods[] = {
    METHOD("from_bits", vector_from_bits, METH_O | METH_CLASS, "($type, bits, /)", VECTOR_FROM_BITS),
    OF_CLASS(from_indices, "($type, indices, length=None)", VECTOR_FROM_INDICES),
    OF_CLASS(from_words, "($type, words, length=None)", VECTOR_FROM_WORDS),
    NAMED(set_list, "($self, positions, bit=1)", VECTOR_SET_LIST),
    NAMED(count, "($self, bit=1, start=0, stop=None)", VECTOR_COUNT),
    NAMED(fill, "($self, bit=1, start=0, stop=None)", VECTOR_FILL),
    NAMED(flip, "($self, start=0, stop=None)", VECTOR_FLIP),
    PLAIN(next_one, "($self, position, /)", VECTOR_NEXT_ONE),
    PLAIN(next_zero, "($self, position, /)", VECTOR_NEXT_ZERO),
    PLAIN(previous_one, "($self, position, /)", VECTOR_PREVIOUS_ONE),
    PLAIN(previous_zero, "($self, position, /)", VECTOR_PREVIOUS_ZERO),
    KEYWORDS("ones", bits_ones, "($self, start=0, stop=None, *, reverse=False)", VECTOR_ONES),
    KEYWORDS("zeros", bits_zeros, "($self, start=0, stop=None, *, reverse=False)", VECTOR_ZEROS),
    NO_ARGUMENT(any, "($self, /)", VECTOR_ANY),
    NO_ARGUMENT(all, "($self, /)", VECTOR_ALL),
    PLAIN(and_not, "($self, other, /)", VECTOR_AND_NOT),
    PLAIN(append, "($self, bit, /)", VECTOR_APPEND),
    PLAIN(extend, "($self, bits, /)", VECTOR_EXTEND),
    NAMED(insert, "($self, index, bit)", VECTOR_INSERT),
    NAMED(pop, "($self, index=-1)", VECTOR_POP),
    NO_ARGUMENT(clear, "($self, /)", VECTOR_CLEAR),
    NO_ARGUMENT(copy, "($self, /)", VECTOR_COPY),
    NAMED(find, "($self, bit, start=0, stop=None)", VECTOR_FIND),
    NAMED(index, "($self, bit, start=0, stop=None)", VECTOR_INDEX),
    NAMED(get_bits, "($self, begin, length)", VECTOR_GET_BITS),
    NAMED(set_bits, "($self, begin, length, value)", VECTOR_SET_BITS),
    NAMED(get_fragment, "($self, index, width)", VECTOR_GET_FRAGMENT),
    NAMED(set_fragment, "($self, index, width, value)", VECTOR_SET_FRAGMENT),
    NO_ARGUMENT(tobytes, "($self, /)", VECTOR_TOBYTES),
    {"__sizeof__", vector_sizeof, METH_NOARGS, NULL},
    {NULL, NULL, 0, NULL}};

static PyGetSetDef attributes[] = {{"words", vector_words, NULL, DOC(VECTOR_WORDS), NULL},
                                   {NULL, NULL, NULL, NULL, NULL}};
static PyMemberDef members[] = {{"__weaklistoffset__", T_PYSSIZET, offsetof(Vector, weak), READONLY, NULL},
                                {NULL, 0, 0, 0, NULL}};

static PyType_Slot slots[] = {{Py_tp_doc, DOC(VECTOR_DOC)},
                              {Py_tp_new, vector_create},
                              {Py_tp_init, vector_init},
                              {Py_tp_dealloc, vector_dealloc},
                              {Py_tp_methods, methods},
                              {Py_tp_getset, attributes},
                              {Py_tp_members, members},
                              {Py_tp_repr, vector_repr},
                              {Py_tp_richcompare, bits_compare},
                              {Py_tp_hash, PyObject_HashNotImplemented},
                              {Py_tp_iter, bits_iter},
                              {Py_sq_length, bits_len},
                              {Py_sq_item, vector_item},
                              {Py_sq_contains, bits_contains},
                              {Py_sq_concat, vector_concat},
                              {Py_sq_inplace_concat, vector_iconcat},
                              {Py_mp_length, bits_len},
                              {Py_mp_subscript, vector_subscript},
                              {Py_mp_ass_subscript, vector_assign},
                              {Py_nb_and, vector_and},
                              {Py_nb_or, vector_or},
                              {Py_nb_xor, vector_xor},
                              {Py_nb_inplace_and, vector_iand},
                              {Py_nb_inplace_or, vector_ior},
                              {Py_nb_inplace_xor, vector_ixor},
                              {Py_nb_invert, vector_invert},
                              {Py_nb_lshift, vector_lshift},
                              {Py_nb_rshift, vector_rshift},
                              {Py_bf_getbuffer, vector_buffer},
                              {Py_bf_releasebuffer, vector_release},
                              {0, NULL}};
PyType_Spec vector_spec = {"bitm.BitVector", sizeof(Vector), 0, Py_TPFLAGS_DEFAULT | Py_TPFLAGS_BASETYPE, slots};
