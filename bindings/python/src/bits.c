/* What BitVector and Index share: single bits, slices, comparison, and the positions of their 1 bits and 0 bits. */
#include "vector.h"

/* The bits of a BitVector, or of an Index that is open: valid as long as no Python code runs. -1 and an error. */
static inline int bits_of_vector(PyObject *self, Bits *out)
{
    *out = ((Vector *)self)->bits;
    return 0;
}

static inline int bits_of_index(PyObject *self, Bits *out)
{
    Memory *memory = memory_of(self);
    if (memory == NULL)
        return -1;
    Bits bits = {memory->index.words, memory->index.words_len, memory->index.bits_len};
    *out = bits;
    return 0;
}

static int bits_of(PyObject *self, Bits *out)
{
    return PyObject_TypeCheck(self, Vector_Type) ? bits_of_vector(self, out) : bits_of_index(self, out);
}

Py_ssize_t bits_len(PyObject *self)
{
    Bits bits;
    if (bits_of(self, &bits))
        return -1;
    if (bits.len <= (uint64_t)PY_SSIZE_T_MAX)
        return (Py_ssize_t)bits.len;
    PyErr_SetString(PyExc_OverflowError, "more bits than len() can say");
    return -1;
}

/* ---- bits[key]: one inline function, which the compiler makes one for each type of */

typedef int (*looker)(PyObject *, Bits *);

/* The bits at count positions, each step after the one before it. A look at signals may run Python code, so the words
 * are held: those of a vector as by a buffer. */
static PyObject *bits_apart(PyObject *self, const Bits *bits, Py_ssize_t start, Py_ssize_t step, Py_ssize_t count)
{
    Vector *made = vector_new(Vector_Type, (uint64_t)count);
    Vector *vector = PyObject_TypeCheck(self, Vector_Type) ? (Vector *)self : NULL;
    Memory *memory = made == NULL || vector != NULL ? NULL : memory_kept(self);
    if (made == NULL || (vector == NULL && memory == NULL)) {
        DROP(made);
        return NULL;
    }
    if (vector != NULL)
        vector->exports++;
    for (Py_ssize_t i = 0; i < count && interrupted((size_t)i) == 0; i++)
        bitm_set_bit_at(made->words, (uint64_t)i, bitm_bit_at(bits->words, (uint64_t)(start + i * step)));
    if (vector != NULL)
        vector->exports--;
    DROP(memory);
    if (PyErr_Occurred())
        Py_CLEAR(made);
    return (PyObject *)made;
}

static PyObject *slice_of(PyObject *self, PyObject *key, looker look)
{
    Bits bits;
    Py_ssize_t start, stop, step;
    if (PySlice_Unpack(key, &start, &stop, &step) || look(self, &bits))
        return NULL;
    Py_ssize_t len = bits.len > (uint64_t)PY_SSIZE_T_MAX ? PY_SSIZE_T_MAX : (Py_ssize_t)bits.len;
    Py_ssize_t count = PySlice_AdjustIndices(len, &start, &stop, step);
    if (step == 1)
        return (PyObject *)vector_of_range(&bits, (uint64_t)start, (uint64_t)count);
    return bits_apart(self, &bits, start, step, count);
}

static inline PyObject *item_of(PyObject *self, Py_ssize_t index, int from_end, looker look)
{
    Bits bits;
    uint64_t bit = 0;
    if (look(self, &bits))
        return NULL;
    uint64_t position = from_end ? from_front(index, bits.len) : (uint64_t)index;
    if (LIKELY(bitm_bits_get(BITS(bits), position, &bit) == BITM_OK))
        return boxed_bit(bit);
    return outside(index, bits.len, "bits");
}

static inline PyObject *subscript_of(PyObject *self, PyObject *key, looker look)
{
    Py_ssize_t index;
    if (PySlice_Check(key))
        return slice_of(self, key, look);
    return index_of(key, &index) ? NULL : item_of(self, index, 1, look);
}

/* An index that sq_item is given counts from the front already. */
PyObject *vector_item(PyObject *self, Py_ssize_t index) { return item_of(self, index, 0, bits_of_vector); }
PyObject *index_item(PyObject *self, Py_ssize_t index) { return item_of(self, index, 0, bits_of_index); }
PyObject *vector_subscript(PyObject *self, PyObject *key) { return subscript_of(self, key, bits_of_vector); }
PyObject *index_subscript(PyObject *self, PyObject *key) { return subscript_of(self, key, bits_of_index); }

PyObject *bits_iter(PyObject *self) { return PySeqIter_New(self); }

int bits_contains(PyObject *self, PyObject *value)
{
    Bits bits;
    uint64_t position;
    int bit = bit_sought(value);
    if (bit < 0)
        return bit == -1 ? 0 : -1;
    return bits_of(self, &bits) ? -1 : bitm_bits_next(BITS(bits), bit, 0, &position) == BITM_OK;
}

PyObject *bits_compare(PyObject *self, PyObject *other, int how)
{
    PyTypeObject *type = PyObject_TypeCheck(self, Vector_Type) ? Vector_Type : Index_Type;
    Bits a, b;
    uint64_t is_same = 0;
    if ((how != Py_EQ && how != Py_NE) || !PyObject_TypeCheck(other, type))
        Py_RETURN_NOTIMPLEMENTED;
    if (bits_of(self, &a) || bits_of(other, &b))
        return NULL;
    if (a.len == b.len &&
        bitm_bits_equal_range(a.words, a.words_len, 0, b.words, b.words_len, 0, a.len, &is_same) != BITM_OK)
        return wrong();
    return PyBool_FromLong((how == Py_EQ) == (int)is_same);
}

/* ---- positions, looked up some at a time */

enum { ROOM = 64 };

typedef struct {
    Walk walk;           /* over a BitVector or an Index */
    uint64_t from, stop; /* where the rest lies */
    int bit, is_reversed;
    uint64_t at, count; /* of room */
    uint64_t room[ROOM];
} Positions;

/* The next positions into room: how many is in count. -1 and an error. */
static int positions_fill(Positions *it)
{
    Bits bits;
    it->at = it->count = 0;
    if (it->walk.source == NULL)
        return 0;
    if (bits_of(it->walk.source, &bits))
        return -1;
    bits.len = it->stop < bits.len ? it->stop : bits.len;
    if (!it->is_reversed) {
        if (bitm_bits_positions(BITS(bits), it->bit, it->from, it->room, ROOM, &it->count) != BITM_OK)
            it->count = 0;
        it->from = it->count ? it->room[it->count - 1] + 1 : it->from;
    } else if (bitm_bits_previous(BITS(bits), it->bit, UINT64_MAX, &it->stop) == BITM_OK && it->stop >= it->from) {
        it->room[0] = it->stop;
        it->count = 1;
    }
    if (it->count == 0)
        Py_CLEAR(it->walk.source);
    return 0;
}

static PyObject *positions_next(PyObject *self)
{
    Positions *it = (Positions *)self;
    if (it->at == it->count && PyErr_CheckSignals()) /* which may run Python code, and so this */
        return NULL;
    if (it->at == it->count && (positions_fill(it) || it->count == 0))
        return NULL;
    return boxed(it->room[it->at++]);
}

static PyType_Slot positions_slots[] = {{Py_tp_iternext, positions_next}, WALK_SLOTS, {0, NULL}};
PyType_Spec positions_spec = {"bitm._core._Positions", sizeof(Positions), 0, WALK_FLAGS, positions_slots};

static PyObject *positions_new(PyObject *source, int bit, const char *name, PyObject *const *args, Py_ssize_t count,
                               PyObject *keywords)
{
    static const char *const names[] = {"start", "stop", "*reverse"};
    PyObject *given[3];
    uint64_t from, stop;
    Bits bits;
    if (pick(name, names, 0, 3, args, count, keywords, given) || number_or(given[0], 0, "a position", &from) ||
        number_or(given[1], UINT64_MAX, "a position", &stop))
        return NULL;
    int is_reversed = given[2] == NULL ? 0 : PyObject_IsTrue(given[2]);
    if (is_reversed < 0 || bits_of(source, &bits))
        return NULL;
    Positions *it = (Positions *)PyType_GenericAlloc(Positions_Type, 0);
    if (it == NULL)
        return NULL;
    it->walk.source = Py_NewRef(source);
    it->from = from;
    it->stop = stop;
    it->bit = bit;
    it->is_reversed = is_reversed;
    return (PyObject *)it;
}

PyObject *bits_ones(PyObject *self, PyObject *const *args, Py_ssize_t count, PyObject *keywords)
{
    return positions_new(self, 1, "ones", args, count, keywords);
}

PyObject *bits_zeros(PyObject *self, PyObject *const *args, Py_ssize_t count, PyObject *keywords)
{
    return positions_new(self, 0, "zeros", args, count, keywords);
}
