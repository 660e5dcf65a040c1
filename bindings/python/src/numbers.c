/* bitm.EliasFano: many of its numbers: one after another, slices, comparison. */
#include "core.h"
#include "sequence_docs.h"

enum { ROOM = 256 };

typedef struct {
    Walk walk;           /* over an EliasFano */
    uint64_t from, stop; /* the indexes that are left, without those in room */
    int is_reversed;
    size_t at, count; /* of room, in the order of the sequence */
    uint64_t room[ROOM];
} Numbers;

/* The count numbers from an index on, all of which there are: -1 and WrongTables else. */
static int numbers_at(const Memory *it, uint64_t from, uint64_t *out, size_t count)
{
    uint64_t written = 0;
    if (bitm_sequence_items(&it->sequence, from, out, count, &written) == BITM_OK)
        return 0;
    (void)wrong();
    return -1;
}

/* The next numbers into room: 1, 0 where none are left, -1 and an error. */
static int numbers_fill(Numbers *it)
{
    if (it->walk.source == NULL || it->from >= it->stop)
        return 0;
    Memory *memory = memory_of(it->walk.source);
    if (memory == NULL)
        return -1;
    uint64_t left = it->stop - it->from;
    size_t count = left < ROOM ? (size_t)left : ROOM;
    if (numbers_at(memory, it->is_reversed ? it->stop - count : it->from, it->room, count))
        return -1;
    *(it->is_reversed ? &it->stop : &it->from) += it->is_reversed ? -(uint64_t)count : count;
    it->at = 0;
    it->count = count;
    return 1;
}

static PyObject *numbers_next(PyObject *self)
{
    Numbers *it = (Numbers *)self;
    if (it->at == it->count && PyErr_CheckSignals()) /* which may run Python code, and so this */
        return NULL;
    if (it->at == it->count && numbers_fill(it) <= 0)
        return NULL;
    size_t at = it->is_reversed ? it->count - 1 - it->at : it->at;
    it->at++;
    return boxed(it->room[at]);
}

/* Moves on in room, where the number that is sought lies there: 1; 0 where it lies further on. */
static int seek_in_room(Numbers *it, uint64_t value)
{
    if (it->at == it->count)
        return 0;
    if (it->is_reversed) {
        if (it->room[0] > value)
            return 0;
        while (it->room[it->count - 1 - it->at] > value)
            it->at++;
    } else {
        if (it->room[it->count - 1] < value)
            return 0;
        while (it->room[it->at] < value)
            it->at++;
    }
    return 1;
}

/* Moves on to the first number, of those that are left, that is at least a value; backwards, at most. -1 and an error.
 */
static int seek(Numbers *it, PyObject *query)
{
    uint64_t value, at = 0;
    if (number(query, "the value", &value))
        return -1;
    if (seek_in_room(it, value))
        return 0;
    it->at = it->count = 0;
    Memory *memory = it->walk.source == NULL ? NULL : memory_of(it->walk.source);
    if (memory == NULL)
        return it->walk.source == NULL ? 0 : -1;
    uint32_t status =
        (it->is_reversed ? bitm_sequence_last_at_most : bitm_sequence_first_at_least)(&memory->sequence, value, &at);
    if (status != BITM_OK && status != BITM_NONE) {
        (void)wrong();
        return -1;
    }
    if (status == BITM_NONE)
        it->from = it->stop; /* none is left */
    else if (it->is_reversed)
        it->stop = at < it->stop ? at + 1 : it->stop;
    else
        it->from = at > it->from ? at : it->from;
    return 0;
}

static PyObject *numbers_seek(PyObject *self, PyObject *value)
{
    return seek((Numbers *)self, value) ? NULL : Py_NewRef(self);
}

static PyObject *next_beyond(PyObject *self, PyObject *value, int is_reversed)
{
    if (((Numbers *)self)->is_reversed != is_reversed) {
        PyErr_SetString(PyExc_ValueError, is_reversed ? "the walk goes forwards: next_leq needs reverse=True"
                                                      : "the walk goes backwards: next_geq needs reverse=False");
        return NULL;
    }
    PyObject *found = seek((Numbers *)self, value) ? NULL : numbers_next(self);
    return found != NULL || PyErr_Occurred() ? found : Py_NewRef(Py_None);
}

static PyObject *numbers_next_geq(PyObject *self, PyObject *value) { return next_beyond(self, value, 0); }
static PyObject *numbers_next_leq(PyObject *self, PyObject *value) { return next_beyond(self, value, 1); }

static PyMethodDef numbers_methods[] = {
    METHOD("seek", numbers_seek, METH_O, "($self, value, /)", NUMBERS_SEEK),
    METHOD("next_geq", numbers_next_geq, METH_O, "($self, value, /)", NUMBERS_NEXT_GEQ),
    METHOD("next_leq", numbers_next_leq, METH_O, "($self, value, /)", NUMBERS_NEXT_LEQ),
    {NULL, NULL, 0, NULL}};
static PyType_Slot numbers_slots[] = {
    {Py_tp_iternext, numbers_next}, {Py_tp_methods, numbers_methods}, WALK_SLOTS, {0, NULL}};
PyType_Spec numbers_spec = {"bitm._core._Numbers", sizeof(Numbers), 0, WALK_FLAGS, numbers_slots};

PyObject *numbers_new(PyObject *sequence, uint64_t from, uint64_t stop, int is_reversed)
{
    Memory *memory = memory_of(sequence);
    if (memory == NULL)
        return NULL;
    uint64_t len = memory->sequence.len;
    Numbers *it = (Numbers *)PyType_GenericAlloc(Numbers_Type, 0);
    if (it == NULL)
        return NULL;
    it->walk.source = Py_NewRef(sequence);
    it->stop = stop < len ? stop : len;
    it->from = from;
    it->is_reversed = is_reversed;
    return (PyObject *)it;
}

PyObject *numbers_from(PyObject *sequence, PyObject *const *args, Py_ssize_t count, PyObject *keywords)
{
    static const char *const names[] = {"value", "*reverse"};
    PyObject *given[2];
    if (pick("from_value", names, 1, 2, args, count, keywords, given))
        return NULL;
    int is_reversed = given[1] == NULL ? 0 : PyObject_IsTrue(given[1]);
    PyObject *made = is_reversed < 0 ? NULL : numbers_new(sequence, 0, UINT64_MAX, is_reversed);
    if (made != NULL && seek((Numbers *)made, given[0]))
        Py_CLEAR(made);
    return made;
}

/* ---- slices */

/* The numbers at count indexes, each step after the one before it. -1 and an error. */
static int numbers_apart(const Memory *it, Py_ssize_t start, Py_ssize_t step, uint64_t *out, size_t count)
{
    uint64_t *indexes = room_for(count), written = 0;
    if (indexes == NULL)
        return -1;
    for (size_t i = 0; i < count; i++)
        indexes[i] = (uint64_t)(start + (Py_ssize_t)i * step);
    uint32_t status = bitm_sequence_get_list(&it->sequence, indexes, count, out, count, &written);
    free(indexes);
    if (status == BITM_OK)
        return 0;
    (void)wrong();
    return -1;
}

PyObject *sequence_slice(PyObject *self, PyObject *slice)
{
    Py_ssize_t start, stop, step;
    if (PySlice_Unpack(slice, &start, &stop, &step))
        return NULL;
    Memory *it = memory_of(self);
    if (it == NULL)
        return NULL;
    size_t count = (size_t)PySlice_AdjustIndices((Py_ssize_t)it->sequence.len, &start, &stop, step);
    uint64_t *room = room_for(count);
    PyObject *made = NULL;
    if (room != NULL &&
        (step == 1 ? numbers_at(it, (uint64_t)start, room, count) : numbers_apart(it, start, step, room, count)) == 0)
        made = list_of(room, count, 0);
    free(room);
    return made;
}

/* Whether two sequences have the same numbers: -1 and an error. */
static int are_same(const Memory *a, const Memory *b)
{
    uint64_t left[ROOM], right[ROOM];
    size_t len = a->sequence.len;
    int is_same = len == b->sequence.len;
    for (size_t from = 0; is_same > 0 && from < len; from += ROOM) {
        size_t count = len - from < ROOM ? len - from : ROOM;
        if (interrupted(from / ROOM) || numbers_at(a, from, left, count) || numbers_at(b, from, right, count))
            return -1;
        is_same = memcmp(left, right, 8 * count) == 0;
    }
    return is_same;
}

PyObject *numbers_compare(PyObject *self, PyObject *other, int how)
{
    if ((how != Py_EQ && how != Py_NE) || !PyObject_TypeCheck(other, Sequence_Type))
        Py_RETURN_NOTIMPLEMENTED;
    Memory *a = memory_kept(self), *b = a == NULL ? NULL : memory_kept(other);
    int is_same = b == NULL ? -1 : are_same(a, b);
    DROP(a);
    DROP(b);
    return is_same < 0 ? NULL : PyBool_FromLong((how == Py_EQ) == is_same);
}

/* ---- what bitm/_more.py asks */

int is_sequence(PyObject *self)
{
    if (!PyObject_TypeCheck(self, Sequence_Type))
        PyErr_Format(PyExc_TypeError, "an EliasFano is needed, not %R", Py_TYPE(self));
    return PyObject_TypeCheck(self, Sequence_Type);
}

int numbers_all(const Memory *it, uint64_t *out)
{
    const size_t len = it->sequence.len;
    uint64_t written = 0;
    uint32_t status;
    Py_BEGIN_ALLOW_THREADS
    status = bitm_sequence_items(&it->sequence, 0, out, len, &written);
    Py_END_ALLOW_THREADS
    if (status != BITM_OK)
        (void)wrong();
    return PyErr_Occurred() ? -1 : 0;
}

/* All numbers, in memory that Python code may look at. */
PyObject *sequence_window(PyObject *module, PyObject *self)
{
    uint64_t *room = NULL;
    (void)module;
    Memory *it = is_sequence(self) ? memory_kept(self) : NULL;
    PyObject *window = it == NULL ? NULL : window_new(it->sequence.len, &room);
    if (window != NULL && numbers_all(it, room))
        Py_CLEAR(window);
    DROP(it);
    return window;
}
