/* bitm.Cursor: a position in an EliasFano, which moves forward only. */
#include "core.h"
#include "sequence_docs.h"

typedef struct {
    Walk walk; /* over an EliasFano, by whose memory the cursor is moved */
    struct bitm_cursor cursor;
} Cursor;

/* Where it stands, over parts that are those of the sequence now, which may have been closed or made anew: NULL and
 * ValueError then. Nothing may run between this and the call of the library. */
static struct bitm_cursor *standing(PyObject *self)
{
    Cursor *it = (Cursor *)self;
    Memory *memory = it->walk.source == NULL ? NULL : memory_of(it->walk.source);
    if (memory != NULL && memcmp(&it->cursor.sequence, &memory->sequence, sizeof memory->sequence) == 0)
        return &it->cursor;
    if (!PyErr_Occurred())
        PyErr_SetString(PyExc_ValueError, "the sequence of the cursor is another now, or gone");
    return NULL;
}

static int is_at_end(const struct bitm_cursor *it) { return it->index >= it->sequence.len; }

/* Moves it past the number where it stands: -1 and an error. */
static int move_past(struct bitm_cursor *it)
{
    uint64_t out = 0;
    uint32_t status = BITM_NONE;
    if (it->number == UINT64_MAX)
        it->index = it->sequence.len; /* no number is greater: the end */
    else
        status = bitm_cursor_next(it, it->number + 1, &out);
    if (status == BITM_OK || status == BITM_NONE)
        return 0;
    (void)wrong();
    return -1;
}

static PyObject *cursor_next(PyObject *self)
{
    struct bitm_cursor *it = standing(self);
    if (it == NULL || is_at_end(it))
        return NULL;
    uint64_t number = it->number;
    return move_past(it) ? NULL : boxed(number);
}

static PyObject *cursor_next_geq(PyObject *self, PyObject *value)
{
    uint64_t at_least, out = 0;
    if (number(value, "the value", &at_least))
        return NULL;
    struct bitm_cursor *it = standing(self);
    if (it == NULL)
        return NULL;
    uint32_t status = bitm_cursor_next(it, at_least, &out);
    return answer_or_none(status, &out);
}

static PyObject *cursor_index(PyObject *self, void *none)
{
    struct bitm_cursor *it = standing(self);
    (void)none;
    return it == NULL ? NULL : boxed(it->index);
}

static PyObject *cursor_number(PyObject *self, void *none)
{
    struct bitm_cursor *it = standing(self);
    (void)none;
    if (it == NULL)
        return NULL;
    return is_at_end(it) ? Py_NewRef(Py_None) : boxed(it->number);
}

static PyObject *cursor_repr(PyObject *self)
{
    struct bitm_cursor *it = standing(self);
    if (it == NULL) {
        PyErr_Clear();
        return shown_as(self, "closed");
    }
    if (is_at_end(it))
        return shown_as(self, "index=%zu, number=None", it->index);
    return shown_as(self, "index=%zu, number=%llu", it->index, (unsigned long long)it->number);
}

static PyMethodDef methods[] = {METHOD("next_geq", cursor_next_geq, METH_O, "($self, value, /)", CURSOR_NEXT_GEQ),
                                {NULL, NULL, 0, NULL}};
static PyGetSetDef attributes[] = {{"index", cursor_index, NULL, DOC(CURSOR_INDEX), NULL},
                                   {"number", cursor_number, NULL, DOC(CURSOR_NUMBER), NULL},
                                   {NULL, NULL, NULL, NULL, NULL}};
static PyType_Slot slots[] = {{Py_tp_doc, DOC(CURSOR_DOC)},
                              {Py_tp_iternext, cursor_next},
                              {Py_tp_methods, methods},
                              {Py_tp_getset, attributes},
                              {Py_tp_repr, cursor_repr},
                              WALK_SLOTS,
                              {0, NULL}};
PyType_Spec cursor_spec = {"bitm.Cursor", sizeof(Cursor), 0, WALK_FLAGS, slots};

PyObject *cursor_new(PyObject *sequence, PyObject *none)
{
    (void)none;
    Cursor *it = (Cursor *)PyType_GenericAlloc(Cursor_Type, 0);
    if (it == NULL)
        return NULL;
    it->walk.source = Py_NewRef(sequence);
    Memory *memory = memory_of(sequence); /* after the object, for making that may collect, and close the sequence */
    if (memory != NULL) {
        it->cursor.sequence = memory->sequence;
        if (bitm_cursor_start(&it->cursor) == BITM_OK)
            return (PyObject *)it;
        (void)wrong();
    }
    Py_DECREF(it);
    return NULL;
}
