/* The memory that an index, a sequence or a hash reads: buffers that others lend, and its own. */
#include "vector.h"

/* Gives a buffer back: that of a vector to the vector itself, whatever its class makes of buffers. */
static void give_back(Py_buffer *held)
{
    PyObject *lender = held->obj;
    if (lender == NULL || !PyObject_TypeCheck(lender, Vector_Type)) {
        PyBuffer_Release(held);
        return;
    }
    vector_release(lender, held);
    Py_DECREF(lender);
}

static void memory_free(Memory *it)
{
    PyTypeObject *type = Py_TYPE(BORROWED(it));
    for (int i = 0; i < it->held_count; i++)
        give_back(&it->held[i]);
    for (int i = 0; i < it->own_count; i++)
        aligned_free(it->own[i]);
    DROP(it->behind);
    ((freefunc)PyType_GetSlot(type, Py_tp_free))(it);
    Py_DECREF(type);
}

/* A value may be over the words of another, that over those of a third, and so on, and the last reference drops them
 * all. Past some depth a memory waits until those above it are gone, so that the stack does not grow with their number.
 * Each thread has its own: giving back a buffer may run Python code, and so other threads. */
enum { DEEPEST = 16 };
static _Thread_local int depth;
static _Thread_local Memory *waiting;

static void memory_dealloc(PyObject *self)
{
    Memory *it = (Memory *)self;
    PyObject_GC_UnTrack(self);
    if (depth == DEEPEST) {
        it->next = waiting;
        waiting = it;
        return;
    }
    depth++;
    memory_free(it);
    while (depth == 1 && waiting != NULL) {
        Memory *next = waiting;
        waiting = next->next;
        memory_free(next);
    }
    depth--;
}

/* Whether the garbage collector may clear a lender while its buffer is held. Not a memoryview: in 3.11 its tp_clear
 * raises BufferError, and the process ends. Nor a ctypes array, which frees its memory. Such lenders are not shown to
 * the collector: they live until the buffer is given back, and a cycle through their own attributes is not collected.
 */
static int is_cleared_safely(PyObject *lender)
{
    return lender != NULL &&
           (PyObject_TypeCheck(lender, Vector_Type) || PyByteArray_Check(lender) || PyBytes_Check(lender));
}

/* There is no tp_clear, as a tuple has none: a cycle is cut at the value that owns the memory, after all finalizers. */
static int memory_traverse(PyObject *self, visitproc visit, void *arg)
{
    Memory *it = (Memory *)self;
    Py_VISIT(Py_TYPE(self));
    Py_VISIT(it->behind);
    for (int i = 0; i < it->held_count; i++)
        if (is_cleared_safely(it->held[i].obj))
            Py_VISIT(it->held[i].obj);
    return 0;
}

static PyType_Slot memory_slots[] = {{Py_tp_dealloc, memory_dealloc}, {Py_tp_traverse, memory_traverse}, {0, NULL}};
PyType_Spec memory_spec = {"bitm._core._Memory", sizeof(Memory), 0,
                           Py_TPFLAGS_DEFAULT | Py_TPFLAGS_HAVE_GC | Py_TPFLAGS_DISALLOW_INSTANTIATION, memory_slots};

Memory *memory_new(void) { return (Memory *)PyType_GenericAlloc(Memory_Type, 0); }

void *memory_own(Memory *it, uint64_t count, size_t size)
{
    void *room = NULL;
    if (it->own_count < MOST_BUFFERS && count <= (uint64_t)PY_SSIZE_T_MAX / size)
        room = aligned_new((size_t)count * size);
    if (room == NULL) {
        PyErr_NoMemory();
        return NULL;
    }
    it->own_bytes += (size_t)count * size;
    return it->own[it->own_count++] = room;
}

/* The next buffer that is held, from one look: of one dimension, without gaps. Of a vector it is that of its words,
 * also where its class has a __buffer__ of its own, so that its length in bits is that of the words. NULL and an error.
 */
static Py_buffer *hold(Memory *it, PyObject *from)
{
    if (it->held_count == MOST_BUFFERS) {
        PyErr_SetString(PyExc_SystemError, "too many buffers");
        return NULL;
    }
    Py_buffer *held = &it->held[it->held_count];
    if (PyObject_TypeCheck(from, Vector_Type) ? vector_buffer(from, held, PyBUF_RECORDS_RO)
                                              : PyObject_GetBuffer(from, held, PyBUF_RECORDS_RO))
        return NULL;
    it->held_count++;
    if (held->ndim != 1) {
        PyErr_Format(PyExc_TypeError, "a flat buffer is needed, not one of %d dimensions", held->ndim);
        return NULL;
    }
    if (held->len > held->itemsize && held->strides != NULL && held->strides[0] != held->itemsize) {
        PyErr_SetString(PyExc_TypeError, "the buffer has gaps between its items: pass a copy");
        return NULL;
    }
    return held;
}

/* Whether the items are numbers of the given size without a sign, in the machine's order of bytes. */
static int is_of(const Py_buffer *held, size_t size)
{
    const char *format = held->format == NULL ? "B" : held->format;
    if (*format == '<' || *format == '=' || *format == '@')
        format++;
    if (*format == 0 || format[1] != 0 || (size_t)held->itemsize != size)
        return 0;
    return strchr(size == 8 ? "QLN" : size == 4 ? "IL" : "Bbc", *format) != NULL;
}

/* In place, or where that cannot be in a copy with zeros up to whole items. */
static int placed(Memory *it, const Py_buffer *held, size_t size, int is_copied, const void **at, size_t *len)
{
    size_t count = ((size_t)held->len + size - 1) / size;
    *len = count;
    *at = held->buf;
    if (count == 0 || (!is_copied && (size_t)held->len % size == 0 && (uintptr_t)held->buf % size == 0))
        return 0;
    char *room = memory_own(it, count, size);
    if (room == NULL)
        return -1;
    memset(room + size * (count - 1), 0, size);
    memcpy(room, held->buf, (size_t)held->len);
    *at = room;
    return 0;
}

static int misfit(const Py_buffer *held, size_t size)
{
    const char *format = held->format == NULL ? "B" : held->format;
    const char *hint = *format == '?' ? ": see BitVector.from_bits" : "";
    PyErr_Format(PyExc_TypeError,
                 "a flat buffer of uint%zu or of bytes is needed, not items of %zd bytes with format '%s'%s", 8 * size,
                 held->itemsize, format, hint);
    return -1;
}

int memory_items(Memory *it, PyObject *from, size_t size, const void **at, size_t *len)
{
    Py_buffer *held = hold(it, from);
    if (held == NULL)
        return -1;
    if (!is_of(held, size) && !(is_of(held, 1) && (size_t)held->len % size == 0))
        return misfit(held, size);
    return placed(it, held, size, 0, at, len);
}

/* Leaves no error but that of memory: then what was sought may be there. */
static void forgive(void)
{
    if (PyErr_Occurred() && !PyErr_ExceptionMatches(PyExc_MemoryError))
        PyErr_Clear();
}

/* A class of a module that is imported already, as a new reference; else NULL, and no error but MemoryError. */
static PyObject *type_in(const char *module, const char *name)
{
    PyObject *text = PyUnicode_InternFromString(module), *found = text == NULL ? NULL : PyImport_GetModule(text);
    PyObject *type = found == NULL ? NULL : PyObject_GetAttrString(found, name);
    Py_XDECREF(text);
    Py_XDECREF(found);
    forgive();
    return type;
}

int is_instance(PyObject *it, const char *module, const char *name)
{
    PyObject *type = type_in(module, name);
    int found = type == NULL ? 0 : PyObject_IsInstance(it, type);
    Py_XDECREF(type);
    forgive();
    return PyErr_Occurred() ? -1 : found == 1;
}

/* Its own copy of a bitarray in our order of bits (its usual one is the other), which is then held. */
static int words_of_bitarray(Memory *it, PyObject *from, const void **at, size_t *len, uint64_t *bits)
{
    PyObject *type = type_in("bitarray", "bitarray");
    PyObject *copy = type == NULL ? NULL : PyObject_CallFunction(type, "Os", from, "little");
    Py_XDECREF(type);
    Py_buffer *held = copy == NULL ? NULL : hold(it, copy);
    Py_ssize_t count = held == NULL ? -1 : PyObject_Length(copy);
    Py_XDECREF(copy);
    if (count < 0) {
        if (!PyErr_Occurred())
            PyErr_SetString(PyExc_TypeError, "the package bitarray is not installed");
        return -1;
    }
    *bits = (uint64_t)count;
    return placed(it, held, 8, 1, at, len);
}

static int words_of_buffer(Memory *it, PyObject *from, const void **at, size_t *len, uint64_t *bits)
{
    Py_buffer *held = hold(it, from);
    if (held == NULL) {
        if (PyErr_ExceptionMatches(PyExc_TypeError) && !PyObject_CheckBuffer(from)) {
            PyErr_Clear();
            PyErr_Format(PyExc_TypeError, "a BitVector or a buffer is needed, not %R: see BitVector.from_bits",
                         Py_TYPE(from));
        }
        return -1;
    }
    if (!is_of(held, 8) && !is_of(held, 1))
        return misfit(held, 8);
    *bits = 8 * (uint64_t)held->len;
    return placed(it, held, 8, 0, at, len);
}

int memory_words(Memory *it, PyObject *from, const uint64_t **words, size_t *len, uint64_t *bits)
{
    const void *at = NULL;
    int status, is_vector = PyObject_TypeCheck(from, Vector_Type),
                is_bitarray = is_vector ? 0 : is_instance(from, "bitarray", "bitarray");
    if (is_bitarray < 0)
        return -1;
    if (is_vector) {
        status = memory_items(it, from, 8, &at, len);
        *bits = ((Vector *)from)->bits.len; /* which stays, for its words are held */
    } else if (is_bitarray) {
        status = words_of_bitarray(it, from, &at, len, bits);
    } else {
        status = words_of_buffer(it, from, &at, len, bits);
    }
    *words = at;
    if (status == 0 && *bits > 64 * (uint64_t)*len)
        *bits = 64 * (uint64_t)*len; /* no more than are held, whatever a class says */
    return status;
}
