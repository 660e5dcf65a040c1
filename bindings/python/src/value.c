/* Values as Python objects: closing, copying, and what Python code may see of their memory. */
#include "core.h"

PyMemberDef value_members[] = {{"__weaklistoffset__", T_PYSSIZET, offsetof(Value, weak), READONLY, NULL},
                               {NULL, 0, 0, 0, NULL}};

Memory *memory_kept(PyObject *self)
{
    Memory *it = memory_of(self);
    KEEP(it);
    return it;
}

void value_set(PyObject *self, Memory *memory)
{
    Memory *before = ((Value *)self)->memory;
    ((Value *)self)->memory = memory;
    DROP(before); /* last: it may run Python code */
}

PyObject *value_new(PyObject *type, Memory *memory)
{
    PyObject *made = PyType_GenericAlloc((PyTypeObject *)type, 0);
    if (made == NULL)
        DROP(memory);
    else
        value_set(made, memory);
    return made;
}

int value_traverse(PyObject *self, visitproc visit, void *arg)
{
    Py_VISIT(Py_TYPE(self));
    Py_VISIT(((Value *)self)->memory);
    return 0;
}

/* The collector calls this after all finalizers; from then on the value is closed. */
int value_clear(PyObject *self)
{
    value_set(self, NULL);
    return 0;
}

void value_dealloc(PyObject *self)
{
    PyTypeObject *type = Py_TYPE(self);
    PyObject_GC_UnTrack(self);
    if (((Value *)self)->weak != NULL)
        PyObject_ClearWeakRefs(self);
    value_set(self, NULL);
    ((freefunc)PyType_GetSlot(type, Py_tp_free))(self);
    Py_DECREF(type);
}

PyObject *value_close(PyObject *self, PyObject *none)
{
    (void)none;
    value_set(self, NULL);
    Py_RETURN_NONE;
}

PyObject *value_enter(PyObject *self, PyObject *none)
{
    (void)none;
    return memory_of(self) == NULL ? NULL : Py_NewRef(self);
}

PyObject *value_exit(PyObject *self, PyObject *args) { return value_close(self, args); }

PyObject *value_closed(PyObject *self, void *none)
{
    (void)none;
    return PyBool_FromLong(((Value *)self)->memory == NULL);
}

/* Another value over the same memory, which never changes: each is closed by itself. */
PyObject *value_copy(PyObject *self, PyObject *none)
{
    (void)none;
    Memory *memory = memory_kept(self);
    return memory == NULL ? NULL : value_new(BORROWED(Py_TYPE(self)), memory);
}

/* Its own memory, without that of buffers which others lend. */
PyObject *value_sizeof(PyObject *self, PyObject *none)
{
    Memory *it = ((Value *)self)->memory;
    (void)none;
    return PyLong_FromSize_t(sizeof(Value) + (it == NULL ? 0 : sizeof(Memory) + it->own_bytes));
}

PyObject *shown_as(PyObject *self, const char *fields, ...)
{
    va_list given;
    va_start(given, fields);
    PyObject *said = PyUnicode_FromFormatV(fields, given), *name = said == NULL ? NULL : PyType_GetName(Py_TYPE(self));
    va_end(given);
    PyObject *text = name == NULL ? NULL : PyUnicode_FromFormat("%U(%U)", name, said);
    Py_XDECREF(name);
    Py_XDECREF(said);
    return text;
}

PyObject *more(const char *name, PyObject *args)
{
    PyObject *module = args == NULL ? NULL : PyImport_ImportModule("bitm._more");
    PyObject *call = module == NULL ? NULL : PyObject_GetAttrString(module, name);
    PyObject *found = call == NULL ? NULL : PyObject_CallObject(call, args);
    Py_XDECREF(args);
    Py_XDECREF(module);
    Py_XDECREF(call);
    return found;
}

/* ---- iterators */

int walk_traverse(PyObject *self, visitproc visit, void *arg)
{
    Py_VISIT(Py_TYPE(self));
    Py_VISIT(((Walk *)self)->source);
    return 0;
}

int walk_clear(PyObject *self)
{
    Py_CLEAR(((Walk *)self)->source);
    return 0;
}

void walk_dealloc(PyObject *self)
{
    PyTypeObject *type = Py_TYPE(self);
    PyObject_GC_UnTrack(self);
    (void)walk_clear(self);
    ((freefunc)PyType_GetSlot(type, Py_tp_free))(self);
    Py_DECREF(type);
}

/* ---- windows */

typedef struct {
    Walk walk; /* over the memory that it looks at, or NULL where that is its own */
    void *own;
    const void *at;
    Py_ssize_t len, size;
} Window;

static void window_dealloc(PyObject *self)
{
    free(((Window *)self)->own);
    walk_dealloc(self);
}

static int window_buffer(PyObject *self, Py_buffer *out, int flags)
{
    Window *it = (Window *)self;
    out->obj = NULL;
    if ((flags & PyBUF_WRITABLE) && it->own == NULL) {
        PyErr_SetString(PyExc_BufferError, "these words can only be read");
        return -1;
    }
    /* 'L' is the letter of NumPy's own uint64 where a long has 8 bytes. */
    char *format = it->size == 4 ? "I" : sizeof(long) == 8 && it->own != NULL ? "L" : "Q";
    out->buf = (void *)it->at;
    out->obj = Py_NewRef(self);
    out->len = it->len * it->size;
    out->itemsize = it->size;
    out->readonly = it->own == NULL;
    out->ndim = 1;
    out->format = flags & PyBUF_FORMAT ? format : NULL;
    out->shape = flags & PyBUF_ND ? &it->len : NULL;
    out->strides = (flags & PyBUF_STRIDES) == PyBUF_STRIDES ? &it->size : NULL;
    out->suboffsets = NULL;
    out->internal = NULL;
    return 0;
}

static Py_ssize_t window_len(PyObject *self) { return ((Window *)self)->len; }

static PyType_Slot window_slots[] = {{Py_tp_dealloc, window_dealloc},
                                     {Py_tp_traverse, walk_traverse},
                                     {Py_bf_getbuffer, window_buffer},
                                     {Py_sq_length, window_len},
                                     {0, NULL}};
PyType_Spec window_spec = {"bitm._core._Window", sizeof(Window), 0,
                           Py_TPFLAGS_DEFAULT | Py_TPFLAGS_HAVE_GC | Py_TPFLAGS_DISALLOW_INSTANTIATION, window_slots};

PyObject *window_of(Memory *base, const void *at, size_t len, size_t size)
{
    static const uint64_t nothing;
    KEEP(base); /* first: making an object may collect, and that may drop the memory */
    Window *it = (Window *)PyType_GenericAlloc(Window_Type, 0);
    if (it == NULL) {
        DROP(base);
        return NULL;
    }
    it->walk.source = BORROWED(base);
    it->at = at == NULL ? &nothing : at;
    it->len = (Py_ssize_t)len;
    it->size = (Py_ssize_t)size;
    return (PyObject *)it;
}

PyObject *window_taking(uint64_t *own, size_t len)
{
    PyObject *made = window_of(NULL, own, len, 8);
    if (made == NULL)
        free(own);
    else
        ((Window *)made)->own = own;
    return made;
}

PyObject *window_new(size_t len, uint64_t **at)
{
    *at = room_for(len);
    return *at == NULL ? NULL : window_taking(*at, len);
}
