/* bitm._core: the types, and what the Python part of the package asks. */
#include "module_docs.h"
#include "values.h"

PyObject *WrongTables;
PyTypeObject *Memory_Type, *Window_Type, *Positions_Type, *Numbers_Type, *SparseWalk_Type, *Cursor_Type, *Vector_Type,
    *Index_Type, *Sequence_Type, *Sparse_Type, *Dictionary_Type, *Strings_Type, *Hash_Type, *Tree_Type, *Trie_Type,
    *Matrix_Type, *Text_Type, *ShardSet_Type;

static PyMethodDef functions[] = {{"stored_load", stored_load, METH_O, NULL},
                                  {"block", block_of_value, METH_O, NULL},
                                  {"parts", parts_of, METH_O, NULL},
                                  {"over", parts_over, METH_VARARGS, NULL},
                                  {"trie_of_sorted", trie_of_sorted, METH_VARARGS, NULL},
                                  {"section_added", section_added, METH_VARARGS, NULL},
                                  {"sections_of", sections_of, METH_O, NULL},
                                  {"block_is_written", block_is_written, METH_O, NULL},
                                  {"sequence_window", sequence_window, METH_O, NULL},
                                  {"sequence_merged", sequence_merged, METH_VARARGS, NULL},
                                  {"cursors_merged", cursors_merged, METH_VARARGS, NULL},
                                  {NULL, NULL, 0, NULL}};

/* The name of what the processor lacks of x86-64-v2, for which the library is compiled; NULL where it has all. */
static const char *missing_feature(void)
{
#if defined __x86_64__
#define HAS(name)                                                                                                      \
    if (!__builtin_cpu_supports(name))                                                                                 \
        return name;
    HAS("popcnt")
    HAS("sse3")
    HAS("ssse3")
    HAS("sse4.1")
    HAS("sse4.2")
#endif
        return NULL;
}

/* Whether this process can use the library: -1 and ImportError where it cannot. */
static int usable(void)
{
    /* The types are this process's own, for the limited API of 3.11 finds no module from a slot. */
    static int64_t owner = -1;
    int64_t here = PyInterpreterState_GetID(PyInterpreterState_Get());
    const char *missing = missing_feature();
    if (missing != NULL)
        PyErr_Format(PyExc_ImportError, "bitm needs a processor of x86-64-v2 or later: this one has no %s", missing);
    else if (bitm_version() != BITM_VERSION_NUMBER)
        PyErr_Format(PyExc_ImportError, "the library has version %u, its header %u", (unsigned)bitm_version(),
                     (unsigned)BITM_VERSION_NUMBER);
    else if (owner != -1 && owner != here)
        PyErr_SetString(PyExc_ImportError, "bitm can be imported by one interpreter of a process");
    else
        owner = here;
    return PyErr_Occurred() ? -1 : 0;
}

/* Gives the module an exception, which is made once: -1 and an error. */
static int error(PyObject *module, const char *name, PyObject *base, PyObject **at, const char *doc)
{
    if (*at == NULL)
        *at = PyErr_NewExceptionWithDoc(name, doc, base, NULL);
    return *at == NULL ? -1 : PyModule_AddObjectRef(module, name + strlen("bitm."), *at);
}

/* A copy of a text for help() whose lines have at most 100 columns, but for examples: it stays as long as the types do.
 * The text itself where memory is refused. */
static const char *wrapped(const char *text)
{
    enum { COLUMNS = 100 };
    const size_t size = text == NULL ? 0 : strlen(text) + 1;
    char *made = size == 0 ? NULL : malloc(size);
    if (made == NULL)
        return text;
    memcpy(made, text, size);
    for (char *line = made, *end; *line != '\0'; line = end + (*end != '\0')) {
        const int is_example = strncmp(line, ">>> ", 4) == 0 || strncmp(line, "... ", 4) == 0;
        end = line + strcspn(line, "\n");
        if (end - line <= COLUMNS || is_example)
            continue;
        char *at = line + COLUMNS;
        while (at > line && *at != ' ')
            at--;
        if (at > line)
            *(end = at) = '\n';
    }
    return made;
}

/* Wraps the texts of the methods and the attributes of a type that is not made yet. */
static void wrap_texts(PyType_Spec *spec)
{
    for (PyType_Slot *slot = spec->slots; slot->slot != 0; slot++) {
        if (slot->slot == Py_tp_methods)
            for (PyMethodDef *it = slot->pfunc; it->ml_name != NULL; it++)
                it->ml_doc = wrapped(it->ml_doc);
        if (slot->slot == Py_tp_getset)
            for (PyGetSetDef *it = slot->pfunc; it->name != NULL; it++)
                it->doc = wrapped(it->doc);
    }
}

static int filled(PyObject *module)
{
    struct {
        PyType_Spec *spec;
        PyTypeObject **type;
        const char *name;
    } types[] = {{&memory_spec, &Memory_Type, NULL},
                 {&window_spec, &Window_Type, NULL},
                 {&positions_spec, &Positions_Type, NULL},
                 {&numbers_spec, &Numbers_Type, NULL},
                 {&sparse_walk_spec, &SparseWalk_Type, NULL},
                 {&cursor_spec, &Cursor_Type, "Cursor"},
                 {&vector_spec, &Vector_Type, "BitVector"},
                 {&index_spec, &Index_Type, "Index"},
                 {&sequence_spec, &Sequence_Type, "EliasFano"},
                 {&sparse_spec, &Sparse_Type, "SparseBits"},
                 {&dictionary_spec, &Dictionary_Type, "Dictionary"},
                 {&strings_spec, &Strings_Type, "Strings"},
                 {&hash_spec, &Hash_Type, "PerfectHash"},
                 {&tree_spec, &Tree_Type, "Tree"},
                 {&trie_spec, &Trie_Type, "Trie"},
                 {&matrix_spec, &Matrix_Type, "WaveletMatrix"},
                 {&text_spec, &Text_Type, "TextIndex"},
                 {&shard_set_spec, &ShardSet_Type, "ShardSet"}};
    if (usable())
        return -1;
    /* Where it is imported again, the types stay the same. */
    if (error(module, "bitm.WrongTables", NULL, &WrongTables, WRONG_TABLES) ||
        error(module, "bitm.OtherKind", PyExc_ValueError, &OtherKind, OTHER_KIND))
        return -1;
    for (size_t i = 0; i < sizeof types / sizeof *types; i++) {
        if (*types[i].type == NULL) {
            wrap_texts(types[i].spec);
            *types[i].type = (PyTypeObject *)PyType_FromSpec(types[i].spec);
        }
        if (*types[i].type == NULL ||
            (types[i].name != NULL && PyModule_AddObjectRef(module, types[i].name, BORROWED(*types[i].type))))
            return -1;
    }
    return 0;
}

static PyModuleDef_Slot slots[] = {{Py_mod_exec, filled}, {0, NULL}};
static struct PyModuleDef definition = {
    PyModuleDef_HEAD_INIT, "bitm._core", NULL, 0, functions, slots, NULL, NULL, NULL};

PyMODINIT_FUNC PyInit__core(void) { return PyModuleDef_Init(&definition); }
