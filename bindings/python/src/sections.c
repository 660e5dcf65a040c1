/* Sections of a caller's own in a block of any kind: one more, those that there are, and whether all is as it was
 * written. */
#include "values.h"

/* The words of a block in a buffer, which is held: NULL and an error. With is_own, a buffer that somebody may write is
 * copied, for the library reads a block more than once while other threads run. */
static Memory *block_of(PyObject *from, int is_own)
{
    const void *at;
    Memory *it = memory_new();
    if (it == NULL || memory_items(it, from, 8, &at, &it->block_len)) {
        DROP(it);
        return NULL;
    }
    it->block = at;
    if (!is_own || it->held[0].readonly || it->own_count > 0)
        return it;
    uint64_t *own = memory_own(it, it->block_len, 8);
    if (own == NULL) {
        DROP(it);
        return NULL;
    }
    memcpy(own, at, 8 * it->block_len);
    it->block = own;
    return it;
}

static PyObject *refused(uint32_t status)
{
    PyErr_SetString(PyExc_ValueError, status == BITM_WRONG ? "it is no block, or not as it was written"
                                                           : "there are 16 sections, or too many items");
    return NULL;
}

/* ---- one more */

/* The bytes of a section as words, with zeros up to the end of the last one, in a piece of malloc's. NULL and an error.
 */
static uint64_t *words_of(PyObject *bytes, size_t *len)
{
    char *at;
    Py_ssize_t size;
    if (PyBytes_AsStringAndSize(bytes, &at, &size))
        return NULL;
    *len = ((size_t)size + 7) / 8;
    uint64_t *made = room_for(*len);
    if (made == NULL || *len == 0)
        return made;
    made[*len - 1] = 0;
    memcpy(made, at, (size_t)size);
    return made;
}

/* The block with that section, as bytes, whose first is aligned as words are. */
static PyObject *extended(const Memory *it, uint64_t role, uint64_t count, const uint64_t *words, size_t words_len)
{
    uint64_t len;
    uint32_t status = bitm_block_extended_size(it->block, it->block_len, role, count, &len);
    if (status != BITM_OK)
        return refused(status);
    if (len > (uint64_t)PY_SSIZE_T_MAX / 8)
        return PyErr_NoMemory();
    PyObject *made = PyBytes_FromStringAndSize(NULL, (Py_ssize_t)(8 * len));
    if (made == NULL)
        return NULL;
    uint64_t *to = (uint64_t *)(void *)PyBytes_AsString(made);
    Py_BEGIN_ALLOW_THREADS
    status = bitm_block_extend(it->block, it->block_len, role, count, words, words_len, to, (size_t)len);
    Py_END_ALLOW_THREADS
    if (status == BITM_OK)
        return made;
    Py_DECREF(made);
    return refused(status);
}

/* section_added(block, role, count, bytes): the bytes of a block with one section more. */
PyObject *section_added(PyObject *module, PyObject *args)
{
    PyObject *from, *given[2], *bytes;
    uint64_t role, count;
    size_t len;
    (void)module;
    if (!PyArg_ParseTuple(args, "OOOS", &from, &given[0], &given[1], &bytes) || number(given[0], "a role", &role) ||
        number(given[1], "a count", &count))
        return NULL;
    Memory *it = block_of(from, 1);
    uint64_t *words = it == NULL ? NULL : words_of(bytes, &len);
    PyObject *made = words == NULL ? NULL : extended(it, role, count, words, len);
    free(words);
    DROP(it);
    return made;
}

/* ---- those that there are */

/* A role, how many items there are, and a window of the words in the block. */
static PyObject *triple(Memory *it, const struct bitm_section *section)
{
    PyObject *window = window_of(it, section->words, section->words_len, 8);
    if (window == NULL)
        return NULL;
    return Py_BuildValue("(KKN)", (unsigned long long)section->role, (unsigned long long)section->count, window);
}

/* sections_of(block): such a tuple for each section. */
PyObject *sections_of(PyObject *module, PyObject *block)
{
    struct bitm_section section = {0};
    uint32_t status = BITM_OK;
    (void)module;
    Memory *it = block_of(block, 0);
    PyObject *found = it == NULL ? NULL : PyList_New(0);
    for (size_t i = 0; found != NULL; i++) {
        status = bitm_block_section(it->block, it->block_len, i, &section);
        if (status != BITM_OK)
            break;
        PyObject *each = triple(it, &section);
        if (each == NULL || PyList_Append(found, each))
            Py_CLEAR(found);
        Py_XDECREF(each);
    }
    DROP(it);
    if (found != NULL && status != BITM_NONE) {
        Py_DECREF(found);
        return refused(status);
    }
    return found;
}

/* ---- whether all is as it was written */

/* block_is_written(block) */
PyObject *block_is_written(PyObject *module, PyObject *block)
{
    (void)module;
    Memory *it = block_of(block, 1);
    uint32_t status;
    if (it == NULL)
        return NULL;
    Py_BEGIN_ALLOW_THREADS
    status = bitm_block_check(it->block, it->block_len);
    Py_END_ALLOW_THREADS
    DROP(it);
    return PyBool_FromLong(status == BITM_OK);
}
