#include "values.h"

PyObject *value_over(PyObject *type, Memory *it, opener opened)
{
    if (opened(it) == 0)
        return value_new(type, it);
    DROP(it);
    return NULL;
}

int value_made(PyObject *self, Memory *it, int made)
{
    if (made)
        value_set(self, it);
    else
        DROP(it);
    return made ? 0 : -1;
}

int value_of_numbers(PyObject *self, PyObject *from, const char *what,
                     int (*built)(Memory *it, const uint64_t *numbers, size_t count))
{
    size_t count;
    uint64_t *numbers = integers_all(from, what, &count);
    Memory *it = numbers == NULL ? NULL : memory_new();
    int is_made = it != NULL && built(it, numbers, count) == 0;
    free(numbers);
    return value_made(self, it, is_made);
}

uint64_t *block_room(Memory *it, uint64_t len)
{
    uint64_t *block = memory_own(it, len, 8);
    it->block = block;
    it->block_len = block == NULL ? 0 : (size_t)len;
    return block;
}

PyObject *value_checked(PyObject *self, int (*is_right)(const Memory *it))
{
    Memory *it = memory_kept(self);
    int found;
    if (it == NULL)
        return NULL;
    Py_BEGIN_ALLOW_THREADS
    found = is_right(it);
    Py_END_ALLOW_THREADS
    DROP(it);
    return PyBool_FromLong(found);
}

uint32_t stopped_at(uint64_t written, uint32_t status, uint64_t *out, struct bitm_list_counts *counts)
{
    memset(out, 0, 8 * (size_t)written);
    out[written] = BITM_NO_ANSWER;
    counts->missing = status == BITM_NONE;
    counts->wrong = !counts->missing;
    return BITM_OK;
}
