/* ValueError that says which item was refused, counted from 0. It is sought only after the library refused all items,
 * in memory that nobody else can change. */
#include "values.h"

typedef unsigned long long Shown;

int refuse(const char *what)
{
    if (!PyErr_Occurred())
        PyErr_SetString(PyExc_ValueError, what);
    return -1;
}

int say_unsorted(const char *item, const uint64_t *numbers, size_t count, bool strictly)
{
    uint64_t at = 0;
    uint32_t status;
    Py_BEGIN_ALLOW_THREADS
    status = bitm_numbers_unsorted(numbers, count, strictly, &at);
    Py_END_ALLOW_THREADS
    if (status != BITM_OK || at == 0)
        return 0;
    PyErr_Format(PyExc_ValueError, "%s %llu (%llu) is %s %s %llu (%llu)", item, (Shown)at, (Shown)numbers[at],
                 strictly ? "not above" : "less than", item, (Shown)at - 1, (Shown)numbers[at - 1]);
    return 1;
}

/* Whether a number is above `most`, and which is the first. */
static int is_above(const uint64_t *numbers, size_t count, uint64_t most, uint64_t *at)
{
    uint32_t status;
    Py_BEGIN_ALLOW_THREADS
    status = bitm_numbers_above(numbers, count, most, at);
    Py_END_ALLOW_THREADS
    return status == BITM_OK;
}

int say_not_below(const char *item, const uint64_t *numbers, size_t count, uint64_t bound)
{
    uint64_t at = 0;
    if (count == 0 || (bound > 0 && !is_above(numbers, count, bound - 1, &at)))
        return 0;
    PyErr_Format(PyExc_ValueError, "%s %llu (%llu) is not below %llu", item, (Shown)at, (Shown)numbers[at],
                 (Shown)bound);
    return 1;
}

int say_wide(const char *item, const uint64_t *numbers, size_t count, uint32_t width)
{
    uint64_t at;
    if (width > 63 || !is_above(numbers, count, ((uint64_t)1 << width) - 1, &at))
        return 0;
    PyErr_Format(PyExc_ValueError, "%s %llu (%llu) has more than %u bit%s", item, (Shown)at, (Shown)numbers[at],
                 (unsigned)width, width == 1 ? "" : "s");
    return 1;
}

int say_misfit(const uint64_t *degrees, size_t count)
{
    uint64_t node;
    uint32_t status;
    Py_BEGIN_ALLOW_THREADS
    status = bitm_tree_misfit(degrees, count, &node);
    Py_END_ALLOW_THREADS
    if (status != BITM_OK)
        return 0;
    PyErr_Format(PyExc_ValueError,
                 "node %llu is a child of no node before it, or has more children than there are nodes left",
                 (Shown)node);
    return 1;
}

PyObject *shortened(const uint8_t *at, size_t len)
{
    enum { ENOUGH = 100 }; /* more than are shown */
    return more("short", Py_BuildValue("(y#)", (const char *)at, (Py_ssize_t)(len < ENOUGH ? len : ENOUGH)));
}

int say_equal(const char *items, const size_t pair[2], PyObject *item)
{
    if (item != NULL)
        PyErr_Format(PyExc_ValueError, "%s %zu and %zu are equal: %S", items, pair[0], pair[1], item);
    Py_XDECREF(item);
    return -1;
}

int say_one_hash(const char *items, const size_t pair[2])
{
    PyErr_Format(PyExc_ValueError, "%s %zu and %zu have one hash: take another seed", items, pair[0], pair[1]);
    return -1;
}
