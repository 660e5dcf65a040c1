/* The distinct, the most frequent and the common numbers of ranges of a bitm.WaveletMatrix. */
#include "matrix.h"

int matrix_range(const Memory *it, PyObject *stop_given, uint64_t start, uint64_t *stop)
{
    if (stop_given == NULL || stop_given == Py_None)
        *stop = it->matrix.len;
    if (start <= *stop && *stop <= it->matrix.len)
        return 0;
    PyErr_Format(PyExc_IndexError, "the range from %llu to %llu of %zu numbers", (unsigned long long)start,
                 (unsigned long long)*stop, it->matrix.len);
    return -1;
}

enum { PAGE = 256 };

/* Appends a number, or a pair of it and its count: -1 and an error. */
static int appended(PyObject *all, uint64_t number, const uint64_t *count)
{
    PyObject *item = count == NULL ? boxed(number)
                                   : Py_BuildValue("KK", (unsigned long long)number, (unsigned long long)*count);
    const int failed = item == NULL || PyList_Append(all, item);
    Py_XDECREF(item);
    return failed ? -1 : 0;
}

/* The distinct numbers of a range with their counts, or those that it shares with another, page by page. */
static PyObject *by_pages(const Memory *it, uint64_t start, uint64_t stop, const uint64_t *other)
{
    uint64_t numbers[PAGE], counts[PAGE], written = PAGE, from = 0;
    PyObject *all = PyList_New(0);
    for (int more = 1; all != NULL && more; from = numbers[PAGE - 1] + 1) {
        uint32_t status;
        Py_BEGIN_ALLOW_THREADS
        status = other != NULL ? bitm_matrix_intersect(&it->matrix, (size_t)start, (size_t)stop, (size_t)other[0],
                                                       (size_t)other[1], from, numbers, PAGE, &written)
                               : bitm_matrix_distinct(&it->matrix, (size_t)start, (size_t)stop, from, numbers, PAGE,
                                                      counts, PAGE, &written);
        Py_END_ALLOW_THREADS
        int failed = status != BITM_OK && wrong() == NULL;
        for (size_t i = 0; !failed && i < written; i++)
            failed = appended(all, numbers[i], other != NULL ? NULL : &counts[i]);
        if (failed)
            Py_CLEAR(all);
        more = written == PAGE && numbers[PAGE - 1] < UINT64_MAX;
    }
    return all;
}

PyObject *matrix_distinct(PyObject *self, PyObject *const *args, Py_ssize_t count, PyObject *keywords)
{
    static const char *const names[] = {"start", "stop"};
    PyObject *given[2];
    uint64_t start, stop;
    if (pick("distinct", names, 0, 2, args, count, keywords, given) || number_or(given[0], 0, "start", &start) ||
        number_or(given[1], UINT64_MAX, "stop", &stop))
        return NULL;
    Memory *it = memory_kept(self);
    PyObject *found = it == NULL || matrix_range(it, given[1], start, &stop) ? NULL : by_pages(it, start, stop, NULL);
    DROP(it);
    return found;
}

PyObject *matrix_intersect(PyObject *self, PyObject *const *args, Py_ssize_t count, PyObject *keywords)
{
    static const char *const names[] = {"start", "stop", "other_start", "other_stop"};
    PyObject *given[4];
    uint64_t start, stop, other[2];
    if (pick("intersect", names, 4, 4, args, count, keywords, given) || number(given[0], "start", &start) ||
        number(given[1], "stop", &stop) || number(given[2], "other_start", &other[0]) ||
        number(given[3], "other_stop", &other[1]))
        return NULL;
    Memory *it = memory_kept(self);
    PyObject *found = it == NULL || matrix_range(it, given[1], start, &stop) || matrix_range(it, given[3], other[0], &other[1])
                          ? NULL
                          : by_pages(it, start, stop, other);
    DROP(it);
    return found;
}

/* The most frequent numbers of a range with their counts, at most k. */
static PyObject *most_frequent(const Memory *it, uint64_t start, uint64_t stop, uint64_t k)
{
    uint64_t written = 0;
    const uint64_t room = k < stop - start ? k : stop - start;
    uint64_t *numbers = room_for(2 * room);
    PyObject *all = numbers == NULL ? NULL : PyList_New(0);
    if (all != NULL) {
        uint32_t status;
        Py_BEGIN_ALLOW_THREADS
        status = bitm_matrix_top(&it->matrix, (size_t)start, (size_t)stop, numbers, (size_t)room, numbers + room,
                                 (size_t)room, &written);
        Py_END_ALLOW_THREADS
        int failed = status != BITM_OK && wrong() == NULL;
        for (size_t i = 0; !failed && i < written; i++)
            failed = appended(all, numbers[i], &numbers[room + i]);
        if (failed)
            Py_CLEAR(all);
    }
    free(numbers);
    return all;
}

PyObject *matrix_top(PyObject *self, PyObject *const *args, Py_ssize_t count, PyObject *keywords)
{
    static const char *const names[] = {"k", "start", "stop"};
    PyObject *given[3];
    uint64_t k, start, stop;
    if (pick("top", names, 1, 3, args, count, keywords, given) || number(given[0], "k", &k) ||
        number_or(given[1], 0, "start", &start) || number_or(given[2], UINT64_MAX, "stop", &stop))
        return NULL;
    Memory *it = memory_kept(self);
    PyObject *found = it == NULL || matrix_range(it, given[2], start, &stop) ? NULL : most_frequent(it, start, stop, k);
    DROP(it);
    return found;
}
