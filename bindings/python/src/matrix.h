/* The ranges of a bitm.WaveletMatrix. */
#ifndef BITM_PYTHON_MATRIX_H
#define BITM_PYTHON_MATRIX_H

#include "values.h"

/* The end of a range, which is that of all numbers where none is given: -1, and IndexError where there is no such range.
 * Runs no Python code. */
int matrix_range(const Memory *it, PyObject *stop_given, uint64_t start, uint64_t *stop);

PyObject *matrix_distinct(PyObject *self, PyObject *const *args, Py_ssize_t count, PyObject *keywords);
PyObject *matrix_top(PyObject *self, PyObject *const *args, Py_ssize_t count, PyObject *keywords);
PyObject *matrix_intersect(PyObject *self, PyObject *const *args, Py_ssize_t count, PyObject *keywords);

#endif
