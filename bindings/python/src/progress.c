/* What a build that takes long calls after each step. */
#include "values.h"

int progress_take(PyObject *given, PyObject **progress)
{
    *progress = given == Py_None ? NULL : given;
    if (*progress == NULL || PyCallable_Check(given))
        return 0;
    PyErr_Format(PyExc_TypeError, "progress is a function of two numbers, or None, not %R", Py_TYPE(given));
    return -1;
}

int progressed(PyObject *progress, uint64_t done, uint64_t total)
{
    PyObject *said = PyObject_CallFunction(progress, "KK", (unsigned long long)done, (unsigned long long)total);
    Py_XDECREF(said);
    return said == NULL ? -1 : 0;
}
