/* Arguments of calls, and the answers and exceptions that all types share. */
#include "core.h"

/* What is said of a value: its repr, but of a number that is longer than Python prints how many bits it has. NULL and
 * an error. */
static PyObject *shown(PyObject *value)
{
    PyObject *text = PyObject_Repr(value);
    if (text != NULL || !PyLong_Check(value) || !PyErr_ExceptionMatches(PyExc_ValueError))
        return text;
    PyErr_Clear();
    PyObject *bits = PyObject_CallMethod(BORROWED(&PyLong_Type), "bit_length", "O", value);
    text = bits == NULL ? NULL : PyUnicode_FromFormat("a number of %S bits", bits);
    Py_XDECREF(bits);
    return text;
}

void refuse_value(PyObject *exception, const char *format, PyObject *value)
{
    PyObject *text = shown(value);
    if (text != NULL)
        PyErr_Format(exception, format, text);
    Py_XDECREF(text);
}

static int out_of_range(PyObject *value, const char *what)
{
    PyErr_Clear();
    PyObject *text = shown(value);
    if (text != NULL)
        PyErr_Format(PyExc_OverflowError, "%s has to be at least 0 and below 2**64, not %S", what, text);
    Py_XDECREF(text);
    return -1;
}

int number_slowly(PyObject *value, const char *what, uint64_t *out)
{
    PyErr_Clear();
    PyObject *index = PyLong_Check(value) ? Py_NewRef(value) : PyNumber_Index(value);
    if (index == NULL)
        return -1;
    unsigned long long found = PyLong_AsUnsignedLongLong(index);
    int status = found == (unsigned long long)-1 && PyErr_Occurred() ? out_of_range(index, what) : 0;
    Py_DECREF(index);
    *out = found;
    return status;
}

int index_slowly(PyObject *key, Py_ssize_t *out)
{
    PyErr_Clear();
    *out = PyNumber_AsSsize_t(key, PyExc_IndexError);
    return *out == -1 && PyErr_Occurred() ? -1 : 0;
}

int number_or(PyObject *value, uint64_t other, const char *what, uint64_t *out)
{
    *out = other;
    return value == NULL || value == Py_None ? 0 : number(value, what, out);
}

int bit_sought(PyObject *value)
{
    if (value == Py_True || value == Py_False)
        return value == Py_True;
    int is_one = PyObject_RichCompareBool(value, Py_True, Py_EQ);
    int is_zero = is_one == 0 ? PyObject_RichCompareBool(value, Py_False, Py_EQ) : 0;
    if (is_one < 0 || is_zero < 0)
        return -2;
    return is_one ? 1 : is_zero ? 0 : -1;
}

int bit_slowly(PyObject *value)
{
    int bit = bit_sought(value);
    if (bit == -1)
        refuse_value(PyExc_ValueError, "a bit is true or false, not %S", value);
    return bit < 0 ? -1 : bit;
}

/* Puts an argument given by name in its place. */
static int pick_named(const char *call, const char *const *names, int most, PyObject *key, PyObject *value,
                      PyObject **found)
{
    for (int i = 0; i < most; i++) {
        const char *name = names[i] + (names[i][0] == '*');
        if (PyUnicode_CompareWithASCIIString(key, name) != 0)
            continue;
        if (found[i] != NULL) {
            PyErr_Format(PyExc_TypeError, "%s() got multiple values for argument '%s'", call, name);
            return -1;
        }
        found[i] = value;
        return 0;
    }
    PyErr_Format(PyExc_TypeError, "%s() got an unexpected keyword argument %R", call, key);
    return -1;
}

int pick(const char *call, const char *const *names, int least, int most, PyObject *const *args, Py_ssize_t count,
         PyObject *keywords, PyObject **found)
{
    int plain = 0;
    while (plain < most && names[plain][0] != '*')
        plain++;
    if (count > plain) {
        PyErr_Format(PyExc_TypeError, "%s() takes at most %d positional arguments (%zd given)", call, plain, count);
        return -1;
    }
    for (int i = 0; i < most; i++)
        found[i] = i < count ? args[i] : NULL;
    Py_ssize_t named = keywords == NULL ? 0 : PyTuple_Size(keywords);
    for (Py_ssize_t i = 0; i < named; i++)
        if (pick_named(call, names, most, PyTuple_GetItem(keywords, i), args[count + i], found))
            return -1;
    for (int i = 0; i < least; i++) {
        if (found[i] == NULL) {
            PyErr_Format(PyExc_TypeError, "%s() missing required argument '%s'", call, names[i]);
            return -1;
        }
    }
    return 0;
}

int inside(Py_ssize_t index, uint64_t len, const char *items, uint64_t *out)
{
    *out = from_front(index, len);
    if (*out < len)
        return 0;
    (void)outside(index, len, items);
    return -1;
}

PyObject *outside(Py_ssize_t index, uint64_t len, const char *items)
{
    PyErr_Format(PyExc_IndexError, "index %zd of %llu %s", index, (unsigned long long)len, items);
    return NULL;
}

PyObject *past_end(uint64_t position, uint64_t len)
{
    PyErr_Format(PyExc_IndexError, "position %llu of %llu bits", (unsigned long long)position, (unsigned long long)len);
    return NULL;
}

PyObject *wrong(void)
{
    PyErr_SetString(WrongTables, "the tables do not match the words, or the parts form no sequence");
    return NULL;
}
