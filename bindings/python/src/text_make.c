/* bitm.TextIndex: what it is made of, bytes or a list of letters. */
#include "values.h"

int bytes_kept(PyObject *from, PyObject **bytes)
{
    Py_buffer held;
    *bytes = NULL;
    if (PyUnicode_Check(from)) {
        *bytes = PyUnicode_AsUTF8String(from);
        return *bytes == NULL ? -1 : 1;
    }
    if (PyBytes_Check(from)) {
        *bytes = Py_NewRef(from);
        return 1;
    }
    if (!PyObject_CheckBuffer(from))
        return 0;
    if (PyObject_GetBuffer(from, &held, PyBUF_FULL_RO))
        return -1;
    const char *format = held.format == NULL ? "B" : held.format;
    const int is_of_bytes = held.itemsize == 1 && (*format == 'B' || *format == 'c');
    PyBuffer_Release(&held);
    if (!is_of_bytes)
        return 0;
    *bytes = PyBytes_FromObject(from);
    return *bytes == NULL ? -1 : 1;
}

int pattern_take(Pattern *it, PyObject *from, const char *what)
{
    it->letters = NULL;
    int found = bytes_kept(from, &it->bytes);
    if (found == 0)
        it->letters = integers_all(from, what, &it->len);
    if (found <= 0)
        return it->letters == NULL ? -1 : 0;
    it->at = (const uint8_t *)PyBytes_AsString(it->bytes);
    it->len = (size_t)PyBytes_Size(it->bytes);
    return 0;
}

void pattern_drop(Pattern *it)
{
    Py_XDECREF(it->bytes);
    free(it->letters);
}

/* The bytes of a text, of a str those of its UTF-8. NULL and an error. */
static PyObject *text_of(PyObject *from)
{
    PyObject *bytes;
    if (bytes_kept(from, &bytes) == 0)
        PyErr_SetString(PyExc_TypeError, "a text is a str or bytes, and TextIndex.of_letters takes numbers");
    return bytes;
}

/* Each how many letters a position is sampled: 32 where it is not given. -1 and an error. */
static int step_of(PyObject *given, uint32_t *out)
{
    uint64_t step;
    if (number_or(given, 32, "the step", &step))
        return -1;
    if (step == 0 || step > UINT32_MAX) {
        PyErr_SetString(PyExc_ValueError, "the step is 1 to 2**32 - 1 letters");
        return -1;
    }
    *out = (uint32_t)step;
    return 0;
}

/* What an index is made of, and where. */
typedef struct {
    const uint8_t *bytes; /* or NULL: then there are letters */
    uint64_t *letters;
    size_t len;
    uint32_t below, step, *scratch;
    uint64_t *block, block_len, scratch_len;
    PyObject *progress; /* or NULL */
} Given;

/* The calls of the library, for bytes and for letters below a number. Need no GIL. */
static uint32_t sized(Given *it)
{
    return it->bytes != NULL ? bitm_text_size_bytes(it->bytes, it->len, it->step, &it->block_len, &it->scratch_len)
                             : bitm_text_size_letters(it->len, it->below, it->step, &it->block_len, &it->scratch_len);
}

static uint32_t built_at_once(const Given *it)
{
    return it->bytes != NULL ? bitm_text_build_bytes(it->bytes, it->len, it->step, it->scratch, (size_t)it->scratch_len,
                                                     it->block, (size_t)it->block_len)
                             : bitm_text_build(it->letters, it->len, it->below, it->step, it->scratch,
                                               (size_t)it->scratch_len, it->block, (size_t)it->block_len);
}

static uint32_t ordered(const Given *it)
{
    return it->bytes != NULL ? bitm_text_order_bytes(it->bytes, it->len, it->scratch, (size_t)it->scratch_len)
                             : bitm_text_order(it->letters, it->len, it->below, it->scratch, (size_t)it->scratch_len);
}

static uint32_t built_ordered(const Given *it)
{
    return it->bytes != NULL ? bitm_text_build_ordered_bytes(it->bytes, it->len, it->step, it->scratch,
                                                             (size_t)it->scratch_len, it->block, (size_t)it->block_len)
                             : bitm_text_build_ordered(it->letters, it->len, it->below, it->step, it->scratch,
                                                       (size_t)it->scratch_len, it->block, (size_t)it->block_len);
}

/* Room for the block, which belongs to the memory, and for what building needs, which is given back by aligned_free: -1
 * and MemoryError. */
static int rooms(Memory *it, Given *from)
{
    if ((from->block = block_room(it, from->block_len)) == NULL)
        return -1;
    if (from->scratch_len <= (uint64_t)PY_SSIZE_T_MAX / 4)
        from->scratch = aligned_new(4 * (size_t)from->scratch_len);
    if (from->scratch != NULL)
        return 0;
    PyErr_NoMemory();
    return -1;
}

/* Builds the index in the rooms, in two steps where there is progress: the status; other than BITM_OK, with an error,
 * where progress raised one. */
static uint32_t built_in(const Given *from)
{
    uint32_t (*const steps[])(const Given *) = {from->progress == NULL ? built_at_once : ordered, built_ordered};
    const int count = from->progress == NULL ? 1 : 2;
    uint32_t status = BITM_OK;
    for (int i = 0; i < count && status == BITM_OK; i++) {
        Py_BEGIN_ALLOW_THREADS
        status = steps[i](from);
        Py_END_ALLOW_THREADS
        if (status == BITM_OK && from->progress != NULL && progressed(from->progress, (uint64_t)i + 1, 2))
            status = BITM_WRONG;
    }
    return status;
}

/* Builds the index. -1 and an error. */
static int built(Memory *it, Given *from)
{
    uint32_t status;
    Py_BEGIN_ALLOW_THREADS
    status = sized(from);
    Py_END_ALLOW_THREADS
    if (status != BITM_OK)
        return refuse("a text has fewer than 2**32 - 1 letters");
    if (rooms(it, from))
        return -1;
    status = built_in(from);
    aligned_free(from->scratch);
    if (status == BITM_OK)
        return text_opened(it);
    if (!PyErr_Occurred() && from->bytes == NULL)
        (void)say_not_below("letter", from->letters, from->len, from->below);
    return refuse("it is no text that can be indexed");
}

int text_init(PyObject *self, PyObject *args, PyObject *keywords)
{
    static char *names[] = {"text", "step", "progress", NULL};
    PyObject *text, *each = NULL, *progress = NULL, *bytes = NULL;
    Given from = {0};
    if (!PyArg_ParseTupleAndKeywords(args, keywords, "O|O$O:TextIndex", names, &text, &each, &progress))
        return -1;
    Py_XINCREF(progress);
    const int taken = step_of(each, &from.step) == 0 && progress_take(progress, &from.progress) == 0 &&
                      (bytes = text_of(text)) != NULL;
    Memory *it = taken ? memory_new() : NULL;
    if (it != NULL) {
        from.bytes = (const uint8_t *)PyBytes_AsString(bytes);
        from.len = (size_t)PyBytes_Size(bytes);
    }
    int is_made = it != NULL && built(it, &from) == 0;
    Py_XDECREF(bytes);
    Py_XDECREF(progress);
    return value_made(self, it, is_made);
}

PyObject *text_of_letters(PyObject *type, PyObject *const *args, Py_ssize_t count, PyObject *keywords)
{
    static const char *const names[] = {"numbers", "letters", "step", "*progress"};
    PyObject *given[4];
    Given from = {0};
    uint64_t below;
    if (pick("of_letters", names, 2, 4, args, count, keywords, given) || number(given[1], "letters", &below) ||
        step_of(given[2], &from.step) || progress_take(given[3], &from.progress))
        return NULL;
    if (below > UINT32_MAX) {
        PyErr_SetString(PyExc_ValueError, "an alphabet has at most 2**32 - 1 letters");
        return NULL;
    }
    from.below = (uint32_t)below;
    if ((from.letters = integers_all(given[0], "a letter", &from.len)) == NULL)
        return NULL;
    Memory *it = memory_new();
    int failed = it == NULL || built(it, &from);
    free(from.letters);
    if (!failed)
        return value_new(type, it);
    DROP(it);
    return NULL;
}
