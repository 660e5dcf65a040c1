/* bitm.TextIndex: where a pattern stands in a text, by the block of its index. */
#include "values.h"

int text_opened(Memory *it)
{
    return block_opened(it, text_opened, bitm_text_open(it->block, it->block_len, &it->text) == BITM_OK);
}

/* ---- patterns */

/* Whether the text can be asked for the pattern: TypeError for numbers where letters stand for bytes, and for a str
 * where they are numbers. */
static int may_ask(const Memory *it, const Pattern *pattern, PyObject *from)
{
    const int is_str = PyUnicode_Check(from), is_of_bytes = it->text.used_len != 0;
    if (is_of_bytes ? pattern->bytes != NULL : !is_str)
        return 1;
    PyErr_SetString(PyExc_TypeError, is_of_bytes ? "this is the index of bytes, and a pattern is a str or bytes"
                                                 : "this is the index of numbers, and a pattern is a list of them");
    return 0;
}

static uint32_t count_of(const Memory *it, const Pattern *pattern, uint64_t *out)
{
    return pattern->bytes != NULL ? bitm_text_count_bytes(&it->text, pattern->at, pattern->len, out)
                                  : bitm_text_count(&it->text, pattern->letters, pattern->len, out);
}

static uint32_t locate_of(const Memory *it, const Pattern *pattern, size_t from, uint64_t *out, size_t room,
                          uint64_t *written)
{
    return pattern->bytes != NULL
               ? bitm_text_locate_bytes(&it->text, pattern->at, pattern->len, from, out, room, written)
               : bitm_text_locate(&it->text, pattern->letters, pattern->len, from, out, room, written);
}

/* How often a pattern stands in the text: -1 and an error. */
static int counted(PyObject *self, PyObject *query, uint64_t *out)
{
    Pattern pattern;
    uint32_t status = BITM_OK;
    if (pattern_take(&pattern, query, "a letter"))
        return -1;
    Memory *it = memory_kept(self);
    int is_asked = it != NULL && may_ask(it, &pattern, query);
    if (is_asked) {
        Py_BEGIN_ALLOW_THREADS
        status = count_of(it, &pattern, out);
        Py_END_ALLOW_THREADS
        if (status != BITM_OK)
            (void)wrong();
    }
    pattern_drop(&pattern);
    DROP(it);
    return is_asked && status == BITM_OK ? 0 : -1;
}

static PyObject *text_count(PyObject *self, PyObject *query)
{
    uint64_t out;
    return counted(self, query, &out) ? NULL : boxed(out);
}

static int text_contains(PyObject *self, PyObject *query)
{
    uint64_t out;
    return counted(self, query, &out) ? -1 : out > 0;
}

/* The positions of a pattern without the first ones, at most as many as wanted. */
static PyObject *located(const Memory *it, const Pattern *pattern, uint64_t from, uint64_t most)
{
    uint64_t room = 0, written = 0, *out = NULL;
    uint32_t status = count_of(it, pattern, &room);
    if (status == BITM_OK && (out = room_for(room = room < most ? room : most)) == NULL)
        return NULL;
    if (status == BITM_OK) {
        Py_BEGIN_ALLOW_THREADS
        status = locate_of(it, pattern, (size_t)from, out, (size_t)room, &written);
        Py_END_ALLOW_THREADS
    }
    PyObject *found = status == BITM_OK ? list_of(out, (size_t)written, 0) : wrong();
    free(out);
    return found;
}

static PyObject *text_locate(PyObject *self, PyObject *const *args, Py_ssize_t count, PyObject *keywords)
{
    static const char *const names[] = {"pattern", "start", "limit"};
    PyObject *given[3];
    uint64_t from, most;
    Pattern pattern;
    if (pick("locate", names, 1, 3, args, count, keywords, given) || number_or(given[1], 0, "the start", &from) ||
        number_or(given[2], UINT64_MAX, "the limit", &most) || pattern_take(&pattern, given[0], "a letter"))
        return NULL;
    Memory *it = memory_kept(self);
    PyObject *found = it == NULL || !may_ask(it, &pattern, given[0]) ? NULL : located(it, &pattern, from, most);
    pattern_drop(&pattern);
    DROP(it);
    return found;
}

/* ---- the text */

static uint64_t length(const Memory *it) { return it->text.letters.len; } /* below 2^32 */
static Py_ssize_t text_len(PyObject *self) { return value_len(self, length); }

/* Whether letters are bytes, or stand for them. */
static inline int has_bytes(const Memory *it) { return it->text.used_len > 0 || it->text.letters.width <= 8; }

/* The letters from a position on: as bytes where each is one, else as a list. */
static PyObject *part_of(const Memory *it, size_t from, size_t count)
{
    int is_bytes = has_bytes(it);
    uint32_t status;
    PyObject *bytes = is_bytes ? PyBytes_FromStringAndSize(NULL, (Py_ssize_t)count) : NULL;
    uint64_t *letters = is_bytes ? NULL : room_for(count);
    if (bytes == NULL && letters == NULL)
        return NULL;
    uint8_t *room = is_bytes ? (uint8_t *)PyBytes_AsString(bytes) : NULL;
    Py_BEGIN_ALLOW_THREADS
    status = is_bytes ? bitm_text_extract_bytes(&it->text, from, room, count)
                      : bitm_text_extract(&it->text, from, letters, count);
    Py_END_ALLOW_THREADS
    PyObject *found = status != BITM_OK ? wrong() : is_bytes ? Py_NewRef(bytes) : list_of(letters, count, 0);
    Py_XDECREF(bytes);
    free(letters);
    return found;
}

static PyObject *letter_of(PyObject *self, Py_ssize_t index)
{
    Memory *it = memory_of(self);
    uint64_t letter = 0;
    uint8_t byte = 0;
    if (it == NULL)
        return NULL;
    const uint64_t len = it->text.letters.len;
    const size_t at = (size_t)from_front(index, len);
    const int is_byte = has_bytes(it);
    uint32_t status =
        is_byte ? bitm_text_extract_bytes(&it->text, at, &byte, 1) : bitm_text_extract(&it->text, at, &letter, 1);
    if (LIKELY(status == BITM_OK))
        return boxed(is_byte ? byte : letter);
    return status == BITM_NONE ? outside(index, len, "letters") : wrong();
}

/* The letters at count positions from one on, by steps, of which all between are taken from the text too. */
static PyObject *slice_of(const Memory *it, Py_ssize_t start, Py_ssize_t step, Py_ssize_t count)
{
    const Py_ssize_t last = start + (count - 1) * step, first = last < start ? last : start;
    if (count == 0)
        return part_of(it, 0, 0);
    PyObject *found = part_of(it, (size_t)first, (size_t)(last < start ? start - last : last - start) + 1);
    if (found == NULL || step == 1)
        return found;
    PyObject *each = PyLong_FromSsize_t(step), *slice = each == NULL ? NULL : PySlice_New(NULL, NULL, each);
    PyObject *made = slice == NULL ? NULL : PyObject_GetItem(found, slice);
    Py_XDECREF(each);
    Py_XDECREF(slice);
    Py_DECREF(found);
    return made;
}

static PyObject *text_subscript(PyObject *self, PyObject *key)
{
    Py_ssize_t index, start, stop, step;
    if (!PySlice_Check(key))
        return index_of(key, &index) ? NULL : letter_of(self, index);
    if (PySlice_Unpack(key, &start, &stop, &step))
        return NULL;
    Memory *it = memory_kept(self);
    if (it == NULL)
        return NULL;
    Py_ssize_t count = PySlice_AdjustIndices((Py_ssize_t)it->text.letters.len, &start, &stop, step);
    PyObject *found = slice_of(it, start, step, count);
    DROP(it);
    return found;
}

/* ---- the rest */

BLOCK_CHECK(text)

ATTRIBUTE(text, width, text.letters.width)

REPR(text, "letters=%zu, width=%llu", it->text.letters.len, (unsigned long long)it->text.letters.width)

#define OF(rest) EXAMPLE("TextIndex(b'banana')" rest)
static PyMethodDef methods[] = {
    METHOD("count", text_count, METH_O, "($self, pattern, /)",
           "At how many positions of the text a pattern stands: a str, as its UTF-8, or bytes; of a text of numbers a "
           "list of letters. Occurrences may overlap; an empty pattern stands at each position, the end too." OF(
               ".count('ana')") PRINTS("2")),
    KEYWORDS(
        "locate", text_locate, "($self, pattern, start=0, limit=None)",
        "The positions at which a pattern stands, in the order of the rest of the text from there on: without the "
        "first `start` of them, and at most `limit`. Of a text of bytes they are positions of bytes, also where it "
        "was a str. find_all() has them in the order of the text." OF(".locate('ana')") PRINTS("[3, 1]")),
    METHOD(
        "check", text_check, METH_NOARGS, "($self, /)",
        "Whether the block is as it was written and holds the index of a text: looks at all of it, and walks through "
        "the text." OF(".check()") PRINTS("True")),
    METHOD("of_letters", text_of_letters, METH_FASTCALL | METH_KEYWORDS | METH_CLASS,
           "($type, numbers, letters, step=32, *, progress=None)",
           "The index of a list of numbers that are below `letters`, or of an array. A pattern is then such a list "
           "too, and a part of the text a list. A word is kept for each letter of the alphabet; ValueError where a "
           "number is not below `letters`: it says which. progress is called as for TextIndex." EXAMPLE(
               "index = TextIndex.of_letters([1, 0, 2000, 0, 2000, 0], letters=2001)")
               THEN("index.find_all([0, 2000]), index[4:6]") PRINTS("([1, 3], [2000, 0])")),
    VALUE_METHODS("TextIndex(b'banana')"),
    {NULL, NULL, 0, NULL}};

static PyGetSetDef attributes[] = {
    {"width", text_width, NULL,
     DOC("How many bits a letter takes: of bytes as many as the number of different bytes needs." OF(".width")
             PRINTS("2")),
     NULL},
    VALUE_CLOSED("TextIndex(b'banana')"),
    {NULL, NULL, NULL, NULL, NULL}};

#define TEXT_DOC                                                                                                       \
    "TextIndex(text, step=32, *, progress=None)\n--\n\n"                                                               \
    "The index of a text, a str or bytes. The time to count a pattern in it does not depend on the text's\n"           \
    "length. The text is not needed any more: `index[from:to]` is a part of it.\n\n"                                   \
    "A str is taken as its UTF-8: positions and lengths count bytes, and a part is bytes.\n"                           \
    "A str with a lone surrogate has no UTF-8: UnicodeEncodeError.\n\n"                                                \
    "A position is kept each `step` bytes: a larger step takes less memory, and more time to find a\n"                 \
    "position or a part.\n\n"                                                                                          \
    "Building takes linear time, and eight bytes for each of the text while it works. progress(done,\n"                \
    "total) is called after each of its two steps, which are long: (1, 2) and (2, 2).\n\n"                             \
    "TextIndex.of_letters() takes a list of numbers, TextIndex.open() maps the file that save() or the\n"              \
    "program `bitm text build` wrote, and TextIndex.over() takes its bytes." EXAMPLE("index = TextIndex('banana')")    \
        THEN("len(index), index.count('ana'), index.find_all('ana'), index[1:4], 'nab' in index")                      \
            PRINTS("(6, 2, [1, 3], b'ana', False)") THEN("index = TextIndex('3 \\u20ac, 5 \\u20ac')")                  \
                THEN("len(index), index.find_all('\\u20ac'), index[7:].decode() == '5 \\u20ac'")                       \
                    PRINTS("(12, [2, 9], True)")

static PyType_Slot slots[] = {VALUE_SLOTS(TEXT_DOC, text_init, methods, attributes, text_repr),
                              {Py_sq_contains, text_contains},
                              {Py_mp_length, text_len},
                              {Py_mp_subscript, text_subscript},
                              {0, NULL}};
PyType_Spec text_spec = {"bitm.TextIndex", sizeof(Value), 0, VALUE_FLAGS, slots};
