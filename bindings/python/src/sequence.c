/* bitm.EliasFano: a monotone integer sequence. */
#include "values.h"
#include "sequence_docs.h"

/* ---- made */

int sequence_opened(Memory *it)
{
    const struct bitm_sequence *sequence = &it->sequence;
    uint64_t first;
    if (it->block != NULL &&
        block_opened(it, sequence_opened, bitm_sequence_block_open(it->block, it->block_len, &it->sequence) == BITM_OK))
        return -1;
    /* Each number is a 1 bit of the words: a small file that claims 2^33 numbers is refused before len() says so. */
    if (bitm_sequence_get(sequence, 0, &first) != BITM_BAD_SIZE && sequence->len / 64 <= sequence->words_len)
        return 0;
    PyErr_SetString(PyExc_ValueError, "the length of a part does not fit the number of numbers");
    return -1;
}

/* The block of numbers that nobody else can change: four passes read them. */
static int build(Memory *it, const uint64_t *items, size_t count)
{
    uint64_t len, *block;
    uint32_t status;
    if (bitm_sequence_block_size(count, count == 0 ? 0 : items[count - 1], &len) != BITM_OK) {
        PyErr_SetString(PyExc_ValueError, "2**56 numbers or more");
        return -1;
    }
    if ((block = block_room(it, len)) == NULL)
        return -1;
    Py_BEGIN_ALLOW_THREADS
    status = bitm_sequence_block_build(items, count, block, (size_t)len);
    Py_END_ALLOW_THREADS
    if (status == BITM_OK)
        return sequence_opened(it);
    (void)say_unsorted("number", items, count, false);
    return refuse("a number is less than the one before it");
}

Memory *sequence_in_block(Memory *from)
{
    uint64_t *items = room_for(from->sequence.len);
    Memory *it = items == NULL || numbers_all(from, items) ? NULL : memory_new();
    if (it != NULL && build(it, items, from->sequence.len))
        Py_CLEAR(it);
    free(items);
    return it;
}

static int sequence_init(PyObject *self, PyObject *args, PyObject *keywords)
{
    static char *names[] = {"numbers", NULL};
    PyObject *from;
    if (!PyArg_ParseTupleAndKeywords(args, keywords, "O:EliasFano", names, &from))
        return -1;
    return value_of_numbers(self, from, "the number", build);
}

/* ---- one query */

QUERY_OF(first, bitm_sequence_first_at_least, sequence)
QUERY_OF(last, bitm_sequence_last_at_most, sequence)

static PyObject *first_at_least(PyObject *self, PyObject *value) { return ask(self, value, first, true, "the value"); }
static PyObject *last_at_most(PyObject *self, PyObject *value) { return ask(self, value, last, true, "the value"); }

static PyObject *sequence_rank(PyObject *self, PyObject *query)
{
    PyObject *found = first_at_least(self, query);
    if (found != Py_None)
        return found;
    Py_DECREF(found);
    Memory *it = memory_of(self);
    return it == NULL ? NULL : PyLong_FromSize_t(it->sequence.len);
}

static uint64_t length(const Memory *it) { return it->sequence.len; } /* below 2^56 */

static uint32_t number_at(const Memory *it, uint64_t index, uint64_t *out)
{
    return bitm_sequence_get(&it->sequence, index, out);
}

static const Items ITEMS = {length, number_at, boxed, "numbers"};

static Py_ssize_t sequence_len(PyObject *self) { return value_len(self, length); }

/* An index that sq_item is given counts from the front already. */
static PyObject *sequence_item(PyObject *self, Py_ssize_t index) { return item_at(self, index, 0, &ITEMS); }

static PyObject *sequence_subscript(PyObject *self, PyObject *key)
{
    return PySlice_Check(key) ? sequence_slice(self, key) : item_for(self, key, &ITEMS);
}

int equal_number(PyObject *value, uint64_t *out)
{
    int is_text = PyUnicode_Check(value) || PyBytes_Check(value), is_index = PyIndex_Check(value);
    PyObject *whole = is_index ? PyNumber_Index(value) : is_text ? NULL : PyNumber_Long(value);
    int is_equal = whole == NULL ? -1 : is_index ? 1 : PyObject_RichCompareBool(whole, value, Py_EQ);
    if (is_equal == 1) {
        *out = PyLong_AsUnsignedLongLong(whole);
        is_equal = *out == UINT64_MAX && PyErr_Occurred() ? -1 : 1;
    }
    Py_XDECREF(whole);
    if (is_equal < 0 && PyErr_Occurred()) {
        if (!PyErr_ExceptionMatches(PyExc_TypeError) && !PyErr_ExceptionMatches(PyExc_ValueError) &&
            !PyErr_ExceptionMatches(PyExc_OverflowError))
            return -1;
        PyErr_Clear();
    }
    return is_equal == 1;
}

static int sequence_contains(PyObject *self, PyObject *value)
{
    uint64_t sought, out = 0;
    int may_be = equal_number(value, &sought);
    Memory *it = may_be < 0 ? NULL : memory_of(self);
    if (it == NULL)
        return -1;
    if (may_be && bitm_sequence_contains(&it->sequence, sought, &out) != BITM_OK) {
        (void)wrong();
        return -1;
    }
    return out == 1;
}

/* From which index on a number stands, and at which it stands last: 1, 0 where it is none, -1 and an error. */
static int standing(PyObject *self, PyObject *value, uint64_t *first, uint64_t *last)
{
    uint64_t sought, is_there = 0;
    int may_be = equal_number(value, &sought);
    Memory *it = may_be < 0 ? NULL : memory_of(self);
    if (it == NULL)
        return -1;
    const struct bitm_sequence *sequence = &it->sequence;
    if (!may_be || (bitm_sequence_contains(sequence, sought, &is_there) == BITM_OK && !is_there))
        return 0;
    if (is_there && bitm_sequence_first_at_least(sequence, sought, first) == BITM_OK &&
        bitm_sequence_last_at_most(sequence, sought, last) == BITM_OK && *first <= *last)
        return 1;
    (void)wrong();
    return -1;
}

static PyObject *sequence_index(PyObject *self, PyObject *const *args, Py_ssize_t count, PyObject *keywords)
{
    PyObject *value;
    uint64_t first = 0, last = 0, start, stop;
    if (range_taken("value", args, count, keywords, &value, &start, &stop))
        return NULL;
    int found = standing(self, value, &first, &last);
    first = first < start ? start : first;
    if (found == 1 && first <= last && first < stop)
        return boxed(first);
    if (found >= 0)
        refuse_value(PyExc_ValueError, "%S is not in the sequence", value);
    return NULL;
}

static PyObject *sequence_count(PyObject *self, PyObject *value)
{
    uint64_t first = 0, last = 0;
    int found = standing(self, value, &first, &last);
    return found < 0 ? NULL : boxed(found ? last - first + 1 : 0);
}

/* ---- lists */

LIST_UNTIL_NONE(get, bitm_sequence_get_list, sequence)
LIST_OF(firsts, bitm_sequence_first_at_least_list, sequence)
LIST_OF(lasts, bitm_sequence_last_at_most_list, sequence)
LIST_OF(contained, bitm_sequence_contains_list, sequence)
LIST(sequence, get_list, get, true, EACH, "an index")
LIST(sequence, first_at_least_list, firsts, true, SOME, "the value")
LIST(sequence, last_at_most_list, lasts, true, SOME, "the value")
LIST(sequence, contains_list, contained, true, BOOLS, "the value")

/* ---- the rest */

static int is_right(const Memory *it)
{
    return (it->block != NULL ? bitm_sequence_block_check(it->block, it->block_len)
                              : bitm_sequence_check(&it->sequence)) == BITM_OK;
}

static PyObject *sequence_check(PyObject *self, PyObject *none)
{
    (void)none;
    return value_checked(self, is_right);
}

static PyObject *sequence_iter(PyObject *self) { return numbers_new(self, 0, UINT64_MAX, 0); }

static PyObject *sequence_reversed(PyObject *self, PyObject *none)
{
    (void)none;
    return numbers_new(self, 0, UINT64_MAX, 1);
}

static PyObject *sequence_items(PyObject *self, PyObject *const *args, Py_ssize_t count, PyObject *keywords)
{
    static const char *const names[] = {"start", "stop", "*reverse"};
    PyObject *given[3];
    uint64_t from, stop;
    if (pick("items", names, 0, 3, args, count, keywords, given) || number_or(given[0], 0, "an index", &from) ||
        number_or(given[1], UINT64_MAX, "an index", &stop))
        return NULL;
    int is_reversed = given[2] == NULL ? 0 : PyObject_IsTrue(given[2]);
    return is_reversed < 0 ? NULL : numbers_new(self, from, stop, is_reversed);
}

static PyObject *sequence_repr(PyObject *self)
{
    const Memory *it = ((Value *)self)->memory;
    if (it == NULL)
        return shown_as(self, "closed");
    uint64_t few[6] = {0}, written = 0;
    size_t len = it->sequence.len;
    char numbers[6 * 22 + 1] = {0}, *end = numbers;
    if (len > 6)
        return shown_as(self, "numbers=%zu", len);
    if (bitm_sequence_items(&it->sequence, 0, few, len, &written) != BITM_OK)
        return shown_as(self, "numbers=%zu, wrong parts", len);
    for (size_t i = 0; i < written; i++)
        end += snprintf(end, 23, i ? ", %llu" : "%llu", (unsigned long long)few[i]);
    return shown_as(self, "[%s]", numbers);
}

#define PLAIN(name, function, arguments, text) METHOD(name, function, METH_O, arguments, text)
#define NAMED(name, arguments, text) KEYWORDS(#name, sequence_##name, arguments, text)
static PyMethodDef methods[] = {
    PLAIN("first_at_least", first_at_least, "($self, value, /)", SEQUENCE_FIRST_AT_LEAST),
    PLAIN("last_at_most", last_at_most, "($self, value, /)", SEQUENCE_LAST_AT_MOST),
    PLAIN("rank", sequence_rank, "($self, value, /)", SEQUENCE_RANK),
    NAMED(get_list, "($self, queries)", SEQUENCE_GET_LIST),
    NAMED(first_at_least_list, "($self, queries, *, missing=None)", SEQUENCE_FIRST_AT_LEAST_LIST),
    NAMED(last_at_most_list, "($self, queries, *, missing=None)", SEQUENCE_LAST_AT_MOST_LIST),
    NAMED(contains_list, "($self, queries)", SEQUENCE_CONTAINS_LIST),
    NAMED(items, "($self, start=0, stop=None, *, reverse=False)", SEQUENCE_ITEMS),
    KEYWORDS("from_value", numbers_from, "($self, value, *, reverse=False)", SEQUENCE_FROM_VALUE),
    METHOD("cursor", cursor_new, METH_NOARGS, "($self, /)", SEQUENCE_CURSOR),
    NAMED(index, "($self, value, start=0, stop=None)", SEQUENCE_INDEX),
    PLAIN("count", sequence_count, "($self, value, /)", SEQUENCE_COUNT),
    METHOD("check", sequence_check, METH_NOARGS, "($self, /)", SEQUENCE_CHECK),
    {"__reversed__", sequence_reversed, METH_NOARGS, NULL},
    VALUE_METHODS("EliasFano([2, 3, 5])"),
    {NULL, NULL, 0, NULL}};

static PyGetSetDef attributes[] = {VALUE_CLOSED("EliasFano([2, 3, 5])"), {NULL, NULL, NULL, NULL, NULL}};

static PyType_Slot slots[] = {VALUE_SLOTS(SEQUENCE_DOC, sequence_init, methods, attributes, sequence_repr),
                              {Py_tp_iter, sequence_iter},
                              {Py_tp_richcompare, numbers_compare},
                              {Py_tp_hash, PyObject_HashNotImplemented},
                              {Py_sq_length, sequence_len},
                              {Py_sq_item, sequence_item},
                              {Py_sq_contains, sequence_contains},
                              {Py_mp_length, sequence_len},
                              {Py_mp_subscript, sequence_subscript},
                              {0, NULL}};
PyType_Spec sequence_spec = {"bitm.EliasFano", sizeof(Value), 0, VALUE_FLAGS, slots};
