/* bitm.Index. */
#include "values.h"
#include "index_docs.h"

/* ---- made */

int index_opened(Memory *it)
{
    uint64_t ones;
    if (it->block != NULL)
        return index_block_opened(it);
    if (bitm_index_rank(&it->index, true, it->index.bits_len, &ones) != BITM_BAD_SIZE)
        return 0;
    PyErr_SetString(PyExc_ValueError, "the length of a table does not fit the number of words");
    return -1;
}

static int build_samples(Memory *it, bool one, uint32_t log2)
{
    size_t most = bitm_index_samples_len(it->index.words_len, log2);
    uint32_t *samples = memory_own(it, most, 4), status;
    uint64_t *starts = samples == NULL ? NULL : memory_own(it, it->index.upper_len, 8), used = 0;
    if (starts == NULL)
        return -1;
    Py_BEGIN_ALLOW_THREADS
    status = bitm_index_build_samples(&it->index, one, log2, samples, most, starts, it->index.upper_len, &used);
    Py_END_ALLOW_THREADS
    struct bitm_samples made = {samples, (size_t)used, starts, it->index.upper_len, log2, 0};
    *(one ? &it->index.ones : &it->index.zeros) = made;
    it->log2s[one ? 0 : 1] = log2;
    return status == BITM_OK ? 0 : -1;
}

static int build(Memory *it)
{
    struct bitm_index *index = &it->index;
    uint64_t ones;
    uint32_t status;
    index->upper_len = bitm_index_upper_len(index->words_len);
    index->lower_len = bitm_index_lower_len(index->words_len);
    uint64_t *upper = memory_own(it, index->upper_len, 8),
             *lower = upper == NULL ? NULL : memory_own(it, index->lower_len, 8);
    if (lower == NULL)
        return -1;
    index->upper = upper;
    index->lower = lower;
    Py_BEGIN_ALLOW_THREADS
    status = bitm_index_build(index->words, index->words_len, upper, index->upper_len, lower, index->lower_len, &ones);
    Py_END_ALLOW_THREADS
    if (status == BITM_OK)
        return 0;
    PyErr_SetString(PyExc_ValueError, "2**58 words or more");
    return -1;
}

/* The words and how many of their bits are meant: those of a length, or all. -1 and an error. */
static int take(Memory *it, PyObject *bits, PyObject *length)
{
    struct bitm_index *index = &it->index;
    uint64_t most;
    if (memory_words(it, bits, &index->words, &index->words_len, &most) ||
        number_or(length, most, "the length", &index->bits_len))
        return -1;
    if (index->bits_len <= most)
        return 0;
    PyErr_Format(PyExc_ValueError, "there are %llu bits, not %llu", (unsigned long long)most,
                 (unsigned long long)index->bits_len);
    return -1;
}

static int index_init(PyObject *self, PyObject *args, PyObject *keywords)
{
    static char *names[] = {"bits", "length", "sample_log2", NULL};
    PyObject *bits, *length = NULL, *sampled = NULL;
    uint64_t log2;
    if (!PyArg_ParseTupleAndKeywords(args, keywords, "O|O$O:Index", names, &bits, &length, &sampled) ||
        number_or(sampled, 0, "sample_log2", &log2))
        return -1;
    Memory *it = memory_new();
    int status = it == NULL ? -1 : take(it, bits, length);
    if (status == 0) {
        it->index.words_len = bitm_bits_words_len(it->index.bits_len); /* no more words than those that are queried */
        status = build(it);
    }
    for (int one = 1; one >= 0 && status == 0 && sampled != NULL && sampled != Py_None; one--)
        status = build_samples(it, one, (uint32_t)(log2 < 7 ? 7 : log2 > 31 ? 31 : log2));
    return value_made(self, it, status == 0);
}

/* ---- one query */

static uint64_t length(const Memory *it) { return it->index.bits_len; }

BIT_QUERIES(index)

/* ---- lists */

BIT_LISTS(index)

/* ---- the rest */

static PyObject *index_count(PyObject *self, PyObject *const *args, Py_ssize_t count, PyObject *keywords)
{
    static const char *const names[] = {"bit"};
    PyObject *given[1];
    uint64_t out = 0;
    if (pick("count", names, 0, 1, args, count, keywords, given))
        return NULL;
    int bit = given[0] == NULL ? 1 : bit_of(given[0]);
    Memory *it = bit < 0 ? NULL : memory_of(self);
    if (it == NULL)
        return NULL;
    return bitm_index_rank(&it->index, bit, it->index.bits_len, &out) == BITM_OK ? boxed(out) : wrong();
}

static int is_right(const Memory *it)
{
    const struct bitm_index *index = &it->index;
    const uint32_t status =
        it->block != NULL ? bitm_index_block_check(it->block, it->block_len) : bitm_index_check(index);
    return status == BITM_OK && (index->ones.log2 == 0 || bitm_index_check_samples(index, true) == BITM_OK) &&
           (index->zeros.log2 == 0 || bitm_index_check_samples(index, false) == BITM_OK);
}

static PyObject *index_check(PyObject *self, PyObject *none)
{
    (void)none;
    return value_checked(self, is_right);
}

static PyObject *index_repr(PyObject *self)
{
    const Memory *it = ((Value *)self)->memory;
    uint64_t ones = 0;
    if (it == NULL)
        return shown_as(self, "closed");
    unsigned long long len = it->index.bits_len;
    if (bitm_index_rank(&it->index, true, it->index.bits_len, &ones) != BITM_OK)
        return shown_as(self, "bits=%llu, wrong tables", len);
    return shown_as(self, "bits=%llu, ones=%llu", len, (unsigned long long)ones);
}

static PyObject *index_words(PyObject *self, void *none)
{
    Memory *it = memory_kept(self);
    (void)none;
    PyObject *window = it == NULL ? NULL : window_of(it, it->index.words, it->index.words_len, 8);
    PyObject *view = window == NULL ? NULL : PyMemoryView_FromObject(window);
    DROP(it);
    Py_XDECREF(window);
    return view;
}

#define PLAIN(name, arguments, text) METHOD(#name, index_##name, METH_O, arguments, text)
#define NAMED(name, arguments, text) KEYWORDS(#name, index_##name, arguments, text)
static PyMethodDef methods[] = {
    PLAIN(rank, "($self, position, /)", INDEX_RANK),
    PLAIN(rank0, "($self, position, /)", INDEX_RANK0),
    PLAIN(select, "($self, rank, /)", INDEX_SELECT),
    PLAIN(select0, "($self, rank, /)", INDEX_SELECT0),
    PLAIN(next_one, "($self, position, /)", INDEX_NEXT_ONE),
    PLAIN(next_zero, "($self, position, /)", INDEX_NEXT_ZERO),
    PLAIN(previous_one, "($self, position, /)", INDEX_PREVIOUS_ONE),
    PLAIN(previous_zero, "($self, position, /)", INDEX_PREVIOUS_ZERO),
    NAMED(rank_list, "($self, queries)", INDEX_RANK_LIST),
    NAMED(rank0_list, "($self, queries)", INDEX_RANK0_LIST),
    NAMED(select_list, "($self, queries, *, missing=None)", INDEX_SELECT_LIST),
    NAMED(select0_list, "($self, queries, *, missing=None)", INDEX_SELECT0_LIST),
    NAMED(count, "($self, bit=1)", INDEX_COUNT),
    KEYWORDS("ones", bits_ones, "($self, start=0, stop=None, *, reverse=False)", INDEX_ONES),
    KEYWORDS("zeros", bits_zeros, "($self, start=0, stop=None, *, reverse=False)", INDEX_ZEROS),
    METHOD("check", index_check, METH_NOARGS, "($self, /)", INDEX_CHECK),
    VALUE_METHODS("Index(BitVector.from_bits('0101'))"),
    {NULL, NULL, 0, NULL}};

static PyGetSetDef attributes[] = {VALUE_CLOSED("Index(BitVector.from_bits('0101'))"),
                                   {"words", index_words, NULL, DOC(INDEX_WORDS), NULL},
                                   {NULL, NULL, NULL, NULL, NULL}};

static PyType_Slot slots[] = {VALUE_SLOTS(INDEX_DOC, index_init, methods, attributes, index_repr),
                              {Py_tp_richcompare, bits_compare},
                              {Py_tp_hash, PyObject_HashNotImplemented},
                              {Py_tp_iter, bits_iter},
                              {Py_sq_length, bits_len},
                              {Py_sq_item, index_item},
                              {Py_sq_contains, bits_contains},
                              {Py_mp_length, bits_len},
                              {Py_mp_subscript, index_subscript},
                              {0, NULL}};
PyType_Spec index_spec = {"bitm.Index", sizeof(Value), 0, VALUE_FLAGS, slots};
