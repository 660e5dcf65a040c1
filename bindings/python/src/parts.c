/* The numbers and the memory that make a value, and values over memory that exists already: over a block, or over parts
 * as files of version 2 and older pickles have them. */
#include "values.h"

/* Memory of len items of the given size. */
typedef struct {
    const void **at;
    size_t *len;
    size_t size;
} Part;

/* Where the numbers and the parts of a kind of value stand in its memory, or where its block does. */
typedef struct {
    int numbers_count, parts_count;
    uint64_t *numbers[4];
    Part parts[MOST_BUFFERS];
} Layout;

#define PART(pointer, length, size)                                                                                    \
    {                                                                                                                  \
        (const void **)&(pointer), &(length), size                                                                     \
    }

int is_value(PyObject *type)
{
    if (opener_of(type) != NULL)
        return 1;
    PyErr_Format(PyExc_TypeError,
                 "an Index, an EliasFano, SparseBits, a PerfectHash, a Dictionary, Strings, a Tree, a Trie, a "
                 "WaveletMatrix or a TextIndex is needed, not %R",
                 type);
    return 0;
}

static void layout_of(PyObject *type, Memory *it, int is_block, Layout *out)
{
    struct bitm_index *index = &it->index, *words = &it->seeded.hash.index;
    struct bitm_sequence *sequence = &it->sequence;
    Layout of_index = {3,
                       7,
                       {&index->bits_len, &it->log2s[0], &it->log2s[1]},
                       {PART(index->words, index->words_len, 8), PART(index->upper, index->upper_len, 8),
                        PART(index->lower, index->lower_len, 8), PART(index->ones.samples, index->ones.samples_len, 4),
                        PART(index->ones.starts, index->ones.starts_len, 8),
                        PART(index->zeros.samples, index->zeros.samples_len, 4),
                        PART(index->zeros.starts, index->zeros.starts_len, 8)}};
    Layout of_sequence = {2,
                          4,
                          {&it->sequence.len, &sequence->width},
                          {PART(sequence->low, sequence->low_len, 8), PART(sequence->words, sequence->words_len, 8),
                           PART(sequence->upper, sequence->upper_len, 8),
                           PART(sequence->lower, sequence->lower_len, 8)}};
    Layout of_hash = {4,
                      5,
                      {&it->mark, &it->seeded.hash.keys, &it->print_width, &it->seed},
                      {PART(words->words, words->words_len, 8), PART(words->upper, words->upper_len, 8),
                       PART(words->lower, words->lower_len, 8),
                       PART(it->seeded.hash.sizes, it->seeded.hash.sizes_len, 8), PART(it->prints, it->prints_len, 8)}};
    Layout of_block = {0, 1, {NULL}, {PART(it->block, it->block_len, 8)}};
    PyTypeObject *kind = (PyTypeObject *)type;
    *out = is_block                                ? of_block
           : PyType_IsSubtype(kind, Index_Type)    ? of_index
           : PyType_IsSubtype(kind, Sequence_Type) ? of_sequence
           : PyType_IsSubtype(kind, Hash_Type)     ? of_hash
                                                   : of_block;
}

/* parts(value): the numbers of an index, a sequence or a hash and windows of its memory, as two tuples, which are what
 * over takes; of other values the block. */
PyObject *parts_of(PyObject *module, PyObject *self)
{
    PyObject *type = BORROWED(Py_TYPE(self));
    Layout layout;
    (void)module;
    if (!is_value(type))
        return NULL;
    Memory *it = memory_kept(self);
    if (it == NULL)
        return NULL;
    layout_of(type, it, 0, &layout);
    PyObject *numbers = PyTuple_New(layout.numbers_count),
             *windows = numbers == NULL ? NULL : PyTuple_New(layout.parts_count);
    for (int i = 0; windows != NULL && i < layout.numbers_count; i++) {
        PyObject *item = boxed(*layout.numbers[i]);
        if (item == NULL || PyTuple_SetItem(numbers, i, item))
            Py_CLEAR(windows);
    }
    for (int i = 0; windows != NULL && i < layout.parts_count; i++) {
        const Part *part = &layout.parts[i];
        PyObject *window = window_of(it, *part->at, *part->len, part->size);
        if (window == NULL || PyTuple_SetItem(windows, i, window))
            Py_CLEAR(windows);
    }
    DROP(it);
    if (windows != NULL)
        return Py_BuildValue("(NN)", numbers, windows);
    Py_XDECREF(numbers);
    return NULL;
}

/* Fills in the numbers and the parts of tuples that have as many as the layout. -1 and an error. */
static int fill(Memory *it, const Layout *layout, PyObject *numbers, PyObject *buffers)
{
    if (PyTuple_Size(numbers) != layout->numbers_count || PyTuple_Size(buffers) != layout->parts_count) {
        PyErr_Format(PyExc_TypeError, "%d numbers and %d buffers are needed", layout->numbers_count,
                     layout->parts_count);
        return -1;
    }
    for (int i = 0; i < layout->numbers_count; i++)
        if (number(PyTuple_GetItem(numbers, i), "a number of a value", layout->numbers[i]))
            return -1;
    for (int i = 0; i < layout->parts_count; i++)
        if (memory_items(it, PyTuple_GetItem(buffers, i), layout->parts[i].size, layout->parts[i].at,
                         layout->parts[i].len))
            return -1;
    return 0;
}

/* over(class, numbers, buffers): a value of the class over memory that others keep. Lengths alone are checked. */
PyObject *parts_over(PyObject *module, PyObject *args)
{
    PyObject *type, *numbers, *buffers;
    Layout layout;
    (void)module;
    if (!PyArg_ParseTuple(args, "O!O!O!", &PyType_Type, &type, &PyTuple_Type, &numbers, &PyTuple_Type, &buffers))
        return NULL;
    Memory *it = is_value(type) ? memory_new() : NULL;
    if (it == NULL)
        return NULL;
    layout_of(type, it, PyTuple_Size(buffers) == 1, &layout);
    if (fill(it, &layout, numbers, buffers)) {
        DROP(it);
        return NULL;
    }
    it->index.ones.log2 = it->log2s[0] > 31 ? 31 : (uint32_t)it->log2s[0];
    it->index.zeros.log2 = it->log2s[1] > 31 ? 31 : (uint32_t)it->log2s[1];
    return value_over(type, it, opener_of(type));
}
