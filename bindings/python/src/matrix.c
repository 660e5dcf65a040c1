/* bitm.WaveletMatrix: a list of numbers in any order, in one block of memory. */
#include "matrix.h"

int matrix_opened(Memory *it)
{
    return block_opened(it, matrix_opened, bitm_matrix_open(it->block, it->block_len, &it->matrix) == BITM_OK);
}

/* ---- made */

/* How many bits the largest number has, and at least 1. */
static uint32_t width_of(const uint64_t *numbers, size_t count)
{
    uint64_t all = 1;
    uint32_t width = 0;
    for (size_t i = 0; i < count; i++)
        all |= numbers[i];
    for (; all > 0; all >>= 1)
        width++;
    return width;
}

/* What a matrix is made of. */
typedef struct {
    uint64_t *numbers; /* its own */
    size_t count;
    uint32_t width;
    bool quarters, hints;
    PyObject *progress; /* or NULL */
} Given;

/* Writes the block level by level, which sorts the numbers, with a call of progress after each. -1 and an error. */
static int written_by_levels(const Given *from, uint64_t *scratch, uint64_t *block, size_t len)
{
    for (uint32_t depth = 0; depth < from->width; depth++) {
        uint32_t status;
        Py_BEGIN_ALLOW_THREADS
        status = bitm_matrix_write_level(from->numbers, from->count, from->width, from->quarters, from->hints, depth,
                                         scratch, from->count, block, len);
        if (status == BITM_OK && depth + 1 == from->width)
            status = bitm_matrix_seal(from->count, from->width, from->quarters, from->hints, block, len);
        Py_END_ALLOW_THREADS
        if (status != BITM_OK)
            return refuse("the numbers are too many");
        if (progressed(from->progress, depth + 1, from->width))
            return -1;
    }
    return 0;
}

/* Writes the block in one call. -1 and an error. */
static int written_at_once(const Given *from, uint64_t *scratch, uint64_t *block, size_t len)
{
    uint32_t status;
    Py_BEGIN_ALLOW_THREADS
    status = bitm_matrix_build(from->numbers, from->count, from->width, from->quarters, from->hints, scratch,
                               2 * from->count, block, len);
    Py_END_ALLOW_THREADS
    if (status == BITM_OK)
        return 0;
    (void)say_wide("number", from->numbers, from->count, from->width);
    return refuse("a number has too many bits");
}

/* Writes the block of the numbers into memory of its own. -1 and an error. */
static int built(Memory *it, const Given *from)
{
    const int is_by_levels = from->progress != NULL;
    uint64_t len, *block, *scratch;
    if (bitm_matrix_size(from->count, from->width, from->quarters, from->hints, &len) != BITM_OK)
        return refuse("the width is 1 to 64 bits, and all numbers have less than 2**63 bits");
    if ((is_by_levels && say_wide("number", from->numbers, from->count, from->width)) ||
        (block = block_room(it, len)) == NULL ||
        (scratch = room_for((is_by_levels ? 1 : 2) * (uint64_t)from->count)) == NULL)
        return -1;
    int failed = (is_by_levels ? written_by_levels : written_at_once)(from, scratch, block, (size_t)len);
    free(scratch);
    return failed ? -1 : matrix_opened(it);
}

static int matrix_init(PyObject *self, PyObject *args, PyObject *keywords)
{
    static char *names[] = {"numbers", "width", "quarters", "hints", "progress", NULL};
    PyObject *numbers, *wanted = NULL, *progress = NULL;
    Given from = {0};
    uint64_t width;
    int quarters = 0, hints = 0;
    if (!PyArg_ParseTupleAndKeywords(args, keywords, "O|$OppO:WaveletMatrix", names, &numbers, &wanted, &quarters,
                                     &hints, &progress))
        return -1;
    Py_XINCREF(progress);
    const int is_given = wanted != NULL && wanted != Py_None;
    const int taken = number_or(wanted, 0, "the width", &width) == 0 && progress_take(progress, &from.progress) == 0 &&
                      (from.numbers = integers_all(numbers, "a number", &from.count)) != NULL;
    if (taken)
        from.width = is_given ? (uint32_t)(width > 65 ? 65 : width) : width_of(from.numbers, from.count);
    from.quarters = quarters != 0;
    from.hints = hints != 0;
    Memory *it = taken ? memory_new() : NULL;
    int is_made = it != NULL && built(it, &from) == 0;
    free(from.numbers);
    Py_XDECREF(progress);
    return value_made(self, it, is_made);
}

/* ---- the numbers as a list */

static uint64_t length(const Memory *it) { return it->matrix.len; } /* below 2^63 */

static uint32_t number_at(const Memory *it, uint64_t index, uint64_t *out)
{
    return bitm_matrix_get(&it->matrix, (size_t)index, out);
}

static const Items ITEMS = {length, number_at, boxed, "numbers"};

static Py_ssize_t matrix_len(PyObject *self) { return value_len(self, length); }

/* An index that sq_item is given counts from the front already. */
static PyObject *matrix_item(PyObject *self, Py_ssize_t index) { return item_at(self, index, 0, &ITEMS); }

/* The numbers at count indices from one on, by steps, as a list. */
static PyObject *items_of(const Memory *it, Py_ssize_t start, Py_ssize_t step, size_t count)
{
    uint64_t written = 0, *indices = room_for(count), *out = indices == NULL ? NULL : room_for(count);
    PyObject *found = NULL;
    for (size_t i = 0; out != NULL && i < count; i++)
        indices[i] = (uint64_t)(start + (Py_ssize_t)i * step);
    if (out != NULL && bitm_matrix_get_list(&it->matrix, indices, count, out, count, &written) == BITM_OK)
        found = list_of(out, count, 0);
    else if (out != NULL)
        (void)wrong();
    free(indices);
    free(out);
    return found;
}

static PyObject *matrix_subscript(PyObject *self, PyObject *key)
{
    Py_ssize_t start, stop, step;
    if (!PySlice_Check(key))
        return item_for(self, key, &ITEMS);
    if (PySlice_Unpack(key, &start, &stop, &step))
        return NULL;
    Memory *it = memory_kept(self);
    if (it == NULL)
        return NULL;
    Py_ssize_t count = PySlice_AdjustIndices((Py_ssize_t)it->matrix.len, &start, &stop, step);
    PyObject *found = items_of(it, start, step, (size_t)count);
    DROP(it);
    return found;
}

static PyObject *matrix_iter(PyObject *self) { return memory_of(self) == NULL ? NULL : PySeqIter_New(self); }

/* How often what equals a number is there: 0 of what is none. -1 and an error. */
static int counted(PyObject *self, PyObject *value, uint64_t *out)
{
    uint64_t sought;
    int may_be = equal_number(value, &sought);
    Memory *it = may_be < 0 ? NULL : memory_of(self);
    *out = 0;
    if (it == NULL)
        return -1;
    if (!may_be || bitm_matrix_rank(&it->matrix, sought, it->matrix.len, out) == BITM_OK)
        return 0;
    (void)wrong();
    return -1;
}

static int matrix_contains(PyObject *self, PyObject *value)
{
    uint64_t count;
    return counted(self, value, &count) ? -1 : count > 0;
}

static PyObject *matrix_count(PyObject *self, PyObject *value)
{
    uint64_t count;
    return counted(self, value, &count) ? NULL : boxed(count);
}

static PyObject *matrix_index(PyObject *self, PyObject *const *args, Py_ssize_t count, PyObject *keywords)
{
    PyObject *value;
    uint64_t sought, before = 0, out = 0, start, stop;
    if (range_taken("number", args, count, keywords, &value, &start, &stop))
        return NULL;
    int may_be = equal_number(value, &sought);
    Memory *it = may_be < 0 ? NULL : memory_of(self);
    if (it == NULL)
        return NULL;
    uint32_t status = may_be ? bitm_matrix_rank(&it->matrix, sought, (size_t)start, &before) : BITM_NONE;
    if (status == BITM_OK)
        status = bitm_matrix_select(&it->matrix, sought, before, &out);
    if (status == BITM_OK && out < stop)
        return boxed(out);
    if (status != BITM_OK && status != BITM_NONE)
        return wrong();
    refuse_value(PyExc_ValueError, "%S is not in the list", value);
    return NULL;
}

/* ---- queries */

static PyObject *matrix_rank(PyObject *self, PyObject *const *args, Py_ssize_t count, PyObject *keywords)
{
    static const char *const names[] = {"number", "index"};
    PyObject *given[2];
    uint64_t sought, index, out = 0;
    if (pick("rank", names, 2, 2, args, count, keywords, given) || number(given[0], "the number", &sought) ||
        number(given[1], "an index", &index))
        return NULL;
    Memory *it = memory_of(self);
    if (it == NULL)
        return NULL;
    uint32_t status = bitm_matrix_rank(&it->matrix, sought, (size_t)index, &out);
    if (LIKELY(status == BITM_OK))
        return boxed(out);
    if (status != BITM_NONE)
        return wrong();
    return PyErr_Format(PyExc_IndexError, "index %llu of %zu numbers", (unsigned long long)index, it->matrix.len);
}

static PyObject *matrix_select(PyObject *self, PyObject *const *args, Py_ssize_t count, PyObject *keywords)
{
    static const char *const names[] = {"number", "rank"};
    PyObject *given[2];
    uint64_t sought, rank, out = 0;
    if (pick("select", names, 2, 2, args, count, keywords, given) || number(given[0], "the number", &sought) ||
        number(given[1], "a rank", &rank))
        return NULL;
    Memory *it = memory_of(self);
    return it == NULL ? NULL : answer_or_none(bitm_matrix_select(&it->matrix, sought, (size_t)rank, &out), &out);
}

typedef uint32_t (*range_call)(const struct bitm_matrix *, size_t, size_t, uint64_t, uint64_t *);

/* A query of a number and a range: all numbers where it is not given. IndexError where there is no such range. */
static PyObject *of_range(PyObject *self, range_call call, const char *name, const char *what, PyObject *const *args,
                          Py_ssize_t count, PyObject *keywords)
{
    const char *const names[] = {what, "start", "stop"};
    PyObject *given[3];
    uint64_t asked, start, stop, out = 0;
    if (pick(name, names, 1, 3, args, count, keywords, given) || number(given[0], what, &asked) ||
        number_or(given[1], 0, "start", &start) || number_or(given[2], UINT64_MAX, "stop", &stop))
        return NULL;
    Memory *it = memory_of(self);
    if (it == NULL || matrix_range(it, given[2], start, &stop))
        return NULL;
    return answer_or_none(call(&it->matrix, (size_t)start, (size_t)stop, asked, &out), &out);
}

static uint32_t quantile(const struct bitm_matrix *it, size_t start, size_t stop, uint64_t k, uint64_t *out)
{
    return bitm_matrix_quantile(it, start, stop, (size_t)k, out);
}

#define RANGE(name, call, what)                                                                                        \
    static PyObject *matrix_##name(PyObject *self, PyObject *const *args, Py_ssize_t count, PyObject *keywords)        \
    {                                                                                                                  \
        return of_range(self, call, #name, what, args, count, keywords);                                               \
    }
RANGE(count_less, bitm_matrix_count_less, "bound")
RANGE(quantile, quantile, "k")
RANGE(next_value, bitm_matrix_next_value, "bound")
RANGE(previous_value, bitm_matrix_previous_value, "bound")

/* ---- lists */

LIST_UNTIL_NONE(get, bitm_matrix_get_list, matrix)
LIST(matrix, get_list, get, true, EACH, "an index")

#define PAIRS(name, call, other, what)                                                                                 \
    static uint32_t name##s(const Memory *it, const uint64_t *numbers, const uint64_t *others, uint64_t *out,          \
                            size_t count, struct bitm_list_counts *counts)                                             \
    {                                                                                                                  \
        return call(&it->matrix, numbers, count, others, count, out, count, counts);                                   \
    }                                                                                                                  \
    static PyObject *matrix_##name(PyObject *self, PyObject *const *args, Py_ssize_t count, PyObject *keywords)        \
    {                                                                                                                  \
        static const char *const names[] = {"numbers", other, "*missing"}, *const whats[] = {"a number", what};        \
        return ask_pairs(self, name##s, #name, names, whats, args, count, keywords);                                   \
    }
PAIRS(rank_list, bitm_matrix_rank_list, "indices", "an index")
PAIRS(select_list, bitm_matrix_select_list, "ranks", "a rank")

/* ---- the rest */

BLOCK_CHECK(matrix)

ATTRIBUTE(matrix, width, matrix.width)

REPR(matrix, "numbers=%zu, width=%llu", it->matrix.len, (unsigned long long)it->matrix.width)

#define OF(rest) EXAMPLE("WaveletMatrix([3, 1, 4, 1, 5, 1])" rest)
#define PLAIN(name, text) METHOD(#name, matrix_##name, METH_O, "($self, number, /)", text)
#define NAMED(name, arguments, text) KEYWORDS(#name, matrix_##name, arguments, text)
static PyMethodDef methods[] = {
    NAMED(rank, "($self, number, index)",
          "How many of the numbers before an index are this one. IndexError where it is past the end." OF(".rank(1, 4)")
              PRINTS("2")),
    NAMED(select, "($self, number, rank)",
          "The index of this number with exactly `rank` such numbers before it; None where there are no more than "
          "rank." OF(".select(1, 2)") PRINTS("5")),
    NAMED(count_less, "($self, bound, start=0, stop=None)",
          "How many numbers of a range are less than bound. IndexError where there is no such range." OF(
              ".count_less(4, 1, 5)") PRINTS("2")),
    NAMED(quantile, "($self, k, start=0, stop=None)",
          "The number of a range that would stand at index k if it were sorted: the least for k = 0. None where the "
          "range "
          "has no more than k numbers; IndexError where there is no such range." OF(".quantile(2, 1, 5)") PRINTS("4")),
    NAMED(next_value, "($self, bound, start=0, stop=None)",
          "The least number of a range that is at least bound; None where there is none. IndexError where there is no "
          "such "
          "range." OF(".next_value(2, 1, 5)") PRINTS("4")),
    NAMED(previous_value, "($self, bound, start=0, stop=None)",
          "The greatest number of a range that is less than bound; None where there is none. IndexError where there is "
          "no "
          "such range." OF(".previous_value(4, 1, 5)") PRINTS("1")),
    NAMED(distinct, "($self, start=0, stop=None)",
          "The distinct numbers of a range, ascending, each with how often it is there. IndexError where there is no "
          "such range." OF(".distinct(1, 5)") PRINTS("[(1, 2), (4, 1), (5, 1)]")),
    NAMED(
        top, "($self, k, start=0, stop=None)",
        "The k most frequent numbers of a range, or all, each with how often it is there: the most frequent first, and "
        "of equally frequent ones the least. IndexError where there is no such range." OF(".top(2)")
            PRINTS("[(1, 3), (3, 1)]")),
    NAMED(intersect, "($self, start, stop, other_start, other_stop)",
          "The numbers that are in both ranges, each once, ascending. IndexError where there is no such range." OF(
              ".intersect(0, 3, 3, 6)") PRINTS("[1]")),
    NAMED(get_list, "($self, queries)",
          "The numbers at many indices, in their manner." OF(".get_list([4, 0])") PRINTS("[5, 3]")),
    NAMED(rank_list, "($self, numbers, indices, *, missing=None)",
          "How many of the numbers before indices[i] are numbers[i], for each i, in the manner of the numbers." OF(
              ".rank_list([1, 5, 2], [4, 6, 7])") PRINTS("[2, 1, None]")),
    NAMED(select_list, "($self, numbers, ranks, *, missing=None)",
          "The index of numbers[i] with ranks[i] such numbers before it, for each i, in the manner of the numbers." OF(
              ".select_list([1, 5, 2], [2, 0, 0])") PRINTS("[5, 4, None]")),
    PLAIN(count, "How often a number is in the list." OF(".count(1)") PRINTS("3")),
    NAMED(index, "($self, number, start=0, stop=None)",
          "The first index of a number, in a range of indexes; ValueError where there is none." OF(".index(1)")
              PRINTS("1")),
    METHOD("check", matrix_check, METH_NOARGS, "($self, /)",
           "Whether the block is as it was written and holds a matrix: looks at all of it." OF(".check()")
               PRINTS("True")),
    VALUE_METHODS("WaveletMatrix([3, 1, 4])"),
    {NULL, NULL, 0, NULL}};

static PyGetSetDef attributes[] = {
    {"width", matrix_width, NULL, DOC("How many bits each number has at most." OF(".width") PRINTS("3")), NULL},
    VALUE_CLOSED("WaveletMatrix([3, 1, 4])"),
    {NULL, NULL, NULL, NULL, NULL}};

#define MATRIX_DOC                                                                                                     \
    "WaveletMatrix(numbers, *, width=None, quarters=False, hints=False, progress=None)\n--\n\n"                        \
    "A list of numbers in any order, in one block of memory of about 1.03 * width bits a number: where\n"              \
    "and how often a number is there, and which numbers of a range are the least.\n\n"                                 \
    "width is how many bits each has at most: by default the bits that the largest needs. With\n"                      \
    "quarters the block takes an eighth more, and most queries read fewer words. With hints it takes a\n"              \
    "quarter of the numbers' bits more, and select reads fewer words. ValueError where a number has more\n"            \
    "bits than width: it says which.\n\n"                                                                              \
    "progress(done, total) is called after each bit of the width, of `total` bits in all." EXAMPLE(                    \
        "numbers = WaveletMatrix([3, 1, 4, 1, 5, 1])")                                                                 \
        THEN("numbers[4], numbers.rank(1, 4), numbers.select(1, 2), numbers.quantile(3)") PRINTS("(5, 2, 5, 3)")       \
            THEN("numbers = WaveletMatrix([3, 1], progress=lambda *steps: print(*steps))") PRINTS("1 2\n2 2")

static PyType_Slot slots[] = {VALUE_SLOTS(MATRIX_DOC, matrix_init, methods, attributes, matrix_repr),
                              {Py_tp_iter, matrix_iter},
                              {Py_sq_length, matrix_len},
                              {Py_sq_item, matrix_item},
                              {Py_sq_contains, matrix_contains},
                              {Py_mp_length, matrix_len},
                              {Py_mp_subscript, matrix_subscript},
                              {0, NULL}};
PyType_Spec matrix_spec = {"bitm.WaveletMatrix", sizeof(Value), 0, VALUE_FLAGS, slots};
