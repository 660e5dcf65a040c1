/* bitm.SparseBits: bits of which few are 1 bits, in one block of memory. */
#include "values.h"

int sparse_opened(Memory *it)
{
    int is_open = bitm_sparse_open(it->block, it->block_len, &it->sparse) == BITM_OK;
    if (!is_open || it->sparse.bits_len <= PY_SSIZE_T_MAX)
        return block_opened(it, sparse_opened, is_open);
    PyErr_SetString(PyExc_ValueError, "there are 2**63 bits or more");
    return -1;
}

/* ---- made */

/* Writes the block of the positions into memory of its own. -1 and an error. */
static int built(Memory *it, const uint64_t *positions, size_t count, uint64_t bits_len)
{
    uint64_t len, *block;
    uint32_t status;
    if (bitm_sparse_size(count, count > 0 ? positions[count - 1] : 0, &len) != BITM_OK)
        return refuse("there are 2**56 positions or more");
    if ((block = block_room(it, len)) == NULL)
        return -1;
    Py_BEGIN_ALLOW_THREADS
    status = bitm_sparse_build(positions, count, bits_len, block, (size_t)len);
    Py_END_ALLOW_THREADS
    if (status == BITM_OK)
        return sparse_opened(it);
    if (status == BITM_UNSORTED)
        (void)say_unsorted("position", positions, count, true);
    else
        (void)say_not_below("position", positions, count, bits_len);
    return refuse("a position is not above the one before it, or past the end");
}

static int sparse_init(PyObject *self, PyObject *args, PyObject *keywords)
{
    static char *names[] = {"positions", "length", NULL};
    PyObject *from, *wanted = NULL;
    uint64_t bits_len, *positions;
    size_t count;
    if (!PyArg_ParseTupleAndKeywords(args, keywords, "O|O:SparseBits", names, &from, &wanted) ||
        number_or(wanted, 0, "the length", &bits_len) || (positions = integers_all(from, "a position", &count)) == NULL)
        return -1;
    if ((wanted == NULL || wanted == Py_None) && count > 0) /* up to the last 1 bit */
        bits_len = positions[count - 1] + (positions[count - 1] < UINT64_MAX);
    Memory *it = memory_new();
    int is_made = it != NULL && built(it, positions, count, bits_len) == 0;
    free(positions);
    return value_made(self, it, is_made);
}

/* ---- the bits as a list */

static uint64_t length(const Memory *it) { return it->sparse.bits_len; } /* below 2^63 */

static uint32_t bit_at(const Memory *it, uint64_t index, uint64_t *out)
{
    return bitm_sparse_get(&it->sparse, index, out);
}

static const Items ITEMS = {length, bit_at, boxed_bit, "bits"};

static Py_ssize_t sparse_len(PyObject *self) { return value_len(self, length); }

/* An index that sq_item is given counts from the front already. */
static PyObject *sparse_item(PyObject *self, Py_ssize_t index) { return item_at(self, index, 0, &ITEMS); }
static PyObject *sparse_subscript(PyObject *self, PyObject *key) { return item_for(self, key, &ITEMS); }

/* Whether any bit is of a kind. */
static int sparse_contains(PyObject *self, PyObject *value)
{
    uint64_t position;
    int bit = bit_sought(value);
    Memory *it = bit < -1 ? NULL : memory_of(self);
    if (it == NULL)
        return -1;
    uint32_t status = bit < 0 ? BITM_NONE : bitm_sparse_next(&it->sparse, bit, 0, &position);
    if (status == BITM_OK || status == BITM_NONE)
        return status == BITM_OK;
    (void)wrong();
    return -1;
}

/* ---- the bits one after another */

typedef struct {
    Walk walk;        /* over SparseBits */
    uint64_t at, one; /* the bit that is next, and the 1 bit at it or after it: past the end where there is none */
} SparseWalk;

/* The first 1 bit from a position on. -1 and an error. */
static int one_from(const Memory *it, uint64_t from, uint64_t *one)
{
    uint32_t status = bitm_sparse_next(&it->sparse, true, from, one);
    if (status == BITM_NONE)
        *one = UINT64_MAX;
    else if (status != BITM_OK)
        (void)wrong();
    return status == BITM_OK || status == BITM_NONE ? 0 : -1;
}

static PyObject *walk_next(PyObject *self)
{
    SparseWalk *it = (SparseWalk *)self;
    if (interrupted((size_t)it->at)) /* which may run Python code, and so this */
        return NULL;
    Memory *memory = it->walk.source == NULL ? NULL : memory_of(it->walk.source);
    if (memory == NULL || it->at >= length(memory))
        return NULL;
    const int bit = it->at == it->one;
    if (bit && one_from(memory, it->at + 1, &it->one))
        return NULL;
    it->at++;
    return boxed_bit(bit);
}

static PyObject *sparse_iter(PyObject *self)
{
    uint64_t one;
    SparseWalk *it = (SparseWalk *)PyType_GenericAlloc(SparseWalk_Type, 0);
    Memory *memory = it == NULL ? NULL : memory_of(self); /* after the object, for making that may collect */
    if (memory == NULL || one_from(memory, 0, &one)) {
        DROP(it);
        return NULL;
    }
    it->walk.source = Py_NewRef(self);
    it->one = one;
    return (PyObject *)it;
}

static PyType_Slot walk_slots[] = {{Py_tp_iternext, walk_next}, WALK_SLOTS, {0, NULL}};
PyType_Spec sparse_walk_spec = {"bitm._core._SparseWalk", sizeof(SparseWalk), 0, WALK_FLAGS, walk_slots};

/* ---- one query */

BIT_QUERIES(sparse)

static PyObject *sparse_count(PyObject *self, PyObject *const *args, Py_ssize_t count, PyObject *keywords)
{
    static const char *const names[] = {"bit"};
    PyObject *given[1];
    if (pick("count", names, 0, 1, args, count, keywords, given))
        return NULL;
    int bit = given[0] == NULL ? 1 : bit_of(given[0]);
    Memory *it = bit < 0 ? NULL : memory_of(self);
    if (it == NULL)
        return NULL;
    const uint64_t ones = it->sparse.positions.len;
    if (ones > it->sparse.bits_len)
        return wrong();
    return boxed(bit ? ones : it->sparse.bits_len - ones);
}

/* ---- lists */

LIST_OF(bits, bitm_sparse_get_list, sparse)
LIST(sparse, get_list, bits, true, BOOLS, "a position")
BIT_LISTS(sparse)

/* ---- the rest */

BLOCK_CHECK(sparse)

/* The sequence that it holds, in its memory. */
static PyObject *sparse_positions(PyObject *self, void *none)
{
    Memory *behind = memory_kept(self), *it = behind == NULL ? NULL : memory_new();
    (void)none;
    if (it == NULL) {
        DROP(behind);
        return NULL;
    }
    it->behind = behind;
    it->sequence = behind->sparse.positions;
    return value_new(BORROWED(Sequence_Type), it);
}

REPR(sparse, "bits=%llu, ones=%zu", (unsigned long long)it->sparse.bits_len, it->sparse.positions.len)

#define OF(rest) EXAMPLE("SparseBits([3, 100, 101, 4000], 5000)" rest)
#define PLAIN(name, argument, text) METHOD(#name, sparse_##name, METH_O, "($self, " argument ", /)", text)
#define NAMED(name, arguments, text) KEYWORDS(#name, sparse_##name, arguments, text)
static PyMethodDef methods[] = {
    PLAIN(rank, "position",
          "How many 1 bits there are before a position, which may be the length. IndexError past it." OF(".rank(101)")
              PRINTS("2")),
    PLAIN(rank0, "position", "How many 0 bits there are before a position, as rank." OF(".rank0(101)") PRINTS("99")),
    PLAIN(select, "rank",
          "The position of the 1 bit that has rank 1 bits before it, or None." OF(".select(3)") PRINTS("4000")),
    PLAIN(select0, "rank",
          "The position of the 0 bit with that rank, or None: a search among the 1 bits." OF(".select0(3)")
              PRINTS("4")),
    PLAIN(next_one, "position",
          "The position of the first 1 bit at or after a position, or None." OF(".next_one(102)") PRINTS("4000")),
    PLAIN(next_zero, "position",
          "The position of the first 0 bit at or after a position, or None." OF(".next_zero(100)") PRINTS("102")),
    PLAIN(previous_one, "position",
          "The position of the last 1 bit at or before a position, which may be past the end, or None." OF(
              ".previous_one(3999)") PRINTS("101")),
    PLAIN(previous_zero, "position",
          "The position of the last 0 bit at or before a position, or None, as previous_one." OF(".previous_zero(101)")
              PRINTS("99")),
    NAMED(count, "($self, bit=1)", "How many 1 bits there are, or with 0 how many 0 bits." OF(".count()") PRINTS("4")),
    NAMED(get_list, "($self, queries)",
          "The bits at many positions, in their manner. IndexError where one is past the end." OF(".get_list([3, 4])")
              PRINTS("[True, False]")),
    NAMED(rank_list, "($self, queries)",
          "The ranks of many positions, in their manner. IndexError where one is past the length." OF(
              ".rank_list([3, 101, 5000])") PRINTS("[0, 2, 4]")),
    NAMED(rank0_list, "($self, queries)",
          "The ranks of many positions, of 0 bits, as rank_list." OF(".rank0_list([3, 101])") PRINTS("[3, 99]")),
    NAMED(select_list, "($self, queries, *, missing=None)",
          "The positions of many ranks, in their manner." OF(".select_list([3, 4])") PRINTS("[4000, None]")),
    NAMED(select0_list, "($self, queries, *, missing=None)",
          "The positions of many ranks, of 0 bits, as select_list." OF(".select0_list([3, 98])") PRINTS("[4, 99]")),
    METHOD("check", sparse_check, METH_NOARGS, "($self, /)",
           "Whether the block is as it was written and holds sparse bits: looks at all of it." OF(".check()")
               PRINTS("True")),
    VALUE_METHODS("SparseBits([3, 100], 5000)"),
    {NULL, NULL, 0, NULL}};

static PyGetSetDef attributes[] = {
    {"positions", sparse_positions, NULL,
     DOC("The positions of the 1 bits, as an EliasFano over the same memory." OF(".positions[3]") PRINTS("4000")),
     NULL},
    VALUE_CLOSED("SparseBits([3, 100], 5000)"),
    {NULL, NULL, NULL, NULL, NULL}};

#define SPARSE_DOC                                                                                                     \
    "SparseBits(positions, length=None)\n--\n\n"                                                                       \
    "Bits with few 1 bits, in one block of memory: the positions of the 1 bits, each greater than\n"                   \
    "the one before it, and how many bits there are: up to the last 1 bit, where it is not given.\n\n"                 \
    "A 1 bit takes about 2.6 + log2(n / m) bits where there are m among n. ValueError where a position is\n"           \
    "not above the one before it, or not below the length: it says which.\n\n"                                         \
    "It has the queries of an Index." EXAMPLE("bits = SparseBits([3, 100, 101, 4000], 5000)")                          \
        THEN("bits[100], bits.rank(101), bits.select0(3), len(bits)") PRINTS("(True, 2, 4, 5000)")

static PyType_Slot slots[] = {VALUE_SLOTS(SPARSE_DOC, sparse_init, methods, attributes, sparse_repr),
                              {Py_sq_length, sparse_len},
                              {Py_tp_iter, sparse_iter},
                              {Py_sq_contains, sparse_contains},
                              {Py_sq_item, sparse_item},
                              {Py_mp_length, sparse_len},
                              {Py_mp_subscript, sparse_subscript},
                              {0, NULL}};
PyType_Spec sparse_spec = {"bitm.SparseBits", sizeof(Value), 0, VALUE_FLAGS, slots};
