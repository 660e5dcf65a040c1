/* bitm.Trie: a set of words, in one block of memory. */
#include "nodes.h"

int trie_opened(Memory *it)
{
    return block_opened(it, trie_opened, bitm_trie_open(it->block, it->block_len, &it->trie) == BITM_OK);
}

/* ---- made */

/* What a trie is made of. */
typedef struct {
    uint64_t *degrees, *labels, *ends;
    size_t count, labels_len, ends_len;
    uint32_t width;
} Parts;

static int no_ends(void)
{
    PyErr_SetString(PyExc_ValueError, "the ends are not a bit for each node");
    return -1;
}

/* A copy of the words of bits, which others may change: one for each node at least. None of None. -1 and an error. */
static int ends_take(Parts *it, PyObject *from)
{
    const uint64_t *words;
    uint64_t bits;
    if (from == NULL || from == Py_None)
        return 0;
    Memory *held = memory_new();
    if (held != NULL && memory_words(held, from, &words, &it->ends_len, &bits) == 0) {
        if (bits < it->count)
            (void)no_ends();
        else if ((it->ends = room_for(it->ends_len)) != NULL)
            memcpy(it->ends, words, 8 * it->ends_len);
    }
    DROP(held);
    return it->ends == NULL ? -1 : 0;
}

/* Says which label is not above the one before it, of the same node: 1, or 0 where there is none. */
static int say_siblings(const Parts *from)
{
    uint64_t at = 0, first = 0;
    for (size_t node = 0; node < from->count; first += from->degrees[node++]) {
        const uint64_t *labels = from->labels + first;
        if (bitm_numbers_unsorted(labels, (size_t)from->degrees[node], true, &at) != BITM_OK)
            continue;
        PyErr_Format(PyExc_ValueError, "label %llu (%llu) is not above label %llu (%llu), of the same node",
                     (unsigned long long)(first + at), (unsigned long long)labels[at],
                     (unsigned long long)(first + at - 1), (unsigned long long)labels[at - 1]);
        return 1;
    }
    return 0;
}

/* Writes the block of the trie into memory of its own. -1 and an error. */
static int built(Memory *it, const Parts *from)
{
    uint64_t len, *block;
    uint32_t status = bitm_trie_size(from->count, from->width, from->ends_len > 0, &len);
    if (status == BITM_OK && (block = block_room(it, len)) != NULL) {
        Py_BEGIN_ALLOW_THREADS
        status = bitm_trie_build(from->degrees, from->count, from->labels, from->labels_len, from->width, from->ends,
                                 from->ends_len, block, (size_t)len);
        Py_END_ALLOW_THREADS
    }
    if (PyErr_Occurred())
        return -1;
    if (status == BITM_OK)
        return trie_opened(it);
    if (status != BITM_WRONG)
        return refuse("the width is not 1 to 63, or the ends are not a bit for each node, or the labels not one for "
                      "each node but the root");
    (void)(say_misfit(from->degrees, from->count) || say_wide("label", from->labels, from->labels_len, from->width) ||
           say_siblings(from));
    return refuse("the degrees are those of no tree, or the labels none for it");
}

static int trie_init(PyObject *self, PyObject *args, PyObject *keywords)
{
    static char *names[] = {"degrees", "labels", "width", "ends", NULL};
    PyObject *degrees, *labels, *ends = NULL, *wanted = NULL;
    Parts parts = {0};
    uint64_t width;
    if (!PyArg_ParseTupleAndKeywords(args, keywords, "OO|OO:Trie", names, &degrees, &labels, &wanted, &ends) ||
        number_or(wanted, 8, "the width", &width))
        return -1;
    parts.width = width > 64 ? 64 : (uint32_t)width;
    const int taken = (parts.degrees = integers_all(degrees, "a degree", &parts.count)) != NULL &&
                      (parts.labels = integers_all(labels, "a label", &parts.labels_len)) != NULL &&
                      ends_take(&parts, ends) == 0;
    Memory *it = taken ? memory_new() : NULL;
    int is_made = it != NULL && built(it, &parts) == 0;
    free(parts.degrees);
    free(parts.labels);
    free(parts.ends);
    return value_made(self, it, is_made);
}

/* Says which word does not stand after the one before it. */
static void say_unsorted_word(const uint8_t *bytes, size_t bytes_len, const uint64_t *starts, size_t starts_len)
{
    uint64_t at = 0;
    uint32_t status;
    Py_BEGIN_ALLOW_THREADS
    status = bitm_trie_unsorted_word(bytes, bytes_len, starts, starts_len, &at);
    Py_END_ALLOW_THREADS
    if (status != BITM_OK || at == 0)
        return;
    const uint64_t *start = starts + at;
    PyObject *word = shortened(bytes + start[0], (size_t)(start[1] - start[0]));
    PyObject *before = word == NULL ? NULL : shortened(bytes + start[-1], (size_t)(start[0] - start[-1]));
    if (before != NULL)
        PyErr_Format(PyExc_ValueError, "word %llu (%S) does not stand after word %llu (%S)", (unsigned long long)at,
                     word, (unsigned long long)at - 1, before);
    Py_XDECREF(word);
    Py_XDECREF(before);
}

/* Writes the block of the trie of words into memory of its own. -1 and an error. */
static int grown(Memory *it, const uint8_t *bytes, size_t bytes_len, const uint64_t *starts, size_t starts_len)
{
    uint64_t nodes = 1, len = 0, *block = NULL, *scratch = NULL;
    size_t scratch_len = 0;
    uint32_t status;
    Py_BEGIN_ALLOW_THREADS
    status = bitm_trie_nodes_of_words(bytes, bytes_len, starts, starts_len, &nodes);
    Py_END_ALLOW_THREADS
    if (status == BITM_OK)
        status = bitm_trie_size((size_t)nodes, 8, true, &len);
    if (status == BITM_OK) {
        scratch_len = (size_t)(3 * nodes - 2 + (nodes + 63) / 64);
        if ((block = block_room(it, len)) != NULL && (scratch = room_for(scratch_len)) != NULL) {
            Py_BEGIN_ALLOW_THREADS
            status =
                bitm_trie_build_words(bytes, bytes_len, starts, starts_len, scratch, scratch_len, block, (size_t)len);
            Py_END_ALLOW_THREADS
        }
        free(scratch);
    }
    if (!PyErr_Occurred() && status == BITM_OK)
        return trie_opened(it);
    if (!PyErr_Occurred() && status == BITM_UNSORTED)
        say_unsorted_word(bytes, bytes_len, starts, starts_len);
    return refuse(status == BITM_UNSORTED ? "the words do not rise" : "the starts are those of no words");
}

/* trie_of_sorted(class, bytes, starts): a trie of ascending words, one after another in bytes, and where each begins
 * and the last one ends. */
PyObject *trie_of_sorted(PyObject *module, PyObject *args)
{
    PyObject *type, *bytes, *numbers;
    size_t starts_len;
    (void)module;
    if (!PyArg_ParseTuple(args, "O!O!O", &PyType_Type, &type, &PyBytes_Type, &bytes, &numbers))
        return NULL;
    if (!PyType_IsSubtype((PyTypeObject *)type, Trie_Type)) {
        PyErr_Format(PyExc_TypeError, "%R is no class of tries", type);
        return NULL;
    }
    uint64_t *starts = integers_all(numbers, "a start", &starts_len);
    Memory *it = starts == NULL ? NULL : memory_new();
    const int failed = it == NULL || grown(it, (const uint8_t *)PyBytes_AsString(bytes), (size_t)PyBytes_Size(bytes),
                                           starts, starts_len);
    free(starts);
    if (!failed)
        return value_new(type, it);
    DROP(it);
    return NULL;
}

/* ---- queries by words */

/* A word: bytes, a str as its bytes in UTF-8, or a list of labels. */
static int word_take(Pattern *it, PyObject *from) { return pattern_take(it, from, "a label"); }

/* The node to which a word leads; or whether it leads to one at which a word ends. -1 and an error. */
static int word_asked(PyObject *self, PyObject *query, int is_end, uint64_t *out, uint32_t *status)
{
    Pattern word;
    if (word_take(&word, query))
        return -1;
    Memory *it = memory_of(self);
    if (it != NULL)
        *status = word.bytes != NULL ? bitm_trie_find_bytes(&it->trie, word.at, word.len, out)
                                     : bitm_trie_find(&it->trie, word.letters, word.len, out);
    if (it != NULL && is_end && *status == BITM_OK)
        *status = bitm_trie_is_end(&it->trie, (size_t)*out, out);
    pattern_drop(&word); /* may run Python code, which may close the value */
    return it == NULL ? -1 : 0;
}

static PyObject *trie_find(PyObject *self, PyObject *query)
{
    uint64_t node = 0;
    uint32_t status = BITM_OK;
    return word_asked(self, query, 0, &node, &status) ? NULL : answer_or_none(status, &node);
}

static int trie_contains(PyObject *self, PyObject *query)
{
    uint64_t is_end = 0;
    uint32_t status = BITM_OK;
    if (word_asked(self, query, 1, &is_end, &status))
        return -1;
    if (status == BITM_OK || status == BITM_NONE)
        return status == BITM_OK && is_end;
    (void)wrong();
    return -1;
}

static PyObject *trie_longest(PyObject *self, PyObject *query)
{
    Pattern word;
    uint64_t node = 0, count = 0;
    uint32_t status = BITM_OK;
    if (word_take(&word, query))
        return NULL;
    Memory *it = memory_of(self);
    if (it != NULL)
        status = word.bytes != NULL ? bitm_trie_longest_bytes(&it->trie, word.at, word.len, &node, &count)
                                    : bitm_trie_longest(&it->trie, word.letters, word.len, &node, &count);
    pattern_drop(&word);
    if (it == NULL)
        return NULL;
    return status > BITM_NONE ? wrong() : Py_BuildValue("KK", (unsigned long long)node, (unsigned long long)count);
}

/* The labels as bytes, where each is one; else as a list. */
static PyObject *word_of(const uint64_t *labels, size_t count, uint64_t width)
{
    if (width > 8)
        return list_of(labels, count, 0);
    PyObject *bytes = PyBytes_FromStringAndSize(NULL, (Py_ssize_t)count);
    char *at = bytes == NULL ? NULL : PyBytes_AsString(bytes);
    for (size_t i = 0; at != NULL && i < count; i++)
        at[i] = (char)labels[i];
    return bytes;
}

static PyObject *trie_word(PyObject *self, PyObject *value)
{
    uint64_t node, count, *labels = NULL;
    if (number(value, "a node", &node))
        return NULL;
    Memory *it = memory_kept(self);
    if (it == NULL)
        return NULL;
    PyObject *found = NULL;
    uint32_t status = bitm_trie_word(&it->trie, (size_t)node, NULL, 0, &count);
    if (status != BITM_OK)
        found = answer_or_none(status, &count);
    else if ((labels = room_for(count)) != NULL)
        found = bitm_trie_word(&it->trie, (size_t)node, labels, (size_t)count, &count) == BITM_OK
                    ? word_of(labels, (size_t)count, it->trie.width)
                    : wrong();
    free(labels);
    DROP(it);
    return found;
}

/* ---- queries of one node */

NODES(trie, trie.tree)
REPR(trie, "nodes=%zu, width=%llu", it->trie.tree.len, (unsigned long long)it->trie.width)
NODE(trie, label, bitm_trie_label, trie)
NODE_BIT(trie, is_end, bitm_trie_is_end, trie)
NODE_AND(trie, child_by_label, "label", "a label", bitm_trie_child, trie)

/* ---- the rest */

BLOCK_CHECK(trie)

ATTRIBUTE(trie, width, trie.width)

static PyObject *trie_has_ends(PyObject *self, void *none)
{
    const Memory *it = memory_of(self);
    (void)none;
    return it == NULL ? NULL : boxed_bit(it->trie.ends_len > 0);
}

#define OF(rest) EXAMPLE("trie = Trie([2, 0, 1, 0], b'abe', ends=BitVector.from_bits('0111'))") THEN("trie" rest)
#define PLAIN(name, text) METHOD(#name, trie_##name, METH_O, "($self, node, /)", text)
#define WORD(name, text) METHOD(#name, trie_##name, METH_O, "($self, word, /)", text)
static PyMethodDef methods[] = {
    WORD(find,
         "The node to which a word leads from the root, bytes, a str as UTF-8 or a list of labels; None where it leads "
         "to none." OF(".find(b'be')") PRINTS("3")),
    WORD(longest,
         "The deepest node to which a beginning of a word leads from the root, and how many labels lead there: "
         "all of them where the word leads to a node." OF(".longest(b'bee')") PRINTS("(3, 2)")),
    PLAIN(word,
          "The word that leads from the root to a node: bytes where a label has at most 8 bits, else a list; None "
          "where there is no such node." OF(".word(3)") PRINTS("b'be'")),
    PLAIN(label,
          "The label of a node; None at the root and where there is no such node." OF(".label(3)") PRINTS("101")),
    PLAIN(is_end, "Whether a word ends at a node; None where there is no such node, or the trie has no ends." OF(
                      ".is_end(3)") PRINTS("True")),
    KEYWORDS("child_by_label", trie_child_by_label, "($self, node, label)",
             "The child of a node with a label; None where none has it, or there is no such node." OF(
                 ".child_by_label(0, 98)") PRINTS("2")),
    PLAIN(parent,
          "The parent of a node; None at the root and where there is no such node." OF(".parent(3)") PRINTS("2")),
    PLAIN(degree, "How many children a node has; None where there is no such node." OF(".degree(0)") PRINTS("2")),
    PLAIN(children,
          "The children of a node, by ascending labels, as a range, for they follow one another; empty where there "
          "is no such node." OF(".children(0)") PRINTS("range(1, 3)")),
    METHOD("check", trie_check, METH_NOARGS, "($self, /)",
           "Whether the block is as it was written and holds a trie: looks at all of it." OF(".check()")
               PRINTS("True")),
    VALUE_METHODS("Trie.of_words(['a', 'be'])"),
    {NULL, NULL, 0, NULL}};

static PyGetSetDef attributes[] = {
    {"width", trie_width, NULL, DOC("How many bits a label has." OF(".width") PRINTS("8")), NULL},
    {"has_ends", trie_has_ends, NULL,
     DOC("Whether there is a bit for each node that says whether a word ends there." OF(".has_ends") PRINTS("True")),
     NULL},
    VALUE_CLOSED("Trie.of_words(['a', 'be'])"),
    {NULL, NULL, NULL, NULL, NULL}};

#define TRIE_DOC                                                                                                       \
    "Trie(degrees, labels, width=8, ends=None)\n--\n\n"                                                                \
    "A trie in one block of memory: a tree, from the degree of each node, in which each node but the root\n"           \
    "has a label, and the labels of the children of a node ascend, so that a word leads to at most one\n"              \
    "node.\n\n"                                                                                                        \
    "`labels` has the labels of nodes 1 and up, bytes or numbers of `width` bits each, 1 to 63; `ends`, a\n"           \
    "BitVector or words, has a bit for each node that says whether a word ends there, or is None.\n\n"                 \
    "Words are bytes, a str as UTF-8, or lists of labels. `word in trie` says whether it leads to a node\n"            \
    "at which a word ends: never where there are no ends.\n\n"                                                         \
    "`of_words` makes a trie of words." EXAMPLE(                                                                       \
        "trie = Trie([2, 0, 1, 0], b'abe', ends=BitVector.from_bits('0111'))  # a, b and be")                          \
        THEN("trie.find(b'be'), trie.find(b'e'), trie.word(2), 'be' in trie") PRINTS("(3, None, b'b', True)")

static PyType_Slot slots[] = {VALUE_SLOTS(TRIE_DOC, trie_init, methods, attributes, trie_repr),
                              {Py_sq_length, trie_len},
                              {Py_sq_contains, trie_contains},
                              {0, NULL}};
PyType_Spec trie_spec = {"bitm.Trie", sizeof(Value), 0, VALUE_FLAGS, slots};
