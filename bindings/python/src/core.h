/* What the files of the extension share.
 *
 * The answers are the library's: a method takes its arguments, makes one call of bitm.h, and turns the status into a
 * Python value or an exception. What is here is memory: who holds it, and until when. */
#ifndef BITM_CORE_H
#define BITM_CORE_H

#define PY_SSIZE_T_CLEAN
/* The stable ABI of 3.11, the first that has Py_buffer and PyObject_GetBuffer: one file serves each later version. */
#define Py_LIMITED_API 0x030B0000
#include <Python.h>
#include <structmember.h>

#include <bitm.h>
#include <limits.h>
#include <stdio.h>
#include <stdlib.h>
#include <string.h>

#include "value_docs.h"

#define LIKELY(it) __builtin_expect(!!(it), 1)
#define BORROWED(it) ((PyObject *)(it))
#define KEEP(it) Py_XINCREF(BORROWED(it))
#define DROP(it) Py_XDECREF(BORROWED(it))
#define DOC(text) PyDoc_STR(text)
/* An entry of a table of methods: the text for help() begins with the arguments. */
#define METHOD(name, function, flags, arguments, text)                                                                 \
    {                                                                                                                  \
        name, (PyCFunction)(void (*)(void))(function), flags, DOC(name arguments "\n--\n\n" text)                      \
    }
/* In a text for help(): a line of Python, one that follows, and what the last one prints. */
#define EXAMPLE(line) "\n\n>>> " line
#define THEN(line) "\n>>> " line
#define PRINTS(text) "\n" text
#define KEYWORDS(name, function, arguments, text) METHOD(name, function, METH_FASTCALL | METH_KEYWORDS, arguments, text)

extern PyObject *WrongTables, *OtherKind;
extern PyTypeObject *Memory_Type, *Window_Type, *Positions_Type, *Numbers_Type, *SparseWalk_Type, *Cursor_Type,
    *Vector_Type, *Index_Type, *Sequence_Type, *Sparse_Type, *Dictionary_Type, *Strings_Type, *Hash_Type, *Tree_Type,
    *Trie_Type, *Matrix_Type, *Text_Type, *ShardSet_Type;
extern PyType_Spec memory_spec, window_spec, positions_spec, numbers_spec, sparse_walk_spec, cursor_spec, vector_spec,
    index_spec, sequence_spec, sparse_spec, dictionary_spec, strings_spec, hash_spec, tree_spec, trie_spec, matrix_spec,
    text_spec, shard_set_spec;

/* ---- arguments.c */

/* A whole number from 0 to 2^64 - 1: -1 and OverflowError for others, TypeError for what is not one. Runs Python code
 * (__index__), so what that may change is looked at afterwards. */
int number_slowly(PyObject *value, const char *what, uint64_t *out);
static inline int number(PyObject *value, const char *what, uint64_t *out)
{
    if (LIKELY(Py_IS_TYPE(value, &PyLong_Type))) {
        *out = PyLong_AsSize_t(value);
        if (LIKELY(*out != UINT64_MAX))
            return 0;
    }
    return number_slowly(value, what, out); /* also for 2^64 - 1 itself */
}

/* Raises an exception whose format has %S for a value, whose number of digits may be any. */
void refuse_value(PyObject *exception, const char *format, PyObject *value);

/* The index of bits[key], not above PY_SSIZE_T_MAX and below 0 where it counts from the end: -1 and IndexError or
 * TypeError. Runs Python code. */
int index_slowly(PyObject *key, Py_ssize_t *out);
static inline int index_of(PyObject *key, Py_ssize_t *out)
{
    if (LIKELY(Py_IS_TYPE(key, &PyLong_Type))) {
        *out = PyLong_AsSsize_t(key);
        if (LIKELY(*out != -1))
            return 0;
    }
    return index_slowly(key, out); /* also for -1 itself */
}

/* The same from the front, for len items; what lies outside may be any number that is no less than len. */
static inline uint64_t from_front(Py_ssize_t index, uint64_t len)
{
    return index < 0 ? (uint64_t)index + len : (uint64_t)index;
}

/* The same, and another number for None and for an argument that is not given. */
int number_or(PyObject *value, uint64_t other, const char *what, uint64_t *out);

/* 0 or 1 of what equals 0 or 1: -1 and ValueError for others. Runs Python code (__eq__). */
int bit_slowly(PyObject *value);
static inline int bit_of(PyObject *value) { return value == Py_True ? 1 : value == Py_False ? 0 : bit_slowly(value); }

/* The same for `bit in values`: -1 where it is neither, and -2 and an error. */
int bit_sought(PyObject *value);

/* Arguments by position and name: found[i] stays NULL where there is none, and the first `least` have to be there. A
 * name that begins with '*' is given by name alone. */
int pick(const char *call, const char *const *names, int least, int most, PyObject *const *args, Py_ssize_t count,
         PyObject *keywords, PyObject **found);

/* The index into len items of a Python index, from the end where it is negative: -1 and IndexError outside. */
int inside(Py_ssize_t index, uint64_t len, const char *items, uint64_t *out);

/* IndexError for an index of len items, and for a position past the end; WrongTables. */
PyObject *outside(Py_ssize_t index, uint64_t len, const char *items);
PyObject *past_end(uint64_t position, uint64_t len);
PyObject *wrong(void);

/* An answer as a Python number: PyLong_FromLong has a short way for those of one digit, below 2^30. */
static inline PyObject *boxed(uint64_t answer)
{
    return LIKELY(answer <= LONG_MAX) ? PyLong_FromLong((long)answer) : PyLong_FromUnsignedLongLong(answer);
}
static inline PyObject *boxed_bit(uint64_t bit) { return Py_NewRef(bit ? Py_True : Py_False); }

/* In a loop that may go on for long: looks at signals now and then, so that Ctrl-C ends it. -1 and an error. Runs
 * Python code. */
static inline int interrupted(size_t turn) { return (turn & 0xfff) == 0xfff ? PyErr_CheckSignals() : 0; }

/* The next item of an iterator, which may have no end: NULL at its end, or with an error. */
static inline PyObject *next_item(PyObject *iterator, size_t turn)
{
    return interrupted(turn) ? NULL : PyIter_Next(iterator);
}

/* The answer of a query that may have none. By address: the call that writes it may be another argument. */
static inline PyObject *answer_or_none(uint32_t status, const uint64_t *out)
{
    if (LIKELY(status == BITM_OK))
        return boxed(*out);
    return status == BITM_NONE ? Py_NewRef(Py_None) : wrong();
}

/* ---- integers.c: a flat buffer of whole numbers of any width, sign, byte order and stride, or numbers of an iterable
 */
typedef struct {
    Py_buffer held;
    int is_held;
    uint64_t *own;
    size_t len;
    Py_ssize_t stride;
    int size, is_signed, is_swapped;
} Integers;

/* Takes a buffer once, or goes over an iterable. -1 and an error. */
int integers_take(Integers *it, PyObject *from, const char *what);
void integers_drop(Integers *it);

/* Copies count items from index from on, and says how many there are before the first that is below 0. Needs no GIL. */
size_t integers_load(const Integers *it, size_t from, size_t count, uint64_t *out);

/* Copies all items, for the buffer may change. -1 and an error. */
int integers_own(Integers *it);

/* All numbers of a buffer or an iterable, copied, in room that is given back by free. NULL and an error. */
uint64_t *integers_all(PyObject *from, const char *what, size_t *len);

/* OverflowError for the item at an index, which is below 0. */
void integers_below(const Integers *it, size_t at, const char *what);

/* Room for count items of 8 bytes, or NULL and MemoryError. */
uint64_t *room_for(uint64_t count);

/* ---- aligned.c: memory for words, aligned to 64 bytes; of 4 MiB or more in huge pages where the system has them */

/* Zeros; other bytes, of which the first are kept, and the others may be any; NULL, and what was there stays, where
 * memory is refused. Given back by aligned_free alone. */
void *aligned_new(size_t bytes);
void *aligned_resize(void *at, size_t kept, size_t bytes);
void aligned_free(void *at);

/* ---- memory.c: what an index, a sequence or a hash reads */
enum { MOST_BUFFERS = 8 };

/* Never given to Python code, and never changed once it is made. All of it stays until the last reference is gone: a
 * call that runs without the GIL holds a reference, and close drops one. */
typedef struct Memory {
    PyObject_HEAD int held_count, own_count;
    struct Memory *next;   /* of those that wait to be freed */
    struct Memory *behind; /* memory of another value, in which all of this lies; or NULL */
    Py_buffer held[MOST_BUFFERS];
    void *own[MOST_BUFFERS];
    size_t own_bytes;
    struct bitm_index index;
    struct bitm_sequence sequence;
    struct bitm_sparse sparse;
    struct bitm_dictionary dictionary;
    struct bitm_strings strings;
    struct bitm_seeded_hash seeded; /* a hash, whose words may have seeds */
    struct bitm_tree tree;
    struct bitm_trie trie;
    struct bitm_matrix matrix;
    struct bitm_text text;
    const uint64_t *block; /* the words of the block of a value that is in one; else NULL */
    size_t block_len;
    const uint64_t *prints; /* the fingerprints of a hash: a number of print_width bits for each key */
    size_t prints_len;
    uint64_t print_width, seed, mark;
    uint64_t log2s[2]; /* of the samples of 1 bits and 0 bits, as numbers of 64 bits */
} Memory;

Memory *memory_new(void);

/* Room for count items of the given size, which belongs to the memory; NULL and MemoryError. */
void *memory_own(Memory *it, uint64_t count, size_t size);

/* The words of a BitVector, a bitarray (copied in our order of bits) or a buffer of 64-bit words or of bytes: in place,
 * or copied where bytes do not fill words or are not aligned. One look: address and length are those of the buffer that
 * is held. bits is how many there are. -1 and an error. */
int memory_words(Memory *it, PyObject *from, const uint64_t **words, size_t *len, uint64_t *bits);

/* The items of a buffer, of the given size each: in place, or copied where they are not aligned. */
int memory_items(Memory *it, PyObject *from, size_t size, const void **at, size_t *len);

/* Whether it is of the class of that name, in a module that the program has imported: nothing is imported here. -1 and
 * MemoryError. */
int is_instance(PyObject *it, const char *module, const char *name);

/* ---- value.c: an object that has memory, and what Python code may see of it */
typedef struct {
    PyObject_HEAD Memory *memory; /* NULL where it is closed, or was never made */
    PyObject *weak;
} Value;

/* The memory, borrowed; NULL and ValueError where the value is closed. */
static inline Memory *memory_of(PyObject *self)
{
    Memory *it = ((Value *)self)->memory;
    if (it == NULL)
        PyErr_SetString(PyExc_ValueError, "it is closed");
    return it;
}

/* The same as a new reference: needed wherever an object that the garbage collector tracks is made meanwhile, for that
 * may collect, and run a finalizer that closes the value. */
Memory *memory_kept(PyObject *self);

/* Gives the value other memory, whose reference it takes. */
void value_set(PyObject *self, Memory *memory);

/* A new value of a type over memory, whose reference it takes even where it fails. */
PyObject *value_new(PyObject *type, Memory *memory);

int value_traverse(PyObject *self, visitproc visit, void *arg);
int value_clear(PyObject *self);
void value_dealloc(PyObject *self);
PyObject *value_close(PyObject *self, PyObject *none);
PyObject *value_enter(PyObject *self, PyObject *none);
PyObject *value_exit(PyObject *self, PyObject *args);
PyObject *value_closed(PyObject *self, void *none);
PyObject *value_copy(PyObject *self, PyObject *none);
PyObject *value_sizeof(PyObject *self, PyObject *none);
PyObject *shown_as(PyObject *self, const char *fields, ...); /* `Index(bits=7, ones=4)`, by the name of its class */
extern PyMemberDef value_members[];

/* What each value has, with an example of its type. */
#define VALUE_METHODS(made)                                                                                            \
    METHOD("close", value_close, METH_NOARGS, "($self, /)", VALUE_CLOSE(made)),                                        \
        {"__enter__", value_enter, METH_NOARGS, NULL}, {"__exit__", value_exit, METH_VARARGS, NULL},                   \
        {"__copy__", value_copy, METH_NOARGS, NULL},                                                                   \
    {                                                                                                                  \
        "__sizeof__", value_sizeof, METH_NOARGS, NULL                                                                  \
    }
#define VALUE_SLOTS(doc, init, methods, attributes, repr)                                                              \
    {Py_tp_doc, DOC(doc)}, {Py_tp_init, init}, {Py_tp_methods, methods}, {Py_tp_getset, attributes},                   \
        {Py_tp_repr, repr}, {Py_tp_dealloc, value_dealloc}, {Py_tp_traverse, value_traverse},                          \
        {Py_tp_clear, value_clear},                                                                                    \
    {                                                                                                                  \
        Py_tp_members, value_members                                                                                   \
    }
#define VALUE_FLAGS (Py_TPFLAGS_DEFAULT | Py_TPFLAGS_HAVE_GC | Py_TPFLAGS_BASETYPE)
#define VALUE_CLOSED(made)                                                                                             \
    {                                                                                                                  \
        "closed", value_closed, NULL, DOC("Whether it was closed." EXAMPLE(made ".closed") PRINTS("False")), NULL      \
    }

/* An iterator over another object. */
typedef struct {
    PyObject_HEAD PyObject *source; /* NULL at the end */
} Walk;
int walk_traverse(PyObject *self, visitproc visit, void *arg);
int walk_clear(PyObject *self);
void walk_dealloc(PyObject *self);
#define WALK_SLOTS                                                                                                     \
    {Py_tp_dealloc, walk_dealloc}, {Py_tp_traverse, walk_traverse}, {Py_tp_clear, walk_clear},                         \
    {                                                                                                                  \
        Py_tp_iter, PyObject_SelfIter                                                                                  \
    }
#define WALK_FLAGS (Py_TPFLAGS_DEFAULT | Py_TPFLAGS_HAVE_GC | Py_TPFLAGS_DISALLOW_INSTANTIATION)

/* A buffer that Python code may look at: of memory that it keeps (read-only), or of its own (writable): new, or the
 * numbers in a piece of malloc's, which it takes even where it fails. */
PyObject *window_of(Memory *base, const void *at, size_t len, size_t size);
PyObject *window_taking(uint64_t *own, size_t len);
PyObject *window_new(size_t len, uint64_t **at);

/* A function of bitm/_more.py, with arguments that it takes. */
PyObject *more(const char *name, PyObject *args);

/* ---- lists.c: many queries at once */

/* Answers count queries; out has an answer for each. `one` is for calls that have a kind of bit. Needs no GIL. */
typedef uint32_t (*list_call)(const Memory *memory, bool one, const uint64_t *in, uint64_t *out, size_t count,
                              struct bitm_list_counts *counts);

/* The same of pairs of numbers. */
typedef uint32_t (*pairs_call)(const Memory *memory, const uint64_t *first, const uint64_t *second, uint64_t *out,
                               size_t count, struct bitm_list_counts *counts);

/* What is made of the answers: plain numbers (each item has one), or numbers of which some may be missing, or bools. */
enum { EACH, SOME, BOOLS };

/* Answers to queries, in the manner of the queries: an array for an array of NumPy, else a list. The queries are
 * copied, and the GIL is given back while they are answered. */
PyObject *ask_list(PyObject *self, list_call call, bool one, int kind, const char *name, const char *what,
                   PyObject *const *args, Py_ssize_t count, PyObject *keywords);

/* Answers to pairs of queries, in the manner of the first of the two lists, each of which may have none. `names` are
 * those of the two arguments and "*missing". ValueError where the lists are not as long as each other. */
PyObject *ask_pairs(PyObject *self, pairs_call call, const char *name, const char *const names[3],
                    const char *const whats[2], PyObject *const *args, Py_ssize_t count, PyObject *keywords);

/* The room for answers and what they become: begin, room, then end or drop. */
typedef struct {
    int how, of_numpy;
    uint64_t fill, *out;
    size_t len;
    PyObject *window;
} Answers;
int answers_begin(Answers *it, PyObject *queries, PyObject *missing, int kind);
int answers_room(Answers *it, size_t len);
PyObject *answers_end(Answers *it, uint64_t missing);
void answers_drop(Answers *it);

/* A list of numbers; with is_none, BITM_NO_ANSWER is None. */
PyObject *list_of(const uint64_t *items, size_t count, int is_none);

/* ---- bits.c: what BitVector and Index share */

/* Words and how many of their bits are meant, as bitm.h takes them. */
typedef struct {
    const uint64_t *words;
    size_t words_len;
    uint64_t len;
} Bits;
#define BITS(it) (it).words, (it).words_len, (it).len

PyObject *vector_item(PyObject *self, Py_ssize_t index);
PyObject *vector_subscript(PyObject *self, PyObject *key);
PyObject *index_item(PyObject *self, Py_ssize_t index);
PyObject *index_subscript(PyObject *self, PyObject *key);
PyObject *bits_compare(PyObject *self, PyObject *other, int how);
int bits_contains(PyObject *self, PyObject *value);
PyObject *bits_iter(PyObject *self);
Py_ssize_t bits_len(PyObject *self);
PyObject *bits_ones(PyObject *self, PyObject *const *args, Py_ssize_t count, PyObject *keywords);
PyObject *bits_zeros(PyObject *self, PyObject *const *args, Py_ssize_t count, PyObject *keywords);

/* ---- sequence.c, numbers.c, cursor.c, sets.c, merged.c, stored.c */
/* What equals a whole number of 64 bits: 1 and the number, 0 where it cannot be one, -1 and an error. */
int equal_number(PyObject *value, uint64_t *out);

PyObject *numbers_new(PyObject *sequence, uint64_t from, uint64_t stop, int is_reversed);
PyObject *numbers_from(PyObject *sequence, PyObject *const *args, Py_ssize_t count, PyObject *keywords);
PyObject *numbers_compare(PyObject *self, PyObject *other, int how);

/* Writes all numbers of a memory that is kept, without the GIL: -1 and WrongTables. */
int numbers_all(const Memory *it, uint64_t *out);
PyObject *sequence_slice(PyObject *self, PyObject *slice);
PyObject *sequence_window(PyObject *module, PyObject *self);
PyObject *sequence_merged(PyObject *module, PyObject *args);
PyObject *cursor_new(PyObject *sequence, PyObject *none);
PyObject *cursors_merged(PyObject *module, PyObject *args);

/* The memory of several sequences, which is kept, and how many numbers they have in all. */
typedef struct {
    Memory **all;
    size_t count, numbers;
} Several;

/* Those of a tuple. -1 and an error. */
int several_take(Several *it, PyObject *sequences);
void several_drop(Several *it);

/* Whether it is an EliasFano; TypeError else. */
int is_sequence(PyObject *it);

PyObject *stored_load(PyObject *module, PyObject *file);

/* ---- shard_set.c, shards.c */
/* Counts of shards, and the indexes of those that are mapped so far. The index of another has no bits, so that the
 * library finds it wrong where a query reads it (but for the rank of its first position, which its counts say). */
typedef struct {
    PyObject_HEAD Memory *held; /* of the counts */
    struct bitm_shards shards;
    struct bitm_index *indexes; /* each is put once; then it stays */
    Memory **kept;              /* of each index; NULL where none is put */
    size_t missing;             /* how many are not put */
} ShardSet;
PyObject *set_needed(PyObject *self, PyObject *args);
PyObject *set_rank_list(PyObject *self, PyObject *const *args, Py_ssize_t count);
PyObject *set_select_list(PyObject *self, PyObject *const *args, Py_ssize_t count);

/* ---- parts.c */
PyObject *parts_of(PyObject *module, PyObject *value);
PyObject *parts_over(PyObject *module, PyObject *args);

#endif
