/* What the classes of values share: how they are opened, made and checked, their items, queries of one number and
 * lists. */
#ifndef BITM_VALUES_H
#define BITM_VALUES_H

#include "core.h"

/* ---- index.c, sequence.c, hash.c, and those of the blocks */

/* Looks at memory whose parts or whose block are filled in, and fills in what is queried: -1 and ValueError where the
 * lengths do not fit together, OtherKind where the block is another's. */
typedef int (*opener)(Memory *it);
int index_opened(Memory *it);
int sequence_opened(Memory *it);
int hash_opened(Memory *it);
int tree_opened(Memory *it);
int matrix_opened(Memory *it);
int sparse_opened(Memory *it);
int dictionary_opened(Memory *it);
int strings_opened(Memory *it);
int text_opened(Memory *it);
int trie_opened(Memory *it);
PyObject *trie_of_sorted(PyObject *module, PyObject *args);

/* ---- block.c, index_block.c, and sequence.c and hash_make.c: new memory with the block of a value that is in none,
 * where that is kept meanwhile; NULL and an error */
PyObject *block_of_value(PyObject *module, PyObject *self);
Memory *index_in_block(Memory *from);
Memory *sequence_in_block(Memory *from);
Memory *hash_in_block(Memory *from);

/* Opens the block of an index, with the samples that are in sections of it. -1 and ValueError. */
int index_block_opened(Memory *it);

/* ---- parts.c: whether it is a class of a value: of those that the error names; TypeError else */
int is_value(PyObject *type);

/* ---- hash_make.c, sections.c */
int hash_init(PyObject *self, PyObject *args, PyObject *keywords);
PyObject *section_added(PyObject *module, PyObject *args);
PyObject *sections_of(PyObject *module, PyObject *block);
PyObject *block_is_written(PyObject *module, PyObject *block);

/* ---- kinds.c */

/* A value over the block of memory, of the class that its kind says; takes the reference. ValueError where header or
 * directory are not right. */
PyObject *value_in(Memory *it);

/* What opens the memory of a class of values, or of a class that inherits from it. */
opener opener_of(PyObject *type);

/* Whether the block in memory is a right one that holds another structure than what is opened so; OtherKind then. */
int is_of_other_kind(const Memory *it, opener by);

/* The end of what opens a block: 0, or -1 and OtherKind, or ValueError where the block is damaged. */
int block_opened(const Memory *it, opener by, int is_open);

/* ValueError: it is no file of ours, or not all of it. Drops the memory. */
PyObject *not_whole(Memory *it);

/* ---- values.c */

/* A new value of a type over memory, whose reference it takes even where it does not open. */
PyObject *value_over(PyObject *type, Memory *it, opener opened);

/* The end of __init__: gives the value the memory, or drops it where that is not `made`. 0, or -1. */
int value_made(PyObject *self, Memory *it, int made);

/* The end of __init__ of a value that is made of whole numbers alone: 0, or -1 and an error. */
int value_of_numbers(PyObject *self, PyObject *from, const char *what,
                     int (*built)(Memory *it, const uint64_t *numbers, size_t count));

/* Room for a block of that many words, which belongs to the memory and is its block: NULL and an error. */
uint64_t *block_room(Memory *it, uint64_t len);

/* The method check(): whether all of the memory is right. The GIL is given back meanwhile. */
PyObject *value_checked(PyObject *self, int (*is_right)(const Memory *it));

/* The end of a list whose call stops at the first item without an answer, after `written` others, which are not wanted
 * then: that item is missing where the status says that there is none, else wrong. */
uint32_t stopped_at(uint64_t written, uint32_t status, uint64_t *out, struct bitm_list_counts *counts);

/* ---- the items of a value, as those of a list */

/* How many there are; the item at an index, of which BITM_NONE says that it is past the end; its Python object. */
typedef struct {
    uint64_t (*len)(const Memory *it);
    uint32_t (*get)(const Memory *it, uint64_t index, uint64_t *out);
    PyObject *(*object)(uint64_t item);
    const char *name;
} Items;

static inline PyObject *item_at(PyObject *self, Py_ssize_t index, int from_end, const Items *items)
{
    Memory *it = memory_of(self);
    uint64_t out = 0;
    if (it == NULL)
        return NULL;
    uint32_t status = items->get(it, from_end ? from_front(index, items->len(it)) : (uint64_t)index, &out);
    if (LIKELY(status == BITM_OK))
        return items->object(out);
    return status == BITM_NONE ? outside(index, items->len(it), items->name) : wrong();
}

/* The item for a key that is no slice. */
static inline PyObject *item_for(PyObject *self, PyObject *key, const Items *items)
{
    Py_ssize_t index;
    return index_of(key, &index) ? NULL : item_at(self, index, 1, items);
}

/* What len() says: each class has fewer than 2^63. */
static inline Py_ssize_t value_len(PyObject *self, uint64_t (*len)(const Memory *it))
{
    Memory *it = memory_of(self);
    return it == NULL ? -1 : (Py_ssize_t)len(it);
}

/* ---- queries of one number. The number is taken first, since that may run Python code, which may close the value;
 * from then on nothing else runs until the answer is there. */

typedef uint32_t (*query_call)(const Memory *it, bool one, uint64_t query, uint64_t *out);

/* A call of the library for a member of Memory. */
#define QUERY_OF(name, call, member)                                                                                   \
    static inline uint32_t name(const Memory *it, bool one, uint64_t query, uint64_t *out)                             \
    {                                                                                                                  \
        (void)one;                                                                                                     \
        return call(&it->member, query, out);                                                                          \
    }

/* A query that may have no answer. */
static inline PyObject *ask(PyObject *self, PyObject *query, query_call call, bool one, const char *what)
{
    uint64_t asked, out = 0;
    if (number(query, what, &asked))
        return NULL;
    Memory *it = memory_of(self);
    if (it == NULL)
        return NULL;
    uint32_t status = call(it, one, asked, &out);
    return answer_or_none(status, &out);
}

/* A rank: IndexError past the end. */
static inline PyObject *ask_rank(PyObject *self, PyObject *query, query_call call, bool one,
                                 uint64_t (*len)(const Memory *it))
{
    uint64_t position, out = 0;
    if (number(query, "a position", &position))
        return NULL;
    Memory *it = memory_of(self);
    if (it == NULL)
        return NULL;
    uint32_t status = call(it, one, position, &out);
    if (status == BITM_OK)
        return boxed(out);
    return status == BITM_NONE ? past_end(position, len(it)) : wrong();
}

/* The queries by which bits are found, which an index and sparse bits have, and the calls of the library that they
 * make. */
#define BIT_CALL(class, name)                                                                                          \
    static inline uint32_t name##_by(const Memory *it, bool one, uint64_t query, uint64_t *out)                        \
    {                                                                                                                  \
        return bitm_##class##_##name(&it->class, one, query, out);                                                     \
    }
#define BIT_RANK(class, name, one)                                                                                     \
    static PyObject *class##_##name(PyObject *self, PyObject *it) { return ask_rank(self, it, rank_by, one, length); }
#define BIT_QUERY(class, name, call, one, what)                                                                        \
    static PyObject *class##_##name(PyObject *self, PyObject *it) { return ask(self, it, call##_by, one, what); }
#define BIT_QUERIES(class)                                                                                             \
    BIT_CALL(class, rank)                                                                                              \
    BIT_CALL(class, select)                                                                                            \
    BIT_CALL(class, next)                                                                                              \
    BIT_CALL(class, previous)                                                                                          \
    BIT_RANK(class, rank, true)                                                                                        \
    BIT_RANK(class, rank0, false)                                                                                      \
    BIT_QUERY(class, select, select, true, "a rank")                                                                   \
    BIT_QUERY(class, select0, select, false, "a rank")                                                                 \
    BIT_QUERY(class, next_one, next, true, "a position")                                                               \
    BIT_QUERY(class, next_zero, next, false, "a position")                                                             \
    BIT_QUERY(class, previous_one, previous, true, "a position")                                                       \
    BIT_QUERY(class, previous_zero, previous, false, "a position")

/* ---- progress.c: what a build calls after each step */

/* What can be called, borrowed; NULL of None and of what is not given. -1 and TypeError for others. The caller holds
 * it, for the dictionary of the arguments may be cleared meanwhile. */
int progress_take(PyObject *given, PyObject **progress);

/* Calls progress(done, total), which may run any Python code: -1 and an error. */
int progressed(PyObject *progress, uint64_t done, uint64_t total);

/* ---- refused.c: ValueError that says which item the library refused */

/* What is said where no item was found, for an error that is not set yet. Returns -1. */
int refuse(const char *what);

/* Each seeks the first item, of which `item` is the name, and says what is wrong with it: 1, or 0 where there is none.
 * A number less than the one before it, or with `strictly` not above; a number not below a bound; a number with more
 * bits than the width; a node at which degrees form no tree. */
int say_unsorted(const char *item, const uint64_t *numbers, size_t count, bool strictly);
int say_not_below(const char *item, const uint64_t *numbers, size_t count, uint64_t bound);
int say_wide(const char *item, const uint64_t *numbers, size_t count, uint32_t width);
int say_misfit(const uint64_t *degrees, size_t count);

/* Says that two items are equal, which are shown as a text whose reference it takes, or have one hash. Return -1. */
int say_equal(const char *items, const size_t pair[2], PyObject *item);
int say_one_hash(const char *items, const size_t pair[2]);

/* Bytes as a message shows them, of 60 characters at most. NULL and an error. */
PyObject *shortened(const uint8_t *at, size_t len);

/* ---- levels.c: the hash of a dictionary, of strings, and of keys with a seed for each word */

/* How it is wanted: bits of a level for 100 keys, how many seeds are tried from the first on, and what is called after
 * each level. -1 and an error. */
typedef struct {
    uint64_t seed;
    uint32_t percent;
    int seeds;
    PyObject *progress;
} Wanted;
int wanted_take(Wanted *it, PyObject *percent, PyObject *seed, PyObject *progress);

/* What the levels of `count` hashes are built in: rooms of words, of which `most` are for those of all levels. Where
 * tries is above 0, each word has the best of that many seeds: then there are rooms for these and for the hashes in
 * order. What is built: how many levels there are, how many words they use, and how many hashes are left. */
enum { LEVELS = 256 };
typedef struct {
    size_t count, most, first;
    uint32_t percent;
    uint16_t tries;
    PyObject *progress; /* or NULL */
    uint64_t *hashes, *words, *again, *upper, *lower, *sorted, sizes[LEVELS], levels, used, left;
    uint8_t *seeds;
} Levels;

/* Takes the rooms: -1 and an error. Given back by levels_drop, also then. */
int levels_room(Levels *it, size_t count, uint32_t percent, uint16_t tries, PyObject *progress);
void levels_drop(Levels *it);

/* The hash of the hashes, which are moved, in the rooms: 0; 1 where hashes are left, which stand first then; -1 and an
 * error. Gives the GIL back meanwhile, and runs Python code where there is progress. */
int levels_built(Levels *it, struct bitm_hash *out);

/* The first of all hashes that is left twice, and where it stands again: whether there is one. Sorts those left. */
int levels_twins(Levels *it, const uint64_t *hashes, size_t pair[2]);

/* ---- text_make.c: what texts are made of, and patterns of a text, words of a trie, strings */

int text_init(PyObject *self, PyObject *args, PyObject *keywords);
PyObject *text_of_letters(PyObject *type, PyObject *const *args, Py_ssize_t count, PyObject *keywords);

/* Bytes that nobody changes: 1 and the object itself where it is bytes, a copy of a buffer of bytes, or the UTF-8 of a
 * str; 0 where it is none; -1 and an error. */
int bytes_kept(PyObject *from, PyObject **bytes);

/* Its letters: bytes, or numbers of its own. */
typedef struct {
    PyObject *bytes; /* or NULL */
    const uint8_t *at;
    uint64_t *letters;
    size_t len;
} Pattern;

/* Bytes, a str as its UTF-8, or a list of numbers, of which `what` is one: -1 and an error. */
int pattern_take(Pattern *it, PyObject *from, const char *what);
void pattern_drop(Pattern *it);

/* Item, start and stop of the method index: -1 and an error. Runs Python code. */
static inline int range_taken(const char *item, PyObject *const *args, Py_ssize_t count, PyObject *keywords,
                              PyObject **value, uint64_t *start, uint64_t *stop)
{
    const char *const names[] = {item, "start", "stop"};
    PyObject *given[3];
    if (pick("index", names, 1, 3, args, count, keywords, given) || number_or(given[1], 0, "the start", start) ||
        number_or(given[2], UINT64_MAX, "the stop", stop))
        return -1;
    *value = given[0];
    return 0;
}

/* ---- numbers of keys */

/* The number of a key: 1, 0 where it has none, -1 and an error. */
typedef int (*finder)(PyObject *self, PyObject *key, uint64_t *out);

/* The methods get(key, default=None) and [key]. */
static inline PyObject *number_or_default(PyObject *self, finder found, PyObject *const *args, Py_ssize_t count,
                                          PyObject *keywords)
{
    static const char *const names[] = {"key", "default"};
    PyObject *given[2];
    uint64_t out = 0;
    if (pick("get", names, 1, 2, args, count, keywords, given))
        return NULL;
    int is_found = found(self, given[0], &out);
    if (is_found < 0)
        return NULL;
    return is_found ? boxed(out) : Py_NewRef(given[1] == NULL ? Py_None : given[1]);
}

static inline PyObject *number_or_error(PyObject *self, finder found, PyObject *key)
{
    uint64_t out = 0;
    int is_found = found(self, key, &out);
    if (is_found == 0)
        PyErr_SetObject(PyExc_KeyError, key);
    return is_found > 0 ? boxed(out) : NULL;
}

/* ---- lists */

/* A call of the library for a list and a member of Memory, with or without a kind of bit. */
#define LIST_OF_BITS(name, call, member)                                                                               \
    static uint32_t name(const Memory *it, bool one, const uint64_t *in, uint64_t *out, size_t count,                  \
                         struct bitm_list_counts *counts)                                                              \
    {                                                                                                                  \
        return call(&it->member, one, in, count, out, count, counts);                                                  \
    }
#define LIST_OF(name, call, member)                                                                                    \
    static uint32_t name(const Memory *it, bool one, const uint64_t *in, uint64_t *out, size_t count,                  \
                         struct bitm_list_counts *counts)                                                              \
    {                                                                                                                  \
        (void)one;                                                                                                     \
        return call(&it->member, in, count, out, count, counts);                                                       \
    }

/* The same of a call that stops at the first item without an answer, and says by its status why. */
#define LIST_UNTIL_NONE(name, call, member)                                                                            \
    static uint32_t name(const Memory *it, bool one, const uint64_t *in, uint64_t *out, size_t count,                  \
                         struct bitm_list_counts *counts)                                                              \
    {                                                                                                                  \
        uint64_t written = 0;                                                                                          \
        (void)one;                                                                                                     \
        uint32_t status = call(&it->member, in, count, out, count, &written);                                          \
        if (status != BITM_NONE && status != BITM_WRONG)                                                               \
            return status;                                                                                             \
        return stopped_at(written, status, out, counts);                                                               \
    }

/* The method of a class for a list. */
#define LIST(class, name, call, one, kind, what)                                                                       \
    static PyObject *class##_##name(PyObject *self, PyObject *const *args, Py_ssize_t count, PyObject *keywords)       \
    {                                                                                                                  \
        return ask_list(self, call, one, kind, #name, what, args, count, keywords);                                    \
    }

/* The lists of queries by which bits are found, which an index and sparse bits have. */
#define BIT_LISTS(class)                                                                                               \
    LIST_OF_BITS(ranks, bitm_##class##_rank_list, class)                                                               \
    LIST_OF_BITS(selections, bitm_##class##_select_list, class)                                                        \
    LIST(class, rank_list, ranks, true, EACH, "a position")                                                            \
    LIST(class, rank0_list, ranks, false, EACH, "a position")                                                          \
    LIST(class, select_list, selections, true, SOME, "a rank")                                                         \
    LIST(class, select0_list, selections, false, SOME, "a rank")

/* ---- the rest */

/* The method check() of a class over a block. */
#define BLOCK_CHECK(class)                                                                                             \
    static int is_right(const Memory *it) { return bitm_##class##_check(it->block, it->block_len) == BITM_OK; }        \
    static PyObject *class##_check(PyObject *self, PyObject *none)                                                     \
    {                                                                                                                  \
        (void)none;                                                                                                    \
        return value_checked(self, is_right);                                                                          \
    }

/* The text of a value: what is shown of its memory, unless it is closed. */
#define REPR(class, fields, ...)                                                                                       \
    static PyObject *class##_repr(PyObject *self)                                                                      \
    {                                                                                                                  \
        const Memory *it = ((Value *)self)->memory;                                                                    \
        return it == NULL ? shown_as(self, "closed") : shown_as(self, fields, __VA_ARGS__);                            \
    }

/* An attribute of a class: a number in memory. */
#define ATTRIBUTE(class, name, number)                                                                                 \
    static PyObject *class##_##name(PyObject *self, void *none)                                                        \
    {                                                                                                                  \
        const Memory *it = memory_of(self);                                                                            \
        (void)none;                                                                                                    \
        return it == NULL ? NULL : boxed(it->number);                                                                  \
    }

#endif
