/* Lists of queries of shards: one call of the library for each part of a list. And which shards a list reads. */
#include "core.h"

enum { BLOCK = 512 }; /* on the stack */
enum { PART = 1 << 17 }; /* queries that are grouped at once: their order stays in a processor's caches */

/* Marks the shards that have the queries, up to the first that is below 0: BITM_OK, or BITM_WRONG. Needs no GIL. */
static uint32_t mark_each(const struct bitm_prefixes *counts, uint32_t kind, const Integers *queries, char *marks)
{
    uint64_t in[BLOCK];
    for (size_t at = 0; at < queries->len; at += BLOCK) {
        const size_t most = queries->len - at < BLOCK ? queries->len - at : BLOCK,
                     found = integers_load(queries, at, most, in);
        for (size_t i = 0; i < found; i++) {
            struct bitm_shard_location location = {0, 0};
            const uint32_t status = bitm_shards_find(counts, kind, in[i], &location);
            if (status == BITM_OK)
                marks[location.shard] = 1;
            else if (status != BITM_NONE)
                return BITM_WRONG;
        }
        if (found < most)
            break;
    }
    return BITM_OK;
}

/* A list of the shards that are marked, and whose indexes are not put. */
static PyObject *list_of_marked(const ShardSet *it, const char *marks)
{
    PyObject *made = PyList_New(0);
    for (size_t k = 0; made != NULL && k < it->shards.shards_len; k++) {
        PyObject *shard = marks[k] && it->kept[k] == NULL ? PyLong_FromSize_t(k) : NULL;
        if (shard != NULL ? PyList_Append(made, shard) : PyErr_Occurred() != NULL)
            Py_CLEAR(made);
        Py_XDECREF(shard);
    }
    return made;
}

PyObject *set_needed(PyObject *self, PyObject *args)
{
    ShardSet *it = (ShardSet *)self;
    PyObject *given, *made = NULL;
    unsigned kind;
    Integers queries;
    if (!PyArg_ParseTuple(args, "IO:needed", &kind, &given))
        return NULL;
    if (it->missing == 0)
        return PyList_New(0);
    if (integers_take(&queries, given, "a position or rank"))
        return NULL;
    char *marks = calloc(it->shards.shards_len, 1); /* one at least is missing */
    if (marks == NULL) {
        (void)PyErr_NoMemory();
    } else {
        uint32_t status;
        KEEP(it);
        Py_BEGIN_ALLOW_THREADS
        status = mark_each(&it->shards.counts, kind, &queries, marks);
        Py_END_ALLOW_THREADS
        made = status == BITM_OK ? list_of_marked(it, marks) : wrong();
        DROP(it);
    }
    free(marks);
    integers_drop(&queries);
    return made;
}

/* Memory for a part of a list: the queries, and what the call groups them in. And the indexes, copied where more may be
 * put meanwhile. */
typedef struct {
    uint64_t *in, *room;
    size_t room_len;
    struct bitm_index *indexes;
    struct bitm_shards shards;
} Scratch;

static void scratch_drop(Scratch *it)
{
    free(it->in);
    free(it->room);
    free(it->indexes);
}

/* -1 and MemoryError. */
static int scratch_take(Scratch *it, const ShardSet *set, size_t len)
{
    const size_t part = len < PART ? len : PART, bytes = (set->shards.shards_len + 1) * sizeof *it->indexes;
    *it = (Scratch){.room_len = 3 * part + set->shards.shards_len + 1, .shards = set->shards};
    if ((it->in = room_for(part)) == NULL || (it->room = room_for(it->room_len)) == NULL)
        return -1;
    if (set->missing == 0)
        return 0;
    if ((it->indexes = malloc(bytes)) == NULL) {
        PyErr_NoMemory();
        return -1;
    }
    memcpy(it->indexes, set->indexes, bytes);
    it->shards.shards = it->indexes;
    return 0;
}

/* Answers each query, part by part: BITM_OK, or BITM_WRONG, or BITM_NONE where a query is below 0; done is how many
 * were answered. Needs no GIL. */
static uint32_t answer_each(const Scratch *with, int selects, bool one, const Integers *queries, uint64_t *out,
                            uint64_t *missing, size_t *done)
{
    *missing = 0;
    for (*done = 0; *done < queries->len;) {
        const size_t most = queries->len - *done < PART ? queries->len - *done : PART,
                     found = integers_load(queries, *done, most, with->in);
        struct bitm_list_counts counts;
        const uint32_t status = (selects ? bitm_shards_select_list : bitm_shards_rank_list)(
            &with->shards, one, with->in, found, out + *done, found, with->room, with->room_len, &counts);
        if (status != BITM_OK || counts.wrong)
            return BITM_WRONG;
        *missing += counts.missing;
        *done += found;
        if (found < most)
            return BITM_NONE;
    }
    return BITM_OK;
}

/* IndexError for the first query without an answer. */
static void past_the_end(const Integers *queries, const uint64_t *out)
{
    uint64_t query = 0;
    size_t at = 0;
    while (out[at] != BITM_NO_ANSWER)
        at++;
    (void)integers_load(queries, at, 1, &query);
    PyErr_Format(PyExc_IndexError, "a position is past the end: %llu, item %zu of the list", (unsigned long long)query,
                 at);
}

static PyObject *answers_of(const ShardSet *it, int selects, bool one, const Integers *queries, Answers *answers)
{
    PyObject *made = NULL;
    uint64_t missing;
    uint32_t status;
    size_t done;
    Scratch with;
    if (scratch_take(&with, it, queries->len) == 0 && answers_room(answers, queries->len) == 0) {
        Py_BEGIN_ALLOW_THREADS
        status = answer_each(&with, selects, one, queries, answers->out, &missing, &done);
        Py_END_ALLOW_THREADS
        if (status == BITM_WRONG)
            (void)wrong();
        else if (missing && !selects)
            past_the_end(queries, answers->out);
        else if (status == BITM_NONE)
            integers_below(queries, done, selects ? "a rank" : "a position");
        else
            made = answers_end(answers, missing);
    }
    answers_drop(answers);
    scratch_drop(&with);
    return made;
}

/* A list of ranks, or of selections, whose third argument is what stands for an answer that is missing. */
static PyObject *ask_each(PyObject *self, int selects, PyObject *const *args, Py_ssize_t count)
{
    ShardSet *it = (ShardSet *)self;
    Answers answers;
    Integers queries;
    int one = -1;
    if (count != 2 + selects)
        PyErr_SetString(PyExc_TypeError, "a bit, queries, and of selections what stands for none are needed");
    else
        one = bit_of(args[0]);
    if (one < 0 || answers_begin(&answers, args[1], selects ? args[2] : NULL, selects ? SOME : EACH) ||
        integers_take(&queries, args[1], selects ? "a rank" : "a position"))
        return NULL;
    KEEP(it); /* its indexes stay until it is freed */
    PyObject *made = answers_of(it, selects, one, &queries, &answers);
    DROP(it);
    integers_drop(&queries);
    return made;
}

PyObject *set_rank_list(PyObject *self, PyObject *const *args, Py_ssize_t count)
{
    return ask_each(self, 0, args, count);
}

PyObject *set_select_list(PyObject *self, PyObject *const *args, Py_ssize_t count)
{
    return ask_each(self, 1, args, count);
}
