/* bitm._core.ShardSet: the shards as the library takes them, and one query of all. Only bitm/shards.py has one. */
#include "core.h"

/* Takes the counts, and room for an index of each shard. -1 and an error. */
static int fill(ShardSet *it, PyObject *bits, PyObject *ones)
{
    struct bitm_prefixes *counts = &it->shards.counts;
    if ((it->held = memory_new()) == NULL ||
        memory_items(it->held, bits, 8, (const void **)&counts->bits, &counts->bits_len) ||
        memory_items(it->held, ones, 8, (const void **)&counts->ones, &counts->ones_len))
        return -1;
    const size_t count = counts->bits_len == 0 ? 0 : counts->bits_len - 1;
    it->kept = calloc(count + 1, sizeof *it->kept);
    it->indexes = calloc(count + 1, sizeof *it->indexes);
    if (it->kept == NULL || it->indexes == NULL) {
        PyErr_NoMemory();
        return -1;
    }
    it->shards.shards = it->indexes;
    it->shards.shards_len = it->missing = count;
    return 0;
}

static PyObject *set_new(PyTypeObject *type, PyObject *args, PyObject *keywords)
{
    static char *names[] = {"", "", NULL};
    PyObject *bits, *ones;
    if (!PyArg_ParseTupleAndKeywords(args, keywords, "OO:ShardSet", names, &bits, &ones))
        return NULL;
    ShardSet *it = (ShardSet *)PyType_GenericAlloc(type, 0);
    if (it != NULL && fill(it, bits, ones))
        Py_CLEAR(it);
    return BORROWED(it);
}

static void set_dealloc(PyObject *self)
{
    ShardSet *it = (ShardSet *)self;
    PyTypeObject *type = Py_TYPE(self);
    for (size_t k = 0; k < it->shards.shards_len; k++)
        DROP(it->kept[k]);
    free(it->kept);
    free(it->indexes);
    DROP(it->held);
    ((freefunc)PyType_GetSlot(type, Py_tp_free))(self);
    Py_DECREF(type);
}

static PyObject *set_put(PyObject *self, PyObject *args)
{
    ShardSet *it = (ShardSet *)self;
    Py_ssize_t shard;
    PyObject *index;
    if (!PyArg_ParseTuple(args, "nO!:put", &shard, Index_Type, &index))
        return NULL;
    if (shard < 0 || (size_t)shard >= it->shards.shards_len)
        return outside(shard, it->shards.shards_len, "shards");
    if (it->kept[shard] == NULL) {
        Memory *memory = memory_kept(index);
        if (memory == NULL)
            return NULL;
        it->kept[shard] = memory;
        it->indexes[shard] = memory->index;
        it->missing--;
    }
    Py_RETURN_NONE;
}

/* ---- one query */

typedef uint32_t (*query_call)(const struct bitm_shards *, bool, uint64_t, uint64_t *);

/* The arguments of a method of two: the bit, and a position or rank. -1 and an error. */
static int query_of(PyObject *const *args, Py_ssize_t count, const char *what, int *one, uint64_t *asked)
{
    if (count != 2) {
        PyErr_Format(PyExc_TypeError, "a bit and %s are needed", what);
        return -1;
    }
    *one = bit_of(args[0]);
    return *one < 0 ? -1 : number(args[1], what, asked);
}

static PyObject *ask(PyObject *self, PyObject *const *args, Py_ssize_t count, query_call call, const char *what)
{
    const struct bitm_shards *shards = &((ShardSet *)self)->shards;
    uint64_t asked, out = 0;
    int one;
    if (query_of(args, count, what, &one, &asked))
        return NULL;
    const uint32_t status = call(shards, one, asked, &out);
    return answer_or_none(status, &out);
}

static PyObject *set_rank(PyObject *self, PyObject *const *args, Py_ssize_t count)
{
    const struct bitm_shards *shards = &((ShardSet *)self)->shards;
    uint64_t position, out = 0;
    int one;
    if (query_of(args, count, "a position", &one, &position))
        return NULL;
    const uint32_t status = bitm_shards_rank(shards, one, position, &out);
    if (status == BITM_OK)
        return boxed(out);
    return status == BITM_NONE ? past_end(position, shards->counts.bits[shards->shards_len]) : wrong();
}

static PyObject *set_select(PyObject *self, PyObject *const *args, Py_ssize_t count)
{
    return ask(self, args, count, bitm_shards_select, "a rank");
}

static PyObject *set_next(PyObject *self, PyObject *const *args, Py_ssize_t count)
{
    return ask(self, args, count, bitm_shards_next, "a position");
}

static PyObject *set_previous(PyObject *self, PyObject *const *args, Py_ssize_t count)
{
    return ask(self, args, count, bitm_shards_previous, "a position");
}

/* The shard of a position or of the bit with a rank, and the position or rank there; None where there is none. */
static PyObject *set_find(PyObject *self, PyObject *args)
{
    struct bitm_shard_location location = {0, 0};
    unsigned kind;
    PyObject *given;
    uint64_t asked;
    if (!PyArg_ParseTuple(args, "IO:find", &kind, &given) || number(given, "a position or rank", &asked))
        return NULL;
    const uint32_t status = bitm_shards_find(&((ShardSet *)self)->shards.counts, kind, asked, &location);
    if (status == BITM_OK)
        return Py_BuildValue("nK", (Py_ssize_t)location.shard, (unsigned long long)location.within);
    return status == BITM_NONE ? Py_NewRef(Py_None) : wrong();
}

static PyMethodDef methods[] = {
    METHOD("put", set_put, METH_VARARGS, "($self, shard, index, /)", "Gives a shard its index."),
    METHOD("rank", set_rank, METH_FASTCALL, "($self, one, position, /)", "A rank."),
    METHOD("select", set_select, METH_FASTCALL, "($self, one, rank, /)", "A selection."),
    METHOD("next", set_next, METH_FASTCALL, "($self, one, position, /)", "The next bit."),
    METHOD("previous", set_previous, METH_FASTCALL, "($self, one, position, /)", "The previous bit."),
    METHOD("find", set_find, METH_VARARGS, "($self, kind, number, /)", "Which shard."),
    METHOD("needed", set_needed, METH_VARARGS, "($self, kind, queries, /)",
           "Shards that a list reads, and that are not put."),
    METHOD("rank_list", set_rank_list, METH_FASTCALL, "($self, one, queries, /)", "Ranks."),
    METHOD("select_list", set_select_list, METH_FASTCALL, "($self, one, queries, missing, /)", "Selections."),
    {NULL, NULL, 0, NULL}};
static PyType_Slot slots[] = {{Py_tp_new, set_new}, {Py_tp_dealloc, set_dealloc}, {Py_tp_methods, methods}, {0, NULL}};
PyType_Spec shard_set_spec = {"bitm._core.ShardSet", sizeof(ShardSet), 0, Py_TPFLAGS_DEFAULT, slots};
