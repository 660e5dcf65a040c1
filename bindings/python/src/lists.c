/* Many queries at once. They are copied block by block, so that neither a thread that changes them nor the kind of
 * their buffer matters to a call. */
#include "core.h"

enum { BLOCK = 512 };    /* twice on the stack, of which a thread may have 32 KiB */
enum { TURN = 1 << 20 }; /* queries from one look at signals to the next */
enum { PLAIN, NONES, MASK, FILL, RAISE, TRUTHS };

static int how_of(PyObject *missing, int kind, int of_numpy, uint64_t *fill)
{
    if (kind != SOME)
        return kind == BOOLS ? TRUTHS : PLAIN;
    if (missing == NULL || missing == Py_None)
        return of_numpy ? MASK : NONES;
    if (!PyUnicode_Check(missing))
        return number(missing, "missing", fill) ? -1 : FILL;
    if (PyUnicode_CompareWithASCIIString(missing, "error") == 0)
        return RAISE;
    if (PyUnicode_CompareWithASCIIString(missing, "mask") == 0 && of_numpy)
        return MASK;
    PyErr_Format(PyExc_ValueError, "missing is 'error', a number%s, not %R", of_numpy ? " or 'mask'" : " or None",
                 missing);
    return -1;
}

int answers_begin(Answers *it, PyObject *queries, PyObject *missing, int kind)
{
    memset(it, 0, sizeof *it);
    it->of_numpy = is_instance(queries, "numpy", "ndarray");
    if (it->of_numpy < 0)
        return -1;
    it->how = how_of(missing, kind, it->of_numpy, &it->fill);
    return it->how < 0 ? -1 : 0;
}

int answers_room(Answers *it, size_t len)
{
    it->len = len;
    if (it->of_numpy)
        it->window = window_new(len, &it->out);
    else
        it->out = room_for(len);
    return it->out == NULL ? -1 : 0;
}

void answers_drop(Answers *it)
{
    if (!it->of_numpy)
        free(it->out);
    Py_CLEAR(it->window);
    it->out = NULL;
}

PyObject *list_of(const uint64_t *items, size_t count, int is_none)
{
    PyObject *made = PyList_New((Py_ssize_t)count);
    for (size_t i = 0; made != NULL && i < count; i++) {
        PyObject *item = is_none && items[i] == BITM_NO_ANSWER ? Py_NewRef(Py_None) : boxed(items[i]);
        if (item == NULL || PyList_SetItem(made, (Py_ssize_t)i, item))
            Py_CLEAR(made);
    }
    return made;
}

static PyObject *list_of_bools(const uint64_t *items, size_t count)
{
    PyObject *made = PyList_New((Py_ssize_t)count);
    for (size_t i = 0; made != NULL && i < count; i++)
        if (PyList_SetItem(made, (Py_ssize_t)i, PyBool_FromLong((long)items[i])))
            Py_CLEAR(made);
    return made;
}

PyObject *answers_end(Answers *it, uint64_t missing)
{
    PyObject *made = NULL;
    if (missing && it->how == FILL)
        for (size_t i = 0; i < it->len; i++)
            it->out[i] = it->out[i] == BITM_NO_ANSWER ? it->fill : it->out[i];
    if (missing && it->how == RAISE)
        PyErr_Format(PyExc_IndexError, "%llu items of the list have no answer", (unsigned long long)missing);
    else if (it->of_numpy)
        made = more("array_of", Py_BuildValue("(Oii)", it->window, it->how == MASK, it->how == TRUTHS));
    else if (it->how == TRUTHS)
        made = list_of_bools(it->out, it->len);
    else
        made = list_of(it->out, it->len, it->how == NONES);
    answers_drop(it);
    return made;
}

/* What stopped a list: a query below 0, a query that has no answer, or tables that are wrong. */
typedef struct {
    enum { DONE, BELOW, PAST, WRONG } why;
    size_t at;
    uint64_t missing;
} Outcome;

/* The queries of a list: of one number each, answered by `call`, or of two, of which `second` has the other, by
 * `pairs`. */
typedef struct {
    list_call call;
    pairs_call pairs;
    bool one;
    int kind;
    Integers first, second;
} Queries;

/* Copies queries as long as neither number is below 0, and says how many. */
static size_t load(const Queries *it, size_t at, size_t count, uint64_t *first, uint64_t *second)
{
    size_t found = integers_load(&it->first, at, count, first);
    return it->pairs == NULL ? found : integers_load(&it->second, at, found, second);
}

/* Answers the queries from it->at on, up to an end, unless something stops it. Needs no GIL. */
static void run(const Queries *queries, const Memory *memory, uint64_t *out, Outcome *it, size_t end)
{
    uint64_t in[BLOCK], second[BLOCK];
    while (it->why == DONE && it->at < end) {
        struct bitm_list_counts counts = {0, 0};
        uint64_t *answers = out + it->at;
        size_t count = end - it->at < BLOCK ? end - it->at : BLOCK, found = load(queries, it->at, count, in, second);
        uint32_t status = queries->pairs == NULL ? queries->call(memory, queries->one, in, answers, found, &counts)
                                                 : queries->pairs(memory, in, second, answers, found, &counts);
        it->missing += counts.missing;
        it->why = counts.missing && queries->kind != SOME ? PAST
                  : status != BITM_OK || counts.wrong     ? WRONG
                  : found < count                         ? BELOW
                                                          : DONE;
        if (it->why == PAST)
            while (out[it->at] != BITM_NO_ANSWER)
                it->at++;
        else
            it->at += found;
    }
}

/* Answers all queries, without the GIL but for a look at signals now and then. -1 and an error of theirs. */
static int run_all(const Queries *queries, const Memory *memory, uint64_t *out, Outcome *it)
{
    const size_t len = queries->first.len;
    do {
        const size_t end = len - it->at < TURN ? len : it->at + TURN;
        Py_BEGIN_ALLOW_THREADS
        run(queries, memory, out, it, end);
        Py_END_ALLOW_THREADS
        if (PyErr_CheckSignals())
            return -1;
    } while (it->why == DONE && it->at < len);
    return 0;
}

static void refuse(const Outcome *it, const Queries *queries, const char *const whats[2])
{
    uint64_t query = 0;
    if (it->why == WRONG) {
        (void)wrong();
    } else if (it->why == BELOW) {
        int of_first = integers_load(&queries->first, it->at, 1, &query) == 0;
        integers_below(of_first ? &queries->first : &queries->second, it->at, whats[of_first ? 0 : 1]);
    } else {
        (void)integers_load(&queries->first, it->at, 1, &query);
        PyErr_Format(PyExc_IndexError, "%s is past the end: %llu, item %zu of the list", whats[0],
                     (unsigned long long)query, it->at);
    }
}

/* The answers to queries that were taken. */
static PyObject *answered(PyObject *self, const Queries *queries, Answers *answers, const char *const whats[2])
{
    PyObject *made = NULL;
    /* The Python code of the arguments has run; now the reference keeps the memory, whoever closes the value. */
    Memory *memory = memory_kept(self);
    if (memory != NULL && answers_room(answers, queries->first.len) == 0) {
        Outcome outcome = {DONE, 0, 0};
        if (run_all(queries, memory, answers->out, &outcome) == 0 && outcome.why == DONE)
            made = answers_end(answers, outcome.missing);
        else if (!PyErr_Occurred())
            refuse(&outcome, queries, whats);
    }
    answers_drop(answers);
    DROP(memory);
    return made;
}

PyObject *ask_list(PyObject *self, list_call call, bool one, int kind, const char *name, const char *what,
                   PyObject *const *args, Py_ssize_t count, PyObject *keywords)
{
    static const char *const names[] = {"queries", "*missing"};
    const char *const whats[2] = {what, what};
    PyObject *given[2] = {NULL, NULL};
    Answers answers;
    Queries queries = {.call = call, .one = one, .kind = kind};
    if (pick(name, names, 1, kind == SOME ? 2 : 1, args, count, keywords, given) ||
        answers_begin(&answers, given[0], given[1], kind) || integers_take(&queries.first, given[0], what))
        return NULL;
    PyObject *made = answered(self, &queries, &answers, whats);
    integers_drop(&queries.first);
    return made;
}

PyObject *ask_pairs(PyObject *self, pairs_call call, const char *name, const char *const names[3],
                    const char *const whats[2], PyObject *const *args, Py_ssize_t count, PyObject *keywords)
{
    PyObject *given[3] = {NULL, NULL, NULL}, *made = NULL;
    Answers answers;
    Queries queries = {.pairs = call, .kind = SOME};
    if (pick(name, names, 2, 3, args, count, keywords, given) || answers_begin(&answers, given[0], given[2], SOME) ||
        integers_take(&queries.first, given[0], whats[0]))
        return NULL;
    if (integers_take(&queries.second, given[1], whats[1]) == 0) {
        if (queries.first.len == queries.second.len)
            made = answered(self, &queries, &answers, whats);
        else
            PyErr_Format(PyExc_ValueError, "%zu %s and %zu %s: there has to be one for each", queries.first.len,
                         names[0], queries.second.len, names[1]);
        integers_drop(&queries.second);
    }
    integers_drop(&queries.first);
    return made;
}
