/* bitm.intersect and bitm.union: what all of several sequences have, and what any has, by cursors of the library. */
#include "core.h"

enum { FIRST = 1024 };

/* Numbers that calls have written, in memory of malloc's. */
typedef struct {
    uint64_t *at;
    size_t made, room;
} Found;

/* Room for that many numbers: -1 where memory is refused. */
static int found_room(Found *it, size_t room)
{
    uint64_t *at = realloc(it->at, 8 * room + 8);
    if (at == NULL)
        return -1;
    it->at = at;
    it->room = room;
    return 0;
}

/* For twice as many, and for `most` of them at most. */
static int found_grows(Found *it, uint64_t most)
{
    size_t room = it->room == 0 ? FIRST : it->room > SIZE_MAX / 32 ? SIZE_MAX / 16 : 2 * it->room;
    return found_room(it, room < most ? room : (size_t)most);
}

/* Cursors at the first numbers, of the shortest sequence first. A status of the library. */
static uint32_t started(const Several *of, struct bitm_cursor *cursors)
{
    size_t shortest = 0;
    for (size_t i = 0; i < of->count; i++) {
        cursors[i].sequence = of->all[i]->sequence;
        uint32_t status = bitm_cursor_start(&cursors[i]);
        if (status != BITM_OK)
            return status;
        shortest = cursors[i].sequence.len < cursors[shortest].sequence.len ? i : shortest;
    }
    struct bitm_cursor first = cursors[0];
    cursors[0] = cursors[shortest];
    cursors[shortest] = first;
    return BITM_OK;
}

/* The numbers from `from` on, the first `most` of them: block after block, each from one more than the last number on.
 * A status of the library, or BITM_NONE where memory is refused. Needs no GIL. */
static uint32_t merge(struct bitm_cursor *cursors, size_t count, int of_all, uint64_t from, uint64_t most, Found *out)
{
    uint64_t written = 0;
    do {
        if (out->made > 0)
            from = out->at[out->made - 1] + 1;
        if (found_grows(out, most))
            return BITM_NONE;
        uint32_t status = (of_all ? bitm_cursors_intersect : bitm_cursors_union)(
            cursors, count, from, out->at + out->made, out->room - out->made, &written);
        if (status != BITM_OK)
            return status;
        out->made += (size_t)written;
    } while (out->made == out->room && out->made < most && out->at[out->made - 1] != UINT64_MAX);
    return found_room(out, out->made) ? BITM_NONE : BITM_OK;
}

/* The numbers, in memory that Python code may look at. */
static PyObject *merged(const Several *of, int of_all, uint64_t from, uint64_t most)
{
    struct bitm_cursor *cursors = calloc(of->count + 1, sizeof *cursors);
    Found out = {NULL, 0, 0};
    uint32_t status = cursors == NULL ? BITM_NONE : BITM_OK;
    Py_BEGIN_ALLOW_THREADS
    if (status == BITM_OK)
        status = started(of, cursors);
    if (status == BITM_OK)
        status = merge(cursors, of->count, of_all, from, most, &out);
    Py_END_ALLOW_THREADS
    free(cursors);
    if (status == BITM_OK)
        return window_taking(out.at, out.made);
    free(out.at);
    if (status == BITM_NONE)
        return PyErr_NoMemory();
    if (status != BITM_BAD_SIZE)
        return wrong();
    PyErr_SetString(PyExc_ValueError, "there is no sequence to intersect");
    return NULL;
}

PyObject *cursors_merged(PyObject *module, PyObject *args)
{
    int of_all;
    uint64_t from, most;
    PyObject *sequences, *start, *limit;
    Several it;
    (void)module;
    if (!PyArg_ParseTuple(args, "pO!OO:merged", &of_all, &PyTuple_Type, &sequences, &start, &limit) ||
        number(start, "start", &from) || number_or(limit, UINT64_MAX, "limit", &most) || several_take(&it, sequences))
        return NULL;
    PyObject *window = merged(&it, of_all, from, most);
    several_drop(&it);
    return window;
}
