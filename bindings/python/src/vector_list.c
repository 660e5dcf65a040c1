/* bitm.BitVector: bits at many positions. */
#include "vector.h"

enum { BLOCK = 512 }; /* on the stack, of which a thread may have 32 KiB */

/* What stopped a list: a number below 0, or a position past the end; and at which item. */
typedef struct {
    enum { DONE, BELOW, PAST } why;
    size_t at;
    uint64_t position;
} Outcome;

/* Makes the bits at the positions that are inside equal to `one`: how many are not. */
static uint64_t set_block(Vector *to, int one, const uint64_t *positions, size_t count)
{
    uint64_t outside = 0;
    return bitm_bits_set_list(WRITTEN(to), positions, count, one, &outside) == BITM_OK ? outside : count;
}

/* Whether a position is past the end; the greatest of them and of most. */
static int look_at_block(const uint64_t *positions, size_t count, uint64_t len, uint64_t *most)
{
    for (size_t i = 0; i < count; i++)
        *most = positions[i] > *most ? positions[i] : *most;
    return count && *most >= len;
}

/* Goes over the positions: with a vector sets its bits there, without one looks whether all are below len and which is
 * the greatest. Needs no GIL. */
static Outcome go_over(const Integers *from, Vector *to, int one, uint64_t len, uint64_t *most)
{
    uint64_t in[BLOCK];
    Outcome it = {DONE, 0, 0};
    for (; it.at < from->len; it.at += BLOCK) {
        size_t count = from->len - it.at < BLOCK ? from->len - it.at : BLOCK,
               found = integers_load(from, it.at, count, in), i = 0;
        if (to != NULL ? set_block(to, one, in, found) > 0 : look_at_block(in, found, len, most)) {
            while (i + 1 < found && in[i] < len)
                i++;
            Outcome past = {PAST, it.at + i, in[i]};
            return past;
        }
        if (found < count) {
            Outcome below = {BELOW, it.at + found, 0};
            return below;
        }
    }
    return it;
}

/* An exception for what stopped it: -1; 0 where nothing did. */
static int refused(const Integers *from, const Outcome *it, uint64_t len)
{
    if (it->why == PAST)
        (void)past_end(it->position, len);
    else if (it->why == BELOW)
        integers_below(from, it->at, "a position");
    return it->why == DONE ? 0 : -1;
}

/* ---- BitVector.from_indices */

/* The length that the greatest position needs. -1 and an error. */
static int length_for(const Integers *positions, uint64_t *length)
{
    Outcome outcome;
    *length = 0;
    Py_BEGIN_ALLOW_THREADS
    outcome = go_over(positions, NULL, 1, UINT64_MAX, length);
    Py_END_ALLOW_THREADS
    if (outcome.why == PAST)
        PyErr_NoMemory();
    else if (refused(positions, &outcome, UINT64_MAX) == 0)
        *length += positions->len > 0;
    return PyErr_Occurred() ? -1 : 0;
}

static Vector *of_positions(const Integers *positions, uint64_t length)
{
    Outcome outcome;
    Vector *made = vector_new(Vector_Type, length);
    if (made == NULL)
        return NULL;
    Py_BEGIN_ALLOW_THREADS
    outcome = go_over(positions, made, 1, length, NULL);
    Py_END_ALLOW_THREADS
    if (refused(positions, &outcome, length))
        Py_CLEAR(made);
    return made;
}

PyObject *vector_from_indices(PyObject *type, ARGUMENTS)
{
    static const char *const names[] = {"indices", "length"};
    PyObject *given[2];
    uint64_t length;
    Integers positions;
    Vector *made = NULL;
    if (pick("from_indices", names, 1, 2, args, count, keywords, given) ||
        number_or(given[1], 0, "the length", &length) || integers_take(&positions, given[0], "a position"))
        return NULL;
    int is_given = given[1] != NULL && given[1] != Py_None;
    if (is_given || length_for(&positions, &length) == 0)
        made = of_positions(&positions, length);
    integers_drop(&positions);
    return vector_as(type, made);
}

/* ---- BitVector.set_list */

/* All are looked at before the first bit is set. They are copied where others look at the words, for then they may lie
 * in the words themselves. */
PyObject *vector_set_list(PyObject *self, ARGUMENTS)
{
    static const char *const names[] = {"positions", "bit"};
    Vector *it = (Vector *)self;
    PyObject *given[2];
    uint64_t most = 0;
    Integers positions;
    if (pick("set_list", names, 1, 2, args, count, keywords, given))
        return NULL;
    int bit = given[1] == NULL ? 1 : bit_of(given[1]);
    if (bit < 0 || integers_take(&positions, given[0], "a position"))
        return NULL;
    int status = it->exports > 0 ? integers_own(&positions) : 0;
    uint64_t len = it->bits.len; /* the Python code of the arguments has run, and of the buffer that was given back */
    if (status == 0) {
        Outcome outcome = go_over(&positions, NULL, bit, len, &most);
        if (outcome.why == DONE)
            outcome = go_over(&positions, it, bit, len, NULL);
        status = refused(&positions, &outcome, len);
    }
    integers_drop(&positions);
    return status ? NULL : Py_NewRef(Py_None);
}
