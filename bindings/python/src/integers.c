/* Whole numbers from outside: of a buffer of any width, sign, byte order and stride, or of an iterable. */
#include "core.h"

uint64_t *room_for(uint64_t count)
{
    uint64_t *room = count > (uint64_t)PY_SSIZE_T_MAX / 8 ? NULL : malloc(count == 0 ? 8 : 8 * (size_t)count);
    if (room == NULL)
        PyErr_NoMemory();
    return room;
}

static int format_of(const Py_buffer *held, int *is_signed, int *is_swapped)
{
    const char *format = held->format == NULL ? "B" : held->format;
    *is_swapped = (*format == '>' || *format == '!') && held->itemsize > 1;
    if (*format != 0 && strchr("><!=@", *format) != NULL)
        format++;
    if (*format == 0 || format[1] != 0)
        return -1;
    *is_signed = strchr("bhilqn", *format) != NULL;
    if (!*is_signed && strchr("BHILQN", *format) == NULL)
        return -1;
    return held->itemsize == 1 || held->itemsize == 2 || held->itemsize == 4 || held->itemsize == 8 ? 0 : -1;
}

static int append(Integers *it, size_t *room, uint64_t value)
{
    if (it->len == *room) {
        size_t wider = *room < 16 ? 16 : 2 * *room;
        uint64_t *own = wider > (size_t)PY_SSIZE_T_MAX / 8 ? NULL : realloc(it->own, 8 * wider);
        if (own == NULL) {
            PyErr_NoMemory();
            return -1;
        }
        it->own = own;
        *room = wider;
    }
    it->own[it->len++] = value;
    return 0;
}

static int iterate(Integers *it, PyObject *from, const char *what)
{
    PyObject *iterator = PyObject_GetIter(from), *value;
    size_t room = 0;
    uint64_t found;
    if (iterator == NULL)
        return -1;
    while ((value = next_item(iterator, it->len)) != NULL) {
        int status = number(value, what, &found);
        Py_DECREF(value);
        if (status || append(it, &room, found))
            break;
    }
    Py_DECREF(iterator);
    it->stride = it->size = 8;
    if (!PyErr_Occurred())
        return 0;
    integers_drop(it);
    return -1;
}

int integers_take(Integers *it, PyObject *from, const char *what)
{
    memset(it, 0, sizeof *it);
    if (!PyObject_CheckBuffer(from))
        return iterate(it, from, what);
    int is_of_bits = PyObject_TypeCheck(from, Vector_Type) ? 1 : is_instance(from, "bitarray", "bitarray");
    if (is_of_bits < 0)
        return -1;
    if (is_of_bits) {
        PyErr_Format(PyExc_TypeError, "numbers are needed, not the bits of %R: see BitVector.ones", Py_TYPE(from));
        return -1; /* their buffers are words and bytes */
    }
    if (PyObject_GetBuffer(from, &it->held, PyBUF_RECORDS_RO))
        return -1;
    it->is_held = 1;
    const Py_buffer *held = &it->held;
    if (held->ndim != 1 || format_of(held, &it->is_signed, &it->is_swapped)) {
        PyErr_Format(PyExc_TypeError,
                     "a flat buffer of whole numbers is needed, not one of %d dimensions with format '%s'", held->ndim,
                     held->format == NULL ? "B" : held->format);
        integers_drop(it);
        return -1;
    }
    /* A ctypes array gives no strides, though these are requested. */
    it->len = held->shape != NULL ? (size_t)held->shape[0] : (size_t)(held->len / held->itemsize);
    it->stride = held->strides != NULL ? held->strides[0] : held->itemsize;
    it->size = (int)held->itemsize;
    return 0;
}

void integers_drop(Integers *it)
{
    if (it->is_held)
        PyBuffer_Release(&it->held);
    free(it->own);
    memset(it, 0, sizeof *it);
}

/* A number with a sign is below 0 where its highest bit is 1: all are looked at, and the first is sought only then. */
#define LOAD(type, swap)                                                                                               \
    do {                                                                                                               \
        type item;                                                                                                     \
        int64_t below = 0;                                                                                             \
        for (size_t i = 0; i < count; i++, at += it->stride) {                                                         \
            memcpy(&item, at, sizeof item);                                                                            \
            item = (type)swap(item);                                                                                   \
            out[i] = (uint64_t)item;                                                                                   \
            below |= (int64_t)out[i];                                                                                  \
        }                                                                                                              \
        if (it->is_signed && below < 0)                                                                                \
            for (size_t i = 0; i < count; i++)                                                                         \
                if ((int64_t)out[i] < 0)                                                                               \
                    return i;                                                                                          \
        return count;                                                                                                  \
    } while (0)
#define SAME(it) (it)
#define SWAP16(it) __builtin_bswap16((uint16_t)(it))
#define SWAP32(it) __builtin_bswap32((uint32_t)(it))
#define SWAP64(it) __builtin_bswap64((uint64_t)(it))

size_t integers_load(const Integers *it, size_t from, size_t count, uint64_t *out)
{
    const char *at =
        it->is_held ? (const char *)it->held.buf + (Py_ssize_t)from * it->stride : (const char *)(it->own + from);
    if (!it->is_signed && it->size == 8 && it->stride == 8 && !it->is_swapped) {
        if (count)
            memcpy(out, at, 8 * count);
        return count;
    }
    switch (it->size * 4 + it->is_signed * 2 + it->is_swapped) {
    case 4:
        LOAD(uint8_t, SAME);
    case 6:
        LOAD(int8_t, SAME);
    case 8:
        LOAD(uint16_t, SAME);
    case 9:
        LOAD(uint16_t, SWAP16);
    case 10:
        LOAD(int16_t, SAME);
    case 11:
        LOAD(int16_t, SWAP16);
    case 16:
        LOAD(uint32_t, SAME);
    case 17:
        LOAD(uint32_t, SWAP32);
    case 18:
        LOAD(int32_t, SAME);
    case 19:
        LOAD(int32_t, SWAP32);
    case 32:
        LOAD(uint64_t, SAME);
    case 33:
        LOAD(uint64_t, SWAP64);
    case 34:
        LOAD(int64_t, SAME);
    default:
        LOAD(int64_t, SWAP64);
    }
}

int integers_own(Integers *it)
{
    uint64_t *own = room_for(it->len);
    if (own == NULL)
        return -1;
    (void)integers_load(it, 0, it->len, own); /* also those below 0, as numbers of 64 bits with a sign */
    Integers made = {.own = own, .len = it->len, .stride = 8, .size = 8, .is_signed = it->is_signed};
    integers_drop(it);
    *it = made;
    return 0;
}

uint64_t *integers_all(PyObject *from, const char *what, size_t *len)
{
    Integers it;
    size_t good = 0;
    if (integers_take(&it, from, what))
        return NULL;
    uint64_t *all = room_for(it.len);
    if (all != NULL) {
        Py_BEGIN_ALLOW_THREADS
        good = integers_load(&it, 0, it.len, all);
        Py_END_ALLOW_THREADS
    }
    if (all != NULL && good < it.len) {
        integers_below(&it, good, what);
        free(all);
        all = NULL;
    }
    *len = it.len;
    integers_drop(&it);
    return all;
}

void integers_below(const Integers *it, size_t at, const char *what)
{
    uint64_t found = 0;
    (void)integers_load(it, at, 1, &found);
    PyErr_Format(PyExc_OverflowError, "%s has to be at least 0 and below 2**64, not %lld", what, (long long)found);
}
