/* Where the programs of blocks have their arrays and the numbers that are written: once where a page ends and once
 * where one begins, beside a page that may not be touched. A read or write of one number outside, on either side, ends
 * the program. */
#ifndef PLACES_H
#define PLACES_H

#include "guard.h"

#include <string.h>

/* What is placed; a program counts on from OF_MORE. */
enum { OF_BLOCK, OF_OUT, OF_COUNTS, OF_LIST, OF_MORE, PLACES = 16 };

static struct guarded places[PLACES];
static bool at_the_end;

static inline void *placed(unsigned place, size_t size)
{
    return at_the_end ? ends_at_the_guard(&places[place], size) : places[place].page;
}

/* Memory of which each byte is UNTOUCHED. */
static inline void *untouched_at(unsigned place, size_t size) { return memset(placed(place, size), UNTOUCHED, size); }

/* These numbers beside a page that may not be touched. */
static inline uint64_t *copied(unsigned place, const uint64_t *from, size_t len)
{
    return len ? memcpy(placed(place, 8 * len), from, 8 * len) : placed(place, 0);
}

static inline bool is_untouched(const void *memory, size_t size)
{
    for (size_t i = 0; i < size; i++)
        if (((const unsigned char *)memory)[i] != UNTOUCHED) return false;
    return true;
}

static inline uint64_t *out_at_the_guard(void)
{
    uint64_t *out = placed(OF_OUT, sizeof *out);
    *out = UNTOUCHED;
    return out;
}

static inline struct bitm_list_counts *counts_at_the_guard(void)
{
    struct bitm_list_counts *counts = placed(OF_COUNTS, sizeof *counts);
    *counts = no_counts;
    return counts;
}

/* What the call answers; the number is as it was where the status is not BITM_OK. */
#define ANSWER(call)                                                                                                   \
    do {                                                                                                               \
        out = out_at_the_guard();                                                                                      \
        status = (call);                                                                                               \
        MUST(status == BITM_OK || *out == UNTOUCHED);                                                                  \
    } while (0)

/* Runs the tests on either side; an array has at most the given number of bytes. */
static inline void on_either_side(size_t room, void (*tests)(void))
{
    for (unsigned place = 0; place < PLACES; place++) places[place] = guard(room);
    for (int end = 0; end < 2; end++) {
        at_the_end = end;
        tests();
    }
}

#endif
