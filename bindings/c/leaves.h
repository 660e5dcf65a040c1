/* Whether a call returns a status and leaves all that it could have written as it was. */
#ifndef LEAVES_H
#define LEAVES_H

#include "common.h"

#include <string.h>

enum { WORDS = 70 };
enum { UPPERS = 1, LOWERS = 3, LIST = 5, ROOM = 40 };

/* What the calls below may write: each is filled before a call, and looked at after it. */
static struct {
    uint64_t one, other, list[LIST], starts[LIST];
    uint32_t samples[ROOM];
    struct bitm_sequence_lens lens;
    struct bitm_stored stored;
    struct bitm_list_counts counts;
} written, untouched;

static uint64_t words[WORDS], upper[UPPERS], lower[LOWERS];
static const uint64_t queries[LIST] = {0, 0, 0, 1, 2}, zeros[LIST] = {0, 0, 0, 0, 0};

/* Whether a call returns this status and leaves everything as it was. */
#define LEAVES(wanted, call)                                              \
    do {                                                                  \
        memset(&written, UNTOUCHED, sizeof written);                      \
        MUST((call) == (wanted));                                         \
        MUST(memcmp(&written, &untouched, sizeof written) == 0);          \
        MUST(strcmp(bitm_status_text(wanted), bitm_status_text(99)) != 0); \
    } while (0)

#endif
