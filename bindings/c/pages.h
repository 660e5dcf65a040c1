/* Memory of many pages, none of which may be touched before a call: each page that a call touches is opened and
 * counted. */
#ifndef PAGES_H
#define PAGES_H

#include "guard.h"

#include <signal.h>

enum { WORDS = 1 << 19, LOWERS = WORDS / 32, ITEMS = 1 << 19, LIST = 3, LEVELS = 8 };
enum { OF_WORDS, OF_UPPER, OF_LOWER, OF_LOW, OF_SAMPLES, OF_STARTS, OF_QUERIES, OF_OUT, OF_ONE, OF_COUNTS, BLOCKS };

static struct guarded blocks[BLOCKS];
static size_t touched[BLOCKS], page;
static bool at_the_end;

/* Opens the page that is touched, and counts it; a page of no block ends the program. */
static void open_page(int number, siginfo_t *about, void *context)
{
    unsigned char *at = about->si_addr;
    (void)context;
    for (size_t i = 0; i < BLOCKS; i++)
        if (at >= blocks[i].page && at < blocks[i].page + blocks[i].room) {
            touched[i]++;
            at -= (uintptr_t)at % page;
            if (mprotect(at, page, PROT_READ | PROT_WRITE) == 0) return;
        }
    signal(number, SIG_DFL);
}

static void close_pages(void)
{
    for (size_t i = 0; i < BLOCKS; i++) {
        touched[i] = 0;
        MUST(mprotect(blocks[i].page, blocks[i].room, PROT_NONE) == 0);
    }
}

static void *placed(unsigned block, size_t size)
{
    return at_the_end ? ends_at_the_guard(&blocks[block], size) : blocks[block].page;
}

/* Makes the call, which is answered, and touches at most that many pages of words, of the lower table and of low. */
#define TOUCHES(of_words, of_lower, of_low, call)                                                                      \
    do {                                                                                                               \
        close_pages();                                                                                                 \
        MUST((call) == BITM_OK);                                                                                       \
        MUST(touched[OF_WORDS] <= (of_words) && touched[OF_LOWER] <= (of_lower));                                      \
        MUST(touched[OF_LOW] <= (of_low) && touched[OF_SAMPLES] <= (touched[OF_OUT] ? 2 * LIST : 2));                  \
    } while (0)
#define TOUCHES_ANY(call)                                                                                              \
    do {                                                                                                               \
        close_pages();                                                                                                 \
        MUST((call) == BITM_OK);                                                                                       \
    } while (0)

static struct bitm_list_counts *counts_placed(void) { return placed(OF_COUNTS, sizeof(struct bitm_list_counts)); }

#endif
