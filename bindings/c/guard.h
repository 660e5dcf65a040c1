/* Blocks of memory that end where a page begins that may not be touched: a read or write of one number too far ends the
 * program, inside the archive too, into which sanitizers do not see. */
#ifndef GUARD_H
#define GUARD_H

#include "common.h"

#include <sys/mman.h>
#include <unistd.h>

/* A block between two pages that may not be touched; each is mapped once and used again. */
struct guarded {
    unsigned char *page;
    size_t room;
};

static inline struct guarded guard(size_t room)
{
    size_t page = (size_t)sysconf(_SC_PAGESIZE), pages = (room + page - 1) / page;
    unsigned char *at = mmap(NULL, (pages + 2) * page, PROT_NONE, MAP_PRIVATE | MAP_ANONYMOUS, -1, 0);
    MUST(at != MAP_FAILED && mprotect(at + page, pages * page, PROT_READ | PROT_WRITE) == 0);
    return (struct guarded){at + page, pages * page};
}

static inline void *ends_at_the_guard(const struct guarded *block, size_t size)
{
    MUST(size <= block->room);
    return block->page + block->room - size;
}

#endif
