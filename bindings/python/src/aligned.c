/* Memory for words: aligned to 64 bytes and, where it is large, in huge pages if the system has them. */
#include "core.h"

#include <unistd.h>
#ifdef __linux__
#include <sys/mman.h>
#endif

enum { LINE = 64, LEAST_HUGE = 4 << 20 };

/* Requests huge pages for the whole pages of large memory. The system may refuse: then the pages stay small. */
static void request_huge_pages(char *at, size_t bytes)
{
#if defined __linux__ && defined MADV_HUGEPAGE
    long found = bytes < LEAST_HUGE ? 0 : sysconf(_SC_PAGESIZE);
    size_t page = (size_t)found;
    if (found <= 0 || page >= LEAST_HUGE)
        return;
    size_t skipped = (page - (uintptr_t)at % page) % page;
    (void)madvise(at + skipped, (bytes - skipped) / page * page, MADV_HUGEPAGE);
#else
    (void)at, (void)bytes;
#endif
}

/* The first aligned byte of a block from malloc, at least 16 bytes in: the word before it says how far in. */
static char *aligned_in(char *block) { return block + (LINE - (uintptr_t)block % LINE); }

static void *marked(char *block, size_t bytes)
{
    char *at = aligned_in(block);
    ((size_t *)(void *)at)[-1] = (size_t)(at - block);
    request_huge_pages(at, bytes);
    return at;
}

void *aligned_new(size_t bytes)
{
    char *block = bytes > (size_t)PY_SSIZE_T_MAX - LINE ? NULL : calloc(1, bytes + LINE);
    return block == NULL ? NULL : marked(block, bytes);
}

void *aligned_resize(void *at, size_t kept, size_t bytes)
{
    size_t before = ((size_t *)at)[-1];
    char *block = bytes > (size_t)PY_SSIZE_T_MAX - LINE ? NULL : realloc((char *)at - before, bytes + LINE);
    if (block == NULL)
        return NULL;
    if (aligned_in(block) != block + before)
        memmove(aligned_in(block), block + before, kept);
    return marked(block, bytes);
}

void aligned_free(void *at)
{
    if (at != NULL)
        free((char *)at - ((size_t *)at)[-1]);
}
