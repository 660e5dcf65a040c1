/* What it takes to query a block in a mapped file: mapped KIND LOG2 [ROUNDS], LOG2 from 16 to 36.
 *
 * KIND is index (2^LOG2 random bits), sequence (2^LOG2 / 32 numbers that rise by up to 2^31), matrix (2^LOG2 / 32
 * random numbers of 32 bits) or tree (2^LOG2 / 2 nodes), so each file has about 2^LOG2 / 8 bytes: 1.1 GB for 33. It is
 * written to $TMPDIR (or /tmp) and is gone at the end. Rows are those of calls.c, with KIND for who answers:
 *
 *     file                 the bytes of the block, in MB
 *     open, query_QUERY    opening, and then the first query over a new mapping, where the file lies in the system's
 *                          cache: microseconds of the thread's processor time, what the system does for it included
 *     open_pages, ..       how many pages of 4 KiB of the file each of them brings into memory (mincore before and
 *                          after), after the system dropped the file, without reading ahead (MADV_RANDOM)
 *     open_disk, ..        what each of these then takes, in microseconds by the clock on the wall
 *     check                the call that looks at the whole block, over a mapping whose pages all are there, in ms
 *     read                 adding up all words of the same mapping once, likewise
 *
 * A row is the least of the rounds (5; 2 of a check that takes more than a second). Each answer is compared with that
 * of plain counting over what the block is built from, and is the last column. Where the folder lies in memory, rows of
 * pages and of the disk are left out. */
#define _GNU_SOURCE
#include "clock.h"
#include "mapped_kinds.h"

#include <fcntl.h>
#include <stdio.h>
#include <stdlib.h>
#include <string.h>
#include <sys/mman.h>
#include <unistd.h>

#define PAGE ((size_t)4096)

/* ---- what is measured */

struct steps {
    double open, query;
};

static void least(struct steps *of, double open, double query)
{
    if (open < of->open) of->open = open;
    if (query < of->query) of->query = query;
}

/* How many pages of the mapping lie in memory. */
static size_t resident(const void *block)
{
    const size_t pages = (8 * block_len + PAGE - 1) / PAGE;
    unsigned char *const each = malloc(pages);
    if (!each || mincore((void *)(uintptr_t)block, 8 * block_len, each))
        fail("mincore does not say which pages lie in memory");
    size_t count = 0;
    for (size_t i = 0; i < pages; i++) count += each[i] & 1;
    free(each);
    return count;
}

static void compare(const struct kind *kind, const struct query *query, uint64_t answer)
{
    if (answer != counted[query - kind->queries]) fail("an answer is not that of counting");
}

/* Opens a new mapping and queries it, over a file in the system's cache. */
static struct steps cached(const struct kind *kind, const struct query *query)
{
    struct steps of = {1e18, 1e18};
    for (int round = 0; round < rounds; round++) {
        uint64_t *const block = mapped(8 * block_len, PROT_READ, MAP_SHARED, file);
        const double start = used();
        const bool opened = kind->open(block);
        const double mid = used();
        const uint64_t answer = query->ask();
        const double end = used();
        if (!opened) fail("the block is not opened");
        compare(kind, query, answer);
        least(&of, mid - start, end - mid);
        munmap(block, 8 * block_len);
    }
    return of;
}

/* The same after the system dropped the file: the times by the clock on the wall, and the pages that came. */
static bool dropped(const struct kind *kind, const struct query *query, struct steps *of, struct steps *pages)
{
    *of = *pages = (struct steps){1e18, 1e18};
    for (int round = 0; round < rounds; round++) {
        posix_fadvise(file, 0, 0, POSIX_FADV_DONTNEED);
        uint64_t *const block = mapped(8 * block_len, PROT_READ, MAP_SHARED, file);
        madvise(block, 8 * block_len, MADV_RANDOM);
        const size_t before = resident(block);
        if (before > 0) {
            munmap(block, 8 * block_len);
            return false;
        }
        const double start = now(CLOCK_MONOTONIC);
        const bool opened = kind->open(block);
        const double mid = now(CLOCK_MONOTONIC);
        const size_t after_open = resident(block);
        const double again = now(CLOCK_MONOTONIC);
        const uint64_t answer = query->ask();
        const double end = now(CLOCK_MONOTONIC);
        if (!opened) fail("the block is not opened");
        compare(kind, query, answer);
        least(of, mid - start, end - again);
        least(pages, (double)(after_open - before), (double)(resident(block) - after_open));
        munmap(block, 8 * block_len);
    }
    return true;
}

/* The sum of all words. */
static uint64_t sum_of(const uint64_t *words, size_t len)
{
    uint64_t sums[8] = {0};
    size_t i = 0;
    for (; i + 8 <= len; i += 8)
        for (size_t k = 0; k < 8; k++) sums[k] += words[i + k];
    for (; i < len; i++) sums[0] += words[i];
    return sums[0] + sums[1] + sums[2] + sums[3] + sums[4] + sums[5] + sums[6] + sums[7];
}

static void looked_through(const struct kind *kind)
{
    uint64_t *const block = mapped(8 * block_len, PROT_READ, MAP_SHARED | MAP_POPULATE, file),
                    sum = sum_of(block, block_len);
    double read = 1e18, check = 1e18;
    for (int round = 0; round < rounds && (round < 2 || check < 1e9); round++) {
        const double start = used();
        const uint64_t again = sum_of(block, block_len);
        const double mid = used();
        const bool right = kind->check(block);
        const double end = used();
        if (again != sum || !right) fail("the block is not right");
        if (mid - start < read) read = mid - start;
        if (end - mid < check) check = end - mid;
    }
    munmap(block, 8 * block_len);
    row("read", "", kind->name, read / 1e6, "ms", sum);
    row("check", "", kind->name, check / 1e6, "ms", 1);
}

static void measure(const struct kind *kind)
{
    row("file", "", kind->name, (double)block_len * 8 / 1e6, "MB", block_len);
    looked_through(kind); /* which brings the file into the cache */
    struct steps of = {1e18, 1e18}, pages = of;
    for (const struct query *query = kind->queries; query < kind->queries + 2; query++) {
        const struct steps one = cached(kind, query);
        least(&of, one.open, 1e18);
        row("query_", query->name, kind->name, one.query / 1e3, "us", counted[query - kind->queries]);
    }
    row("open", "", kind->name, of.open / 1e3, "us", 1);
    for (const struct query *query = kind->queries; query < kind->queries + 2; query++) {
        char name[64];
        if (!dropped(kind, query, &of, &pages)) {
            fprintf(stderr, "mapped: the file stays in memory, so pages and the disk are left out: name a folder of a "
                            "disk by TMPDIR\n");
            return;
        }
        snprintf(name, sizeof name, "query_%s", query->name);
        row(name, "_pages", kind->name, pages.query, "pages", counted[query - kind->queries]);
        row(name, "_disk", kind->name, of.query / 1e3, "us", counted[query - kind->queries]);
    }
    row("open", "_pages", kind->name, pages.open, "pages", 1);
    row("open", "_disk", kind->name, of.open / 1e3, "us", 1);
}

int main(int argc, char **argv)
{
    const struct kind *kind = NULL;
    for (size_t i = 0; argc > 2 && i < sizeof kinds / sizeof *kinds; i++)
        if (strcmp(argv[1], kinds[i].name) == 0) kind = &kinds[i];
    log2_ = argc > 2 ? atoi(argv[2]) : 0;
    if (argc > 3) rounds = atoi(argv[3]);
    if (!kind || log2_ < 16 || log2_ > 36 || rounds < 1 || argc > 4) {
        fprintf(stderr, "mapped index|sequence|matrix|tree LOG2 [ROUNDS], LOG2 from 16 to 36\n");
        return 2;
    }
    const char *const folder = getenv("TMPDIR");
    char path[4096];
    snprintf(path, sizeof path, "%s/mapped.XXXXXX", folder ? folder : "/tmp");
    file = mkstemp(path);
    if (file < 0 || unlink(path)) fail("there is no folder for the file: name one by TMPDIR");
    kind->make((uint64_t)1 << log2_);
    if (fsync(file)) fail("the file is not written");
    measure(kind);
    return 0;
}
