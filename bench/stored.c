/* Times opening a stored index of 2^LOG2 random bits and asking it once: stored LOG2 ROUNDS. The index is written to a file in
 * $TMPDIR (or /tmp), which is gone at the end. A row is as those of `calls.c`, in microseconds of the thread's processor time,
 * what the system does for it included; the file lies in the page cache. */
#define _GNU_SOURCE
#include "../include/bitm.h"
#include "clock.h"

#include <fcntl.h>
#include <stdio.h>
#include <stdlib.h>
#include <sys/mman.h>
#include <unistd.h>

/* Maps the file, asks for the middle rank, and unmaps it: the rank, or 2^64 - 1. */
static uint64_t opened(int file, size_t size)
{
    uint64_t *at = mmap(NULL, size, PROT_READ, MAP_SHARED, file, 0), rank = UINT64_MAX;
    struct bitm_stored s;
    if (at == MAP_FAILED) return rank;
    if (bitm_stored_read(at, size / 8, &s) == BITM_OK && s.kind == BITM_STORED_INDEX) {
        struct bitm_index index = bitm_stored_index_of(at, &s);
        if (bitm_index_rank(&index, true, s.len / 2, &rank) != BITM_OK) rank = UINT64_MAX;
    }
    munmap(at, size);
    return rank;
}

int main(int argc, char **argv)
{
    if (argc != 3) return 2;
    int log2 = atoi(argv[1]), rounds = atoi(argv[2]);
    struct bitm_stored s;
    if (log2 < 10 || log2 > 36 || bitm_stored_index((uint64_t)1 << log2, 0, 0, 0, 0, &s) != BITM_OK) return 2;
    const char *folder = getenv("TMPDIR");
    char path[4096];
    snprintf(path, sizeof path, "%s/stored.XXXXXX", folder ? folder : "/tmp");
    int file = mkstemp(path);
    if (file < 0 || unlink(path) || ftruncate(file, (off_t)s.size)) return 1;
    char *at = mmap(NULL, s.size, PROT_READ | PROT_WRITE, MAP_SHARED, file, 0);
    if (at == MAP_FAILED) return 1;
    uint64_t *words = (uint64_t *)(at + s.words.at), state = 88172645463325252, ones;
    *(struct bitm_stored *)at = s;
    for (size_t i = 0; i < s.words.len; i++) words[i] = draw(&state);
    if (bitm_index_build(words, s.words.len, (uint64_t *)(at + s.upper.at), s.upper.len, (uint64_t *)(at + s.lower.at), s.lower.len,
                   &ones) != BITM_OK)
        return 1;
    munmap(at, s.size);
    double least = 1e18;
    uint64_t rank = 0;
    for (int round = 0; round < rounds; round++) {
        double start = used();
        rank = opened(file, s.size);
        double took = used() - start;
        if (took < least) least = took;
    }
    printf("open_stored,C,%d,even,%.2f,us,%llu\n", log2, least / 1000, (unsigned long long)rank);
    return rank == UINT64_MAX;
}
