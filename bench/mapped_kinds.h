/* The kinds of blocks that mapped.c measures: how one is made in a file, opened and checked, and its two queries. */
#ifndef MAPPED_KINDS_H
#define MAPPED_KINDS_H

#include "../include/bitm.h"

#include <stdio.h>
#include <stdlib.h>
#include <string.h>
#include <sys/mman.h>
#include <unistd.h>

#define PERIOD ((size_t)1 << 20) /* nodes after which the degrees of a great tree begin anew */

/* A query of the opened block. */
struct query {
    const char *name;
    uint64_t (*ask)(void);
};

struct kind {
    const char *name;
    void (*make)(uint64_t bits); /* makes the file, and what counting answers */
    bool (*open)(const uint64_t *block);
    bool (*check)(const uint64_t *block);
    struct query queries[2];
};

static int file = -1, log2_, rounds = 5;
static size_t block_len; /* words */
static struct bitm_index index_;
static struct bitm_sequence sequence;
static struct bitm_matrix matrix;
static struct bitm_tree tree;
/* What is queried: a position or an index; a rank, a value, a number or a node with children. */
static uint64_t at, other;
/* What the two queries have to answer. */
static uint64_t counted[2];

static void fail(const char *why)
{
    fprintf(stderr, "mapped: %s\n", why);
    exit(1);
}

static void row(const char *name, const char *part, const char *kind, double value, const char *unit, uint64_t check)
{
    printf("%s%s,%s,%d,even,%.2f,%s,%llu\n", name, part, kind, log2_, value, unit, (unsigned long long)check);
    fflush(stdout);
}

static void *mapped(size_t bytes, int protection, int flags, int from)
{
    void *const made = mmap(NULL, bytes, protection, flags, from, 0);
    if (made == MAP_FAILED) fail("there is no memory to map");
    return made;
}

static uint64_t *some(size_t words)
{
    return mapped(8 * words, PROT_READ | PROT_WRITE, MAP_PRIVATE | MAP_ANONYMOUS | MAP_NORESERVE, -1);
}

static void drop(void *words, size_t len) { munmap(words, 8 * len); }

/* Gives the file the length of the block, and maps it to be written. */
static uint64_t *room(uint32_t status, uint64_t len)
{
    if (status != BITM_OK || ftruncate(file, (off_t)(8 * len))) fail("there is no room for the file");
    block_len = len;
    return mapped(8 * len, PROT_READ | PROT_WRITE, MAP_SHARED, file);
}

static void built(uint32_t status, uint64_t *block)
{
    if (status != BITM_OK) fail("the block is not built");
    munmap(block, 8 * block_len);
}

/* ---- the kinds */

static void make_index(uint64_t bits)
{
    const size_t len = bits / 64;
    uint64_t *words = some(len), state = 88172645463325252, size = 0, before = 0;
    for (size_t i = 0; i < len; i++) words[i] = draw(&state);
    for (size_t i = 0; i < len / 2; i++) before += (uint64_t)__builtin_popcountll(words[i]);
    at = bits / 2;
    other = before;
    while (!bitm_bit_at(words, at)) at++; /* the bit with this rank */
    counted[0] = other;
    counted[1] = at;
    const uint32_t status = bitm_index_block_size(bits, &size);
    uint64_t *block = room(status, size);
    built(bitm_index_block_build(words, len, bits, block, size), block);
    drop(words, len);
}

static bool open_index(const uint64_t *block)
{
    index_ = (struct bitm_index){0}; /* the block that was opened before is gone */
    return bitm_index_block_open(block, block_len, &index_) == BITM_OK;
}

static bool check_index(const uint64_t *block) { return bitm_index_block_check(block, block_len) == BITM_OK; }

static uint64_t rank_of_index(void)
{
    uint64_t out = 0;
    return bitm_index_rank(&index_, true, at, &out) == BITM_OK ? out : UINT64_MAX;
}

static uint64_t select_of_index(void)
{
    uint64_t out = 0;
    return bitm_index_select(&index_, true, other, &out) == BITM_OK ? out : UINT64_MAX;
}

static void make_sequence(uint64_t bits)
{
    const size_t len = bits / 32;
    uint64_t *numbers = some(len), state = 88172645463325252, size = 0, last = 0;
    for (size_t i = 0; i < len; i++) numbers[i] = last += (draw(&state) >> 33) + 1;
    at = counted[1] = len / 2;
    other = counted[0] = numbers[at];
    const uint32_t status = bitm_sequence_block_size(len, last, &size);
    uint64_t *block = room(status, size);
    built(bitm_sequence_block_build(numbers, len, block, size), block);
    drop(numbers, len);
}

static bool open_sequence(const uint64_t *block)
{
    sequence = (struct bitm_sequence){0}; /* the block that was opened before is gone */
    return bitm_sequence_block_open(block, block_len, &sequence) == BITM_OK;
}

static bool check_sequence(const uint64_t *block) { return bitm_sequence_block_check(block, block_len) == BITM_OK; }

static uint64_t get_of_sequence(void)
{
    uint64_t out = 0;
    return bitm_sequence_get(&sequence, at, &out) == BITM_OK ? out : UINT64_MAX;
}

static uint64_t successor_of_sequence(void)
{
    uint64_t out = 0;
    return bitm_sequence_first_at_least(&sequence, other, &out) == BITM_OK ? out : UINT64_MAX;
}

static void make_matrix(uint64_t bits)
{
    const size_t len = bits / 32;
    uint64_t *numbers = some(len), *scratch = some(2 * len), state = 88172645463325252, size = 0;
    for (size_t i = 0; i < len; i++) numbers[i] = draw(&state) >> 32;
    at = len / 2;
    other = counted[0] = numbers[at];
    for (size_t i = 0; i < at; i++) counted[1] += numbers[i] == other;
    const uint32_t status = bitm_matrix_size(len, 32, false, false, &size);
    uint64_t *block = room(status, size);
    built(bitm_matrix_build(numbers, len, 32, false, false, scratch, 2 * len, block, size), block);
    drop(scratch, 2 * len);
    drop(numbers, len);
}

static bool open_matrix(const uint64_t *block)
{
    matrix = (struct bitm_matrix){0}; /* the block that was opened before is gone */
    return bitm_matrix_open(block, block_len, &matrix) == BITM_OK;
}

static bool check_matrix(const uint64_t *block) { return bitm_matrix_check(block, block_len) == BITM_OK; }

static uint64_t get_of_matrix(void)
{
    uint64_t out = 0;
    return bitm_matrix_get(&matrix, at, &out) == BITM_OK ? out : UINT64_MAX;
}

static uint64_t rank_of_matrix(void)
{
    uint64_t out = 0;
    return bitm_matrix_rank(&matrix, other, at, &out) == BITM_OK ? out : UINT64_MAX;
}

/* Degrees of `len` nodes that have `len` children in all: 0, 0, 1 or 3 each, and one more or less for some. Returns by
 * how much the children of the nodes before one are fewer than these nodes at most. */
static uint64_t draw_degrees(uint64_t *degrees, size_t len)
{
    uint64_t state = 88172645463325252, sum = 0, lack = 0;
    for (size_t i = 0; i < len; i++) sum += degrees[i] = "\0\0\1\3"[draw(&state) >> 62];
    while (sum < len) sum++, degrees[draw(&state) % len]++;
    while (sum > len) {
        uint64_t *const some_node = &degrees[draw(&state) % len];
        if (*some_node > 0) sum--, (*some_node)--;
    }
    sum = 0;
    for (size_t i = 0; i < len; i++) {
        if (i > sum + lack) lack = i - sum;
        sum += degrees[i];
    }
    return lack;
}

/* The degrees of a tree of `len` nodes, a power of 2. Those of 2^32 nodes take 32 GiB, so the degrees of one period are
 * mapped over and over; the first and the last period have memory of their own. */
static uint64_t *tree_degrees(size_t len)
{
    const size_t period = len < PERIOD ? len : PERIOD, bytes = 8 * period;
    const int shared = memfd_create("degrees", 0);
    if (shared < 0 || ftruncate(shared, (off_t)bytes)) fail("there is no memory for the degrees");
    uint64_t *const one = mapped(bytes, PROT_READ | PROT_WRITE, MAP_SHARED, shared), *const all = some(len);
    uint64_t extra = draw_degrees(one, period);
    for (size_t from = 0; from + period <= len; from += period) {
        const int flags = from == 0 || from + period == len ? MAP_PRIVATE : MAP_SHARED;
        if (mmap(all + from, bytes, flags == MAP_SHARED ? PROT_READ : PROT_READ | PROT_WRITE, flags | MAP_FIXED, shared,
                 0) == MAP_FAILED)
            fail("there is no memory for the degrees");
    }
    munmap(one, bytes);
    close(shared);
    /* The root has what is lacking anywhere; the last nodes have that many and one fewer, since the root is no child.
     */
    all[0] += extra;
    extra++;
    for (size_t i = len; extra > 0;) {
        const uint64_t less = all[--i] < extra ? all[i] : extra;
        all[i] -= less;
        extra -= less;
    }
    return all;
}

static void make_tree(uint64_t bits)
{
    const size_t len = bits / 2;
    uint64_t *const degrees = tree_degrees(len), size = 0, known = 1; /* nodes that are the root or a child so far */
    at = len / 2;
    other = UINT64_MAX;
    for (size_t i = 0; i < len; known += degrees[i++]) {
        if (known <= at && at < known + degrees[i]) counted[0] = i;
        if (i < at || other != UINT64_MAX || degrees[i] == 0) continue;
        other = i;
        counted[1] = known;
    }
    if (known != len) fail("the degrees are not those of a tree");
    const uint32_t status = bitm_tree_size(len, &size);
    uint64_t *block = room(status, size);
    built(bitm_tree_build(degrees, len, block, size), block);
    drop(degrees, len);
}

static bool open_tree(const uint64_t *block)
{
    tree = (struct bitm_tree){0}; /* the block that was opened before is gone */
    return bitm_tree_open(block, block_len, &tree) == BITM_OK;
}

static bool check_tree(const uint64_t *block) { return bitm_tree_check(block, block_len) == BITM_OK; }

static uint64_t parent_of_tree(void)
{
    uint64_t out = 0;
    return bitm_tree_parent(&tree, at, &out) == BITM_OK ? out : UINT64_MAX;
}

static uint64_t child_of_tree(void)
{
    uint64_t out = 0;
    return bitm_tree_child(&tree, other, 0, &out) == BITM_OK ? out : UINT64_MAX;
}

static const struct kind kinds[] = {
    {"index", make_index, open_index, check_index, {{"rank", rank_of_index}, {"select", select_of_index}}},
    {"sequence",
     make_sequence,
     open_sequence,
     check_sequence,
     {{"get", get_of_sequence}, {"first_at_least", successor_of_sequence}}},
    {"matrix", make_matrix, open_matrix, check_matrix, {{"get", get_of_matrix}, {"rank", rank_of_matrix}}},
    {"tree", make_tree, open_tree, check_tree, {{"parent", parent_of_tree}, {"child", child_of_tree}}},
};

#endif
