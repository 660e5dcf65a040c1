/* Callers that break the duties: a second thread changes numbers while bitm_sequence_build reads them, and tables
 * while bitm_build_samples does, and memory that a call writes overlaps what it reads. Any answer will do then,
 * but nothing may be written or read outside: each block is between pages that may not be touched, and a program that
 * touches one is ended. */
#define _DEFAULT_SOURCE
#include "guard.h"

#include <pthread.h>
#include <stdatomic.h>

enum { ITEMS = 40, WORDS = 300, BUILDS = 300000, OVERLAPS = 1000000, ARENA = 4096 };

static struct guarded items_of, low_of, words_of, upper_of, lower_of, arena;

/* Numbers that a thread changes, back and forth, until it is ended. */
struct changing {
    volatile uint64_t *numbers;
    size_t len;
    atomic_bool ended;
};

static void *change(void *given)
{
    struct changing *it = given;
    for (uint64_t turn = 0; !atomic_load_explicit(&it->ended, memory_order_relaxed); turn++) {
        volatile uint64_t *number = &it->numbers[turn % it->len];
        uint64_t kept = *number;
        *number = turn % 3 == 0 ? UINT64_MAX : turn % 3 == 1 ? (uint64_t)1 << 40 : 0;
        *number = kept;
    }
    return NULL;
}

static void one_of_a_build(uint32_t status)
{
    MUST(status == BITM_OK || status == BITM_BAD_SIZE || status == BITM_UNSORTED);
}

/* Builds again and again while the numbers change, until the builds have seen that often, or very many were made. */
static void build_meanwhile(void)
{
    uint64_t *items = ends_at_the_guard(&items_of, 8 * ITEMS), width;
    for (size_t i = 0; i < ITEMS; i++) items[i] = 1000 * i + draw() % 1000;
    struct bitm_sequence_lens of;
    MUST(bitm_sequence_sizes(ITEMS, items[ITEMS - 1], &of) == BITM_OK);
    uint64_t *low = ends_at_the_guard(&low_of, 8 * of.low_len), *words = ends_at_the_guard(&words_of, 8 * of.words_len);
    uint64_t *upper = ends_at_the_guard(&upper_of, 8 * of.upper_len);
    uint64_t *lower = ends_at_the_guard(&lower_of, 8 * of.lower_len);
    struct changing changed = {items, ITEMS - 1, false};
    pthread_t other;
    unsigned fell = 0;
    MUST(pthread_create(&other, NULL, change, &changed) == 0);
    for (unsigned turn = 0; turn < BUILDS || (fell < 1000 && turn < 100 * BUILDS); turn++) {
        uint32_t status = bitm_sequence_build(items, ITEMS, low, of.low_len, words, of.words_len, upper, of.upper_len,
                                              lower, of.lower_len, &width);
        one_of_a_build(status);
        fell += status == BITM_UNSORTED;
    }
    atomic_store(&changed.ended, true);
    MUST(pthread_join(other, NULL) == 0);
    MUST(bitm_sequence_build(items, ITEMS, low, of.low_len, words, of.words_len, upper, of.upper_len, lower,
                             of.lower_len, &width) == BITM_OK);
}

/* Builds samples again and again while the tables change. */
static void sample_meanwhile(void)
{
    const size_t lowers = bitm_index_lower_len(WORDS), room = bitm_index_samples_len(WORDS, 7);
    uint64_t *words = ends_at_the_guard(&words_of, 8 * WORDS), *tables = ends_at_the_guard(&lower_of, 8 * (1 + lowers));
    uint64_t *starts = ends_at_the_guard(&upper_of, 8), ones, used;
    uint32_t *samples = ends_at_the_guard(&low_of, 4 * room);
    for (size_t i = 0; i < WORDS; i++) words[i] = draw();
    MUST(bitm_index_build(words, WORDS, tables, 1, tables + 1, lowers, &ones) == BITM_OK);
    const struct bitm_index view = index_over(words, WORDS, tables, 1, tables + 1, lowers);
    struct changing changed = {tables, 1 + lowers, false};
    pthread_t other;
    MUST(pthread_create(&other, NULL, change, &changed) == 0);
    for (unsigned turn = 0; turn < BUILDS; turn++) {
        MUST(bitm_index_build_samples(&view, true, 7, samples, room, starts, 1, &used) == BITM_OK && used <= room);
        MUST(bitm_index_build_samples(&view, false, 7, samples, room, starts, 1, &used) == BITM_OK && used <= room);
    }
    atomic_store(&changed.ended, true);
    MUST(pthread_join(other, NULL) == 0 && bitm_index_check(&view) == BITM_OK);
}

/* Two threads that write the same words, each by all calls that write bits: nothing beside these words is written. */
static void write_bits(uint64_t *words, uint64_t turn)
{
    const uint64_t bits = 64 * WORDS - 5, at = turn * 7919 % (bits - 64), end = at + turn % 64;
    const uint32_t width = (uint32_t)(turn % 65);
    MUST(bitm_bits_set(words, WORDS, bits, at, turn & 1) == BITM_OK);
    MUST(bitm_bits_set_number(words, WORDS, bits, at, width, turn) == BITM_OK);
    MUST(bitm_bits_xor_number(words, WORDS, bits, at, width, turn) == BITM_OK);
    MUST(bitm_bits_fill_range(words, WORDS, bits, at, end, turn & 1) == BITM_OK);
    MUST(bitm_bits_flip_range(words, WORDS, bits, at, end) == BITM_OK);
    MUST(bitm_bits_set_fragment(words, WORDS, bits, at / 65, width, turn) == BITM_OK);
    MUST(bitm_bits_swap_fragments(words, WORDS, bits, at / 65, end / 65, width) == BITM_OK);
}

static void *write_too(void *given)
{
    struct changing *it = given;
    for (uint64_t turn = 1; !atomic_load_explicit(&it->ended, memory_order_relaxed); turn++)
        write_bits((uint64_t *)it->numbers, turn);
    return NULL;
}

static void write_meanwhile(void)
{
    uint64_t *words = ends_at_the_guard(&words_of, 8 * WORDS), count, ones = 0;
    struct changing changed = {words, WORDS, false};
    pthread_t other;
    words[WORDS - 1] = (uint64_t)21 << 59; /* the bits past the end: no write changes them */
    MUST(pthread_create(&other, NULL, write_too, &changed) == 0);
    for (uint64_t turn = 1; turn < BUILDS; turn++) {
        write_bits(words, turn);
        MUST(turn % 256 ||
             (bitm_bits_count(words, WORDS, 64 * WORDS - 5, true, &count) == BITM_OK && count < 64 * WORDS));
    }
    atomic_store(&changed.ended, true);
    MUST(pthread_join(other, NULL) == 0 && words[WORDS - 1] >> 59 == 21);
    for (uint64_t i = 0; i < 64 * WORDS - 5; i++) ones += bit_of(words, i);
    MUST(bitm_bits_count(words, WORDS, 64 * WORDS - 5, true, &count) == BITM_OK && count == ones);
}

/* Memory for that many bytes somewhere in the arena, which other parts may overlap; often at its end. */
static void *somewhere(size_t bytes, size_t aligned)
{
    size_t most = (ARENA - bytes) / aligned;
    return arena.page + arena.room - bytes - aligned * (draw() % 4 ? draw() % (most + 1) : 0);
}

static void sequence_that_overlaps(void)
{
    size_t n = 1 + draw() % 60;
    uint64_t *items = somewhere(8 * n, 8), last = 0, width;
    for (size_t i = 0; i < n; i++) items[i] = last += draw() >> (40 + draw() % 20);
    struct bitm_sequence_lens of;
    MUST(bitm_sequence_sizes(n, last, &of) == BITM_OK);
    uint64_t *low = somewhere(8 * of.low_len, 8), *words = somewhere(8 * of.words_len, 8);
    one_of_a_build(bitm_sequence_build(items, n, low, of.low_len, words, of.words_len, somewhere(8 * of.upper_len, 8),
                                       of.upper_len, somewhere(8 * of.lower_len, 8), of.lower_len, &width));
}

static void hash_that_overlaps(void)
{
    const size_t n = draw() % 40, room = 1 + draw() % 60, sizes = draw() % 20;
    uint64_t levels, used, left;
    const uint32_t status =
        bitm_hash_build(somewhere(8 * n, 8), n, (uint32_t)(draw() % 300), somewhere(8 * room, 8), room,
                        somewhere(8 * room, 8), room, somewhere(8 * sizes, 8), sizes, &levels, &used, &left);
    MUST(status == BITM_BAD_SIZE || (status == BITM_OK && left <= n && levels <= sizes && used <= room));
}

/* The lists of counters and of sorted numbers are one in some turns: each index that is read back is a number then. */
static void seeded_hash_that_overlaps(void)
{
    const size_t n = draw() % 40, room = 1 + draw() % 60, sizes = draw() % 20;
    uint64_t *again = somewhere(8 * room, 8), *sorted = n <= room && draw() % 4 ? again : somewhere(8 * n, 8);
    uint64_t levels, used, left;
    const uint32_t status =
        bitm_hash_build_seeded(somewhere(8 * n, 8), n, (uint32_t)(draw() % 300), (uint16_t)(draw() % 9),
                               somewhere(8 * room, 8), room, somewhere(room, 1), room, again, room, sorted, n,
                               somewhere(8 * sizes, 8), sizes, &levels, &used, &left);
    MUST(status == BITM_OK && left <= n && levels <= sizes && used <= room);
}

static void index_that_overlaps(void)
{
    size_t n = draw() % 300, uppers = bitm_index_upper_len(n), lowers = bitm_index_lower_len(n);
    uint32_t log2 = (uint32_t)(draw() % 12);
    size_t room = bitm_index_samples_len(n, log2);
    const struct bitm_index view = index_over(somewhere(8 * n, 8), n, somewhere(8 * uppers, 8), uppers,
                                              somewhere(8 * lowers, 8), lowers);
    uint64_t *used = somewhere(8, 8), *upper = somewhere(8 * uppers, 8), *lower = somewhere(8 * lowers, 8);
    MUST(bitm_index_build(view.words, n, upper, uppers, lower, lowers, used) == BITM_OK);
    uint32_t *samples = somewhere(4 * room, 4);
    MUST(bitm_index_build_samples(&view, draw() % 2, log2, samples, room, upper, uppers, used) == BITM_OK);
    size_t count = draw() % 50;
    uint64_t *queries = somewhere(8 * count, 8), *out = somewhere(8 * count, 8);
    struct bitm_list_counts *counts = somewhere(sizeof *counts, 8);
    MUST(bitm_index_rank_list(&view, true, queries, count, out, count, counts) == BITM_OK);
    MUST(bitm_index_select_list(&view, true, queries, count, out, count, counts) == BITM_OK);
    MUST(bitm_index_select_list(&view, false, queries, count, out, count, counts) == BITM_OK);
    MUST(bitm_bits_positions(view.words, n, 64 * n, true, draw() % (64 * n + 1), out, count, used) == BITM_OK);
    const uint64_t begin = draw() % (64 * n + 1), to = draw() % (64 * n + 1), most = 64 * n - (begin > to ? begin : to);
    MUST(bitm_bits_copy_range(somewhere(8 * n, 8), n, to, view.words, n, begin, draw() % (most + 1)) == BITM_OK);
    MUST(bitm_bits_xor(somewhere(8 * n, 8), n, view.words, n) == BITM_OK);
    hash_that_overlaps();
    seeded_hash_that_overlaps();
    uint64_t *all = somewhere(ARENA, 8);
    const bool anew = draw() % 16 == 0;
    for (size_t i = 0; anew && i < ARENA / 8; i++) all[i] = draw() % 3 ? draw() >> draw() % 64 : UINT64_MAX;
}

int main(int argc, char **argv)
{
    take_seed(argc, argv);
    struct guarded *const blocks[] = {&items_of, &low_of, &words_of, &upper_of, &lower_of, &arena};
    for (size_t i = 0; i < sizeof blocks / sizeof *blocks; i++) *blocks[i] = guard(ARENA);
    build_meanwhile();
    sample_meanwhile();
    write_meanwhile();
    for (unsigned turn = 0; turn < OVERLAPS; turn++) {
        sequence_that_overlaps();
        index_that_overlaps();
    }
    puts("C host: numbers that change meanwhile and memory that overlaps lead to no read or write outside");
    return 0;
}
