/* A mapped file with a header, words and hostile tables, queried again and again: each answer indexes an array of the
 * caller's that has an item for each bit and one more, and ends where a page begins that may not be touched. So does
 * the mapping. */
#define _GNU_SOURCE
#include "guard.h"

enum { QUERIES = 10000000, KINDS = 14 };
enum { WORDS = 509, LOWERS = 16, BITS = 64 * WORDS };

static unsigned char *mine;

/* Maps the file between pages that may not be touched, so that its end is the end of a page. */
static uint64_t *mapped(int file, size_t bytes, int how)
{
    const struct guarded block = guard(bytes);
    MUST(mmap(block.page, block.room, how, MAP_SHARED | MAP_FIXED, file, 0) == block.page);
    return (uint64_t *)(void *)(block.page + block.room - bytes);
}

/* Words, and tables that are right but for some entries, small, huge, or of anything. */
static void write_hostile(uint64_t *at)
{
    struct bitm_stored s;
    MUST(bitm_stored_index(BITS, 0, 0, 0, 0, &s) == BITM_OK);
    *(struct bitm_stored *)(void *)at = s;
    uint64_t *words = bitm_stored_room(at, s.words), *upper = bitm_stored_room(at, s.upper), ones;
    uint64_t *lower = bitm_stored_room(at, s.lower);
    const uint64_t kind = draw() % 4;
    for (size_t i = 0; i < WORDS; i++) words[i] = kind == 0 ? draw() & draw() & draw() : kind == 1 ? 0 : draw();
    MUST(bitm_index_build(words, WORDS, upper, 1, lower, LOWERS, &ones) == BITM_OK);
    for (size_t i = 0; i < LOWERS; i++)
        if (draw() % 2) lower[i] = draw() % 3 ? draw() >> draw() % 64 : UINT64_MAX - draw() % BITS;
    if (draw() % 2) upper[0] = draw() >> draw() % 64;
}

/* One query of each kind, all statuses of the header's. Answers how many were answered. */
static unsigned query_all(const struct bitm_index *view, const struct bitm_samples *by, uint64_t query)
{
    const struct bitm_index bits = cut_at(*view, BITS - query % 1000);
    unsigned answered = 0;
    for (unsigned kind = 0; kind < KINDS; kind++) {
        uint64_t out = UNTOUCHED;
        const bool one = !(kind & 1);
        const uint32_t status = kind < 2    ? bitm_index_rank(view, one, query, &out)
                                : kind < 4  ? bitm_index_select(view, one, query, &out)
                                : kind < 6  ? sampled_select(view, one, by, query, &out)
                                : kind < 8  ? bitm_index_select(&bits, one, query, &out)
                                : kind < 10 ? bitm_index_rank(&bits, one, query, &out)
                                : kind < 12 ? bitm_index_next(&bits, one, query, &out)
                                            : bitm_index_previous(&bits, one, query, &out);
        MUST(status == BITM_OK || ((status == BITM_NONE || status == BITM_WRONG) && out == UNTOUCHED));
        if (status != BITM_OK) continue;
        mine[out]++;
        const bool is_rank = kind < 2 || kind == 8 || kind == 9;
        MUST(kind < 6 || (is_rank ? query <= bits.bits_len : out < bits.bits_len));
        MUST(is_rank ? out <= query : bit_of(view->words, out) == one);
        MUST(kind < 10 || (kind < 12 ? out >= query : out <= query));
        answered++;
    }
    return answered;
}

int main(int argc, char **argv)
{
    take_seed(argc, argv);
    const struct guarded block = guard(BITS + 1);
    mine = ends_at_the_guard(&block, BITS + 1);
    struct bitm_stored s;
    MUST(bitm_stored_index(BITS, 0, 0, 0, 0, &s) == BITM_OK);
    char name[] = "bitm-XXXXXX";
    int file = mkstemp(name);
    const size_t page = (size_t)sysconf(_SC_PAGESIZE), room = (s.size + page - 1) / page * page;
    MUST(file >= 0 && unlink(name) == 0 && ftruncate(file, (off_t)room) == 0);
    uint64_t *written = mapped(file, s.size, PROT_READ | PROT_WRITE);
    const uint64_t *read = mapped(file, s.size, PROT_READ);
    unsigned long made = 0, answered = 0;
    while (made < QUERIES) {
        write_hostile(written);
        MUST(bitm_stored_read(read, s.size / 8, &s) == BITM_OK && s.words.len == WORDS && s.lower.len == LOWERS);
        const struct bitm_index view = bitm_stored_index_of(read, &s);
        uint32_t samples[40];
        uint64_t start = draw() % 4;
        for (size_t i = 0; i < 40; i++) samples[i] = (uint32_t)(draw() >> draw() % 64);
        const struct bitm_samples by = {samples, 40, &start, 1, 7, 0};
        for (unsigned turn = 0; turn < 1000; turn++, made += KINDS)
            answered += query_all(&view, &by, draw() % 16 ? draw() % (BITS + 2) : draw());
    }
    MUST(answered > made / 8 && close(file) == 0);
    puts("C host: ten million queries of a mapped file with hostile tables, each answer indexes the caller's array");
    return 0;
}
