/* Writes an index with samples and a sequence into files, each part built in its place, maps them and queries them.
 * Then spoils each byte of the headers, cuts the files at each byte, and reads 10,000 headers that were drawn: no
 * view leads outside the bytes, past which stands a page that may not be touched. */
#define _DEFAULT_SOURCE
#include "guard.h"

#include <string.h>

#define WORDS 5000
#define BITS (64 * WORDS - 17)
#define ITEMS 3000
#define LOG2 9
#define ONES "stored.index"
#define NUMBERS "stored.sequence"

static uint32_t *samples_room(uint64_t *file, struct bitm_span part)
{
    return (uint32_t *)(void *)bitm_stored_room(file, part);
}

static void write_file(const char *name, const uint64_t *file, uint64_t size)
{
    FILE *out = fopen(name, "wb");
    MUST(out && fwrite(file, 1, size, out) == size && fclose(out) == 0);
}

/* The file's bytes, mapped; what is past them is a page that may not be touched, or the rest of the last page. */
static const uint64_t *map_file(const char *name, size_t *size)
{
    FILE *in = fopen(name, "rb");
    MUST(in && fseek(in, 0, SEEK_END) == 0);
    *size = (size_t)ftell(in);
    const uint64_t *file = mmap(NULL, *size, PROT_READ, MAP_PRIVATE, fileno(in), 0);
    MUST(file != MAP_FAILED && fclose(in) == 0);
    return file;
}

/* Samples of each kind, built in their place: the header is written again with their number. */
static struct bitm_stored sampled(uint64_t *file, struct bitm_stored s, const struct bitm_index *view)
{
    uint64_t ones, zeros;
    MUST(bitm_index_build_samples(view, true, LOG2, samples_room(file, s.samples), s.samples.len,
                                  bitm_stored_room(file, s.starts), s.starts.len, &ones) == BITM_OK);
    MUST(bitm_stored_index(BITS, LOG2, ones, LOG2, s.samples0.len, &s) == BITM_OK);
    MUST(bitm_index_build_samples(view, false, LOG2, samples_room(file, s.samples0), s.samples0.len,
                                  bitm_stored_room(file, s.starts0), s.starts0.len, &zeros) == BITM_OK);
    MUST(bitm_stored_index(BITS, LOG2, ones, LOG2, zeros, &s) == BITM_OK);
    memcpy(file, &s, sizeof s);
    return s;
}

/* The same index, step by step: its parts built in their place, the header written again with the numbers of samples. */
static struct bitm_stored step_by_step(uint64_t *file, const uint64_t *words, uint64_t bits, uint32_t log, uint32_t log0)
{
    struct bitm_stored s;
    const size_t n = bitm_bits_words_len(bits);
    uint64_t ones = log ? bitm_index_samples_len(n, log) : 0, zeros = log0 ? bitm_index_samples_len(n, log0) : 0, got;
    MUST(bitm_stored_index(bits, log, ones, log0, zeros, &s) == BITM_OK);
    uint64_t *const mine = bitm_stored_room(file, s.words);
    for (uint64_t i = 0; i < bits; i++) bitm_set_bit_at(mine, i, bit_of(words, i));
    MUST(bitm_index_build(mine, n, bitm_stored_room(file, s.upper), s.upper.len, bitm_stored_room(file, s.lower),
                          s.lower.len, &got) == BITM_OK);
    const struct bitm_index view = bitm_stored_index_of(file, &s);
    if (log)
        MUST(bitm_index_build_samples(&view, true, log, samples_room(file, s.samples), ones,
                                      bitm_stored_room(file, s.starts), s.starts.len, &ones) == BITM_OK);
    MUST(bitm_stored_index(bits, log, ones, log0, zeros, &s) == BITM_OK);
    if (log0)
        MUST(bitm_index_build_samples(&view, false, log0, samples_room(file, s.samples0), zeros,
                                      bitm_stored_room(file, s.starts0), s.starts0.len, &zeros) == BITM_OK);
    MUST(bitm_stored_index(bits, log, ones, log0, zeros, &s) == BITM_OK);
    memcpy(file, &s, sizeof s);
    return s;
}

/* A file that is written in one call is that of the steps, byte for byte; what is too short is refused, and nothing is
 * written then. Words, and the file, end at a page that may not be touched. */
static void one_call(const struct guarded *of_words, const struct guarded *of_file, uint64_t bits, uint32_t log,
                     uint32_t log0)
{
    struct bitm_stored room, s, kept;
    struct bitm_index view, none;
    const size_t n = bitm_bits_words_len(bits);
    MUST(bitm_stored_index_room(bits, log, log0, &room) == BITM_OK);
    uint64_t *const words = ends_at_the_guard(of_words, 8 * n), *const file = ends_at_the_guard(of_file, room.size);
    for (size_t i = 0; i < n; i++) words[i] = draw() & draw();
    uint64_t *const want = calloc(room.size / 8, 8), *const before = malloc(room.size);
    MUST(want && before);
    const struct bitm_stored made = step_by_step(want, words, bits, log, log0);
    memset(file, UNTOUCHED, room.size), memcpy(before, file, room.size);
    memset(&s, UNTOUCHED, sizeof s), kept = s;
    MUST(bitm_stored_write_index(words, n, bits, log, log0, file, room.size / 8 - 1, &s) == BITM_BAD_SIZE);
    MUST(bitm_stored_write_index(words, n, 64 * (uint64_t)n + 1, log, log0, file, room.size / 8, &s) == BITM_BAD_SIZE);
    MUST(bitm_stored_write_index(words, n, bits, 6, log0, file, room.size / 8, &s) == BITM_BAD_SIZE);
    MUST(bitm_stored_write_index(words, n, bits, log, 32, file, room.size / 8, &s) == BITM_BAD_SIZE);
    MUST(memcmp(file, before, room.size) == 0 && memcmp(&s, &kept, sizeof s) == 0);
    memset(file, 0, room.size);
    MUST(bitm_stored_write_index(words, n, bits, log, log0, file, room.size / 8, &s) == BITM_OK);
    MUST(memcmp(&s, &made, sizeof s) == 0 && s.size <= room.size && memcmp(file, want, s.size) == 0);
    MUST(bitm_stored_open_index(file, s.size / 8, &view) == BITM_OK && view.bits_len == bits);
    MUST(bitm_index_check(&view) == BITM_OK);
    MUST(!log || bitm_index_check_samples(&view, true) == BITM_OK);
    MUST(!log0 || bitm_index_check_samples(&view, false) == BITM_OK);
    memset(&none, UNTOUCHED, sizeof none), view = none;
    MUST(bitm_stored_open_index(file, s.size / 8 - 1, &view) == BITM_WRONG && memcmp(&view, &none, sizeof view) == 0);
    free(want), free(before);
}

static void one_call_each(void)
{
    const uint32_t logs[] = {0, 7, 12, 31};
    const struct guarded of_words = guard(8 * WORDS), of_file = guard(1 << 17);
    for (uint64_t bits = 0; bits <= 200; bits++)
        for (unsigned i = 0; i < 16; i++) one_call(&of_words, &of_file, bits, logs[i % 4], logs[i / 4]);
    for (unsigned i = 0; i < 16; i++) one_call(&of_words, &of_file, BITS - i, logs[i % 4], logs[i / 4]);
    struct bitm_stored s, kept;
    memset(&s, UNTOUCHED, sizeof s), kept = s;
    MUST(bitm_stored_index_room(UINT64_MAX - 62, 0, 0, &s) == BITM_BAD_SIZE);
    MUST(bitm_stored_index_room(64, 6, 0, &s) == BITM_BAD_SIZE && bitm_stored_index_room(64, 0, 32, &s) == BITM_BAD_SIZE);
    MUST(bitm_stored_index_room(64, UINT32_MAX, 0, &s) == BITM_BAD_SIZE && memcmp(&s, &kept, sizeof s) == 0);
    MUST(bitm_stored_index_room(UINT64_MAX - 63, 7, 7, &s) == BITM_OK && s.words.len == ((uint64_t)1 << 58) - 1);
}

static void write_index(void)
{
    struct bitm_stored s;
    uint64_t most = bitm_index_samples_len(WORDS, LOG2), ones;
    MUST(bitm_stored_index(BITS, LOG2, most, LOG2, most, &s) == BITM_OK && sizeof s == 192 && s.size % 64 == 0);
    MUST(s.words.at == 192 && s.words.len == WORDS && s.upper.len == bitm_index_upper_len(WORDS));
    uint64_t *file = aligned_alloc(64, s.size);
    MUST(file);
    memset(file, 0, s.size);
    uint64_t *words = bitm_stored_room(file, s.words);
    for (size_t i = 0; i < WORDS; i++)
        words[i] = draw() & draw();
    MUST(bitm_bits_clear_from(words, WORDS, BITS) == BITM_OK);
    MUST(bitm_index_build(words, WORDS, bitm_stored_room(file, s.upper), s.upper.len, bitm_stored_room(file, s.lower),
                          s.lower.len, &ones) == BITM_OK);
    struct bitm_index view = bitm_stored_index_of(file, &s);
    s = sampled(file, s, &view);
    write_file(ONES, file, s.size);
    free(file);
}

static void write_sequence(void)
{
    uint64_t items[ITEMS], width;
    struct bitm_sequence_lens lens;
    struct bitm_stored s;
    for (size_t i = 0; i < ITEMS; i++)
        items[i] = 1000 * i + draw() % 1000;
    MUST(bitm_sequence_sizes(ITEMS, items[ITEMS - 1], &lens) == BITM_OK);
    MUST(bitm_stored_sequence(ITEMS, &lens, &s) == BITM_OK && s.width == lens.width && s.samples.len == 0);
    uint64_t *file = aligned_alloc(64, s.size);
    MUST(file);
    memset(file, 0, s.size);
    MUST(bitm_sequence_build(items, ITEMS, bitm_stored_room(file, s.low), s.low.len, bitm_stored_room(file, s.words),
                             s.words.len, bitm_stored_room(file, s.upper), s.upper.len, bitm_stored_room(file, s.lower),
                             s.lower.len, &width) == BITM_OK);
    memcpy(file, &s, sizeof s);
    write_file(NUMBERS, file, s.size);
    for (size_t i = 0; i < ITEMS; i++) {
        uint64_t got;
        struct bitm_sequence view = bitm_stored_sequence_of(file, &s);
        MUST(bitm_sequence_get(&view, i, &got) == BITM_OK && got == items[i]);
    }
    free(file);
}

static void query_index(const uint64_t *file, size_t size)
{
    struct bitm_stored s;
    uint64_t ones = 0, zeros = 0, position;
    MUST(bitm_stored_read(file, size / 8, &s) == BITM_OK && s.kind == BITM_STORED_INDEX);
    MUST(s.len == BITS && s.size == size && memcmp(&s.mark, "bitmtab\2", 8) == 0);
    struct bitm_index index = bitm_stored_index_of(file, &s), turned = index;
    MUST(index.bits_len == BITS && index.ones.log2 == LOG2 && index.zeros.log2 == LOG2);
    MUST(index.reserved[0] == 0 && index.reserved[1] == 0 && index.ones.reserved == 0 && index.zeros.reserved == 0);
    MUST(bitm_index_check(&index) == BITM_OK && bitm_index_check_samples(&index, true) == BITM_OK);
    MUST(bitm_index_check_samples(&index, false) == BITM_OK);
    turned.ones = index.zeros, turned.zeros = index.ones;
    MUST(bitm_index_check_samples(&turned, false) == BITM_WRONG &&
         bitm_index_check_samples(&turned, true) == BITM_WRONG);
    for (uint64_t i = 0; i < BITS; i++) {
        if (bit_of(index.words, i))
            MUST(bitm_index_select(&index, true, ones++, &position) == BITM_OK && position == i);
        else
            MUST(bitm_index_select(&index, false, zeros++, &position) == BITM_OK && position == i);
    }
    MUST(bitm_index_select(&index, true, ones, &position) == BITM_NONE);
}

/* The counts and positions of both kinds, as the bits themselves say: some positions at a time, into room past which
 * nothing is written. */
static void list_bits(const struct bitm_index *bits)
{
    uint64_t out[40], written, ones = 0, got;
    for (uint64_t kind = 0; kind < 2; kind++)
        for (uint64_t from = 0, next = 0, done = 0; !done; from = next) {
            size_t room = 1 + draw() % 39;
            for (size_t i = 0; i < 40; i++)
                out[i] = UNTOUCHED;
            MUST(bitm_index_positions(bits, kind, from, out, room, &written) == BITM_OK && written <= room);
            for (size_t i = 0; i < written; i++, next++, ones += kind) {
                while (next < bits->bits_len && bit_of(bits->words, next) != kind)
                    next++;
                MUST(out[i] == next && next < bits->bits_len);
            }
            for (size_t i = written; i < 40; i++)
                MUST(out[i] == UNTOUCHED);
            done = written < room;
            while (done && next < bits->bits_len)
                MUST(bit_of(bits->words, next++) != kind);
        }
    MUST(bitm_index_count(bits, true, &got) == BITM_OK && got == ones);
    MUST(bitm_index_count(bits, false, &got) == BITM_OK && got == bits->bits_len - ones);
}

/* Bits past the end, 1 bits or 0 bits, are neither counted nor found. */
static void query_bits(const uint64_t *file, size_t size)
{
    struct bitm_stored s;
    uint64_t ones = 0, got, kept = UNTOUCHED, past[2] = {UINT64_MAX, 0};
    MUST(bitm_stored_read(file, size / 8, &s) == BITM_OK);
    struct bitm_index bits = bitm_stored_index_of(file, &s);
    for (uint64_t i = 0; i < BITS; i++) {
        if (i % 61 == 0)
            MUST(bitm_index_rank(&bits, true, i, &got) == BITM_OK && got == ones);
        if (bit_of(bits.words, i))
            MUST(bitm_index_select(&bits, true, ones++, &got) == BITM_OK && got == i);
        else
            MUST(bitm_index_select(&bits, false, i - ones, &got) == BITM_OK && got == i);
    }
    MUST(bitm_index_rank(&bits, true, BITS, &got) == BITM_OK && got == ones);
    MUST(bitm_index_rank(&bits, false, BITS, &got) == BITM_OK && got == BITS - ones);
    MUST(bitm_index_rank(&bits, true, BITS + 1, &kept) == BITM_NONE &&
         bitm_index_rank(&bits, false, BITS + 1, &kept) == BITM_NONE);
    const struct bitm_index whole = cut_at(bits, 64 * WORDS);
    MUST(bitm_index_select(&whole, false, BITS - ones, &got) == BITM_OK && got == BITS);
    MUST(bitm_index_select(&bits, false, BITS - ones, &kept) == BITM_NONE &&
         bitm_index_select(&bits, true, ones, &kept) == BITM_NONE);
    list_bits(&bits);
    bits.bits_len = 64 * WORDS + 1;
    MUST(bitm_index_rank(&bits, true, 0, &kept) == BITM_BAD_SIZE &&
         bitm_index_select(&bits, true, 0, &kept) == BITM_BAD_SIZE);
    MUST(bitm_index_count(&bits, true, &kept) == BITM_BAD_SIZE);
    MUST(bitm_index_positions(&bits, true, 0, past, 1, &kept) == BITM_BAD_SIZE && past[0] == UINT64_MAX);
    MUST(bitm_index_positions(&bits, false, 0, past, 1, &kept) == BITM_BAD_SIZE && past[0] == UINT64_MAX);

    uint64_t upper, lower;
    MUST(bitm_index_build(past, 2, &upper, 1, &lower, 1, &got) == BITM_OK);
    for (uint64_t len = 0; len <= 128; len++) {
        struct bitm_index cut = cut_at(index_over(past, 2, &upper, 1, &lower, 1), len);
        uint64_t all = len < 64 ? len : 64;
        MUST(bitm_index_rank(&cut, true, len, &got) == BITM_OK && got == all);
        list_bits(&cut);
        MUST(bitm_index_select(&cut, true, all, &kept) == BITM_NONE &&
             bitm_index_select(&cut, false, len - all, &kept) == BITM_NONE);
        MUST(all == 0 || (bitm_index_select(&cut, true, all - 1, &got) == BITM_OK && got == all - 1));
    }
    MUST(kept == UNTOUCHED);
}

/* Samples of which one number is another, or one is missing. */
static void spoil_samples(const uint64_t *file, size_t size)
{
    struct bitm_stored s;
    MUST(bitm_stored_read(file, size / 8, &s) == BITM_OK);
    struct bitm_index view = bitm_stored_index_of(file, &s);
    struct bitm_samples samples = view.ones;
    uint32_t *numbers = malloc(4 * samples.samples_len);
    uint64_t start = 1;
    MUST(numbers);
    memcpy(numbers, samples.samples, 4 * samples.samples_len);
    samples.samples = numbers;
    for (size_t i = 0; i < samples.samples_len; i++) {
        numbers[i]++;
        MUST(check_samples(&view, true, &samples) == BITM_WRONG);
        numbers[i]--;
    }
    MUST(check_samples(&view, true, &samples) == BITM_OK);
    samples.samples_len--;
    MUST(check_samples(&view, true, &samples) == BITM_WRONG);
    samples.samples_len++;
    samples.starts = &start;
    MUST(check_samples(&view, true, &samples) == BITM_WRONG);
    samples.starts_len = 0;
    MUST(check_samples(&view, true, &samples) == BITM_WRONG);
    free(numbers);
}

/* A header of which one byte is another, or whose file is shorter, is none. */
static void spoil(const uint64_t *file, size_t size)
{
    struct bitm_stored s, read;
    memset(&read, UNTOUCHED, sizeof read);
    s = read;
    uint64_t *copy = malloc(size);
    MUST(copy);
    memcpy(copy, file, size);
    for (size_t i = 0; i < 192; i++)
        for (unsigned less = 1; less < 256; less++) {
            ((unsigned char *)copy)[i] ^= (unsigned char)less;
            MUST(bitm_stored_read(copy, size / 8, &read) == BITM_WRONG && memcmp(&read, &s, sizeof s) == 0);
            ((unsigned char *)copy)[i] ^= (unsigned char)less;
        }
    for (size_t words = 0; words < size / 8; words++)
        MUST(bitm_stored_read(copy, words, &read) == BITM_WRONG);
    MUST(bitm_stored_read(NULL, 0, &read) == BITM_WRONG && memcmp(&read, &s, sizeof s) == 0);
    for (size_t i = 0; i < 24; i++) { /* the other byte order */
        uint64_t turned = 0;
        for (unsigned b = 0; b < 8; b++)
            turned |= (file[i] >> 8 * b & 255) << (56 - 8 * b);
        copy[i] = turned;
    }
    MUST(bitm_stored_read(copy, size / 8, &read) == BITM_WRONG);
    free(copy);
}

static uint64_t little(void) { return draw() >> draw() % 64; }

/* Lengths that were drawn: where a header is written for them, its parts lie inside the bytes that it says, and a
 * file of that size is read again, and queried where it is short. */
static unsigned drawn(void)
{
    struct guarded block = guard(1 << 16);
    unsigned read = 0;
    for (unsigned i = 0; i < 10000; i++) {
        struct bitm_stored s, again;
        uint32_t log = draw() % 2 ? 0 : (uint32_t)(draw() % 34), log0 = draw() % 2 ? 0 : (uint32_t)(draw() % 34);
        struct bitm_sequence_lens lens = {draw() % 66, little() % 64, little() % 64, draw() % 2, draw() % 3};
        uint64_t len = little() % (draw() % 4 ? 1 << 16 : UINT64_MAX);
        if (draw() % 4)
            (void)!bitm_sequence_sizes(len, len ? little() : 0, &lens);
        uint64_t ones = log ? little() % 9 : 0, zeros = log0 ? draw() % 9 : 0;
        uint32_t status = draw() % 2 ? bitm_stored_index(len, log, ones, log0, zeros, &s)
                                     : bitm_stored_sequence(len, &lens, &s);
        if (status != BITM_OK || s.size > block.room)
            continue;
        uint64_t *file = ends_at_the_guard(&block, s.size);
        for (size_t k = 0; k < s.size / 8; k++)
            file[k] = draw() >> draw() % 64;
        memcpy(file, &s, sizeof s);
        if (draw() % 4 == 0)
            file[draw() % 24] = little();
        if (bitm_stored_read(file, s.size / 8, &again) != BITM_OK)
            continue;
        read++;
        struct bitm_index view = bitm_stored_index_of(file, &again);
        if (again.kind == BITM_STORED_SEQUENCE)
            view.bits_len = 64 * view.words_len; /* the words of a sequence as an index */
                struct bitm_sequence sequence = bitm_stored_sequence_of(file, &again);
        uint64_t got;
        MUST(bitm_index_check(&view) != BITM_BAD_SIZE && bitm_index_check_samples(&view, true) != BITM_BAD_SIZE);
        MUST(bitm_index_check_samples(&view, false) != BITM_BAD_SIZE);
        MUST(again.kind == BITM_STORED_INDEX || bitm_sequence_check(&sequence) != BITM_BAD_SIZE);
        for (unsigned k = 0; k < 8; k++) {
            MUST(bitm_index_rank(&view, true, little(), &got) != BITM_BAD_SIZE &&
                 bitm_index_select(&view, false, little(), &got) != BITM_BAD_SIZE);
            MUST(bitm_index_select(&view, true, little(), &got) != BITM_BAD_SIZE);
            MUST(again.kind == BITM_STORED_INDEX || bitm_sequence_get(&sequence, little(), &got) != BITM_BAD_SIZE);
        }
    }
    return read;
}

int main(int argc, char **argv)
{
    size_t size, length;
    struct bitm_stored s;
    take_seed(argc, argv);
    one_call_each();
    write_index();
    write_sequence();
    const uint64_t *index = map_file(ONES, &size), *sequence = map_file(NUMBERS, &length);
    query_index(index, size);
    query_bits(index, size);
    spoil_samples(index, size);
    spoil(index, size);
    MUST(bitm_stored_read(sequence, length / 8, &s) == BITM_OK && s.kind == BITM_STORED_SEQUENCE && s.len == ITEMS);
    struct bitm_sequence view = bitm_stored_sequence_of(sequence, &s);
    MUST(bitm_sequence_check(&view) == BITM_OK);
    struct bitm_index none;
    MUST(bitm_stored_open_index(sequence, length / 8, &none) == BITM_WRONG);
    spoil(sequence, length);
    unsigned read = drawn();
    MUST(read > 1000);
    MUST(remove(ONES) == 0 && remove(NUMBERS) == 0);
    printf("stored: an index of %zu bytes and a sequence of %zu, each byte of their headers spoilt, %u drawn headers "
           "read\n",
           size, length, read);
    return 0;
}
