/* Headers of files, of the input or made and then changed, with a checksum that fits; and the parts of a file whose
 * header is right and whose contents are anything. */
#include "queries.h"

enum { HEADER = sizeof(struct bitm_stored) / 8 };

/* Whether the header is one that the library writes: what it writes of the same numbers are the same bytes. */
static bool is_written(const struct bitm_stored *s)
{
    struct bitm_stored again;
    const struct bitm_sequence_lens lens = {s->width, s->low.len, s->words.len, s->upper.len, s->lower.len};
    const uint32_t status = s->kind == BITM_STORED_SEQUENCE
                                ? bitm_stored_sequence(s->len, &lens, &again)
                                : bitm_stored_index(s->len, (uint32_t)s->ones_log2, s->samples.len, (uint32_t)s->zeros_log2,
                                                    s->samples0.len, &again);
    return status == BITM_OK && memcmp(&again, s, sizeof again) == 0;
}

static void query_file(const uint64_t *file, size_t len, struct input *from)
{
    struct bitm_stored s, header;
    const uint32_t status = bitm_stored_read(file, len, &s);
    answered(40, status, s.kind);
    MUST(status == BITM_OK || status == BITM_WRONG);
    if (len >= HEADER) memcpy(&header, file, sizeof header);
    MUST((status == BITM_OK) == (len >= HEADER && is_written(&header) && header.size / 8 <= len));
    if (status != BITM_OK) return;
    MUST(memcmp(&s, &header, sizeof s) == 0);
    if (s.kind == BITM_STORED_INDEX) {
        const struct bitm_index x = bitm_stored_index_of(file, &s);
        MUST(!bitm_index_fault(&x));
        query_index(&x, from);
    } else {
        const struct bitm_sequence x = bitm_stored_sequence_of(file, &s);
        MUST(!bitm_sequence_fault(&x));
        query_sequence(&x, from);
    }
}

/* A right header of lengths of the input: whether it fits into the room. */
static bool made(struct input *from, struct bitm_stored *to)
{
    if (take(from, 1) % 2) {
        struct bitm_sequence_lens lens;
        const uint64_t len = take_below(from, 900), largest = len ? take(from, 8) >> take(from, 1) % 64 : 0;
        MUST(bitm_sequence_sizes(len, largest, &lens) == BITM_OK);
        MUST(bitm_stored_sequence(len, &lens, to) == BITM_OK && is_written(to));
        return to->size <= ROOM;
    }
    const uint64_t bits = take_number(from, 20000), words = bitm_bits_words_len(bits);
    const uint32_t ones = (uint32_t)take(from, 1) % 33, zeros = (uint32_t)take(from, 1) % 33;
    const uint64_t some = take_below(from, 2 + (ones ? bitm_index_samples_len(words, ones) : 0));
    if (bitm_stored_index(bits, ones, some, zeros, 0, to) != BITM_OK) return false;
    MUST(is_written(to) && to->words.len == words && to->samples.len == some);
    return to->size <= ROOM;
}

static void change(struct input *from, uint64_t *header)
{
    spoil(from, header, HEADER);
    if (take(from, 1) % 4 == 0) return;
    uint64_t sum = 0; /* the checksum that fits */
    for (int i = 0; i < HEADER - 1; i++) sum = sum * 0x9e3779b97f4a7c15u + header[i];
    header[HEADER - 1] = sum;
}

int LLVMFuzzerTestOneInput(const uint8_t *data, size_t size)
{
    struct input from = {data, size};
    struct bitm_stored header;
    const uint64_t how = take(&from, 1);
    if (how % 4 == 0) { /* the input is the file */
        const size_t len = from.left / 8 * 8 < ROOM ? from.left / 8 : ROOM / 8;
        uint64_t *const file = numbers_of(0, len);
        take_bytes(&from, file, 8 * len);
        if (len >= HEADER) change(&from, file);
        query_file(file, len, &from);
        return 0;
    }
    if (!made(&from, &header)) return 0;
    const size_t len = header.size / 8 - (how == 1), head = len < HEADER ? len : HEADER; /* cut by a word, or whole */
    uint64_t *const file = numbers_of(0, len);
    memcpy(file, &header, 8 * head);
    if (how % 4 == 1 && head == HEADER) change(&from, file);
    const uint64_t body = take_below(&from, len - head + 1);
    take_bytes(&from, file + head, 8 * body), memset(file + head + body, 0, 8 * (len - head - body));
    query_file(file, len, &from);
    return 0;
}
