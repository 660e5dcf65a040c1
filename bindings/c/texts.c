/* Indexes of texts in blocks, of numbers and of bytes: the answers beside a plain comparison at each position; blocks
 * of which each byte is changed, each prefix, and blocks whose words hold random numbers. */
#define _DEFAULT_SOURCE
#include "plain_texts.h"

/* The block of the text, which ends at the guard. */
static uint64_t *built(const struct plain *plain, size_t *words)
{
    static uint64_t room[ROOM];
    uint64_t *out;
    uint32_t status;
    *words = write_block(plain, plain->len % 3, room);
    ANSWER(bitm_text_size(plain->len, plain->width, plain->alphabet, plain->step, out));
    MUST(status == BITM_OK && *out + (plain->is_of_bytes ? 8 : 0) == *words);
    return memcpy(placed(OF_BLOCK, 8 * *words), room, 8 * *words);
}

/* ---- queries */

/* The bytes of a pattern where each of its letters stands for one. */
static const uint8_t *as_bytes(const struct plain *plain, const uint64_t *pattern, size_t len)
{
    static uint8_t bytes[PATTERN];
    for (size_t i = 0; i < len; i++) {
        const unsigned byte = byte_of(plain, pattern[i]);
        if (byte > 255) return NULL;
        bytes[i] = (uint8_t)byte;
    }
    return bytes;
}

/* A pattern at the guard, of bytes or of letters. */
static void *pattern_at(const void *pattern, size_t size)
{
    void *const own = placed(OF_PATTERN, size);
    if (size > 0) memcpy(own, pattern, size);
    return own;
}

/* Positions from the `from`-th on, in the order of their suffixes, and no item after them. */
static void located_as(const struct plain *plain, const struct bitm_text *text, const uint64_t *pattern, size_t len,
                       size_t from, size_t room)
{
    static size_t positions[LETTERS + 1];
    const uint8_t *const bytes = as_bytes(plain, pattern, len);
    uint64_t *out;
    uint32_t status;
    sort_suffixes(plain, positions);
    for (int is_bytes = 0; is_bytes < (bytes ? 2 : 1); is_bytes++) {
        uint64_t *const list = untouched_at(OF_LIST, 8 * room);
        size_t found = 0, written = 0;
        if (is_bytes)
            ANSWER(bitm_text_locate_bytes(text, pattern_at(bytes, len), len, from, list, room, out));
        else
            ANSWER(bitm_text_locate(text, pattern_at(pattern, 8 * len), len, from, list, room, out));
        MUST(status == BITM_OK);
        for (size_t row = 0; row <= plain->len; row++)
            if (plain_stands(plain, pattern, len, positions[row]) && found++ >= from && written < room)
                MUST(list[written++] == positions[row]);
        MUST(*out == written && is_untouched(list + written, 8 * (room - written)));
    }
}

static void pattern_as(const struct plain *plain, const struct bitm_text *text, const uint64_t *pattern, size_t len)
{
    const size_t count = plain_count(plain, pattern, len);
    const uint8_t *const bytes = as_bytes(plain, pattern, len);
    uint64_t *out;
    uint32_t status;
    ANSWER(bitm_text_count(text, pattern_at(pattern, 8 * len), len, out));
    MUST(status == BITM_OK && *out == count);
    if (bytes) {
        ANSWER(bitm_text_count_bytes(text, pattern_at(bytes, len), len, out));
        MUST(status == BITM_OK && *out == count);
    }
    located_as(plain, text, pattern, len, 0, LIST);
    located_as(plain, text, pattern, len, draw() % 4, draw() % 8);
    located_as(plain, text, pattern, len, draw() % 2 ? count : SIZE_MAX, LIST);
}

static void part_as(const struct plain *plain, const struct bitm_text *text, size_t from, size_t len)
{
    uint64_t *const list = untouched_at(OF_LIST, 8 * len);
    const bool is_there = from <= plain->len && len <= plain->len - from;
    MUST(bitm_text_extract(text, from, list, len) == (is_there ? BITM_OK : BITM_NONE));
    MUST(is_there ? len == 0 || memcmp(list, plain->letters + from, 8 * len) == 0 : is_untouched(list, 8 * len));
    uint8_t *const bytes = untouched_at(OF_LIST, len);
    const uint32_t status = bitm_text_extract_bytes(text, from, bytes, len);
    MUST(status == (plain->width > 8 && !plain->is_of_bytes ? BITM_BAD_SIZE : is_there ? BITM_OK : BITM_NONE));
    if (status != BITM_OK) MUST(is_untouched(bytes, len));
    for (size_t i = 0; status == BITM_OK && i < len; i++) MUST(bytes[i] == byte_of(plain, plain->letters[from + i]));
}

static void answers_as(const struct plain *plain, const struct bitm_text *text)
{
    uint64_t pattern[PATTERN], *out;
    uint32_t status;
    ANSWER(bitm_text_len(text, out));
    MUST(status == BITM_OK && *out == plain->len);
    pattern_as(plain, text, pattern, 0);
    for (size_t i = 0; i < 40; i++) {
        const size_t len = 1 + draw() % PATTERN, at = plain->len > 0 ? draw() % plain->len : 0;
        for (size_t k = 0; k < len; k++)
            pattern[k] = at + k < plain->len ? plain->letters[at + k] : draw() % plain->alphabet;
        if (i % 4 == 0) pattern[draw() % len] = i % 8 ? plain->alphabet + draw() % 3 : draw();
        pattern_as(plain, text, pattern, len);
        part_as(plain, text, at, draw() % LIST);
        part_as(plain, text, plain->len - draw() % (plain->len + 1), draw() % 4);
    }
    part_as(plain, text, 0, plain->len);
    for (size_t side = 0; side < 4; side++) {
        part_as(plain, text, plain->len + side, 0);
        part_as(plain, text, SIZE_MAX - side, side);
        part_as(plain, text, side, plain->len);
    }
}

/* The same by bytes. */
static void bytes_within(const struct bitm_text *text, const uint8_t *pattern, size_t len, size_t from, size_t room)
{
    const uint64_t letters = text->letters.len;
    const bool is_there = from <= letters && room <= letters - from;
    uint64_t *out, *const list = untouched_at(OF_LIST, 8 * LIST);
    uint32_t status;
    ANSWER(bitm_text_count_bytes(text, pattern_at(pattern, len), len, out));
    MUST(status == BITM_OK ? *out <= letters + 1 : status == BITM_WRONG);
    ANSWER(bitm_text_locate_bytes(text, pattern_at(pattern, len), len, 0, list, LIST, out));
    MUST(status == BITM_OK ? *out <= LIST : status == BITM_WRONG);
    for (size_t k = 0; status == BITM_OK && k < *out; k++) MUST(list[k] <= letters);
    uint8_t *const part = untouched_at(OF_LIST, room);
    status = bitm_text_extract_bytes(text, from, part, room);
    if (text->letters.width > 8 && text->used_len == 0)
        MUST(status == BITM_BAD_SIZE);
    else
        MUST(is_there ? status == BITM_OK || status == BITM_WRONG : status == BITM_NONE);
    MUST(status == BITM_OK || status == BITM_WRONG || is_untouched(part, room));
}

/* Whatever the block holds: every call returns, within its range. */
static void answers_within(const void *opened)
{
    const struct bitm_text *const text = opened;
    uint64_t pattern[PATTERN], *out;
    const uint64_t len = text->letters.len, width = text->letters.width;
    uint32_t status;
    for (size_t i = 0; i < 6; i++) {
        for (size_t k = 0; k < PATTERN; k++) pattern[k] = draw() % (i == 5 ? UINT64_MAX : 4);
        uint64_t *const own = pattern_at(pattern, 8 * i);
        uint64_t *const list = untouched_at(OF_LIST, 8 * LIST);
        ANSWER(bitm_text_count(text, own, i, out));
        MUST(status == BITM_OK ? *out <= len + 1 : status == BITM_WRONG);
        const bool is_wrong = status == BITM_WRONG;
        ANSWER(bitm_text_locate(text, own, i, draw() % 3, list, LIST, out));
        MUST(status == BITM_OK ? *out <= LIST : status == BITM_WRONG);
        MUST(!is_wrong || status == BITM_WRONG);
        for (size_t k = 0; status == BITM_OK && k < *out; k++) MUST(list[k] <= len);
        const size_t from = draw() % (len + 2), room = draw() % LIST;
        uint64_t *const part = untouched_at(OF_LIST, 8 * room);
        status = bitm_text_extract(text, from, part, room);
        MUST(from <= len && room <= len - from ? status == BITM_OK || status == BITM_WRONG : status == BITM_NONE);
        MUST(status != BITM_NONE || is_untouched(part, 8 * room));
        for (size_t k = 0; status == BITM_OK && width < 64 && k < room; k++) MUST(part[k] >> width == 0);
        uint8_t bytes[PATTERN];
        for (size_t k = 0; k < PATTERN; k++) bytes[k] = (uint8_t)pattern[k];
        bytes_within(text, bytes, i, from, room);
    }
}

/* The struct has the numbers of the header, and points to the sections of the directory. */
static void is_over(const uint64_t *block, const struct bitm_text *text)
{
    const struct bitm_matrix *const l = &text->letters, *const m = &text->marks;
    const uint64_t *const starts[SECTIONS] = {l->words,     l->upper,      l->lower,  l->ones,  l->zeros,
                                              text->starts, m->words,      m->upper,  m->lower, m->ones,
                                              m->zeros,     text->samples, text->used};
    const size_t lens[SECTIONS] = {l->words_len,     l->upper_len,      l->lower_len,  l->ones_len,  l->zeros_len,
                                   text->starts_len, m->words_len,      m->upper_len,  m->lower_len, m->ones_len,
                                   m->zeros_len,     text->samples_len, text->used_len};
    MUST(l->len == block[3] && l->width == block[4] && m->len == block[3] + 1 && m->width == 1);
    MUST(text->first == block[8] && text->step == block[9]);
    for (size_t i = 0; i < SECTIONS; i++)
        MUST(starts[i] == block + block[17 + 4 * i] / 8 && lens[i] == block[18 + 4 * i]);
    MUST(l->quarters_len == 0 && m->quarters_len == 0 && text->reserved[0] == 0 && text->reserved[1] == 0);
}

static void drawn_texts(void)
{
    static const size_t of_alphabet[6] = {1, 2, 4, 26, 250, 300};
    static const uint32_t of_width[6] = {1, 1, 2, 8, 8, 9}, of_step[5] = {1, 3, 8, 32, UINT32_MAX};
    static struct plain plain;
    for (unsigned i = 0; i < 90; i++) {
        size_t words;
        draw_text(&plain, i < 30 ? i / 6 : draw() % LETTERS, of_alphabet[i % 6], of_width[i % 6], of_step[i % 5]);
        if (i % 18 == 5) plain.width = 64;
        if (i % 4 == 1 && plain.alphabet <= 250) use_bytes(&plain, i % 6, plain.alphabet <= 26 ? 9 : 1);
        const uint64_t *const block = built(&plain, &words);
        struct bitm_text *const text = placed(OF_STRUCT, sizeof *text);
        *text = (struct bitm_text){0};
        MUST(bitm_text_open(block, words, text) == BITM_OK && bitm_text_check(block, words) == BITM_OK);
        is_over(block, text);
        answers_as(&plain, text);
    }
}

/* Numbers of which there is no text. */
static void no_texts(void)
{
    const size_t most = UINT32_MAX - 1;
    for (size_t i = 0; i < 6; i++) {
        uint64_t *out;
        uint32_t status;
        const size_t len = i == 1 ? most + 1 : i == 2 ? SIZE_MAX : most, alphabet = i == 5 ? (size_t)1 << 58 : 1;
        ANSWER(bitm_text_size(len, i == 3 ? 0 : i == 4 ? 256 + 8 : 8, alphabet, 1, out));
        MUST(status == (i == 0 ? BITM_OK : BITM_BAD_SIZE));
        ANSWER(bitm_text_size(6, i == 0 ? 65 : i == 1 ? UINT32_MAX : 8, 256, i < 2 ? 1 : 0, out));
        MUST(status == BITM_BAD_SIZE);
    }
}

static uint32_t open_block(const uint64_t *block, size_t words, void *opened)
{
    return bitm_text_open(block, words, opened);
}

static const struct kind of_text = {HEAD, sizeof(struct bitm_text), bitm_text_check, open_block, answers_within};

/* And the block of a matrix. */
static void changed_blocks(bool is_of_bytes)
{
    static struct plain plain;
    size_t words;
    draw_text(&plain, 20, 4, 2, 4);
    if (is_of_bytes) use_bytes(&plain, 'a', 5);
    uint64_t *const block = built(&plain, &words);
    changed_bytes(&of_text, block, words, at_the_end ? 5 : 17);
    cut_off(&of_text, block, words);
    uint64_t scratch[6], of_matrix;
    MUST(bitm_matrix_size(3, 2, false, false, &of_matrix) == BITM_OK);
    MUST(bitm_matrix_build(plain.letters, 3, 2, false, false, scratch, 6, block, of_matrix) == BITM_OK);
    MUST(refuses(&of_text, block, of_matrix));
}

/* Words that are not those of a text, of which each checksum is right; and random words alone. */
static void random_blocks(void)
{
    static struct plain plain;
    for (size_t turn = 0; turn < 300; turn++) {
        size_t words;
        draw_text(&plain, 1 + draw() % 200, 1 + draw() % 30, 5, 1 + (uint32_t)turn % 40);
        if (turn % 3 == 1) use_bytes(&plain, 0, 8);
        uint64_t *const block = built(&plain, &words);
        const uint64_t share = turn % 8;
        for (size_t at = HEAD; at < words; at++)
            if (draw() % 8 >= share) block[at] = share % 2 ? draw() : draw() & draw() & draw() & 0xffffffff0000003f;
        for (size_t i = 0; i < SECTIONS; i++) {
            uint64_t *const entry = block + 16 + 4 * i;
            entry[3] = checksum(block + entry[1] / 8, entry[2]);
        }
        block[8] = draw() % (plain.len + 1), block[9] = 1 + draw() % 50;
        seal(block);
        MUST(opens_to_queries(&of_text, block, words) && bitm_text_check(block, words) == BITM_WRONG);
        draw_words(block, words);
        MUST(refuses(&of_text, block, words));
    }
}

/* A header whose numbers are those of no text, though its checksums are right. */
static void other_headers(void)
{
    static struct plain plain;
    struct bitm_text text;
    size_t words;
    draw_text(&plain, 50, 4, 2, 4);
    use_bytes(&plain, 'a', 5);
    for (size_t i = 0; i < 10; i++) {
        uint64_t *const block = built(&plain, &words);
        if (i == 0) block[1] = 6;
        if (i == 1) block[3] += 64;
        if (i == 2) block[4]++;
        if (i == 3) block[8] = 51;
        if (i == 4) block[9] = 0;
        if (i == 5) block[9] = (uint64_t)1 << 32;
        if (i == 6) block[3] = UINT64_MAX;
        if (i == 7) block[4] = 258;
        if (i == 8) block[18 + 4 * 12] = 1; /* of a section of that length the same words */
        if (i == 9) block[18 + 4 * 12] = 0, block[2] -= 64, words -= 8;
        seal(block);
        if (i == 9)
            MUST(opens(&of_text, block, words, &text) && text.used_len == 0); /* of numbers */
        else
            MUST(refuses(&of_text, block, words));
    }
}

/* Structs whose lengths are not those of a text: no call writes anything. */
static void other_structs(void)
{
    static struct plain plain;
    const uint64_t pattern = 1;
    const uint8_t byte = 1;
    size_t words;
    uint64_t *out;
    uint32_t status;
    draw_text(&plain, 200, 4, 2, 4);
    const uint64_t *const block = built(&plain, &words);
    struct bitm_text text = {0};
    MUST(bitm_text_open(block, words, &text) == BITM_OK);
    for (size_t i = 0; i < 20; i++) {
        struct bitm_text bad = text;
        if (i == 0) bad.letters.len = SIZE_MAX;
        if (i == 1) bad.letters.len++;
        if (i == 2) bad.letters.width = 65;
        if (i == 3) bad.letters.width += 256;
        if (i == 4) bad.letters.words_len = 0;
        if (i == 5) bad.letters.upper_len++;
        if (i == 6) bad.letters.lower_len--;
        if (i == 7) bad.letters.ones_len--;
        if (i == 8) bad.letters.zeros_len++;
        if (i == 9) bad.marks.len--;
        if (i == 10) bad.marks.width = 2;
        if (i == 11) bad.marks.lower_len = 0;
        if (i == 12) bad.first = 201;
        if (i == 13) bad.step = 0;
        if (i == 14) bad.step = (uint64_t)1 << 32;
        if (i == 15) bad.step += (uint64_t)1 << 32;
        if (i == 16) bad.marks = bad.letters;
        if (i >= 17) bad.used = text.starts, bad.used_len = (const size_t[3]){1, 3, 5}[i - 17];
        uint64_t *const list = untouched_at(OF_LIST, 8 * LIST);
        ANSWER(bitm_text_len(&bad, out));
        MUST(status == BITM_BAD_SIZE);
        ANSWER(bitm_text_count(&bad, &pattern, 1, out));
        MUST(status == BITM_BAD_SIZE);
        ANSWER(bitm_text_count_bytes(&bad, &byte, 1, out));
        MUST(status == BITM_BAD_SIZE);
        ANSWER(bitm_text_locate(&bad, &pattern, 1, 0, list, LIST, out));
        MUST(status == BITM_BAD_SIZE);
        ANSWER(bitm_text_locate_bytes(&bad, &byte, 1, 0, list, LIST, out));
        MUST(status == BITM_BAD_SIZE);
        MUST(bitm_text_extract(&bad, 0, list, 2) == BITM_BAD_SIZE);
        MUST(bitm_text_extract_bytes(&bad, 0, (uint8_t *)list, 2) == BITM_BAD_SIZE);
        MUST(is_untouched(list, 8 * LIST));
    }
    for (size_t len = 0; len < 8; len++) { /* fewer letters with a start, or samples, than the text has */
        struct bitm_text bad = text;
        if (len < 4)
            bad.starts_len = len;
        else
            bad.samples_len = len - 4;
        answers_within(&bad);
    }
}

static void tests(void)
{
    drawn_texts();
    no_texts();
    changed_blocks(false);
    changed_blocks(true);
    random_blocks();
    other_headers();
    other_structs();
}

int main(int argc, char **argv)
{
    take_seed(argc, argv);
    on_either_side(8 * ROOM, tests);
    printf("texts: blocks answer as a comparison at each position, each changed byte and each prefix is refused, and "
           "queries of any words stay within their range\n");
    return 0;
}
