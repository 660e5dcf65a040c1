/* What bitm_text_build and bitm_text_build_bytes write, and what is built in two steps, beside the blocks that
 * plain_texts.h writes by docs/FORMAT.md; and what they refuse, with nothing written. */
#define _GNU_SOURCE
#include "plain_texts.h"

/* Numbers that a block and building take by bitm.h, and what is passed in their place. */
struct lens {
    size_t block, scratch;
};

static size_t larger(size_t a, size_t b) { return a < b ? b : a; }

static size_t scratch_of(const struct plain *plain)
{
    return plain->len + 1 + larger(plain->len + 1, 2 * plain->alphabet);
}

/* The words of the block, which no call has written, and the lengths that the calls of C say. */
static const uint64_t *wanted(const struct plain *plain, struct lens *lens)
{
    static uint64_t room[ROOM];
    lens->block = write_block(plain, 0, room);
    lens->scratch = scratch_of(plain);
    return room;
}

/* The letters as numbers, at the guard. */
static const uint64_t *letters_at(const struct plain *plain)
{
    uint64_t *const own = placed(OF_PATTERN, 8 * plain->len);
    if (plain->len > 0) memcpy(own, plain->letters, 8 * plain->len);
    return own;
}

/* The bytes that the letters stand for, at the guard. */
static const uint8_t *bytes_at(const struct plain *plain)
{
    uint8_t *const own = placed(OF_PATTERN, plain->len);
    for (size_t i = 0; i < plain->len; i++) own[i] = (uint8_t)byte_of(plain, plain->letters[i]);
    return own;
}

/* Builds in rooms at the guard; nothing is written but where BITM_OK is returned. */
static uint32_t build(const struct plain *plain, const void *text, uint32_t letters, uint32_t step, struct lens lens)
{
    uint64_t *const block = untouched_at(OF_BLOCK, 8 * lens.block);
    uint32_t *const scratch = untouched_at(OF_LIST, 4 * lens.scratch);
    const uint32_t status =
        plain->is_of_bytes ? bitm_text_build_bytes(text, plain->len, step, scratch, lens.scratch, block, lens.block)
                           : bitm_text_build(text, plain->len, letters, step, scratch, lens.scratch, block, lens.block);
    MUST(status == BITM_OK || (is_untouched(block, 8 * lens.block) && is_untouched(scratch, 4 * lens.scratch)));
    return status;
}

/* The first step, in a room at the guard: nothing is written but where BITM_OK is returned. */
static uint32_t *ordered(const struct plain *plain, const void *text, uint32_t letters, size_t scratch_len,
                         uint32_t wanted_status)
{
    uint32_t *const scratch = untouched_at(OF_LIST, 4 * scratch_len);
    const uint32_t status = plain->is_of_bytes ? bitm_text_order_bytes(text, plain->len, scratch, scratch_len)
                                               : bitm_text_order(text, plain->len, letters, scratch, scratch_len);
    MUST(status == wanted_status && (status == BITM_OK || is_untouched(scratch, 4 * scratch_len)));
    return scratch;
}

/* The second step, from what stands in the room of the first. The block is written only where BITM_OK is returned, and
 * the scratch stays where a length is wrong. */
static uint32_t build_ordered(const struct plain *plain, const void *text, uint32_t letters, uint32_t step,
                              struct lens lens)
{
    static uint32_t before[2 * LETTERS + 1000];
    uint64_t *const block = untouched_at(OF_BLOCK, 8 * lens.block);
    uint32_t *const scratch = placed(OF_LIST, 4 * lens.scratch);
    MUST(lens.scratch <= sizeof before / 4);
    memcpy(before, scratch, 4 * lens.scratch);
    const uint32_t status =
        plain->is_of_bytes
            ? bitm_text_build_ordered_bytes(text, plain->len, step, scratch, lens.scratch, block, lens.block)
            : bitm_text_build_ordered(text, plain->len, letters, step, scratch, lens.scratch, block, lens.block);
    MUST(status == BITM_OK || is_untouched(block, 8 * lens.block));
    MUST(status != BITM_BAD_SIZE || memcmp(scratch, before, 4 * lens.scratch) == 0);
    return status;
}

/* The order is the one by comparison; each other order of the suffixes is refused, and so are numbers that are none. */
static void other_orders(const struct plain *plain, const void *text, struct lens lens, const size_t *positions)
{
    const uint32_t letters = (uint32_t)plain->alphabet, others[3] = {0, (uint32_t)plain->len + 1, UINT32_MAX};
    for (size_t turn = 0; turn < 12; turn++) {
        uint32_t *const scratch = ordered(plain, text, letters, lens.scratch, BITM_OK);
        const size_t at = draw() % (plain->len + 1), other = draw() % (plain->len + 1);
        const uint32_t was = scratch[at], placed_at = turn < 3 ? others[turn] : scratch[other];
        if (turn % 2) scratch[other] = was; /* two that are swapped, or one that stands there twice */
        scratch[at] = placed_at;
        if (placed_at != was) MUST(build_ordered(plain, text, letters, plain->step, lens) == BITM_WRONG);
    }
    const uint32_t *const scratch = ordered(plain, text, letters, lens.scratch, BITM_OK);
    for (size_t i = 0; i <= plain->len; i++) MUST(scratch[i] == positions[i]);
}

/* In two steps: the block of the format too, and each length one less and one more is refused. */
static void built_in_steps(const struct plain *plain, const void *text, struct lens lens, const uint64_t *by_format)
{
    static size_t positions[LETTERS + 1];
    const uint32_t letters = (uint32_t)plain->alphabet;
    sort_suffixes(plain, positions);
    for (int more = -1; more < 2; more += 2) {
        (void)ordered(plain, text, letters, lens.scratch + (size_t)more, BITM_BAD_SIZE);
        (void)ordered(plain, text, letters, lens.scratch, BITM_OK);
        MUST(build_ordered(plain, text, letters, plain->step, (struct lens){lens.block + (size_t)more, lens.scratch}) ==
             BITM_BAD_SIZE);
        (void)untouched_at(OF_LIST, 4 * (lens.scratch + 1));
        MUST(build_ordered(plain, text, letters, plain->step, (struct lens){lens.block, lens.scratch + (size_t)more}) ==
             BITM_BAD_SIZE);
    }
    other_orders(plain, text, lens, positions);
    MUST(build_ordered(plain, text, letters, 0, lens) == BITM_BAD_SIZE);
    MUST(build_ordered(plain, text, letters, plain->step, lens) == BITM_OK);
    MUST(memcmp(placed(OF_BLOCK, 8 * lens.block), by_format, 8 * lens.block) == 0);
}

/* The calls that say how much is needed. */
static void sizes_as(const struct plain *plain, const uint8_t *bytes, struct lens lens)
{
    uint64_t *out, *const words = placed(OF_OTHER, 8);
    uint32_t status;
    if (plain->is_of_bytes) {
        *words = UNTOUCHED;
        ANSWER(bitm_text_size_bytes(bytes, plain->len, plain->step, words, out));
        MUST(status == BITM_OK && *words == lens.block && *out == lens.scratch);
        *words = UNTOUCHED;
        ANSWER(bitm_text_size_bytes(bytes, plain->len, 0, words, out));
        MUST(status == BITM_BAD_SIZE && *words == UNTOUCHED);
        return;
    }
    ANSWER(bitm_text_size(plain->len, plain->width, plain->alphabet, plain->step, out));
    MUST(status == BITM_OK && *out == lens.block);
    *words = UNTOUCHED;
    ANSWER(bitm_text_size_letters(plain->len, (uint32_t)plain->alphabet, plain->step, words, out));
    MUST(status == BITM_OK && *words == lens.block && *out == lens.scratch);
    *words = UNTOUCHED;
    ANSWER(bitm_text_size_letters(plain->len, (uint32_t)plain->alphabet, 0, words, out));
    MUST(status == BITM_BAD_SIZE && *words == UNTOUCHED);
}

/* Each length one less and one more, no step; then the block, which is that of the format. */
static void built_as(const struct plain *plain)
{
    struct lens lens;
    const uint64_t *const by_format = wanted(plain, &lens);
    const void *const text = plain->is_of_bytes ? (const void *)bytes_at(plain) : (const void *)letters_at(plain);
    const uint32_t letters = (uint32_t)plain->alphabet;
    sizes_as(plain, text, lens);
    for (int more = -1; more < 2; more += 2) {
        const struct lens other_block = {lens.block + (size_t)more, lens.scratch},
                          other_scratch = {lens.block, lens.scratch + (size_t)more};
        MUST(build(plain, text, letters, plain->step, other_block) == BITM_BAD_SIZE);
        MUST(build(plain, text, letters, plain->step, other_scratch) == BITM_BAD_SIZE);
    }
    MUST(build(plain, text, letters, 0, lens) == BITM_BAD_SIZE);
    MUST(build(plain, text, letters, plain->step, (struct lens){0, 0}) == BITM_BAD_SIZE);
    MUST(build(plain, text, letters, plain->step, lens) == BITM_OK);
    const uint64_t *const block = placed(OF_BLOCK, 8 * lens.block);
    MUST(memcmp(block, by_format, 8 * lens.block) == 0 && bitm_text_check(block, lens.block) == BITM_OK);
    built_in_steps(plain, text, lens, by_format);
    for (size_t i = 0; i < plain->len; i++) /* nor is the text written */
        MUST(plain->is_of_bytes ? ((const uint8_t *)text)[i] == byte_of(plain, plain->letters[i])
                                : ((const uint64_t *)text)[i] == plain->letters[i]);
}

/* How many bits the largest letter has, and at least 1. */
static uint32_t width_of(size_t alphabet)
{
    uint32_t width = 1;
    while (alphabet > (size_t)1 << width) width++;
    return width;
}

/* The letters that a text has become its alphabet: the calls over bytes see no other. */
static void drop_others(struct plain *plain)
{
    size_t letters = 0;
    for (size_t letter = 0; letter < plain->alphabet; letter++) {
        if (!has(plain, letter)) continue;
        for (size_t i = 0; i < plain->len; i++)
            if (plain->letters[i] == letter) plain->letters[i] = letters;
        letters++;
    }
    plain->alphabet = letters, plain->width = width_of(letters);
}

static void drawn_texts(void)
{
    static const size_t of_alphabet[7] = {1, 2, 3, 4, 26, 250, 300};
    static const uint32_t of_step[5] = {1, 3, 8, 32, UINT32_MAX};
    static struct plain plain;
    for (unsigned i = 0; i < 140; i++) {
        const size_t alphabet = of_alphabet[i % 7];
        draw_text(&plain, i < 35 ? i / 7 : draw() % LETTERS, alphabet, width_of(alphabet), of_step[i % 5]);
        built_as(&plain);
        if (alphabet > 256) continue;
        drop_others(&plain);
        use_bytes(&plain, draw() % 6, plain.alphabet <= 26 ? 9 : 1);
        built_as(&plain);
    }
    for (size_t i = 0; i < 256; i++) plain.letters[i] = 255 - i;
    plain.len = plain.alphabet = 256, plain.width = 8, plain.step = 32;
    use_bytes(&plain, 0, 1);
    built_as(&plain); /* of each byte once */
}

/* Letters outside the alphabet where no length is wrong, and alphabets of no letters. */
static void letters_outside(void)
{
    static struct plain plain;
    struct lens lens;
    draw_text(&plain, 50, 5, 3, 4);
    (void)wanted(&plain, &lens);
    for (size_t at = 0; at < plain.len; at += 7) {
        const uint64_t was = plain.letters[at];
        plain.letters[at] = at % 2 ? 5 : UINT64_MAX - at;
        const uint64_t *const text = letters_at(&plain);
        MUST(build(&plain, text, 5, plain.step, lens) == BITM_WRONG);
        MUST(build(&plain, text, 5, 0, lens) == BITM_BAD_SIZE);
        MUST(build(&plain, text, 5, plain.step, (struct lens){0, 0}) == BITM_BAD_SIZE);
        MUST(build(&plain, text, 5, plain.step, (struct lens){lens.block, lens.scratch - 1}) == BITM_BAD_SIZE);
        (void)ordered(&plain, text, 5, lens.scratch, BITM_WRONG);
        (void)untouched_at(OF_LIST, 4 * lens.scratch);
        MUST(build_ordered(&plain, text, 5, plain.step, lens) == BITM_WRONG);
        plain.letters[at] = was;
    }
    MUST(build(&plain, letters_at(&plain), 0, 1, lens) == BITM_BAD_SIZE);
    /* a header of 72 words, two matrices of one bit, of which each takes 40, and a sample for each of 51 positions */
    MUST(build(&plain, letters_at(&plain), 0, 1, (struct lens){208, 102}) == BITM_WRONG);
    MUST(build(&plain, letters_at(&plain), 5, plain.step, lens) == BITM_OK);
    draw_text(&plain, 0, 1, 1, 4);
    plain.alphabet = 0;
    built_as(&plain);
}

/* Texts of 2^32 - 1 letters and more, in memory that is there: each call refuses them. */
static void long_texts(void)
{
    const size_t most = UINT32_MAX, room = (size_t)1 << 33;
    const void *const text = mmap(NULL, room, PROT_READ, MAP_PRIVATE | MAP_ANONYMOUS | MAP_NORESERVE, -1, 0);
    MUST(text != MAP_FAILED);
    for (size_t i = 0; i < 3; i++) {
        const size_t len = most + i, lens[3] = {len, SIZE_MAX - i, len};
        uint64_t *out, *const words = placed(OF_OTHER, 8);
        uint32_t status;
        *words = UNTOUCHED;
        ANSWER(bitm_text_size_bytes(text, len, 1, words, out));
        MUST(status == BITM_BAD_SIZE && *words == UNTOUCHED);
        ANSWER(bitm_text_size_letters(lens[i], 1, 1, words, out));
        MUST(status == BITM_BAD_SIZE && *words == UNTOUCHED);
        struct plain plain = {.len = len, .is_of_bytes = true};
        MUST(build(&plain, text, 0, 1, (struct lens){72, 9}) == BITM_BAD_SIZE);
        (void)ordered(&plain, text, 0, 9, BITM_BAD_SIZE);
        MUST(build_ordered(&plain, text, 0, 1, (struct lens){72, 9}) == BITM_BAD_SIZE);
        plain.len = (size_t)1 << 30, plain.is_of_bytes = false; /* 2^33 bytes of zeros, of which none is below 0 */
        MUST(build(&plain, text, 0, 1, (struct lens){72, 9}) == BITM_BAD_SIZE);
    }
    uint64_t *out, *const words = placed(OF_OTHER, 8);
    uint32_t status;
    ANSWER(bitm_text_size_letters(most - 1, UINT32_MAX, 1, words, out));
    MUST(status == BITM_OK && *out == most + 2 * most);
    MUST(munmap((void *)(uintptr_t)text, room) == 0);
}

/* A longer text of bytes with long repetitions: its block passes the check, and what is cut out of it is its parts. */
static void a_longer_text(void)
{
    enum { LONG = 20000 };
    static uint8_t text[LONG], part[LONG];
    for (size_t i = 0; i < LONG; i++) text[i] = i % 3000 < 2000 && i > 5000 ? text[i - 5000] : (uint8_t)(draw() % 5);
    uint64_t words, room, out;
    MUST(bitm_text_size_bytes(text, LONG, 16, &words, &room) == BITM_OK);
    uint64_t *const block = malloc(8 * words);
    uint32_t *const scratch = malloc(4 * room);
    struct bitm_text index = {0};
    MUST(block && scratch && bitm_text_build_bytes(text, LONG, 16, scratch, room, block, words) == BITM_OK);
    MUST(bitm_text_check(block, words) == BITM_OK && bitm_text_open(block, words, &index) == BITM_OK);
    MUST(bitm_text_extract_bytes(&index, 0, part, LONG) == BITM_OK && memcmp(part, text, LONG) == 0);
    for (size_t turn = 0; turn < 40; turn++) {
        const size_t len = 1 + draw() % 9, at = draw() % (LONG - len);
        uint64_t count = 0;
        for (size_t i = 0; i + len <= LONG; i++) count += memcmp(text + i, text + at, len) == 0;
        MUST(bitm_text_count_bytes(&index, text + at, len, &out) == BITM_OK && out == count);
    }
    free(block), free(scratch);
}

static void tests(void)
{
    drawn_texts();
    letters_outside();
    long_texts();
}

int main(int argc, char **argv)
{
    take_seed(argc, argv);
    on_either_side(8 * ROOM, tests);
    a_longer_text();
    printf("built texts: blocks are those of the format, and what is refused writes nothing\n");
    return 0;
}
