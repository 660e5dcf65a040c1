/* Blocks with sections of a caller's own: each section is as it was given, the sequence before them answers as before,
 * and an index by samples among them; what is too large, too long or spoiled is refused; each changed byte and each
 * prefix is. All is beside pages that may not be touched (places.h). */
#define _DEFAULT_SOURCE
#include "changed.h"
#include "hinted.h"

enum { ITEMS = 900, SMALL = 9, WORDS = 100, OWN = 65536, SECTIONS = 16, ROOM = 8 * 4096 };

/* The sections of a sequence, and of an index. */
enum { OF_SEQUENCE = 5, OF_INDEX = 3 };
enum { OF_GIVEN = OF_MORE, OF_LONGER, OF_SECTION };

static uint64_t items_of[ITEMS], given_words[ROOM / 8];

/* The words that items of a role take. */
static size_t words_for(uint64_t role, uint64_t count)
{
    return role == 7 || role == 8 ? (count + 1) / 2 : role == 15 || role >= OWN ? (count + 7) / 8 : count;
}

/* The block of the first items, in memory of its own. */
static uint64_t *sequence_of(size_t len, uint64_t *words)
{
    uint64_t sum = 0;
    for (size_t i = 0; i < len; i++) items_of[i] = sum += draw() % 40;
    MUST(bitm_sequence_block_size(len, len ? sum : 0, words) == BITM_OK);
    uint64_t *const block = malloc(8 * *words);
    MUST(block && bitm_sequence_block_build(items_of, len, block, *words) == BITM_OK);
    return block;
}

static bool answers(const struct bitm_sequence *sequence, size_t len)
{
    uint64_t *out;
    uint32_t status;
    for (size_t i = 0; i < len; i++) {
        ANSWER(bitm_sequence_get(sequence, i, out));
        if (status != BITM_OK || *out != items_of[i]) return false;
        ANSWER(bitm_sequence_first_at_least(sequence, items_of[i], out));
        if (status != BITM_OK || *out > i || items_of[*out] != items_of[i]) return false;
    }
    return sequence->len == len;
}

/* Section i, as the call writes it beside the guard. */
static struct bitm_section section_in(const uint64_t *block, uint64_t words, size_t i)
{
    struct bitm_section *const it = placed(OF_SECTION, sizeof *it);
    *it = (struct bitm_section){0};
    MUST(bitm_block_section(block, words, i, it) == BITM_OK && it->words_len == words_for(it->role, it->count));
    MUST(it->words_len == 0 || (it->words >= block && it->words + it->words_len <= block + words));
    return *it;
}

static bool has_none(const uint64_t *block, uint64_t words, size_t i)
{
    struct bitm_section *const it = untouched_at(OF_SECTION, sizeof *it);
    return bitm_block_section(block, words, i, it) == BITM_NONE && is_untouched(it, sizeof *it);
}

/* The block with one section more, of words that are drawn, in other memory; the old one is given back. */
static uint64_t *extended(uint64_t *block, uint64_t *words, size_t sections, uint64_t role, uint64_t count)
{
    uint64_t *out, *const old = copied(OF_BLOCK, block, *words);
    uint32_t status;
    ANSWER(bitm_block_extended_size(old, *words, role, count, out));
    MUST(status == BITM_OK && *out % 8 == 0);
    const uint64_t longer = *out;
    const size_t len = words_for(role, count);
    for (size_t i = 0; i < len; i++) given_words[i] = draw();
    const uint64_t *const given = copied(OF_GIVEN, given_words, len);
    uint64_t *const to = untouched_at(OF_LONGER, 8 * longer);
    MUST(bitm_block_extend(old, *words, role, count, given, len, to, longer) == BITM_OK);
    MUST(memcmp(old, block, 8 * *words) == 0 && bitm_block_check(to, longer) == BITM_OK);
    for (size_t i = 0; i < sections; i++) {
        const struct bitm_section was = section_in(block, *words, i), is = section_in(to, longer, i);
        MUST(is.role == was.role && is.count == was.count && memcmp(is.words, was.words, 8 * was.words_len) == 0);
    }
    const struct bitm_section added = section_in(to, longer, sections);
    MUST(added.role == role && added.count == count && memcmp(added.words, given_words, 8 * len) == 0);
    MUST(has_none(to, longer, sections + 1) && has_none(to, longer, SIZE_MAX));
    uint64_t *const kept = malloc(8 * longer);
    MUST(kept);
    memcpy(kept, to, 8 * longer);
    free(block);
    *words = longer;
    return kept;
}

/* Of each length that a last word can have, and of the roles that have four bytes an item, eight and one. */
static void sections_of_each_length(void)
{
    static const uint64_t roles[] = {7, 8, 9, 15, 1, 22, OWN - 1, OWN, UINT64_MAX};
    for (size_t role = 0; role < sizeof roles / sizeof *roles; role++)
        for (uint64_t count = 0; count < 40; count += 1 + draw() % 3) {
            uint64_t words;
            uint64_t *block = sequence_of(SMALL, &words);
            block = extended(block, &words, OF_SEQUENCE, roles[role], count);
            struct bitm_sequence *const sequence = placed(OF_LIST, sizeof *sequence);
            *sequence = (struct bitm_sequence){0};
            MUST(bitm_sequence_block_check(block, words) == BITM_OK);
            MUST(bitm_sequence_block_open(block, words, sequence) == BITM_OK && answers(sequence, SMALL));
            free(block);
        }
}

/* Up to sixteen sections, and no more; sizes that no block has. */
static void what_is_too_large(void)
{
    uint64_t words, *out;
    uint32_t status;
    uint64_t *block = sequence_of(SMALL, &words);
    ANSWER(bitm_block_extended_size(block, words, OWN, (uint64_t)1 << 58, out));
    MUST(status == BITM_BAD_SIZE);
    ANSWER(bitm_block_extended_size(block, words, 9, UINT64_MAX, out));
    MUST(status == BITM_BAD_SIZE);
    ANSWER(bitm_block_extended_size(block, words, 9, ((uint64_t)1 << 58) - 1, out));
    MUST(status == BITM_OK);
    for (size_t n = OF_SEQUENCE; n < SECTIONS; n++) block = extended(block, &words, n, OWN + n, draw() % 100);
    ANSWER(bitm_block_extended_size(block, words, OWN, 0, out));
    MUST(status == BITM_BAD_SIZE);
    uint64_t *const to = untouched_at(OF_LONGER, 8 * (words + 8));
    for (size_t len = 0; len <= words + 8; len += 8)
        MUST(bitm_block_extend(block, words, OWN, 0, NULL, 0, to, len) == BITM_BAD_SIZE);
    MUST(is_untouched(to, 8 * (words + 8)));
    free(block);
}

/* Words of another number than the items take, and a block of another length than it takes. */
static void wrong_lengths(void)
{
    uint64_t words, longer;
    uint64_t *const block = sequence_of(SMALL, &words);
    MUST(bitm_block_extended_size(block, words, OWN, 20, &longer) == BITM_OK);
    const uint64_t *const given = placed(OF_GIVEN, 8 * 5);
    uint64_t *const to = untouched_at(OF_LONGER, 8 * (longer + 8));
    for (size_t len = 0; len <= 5; len++)
        if (len != 3) MUST(bitm_block_extend(block, words, OWN, 20, given, len, to, longer) == BITM_BAD_SIZE);
    for (size_t len = 0; len <= longer + 8; len++)
        if (len != longer) MUST(bitm_block_extend(block, words, OWN, 20, given, 3, to, len) == BITM_BAD_SIZE);
    MUST(is_untouched(to, 8 * (longer + 8)));
    free(block);
}

/* A block of which one byte is another is not extended: not even where a checksum says so alone. */
static void spoiled(void)
{
    uint64_t words, longer, *out;
    uint32_t status;
    uint64_t *const block = sequence_of(SMALL, &words);
    MUST(bitm_block_extended_size(block, words, OWN, 16, &longer) == BITM_OK);
    const uint64_t *const given = placed(OF_GIVEN, 8 * 2);
    uint64_t *const to = untouched_at(OF_LONGER, 8 * longer);
    unsigned char *const bytes = (unsigned char *)block;
    for (size_t at = 0; at < 8 * words; at++) {
        bytes[at] ^= 16;
        MUST(bitm_block_check(block, words) == BITM_WRONG);
        MUST(bitm_block_extend(block, words, OWN, 16, given, 2, to, longer) == BITM_WRONG);
        ANSWER(bitm_block_extended_size(block, words, OWN, 16, out));
        MUST(status == (at < 40 * 8 ? BITM_WRONG : BITM_OK));
        bytes[at] ^= 16;
    }
    MUST(bitm_block_extend(block, words - 1, OWN, 16, given, 2, to, longer) == BITM_WRONG);
    MUST(bitm_block_extend(NULL, 0, OWN, 16, given, 2, to, longer) == BITM_WRONG && is_untouched(to, 8 * longer));
    MUST(bitm_block_extend(block, words, OWN, 16, given, 2, to, longer) == BITM_OK);
    free(block);
}

static uint32_t open_note(const uint64_t *block, size_t words, void *opened)
{
    return bitm_block_section(block, words, OF_SEQUENCE, opened);
}

static void read_note(const void *opened)
{
    const struct bitm_section *const note = opened;
    uint64_t sum = 0;
    for (size_t i = 0; i < note->words_len; i++) sum ^= note->words[i];
    MUST(note->count == 21 && note->words_len == 3 && sum != 1);
}

static const struct kind of_note = {40, sizeof(struct bitm_section), bitm_block_check, open_note, read_note};

static void changed_notes(void)
{
    uint64_t words;
    uint64_t *const made = extended(sequence_of(SMALL, &words), &words, OF_SEQUENCE, OWN, 21);
    uint64_t *const block = copied(OF_BLOCK, made, words);
    changed_bytes(&of_note, block, words, 1);
    cut_off(&of_note, block, words);
    free(made);
}

/* A list of samples of one kind, kept as a section, and found there again. */
static struct bitm_samples kept_samples(uint64_t **block, uint64_t *words, size_t sections, bool one)
{
    static const uint64_t zero[1] = {0};
    struct bitm_index index = {0};
    MUST(bitm_index_block_open(*block, *words, &index) == BITM_OK);
    const size_t most = bitm_index_samples_len(index.words_len, 7);
    uint32_t *const samples = calloc(most + 1, 4);
    uint64_t start, used, longer;
    MUST(samples && bitm_index_build_samples(&index, one, 7, samples, most, &start, 1, &used) == BITM_OK && start == 0);
    const size_t len = words_for(one ? 7 : 8, used);
    memcpy(given_words, samples, 8 * len);
    MUST(bitm_block_extended_size(*block, *words, one ? 7 : 8, used, &longer) == BITM_OK);
    uint64_t *const to = malloc(8 * longer);
    MUST(to && bitm_block_extend(*block, *words, one ? 7 : 8, used, given_words, len, to, longer) == BITM_OK);
    free(*block);
    *block = to, *words = longer;
    const struct bitm_section kept = section_in(to, longer, sections);
    MUST(used > 0 && kept.count == used && memcmp(kept.words, samples, 4 * used) == 0);
    free(samples);
    return (struct bitm_samples){(const uint32_t *)kept.words, kept.count, zero, 1, 7, 0};
}

static void samples_in_a_block(void)
{
    uint64_t bits[WORDS], words, ranks[2] = {0, 0}, got;
    for (size_t i = 0; i < WORDS; i++) bits[i] = draw();
    MUST(bitm_index_block_size(64 * WORDS, &words) == BITM_OK);
    uint64_t *block = malloc(8 * words);
    MUST(block && bitm_index_block_build(bits, WORDS, 64 * WORDS, block, words) == BITM_OK);
    struct bitm_samples ones = kept_samples(&block, &words, OF_INDEX, true);
    const struct bitm_samples zeros = kept_samples(&block, &words, OF_INDEX + 1, false);
    ones.samples = (const uint32_t *)section_in(block, words, OF_INDEX).words;
    struct bitm_index index = {0};
    MUST(bitm_index_block_check(block, words) == BITM_OK && bitm_index_block_open(block, words, &index) == BITM_OK);
    index.ones = ones, index.zeros = zeros;
    MUST(bitm_index_check_samples(&index, true) == BITM_OK && bitm_index_check_samples(&index, false) == BITM_OK);
    for (uint64_t i = 0; i < 64 * WORDS; i++) {
        const bool one = bit_of(bits, i);
        MUST(bitm_index_select(&index, one, ranks[one]++, &got) == BITM_OK && got == i);
    }
    free(block);
}

/* A block without hints takes them as a section more: then it is the one that is built. Of another role, or of another
 * number, they are no hints; wrong ones are, and the check refuses them. */
static void hints_added(void)
{
    static uint64_t older[ROOM / 8], to[ROOM / 8];
    uint64_t words, longer;
    uint64_t *const block = sequence_of(ITEMS, &words);
    struct bitm_sequence sequence = {0}, other = {0};
    MUST(bitm_sequence_block_open(block, words, &sequence) == BITM_OK && sequence.hints_len > 1);
    const size_t len = without_hints(block, older), hints = sequence.hints_len;
    MUST(bitm_block_extended_size(older, len, 22, hints, &longer) == BITM_OK && longer == words);
    MUST(bitm_block_extend(older, len, 22, hints, sequence.hints, hints, to, longer) == BITM_OK);
    MUST(memcmp(to, block, 8 * words) == 0);
    for (size_t i = 0; i < 3; i++) { /* one too few, another role, and other hints */
        memcpy(given_words, sequence.hints, 8 * hints);
        const uint64_t role = i == 1 ? 23 : 22;
        const size_t count = hints - (i == 0);
        if (i == 2) given_words[0]++;
        MUST(bitm_block_extended_size(older, len, role, count, &longer) == BITM_OK);
        MUST(bitm_block_extend(older, len, role, count, given_words, count, to, longer) == BITM_OK);
        MUST(bitm_sequence_block_open(to, longer, &other) == BITM_OK && other.hints_len == (i == 2 ? hints : 0));
        MUST(bitm_sequence_block_check(to, longer) == (i == 2 ? BITM_WRONG : BITM_OK));
        MUST(i == 2 || answers(&other, ITEMS));
    }
    free(block);
}

static void tests(void)
{
    sections_of_each_length();
    what_is_too_large();
    wrong_lengths();
    spoiled();
    changed_notes();
    hints_added();
    samples_in_a_block();
}

int main(int argc, char **argv)
{
    take_seed(argc, argv);
    on_either_side(ROOM, tests);
    puts("extended: blocks with sections of a caller's own have each section as it was given, a sequence answers as "
         "before, and an index by samples among them; what is too large, of another length or spoiled is refused");
    return 0;
}
