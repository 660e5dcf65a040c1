/* Strings in blocks: the answers beside a plain list of strings; strings of which no block is made; blocks of which
 * each byte is changed, each prefix, and blocks whose hash, starts and bytes hold random numbers. All is beside pages
 * that may not be touched (places.h). */
#define _DEFAULT_SOURCE
#include "plain_strings.h"

/* ---- answers */

static uint32_t found(const struct bitm_strings *strings, const uint8_t *string, size_t len, uint64_t *number)
{
    uint64_t *out;
    uint32_t status;
    const uint8_t *const asked = bytes_placed(OF_ASKED, string, len);
    ANSWER(bitm_strings_find(strings, asked, len, out));
    *number = *out;
    return status;
}

static uint32_t string_at(const struct bitm_strings *strings, size_t number, uint64_t *begin, uint64_t *len)
{
    uint64_t *out, *const size = placed(OF_LEN, sizeof *size);
    uint32_t status;
    *size = UNTOUCHED;
    ANSWER(bitm_strings_get(strings, number, out, size));
    MUST(status == BITM_OK || *size == UNTOUCHED);
    *begin = *out, *len = *size;
    MUST(status != BITM_OK || (*begin <= 8 * strings->bytes_len && *len <= 8 * strings->bytes_len - *begin));
    return status;
}

static bool stands_at(const struct bitm_strings *strings, uint64_t number, const uint8_t *string, size_t len)
{
    uint64_t begin, size;
    return string_at(strings, number, &begin, &size) == BITM_OK && size == len &&
           (len == 0 || memcmp((const uint8_t *)strings->bytes + begin, string, len) == 0);
}

static void number_as(const struct plain *plain, const struct bitm_strings *strings, const uint8_t *string, size_t len)
{
    uint64_t number;
    const uint32_t status = found(strings, string, len, &number);
    MUST(status == (is_one_of(plain, plain->count, string, len) ? BITM_OK : BITM_NONE));
    MUST(status != BITM_OK || (number < plain->count && stands_at(strings, number, string, len)));
}

static void answers_as(const struct plain *plain, const struct bitm_strings *strings)
{
    static uint8_t other[64];
    uint64_t begin, len;
    MUST(strings->hash.keys == plain->count && strings->starts_len == plain->count + 1);
    MUST(bitm_strings_fault(strings) == NULL && strings->starts[plain->count] == all_of(plain));
    MUST(strings->bytes_len == (all_of(plain) + 7) / 8 && strings->starts[0] == 0);
    for (size_t i = 0; i < plain->count; i++) {
        const size_t from = begin_of(plain, i), size = plain->ends[i] - from;
        number_as(plain, strings, plain->bytes + from, size);
        if (size) number_as(plain, strings, plain->bytes + from, size - 1);
        if (size < sizeof other) {
            memcpy(other, plain->bytes + from, size), other[size] = 0;
            number_as(plain, strings, other, size + 1);
            if (size) other[draw() % size] ^= (uint8_t)(1 + draw() % 255), number_as(plain, strings, other, size);
        }
        MUST(string_at(strings, i, &begin, &len) == BITM_OK);
        MUST(is_one_of(plain, plain->count, (const uint8_t *)strings->bytes + begin, len));
    }
    MUST(string_at(strings, plain->count, &begin, &len) == BITM_NONE);
    MUST(string_at(strings, SIZE_MAX, &begin, &len) == BITM_NONE);
}

/* A list of strings beside the call of one; ends that are none, and a list of nothing. */
static void list_as_single_calls(const struct plain *plain, const struct bitm_strings *strings)
{
    const size_t all = all_of(plain), count = plain->count;
    const uint8_t *const bytes = bytes_placed(OF_BYTES, plain->bytes, all);
    uint64_t *const ends = copied(OF_ENDS, plain->ends, count), *list = untouched_at(OF_LIST, 8 * count), number;
    struct bitm_list_counts *counts = counts_at_the_guard();
    MUST(bitm_strings_find_list(strings, bytes, all, ends, count, list, count - 1, counts) == BITM_BAD_SIZE);
    MUST(bitm_strings_find_list(strings, bytes, all + 1, ends, count, list, count, counts) == BITM_BAD_SIZE);
    ends[0] += all + 1;
    MUST(bitm_strings_find_list(strings, bytes, all, ends, count, list, count, counts) == BITM_BAD_SIZE);
    ends[0] -= all + 1;
    MUST(counts->missing == UNTOUCHED && counts->wrong == UNTOUCHED && is_untouched(list, 8 * count));
    MUST(bitm_strings_find_list(strings, NULL, 0, NULL, 0, NULL, 0, counts) == BITM_OK && counts->missing == 0);
    counts = counts_at_the_guard();
    const uint32_t status = bitm_strings_find_list(strings, bytes, all, ends, count, list, count, counts);
    MUST(counted(status, list, count, *counts) == BITM_OK);
    for (size_t i = 0; i < count; i++) {
        const size_t begin = begin_of(plain, i);
        const uint32_t one = found(strings, plain->bytes + begin, plain->ends[i] - begin, &number);
        MUST(list[i] == item_of(one, number));
    }
}

/* Whatever the block holds: every call returns, and the string stands at the number that is found. */
static struct plain asked;

static void answers_within(const struct bitm_strings *strings)
{
    uint64_t number, begin, len;
    for (size_t i = 0; i < 20 && asked.count; i++) {
        const size_t at = draw() % asked.count, from = begin_of(&asked, at), size = asked.ends[at] - from;
        const uint32_t status = found(strings, asked.bytes + from, size, &number);
        MUST(status == BITM_OK ? number < strings->hash.keys && stands_at(strings, number, asked.bytes + from, size)
                               : status == BITM_NONE || status == BITM_WRONG);
        (void)string_at(strings, draw() % (strings->hash.keys + 2), &begin, &len);
    }
    if (asked.count) list_as_single_calls(&asked, strings);
}

/* ---- blocks */

static uint32_t open_strings(const uint64_t *block, size_t words, void *opened)
{
    return bitm_strings_open(block, words, opened);
}

static void some_within(const void *opened)
{
    if (draw() % 64 == 0) answers_within(opened);
}

/* Opening looks at the heads of the block and of that of its hash, which take 64 words together. */
static const struct kind of_strings = {32, sizeof(struct bitm_strings), bitm_strings_check, open_strings, some_within};

/* The hash is that of the block of a hash in the block, and the starts and the bytes lie where the directory says. */
static void is_over(const uint64_t *block, const struct bitm_strings *strings)
{
    struct bitm_hash hash = {0};
    uint64_t with_seed;
    MUST(bitm_hash_block_open(block + 32, block[34] / 8, &hash, &with_seed) == BITM_OK && with_seed == strings->seed);
    MUST(bitm_hash_block_check(block + 32, block[34] / 8) == BITM_OK);
    const struct bitm_index *const one = &hash.index, *const other = &strings->hash.index;
    MUST(one->words == other->words && one->words_len == other->words_len && one->bits_len == other->bits_len);
    MUST(one->upper == other->upper && one->upper_len == other->upper_len);
    MUST(one->lower == other->lower && one->lower_len == other->lower_len);
    MUST(hash.sizes == strings->hash.sizes && hash.sizes_len == strings->hash.sizes_len);
    MUST(hash.keys == strings->hash.keys && other->ones.samples_len == 0 && other->zeros.samples_len == 0);
    MUST(other->ones.starts_len == 0 && other->zeros.starts_len == 0);
    MUST(strings->starts == block + block[21] / 8 && strings->starts_len == block[22]);
    MUST(strings->bytes == block + block[25] / 8 && strings->bytes_len == block[26]);
    MUST(strings->kind == 12 && strings->reserved[0] == 0);
}

/* The same strings in parts that lie apart, each of which ends at the guard. */
static struct bitm_strings in_parts(const struct plain *plain, const struct bitm_strings *strings)
{
    struct bitm_strings apart = *strings;
    apart.hash = hash_of(plain, strings->seed);
    apart.starts = copied(OF_STARTS, strings->starts, strings->starts_len);
    apart.bytes = copied(OF_TEXT, strings->bytes, strings->bytes_len);
    return apart;
}

static void drawn_strings(void)
{
    static struct plain plain;
    for (unsigned i = 0; i < 40; i++) {
        uint64_t words;
        draw_strings(&plain, i < 10 ? i : draw() % MOST, 2 + i % 20);
        const uint64_t with_seed = i % 3 ? draw() : i;
        uint64_t *const block = built(&plain, with_seed, &words);
        struct bitm_strings *const strings = placed(OF_STRUCT, sizeof *strings);
        MUST(opens(&of_strings, block, words, strings) && bitm_strings_check(block, words) == BITM_OK);
        MUST(strings->seed == with_seed);
        is_over(block, strings);
        answers_as(&plain, strings);
        const struct bitm_strings apart = in_parts(&plain, strings);
        answers_as(&plain, &apart);
        if (plain.count) list_as_single_calls(&plain, &apart);
        if (plain.count) list_as_single_calls(&plain, strings);
    }
}

static void builds_none(const struct plain *plain, const struct bitm_hash *hash, uint64_t words, uint32_t expected)
{
    uint64_t *const block = untouched_at(OF_BLOCK, 8 * words);
    MUST(build(plain, hash, 3, block, words) == expected);
    MUST(expected == BITM_WRONG || is_untouched(block, 8 * words));
}

/* Strings and hashes of which no block is made, and blocks that are too long or too short. */
static void no_strings(void)
{
    static struct plain plain, other;
    draw_strings(&plain, 40, 9);
    const struct bitm_hash hash = hash_of(&plain, 3);
    const uint64_t words = words_of(&plain, &hash);
    for (size_t len = 0; len < words + 9; len++)
        if (len != words) builds_none(&plain, &hash, len, BITM_BAD_SIZE);
    for (size_t i = 0; i < plain.count; i++) {
        const size_t begin = begin_of(&plain, i), size = plain.ends[i] - begin;
        other = plain;
        if (size == 0) continue;
        other.bytes[begin] ^= 1;
        uint64_t *const block = untouched_at(OF_BLOCK, 8 * words);
        const uint32_t status = build(&other, &hash, 3, block, words);
        MUST(status == BITM_WRONG || (status == BITM_OK && bitm_strings_check(block, words) == BITM_OK));
        if (i + 1 == plain.count) continue;
        other = plain;
        other.ends[i] = all_of(&plain) + 1;
        builds_none(&other, &hash, words, BITM_BAD_SIZE);
    }
    other = plain;
    for (size_t i = 0; i < all_of(&other); i++) other.bytes[i] ^= 0x55;
    builds_none(&other, &hash, words, BITM_WRONG);
    uint64_t *sizes = (uint64_t *)hash.sizes, *lower = (uint64_t *)hash.index.lower;
    sizes[0]++, builds_none(&plain, &hash, words, BITM_WRONG), sizes[0]--;
    lower[0] ^= 1, builds_none(&plain, &hash, words, BITM_WRONG), lower[0] ^= 1;
    for (size_t i = 0; i < 3; i++) {
        struct bitm_hash bad = hash;
        if (i == 0) bad.index.upper_len = 0;
        if (i == 1) bad.index.lower_len++;
        if (i == 2) bad.sizes_len = 257;
        builds_none(&plain, &bad, words, BITM_BAD_SIZE);
    }
    struct bitm_hash more = hash;
    more.keys++;
    builds_none(&plain, &more, words, BITM_WRONG);
    uint64_t *const block = untouched_at(OF_BLOCK, 8 * words);
    MUST(build(&plain, &hash, 4, block, words) == BITM_WRONG);
    MUST(build(&plain, &hash, 3, block, words) == BITM_OK);
}

/* Two equal strings have no block by any seed. */
static void equal_strings(void)
{
    static struct plain plain, twice;
    draw_strings(&plain, 9, 9);
    const struct bitm_hash hash = hash_of(&plain, 3);
    twice = plain;
    for (size_t i = 1; i < plain.count; i++) {
        const size_t size = plain.ends[0], begin = begin_of(&plain, i);
        if (plain.ends[i] - begin != size || size == 0) continue;
        memcpy(twice.bytes + begin, twice.bytes, size);
        builds_none(&twice, &hash, words_of(&twice, &hash), BITM_WRONG);
        memcpy(twice.bytes + begin, plain.bytes + begin, size);
    }
    const uint8_t two[6] = "adaada";
    const uint64_t ends[2] = {3, 6};
    uint64_t hashes[2];
    MUST(bitm_strings_hashes(two, 6, ends, 2, 5, hashes, 2) == BITM_OK && hashes[0] == hashes[1]);
}

/* Lengths that no block has, and the most that one has. */
static void no_sizes(void)
{
    const size_t most = ((size_t)1 << 57) - 1, bytes = ((size_t)1 << 60) - 1;
    uint64_t *out;
    uint32_t status;
    for (size_t i = 0; i < 16; i++) {
        ANSWER(bitm_strings_size(i & 1 ? most + 1 : most, i & 2 ? 257 : 256, i & 4 ? most + 1 : most,
                                 i & 8 ? bytes + 1 : bytes, out));
        MUST(status == (i ? BITM_BAD_SIZE : BITM_OK));
    }
    ANSWER(bitm_strings_size(1, 1, 5, 22, out));
    MUST(status == BITM_OK && *out == 112); /* docs/FORMAT.md */
}

static void changed_blocks(void)
{
    static struct plain plain;
    uint64_t words;
    draw_strings(&plain, SMALL, 5);
    asked = plain;
    uint64_t *const block = built(&plain, 9, &words);
    unsigned char *const bytes = (unsigned char *)block;
    for (size_t at = 0; at < 8 * words; at++)
        for (unsigned change = 1; change < 256; change++) {
            bytes[at] ^= (unsigned char)change;
            MUST(bitm_strings_check(block, words) == BITM_WRONG);
            MUST(opens_to_queries(&of_strings, block, words) == (at >= 8 * 64));
            bytes[at] ^= (unsigned char)change;
        }
    cut_off(&of_strings, block, words);
}

/* Random words after right heads, and random words alone. */
static void random_blocks(void)
{
    static struct plain plain;
    struct bitm_strings strings;
    for (size_t turn = 0; turn < 300; turn++) {
        uint64_t words;
        draw_strings(&plain, 1 + draw() % 60, 8);
        asked = plain;
        uint64_t *const block = built(&plain, draw(), &words);
        spoil(block, 64, words, turn);
        MUST(opens(&of_strings, block, words, &strings));
        strings.kind = turn % 2 ? 10 : 12;
        answers_within(&strings);
        strings.kind = 12;
        if (bitm_strings_check(block, words) == BITM_OK) answers_as(&plain, &strings);
        draw_words(block, words);
        MUST(refuses(&of_strings, block, words));
    }
}

/* Structs whose lengths are not right. */
static void other_structs(void)
{
    static struct plain plain;
    uint64_t words, number, begin, len;
    draw_strings(&plain, 200, 9);
    uint64_t *const block = built(&plain, 5, &words);
    struct bitm_strings made = {0};
    MUST(bitm_strings_open(block, words, &made) == BITM_OK);
    struct bitm_list_counts *const counts = counts_at_the_guard();
    uint64_t *const list = untouched_at(OF_LIST, 8 * plain.count);
    for (size_t i = 0; i < 10; i++) {
        struct bitm_strings bad = made;
        if (i == 0) bad.starts_len--;
        if (i == 1) bad.hash.keys++;
        if (i == 2) bad.hash.sizes_len = 257;
        if (i == 3) bad.starts_len = 0, bad.hash.keys = SIZE_MAX;
        if (i == 4) bad.hash.index.upper_len = 0;
        if (i == 5) bad.hash.index.lower_len++;
        if (i == 6) bad.bytes_len = (size_t)1 << 58;
        if (i > 6) bad.kind = i == 7 ? 0 : i == 8 ? 11 : 10 + ((uint64_t)1 << 32);
        MUST(bitm_strings_fault(&bad) != NULL);
        MUST(found(&bad, plain.bytes, plain.ends[0], &number) == BITM_BAD_SIZE);
        uint64_t *out, *const size = placed(OF_LEN, sizeof *size);
        uint32_t status;
        *size = UNTOUCHED;
        ANSWER(bitm_strings_get(&bad, 0, out, size));
        MUST(status == BITM_BAD_SIZE && *size == UNTOUCHED);
        MUST(bitm_strings_find_list(&bad, plain.bytes, all_of(&plain), plain.ends, plain.count, list, plain.count,
                                    counts) == BITM_BAD_SIZE);
        MUST(counts->missing == UNTOUCHED && counts->wrong == UNTOUCHED && is_untouched(list, 8 * plain.count));
    }
    ((uint64_t *)made.starts)[1] = UINT64_MAX;
    MUST(string_at(&made, 0, &begin, &len) == BITM_WRONG && string_at(&made, 1, &begin, &len) == BITM_WRONG);
    ((uint64_t *)made.hash.sizes)[0] = 0;
    MUST(found(&made, plain.bytes, plain.ends[0], &number) == BITM_WRONG);
}

static void tests(void)
{
    drawn_strings();
    no_strings();
    equal_strings();
    no_sizes();
    changed_blocks();
    random_blocks();
    other_structs();
}

int main(int argc, char **argv)
{
    take_seed(argc, argv);
    on_either_side(BYTES, tests);
    printf("strings: blocks answer as a list of strings, each changed byte and each prefix is refused, and a string stands "
           "at the number that is found in any words\n");
    return 0;
}
