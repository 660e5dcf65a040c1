/* Which item of a list is at fault, beside plain loops: numbers that fall or are above a bound, degrees that form no
 * tree, words that do not rise; and the hashes and fingerprints of keys. All is beside pages that may not be touched
 * (places.h). */
#define _DEFAULT_SOURCE
#include "plain_strings.h"

enum { ITEMS = 70 };

/* ---- numbers */

/* The first index from 1 on whose number is less than the one before it, or not above it; `len` if there is none. */
static size_t plain_unsorted(const uint64_t *numbers, size_t len, bool strictly)
{
    for (size_t i = 1; i < len; i++)
        if (numbers[i] < numbers[i - 1] || (strictly && numbers[i] == numbers[i - 1])) return i;
    return len;
}

static size_t plain_above(const uint64_t *numbers, size_t len, uint64_t most)
{
    for (size_t i = 0; i < len; i++)
        if (numbers[i] > most) return i;
    return len;
}

/* What a call answers that has to find this index, or none where it is the number of items. */
#define FINDS(index, len, call)                                                                                        \
    do {                                                                                                               \
        uint64_t *out;                                                                                                 \
        uint32_t status;                                                                                               \
        const size_t wanted = (index);                                                                                 \
        ANSWER(call);                                                                                                  \
        MUST(wanted == (len) ? status == BITM_NONE : status == BITM_OK && *out == wanted);                             \
    } while (0)

static void numbers_as(const uint64_t *from, size_t len)
{
    const uint64_t bounds[] = {0, 1, len > 0 ? from[draw() % len] : 5, UINT64_MAX - 1, UINT64_MAX};
    const uint64_t *const numbers = copied(OF_LIST, from, len);
    for (int strictly = 0; strictly < 2; strictly++)
        FINDS(plain_unsorted(from, len, strictly), len, bitm_numbers_unsorted(numbers, len, strictly, out));
    for (size_t i = 0; i < sizeof bounds / sizeof *bounds; i++)
        FINDS(plain_above(from, len, bounds[i]), len, bitm_numbers_above(numbers, len, bounds[i], out));
    MUST(len == 0 || memcmp(numbers, from, 8 * len) == 0);
}

/* Numbers that rise, by steps that may be 0, and of which none or one is changed: each one in turn. */
static void drawn_numbers(void)
{
    uint64_t numbers[ITEMS];
    for (size_t turn = 0; turn < 60; turn++) {
        const size_t len = turn < 6 ? turn : draw() % ITEMS;
        const uint64_t most = turn % 3 == 0 ? 1 : turn % 3 == 1 ? 3 : UINT64_MAX / ITEMS;
        uint64_t last = draw() % 2;
        for (size_t i = 0; i < len; i++) numbers[i] = last, last += draw() % (most + 1) + (turn % 2);
        numbers_as(numbers, len);
        for (size_t i = 0; i < len; i++) {
            const uint64_t was = numbers[i];
            numbers[i] = draw() % 3 == 0 ? UINT64_MAX : draw() % 2 && i > 0 ? numbers[i - 1] : 0;
            numbers_as(numbers, len);
            numbers[i] = was;
        }
    }
    FINDS(0, 0, bitm_numbers_unsorted(NULL, 0, true, out));
    FINDS(0, 0, bitm_numbers_above(NULL, 0, 0, out));
}

/* ---- degrees */

/* The first node that is a child of none before it, or with whose children there are more nodes than degrees. */
static size_t plain_misfit(const uint64_t *degrees, size_t len)
{
    size_t known = 1;
    for (size_t node = 0; node < len; node++) {
        if (node >= known || degrees[node] > len - known) return node;
        known += degrees[node];
    }
    return len;
}

static void degrees_as(const uint64_t *from, size_t len)
{
    static uint64_t block[ROOM];
    uint64_t words;
    const uint64_t *const degrees = copied(OF_LIST, from, len);
    const size_t node = plain_misfit(from, len);
    FINDS(node, len, bitm_tree_misfit(degrees, len, out));
    MUST(bitm_tree_size(len, &words) == BITM_OK && words <= ROOM);
    if (len > 0) MUST(bitm_tree_build(degrees, len, block, words) == (node == len ? BITM_OK : BITM_WRONG));
}

static void drawn_degrees(void)
{
    uint64_t degrees[ITEMS] = {0};
    for (size_t turn = 0; turn < 200; turn++) {
        const size_t len = turn < 10 ? turn : draw() % ITEMS;
        size_t known = 1;
        for (size_t node = 0; node < len; node++) {
            uint64_t degree = draw() % 4;
            if (degree == 0 && known == node + 1) degree = 1;
            if (degree > len - known) degree = len - known;
            degrees[node] = degree, known += degree;
        }
        degrees_as(degrees, len);
        for (size_t node = 0; node < len; node++) {
            const uint64_t was = degrees[node];
            degrees[node] = draw() % 4 == 0 ? UINT64_MAX - draw() % 2 : draw() % 4;
            degrees_as(degrees, len);
            degrees[node] = was;
        }
    }
    FINDS(0, 0, bitm_tree_misfit(NULL, 0, out));
}

/* ---- words */

/* The first word that does not stand after the one before it. */
static size_t plain_unsorted_word(const uint8_t *bytes, const uint64_t *starts, size_t count)
{
    for (size_t i = 1; i < count; i++) {
        const size_t a = starts[i] - starts[i - 1], b = starts[i + 1] - starts[i], less = a < b ? a : b;
        const int order = less ? memcmp(bytes + starts[i - 1], bytes + starts[i], less) : 0;
        if (order > 0 || (order == 0 && a >= b)) return i;
    }
    return count;
}

static void words_as(const uint8_t *from, size_t bytes_len, const uint64_t *starts_of, size_t count)
{
    const uint8_t *const bytes = bytes_placed(OF_BYTES, from, bytes_len);
    const uint64_t *const starts = copied(OF_STARTS, starts_of, count + 1);
    uint64_t nodes;
    const size_t word = plain_unsorted_word(from, starts_of, count);
    FINDS(word, count, bitm_trie_unsorted_word(bytes, bytes_len, starts, count + 1, out));
    MUST(bitm_trie_nodes_of_words(bytes, bytes_len, starts, count + 1, &nodes) ==
         (word == count ? BITM_OK : BITM_UNSORTED));
}

static void no_words(const char *from, size_t bytes_len, const uint64_t *starts_of, size_t starts_len)
{
    uint64_t *out;
    uint32_t status;
    const uint8_t *const bytes = bytes_placed(OF_BYTES, (const uint8_t *)from, bytes_len);
    ANSWER(bitm_trie_unsorted_word(bytes, bytes_len, copied(OF_STARTS, starts_of, starts_len), starts_len, out));
    MUST(status == BITM_BAD_SIZE);
}

/* Words of few letters, drawn so that some begin others; the first of the bytes are of no word. */
static void drawn_words(void)
{
    static uint8_t bytes[ITEMS * 4];
    uint64_t starts[ITEMS + 1];
    for (size_t turn = 0; turn < 3000; turn++) {
        const size_t count = turn % (turn < 2000 ? 4 : ITEMS), first = draw() % 3;
        starts[0] = first;
        for (size_t i = 0; i < count; i++) starts[i + 1] = starts[i] + (turn % 5 ? draw() % 4 : i / 20 + 1);
        for (size_t i = 0; i < starts[count]; i++) bytes[i] = (uint8_t)(draw() % 2 ? 0x7f + draw() % 2 : 'a');
        words_as(bytes, starts[count] + draw() % 2, starts, count);
    }
    no_words("abab", 4, NULL, 0);
    no_words("abab", 4, (const uint64_t[]){0, 2, 1}, 3);
    no_words("abab", 4, (const uint64_t[]){0, 5}, 2);
    no_words("abab", 4, (const uint64_t[]){0, UINT64_MAX}, 2);
    no_words("", 0, (const uint64_t[]){1}, 1);
    no_words("bab", 3, (const uint64_t[]){0, 1, 2, 4}, 4); /* the lengths come first */
}

/* ---- keys */

/* The hash of a key by a kind is that of a string, with the kind as the second half of the SipHash key. */
static uint64_t plain_key_hash(const uint8_t *key, size_t len, uint64_t with_seed, uint64_t kind)
{
    uint64_t v[4] = {with_seed ^ 0x736f6d6570736575, kind ^ 0x646f72616e646f6d, with_seed ^ 0x6c7967656e657261,
                     kind ^ 0x7465646279746573};
    for (size_t at = 0; at <= len / 8; at++) {
        uint64_t word = at == len / 8 ? (uint64_t)len << 56 : 0;
        for (size_t i = 8 * at; i < len && i < 8 * at + 8; i++) word |= (uint64_t)key[i] << i % 8 * 8;
        v[3] ^= word, sip_round(v), v[0] ^= word;
    }
    v[2] ^= 0xff;
    for (unsigned i = 0; i < 3; i++) sip_round(v);
    return v[0] ^ v[1] ^ v[2] ^ v[3];
}

static void key_as(const uint8_t *from, size_t len, uint64_t with_seed, uint64_t kind)
{
    uint64_t *const print = placed(OF_LEN, 8), *out, x = plain_key_hash(from, len, with_seed, kind);
    uint32_t status;
    ANSWER(bitm_key_hash(bytes_placed(OF_BYTES, from, len), len, with_seed, kind, out, print));
    MUST(status == BITM_OK && *out == x && (kind != 0 || x == plain_hash(from, len, with_seed)));
    x = (x ^ x >> 33) * 0xff51afd7ed558ccdu;
    x = (x ^ x >> 33) * 0xc4ceb9fe1a85ec53u;
    MUST(*print == (x ^ x >> 33));
}

static void drawn_keys(void)
{
    uint8_t key[300];
    for (size_t len = 0; len < sizeof key; len++) {
        for (size_t i = 0; i < len; i++) key[i] = (uint8_t)draw();
        for (uint64_t kind = 0; kind < 5; kind++) key_as(key, len, kind % 2 ? draw() : kind, kind);
        key_as(key, len, UINT64_MAX, UINT64_MAX - draw() % 2);
    }
    key_as(NULL, 0, 5, 1);
}

static void tests(void)
{
    drawn_numbers();
    drawn_degrees();
    drawn_words();
    drawn_keys();
}

int main(int argc, char **argv)
{
    take_seed(argc, argv);
    on_either_side(BYTES, tests);
    puts("items: the first that is at fault is that of a plain loop, and keys have the hashes of a plain SipHash");
    return 0;
}
