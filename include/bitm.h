/* Succinct bit vectors with rank and select: words, and two tables of counts beside them. And monotone integer
 * sequences (Elias-Fano), sparse bits, minimal perfect hashes and dictionaries of numbers and strings, trees (LOUDS)
 * and tries, lists of numbers in any order (wavelet matrices) and indexes of texts, in words with such tables.
 *
 * Bit i is bit i % 64, lowest first, of words[i / 64]. You own the memory of words and tables, which may be a mapped
 * file. No call allocates, keeps a pointer or has state, so any number of threads may query at once.
 *
 *     const uint64_t words[2] = {0x5a, 1};         // the bits 1, 3, 4, 6 and 64
 *     uint64_t upper[1], lower[1], ones, position; // bitm_index_upper_len(2) and bitm_index_lower_len(2) are 1
 *     if (bitm_index_build(words, 2, upper, 1, lower, 1, &ones) || ones != 5) return 1;
 *     struct bitm_index index = {.words = words, .words_len = 2, .upper = upper, .upper_len = 1, .lower = lower,
 *                                .lower_len = 1, .bits_len = 100};
 *     if (bitm_index_select(&index, true, 4, &position) || position != 64) return 1;
 *
 * EXAMPLES. Each example of this file is whole: below `#include <bitm.h>` alone it compiles and runs as the body of a
 * function that returns 0 at its end. BITM_OK is 0, so an example returns 1 where a call fails.
 *
 * NAMES. The prefix says what is queried: bitm_bits_ (words without tables), bitm_index_ (words with tables),
 * bitm_sequence_, bitm_cursor_, bitm_sparse_, bitm_hash_, bitm_dictionary_, bitm_strings_, bitm_tree_, bitm_trie_,
 * bitm_matrix_, bitm_text_, bitm_block_ (a block of any kind), bitm_stored_. `bool one` says which bits are meant: true
 * the 1 bits, false the 0 bits. A position counts from 0; the rank of a bit is the number of bits of its kind before
 * it.
 *
 * LENGTHS. words_len, upper_len, lower_len, samples_len, .. count the items of that pointer; bits_len counts bits, and
 * is at most 64 * words_len. Bits past the first bits_len are neither counted nor found nor changed.
 *
 * ERRORS. Unless its comment says otherwise, a call that does not return BITM_OK writes nothing. Each call names the
 * statuses that it may return, and its section the statuses of all its calls.
 *
 * LISTS. A call that takes struct bitm_list_counts answers a list of queries, as that struct says.
 *
 * BLOCKS. A block is one piece of memory, and also one file: it holds no pointer, and many processes can map it
 * (docs/FORMAT.md). Of each kind, _size says how many words a block takes, _build writes it, _open writes the struct
 * that queries take, which points into the block, and _check says whether the block is as it was written. _open reads
 * few words, however long the block is: each section says how many.
 *
 * Promised, and proved of each call, for all arguments that keep the duties below:
 *   - it returns, and reads and writes only the memory that it is passed, WHATEVER tables and hints hold;
 *   - a call that builds a block compares lengths before it looks at what the lists hold: BITM_BAD_SIZE comes before
 *     BITM_UNSORTED, and BITM_UNSORTED before BITM_WRONG;
 *   - over any tables and hints, stale and hostile ones too, a rank is at most its position and a selection finds a
 *     position that is inside and holds the requested bit; BITM_WRONG means that the tables do not match the words, but
 *     BITM_OK does not mean that they do;
 *   - if the tables match the words, the answer is what plain counting gives, and a query of words and tables never
 *     returns BITM_WRONG. They match if bitm_index_build wrote them or bitm_index_check passes them, as long as neither
 *     words nor tables change afterwards. Samples never change an answer, whatever they hold; wrong hints may, as wrong
 *     tables do;
 *   - sequences likewise: over parts that bitm_sequence_build wrote or bitm_sequence_check passes, the answers agree
 *     with one sequence of numbers;
 *   - blocks likewise, as the section of each kind says.
 *
 * Cost: the reads that are named below are upper bounds for all tables, right or wrong. Time is not proved. Queries are
 * fastest where words and tables begin at multiples of 64 bytes, a line of the cache, and where many MiB of them lie in
 * huge pages: on Linux by madvise(.., MADV_HUGEPAGE) before they are written first (docs/PERFORMANCE.md has figures).
 *
 * Your duties, as for any C function that takes pointers (nothing here can test them):
 *   - a pointer to n numbers is aligned (to 8 bytes; samples to 4, bytes to 1) and n numbers lie there; it may be NULL
 *     if n is 0. Pointers to one number (out, ones, written, used, ..) and to structs are never NULL;
 *   - what the pointers in a struct point to counts as passed;
 *   - memory that a call writes (no const) overlaps nothing else that is passed, and nobody else reads or writes it
 *     during the call. It has to be allocated, but need not be initialized. Memory that a call only reads may overlap;
 *   - memory that a call reads (const) is not written during the call;
 *   - a mapped file is not truncated while a call runs: the system would end the process;
 *   - a bool is 0 or 1, as a C compiler ensures; the processor counts bits in hardware (x86-64-v2).
 *
 * What a call does where a duty is broken is undefined, as with C's own functions: it may answer wrongly, end the
 * process (SIGILL), or read and write outside the memory that it is passed. */
#ifndef BITM_H
#define BITM_H

#include <stdbool.h>
#include <stddef.h>
#include <stdint.h>

/* The archive is for processors with 64-bit addresses that store the lowest byte first. */
#if defined __BYTE_ORDER__ && defined __ORDER_BIG_ENDIAN__
#if __BYTE_ORDER__ == __ORDER_BIG_ENDIAN__
#error "bitm: the library is for little-endian processors"
#endif
#endif
#if defined __SIZEOF_POINTER__
#if __SIZEOF_POINTER__ != 8
#error "bitm: the library is for processors with 64-bit addresses"
#endif
#elif SIZE_MAX < UINT64_MAX
#error "bitm: the library is for processors with 64-bit addresses"
#endif

#ifdef __cplusplus
extern "C" {
#endif

typedef char bitm_sizes_are_64_bits[sizeof(size_t) == 8 && sizeof(void *) == 8 ? 1 : -1];

/* The version of this header. */
#define BITM_VERSION "0.3.0"
#define BITM_VERSION_NUMBER 300 /* 10000 * major + 100 * minor + patch */

/* Before each call that returns a status: the compiler warns if the status is ignored. Define it as nothing before this
 * file is included if you do not want that. */
#ifndef BITM_MUST_USE
#if defined __GNUC__
#define BITM_MUST_USE __attribute__((warn_unused_result))
#else
#define BITM_MUST_USE
#endif
#endif

/* Marks inline functions that are rarely called, so that the compiler does not inline them. */
#if defined __GNUC__
#define BITM_SELDOM __attribute__((cold))
#else
#define BITM_SELDOM
#endif

/* The version of the library that is linked, to compare with BITM_VERSION_NUMBER of this header.
 *
 *     if (bitm_version() < BITM_VERSION_NUMBER) return 1; */
uint32_t bitm_version(void);

/* Whether the library that is linked is one for programs that were compiled with this header: of the same series, and
 * not older. Before 1.0 a series is a minor version, from 1.0 on a major one.
 *
 *     if (!bitm_version_fits()) return 1; */
static inline bool bitm_version_fits(void)
{
    const uint32_t is = bitm_version(), series = is < 10000 ? 100 : 10000;
    return is / series == BITM_VERSION_NUMBER / series && is >= BITM_VERSION_NUMBER;
}

/* What a call returns; each call names the statuses that it may return. */
enum bitm_status {
    BITM_OK = 0,       /* the answer was written */
    BITM_NONE = 1,     /* there is no such position, bit, number, node, key or word */
    BITM_BAD_SIZE = 2, /* a length is wrong: see each call; bitm_index_fault, bitm_tree_fault, .. say which one */
    BITM_WRONG = 3,    /* the tables, samples or hints do not match the words, the parts do not form a sequence, the
                        * header or the block is not one, the degrees do not form a tree, the labels are invalid for a
                        * tree, a number has more bits than the width, a letter is outside its alphabet, a position is
                        * bits_len or more, a key does not stand at its number, or two strings are equal */
    BITM_UNSORTED = 4  /* a number is less than the one before it, a position is not greater than the one before it, or
                        * a word does not stand after the one before it */
};

/* A status in words, in memory that stays.
 *
 *     const char *const said = bitm_status_text(BITM_BAD_SIZE); // "a length is wrong"
 *     if (said[0] != 'a' || said == bitm_status_text(BITM_WRONG)) return 1; */
static inline const char *bitm_status_text(uint32_t status)
{
    switch (status) {
    case BITM_OK: return "ok";
    case BITM_NONE: return "there is no such position, bit or number";
    case BITM_BAD_SIZE: return "a length is wrong";
    case BITM_WRONG: return "the tables, samples, parts or header are not right";
    case BITM_UNSORTED: return "the numbers, positions or words are not in order";
    default: return "not a status of this library";
    }
}

/* Codes in a list of answers: there is no such position, bit or number; the tables do not match the words. No position
 * is one of these codes, and no rank where the tables match. */
#define BITM_NO_ANSWER UINT64_MAX
#define BITM_WRONG_TABLES (UINT64_MAX - 1)

/* Lists: a call that takes this struct writes to out[i] the answer of query i, as the call of one query gives it, or
 * BITM_NO_ANSWER for BITM_NONE and BITM_WRONG_TABLES for BITM_WRONG; and to the struct how many answers are
 * BITM_NO_ANSWER, and how many BITM_WRONG_TABLES. It returns BITM_BAD_SIZE also if out_len, or the length of another
 * list, is not the number of queries. */
struct bitm_list_counts {
    uint64_t missing;
    uint64_t wrong;
};

/* ---- words without tables
 *
 * The first bits_len bits of words_len words.
 *
 *   - errors: BITM_BAD_SIZE if bits_len is above 64 * words_len; of calls that count bits or find positions (count,
 *     count_range, next, previous, positions) also if words_len is 2^58 or more. An error writes nothing.
 *   - writes: where a call writes bits, every other bit stays as it was; but it reads and writes whole words, so other
 *     threads may not use these words meanwhile.
 *   - overlap: memory that a call writes overlaps nothing else that it is passed. */

/* How many words hold the given number of bits: bits_len / 64, rounded up.
 *
 *     if (bitm_bits_words_len(100) != 2) return 1; */
size_t bitm_bits_words_len(uint64_t bits_len);

/* How many words the hints take for a sequence, sparse bits, a tree or a trie of words_len words with `ones` numbers, 1
 * bits or nodes: 0 if words_len is 2^26 or more. Hints are the positions of each 128th 1 bit, and after these of each
 * 128th 0 bit, two in a word (docs/FORMAT.md).
 *
 *     if (bitm_hints_len(1000, 40) != 11) return 1; // 4 words for 1000 1 bits, and 7 for 1560 0 bits */
static inline size_t bitm_hints_len(size_t ones, size_t words_len)
{
    if (words_len >= (size_t)1 << 26) return 0;
    const size_t bits = 64 * words_len, of_ones = ones < bits ? ones : bits;
    return (of_ones + 255) / 256 + (bits - of_ones + 255) / 256;
}

/* How many words the hints take of words_len words of a matrix, whose number of 1 bits its block does not know ahead:
 * the most that bitm_hints_len returns. 0 if words_len is 2^26 or more.
 *
 *     if (bitm_hints_room(40) != 11 || bitm_hints_room((size_t)1 << 26) != 0) return 1; */
static inline size_t bitm_hints_room(size_t words_len)
{
    if (words_len >= (size_t)1 << 26) return 0;
    return (words_len + 3) / 4 + 1;
}

/* Faults: which length is wrong where a call returns BITM_BAD_SIZE, in words and in memory that stays; NULL if none is.
 * Each such function looks at the lengths of one struct, or of words, which are the same for all calls that take these;
 * where it returns NULL, a length is wrong that the call alone takes, such as out_len.
 *
 *     if (bitm_bits_fault(2, 100) != NULL || bitm_bits_fault(2, 129) == NULL) return 1; // two words have 128 bits */
static inline const char *bitm_bits_fault(size_t words_len, uint64_t bits_len)
{
    if (bitm_bits_words_len(bits_len) > words_len) return "bits_len is above 64 * words_len";
    if (words_len >= (size_t)1 << 58) return "words_len is 2^58 or more";
    return NULL;
}

/* One bit at a position that you know to be below 64 * words_len: nothing is tested.
 *
 *     uint64_t words[2] = {0x5a, 0};
 *     bitm_set_bit_at(words, 70, true);
 *     if (!bitm_bit_at(words, 70) || bitm_bit_at(words, 71)) return 1; */
static inline bool bitm_bit_at(const uint64_t *words, uint64_t position)
{
    return (words[position / 64] >> (position % 64)) & 1;
}
static inline void bitm_set_bit_at(uint64_t *words, uint64_t position, bool value)
{
    const uint64_t bit = UINT64_C(1) << (position % 64);
    if (value) words[position / 64] |= bit;
    else words[position / 64] &= ~bit;
}

/* The bit at a position, as 0 or 1; makes it equal to value. BITM_NONE if position is bits_len or more.
 *
 *     uint64_t words[2] = {0x5a, 1}, bit;
 *     if (bitm_bits_set(words, 2, 100, 70, true) || words[1] != 0x41 || bitm_bits_get(words, 2, 100, 70, &bit) ||
 *         bit != 1 || bitm_bits_get(words, 2, 100, 100, &bit) != BITM_NONE) return 1; */
BITM_MUST_USE uint32_t bitm_bits_get(const uint64_t *words, size_t words_len, uint64_t bits_len, uint64_t position,
                                     uint64_t *out);
BITM_MUST_USE uint32_t bitm_bits_set(uint64_t *words, size_t words_len, uint64_t bits_len, uint64_t position,
                                     bool value);

/* Makes the bits at the positions of a list equal to value, and writes to outside how many of the positions are
 * bits_len or more: these change nothing. Reads each position once, and reads and writes the word of each that is
 * inside.
 *
 *     uint64_t words[2] = {0x5a, 1}, outside;
 *     const uint64_t positions[3] = {70, 8, 100};
 *     if (bitm_bits_set_list(words, 2, 100, positions, 3, true, &outside) || outside != 1 || words[0] != 0x15a ||
 *         words[1] != 0x41) return 1; */
BITM_MUST_USE uint32_t bitm_bits_set_list(uint64_t *words, size_t words_len, uint64_t bits_len,
                                          const uint64_t *positions, size_t positions_len, bool value,
                                          uint64_t *outside);

/* The number in the width bits from position begin on, lowest bit first; replaces it by the width lowest bits of value;
 * combines these bits with the width lowest bits of value by exclusive or. A width is 0 to 64; the number of width 0 is
 * 0. BITM_NONE if begin + width is above bits_len or width is above 64. Reads or writes at most two words (evident from
 * the code).
 *
 *     uint64_t words[2] = {0x5a, 1}, number;
 *     if (bitm_bits_get_number(words, 2, 100, 3, 4, &number) || number != 11 || // bits 3, 4 and 6
 *         bitm_bits_set_number(words, 2, 100, 62, 4, 9) || bitm_bits_xor_number(words, 2, 100, 62, 4, 3) ||
 *         bitm_bits_get_number(words, 2, 100, 62, 4, &number) || number != 10) return 1; */
BITM_MUST_USE uint32_t bitm_bits_get_number(const uint64_t *words, size_t words_len, uint64_t bits_len, uint64_t begin,
                                            uint32_t width, uint64_t *out);
BITM_MUST_USE uint32_t bitm_bits_set_number(uint64_t *words, size_t words_len, uint64_t bits_len, uint64_t begin,
                                            uint32_t width, uint64_t value);
BITM_MUST_USE uint32_t bitm_bits_xor_number(uint64_t *words, size_t words_len, uint64_t bits_len, uint64_t begin,
                                            uint32_t width, uint64_t value);

/* Fragments: the bits as an array of numbers of width bits: number index begins at bit index * width. Reads one;
 * replaces one by the width lowest bits of value; exchanges two; replaces each of the first count. BITM_NONE if a
 * fragment ends past bits_len or width is above 64. Fragments of width 0 are 0 and take no bits.
 *
 *     uint64_t nibbles[1] = {0}, number;
 *     if (bitm_bits_fill_fragments(nibbles, 1, 64, 4, 7, 3) || nibbles[0] != 0x777 ||
 *         bitm_bits_set_fragment(nibbles, 1, 64, 1, 4, 2) || nibbles[0] != 0x727 ||
 *         bitm_bits_swap_fragments(nibbles, 1, 64, 0, 1, 4) || nibbles[0] != 0x772 ||
 *         bitm_bits_get_fragment(nibbles, 1, 64, 0, 4, &number) || number != 2) return 1; */
BITM_MUST_USE uint32_t bitm_bits_get_fragment(const uint64_t *words, size_t words_len, uint64_t bits_len,
                                              uint64_t index, uint32_t width, uint64_t *out);
BITM_MUST_USE uint32_t bitm_bits_set_fragment(uint64_t *words, size_t words_len, uint64_t bits_len, uint64_t index,
                                              uint32_t width, uint64_t value);
BITM_MUST_USE uint32_t bitm_bits_swap_fragments(uint64_t *words, size_t words_len, uint64_t bits_len, uint64_t first,
                                                uint64_t second, uint32_t width);
BITM_MUST_USE uint32_t bitm_bits_fill_fragments(uint64_t *words, size_t words_len, uint64_t bits_len, uint32_t width,
                                                uint64_t value, size_t count);

/* How many 1 bits, or 0 bits, there are: among all, and from position `from` on and before position `to`. BITM_NONE if
 * `from` is above `to`, or `to` above bits_len. Reads each word of the range once.
 *
 *     const uint64_t words[2] = {0x5a, 1}; // the bits 1, 3, 4, 6 and 64
 *     uint64_t count;
 *     if (bitm_bits_count(words, 2, 100, true, &count) || count != 5 ||
 *         bitm_bits_count_range(words, 2, 100, true, 2, 7, &count) || count != 3) return 1; */
BITM_MUST_USE uint32_t bitm_bits_count(const uint64_t *words, size_t words_len, uint64_t bits_len, bool one,
                                       uint64_t *out);
BITM_MUST_USE uint32_t bitm_bits_count_range(const uint64_t *words, size_t words_len, uint64_t bits_len, bool one,
                                             uint64_t from, uint64_t to, uint64_t *out);

/* The position of the first 1 bit, or 0 bit, at or after position `from`; of the last one at or before it, where `from`
 * may be past the end. BITM_NONE if there is none. Reads each word on the way once.
 *
 *     const uint64_t words[2] = {0x5a, 1}; // the bits 1, 3, 4, 6 and 64
 *     uint64_t position;
 *     if (bitm_bits_next(words, 2, 100, true, 7, &position) || position != 64 ||
 *         bitm_bits_previous(words, 2, 100, true, 63, &position) || position != 6) return 1; */
BITM_MUST_USE uint32_t bitm_bits_next(const uint64_t *words, size_t words_len, uint64_t bits_len, bool one,
                                      uint64_t from, uint64_t *out);
BITM_MUST_USE uint32_t bitm_bits_previous(const uint64_t *words, size_t words_len, uint64_t bits_len, bool one,
                                          uint64_t from, uint64_t *out);

/* Writes the positions of the 1 bits, or 0 bits, from position `from` on, ascending, until out is full or there are no
 * more, and to written how many; the rest of out stays as it was.
 *
 *     const uint64_t words[2] = {0x5a, 1}; // the bits 1, 3, 4, 6 and 64
 *     uint64_t found[8], written;
 *     if (bitm_bits_positions(words, 2, 100, true, 4, found, 8, &written) || written != 3 || found[0] != 4 ||
 *         found[1] != 6 || found[2] != 64) return 1; */
BITM_MUST_USE uint32_t bitm_bits_positions(const uint64_t *words, size_t words_len, uint64_t bits_len, bool one,
                                           uint64_t from, uint64_t *out, size_t out_len, uint64_t *written);

/* Makes every bit of the words from position bits_len on 0. Returns BITM_OK always: if bits_len is 64 * words_len or
 * more, there is nothing to do.
 *
 *     uint64_t words[1] = {UINT64_MAX};
 *     if (bitm_bits_clear_from(words, 1, 8) || words[0] != 0xff) return 1; */
BITM_MUST_USE uint32_t bitm_bits_clear_from(uint64_t *words, size_t words_len, uint64_t bits_len);

/* Makes the bits from position `from` on and before position `to` equal to value, or flips them. BITM_NONE if `from` is
 * above `to`, or `to` above bits_len.
 *
 *     uint64_t words[1] = {0xff};
 *     if (bitm_bits_fill_range(words, 1, 64, 0, 4, false) || words[0] != 0xf0 ||
 *         bitm_bits_flip_range(words, 1, 64, 2, 6) || words[0] != 0xcc) return 1; */
BITM_MUST_USE uint32_t bitm_bits_fill_range(uint64_t *words, size_t words_len, uint64_t bits_len, uint64_t from,
                                            uint64_t to, bool value);
BITM_MUST_USE uint32_t bitm_bits_flip_range(uint64_t *words, size_t words_len, uint64_t bits_len, uint64_t from,
                                            uint64_t to);

/* Copies count bits, from position from_begin on, to position to_begin on. BITM_NONE if a range is not inside its
 * words.
 *
 *     const uint64_t words[2] = {0x5a, 1};
 *     uint64_t copy[1] = {0};
 *     if (bitm_bits_copy_range(copy, 1, 2, words, 2, 3, 4) || copy[0] != 11 << 2) return 1; */
BITM_MUST_USE uint32_t bitm_bits_copy_range(uint64_t *to, size_t to_len, uint64_t to_begin, const uint64_t *from,
                                            size_t from_len, uint64_t from_begin, uint64_t count);

/* Whether count bits of a, from position a_begin on, equal count bits of b from position b_begin on, as 0 or 1.
 * BITM_NONE if a range is not inside its words. a and b may overlap.
 *
 *     const uint64_t a[1] = {0x2c}, b[2] = {0x5a, 1};
 *     uint64_t is_equal;
 *     if (bitm_bits_equal_range(a, 1, 2, b, 2, 3, 4, &is_equal) || is_equal != 1) return 1; */
BITM_MUST_USE uint32_t bitm_bits_equal_range(const uint64_t *a, size_t a_len, uint64_t a_begin, const uint64_t *b,
                                             size_t b_len, uint64_t b_begin, uint64_t count, uint64_t *out);

/* Combines each word with the word of other at the same index: and, or, exclusive or, and with the complement of the
 * other word. BITM_BAD_SIZE if the lengths differ.
 *
 *     uint64_t words[1] = {0x2c};
 *     const uint64_t six[1] = {6};
 *     if (bitm_bits_or(words, 1, six, 1) || words[0] != 0x2e || bitm_bits_and_not(words, 1, six, 1) ||
 *         words[0] != 0x28 || bitm_bits_xor(words, 1, six, 1) || words[0] != 0x2e || bitm_bits_and(words, 1, six, 1) ||
 *         words[0] != 6) return 1; */
BITM_MUST_USE uint32_t bitm_bits_and(uint64_t *words, size_t words_len, const uint64_t *other, size_t other_len);
BITM_MUST_USE uint32_t bitm_bits_or(uint64_t *words, size_t words_len, const uint64_t *other, size_t other_len);
BITM_MUST_USE uint32_t bitm_bits_xor(uint64_t *words, size_t words_len, const uint64_t *other, size_t other_len);
BITM_MUST_USE uint32_t bitm_bits_and_not(uint64_t *words, size_t words_len, const uint64_t *other, size_t other_len);

/* Whether a position among the first bits_len has a 1 bit in both words and other; whether other has a 1 bit at each
 * such position where words has one. As 0 or 1. BITM_BAD_SIZE if either has fewer than bits_len bits. words and other
 * may overlap. Reads each word of both at most twice, up to the first that decides (evident from the code).
 *
 *     const uint64_t six[1] = {6}, words[2] = {0x5a, 1};
 *     uint64_t answer;
 *     if (bitm_bits_intersects(six, 1, words, 2, 64, &answer) || answer != 1 || // both have bit 1
 *         bitm_bits_is_subset(six, 1, words, 2, 64, &answer) || answer != 0) return 1; // not bit 2 */
BITM_MUST_USE uint32_t bitm_bits_intersects(const uint64_t *words, size_t words_len, const uint64_t *other,
                                            size_t other_len, uint64_t bits_len, uint64_t *out);
BITM_MUST_USE uint32_t bitm_bits_is_subset(const uint64_t *words, size_t words_len, const uint64_t *other,
                                           size_t other_len, uint64_t bits_len, uint64_t *out);

/* The position, 0 to 63, of the 1 bit of a word with the given rank. BITM_NONE if the word has no more than rank.
 *
 *     uint64_t position;
 *     if (bitm_bits_select_in_word(0x5a, 2, &position) || position != 4) return 1; */
BITM_MUST_USE uint32_t bitm_bits_select_in_word(uint64_t word, uint32_t rank, uint64_t *out);

/* The width that stores a number: how many binary digits it has, 0 for 0.
 *
 *     if (bitm_bits_to_store(100) != 7 || bitm_bits_to_store(0) != 0) return 1; */
uint32_t bitm_bits_to_store(uint64_t value);

/* ---- bytes: few bits from any bit on, by one read of 8 or 4 bytes
 *
 * Bit i of the bytes is bit i % 8, lowest first, of bytes[i / 8]. The window of bit first_bit goes from it to the end
 * of the 8 bytes (57 to 64 bits) or 4 bytes (25 to 32 bits) that begin with its byte; BITM_NONE if there are not 8 (4)
 * bytes from bytes[first_bit / 8] on. Bits of value and len_mask that lie past the window are ignored.
 *   - get: the window as a number, lowest bit first;
 *   - init: makes each bit of the window 1 where value has a 1 bit;
 *   - set: first makes each bit of the window 0 where len_mask has a 1 bit, then does as init.
 *
 *     uint8_t bytes[9] = {0x5a};
 *     uint64_t window;
 *     uint32_t few;
 *     if (bitm_bytes_get57(bytes, 9, 3, &window) || window != 11 || // from bit 3 on: 1, 1, 0, 1
 *         bitm_bytes_init57(bytes, 9, 8, 1) || bytes[1] != 1 || bitm_bytes_set57(bytes, 9, 8, 2, 3) || bytes[1] != 2 ||
 *         bitm_bytes_get25(bytes, 9, 8, &few) || few != 2 || bitm_bytes_init25(bytes, 9, 8, 1) || bytes[1] != 3 ||
 *         bitm_bytes_set25(bytes, 9, 8, 0, 3) || bytes[1] != 0) return 1; */
BITM_MUST_USE uint32_t bitm_bytes_get57(const uint8_t *bytes, size_t bytes_len, uint64_t first_bit, uint64_t *out);
BITM_MUST_USE uint32_t bitm_bytes_init57(uint8_t *bytes, size_t bytes_len, uint64_t first_bit, uint64_t value);
BITM_MUST_USE uint32_t bitm_bytes_set57(uint8_t *bytes, size_t bytes_len, uint64_t first_bit, uint64_t value,
                                        uint64_t len_mask);
BITM_MUST_USE uint32_t bitm_bytes_get25(const uint8_t *bytes, size_t bytes_len, uint64_t first_bit, uint32_t *out);
BITM_MUST_USE uint32_t bitm_bytes_init25(uint8_t *bytes, size_t bytes_len, uint64_t first_bit, uint32_t value);
BITM_MUST_USE uint32_t bitm_bytes_set25(uint8_t *bytes, size_t bytes_len, uint64_t first_bit, uint32_t value,
                                        uint32_t len_mask);

/* ---- the index: words with tables
 *
 * struct bitm_index has words, their two tables, and samples or none (struct bitm_samples, which stands before it).
 *
 *   - errors: BITM_BAD_SIZE if a length in the struct is not right. A query returns BITM_WRONG if the tables turn out
 *     not to match the words. An error writes nothing.
 *   - reads: each call names the entries and words that it reads at most, whatever the tables hold.
 *   - overlap: memory that a call writes overlaps nothing else that it is passed, and nothing that the struct points
 *     to. */

/* Samples of the 1 bits, or of the 0 bits: one number of 32 bits for each 2^log2 of them in an upper block (2^32 bits),
 * and for each upper block the number of samples before it. log2 below 7 counts as 7, above 31 as 31. A larger one
 * takes less space and a longer search. samples_len is the number that bitm_index_build_samples wrote to used; the rest
 * of the list is not part of the samples. Lists, lengths and log2 may be anything: samples shorten a search, never
 * change an answer, and never lead to a read outside. */
struct bitm_samples {
    const uint32_t *samples;
    size_t samples_len;
    const uint64_t *starts;
    size_t starts_len;
    uint32_t log2;
    uint32_t reserved; /* 0 */
};

/* Words, their two tables, how many of their bits are meant, and samples or none. You may copy and keep the struct; the
 * duties hold for its pointers while a call runs. Calls that take one return BITM_BAD_SIZE if words_len is 2^58 or
 * more, a table is not as long as bitm_index_upper_len and bitm_index_lower_len say, or the words have fewer than
 * bits_len bits. */
struct bitm_index {
    const uint64_t *words;
    size_t words_len;
    const uint64_t *upper;
    size_t upper_len;
    const uint64_t *lower;
    size_t lower_len;
    uint64_t bits_len;
    struct bitm_samples ones;  /* {0}: none */
    struct bitm_samples zeros; /* {0}: none */
    uint64_t reserved[2];      /* 0: not given */
};

/* The lengths of the tables for the given number of words: one entry for each upper block (2^26 words) and one for each
 * lower block (32 words); the last block may be shorter.
 *
 *     if (bitm_index_upper_len(1000) != 1 || bitm_index_lower_len(1000) != 32) return 1; */
size_t bitm_index_upper_len(size_t words_len);
size_t bitm_index_lower_len(size_t words_len);

/* Faults of words with tables, and of an index: which length is wrong, or NULL (see bitm_bits_fault).
 *
 *     struct bitm_index index = {.bits_len = 1}; // no words
 *     if (bitm_index_fault(&index) == NULL || bitm_tables_fault(0, 0, 0) != NULL) return 1; */
static inline const char *bitm_tables_fault(size_t words_len, size_t upper_len, size_t lower_len)
{
    if (words_len >= (size_t)1 << 58) return "words_len is 2^58 or more";
    if (upper_len != bitm_index_upper_len(words_len)) return "upper_len is not bitm_index_upper_len(words_len)";
    if (lower_len != bitm_index_lower_len(words_len)) return "lower_len is not bitm_index_lower_len(words_len)";
    return NULL;
}
static inline const char *bitm_index_fault(const struct bitm_index *index)
{
    const char *const fault = bitm_tables_fault(index->words_len, index->upper_len, index->lower_len);
    return fault ? fault : bitm_bits_fault(index->words_len, index->bits_len);
}

/* The greatest number of samples of one kind that the given number of words can have: words_len / 2^(log2 - 6), rounded
 * up.
 *
 *     if (bitm_index_samples_len(1000, 12) != 16) return 1; */
size_t bitm_index_samples_len(size_t words_len, uint32_t log2);

/* A log2 for samples of `items` bits of one kind among bits_len, such that samples take about the same share of the
 * memory however many items there are. It is 7 to most (which counts as 7 below 7, as 31 above 31), and most itself
 * where half of the bits or more are items.
 *
 *     if (bitm_optimal_log2(1, 1000000, 13) != 7) return 1; // rare bits */
uint32_t bitm_optimal_log2(uint64_t items, uint64_t bits_len, uint32_t most);

/* Writes both tables of the words, and to ones the number of 1 bits of all the words. BITM_BAD_SIZE if words_len is
 * 2^58 or more, or a table is not as long as bitm_index_upper_len and bitm_index_lower_len say. Reads each word once.
 *
 *     const uint64_t words[2] = {0x5a, 1}; // the bits 1, 3, 4, 6 and 64
 *     uint64_t upper[1], lower[1], ones;
 *     if (bitm_index_build(words, 2, upper, 1, lower, 1, &ones) || ones != 5) return 1; */
BITM_MUST_USE uint32_t bitm_index_build(const uint64_t *words, size_t words_len, uint64_t *upper, size_t upper_len,
                                        uint64_t *lower, size_t lower_len, uint64_t *ones);

/* Whether the tables (not the samples) match the words: BITM_OK, BITM_WRONG or BITM_BAD_SIZE. Reads each word at most
 * once.
 *
 *     const uint64_t words[2] = {0x5a, 1};
 *     uint64_t upper[1], lower[1], ones;
 *     if (bitm_index_build(words, 2, upper, 1, lower, 1, &ones)) return 1;
 *     struct bitm_index index = {words, 2, upper, 1, lower, 1, 100, {0}, {0}, {0}};
 *     if (bitm_index_check(&index)) return 1;
 *     lower[0]++;
 *     if (bitm_index_check(&index) != BITM_WRONG) return 1; */
BITM_MUST_USE uint32_t bitm_index_check(const struct bitm_index *index);

/* Writes the samples of the 1 bits, or 0 bits, of all the words, for each upper block the number of samples before it,
 * and to used how many samples there are; items past these stay as they were. If the tables match the words, so do the
 * samples; else they are arbitrary numbers. BITM_BAD_SIZE also if samples_len is less than bitm_index_samples_len says
 * or starts_len is not upper_len. Reads both tables once, up to two lower entries again for each sample, and at most
 * eight words (evident from the code).
 *
 * bitm_index_check_samples says whether index->ones, or index->zeros, are the samples that bitm_index_build_samples
 * writes, where the tables match the words: BITM_OK or BITM_WRONG; over other tables either of these.
 *
 *     const uint64_t words[2] = {0x5a, 1}; // the bits 1, 3, 4, 6 and 64
 *     uint64_t upper[1], lower[1], starts[1], ones, used;
 *     uint32_t samples[1]; // bitm_index_samples_len(2, 12) is 1
 *     if (bitm_index_build(words, 2, upper, 1, lower, 1, &ones)) return 1;
 *     struct bitm_index index = {words, 2, upper, 1, lower, 1, 100, {0}, {0}, {0}};
 *     if (bitm_index_build_samples(&index, true, 12, samples, 1, starts, 1, &used)) return 1;
 *     index.ones = (struct bitm_samples){samples, used, starts, 1, 12, 0};
 *     if (bitm_index_check_samples(&index, true)) return 1; */
BITM_MUST_USE uint32_t bitm_index_build_samples(const struct bitm_index *index, bool one, uint32_t log2,
                                                uint32_t *samples, size_t samples_len, uint64_t *starts,
                                                size_t starts_len, uint64_t *used);
BITM_MUST_USE uint32_t bitm_index_check_samples(const struct bitm_index *index, bool one);

/* How many 1 bits, or 0 bits, there are before a position; for position bits_len, among all. At most position.
 * BITM_NONE exactly if position is above bits_len. Reads at most one upper entry, one lower entry and eight words.
 *
 * bitm_index_select answers the position of the 1 bit, or 0 bit, with the given rank. BITM_NONE if there is none. Reads
 * at most D + 1 upper entries, where D is the number of binary digits of upper_len, 23 lower entries and eight words;
 * with samples 28 lower entries, and 51 if the samples do not match the words.
 *
 *     const uint64_t words[2] = {0x5a, 1}; // the bits 1, 3, 4, 6 and 64
 *     uint64_t upper[1], lower[1], ones, rank, position;
 *     if (bitm_index_build(words, 2, upper, 1, lower, 1, &ones)) return 1;
 *     struct bitm_index index = {words, 2, upper, 1, lower, 1, 100, {0}, {0}, {0}};
 *     if (bitm_index_rank(&index, true, 5, &rank) || rank != 3 || // bits 1, 3 and 4
 *         bitm_index_select(&index, false, 2, &position) || position != 5) return 1; // after 0 and 2 */
BITM_MUST_USE uint32_t bitm_index_rank(const struct bitm_index *index, bool one, uint64_t position, uint64_t *out);
BITM_MUST_USE uint32_t bitm_index_select(const struct bitm_index *index, bool one, uint64_t rank, uint64_t *out);

/* bitm_index_rank, and bitm_index_select, of each item of a list (struct bitm_list_counts). Selections are searched
 * side by side, so over tables that do not match the words a list may find another position of the kind than the call
 * of one query, or none where that call finds one.
 *
 *     const uint64_t words[2] = {0x5a, 1}, queries[3] = {0, 4, 9};
 *     uint64_t upper[1], lower[1], ones, answers[3];
 *     if (bitm_index_build(words, 2, upper, 1, lower, 1, &ones)) return 1;
 *     struct bitm_index index = {words, 2, upper, 1, lower, 1, 100, {0}, {0}, {0}};
 *     struct bitm_list_counts counts;
 *     if (bitm_index_rank_list(&index, true, queries, 3, answers, 3, &counts) || answers[1] != 2 ||
 *         bitm_index_select_list(&index, true, queries, 3, answers, 3, &counts) || answers[1] != 64 ||
 *         answers[2] != BITM_NO_ANSWER || counts.missing != 1) return 1; // there is no 1 bit with rank 9 */
BITM_MUST_USE uint32_t bitm_index_rank_list(const struct bitm_index *index, bool one, const uint64_t *positions,
                                            size_t positions_len, uint64_t *out, size_t out_len,
                                            struct bitm_list_counts *counts);
BITM_MUST_USE uint32_t bitm_index_select_list(const struct bitm_index *index, bool one, const uint64_t *ranks,
                                              size_t ranks_len, uint64_t *out, size_t out_len,
                                              struct bitm_list_counts *counts);

/* bitm_bits_count and bitm_bits_positions of the words and bits_len: the tables are not read, so these answers are
 * right whatever they hold.
 *
 *     const uint64_t words[2] = {0x5a, 1};
 *     uint64_t upper[1], lower[1], ones, zeros, found[8], written;
 *     if (bitm_index_build(words, 2, upper, 1, lower, 1, &ones)) return 1;
 *     struct bitm_index index = {words, 2, upper, 1, lower, 1, 100, {0}, {0}, {0}};
 *     if (bitm_index_count(&index, false, &zeros) || zeros != 95 ||
 *         bitm_index_positions(&index, true, 4, found, 8, &written) || written != 3) return 1; */
BITM_MUST_USE uint32_t bitm_index_count(const struct bitm_index *index, bool one, uint64_t *out);
BITM_MUST_USE uint32_t bitm_index_positions(const struct bitm_index *index, bool one, uint64_t from, uint64_t *out,
                                            size_t out_len, uint64_t *written);

/* The position of the first 1 bit, or 0 bit, at or after position `from`; of the last one at or before it, where `from`
 * may be past the end. BITM_NONE if there is none. Any position returned is on that side of `from`, whatever the tables
 * hold. Reads what a rank and a selection read, however far the bit lies.
 *
 *     const uint64_t words[2] = {0x5a, 1};
 *     uint64_t upper[1], lower[1], ones, position;
 *     if (bitm_index_build(words, 2, upper, 1, lower, 1, &ones)) return 1;
 *     struct bitm_index index = {words, 2, upper, 1, lower, 1, 100, {0}, {0}, {0}};
 *     if (bitm_index_next(&index, true, 7, &position) || position != 64 ||
 *         bitm_index_previous(&index, true, 63, &position) || position != 6) return 1; */
BITM_MUST_USE uint32_t bitm_index_next(const struct bitm_index *index, bool one, uint64_t from, uint64_t *out);
BITM_MUST_USE uint32_t bitm_index_previous(const struct bitm_index *index, bool one, uint64_t from, uint64_t *out);

/* ---- monotone integer sequences (Elias-Fano)
 *
 * The parts of a sequence of len numbers that do not fall: the width low bits of each number in low, the high bits as 1
 * bits in words, the two tables of these words, and their hints or none. bitm_sequence_build writes the parts, without
 * hints; a block has hints (bitm_sequence_block_build), and bitm_sequence_block_open finds them.
 *
 *     const uint64_t primes[5] = {2, 3, 5, 7, 11};
 *     uint64_t low[1], words[1], upper[1], lower[1], width, index; // bitm_sequence_sizes(5, 11, ..)
 *     if (bitm_sequence_build(primes, 5, low, 1, words, 1, upper, 1, lower, 1, &width)) return 1;
 *     struct bitm_sequence sequence = {.len = 5, .width = width, .low = low, .low_len = 1, .words = words,
 *                                      .words_len = 1, .upper = upper, .upper_len = 1, .lower = lower, .lower_len = 1};
 *     if (bitm_sequence_first_at_least(&sequence, 6, &index) || index != 3) return 1; // 7
 *
 *   - errors: calls that take the struct return BITM_BAD_SIZE if len is 2^56 or more, width is above 63, low_len is not
 *     bitm_bits_words_len(len * width), words_len is 2^58 or more, a table is not as long as bitm_index_upper_len and
 *     bitm_index_lower_len say, or hints_len is neither 0 nor bitm_hints_len(len, words_len). A query returns
 *     BITM_WRONG if the parts turn out to form no sequence. An error writes nothing, unless the call says otherwise.
 *   - reads: queries select in words, a number by a 1 bit, a successor by a 0 bit. Such a selection reads one hint and
 *     at most nine words; where there is no hint, or the bit is not in the eight words from its hint's word on, it
 *     reads also what bitm_index_select reads without samples. Cursors and calls for a list select without hints.
 *   - overlap: memory that a call writes overlaps nothing else that it is passed, and no part of a sequence.
 *   - whatever the parts hold, an index that a query returns is below len. */
struct bitm_sequence {
    size_t len;
    uint64_t width;
    const uint64_t *low;
    size_t low_len;
    const uint64_t *words;
    size_t words_len;
    const uint64_t *upper;
    size_t upper_len;
    const uint64_t *lower;
    size_t lower_len;
    const uint64_t *hints; /* NULL: none */
    size_t hints_len;      /* 0, or bitm_hints_len(len, words_len) */
};

/* Faults of a sequence: which length is wrong, or NULL (see bitm_bits_fault).
 *
 *     struct bitm_sequence sequence = {.width = 64};
 *     if (bitm_sequence_fault(&sequence) == NULL) return 1; // width is above 63 */
static inline const char *bitm_sequence_fault(const struct bitm_sequence *sequence)
{
    if (sequence->len >= (size_t)1 << 56) return "len is 2^56 or more";
    if (sequence->width > 63) return "width is above 63";
    if (sequence->low_len != bitm_bits_words_len(sequence->len * sequence->width))
        return "low_len is not bitm_bits_words_len(len * width)";
    const char *const fault = bitm_tables_fault(sequence->words_len, sequence->upper_len, sequence->lower_len);
    if (fault) return fault;
    if (sequence->hints_len != 0 && sequence->hints_len != bitm_hints_len(sequence->len, sequence->words_len))
        return "hints_len is neither 0 nor bitm_hints_len(len, words_len)";
    return NULL;
}

/* How many low bits each number has, and how many items each part. */
struct bitm_sequence_lens {
    uint64_t width;
    uint64_t low_len;
    uint64_t words_len;
    uint64_t upper_len;
    uint64_t lower_len;
};

/* The lengths for len numbers, where the last number, and so the largest, is `largest` (0 if there are none).
 * BITM_BAD_SIZE if len is 2^56 or more, or len is 0 and largest is not. low and words together have at most len *
 * (width + 3) + 126 bits.
 *
 *     struct bitm_sequence_lens lens;
 *     if (bitm_sequence_sizes(5, 11, &lens) || lens.width != 1 || lens.words_len != 1) return 1; */
BITM_MUST_USE uint32_t bitm_sequence_sizes(size_t len, uint64_t largest, struct bitm_sequence_lens *out);

/* Writes the parts of a sequence of the items, and width. BITM_BAD_SIZE if a length is not what bitm_sequence_sizes
 * says for items_len and the last item; else BITM_UNSORTED if an item is less than the one before it. Passes three
 * times over the items and once over the words (evident from the code).
 *
 *     const uint64_t falling[2] = {3, 2};
 *     uint64_t words[1], upper[1], lower[1], width; // bitm_sequence_sizes(2, 2, ..) says one word each, and no low
 *     if (bitm_sequence_build(falling, 2, NULL, 0, words, 1, upper, 1, lower, 1, &width) != BITM_UNSORTED) return 1; */
BITM_MUST_USE uint32_t bitm_sequence_build(const uint64_t *items, size_t items_len, uint64_t *low, size_t low_len,
                                           uint64_t *words, size_t words_len, uint64_t *upper, size_t upper_len,
                                           uint64_t *lower, size_t lower_len, uint64_t *width);

/* Where a list of numbers stops ascending: BITM_OK with the index of the first number that is less than the number
 * before it or, if `strictly`, equal to it; BITM_NONE exactly if there is none. A caller whose numbers a call refused
 * as BITM_UNSORTED can name this one. Reads each number up to there at most twice (evident from the code).
 *
 *     const uint64_t numbers[4] = {2, 5, 5, 3};
 *     uint64_t index;
 *     if (bitm_numbers_unsorted(numbers, 4, false, &index) || index != 3 || // 3 is less than 5
 *         bitm_numbers_unsorted(numbers, 4, true, &index) || index != 2 ||
 *         bitm_numbers_unsorted(numbers, 3, false, &index) != BITM_NONE) return 1; */
BITM_MUST_USE uint32_t bitm_numbers_unsorted(const uint64_t *numbers, size_t numbers_len, bool strictly, uint64_t *out);

/* The index of the first number above `most`: BITM_OK; BITM_NONE exactly if there is none. Reads each number up to
 * there once (evident from the code).
 *
 *     const uint64_t numbers[4] = {2, 5, 5, 3};
 *     uint64_t index;
 *     if (bitm_numbers_above(numbers, 4, 4, &index) || index != 1 ||
 *         bitm_numbers_above(numbers, 4, 5, &index) != BITM_NONE) return 1; */
BITM_MUST_USE uint32_t bitm_numbers_above(const uint64_t *numbers, size_t numbers_len, uint64_t most, uint64_t *out);

/* Whether the parts form a sequence, as bitm_sequence_build writes them, and the hints match its words: BITM_OK,
 * BITM_WRONG or BITM_BAD_SIZE. Passes twice over the words, of low reads only the fragments of numbers next to one
 * another with the same high bits, each at most twice, and the last number's, and selects by the tables for each hint
 * (evident from the code).
 *
 *     const uint64_t primes[5] = {2, 3, 5, 7, 11};
 *     uint64_t block[80]; // bitm_sequence_block_size(5, 11, ..) says 80
 *     struct bitm_sequence sequence;
 *     if (bitm_sequence_block_build(primes, 5, block, 80) || bitm_sequence_block_open(block, 80, &sequence) ||
 *         bitm_sequence_check(&sequence)) return 1; */
BITM_MUST_USE uint32_t bitm_sequence_check(const struct bitm_sequence *sequence);

/* The number at an index, counted from 0. BITM_NONE exactly if index is len or more. Reads what a selection reads, and
 * at most one fragment of low.
 *
 *     const uint64_t primes[5] = {2, 3, 5, 7, 11};
 *     uint64_t block[80], number; // bitm_sequence_block_size(5, 11, ..) says 80
 *     struct bitm_sequence sequence;
 *     if (bitm_sequence_block_build(primes, 5, block, 80) || bitm_sequence_block_open(block, 80, &sequence) ||
 *         bitm_sequence_get(&sequence, 4, &number) || number != 11) return 1; */
BITM_MUST_USE uint32_t bitm_sequence_get(const struct bitm_sequence *sequence, uint64_t index, uint64_t *out);

/* Successor: the least index whose number is at least value, and so how many numbers are less. BITM_NONE if every
 * number is less. Reads what a selection reads, then the words up to the end of the numbers that share the high bits of
 * value or, where these are many, what a second selection reads; at most 42 words in all. Reads one fragment of low for
 * each binary digit of the count of these numbers; over parts of no sequence, for each binary digit of len.
 *
 *     const uint64_t primes[5] = {2, 3, 5, 7, 11};
 *     uint64_t block[80], index; // bitm_sequence_block_size(5, 11, ..) says 80
 *     struct bitm_sequence sequence;
 *     if (bitm_sequence_block_build(primes, 5, block, 80) || bitm_sequence_block_open(block, 80, &sequence) ||
 *         bitm_sequence_first_at_least(&sequence, 6, &index) || index != 3 || // 7
 *         bitm_sequence_first_at_least(&sequence, 12, &index) != BITM_NONE) return 1; */
BITM_MUST_USE uint32_t bitm_sequence_first_at_least(const struct bitm_sequence *sequence, uint64_t value,
                                                    uint64_t *out);

/* Predecessor: the greatest index whose number is at most value. BITM_NONE if every number is more. Reads what
 * bitm_sequence_first_at_least reads for value + 1, and nothing if value is 2^64 - 1.
 *
 * bitm_sequence_contains answers whether value is one of the numbers, as 0 or 1. Reads what
 * bitm_sequence_first_at_least reads, and one fragment of low more.
 *
 *     const uint64_t primes[5] = {2, 3, 5, 7, 11};
 *     uint64_t block[80], index, is_prime; // bitm_sequence_block_size(5, 11, ..) says 80
 *     struct bitm_sequence sequence;
 *     if (bitm_sequence_block_build(primes, 5, block, 80) || bitm_sequence_block_open(block, 80, &sequence) ||
 *         bitm_sequence_last_at_most(&sequence, 6, &index) || index != 2 || // 5
 *         bitm_sequence_contains(&sequence, 7, &is_prime) || is_prime != 1) return 1; */
BITM_MUST_USE uint32_t bitm_sequence_last_at_most(const struct bitm_sequence *sequence, uint64_t value, uint64_t *out);
BITM_MUST_USE uint32_t bitm_sequence_contains(const struct bitm_sequence *sequence, uint64_t value, uint64_t *out);

/* Writes the numbers from index `from` on, in order, until out is full or there are no more, and to written how many;
 * the rest of out stays as it was. If the parts form no sequence, the numbers are arbitrary, and only then may there be
 * fewer than both out_len and len - `from`: BITM_WRONG exactly if there are; out and written have these then. Reads
 * what a selection reads, passes over the words from there on, and reads at most one fragment of low for each number
 * (evident from the code).
 *
 *     const uint64_t primes[5] = {2, 3, 5, 7, 11};
 *     uint64_t block[80], found[8], written; // bitm_sequence_block_size(5, 11, ..) says 80
 *     struct bitm_sequence sequence;
 *     if (bitm_sequence_block_build(primes, 5, block, 80) || bitm_sequence_block_open(block, 80, &sequence) ||
 *         bitm_sequence_items(&sequence, 2, found, 8, &written) || written != 3 || found[0] != 5) return 1; */
BITM_MUST_USE uint32_t bitm_sequence_items(const struct bitm_sequence *sequence, uint64_t from, uint64_t *out,
                                           size_t out_len, uint64_t *written);

/* Writes the numbers at a list of indices, as bitm_sequence_get answers them, up to the first index that has none, and
 * to written how many; the rest of out stays as it was. BITM_OK exactly if all are written. Else the numbers before are
 * written, and the status says why the call stopped at indices[written]: BITM_NONE exactly if that index is not below
 * len, and BITM_WRONG exactly if it is, which may be only if the parts form no sequence. BITM_BAD_SIZE, and nothing is
 * written, also if out_len is not indices_len. 1 bits are selected side by side, so if the parts form no sequence, a
 * number may differ from the one that bitm_sequence_get finds.
 *
 *     const uint64_t primes[5] = {2, 3, 5, 7, 11}, indices[3] = {4, 0, 5};
 *     uint64_t block[80], found[3], written; // bitm_sequence_block_size(5, 11, ..) says 80
 *     struct bitm_sequence sequence;
 *     if (bitm_sequence_block_build(primes, 5, block, 80) || bitm_sequence_block_open(block, 80, &sequence) ||
 *         bitm_sequence_get_list(&sequence, indices, 3, found, 3, &written) != BITM_NONE || written != 2 ||
 *         found[0] != 11 || found[1] != 2) return 1; // there is no number 5 */
BITM_MUST_USE uint32_t bitm_sequence_get_list(const struct bitm_sequence *sequence, const uint64_t *indices,
                                              size_t indices_len, uint64_t *out, size_t out_len, uint64_t *written);

/* bitm_sequence_first_at_least, bitm_sequence_last_at_most and bitm_sequence_contains of each item of a list (struct
 * bitm_list_counts). Over parts that form no sequence an answer may differ from the answer of the call for one value.
 *
 *     const uint64_t primes[5] = {2, 3, 5, 7, 11}, values[3] = {6, 1, 7};
 *     uint64_t block[80], out[3]; // bitm_sequence_block_size(5, 11, ..) says 80
 *     struct bitm_sequence it;
 *     struct bitm_list_counts n;
 *     if (bitm_sequence_block_build(primes, 5, block, 80) || bitm_sequence_block_open(block, 80, &it) ||
 *         bitm_sequence_contains_list(&it, values, 3, out, 3, &n) || out[2] != 1 ||
 *         bitm_sequence_first_at_least_list(&it, values, 3, out, 3, &n) || out[0] != 3 ||
 *         bitm_sequence_last_at_most_list(&it, values, 3, out, 3, &n) || out[0] != 2 || n.missing != 1) return 1; */
BITM_MUST_USE uint32_t bitm_sequence_first_at_least_list(const struct bitm_sequence *sequence, const uint64_t *values,
                                                         size_t values_len, uint64_t *out, size_t out_len,
                                                         struct bitm_list_counts *counts);
BITM_MUST_USE uint32_t bitm_sequence_last_at_most_list(const struct bitm_sequence *sequence, const uint64_t *values,
                                                       size_t values_len, uint64_t *out, size_t out_len,
                                                       struct bitm_list_counts *counts);
BITM_MUST_USE uint32_t bitm_sequence_contains_list(const struct bitm_sequence *sequence, const uint64_t *values,
                                                   size_t values_len, uint64_t *out, size_t out_len,
                                                   struct bitm_list_counts *counts);

/* A walk through the numbers in order, which reads them in blocks of 64 and may be moved on to a value. It keeps a copy
 * of the struct that it walks through, and is memory of yours as any other: a walk is for one thread.
 *
 *     const uint64_t primes[5] = {2, 3, 5, 7, 11};
 *     uint64_t block[80], number, sum = 0; // bitm_sequence_block_size(5, 11, ..) says 80
 *     struct bitm_sequence_walk walk;
 *     if (bitm_sequence_block_build(primes, 5, block, 80) ||
 *         bitm_sequence_block_open(block, 80, &walk.sequence)) return 1;
 *     uint32_t status = bitm_sequence_walk_from(&walk, 1, &number);
 *     for (; status == BITM_OK; status = bitm_sequence_walk_next(&walk, &number)) sum += number;
 *     if (status != BITM_NONE || sum != 3 + 5 + 7 + 11) return 1; */
struct bitm_sequence_walk {
    struct bitm_sequence sequence;
    uint64_t first; /* the index of numbers[0] */
    uint64_t at;    /* where the walk stands in numbers */
    uint64_t len;   /* how many numbers were read: 0 at the end */
    uint64_t numbers[64];
};

/* The index of the number where the walk stands; the length of the sequence at the end. */
static inline uint64_t bitm_sequence_walk_index(const struct bitm_sequence_walk *walk)
{
    return walk->first + walk->at;
}

/* Moves to the number at an index, to the next one, or to the first from here on that is at least value: never back.
 * Each writes that number. BITM_NONE if there is none: the walk is at its end then, and only an index moves it from
 * there. BITM_WRONG if the parts turn out to form no sequence; the walk may have moved then. A call reads what
 * bitm_sequence_items reads for 64 numbers, or nothing if the block holds the number; to a value also what
 * bitm_sequence_first_at_least reads.
 *
 *     const uint64_t primes[5] = {2, 3, 5, 7, 11};
 *     uint64_t block[80], number; // bitm_sequence_block_size(5, 11, ..) says 80
 *     struct bitm_sequence_walk walk;
 *     if (bitm_sequence_block_build(primes, 5, block, 80) || bitm_sequence_block_open(block, 80, &walk.sequence) ||
 *         bitm_sequence_walk_from(&walk, 0, &number) || number != 2 || bitm_sequence_walk_to(&walk, 6, &number) ||
 *         number != 7 || bitm_sequence_walk_index(&walk) != 3 || bitm_sequence_walk_next(&walk, &number) ||
 *         number != 11) return 1; */
BITM_MUST_USE BITM_SELDOM static inline uint32_t bitm_sequence_walk_from(struct bitm_sequence_walk *walk,
                                                                         uint64_t index, uint64_t *out)
{
    uint64_t written = 0;
    const uint32_t status = bitm_sequence_items(&walk->sequence, index, walk->numbers, 64, &written);
    walk->first = index < walk->sequence.len ? index : walk->sequence.len;
    walk->at = 0;
    walk->len = written;
    if (status == BITM_OK && written == 0) return BITM_NONE;
    if (written == 0) return status;
    *out = walk->numbers[0];
    return BITM_OK;
}
BITM_MUST_USE static inline uint32_t bitm_sequence_walk_next(struct bitm_sequence_walk *walk, uint64_t *out)
{
    if (walk->at + 1 < walk->len) {
        walk->at++;
        *out = walk->numbers[walk->at];
        return BITM_OK;
    }
    if (walk->len == 0) return BITM_NONE;
    return bitm_sequence_walk_from(walk, walk->first + walk->len, out);
}
/* What bitm_sequence_walk_to does past the block. */
BITM_MUST_USE BITM_SELDOM static inline uint32_t bitm_sequence_walk_search(struct bitm_sequence_walk *walk,
                                                                           uint64_t value, uint64_t *out)
{
    uint64_t index = 0;
    const uint64_t end = walk->first + walk->len;
    const uint32_t status = bitm_sequence_first_at_least(&walk->sequence, value, &index);
    if (status == BITM_NONE) index = walk->sequence.len;
    else if (status != BITM_OK) return status;
    return bitm_sequence_walk_from(walk, index < end ? end : index, out);
}
BITM_MUST_USE static inline uint32_t bitm_sequence_walk_to(struct bitm_sequence_walk *walk, uint64_t value,
                                                           uint64_t *out)
{
    if (walk->len == 0) return BITM_NONE;
    if (walk->numbers[walk->len - 1] < value) return bitm_sequence_walk_search(walk, value, out);
    while (walk->numbers[walk->at] < value) walk->at++;
    *out = walk->numbers[walk->at];
    return BITM_OK;
}

/* ---- cursors over sequences: what several share, and what any of them has (posting lists)
 *
 * A cursor is a position in a sequence, which moves forward only: at a number, or at the end, where index belongs to no
 * number. You give the sequence, and bitm_cursor_start the rest. A cursor keeps a copy of the struct of the sequence,
 * and is memory of yours as any other: it is for one thread. Over parts of one sequence, with a cursor that these calls
 * alone moved, the answers are right for the numbers; whatever parts and cursor hold, each call returns.
 *
 *   - errors: BITM_WRONG if the parts of a sequence turn out to form none; of a call that takes one cursor
 *     BITM_BAD_SIZE if a length of its sequence is not right. An error writes nothing, unless the call says otherwise.
 *   - reads: a cursor selects without hints, as bitm_index_select does without samples. A union moves each cursor at
 *     most once for each number that is written and once more; an intersection for each number of the first sequence
 *     and once more, so the shortest is best first. The union of a pair of sequences, and the intersection of a pair of
 *     about the same length, read both by blocks, as bitm_sequence_items does, where there is room for many numbers and
 *     neither cursor is at a number below `from`; then they move each cursor once.
 *   - overlap: cursors, out and written overlap neither one another nor the parts of a sequence; cursors may share
 *     parts. */
struct bitm_cursor {
    struct bitm_sequence sequence;
    size_t index;    /* of the number at the cursor */
    size_t position; /* of that number's 1 bit in words */
    uint64_t number;
};

/* Sets a cursor to the first number of its sequence, or to the end if there is none. Any error leaves the cursor as it
 * was. Reads what three selections read, and low as bitm_sequence_first_at_least does.
 *
 *     const uint64_t primes[5] = {2, 3, 5, 7, 11};
 *     uint64_t block[80]; // bitm_sequence_block_size(5, 11, ..) says 80
 *     struct bitm_cursor cursor;
 *     if (bitm_sequence_block_build(primes, 5, block, 80) || bitm_sequence_block_open(block, 80, &cursor.sequence) ||
 *         bitm_cursor_start(&cursor) || cursor.number != 2) return 1; */
BITM_MUST_USE uint32_t bitm_cursor_start(struct bitm_cursor *cursor);

/* Moves a cursor to the first number from there on that is at least at_least, and writes the number; a cursor whose own
 * number is at least at_least stays. BITM_NONE if each is less: the cursor is at the end then, and remains there.
 * BITM_WRONG if the parts turn out to form no sequence: the cursor stays. Any number that is written is at least
 * at_least, whatever parts and cursor hold. Reads nothing if the cursor stays. If it moves by a few numbers that the
 * word of position has, reads that word, and low for these numbers. Else it reads up to 25 words and 8 fragments of low
 * more; and also what bitm_cursor_start reads, unless the number is near: one of the eight after the 0 bits to skip,
 * which end in the eight words from position on.
 *
 *     const uint64_t primes[5] = {2, 3, 5, 7, 11};
 *     uint64_t block[80], number; // bitm_sequence_block_size(5, 11, ..) says 80
 *     struct bitm_cursor cursor;
 *     if (bitm_sequence_block_build(primes, 5, block, 80) || bitm_sequence_block_open(block, 80, &cursor.sequence) ||
 *         bitm_cursor_start(&cursor) || bitm_cursor_next(&cursor, 6, &number) || number != 7 ||
 *         bitm_cursor_next(&cursor, 12, &number) != BITM_NONE) return 1; */
BITM_MUST_USE uint32_t bitm_cursor_next(struct bitm_cursor *cursor, uint64_t at_least, uint64_t *out);

/* Writes the numbers from `from` on that stand in each of the sequences, or in any of them, from the cursors on:
 * ascending, each once, until none is left or out is full, and to written how many; the rest of out stays as it was. If
 * out is full, a call with one more than its last number for `from` goes on. BITM_WRONG if a sequence has a wrong
 * length, and then no cursor moves and out stays; or if the parts of a sequence turn out wrong as they are read, and
 * then out may have some of the numbers, and cursors may have moved: BITM_OK says that no move was BITM_WRONG.
 * BITM_BAD_SIZE if there is no cursor to intersect. The sequences of the cursors stay.
 *
 *     const uint64_t primes[5] = {2, 3, 5, 7, 11}, odd[4] = {3, 5, 7, 9};
 *     uint64_t first[80], second[80], found[8], written; // bitm_sequence_block_size says 80 of both
 *     struct bitm_cursor two[2];
 *     if (bitm_sequence_block_build(primes, 5, first, 80) || bitm_sequence_block_build(odd, 4, second, 80) ||
 *         bitm_sequence_block_open(first, 80, &two[0].sequence) || bitm_cursor_start(&two[0]) ||
 *         bitm_sequence_block_open(second, 80, &two[1].sequence) || bitm_cursor_start(&two[1]) ||
 *         bitm_cursors_intersect(two, 2, 0, found, 8, &written) || written != 3 || found[2] != 7 || // 3, 5 and 7
 *         bitm_cursor_start(&two[0]) || bitm_cursor_start(&two[1]) ||
 *         bitm_cursors_union(two, 2, 6, found, 8, &written) || written != 3 ||
 *         found[1] != 9) return 1; // 7, 9 and 11 */
BITM_MUST_USE uint32_t bitm_cursors_intersect(struct bitm_cursor *cursors, size_t cursors_len, uint64_t from,
                                              uint64_t *out, size_t out_len, uint64_t *written);
BITM_MUST_USE uint32_t bitm_cursors_union(struct bitm_cursor *cursors, size_t cursors_len, uint64_t from,
                                          uint64_t *out, size_t out_len, uint64_t *written);

/* ---- minimal perfect hashes
 *
 * Each of n keys gets a number of its own below n, in about three bits a key; no key is kept. You hash each key to 64
 * bits. Levels are built one after another, each for the hashes that are left, and their words stand one after another
 * under one index:
 *
 *     uint64_t hashes[3] = {0x243f6a8885a308d3, 0x13198a2e03707344, 0xa4093822299f31d0};
 *     uint64_t words[8], again[8], sizes[8], upper[1], lower[1], levels, used, left, ones, number;
 *     if (bitm_hash_build(hashes, 3, 100, words, 8, again, 8, sizes, 8, &levels, &used, &left) || left > 0 ||
 *         bitm_index_build(words, used, upper, 1, lower, 1, &ones)) return 1;
 *     struct bitm_hash hash = {.index = {.words = words, .words_len = used, .upper = upper, .upper_len = 1,
 *                                        .lower = lower, .lower_len = 1},
 *                              .sizes = sizes, .sizes_len = levels, .keys = 3};
 *     if (bitm_hash_get(&hash, 0x13198a2e03707344, &number) || number > 2) return 1;
 *
 *   - errors: calls that take the struct return BITM_BAD_SIZE if words_len is 2^58 or more, a table is not as long as
 *     for an index, or sizes_len is above 256. A query returns BITM_WRONG where tables or sizes do not match the words,
 *     or there are more numbers than keys. An error writes nothing, unless the call says otherwise.
 *   - reads: a query reads what bitm_hash_get reads; a query that reads more says so.
 *   - overlap: memory that a call writes overlaps nothing else that it is passed. */
struct bitm_hash {
    struct bitm_index index; /* of the words of all levels; bits_len and samples are not read */
    const uint64_t *sizes;   /* the words of each level */
    size_t sizes_len;
    size_t keys;
};

/* Faults of a hash: which length is wrong, or NULL (see bitm_bits_fault).
 *
 *     struct bitm_hash hash = {.sizes_len = 257};
 *     if (bitm_hash_fault(&hash) == NULL) return 1; // sizes_len is above 256 */
static inline const char *bitm_hash_fault(const struct bitm_hash *hash)
{
    if (hash->sizes_len > 256) return "sizes_len is above 256";
    return bitm_tables_fault(hash->index.words_len, hash->index.upper_len, hash->index.lower_len);
}

/* The words of a level for the given number of hashes: `percent` bits for each 100 of them (below 50 it counts as 50),
 * at least one word: left * percent / 6400 + 1. 100 takes least memory, 200 less time.
 *
 *     if (bitm_hash_level_len(1000, 100) != 16) return 1; */
size_t bitm_hash_level_len(size_t left, uint32_t percent);

/* Writes the words of a level: its 1 bits are the bits that exactly one of the hashes falls on. The hashes that fall on
 * no 1 bit move to the start of the list, in their order, and left is how many they are. The rest of hashes, and again,
 * hold arbitrary numbers then. BITM_BAD_SIZE if ones_len is 0 or 2^58 or more, or again_len is not ones_len. Two passes
 * over the hashes.
 *
 *     uint64_t hashes[3] = {0x243f6a8885a308d3, 0x13198a2e03707344, 0xa4093822299f31d0};
 *     uint64_t words[1], again[1], left, ones;
 *     if (bitm_hash_level(hashes, 3, 0, words, 1, again, 1, &left) || bitm_bits_count(words, 1, 64, true, &ones) ||
 *         ones + left != 3) return 1; // a 1 bit, or left */
BITM_MUST_USE uint32_t bitm_hash_level(uint64_t *hashes, size_t hashes_len, uint32_t level, uint64_t *ones,
                                       size_t ones_len, uint64_t *again, size_t again_len, uint64_t *left);

/* Writes the words of all levels one after another, of bitm_hash_level_len words each, to sizes how many words each
 * has, to levels how many levels there are and to used_words how many words. It ends where no hash is left, or where
 * words, again or sizes have no room for one more level; left is how many hashes have no number: 0 unless hashes are
 * equal or there was no room. The call reorders hashes; again, and words and sizes past the levels, hold arbitrary
 * numbers then. BITM_BAD_SIZE if words_len is 2^58 or more.
 *
 *     uint64_t hashes[3] = {0x243f6a8885a308d3, 0x13198a2e03707344, 0xa4093822299f31d0};
 *     uint64_t words[8], again[8], sizes[8], levels, used, left;
 *     if (bitm_hash_build(hashes, 3, 100, words, 8, again, 8, sizes, 8, &levels, &used, &left) || left != 0 ||
 *         used != 1) return 1; */
BITM_MUST_USE uint32_t bitm_hash_build(uint64_t *hashes, size_t hashes_len, uint32_t percent, uint64_t *words,
                                       size_t words_len, uint64_t *again, size_t again_len, uint64_t *sizes,
                                       size_t sizes_len, uint64_t *levels, uint64_t *used_words, uint64_t *left);

/* The number of a hash: BITM_OK with a number below keys, WHATEVER tables and sizes hold; BITM_NONE where it falls on
 * no 1 bit of a level. Over right tables, and levels of these sizes with no more 1 bits than keys, it is the number of
 * the hash, and BITM_WRONG is not returned. A hash of no key may get any number below keys. Reads at most one word a
 * level, and what a rank reads.
 *
 * bitm_hash_get_list is bitm_hash_get of each item of a list (struct bitm_list_counts). 32 hashes go from level to
 * level side by side: for each no more is read than for one alone (evident from the code).
 *
 *     const uint64_t words[1] = {0x4802}, upper[1] = {0}, lower[1] = {0xc0180300000000}, sizes[1] = {1};
 *     struct bitm_hash hash = {{words, 1, upper, 1, lower, 1, 0, {0}, {0}, {0}}, sizes, 1, 3}; // by bitm_hash_build
 *     const uint64_t hashes[2] = {0xa4093822299f31d0, 0x243f6a8885a308d3};
 *     uint64_t number, numbers[2];
 *     struct bitm_list_counts counts;
 *     if (bitm_hash_get(&hash, 0x13198a2e03707344, &number) || number != 2 ||
 *         bitm_hash_get_list(&hash, hashes, 2, numbers, 2, &counts) || numbers[0] != 0 || numbers[1] != 1) return 1; */
BITM_MUST_USE uint32_t bitm_hash_get(const struct bitm_hash *hash, uint64_t key_hash, uint64_t *out);
BITM_MUST_USE uint32_t bitm_hash_get_list(const struct bitm_hash *hash, const uint64_t *key_hashes,
                                          size_t key_hashes_len, uint64_t *out, size_t out_len,
                                          struct bitm_list_counts *counts);

/* Writes the fingerprint of each key at its number: number k of the fingerprints, of width bits each, is the lowest
 * bits of the fingerprint of the key with number k. By it bitm_hash_find answers BITM_NONE for almost all that are no
 * keys. A fingerprint is any number that you compute from the key beside its hash. Over right tables and sizes, as
 * bitm_hash_get says, a number of several keys gets the fingerprint of the last of them, a number of no key keeps its
 * own, and BITM_WRONG says that a key has no number, or its fingerprint no room in the words; the others are written.
 * Over other tables the same holds for some number that a look-up of each key may answer. BITM_BAD_SIZE, and nothing is
 * written, as bitm_hash_get, if prints_len is 2^58 or more, width is above 64, or key_prints_len is not key_hashes_len.
 *
 *     const uint64_t words[1] = {0x4802}, upper[1] = {0}, lower[1] = {0xc0180300000000}, sizes[1] = {1};
 *     struct bitm_hash hash = {{words, 1, upper, 1, lower, 1, 0, {0}, {0}, {0}}, sizes, 1, 3}; // by bitm_hash_build
 *     const uint64_t hashes[2] = {0x243f6a8885a308d3, 0x13198a2e03707344}, marks[2] = {7, 11};
 *     uint64_t prints[1] = {0}; // 8 bits for each key
 *     if (bitm_hash_set_prints(&hash, hashes, 2, marks, 2, prints, 1, 8) || prints[0] != 0xb0700) return 1; */
BITM_MUST_USE uint32_t bitm_hash_set_prints(const struct bitm_hash *hash, const uint64_t *key_hashes,
                                            size_t key_hashes_len, const uint64_t *key_prints, size_t key_prints_len,
                                            uint64_t *prints, size_t prints_len, uint32_t width);

/* The number of a key, by its hash and its fingerprint: the number that bitm_hash_get answers, but BITM_NONE where the
 * fingerprint at that number is not the lowest width bits of key_print, and BITM_WRONG where no fingerprint stands
 * there. So a value that is no key, with a good hash, finds a number once in 2^width. BITM_BAD_SIZE as bitm_hash_get,
 * if prints_len is 2^58 or more, or width is above 64. Reads what bitm_hash_get reads, and at most two words of the
 * fingerprints (evident from the code).
 *
 * bitm_hash_find_list is bitm_hash_find of each pair key_hashes[i], key_prints[i] (struct bitm_list_counts).
 *
 *     const uint64_t words[1] = {0x4802}, upper[1] = {0}, lower[1] = {0xc0180300000000}, sizes[1] = {1};
 *     struct bitm_hash hash = {{words, 1, upper, 1, lower, 1, 0, {0}, {0}, {0}}, sizes, 1, 3}; // by bitm_hash_build
 *     const uint64_t hashes[2] = {0x243f6a8885a308d3, 0x13198a2e03707344}, claimed[2] = {7, 12};
 *     const uint64_t prints[1] = {0xb0700}; // 7 of the key with number 1, and 11 of the key with number 2
 *     uint64_t number, numbers[2];
 *     struct bitm_list_counts counts;
 *     if (bitm_hash_find(&hash, prints, 1, 8, hashes[1], 11, &number) || number != 2 ||
 *         bitm_hash_find_list(&hash, prints, 1, 8, hashes, 2, claimed, 2, numbers, 2, &counts) ||
 *         counts.missing != 1) return 1; */
BITM_MUST_USE uint32_t bitm_hash_find(const struct bitm_hash *hash, const uint64_t *prints, size_t prints_len,
                                      uint32_t width, uint64_t key_hash, uint64_t key_print, uint64_t *out);
BITM_MUST_USE uint32_t bitm_hash_find_list(const struct bitm_hash *hash, const uint64_t *prints, size_t prints_len,
                                           uint32_t width, const uint64_t *key_hashes, size_t key_hashes_len,
                                           const uint64_t *key_prints, size_t key_prints_len, uint64_t *out,
                                           size_t out_len, struct bitm_list_counts *counts);

/* ---- minimal perfect hashes with a seed for each word
 *
 * Where each word of the levels has a seed, more of its hashes fall on a bit alone, and all takes fewer bits a key:
 * 2.26 with 64 tries at 100 per cent, seeds and tables included. A seed is a byte. Building takes more time, for each
 * seed that is tried. Queries take a hash with its seeds, and answer as the calls without seeds:
 *
 *     uint64_t hashes[3] = {0x243f6a8885a308d3, 0x13198a2e03707344, 0xa4093822299f31d0}, sorted[3];
 *     uint64_t words[8], hit[8], sizes[8], upper[1], lower[1], k, n, left, ones, number;
 *     uint8_t seeds[8];
 *     if (bitm_hash_build_seeded(hashes, 3, 100, 64, words, 8, seeds, 8, hit, 8, sorted, 3, sizes, 8, &k, &n, &left) ||
 *         left > 0 || bitm_index_build(words, n, upper, 1, lower, 1, &ones)) return 1;
 *     struct bitm_seeded_hash hash = {{{words, n, upper, 1, lower, 1, 0, {0}, {0}, {0}}, sizes, k, 3}, seeds, n};
 *     if (bitm_hash_get_seeded(&hash, 0x13198a2e03707344, &number) || number > 2) return 1;
 *
 * A dictionary takes a hash without seeds. The block of a hash can have seeds: see bitm_hash_block_build_seeded.
 *
 *   - errors: as for a hash without seeds; BITM_BAD_SIZE also if seeds_len is neither 0 nor words_len.
 *   - reads: for each level a query reads one seed too (evident from the code).
 *   - overlap: memory that a call writes overlaps nothing else that it is passed. */
struct bitm_seeded_hash {
    struct bitm_hash hash;
    const uint8_t *seeds; /* of the words of all levels */
    size_t seeds_len;     /* hash.index.words_len, or 0: the hash is one without seeds */
};

/* Faults of a hash with seeds: which length is wrong, or NULL (see bitm_bits_fault).
 *
 *     struct bitm_seeded_hash hash = {.seeds_len = 1};
 *     if (bitm_seeded_hash_fault(&hash) == NULL) return 1; // seeds_len is not words_len */
static inline const char *bitm_seeded_hash_fault(const struct bitm_seeded_hash *hash)
{
    if (hash->seeds_len && hash->seeds_len != hash->hash.index.words_len) return "seeds_len is not words_len";
    return bitm_hash_fault(&hash->hash);
}

/* Builds as bitm_hash_build, and writes a seed for each word to the start of seeds: of the first `tries`, at most 256,
 * the first by which most of the hashes that fall in the word fall on a bit alone. again and sorted hold arbitrary
 * numbers then, and so do seeds past the levels. BITM_BAD_SIZE also if seeds_len is below words_len, or sorted_len
 * below hashes_len. Each level is four passes over the hashes that are left, and one for each seed that is tried
 * (evident from the code).
 *
 *     uint64_t hashes[2] = {0x243f6a8885a308d3, 0x13198a2e03707344}, sorted[2];
 *     uint64_t words[8], hit[8], sizes[8], k, n, left;
 *     uint8_t seeds[8];
 *     if (bitm_hash_build_seeded(hashes, 2, 100, 64, words, 8, seeds, 8, hit, 8, sorted, 2, sizes, 8, &k, &n, &left) ||
 *         left > 0 || n != 1) return 1; */
BITM_MUST_USE uint32_t bitm_hash_build_seeded(uint64_t *hashes, size_t hashes_len, uint32_t percent, uint16_t tries,
                                              uint64_t *words, size_t words_len, uint8_t *seeds, size_t seeds_len,
                                              uint64_t *again, size_t again_len, uint64_t *sorted, size_t sorted_len,
                                              uint64_t *sizes, size_t sizes_len, uint64_t *levels,
                                              uint64_t *used_words, uint64_t *left);

/* Writes the words of a level as bitm_hash_level, and a seed for each of them, as bitm_hash_build_seeded. So a caller
 * that builds level by level can say how far it is. sorted holds arbitrary numbers then. BITM_BAD_SIZE also if
 * seeds_len is not ones_len, or sorted_len is below hashes_len. Four passes over the hashes, and one for each seed that
 * is tried (evident from the code).
 *
 *     uint64_t hashes[3] = {0x243f6a8885a308d3, 0x13198a2e03707344, 0xa4093822299f31d0}, sorted[3];
 *     uint64_t words[1], again[1], left, ones;
 *     uint8_t seeds[1];
 *     if (bitm_hash_level_seeded(hashes, 3, 0, 64, words, 1, seeds, 1, again, 1, sorted, 3, &left) ||
 *         bitm_bits_count(words, 1, 64, true, &ones) || ones + left != 3) return 1; // a 1 bit, or left */
BITM_MUST_USE uint32_t bitm_hash_level_seeded(uint64_t *hashes, size_t hashes_len, uint32_t level, uint16_t tries,
                                              uint64_t *ones, size_t ones_len, uint8_t *seeds, size_t seeds_len,
                                              uint64_t *again, size_t again_len, uint64_t *sorted, size_t sorted_len,
                                              uint64_t *left);

/* As the calls without _seeded; BITM_BAD_SIZE exactly if these return it, or seeds_len is neither 0 nor words_len.
 *
 *     const uint64_t words[1] = {0x8000840000000000}, upper[1] = {0}, lower[1] = {0xc0180300000000}, sizes[1] = {1};
 *     const uint64_t hashes[2] = {0x243f6a8885a308d3, 0x13198a2e03707344}, marks[2] = {7, 11}, claimed[2] = {7, 12};
 *     const uint8_t seeds[1] = {0};
 *     const struct bitm_seeded_hash hash = {{{words, 1, upper, 1, lower, 1, 0, {0}, {0}, {0}}, sizes, 1, 3}, seeds, 1};
 *     uint64_t prints[1] = {0}, out[2], number;
 *     struct bitm_list_counts n;
 *     if (bitm_hash_get_seeded(&hash, hashes[1], &number) || bitm_hash_get_list_seeded(&hash, hashes, 2, out, 2, &n) ||
 *         out[1] != number || bitm_hash_set_prints_seeded(&hash, hashes, 2, marks, 2, prints, 1, 8) ||
 *         bitm_hash_find_seeded(&hash, prints, 1, 8, hashes[1], 11, &number) ||
 *         bitm_hash_find_list_seeded(&hash, prints, 1, 8, hashes, 2, claimed, 2, out, 2, &n) ||
 *         n.missing != 1) return 1; */
BITM_MUST_USE uint32_t bitm_hash_get_seeded(const struct bitm_seeded_hash *hash, uint64_t key_hash, uint64_t *out);
BITM_MUST_USE uint32_t bitm_hash_get_list_seeded(const struct bitm_seeded_hash *hash, const uint64_t *key_hashes,
                                                 size_t key_hashes_len, uint64_t *out, size_t out_len,
                                                 struct bitm_list_counts *counts);
BITM_MUST_USE uint32_t bitm_hash_set_prints_seeded(const struct bitm_seeded_hash *hash, const uint64_t *key_hashes,
                                                   size_t key_hashes_len, const uint64_t *key_prints,
                                                   size_t key_prints_len, uint64_t *prints, size_t prints_len,
                                                   uint32_t width);
BITM_MUST_USE uint32_t bitm_hash_find_seeded(const struct bitm_seeded_hash *hash, const uint64_t *prints,
                                             size_t prints_len, uint32_t width, uint64_t key_hash,
                                             uint64_t key_print, uint64_t *out);
BITM_MUST_USE uint32_t bitm_hash_find_list_seeded(const struct bitm_seeded_hash *hash, const uint64_t *prints,
                                                  size_t prints_len, uint32_t width, const uint64_t *key_hashes,
                                                  size_t key_hashes_len, const uint64_t *key_prints,
                                                  size_t key_prints_len, uint64_t *out, size_t out_len,
                                                  struct bitm_list_counts *counts);

/* ---- stored
 *
 * A file is a header of 192 bytes and the parts that it names, in this order, each from a multiple of 64 bytes on:
 * words, upper and lower table, low bits of a sequence, starts and samples. The lengths determine all of it. To write
 * an index, take memory of the size that bitm_stored_index_room says, and keep the first s.size bytes:
 *
 *     const uint64_t words[2] = {0x5a, 1};
 *     uint64_t file[64] = {0}, rank; // or mapped; bitm_stored_index_room says 512 bytes
 *     struct bitm_stored s;
 *     struct bitm_index index;
 *     if (bitm_stored_index_room(100, 12, 0, &s) || s.size > sizeof file ||
 *         bitm_stored_write_index(words, 2, 100, 12, 0, file, 64, &s) ||
 *         bitm_stored_open_index(file, s.size / 8, &index) || bitm_index_rank(&index, true, 100, &rank) ||
 *         rank != 5) return 1;
 *
 * The bytes between two parts, at most 63, are not written; in zeroed memory the same bits give the same bytes. A part
 * can be built in its place too. A header says nothing of the contents of the parts: bitm_index_check,
 * bitm_index_check_samples and bitm_sequence_check do.
 *
 *   - errors: each call names its statuses; an error writes nothing.
 *   - reads: a call reads headers alone (evident from the code), but for bitm_stored_build and bitm_stored_write_index,
 *     which read the words.
 *   - overlap: memory that a call writes overlaps nothing else that it is passed. */
#define BITM_STORED_INDEX 1
#define BITM_STORED_SEQUENCE 2

/* Items of a file: how many bytes there are before the first, and how many items. */
struct bitm_span {
    uint64_t at;
    uint64_t len;
};

struct bitm_stored {
    uint64_t mark; /* format, version and byte order */
    uint64_t kind;
    uint64_t len;   /* bits of an index, numbers of a sequence */
    uint64_t width; /* low bits of each number of a sequence */
    uint64_t size;  /* bytes in all, header and parts: a multiple of 64 */
    uint64_t ones_log2; /* of the samples, 0 where there are none */
    uint64_t zeros_log2;
    struct bitm_span words;
    struct bitm_span upper;
    struct bitm_span lower;
    struct bitm_span low;
    struct bitm_span starts;  /* of the samples of 1 bits */
    struct bitm_span starts0; /* of the samples of 0 bits */
    struct bitm_span samples;
    struct bitm_span samples0;
    uint64_t checksum; /* of the numbers above */
};

/* Writes the header of an index of bits_len bits, with the given numbers of samples of 1 bits and of 0 bits, each with
 * a log2 of 7 to 31, or 0 and no samples. BITM_BAD_SIZE for other log2, more samples than bitm_index_samples_len says
 * for the words, or more than 2^64 - 64 bits.
 *
 * bitm_stored_index_room writes the same header with the greatest numbers of samples that bits_len bits can have:
 * out->size bytes hold every index of that many bits.
 *
 *     struct bitm_stored header, room;
 *     if (bitm_stored_index(100, 0, 0, 0, 0, &header) || header.kind != BITM_STORED_INDEX || header.len != 100 ||
 *         bitm_stored_index_room(100, 12, 0, &room) || room.size != 512 || room.samples.len != 1) return 1; */
BITM_MUST_USE uint32_t bitm_stored_index(uint64_t bits_len, uint32_t ones_log2, uint64_t ones_len, uint32_t zeros_log2,
                                         uint64_t zeros_len, struct bitm_stored *out);
BITM_MUST_USE uint32_t bitm_stored_index_room(uint64_t bits_len, uint32_t ones_log2, uint32_t zeros_log2,
                                              struct bitm_stored *out);

/* Copies the first bits_len bits of words to an index in the caller's memory, 0 bits after them; writes its tables, the
 * samples of 1 bits and of 0 bits, each with a log2 of 7 to 31, or 0 and none, and to out the header of such a file.
 * The samples of 0 bits begin at the first multiple of 16 after the others. BITM_BAD_SIZE if words has fewer bits, to,
 * upper, lower, starts or starts0 is not as long as bitm_stored_index_room says, samples has no room for the greatest
 * number of each kind, or a log2 is neither 0 nor 7 to 31. Reads the words twice (evident from the code).
 *
 *     const uint64_t words[2] = {0x5a, 1};
 *     uint64_t to[2], upper[1], lower[1];
 *     struct bitm_stored header;
 *     if (bitm_stored_build(words, 2, 100, 0, 0, to, 2, upper, 1, lower, 1, NULL, 0, NULL, 0, NULL, 0, &header) ||
 *         header.words.len != 2 || to[1] != 1) return 1; */
BITM_MUST_USE uint32_t bitm_stored_build(const uint64_t *words, size_t words_len, uint64_t bits_len, uint32_t ones_log2,
                                         uint32_t zeros_log2, uint64_t *to, size_t to_len, uint64_t *upper,
                                         size_t upper_len, uint64_t *lower, size_t lower_len, uint64_t *starts,
                                         size_t starts_len, uint64_t *starts0, size_t starts0_len, uint32_t *samples,
                                         size_t samples_len, struct bitm_stored *out);

/* Writes the header of a sequence of len numbers. BITM_BAD_SIZE where no sequence can have such lengths.
 *
 *     const uint64_t primes[5] = {2, 3, 5, 7, 11};
 *     uint64_t file[56] = {0}, width; // or mapped
 *     struct bitm_sequence_lens lens;
 *     struct bitm_stored *const q = (struct bitm_stored *)file; // the header stands first
 *     if (bitm_sequence_sizes(5, 11, &lens) || bitm_stored_sequence(5, &lens, q) || q->size > sizeof file) return 1;
 *     uint64_t *const low = bitm_stored_room(file, q->low), *const high = bitm_stored_room(file, q->words);
 *     uint64_t *const upper = bitm_stored_room(file, q->upper), *const lower = bitm_stored_room(file, q->lower);
 *     if (bitm_sequence_build(primes, 5, low, q->low.len, high, q->words.len, upper, 1, lower, 1, &width)) return 1; */
BITM_MUST_USE uint32_t bitm_stored_sequence(uint64_t len, const struct bitm_sequence_lens *lens,
                                            struct bitm_stored *out);

/* The header that file_len words begin with, as they stand in a file that was mapped or read. BITM_OK exactly if
 * bitm_stored_index or bitm_stored_sequence writes such a header on this machine, and the file is not shorter than the
 * header says: then each part lies inside the file, after the part before it. BITM_WRONG else.
 *
 *     const uint64_t words[2] = {0x5a, 1};
 *     uint64_t file[48] = {0};
 *     struct bitm_stored s;
 *     if (bitm_stored_write_index(words, 2, 100, 0, 0, file, 48, &s) || bitm_stored_read(file, 48, &s) ||
 *         s.kind != BITM_STORED_INDEX || bitm_stored_read(file, 47, &s) != BITM_WRONG) return 1; // cut off */
BITM_MUST_USE uint32_t bitm_stored_read(const uint64_t *file, size_t file_len, struct bitm_stored *out);

/* The items of a part of the file: to read them, and to build them in their place. Parts begin at whole words.
 *
 *     uint64_t file[48] = {0};
 *     const struct bitm_span part = {.at = 192, .len = 2}; // after the header
 *     if (bitm_stored_items(file, part) != file + 24 || bitm_stored_room(file, part) != file + 24) return 1; */
static inline const uint64_t *bitm_stored_items(const uint64_t *file, struct bitm_span part)
{
    return file + part.at / 8;
}
static inline uint64_t *bitm_stored_room(uint64_t *file, struct bitm_span part)
{
    return file + part.at / 8;
}

/* The parts of a file, where bitm_stored_read returned BITM_OK: they lie inside it. A sequence has no hints there.
 *
 *     const uint64_t words[2] = {0x5a, 1};
 *     uint64_t file[64] = {0};
 *     struct bitm_stored s, q;
 *     if (bitm_stored_write_index(words, 2, 100, 12, 0, file, 64, &s) || bitm_stored_read(file, 64, &s) ||
 *         bitm_stored_index(0, 0, 0, 0, 0, &q)) return 1;
 *     if (bitm_stored_index_of(file, &s).bits_len != 100 || bitm_stored_sequence_of(file, &q).len != 0 ||
 *         bitm_stored_samples_of(file, s.samples, s.starts, s.ones_log2).log2 != 12) return 1; */
static inline struct bitm_samples bitm_stored_samples_of(const uint64_t *file, struct bitm_span samples,
                                                         struct bitm_span starts, uint64_t log2)
{
    struct bitm_samples some;
    const void *const at = bitm_stored_items(file, samples);
#ifdef __cplusplus
    some.samples = static_cast<const uint32_t *>(at);
#else
    some.samples = at;
#endif
    some.samples_len = samples.len;
    some.starts = bitm_stored_items(file, starts);
    some.starts_len = starts.len;
    some.log2 = log2 & UINT32_MAX;
    some.reserved = 0;
    return some;
}

static inline struct bitm_index bitm_stored_index_of(const uint64_t *file, const struct bitm_stored *s)
{
    struct bitm_index index;
    index.words = bitm_stored_items(file, s->words);
    index.words_len = s->words.len;
    index.upper = bitm_stored_items(file, s->upper);
    index.upper_len = s->upper.len;
    index.lower = bitm_stored_items(file, s->lower);
    index.lower_len = s->lower.len;
    index.bits_len = s->len;
    index.ones = bitm_stored_samples_of(file, s->samples, s->starts, s->ones_log2);
    index.zeros = bitm_stored_samples_of(file, s->samples0, s->starts0, s->zeros_log2);
    index.reserved[0] = 0;
    index.reserved[1] = 0;
    return index;
}

static inline struct bitm_sequence bitm_stored_sequence_of(const uint64_t *file, const struct bitm_stored *s)
{
    struct bitm_sequence sequence;
    sequence.len = s->len;
    sequence.width = s->width;
    sequence.low = bitm_stored_items(file, s->low);
    sequence.low_len = s->low.len;
    sequence.words = bitm_stored_items(file, s->words);
    sequence.words_len = s->words.len;
    sequence.upper = bitm_stored_items(file, s->upper);
    sequence.upper_len = s->upper.len;
    sequence.lower = bitm_stored_items(file, s->lower);
    sequence.lower_len = s->lower.len;
    sequence.hints = NULL;
    sequence.hints_len = 0;
    return sequence;
}

/* Writes a whole file of an index of the first bits_len bits of words, and its header to s too: to the first s->size /
 * 8 of the file_len words of file. BITM_BAD_SIZE as bitm_stored_build, and if file_len is less than
 * bitm_stored_index_room says.
 *
 *     const uint64_t words[2] = {0x5a, 1};
 *     uint64_t file[48] = {0};
 *     struct bitm_stored s;
 *     if (bitm_stored_write_index(words, 2, 100, 0, 0, file, 48, &s) || s.size != 384) return 1; */
BITM_MUST_USE static inline uint32_t bitm_stored_write_index(const uint64_t *words, size_t words_len, uint64_t bits_len,
                                                             uint32_t ones_log2, uint32_t zeros_log2, uint64_t *file,
                                                             size_t file_len, struct bitm_stored *s)
{
    struct bitm_stored r;
    uint32_t status = bitm_stored_index_room(bits_len, ones_log2, zeros_log2, &r);
    if (status != BITM_OK) return status;
    if (file_len < r.size / 8) return BITM_BAD_SIZE;
    void *const samples = bitm_stored_room(file, r.samples), *const front = file;
#ifdef __cplusplus
    uint32_t *const numbers = static_cast<uint32_t *>(samples);
    bitm_stored *const header = static_cast<bitm_stored *>(front);
#else
    uint32_t *const numbers = samples;
    struct bitm_stored *const header = front;
#endif
    status = bitm_stored_build(words, words_len, bits_len, ones_log2, zeros_log2, bitm_stored_room(file, r.words),
                               r.words.len, bitm_stored_room(file, r.upper), r.upper.len,
                               bitm_stored_room(file, r.lower), r.lower.len, bitm_stored_room(file, r.starts),
                               r.starts.len, bitm_stored_room(file, r.starts0), r.starts0.len, numbers,
                               (r.size - r.samples.at) / 4, s);
    if (status == BITM_OK) *header = *s;
    return status;
}

/* The index that file_len words hold, as bitm_stored_read and bitm_stored_index_of. BITM_WRONG also for a sequence.
 *
 *     const uint64_t words[2] = {0x5a, 1};
 *     uint64_t file[48] = {0}, position;
 *     struct bitm_stored s;
 *     struct bitm_index index;
 *     if (bitm_stored_write_index(words, 2, 100, 0, 0, file, 48, &s) || bitm_stored_open_index(file, 48, &index) ||
 *         bitm_index_select(&index, true, 4, &position) || position != 64) return 1; */
BITM_MUST_USE static inline uint32_t bitm_stored_open_index(const uint64_t *file, size_t file_len,
                                                            struct bitm_index *index)
{
    struct bitm_stored s;
    if (bitm_stored_read(file, file_len, &s) != BITM_OK || s.kind != BITM_STORED_INDEX) return BITM_WRONG;
    *index = bitm_stored_index_of(file, &s);
    return BITM_OK;
}

/* ---- shards: bits in several indexes, one after the other, queried as one
 *
 * Beside the shards stand prefix counts: for each shard how many bits, and how many 1 bits, there are before it, and at
 * the end how many there are in all. Which shard holds a position, or the bit with a rank, is answered by these alone,
 * so that shards may lie in other files or on other machines:
 *
 *     const uint64_t bits_of[2] = {1000, 700}, ones_of[2] = {480, 351};
 *     uint64_t bits[3], ones[3];
 *     struct bitm_shard_location location;
 *     if (bitm_prefix_sums(bits_of, 2, bits, 3) || bitm_prefix_sums(ones_of, 2, ones, 3)) return 1;
 *     struct bitm_prefixes counts = {.bits = bits, .bits_len = 3, .ones = ones, .ones_len = 3};
 *     if (bitm_shards_find(&counts, BITM_ONES, 500, &location) ||
 *         location.shard != 1 || location.within != 20) return 1;
 *
 * The position of that bit is bits[location.shard] + its position in the shard; the rank of a position is
 * ones[location.shard] + its rank in the shard. Both, and that the shard has this position or rank, are proved for
 * any number of shards, empty ones too, and fewer than 2^64 bits, where the counts match the shards.
 *
 *   - errors: BITM_BAD_SIZE if a length in the struct is not right. A query returns BITM_WRONG only where counts or
 *     tables turn out to be wrong. An error writes nothing but room.
 *   - reads: a query searches the counts, and makes one query of a shard, or two.
 *   - overlap: memory that a call writes overlaps nothing else that it is passed. */

/* What is numbered. */
#define BITM_ZEROS 0     /* ranks of 0 bits */
#define BITM_ONES 1      /* ranks of 1 bits */
#define BITM_POSITIONS 2 /* positions */

/* Prefix counts: one number more than shards, of either kind. Calls that take them return BITM_BAD_SIZE if bits_len is
 * 0, or ones_len is not bits_len. */
struct bitm_prefixes {
    const uint64_t *bits;
    size_t bits_len;
    const uint64_t *ones;
    size_t ones_len;
};

/* A shard, and a position in it or the rank of a bit there. */
struct bitm_shard_location {
    size_t shard;
    uint64_t within;
};

/* The shards themselves with their counts, where all lie in this process. Calls that take them return BITM_BAD_SIZE
 * also if counts.bits_len is not shards_len + 1. Over any counts and tables, a rank is at most its position and a
 * selection finds a position below the claimed number of bits that in some shard holds the requested bit; if the counts
 * match the shards, and each shard's tables match its words, the answer is what counting in the joined bits gives. */
struct bitm_shards {
    struct bitm_prefixes counts;
    const struct bitm_index *shards;
    size_t shards_len;
    uint64_t reserved[2]; /* 0: not given */
};

/* Faults of prefix counts, and of shards: which length is wrong, or NULL (see bitm_bits_fault). bitm_index_fault names
 * the faults of one shard.
 *
 *     struct bitm_shards shards = {.shards_len = 1};
 *     if (bitm_shards_fault(&shards) == NULL ||
 *         bitm_prefixes_fault(&shards.counts) == NULL) return 1; // bits_len is 0 */
static inline const char *bitm_prefixes_fault(const struct bitm_prefixes *counts)
{
    if (counts->bits_len == 0) return "bits_len is 0";
    if (counts->ones_len != counts->bits_len) return "ones_len is not bits_len";
    return NULL;
}
static inline const char *bitm_shards_fault(const struct bitm_shards *shards)
{
    const char *const fault = bitm_prefixes_fault(&shards->counts);
    if (fault) return fault;
    if (shards->shards_len != shards->counts.bits_len - 1) return "shards_len is not counts.bits_len - 1";
    return NULL;
}

/* Writes the sum of the numbers before each number, and at the end the sum of all. BITM_BAD_SIZE if out_len is not
 * numbers_len + 1, or the sum is 2^64 or more.
 *
 *     const uint64_t numbers[2] = {1000, 700};
 *     uint64_t sums[3];
 *     if (bitm_prefix_sums(numbers, 2, sums, 3) || sums[0] != 0 || sums[1] != 1000 || sums[2] != 1700) return 1; */
BITM_MUST_USE uint32_t bitm_prefix_sums(const uint64_t *numbers, size_t numbers_len, uint64_t *out, size_t out_len);

/* Whether sums are the numbers that bitm_prefix_sums writes: BITM_OK or BITM_WRONG.
 *
 *     const uint64_t numbers[2] = {1000, 700}, sums[3] = {0, 1000, 1700};
 *     if (bitm_prefix_sums_check(numbers, 2, sums, 3) ||
 *         bitm_prefix_sums_check(numbers, 2, sums, 2) != BITM_WRONG) return 1; */
BITM_MUST_USE uint32_t bitm_prefix_sums_check(const uint64_t *numbers, size_t numbers_len, const uint64_t *sums,
                                              size_t sums_len);

/* The shard that holds a position, or the bit of a kind with a rank, and the position or rank in it. BITM_NONE exactly
 * if the counts claim no more than `number` in all; BITM_WRONG only if they claim more than `number` before the first
 * shard, and so never if they match the shards. BITM_BAD_SIZE also if kind is none of the three. Reads a pair of counts
 * for each halving of their number, and three more (evident from the code).
 *
 *     const uint64_t bits[3] = {0, 1000, 1700}, ones[3] = {0, 480, 831}; // of two shards, of 1000 and of 700 bits
 *     const struct bitm_prefixes counts = {bits, 3, ones, 3};
 *     struct bitm_shard_location location;
 *     if (bitm_shards_find(&counts, BITM_POSITIONS, 1600, &location) ||
 *         location.shard != 1 || location.within != 600 ||
 *         bitm_shards_find(&counts, BITM_ONES, 831, &location) != BITM_NONE) return 1; */
BITM_MUST_USE uint32_t bitm_shards_find(const struct bitm_prefixes *counts, uint32_t kind, uint64_t number,
                                        struct bitm_shard_location *out);

/* bitm_index_rank and bitm_index_select of the joined bits: one search among the counts, and one query of a shard.
 * BITM_NONE exactly if position is above the number of all bits that the counts claim, or rank is not below the number
 * of bits of its kind. BITM_WRONG if counts or tables turn out to be wrong.
 *
 *     const uint64_t words[2] = {0x5a, 1}, bits[3] = {0, 100, 200}, counts[3] = {0, 5, 10};
 *     uint64_t upper[1], lower[1], ones, rank, position;
 *     if (bitm_index_build(words, 2, upper, 1, lower, 1, &ones)) return 1;
 *     const struct bitm_index index = {words, 2, upper, 1, lower, 1, 100, {0}, {0}, {0}}, twice[2] = {index, index};
 *     const struct bitm_shards shards = {{bits, 3, counts, 3}, twice, 2, {0}};
 *     if (bitm_shards_rank(&shards, true, 104, &rank) || rank != 7 ||
 *         bitm_shards_select(&shards, true, 7, &position) || position != 104) return 1; */
BITM_MUST_USE uint32_t bitm_shards_rank(const struct bitm_shards *shards, bool one, uint64_t position, uint64_t *out);
BITM_MUST_USE uint32_t bitm_shards_select(const struct bitm_shards *shards, bool one, uint64_t rank, uint64_t *out);

/* bitm_index_next and bitm_index_previous of the joined bits: a rank and a selection, which read at most two shards
 * (evident from the code). Over any counts and tables, a position that is found is on the requested side of `from`,
 * below the claimed number of bits, and in some shard holds the requested bit. BITM_NONE if there is none; BITM_WRONG
 * if counts or tables turn out to be wrong.
 *
 *     const uint64_t words[2] = {0x5a, 1}, bits[3] = {0, 100, 200}, counts[3] = {0, 5, 10};
 *     uint64_t upper[1], lower[1], ones, position;
 *     if (bitm_index_build(words, 2, upper, 1, lower, 1, &ones)) return 1;
 *     const struct bitm_index index = {words, 2, upper, 1, lower, 1, 100, {0}, {0}, {0}}, twice[2] = {index, index};
 *     const struct bitm_shards shards = {{bits, 3, counts, 3}, twice, 2, {0}};
 *     if (bitm_shards_next(&shards, true, 105, &position) || position != 106 ||
 *         bitm_shards_previous(&shards, true, 100, &position) || position != 64) return 1; */
BITM_MUST_USE uint32_t bitm_shards_next(const struct bitm_shards *shards, bool one, uint64_t from, uint64_t *out);
BITM_MUST_USE uint32_t bitm_shards_previous(const struct bitm_shards *shards, bool one, uint64_t from, uint64_t *out);

/* bitm_index_rank_list and bitm_index_select_list of the joined bits (struct bitm_list_counts). Over wrong counts or
 * tables an answer may be another one that the call of one query may give. room is memory of any length, which is
 * overwritten, and shows in time alone: with at least 3 numbers for each query, one for each shard and one more, the
 * queries are grouped by shard (evident from the code, not proved). A list of more than 2^17 queries is answered
 * fastest in parts of 2^17. BITM_BAD_SIZE also if the counts claim 2^64 - 2 bits or more.
 *
 *     const uint64_t words[2] = {0x5a, 1}, bits[3] = {0, 100, 200}, ones_before[3] = {0, 5, 10}, at[2] = {7, 201};
 *     uint64_t upper[1], lower[1], ones, out[2], room[9]; // 3 * 2 + 2 + 1 numbers of room group them
 *     if (bitm_index_build(words, 2, upper, 1, lower, 1, &ones)) return 1;
 *     const struct bitm_index index = {words, 2, upper, 1, lower, 1, 100, {0}, {0}, {0}}, twice[2] = {index, index};
 *     const struct bitm_shards shards = {{bits, 3, ones_before, 3}, twice, 2, {0}};
 *     struct bitm_list_counts n;
 *     if (bitm_shards_select_list(&shards, true, at, 2, out, 2, room, 9, &n) || out[0] != 104 || n.missing != 1 ||
 *         bitm_shards_rank_list(&shards, true, at, 2, out, 2, room, 9, &n) || out[1] != BITM_NO_ANSWER) return 1; */
BITM_MUST_USE uint32_t bitm_shards_rank_list(const struct bitm_shards *shards, bool one, const uint64_t *positions,
                                             size_t positions_len, uint64_t *out, size_t out_len, uint64_t *room,
                                             size_t room_len, struct bitm_list_counts *counts);
BITM_MUST_USE uint32_t bitm_shards_select_list(const struct bitm_shards *shards, bool one, const uint64_t *ranks,
                                               size_t ranks_len, uint64_t *out, size_t out_len, uint64_t *room,
                                               size_t room_len, struct bitm_list_counts *counts);

/* ---- trees: each in one block of memory
 *
 * A tree of n nodes takes 2 n + 1 bits (LOUDS: Jacobson, FOCS 1989), their tables and their hints, about 2.6 bits a
 * node. Nodes are numbered level by level: the root is node 0, and the children of a node follow one another, after the
 * children of the node before it. A tree is built from the degree of each node, which is how many children it has:
 *
 *     const uint64_t degrees[4] = {2, 0, 1, 0}; // the root has the children 1 and 2, and node 2 has the child 3
 *     uint64_t block[64], size, node;           // or a mapped file
 *     struct bitm_tree tree;
 *     if (bitm_tree_size(4, &size) || size != 64 || bitm_tree_build(degrees, 4, block, 64) ||
 *         bitm_tree_open(block, 64, &tree) || bitm_tree_parent(&tree, 3, &node) || node != 2) return 1;
 *
 *   - errors: a query returns BITM_BAD_SIZE if a length in the struct does not fit its number of nodes, and BITM_WRONG
 *     only where the block holds no tree. An error writes nothing.
 *   - reads: queries select in words the bit of a node, and the ends of its children. Such a selection reads one hint
 *     and at most nine words; where there is no hint, or the bit is not in the eight words from its hint's word on, it
 *     reads also what bitm_index_select reads without samples. Calls for a list select without hints. A block that was
 *     written before there were hints opens without them. bitm_tree_open reads at most 80 words, however long the block
 *     is (evident from the code), and looks at no others.
 *   - overlap: memory that a call writes overlaps nothing else that it is passed.
 *   - over any block that bitm_tree_open takes, a stale or hostile one too, a query returns within the reads that are
 *     named below, a parent is less than its child, a child is less than tree.len, and a degree too. If bitm_tree_build
 *     wrote the block or bitm_tree_check passes it, and it did not change afterwards, the answers agree with one tree,
 *     and no query returns BITM_WRONG. */
struct bitm_tree {
    size_t len; /* how many nodes */
    const uint64_t *words;
    size_t words_len;
    const uint64_t *upper;
    size_t upper_len;
    const uint64_t *lower;
    size_t lower_len;
    const uint64_t *hints; /* NULL: none */
    size_t hints_len;      /* 0, or bitm_hints_len(len, words_len) */
};

/* Faults of a tree: which length is wrong, or NULL (see bitm_bits_fault).
 *
 *     struct bitm_tree tree = {.len = 1}; // no words
 *     if (bitm_tree_fault(&tree) == NULL) return 1; */
static inline const char *bitm_tree_fault(const struct bitm_tree *tree)
{
    if (tree->len >= (size_t)1 << 60) return "len is 2^60 or more";
    if (tree->words_len != bitm_bits_words_len(2 * tree->len + 1))
        return "words_len is not bitm_bits_words_len(2 * len + 1)";
    const char *const fault = bitm_tables_fault(tree->words_len, tree->upper_len, tree->lower_len);
    if (fault) return fault;
    if (tree->hints_len != 0 && tree->hints_len != bitm_hints_len(tree->len, tree->words_len))
        return "hints_len is neither 0 nor bitm_hints_len(len, words_len)";
    return NULL;
}

/* How many words the block of a tree of `nodes` nodes takes. BITM_BAD_SIZE if there are 2^60 or more.
 *
 *     uint64_t size;
 *     if (bitm_tree_size(4, &size) || size != 64) return 1; */
BITM_MUST_USE uint32_t bitm_tree_size(size_t nodes, uint64_t *out);

/* Writes the block of the tree whose nodes have these degrees. BITM_BAD_SIZE if bitm_tree_size does not take
 * degrees_len, or block_len is not the size that it gives; else BITM_WRONG if the degrees form no tree: in a tree there
 * is one child for each node but the root, and the first i nodes have at least i children, for each i from 1 to n - 1.
 * Allocates nothing, and needs no other memory.
 *
 *     const uint64_t degrees[4] = {2, 0, 1, 0}, none[2] = {0, 1}; // of none, node 1 would be its own parent
 *     uint64_t block[64]; // bitm_tree_size(4, ..) says 64
 *     if (bitm_tree_build(degrees, 4, block, 64) || bitm_tree_build(none, 2, block, 64) != BITM_WRONG) return 1; */
BITM_MUST_USE uint32_t bitm_tree_build(const uint64_t *degrees, size_t degrees_len, uint64_t *block, size_t block_len);

/* The first node at which degrees form no tree: BITM_OK with a node that is a child of no node before it, or whose
 * children make more nodes than there are degrees; BITM_NONE exactly if the degrees form a tree, or there are none.
 * Reads each degree up to there once (evident from the code).
 *
 *     const uint64_t degrees[2] = {0, 1};
 *     uint64_t node;
 *     if (bitm_tree_misfit(degrees, 2, &node) || node != 1) return 1; */
BITM_MUST_USE uint32_t bitm_tree_misfit(const uint64_t *degrees, size_t degrees_len, uint64_t *out);

/* Opens a block: writes the tree that queries take, which points into the block. BITM_WRONG exactly if the header or
 * the directory of the block is not right, or belongs to no tree, or block_len is not as they say.
 *
 * bitm_tree_check says whether a block is as it was written and holds a tree: BITM_OK, or BITM_WRONG as above, if a
 * checksum does not match its words, or if words, tables and hints form no tree. So a block in which one word was
 * changed is refused. Three passes over the words of the block, and a selection by the tables for each hint (evident
 * from the code).
 *
 *     const uint64_t degrees[4] = {2, 0, 1, 0};
 *     uint64_t block[64]; // bitm_tree_size(4, ..) says 64
 *     struct bitm_tree tree;
 *     if (bitm_tree_build(degrees, 4, block, 64) || bitm_tree_open(block, 64, &tree) || tree.len != 4 ||
 *         bitm_tree_open(block, 63, &tree) != BITM_WRONG || bitm_tree_check(block, 64)) return 1;
 *     block[40] ^= 1;
 *     if (bitm_tree_check(block, 64) != BITM_WRONG) return 1; */
BITM_MUST_USE uint32_t bitm_tree_open(const uint64_t *block, size_t block_len, struct bitm_tree *tree);
BITM_MUST_USE uint32_t bitm_tree_check(const uint64_t *block, size_t block_len);

/* The parent of a node. BITM_NONE exactly at the root and if there is no such node. Reads what one selection reads.
 *
 * bitm_tree_child answers child k of a node, counted from 0. BITM_NONE exactly if the node has no more than k children,
 * or there is no such node. Reads what one selection reads and two words if k is below 64, and what two selections read
 * otherwise.
 *
 *     const uint64_t degrees[4] = {2, 0, 1, 0}; // the root has the children 1 and 2, and node 2 has the child 3
 *     uint64_t block[64], node;                 // bitm_tree_size(4, ..) says 64
 *     struct bitm_tree tree;
 *     if (bitm_tree_build(degrees, 4, block, 64) || bitm_tree_open(block, 64, &tree) ||
 *         bitm_tree_parent(&tree, 3, &node) || node != 2 || bitm_tree_parent(&tree, 0, &node) != BITM_NONE ||
 *         bitm_tree_child(&tree, 0, 1, &node) || node != 2 ||
 *         bitm_tree_child(&tree, 0, 2, &node) != BITM_NONE) return 1; */
BITM_MUST_USE uint32_t bitm_tree_parent(const struct bitm_tree *tree, size_t node, uint64_t *out);
BITM_MUST_USE uint32_t bitm_tree_child(const struct bitm_tree *tree, size_t node, size_t k, uint64_t *out);

/* How many children a node has. BITM_NONE exactly if there is no such node. Reads what one selection reads and two
 * words, and what a second selection reads only if the end of the children is not in these: if there are 64 or more.
 *
 * bitm_tree_is_leaf answers whether a node has no children, as 0 or 1. BITM_NONE exactly if there is no such node.
 * Reads what one selection reads, and one word.
 *
 *     const uint64_t degrees[4] = {2, 0, 1, 0}; // the root has the children 1 and 2, and node 2 has the child 3
 *     uint64_t block[64], degree, is_leaf; // bitm_tree_size(4, ..) says 64
 *     struct bitm_tree tree;
 *     if (bitm_tree_build(degrees, 4, block, 64) || bitm_tree_open(block, 64, &tree) ||
 *         bitm_tree_degree(&tree, 0, &degree) || degree != 2 || bitm_tree_is_leaf(&tree, 3, &is_leaf) ||
 *         is_leaf != 1) return 1; */
BITM_MUST_USE uint32_t bitm_tree_degree(const struct bitm_tree *tree, size_t node, uint64_t *out);
BITM_MUST_USE uint32_t bitm_tree_is_leaf(const struct bitm_tree *tree, size_t node, uint64_t *out);

/* The next and the previous child of a node's parent: whatever the block holds, the node after it and the node before
 * it. BITM_NONE exactly at the last and the first child, at the root, and if there is no such node. Each reads what one
 * selection reads, and one word.
 *
 * bitm_tree_child_rank answers which child of its parent a node is, counted from 0: bitm_tree_child of the parent and
 * this number is the node. BITM_NONE exactly at the root and if there is no such node. Reads what two selections read.
 *
 *     const uint64_t degrees[4] = {2, 0, 1, 0}; // the root has the children 1 and 2, and node 2 has the child 3
 *     uint64_t block[64], node, rank;           // bitm_tree_size(4, ..) says 64
 *     struct bitm_tree tree;
 *     if (bitm_tree_build(degrees, 4, block, 64) || bitm_tree_open(block, 64, &tree) ||
 *         bitm_tree_next_sibling(&tree, 1, &node) || node != 2 ||
 *         bitm_tree_previous_sibling(&tree, 1, &node) != BITM_NONE || bitm_tree_child_rank(&tree, 2, &rank) ||
 *         rank != 1) return 1; */
BITM_MUST_USE uint32_t bitm_tree_next_sibling(const struct bitm_tree *tree, size_t node, uint64_t *out);
BITM_MUST_USE uint32_t bitm_tree_previous_sibling(const struct bitm_tree *tree, size_t node, uint64_t *out);
BITM_MUST_USE uint32_t bitm_tree_child_rank(const struct bitm_tree *tree, size_t node, uint64_t *out);

/* bitm_tree_parent, bitm_tree_degree and bitm_tree_child of each node of a list, the last with child ks[i] of nodes[i]
 * (struct bitm_list_counts). Bits of nodes are selected side by side, so over words that hold no tree an answer may
 * differ from the answer of the call for one node.
 *
 *     const uint64_t degrees[4] = {2, 0, 1, 0}, nodes[3] = {0, 3, 4}, ks[3] = {1, 0, 0};
 *     uint64_t block[64], out[3]; // bitm_tree_size(4, ..) says 64
 *     struct bitm_tree tree;
 *     struct bitm_list_counts n;
 *     if (bitm_tree_build(degrees, 4, block, 64) || bitm_tree_open(block, 64, &tree) ||
 *         bitm_tree_child_list(&tree, nodes, 3, ks, 3, out, 3, &n) || out[0] != 2 ||
 *         bitm_tree_degree_list(&tree, nodes, 3, out, 3, &n) || out[0] != 2 ||
 *         bitm_tree_parent_list(&tree, nodes, 3, out, 3, &n) || out[1] != 2 || n.missing != 2) return 1; // 0 and 4 */
BITM_MUST_USE uint32_t bitm_tree_parent_list(const struct bitm_tree *tree, const uint64_t *nodes, size_t nodes_len,
                                             uint64_t *out, size_t out_len, struct bitm_list_counts *counts);
BITM_MUST_USE uint32_t bitm_tree_degree_list(const struct bitm_tree *tree, const uint64_t *nodes, size_t nodes_len,
                                             uint64_t *out, size_t out_len, struct bitm_list_counts *counts);
BITM_MUST_USE uint32_t bitm_tree_child_list(const struct bitm_tree *tree, const uint64_t *nodes, size_t nodes_len,
                                            const uint64_t *ks, size_t ks_len, uint64_t *out, size_t out_len,
                                            struct bitm_list_counts *counts);

/* ---- tries: sets of words, each in one block of memory
 *
 * A trie is a tree in which each node but the root has a label, and the labels of the children of a node ascend. A
 * word, a list of labels, leads from the root to at most one node. Labels are numbers of `width` bits each, 1 to 63:
 * bytes, say. Ends are a bit for each node, lowest bit first, which says whether a word ends there; a trie may have
 * none. A node takes about 2.6 bits, its label and its end. labels[0] is the label of node 1, since the root has none.
 * The calls of a tree take trie.tree: parents, children by their number, degrees.
 *
 *     const uint64_t degrees[4] = {2, 0, 1, 0}, labels[3] = {'a', 'b', 'e'}, ends[1] = {14}; // a, b and be
 *     uint64_t block[88], size, node;                                                        // or a mapped file
 *     struct bitm_trie trie;
 *     if (bitm_trie_size(4, 8, true, &size) || size != 88 || // labels are bytes
 *         bitm_trie_build(degrees, 4, labels, 3, 8, ends, 1, block, 88) || bitm_trie_open(block, 88, &trie) ||
 *         bitm_trie_find_bytes(&trie, (const uint8_t *)"be", 2, &node) || node != 3 ||
 *         bitm_tree_parent(&trie.tree, 3, &node) || node != 2) return 1;
 *
 *   - errors: a query returns BITM_BAD_SIZE if a length in the struct does not fit its number of nodes and its width,
 *     and BITM_WRONG only where the block holds no trie. An error writes nothing, unless the call says otherwise.
 *   - reads: a query selects in the words of the tree, as the section on trees says, and reads labels; each call says
 *     how many. bitm_trie_open reads at most 80 words, however long the block is (evident from the code), and looks at
 *     no others.
 *   - overlap: memory that a call writes overlaps nothing else that it is passed.
 *   - over any block that bitm_trie_open takes, a stale or hostile one too, a query returns within the reads that are
 *     named below, a node that is found is less than trie.tree.len, and a child more than its node; a label has no more
 *     than trie.width bits, and the word of a node no more labels than the number of the node. If bitm_trie_build wrote
 *     the block or bitm_trie_check passes it, and it did not change afterwards, the answers agree with one trie, and no
 *     query returns BITM_WRONG. */
struct bitm_trie {
    struct bitm_tree tree; /* the nodes */
    uint64_t width;        /* how many bits a label has */
    const uint64_t *labels;
    size_t labels_len;
    const uint64_t *ends; /* NULL or no words where there are none */
    size_t ends_len;
    uint64_t reserved[2]; /* 0: not read */
};

/* Faults of a trie: which length is wrong, or NULL (see bitm_bits_fault).
 *
 *     struct bitm_trie trie = {.width = 64};
 *     if (bitm_trie_fault(&trie) == NULL) return 1; // width is not 1 to 63 */
static inline const char *bitm_trie_fault(const struct bitm_trie *trie)
{
    const size_t nodes = trie->tree.len, labels = nodes > 0 ? nodes - 1 : 0;
    if (nodes >= (size_t)1 << 57) return "tree.len is 2^57 or more";
    if (trie->width < 1 || trie->width > 63) return "width is not 1 to 63";
    if (trie->labels_len != bitm_bits_words_len(labels * trie->width))
        return "labels_len is not bitm_bits_words_len((tree.len - 1) * width)";
    if (trie->ends_len != 0 && trie->ends_len != bitm_bits_words_len(nodes))
        return "ends_len is neither 0 nor bitm_bits_words_len(tree.len)";
    return bitm_tree_fault(&trie->tree);
}

/* How many words the block of a trie of `nodes` nodes takes, whose labels have `width` bits, with ends or without.
 * BITM_BAD_SIZE if there are 2^57 nodes or more, or width is not 1 to 63.
 *
 *     uint64_t size;
 *     if (bitm_trie_size(4, 8, true, &size) || size != 88) return 1; */
BITM_MUST_USE uint32_t bitm_trie_size(size_t nodes, uint32_t width, bool has_ends, uint64_t *out);

/* Writes the block of the trie of these degrees and labels. ends are no words, or ceil(degrees_len / 64); they are
 * copied as they are. BITM_BAD_SIZE if bitm_trie_size does not take degrees_len and width, labels_len is not
 * degrees_len - 1 (0 if there are no degrees), ends_len is neither of these, or block_len is not what bitm_trie_size
 * says; else BITM_WRONG if the degrees form no tree (bitm_tree_build), a label has more than `width` bits, or the
 * labels of the children of a node do not ascend. Allocates nothing, and needs no other memory. Three passes over
 * degrees and labels, four over the block, and a selection for each hint (evident from the code).
 *
 *     const uint64_t degrees[4] = {2, 0, 1, 0}, labels[3] = {'a', 'b', 'e'}, falling[3] = {'b', 'a', 'e'};
 *     const uint64_t ends[1] = {14}; // nodes 1, 2 and 3: a, b and be
 *     uint64_t block[88]; // bitm_trie_size(4, 8, true, ..) says 88
 *     if (bitm_trie_build(degrees, 4, labels, 3, 8, ends, 1, block, 88) ||
 *         bitm_trie_build(degrees, 4, falling, 3, 8, ends, 1, block, 88) != BITM_WRONG) return 1; */
BITM_MUST_USE uint32_t bitm_trie_build(const uint64_t *degrees, size_t degrees_len, const uint64_t *labels,
                                       size_t labels_len, uint32_t width, const uint64_t *ends, size_t ends_len,
                                       uint64_t *block, size_t block_len);

/* How many nodes the trie of sorted words has, whose labels are bytes: the root, and one for each byte of a word after
 * the bytes in which it begins like the word before it. The words stand one after another in bytes: starts says where
 * each begins, and at last where the last one ends. They ascend by their bytes, as in a dictionary: a word stands
 * before a longer one that begins with it, and no word stands twice; the empty word may be one. BITM_BAD_SIZE exactly
 * if there are no starts, one is less than the one before it, or the last one is more than bytes_len; else
 * BITM_UNSORTED exactly if a word does not stand after the one before it. Three passes over the starts, and two over
 * the bytes (evident from the code).
 *
 *     const uint8_t *const bytes = (const uint8_t *)"aabeb";
 *     const uint64_t starts[4] = {0, 1, 4, 5}; // a, abe and b
 *     uint64_t nodes;
 *     if (bitm_trie_nodes_of_words(bytes, 5, starts, 4, &nodes) || nodes != 5 ||
 *         bitm_trie_nodes_of_words(bytes, 4, starts, 4, &nodes) != BITM_BAD_SIZE) return 1; */
BITM_MUST_USE uint32_t bitm_trie_nodes_of_words(const uint8_t *bytes, size_t bytes_len, const uint64_t *starts,
                                                size_t starts_len, uint64_t *out);

/* The first word that does not stand after the word before it: BITM_OK with its number; BITM_NONE exactly if the words
 * are sorted; BITM_BAD_SIZE as bitm_trie_nodes_of_words. Two passes over the starts and one over the bytes (evident
 * from the code).
 *
 *     const uint64_t swapped[4] = {1, 4, 4, 5}; // abe, the empty word and b
 *     uint64_t word;
 *     if (bitm_trie_unsorted_word((const uint8_t *)"aabeb", 5, swapped, 4, &word) || word != 1) return 1; */
BITM_MUST_USE uint32_t bitm_trie_unsorted_word(const uint8_t *bytes, size_t bytes_len, const uint64_t *starts,
                                               size_t starts_len, uint64_t *out);

/* Writes the block of the trie of sorted words, which are given as to bitm_trie_nodes_of_words, with labels of 8 bits
 * and ends: bitm_trie_find_bytes of a word finds a node, and bitm_trie_is_end says that a word ends there, exactly if
 * it is one of them. Let n be the number of nodes: as bitm_trie_nodes_of_words counts them, also where words do not
 * ascend. BITM_BAD_SIZE if bitm_trie_nodes_of_words returns it, if scratch_len is not 3 n - 2 + ceil(n / 64), or if
 * bitm_trie_size(n, 8, true, ..) does not give block_len; else BITM_UNSORTED if a word does not stand after the one
 * before it. Scratch is overwritten, whatever the status. Allocates nothing. Five passes over the starts, four over the
 * bytes, and the passes of bitm_trie_build (evident from the code).
 *
 *     const uint64_t starts[4] = {0, 1, 4, 5}; // a, abe and b: 5 nodes, which bitm_trie_nodes_of_words says
 *     uint64_t scratch[14], block[88], node, is_end; // bitm_trie_size(5, 8, true, ..) says 88
 *     struct bitm_trie trie;
 *     if (bitm_trie_build_words((const uint8_t *)"aabeb", 5, starts, 4, scratch, 14, block, 88) ||
 *         bitm_trie_open(block, 88, &trie) || bitm_trie_find_bytes(&trie, (const uint8_t *)"abe", 3, &node) ||
 *         node != 4 || bitm_trie_is_end(&trie, node, &is_end) || is_end != 1) return 1; */
BITM_MUST_USE uint32_t bitm_trie_build_words(const uint8_t *bytes, size_t bytes_len, const uint64_t *starts,
                                             size_t starts_len, uint64_t *scratch, size_t scratch_len, uint64_t *block,
                                             size_t block_len);

/* Opens a block: writes the trie that queries take, which points into the block. BITM_WRONG exactly if the header or
 * the directory of the block is not right, or belongs to no trie, or block_len is not as they say.
 *
 * bitm_trie_check says whether a block is as it was written and holds a trie: BITM_OK, or BITM_WRONG as above, if a
 * checksum does not match its words, if words, tables and hints form no tree, or if the labels of the children of a
 * node do not ascend. So a block in which one word was changed is refused. Four passes over the words of the block, and
 * a selection by the tables for each hint (evident from the code).
 *
 *     const uint64_t degrees[4] = {2, 0, 1, 0}, labels[3] = {'a', 'b', 'e'}, ends[1] = {14}; // a, b and be
 *     uint64_t block[88]; // bitm_trie_size(4, 8, true, ..) says 88
 *     struct bitm_trie trie;
 *     if (bitm_trie_build(degrees, 4, labels, 3, 8, ends, 1, block, 88) || bitm_trie_open(block, 88, &trie) ||
 *         bitm_trie_open(block, 87, &trie) != BITM_WRONG || bitm_trie_check(block, 88)) return 1;
 *     block[40] ^= 1;
 *     if (bitm_trie_check(block, 88) != BITM_WRONG) return 1; */
BITM_MUST_USE uint32_t bitm_trie_open(const uint64_t *block, size_t block_len, struct bitm_trie *trie);
BITM_MUST_USE uint32_t bitm_trie_check(const uint64_t *block, size_t block_len);

/* The label of a node. BITM_NONE exactly at the root and if there is no such node. Reads at most two words (evident
 * from the code).
 *
 * bitm_trie_is_end answers whether a word ends at a node, as 0 or 1. BITM_NONE exactly if there is no such node, or the
 * trie has no ends. Reads at most one word (evident from the code).
 *
 *     const uint64_t degrees[4] = {2, 0, 1, 0}, labels[3] = {'a', 'b', 'e'}, ends[1] = {14}; // a, b and be
 *     uint64_t block[88], label, is_end; // bitm_trie_size(4, 8, true, ..) says 88
 *     struct bitm_trie trie;
 *     if (bitm_trie_build(degrees, 4, labels, 3, 8, ends, 1, block, 88) || bitm_trie_open(block, 88, &trie) ||
 *         bitm_trie_label(&trie, 2, &label) || label != 'b' || bitm_trie_is_end(&trie, 3, &is_end) ||
 *         is_end != 1) return 1; */
BITM_MUST_USE uint32_t bitm_trie_label(const struct bitm_trie *trie, size_t node, uint64_t *out);
BITM_MUST_USE uint32_t bitm_trie_is_end(const struct bitm_trie *trie, size_t node, uint64_t *out);

/* The child of a node with the given label. BITM_NONE exactly if none has it, or there is no such node. Reads what
 * bitm_tree_degree reads, and a label for each binary digit of the number of nodes, and one.
 *
 *     const uint64_t degrees[4] = {2, 0, 1, 0}, labels[3] = {'a', 'b', 'e'}, ends[1] = {14}; // a, b and be
 *     uint64_t block[88], node; // bitm_trie_size(4, 8, true, ..) says 88
 *     struct bitm_trie trie;
 *     if (bitm_trie_build(degrees, 4, labels, 3, 8, ends, 1, block, 88) || bitm_trie_open(block, 88, &trie) ||
 *         bitm_trie_child(&trie, 0, 'b', &node) || node != 2 ||
 *         bitm_trie_child(&trie, 0, 'e', &node) != BITM_NONE) return 1; */
BITM_MUST_USE uint32_t bitm_trie_child(const struct bitm_trie *trie, size_t node, uint64_t label, uint64_t *out);

/* The node to which a word leads from the root, label by label: the root for an empty one. bitm_trie_is_end says
 * whether a word of the set ends there. A call over bytes takes each byte as a label. BITM_NONE exactly if the word
 * leads to no node. Each reads for each label of the word at most what bitm_trie_child reads.
 *
 *     const uint64_t degrees[4] = {2, 0, 1, 0}, labels[3] = {'a', 'b', 'e'}, ends[1] = {14}, be[2] = {'b', 'e'};
 *     uint64_t block[88], node; // bitm_trie_size(4, 8, true, ..) says 88
 *     struct bitm_trie trie;
 *     if (bitm_trie_build(degrees, 4, labels, 3, 8, ends, 1, block, 88) || bitm_trie_open(block, 88, &trie) ||
 *         bitm_trie_find(&trie, be, 2, &node) || node != 3 ||
 *         bitm_trie_find_bytes(&trie, (const uint8_t *)"ab", 2, &node) != BITM_NONE) return 1; */
BITM_MUST_USE uint32_t bitm_trie_find(const struct bitm_trie *trie, const uint64_t *word, size_t word_len,
                                      uint64_t *out);
BITM_MUST_USE uint32_t bitm_trie_find_bytes(const struct bitm_trie *trie, const uint8_t *word, size_t word_len,
                                            uint64_t *out);

/* The deepest node to which a beginning of a word leads from the root, and how many labels lead there: word_len where
 * the word leads to a node. No longer beginning of the word leads to one. So the longest word of the set with which a
 * text begins ends at that node, or at the first node above it that is an end. BITM_NONE exactly if there are no nodes:
 * a trie that was built has some. Each reads for each label of the word at most what bitm_trie_child reads.
 *
 *     const uint64_t degrees[4] = {2, 0, 1, 0}, labels[3] = {'a', 'b', 'e'}, ends[1] = {14}, bee[3] = {'b', 'e', 'e'};
 *     uint64_t block[88], node, matched; // bitm_trie_size(4, 8, true, ..) says 88
 *     struct bitm_trie trie;
 *     if (bitm_trie_build(degrees, 4, labels, 3, 8, ends, 1, block, 88) || bitm_trie_open(block, 88, &trie) ||
 *         bitm_trie_longest(&trie, bee, 3, &node, &matched) || node != 3 || matched != 2 ||
 *         bitm_trie_longest_bytes(&trie, (const uint8_t *)"at", 2, &node, &matched) || node != 1 ||
 *         matched != 1) return 1; */
BITM_MUST_USE uint32_t bitm_trie_longest(const struct bitm_trie *trie, const uint64_t *word, size_t word_len,
                                         uint64_t *node, uint64_t *matched);
BITM_MUST_USE uint32_t bitm_trie_longest_bytes(const struct bitm_trie *trie, const uint8_t *word, size_t word_len,
                                               uint64_t *node, uint64_t *matched);

/* How many labels the word has that leads from the root to a node. If they are no more than out_len, they are the last
 * items of out then, and the items before them stay as they are; else out holds no word. BITM_NONE exactly if there is
 * no such node; where it is BITM_WRONG, out may have changed. Reads for each label of the word what one selection
 * reads, and that label.
 *
 *     const uint64_t degrees[4] = {2, 0, 1, 0}, labels[3] = {'a', 'b', 'e'}, ends[1] = {14}; // a, b and be
 *     uint64_t block[88], word[4], len; // bitm_trie_size(4, 8, true, ..) says 88
 *     struct bitm_trie trie;
 *     if (bitm_trie_build(degrees, 4, labels, 3, 8, ends, 1, block, 88) || bitm_trie_open(block, 88, &trie) ||
 *         bitm_trie_word(&trie, 3, word, 4, &len) || len != 2 || word[2] != 'b' || word[3] != 'e') return 1; */
BITM_MUST_USE uint32_t bitm_trie_word(const struct bitm_trie *trie, size_t node, uint64_t *out, size_t out_len,
                                      uint64_t *word_len);

/* ---- matrices: lists of numbers in any order, each in one block of memory
 *
 * A wavelet matrix (Claude, Navarro and Ordonez, Information Systems 47, 2015) holds n numbers of at most `width` bits
 * each in about 1.03 * width bits a number, and answers where and how often a number is in the list, and which numbers
 * of a range are the least. With quarters it takes about 1.16 * width bits, and most queries read fewer words (evident
 * from the code, where a query does not say how many). With hints, which take a quarter of the bits of all numbers
 * besides, bitm_matrix_select reads fewer words.
 *
 *     const uint64_t list[6] = {3, 1, 4, 1, 5, 1};
 *     uint64_t room[12], block[80], size, rank; // two words for each number; or a mapped file
 *     struct bitm_matrix matrix;
 *     if (bitm_matrix_size(6, 3, false, false, &size) || size != 80 ||
 *         bitm_matrix_build(list, 6, 3, false, false, room, 12, block, 80) || bitm_matrix_open(block, 80, &matrix) ||
 *         bitm_matrix_rank(&matrix, 1, 4, &rank) || rank != 2) return 1; // 1 is among 3, 1, 4, 1 twice
 *
 *   - errors: a query returns BITM_BAD_SIZE if a length in the struct does not fit its numbers and their width, and
 *     BITM_WRONG only where the block holds no matrix. An error writes nothing, unless the call says otherwise.
 *   - reads: a query makes ranks in the words for each bit of the width, and names their reads. bitm_matrix_open reads
 *     at most 80 words, however long the block is (evident from the code), and looks at no others.
 *   - overlap: memory that a call writes overlaps nothing else that it is passed.
 *   - over any block that bitm_matrix_open takes, a stale or hostile one too, a query returns within the reads that are
 *     named below, a number has no more than matrix.width bits, a count is at most the number of items asked about, and
 *     an index that is found is less than matrix.len. If bitm_matrix_build wrote the block or bitm_matrix_check passes
 *     it, and it did not change afterwards, the answers agree with one list of numbers, and no query returns
 *     BITM_WRONG. */
struct bitm_matrix {
    size_t len;     /* how many numbers */
    uint64_t width; /* how many bits each has at most */
    const uint64_t *words;
    size_t words_len;
    const uint64_t *upper;
    size_t upper_len;
    const uint64_t *lower;
    size_t lower_len;
    const uint64_t *ones; /* for each bit of the width: how many 1 bits stand before its level of the words */
    size_t ones_len;
    const uint64_t *zeros; /* and how many of the numbers have a 0 bit at that level */
    size_t zeros_len;
    const uint64_t *quarters; /* counts of 1 bits for every eight words, none of a compact block */
    size_t quarters_len;
    const uint64_t *hints; /* positions of each 128th 1 bit and 0 bit of the words; NULL: none */
    size_t hints_len;      /* 0, or bitm_hints_room(words_len) */
};

/* Faults of a matrix: which length is wrong, or NULL (see bitm_bits_fault).
 *
 *     struct bitm_matrix matrix = {.width = 65};
 *     if (bitm_matrix_fault(&matrix) == NULL) return 1; // width is not 1 to 64 */
static inline const char *bitm_matrix_fault(const struct bitm_matrix *matrix)
{
    if (matrix->width < 1 || matrix->width > 64) return "width is not 1 to 64";
    if (matrix->len > (((uint64_t)1 << 63) - 1) / matrix->width) return "len * width is 2^63 or more";
    if (matrix->words_len != bitm_bits_words_len(matrix->len * matrix->width))
        return "words_len is not bitm_bits_words_len(len * width)";
    if (matrix->ones_len != matrix->width) return "ones_len is not width";
    if (matrix->zeros_len != matrix->width) return "zeros_len is not width";
    if (matrix->quarters_len != 0 && matrix->quarters_len != matrix->words_len / 8 + (matrix->words_len % 8 != 0))
        return "quarters_len is neither 0 nor words_len / 8, rounded up";
    if (matrix->hints_len != 0 && matrix->hints_len != bitm_hints_room(matrix->words_len))
        return "hints_len is neither 0 nor bitm_hints_room(words_len)";
    return bitm_tables_fault(matrix->words_len, matrix->upper_len, matrix->lower_len);
}

/* How many words the block of `len` numbers of `width` bits takes, with quarters or without, and with hints or without.
 * BITM_BAD_SIZE if width is not 1 to 64, or len * width is 2^63 or more.
 *
 *     uint64_t size;
 *     if (bitm_matrix_size(6, 3, false, false, &size) || size != 80) return 1; */
BITM_MUST_USE uint32_t bitm_matrix_size(size_t len, uint32_t width, bool quarters, bool hints, uint64_t *out);

/* Writes the block of these numbers of `width` bits, with quarters or without, and with hints or without. BITM_BAD_SIZE
 * if bitm_matrix_size does not take numbers_len and width, block_len is not the size that it gives, or scratch_len is
 * not 2 * numbers_len; else BITM_WRONG if a number has more bits than the width. BITM_OK overwrites scratch. Allocates
 * nothing. For each bit of the width two passes over the numbers, then three over the block, with quarters a fourth,
 * and a selection by the tables for each hint (evident from the code).
 *
 *     const uint64_t list[6] = {3, 1, 4, 1, 5, 1};
 *     uint64_t room[12], block[80]; // bitm_matrix_size says 80
 *     if (bitm_matrix_build(list, 6, 3, false, false, room, 12, block, 80) ||
 *         bitm_matrix_build(list, 6, 2, false, false, room, 12, block, 80) != BITM_WRONG) return 1; // 4 has 3 bits */
BITM_MUST_USE uint32_t bitm_matrix_build(const uint64_t *numbers, size_t numbers_len, uint32_t width, bool quarters,
                                         bool hints, uint64_t *scratch, size_t scratch_len, uint64_t *block,
                                         size_t block_len);

/* Writes one level of the block of a matrix, for a caller that builds level by level, to say how far it is: levels 0 to
 * width - 1 of the numbers and then bitm_matrix_seal write their block, as bitm_matrix_build does. The call reads bit
 * width - 1 - depth of each number, and sorts the numbers by that bit, without changing the order of numbers with the
 * same bit: the next level takes them so. Higher bits are not read: bitm_numbers_above finds a number that has more
 * than width bits. BITM_BAD_SIZE if bitm_matrix_size does not take numbers_len and width, block_len is not the size
 * that it gives, scratch_len is not numbers_len, or depth is not below width. BITM_OK overwrites scratch. Two passes
 * over the numbers, and at level 0 one over the words of the block's bits (evident from the code).
 *
 *     uint64_t list[6] = {2, 3, 0, 1, 1, 3}, room[6], block[80];
 *     if (bitm_matrix_write_level(list, 6, 2, false, false, 0, room, 6, block, 80) ||
 *         bitm_matrix_write_level(list, 6, 2, false, false, 1, room, 6, block, 80) ||
 *         bitm_matrix_seal(6, 2, false, false, block, 80) || bitm_matrix_check(block, 80)) return 1; */
BITM_MUST_USE uint32_t bitm_matrix_write_level(uint64_t *numbers, size_t numbers_len, uint32_t width, bool quarters,
                                               bool hints, uint32_t depth, uint64_t *scratch, size_t scratch_len,
                                               uint64_t *block, size_t block_len);

/* Completes the block whose levels bitm_matrix_write_level wrote, with the same quarters and hints: tables, header and
 * directory. BITM_BAD_SIZE if bitm_matrix_size does not take len and width, or block_len is not the size that it gives.
 * Three passes over the block, with quarters a fourth, and a selection by the tables for each hint (evident from the
 * code).
 *
 *     uint64_t list[6] = {1, 0, 0, 1, 1, 0}, room[6], block[80];
 *     if (bitm_matrix_write_level(list, 6, 1, false, false, 0, room, 6, block, 80) ||
 *         bitm_matrix_seal(6, 1, false, false, block, 80) || bitm_matrix_check(block, 80)) return 1; */
BITM_MUST_USE uint32_t bitm_matrix_seal(size_t len, uint32_t width, bool quarters, bool hints, uint64_t *block,
                                        size_t block_len);

/* Opens a block: writes the matrix that queries take, which points into the block. BITM_WRONG exactly if the header or
 * the directory of the block is not right, or belongs to no matrix, or block_len is not as they say.
 *
 * bitm_matrix_check says whether a block is as it was written and holds a matrix: BITM_OK, or BITM_WRONG as above, if a
 * checksum does not match its words, or if words, tables and hints form no matrix. So a block in which one word was
 * changed is refused. Two passes over the block, with quarters two ranks for every two words, and a selection by the
 * tables for each hint (evident from the code).
 *
 *     const uint64_t list[6] = {3, 1, 4, 1, 5, 1};
 *     uint64_t room[12], block[80]; // bitm_matrix_size says 80
 *     struct bitm_matrix matrix;
 *     if (bitm_matrix_build(list, 6, 3, false, false, room, 12, block, 80) || bitm_matrix_open(block, 80, &matrix) ||
 *         bitm_matrix_open(block, 79, &matrix) != BITM_WRONG || bitm_matrix_check(block, 80)) return 1;
 *     block[40] ^= 1;
 *     if (bitm_matrix_check(block, 80) != BITM_WRONG) return 1; */
BITM_MUST_USE uint32_t bitm_matrix_open(const uint64_t *block, size_t block_len, struct bitm_matrix *matrix);
BITM_MUST_USE uint32_t bitm_matrix_check(const uint64_t *block, size_t block_len);

/* The number at an index. BITM_NONE exactly if index is len or more. Reads for each bit of the width at most one upper
 * entry, one lower entry and eight words; with quarters no lower entry and two words, and one number of the quarters
 * (evident from the code).
 *
 *     const uint64_t list[6] = {3, 1, 4, 1, 5, 1};
 *     uint64_t room[12], block[80], number; // bitm_matrix_size says 80
 *     struct bitm_matrix matrix;
 *     if (bitm_matrix_build(list, 6, 3, false, false, room, 12, block, 80) || bitm_matrix_open(block, 80, &matrix) ||
 *         bitm_matrix_get(&matrix, 4, &number) || number != 5) return 1; */
BITM_MUST_USE uint32_t bitm_matrix_get(const struct bitm_matrix *matrix, size_t index, uint64_t *out);

/* How many of the numbers before an index are this one: for index len, of all. At most index. BITM_NONE exactly if
 * index is above len. Reads for each bit of the width at most two upper entries, two lower entries and 16 words; with
 * quarters no lower entries and four words, and two numbers of the quarters (evident from the code).
 *
 *     const uint64_t list[6] = {3, 1, 4, 1, 5, 1};
 *     uint64_t room[12], block[80], rank; // bitm_matrix_size says 80
 *     struct bitm_matrix matrix;
 *     if (bitm_matrix_build(list, 6, 3, false, false, room, 12, block, 80) || bitm_matrix_open(block, 80, &matrix) ||
 *         bitm_matrix_rank(&matrix, 1, 6, &rank) || rank != 3) return 1; */
BITM_MUST_USE uint32_t bitm_matrix_rank(const struct bitm_matrix *matrix, uint64_t number, size_t index, uint64_t *out);

/* The index of this number with exactly `rank` such numbers before it. BITM_NONE if there are no more than rank; over a
 * block that holds no matrix it may be the answer for any number. Reads what bitm_matrix_rank does, and for each bit of
 * the width what bitm_index_select reads without samples; with hints mostly one hint and at most nine words, and the
 * rest only where the bit is not in the eight words from its hint's word on. bitm_matrix_select_list goes without
 * hints.
 *
 *     const uint64_t list[6] = {3, 1, 4, 1, 5, 1};
 *     uint64_t room[12], block[80], index; // bitm_matrix_size says 80
 *     struct bitm_matrix matrix;
 *     if (bitm_matrix_build(list, 6, 3, false, false, room, 12, block, 80) || bitm_matrix_open(block, 80, &matrix) ||
 *         bitm_matrix_select(&matrix, 1, 2, &index) || index != 5 ||
 *         bitm_matrix_select(&matrix, 1, 3, &index) != BITM_NONE) return 1; */
BITM_MUST_USE uint32_t bitm_matrix_select(const struct bitm_matrix *matrix, uint64_t number, size_t rank,
                                          uint64_t *out);

/* Writes the numbers at a list of indices, as bitm_matrix_get answers them, up to the first index that has none, and to
 * written how many; the rest of out stays as it was. BITM_OK exactly if all are written. Else the numbers before are
 * written, and the status says why the call stopped at indices[written]: BITM_NONE exactly if that index is not below
 * len, and BITM_WRONG exactly if it is, which may be only if the block holds no matrix. BITM_BAD_SIZE, and nothing is
 * written, also if out_len is not indices_len. 32 of them go from level to level together, so that they wait for memory
 * side by side (evident from the code).
 *
 *     const uint64_t list[6] = {3, 1, 4, 1, 5, 1}, indices[3] = {4, 0, 6};
 *     uint64_t room[12], block[80], out[3], written; // bitm_matrix_size says 80
 *     struct bitm_matrix matrix;
 *     if (bitm_matrix_build(list, 6, 3, false, false, room, 12, block, 80) || bitm_matrix_open(block, 80, &matrix) ||
 *         bitm_matrix_get_list(&matrix, indices, 3, out, 3, &written) != BITM_NONE || written != 2 ||
 *         out[0] != 5) return 1; */
BITM_MUST_USE uint32_t bitm_matrix_get_list(const struct bitm_matrix *matrix, const uint64_t *indices,
                                            size_t indices_len, uint64_t *out, size_t out_len, uint64_t *written);

/* bitm_matrix_rank of each numbers[i] before indices[i], and bitm_matrix_select of each numbers[i] with ranks[i]
 * (struct bitm_list_counts). 32 ranks go from level to level together (evident from the code).
 *
 *     const uint64_t list[6] = {3, 1, 4, 1, 5, 1}, each[3] = {1, 5, 2}, indices[3] = {4, 6, 7}, ranks[3] = {2};
 *     uint64_t room[12], block[80], out[3]; // bitm_matrix_size says 80
 *     struct bitm_matrix matrix;
 *     struct bitm_list_counts counts;
 *     if (bitm_matrix_build(list, 6, 3, false, false, room, 12, block, 80) || bitm_matrix_open(block, 80, &matrix) ||
 *         bitm_matrix_select_list(&matrix, each, 3, ranks, 3, out, 3, &counts) || out[0] != 5 || out[1] != 4 ||
 *         bitm_matrix_rank_list(&matrix, each, 3, indices, 3, out, 3, &counts) || out[0] != 2 ||
 *         out[2] != BITM_NO_ANSWER || counts.missing != 1) return 1; // there are no 7 list */
BITM_MUST_USE uint32_t bitm_matrix_rank_list(const struct bitm_matrix *matrix, const uint64_t *numbers,
                                             size_t numbers_len, const uint64_t *indices, size_t indices_len,
                                             uint64_t *out, size_t out_len, struct bitm_list_counts *counts);
BITM_MUST_USE uint32_t bitm_matrix_select_list(const struct bitm_matrix *matrix, const uint64_t *numbers,
                                               size_t numbers_len, const uint64_t *ranks, size_t ranks_len,
                                               uint64_t *out, size_t out_len, struct bitm_list_counts *counts);

/* Ranges: the numbers from index `start` on and before index `end`. Each of these calls returns BITM_NONE also if start
 * is above end or end is above len.
 *
 * How many numbers of a range are less than bound: at most end - start. BITM_NONE exactly if there is no such range.
 * Reads for each bit of the width at most two upper entries, two lower entries and 16 words.
 *
 *     const uint64_t list[6] = {3, 1, 4, 1, 5, 1};
 *     uint64_t room[12], block[80], count; // bitm_matrix_size says 80
 *     struct bitm_matrix matrix;
 *     if (bitm_matrix_build(list, 6, 3, false, false, room, 12, block, 80) || bitm_matrix_open(block, 80, &matrix) ||
 *         bitm_matrix_count_less(&matrix, 1, 5, 4, &count) || count != 2) return 1; // of 1, 4, 1, 5 */
BITM_MUST_USE uint32_t bitm_matrix_count_less(const struct bitm_matrix *matrix, size_t start, size_t end,
                                              uint64_t bound, uint64_t *out);

/* The number of a range that would stand at index k if the range were sorted: the least one for k = 0, the median for k
 * = (end - start) / 2. BITM_NONE exactly if there is no such range, or k is not less than end - start. Reads what
 * bitm_matrix_count_less does.
 *
 *     const uint64_t list[6] = {3, 1, 4, 1, 5, 1};
 *     uint64_t room[12], block[80], number; // bitm_matrix_size says 80
 *     struct bitm_matrix matrix;
 *     if (bitm_matrix_build(list, 6, 3, false, false, room, 12, block, 80) || bitm_matrix_open(block, 80, &matrix) ||
 *         bitm_matrix_quantile(&matrix, 1, 5, 2, &number) || number != 4) return 1; // of 1, 1, 4, 5 */
BITM_MUST_USE uint32_t bitm_matrix_quantile(const struct bitm_matrix *matrix, size_t start, size_t end, size_t k,
                                            uint64_t *out);

/* The least number of a range that is at least bound; the greatest that is less than bound. BITM_NONE if there is none.
 * Each reads at most twice what bitm_matrix_count_less does.
 *
 *     const uint64_t list[6] = {3, 1, 4, 1, 5, 1};
 *     uint64_t room[12], block[80], number; // bitm_matrix_size says 80
 *     struct bitm_matrix matrix;
 *     if (bitm_matrix_build(list, 6, 3, false, false, room, 12, block, 80) || bitm_matrix_open(block, 80, &matrix) ||
 *         bitm_matrix_next_value(&matrix, 1, 5, 2, &number) || number != 4 ||
 *         bitm_matrix_previous_value(&matrix, 1, 5, 4, &number) || number != 1) return 1; */
BITM_MUST_USE uint32_t bitm_matrix_next_value(const struct bitm_matrix *matrix, size_t start, size_t end,
                                              uint64_t bound, uint64_t *out);
BITM_MUST_USE uint32_t bitm_matrix_previous_value(const struct bitm_matrix *matrix, size_t start, size_t end,
                                                  uint64_t bound, uint64_t *out);

/* The distinct numbers of a range that are at least `from`, ascending, each in numbers and how often the range has it
 * in counts, until these are full or there are no more; *written is how many these are. Go on at the last number plus
 * 1. BITM_NONE exactly if there is no such range; BITM_BAD_SIZE also if counts_len is not numbers_len. Whatever the
 * block holds, the numbers ascend from `from` on, a count is at least 1 and at most end - start, and the items after
 * them stay as they were; only where BITM_WRONG is returned, items may have been written. Reads what
 * bitm_matrix_count_less reads, and the same for each number that is written (evident from the code).
 *
 *     const uint64_t list[6] = {3, 1, 4, 1, 5, 1};
 *     uint64_t room[12], block[80], kinds[4], times[4], written; // bitm_matrix_size says 80
 *     struct bitm_matrix matrix;
 *     if (bitm_matrix_build(list, 6, 3, false, false, room, 12, block, 80) || bitm_matrix_open(block, 80, &matrix) ||
 *         bitm_matrix_distinct(&matrix, 1, 5, 0, kinds, 4, times, 4, &written) || written != 3 || // of 1, 4, 1, 5
 *         kinds[0] != 1 || times[0] != 2 || kinds[1] != 4 || kinds[2] != 5) return 1; */
BITM_MUST_USE uint32_t bitm_matrix_distinct(const struct bitm_matrix *matrix, size_t start, size_t end, uint64_t from,
                                            uint64_t *numbers, size_t numbers_len, uint64_t *counts, size_t counts_len,
                                            uint64_t *written);

/* The most frequent numbers of a range: the most frequent first, and of equally frequent ones the least, until numbers
 * is full or there are no more; *written is how many these are. Statuses and promises over any block are as of
 * bitm_matrix_distinct, but for the order. For each distinct number of the range, and at most for each of its numbers
 * whatever the block holds, reads what bitm_matrix_count_less reads. The numbers are kept in a heap: with room for k of
 * them each takes at most log2(k) steps, and at most 2 * log2(k) to be sorted in the end (evident from the code).
 *
 *     const uint64_t list[6] = {3, 1, 4, 1, 5, 1};
 *     uint64_t room[12], block[80], kinds[2], times[2], written; // bitm_matrix_size says 80
 *     struct bitm_matrix matrix;
 *     if (bitm_matrix_build(list, 6, 3, false, false, room, 12, block, 80) || bitm_matrix_open(block, 80, &matrix) ||
 *         bitm_matrix_top(&matrix, 0, 6, kinds, 2, times, 2, &written) || written != 2 || kinds[0] != 1 ||
 *         times[0] != 3 || kinds[1] != 3) return 1; // 1 three times; 3, 4 and 5 once */
BITM_MUST_USE uint32_t bitm_matrix_top(const struct bitm_matrix *matrix, size_t start, size_t end, uint64_t *numbers,
                                       size_t numbers_len, uint64_t *counts, size_t counts_len, uint64_t *written);

/* The numbers that are in both ranges and at least `from`, each once, ascending, until numbers is full or there are no
 * more; *written is how many these are. Go on at the last number plus 1. BITM_NONE exactly if there is no such range.
 * Whatever the block holds, the numbers ascend from `from` on, and the items after them stay as they were; only where
 * BITM_WRONG is returned, items may have been written. Makes at most first_end - first_start queries as
 * bitm_matrix_next_value of either range, whatever the block holds (evident from the code), so pass the shorter range
 * first.
 *
 *     const uint64_t list[6] = {3, 1, 4, 1, 5, 1};
 *     uint64_t room[12], block[80], shared[4], written; // bitm_matrix_size says 80
 *     struct bitm_matrix matrix;
 *     if (bitm_matrix_build(list, 6, 3, false, false, room, 12, block, 80) || bitm_matrix_open(block, 80, &matrix) ||
 *         bitm_matrix_intersect(&matrix, 0, 3, 3, 6, 0, shared, 4, &written) || written != 1 ||
 *         shared[0] != 1) return 1; */
BITM_MUST_USE uint32_t bitm_matrix_intersect(const struct bitm_matrix *matrix, size_t first_start, size_t first_end,
                                             size_t second_start, size_t second_end, uint64_t from, uint64_t *numbers,
                                             size_t numbers_len, uint64_t *written);

/* ---- an index, and a sequence, in one block of memory
 *
 * A block from which struct bitm_index is opened without samples, or struct bitm_sequence: every bitm_index_ or
 * bitm_sequence_ call then works over a mapped file. bitm_index_build_samples adds samples to an index that was opened,
 * in memory of yours, or to be kept in its block ("sections of your own", below).
 *
 *   - errors: an error writes nothing.
 *   - reads: opening reads at most 80 words, however long the block is (evident from the code), and looks at no others.
 *   - overlap: memory that a call writes overlaps nothing else that it is passed. */

/* How many words the block of bits_len bits takes. BITM_BAD_SIZE if bits_len is above 2^64 - 64.
 *
 *     uint64_t size;
 *     if (bitm_index_block_size(100, &size) || size != 56) return 1; */
BITM_MUST_USE uint32_t bitm_index_block_size(uint64_t bits_len, uint64_t *out);

/* Writes the block of the first bits_len bits of the words. BITM_BAD_SIZE if bitm_index_block_size does not take
 * bits_len, it is above 64 * words_len, or block_len is not what that call says. Two passes over the words and one over
 * the block (evident from the code).
 *
 *     const uint64_t words[2] = {0x5a, 1};
 *     uint64_t block[56]; // or a mapped file; bitm_index_block_size(100, ..)
 *     if (bitm_index_block_build(words, 2, 100, block, 56) || bitm_index_block_check(block, 56)) return 1; */
BITM_MUST_USE uint32_t bitm_index_block_build(const uint64_t *words, size_t words_len, uint64_t bits_len,
                                              uint64_t *block, size_t block_len);

/* Opens a block: writes the index that queries take, which points into the block. BITM_WRONG exactly if the header or
 * the directory of the block is not right, or belongs to no bits, or block_len is not as they say.
 *
 * bitm_index_block_check says whether a block is as it was written and holds bits with their tables: BITM_OK, or
 * BITM_WRONG as above, if a checksum does not match its words, or if the tables do not match the words. Two passes over
 * the block (evident from the code).
 *
 *     const uint64_t words[2] = {0x5a, 1}; // the bits 1, 3, 4, 6 and 64
 *     uint64_t block[56], position; // bitm_index_block_size(100, ..) says 56
 *     struct bitm_index index;
 *     if (bitm_index_block_build(words, 2, 100, block, 56) || bitm_index_block_open(block, 56, &index) ||
 *         bitm_index_select(&index, true, 4, &position) || position != 64 ||
 *         bitm_index_block_check(block, 56)) return 1;
 *     block[40] ^= 1;
 *     if (bitm_index_block_check(block, 56) != BITM_WRONG) return 1; */
BITM_MUST_USE uint32_t bitm_index_block_open(const uint64_t *block, size_t block_len, struct bitm_index *index);
BITM_MUST_USE uint32_t bitm_index_block_check(const uint64_t *block, size_t block_len);

/* How many words the block of len numbers takes, where the last number, and so the largest, is `largest` (0 if there
 * are none). BITM_BAD_SIZE as bitm_sequence_sizes.
 *
 *     uint64_t size;
 *     if (bitm_sequence_block_size(5, 11, &size) || size != 80) return 1; */
BITM_MUST_USE uint32_t bitm_sequence_block_size(size_t len, uint64_t largest, uint64_t *out);

/* Writes the block of a sequence of the items. BITM_BAD_SIZE if there are 2^56 or more, or block_len is not what
 * bitm_sequence_block_size says for items_len and the last item; else BITM_UNSORTED if an item is less than the one
 * before it. Four passes over the items, three over the block, and a selection for each hint (evident from the code).
 *
 *     const uint64_t primes[5] = {2, 3, 5, 7, 11}, falling[2] = {7, 5};
 *     uint64_t block[80]; // or a mapped file
 *     if (bitm_sequence_block_build(primes, 5, block, 80) || bitm_sequence_block_check(block, 80) ||
 *         bitm_sequence_block_build(falling, 2, block, 80) != BITM_UNSORTED) return 1; */
BITM_MUST_USE uint32_t bitm_sequence_block_build(const uint64_t *items, size_t items_len, uint64_t *block,
                                                 size_t block_len);

/* Opens a block: writes the sequence that queries take, which points into the block, with its hints; without them if
 * the block was written before there were hints. BITM_WRONG exactly if the header or the directory of the block is not
 * right, or belongs to no sequence, or block_len is not as they say.
 *
 * bitm_sequence_block_check says whether a block is as it was written and holds a sequence: BITM_OK, or BITM_WRONG as
 * above, if a checksum does not match its words, or if parts and hints form no sequence. Three passes over the words of
 * the block, and a selection by the tables for each hint (evident from the code).
 *
 *     const uint64_t primes[5] = {2, 3, 5, 7, 11};
 *     uint64_t block[80], index; // bitm_sequence_block_size(5, 11, ..) says 80
 *     struct bitm_sequence sequence;
 *     if (bitm_sequence_block_build(primes, 5, block, 80) || bitm_sequence_block_open(block, 80, &sequence) ||
 *         bitm_sequence_first_at_least(&sequence, 6, &index) || index != 3 ||
 *         bitm_sequence_block_check(block, 80)) return 1;
 *     block[40] ^= 1;
 *     if (bitm_sequence_block_check(block, 80) != BITM_WRONG) return 1; */
BITM_MUST_USE uint32_t bitm_sequence_block_open(const uint64_t *block, size_t block_len,
                                                struct bitm_sequence *sequence);
BITM_MUST_USE uint32_t bitm_sequence_block_check(const uint64_t *block, size_t block_len);

/* ---- sections of your own: notes, samples and the like, in a block of any kind
 *
 * A block may have sections of yours after the sections of its kind: of a role from 65536 on, whose items are bytes,
 * eight in a word. Readers of the kind skip them, so a block of any kind opens as before. A block has at most 16
 * sections; docs/FORMAT.md says which roles the kinds have, their meaning, and when a section of role 5, 6 or 22 is the
 * kind's.
 *
 *     const uint64_t primes[5] = {2, 3, 5, 7, 11}, note[1] = {20261201}; // eight bytes: a date, say
 *     uint64_t block[80], noted[88], size;                               // or mapped files
 *     struct bitm_section section;
 *     if (bitm_sequence_block_build(primes, 5, block, 80) || bitm_block_extended_size(block, 80, 65536, 8, &size) ||
 *         size != 88 || bitm_block_extend(block, 80, 65536, 8, note, 1, noted, 88) ||
 *         bitm_sequence_block_check(noted, 88) || bitm_block_section(noted, 88, 5, &section) ||
 *         section.role != 65536 || section.count != 8 || section.words[0] != 20261201) return 1;
 *
 * SAMPLES of an index are kept so too: the samples of 1 bits have role 7, the samples of 0 bits role 8, two in a word.
 * As long as words_len is at most 2^26 there is one upper block, and its start is 0; the starts of more of them may be
 * a section of your own. Over 100 bits samples gain nothing; this shows how they are kept.
 *
 *     const uint64_t words[2] = {0x5a, 1};
 *     uint64_t block[56], sampled[64], starts[1], used, kept[1], position;
 *     uint32_t samples[1]; // bitm_index_samples_len(2, 7) is 1
 *     struct bitm_index index;
 *     struct bitm_section section;
 *     if (bitm_index_block_build(words, 2, 100, block, 56) || bitm_index_block_open(block, 56, &index) ||
 *         bitm_index_build_samples(&index, true, 7, samples, 1, starts, 1, &used) || used != 1) return 1;
 *     kept[0] = samples[0]; // one sample, in the lower half of a word
 *     if (bitm_block_extend(block, 56, 7, used, kept, 1, sampled, 64) || bitm_index_block_open(sampled, 64, &index) ||
 *         bitm_block_section(sampled, 64, 3, &section)) return 1;
 *     index.ones = (struct bitm_samples){(const uint32_t *)section.words, section.count, starts, 1, 7, 0};
 *     if (bitm_index_select(&index, true, 4, &position) || position != 64) return 1;
 *
 *   - errors: an error writes nothing.
 *   - overlap: memory that a call writes overlaps nothing else that it is passed. */
struct bitm_section {
    uint64_t role;  /* what the items are */
    uint64_t count; /* how many items there are */
    const uint64_t *words;
    size_t words_len;
};

/* How many words a block takes with one section more, of `count` items of a role: four bytes each for the roles 7 and
 * 8, one each for role 15 and the roles from 65536 on, eight each for all others. BITM_WRONG exactly if the header or
 * the directory of the block is not right, or block_len is not as they say; else BITM_BAD_SIZE exactly if it has 16
 * sections already, count is 2^58 or more, or there would be 2^60 words or more. Reads at most 160 words (evident from
 * the code).
 *
 *     const uint64_t primes[5] = {2, 3, 5, 7, 11};
 *     uint64_t block[80], size; // bitm_sequence_block_size(5, 11, ..) says 80
 *     if (bitm_sequence_block_build(primes, 5, block, 80) || bitm_block_extended_size(block, 80, 65536, 8, &size) ||
 *         size != 88) return 1; */
BITM_MUST_USE uint32_t bitm_block_extended_size(const uint64_t *block, size_t block_len, uint64_t role, uint64_t count,
                                                uint64_t *out);

/* Writes to `to` a copy of the block with one section more, after its own: the same numbers, the same words in each
 * section, these words in the new one, and all checksums right. Where the items do not fill the last word, its other
 * bytes have to be 0 if equal sections are to make equal blocks. BITM_WRONG exactly if the block is none, or all
 * lengths are right and a section of it does not have its checksum: so a section that was spoiled gets no right
 * checksum. Else BITM_BAD_SIZE exactly if bitm_block_extended_size returns it, words_len is not the number of words
 * that the items take, or to_len is not the size that it gives. Two passes over the block, one over the words, and two
 * over the new block (evident from the code).
 *
 *     const uint64_t primes[5] = {2, 3, 5, 7, 11}, note[1] = {20261201}; // eight bytes: a date, say
 *     uint64_t block[80], noted[88]; // bitm_block_extended_size(block, 80, 65536, 8, ..) says 88
 *     if (bitm_sequence_block_build(primes, 5, block, 80) ||
 *         bitm_block_extend(block, 80, 65536, 8, note, 1, noted, 88) ||
 *         bitm_sequence_block_check(noted, 88)) return 1; */
BITM_MUST_USE uint32_t bitm_block_extend(const uint64_t *block, size_t block_len, uint64_t role, uint64_t count,
                                         const uint64_t *words, size_t words_len, uint64_t *to, size_t to_len);

/* Section i of a block, counted from 0: its role, how many items it has, and where its words lie in the block.
 * BITM_WRONG as bitm_block_extended_size; BITM_NONE exactly if the block has no more than i sections. Reads at most 80
 * words (evident from the code); what the words of the section hold is not looked at.
 *
 *     const uint64_t primes[5] = {2, 3, 5, 7, 11};
 *     uint64_t block[80]; // bitm_sequence_block_size(5, 11, ..) says 80
 *     struct bitm_section section;
 *     if (bitm_sequence_block_build(primes, 5, block, 80) || bitm_block_section(block, 80, 0, &section) ||
 *         section.words_len != 1 || bitm_block_section(block, 80, 5, &section) != BITM_NONE) return 1; */
BITM_MUST_USE uint32_t bitm_block_section(const uint64_t *block, size_t block_len, size_t i,
                                          struct bitm_section *section);

/* Whether a block of any kind is as it was written: BITM_OK, or BITM_WRONG as bitm_block_extended_size, or if the
 * checksum of a section does not match its words, or a word between two sections is not 0. Two lists of words that
 * differ in one word have different checksums. Whether the sections hold a structure is for the check of its kind to
 * say. One pass over the block (evident from the code).
 *
 *     const uint64_t no_block[24] = {0};
 *     if (bitm_block_check(no_block, 24) != BITM_WRONG) return 1; */
BITM_MUST_USE uint32_t bitm_block_check(const uint64_t *block, size_t block_len);

/* ---- sparse bits: in one block of memory
 *
 * Where only m of n bits are 1 bits, the positions of the 1 bits are kept, as a monotone sequence (Okanohara and
 * Sadakane, ALENEX 2007): about 2.6 + log2(n / m) bits for each 1 bit, however many 0 bits there are. The queries and
 * their answers are the same as from an index; bitm_index_ calls are faster, and take space for each bit.
 *
 *     const uint64_t ones[4] = {3, 100, 101, 4000};
 *     uint64_t block[80], size, rank; // or a mapped file
 *     struct bitm_sparse sparse;
 *     if (bitm_sparse_size(4, 4000, &size) || size != 80 || // four 1 bits, the last of them at 4000
 *         bitm_sparse_build(ones, 4, 5000, block, 80) || bitm_sparse_open(block, 80, &sparse) ||
 *         bitm_sparse_rank(&sparse, true, 101, &rank) || rank != 2) return 1; // bits 3 and 100
 *
 *   - errors: a query returns BITM_BAD_SIZE if a length in sparse->positions is not right (struct bitm_sequence), and
 *     BITM_WRONG only where the block holds no sparse bits. An error writes nothing.
 *   - reads: a query reads the sequence of positions, with its hints, as the call of a sequence that it names.
 *     bitm_sparse_open reads at most 80 words, however long the block is (evident from the code), and looks at no
 *     others.
 *   - overlap: memory that a call writes overlaps nothing else that it is passed.
 *   - over any block that bitm_sparse_open takes, a stale or hostile one too, a query returns, a rank is at most its
 *     position, and a position that is found is less than sparse.bits_len. If bitm_sparse_build wrote the block or
 *     bitm_sparse_check passes it, and it did not change afterwards, the answers are what counting gives, and no query
 *     returns BITM_WRONG. */
struct bitm_sparse {
    struct bitm_sequence positions; /* of the 1 bits */
    uint64_t bits_len;              /* how many bits there are */
    uint64_t reserved[2];           /* 0: not read */
};

/* Faults of sparse bits: which length is wrong, or NULL (see bitm_bits_fault).
 *
 *     struct bitm_sparse sparse = {.positions = {.width = 64}};
 *     if (bitm_sparse_fault(&sparse) == NULL) return 1; // width is above 63 */
static inline const char *bitm_sparse_fault(const struct bitm_sparse *sparse)
{
    return bitm_sequence_fault(&sparse->positions);
}

/* How many words the block of `ones` 1 bits takes, where the last 1 bit is at position `last` (0 if there are none).
 * BITM_BAD_SIZE as bitm_sequence_sizes.
 *
 *     uint64_t size;
 *     if (bitm_sparse_size(4, 4000, &size) || size != 80) return 1; */
BITM_MUST_USE uint32_t bitm_sparse_size(size_t ones, uint64_t last, uint64_t *out);

/* Writes the block of bits_len bits, with 1 bits at the given positions alone. BITM_BAD_SIZE if there are 2^56
 * positions or more, or block_len is not what bitm_sparse_size says for positions_len and the last position; else
 * BITM_UNSORTED if a position is not greater than the one before it; else BITM_WRONG if one is not less than bits_len.
 * Six passes over the positions, three over the block, and a selection for each hint (evident from the code).
 *
 *     const uint64_t ones[4] = {3, 100, 101, 4000}, twice[4] = {3, 3, 100, 4000};
 *     uint64_t block[80]; // bitm_sparse_size(4, 4000, ..) says 80
 *     if (bitm_sparse_build(ones, 4, 5000, block, 80) ||
 *         bitm_sparse_build(twice, 4, 5000, block, 80) != BITM_UNSORTED ||
 *         bitm_sparse_build(ones, 4, 4000, block, 80) != BITM_WRONG) return 1; // bits 0 to 3999 */
BITM_MUST_USE uint32_t bitm_sparse_build(const uint64_t *positions, size_t positions_len, uint64_t bits_len,
                                         uint64_t *block, size_t block_len);

/* Opens a block: writes the bits that queries take, which point into the block. BITM_WRONG exactly if the header or the
 * directory of the block is not right, or belongs to no sparse bits, or block_len is not as they say.
 *
 * bitm_sparse_check says whether a block is as it was written and holds sparse bits: BITM_OK, or BITM_WRONG as above,
 * if a checksum does not match its words, if parts and hints form no sequence, or if its numbers are not positions of 1
 * bits. So a block in which one word was changed is refused. Five passes over the block, one selection, and another by
 * the tables for each hint (evident from the code).
 *
 *     const uint64_t ones[4] = {3, 100, 101, 4000};
 *     uint64_t block[80]; // bitm_sparse_size(4, 4000, ..) says 80
 *     struct bitm_sparse sparse;
 *     if (bitm_sparse_build(ones, 4, 5000, block, 80) || bitm_sparse_open(block, 80, &sparse) ||
 *         bitm_sparse_open(block, 79, &sparse) != BITM_WRONG || bitm_sparse_check(block, 80)) return 1;
 *     block[40] ^= 1;
 *     if (bitm_sparse_check(block, 80) != BITM_WRONG) return 1; */
BITM_MUST_USE uint32_t bitm_sparse_open(const uint64_t *block, size_t block_len, struct bitm_sparse *sparse);
BITM_MUST_USE uint32_t bitm_sparse_check(const uint64_t *block, size_t block_len);

/* The bit at a position, as 0 or 1. BITM_NONE exactly if position is bits_len or more. Reads what
 * bitm_sequence_contains reads of the positions.
 *
 *     const uint64_t ones[4] = {3, 100, 101, 4000};
 *     uint64_t block[80], bit; // bitm_sparse_size(4, 4000, ..) says 80
 *     struct bitm_sparse sparse;
 *     if (bitm_sparse_build(ones, 4, 5000, block, 80) || bitm_sparse_open(block, 80, &sparse) ||
 *         bitm_sparse_get(&sparse, 100, &bit) || bit != 1) return 1; */
BITM_MUST_USE uint32_t bitm_sparse_get(const struct bitm_sparse *sparse, uint64_t position, uint64_t *out);

/* How many 1 bits, or 0 bits, there are before a position; for position bits_len, among all. At most position.
 * BITM_NONE exactly if position is above bits_len. Reads what bitm_sequence_first_at_least reads of the positions.
 *
 * bitm_sparse_select answers the position of the 1 bit, or 0 bit, with the given rank. BITM_NONE if there is none.
 * Reads for a 1 bit what bitm_sequence_get reads of the positions, for a 0 bit the same for each binary digit of how
 * many 1 bits there are (evident from the code).
 *
 *     const uint64_t ones[4] = {3, 100, 101, 4000};
 *     uint64_t block[80], rank, position; // bitm_sparse_size(4, 4000, ..) says 80
 *     struct bitm_sparse sparse;
 *     if (bitm_sparse_build(ones, 4, 5000, block, 80) || bitm_sparse_open(block, 80, &sparse) ||
 *         bitm_sparse_rank(&sparse, false, 101, &rank) || rank != 99 ||
 *         bitm_sparse_select(&sparse, true, 3, &position) || position != 4000 ||
 *         bitm_sparse_select(&sparse, false, 3, &position) || position != 4) return 1; // after 0 to 2 */
BITM_MUST_USE uint32_t bitm_sparse_rank(const struct bitm_sparse *sparse, bool one, uint64_t position, uint64_t *out);
BITM_MUST_USE uint32_t bitm_sparse_select(const struct bitm_sparse *sparse, bool one, uint64_t rank, uint64_t *out);

/* The position of the first 1 bit, or 0 bit, at or after position `from`; of the last one at or before it, where `from`
 * may be past the end. BITM_NONE if there is none. Any position returned is on that side of `from`, whatever the block
 * holds. Reads what a rank and a selection read.
 *
 *     const uint64_t ones[4] = {3, 100, 101, 4000};
 *     uint64_t block[80], position; // bitm_sparse_size(4, 4000, ..) says 80
 *     struct bitm_sparse sparse;
 *     if (bitm_sparse_build(ones, 4, 5000, block, 80) || bitm_sparse_open(block, 80, &sparse) ||
 *         bitm_sparse_next(&sparse, true, 102, &position) || position != 4000 ||
 *         bitm_sparse_previous(&sparse, false, 101, &position) || position != 99) return 1; */
BITM_MUST_USE uint32_t bitm_sparse_next(const struct bitm_sparse *sparse, bool one, uint64_t from, uint64_t *out);
BITM_MUST_USE uint32_t bitm_sparse_previous(const struct bitm_sparse *sparse, bool one, uint64_t from, uint64_t *out);

/* bitm_sparse_get, bitm_sparse_rank and bitm_sparse_select of each item of a list (struct bitm_list_counts).
 * BITM_BAD_SIZE also if bits_len is 2^64 - 2 or more, where an answer could be a code.
 *
 *     const uint64_t ones[4] = {3, 100, 101, 4000}, each[3] = {3, 101, 5001};
 *     uint64_t block[80], out[3]; // bitm_sparse_size(4, 4000, ..) says 80
 *     struct bitm_sparse sparse;
 *     struct bitm_list_counts n;
 *     if (bitm_sparse_build(ones, 4, 5000, block, 80) || bitm_sparse_open(block, 80, &sparse) ||
 *         bitm_sparse_rank_list(&sparse, true, each, 3, out, 3, &n) || out[1] != 2 ||
 *         bitm_sparse_select_list(&sparse, false, each, 3, out, 3, &n) || out[1] != 104 ||
 *         bitm_sparse_get_list(&sparse, each, 3, out, 3, &n) || out[0] != 1 || out[2] != BITM_NO_ANSWER) return 1; */
BITM_MUST_USE uint32_t bitm_sparse_get_list(const struct bitm_sparse *sparse, const uint64_t *positions,
                                            size_t positions_len, uint64_t *out, size_t out_len,
                                            struct bitm_list_counts *counts);
BITM_MUST_USE uint32_t bitm_sparse_rank_list(const struct bitm_sparse *sparse, bool one, const uint64_t *positions,
                                             size_t positions_len, uint64_t *out, size_t out_len,
                                             struct bitm_list_counts *counts);
BITM_MUST_USE uint32_t bitm_sparse_select_list(const struct bitm_sparse *sparse, bool one, const uint64_t *ranks,
                                               size_t ranks_len, uint64_t *out, size_t out_len,
                                               struct bitm_list_counts *counts);

/* ---- dictionaries: in one block of memory
 *
 * A dictionary of numbers is a minimal perfect hash of them, its keys, and the keys themselves, each at its number: so
 * a number that is no key has no number of its own. A key takes about 67 bits. Its hash is its sum with a seed, modulo
 * 2^64, so no two keys have one hash. A dictionary is made of a hash, in memory of yours, and written into a block:
 *
 *     const uint64_t squares[3] = {4, 9, 49}, seed = 7; // take another seed if hashes are left
 *     uint64_t sums[3] = {4 + 7, 9 + 7, 49 + 7}, words[8], again[8], sizes[8], upper[1], lower[1], keys[3], block[80];
 *     uint64_t levels, used, left, ones, number; // bitm_dictionary_size(1, 1, 3, ..) says 80 words
 *     if (bitm_hash_build(sums, 3, 100, words, 8, again, 8, sizes, 8, &levels, &used, &left) || left > 0 ||
 *         bitm_index_build(words, used, upper, 1, lower, 1, &ones)) return 1;
 *     struct bitm_hash hash = {{words, used, upper, 1, lower, 1, 0, {0}, {0}, {0}}, sizes, levels, 3};
 *     for (int i = 0; i < 3; i++) {
 *         if (bitm_hash_get(&hash, squares[i] + seed, &number)) return 1;
 *         keys[number] = squares[i]; // each key at its number
 *     }
 *     struct bitm_dictionary made = {.hash = hash, .keys = keys, .keys_len = 3, .seed = seed}, dictionary;
 *     if (bitm_dictionary_build(&made, block, 80) || bitm_dictionary_open(block, 80, &dictionary) ||
 *         bitm_dictionary_find(&dictionary, 49, &number) || dictionary.keys[number] != 49) return 1;
 *
 *   - errors: a query returns BITM_BAD_SIZE exactly if bitm_dictionary_fault names a fault, and BITM_WRONG only where
 *     the parts form no dictionary. An error writes nothing.
 *   - reads: a query reads what bitm_hash_get reads, and at most one key (evident from the code). bitm_dictionary_open
 *     reads at most 80 words, however long the block is (evident from the code), and looks at no others.
 *   - overlap: memory that a call writes overlaps nothing else that it is passed.
 *   - over any block that bitm_dictionary_open takes, a stale or hostile one too, a query returns, and the key stands
 *     at the number that is found: dictionary.keys[number]. If bitm_dictionary_build wrote the block or
 *     bitm_dictionary_check passes it, and it did not change afterwards, a number that is not found is none of the
 *     keys, and no query returns BITM_WRONG. The same holds for the parts that the block is made of. */
struct bitm_dictionary {
    struct bitm_hash hash; /* of the sums of each key and the seed */
    const uint64_t *keys;  /* in the order of their numbers: hash.keys of them */
    size_t keys_len;
    uint64_t seed;         /* is added to each key */
    uint64_t reserved[2];  /* 0: not read */
};

/* Faults of a dictionary: which length is wrong, or NULL (see bitm_bits_fault).
 *
 *     struct bitm_dictionary dictionary = {.keys_len = 1};
 *     if (bitm_dictionary_fault(&dictionary) == NULL) return 1; // keys_len is not hash.keys */
static inline const char *bitm_dictionary_fault(const struct bitm_dictionary *dictionary)
{
    if (dictionary->keys_len != dictionary->hash.keys) return "keys_len is not hash.keys";
    return bitm_hash_fault(&dictionary->hash);
}

/* How many words the block of `keys` keys takes, with a hash whose `levels` levels have `words` words together.
 * BITM_BAD_SIZE if there are 2^58 words or keys or more, or more than 256 levels.
 *
 *     uint64_t size;
 *     if (bitm_dictionary_size(1, 1, 3, &size) || size != 80) return 1; */
BITM_MUST_USE uint32_t bitm_dictionary_size(size_t words, size_t levels, size_t keys, uint64_t *out);

/* Writes the block of a dictionary. BITM_BAD_SIZE if bitm_dictionary_fault names a fault, there are 2^58 keys or more,
 * or block_len is not what bitm_dictionary_size says; else BITM_WRONG if the tables do not match the words, the sizes
 * are not the sizes of levels with a 1 bit for each key, or a key does not stand at its number. Four passes over the
 * words of the levels, two look-ups for each key, and one pass over the block (evident from the code).
 *
 *     const uint64_t words[1] = {0x8000900000}, upper[1] = {0}, lower[1] = {0xc0180300000000}, sizes[1] = {1};
 *     uint64_t keys[3] = {4, 9, 49}, block[80]; // words and tables are of a hash of 4 + 7, 9 + 7 and 49 + 7
 *     const struct bitm_hash hash = {{words, 1, upper, 1, lower, 1, 0, {0}, {0}, {0}}, sizes, 1, 3};
 *     const struct bitm_dictionary dictionary = {hash, keys, 3, 7, {0}};
 *     if (bitm_dictionary_build(&dictionary, block, 80)) return 1;
 *     keys[0]++;
 *     if (bitm_dictionary_build(&dictionary, block, 80) != BITM_WRONG) return 1; // 5 does not stand at its number */
BITM_MUST_USE uint32_t bitm_dictionary_build(const struct bitm_dictionary *dictionary, uint64_t *block,
                                             size_t block_len);

/* Opens a block: writes the dictionary that queries take, which points into the block. BITM_WRONG exactly if
 * bitm_hash_block_open returns it, or the block has no fifth section with the number of keys that the header says.
 *
 * bitm_dictionary_check says whether a block is as it was written and holds a dictionary: BITM_OK, or BITM_WRONG as
 * above, if a checksum does not match its words, if the parts form no hash, or if a key does not stand at its number.
 * So a block in which one word was changed is refused. Two passes over the words of the block, and one look-up for each
 * key (evident from the code).
 *
 *     const uint64_t words[1] = {0x8000900000}, upper[1] = {0}, lower[1] = {0xc0180300000000}, sizes[1] = {1};
 *     const uint64_t keys[3] = {4, 9, 49}; // words and tables are of a hash of 4 + 7, 9 + 7 and 49 + 7
 *     const struct bitm_hash hash = {{words, 1, upper, 1, lower, 1, 0, {0}, {0}, {0}}, sizes, 1, 3};
 *     const struct bitm_dictionary made = {hash, keys, 3, 7, {0}};
 *     uint64_t block[80]; // bitm_dictionary_size(1, 1, 3, ..) says 80
 *     struct bitm_dictionary dictionary;
 *     if (bitm_dictionary_build(&made, block, 80) || bitm_dictionary_open(block, 80, &dictionary) ||
 *         bitm_dictionary_open(block, 79, &dictionary) != BITM_WRONG || bitm_dictionary_check(block, 80)) return 1; */
BITM_MUST_USE uint32_t bitm_dictionary_open(const uint64_t *block, size_t block_len,
                                            struct bitm_dictionary *dictionary);
BITM_MUST_USE uint32_t bitm_dictionary_check(const uint64_t *block, size_t block_len);

/* The number of a key: BITM_OK with its index in dictionary->keys, WHATEVER tables, sizes and keys hold; BITM_NONE if
 * it is no key.
 *
 * bitm_dictionary_find_list is bitm_dictionary_find of each item of a list (struct bitm_list_counts).
 *
 *     const uint64_t words[1] = {0x8000900000}, upper[1] = {0}, lower[1] = {0xc0180300000000}, sizes[1] = {1};
 *     const uint64_t keys[3] = {4, 9, 49}; // words and tables are of a hash of 4 + 7, 9 + 7 and 49 + 7
 *     const struct bitm_hash hash = {{words, 1, upper, 1, lower, 1, 0, {0}, {0}, {0}}, sizes, 1, 3};
 *     const struct bitm_dictionary dictionary = {hash, keys, 3, 7, {0}};
 *     uint64_t number, numbers[3];
 *     struct bitm_list_counts counts;
 *     if (bitm_dictionary_find(&dictionary, 9, &number) || number != 1 ||
 *         bitm_dictionary_find(&dictionary, 50, &number) != BITM_NONE ||
 *         bitm_dictionary_find_list(&dictionary, keys, 3, numbers, 3, &counts) || numbers[2] != 2) return 1; */
BITM_MUST_USE uint32_t bitm_dictionary_find(const struct bitm_dictionary *dictionary, uint64_t key, uint64_t *out);
BITM_MUST_USE uint32_t bitm_dictionary_find_list(const struct bitm_dictionary *dictionary, const uint64_t *keys,
                                                 size_t keys_len, uint64_t *out, size_t out_len,
                                                 struct bitm_list_counts *counts);

/* ---- hashes in blocks, without the keys
 *
 * The block of a struct bitm_hash, or of a struct bitm_seeded_hash, for keys that stand elsewhere.
 *
 *   - errors: an error writes nothing.
 *   - reads: opening reads at most 80 words, however long the block is (evident from the code), and looks at no others.
 *   - overlap: memory that a call writes overlaps nothing else that it is passed. */

/* How many words the block of a hash takes, whose `levels` levels have `words` words together. BITM_BAD_SIZE if there
 * are 2^58 words or more, or more than 256 levels.
 *
 *     uint64_t size;
 *     if (bitm_hash_block_size(1, 1, &size) || size != 64) return 1; */
BITM_MUST_USE uint32_t bitm_hash_block_size(size_t words, size_t levels, uint64_t *out);

/* Writes the block of the hash whose levels have these words and sizes, as bitm_hash_build writes them: it has a key
 * for each 1 bit. seed is yours, the one by which you hashed the keys, say: it is kept. BITM_BAD_SIZE if
 * bitm_hash_block_size does not take the lengths, a level has no word, the levels have not words_len words together, or
 * block_len is not what that call says. Two passes over the words and one over the block (evident from the code).
 *
 *     const uint64_t words[1] = {0x4802}, sizes[1] = {1}; // by bitm_hash_build of three hashes
 *     uint64_t block[64];                                 // or a mapped file
 *     if (bitm_hash_block_build(words, 1, sizes, 1, 7, block, 64)) return 1; */
BITM_MUST_USE uint32_t bitm_hash_block_build(const uint64_t *words, size_t words_len, const uint64_t *sizes,
                                             size_t sizes_len, uint64_t seed, uint64_t *block, size_t block_len);

/* Opens a block, a dictionary's too: writes the hash that bitm_hash_get takes, which points into the block, and its
 * seed. BITM_WRONG exactly if the header or the directory of the block is not right, or belongs to no hash without
 * seeds, or block_len is not as they say.
 *
 * bitm_hash_block_check says whether a block is as it was written and holds a hash: BITM_OK, or BITM_WRONG as above, if
 * a checksum does not match its words, if the tables do not match the words, or if the sizes are not the sizes of
 * levels. Two passes over the words of the block (evident from the code).
 *
 *     const uint64_t words[1] = {0x4802}, sizes[1] = {1}; // by bitm_hash_build of three hashes
 *     uint64_t block[64], seed, number; // bitm_hash_block_size(1, 1, ..) says 64
 *     struct bitm_hash hash;
 *     if (bitm_hash_block_build(words, 1, sizes, 1, 7, block, 64) || bitm_hash_block_open(block, 64, &hash, &seed) ||
 *         seed != 7 || bitm_hash_get(&hash, 0x13198a2e03707344, &number) || bitm_hash_block_check(block, 64)) return 1;
 *     block[40] ^= 1;
 *     if (bitm_hash_block_check(block, 64) != BITM_WRONG) return 1; */
BITM_MUST_USE uint32_t bitm_hash_block_open(const uint64_t *block, size_t block_len, struct bitm_hash *hash,
                                            uint64_t *seed);
BITM_MUST_USE uint32_t bitm_hash_block_check(const uint64_t *block, size_t block_len);

/* The same four calls for a hash with a seed for each word. The calls without _seeded refuse each block of it, and
 * these each block of a hash without seeds, since the other placing would give other numbers.
 *
 *     uint64_t size;
 *     if (bitm_hash_block_size_seeded(1, 1, &size) || size != 80) return 1; */
BITM_MUST_USE uint32_t bitm_hash_block_size_seeded(size_t words, size_t levels, uint64_t *out);

/* Writes the block of the hash whose levels have these words, seeds and sizes, as bitm_hash_build_seeded writes them.
 * BITM_BAD_SIZE also if seeds_len is not words_len. All else is as bitm_hash_block_build says.
 *
 *     const uint64_t words[1] = {0x8000840000000000}, sizes[1] = {1}; // by bitm_hash_build_seeded of three hashes
 *     const uint8_t seeds[1] = {0};
 *     uint64_t block[80]; // or a mapped file
 *     if (bitm_hash_block_build_seeded(words, 1, seeds, 1, sizes, 1, 7, block, 80)) return 1; */
BITM_MUST_USE uint32_t bitm_hash_block_build_seeded(const uint64_t *words, size_t words_len, const uint8_t *seeds,
                                                    size_t seeds_len, const uint64_t *sizes, size_t sizes_len,
                                                    uint64_t seed, uint64_t *block, size_t block_len);

/* Opens a block, which is passed as words and once more as bytes: writes the hash that bitm_hash_get_seeded takes,
 * whose parts point into the block and whose seeds point into the bytes, and its seed. BITM_WRONG exactly if the header
 * or the directory of the block is not right, or belongs to no hash with seeds, or block_len is not as they say; else
 * BITM_BAD_SIZE exactly if bytes_len is not 8 * block_len. Where the bytes are the block's, the seeds are the ones that
 * were built.
 *
 *     const uint64_t words[1] = {0x8000840000000000}, sizes[1] = {1}; // by bitm_hash_build_seeded of three hashes
 *     const uint8_t seeds[1] = {0};
 *     uint64_t block[80], seed; // bitm_hash_block_size_seeded(1, 1, ..) says 80
 *     struct bitm_seeded_hash hash;
 *     if (bitm_hash_block_build_seeded(words, 1, seeds, 1, sizes, 1, 7, block, 80) ||
 *         bitm_hash_block_open_seeded_bytes(block, 80, (const uint8_t *)block, 640, &hash, &seed) ||
 *         seed != 7) return 1; */
BITM_MUST_USE uint32_t bitm_hash_block_open_seeded_bytes(const uint64_t *block, size_t block_len, const uint8_t *bytes,
                                                         size_t bytes_len, struct bitm_seeded_hash *hash,
                                                         uint64_t *seed);

/* The same, where the seeds too are taken from the block: it never returns BITM_BAD_SIZE.
 *
 *     const uint64_t words[1] = {0x8000840000000000}, sizes[1] = {1}; // by bitm_hash_build_seeded of three hashes
 *     const uint8_t seeds[1] = {0};
 *     uint64_t block[80], seed, number; // bitm_hash_block_size_seeded(1, 1, ..) says 80
 *     struct bitm_seeded_hash hash;
 *     if (bitm_hash_block_build_seeded(words, 1, seeds, 1, sizes, 1, 7, block, 80) ||
 *         bitm_hash_block_open_seeded(block, 80, &hash, &seed) ||
 *         bitm_hash_get_seeded(&hash, 0x13198a2e03707344, &number) || number > 2) return 1; */
BITM_MUST_USE static inline uint32_t bitm_hash_block_open_seeded(const uint64_t *block, size_t block_len,
                                                                 struct bitm_seeded_hash *hash, uint64_t *seed)
{
    return bitm_hash_block_open_seeded_bytes(block, block_len, (const uint8_t *)block, 8 * block_len, hash, seed);
}

/* Whether a block is as it was written and holds a hash with seeds: BITM_OK, or BITM_WRONG as
 * bitm_hash_block_open_seeded, if a checksum does not match its words, if the tables do not match the words, or if the
 * sizes are not the sizes of levels. Any seeds are right. Two passes over the words of the block (evident from the
 * code).
 *
 *     const uint64_t words[1] = {0x8000840000000000}, sizes[1] = {1}; // by bitm_hash_build_seeded of three hashes
 *     const uint8_t seeds[1] = {0};
 *     uint64_t block[80]; // bitm_hash_block_size_seeded(1, 1, ..) says 80
 *     if (bitm_hash_block_build_seeded(words, 1, seeds, 1, sizes, 1, 7, block, 80) ||
 *         bitm_hash_block_check_seeded(block, 80) || bitm_hash_block_check(block, 80) != BITM_WRONG) return 1; */
BITM_MUST_USE uint32_t bitm_hash_block_check_seeded(const uint64_t *block, size_t block_len);

/* ---- strings: in one block of memory
 *
 * A dictionary of strings of bytes is the block of a minimal perfect hash of their hashes, and the strings themselves,
 * one after another in the order of their numbers: so any other string has no number. The hash of a string is
 * SipHash-1-3 with a seed of 64 bits as its key, so that whether two strings have one hash depends on the whole seed.
 * Anyone who knows the seed can search for strings with one hash: where others choose the strings, draw the seed at
 * random and keep it to yourself. Strings are passed one after another, with where each of them ends:
 *
 *     const uint8_t *const bytes = (const uint8_t *)"adabobeve";
 *     const uint64_t ends[3] = {3, 6, 9}, seed = 7; // take another seed if hashes are left or build refuses
 *     uint64_t hashes[3], words[8], again[8], sizes[8], upper[1], lower[1], block[112], k, n, left, ones, number;
 *     if (bitm_strings_hashes(bytes, 9, ends, 3, seed, hashes, 3) ||
 *         bitm_hash_build(hashes, 3, 100, words, 8, again, 8, sizes, 8, &k, &n, &left) || left > 0 ||
 *         bitm_index_build(words, n, upper, 1, lower, 1, &ones)) return 1;
 *     struct bitm_hash hash = {{words, n, upper, 1, lower, 1, 0, {0}, {0}, {0}}, sizes, k, 3};
 *     struct bitm_strings strings; // bitm_strings_size(1, 1, 3, 9, ..) says 112 words
 *     if (bitm_strings_build(&hash, seed, bytes, 9, ends, 3, block, 112) || bitm_strings_open(block, 112, &strings) ||
 *         bitm_strings_find(&strings, (const uint8_t *)"bob", 3, &number) || number > 2) return 1;
 *
 *   - errors: a query returns BITM_BAD_SIZE exactly if bitm_strings_fault names a fault, and BITM_WRONG only where the
 *     parts hold no strings. An error writes nothing, but for the block of bitm_strings_build.
 *   - reads: bitm_strings_open reads at most 160 words, however long the block is (evident from the code), and looks at
 *     no others.
 *   - overlap: memory that a call writes overlaps nothing else that it is passed.
 *   - over any block that bitm_strings_open takes, a stale or hostile one too, a query returns, and the string stands
 *     at the number that is found. If bitm_strings_build wrote the block or bitm_strings_check passes it, and it did
 *     not change afterwards, a string that is not found is none of the strings, and no query returns BITM_WRONG. */
struct bitm_strings {
    struct bitm_hash hash;  /* of the hash of each string */
    const uint64_t *starts; /* where the string of each number begins, and where the last one ends: hash.keys + 1 */
    size_t starts_len;
    const uint64_t *bytes;  /* the bytes of all strings, as words: the first byte is the lowest of the first word */
    size_t bytes_len;       /* how many words */
    uint64_t seed;          /* the seed of the hashes */
    uint64_t kind;          /* of the block: 12, where SipHash-1-3 hashes strings, or 10, where FNV-1a does */
    uint64_t reserved[1];   /* 0: not read */
};

/* Faults of strings: which length is wrong, or NULL (see bitm_bits_fault).
 *
 *     struct bitm_strings strings = {.starts_len = 0};
 *     if (bitm_strings_fault(&strings) == NULL) return 1; // starts_len is not hash.keys + 1 */
static inline const char *bitm_strings_fault(const struct bitm_strings *strings)
{
    if (strings->starts_len == 0 || strings->starts_len - 1 != strings->hash.keys) return "starts_len is not hash.keys + 1";
    if (strings->bytes_len >= (size_t)1 << 58) return "bytes_len is 2^58 or more";
    if (strings->kind != 12 && strings->kind != 10) return "kind is neither 12 nor 10";
    return bitm_hash_fault(&strings->hash);
}

/* The hash of a string by a seed: BITM_OK. It is SipHash-1-3 with the key (seed, 0) of the bytes of the string. Reads
 * each byte once (evident from the code).
 *
 *     uint64_t hash;
 *     if (bitm_strings_hash((const uint8_t *)"foobar", 6, 0, &hash) || hash != 0x7738ae0a5df09b34) return 1; */
BITM_MUST_USE uint32_t bitm_strings_hash(const uint8_t *string, size_t string_len, uint64_t seed, uint64_t *out);

/* The hash and the fingerprint of a key of a perfect hash, as the packages for C++, Rust, Python and JavaScript hash
 * theirs, so that each reads the files of the others: BITM_OK. The hash is SipHash-1-3 with the key (seed, kind) of the
 * bytes: kind 1 is text in UTF-8, kind 2 bytes, kind 3 a whole number of 64 bits with its sign as eight bytes, the
 * lowest first, and kind 4 a larger one, in the fewest bytes that hold it and its sign. The fingerprint is the hash x
 * mixed: x = (x ^ x >> 33) * 0xff51afd7ed558ccd, x = (x ^ x >> 33) * 0xc4ceb9fe1a85ec53, and x ^ x >> 33. Reads each
 * byte once (evident from the code).
 *
 *     uint64_t hash, print;
 *     if (bitm_key_hash((const uint8_t *)"foobar", 6, 0, 0, &hash, &print) || hash != 0x7738ae0a5df09b34) return 1; */
BITM_MUST_USE uint32_t bitm_key_hash(const uint8_t *key, size_t key_len, uint64_t seed, uint64_t kind, uint64_t *hash,
                                     uint64_t *print);

/* out[i] is the hash of string i, where the strings stand one after another in bytes, string i up to ends[i].
 * BITM_BAD_SIZE if an end is less than the one before it, the last one is not bytes_len (0 if there are none), or
 * out_len is not ends_len.
 *
 *     const uint8_t *const bytes = (const uint8_t *)"adabobeve";
 *     const uint64_t ends[3] = {3, 6, 9};
 *     uint64_t hashes[3];
 *     if (bitm_strings_hashes(bytes, 9, ends, 3, 7, hashes, 3) ||
 *         bitm_strings_hashes(bytes, 8, ends, 3, 7, hashes, 3) != BITM_BAD_SIZE) return 1; */
BITM_MUST_USE uint32_t bitm_strings_hashes(const uint8_t *bytes, size_t bytes_len, const uint64_t *ends, size_t ends_len,
                                           uint64_t seed, uint64_t *out, size_t out_len);

/* How many words the block of `strings` strings takes, which have `bytes` bytes together, with a hash whose `levels`
 * levels have `words` words together. BITM_BAD_SIZE if there are 2^57 words or strings or more, more than 256 levels,
 * or 2^60 bytes or more.
 *
 *     uint64_t size;
 *     if (bitm_strings_size(1, 1, 3, 9, &size) || size != 112) return 1; */
BITM_MUST_USE uint32_t bitm_strings_size(size_t words, size_t levels, size_t strings, size_t bytes, uint64_t *out);

/* Writes the block of the strings that stand one after another in bytes, string i up to ends[i], by a hash of their
 * hashes, as bitm_hash_build makes it of the numbers that bitm_strings_hashes writes: a block of kind 12. BITM_BAD_SIZE
 * if bitm_hash_fault names a fault, the ends are not as that call takes them, or block_len is not what
 * bitm_strings_size says; else BITM_WRONG if the parts form no hash, or it does not give each string a number of its
 * own: two strings are equal, or have one hash, which they may not have with another seed. The block may hold anything
 * after BITM_WRONG. Three passes over the words of the levels, two over the bytes, one over the block, and a look-up
 * for each string (evident from the code).
 *
 *     const uint64_t words[1] = {0x2000004000004000}, upper[1] = {0}, lower[1] = {0xc0180300000000}, sizes[1] = {1};
 *     const struct bitm_hash hash = {{words, 1, upper, 1, lower, 1, 0, {0}, {0}, {0}}, sizes, 1, 3}; // seed 7
 *     const uint64_t ends[3] = {3, 6, 9};
 *     uint64_t block[112]; // bitm_strings_size(1, 1, 3, 9, ..) says 112
 *     const uint8_t *const names = (const uint8_t *)"adabobeve", *const equal = (const uint8_t *)"adabobada";
 *     if (bitm_strings_build(&hash, 7, names, 9, ends, 3, block, 112) ||
 *         bitm_strings_build(&hash, 7, equal, 9, ends, 3, block, 112) != BITM_WRONG) return 1; */
BITM_MUST_USE uint32_t bitm_strings_build(const struct bitm_hash *hash, uint64_t seed, const uint8_t *bytes,
                                          size_t bytes_len, const uint64_t *ends, size_t ends_len, uint64_t *block,
                                          size_t block_len);

/* Opens a block: writes the strings that queries take, which point into the block. A block of kind 10, whose strings
 * are hashed by FNV-1a, is opened, checked and queried like a block of kind 12; no call writes it. BITM_WRONG exactly
 * if the header or the directory of the block is not right, or belongs to no strings, the first section is not the
 * block of a hash with the number of keys that the header says, there is not one start more than keys, or block_len is
 * not as they say.
 *
 *     const uint64_t words[1] = {0x2000004000004000}, upper[1] = {0}, lower[1] = {0xc0180300000000}, sizes[1] = {1};
 *     const struct bitm_hash hash = {{words, 1, upper, 1, lower, 1, 0, {0}, {0}, {0}}, sizes, 1, 3}; // seed 7
 *     const uint64_t ends[3] = {3, 6, 9};
 *     uint64_t block[112]; // bitm_strings_size(1, 1, 3, 9, ..) says 112
 *     struct bitm_strings strings;
 *     if (bitm_strings_build(&hash, 7, (const uint8_t *)"adabobeve", 9, ends, 3, block, 112) ||
 *         bitm_strings_open(block, 112, &strings) ||
 *         bitm_strings_open(block, 111, &strings) != BITM_WRONG) return 1; */
BITM_MUST_USE uint32_t bitm_strings_open(const uint64_t *block, size_t block_len, struct bitm_strings *strings);

/* Whether a block is as it was written and holds strings: BITM_OK, or BITM_WRONG as bitm_strings_open, if a checksum
 * does not match its words, if the parts form no hash, if a string does not have its number, if strings do not stand
 * one after another, or if a byte after the last one is not 0. So a block in which one word was changed is refused. Two
 * passes over the words of the block, one more over the bytes, and one look-up for each string (evident from the code).
 *
 *     const uint64_t words[1] = {0x2000004000004000}, upper[1] = {0}, lower[1] = {0xc0180300000000}, sizes[1] = {1};
 *     const struct bitm_hash hash = {{words, 1, upper, 1, lower, 1, 0, {0}, {0}, {0}}, sizes, 1, 3}; // seed 7
 *     const uint64_t ends[3] = {3, 6, 9};
 *     uint64_t block[112]; // bitm_strings_size(1, 1, 3, 9, ..) says 112
 *     if (bitm_strings_build(&hash, 7, (const uint8_t *)"adabobeve", 9, ends, 3, block, 112) ||
 *         bitm_strings_check(block, 112)) return 1;
 *     block[32] ^= 1;
 *     if (bitm_strings_check(block, 112) != BITM_WRONG) return 1; */
BITM_MUST_USE uint32_t bitm_strings_check(const uint64_t *block, size_t block_len);

/* The number of a string: BITM_OK, and the string stands at that number, WHATEVER hash, starts and bytes hold;
 * BITM_NONE if it is none of the strings. Reads what bitm_hash_get reads, at most two starts, and at most string_len
 * bytes (evident from the code).
 *
 * bitm_strings_find_list is bitm_strings_find of each string of a list, where the strings stand one after another in
 * bytes, string i up to ends[i] (struct bitm_list_counts). BITM_BAD_SIZE also if the ends are not as
 * bitm_strings_hashes takes them.
 *
 *     const uint64_t words[1] = {0x2000004000004000}, upper[1] = {0}, lower[1] = {0xc0180300000000}, sizes[1] = {1};
 *     const struct bitm_hash hash = {{words, 1, upper, 1, lower, 1, 0, {0}, {0}, {0}}, sizes, 1, 3}; // seed 7
 *     const uint8_t *const names = (const uint8_t *)"adabobeve";
 *     const uint64_t ends[3] = {3, 6, 9};
 *     uint64_t block[112], number, numbers[3]; // bitm_strings_size(1, 1, 3, 9, ..) says 112
 *     struct bitm_strings strings;
 *     struct bitm_list_counts counts;
 *     if (bitm_strings_build(&hash, 7, names, 9, ends, 3, block, 112) || bitm_strings_open(block, 112, &strings) ||
 *         bitm_strings_find(&strings, names + 3, 3, &number) || number != 2 || // bob
 *         bitm_strings_find_list(&strings, names, 9, ends, 3, numbers, 3, &counts) || numbers[2] != 0) return 1; */
BITM_MUST_USE uint32_t bitm_strings_find(const struct bitm_strings *strings, const uint8_t *string, size_t string_len,
                                         uint64_t *out);
BITM_MUST_USE uint32_t bitm_strings_find_list(const struct bitm_strings *strings, const uint8_t *bytes, size_t bytes_len,
                                              const uint64_t *ends, size_t ends_len, uint64_t *out, size_t out_len,
                                              struct bitm_list_counts *counts);

/* Where the string of a number begins in strings->bytes, taken as bytes, and how many bytes it has. They stand there
 * WHATEVER the starts hold. BITM_NONE exactly if there is no such number; BITM_WRONG exactly if the starts there mark
 * no string in the bytes.
 *
 *     const uint64_t words[1] = {0x2000004000004000}, upper[1] = {0}, lower[1] = {0xc0180300000000}, sizes[1] = {1};
 *     const struct bitm_hash hash = {{words, 1, upper, 1, lower, 1, 0, {0}, {0}, {0}}, sizes, 1, 3}; // seed 7
 *     const uint64_t ends[3] = {3, 6, 9};
 *     uint64_t block[112], begin, len; // bitm_strings_size(1, 1, 3, 9, ..) says 112
 *     struct bitm_strings strings;
 *     if (bitm_strings_build(&hash, 7, (const uint8_t *)"adabobeve", 9, ends, 3, block, 112) ||
 *         bitm_strings_open(block, 112, &strings) || bitm_strings_get(&strings, 2, &begin, &len) || len != 3 ||
 *         ((const uint8_t *)strings.bytes)[begin] != 'b') return 1; */
BITM_MUST_USE uint32_t bitm_strings_get(const struct bitm_strings *strings, size_t number, uint64_t *begin,
                                        uint64_t *len);

/* ---- texts: where a pattern stands, by an index in one block of memory
 *
 * The index of a text (an FM-index: Ferragina and Manzini, FOCS 2000) is all that is needed: the text can be put away.
 * A pattern is counted in two ranks for each of its letters, however long the text is.
 *
 * Letters are numbers below a bound, the alphabet, each with the bits of the largest letter of the alphabet. A text of
 * bytes keeps which bytes it uses, so that a letter has no more bits than these need, two for the four letters of a
 * genome: letter c is the c-th byte that is used, and calls that end in _bytes take and write the bytes.
 *
 *     const uint8_t *const banana = (const uint8_t *)"banana"; // a letter takes 2 bits: a, b and n are 0, 1 and 2
 *     uint64_t block[176], block_len, scratch_len, count;      // or a mapped file
 *     uint32_t scratch[14];
 *     struct bitm_text text;
 *     if (bitm_text_size_bytes(banana, 6, 32, &block_len, &scratch_len) || block_len != 176 || scratch_len != 14 ||
 *         bitm_text_build_bytes(banana, 6, 32, scratch, 14, block, 176) || bitm_text_open(block, 176, &text) ||
 *         bitm_text_count_bytes(&text, (const uint8_t *)"ana", 3, &count) || count != 2) return 1;
 *
 * The program `bitm text build` (docs/PROGRAM.md) makes the same block.
 *
 *   - errors: a query returns BITM_BAD_SIZE if a length in the struct fits no text, and BITM_WRONG only where the block
 *     holds no text. An error writes nothing, unless the call says otherwise.
 *   - reads: a query makes ranks in the letters for each bit of their width; each call says how many. bitm_text_open
 *     reads at most 80 words, however long the block is (evident from the code), and looks at no others.
 *   - overlap: memory that a call writes overlaps nothing else that it is passed.
 *   - over any block that bitm_text_open takes, a stale or hostile one too, a query returns within the reads that are
 *     named below, a count is at most one more than the text has letters, a position is one of the text's, or its end,
 *     and a letter has no more bits than the width. If bitm_text_build or bitm_text_build_bytes wrote the block or
 *     bitm_text_check passes it, and it did not change afterwards, the answers agree with one text, and no query
 *     returns BITM_WRONG. Hints of its matrices do not matter. */
struct bitm_text {
    struct bitm_matrix letters; /* the letter before each suffix, row by row: rows are the suffixes in their order */
    struct bitm_matrix marks;   /* for each row, whether its position is sampled */
    const uint64_t *starts;     /* for each letter the row of the first suffix that begins with it */
    size_t starts_len;
    const uint64_t *samples; /* positions, and the rows of positions */
    size_t samples_len;
    size_t first;         /* the row of the whole text */
    uint64_t step;        /* a position is sampled each step letters */
    const uint64_t *used; /* which bytes letters stand for, 256 bits; no words where letters are numbers */
    size_t used_len;
    uint64_t reserved[2]; /* 0: not read */
};

/* Faults of the index of a text: which length is wrong, or NULL (see bitm_bits_fault).
 *
 *     struct bitm_text text = {.step = 0};
 *     if (bitm_text_fault(&text) == NULL) return 1; // marks.len is not letters.len + 1 */
static inline const char *bitm_text_fault(const struct bitm_text *text)
{
    if (text->letters.len >= ((size_t)1 << 32) - 1) return "letters.len is 2^32 - 1 or more";
    if (text->marks.len != text->letters.len + 1) return "marks.len is not letters.len + 1";
    if (text->marks.width != 1) return "marks.width is not 1";
    if (text->first > text->letters.len) return "first is above letters.len";
    if (text->step < 1 || text->step >= (uint64_t)1 << 32) return "step is not 1 to 2^32 - 1";
    if (text->used_len != 0 && text->used_len != 4) return "used_len is neither 0 nor 4";
    struct bitm_matrix letters = text->letters, marks = text->marks;
    letters.hints_len = marks.hints_len = 0; /* do not matter */
    const char *const fault = bitm_matrix_fault(&letters);
    return fault ? fault : bitm_matrix_fault(&marks);
}

/* How many words the block of `len` letters of `width` bits takes, of an alphabet of `letters` letters, with a sample
 * each `step` letters. BITM_BAD_SIZE if len is 2^32 - 1 or more, width is not 1 to 64, letters is 2^58 or more, or step
 * is 0.
 *
 *     uint64_t size;
 *     if (bitm_text_size(6, 2, 3, 32, &size) || size != 168) return 1; // six letters that are 0, 1 or 2 */
BITM_MUST_USE uint32_t bitm_text_size(size_t len, uint32_t width, size_t letters, uint32_t step, uint64_t *out);

/* How many words the block of a text of `len` letters below `letters` takes, with a sample each `step` letters, and how
 * many numbers of 32 bits bitm_text_build needs while it works: two for each letter and two more; for a short text with
 * a large alphabet more, two for each letter of the alphabet. BITM_BAD_SIZE if len is 2^32 - 1 or more, or step is 0.
 *
 *     uint64_t block_len, scratch_len;
 *     if (bitm_text_size_letters(6, 3, 32, &block_len, &scratch_len) || block_len != 168 ||
 *         scratch_len != 14) return 1; */
BITM_MUST_USE uint32_t bitm_text_size_letters(size_t len, uint32_t letters, uint32_t step, uint64_t *block_len,
                                              uint64_t *scratch_len);

/* Writes the block of the index of a text of letters below `letters`, with a sample each `step` letters: the more
 * letters apart, the less memory, and the more steps for each position and each part of the text. BITM_BAD_SIZE if
 * bitm_text_size_letters does not take text_len and step, or block_len or scratch_len is not the size that it gives;
 * else BITM_WRONG if a letter is not below `letters`. BITM_OK overwrites scratch. Allocates nothing. Time grows
 * linearly with the text (tested, not proved).
 *
 *     const uint64_t banana[6] = {1, 0, 2, 0, 2, 0};
 *     uint64_t block[168], count; // bitm_text_size_letters(6, 3, 32, ..) says 168 and 14
 *     uint32_t scratch[14];
 *     struct bitm_text text;
 *     if (bitm_text_build(banana, 6, 3, 32, scratch, 14, block, 168) || bitm_text_open(block, 168, &text) ||
 *         bitm_text_count(&text, banana + 1, 3, &count) || count != 2 || // from 1, and from 3
 *         bitm_text_build(banana, 6, 2, 32, scratch, 14, block, 168) != BITM_WRONG) return 1; // no letter 2 */
BITM_MUST_USE uint32_t bitm_text_build(const uint64_t *text, size_t text_len, uint32_t letters, uint32_t step,
                                       uint32_t *scratch, size_t scratch_len, uint64_t *block, size_t block_len);

/* How many words the block of a text of bytes takes, with a sample each `step` bytes, and how many numbers of 32 bits
 * bitm_text_build_bytes needs while it works: eight bytes for each byte of the text, and 2 KiB more for a short one.
 * The text is read twice, to see which bytes it uses (evident from the code). BITM_BAD_SIZE if text_len is 2^32 - 1 or
 * more, or step is 0.
 *
 *     uint64_t block_len, scratch_len;
 *     if (bitm_text_size_bytes((const uint8_t *)"banana", 6, 32, &block_len, &scratch_len) ||
 *         block_len != 176) return 1; */
BITM_MUST_USE uint32_t bitm_text_size_bytes(const uint8_t *text, size_t text_len, uint32_t step, uint64_t *block_len,
                                            uint64_t *scratch_len);

/* bitm_text_build of bytes: only bytes that occur in the text become letters. BITM_BAD_SIZE exactly if
 * bitm_text_size_bytes does not take the text and the step, or a length is not the size that it gives.
 *
 *     const uint8_t *const banana = (const uint8_t *)"banana";
 *     uint64_t block[176]; // bitm_text_size_bytes says 176 and 14
 *     uint32_t scratch[14];
 *     if (bitm_text_build_bytes(banana, 6, 32, scratch, 14, block, 176) ||
 *         bitm_text_build_bytes(banana, 6, 32, scratch, 13, block, 176) != BITM_BAD_SIZE) return 1; */
BITM_MUST_USE uint32_t bitm_text_build_bytes(const uint8_t *text, size_t text_len, uint32_t step, uint32_t *scratch,
                                             size_t scratch_len, uint64_t *block, size_t block_len);

/* Building in two steps, for a caller that wants to say how far it is. Writes the order of the text's suffixes to the
 * first text_len + 1 numbers of scratch: number k is where the suffix with rank k begins, and the empty suffix has rank
 * 0. The rest of scratch holds arbitrary numbers then. BITM_BAD_SIZE if bitm_text_size_letters does not take text_len,
 * or scratch_len is not the size that it gives; else BITM_WRONG if a letter is not below `letters`.
 *
 * bitm_text_order_bytes is bitm_text_order of bytes. BITM_BAD_SIZE exactly if bitm_text_size_bytes does not take
 * text_len, or scratch_len is not the size that it gives.
 *
 *     const uint64_t banana[6] = {1, 0, 2, 0, 2, 0};
 *     uint32_t scratch[14]; // bitm_text_size_letters and bitm_text_size_bytes say 14
 *     if (bitm_text_order(banana, 6, 3, scratch, 14) || scratch[0] != 6 || scratch[1] != 5 || // the end, the last a
 *         bitm_text_order_bytes((const uint8_t *)"banana", 6, scratch, 14) || scratch[1] != 5) return 1; */
BITM_MUST_USE uint32_t bitm_text_order(const uint64_t *text, size_t text_len, uint32_t letters, uint32_t *scratch,
                                       size_t scratch_len);
BITM_MUST_USE uint32_t bitm_text_order_bytes(const uint8_t *text, size_t text_len, uint32_t *scratch,
                                             size_t scratch_len);

/* Writes the block of the index of a text, as bitm_text_build does, from the order that bitm_text_order wrote to
 * scratch. BITM_BAD_SIZE as bitm_text_build; else BITM_WRONG exactly if a letter is not below `letters`, or the first
 * text_len + 1 numbers of scratch are not the order of the text's suffixes: each is looked at.
 *
 * bitm_text_build_ordered_bytes is bitm_text_build_ordered of bytes, from the order that bitm_text_order_bytes wrote.
 * BITM_BAD_SIZE exactly as bitm_text_build_bytes; else BITM_WRONG exactly if the order is not the order of the text's
 * suffixes. Both overwrite scratch, after BITM_WRONG too.
 *
 *     const uint8_t *const bytes = (const uint8_t *)"banana";
 *     const uint64_t letters[6] = {1, 0, 2, 0, 2, 0};
 *     uint64_t by_letters[168], by_bytes[176]; // bitm_text_size_letters says 168 and 14, .._bytes 176 and 14
 *     uint32_t scratch[14];
 *     if (bitm_text_order(letters, 6, 3, scratch, 14) ||
 *         bitm_text_build_ordered(letters, 6, 3, 32, scratch, 14, by_letters, 168) ||
 *         bitm_text_order_bytes(bytes, 6, scratch, 14) ||
 *         bitm_text_build_ordered_bytes(bytes, 6, 32, scratch, 14, by_bytes, 176)) return 1; */
BITM_MUST_USE uint32_t bitm_text_build_ordered(const uint64_t *text, size_t text_len, uint32_t letters, uint32_t step,
                                               uint32_t *scratch, size_t scratch_len, uint64_t *block,
                                               size_t block_len);
BITM_MUST_USE uint32_t bitm_text_build_ordered_bytes(const uint8_t *text, size_t text_len, uint32_t step,
                                                     uint32_t *scratch, size_t scratch_len, uint64_t *block,
                                                     size_t block_len);

/* Opens a block: writes the index that queries take, which points into the block. BITM_WRONG exactly if the header or
 * the directory of the block is not right, or belongs to no text, or block_len is not as they say.
 *
 * bitm_text_check says whether a block is as it was written and holds the index of a text: BITM_OK, or BITM_WRONG as
 * above, if a checksum does not match its words, or if the words are not the words that an index keeps of a text. So a
 * block in which one word was changed is refused. Three passes over the block, and a walk through all letters (evident
 * from the code).
 *
 *     uint64_t block[176]; // bitm_text_size_bytes says 176 and 14
 *     uint32_t scratch[14];
 *     struct bitm_text text;
 *     if (bitm_text_build_bytes((const uint8_t *)"banana", 6, 32, scratch, 14, block, 176) ||
 *         bitm_text_open(block, 176, &text) || text.letters.len != 6 || bitm_text_check(block, 176)) return 1;
 *     block[100] ^= 1;
 *     if (bitm_text_check(block, 176) != BITM_WRONG) return 1; */
BITM_MUST_USE uint32_t bitm_text_open(const uint64_t *block, size_t block_len, struct bitm_text *text);
BITM_MUST_USE uint32_t bitm_text_check(const uint64_t *block, size_t block_len);

/* How many letters the text has.
 *
 *     uint64_t block[176], len; // bitm_text_size_bytes says 176 and 14
 *     uint32_t scratch[14];
 *     struct bitm_text text;
 *     if (bitm_text_build_bytes((const uint8_t *)"banana", 6, 32, scratch, 14, block, 176) ||
 *         bitm_text_open(block, 176, &text) || bitm_text_len(&text, &len) || len != 6) return 1; */
BITM_MUST_USE uint32_t bitm_text_len(const struct bitm_text *text, uint64_t *out);

/* At how many positions of the text a pattern stands; one of no letters at each position, the end too. A letter or a
 * byte that the text does not have stands nowhere. Reads for each letter of the pattern, and for each bit of the width,
 * at most three upper entries, three lower entries and 24 words.
 *
 *     const uint64_t ana[3] = {0, 2, 0}; // of a, b and n
 *     uint64_t block[176], count; // bitm_text_size_bytes says 176 and 14
 *     uint32_t scratch[14];
 *     struct bitm_text text;
 *     if (bitm_text_build_bytes((const uint8_t *)"banana", 6, 32, scratch, 14, block, 176) ||
 *         bitm_text_open(block, 176, &text) || bitm_text_count(&text, ana, 3, &count) || count != 2 ||
 *         bitm_text_count_bytes(&text, (const uint8_t *)"na", 2, &count) || count != 2) return 1; */
BITM_MUST_USE uint32_t bitm_text_count(const struct bitm_text *text, const uint64_t *pattern, size_t pattern_len,
                                       uint64_t *out);
BITM_MUST_USE uint32_t bitm_text_count_bytes(const struct bitm_text *text, const uint8_t *pattern, size_t pattern_len,
                                             uint64_t *out);

/* Writes positions at which a pattern stands, in the order of the suffixes that begin there: without the first `from`
 * of them, until out is full or there are no more; and to *written how many these are. Items of out after them stay as
 * they were. Where BITM_WRONG is returned, out may have been written to; *written is as it was. Reads what
 * bitm_text_count reads; and for each position, with n for the step or, if it is less, the text's length and 1, what
 * bitm_text_extract reads for n - 1 letters, and of the marks at most n + 2 upper entries, n + 2 lower entries, 8 * (n
 * + 2) words, and a sample.
 *
 *     const uint64_t ana[3] = {0, 2, 0}; // of a, b and n
 *     uint64_t block[176], found[4], written; // bitm_text_size_bytes says 176 and 14
 *     uint32_t scratch[14];
 *     struct bitm_text text;
 *     if (bitm_text_build_bytes((const uint8_t *)"banana", 6, 32, scratch, 14, block, 176) ||
 *         bitm_text_open(block, 176, &text) || bitm_text_locate(&text, ana, 3, 0, found, 4, &written) ||
 *         written != 2 || found[0] != 3 || found[1] != 1 ||
 *         bitm_text_locate_bytes(&text, (const uint8_t *)"ana", 3, 1, found, 4, &written) || written != 1) return 1; */
BITM_MUST_USE uint32_t bitm_text_locate(const struct bitm_text *text, const uint64_t *pattern, size_t pattern_len,
                                        size_t from, uint64_t *out, size_t out_len, uint64_t *written);
BITM_MUST_USE uint32_t bitm_text_locate_bytes(const struct bitm_text *text, const uint8_t *pattern, size_t pattern_len,
                                              size_t from, uint64_t *out, size_t out_len, uint64_t *written);

/* Writes the out_len letters of the text from position `from` on. BITM_NONE exactly if the text has fewer. Where
 * BITM_WRONG is returned, out may have been written to. BITM_BAD_SIZE for bytes also if letters are numbers that may
 * have more than 8 bits. Reads for each letter, and for at most `step` - 1 letters more, or the text's length if that
 * is less, two upper entries, two lower entries and 16 words for each bit of the width, and at most a sample.
 *
 *     uint64_t block[176], letters[2]; // bitm_text_size_bytes says 176 and 14
 *     uint32_t scratch[14];
 *     uint8_t bytes[3];
 *     struct bitm_text text;
 *     if (bitm_text_build_bytes((const uint8_t *)"banana", 6, 32, scratch, 14, block, 176) ||
 *         bitm_text_open(block, 176, &text) || bitm_text_extract_bytes(&text, 2, bytes, 3) || bytes[0] != 'n' ||
 *         bitm_text_extract(&text, 4, letters, 2) || letters[0] != 2 || letters[1] != 0) return 1; */
BITM_MUST_USE uint32_t bitm_text_extract(const struct bitm_text *text, size_t from, uint64_t *out, size_t out_len);
BITM_MUST_USE uint32_t bitm_text_extract_bytes(const struct bitm_text *text, size_t from, uint8_t *out, size_t out_len);

#ifdef __cplusplus
}
#endif
#endif
