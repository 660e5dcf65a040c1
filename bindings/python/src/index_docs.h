/* What help() says of an Index. Each text has an example, which a test runs after `from bitm import *`. */
#ifndef BITM_INDEX_DOCS_H
#define BITM_INDEX_DOCS_H

#define INDEX_DOC                                                                                                      \
    "Index(bits, length=None, *, sample_log2=None)\n--\n\n"                                                            \
    "Rank and selection over bits, which stay where they are: a BitVector, or a buffer of 64-bit words or\n"           \
    "of bytes. They must not change while the index is used; check says whether they have.\n\n"                        \
    "Samples of each 2**sample_log2 bits (7 to 31) make selections faster.\n\n"                                        \
    "The tables take some 3 % of the bits' memory (Zhou, Andersen and Kaminsky, SEA 2013). Building reads\n"           \
    "each word once. ValueError where there are fewer bits than length, TypeError for a buffer of other\n"             \
    "items. A query of a closed index raises ValueError, and over tables that do not match the bits\n"                 \
    "WrongTables."                                                                                                     \
    EXAMPLE("index = Index(BitVector.from_bits('0101101'))") THEN("index.rank(4), index.select(2)")                    \
    PRINTS("(2, 4)")

#define INDEX_RANK                                                                                                     \
    "How many 1 bits there are before a position, which may be the length. IndexError past it. Reads two entries of "  \
    "the tables and eight words at most." EXAMPLE("Index(BitVector.from_bits('0101101')).rank(4)") PRINTS("2")
#define INDEX_RANK0                                                                                                    \
    "How many 0 bits there are before a position, as rank." EXAMPLE("Index(BitVector.from_bits('0101101')).rank0(4)")  \
        PRINTS("2")
#define INDEX_SELECT                                                                                                   \
    "The position of the 1 bit that has rank 1 bits before it, or None. Searches the tables, "                         \
    "and reads eight words at most." EXAMPLE("Index(BitVector.from_bits('0101101')).select(2)") PRINTS("4")
#define INDEX_SELECT0                                                                                                  \
    "The position of the 0 bit with that rank, or None, as select." EXAMPLE(                                           \
        "Index(BitVector.from_bits('0101101')).select0(1)") PRINTS("2")
#define INDEX_NEXT_ONE                                                                                                 \
    "The position of the first 1 bit at or after a position, or None. Costs a rank and a selection, however far it "   \
    "is." EXAMPLE("Index(BitVector.from_bits('0101101')).next_one(2)") PRINTS("3")
#define INDEX_NEXT_ZERO                                                                                                \
    "The position of the first 0 bit at or after a position, or None, as next_one." EXAMPLE(                           \
        "Index(BitVector.from_bits('0101101')).next_zero(3)") PRINTS("5")
#define INDEX_PREVIOUS_ONE                                                                                             \
    "The position of the last 1 bit at or before a position, which may be past the end, or None. Costs as "            \
    "next_one." EXAMPLE("Index(BitVector.from_bits('0101101')).previous_one(5)") PRINTS("4")
#define INDEX_PREVIOUS_ZERO                                                                                            \
    "The position of the last 0 bit at or before a position, or None, as previous_one." EXAMPLE(                       \
        "Index(BitVector.from_bits('0101101')).previous_zero(4)") PRINTS("2")
#define INDEX_RANK_LIST                                                                                                \
    "The ranks of many positions: an array of uint64 for an array of NumPy, else a list. The positions may be a "      \
    "buffer of whole numbers of any width, or an iterable. IndexError where one is past the length, OverflowError "    \
    "where one is below 0. Other threads run meanwhile." EXAMPLE(                                                      \
        "Index(BitVector.from_bits('0101101')).rank_list([0, 4, 7])") PRINTS("[0, 2, 4]")
#define INDEX_RANK0_LIST                                                                                               \
    "The ranks of many positions, of 0 bits, as rank_list." EXAMPLE(                                                   \
        "Index(BitVector.from_bits('0101101')).rank0_list([0, 4, 7])") PRINTS("[0, 2, 3]")
#define INDEX_SELECT_LIST                                                                                              \
    "The positions of many ranks: a list with None where there is none, or for an array of NumPy a masked array. "     \
    "missing may be 'error' (IndexError then), a number that stands there, or 'mask'. Other threads run "              \
    "meanwhile." EXAMPLE("Index(BitVector.from_bits('0101101')).select_list([0, 9])") PRINTS("[1, None]")              \
        THEN("Index(BitVector.from_bits('0101101')).select_list([0, 9], missing=7)") PRINTS("[1, 7]")
#define INDEX_SELECT0_LIST                                                                                             \
    "The positions of many ranks, of 0 bits, as select_list." EXAMPLE(                                                 \
        "Index(BitVector.from_bits('0101101')).select0_list([0, 2, 3])") PRINTS("[0, 5, None]")
#define INDEX_COUNT                                                                                                    \
    "How many 1 bits there are, or with 0 how many 0 bits. Costs a rank." EXAMPLE(                                     \
        "Index(BitVector.from_bits('0101101')).count()") PRINTS("4")
#define INDEX_ONES                                                                                                     \
    "The positions of the 1 bits in a range, ascending or descending." EXAMPLE(                                        \
        "list(Index(BitVector.from_bits('0101101')).ones(2))") PRINTS("[3, 4, 6]")                                     \
        EXAMPLE("list(Index(BitVector.from_bits('0101101')).ones(0, 5, reverse=True))") PRINTS("[4, 3, 1]")
#define INDEX_ZEROS                                                                                                    \
    "The positions of the 0 bits in a range, ascending or descending." EXAMPLE(                                        \
        "list(Index(BitVector.from_bits('0101101')).zeros())") PRINTS("[0, 2, 5]")
#define INDEX_CHECK                                                                                                    \
    "Whether the tables, and the samples, match the bits; of a block that was loaded also whether it is as it "        \
    "was written. Reads all of it. Of a file of format version 2 it finds only what does not fit." EXAMPLE(            \
        "words = bytearray(800)") THEN("index = Index(words)") THEN("words[3] = 1") THEN("index.check()")              \
        PRINTS("False")
#define INDEX_WORDS                                                                                                    \
    "The words, to be read: bit i is bit i % 64, lowest first, of word i // 64." EXAMPLE(                              \
        "Index(BitVector.from_bits('0101101')).words[0]") PRINTS("90")

#endif
