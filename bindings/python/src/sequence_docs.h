/* What help() says of an EliasFano. Each text has an example, which a test runs after `from bitm import *`. */
#ifndef BITM_SEQUENCE_DOCS_H
#define BITM_SEQUENCE_DOCS_H

#define SEQUENCE_DOC                                                                                                   \
    "EliasFano(numbers)\n--\n\n"                                                                                       \
    "Numbers from 0 to 2**64 - 1 that do not fall (equal ones may follow each other), in about log2(m /\n"             \
    "n) + 2.6 bits each where n of them are below m. It has the calls of a tuple, and successors and\n"                \
    "predecessors.\n\n"                                                                                                \
    "The numbers may be a buffer of whole numbers of any width, or an iterable. ValueError where one is\n"             \
    "less than the one before it: it says which. A query of a closed sequence raises ValueError, and over\n"           \
    "parts that form no sequence (of a damaged file) WrongTables." EXAMPLE("primes = EliasFano([2, 3, 5, 7, 11, 13])") \
        THEN("primes[4], primes[1:3], 7 in primes") PRINTS("(11, [3, 5], True)")

#define SEQUENCE_FIRST_AT_LEAST                                                                                        \
    "Successor: the least index whose number is at least value, or None. Costs a selection or two, and a read for "    \
    "each binary digit of how many numbers share the high bits of value." EXAMPLE(                                     \
        "EliasFano([2, 3, 5, 7, 11]).first_at_least(6)") PRINTS("3")
#define SEQUENCE_LAST_AT_MOST                                                                                          \
    "Predecessor: the greatest index whose number is at most value, or None. Costs as first_at_least." EXAMPLE(        \
        "EliasFano([2, 3, 5, 7, 11]).last_at_most(6)") PRINTS("2")
#define SEQUENCE_RANK                                                                                                  \
    "How many numbers are less than value." EXAMPLE("EliasFano([2, 3, 5, 7, 11]).rank(100)") PRINTS("5")
#define SEQUENCE_GET_LIST                                                                                              \
    "The numbers at many indexes: an array of uint64 for an array of NumPy, else a list. IndexError where there is "   \
    "none, OverflowError for an index below 0. Other threads run meanwhile." EXAMPLE(                                  \
        "EliasFano([2, 3, 5, 7, 11]).get_list([4, 0])") PRINTS("[11, 2]")
#define SEQUENCE_FIRST_AT_LEAST_LIST                                                                                   \
    "The successors of many values; missing as in Index.select_list." EXAMPLE(                                         \
        "EliasFano([2, 3, 5, 7, 11]).first_at_least_list([6, 12])") PRINTS("[3, None]")
#define SEQUENCE_LAST_AT_MOST_LIST                                                                                     \
    "The predecessors of many values; missing as in Index.select_list." EXAMPLE(                                       \
        "EliasFano([2, 3, 5, 7, 11]).last_at_most_list([6, 1], missing=9)") PRINTS("[2, 9]")
#define SEQUENCE_CONTAINS_LIST                                                                                         \
    "Whether each of many values is in the sequence: an array of bools for an array of NumPy, else a list." EXAMPLE(   \
        "EliasFano([2, 3, 5, 7, 11]).contains_list([6, 7])") PRINTS("[False, True]")
#define SEQUENCE_ITEMS                                                                                                 \
    "The numbers in a range of indexes, ascending or descending: an iterator with seek and next_geq, or "              \
    "next_leq." EXAMPLE("list(EliasFano([2, 3, 5, 7, 11]).items(1, 4, reverse=True))") PRINTS("[7, 5, 3]")
#define SEQUENCE_FROM_VALUE                                                                                            \
    "The numbers from the first that is at least value on; or backwards from the last that is at most value. An "      \
    "iterator with seek and next_geq, or next_leq." EXAMPLE("list(EliasFano([2, 3, 5, 7, 11]).from_value(4))")         \
        PRINTS("[5, 7, 11]") EXAMPLE("list(EliasFano([2, 3, 5, 7, "                                                    \
                                     "11]).from_value(4, reverse=True))") PRINTS("[3, 2]")
#define SEQUENCE_CURSOR                                                                                                \
    "A Cursor at the first number. Costs three selections." EXAMPLE("EliasFano([2, 3, 5, 7, 11]).cursor().number")     \
        PRINTS("2")
#define SEQUENCE_INDEX                                                                                                 \
    "The first index of a number, in a range of indexes; ValueError where it has none." EXAMPLE(                       \
        "EliasFano([2, 3, 5, 7, 11]).index(5)") PRINTS("2")
#define SEQUENCE_COUNT "How often a number is in the sequence." EXAMPLE("EliasFano([2, 3, 3, 3]).count(3)") PRINTS("3")
#define SEQUENCE_CHECK                                                                                                 \
    "Whether the block is as it was written and holds a sequence: looks at all of it. Of parts, and so of a file of "  \
    "format version 2, it finds only what does not fit." EXAMPLE("EliasFano([2, 3]).check()") PRINTS("True")

#define NUMBERS_SEEK                                                                                                   \
    "Moves on to the first number, of those that are left, that is at least value, or backwards at most value; "       \
    "returns itself." EXAMPLE("list(iter(EliasFano([2, 3, 5, 7, 11])).seek(6))") PRINTS("[7, 11]")
#define NUMBERS_NEXT_GEQ                                                                                               \
    "The first number, of those that are left, that is at least value, or None. The next one follows it. ValueError "  \
    "backwards." EXAMPLE("walk = iter(EliasFano([2, 3, 5, 7, 11]))")                                                   \
        THEN("walk.next_geq(4), walk.next_geq(4), walk.next_geq(12)") PRINTS("(5, 7, None)")
#define NUMBERS_NEXT_LEQ                                                                                               \
    "The same backwards: the first number, of those that are left, that is at most value, or None." EXAMPLE(           \
        "walk = reversed(EliasFano([2, 3, 5, 7, 11]))") THEN("walk.next_leq(6), next(walk)") PRINTS("(5, 3)")

#define CURSOR_DOC                                                                                                     \
    "A position in an EliasFano, made by its cursor(): at a number, or at the end. It moves forward only,\n"           \
    "and past equal numbers at once. As an iterator it gives the number where it stands, and moves on to\n"            \
    "the next greater one.\n\n"                                                                                        \
    "ValueError once the sequence is closed or made anew, WrongTables over parts that form no\n"                       \
    "sequence." EXAMPLE("cursor = EliasFano([2, 3, 3, 7, 11]).cursor()")                                               \
        THEN("cursor.next_geq(3), next(cursor), list(cursor)") PRINTS("(3, 3, [7, 11])")
#define CURSOR_NEXT_GEQ                                                                                                \
    "Moves to the first number from here on that is at least value, and returns it; stays where the number here is. "  \
    "None where each is less: the cursor is at the end then. A number that is near costs 25 words, another one three " \
    "selections more." EXAMPLE("cursor = EliasFano([2, 3, 5, 7, 11]).cursor()")                                        \
        THEN("cursor.next_geq(4), cursor.next_geq(4), cursor.next_geq(12)") PRINTS("(5, 5, None)")
#define CURSOR_INDEX                                                                                                   \
    "The index of the number where it stands; how many numbers there are at the end." EXAMPLE(                         \
        "cursor = EliasFano([2, 3, 5, 7, 11]).cursor()") THEN("cursor.next_geq(6), cursor.index") PRINTS("(7, 3)")
#define CURSOR_NUMBER                                                                                                  \
    "The number where it stands, or None at the end." EXAMPLE("cursor = EliasFano([2, 3]).cursor()")                   \
        THEN("cursor.number, list(cursor), cursor.number") PRINTS("(2, [2, 3], None)")

#endif
