/* What help() says of a BitVector. Each text has an example, which a test runs after `from bitm import *`. */
#ifndef BITM_VECTOR_DOCS_H
#define BITM_VECTOR_DOCS_H

#define VECTOR_DOC                                                                                                     \
    "BitVector(length=0)\n--\n\n"                                                                                      \
    "Bits that can be read, counted and changed; 0 bits at first. It has the calls of a list of bools,\n"              \
    "and its buffer is its words, to be read.\n\n"                                                                     \
    "MemoryError where there is no memory: then, as after each call that raises, the bits are as they\n"               \
    "were. BufferError where a call would change the length while others use the words (an Index, a\n"                 \
    "memoryview)."                                                                                                     \
    EXAMPLE("bits = BitVector(5)") THEN("bits[1] = bits[4] = True") THEN("bits") PRINTS("BitVector('01001')")

#define VECTOR_FROM_BITS                                                                                               \
    "The bits of an iterable, each true or false; of a string of 0 and 1, a bitarray, or an array of bools. "          \
    "TypeError "                                                                                                       \
    "for bytes and for texts among the items, which could be meant otherwise; ValueError for another letter." EXAMPLE( \
        "BitVector.from_bits('0101') == BitVector.from_bits([False, True, False, True])") PRINTS("True")
#define VECTOR_FROM_INDICES                                                                                            \
    "1 bits at the positions, in any order, and 0 bits elsewhere; as long as the greatest position needs where no "    \
    "length is given. IndexError for a position past the length." EXAMPLE("BitVector.from_indices([6, 1, 3, 4])")      \
        PRINTS("BitVector('0101101')")
#define VECTOR_FROM_WORDS                                                                                              \
    "A copy of the bits of a buffer of 64-bit words or of bytes, lowest bit first: of all, or of the first. "          \
    "ValueError if the buffer has fewer, TypeError for a buffer of other items." EXAMPLE(                              \
        "BitVector.from_words(b'\\x5a', 7)") PRINTS("BitVector('0101101')")
#define VECTOR_SET_LIST                                                                                                \
    "Makes the bits at many positions 1, or with 0 makes them 0. IndexError where one is past the end, and "           \
    "OverflowError where one is below 0: then no bit has changed." EXAMPLE("bits = BitVector(7)")                      \
        THEN("bits.set_list([6, 1, 3])") THEN("bits.set_list(range(3, 5), 0)") THEN("bits")                            \
            PRINTS("BitVector('0100001')")

#define VECTOR_COUNT                                                                                                   \
    "How many 1 bits there are, or with 0 how many 0 bits: of all, or in a range. IndexError for a range that is not " \
    "inside. Reads each word of the range; an Index counts from 0 in ten reads." EXAMPLE(                              \
        "BitVector.from_bits('0101101').count(1, 2, 5)") PRINTS("2")
#define VECTOR_FILL                                                                                                    \
    "Makes all bits 1, or with 0 makes them 0: all, or those in a range. IndexError for a range that is not "          \
    "inside." EXAMPLE("bits = BitVector(7)") THEN("bits.fill(1, 2, 5)") THEN("bits") PRINTS("BitVector('0011100')")
#define VECTOR_FLIP                                                                                                    \
    "Flips all bits, or those in a range. IndexError for a range that is not inside." EXAMPLE(                         \
        "bits = BitVector.from_bits('0101101')") THEN("bits.flip(stop=3)") THEN("bits") PRINTS("BitVector('1011101')")
#define VECTOR_NEXT_ONE                                                                                                \
    "The position of the first 1 bit at or after a position, or None. Reads each word on the way." EXAMPLE(            \
        "BitVector.from_bits('0101101').next_one(2)") PRINTS("3")
#define VECTOR_NEXT_ZERO                                                                                               \
    "The position of the first 0 bit at or after a position, or None. Reads each word on the way." EXAMPLE(            \
        "BitVector.from_bits('0101101').next_zero(3)") PRINTS("5")
#define VECTOR_PREVIOUS_ONE                                                                                            \
    "The position of the last 1 bit at or before a position, which may be past the end, or None. Reads each word on "  \
    "the way." EXAMPLE("BitVector.from_bits('0101101').previous_one(5)") PRINTS("4")
#define VECTOR_PREVIOUS_ZERO                                                                                           \
    "The position of the last 0 bit at or before a position, which may be past the end, or None. Reads each word on "  \
    "the way." EXAMPLE("BitVector.from_bits('0101101').previous_zero(100)") PRINTS("5")
#define VECTOR_ONES                                                                                                    \
    "The positions of the 1 bits in a range, ascending, or descending. They are looked up some at a time: a change "   \
    "of the vector is seen a little later." EXAMPLE("list(BitVector.from_bits('0101101').ones(2, reverse=True))")      \
        PRINTS("[6, 4, 3]")
#define VECTOR_ZEROS                                                                                                   \
    "The positions of the 0 bits in a range, ascending, or descending, as ones." EXAMPLE(                              \
        "list(BitVector.from_bits('0101101').zeros(0, 5))") PRINTS("[0, 2]")
#define VECTOR_ANY "Whether there is a 1 bit." EXAMPLE("BitVector(7).any()") PRINTS("False")
#define VECTOR_ALL "Whether there is no 0 bit." EXAMPLE("BitVector.from_bits('111').all()") PRINTS("True")
#define VECTOR_FIND                                                                                                    \
    "The position of the first such bit in a range, or -1." EXAMPLE("BitVector.from_bits('0101101').find(0, 3)")       \
        PRINTS("5")
#define VECTOR_INDEX                                                                                                   \
    "The position of the first such bit in a range; ValueError where there is none." EXAMPLE(                          \
        "BitVector.from_bits('0101101').index(1)") PRINTS("1")

#define VECTOR_AND_NOT                                                                                                 \
    "The 1 bits that are 0 bits of the other vector, in a new one; ValueError for another length." EXAMPLE(            \
        "BitVector.from_bits('0101').and_not(BitVector.from_bits('0011'))") PRINTS("BitVector('0100')")
#define VECTOR_APPEND                                                                                                  \
    "Adds a bit at the end. ValueError for what is not a bit, BufferError while others use the words." EXAMPLE(        \
        "bits = BitVector(3)") THEN("bits.append(True)") THEN("bits") PRINTS("BitVector('0001')")
#define VECTOR_EXTEND                                                                                                  \
    "Adds bits at the end: whatever from_bits takes." EXAMPLE("bits = BitVector(3)") THEN("bits.extend('11')")         \
        THEN("bits") PRINTS("BitVector('00011')")
#define VECTOR_INSERT                                                                                                  \
    "Puts a bit before an index, as list.insert does." EXAMPLE("bits = BitVector(3)") THEN("bits.insert(1, True)")     \
        THEN("bits") PRINTS("BitVector('0100')")
#define VECTOR_POP                                                                                                     \
    "Removes the bit at an index, and returns it, as list.pop does; IndexError outside." EXAMPLE(                      \
        "BitVector.from_bits('01').pop()") PRINTS("True")
#define VECTOR_CLEAR                                                                                                   \
    "Removes all bits." EXAMPLE("bits = BitVector(3)") THEN("bits.clear()") THEN("len(bits)") PRINTS("0")
#define VECTOR_COPY                                                                                                    \
    "Another BitVector with the same bits." EXAMPLE("BitVector.from_bits('0101').copy()") PRINTS("BitVector('0101')")
#define VECTOR_GET_BITS                                                                                                \
    "The number in 0 to 64 bits from a position on, lowest bit first. IndexError where they are not inside. Reads "    \
    "two "                                                                                                             \
    "words at most." EXAMPLE("BitVector.from_bits('0101101').get_bits(3, 4)") PRINTS("11")
#define VECTOR_SET_BITS                                                                                                \
    "Replaces the number in these bits; OverflowError where it does not fit, and IndexError where they are not "       \
    "inside." EXAMPLE("bits = BitVector(7)") THEN("bits.set_bits(3, 4, 11)") THEN("bits")                              \
        PRINTS("BitVector('0001101')")
#define VECTOR_GET_FRAGMENT                                                                                            \
    "The number at an index, where the bits are an array of numbers of 0 to 64 bits. IndexError where there is "       \
    "none." EXAMPLE("BitVector.from_words(b'\\x21\\x43').get_fragment(2, 4)") PRINTS("3")
#define VECTOR_SET_FRAGMENT                                                                                            \
    "Replaces the number at an index of such an array; OverflowError where it does not fit." EXAMPLE(                  \
        "bits = BitVector(8)") THEN("bits.set_fragment(1, 4, 9)") THEN("bits.get_fragment(1, 4)") PRINTS("9")
#define VECTOR_TOBYTES                                                                                                 \
    "The bits, eight in a byte, lowest bit first; those past the length are 0." EXAMPLE(                               \
        "BitVector.from_bits('0101101').tobytes()") PRINTS("b'Z'")
#define VECTOR_WORDS                                                                                                   \
    "The words, to be read: bit i is bit i % 64, lowest first, of word i // 64. The length cannot change while the "   \
    "view is held." EXAMPLE("BitVector.from_bits('0101101').words[0]") PRINTS("90")

#endif
