// Bits: a vector, an index over one, and few 1 bits among many.

import type { Whole, Wholes, NumberArray, Bit, Bytes, OpenOptions } from "./common.js";

/** A fixed number of bits, each 0 or 1, that may be changed. Positions are counted from 0. */
export class BitVector implements Iterable<boolean> {
    /** A vector of that many bits, up to 2^50, all of them 0. RangeError where there is no memory for them. */
    constructor(length: Whole);
    /** A vector whose 1 bits are at these positions, in any order. Without a length the largest position is the last bit; with
     *  one, RangeError names the first position that is not below it. */
    static fromPositions(positions: Wholes, length?: Whole): BitVector;
    /** A vector of the bits of a list, in its order. TypeError that names the item which is neither a boolean nor 0 or 1. */
    static fromBooleans(bits: Iterable<Bit>): BitVector;
    /** A vector of the bits of some bytes, the lowest bit of each byte first: of all of them, or of the first `length` bits, which
     *  are at most eight for each byte. The bytes are copied. */
    static fromBytes(bytes: Bytes, length?: Whole): BitVector;
    /** A vector of the bits of 64-bit words, the lowest bit of each word first; `length` is at most 64 for each word. */
    static fromWords(words: BigUint64Array, length?: Whole): BitVector;

    /** How many bits the vector has, 1 bits and 0 bits together. It never changes, also not by free(). */
    readonly length: number;
    /** How many bytes of memory the words of the vector take: eight for each 64 bits, and 0 after free(). */
    readonly byteLength: number;
    /** Whether the bit at a position is 1. RangeError where the position is not below length. */
    get(position: Whole): boolean;
    /** Makes the bit at a position equal to value, 1 unless it is given, and returns the vector. RangeError past the end. */
    set(position: Whole, value?: Bit): this;
    /** Makes the bits from position begin on and before end equal to value, which is 1 if not given: of all bits, without a range.
     *  RangeError where the range begins above its end or ends past the end of the vector. */
    fill(value?: Bit, begin?: Whole, end?: Whole): this;
    /** Changes 0 to 1 and 1 to 0: of the bit at a position, of the bits from begin on and before end, or without arguments of
     *  all. RangeError where there is no such bit or range. */
    flip(position: Whole): this;
    flip(begin: Whole, end: Whole): this;
    flip(): this;
    /** How many 1 bits there are from position begin on and before end, or in all. RangeError where there is no such range. It reads
     *  each word of the range: an Index counts without that. */
    count(begin?: Whole, end?: Whole): number;
    /** How many 0 bits there are from position begin on and before end, or in all. RangeError where there is no such range. */
    count0(begin?: Whole, end?: Whole): number;
    /** The position of the first 1 bit at or after `from`; undefined where all bits from there on are 0, or `from` is past the end. */
    next(from: Whole): number | undefined;
    /** The position of the first 0 bit at or after `from`; undefined where all bits from there on are 1, or `from` is past the end. */
    next0(from: Whole): number | undefined;
    /** The position of the last 1 bit at or before `from`, which may be past the end; undefined where there is none. */
    previous(from: Whole): number | undefined;
    /** The position of the last 0 bit at or before `from`, which may be past the end; undefined where there is none. */
    previous0(from: Whole): number | undefined;
    /** Iterates over the positions of the 1 bits, ascending, from `from` on or over all; it is empty where `from` is past the
     *  end. */
    ones(from?: Whole): IterableIterator<number>;
    /** Iterates over the positions of the 0 bits, ascending, from `from` on or over all; it is empty where `from` is past the
     *  end. */
    zeros(from?: Whole): IterableIterator<number>;
    /** The positions of all 1 bits, ascending, in an array of doubles. */
    toPositions(): Float64Array;
    /** A copy of the bits as bytes, the lowest bit of each first; the last byte has 0 bits after the end. fromBytes() takes it. */
    toBytes(): Uint8Array;
    /** A copy of the bits as 64-bit words, the lowest bit of each first; the last word has 0 bits after the end. */
    toWords(): BigUint64Array;
    /** Iterates over the bits as booleans, from position 0 on. ones() takes less time where few are 1. */
    [Symbol.iterator](): IterableIterator<boolean>;

    /** The number that `width` bits (0 to 64) from position begin on are, the lowest bit first: a BigInt from 2^53 on. RangeError
     *  where they do not end inside the vector. */
    getNumber(begin: Whole, width: number): number | bigint;
    /** Replaces `width` bits (0 to 64) from position begin on by the lowest bits of value; higher bits of value are left out.
     *  RangeError where they do not end inside the vector, here and below. */
    setNumber(begin: Whole, width: number, value: Whole): this;
    /** Combines `width` bits (0 to 64) from position begin on with the lowest bits of value, by exclusive or. */
    xorNumber(begin: Whole, width: number, value: Whole): this;
    /** The number at an index where the bits are an array of numbers of `width` bits (0 to 64), which begins at bit 0: a BigInt
     *  from 2^53 on. RangeError past the last whole number. */
    getFragment(index: Whole, width: number): number | bigint;
    /** Replaces the number at an index of such an array, of `width` bits each, by the lowest bits of value. */
    setFragment(index: Whole, width: number, value: Whole): this;
    /** Exchanges the numbers at two indices of an array of numbers of `width` bits each. RangeError names the greater index where it
     *  is past the end. */
    swapFragments(first: Whole, second: Whole, width: number): this;
    /** Replaces each of the first `count` numbers of `width` bits by the lowest bits of value. RangeError where there are fewer. */
    fillFragments(width: number, value: Whole, count: Whole): this;

    /** Replaces `count` bits from position begin on by the bits of other from otherBegin on: without a count, by all bits of
     *  other from there. Other may be this vector, and the two ranges may overlap. RangeError where either ends past the
     *  end. */
    setRange(begin: Whole, other: BitVector, otherBegin?: Whole, count?: Whole): this;
    /** A new vector of the bits from position begin on and before end, which has no bits where begin is not below end. A loop
     *  has to free() it. */
    slice(begin?: Whole, end?: Whole): BitVector;
    /** A new vector with the same bits: a change of either leaves the other as it is. */
    clone(): BitVector;
    /** Whether other has as many bits and the same ones. TypeError where it is no BitVector. */
    equals(other: BitVector): boolean;

    /** Keeps a 1 bit only where other has one too, in place. RangeError unless other has as many bits. */
    and(other: BitVector): this;
    /** Makes each bit 1 where other has a 1 bit, in place. RangeError if other has more bits or fewer. */
    or(other: BitVector): this;
    /** Changes each bit where other has a 1 bit, in place; with itself a vector gets 0 bits alone. RangeError if other has more bits
     *  or fewer. */
    xor(other: BitVector): this;
    /** Makes each bit 0 where other has a 1 bit, in place. RangeError if their lengths differ. */
    andNot(other: BitVector): this;
    /** Changes all bits, 0 to 1 and 1 to 0, in place: the same as flip() without arguments. */
    not(): this;
    /** A new vector with a 1 bit where both have one. It takes as much memory as this, and a loop has to free() it: no garbage
     *  is freed inside one task. RangeError unless other has as many bits. */
    intersection(other: BitVector): BitVector;
    /** A new vector with a 1 bit where this or other has one, or both. It takes memory until free(). */
    union(other: BitVector): BitVector;
    /** A new vector with a 1 bit where exactly one of the two has one. It takes memory until free(). */
    symmetricDifference(other: BitVector): BitVector;
    /** A new vector with a 1 bit where this has one and other has none. It takes memory until free(). */
    difference(other: BitVector): BitVector;
    /** A new vector with a 1 bit where this has a 0 bit, and the reverse. It takes memory until free(). */
    complement(): BitVector;
    /** How many positions have a 1 bit in both, without a new vector, in one pass over both. RangeError unless other has as many
     *  bits. */
    countIntersection(other: BitVector): number;
    /** How many positions have a 1 bit in this, in other, or in both: what union() would count, and no vector is made. */
    countUnion(other: BitVector): number;
    /** At how many positions the two differ: their Hamming distance. No vector is made. */
    countSymmetricDifference(other: BitVector): number;
    /** How many positions have a 1 bit in this and a 0 bit in other. No vector is made. */
    countDifference(other: BitVector): number;
    /** Whether other has a 1 bit wherever this has one. RangeError unless other has as many bits. */
    isSubsetOf(other: BitVector): boolean;
    /** Whether this has a 1 bit wherever other has one. RangeError unless other has as many bits. */
    isSupersetOf(other: BitVector): boolean;
    /** Whether no position has a 1 bit in both. RangeError unless other has as many bits. */
    isDisjointFrom(other: BitVector): boolean;

    /** Gives the memory of the bits back at once: after that each call but free() throws a TypeError. */
    free(): void;
    /** Frees the bits at the end of the block that declared them by `using`. */
    [Symbol.dispose](): void;
    /** Throws a TypeError: bits have no JSON. Keep their toBytes() and their length. */
    toJSON(): never;
}

/** How an Index is built. */
export interface IndexOptions {
    /** 7 to 31: one sample for each 2^sampleLog2 bits of a kind makes selections faster. Without it there are no samples. */
    sampleLog2?: number;
}

/** Bits that do not change, with tables to count and find them at once, which take some 3 % more memory. */
export class Index implements Iterable<boolean> {
    /** An index over a copy of the bits, which may then be changed or freed. TypeError where they are no BitVector. */
    constructor(bits: BitVector, options?: IndexOptions);
    /** An index over bits that are 1 at these positions, as BitVector.fromPositions() takes them. */
    static fromPositions(positions: Wholes, length?: Whole, options?: IndexOptions): Index;
    /** An index over the bits of a list, as BitVector.fromBooleans() takes it. */
    static fromBooleans(bits: Iterable<Bit>, options?: IndexOptions): Index;

    /** How many bits the index is over. */
    readonly length: number;
    /** How many bytes the block with bits, tables and samples has: 0 after free(). */
    readonly byteLength: number;
    /** Whether the bit at a position of the index is 1. RangeError where there is no such bit. */
    get(position: Whole): boolean;
    /** How many 1 bits stand before a position, by the tables. RangeError where the position is above length. */
    rank(position: Whole): number;
    /** How many 0 bits stand before a position, by the tables. RangeError where the position is above length. */
    rank0(position: Whole): number;
    /** The position of the 1 bit that has `rank` 1 bits before it; undefined where there are no more than rank of them. */
    select(rank: Whole): number | undefined;
    /** The position of the 0 bit that has `rank` 0 bits before it; undefined where there are no more than rank of them. */
    select0(rank: Whole): number | undefined;
    /** Where the first 1 bit at or after `from` is, by the tables; undefined where none follows. `from` may be past the end. */
    next(from: Whole): number | undefined;
    /** Where the first 0 bit at or after `from` is, by the tables; undefined where none follows. `from` may be past the end. */
    next0(from: Whole): number | undefined;
    /** Where the last 1 bit at or before `from` is, by the tables; undefined where none precedes. `from` may be past the end. */
    previous(from: Whole): number | undefined;
    /** Where the last 0 bit at or before `from` is, by the tables; undefined where none precedes. `from` may be past the end. */
    previous0(from: Whole): number | undefined;
    /** How many 1 bits the index has in all, without a walk over them. */
    count(): number;
    /** How many 0 bits the index has in all, without a walk over them. */
    count0(): number;

    /** The rank() of each position of a list, as a list of the same kind: doubles for doubles and smaller types, BigInts for a
     *  BigUint64Array, an array for another iterable. RangeError names the item that is above length. */
    rankList(positions: NumberArray): Float64Array;
    rankList(positions: BigUint64Array): BigUint64Array;
    rankList(positions: Iterable<Whole>): number[];
    /** The rank0() of each position of a list, in the forms of rankList(). RangeError names the item that is above length. */
    rank0List(positions: NumberArray): Float64Array;
    rank0List(positions: BigUint64Array): BigUint64Array;
    rank0List(positions: Iterable<Whole>): number[];
    /** The select() of each rank of a list. Where there is no such 1 bit stands NaN in a Float64Array, NO_ANSWER in a BigUint64Array,
     *  and undefined in an array. */
    selectList(ranks: NumberArray): Float64Array;
    selectList(ranks: BigUint64Array): BigUint64Array;
    selectList(ranks: Iterable<Whole>): (number | undefined)[];
    /** The select0() of each rank of a list. Where there is no such 0 bit stands NaN, NO_ANSWER or undefined, as in selectList(). */
    select0List(ranks: NumberArray): Float64Array;
    select0List(ranks: BigUint64Array): BigUint64Array;
    select0List(ranks: Iterable<Whole>): (number | undefined)[];

    /** Iterates over the positions of the 1 bits of the index from `from` on, ascending: none where `from` is past the end. */
    ones(from?: Whole): IterableIterator<number>;
    /** Iterates over the positions of the 0 bits of the index from `from` on, ascending: none where `from` is past the end. */
    zeros(from?: Whole): IterableIterator<number>;
    /** Iterates over all bits of the index as booleans, from position 0 on. */
    [Symbol.iterator](): IterableIterator<boolean>;
    /** The bits as a new vector of its own, which may be changed: this index stays as it is. */
    toBitVector(): BitVector;
    /** Whether the block is as it was written and holds bits with their tables, by going over all of it. */
    check(): boolean;
    /** A copy of the block, bits with tables and samples: what open() takes, and the C library and its other bindings. */
    toBytes(): Uint8Array;
    /** Gives the memory of the index back at once: after that each call but free() throws a TypeError. */
    free(): void;
    /** Frees the index at the end of the block that declared it by `using`. */
    [Symbol.dispose](): void;
    /** Throws a TypeError: an index has no JSON. Keep its toBytes(), which open() takes. */
    toJSON(): never;
}

/** Bits with few 1 bits, which do not change: only the positions of the 1 bits take memory. */
export class SparseBits {
    /** The positions of the 1 bits, each greater than the one before it; and how many bits there are, below 2^53: up to the last
     *  1 bit, unless it is given. RangeError that names the first position that is not above the one before it, or not below the
     *  length. */
    constructor(positions: Wholes, length?: Whole);
    /** The sparse bits in a block that toBytes() or the C library wrote, which is copied once. WrongTables where it was damaged,
     *  OtherKind where it holds something else. */
    static open(bytes: Bytes, options?: OpenOptions): SparseBits;

    /** How many bits there are, most of them 0 bits. */
    readonly length: number;
    /** How many bytes the block with the positions has: 0 after free(). */
    readonly byteLength: number;
    /** Whether the bit at a position is one of the few 1 bits. RangeError where the position is not below length. */
    get(position: Whole): boolean;
    /** How many of the 1 bits stand before a position, which is at most length, else RangeError. */
    rank(position: Whole): number;
    /** How many of the 0 bits stand before a position, which is at most length, else RangeError. */
    rank0(position: Whole): number;
    /** The position of 1 bit number `rank`, counted from 0; undefined where there are fewer. */
    select(rank: Whole): number | undefined;
    /** The position of 0 bit number `rank`, counted from 0; undefined where there are fewer. It takes a binary search over the
     *  1 bits. */
    select0(rank: Whole): number | undefined;
    /** The least position of a 1 bit that is at least `from`; undefined where there is none. */
    next(from: Whole): number | undefined;
    /** The least position of a 0 bit that is at least `from`; undefined where there is none. */
    next0(from: Whole): number | undefined;
    /** The greatest position of a 1 bit that is at most `from`; undefined where there is none. */
    previous(from: Whole): number | undefined;
    /** The greatest position of a 0 bit that is at most `from`; undefined where there is none. */
    previous0(from: Whole): number | undefined;
    /** How many 1 bits there are in all: one for each position that was given. */
    count(): number;
    /** How many 0 bits there are in all: length without the 1 bits. */
    count0(): number;

    /** The bit at each position of a list: 0 or 1 in a Uint8Array for a typed array, booleans in an array for another iterable.
     *  RangeError names the item that is past the end. */
    getList(positions: NumberArray | BigUint64Array): Uint8Array;
    getList(positions: Iterable<Whole>): boolean[];
    /** How many 1 bits stand before each position of a list, as a list of the same kind. RangeError names the item that is above
     *  length. */
    rankList(positions: NumberArray): Float64Array;
    rankList(positions: BigUint64Array): BigUint64Array;
    rankList(positions: Iterable<Whole>): number[];
    /** How many 0 bits stand before each position of a list, as a list of the same kind. RangeError names the item that is above
     *  length. */
    rank0List(positions: NumberArray): Float64Array;
    rank0List(positions: BigUint64Array): BigUint64Array;
    rank0List(positions: Iterable<Whole>): number[];
    /** The position of the 1 bit of each rank of a list: NaN in a Float64Array, NO_ANSWER in a BigUint64Array or undefined in an array
     *  where there is none. */
    selectList(ranks: NumberArray): Float64Array;
    selectList(ranks: BigUint64Array): BigUint64Array;
    selectList(ranks: Iterable<Whole>): (number | undefined)[];
    /** The position of the 0 bit of each rank of a list: NaN in a Float64Array, NO_ANSWER in a BigUint64Array or undefined in an array
     *  where there is none. */
    select0List(ranks: NumberArray): Float64Array;
    select0List(ranks: BigUint64Array): BigUint64Array;
    select0List(ranks: Iterable<Whole>): (number | undefined)[];
    /** Iterates over the positions of the few 1 bits, ascending, from `from` on or over all: none where `from` is past the
     *  end. */
    ones(from?: Whole): IterableIterator<number>;
    /** Iterates over the positions of the many 0 bits, ascending, from `from` on or over all: none where `from` is past the
     *  end. */
    zeros(from?: Whole): IterableIterator<number>;

    /** Whether the block is as it was written and holds sparse bits, by going over all of it. */
    check(): boolean;
    /** A copy of the block with the positions: what SparseBits.open() takes, and the C library. */
    toBytes(): Uint8Array;
    /** Gives the memory of the positions back at once: after that each call but free() throws a TypeError. */
    free(): void;
    /** Frees the sparse bits at the end of the block that declared them by `using`. */
    [Symbol.dispose](): void;
    /** Throws a TypeError: sparse bits have no JSON. Keep their toBytes(). */
    toJSON(): never;
}
