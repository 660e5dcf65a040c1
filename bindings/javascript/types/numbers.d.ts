// Numbers: sorted ones, cursors over these, and numbers in any order.

import type { Whole, Wholes, NumberArray, Bytes, OpenOptions, Progress } from "./common.js";

/** Numbers that do not decrease, each from 0 to 2^64 - 1, in little memory. Those from 2^53 on are BigInts. */
export class EliasFano implements Iterable<number | bigint> {
    /** A sequence of the numbers, which may repeat. RangeError if a number is less than the one before it: it names both, counted
     *  from 0. */
    constructor(numbers: Wholes);

    /** How many numbers the sequence has, each repetition counted. */
    readonly length: number;
    /** How many bytes the block of the sequence has: 0 after free(). */
    readonly byteLength: number;
    /** The number at an index, which counts from the end if it is negative; undefined where there is none. */
    at(index: number | bigint): number | bigint | undefined;
    /** The least index whose number is at least value; undefined where all numbers are less. */
    firstAtLeast(value: Whole): number | undefined;
    /** The greatest index whose number is at most value; undefined where all numbers are greater. */
    lastAtMost(value: Whole): number | undefined;
    /** The least number that is at least value; undefined where there is none. */
    successor(value: Whole): number | bigint | undefined;
    /** The greatest number that is at most value; undefined where there is none. */
    predecessor(value: Whole): number | bigint | undefined;
    /** Whether a value is one of the numbers. */
    has(value: Whole): boolean;
    /** The least index at which a value stands, or -1 where it is none of the numbers. */
    indexOf(value: Whole): number;

    /** The number at each index of a list, in a list of the same kind. RangeError names the item that is past the end, and is thrown
     *  where an answer in doubles is 2^53 or more. Indices count from the start. */
    atList(indices: NumberArray): Float64Array;
    atList(indices: BigUint64Array): BigUint64Array;
    atList(indices: Iterable<Whole>): (number | bigint)[];
    /** The firstAtLeast() of each value of a list: NaN in a Float64Array, NO_ANSWER in a BigUint64Array or undefined in an array where
     *  all numbers are less. */
    firstAtLeastList(values: NumberArray): Float64Array;
    firstAtLeastList(values: BigUint64Array): BigUint64Array;
    firstAtLeastList(values: Iterable<Whole>): (number | undefined)[];
    /** The lastAtMost() of each value of a list: NaN in a Float64Array, NO_ANSWER in a BigUint64Array or undefined in an array where
     *  all numbers are greater. */
    lastAtMostList(values: NumberArray): Float64Array;
    lastAtMostList(values: BigUint64Array): BigUint64Array;
    lastAtMostList(values: Iterable<Whole>): (number | undefined)[];
    /** Whether each value of a list is one of the numbers: 1 or 0 in a Uint8Array for a typed array, booleans in an array for another
     *  iterable. */
    hasList(values: NumberArray | BigUint64Array): Uint8Array;
    hasList(values: Iterable<Whole>): boolean[];

    /** Iterates over the numbers from index `from` on, or over all: it is empty where `from` is past the end. */
    values(from?: Whole): IterableIterator<number | bigint>;
    /** Iterates over the numbers that are at least value, from the first of them on. */
    valuesFrom(value: Whole): IterableIterator<number | bigint>;
    /** Iterates over all numbers of the sequence, in order. */
    [Symbol.iterator](): IterableIterator<number | bigint>;
    /** All numbers as an array: numbers below 2^53, and BigInts from there on. */
    toArray(): (number | bigint)[];
    /** All numbers as BigInts, copied at once. */
    toBigUint64Array(): BigUint64Array;
    /** All numbers as doubles, copied at once. RangeError if one is 2^53 or more. */
    toFloat64Array(): Float64Array;
    /** A new sequence of the numbers that this and all others have, each once. A loop has to free() it: no garbage is freed inside
     *  one task. */
    intersection(...others: EliasFano[]): EliasFano;
    /** A new sequence of the numbers that this or any other has, each once. A loop has to free() it. */
    union(...others: EliasFano[]): EliasFano;
    /** How many different numbers this and all others have, without a new sequence. */
    countIntersection(...others: EliasFano[]): number;
    /** How many different numbers this or any other has, without a new sequence. */
    countUnion(...others: EliasFano[]): number;
    /** A new cursor at the first number, which moves forward only. */
    cursor(): Cursor;

    /** Whether the block is as it was written and holds a sequence, by going over all of it. */
    check(): boolean;
    /** A copy of the block of the sequence: what open() takes, and the C library and its other bindings. */
    toBytes(): Uint8Array;
    /** Gives the memory of the sequence back at once: after that each call but free() throws a TypeError, and each of its cursors
     *  too. */
    free(): void;
    /** Frees the sequence at the end of the block that declared it by `using`. */
    [Symbol.dispose](): void;
    /** Throws a TypeError: a sequence has no JSON. Keep its toBytes(), or its toArray(). */
    toJSON(): never;
}

/** A position in an EliasFano: at a number, or at the end. As an iterator it gives the number where it stands, and moves on to the
 *  next greater one. TypeError once the sequence is freed. */
export class Cursor implements IterableIterator<number | bigint> {
    /** A cursor at the first number of a sequence, which it keeps from being freed as garbage. */
    constructor(sequence: EliasFano);
    /** The index of the number where it stands; how many numbers there are at the end. */
    readonly index: number;
    /** The number where it stands; undefined at the end. */
    readonly number: number | bigint | undefined;
    /** Moves to the first number from here on that is at least value, and returns it; stays where the number here is. Where all that
     *  follow are less it moves to the end, and returns undefined. */
    nextGeq(value: Whole): number | bigint | undefined;
    /** What an iteration calls: the number where it stands, and it moves on to the next greater one, so equal numbers come once. */
    next(): IteratorResult<number | bigint, undefined>;
    /** The cursor itself: an iteration goes on from where it stands, and moves it. */
    [Symbol.iterator](): this;
    /** Gives the memory of the cursor back at once, and leaves the sequence as it is. */
    free(): void;
    /** Frees the cursor, and not its sequence, at the end of the block that declared it by `using`. */
    [Symbol.dispose](): void;
    /** Throws a TypeError: a cursor has no JSON. Keep the toBytes() of its sequence, and its index. */
    toJSON(): never;
}

/** The numbers from `from` on that each of the sequences has, ascending and each once: the first `limit` of them, or all.
 *  RangeError where there is no sequence. */
export function intersect(sequences: Iterable<EliasFano>, from?: Whole, limit?: Whole): (number | bigint)[];
/** The numbers from `from` on that any of the sequences has, ascending and each once: the first `limit` of them, or all. Of no
 *  sequences there are none. */
export function union(sequences: Iterable<EliasFano>, from?: Whole, limit?: Whole): (number | bigint)[];

/** How a WaveletMatrix is built. */
export interface WaveletMatrixOptions {
    /** 1 to 64: how many bits each number is kept in; by default the bits that the largest needs. */
    width?: number;
    /** Whether the block has quarters: it takes an eighth more, and most queries read fewer words. False unless it is given. TypeError
     *  where it is no boolean. */
    quarters?: boolean;
    /** Whether the block has hints: it takes a quarter of the numbers' bits more, and select() reads fewer words. False unless it is
     *  given. TypeError where it is no boolean. */
    hints?: boolean;
    /** Called after each of `width` levels of the matrix. */
    progress?: Progress;
}

/** Numbers in any order: where and how often each of them is, and which of a range are the least. Those from 2^53 on are BigInts. */
export class WaveletMatrix implements Iterable<number | bigint> {
    /** A matrix of the numbers, in their order. RangeError if a number has more bits than the width: it names the first. */
    constructor(numbers: Wholes, options?: WaveletMatrixOptions);
    /** The matrix in a block that toBytes() or the C library wrote, which is copied once. WrongTables where it was damaged,
     *  OtherKind where it holds something else. */
    static open(bytes: Bytes, options?: OpenOptions): WaveletMatrix;

    /** How many numbers the matrix has. */
    readonly length: number;
    /** How many bits each number of the matrix has at most, 1 to 64. */
    readonly width: number;
    /** How many bytes the block of the matrix has: 0 after free(). */
    readonly byteLength: number;
    /** The number at an index. RangeError where the index is not below length. */
    get(index: Whole): number | bigint;
    /** How many of the numbers before an index, or of all, are this one. RangeError if the index is above length. */
    rank(number: Whole, index?: Whole): number;
    /** The index of this number that has `rank` such numbers before it; undefined where there is none. */
    select(number: Whole, rank: Whole): number | undefined;

    /** How many of the numbers from index begin on and before end, or of all, are less than bound. RangeError if there is no such
     *  range, here and in the calls below. */
    countLess(bound: Whole, begin?: Whole, end?: Whole): number;
    /** The number that would stand at index k if those from index begin on and before end, or all, were sorted; undefined where there
     *  are no more than k. With half of how many they are as k it is a median. */
    quantile(k: Whole, begin?: Whole, end?: Whole): number | bigint | undefined;
    /** The least of the numbers from index begin on and before end, or of all, that is at least bound; undefined where there is none. */
    nextValue(bound: Whole, begin?: Whole, end?: Whole): number | bigint | undefined;
    /** The greatest of the numbers from index begin on and before end, or of all, that is less than bound; undefined where there is
     *  none. */
    previousValue(bound: Whole, begin?: Whole, end?: Whole): number | bigint | undefined;
    /** The different numbers from index begin on and before end, or of all, ascending, each in a pair with how often it is
     *  there. */
    distinct(begin?: Whole, end?: Whole): [number: number | bigint, count: number][];
    /** The k most frequent numbers from index begin on and before end, or of all, each in a pair with how often it is there: the most
     *  frequent first, of equally frequent ones the least. There are fewer where there are no k different ones. */
    top(k: Whole, begin?: Whole, end?: Whole): [number: number | bigint, count: number][];
    /** The numbers that stand both from index begin on and before end, and from otherBegin on and before otherEnd: ascending,
     *  each once. Pass the shorter range first. */
    intersect(begin: Whole, end: Whole, otherBegin: Whole, otherEnd: Whole): (number | bigint)[];

    /** The number at each index of a list, in a list of the same kind as the indices. RangeError names the index that is not below
     *  length, and is thrown where an answer in doubles is 2^53 or more. */
    getList(indices: NumberArray): Float64Array;
    getList(indices: BigUint64Array): BigUint64Array;
    getList(indices: Iterable<Whole>): (number | bigint)[];
    /** The rank() of each numbers[i] before indices[i], in a list of the same kind as the numbers. RangeError if an index is
     *  above length, or there are more or fewer indices than numbers. */
    rankList(numbers: NumberArray, indices: Wholes): Float64Array;
    rankList(numbers: BigUint64Array, indices: Wholes): BigUint64Array;
    rankList(numbers: Iterable<Whole>, indices: Wholes): number[];
    /** The select() of each numbers[i] with ranks[i]: NaN in a Float64Array, NO_ANSWER in a BigUint64Array or undefined in an
     *  array where there is none. RangeError if there are more or fewer ranks than numbers. */
    selectList(numbers: NumberArray, ranks: Wholes): Float64Array;
    selectList(numbers: BigUint64Array, ranks: Wholes): BigUint64Array;
    selectList(numbers: Iterable<Whole>, ranks: Wholes): (number | undefined)[];
    /** Iterates over all numbers of the matrix, in the order in which they were given. */
    [Symbol.iterator](): IterableIterator<number | bigint>;

    /** Whether the block is as it was written and holds a wavelet matrix, by going over all of it. */
    check(): boolean;
    /** A copy of the block of the matrix: what WaveletMatrix.open() takes, and the C library. */
    toBytes(): Uint8Array;
    /** Gives the memory of the matrix back at once: after that each call but free() throws a TypeError. */
    free(): void;
    /** Frees the matrix at the end of the block that declared it by `using`. */
    [Symbol.dispose](): void;
    /** Throws a TypeError: a matrix has no JSON. Keep its toBytes(), or its numbers. */
    toJSON(): never;
}
