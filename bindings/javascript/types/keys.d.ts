// Numbers for keys: for keys of any kind, which are not kept, and for whole numbers and strings, which are kept.

import type { Whole, Wholes, NumberArray, Bytes, OpenOptions, Progress } from "./common.js";

/** A key. Equal keys are those that a Map holds for equal, a number and a BigInt of one value (5 and 5n), and bytes that are
 *  equal. A string is hashed as its bytes in UTF-8, and a lone surrogate as three bytes. */
export type Key = string | number | bigint | Uint8Array;

/** How a PerfectHash is built. */
export interface PerfectHashOptions {
    /** 0 to 32, else 16: all but one in 2^fingerprintBits of the values that are no key are known for none. */
    fingerprintBits?: number;
    /** 50 to 10000, else 100: 100 takes least memory, 200 less time. */
    percent?: number;
    /** 1 to 256: each word of the hash has the best of that many seeds, so a key takes less memory. Else there are no seeds. */
    tries?: number;
    /** What the hashes of the keys begin with: 0, or 1 where that gives two keys one hash. Give a random number where others choose
     *  the keys. */
    seed?: Whole;
    /** Called after each level of the hash, with how many keys have a number so far, and how many there are. */
    progress?: Progress;
}

/** Numbers for keys: each of n keys has one of its own below n. No key is kept. */
export class PerfectHash {
    /** A hash of the keys, in any order. TypeError names the item that is no key. RangeError if two keys are equal, or have one hash
     *  by `seed`: it names the first two, `keys 0 and 2 are equal`. */
    constructor(keys: Iterable<Key>, options?: PerfectHashOptions);
    /** The hash in the bytes of a block, as toBytes() gives them and Python writes them, which are copied once. WrongTables where it
     *  was damaged. */
    static open(bytes: Bytes, options?: OpenOptions): PerfectHash;

    /** How many keys the hash has numbers for. */
    readonly length: number;
    /** How many bytes the block with the hash and the fingerprints has: 0 after free(). */
    readonly byteLength: number;
    /** The seed by which keys are hashed: a number below 2^53, else a BigInt. */
    readonly seed: number | bigint;
    /** How many bits the fingerprint of a key has, 0 for none: the fewer, the more values that are no key are taken for one. */
    readonly width: number;
    /** Whether its words have seeds, as those that are built with `tries`. */
    readonly hasSeeds: boolean;
    /** The number of a key, below length. Of what is no key undefined, except that one in 2^width of such values gets the number of a
     *  key. TypeError for a value of a type that no key has. */
    get(key: Key): number | undefined;
    /** The numbers of several keys, as get() answers them, in their order. */
    getList(keys: Iterable<Key>): (number | undefined)[];

    /** Whether the block is as it was written and holds a hash, by going over all of it. */
    check(): boolean;
    /** A copy of the block with the hash and the fingerprints: what PerfectHash.open() takes, and other languages. */
    toBytes(): Uint8Array;
    /** Gives the memory of the hash back at once: after that each call but free() throws a TypeError. */
    free(): void;
    /** Frees the hash at the end of the block that declared it by `using`. */
    [Symbol.dispose](): void;
    /** Throws a TypeError: a hash has no JSON. Keep its toBytes(). */
    toJSON(): never;
}

/** How a Dictionary is built. */
export interface DictionaryOptions {
    /** 50 to 10000, else 100: with 100 the hash of the dictionary takes least memory, with 200 less time. */
    percent?: number;
    /** What is added to a key to hash it: 0 unless it is given. */
    seed?: Whole;
    /** Called after each level of the hash, with how many keys of the dictionary have a number so far. */
    progress?: Progress;
}

/** Numbers for keys that are whole numbers, with the keys: each of n keys has a number of its own below n, and nothing else has. */
export class Dictionary implements Iterable<number | bigint> {
    /** A dictionary of the keys, in any order. RangeError if two keys are equal: it names the first two. */
    constructor(keys: Wholes, options?: DictionaryOptions);
    /** The dictionary in a block that toBytes() or the C library wrote, which is copied once. WrongTables where it was damaged,
     *  OtherKind where it holds something else. */
    static open(bytes: Bytes, options?: OpenOptions): Dictionary;

    /** How many keys the dictionary has. */
    readonly length: number;
    /** How many bytes the block with the hash and the keys has: 0 after free(). */
    readonly byteLength: number;
    /** What is added to each key to hash it: a BigInt from 2^53 on. */
    readonly seed: number | bigint;
    /** The number of a key, below length; undefined for any other number. */
    get(key: Whole): number | undefined;
    /** Whether a number is one of the keys. */
    has(key: Whole): boolean;
    /** The numbers of a list of keys: NaN in a Float64Array, NO_ANSWER in a BigUint64Array or undefined in an array for what is no
     *  key. */
    getList(keys: NumberArray): Float64Array;
    getList(keys: BigUint64Array): BigUint64Array;
    getList(keys: Iterable<Whole>): (number | undefined)[];
    /** The key that has a number; undefined where the number is not below length. */
    keyOf(number: Whole): number | bigint | undefined;
    /** Iterates over the keys, in the order of their numbers: BigInts from 2^53 on. */
    keys(): IterableIterator<number | bigint>;
    /** The same as keys(): an iteration over the keys. */
    [Symbol.iterator](): IterableIterator<number | bigint>;
    /** All keys as BigInts, each at the index that is its number. */
    toBigUint64Array(): BigUint64Array;

    /** Whether the block is as it was written and holds a dictionary, by going over all of it. */
    check(): boolean;
    /** A copy of the block with the hash and the keys: what Dictionary.open() takes, and the C library. */
    toBytes(): Uint8Array;
    /** Gives the memory of the dictionary back at once: after that each call but free() throws a TypeError. */
    free(): void;
    /** Frees the dictionary at the end of the block that declared it by `using`. */
    [Symbol.dispose](): void;
    /** Throws a TypeError: a dictionary has no JSON. Keep its toBytes(), or its keys. */
    toJSON(): never;
}

/** How Strings are built. */
export interface StringsOptions {
    /** 50 to 10000, else 100: with 100 the hash of the strings takes least memory, with 200 less time. */
    percent?: number;
    /** What the hashes begin with: 0, or 1 where that gives two strings one hash. Give a random number where others choose the
     *  strings. */
    seed?: Whole;
    /** Called after each level of the hash, with how many strings have a number so far, and how many there are. */
    progress?: Progress;
}

/** A string, as its bytes in UTF-8, or bytes. TypeError where a string is not well formed: a lone surrogate has no bytes in
 *  UTF-8. */
export type StringOrBytes = string | Uint8Array;
/** A list of strings and bytes, which is itself no string. An error names the item. */
export type StringsOrBytes = Iterable<StringOrBytes> & object;

/** Numbers for strings, with the strings: each of n strings has a number of its own below n, and nothing else has. */
export class Strings implements Iterable<Uint8Array> {
    /** The strings, in any order; bytes and a string of these bytes in UTF-8 are equal. RangeError if two are equal, or have one hash
     *  by `seed`: it names the first two. */
    constructor(strings: StringsOrBytes, options?: StringsOptions);
    /** The strings in a block that toBytes() or the C library wrote, which is copied once. WrongTables where it was damaged,
     *  OtherKind where it holds something else. */
    static open(bytes: Bytes, options?: OpenOptions): Strings;

    /** How many strings there are. */
    readonly length: number;
    /** How many bytes the block with the hash and the strings has: 0 after free(). */
    readonly byteLength: number;
    /** The seed by which the strings are hashed: a number below 2^53, else a BigInt. */
    readonly seed: number | bigint;
    /** The number of a string or of bytes, below length; undefined for any other. */
    find(string: StringOrBytes): number | undefined;
    /** Whether a string, or bytes, is one of the strings. */
    has(string: StringOrBytes): boolean;
    /** The numbers of several strings, as find() answers them, in their order. */
    findList(strings: StringsOrBytes): (number | undefined)[];
    /** The string that has a number, as a copy of its bytes; undefined where the number is not below length. */
    get(number: Whole): Uint8Array | undefined;
    /** The string that has a number, decoded from UTF-8, with U+FFFD where its bytes are none; undefined where the number is not below
     *  length. */
    text(number: Whole): string | undefined;
    /** Iterates over the strings, as bytes, in the order of their numbers. */
    [Symbol.iterator](): IterableIterator<Uint8Array>;

    /** Whether the block is as it was written and holds strings, by going over all of it. */
    check(): boolean;
    /** A copy of the block with the hash and the strings: what Strings.open() takes, and the C library. */
    toBytes(): Uint8Array;
    /** Gives the memory of the strings back at once: after that each call but free() throws a TypeError. */
    free(): void;
    /** Frees the strings at the end of the block that declared them by `using`. */
    [Symbol.dispose](): void;
    /** Throws a TypeError: these values have no JSON. Keep their toBytes(), or the strings. */
    toJSON(): never;
}
