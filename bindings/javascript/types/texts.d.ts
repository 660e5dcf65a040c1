// Texts, trees and tries.

import type { Whole, Wholes, NumberArray, Bytes, OpenOptions, Progress } from "./common.js";
import type { BitVector } from "./bits.js";

/** A string (as UTF-8), bytes, or letters. TypeError where a string is not well formed: a lone surrogate has no bytes in
 *  UTF-8. */
export type Pattern = string | Uint8Array | Wholes;

/** Which of the positions of a pattern locate() answers. */
export interface LocateOptions {
    /** How many of the first positions are left out: none unless it is given. */
    from?: Whole;
    /** How many positions there are at most: all unless it is given. */
    limit?: Whole;
}

/** How a TextIndex is built. */
export interface StepOptions {
    /** A position is kept each `step` letters, by default 32: a larger step takes less memory, and locate() and slice() take
     *  longer. RangeError unless it is 1 to 2^32 - 1. */
    step?: Whole;
    /** Called after each of two steps: the text is ordered, and the index written. */
    progress?: Progress;
}

/** Where a pattern stands in a text, by the index of the text in one block, which is all that is needed. Positions count letters:
 *  the bytes of a string in UTF-8, or numbers. */
export class TextIndex {
    /** A TypeError: an index is made by of() and ofLetters(), or opened by open(). */
    constructor(block: never);
    /** The index of a string, as its bytes in UTF-8, or of bytes. TypeError where the string is not well formed. */
    static of(text: string | Uint8Array, options?: StepOptions): TextIndex;
    /** The index of numbers below `letters`; it keeps 8 bytes for each letter. RangeError, which names the first one, where a
     *  number is not below it. A pattern is then a list of numbers too. */
    static ofLetters(numbers: Wholes, letters: Whole, options?: StepOptions): TextIndex;
    /** The index in a block that toBytes(), the C library or the program `bitm text build` wrote, which is copied once. WrongTables
     *  where it was damaged, OtherKind where it holds something else. */
    static open(bytes: Bytes, options?: OpenOptions): TextIndex;

    /** How many letters the text has: of a string, how many bytes it is in UTF-8. */
    readonly length: number;
    /** How many bits a letter takes: in an index of bytes, enough to number the different bytes. */
    readonly width: number;
    /** How many bytes the block of the index has: 0 after free(). */
    readonly byteLength: number;
    /** At how many positions a pattern stands; occurrences may overlap, and an empty pattern stands at each position and at the end.
     *  The time does not depend on how long the text is. */
    count(pattern: Pattern): number;
    /** Whether a pattern stands anywhere in the text. */
    has(pattern: Pattern): boolean;
    /** The positions at which a pattern stands, in the order of the rest of the text from there on: after the first `from` of them, at
     *  most `limit`. */
    locate(pattern: Pattern, options?: LocateOptions): number[];
    /** All positions at which a pattern stands, ascending. */
    findAll(pattern: Pattern): number[];
    /** The letter at a position: a byte, or a number of those that were given. RangeError past the end. */
    get(position: Whole): number | bigint;
    /** The letters from position `from` on and before `to`, or all: bytes, or an array where a letter may have more than 8 bits.
     *  RangeError where the range begins above its end or ends past the end of the text. */
    slice(from?: Whole, to?: Whole): Uint8Array | (number | bigint)[];
    /** What slice() gives, decoded from UTF-8, with U+FFFD where the bytes are none. TypeError where letters have more than 8
     *  bits. */
    text(from?: Whole, to?: Whole): string;

    /** Whether the block is as it was written and holds the index of a text, by going over all of it and through the text. */
    check(): boolean;
    /** A copy of the block of the index: what TextIndex.open() takes, the C library, and the program `bitm text`. */
    toBytes(): Uint8Array;
    /** Gives the memory of the index of the text back at once: after that each call but free() throws a TypeError. */
    free(): void;
    /** Frees the index of the text at the end of the block that declared it by `using`. */
    [Symbol.dispose](): void;
    /** Throws a TypeError: the index of a text has no JSON. Keep its toBytes(). */
    toJSON(): never;
}

/** A tree whose nodes are numbered level by level: the root is 0, and the children of a node follow one another. */
export class Tree {
    /** A tree of how many children each node has, in the order of the nodes. RangeError if that is no tree: it names the first node
     *  that does not fit. */
    constructor(degrees: Wholes);
    /** The tree in a block that toBytes() or the C library wrote, which is copied once. WrongTables where it was damaged,
     *  OtherKind where it holds something else. */
    static open(bytes: Bytes, options?: OpenOptions): Tree;

    /** How many nodes the tree has, the root among them. */
    readonly length: number;
    /** How many bytes the block of the tree has: 0 after free(). */
    readonly byteLength: number;
    /** The parent of a node; undefined at the root, and where there is no such node. */
    parent(node: Whole): number | undefined;
    /** Child k of a node, counted from 0; undefined where the node has no more than k children, and where there is no such node. */
    child(node: Whole, k: Whole): number | undefined;
    /** How many children a node has; undefined where there is no such node. */
    degree(node: Whole): number | undefined;
    /** Whether a node has no children; undefined where there is no such node. */
    isLeaf(node: Whole): boolean | undefined;
    /** The next child of the parent of a node; undefined at the last child and the root, and where there is no such node. */
    nextSibling(node: Whole): number | undefined;
    /** The child before it of the parent of a node; undefined at the first child and the root, and where there is no such node. */
    previousSibling(node: Whole): number | undefined;
    /** Which child of its parent a node is, counted from 0; undefined at the root, and where there is no such node. */
    childRank(node: Whole): number | undefined;
    /** Iterates over the children of a node, in their order: there are none where there is no such node. */
    children(node: Whole): IterableIterator<number>;

    /** The parent of each node of a list: NaN in a Float64Array, NO_ANSWER in a BigUint64Array or undefined in an array at the root,
     *  and where there is no such node. */
    parentList(nodes: NumberArray): Float64Array;
    parentList(nodes: BigUint64Array): BigUint64Array;
    parentList(nodes: Iterable<Whole>): (number | undefined)[];
    /** How many children each node of a list has: NaN in a Float64Array, NO_ANSWER in a BigUint64Array or undefined in an array where
     *  there is no such node. */
    degreeList(nodes: NumberArray): Float64Array;
    degreeList(nodes: BigUint64Array): BigUint64Array;
    degreeList(nodes: Iterable<Whole>): (number | undefined)[];
    /** Child ks[i] of each node nodes[i], in a list of the same kind as the nodes: NaN, NO_ANSWER or undefined where there is
     *  none. RangeError if there are more or fewer ks than nodes. */
    childList(nodes: NumberArray, ks: Wholes): Float64Array;
    childList(nodes: BigUint64Array, ks: Wholes): BigUint64Array;
    childList(nodes: Iterable<Whole>, ks: Wholes): (number | undefined)[];

    /** Whether the block is as it was written and holds a tree, by going over all of it. */
    check(): boolean;
    /** A copy of the block of the tree: what Tree.open() takes, and the C library. */
    toBytes(): Uint8Array;
    /** Gives the memory of the tree back at once: after that each call but free() throws a TypeError. */
    free(): void;
    /** Frees the tree at the end of the block that declared it by `using`. */
    [Symbol.dispose](): void;
    /** Throws a TypeError: a tree has no JSON. Keep its toBytes(), or the degrees. */
    toJSON(): never;
}

/** How a Trie is built of its parts. */
export interface TrieOptions {
    /** 1 to 63, else 8: how many bits a label has at most. */
    width?: number;
    /** A bit for each node that says whether a word ends there: without it the trie has no words. */
    ends?: BitVector;
}

/** A set of words: a tree in which each node but the root has a label, and the labels of a node's children ascend. A word is a
 *  string (as UTF-8), bytes, or a list of labels. */
export class Trie {
    /** A trie of the degree of each node, level by level, and the labels of the nodes from 1 on. RangeError if these form no trie: it
     *  names the node or label. */
    constructor(degrees: Wholes, labels: Pattern, options?: TrieOptions);
    /** The trie of words, each a string (as UTF-8) or bytes, with labels of 8 bits, and ends: in any order, more than once too.
     *  TypeError names the item that is neither. */
    static ofWords(words: Iterable<string | Uint8Array>): Trie;
    /** The trie in a block that toBytes() or the C library wrote, which is copied once. WrongTables where it was damaged,
     *  OtherKind where it holds something else. */
    static open(bytes: Bytes, options?: OpenOptions): Trie;

    /** How many nodes the trie has, the root among them. */
    readonly length: number;
    /** How many bits a label of the trie has at most, 1 to 63. */
    readonly width: number;
    /** Whether the trie says for each node if a word ends there. */
    readonly hasEnds: boolean;
    /** How many bytes the block of the trie has: 0 after free(). */
    readonly byteLength: number;
    /** The node to which a word leads from the root, whether a word ends there or not; undefined where it leads to none. */
    find(word: Pattern): number | undefined;
    /** Whether it is one of the words: a word ends at the node to which it leads. False for all words in a trie without ends. */
    has(word: Pattern): boolean;
    /** The deepest node to which a beginning of a word leads, and how many labels lead there: the root and 0 where the first label
     *  leads to none. */
    longest(word: Pattern): { node: number; count: number };
    /** The word that leads from the root to a node: bytes where a label has at most 8 bits, else an array of labels; undefined where
     *  there is no such node. */
    word(node: Whole): Uint8Array | (number | bigint)[] | undefined;
    /** The label of a node; undefined at the root, which has none, and where there is no such node. */
    label(node: Whole): number | bigint | undefined;
    /** The node to which a word without its last label leads; undefined at the root, and where there is no such node. */
    parent(node: Whole): number | undefined;
    /** Whether a word ends at a node; undefined where there is no such node, or the trie has no ends. */
    isEnd(node: Whole): boolean | undefined;
    /** The child of a node that has a label; undefined where no child has it, and where there is no such node. */
    childByLabel(node: Whole, label: Whole): number | undefined;
    /** Iterates over the children of a node, by ascending labels: there are none where there is no such node. */
    children(node: Whole): IterableIterator<number>;
    /** How many children a node of the trie has, each with a label of its own; undefined where there is no such node. */
    degree(node: Whole): number | undefined;

    /** Whether the block is as it was written and holds a trie, by going over all of it. */
    check(): boolean;
    /** A copy of the block of the trie: what Trie.open() takes, and the C library. */
    toBytes(): Uint8Array;
    /** Gives the memory of the trie back at once: after that each call but free() throws a TypeError. */
    free(): void;
    /** Frees the trie at the end of the block that declared it by `using`. */
    [Symbol.dispose](): void;
    /** Throws a TypeError: a trie has no JSON. Keep its toBytes(). */
    toJSON(): never;
}
