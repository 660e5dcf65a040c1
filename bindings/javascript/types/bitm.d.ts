// bitm 0.3.0. Positions, ranks, indices and lengths are numbers below 2^53. Where any number from 0 to 2^64 - 1 may stand,
// a number is one below 2^53, and a BigInt any: `Whole` is taken, and what is answered is a BigInt from 2^53 on.

import type { Bytes, OpenOptions, Whole } from "./common.js";
import type { Index } from "./bits.js";
import type { EliasFano } from "./numbers.js";

export * from "./common.js";
export * from "./bits.js";
export * from "./numbers.js";
export * from "./keys.js";
export * from "./texts.js";
export * from "./sections.js";

/** What a list of answers in a BigUint64Array has where there is none: 2^64 - 1. In a Float64Array it is NaN. */
export const NO_ANSWER: bigint;
/** The version of the package, such as "0.3.0". */
export const VERSION: string;

/** The tables do not match the bits, or the bytes are no file of this format: it was damaged. */
export class WrongTables extends Error {}
/** A right file that holds another structure than the class that opens it: the message names this structure. */
export class OtherKind extends WrongTables {}

/**
 * An Index or an EliasFano of the bytes of a block, which are copied once: OtherKind where the block holds another
 * structure; WrongTables where they are not as they were written, unless `check` is false. A file of version 2 of the
 * format is read too and made a block, for which a sequence takes 8 bytes a number until the call ends; its parts have
 * no checksum, so the check finds only what does not fit.
 */
export function open(bytes: Bytes, options?: OpenOptions): Index | EliasFano;

/** How many bytes of WebAssembly memory there are, and how many hold values: also those that are garbage, until a later
 *  task frees them. */
export function memoryUse(): { total: number; used: number };

/** The position, 0 to 63, of the 1 bit of a 64-bit word that has `rank` 1 bits before it; undefined where the word has no
 *  more than rank. */
export function selectInWord(word: Whole, rank: Whole): number | undefined;
/** How many binary digits a number has, which is the width that stores it: 0 for 0, and 64 at most. */
export function bitsToStore(value: Whole): number;
/** A sampleLog2 for `items` bits of a kind among `length`, such that samples take about the same share of memory: 7 to
 *  `most`, which is 31 unless it is given. */
export function optimalSampleLog2(items: Whole, length: Whole, most?: Whole): number;

/** For "bitm/core", which loads nothing by itself: whether the modules for 64-bit memory run here. */
export function has64(): boolean;
/** For "bitm/core": makes the values usable, given bitm64.wasm and calls64.wasm, or bitm32.wasm and calls32.wasm, as bytes or
 *  compiled. Nothing is done the second time. An Error where they are of another version. */
export function start(module: Bytes | WebAssembly.Module, adaptors: Bytes | WebAssembly.Module): Promise<void>;
/** The same as start() at once, where an engine compiles modules of this size at once: in Node, and in workers. */
export function startSync(module: Bytes | WebAssembly.Module, adaptors: Bytes | WebAssembly.Module): void;
