// What the declarations of all classes share: numbers, lists and bytes that calls take.

declare global {
    interface SymbolConstructor {
        readonly dispose: unique symbol;
    }
}

/** A whole number from 0 to 2^53 - 1, or a BigInt from 0 to 2^64 - 1: RangeError for another number, TypeError for anything else. */
export type Whole = number | bigint;
/** A list of whole numbers: doubles must be whole numbers from 0 to 2^53 - 1. An error names the item. */
export type Wholes = Iterable<Whole> | NumberArray | BigUint64Array;
/** Arrays that are answered by a Float64Array. */
export type NumberArray = Uint32Array | Float64Array | Uint8Array | Uint8ClampedArray | Uint16Array | Int8Array | Int16Array | Int32Array | Float32Array;
/** A bit: true and false, or 1 and 0 as a number or a BigInt. Anything else is a TypeError. */
export type Bit = boolean | number | bigint;
/** Bytes: any view, or a buffer. TypeError where its buffer is detached. */
export type Bytes = ArrayBuffer | SharedArrayBuffer | ArrayBufferView;

/**
 * What a build calls after each of its steps: how much is done, of how much; the last time both are equal. An error that it throws
 * ends the build, and all of its memory is freed. TypeError where it is no function.
 */
export type Progress = (done: number, total: number) => void;

/** How a block is opened. Options are an object's own properties: inherited ones are ignored. TypeError where they are no
 *  object. */
export interface OpenOptions {
    /** Whether to look at all bytes, and throw WrongTables where they are not as they were written: true if not given. TypeError where
     *  it is no boolean. */
    check?: boolean;
}
