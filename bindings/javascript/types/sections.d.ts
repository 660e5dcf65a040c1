// Sections of a caller's own in the block of a value, as its toBytes() gives it.

import type { Bytes, Whole } from "./common.js";

/** The first role that no kind of block has: from it on roles are yours, and their items are bytes. */
export const OWN_ROLE: number;

/** The items of a section: bytes, numbers of 32 bits for the roles 7 and 8, or of 64 bits for others below OWN_ROLE but 15. */
export type Items = Uint8Array | Uint32Array | BigUint64Array;

/**
 * The bytes of a block with more sections after its own, each given as a role and its items. RangeError where there would be more
 * than 16, or the bytes do not fill the items of a role; WrongTables where a section of the block is not as it was written.
 */
export function extend(block: Bytes, sections: Iterable<readonly [Whole, Bytes]>): Uint8Array;
/** A copy of the items of the first section with a role; undefined where the block has none. WrongTables where the bytes are no
 *  block. */
export function section(block: Bytes, role: Whole): Items | undefined;
/** The sections of a block in their order, beginning with the sections of its kind: pairs of a role and a copy of its items.
 *  WrongTables where the bytes are no block. */
export function sections(block: Bytes): [role: number | bigint, items: Items][];
/** Whether the block of any kind is as it was written, by going over all of it: false too where the bytes are no block. */
export function isWritten(block: Bytes): boolean;
