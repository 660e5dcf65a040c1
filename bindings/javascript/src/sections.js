// Sections of a caller's own in a block of any kind, after those of its kind: notes, samples and the like.
import { BESIDE, bytesAt, calls, smallest, wordsAt } from "./core.js";
import { sizeWith, writeWith } from "./extending.js";
import { bytesOf, isIterable, mustBe } from "./given.js";
import { BITM_SECTION, STATUS } from "./layout.js";
import { withRoom } from "./memory.js";
import { WrongTables, big, refused } from "./numbers.js";

/** The first role that no kind has: from it on roles are yours, and their items are bytes. */
export const OWN_ROLE = 65536;

/** The arrays of the roles whose items have neither eight bytes, as those of other roles below OWN_ROLE, nor one. */
const ITEMS = new Map([[7, Uint32Array], [8, Uint32Array], [15, Uint8Array]]);
const itemsOf = role => (role >= OWN_ROLE ? Uint8Array : ITEMS.get(Number(role)) ?? BigUint64Array);

/** Why the library refused: the words are no block, or one that was damaged, or it has 16 sections already. */
function failure(status) {
    if (status === -STATUS.WRONG) return new WrongTables("bitm: it is no block, or not as it was written");
    if (status === -STATUS.BAD_SIZE) return new RangeError("bitm: sections would be more than 16, which a block has at most, its own among them");
    return refused(status, "block");
}

/** Runs body(at, words) over a copy of a block in memory: at is where it stands, words how long it is. */
function withBlock(bytes, body) {
    if (bytes.length % 8 !== 0) throw failure(-STATUS.WRONG);
    return withRoom(bytes.length, at => {
        bytesAt(at, bytes.length).set(bytes);
        return body(at, bytes.length / 8);
    });
}

/** A role, and a copy of the items that are to be its section, of item k of what was given: `{ role, bytes, count }`. */
function addedOf(pair, k) {
    const name = `item ${k} of sections`;
    if (!isIterable(pair)) throw mustBe(name, "a pair of a role and its items", pair);
    const [given, items] = pair, role = big(given, `the role of ${name}`), bytes = bytesOf(items, `what follows the role of ${name}`).slice();
    const each = itemsOf(role).BYTES_PER_ELEMENT;
    if (bytes.length % each !== 0) throw new RangeError(`bitm: ${name} has ${bytes.length} bytes, and each of the items of role ${role} has ${each}`);
    return { role, bytes, count: bytes.length / each };
}

/** The bytes of a block with one section more. */
const withOne = (block, { role, bytes, count }) => withBlock(block, (from, words) => {
    const size = sizeWith(from, words, { role, count }), items_len = Math.ceil(bytes.length / 8);
    if (size < 0) throw failure(size);
    return withRoom(8 * (items_len + size), items => {
        const to = items + 8 * items_len;
        bytesAt(items, 8 * items_len).fill(0).set(bytes);
        const status = writeWith(from, words, { role, count, items, items_len }, to, size);
        if (status !== 0) throw failure(-status);
        return bytesAt(to, 8 * size).slice();
    });
});

/**
 * The bytes of a block with more sections after its own: `added` are pairs of a role and of items in a view or a buffer, such as
 * a Map. What a block held it holds still. RangeError where there would be more than 16 sections, or bytes do not fill the items
 * of a role; WrongTables where a section of the block is not as it was written. The block is copied once for each section.
 *
 *     const noted = extend(new Tree([2, 0, 0]).toBytes(), [[OWN_ROLE, new TextEncoder().encode("3 nodes")]]);
 *     Tree.open(noted).length;        // 3
 *     section(noted, OWN_ROLE);       // the seven bytes
 */
export function extend(block, added) {
    if (!isIterable(added)) throw mustBe("sections", "a Map or another iterable of pairs of a role and items", added);
    const all = Array.from(added, addedOf), bytes = bytesOf(block, "block").slice(); // last, for an iterable may run code
    if (all.length === 0 && !isWritten(bytes)) throw failure(-STATUS.WRONG);
    return all.reduce(withOne, bytes);
}

/** The sections of a block of which a copy stands in memory, each `{ role, count, at }`: at is where its items stand. */
function* sectionsIn(at, words) {
    for (let i = 0; ; i++) {
        const status = calls.bitm_block_section(at, words, i, BESIDE), of = name => smallest(wordsAt(BESIDE + BITM_SECTION[name], 1)[0]);
        if (status === -STATUS.NONE) return;
        if (status !== 0) throw failure(status);
        yield { role: of("role"), count: of("count"), at: of("words") };
    }
}

/** A copy of the items of a section. */
function itemsIn({ role, count, at }) {
    const Items = itemsOf(role);
    return new Items(bytesAt(at, count * Items.BYTES_PER_ELEMENT).slice().buffer);
}

/**
 * The sections of a block in their order, those of its kind first: pairs of a role and of items, which are a Uint8Array, of the
 * roles 7 and 8 a Uint32Array, and of others below OWN_ROLE but 15 a BigUint64Array. WrongTables where the bytes are no block;
 * whether the sections are as they were written is for isWritten to say.
 *
 *     sections(new Tree([2, 0, 0]).toBytes()).length;        // 3
 */
export function sections(block) {
    return withBlock(bytesOf(block, "block"), (at, words) => Array.from(sectionsIn(at, words), it => [it.role, itemsIn(it)]));
}

/**
 * The items of the first section with a role, as sections() has them; undefined where there is none. WrongTables where the bytes
 * are no block.
 *
 *     section(new Tree([2, 0, 0]).toBytes(), OWN_ROLE);        // undefined
 */
export function section(block, role) {
    const sought = smallest(big(role, "role"));
    return withBlock(bytesOf(block, "block"), (at, words) => {
        for (const it of sectionsIn(at, words)) if (it.role === sought) return itemsIn(it);
        return undefined;
    });
}

/**
 * Whether the block of any kind is as it was written, by going over all of it. Whether it holds what its kind says is for the
 * check() of that to say.
 *
 *     isWritten(new Tree([2, 0, 0]).toBytes());        // true
 *     isWritten(new Uint8Array(192));        // false
 */
export function isWritten(block) {
    const bytes = bytesOf(block, "block");
    return bytes.length % 8 === 0 && withBlock(bytes, (at, words) => calls.bitm_block_check(at, words) === 0);
}
