// Lists of queries and answers. A list crosses in pieces, each as one copy into memory and one out of it; the adaptors change
// doubles into numbers of 64 bits and back, so nothing is added or cut here.
import { ANSWER, BESIDE, PIECES, bytesAt, calls, doublesAt, halvesAt, numberAt, smallest, wasm, wordsAt } from "./core.js";
import { arrayKind, isIterable, mustBe, mustBeAttached } from "./given.js";
import { BITM_LIST_COUNTS, STATUS } from "./layout.js";
import { withRoom } from "./memory.js";
import { WrongTables, big, must, notWhole, pastEnd, refused } from "./numbers.js";

/** The typed arrays that are copied as they are, and those that are read as doubles. */
const WIDE = { Uint32Array, Float64Array, BigUint64Array };
const SMALL = new Set(["Uint8Array", "Uint8ClampedArray", "Uint16Array", "Int8Array", "Int16Array", "Int32Array", "Float32Array"]);
const MISSING = 2n ** 64n - 1n;
/** How many numbers of a list cross at once: so few that they, and their answers, stay in a cache near the processor. */
const PIECE = 2048;

/** What a list of answers in a BigUint64Array holds where there is none: 2^64 - 1. */
export const NO_ANSWER = MISSING;

/**
 * Numbers that a user gave: `{ items, form }`, where items is a Uint32Array, Float64Array or BigUint64Array, of no class of
 * the user's, and form says how answers go back: "doubles", "words" or "plain".
 */
export function numbersOf(given, name) {
    if (ArrayBuffer.isView(given)) {
        const kind = arrayKind(given), Own = WIDE[kind];
        if (!kind) throw new TypeError(`bitm: ${name}: a DataView is no list of numbers`);
        mustBeAttached(given, name);
        if (Own) return { items: new Own(given.buffer, given.byteOffset, given.length), form: kind === "BigUint64Array" ? "words" : "doubles" };
        if (SMALL.has(kind)) return { items: Float64Array.from(given), form: "doubles" };
    }
    if (!isIterable(given)) throw mustBe(name, "an array or another iterable of numbers", given);
    const items = Array.isArray(given) ? given : Array.from(given);
    for (let k = 0; k < items.length; k++)
        if (typeof items[k] !== "number") return { items: wordsOf(items, name), form: "plain" };
    return { items: Float64Array.from(items), form: "plain" };
}

/** A list of numbers and BigInts as BigInts. */
function wordsOf(items, name) {
    const isWord = it => typeof it === "bigint" && BigInt.asUintN(64, it) === it;
    return BigUint64Array.from(items, (it, k) => (isWord(it) ? it : big(it, `item ${k} of ${name}`)));
}

/** Views of the memory from `at` on, for n numbers of 64 bits. */
const roomAt = (at, n) => ({ at, doubles: doublesAt(at, n), words: wordsAt(at, n), halves: halvesAt(at, n), bytes: bytesAt(at, n) });

let pieces = { buffer: undefined };

/** The rooms of a piece: of its answers, of a first list and of a second. Made again where memory has grown. */
function roomsOfPiece() {
    const { buffer } = wasm.memory;
    if (pieces.buffer !== buffer) pieces = { buffer, rooms: [0, 1, 2].map(it => roomAt(PIECES + 8 * PIECE * it, PIECE)) };
    return pieces.rooms;
}

/** Puts numbers of a list, of which the first has this index, into a room, as numbers of 64 bits. */
function put(items, room, name, index) {
    const n = items.length;
    if (items instanceof BigUint64Array) room.words.set(items);
    else if (items instanceof Uint32Array) {
        room.halves.set(items);
        calls.from_32(room.at, n);
    } else {
        room.doubles.set(items);
        const good = calls.from_doubles(room.at, n);
        if (good < n) throw notWhole(`item ${index + good} of ${name}`, items[good]);
    }
}

/**
 * The answers in the first n numbers of a room: an array, or a view of memory, which changes. form as numbersOf says it;
 * missing is "fill" where 2^64 - 1 says that there is no answer, "flags" where 0 and 1 say no and yes.
 */
function answersIn(room, n, form, missing) {
    if (missing === "flags") {
        calls.to_bytes(room.at, n);
        const flags = room.bytes.subarray(0, n);
        return form === "plain" ? Array.from(flags, it => it === 1) : flags;
    }
    if (form === "words") return room.words.subarray(0, n);
    const canMiss = missing === "fill", good = calls.to_doubles(room.at, n, canMiss ? 1 : 0);
    if (form === "plain") return plainIn(room, good, n, canMiss);
    if (good < n) throw new RangeError("bitm: an answer is 2^53 or more: ask with a BigUint64Array");
    return room.doubles.subarray(0, n);
}

/** An array of n answers, of which the first `good` are doubles. */
function plainIn({ doubles, words }, good, n, canMiss) {
    const found = [];
    for (let k = 0; k < good; k++) found.push(canMiss && Number.isNaN(doubles[k]) ? undefined : doubles[k]);
    for (let k = good; k < n; k++) found.push(canMiss && words[k] === MISSING ? undefined : smallest(words[k]));
    return found;
}

/** Copies numbers to `at`, as numbers of 64 bits: 8 bytes each. */
export function copyIn(items, at, name) {
    put(items, roomAt(at, items.length), name, 0);
}

/** n numbers of 64 bits at `at`, as an array of the form; changes what stands there. */
export function copyOut(at, n, form, canMiss) {
    const found = answersIn(roomAt(at, n), n, form, canMiss ? "fill" : "throw");
    return form === "plain" ? found : found.slice();
}

/** An array for n answers. */
function arrayFor(n, form, missing) {
    if (form === "plain") return [];
    if (missing === "flags") return new Uint8Array(n);
    return form === "words" ? new BigUint64Array(n) : new Float64Array(n);
}

/** n numbers of a list from index k on. */
function pieceOf(items, k, n, name) {
    if (n === items.length) return items;
    const piece = items.subarray(k, k + n);
    if (piece.length !== n) throw new TypeError(`bitm: ${name} lost items while they were read`);
    return piece;
}

/** The items of the second list, if there are two. */
function secondOf(lists, length) {
    if (lists.length < 2) return undefined;
    const [[, name], [given, other]] = lists, { items } = numbersOf(given, other);
    if (items.length !== length) throw new RangeError(`bitm: there are ${length} ${name}, and ${items.length} ${other}`);
    return items;
}

/**
 * Answers of a call of one list or of two as long as each other, each `[given, name]`. ask(n, out, first, second, index)
 * calls it for n items from an index on: where the answers go, and where items of the first list stand, and of the second.
 */
function inPieces(lists, missing, ask) {
    const [given, name] = lists[0], { items, form } = numbersOf(given, name), { length } = items;
    const others = secondOf(lists, length), [out, first, second] = roomsOfPiece(), found = arrayFor(length, form, missing);
    let k = 0;
    do {
        const n = Math.min(length - k, PIECE);
        put(pieceOf(items, k, n, name), first, name, k);
        if (others) put(pieceOf(others, k, n, lists[1][1]), second, lists[1][1], k);
        ask(n, out.at, first.at, second.at, k);
        const here = answersIn(out, n, form, missing);
        if (form !== "plain") found.set(here, k);
        else if (n === length) return here;
        else for (const it of here) found.push(it);
        k += n;
    } while (k < length);
    return found;
}

/**
 * The same where the call counts at BESIDE for how many there was no answer. missing: "fill", or "throw" and "flags" where each
 * item has one unless it is past the end; of two lists that is an item of the second.
 */
export function answers(lists, missing, ask) {
    return inPieces(lists, missing, (n, out, first, second, index) => {
        const [, name] = lists.at(-1);
        must(ask(n, out, first, second), name);
        if (numberAt(BESIDE + BITM_LIST_COUNTS.wrong) !== 0) throw new WrongTables();
        if (missing === "fill" || numberAt(BESIDE + BITM_LIST_COUNTS.missing) === 0) return;
        const k = wordsAt(out, n).indexOf(MISSING), at = lists.length > 1 ? second : first;
        throw pastEnd(`item ${index + k} of ${name}`, numberAt(at + 8 * k));
    });
}

/** The items at indices of so many: ask(n, out, at) says n, or by its status why it stopped at an index. */
export function itemsAt(indices, length, ask) {
    return inPieces([[indices, "indices"]], "throw", (n, out, at, _, first) => {
        const got = ask(n, out, at);
        if (got === n) return;
        if (got < 0 && got !== -STATUS.NONE) throw refused(got, "indices", n);
        const written = numberAt(ANSWER), index = numberAt(at + 8 * written);
        if (index < length) throw new WrongTables();
        throw pastEnd(`item ${first + written} of indices`, index);
    });
}

/**
 * Goes over numbers of 64 bits in memory, 512 at a time: fetch(from, at, room) writes them and returns how many, or minus a
 * status; after(last) says from where the next ones come.
 */
export function* chunks(fetch, from, after) {
    const room = 512;
    let size = 16;
    for (;;) {
        const found = withRoom(8 * size, at => {
            const n = fetch(from, at, size);
            if (n < 0) throw refused(n, "from", from);
            return copyOut(at, n, "plain", false);
        });
        yield* found;
        if (found.length < size) return;
        from = after(from, found);
        size = Math.min(2 * size, room);
    }
}
