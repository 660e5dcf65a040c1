// Hashes of keys, by bitm_key_hash as the packages for the other languages have them: so each opens the blocks of the others.
// Equal keys are equal strings, byte arrays of equal bytes, whole numbers of one value (5 and 5n, 0 and -0), and other numbers
// that a Map holds for equal.
import { ANSWER, PIECES, bytesAt, calls, wasm } from "./core.js";
import { arrayKind, bytesOf, itemOf, typeOf } from "./given.js";
import { withRoom } from "./memory.js";
import { byBigInts } from "./numbers.js";
import { inOrder } from "./patterns.js";

const TEXT = 1, BYTES = 2, WHOLE = 3, LARGE = 4, DOUBLE = 5;
/** How many bytes of a key fit the room of lists; longer keys have a room of their own. */
const ROOM = 49152;
/** Up to how many units a string of ASCII is written unit by unit, which takes less time than a call of the encoder. */
const SHORT = 24;
const encoder = new TextEncoder();

let room = new Uint8Array(0), memory, bitm_key_hash;

/** Makes the views of memory again where it has grown, which detaches them. */
function look() {
    if (room.length > 0) return;
    room = bytesAt(PIECES, ROOM);
    memory = new DataView(wasm.memory.buffer);
    bitm_key_hash = calls.bitm_key_hash; // to look it up for each key takes longer
}

/** 32 bits of memory: of a number of 64 bits the low half stands at its address, the high half 4 bytes after. */
export function halfAt(at) {
    look();
    return memory.getUint32(at, true);
}

/** Writes the hash of a key by a seed to `hash`, and what its fingerprint is of to ANSWER and `print`, as 64 bits each. */
export function hashKey(key, seed, hash, print) {
    if (typeof key === "string") hashText(key, seed, hash);
    else if (typeof key === "number") hashNumber(key, seed, hash);
    else if (typeof key === "bigint") hashWhole(key, seed, hash);
    else if (arrayKind(key) === "Uint8Array") hashBytes(bytesOf(key, "a key"), BYTES, seed, hash);
    else throw noKey(key);
    if (print === ANSWER) return;
    memory.setUint32(print, halfAt(ANSWER), true);
    memory.setUint32(print + 4, halfAt(ANSWER + 4), true);
}

/** The error of what is no key: an argument, or item k of one. */
export function noKey(it, name = "key", k = undefined) {
    return new TypeError(`bitm: ${itemOf(name, k)} is of type ${typeOf(it)}: a key is a string, a number, a BigInt or a Uint8Array`);
}

/** Whether it is a key. */
export const isKey = it => ["string", "number", "bigint"].includes(typeof it) || arrayKind(it) === "Uint8Array";

const whole = it => (Number.isInteger(it) ? BigInt(it) : it);

/** Whether two keys are equal. */
export function areEqual(a, b) {
    if (arrayKind(a) && arrayKind(b)) return inOrder(bytesOf(a, "a key"), bytesOf(b, "a key")) === 0;
    return Object.is(whole(a), whole(b));
}

/** Hashes `length` bytes of memory; what the fingerprint is of stands at ANSWER. */
function hashAt(at, length, kind, seed, hash) {
    if (typeof seed === "number") bitm_key_hash(at, length, seed, kind, hash);
    else byBigInts("bitm_key_hash", at, length, seed, kind, hash);
}

/** Runs body(at, view) over room for a key of so many bytes. */
function withKeyRoom(length, body) {
    look();
    if (length <= ROOM) body(PIECES, room);
    else withRoom(length, at => {
        look();
        body(at, bytesAt(at, length));
    });
}

function hashText(text, seed, hash) {
    look();
    if (text.length <= SHORT && writeAscii(text)) hashAt(PIECES, text.length, TEXT, seed, hash);
    else withKeyRoom(3 * text.length, (at, into) => hashAt(at, writeText(text, into), TEXT, seed, hash));
}

/** Whether a string is of ASCII, and was written to the room. */
function writeAscii(text) {
    for (let k = 0; k < text.length; k++) {
        const unit = text.charCodeAt(k);
        if (unit > 127) return false;
        room[k] = unit;
    }
    return true;
}

/** Writes a string as UTF-8, and a lone surrogate as three bytes: how many bytes it is. */
function writeText(text, into) {
    const { written } = encoder.encodeInto(text, into);
    return written === text.length || text.isWellFormed() ? written : writeUnits(text, into);
}

function writeUnits(text, into) {
    let n = 0;
    for (const it of text) {
        const point = it.codePointAt(0), isLone = point >= 0xd800 && point < 0xe000;
        if (isLone) into.set([0xed, 0x80 | ((point >> 6) & 63), 0x80 | (point & 63)], n);
        n += isLone ? 3 : encoder.encodeInto(it, into.subarray(n)).written;
    }
    return n;
}

function hashNumber(key, seed, hash) {
    if (Number.isInteger(key) && !Number.isSafeInteger(key)) return hashWhole(BigInt(key), seed, hash);
    look();
    const kind = Number.isInteger(key) ? WHOLE : DOUBLE;
    if (kind === DOUBLE) memory.setFloat64(PIECES, key, true);
    else {
        memory.setUint32(PIECES, key, true);
        memory.setUint32(PIECES + 4, Math.floor(key / 2 ** 32), true);
    }
    if (Number.isNaN(key)) memory.setBigUint64(PIECES, 0x7ff8000000000000n, true); // one NaN for all
    hashAt(PIECES, 8, kind, seed, hash);
}

function hashWhole(key, seed, hash) {
    if (BigInt.asIntN(64, key) !== key) return hashBytes(bytesOfLarge(key), LARGE, seed, hash);
    look();
    memory.setBigInt64(PIECES, key, true);
    hashAt(PIECES, 8, WHOLE, seed, hash);
}

/** A whole number of more than 64 bits with its sign, the lowest byte first: as many bytes as its bits divided by 8, and one. */
function bytesOfLarge(key) {
    const digits = (key < 0n ? -key : key).toString(16), bits = 4 * digits.length - (Math.clz32(parseInt(digits[0], 16)) - 28);
    const length = Math.floor(bits / 8) + 1, text = BigInt.asUintN(8 * length, key).toString(16).padStart(2 * length, "0");
    return Uint8Array.from({ length }, (_, k) => parseInt(text.slice(2 * (length - k - 1), 2 * (length - k)), 16));
}

function hashBytes(bytes, kind, seed, hash) {
    withKeyRoom(bytes.length, (at, into) => {
        into.set(bytes);
        hashAt(at, bytes.length, kind, seed, hash);
    });
}
