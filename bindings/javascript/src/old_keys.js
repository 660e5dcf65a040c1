// Hashes of keys in blocks of the role "bitmhjs1", which this package wrote before it hashed keys as the others do: three numbers
// of 32 bits, two for the hash of 64 bits and one for the fingerprint. The rounds are those of MurmurHash3, one lane each. Equal
// keys are those that a Map holds for equal, and byte arrays of equal bytes.
import { halvesAt } from "./core.js";
import { arrayKind, bytesOf } from "./given.js";
import { noKey } from "./keys.js";

const TAG = { string: 1, bytes: 2, number: 3, bigint: 4 };
const double = new Float64Array(1), doubleHalves = new Uint32Array(double.buffer);
/** The halves of the NaN that stands for all of them. */
const NAN = [0, 0x7ff80000];

const out = new Int32Array(3);

/** Writes the hash of a key to `hash`, and its fingerprint of that width to `print`, as 64 bits each. */
export function hashOldKey(key, seed, hash, print, width) {
    hashInto(key, seed, out);
    halvesAt(hash, 2).set(out.subarray(0, 2));
    halvesAt(print, 2).set([width ? out[2] >>> (32 - width) : 0, 0]);
}

/** The low half of the hash, the high one, and what the fingerprint is of. */
function hashInto(key, seed, out) {
    if (typeof key === "string") return hashText(key, seed, TAG.string, out);
    if (typeof key === "number") {
        double[0] = key === 0 ? 0 : key;
        if (Number.isNaN(key)) doubleHalves.set(NAN);
        begin(seed, TAG.number, out);
        round(doubleHalves[0], out);
        round(doubleHalves[1], out);
        return end(8, out);
    }
    if (typeof key === "bigint") return hashText(key.toString(16), seed, TAG.bigint, out);
    if (arrayKind(key) === "Uint8Array") return hashBytes(bytesOf(key, "a key"), seed, out);
    throw noKey(key);
}

function hashText(text, seed, tag, out) {
    begin(seed, tag, out);
    const pairs = text.length & ~1;
    for (let k = 0; k < pairs; k += 2) round(text.charCodeAt(k) | (text.charCodeAt(k + 1) << 16), out);
    if (pairs < text.length) round(text.charCodeAt(pairs), out);
    end(text.length, out);
}

function hashBytes(bytes, seed, out) {
    begin(seed, TAG.bytes, out);
    const fours = bytes.length & ~3;
    for (let k = 0; k < fours; k += 4) round(bytes[k] | (bytes[k + 1] << 8) | (bytes[k + 2] << 16) | (bytes[k + 3] << 24), out);
    let rest = 0;
    for (let k = bytes.length - 1; k >= fours; k--) rest = (rest << 8) | bytes[k];
    if (fours < bytes.length) round(rest, out);
    end(bytes.length, out);
}

function begin(seed, tag, out) {
    out[0] = seed ^ Math.imul(tag, 0x9e3779b1);
    out[1] = Math.imul(seed, 0x85ebca6b) ^ tag;
    out[2] = Math.imul(seed, 0xc2b2ae35) ^ Math.imul(tag, 0x27d4eb2f);
}

const turned = (x, by) => (x << by) | (x >>> (32 - by));

function round(k, out) {
    const a = Math.imul(turned(Math.imul(k, 0xcc9e2d51), 15), 0x1b873593);
    const b = Math.imul(turned(Math.imul(k, 0x239b961b), 16), 0xab0e9789);
    const c = Math.imul(turned(Math.imul(k, 0x38b34ae5), 17), 0xa1e38b93);
    out[0] = Math.imul(turned(out[0] ^ a, 13), 5) + 0xe6546b64;
    out[1] = Math.imul(turned(out[1] ^ b, 17), 5) + 0x561ccd1b;
    out[2] = Math.imul(turned(out[2] ^ c, 15), 5) + 0x96cd1c35;
}

function end(length, out) {
    for (let k = 0; k < 3; k++) {
        let x = out[k] ^ length;
        x = Math.imul(x ^ (x >>> 16), 0x85ebca6b);
        x = Math.imul(x ^ (x >>> 13), 0xc2b2ae35);
        out[k] = x ^ (x >>> 16);
    }
}
