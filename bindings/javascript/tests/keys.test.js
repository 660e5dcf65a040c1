// How keys are hashed: by SipHash-1-3 with the key (seed, kind), beside a plain program; and blocks of the old hash.
import assert from "node:assert/strict";
import { readFileSync } from "node:fs";
import { test } from "node:test";
import { bitm, random } from "./plain.js";

const { PerfectHash, memoryUse, section } = bitm;
const ROLE = 0x327361686d746962n, MASK = 2n ** 64n - 1n;
const TEXT = 1n, BYTES = 2n, WHOLE = 3n, LARGE = 4n, DOUBLE = 5n;

const turned = (word, by) => ((word << by) | (word >> (64n - by))) & MASK;

function round(v) {
    v[0] = (v[0] + v[1]) & MASK;
    v[1] = turned(v[1], 13n) ^ v[0];
    v[0] = turned(v[0], 32n);
    v[2] = (v[2] + v[3]) & MASK;
    v[3] = turned(v[3], 16n) ^ v[2];
    v[0] = (v[0] + v[3]) & MASK;
    v[3] = turned(v[3], 21n) ^ v[0];
    v[2] = (v[2] + v[1]) & MASK;
    v[1] = turned(v[1], 17n) ^ v[2];
    v[2] = turned(v[2], 32n);
}

/** SipHash-1-3 of bytes. */
function siphash(bytes, k0, k1) {
    const v = [k0 ^ 0x736f6d6570736575n, k1 ^ 0x646f72616e646f6dn, k0 ^ 0x6c7967656e657261n, k1 ^ 0x7465646279746573n];
    const padded = [...bytes, ...new Array((15 - (bytes.length % 8)) % 8).fill(0), bytes.length % 256];
    for (let k = 0; k < padded.length; k += 8) {
        const word = padded.slice(k, k + 8).reduceRight((all, it) => (all << 8n) | BigInt(it), 0n);
        v[3] ^= word;
        round(v);
        v[0] ^= word;
    }
    v[2] ^= 0xffn;
    for (let k = 0; k < 3; k++) round(v);
    return v[0] ^ v[1] ^ v[2] ^ v[3];
}

/** The last steps of MurmurHash3. */
function mixed(word) {
    const once = ((word ^ (word >> 33n)) * 0xff51afd7ed558ccdn) & MASK, twice = ((once ^ (once >> 33n)) * 0xc4ceb9fe1a85ec53n) & MASK;
    return twice ^ (twice >> 33n);
}

/** The bytes of code points in UTF-8, of lone surrogates too. */
function spelled(text) {
    return Array.from(text, it => it.codePointAt(0)).flatMap(it => {
        const low = by => 0x80 | ((it >> by) & 63);
        if (it < 0x80) return [it];
        if (it < 0x800) return [0xc0 | (it >> 6), low(0)];
        return it < 0x10000 ? [0xe0 | (it >> 12), low(6), low(0)] : [0xf0 | (it >> 18), low(12), low(6), low(0)];
    });
}

const littleEndian = (it, n) => Array.from({ length: n }, (_, k) => Number((BigInt.asUintN(8 * n, it) >> BigInt(8 * k)) & 255n));

/** The 32 bits that are kept of a single key, whose number is 0. */
function fingerprint(key, seed) {
    const h = new PerfectHash([key], { fingerprintBits: 32, seed }), kept = new DataView(section(h.toBytes(), ROLE).buffer);
    assert.deepEqual([h.get(key), h.getList([key]), h.seed], [0, [0], seed <= Number.MAX_SAFE_INTEGER ? Number(seed) : BigInt(seed)]);
    h.free();
    return kept.getUint32(8, true);
}

function compare(key, bytes, kind) {
    for (const seed of [0n, 1n, 2n ** 32n, 2n ** 53n, MASK])
        assert.equal(fingerprint(key, seed), Number(mixed(siphash(bytes, seed, kind)) & 0xffffffffn), `${String(key).slice(0, 50)} by ${seed}`);
}

test("the plain program is SipHash-1-3", () => {
    assert.equal(siphash(Buffer.from("foobar"), 0n, 0n), 0x7738ae0a5df09b34n); // as include/bitm.h says
});

test("text and bytes", () => {
    const r = random(7), drawn = n => Uint8Array.from({ length: n }, () => r());
    for (const n of [...Array(26).keys(), 63, 64, 255, 256, 1000]) {
        const bytes = drawn(n), ascii = String.fromCharCode(...bytes.map(it => it & 127)), text = String.fromCharCode(...bytes);
        compare(bytes, bytes, BYTES);
        for (const it of [ascii, text]) compare(it, spelled(it), TEXT);
    }
    const odd = ["ä", "日本語", "😀", "a\ud800", "\udc00b", "\ud800\ud800\udc00", "\udc00\ud800", `${"x".repeat(40)}\ud900ü`, "\0", "\ufeffa"];
    for (const it of odd) compare(it, spelled(it), TEXT);
});

test("keys that are longer than the room for one", () => {
    const before = memoryUse().used, long = "0123456789".repeat(2000), bytes = new Uint8Array(50000).fill(7);
    for (const it of [long, `${long}ü\ud800`, long.slice(0, 16384), long.slice(0, 16385)])
        assert.equal(fingerprint(it, 3n), Number(mixed(siphash(spelled(it), 3n, TEXT)) & 0xffffffffn));
    for (const it of [bytes, bytes.subarray(0, 49152), bytes.subarray(0, 49153)])
        assert.equal(fingerprint(it, 3n), Number(mixed(siphash(it, 3n, BYTES)) & 0xffffffffn));
    assert.equal(memoryUse().used, before);
});

test("numbers and BigInts", () => {
    const whole = [0, 1, -1, 255, -256, 2 ** 31, -(2 ** 31), 2 ** 32, 2 ** 40 + 3, -(2 ** 40) - 3, 2 ** 53 - 1, 1 - 2 ** 53, 2 ** 62, -(2 ** 63)];
    for (const it of whole) for (const key of [it, BigInt(it)]) compare(key, littleEndian(BigInt(it), 8), WHOLE);
    compare(-0, littleEndian(0n, 8), WHOLE);
    for (const it of [2n ** 63n - 1n, -(2n ** 63n), 1234567890123456789n]) compare(it, littleEndian(it, 8), WHOLE);
    // as int.to_bytes of Python, with as many bytes as the bits without the sign divided by 8, and one
    const large = [[2n ** 63n, 9], [2n ** 64n - 1n, 9], [-(2n ** 63n) - 1n, 9], [2n ** 71n, 10], [2n ** 71n - 1n, 9], [2n ** 200n, 26], [-(2n ** 200n), 26], [10n ** 100n, 42]];
    for (const [it, n] of large) compare(it, littleEndian(it, n), LARGE);
    for (const it of [2 ** 63, 2 ** 200, -1e300]) compare(it, littleEndian(BigInt(it), Math.floor(BigInt(Math.abs(it)).toString(2).length / 8) + 1), LARGE);
    const ofDouble = it => new Uint8Array(Float64Array.of(it).buffer);
    for (const it of [0.5, -0.1, 1e-300, Infinity, -Infinity, Number.MIN_VALUE]) compare(it, ofDouble(it), DOUBLE);
    compare(new Float64Array(BigUint64Array.of(2n ** 64n - 1n).buffer)[0], littleEndian(0x7ff8000000000000n, 8), DOUBLE);
});

test("what is no key, and a key that frees the hash or grows memory as it is read", () => {
    const h = new PerfectHash(["a", "b"]);
    for (const it of [undefined, null, true, Symbol("a"), {}, [1], () => 1, new Uint16Array(1), new ArrayBuffer(1), new DataView(new ArrayBuffer(1))])
        for (const call of [() => h.get(it), () => h.getList([it]), () => new PerfectHash([it])]) assert.throws(call, /a key is a string, a number, a BigInt or a Uint8Array/);
    const then = run => {
        class Bytes extends Uint8Array {
            get byteLength() {
                run();
                return super.byteLength;
            }
        }
        return Bytes.of(1, 2, 3);
    };
    const grow = () => new bitm.BitVector(8 * memoryUse().total).free();
    const keys = [then(grow), "a", then(grow), 5].map((it, k) => (k === 2 ? then(grow).fill(7) : it)), grown = new PerfectHash(keys);
    assert.deepEqual(new Set([...grown.getList(keys), ...keys.map(it => grown.get(it))]), new Set([0, 1, 2, 3]));
    assert.equal(grown.get(Uint8Array.of(1, 2, 3)), grown.get(keys[0]));
    for (const call of [it => it.get(then(() => it.free())), it => it.getList([then(() => it.free())])])
        assert.throws(() => call(PerfectHash.open(h.toBytes())), /the PerfectHash was freed/);
});

test("seeds that are wrong", () => {
    for (const seed of [-1, 0.5, NaN, Infinity, 2 ** 53, -1n, 2n ** 64n]) assert.throws(() => new PerfectHash(["a"], { seed }), RangeError);
    for (const seed of ["1", null, {}, true]) assert.throws(() => new PerfectHash(["a"], { seed }), TypeError);
});

test("blocks whose keys were hashed in the old way are opened and answer as they did", () => {
    const keys = ["", "ada", "ä", "\ud800", 0, -3, 0.5, 2 ** 60, NaN, Infinity, 0n, -5n, 2n ** 70n, Uint8Array.of(), Uint8Array.of(1, 2, 3, 4, 5)];
    const numbers = { hash: [6, 13, 5, 8, 2, 10, 12, 11, 14, 0, 1, 9, 4, 3, 7], seeded_hash: [8, 14, 10, 12, 0, 2, 3, 11, 9, 1, 4, 7, 5, 6, 13] };
    for (const [name, wanted] of Object.entries(numbers)) {
        const bytes = new Uint8Array(readFileSync(new URL(`old_keys/${name}`, import.meta.url))), h = PerfectHash.open(bytes);
        assert.deepEqual([h.check(), h.hasSeeds, h.width, h.length], [true, name === "seeded_hash", name === "hash" ? 16 : 32, 15]);
        assert.deepEqual([keys.map(it => h.get(it)), h.getList(keys)], [wanted, wanted]);
        assert.deepEqual([h.get(-0), h.get("bob"), h.get(-3n), h.getList(["bob"])], [wanted[4], undefined, undefined, [undefined]]);
        assert.deepEqual(h.toBytes(), bytes);
        h.free();
    }
});
