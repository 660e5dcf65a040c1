// Numbers of keys beside a plain array of those that are taken; with seeds and without; blocks of which bytes were changed.
import assert from "node:assert/strict";
import { test } from "node:test";
import { bytesAt, calls } from "../src/core.js";
import { withRoom } from "../src/memory.js";
import { Tally, bitm, spoil, unlessWrong } from "./plain.js";

const { OWN_ROLE, PerfectHash, WrongTables, extend } = bitm;
const OLD_ROLE = 0x31736a686d746962n;
const tally = new Tally();

function compare(keys, strangers, options = {}) {
    const h = new PerfectHash(keys, options), seen = new Uint8Array(keys.length);
    for (const key of keys) {
        const k = h.get(key);
        tally.same(Number.isInteger(k) && k >= 0 && k < keys.length && seen[k] === 0, true, () => `get ${String(key)} is ${k}`);
        seen[k] = 1;
    }
    tally.list(h.getList(keys), keys.map(it => h.get(it)), "getList");
    tally.list(h.getList(strangers), strangers.map(it => h.get(it)), "getList of what is no key");
    const taken = strangers.filter(it => h.get(it) !== undefined).length, bits = options.fingerprintBits ?? 16;
    if (bits > 0) assert.ok(taken <= 8 + (8 * strangers.length) / 2 ** bits, `${taken} of ${strangers.length} are taken for keys`);
    stays(h, [...keys.slice(0, 3000), ...strangers.slice(0, 30)]);
    assert.equal(h.hasSeeds, options.tries !== undefined);
    h.free();
}

/** The bytes of a hash open as the same hash, with sections of a caller's own too, and are the same bytes again. */
function stays(h, asked) {
    const bytes = h.toBytes(), again = PerfectHash.open(bytes), noted = PerfectHash.open(extend(bytes, [[OWN_ROLE, Uint8Array.of(7)]]));
    assert.deepEqual([h.check(), bytes.length], [true, h.byteLength]);
    for (const it of [again, noted]) {
        assert.deepEqual([it.length, it.hasSeeds, it.check()], [h.length, h.hasSeeds, true]);
        tally.list(it.getList(asked), h.getList(asked), "getList of what was opened");
    }
    assert.deepEqual(again.toBytes(), bytes);
    again.free();
    noted.free();
}

const texts = (n, from = 0) => Array.from({ length: n }, (_, k) => `key ${k + from}`);

test("texts of every number up to 300, and many", () => {
    for (let n = 0; n <= 300; n += n < 30 ? 1 : 17) compare(texts(n), texts(50, 1000));
    compare(texts(100000), texts(100000, 1e6));
    compare(texts(3000), texts(3000, 1e6), { fingerprintBits: 8, percent: 200 });
    compare(texts(3000), texts(3000, 1e6), { fingerprintBits: 32 });
    compare(texts(3000), texts(30, 1e6), { fingerprintBits: 0 });
});

test("seeds: of every number of keys up to 300, and many", () => {
    for (let n = 0; n <= 300; n += n < 30 ? 1 : 17) compare(texts(n), texts(50, 1000), { tries: 1 + (n % 256) });
    compare(texts(100000), texts(1000, 1e6), { tries: 64 });
    for (const tries of [1, 256]) for (const percent of [50, 200]) compare(texts(3000), texts(3000, 1e6), { tries, percent, fingerprintBits: 32 });
    const bits = tries => (8 * new PerfectHash(texts(100000), { tries, fingerprintBits: 0 }).byteLength) / 100000;
    assert.ok(bits(64) < 2.35 && bits(undefined) > 2.8, `${bits(64)} bits a key with seeds, ${bits(undefined)} without`);
});

test("numbers, BigInts, bytes, and all of them together", () => {
    const numbers = Array.from({ length: 20000 }, (_, k) => k * 7 - 50000.5), whole = numbers.map((_, k) => k), bigs = whole.map(k => BigInt(k + 1) << 60n);
    const bytes = whole.slice(0, 3000).map(k => Uint8Array.of(k, k >> 8, k % 7));
    compare([...numbers, ...whole, ...bigs, ...bytes, "", "0", NaN, Infinity], ["x", -3, -3n, Uint8Array.of(1)]);
});

test("equal keys are those of a Map, and a whole number and its BigInt", () => {
    const keys = [0, "0", 0.5, NaN, "ä", "\ud800", 2 ** 60, Uint8Array.of(48)], h = new PerfectHash(keys);
    assert.deepEqual([h.get(-0), h.get(0n), h.get(2n ** 60n)], [h.get(0), h.get(0), h.get(2 ** 60)]);
    assert.equal(new Set(h.getList(keys)).size, 8);
    const equal = [
        [[0, -0], 1], [[5, "5", 5n], 2], [[2 ** 70, 2n ** 70n], 1], [[NaN, 1, Number("x")], 2], [["a", "b", "a", "b"], 2],
        [[Uint8Array.of(1), Uint8Array.of(1, 2), Uint8Array.of(1)], 2],
    ];
    for (const [them, second] of equal) for (const tries of [undefined, 9]) for (const seed of [undefined, 2n ** 64n - 1n])
        assert.throws(() => new PerfectHash(them, { tries, seed }), new RangeError(`bitm: keys 0 and ${second} are equal`));
    tally.atLeast(450000);
});

test("each changed byte is seen, and each prefix; in unchecked blocks each number is below how many keys there are", () => {
    for (const tries of [undefined, 5]) {
        const keys = texts(40), bytes = new PerfectHash(keys, { tries }).toBytes();
        spoil(PerfectHash, bytes, 1 / 3, h => {
            for (const key of keys) {
                const number = unlessWrong(() => h.get(key));
                assert.ok(number === undefined || (number >= 0 && number < h.length), `the number of ${key}`);
            }
            for (const number of unlessWrong(() => h.getList(keys)) ?? []) assert.ok(number === undefined || (number >= 0 && number < h.length));
        });
    }
});

test("blocks that are no PerfectHash of ours", () => {
    const bytes = new PerfectHash(texts(9), { tries: 5 }).toBytes();
    for (const it of [new bitm.Dictionary([1, 2]).toBytes(), new bitm.Strings(["a"]).toBytes(), new bitm.Tree([0]).toBytes(), new Uint8Array(800), new Uint8Array(0)])
        assert.throws(() => PerfectHash.open(it), WrongTables);
    for (const it of [undefined, null, 5, "block", [1], {}]) assert.throws(() => PerfectHash.open(it), TypeError);
    for (const Kind of [bitm.Dictionary, bitm.Strings, bitm.Tree]) assert.throws(() => Kind.open(bytes), WrongTables);
});

/** The block of a hash of no keys, as the C library writes it: with a seed by which keys were hashed. */
function ofNoKeys(seed) {
    const words = calls.bitm_hash_block_size(0, 0);
    return withRoom(8 * words, at => {
        assert.equal(calls.bitm_hash_block_build(at, 0, at, 0, seed, at, words), 0);
        return bytesAt(at, 8 * words).slice();
    });
}

test("blocks whose keys were hashed in another way, or whose fingerprints are none", () => {
    const role = bitm.sections(new PerfectHash([]).toBytes())[4][0], items = (...numbers) => BigUint64Array.from(numbers, BigInt);
    const open = (seed, ...added) => PerfectHash.open(extend(ofNoKeys(seed), added));
    for (const seed of [0, 3, 2 ** 32, 2 ** 53 - 1]) for (const width of [0, 16, 33, 64]) {
        const it = open(seed, [role, items(width)]);
        assert.deepEqual([it.get("a"), it.getList(["a", 5]), it.length, it.seed, it.width], [undefined, [undefined, undefined], 0, seed, width]);
    }
    assert.deepEqual([open(3, [OLD_ROLE, items(16)]).get("a"), open(2 ** 32 - 1, [OLD_ROLE, items(0)]).length], [undefined, 0]);
    for (const seed of [0, 2 ** 32, 2 ** 53 - 1]) assert.throws(() => open(seed, [OLD_ROLE, items(16)]), WrongTables);
    assert.throws(() => open(3, [OLD_ROLE, items(33)]), WrongTables);
    const byBlake = 0x687361686d746962n;
    for (const other of [[], [[OWN_ROLE, items(16)]], [[byBlake, items(16)]], [[OWN_ROLE, items(16)], [role, items(16)]]]) assert.throws(() => open(3, ...other), WrongTables);
    for (const wrong of [items(), items(65), items(2n ** 64n - 1n), items(16, 0), Uint8Array.of(16), new Uint8Array(9)]) assert.throws(() => open(3, [role, wrong]), WrongTables);
});

test("tries that are wrong, and a hash that was freed", () => {
    for (const tries of [0, 257, -1, 0.5, NaN, Infinity, 2 ** 53]) assert.throws(() => new PerfectHash(["a"], { tries }), RangeError);
    for (const tries of ["1", null, {}, true, 1n]) assert.throws(() => new PerfectHash(["a"], { tries }), TypeError);
    const before = bitm.memoryUse().used, h = new PerfectHash(["a", "b"], { tries: 9 });
    h.free();
    h.free();
    assert.equal(h.byteLength, 0);
    for (const ask of [() => h.get("a"), () => h.getList(["a"]), () => h.hasSeeds, () => h.check(), () => h.toBytes()]) assert.throws(ask, TypeError);
    const other = new PerfectHash(["a"], { tries: 9 });
    assert.throws(() => other.getList({ *[Symbol.iterator]() { other.free(); yield "a"; } }), TypeError);
    assert.equal(bitm.memoryUse().used, before);
});
