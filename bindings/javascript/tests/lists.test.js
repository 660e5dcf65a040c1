// Lists that cross in several pieces, numbers at the borders of their ranges, and arrays of classes that lie.
import assert from "node:assert/strict";
import { test } from "node:test";
import { bitm, booleans, counted, random, Tally } from "./plain.js";

const { BitVector, EliasFano, Index, NO_ANSWER, Tree } = bitm;
const tally = new Tally(), LENGTHS = [0, 1, 2047, 2048, 2049, 4096, 4097, 8192, 10001];
const bits = booleans(30000, 7), { rank, ones } = counted(bits), index = new Index(BitVector.fromBooleans(bits));

test("lists of one piece and of several, of each form", () => {
    for (const n of LENGTHS) {
        const r = random(n + 1), asked = Array.from({ length: n }, () => r() % 30001);
        for (const form of [Float64Array, Uint32Array, Array]) {
            tally.list(index.rankList(form.from(asked)), asked.map(it => rank[it]), `rankList of ${n}`);
            const none = form === Array ? undefined : NaN;
            tally.list(index.selectList(form.from(asked)), asked.map(it => ones[it] ?? none), `selectList of ${n}`);
        }
        tally.list(index.selectList(BigUint64Array.from(asked, BigInt)), asked.map(it => BigInt(ones[it] ?? NO_ANSWER)), `selectList of ${n} BigInts`);
    }
    tally.atLeast(200000);
});

test("the item that is wrong is named, in whichever piece it is", () => {
    const asked = new Float64Array(9000), sequence = new EliasFano([1, 2]);
    for (const k of [0, 2047, 2048, 8999]) {
        asked[k] = 0.5;
        assert.throws(() => index.rankList(asked), { name: "RangeError", message: new RegExp(`item ${k} of positions`) });
        asked[k] = 2;
        assert.throws(() => sequence.atList(asked), { name: "RangeError", message: new RegExp(`item ${k} of indices`) });
        asked[k] = 30001;
        assert.throws(() => index.rankList(asked), RangeError);
        asked[k] = 0;
    }
    assert.throws(() => new Tree([1, 0]).childList(new Float64Array(5000), new Float64Array(5001)), /5000 nodes, and 5001 ks/);
});

test("doubles at the borders of what is a whole number", () => {
    const whole = [0, 1, 2 ** 31, 2 ** 32, 2 ** 52 - 1, 2 ** 52, 2 ** 52 + 1, 2 ** 53 - 2, 2 ** 53 - 1], sequence = new EliasFano(whole);
    assert.deepEqual([...sequence], whole);
    assert.deepEqual(sequence.toFloat64Array(), Float64Array.from(whole));
    whole.forEach((it, k) => assert.equal(sequence.firstAtLeast(it), k));
    assert.deepEqual(sequence.hasList(Float64Array.from(whole)), new Uint8Array(whole.length).fill(1));
    assert.deepEqual(sequence.firstAtLeastList([-0, 2 ** 52 + 2]), [0, 7]);
    const tiny = 2 ** -1074, not = [-tiny, tiny, -1, 1 - 2 ** -53, 0.5, 2 ** 51 + 0.5, 2 ** 52 - 0.5, 2 ** 53, 2 ** 63, 2 ** 64, -(2 ** 52), -(2 ** 53), 1e308, Infinity, -Infinity, NaN];
    for (const it of not) {
        assert.throws(() => sequence.hasList(Float64Array.of(1, it)), RangeError, `${it} in a list`);
        for (const name of ["firstAtLeast", "lastAtMost", "has"]) assert.throws(() => sequence[name](it), RangeError, `${name}(${it})`);
    }
});

test("arrays that lie about themselves", () => {
    class Longer extends Float64Array {
        static get [Symbol.species]() { return function () { return new Float64Array(1e6).fill(3); }; }
    }
    assert.deepEqual(index.rankList(new Longer(9000)), new Float64Array(9000));
    const more = Float64Array.of(1, 2), fewer = Uint32Array.of(1, 2);
    Object.defineProperty(more, "length", { value: 1e6 });
    Object.defineProperty(fewer, "length", { value: 1 });
    assert.throws(() => index.rankList(more), RangeError);
    assert.equal(index.rankList(fewer).length, 1);
    const tree = new Tree([1, 0]), nodes = new Float64Array(9000);
    const ks = { *[Symbol.iterator]() {
        structuredClone(nodes.buffer, { transfer: [nodes.buffer] });
        for (let k = 0; k < 9000; k++) yield 0;
    } };
    assert.throws(() => tree.childList(nodes, ks), TypeError, "the first list is detached while the second is read");
    assert.deepEqual(tree.childList([0, 1], [0, 0]), [1, undefined]);
});
