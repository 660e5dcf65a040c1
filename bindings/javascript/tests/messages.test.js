// What errors say: which item of which list, what range, and no name or number that is undefined.
import assert from "node:assert/strict";
import { test } from "node:test";
import { calls, made } from "./each_call.js";
import { bitm } from "./plain.js";

const { BitVector, Index, OWN_ROLE, SparseBits, TextIndex, Tree, WaveletMatrix, extend, intersect, open, optimalSampleLog2, union } = bitm;
const [v, x, sparse, s, m, text, tree] = [made.BitVector(), made.Index(), made.SparseBits(), made.EliasFano(), made.WaveletMatrix(), made.TextIndex(), made.Tree()];

/** Each call throws an error of this class with this message, after `bitm: `. */
function says(name, message, ...given) {
    for (const call of given) assert.throws(call, { name, message: `bitm: ${message}` }, String(call));
}

test("an item of a list that is past the end is named, with the list and the item", () => {
    says("RangeError", "item 1 of positions is past the end: 9", () => x.rankList([0, 9]), () => x.rank0List(Float64Array.of(7, 9)), () => x.rankList(BigUint64Array.of(0n, 9n)));
    says("RangeError", "item 1 of positions is past the end: 9", () => sparse.rankList([7, 9]), () => sparse.rank0List(Uint32Array.of(7, 9)));
    says("RangeError", "item 1 of positions is past the end: 7", () => sparse.getList([6, 7]), () => sparse.getList(Float64Array.of(6, 7)));
    says("RangeError", "item 1 of indices is past the end: 6", () => s.atList([0, 6]), () => m.getList([0, 6]), () => m.rankList([3, 1], [5, 6]), () => m.rankList([3, 1], Float64Array.of(5, 6)));
    says("RangeError", `item 1 of positions is past the end: ${2n ** 64n - 1n}`, () => x.rankList([0, 2n ** 64n - 1n]));
    const many = new Float64Array(5000);
    many[4999] = 8;
    says("RangeError", "item 4999 of positions is past the end: 8", () => x.rankList(many), () => x.rankList([...many]), () => sparse.getList(many));
    says("RangeError", "item 1 of positions is past the end: 7, and the most is 6", () => BitVector.fromPositions([3, 7], 7), () => Index.fromPositions([3, 7n, 9], 7));
});

test("a position that no vector has is named, and not the length that it would take", () => {
    for (const it of [2 ** 50, 2 ** 53 - 1, 2n ** 60n, 2n ** 64n - 1n])
        says("RangeError", `item 1 of positions is past the end: ${it}, and the most is ${2 ** 50 - 1}`, () => BitVector.fromPositions([3, it, 5]), () => Index.fromPositions([3, it, 4]));
    assert.deepEqual([BitVector.fromPositions([3, 5n]).length, BitVector.fromPositions(new Set()).length, BitVector.fromPositions([]).length], [6, 0, 0]);
});

test("an iteration refuses its argument when it is made", () => {
    const iterations = [it => v.ones(it), it => v.zeros(it), it => x.ones(it), it => x.zeros(it), it => sparse.ones(it), it => sparse.zeros(it), it => s.values(it), it => s.valuesFrom(it), it => tree.children(it), it => made.Trie().children(it)];
    for (const begin of iterations) {
        for (const it of [null, "1", {}]) assert.throws(() => begin(it), { name: "TypeError", message: /^bitm: (?:from|value|node) must be a whole number, and is of type/ }, String(begin));
        for (const it of [-1, 0.5, NaN, 2 ** 53, -1n]) assert.throws(() => begin(it), { name: "RangeError", message: /^bitm: (?:from|value|node) must be/ }, String(begin));
        assert.deepEqual([...begin(2 ** 53 - 1)], [], String(begin));
    }
});

test("a range that begins above its end, or ends past the end", () => {
    const above = "begin is 5, and end 4: the range begins above its end";
    says("RangeError", above, () => v.count(5, 4), () => v.count0(5, 4), () => v.fill(true, 5, 4), () => v.flip(5, 4), () => m.countLess(1, 5, 4), () => m.quantile(0, 5, 4));
    says("RangeError", above, () => m.nextValue(0, 5, 4), () => m.previousValue(0, 5, 4), () => m.distinct(5, 4), () => m.top(1, 5, 4), () => m.intersect(5, 4, 0, 1));
    says("RangeError", "otherBegin is 5, and otherEnd 4: the range begins above its end", () => m.intersect(0, 1, 5, 4));
    says("RangeError", "from is 3, and to 2: the range begins above its end", () => text.slice(3, 2), () => text.text(3, 2));
    const past = "end is past the end: 8, and the most is 7";
    says("RangeError", past, () => v.count(0, 8), () => v.count0(9 - 8, 8), () => v.fill(true, 0, 8), () => v.flip(0, 8), () => v.slice(0, 8));
    says("RangeError", "begin is past the end: 8, and the most is 7", () => v.count(8), () => v.fill(true, 8), () => v.flip(8, 9), () => v.slice(8), () => v.setRange(8, v));
    says("RangeError", `begin is past the end: ${2n ** 60n}, and the most is 7`, () => v.fill(true, 2n ** 60n, 2n ** 61n), () => v.flip(2n ** 60n, 7), () => v.count(2n ** 60n));
    says("RangeError", `position is past the end: ${2n ** 60n}`, () => v.flip(2n ** 60n), () => v.get(2n ** 60n));
    says("RangeError", "begin + count is past the end: 8, and the most is 7", () => v.setRange(6, v, 0, 2));
    says("RangeError", "otherBegin is past the end: 8, and the most is 7", () => v.setRange(0, v, 8));
    says("RangeError", "count is past the end: 3, and the most is 2", () => v.setRange(0, v, 5, 3));
    assert.deepEqual([v.count(7), v.count(4, 4), v.slice(7).length, v.slice(5, 4).length], [0, 0, 0, 0]);
});

test("a position, an index or a number past the end", () => {
    says("RangeError", "position is past the end: 7", () => v.get(7), () => v.set(7), () => v.flip(7), () => x.get(7), () => sparse.get(7));
    says("RangeError", "position is past the end: 8", () => x.rank(8), () => x.rank0(8n), () => sparse.rank(8), () => sparse.rank0(8));
    says("RangeError", "position is past the end: 20", () => text.get(20), () => TextIndex.ofLetters(new Float64Array(20), 1).get(20));
    says("RangeError", "index is past the end: 5", () => m.get(5));
    says("RangeError", "index is past the end: 6, and the most is 5", () => m.rank(1, 6));
    says("RangeError", "begin is past the end: 6, of 2 bits", () => v.setNumber(6, 2, 1), () => v.xorNumber(6, 2, 1));
    says("RangeError", "the end of the number is past the end: 2 bits from begin 6 on", () => v.getNumber(6, 2));
    says("RangeError", "index is past the end: 3, of fragments of 2 bits", () => v.getFragment(3, 2));
    says("RangeError", "index is past the end: 3, of 2 bits", () => v.setFragment(3, 2, 1));
    says("RangeError", "first is past the end: 3, of fragments of 2 bits", () => v.swapFragments(3, 0, 2));
    says("RangeError", "second is past the end: 3, of fragments of 2 bits", () => v.swapFragments(0, 3, 2));
    says("RangeError", "count is past the end: 4 fragments of 2 bits", () => v.fillFragments(2, 1, 4));
    for (const it of [null, "1", -1]) assert.throws(() => v.fillFragments(0, 0, it), /count/);
});

test("other values: what they must be, and how many bits they have", () => {
    for (const it of [null, undefined, 3, "v", {}, [true], x, sparse, Object.create(BitVector.prototype)]) {
        const type = it === null ? "null" : typeof it;
        says("TypeError", `the other must be a BitVector, and is of type ${type}`, () => v.equals(it), () => v.setRange(0, it), () => v.and(it), () => v.isSubsetOf(it), () => v.countUnion(it));
        says("TypeError", `bits must be a BitVector, and is of type ${type}`, () => new Index(it));
        if (it !== undefined) says("TypeError", `ends must be a BitVector, and is of type ${type}`, () => new bitm.Trie([1, 0], "a", { ends: it }));
        says("TypeError", `sequence must be an EliasFano, and is of type ${type}`, () => new bitm.Cursor(it));
        says("TypeError", `item 1 of sequences must be an EliasFano, and is of type ${type}`, () => union([s, it]), () => intersect([s, it]));
        says("TypeError", `item 0 of others must be an EliasFano, and is of type ${type}`, () => s.union(it), () => s.intersection(it), () => s.countUnion(it), () => s.countIntersection(it, s));
    }
    says("RangeError", "the other has 8 bits, and not 7", () => v.and(new BitVector(8)), () => v.union(new BitVector(8)));
    says("TypeError", "the BitVector was freed", () => { const gone = new BitVector(8); gone.free(); v.equals(gone); });
    assert.equal(v.equals(new BitVector(8)), false);
});

test("lists of booleans, and options that are booleans", () => {
    for (const it of [null, undefined, 3, 3n, true, "", "01", {}, { length: 3 }, new ArrayBuffer(1)])
        says("TypeError", `bits must be a list of booleans, and is of type ${it === null ? "null" : typeof it}`, () => BitVector.fromBooleans(it), () => Index.fromBooleans(it));
    says("TypeError", "item 1 of bits must be a boolean, or 0 or 1, and is 2", () => BitVector.fromBooleans([true, 2]), () => BitVector.fromBooleans([0, 2n]), () => BitVector.fromBooleans(Uint8Array.of(1, 2)));
    says("TypeError", "item 1 of bits must be a boolean, or 0 or 1, and is of type string", () => BitVector.fromBooleans(new Set([1, "1"])));
    assert.deepEqual([...BitVector.fromBooleans(v)], [...v]);
    const block = tree.toBytes(), file = x.toBytes();
    for (const it of [null, 0, 1, "", "false", {}, []]) {
        const type = it === null ? "null" : typeof it;
        says("TypeError", `check must be a boolean, and is of type ${type}`, () => Tree.open(block, { check: it }), () => open(file, { check: it }));
        says("TypeError", `quarters must be a boolean, and is of type ${type}`, () => new WaveletMatrix([1], { quarters: it }));
        says("TypeError", `hints must be a boolean, and is of type ${type}`, () => new WaveletMatrix([1], { hints: it }));
    }
    assert.equal(Tree.open(block, { check: undefined }).length + open(file, { check: true }).length, 11);
    assert.equal(new WaveletMatrix([1], { quarters: undefined }).byteLength, new WaveletMatrix([1], { quarters: false }).byteLength);
});

test("keys, sequences and sections", () => {
    const dictionary = made.Dictionary(), hash = made.PerfectHash();
    for (const call of [it => dictionary.get(it), it => dictionary.has(it)]) {
        says("TypeError", "key must be a whole number, and is of type string", () => call("4"));
        says("RangeError", `key must be 0 to 2^64 - 1, and is ${2n ** 64n}`, () => call(2n ** 64n));
        says("RangeError", "key must be a whole number from 0 to 2^53 - 1 (beyond it a BigInt), and is 1.5", () => call(1.5));
    }
    says("TypeError", "key is of type object: a key is a string, a number, a BigInt or a Uint8Array", () => hash.get({}));
    says("TypeError", "item 1 of keys is of type null: a key is a string, a number, a BigInt or a Uint8Array", () => hash.getList(["a", null]), () => new bitm.PerfectHash(["a", null]));
    says("RangeError", "sequences is an empty list: what all of no sequences have is every number", () => intersect([]), () => intersect(new Set(), 3, 4));
    assert.deepEqual(union([]), []);
    const some = Array.from({ length: 12 }, (_, k) => [OWN_ROLE + k, new Uint8Array(1)]), full = extend(tree.toBytes(), some);
    says("RangeError", "sections would be more than 16, which a block has at most, its own among them", () => extend(full, [[OWN_ROLE, new Uint8Array(1)]]), () => extend(tree.toBytes(), [...some, [OWN_ROLE, full]]));
    says("RangeError", "item 1 of sections has 3 bytes, and each of the items of role 9 has 8", () => extend(tree.toBytes(), [some[0], [9, new Uint8Array(3)]]));
});

test("no number is cut without a word", () => {
    says("RangeError", `length is past the end: ${2n ** 60n}, and the most is ${2 ** 53 - 1}`, () => new SparseBits([1], 2n ** 60n));
    says("RangeError", `length is past the end: ${2n ** 60n}, and the most is ${2 ** 50}`, () => new BitVector(2n ** 60n));
    assert.equal(new SparseBits([1], 2n ** 53n - 1n).length, 2 ** 53 - 1);
    assert.equal(optimalSampleLog2(2n ** 40n, 2n ** 63n, 13), optimalSampleLog2(2n ** 20n, 2n ** 43n, 13));
    assert.equal(optimalSampleLog2(2n ** 62n, 2n ** 63n, 13), optimalSampleLog2(2n ** 42n, 2n ** 43n, 13));
    says("TypeError", "length must be a whole number, and is of type null", () => BitVector.fromBytes(new Uint8Array(1), null), () => BitVector.fromPositions([1], null), () => new SparseBits([1], null));
    for (const name of ["from", "limit"]) says("TypeError", `${name} must be a whole number, and is of type null`, () => text.locate("s", { [name]: null }));
    says("TypeError", "step must be a whole number, and is of type null", () => TextIndex.of("a", { step: null }));
    says("TypeError", "limit must be a whole number, and is of type null", () => union([s], 0, null));
});

test("after free() each call of a value throws, however it is called", () => {
    let looked = 0;
    for (const { key, good, call } of calls) {
        const [holder] = key.split(/[.(]/), gone = made[holder]?.();
        if (!gone || /\.(?:constructor|from\w+|of\w*|open)\(/.test(key)) continue;
        gone.free();
        assert.throws(() => call(good, gone), { name: "TypeError", message: /^bitm: (?:the \w+ was|these \w+ were) freed$/ }, key);
        looked++;
    }
    assert.ok(looked > 150, `${looked} calls`);
});

test("a buffer that is detached is named", () => {
    const gone = [new Uint8Array(8), new Float64Array(1), new DataView(new ArrayBuffer(8)), new ArrayBuffer(8)];
    for (const it of gone) structuredClone(it.buffer ?? it, { transfer: [it.buffer ?? it] });
    for (const it of gone) says("TypeError", "the buffer of bytes is detached, or too short for it", () => open(it), () => Tree.open(it), () => BitVector.fromBytes(it));
    says("TypeError", "the buffer of positions is detached, or too short for it", () => x.rankList(gone[1]), () => BitVector.fromPositions(gone[0]));
    says("TypeError", "the buffer of bits is detached, or too short for it", () => BitVector.fromBooleans(gone[0]));
    says("TypeError", "the buffer of item 1 of strings is detached, or too short for it", () => new bitm.Strings(["a", gone[0]]));
});
