// Dictionary beside a plain Set; blocks of which bytes were changed or cut off.
import assert from "node:assert/strict";
import { test } from "node:test";
import { Tally, bitm, random, spoil, unlessWrong } from "./plain.js";

const { Dictionary, NO_ANSWER, WrongTables } = bitm;
const tally = new Tally();
const ENDS = [0n, 1n, 2n ** 53n - 1n, 2n ** 53n, 2n ** 63n, 2n ** 64n - 2n, 2n ** 64n - 1n];

function drawn(n, bits, seed) {
    const r = random(seed), found = new Set();
    while (found.size < n) found.add(BigInt.asUintN(bits, (BigInt(r()) << 32n) | BigInt(r())));
    return [...found];
}

const plain = it => (it < 2n ** 53n ? Number(it) : it);

/** Each key has a number of its own, at which it stands, and what is no key has none. */
function compare(found, keys) {
    const is = new Set(keys), numbers = new Set();
    assert.equal(found.length, keys.length);
    assert.ok(found.check());
    const near = [...keys.slice(0, 40).flatMap(it => [it - 1n, it + 1n]), ...ENDS].filter(it => it >= 0n && it < 2n ** 64n);
    for (const key of [...keys, ...near]) {
        const number = found.get(plain(key));
        tally.list([number !== undefined, found.has(key), found.get(key)], [is.has(key), is.has(key), number], `${key}`);
        if (number !== undefined) tally.same(found.keyOf(number), plain(key), () => `the key at ${number}`);
        if (number !== undefined) numbers.add(number);
    }
    assert.equal(numbers.size, keys.length);
    assert.deepEqual([...found].map(BigInt).sort(), [...keys].sort());
    assert.deepEqual([...found.keys()], [...found]);
    assert.deepEqual(Array.from(found.toBigUint64Array(), plain), [...found]);
    const asked = [...keys, ...near], answers = asked.map(it => found.get(it));
    tally.list(found.getList(asked), answers, "getList");
    tally.list(found.getList(BigUint64Array.from(asked)), answers.map(it => BigInt(it ?? NO_ANSWER)), "getList of BigInts");
    const small = asked.filter(it => it < 2n ** 53n).map(Number);
    tally.list(found.getList(Float64Array.from(small)), small.map(it => found.get(it) ?? NaN), "getList of doubles");
}

test("keys of each number and size", () => {
    for (const [n, bits] of [[0, 1], [1, 1], [1, 64], [2, 1], [64, 6], [300, 20], [3000, 64]]) {
        const keys = drawn(n, bits, n + bits), found = new Dictionary(keys), other = new Dictionary(new Set(keys), { percent: 200, seed: 2n ** 64n - 3n });
        compare(found, keys);
        compare(other, keys);
        assert.deepEqual([found.seed, other.seed], [0, 2n ** 64n - 3n]);
        const again = Dictionary.open(found.toBytes());
        compare(again, keys);
        assert.deepEqual(again.toBytes(), found.toBytes());
        assert.equal(again.byteLength, again.toBytes().length);
    }
    compare(new Dictionary(ENDS), ENDS);
    compare(new Dictionary(Uint32Array.of(4, 9, 49)), [4n, 9n, 49n]);
    tally.atLeast(20000);
});

test("arguments that are wrong", () => {
    const found = new Dictionary([4, 9, 49]), names = ["get", "has", "keyOf"];
    for (const it of [-1, 0.5, NaN, 2 ** 53, -1n, 2n ** 64n]) {
        for (const name of names) assert.throws(() => found[name](it), RangeError, `${name}(${it})`);
        for (const call of [() => found.getList([it]), () => new Dictionary([it]), () => new Dictionary([1], { seed: it })]) assert.throws(call, RangeError);
    }
    for (const it of ["1", null, undefined, {}, [1], true, Symbol("1")]) {
        for (const name of names) assert.throws(() => found[name](it), TypeError);
        for (const call of [() => found.getList([it]), () => new Dictionary([it])]) assert.throws(call, TypeError);
        if (it !== undefined) assert.throws(() => new Dictionary([1], { seed: it }), TypeError);
    }
    for (const percent of [49, 10001, 0.5, NaN]) assert.throws(() => new Dictionary([1], { percent }), RangeError);
    for (const [keys, first, second] of [[[4, 4], 0, 1], [[9, 4n, 4], 1, 2], [[...drawn(300, 40, 3), ...drawn(1, 40, 3)], 0, 300]])
        assert.throws(() => new Dictionary(keys), new RangeError(`bitm: keys ${first} and ${second} are equal`));
    for (const it of [5, "12", null, undefined, {}]) assert.throws(() => new Dictionary(it), TypeError);
    assert.deepEqual([found.keyOf(3), found.keyOf(2n ** 64n - 1n), new Dictionary([]).get(0)], [undefined, undefined, undefined]);
});

test("each changed byte is seen, and each prefix; in unchecked blocks a key stands at its number", () => {
    const keys = drawn(9, 50, 5).map(Number), bytes = new Dictionary(keys).toBytes();
    spoil(Dictionary, bytes, 1 / 3, found => {
        for (const key of [...keys, ...keys.map(it => it + 1), ...found]) {
            const number = unlessWrong(() => found.get(key));
            if (number !== undefined) assert.equal(found.keyOf(number), key);
        }
    });
    assert.throws(() => Dictionary.open("block"), TypeError);
    assert.throws(() => bitm.Tree.open(bytes), WrongTables);
    assert.throws(() => Dictionary.open(new bitm.Tree([1, 0]).toBytes()), WrongTables);
});

test("a dictionary that was freed, and memory", () => {
    const before = bitm.memoryUse().used, found = new Dictionary([1, 5]), walk = found.keys();
    found.free();
    found.free();
    assert.equal(found.byteLength, 0);
    const asks = [() => found.get(1), () => found.has(1), () => found.getList([1]), () => found.keyOf(0), () => [...found], () => walk.next(), () => found.seed,
        () => found.toBigUint64Array(), () => found.check(), () => found.toBytes()];
    for (const ask of asks) assert.throws(ask, /was freed/);
    assert.throws(() => new Dictionary([2, 2]));
    assert.throws(() => Dictionary.open(new Uint8Array(800)), WrongTables);
    assert.equal(bitm.memoryUse().used, before);
});
