// Strings beside a plain Map; strings that are read once; blocks of which bytes were changed or cut off.
import assert from "node:assert/strict";
import { test } from "node:test";
import { Tally, bitm, random, spoil, unlessWrong } from "./plain.js";

const { Strings, WrongTables } = bitm;
const tally = new Tally(), MOST = [2 ** 53 - 1, 2n ** 53n, 2n ** 64n - 1n];
const key = bytes => Buffer.from(bytes).toString("latin1"), bytesOf = it => (typeof it === "string" ? new TextEncoder().encode(it) : it);

/** Different strings of up to `longest` bytes each, some of them 0. */
function drawn(n, longest, seed) {
    const r = random(seed), found = new Map();
    while (found.size < n) {
        const it = Uint8Array.from({ length: r() % (longest + 1) }, () => (r() % 8 ? r() % 256 : 0));
        found.set(key(it), it);
    }
    return [...found.values()];
}

/** Each string has a number of its own, at which it stands, and what is none of them has none. */
function compare(found, strings) {
    const is = new Set(strings.map(it => key(bytesOf(it)))), numbers = new Set();
    assert.deepEqual([found.length, found.check(), found.toBytes().length], [strings.length, true, found.byteLength]);
    const near = strings.slice(0, 40).map(bytesOf).flatMap(it => [it.subarray(1), Uint8Array.of(...it, 0), Uint8Array.of(...it, ...it)]);
    const asked = [...strings, ...near, "", "\0", "eve", Uint8Array.of(255)];
    for (const it of asked) {
        const number = found.find(it), said = () => `the number of ${key(bytesOf(it))}`;
        tally.list([number !== undefined, found.has(it)], [is.has(key(bytesOf(it))), number !== undefined], said());
        if (number !== undefined) tally.list(found.get(number), bytesOf(it), said());
        if (number !== undefined && typeof it === "string") tally.same(found.text(number), it, said);
        if (number !== undefined) numbers.add(number);
    }
    assert.equal(numbers.size, strings.length);
    tally.list(found.findList(asked), asked.map(it => found.find(it)), "findList");
    assert.deepEqual([...found], Array.from({ length: found.length }, (_, k) => found.get(k)));
    for (const none of [found.length, found.length + 1, ...MOST]) assert.deepEqual([found.get(none), found.text(none)], [undefined, undefined]);
}

test("strings of each number and length", () => {
    for (const [n, longest] of [[0, 0], [1, 0], [1, 9], [2, 1], [64, 1], [250, 1], [300, 9], [3000, 20]]) {
        const strings = drawn(n, longest, n + longest), found = new Strings(strings), other = new Strings(new Set(strings), { percent: 200, seed: 2n ** 64n - 3n });
        compare(found, strings);
        compare(other, strings);
        assert.deepEqual([found.seed, other.seed], [0, 2n ** 64n - 3n]);
        const again = Strings.open(found.toBytes());
        compare(again, strings);
        assert.deepEqual(again.toBytes(), found.toBytes());
    }
    tally.atLeast(40000);
});

test("strings are their bytes in UTF-8", () => {
    const words = ["", "ada", "ü", "日本", "\ufeffa", "a", "\0"];
    compare(new Strings(words), words);
    compare(new Strings(words.map(bytesOf)), words);
    const found = new Strings(["ü", Uint8Array.of(195)]);
    assert.deepEqual([found.has(Uint8Array.of(195, 188)), found.has("\u00c3"), found.text(found.find(Uint8Array.of(195)))], [true, false, "\ufffd"]);
    assert.throws(() => new Strings(["ü", Uint8Array.of(195, 188)]), new RangeError("bitm: strings 0 and 1 are equal"));
});

test("strings that FNV-1a gives one hash have numbers by each seed", () => {
    const two = ["8yn0iYCKYHlIj4-BwPqk", "GReLUrM4wMqfg9yzV3KQ"];
    assert.equal(new Strings(two).seed, 0);
    for (const seed of [0, 1, 256, 5n]) {
        const found = new Strings(two, { seed });
        assert.equal(found.seed, Number(seed));
        compare(found, two);
    }
});

test("strings that SipHash-1-3 gives one hash by the seed 0 have the seed 1", () => {
    const two = ["DfPggx7rn3H", "t_0e0z8MQ6G"];
    const found = new Strings(two);
    assert.equal(found.seed, 1);
    compare(found, two);
    assert.throws(() => new Strings(two, { seed: 0 }), new RangeError("bitm: strings 0 and 1 have one hash: take another seed"));
});

test("arguments that are wrong", () => {
    const found = new Strings(["ada", "bob", "eve"]);
    for (const it of [1, null, undefined, true, {}, ["ada"], 1n, Symbol("a"), new ArrayBuffer(3), new DataView(new ArrayBuffer(3)), new Uint16Array(3)])
        for (const call of [() => found.find(it), () => found.has(it), () => found.findList(["ada", it]), () => new Strings([it])]) assert.throws(call, TypeError);
    for (const it of ["ada", 5, null, undefined, {}, true, Uint8Array.of(97), [1], [, "a"]]) for (const call of [() => new Strings(it), () => found.findList(it)]) assert.throws(call, TypeError);
    for (const it of [-1, 0.5, NaN, Infinity, 2 ** 53, -1n, 2n ** 64n])
        for (const call of [() => found.get(it), () => found.text(it), () => new Strings(["a"], { seed: it })]) assert.throws(call, RangeError);
    for (const it of ["1", null, {}, [1], true]) for (const call of [() => found.get(it), () => found.text(it), () => new Strings(["a"], { seed: it })]) assert.throws(call, TypeError);
    for (const percent of [49, 10001, 0.5, NaN]) assert.throws(() => new Strings(["a"], { percent }), RangeError);
    for (const [strings, second] of [[["a", "a"], 1], [["", ""], 1], [["a", Uint8Array.of(97)], 1], [["ada", "bob", "ada", "bob"], 2]])
        for (const seed of [undefined, 7]) assert.throws(() => new Strings(strings, { seed }), new RangeError(`bitm: strings 0 and ${second} are equal`));
    const gone = new Uint8Array(2);
    structuredClone(gone.buffer, { transfer: [gone.buffer] });
    for (const call of [() => found.find(gone), () => found.findList([gone]), () => new Strings([gone])]) assert.throws(call, TypeError);
});

test("strings are read once, and those that change or free meanwhile break nothing", () => {
    const found = new Strings(["ada", "bob"]), first = new Uint8Array([97, 98]), shared = new Uint8Array(new SharedArrayBuffer(3));
    assert.throws(() => found.findList({ *[Symbol.iterator]() { yield "ada"; found.free(); yield "bob"; } }), /these Strings were freed/);
    const late = new Strings({ *[Symbol.iterator]() { yield first; first[0] = 99; yield shared; } });
    assert.deepEqual([late.has("cb"), late.has("ab"), late.has("\0\0\0")], [true, false, true]);
    class Taking extends Uint8Array {
        get byteLength() { if (first.length) structuredClone(first.buffer, { transfer: [first.buffer] }); return super.byteLength; }
    }
    const before = bitm.memoryUse().used;
    assert.throws(() => new Strings([first, Taking.of(101)]), TypeError);
    assert.equal(bitm.memoryUse().used, before);
});

test("each changed byte is seen, and each prefix; in unchecked blocks a string stands at its number", () => {
    const strings = drawn(9, 5, 5), bytes = new Strings(strings).toBytes();
    spoil(Strings, bytes, 1 / 3, found => {
        const all = Array.from({ length: found.length }, (_, k) => unlessWrong(() => found.get(k)));
        for (const it of [...strings, ...strings.map(word => Uint8Array.of(...word, 1)), ...all]) {
            const number = it && unlessWrong(() => found.find(it));
            if (number !== undefined) assert.deepEqual(found.get(number), it);
        }
        unlessWrong(() => found.findList(strings));
    });
    assert.throws(() => Strings.open("block"), TypeError);
    assert.throws(() => bitm.Dictionary.open(bytes), WrongTables);
    assert.throws(() => Strings.open(new bitm.Dictionary([1, 2]).toBytes()), WrongTables);
});

test("strings that were freed, and memory", () => {
    const before = bitm.memoryUse().used, found = new Strings(["ada", "bob"]), walk = found[Symbol.iterator]();
    found.free();
    found.free();
    assert.equal(found.byteLength, 0);
    const asks = [() => found.find("ada"), () => found.has("ada"), () => found.findList(["ada"]), () => found.get(0), () => found.text(0), () => [...found], () => walk.next(),
        () => found.seed, () => found.check(), () => found.toBytes()];
    for (const ask of asks) assert.throws(ask, /these Strings were freed/);
    assert.throws(() => new Strings(["a", "a"]));
    assert.throws(() => Strings.open(new Uint8Array(800)), WrongTables);
    assert.equal(bitm.memoryUse().used, before);
});
