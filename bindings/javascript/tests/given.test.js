// What a user gives: arrays of another realm, strings that are not well formed, and options.
import assert from "node:assert/strict";
import { test } from "node:test";
import { runInNewContext } from "node:vm";
import { bitm } from "./plain.js";

const { BitVector, Dictionary, EliasFano, Index, OWN_ROLE, PerfectHash, SparseBits, Strings, TextIndex, Tree, Trie, WaveletMatrix, extend, intersect, open, section } = bitm;

const other = runInNewContext(`({
    of: (kind, items) => new globalThis[kind](items),
    buffer: bytes => Uint8Array.from(bytes).buffer,
    view: bytes => new DataView(Uint8Array.from(bytes).buffer),
    list: items => Array.from(items),
    set: items => new Set(items),
    gone() { const it = new Uint8Array(4); structuredClone(it.buffer, { transfer: [it.buffer] }); return it; },
})`, { structuredClone });
const bytesIn = text => other.of("Uint8Array", new TextEncoder().encode(text));
const DOUBLES = ["Uint32Array", "Float64Array", "Uint8Array", "Uint8ClampedArray", "Uint16Array", "Int8Array", "Int16Array", "Int32Array", "Float32Array"];
const index = Index.fromPositions([1, 3, 4, 6], 7), sequence = new EliasFano([2, 3, 5, 7]);

test("lists of another realm are answered as those of this one", () => {
    assert.ok(!(bytesIn("a") instanceof Uint8Array), "it is of this realm");
    for (const kind of DOUBLES) {
        const ranks = index.rankList(other.of(kind, [0, 4, 7]));
        assert.ok(ranks instanceof Float64Array, kind);
        assert.deepEqual([...ranks], [0, 2, 4]);
        assert.deepEqual(sequence.hasList(other.of(kind, [2, 4])), Uint8Array.of(1, 0));
    }
    assert.deepEqual(index.selectList(other.of("BigUint64Array", [0n, 9n])), BigUint64Array.of(1n, 2n ** 64n - 1n));
    assert.deepEqual(index.selectList(other.list([0, 9])), [1, undefined]);
    const numbers = [3, 1, 4, 1, 5];
    for (const given of [...DOUBLES.map(kind => other.of(kind, numbers)), other.of("BigUint64Array", numbers.map(BigInt)), other.of("BigInt64Array", numbers.map(BigInt)), other.list(numbers)])
        assert.deepEqual([...new WaveletMatrix(given)], numbers);
    assert.deepEqual([...new SparseBits(other.set([1, 5]), 9).ones()], [1, 5]);
    assert.equal(new Dictionary(other.of("Uint32Array", [4, 9])).has(9), true);
    assert.deepEqual([...new Tree(other.of("Uint8Array", [1, 0])).children(0)], [1]);
    assert.deepEqual(intersect(other.list([sequence])), [2, 3, 5, 7]);
    assert.deepEqual([...BitVector.fromBooleans(other.of("Uint8Array", [1, 0]))], [true, false]);
    assert.deepEqual(BitVector.fromPositions(other.of("Uint16Array", [1, 5])).toBytes(), Uint8Array.of(34));
    assert.equal(BitVector.fromWords(other.of("BigUint64Array", [5n])).count(), 2);
});

test("bytes of another realm are strings, words, patterns, keys and files", () => {
    const names = new Strings(other.list([bytesIn("ada"), "bob"])), words = Trie.ofWords([bytesIn("be"), "a"]), text = TextIndex.of(bytesIn("banana"));
    assert.deepEqual([names.has("ada"), names.has(bytesIn("bob")), names.findList([bytesIn("eve")])], [true, true, [undefined]]);
    assert.deepEqual([words.has("be"), words.find(bytesIn("be")), words.longest(bytesIn("bee")).count], [true, 3, 2]);
    assert.equal(new Trie([2, 0, 0], bytesIn("ab")).find("b"), 2);
    assert.deepEqual([text.count(bytesIn("an")), text.findAll(bytesIn("na")), text.text()], [2, [2, 4], "banana"]);
    const keys = new PerfectHash([bytesIn("ada"), "ada"]);
    assert.deepEqual([keys.get(Uint8Array.from(bytesIn("ada"))), keys.get(bytesIn("ada"))], [keys.get(bytesIn("ada")), 1 - keys.get("ada")]);
    for (const given of [other.of("Uint8Array", index.toBytes()), other.buffer(index.toBytes()), other.view(index.toBytes())]) assert.equal(open(given).rank(4), 2);
    const noted = extend(other.buffer(index.toBytes()), other.list([other.list([OWN_ROLE, bytesIn("note")])]));
    assert.deepEqual(section(noted, OWN_ROLE), new TextEncoder().encode("note"));
    assert.equal(BitVector.fromBytes(other.buffer([255])).count(), 8);
});

test("what is no array is none, whatever it says of itself; and a detached buffer is refused", () => {
    const liar = kind => ({ [Symbol.toStringTag]: kind, length: 1, 0: 1, byteLength: 1, byteOffset: 0 });
    for (const it of [liar("Uint8Array"), liar("ArrayBuffer"), liar("SharedArrayBuffer"), Object.create(Uint8Array.prototype), Object.create(ArrayBuffer.prototype)])
        for (const call of [() => open(it), () => BitVector.fromBytes(it), () => TextIndex.of(it), () => new Strings([it]), () => new PerfectHash([it]), () => BitVector.fromWords(it)])
            assert.throws(call, TypeError);
    const gone = other.gone();
    for (const call of [() => index.rankList(gone), () => open(gone), () => TextIndex.of(gone), () => new Strings([gone]), () => new PerfectHash([gone]), () => new PerfectHash(["a"]).get(gone)])
        assert.throws(call, TypeError);
    for (const it of [new DataView(new ArrayBuffer(8)), other.view([1])]) assert.throws(() => BitVector.fromBooleans(it), TypeError);
    for (const it of ["ab", new Uint8Array(0).buffer, 5, null, undefined, {}]) for (const call of [() => new PerfectHash(it), () => new PerfectHash(["a"]).getList(it)]) assert.throws(call, TypeError);
});

const LONE = ["\ud800", "\udfff", "a\ud83d", "\ude00b", "x\ud83dy", "\ude00\ud83d", "😀\ud83d"];

test("a string with a lone surrogate is refused wherever it would become bytes", () => {
    const names = new Strings(["ada"]), words = Trie.ofWords(["be"]), text = TextIndex.of("banana 😀"), numbers = TextIndex.ofLetters([1, 2], 3);
    for (const it of LONE) {
        const calls = [() => new Strings([it]), () => names.find(it), () => names.has(it), () => names.findList(["ada", it]), () => Trie.ofWords(["a", it]), () => words.find(it), () => words.has(it),
            () => words.longest(it), () => new Trie([2, 0, 0], it), () => TextIndex.of(it), ...["count", "has", "locate", "findAll"].flatMap(name => [() => text[name](it), () => numbers[name](it)])];
        for (const call of calls) assert.throws(call, { name: "TypeError", message: /lone surrogate/ }, JSON.stringify(it));
    }
    assert.deepEqual([text.count("😀"), text.count("\ud83d\ude00"), new Strings(["😀"]).has("\ud83d\ude00")], [1, 1, true]);
});

test("keys of a PerfectHash may be any strings, and each NaN is one key", () => {
    const hash = new PerfectHash([...LONE, NaN, 0]), bits = new BigUint64Array(1), doubles = new Float64Array(bits.buffer);
    assert.deepEqual(LONE.map(it => hash.get(it)).concat(hash.get(NaN), hash.get(-0)).sort((a, b) => a - b), [...LONE.keys(), LONE.length, LONE.length + 1]);
    for (const nan of [0x7ff8000000000001n, 0xfff8000000000000n, 0x7ffabcdef0123456n, 0xffffffffffffffffn]) {
        bits[0] = nan;
        assert.equal(hash.get(doubles[0]), hash.get(NaN));
        assert.deepEqual(hash.getList(doubles), [hash.get(NaN)]);
        assert.throws(() => new PerfectHash([NaN, doubles[0]]), /keys 0 and 1 are equal/);
    }
});

test("a byte order mark is a letter like others", () => {
    for (const it of ["\ufeffabc", "a\ufeffbc", "\ufeff", "\ufeff\ufeff"]) {
        const text = TextIndex.of(it), names = new Strings([it]), bytes = new TextEncoder().encode(it);
        assert.equal(text.text(), it);
        assert.equal(names.text(0), it);
        for (let from = 0; from <= it.length; from++) assert.equal(text.text(new TextEncoder().encode(it.slice(0, from)).length), it.slice(from));
        assert.deepEqual(text.slice(), bytes);
    }
});

test("letters that are no bytes are no text", () => {
    assert.throws(() => TextIndex.ofLetters([300, 1], 400).text(), TypeError);
    assert.throws(() => TextIndex.ofLetters([1, 1], 400).text(0, 1), TypeError);
    assert.equal(TextIndex.ofLetters([97, 98], 256).text(), "ab");
    assert.equal(TextIndex.of(Uint8Array.of(255, 97)).text(), "\ufffda");
});

test("options are an object's own properties, each read once", () => {
    const changed = index.toBytes(), block = new Tree([1, 0]).toBytes();
    changed[300] ^= 1;
    const progress = () => assert.fail("it is inherited");
    const inherited = { progress, check: false, sampleLog2: 7, width: 40, quarters: true, hints: true, percent: 10000, seed: 5, step: 1, limit: 0, from: 1, tries: 4, fingerprintBits: 0, ends: 1 };
    Object.assign(Object.prototype, inherited);
    try {
        assert.throws(() => open(changed), bitm.WrongTables);
        assert.throws(() => open(changed, {}), bitm.WrongTables);
        assert.equal(new Index(index.toBitVector()).byteLength, index.byteLength);
        assert.deepEqual([new WaveletMatrix([3]).width, new WaveletMatrix([3], {}).width, new Dictionary([1], {}).seed, new Strings(["a"]).seed], [2, 2, 0, 0]);
        assert.deepEqual([TextIndex.of("aa").locate("a").length, TextIndex.of("aa").locate("a", {}).length, new PerfectHash(["a"]).hasSeeds, new PerfectHash(["a"]).seed], [2, 2, false, 0]);
        assert.equal(new Trie([1, 0], "a").hasEnds, false);
    } finally {
        for (const name of Object.keys(inherited)) delete Object.prototype[name];
    }
    assert.throws(() => open(changed, Object.create({ check: false })), bitm.WrongTables);
    assert.ok(open(changed, runInNewContext("({ check: false })")) instanceof Index);
    let reads = 0;
    const once = name => ({ get [name]() { reads++; return name === "check" ? false : 9; } });
    new Index(index.toBitVector(), once("sampleLog2"));
    Tree.open(block, once("check"));
    TextIndex.of("a", once("step"));
    assert.equal(reads, 3);
});

test("options that are no object are refused, and nothing is lost", () => {
    const block = new Tree([1, 0]).toBytes(), used = bitm.memoryUse().used;
    for (const it of [null, 0, 1, "check", true, 1n, Symbol("check")]) {
        const calls = [() => open(index.toBytes(), it), () => Tree.open(block, it), () => new Index(new BitVector(0), it), () => new WaveletMatrix([1], it), () => new Dictionary([1], it),
            () => new Strings(["a"], it), () => new PerfectHash(["a"], it), () => new Trie([1, 0], "a", it), () => TextIndex.of("a", it), () => TextIndex.ofLetters([0], 1, it)];
        for (const call of calls) assert.throws(call, { name: "TypeError", message: /options must be an object/ });
    }
    assert.ok(bitm.memoryUse().used <= used + 7 * 64, "memory was lost");
});
