// What console.log shows of a value, and that JSON has none of it.
import assert from "node:assert/strict";
import { test } from "node:test";
import { inspect } from "node:util";
import { bitm } from "./plain.js";

const { BitVector, Dictionary, EliasFano, Index, PerfectHash, SparseBits, Strings, TextIndex, Tree, Trie, WaveletMatrix, open } = bitm;
const bits = BitVector.fromPositions([1, 2, 3, 50, 99], 100), sequence = new EliasFano([2, 3, 5]);
const SHOWN = [
    [bits, "BitVector { bits: 100, ones: 5 }"],
    [new Index(bits), "Index { bits: 100, ones: 5 }"],
    [new SparseBits([3, 7], 2 ** 40), "SparseBits { bits: 1099511627776, ones: 2 }"],
    [sequence, "EliasFano { numbers: 3 }"],
    [sequence.cursor(), "Cursor { index: 0, number: 2 }"],
    [new PerfectHash(["a", "b"]), "PerfectHash { keys: 2, width: 16 }"],
    [new Dictionary([4]), "Dictionary { keys: 1 }"],
    [new Strings(["ada", "bob"]), "Strings { strings: 2 }"],
    [new Tree([2, 0, 0]), "Tree { nodes: 3 }"],
    [Trie.ofWords(["ab"]), "Trie { nodes: 3, width: 8 }"],
    [new WaveletMatrix([3, 1, 4]), "WaveletMatrix { numbers: 3, width: 3 }"],
    [TextIndex.of("banana"), "TextIndex { letters: 6, width: 2 }"],
];

test("a value is shown by what it is, also in another, and after free()", () => {
    for (const [it, text] of SHOWN) {
        const name = text.split(" ")[0];
        assert.equal(inspect(it), text);
        assert.equal(inspect({ a: [it] }), `{ a: [ ${text} ] }`);
        assert.equal(inspect({ a: { b: { c: { d: it } } } }, { depth: 3, compact: 9, breakLength: 200 }), `{ a: { b: { c: { d: [${name}] } } } }`);
        assert.ok(inspect(it, { colors: true }).startsWith(`${name} {`));
    }
    const index = new Index(bits), cursor = sequence.cursor();
    index.free();
    cursor.free();
    assert.equal(inspect(index), "Index (freed)");
    assert.equal(inspect(cursor), "Cursor (freed)");
    for (const [it, text] of SHOWN.slice(2)) {
        it.free();
        assert.equal(inspect(it), `${text.split(" ")[0]} (freed)`);
    }
    const none = new EliasFano([]), empty = new BitVector(9);
    none.free();
    empty.free();
    assert.deepEqual([inspect(none), inspect(empty)], ["EliasFano (freed)", "BitVector (freed)"]);
    assert.deepEqual([inspect(new BitVector(0)), inspect(new EliasFano([]))], ["BitVector { bits: 0, ones: 0 }", "EliasFano { numbers: 0 }"]);
});

test("a value over wrong tables is shown", () => {
    const bytes = new Index(BitVector.fromPositions([1, 500], 1000)).toBytes();
    for (let at = 256; at < bytes.length; at++) bytes[at] ^= 255;
    assert.match(inspect(open(bytes, { check: false })), /^Index [{(]/);
});

test("JSON of a value is an error that says what to keep", () => {
    for (const [it, text] of SHOWN) {
        const says = { name: "TypeError", message: new RegExp(`the class ${text.split(" ")[0]} has no JSON: keep .*toBytes\\(\\)`) };
        assert.throws(() => JSON.stringify(it), says);
        assert.throws(() => JSON.stringify({ a: [it] }), says);
    }
    assert.deepEqual(Object.keys(bits).concat(...Object.entries(new Index(bits))), [], "nothing of it is enumerable");
});
