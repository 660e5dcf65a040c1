// A right file of another kind: its error names what the file holds, and is not that of damage.
import assert from "node:assert/strict";
import { readFileSync } from "node:fs";
import { test } from "node:test";
import { bitm } from "./plain.js";

const { BitVector, Dictionary, EliasFano, Index, OtherKind, PerfectHash, SparseBits, Strings, TextIndex, Tree, Trie, WaveletMatrix, WrongTables, open } = bitm;
/** A value of each class, and what a file of it holds. */
const HELD = [
    [new Index(new BitVector(7)), "an index"], [new EliasFano([2, 3, 5]), "a sequence"], [new SparseBits([3, 7], 100), "sparse bits"],
    [new PerfectHash(["a", "b"]), "a perfect hash"], [new PerfectHash(["a", "b"], { tries: 4 }), "a perfect hash"],
    [new Dictionary([4]), "a dictionary"], [new WaveletMatrix([3, 1, 4]), "a wavelet matrix"], [new Tree([2, 0, 0]), "a tree"],
    [TextIndex.of("banana"), "the index of a text"], [Trie.ofWords(["ab"]), "a trie"], [new Strings(["ada", "bob"]), "strings"],
];
const OF_PARTS = ["an index", "a sequence"];
const openedBy = (value, bytes, options) => (value.constructor.open ? value.constructor.open(bytes, options) : open(bytes, options));
const says = (held, wanted) => ({ name: "OtherKind", message: `bitm: it holds ${held}, not ${wanted}` });

test("a file of each kind, opened as each", () => {
    assert.ok(OtherKind.prototype instanceof WrongTables);
    for (const [value, held] of HELD) {
        const bytes = value.toBytes();
        for (const [other, name] of HELD) {
            const both = OF_PARTS.includes(name), wanted = both ? "an index or a sequence" : name;
            if (held === name || (both && OF_PARTS.includes(held))) assert.equal(openedBy(other, bytes).length, value.length);
            else for (const options of [undefined, { check: false }]) assert.throws(() => openedBy(other, bytes, options), says(held, wanted));
        }
    }
});

test("files of version 2", () => {
    for (const [file, held] of [["index", "an index"], ["sequence", "a sequence"]]) {
        const bytes = readFileSync(new URL(`version2/${file}`, import.meta.url));
        for (const Class of [Tree, Strings]) assert.throws(() => Class.open(bytes), says(held, Class === Tree ? "a tree" : "strings"));
    }
});

test("damage of a header, and a kind that is not known, are no other kind", () => {
    for (const [value] of HELD) {
        const bytes = value.toBytes();
        for (let at = 0; at < 128 + 32; at++) {
            bytes[at] ^= 1;
            for (const of of [open, it => Tree.open(it), it => PerfectHash.open(it)]) assert.throws(() => of(bytes), { name: "WrongTables" });
            bytes[at] ^= 1;
        }
    }
    for (const bytes of [new Uint8Array(0), new Uint8Array(192), new Uint8Array(7)]) assert.throws(() => Trie.open(bytes), { name: "WrongTables" });
});
