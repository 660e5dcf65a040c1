// Blocks of version 3 of the format, one of each kind: they are opened, checked and asked, and extended as blocks of version 4.
import assert from "node:assert/strict";
import { readFileSync } from "node:fs";
import { test } from "node:test";
import { bitm } from "./plain.js";

const { OWN_ROLE, WrongTables, extend, isWritten, open } = bitm;
const read = name => new Uint8Array(readFileSync(new URL(name, import.meta.url))), file = read("../../tests/version_3.blocks");

/** The blocks, one after another in the file, by how many bytes the header of each says it has. */
const blocks = [];
for (let at = 0; at < file.length; at += blocks.at(-1).length)
    blocks.push(file.slice(at, at + new DataView(file.buffer).getUint32(at + 16, true)));
// A PerfectHash is opened where the package hashed its keys: these of "ada" and "bob" it wrote itself when it wrote version 3.
for (const [kind, name] of [[3, "hash"], [4, "seeded_hash"]]) {
    assert.ok(isWritten(blocks[kind]));
    blocks[kind] = read(`version3/${name}`);
}

/** What opens the blocks, in their order, what is asked, and the answer: bits whose every third is a 1 bit, squares, .. */
const KINDS = [
    [open, it => it.select(5), 15],
    [open, it => it.at(7), 49],
    [bitm.SparseBits.open, it => it.select(7), 49],
    [bitm.PerfectHash.open, it => [it.get("ada") + it.get("bob"), it.get("eve")], [1, undefined]],
    [bitm.PerfectHash.open, it => [it.get("ada") + it.get("bob"), it.get("eve")], [1, undefined]],
    [bitm.Dictionary.open, it => it.keyOf(it.get(49)), 49],
    [bitm.WaveletMatrix.open, it => it.get(4), 5],
    [bitm.Tree.open, it => it.parent(3), 2],
    [bitm.TextIndex.open, it => it.count("ana"), 2],
    [bitm.Trie.open, it => it.find("be"), 3],
    [bitm.Strings.open, it => it.text(it.find("bob")), "bob"],
    [bitm.Strings.open, it => it.text(it.find("bob")), "bob"],
];

test("each kind is opened and answers, and is of version 4 once it is extended", () => {
    assert.equal(blocks.length, KINDS.length);
    KINDS.forEach(([opened, ask, answer], kind) => {
        const old = blocks[kind], noted = extend(old, [[OWN_ROLE, Uint8Array.of(1, 2, 3)]]);
        assert.deepEqual([old[7], noted[7]], [3, 4]);
        for (const block of [old, noted]) {
            const it = opened(block);
            assert.deepEqual([it.check(), isWritten(block), ask(it)], [true, true, answer], `block ${kind}`);
            assert.deepEqual(it.toBytes(), block);
            it.free();
        }
    });
});

test("a block of one version with the checksums of the other is refused", () => {
    KINDS.forEach(([opened], kind) => {
        const other = blocks[kind].slice();
        other[7] = 4;
        assert.ok(!isWritten(other));
        assert.throws(() => opened(other), WrongTables);
    });
});
