// Files of version 2 of the format, in the folder version2: written by a release before blocks, and read here.
import assert from "node:assert/strict";
import { readFileSync } from "node:fs";
import { test } from "node:test";
import { bitm, counted, random, unlessWrong } from "./plain.js";

const { BitVector, EliasFano, Index, WrongTables, memoryUse, open } = bitm;
const old = name => new Uint8Array(readFileSync(new URL(`version2/${name}`, import.meta.url)));
// What was written.
const BITS = Array.from({ length: 2001 }, (_, k) => (k * k) % 7 < 2 || k % 100 < 10);
const NUMBERS = Array.from({ length: 200 }, (_, k) => 1000 * k + ((k * k) % 1000));
const LENGTHS = { index: 576, sampled_index: 832, sequence: 704 };

test("an index, with samples and without, becomes a block", () => {
    const { rank, ones, zeros } = counted(BITS), from = BitVector.fromBooleans(BITS);
    for (const [name, options] of [["index", {}], ["sampled_index", { sampleLog2: 7 }]]) {
        const file = old(name);
        assert.deepEqual([file.length, file[7]], [LENGTHS[name], 2]);
        for (const check of [true, false]) {
            const it = open(file, { check });
            assert.ok(it instanceof Index && it.check());
            assert.deepEqual([[...it], it.rankList(rank.map((_, k) => k))], [BITS, rank]);
            assert.deepEqual([it.selectList([...ones.keys(), ones.length]), it.select0List([...zeros.keys()])], [[...ones, undefined], zeros]);
            assert.deepEqual(it.toBytes(), new Index(from, options).toBytes());
        }
    }
});

test("a sequence becomes a block", () => {
    const file = old("sequence");
    assert.deepEqual([file.length, file[7]], [LENGTHS.sequence, 2]);
    for (const check of [true, false]) {
        const it = open(file, { check });
        assert.ok(it instanceof EliasFano && it.check());
        assert.deepEqual([...it], NUMBERS);
        assert.deepEqual(it.toBytes(), new EliasFano(NUMBERS).toBytes());
    }
});

test("a file may stand in more bytes, and not in fewer", () => {
    for (const name of Object.keys(LENGTHS)) {
        const file = old(name);
        for (const more of [1, 8, 77]) assert.deepEqual(open(Uint8Array.of(...file, ...new Uint8Array(more))).toBytes(), open(file).toBytes());
        for (let n = 0; n < file.length; n++) assert.throws(() => open(file.subarray(0, n)), WrongTables);
    }
});

test("a changed bit of a header is refused; of a part, what is taken is an index or a sequence that fits", () => {
    for (const name of Object.keys(LENGTHS)) {
        const file = old(name), used = memoryUse().used;
        let refused = 0;
        for (let bit = 0; bit < 8 * file.length; bit++) {
            const changed = file.slice();
            changed[bit >> 3] ^= 1 << (bit & 7);
            const it = unlessWrong(() => open(changed));
            assert.ok(!it || bit >= 8 * 192, `bit ${bit} of the header of ${name}`);
            if (it) assert.ok(it.check());
            else refused++;
            it?.free();
            unlessWrong(() => open(changed, { check: false }))?.free();
        }
        assert.ok(refused > 8 * 192, "no changed part was refused");
        assert.equal(memoryUse().used, used);
    }
});

test("without the check the bits of an index are those that stand there, whatever its tables hold", () => {
    const r = random(6), file = old("sampled_index"), tables = 192 + 256;
    for (let round = 0; round < 50; round++) {
        for (let k = 0; k < 20; k++) file[tables + (r() % (file.length - tables))] = r();
        const it = open(file, { check: false });
        assert.deepEqual([...it], BITS);
        assert.ok(it.check());
        it.free();
    }
    assert.throws(() => open(file), WrongTables);
});

test("a sequence whose parts are spoilt is refused, or numbers that do not fall", () => {
    const r = random(7);
    for (let round = 0; round < 300; round++) {
        const file = old("sequence");
        for (let k = 0; k < 1 + (round % 20); k++) file[192 + (r() % (file.length - 192))] = r();
        const it = unlessWrong(() => open(file, { check: false })), found = it ? [...it] : [];
        assert.ok(found.every((number, k) => k === 0 || number >= found[k - 1]));
        it?.free();
    }
});
