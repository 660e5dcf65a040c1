// Files: written and opened here; and the same bytes as the C library writes for the same bits and numbers.
import assert from "node:assert/strict";
import { mkdtempSync, readFileSync, rmSync } from "node:fs";
import { tmpdir } from "node:os";
import { join } from "node:path";
import { test } from "node:test";
import { runInNewContext } from "node:vm";
import { Worker } from "node:worker_threads";
import { calls, bytesAt, wordsAt } from "../src/core.js";
import { withRoom } from "../src/memory.js";
import { bitm, booleans, counted, random, sorted, unlessWrong } from "./plain.js";
import { read, write } from "./stored_format.js";

const { BitVector, EliasFano, Index, WrongTables, open } = bitm;

test("a folder of files, written and read", () => {
    const folder = mkdtempSync(join(tmpdir(), "bitm-js-"));
    try {
        write(folder);
        read(folder);
        const again = open(readFileSync(`${folder}/index`));
        assert.deepEqual(again.toBytes(), new Uint8Array(readFileSync(`${folder}/index`)));
    } finally {
        rmSync(folder, { recursive: true });
    }
});

test("every way to hand bytes over", () => {
    const x = new Index(BitVector.fromBooleans(booleans(5000, 1))), bytes = x.toBytes(), wide = new Uint8Array(bytes.length + 77);
    wide.set(bytes, 5);
    const shared = new SharedArrayBuffer(bytes.length);
    new Uint8Array(shared).set(bytes);
    const elsewhere = runInNewContext("new ArrayBuffer(size)", { size: bytes.length });
    new Uint8Array(elsewhere).set(bytes);
    for (const it of [elsewhere, bytes, bytes.buffer, new DataView(bytes.buffer), wide.subarray(5, 5 + bytes.length), shared, Buffer.from(bytes), new Float64Array(bytes.buffer)]) {
        const y = open(it);
        assert.equal(y.rank(4999), x.rank(4999));
        assert.deepEqual(y.toBytes(), bytes);
    }
    assert.throws(() => open(wide.subarray(5)), WrongTables, "more bytes than the block has");
});

test("an empty index and an empty sequence", () => {
    assert.equal(open(new Index(new BitVector(0)).toBytes()).length, 0);
    assert.equal(open(new EliasFano([]).toBytes()).length, 0);
});

test("a worker opens what was built here", async () => {
    const items = sorted(1000, 1e9, 2), bytes = new EliasFano(items).toBytes(), from = new URL("../src/node.js", import.meta.url).href;
    const body = `const { parentPort, workerData } = require("node:worker_threads");
        import(workerData.from).then(({ open }) => parentPort.postMessage(open(workerData.bytes).toFloat64Array()));`;
    const worker = new Worker(body, { eval: true, workerData: { from, bytes } });
    const got = await new Promise((done, fail) => worker.once("message", done).once("error", fail));
    await worker.terminate();
    assert.deepEqual(got, items);
});

/** The block of words that the library builds: build(at, n, block, size) calls it. */
function built(words, size, build) {
    return withRoom(8 * (words.length + size), at => {
        const block = at + 8 * words.length;
        wordsAt(at, words.length).set(words);
        assert.equal(build(at, words.length, block, size), 0);
        return bytesAt(block, 8 * size).slice();
    });
}

const ofBits = it => built(it.toWords(), calls.bitm_index_block_size(it.length), (at, n, ...block) => calls.bitm_index_block_build(at, n, it.length, ...block));
const ofNumbers = it => built(BigUint64Array.from(it, BigInt), calls.bitm_sequence_block_size(it.length, it.at(-1) ?? 0), calls.bitm_sequence_block_build);

test("blocks of an index and of a sequence", () => {
    for (const n of [0, 1, 64, 5000]) {
        const bits = booleans(n, n + 1), { rank, ones, zeros } = counted(bits), block = ofBits(BitVector.fromBooleans(bits)), index = open(block);
        assert.ok(index instanceof Index && index.check());
        assert.deepEqual([index.length, index.byteLength], [n, block.length]);
        assert.deepEqual(index.rankList(rank.map((_, k) => k)), rank);
        assert.deepEqual([[...index], [...index.ones()], [...index.zeros()]], [bits, ones, zeros]);
        assert.deepEqual([...index.toBitVector()], bits);
        assert.deepEqual(index.toBytes(), block);
        const items = Array.from(sorted(n, 1e9, n + 1)), own = ofNumbers(items), sequence = open(own);
        assert.ok(sequence instanceof EliasFano && sequence.check());
        assert.deepEqual([...sequence], items);
        items.forEach((it, k) => assert.equal(sequence.at(sequence.firstAtLeast(it)), it, `number ${k}`));
        assert.deepEqual(sequence.toBytes(), own);
        assert.equal(open(block, { check: false }).length, n);
    }
});

test("blocks of which a byte was changed, or some cut off", () => {
    const bits = booleans(900, 3), r = random(4);
    for (const block of [ofBits(BitVector.fromBooleans(bits)), ofNumbers(Array.from(sorted(60, 900, 4)))]) {
        let opened = 0;
        for (let at = 0; at < block.length; at++) {
            const changed = block.slice();
            changed[at] ^= 1 << r() % 8;
            assert.throws(() => open(changed), WrongTables, `byte ${at}`);
            const it = unlessWrong(() => open(changed, { check: false }));
            if (!it) continue;
            opened++;
            for (const name of ["select", "select0", "next", "previous", "firstAtLeast", "lastAtMost"]) {
                const found = unlessWrong(() => it[name]?.(r() % 900));
                if (found !== undefined) assert.ok(it instanceof Index ? it.get(found) === (name !== "select0") : found < 60);
            }
            it.free();
        }
        assert.ok(opened > 0, "no changed block was opened");
        for (let n = 0; n < block.length; n++) assert.throws(() => open(block.subarray(0, n)), WrongTables);
        assert.throws(() => open(Uint8Array.from([...block, 0])), WrongTables);
        assert.throws(() => bitm.Tree.open(block), WrongTables);
    }
});
