// Sections of a caller's own in the blocks of each kind, beside the kinds as they were; blocks and arguments that are wrong.
import assert from "node:assert/strict";
import { test } from "node:test";
import { Worker } from "node:worker_threads";
import { Tally, bitm, random } from "./plain.js";

const { OWN_ROLE, WrongTables, extend, isWritten, section, sections } = bitm;
const tally = new Tally(), MOST = 2n ** 64n - 1n;

/** A value over a block of each kind, and what it is asked. */
const KINDS = [
    [bitm.Tree, new bitm.Tree([2, 0, 1, 0]), it => it.parent(3)],
    [bitm.Trie, bitm.Trie.ofWords(["be", "a", "b"]), it => it.find("be")],
    [bitm.SparseBits, new bitm.SparseBits([3, 100, 101, 4000], 5000), it => it.select(3)],
    [bitm.Dictionary, new bitm.Dictionary([4, 9, 49]), it => it.getList([4, 9, 49, 50])],
    [bitm.Strings, new bitm.Strings(["ada", "bob", ""]), it => it.findList(["ada", "bob", "", "a"])],
    [bitm.PerfectHash, new bitm.PerfectHash(["a", "b"], { tries: 3 }), it => it.getList(["a", "b", "c"])],
    [bitm.PerfectHash, new bitm.PerfectHash(["a", "b"]), it => it.getList(["a", "b", "c"])],
    [bitm.WaveletMatrix, new bitm.WaveletMatrix([3, 1, 4, 1, 5]), it => it.quantile(2)],
    [bitm.WaveletMatrix, new bitm.WaveletMatrix([3, 1, 4], { quarters: true }), it => it.get(2)],
    [bitm.WaveletMatrix, new bitm.WaveletMatrix([3, 1, 4], { hints: true }), it => it.select(4, 0)],
    [bitm.TextIndex, bitm.TextIndex.of("banana"), it => it.findAll("ana")],
];
const drawn = (n, seed) => Uint8Array.from({ length: n }, random(seed));

test("each kind opens as before with sections of every length, and these are what was given", () => {
    for (const [Kind, value, ask] of KINDS) {
        const block = value.toBytes(), own = sections(block);
        for (const n of [0, 1, 7, 8, 9, 64, 1000]) {
            const noted = extend(block, [[OWN_ROLE, drawn(n, n + 1)], [MOST, drawn(n, 3)]]), again = Kind.open(noted), all = sections(noted);
            assert.deepEqual(ask(again), ask(value));
            assert.deepEqual([again.check(), isWritten(noted), noted.length % 8], [true, true, 0]);
            assert.deepEqual(all.slice(0, own.length), own);
            assert.deepEqual(all.slice(own.length), [[OWN_ROLE, drawn(n, n + 1)], [MOST, drawn(n, 3)]]);
            tally.list(section(noted, OWN_ROLE), drawn(n, n + 1), "a section");
            tally.list(section(noted, MOST), drawn(n, 3), "a section");
            assert.deepEqual(extend(extend(block, [[OWN_ROLE, drawn(n, n + 1)]]), [[MOST, drawn(n, 3)]]), noted);
            assert.deepEqual(again.toBytes(), noted);
            again.free();
        }
        assert.deepEqual(extend(block, []), block);
        assert.equal(section(block, OWN_ROLE), undefined);
    }
    tally.atLeast(20000);
});

test("items of four bytes, of eight and of one", () => {
    const block = new bitm.Tree([0]).toBytes(), halves = Uint32Array.of(1, 2, 2 ** 32 - 1), whole = BigUint64Array.of(5n, MOST);
    const noted = extend(block, new Map([[7, halves], [8n, halves.subarray(1)], [15, Uint8Array.of(1, 2, 3)], [99, whole], [OWN_ROLE, whole]]));
    assert.deepEqual([7, 8, 15, 99, OWN_ROLE].map(it => section(noted, it)), [halves, halves.slice(1), Uint8Array.of(1, 2, 3), whole, new Uint8Array(whole.buffer)]);
    assert.deepEqual(section(noted, 1), sections(block)[0][1]);
    assert.deepEqual(extend(block, sections(noted).slice(4)), noted);
    for (const [role, n] of [[7, 3], [8, 5], [99, 4], [0, 1]]) assert.throws(() => extend(block, [[role, new Uint8Array(n)]]), RangeError);
    const two = extend(block, [[OWN_ROLE, Uint8Array.of(1)], [OWN_ROLE, Uint8Array.of(2)]]);
    assert.deepEqual([section(two, OWN_ROLE), sections(two).length], [Uint8Array.of(1), 6]);
});

test("every way to hand items and blocks over", () => {
    const block = new bitm.Tree([2, 0, 0]).toBytes(), shared = new Uint8Array(new SharedArrayBuffer(block.length)), wide = new Uint8Array(block.length + 9);
    shared.set(block);
    wide.set(block, 5);
    const wanted = extend(block, [[OWN_ROLE, Uint8Array.of(1, 2)]]);
    for (const it of [block.buffer, new DataView(block.buffer), shared, shared.buffer, wide.subarray(5, 5 + block.length), Buffer.from(block)]) {
        for (const items of [Uint8Array.of(1, 2).buffer, new DataView(Uint8Array.of(1, 2).buffer), Uint16Array.of(513), Buffer.from([1, 2])])
            assert.deepEqual(extend(it, [[OWN_ROLE, items]]), wanted);
        assert.deepEqual([isWritten(it), sections(it).length, section(it, OWN_ROLE)], [true, 4, undefined]);
    }
    assert.deepEqual(extend(block, [[OWN_ROLE, block]]).slice(-block.length), block);
    assert.deepEqual(section(extend(block, [[OWN_ROLE, block]]), OWN_ROLE), block);
});

test("sixteen sections, and no more", () => {
    let block = new bitm.Tree([0]).toBytes();
    for (let k = 4; k < 16; k++) {
        assert.equal(sections(block).length, k);
        block = extend(block, [[OWN_ROLE + k, Uint8Array.of(k)]]);
    }
    assert.throws(() => extend(block, [[OWN_ROLE, new Uint8Array(0)]]), RangeError);
    assert.throws(() => extend(new bitm.Tree([0]).toBytes(), Array.from({ length: 13 }, () => [OWN_ROLE, new Uint8Array(0)])), RangeError);
    assert.deepEqual(Array.from({ length: 12 }, (_, k) => section(block, OWN_ROLE + k + 4)[0]), Array.from({ length: 12 }, (_, k) => k + 4));
    assert.equal(bitm.Tree.open(block).length, 1);
});

test("each changed byte is seen, each prefix and each byte more", () => {
    const block = extend(bitm.Trie.ofWords(["be", "a"]).toBytes(), [[OWN_ROLE, Uint8Array.of(1, 2, 3)]]), all = sections(block).length;
    for (let at = 0; at < block.length; at++) {
        const changed = block.slice();
        changed[at] ^= 1 << at % 8;
        assert.equal(isWritten(changed), false, `byte ${at}`);
        for (const added of [[[OWN_ROLE, Uint8Array.of(1)]], []]) assert.throws(() => extend(changed, added), WrongTables, `byte ${at}`);
        try {
            assert.equal(sections(changed).length, all);
        } catch (it) {
            assert.ok(it instanceof WrongTables && at < 384, it);
        }
    }
    for (let n = 0; n < block.length; n++) {
        const less = block.subarray(0, n);
        assert.equal(isWritten(less), false);
        for (const call of [() => sections(less), () => section(less, 1), () => extend(less, [[OWN_ROLE, new Uint8Array(1)]]), () => extend(less, [])]) assert.throws(call, WrongTables);
    }
    for (const more of [1, 8]) assert.equal(isWritten(Uint8Array.from([...block, ...new Uint8Array(more)])), false);
    const r = random(9);
    for (let k = 0; k < 300; k++) {
        const bytes = Uint8Array.from({ length: 8 * (r() % 90) }, () => r());
        assert.equal(isWritten(bytes), false);
        assert.throws(() => sections(bytes), WrongTables);
    }
});

test("arguments that are wrong", () => {
    const block = new bitm.Tree([0]).toBytes(), before = bitm.memoryUse().used, gone = new Uint8Array(8);
    structuredClone(gone.buffer, { transfer: [gone.buffer] });
    for (const it of [undefined, null, 5, "block", [1], {}, new bitm.Tree([0]), gone]) {
        for (const call of [() => isWritten(it), () => sections(it), () => section(it, 1), () => extend(it, []), () => extend(it, [[OWN_ROLE, block]])]) assert.throws(call, TypeError);
        assert.throws(() => extend(block, [[OWN_ROLE, it]]), TypeError);
    }
    for (const it of [undefined, null, 5, "ab", {}, { 65536: block }, [5], ["ab"], [null], [[OWN_ROLE]], [[]], new DataView(block.buffer)]) assert.throws(() => extend(block, it), TypeError);
    for (const role of ["7", null, undefined, {}, [7], true]) for (const call of [() => section(block, role), () => extend(block, [[role, block]])]) assert.throws(call, TypeError);
    for (const role of [-1, 0.5, NaN, Infinity, 2 ** 53, -1n, 2n ** 64n]) for (const call of [() => section(block, role), () => extend(block, [[role, block]])]) assert.throws(call, RangeError);
    assert.throws(() => extend(new Uint8Array(200), [[OWN_ROLE, block]]), WrongTables);
    assert.ok(bitm.memoryUse().used <= before + 1024, "a call that throws gives its memory back");
});

test("an iterable that changes or detaches what is read", () => {
    const block = new bitm.Tree([0]).toBytes(), first = Uint8Array.of(1, 2), late = block.slice();
    const changing = { *[Symbol.iterator]() { yield [OWN_ROLE, first]; first[0] = 9; yield [OWN_ROLE + 1, first]; } };
    const noted = extend(block, changing);
    assert.deepEqual([section(noted, OWN_ROLE), section(noted, OWN_ROLE + 1)], [Uint8Array.of(1, 2), Uint8Array.of(9, 2)]);
    assert.throws(() => extend(late, { *[Symbol.iterator]() { structuredClone(late.buffer, { transfer: [late.buffer] }); yield [OWN_ROLE, first]; } }), TypeError);
    class Taking extends Uint8Array {
        get byteLength() { if (first.length) structuredClone(first.buffer, { transfer: [first.buffer] }); return super.byteLength; }
    }
    assert.deepEqual(section(extend(block, [[OWN_ROLE, Taking.of(5)]]), OWN_ROLE), Uint8Array.of(5));
});

test("a block that a worker writes meanwhile: right, or refused", async () => {
    const block = extend(new bitm.Tree([2, 0, 0]).toBytes(), [[OWN_ROLE, new Uint8Array(1 << 16)]]), shared = new Uint8Array(new SharedArrayBuffer(block.length));
    shared.set(block);
    const worker = new Worker("const { workerData: it, parentPort } = require('node:worker_threads'); parentPort.postMessage(0); for (let k = 0; k < 3e7; k++) it[(k * 4099) % it.length] ^= 255;", { eval: true, workerData: shared });
    await new Promise(done => worker.once("message", done));
    for (let k = 0; k < 300; k++) {
        for (const call of [() => extend(shared, [[OWN_ROLE, shared.subarray(0, 9)]]), () => sections(shared), () => isWritten(shared)]) {
            try {
                call();
            } catch (it) {
                assert.ok(it instanceof WrongTables, it);
            }
        }
    }
    await worker.terminate();
});
