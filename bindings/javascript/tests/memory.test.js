// The memory of WebAssembly: what is freed is used again, garbage is freed, and nothing is lost.
import assert from "node:assert/strict";
import { readFileSync } from "node:fs";
import { test } from "node:test";
import { setFlagsFromString } from "node:v8";
import { runInNewContext } from "node:vm";
import { firstFree, wasm } from "../src/core.js";
import { allocate, release } from "../src/memory.js";
import { bitm, random, sorted } from "./plain.js";

const { BitVector, Dictionary, EliasFano, Index, OWN_ROLE, PerfectHash, SparseBits, Strings, TextIndex, Tree, Trie, WaveletMatrix, extend, memoryUse, open } = bitm;

test("blocks of every size, freed in another order", () => {
    const before = memoryUse().used, r = random(5), held = [];
    for (let round = 0; round < 4000; round++) {
        if (held.length > 60 || (r() % 3 === 0 && held.length)) {
            const [[it, n]] = held.splice(r() % held.length, 1);
            assert.equal(it.count(), n, "another block wrote into this one");
            it.free();
        } else {
            const n = r() % 60000;
            held.push([new BitVector(n).fill(), n]);
        }
    }
    held.forEach(([it]) => it.free());
    assert.equal(memoryUse().used, before);
    const total = memoryUse().total;
    for (let k = 0; k < 300; k++) new BitVector(8e6).free();
    assert.ok(memoryUse().total - total < 3e6, "freed memory was not used again");
});

test("a call that throws gives its memory back", () => {
    const before = memoryUse().used;
    const x = new Index(new BitVector(100)), there = memoryUse().used;
    for (let k = 0; k < 50; k++) {
        assert.throws(() => x.rankList([0, -1]));
        assert.throws(() => x.rankList([0, 101]));
        assert.throws(() => new EliasFano([3, 2, 1]));
        assert.throws(() => BitVector.fromPositions([1, -1]));
        assert.throws(() => new PerfectHash(["a", "b", "a"]));
        assert.throws(() => bitm.open(new Uint8Array(1000)));
    }
    assert.equal(memoryUse().used, there);
    assert.ok(before < there);
});

test("calls that combine free what they need for themselves, and what they made if they fail", () => {
    const n = 100000, v = new BitVector(n).fill(true, 5, 900), w = new BitVector(n).fill(), other = new BitVector(n + 1), gone = new BitVector(n), used = memoryUse().used;
    gone.free();
    const there = memoryUse().used;
    assert.ok(there < used);
    const refused = [0, null, {}, other, gone];
    for (const name of ["and", "or", "xor", "andNot", "intersection", "union", "symmetricDifference", "difference", "countIntersection", "countUnion", "countDifference", "countSymmetricDifference"])
        for (const it of refused) assert.throws(() => v[name](it), it === other ? RangeError : TypeError, name);
    for (const call of [() => v.setRange(7, v, 0, n), () => v.setRange(0, gone, 0, 1), () => v.slice(5, n + 1), () => gone.slice(0, 9), () => gone.clone(), () => BitVector.fromBytes(new Uint8Array(9), 73)]) assert.throws(call);
    assert.deepEqual([v.setRange(3, v, 0, n - 3).count(), v.setRange(0, v, 3).count(), v.clone().xor(v).count()], [895, 895, 0]);
    assert.equal(memoryUse().used, there + 64 * Math.ceil(w.byteLength / 64), "the clone is not freed yet");
});

test("a loop that makes nothing, or frees what it makes, takes no memory however long it is", () => {
    const n = 2 ** 20, a = new BitVector(n).fill(), b = new BitVector(n).fill(true, 0, 1000), s = new EliasFano([1, 5, 9]), t = new EliasFano([5, 9, 11]);
    const { total, used } = memoryUse(), turns = 5000; // 5000 vectors of 128 KiB would take 640 MB
    let sum = 0;
    for (let k = 0; k < turns; k++) sum += a.countIntersection(b) + s.countUnion(t);
    for (let k = 0; k < turns; k++) {
        const both = a.intersection(b), shared = s.intersection(t);
        sum += both.count() + shared.length;
        both.free();
        shared.free();
    }
    assert.equal(sum, turns * (1000 + 4 + 1000 + 2));
    assert.equal(memoryUse().used, used);
    assert.ok(memoryUse().total <= total + 2 ** 20, "memory grew");
});

/** Takes all memory that is free, and runs body(give) where it does not grow: give(bytes, call) runs a call with that much. */
function withoutMemory(body) {
    const { memory } = wasm, taken = [];
    memory.grow = () => { throw new RangeError("none"); };
    try {
        for (let bytes = memory.buffer.byteLength; bytes >= 64; bytes /= 2)
            while (memoryUse().total - memoryUse().used - firstFree >= bytes) {
                try {
                    taken.push([allocate(bytes), bytes]);
                } catch {
                    break;
                }
            }
        const hole = taken.shift();
        release(...hole);
        body(hole[1], (bytes, call) => {
            const rest = allocate(hole[1] - bytes);
            try {
                return call();
            } finally {
                release(rest, hole[1] - bytes);
            }
        });
    } finally {
        delete memory.grow;
        taken.forEach(it => release(...it));
    }
}

test("where memory ends, the error says what to do, and a hole of nearly the size is found", () => {
    withoutMemory((most, give) => {
        const says = { name: "RangeError", message: /^bitm: no memory for \d+ bytes more\. .*free\(\).*`using`/ };
        assert.throws(() => new BitVector(8 * most + 8), says);
        for (const bytes of [64, 640, 6400, 64000]) {
            assert.throws(() => give(bytes, () => new BitVector(8 * bytes + 1)), says);
            for (const bits of [8 * bytes, 8 * bytes - 511]) give(bytes, () => new BitVector(bits).fill().free());
        }
    });
    assert.throws(() => new BitVector(2 ** 45), /free\(\)/);
});

const texts = Array.from({ length: 1600 }, (_, k) => `text ${k}`), numbers = sorted(2000, 1e6, 3), block = Index.fromPositions([5], 9000, { sampleLog2: 7 }).toBytes();
const version2 = new Uint8Array(readFileSync(new URL("version2/sampled_index", import.meta.url)));
const v = new BitVector(9000).fill(true, 3, 700), w = new BitVector(9000).fill(), s = new EliasFano(numbers), names = new Strings(texts), long = "x".repeat(20000), x = new Index(v);
const progress = () => {}, hash = new PerfectHash(["ada"]);
/** Calls of each kind, of which each takes memory, and so has to be refused where there is none. */
const CALLS = [() => new BitVector(9000), () => BitVector.fromPositions(numbers), () => v.intersection(w), () => v.complement().free(), () => new Index(v), () => new Index(v, { sampleLog2: 8 }),
    () => new EliasFano(numbers), () => s.union(s), () => s.countIntersection(s), () => new SparseBits([1, 5000]), () => new PerfectHash(texts), () => new PerfectHash(texts, { tries: 5 }),
    () => new Dictionary([...numbers.keys()]), () => new Strings(texts), () => names.findList(texts), () => names.find(long), () => new Tree([1, 1, 0]), () => Trie.ofWords(texts), () => new WaveletMatrix(numbers),
    () => TextIndex.of(long.slice(0, 3000)), () => TextIndex.ofLetters([1, 2], 3), () => s.cursor(), () => v.clone().setRange(1, v, 0, 90), () => x.toBitVector(), () => open(block), () => open(version2), () => w.toPositions(),
    () => extend(block, [[OWN_ROLE, new Uint8Array(30000)]]), () => new PerfectHash(texts, { progress }), () => new PerfectHash(texts, { progress, tries: 5 }), () => hash.get(long),
    () => new Dictionary([...numbers.keys()], { progress }), () => new Strings(texts, { progress }), () => new WaveletMatrix(numbers, { progress }), () => TextIndex.of(long.slice(0, 3000), { progress }),
    () => TextIndex.ofLetters([1, 2], 3, { progress })];

test("each allocation is refused in turn: a call has its answer, or RangeError, and loses no memory", () => {
    withoutMemory((most, give) => {
        assert.ok(most > 2 ** 19, "the calls have memory enough in the end");
        for (const call of CALLS) {
            let refused = 0, bytes = 0;
            for (let isDone = false; !isDone; bytes += 64 * (1 + (bytes >> 9))) {
                const { used } = memoryUse();
                try {
                    const got = give(bytes, call);
                    got?.free?.();
                    isDone = true;
                } catch (it) {
                    assert.ok(it instanceof RangeError && /no memory/.test(it.message), it);
                    refused++;
                }
                if (!isDone) assert.equal(memoryUse().used, used, `${call} lost memory with ${bytes} bytes`);
            }
            assert.ok(refused > 0, `${call} takes no memory`);
        }
    });
});

/** Has garbage collected until it has given back all its memory: none for twenty turns. A busy engine frees late. */
async function settled() {
    setFlagsFromString("--expose-gc");
    const collect = runInNewContext("gc");
    for (let same = 0; same < 20; ) {
        const used = memoryUse().used;
        collect();
        await new Promise(done => setTimeout(done, 5));
        same = memoryUse().used === used ? same + 1 : 0;
    }
    return collect;
}

test("garbage is freed", async () => {
    const collect = await settled(), before = memoryUse().used;
    for (let k = 0; k < 200; k++) {
        new Index(BitVector.fromPositions([k], 1e6));
        new EliasFano(sorted(100, 1000, k + 1));
        new PerfectHash([k]);
    }
    for (let k = 0; k < 2000 && memoryUse().used > before; k++) {
        collect();
        await new Promise(done => setTimeout(done, 5));
    }
    assert.ok(memoryUse().used <= before, `${memoryUse().used} bytes are more than ${before}`);
});

test("what was freed by hand is not freed again as garbage", async () => {
    const collect = await settled(), before = memoryUse().used;
    for (let k = 0; k < 300; k++) new BitVector(3000).free();
    const held = Array.from({ length: 300 }, (_, k) => new BitVector(3000).fill(true, 0, k)), there = memoryUse().used;
    for (let k = 0; k < 20; k++) {
        collect();
        await new Promise(done => setTimeout(done, 5));
    }
    assert.equal(memoryUse().used, there);
    const more = Array.from({ length: 300 }, () => new BitVector(3000).fill());
    held.forEach((it, k) => assert.equal(it.count(), k, "another vector wrote into this one"));
    [...held, ...more].forEach(it => it.free());
    assert.equal(memoryUse().used, before);
});

test("a value stays while one iterates over it", async () => {
    setFlagsFromString("--expose-gc");
    const collect = runInNewContext("gc"), walk = (() => new EliasFano(Array.from({ length: 5000 }, (_, k) => 3 * k)).values())();
    for (let k = 0; k < 5000; k++) {
        if (k % 500 === 0) {
            collect();
            await new Promise(done => setTimeout(done, 1));
        }
        assert.equal(walk.next().value, 3 * k);
    }
});

test("using, where the engine knows Symbol.dispose", () => {
    if (!Symbol.dispose) return;
    const v = new BitVector(9);
    v[Symbol.dispose]();
    assert.throws(() => v.get(0), TypeError);
});
