// Builds that say how far they are: what is called, the same bytes as without, and callbacks that throw or use the package.
import assert from "node:assert/strict";
import { test } from "node:test";
import { bitm } from "./plain.js";

const { BitVector, Dictionary, PerfectHash, Strings, TextIndex, WaveletMatrix, memoryUse } = bitm;
const upTo = n => Array.from({ length: n }, (_, k) => k), texts = n => upTo(n).map(k => `key ${k}`);

/** Builds of n items, by a function of n and options. */
const BUILDS = {
    "a hash": (n, options) => new PerfectHash(texts(n), options),
    "a hash with seeds": (n, options) => new PerfectHash(texts(n), { ...options, tries: 9 }),
    "a hash of the least percent": (n, options) => new PerfectHash(texts(n), { ...options, percent: 50, seed: 2n ** 60n }),
    "a dictionary": (n, options) => new Dictionary(upTo(n), options),
    strings: (n, options) => new Strings(texts(n), options),
    "a matrix": (n, options) => new WaveletMatrix(upTo(n), options),
    "a matrix with quarters": (n, options) => new WaveletMatrix(upTo(n).map(k => (7 * k) % 64), { ...options, width: 7, quarters: true }),
    "a matrix with hints": (n, options) => new WaveletMatrix(upTo(n).map(k => (7 * k) % 64), { ...options, width: 7, hints: true }),
    "a wide matrix": (n, options) => new WaveletMatrix(upTo(n).map(k => BigInt(k) << 50n), { ...options, width: 64 }),
    "a text": (n, options) => TextIndex.of("she sells sea shells ".repeat(n / 20), options),
    "a text of numbers": (n, options) => TextIndex.ofLetters(upTo(n).map(k => (k * k) % 1000), 1000, { ...options, step: 5 }),
};
const STEPS = { "a matrix with quarters": 7, "a matrix with hints": 7, "a wide matrix": 64, "a text": 2, "a text of numbers": 2 };

test("each step is reported, and the last when all is done; the bytes are those without a callback", () => {
    for (const [name, build] of Object.entries(BUILDS)) for (const n of [0, 1, 2, 65, 700]) {
        const said = [], made = build(n, { progress: (...it) => said.push(it) }), plain = build(n, {});
        assert.deepEqual(made.toBytes(), plain.toBytes(), `${name} of ${n}`);
        assert.ok(made.check());
        const total = said[0][1];
        said.forEach(([done, of], k) => assert.ok(of === total && done <= total && done >= (said[k - 1]?.[0] ?? 0), `${name} of ${n}: ${said}`));
        assert.equal(said.at(-1)[0], total, name);
        if (STEPS[name]) assert.deepEqual(said, upTo(STEPS[name]).map(k => [k + 1, STEPS[name]]), name);
        else if (name !== "a matrix") assert.ok(total === n && (n > 0 || said.length === 1), `${name} of ${n}: ${said}`);
        made.free();
        plain.free();
    }
});

test("a callback that throws ends the build, and all is freed", () => {
    const before = memoryUse().used;
    for (const [name, build] of Object.entries(BUILDS)) for (const n of [0, 500]) {
        let steps = 0;
        build(n, { progress: () => steps++ }).free();
        for (let at = 1; at <= steps; at++) {
            const fault = new Error(`step ${at}`);
            let k = 0;
            assert.throws(() => build(n, { progress: () => { if (++k === at) throw fault; } }), it => it === fault, name);
            assert.equal(k, at, name);
        }
        assert.equal(memoryUse().used, before, name);
    }
});

test("a callback may build, free and grow memory, and change what was given", () => {
    const numbers = upTo(300), keys = upTo(300).map(k => Uint8Array.of(k, k >> 8)), given = { PerfectHash: keys, WaveletMatrix: numbers, Dictionary: numbers, Strings: keys };
    for (const [name, items] of Object.entries(given)) {
        const kept = items === keys ? keys.map(it => it.slice()) : [...numbers], wanted = new bitm[name](kept).toBytes();
        const before = memoryUse().used, gone = new BitVector(1000), totals = new Set();
        const it = new bitm[name](items, {
            progress() {
                gone.free();
                for (const build of Object.values(BUILDS)) build(40, { progress() {} }).free();
                totals.add(memoryUse().total);
                if (totals.size === 1) new BitVector(8 * memoryUse().total).free(); // more than is free
                items.forEach((_, k) => { if (items === keys) items[k].fill(0); else items[k] = 0; });
                items.length = 1;
            },
        });
        assert.ok(totals.size > 1, `${name}: memory did not grow`);
        assert.deepEqual(it.toBytes(), wanted, name);
        it.free();
        assert.equal(memoryUse().used, before);
        items.splice(0, 1, ...kept);
    }
    const text = new Uint8Array(300).fill(97);
    const found = TextIndex.of(text, { progress() { text.fill(98); new BitVector(8 * memoryUse().total).free(); } });
    assert.deepEqual([found.count("a"), found.count("b")], [300, 0]);
});

test("equal keys are named where there is a callback too", () => {
    for (const tries of [undefined, 9]) {
        const said = [];
        assert.throws(() => new PerfectHash(["a", "b", "c", "b"], { tries, progress: done => said.push(done) }), new RangeError("bitm: keys 1 and 3 are equal"));
        assert.ok(said.length > 0 && said.every(it => it <= 2), `${said}`);
    }
    assert.throws(() => new Dictionary([7, 5, 7], { progress() {} }), new RangeError("bitm: keys 0 and 2 are equal"));
    assert.throws(() => new Strings(["DfPggx7rn3H", "t_0e0z8MQ6G"], { seed: 0, progress() {} }), new RangeError("bitm: strings 0 and 1 have one hash: take another seed"));
});

test("what is no function is refused", () => {
    for (const build of Object.values(BUILDS)) for (const progress of [null, 1, "done", {}, true, [() => 1], Symbol("a")])
        assert.throws(() => build(9, { progress }), /progress must be a function, and is of type/);
});
