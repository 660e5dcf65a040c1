// Tables that are overwritten, and files that are spoilt: errors or wrong ranks, never a trap, never a position that is past
// the end or holds another bit.
import assert from "node:assert/strict";
import { test } from "node:test";
import { bitm, booleans, random, sectionAt, sorted, Tally } from "./plain.js";

const { BitVector, EliasFano, Index, PerfectHash, WrongTables, open } = bitm;
const tally = new Tally();

function answer(call) {
    try {
        return call();
    } catch (it) {
        if (!(it instanceof WrongTables)) throw it;
        return undefined;
    }
}

test("an index over spoilt tables", () => {
    const n = 300000, bits = booleans(n, 5), file = new Index(BitVector.fromBooleans(bits), { sampleLog2: 8 }).toBytes();
    const r = random(3), from = sectionAt(file, 1);
    for (let round = 0; round < 150; round++) {
        const bad = file.slice();
        for (let k = 0; k < 1 + round * 3; k++) bad[from + (r() % (bad.length - from))] = r();
        const x = open(bad, { check: false });
        for (let k = 0; k < 300; k++) {
            const p = r() % n;
            for (const [name, bit] of [["select", true], ["select0", false], ["next", true], ["next0", false], ["previous", true], ["previous0", false]]) {
                const at = answer(() => x[name](p));
                if (at !== undefined) tally.same(bits[at], bit, () => `${name} ${p} is ${at}`);
                if (at !== undefined && name.startsWith("next")) assert.ok(at >= p);
                if (at !== undefined && name.startsWith("prev")) assert.ok(at <= p);
            }
            const rank = answer(() => x.rank(p));
            tally.same(rank === undefined || rank <= p, true, () => `rank ${p} is ${rank}`);
        }
        const asked = Uint32Array.from({ length: 200 }, () => r() % n);
        for (const at of answer(() => x.selectList(asked)) ?? []) if (!Number.isNaN(at)) tally.same(bits[at], true, () => `selectList: ${at}`);
        x.free();
    }
    tally.atLeast(100000);
});

test("a sequence over spoilt parts", () => {
    const n = 20000, file = new EliasFano(sorted(n, 2 ** 40, 3)).toBytes(), r = random(4), from = sectionAt(file, 0);
    for (let round = 0; round < 150; round++) {
        const bad = file.slice();
        for (let k = 0; k < 1 + round * 3; k++) bad[from + (r() % (bad.length - from))] = r();
        const s = open(bad, { check: false });
        for (let k = 0; k < 200; k++) {
            const x = r() * 250;
            for (const name of ["firstAtLeast", "lastAtMost"]) {
                const at = answer(() => s[name](x));
                assert.ok(at === undefined || (at >= 0 && at < n));
            }
            answer(() => s.at(r() % n));
            answer(() => s.has(x));
        }
        const listed = answer(() => s.atList([r() % n]));
        assert.ok(listed === undefined || listed.length === 1);
        assert.throws(() => s.atList([n, 0]), RangeError);
        answer(() => [...s.values(r() % n)].length);
        answer(() => s.intersection(s).length);
        s.free();
    }
});

test("hashes over spoilt parts, with seeds and without", () => {
    const keys = Array.from({ length: 3000 }, (_, k) => `key ${k}`), r = random(5);
    for (const tries of [undefined, 9]) {
        const file = new PerfectHash(keys, { tries, fingerprintBits: 3 }).toBytes();
        for (let round = 0; round < 60; round++) {
            const bad = file.slice();
            for (let k = 0; k < 1 + round * 3; k++) bad[320 + (r() % (bad.length - 320))] = r();
            let h;
            try {
                h = PerfectHash.open(bad, { check: false });
            } catch (it) {
                assert.ok(it instanceof WrongTables, it);
                continue;
            }
            for (const key of keys.slice(0, 300)) {
                const number = answer(() => h.get(key));
                tally.same(number === undefined || (number >= 0 && number < h.length), true, () => `${key} has ${number}`);
            }
            for (const number of answer(() => h.getList(keys)) ?? []) assert.ok(number === undefined || (number >= 0 && number < h.length));
            h.free();
        }
    }
});

/** What no spoilt table may change: a position is inside and has the bit; an index of a sequence is inside. */
function holds(it, n, bits, k) {
    if (it instanceof Index) {
        const one = answer(() => it.select(k % 300)), zero = answer(() => it.select0(k % 500)), next = answer(() => it.next(k % n));
        return (one === undefined || bits[one] === true) && (zero === undefined || bits[zero] === false) &&
            (next === undefined || (bits[next] === true && next >= k % n)) && (answer(() => it.rank(k % n)) ?? 0) <= k % n;
    }
    const first = answer(() => it.firstAtLeast(k % 9000)), last = answer(() => it.lastAtMost(k % 9000));
    answer(() => it.at(k % n));
    answer(() => it.has(k % 9000));
    return (first === undefined || first < n) && (last === undefined || last < n);
}

// A million, which takes a minute or two, by LARGE=1.
const FILES = globalThis.process?.env.LARGE > 0 ? 1000000 : 20000;

test("many files with spoilt tables", () => {
    const n = 900, bits = booleans(n, 2), r = random(8);
    const index = new Index(BitVector.fromBooleans(bits), { sampleLog2: 7 }).toBytes(), sequence = new EliasFano(sorted(300, 9000, 1)).toBytes();
    const files = [[index, sectionAt(index, 1)], [sequence, sectionAt(sequence, 0)]];
    for (let k = 0; k < FILES; k++) {
        const [file, from] = files[k % 2], bad = file.slice();
        for (let change = r() % 12; change >= 0; change--) bad[from + (r() % (bad.length - from))] = r();
        const it = open(bad, { check: false });
        if (!holds(it, k % 2 ? 300 : n, bits, r())) assert.fail(`file ${k} of the seed 8`);
        it.free();
    }
});

test("each byte of a file, each length of it, and drawn bytes", () => {
    const index = new Index(BitVector.fromBooleans(booleans(3000, 1)), { sampleLog2: 7 }).toBytes(), sequence = new EliasFano(sorted(300, 9000, 1)).toBytes();
    const r = random(6);
    for (const file of [index, sequence]) {
        for (let k = 0; k < file.length; k++) assert.throws(() => open(file.subarray(0, k)), WrongTables);
        for (let k = 0; k < file.length; k++)
            for (const change of [1, 128, r() % 255 + 1]) {
                const bad = file.slice();
                bad[k] ^= change;
                assert.throws(() => open(bad), WrongTables);
            }
        for (let k = 0; k < 300; k++) assert.throws(() => open(Uint8Array.from({ length: r() % 900 }, () => r())), WrongTables);
    }
});
