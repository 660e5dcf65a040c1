// EliasFano beside halving over a plain array.
import assert from "node:assert/strict";
import { test } from "node:test";
import { Tally, bitm, lowerBound, random, sorted } from "./plain.js";

const { EliasFano } = bitm;
const tally = new Tally();

function compare(items, span, many, seed = 11) {
    const s = new EliasFano(items), r = random(seed), n = items.length, plain = Array.from(items);
    const asked = Array.from({ length: many }, (_, k) => (k % 3 === 0 && n ? plain[r() % n] : Math.floor((r() / 2 ** 32) * span * 1.02)));
    for (const x of asked) {
        const low = lowerBound(plain, x), high = lowerBound(plain, x + 1);
        tally.same(s.firstAtLeast(x), low < n ? low : undefined, () => `firstAtLeast ${x}`);
        tally.same(s.lastAtMost(x), high > 0 ? high - 1 : undefined, () => `lastAtMost ${x}`);
        tally.same(s.successor(x), plain[low], () => `successor ${x}`);
        tally.same(s.predecessor(x), plain[high - 1], () => `predecessor ${x}`);
        tally.same(s.has(x), plain[low] === x, () => `has ${x}`);
        tally.same(s.indexOf(x), plain[low] === x ? low : -1, () => `indexOf ${x}`);
        if (n) {
            const k = r() % n;
            tally.same(s.at(k), plain[k], () => `at ${k}`);
            tally.same(s.at(-1 - k), plain.at(-1 - k), () => `at ${-1 - k}`);
        }
    }
    const lists = [Float64Array.from(asked), asked];
    if (span <= 2 ** 32 / 1.03) lists.push(Uint32Array.from(asked));
    for (const queries of lists) {
        const none = queries === asked ? undefined : NaN;
        tally.list(s.firstAtLeastList(queries), asked.map(x => (lowerBound(plain, x) < n ? lowerBound(plain, x) : none)), "firstAtLeastList");
        tally.list(s.lastAtMostList(queries), asked.map(x => (lowerBound(plain, x + 1) > 0 ? lowerBound(plain, x + 1) - 1 : none)), "lastAtMostList");
        tally.list(s.hasList(queries), asked.map(x => (queries === asked ? plain[lowerBound(plain, x)] === x : Number(plain[lowerBound(plain, x)] === x))), "hasList");
    }
    if (n) tally.list(s.atList(Uint32Array.from(asked, x => x % n)), asked.map(x => plain[x % n]), "atList");
    tally.list(s.toFloat64Array(), plain, "toFloat64Array");
    tally.list(s.toBigUint64Array(), plain.map(BigInt), "toBigUint64Array");
    assert.ok(s.check());
    assert.equal(s.at(n), undefined);
    assert.equal(s.at(-1 - n), undefined);
    s.free();
}

test("small sequences of every density", () => {
    compare([], 1000, 20);
    compare([0], 3, 20);
    compare([5, 5, 5, 5], 9, 40);
    for (let k = 2; k < 90; k++) compare(sorted(k * 7, k % 3 ? k * 40 : k * 900, k), k % 3 ? k * 40 : k * 900, 200, k);
});

test("large sequences", () => {
    compare(sorted(100000, 2 ** 40, 5), 2 ** 40, 25000);
    compare(Uint32Array.from(sorted(300000, 3e6, 6)), 3e6, 25000);
    compare(Uint32Array.from(sorted(5000, 2 ** 32, 8)), 2 ** 32 / 1.03, 3000);
    compare(sorted(3000, 2 ** 53 - 1, 7), 2 ** 53 / 1.03, 6000);
    tally.atLeast(1200000);
});

test("numbers up to 2^64 - 1 as BigInts", () => {
    const r = random(3), items = Array.from({ length: 2000 }, () => (BigInt(r()) << 32n) | BigInt(r())).sort((a, b) => (a < b ? -1 : a > b ? 1 : 0));
    items.push(2n ** 64n - 1n);
    const s = new EliasFano(BigUint64Array.from(items)), same = new EliasFano(items);
    for (let k = 0; k < items.length; k++) {
        const it = items[k] < 2n ** 53n ? Number(items[k]) : items[k];
        assert.equal(s.at(k), it);
        assert.equal(same.at(k), it);
        assert.equal(s.has(items[k]), true);
        assert.equal(items[s.firstAtLeast(items[k])], items[k]);
        if (k) assert.equal(s.predecessor(items[k] - 1n), items[k - 1] < 2n ** 53n ? Number(items[k - 1]) : items[k - 1]);
    }
    assert.deepEqual(s.hasList(BigUint64Array.from(items)), new Uint8Array(items.length).fill(1));
    assert.deepEqual(s.toBigUint64Array(), BigUint64Array.from(items));
    assert.deepEqual(s.toArray().map(BigInt), items);
    assert.throws(() => s.toFloat64Array(), RangeError);
    assert.throws(() => s.atList(Float64Array.of(0, 1999)), RangeError);
    assert.equal(s.has(5), false);
    assert.equal(s.lastAtMost(2n ** 64n - 1n), items.length - 1);
});

test("iteration from a value, and intersection", () => {
    const r = random(9);
    for (let round = 0; round < 40; round++) {
        const sets = [900, 3000, 60].map((n, k) => Array.from(sorted(n, 4000, round * 3 + k + 1)));
        const wanted = [...new Set(sets[0])].filter(x => sets.every(it => it.includes(x)));
        const made = sets.map(it => new EliasFano(it));
        assert.deepEqual(made[0].intersection(made[1], made[2]).toArray(), wanted);
        assert.deepEqual(made[0].intersection().toArray(), [...new Set(sets[0])]);
        const x = r() % 4100;
        assert.deepEqual([...made[1].valuesFrom(x)], sets[1].filter(it => it >= x));
        assert.deepEqual([...made[1].values(2500)], sets[1].slice(2500));
        assert.deepEqual([...made[1]], sets[1]);
    }
});

test("numbers that decrease are refused", () => {
    assert.throws(() => new EliasFano([3, 2]), new RangeError("bitm: number 1 (2) is less than number 0 (3)"));
    assert.throws(() => new EliasFano([1, 2, 5, 4, 9]), new RangeError("bitm: number 3 (4) is less than number 2 (5)"));
    assert.throws(() => new EliasFano([1, 2n ** 60n, 5, 4]), new RangeError(`bitm: number 2 (5) is less than number 1 (${2n ** 60n})`));
    assert.throws(() => new EliasFano([2n ** 64n]), RangeError);
});
