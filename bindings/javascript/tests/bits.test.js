// BitVector and Index beside plain counting.
import assert from "node:assert/strict";
import { test } from "node:test";
import { Tally, bitm, booleans, counted, random } from "./plain.js";

const { BitVector, Index } = bitm;
const tally = new Tally();

function singles(bits, index, vector, all, r) {
    const n = bits.length, { rank, ones, zeros } = all, many = Math.min(n + 1, 4000);
    for (let k = 0; k < many; k++) {
        const p = many > n ? k : r() % (n + 1), what = name => () => `${name} ${p} of ${n}`;
        tally.same(index.rank(p), rank[p], what("rank"));
        tally.same(index.rank0(p), p - rank[p], what("rank0"));
        tally.same(index.select(p), ones[p], what("select"));
        tally.same(index.select0(p), zeros[p], what("select0"));
        tally.same(index.next(p), ones[rank[p]], what("next"));
        tally.same(index.next0(p), zeros[p - rank[p]], what("next0"));
        const upTo = p < n ? rank[p + 1] : rank[n], upTo0 = p < n ? p + 1 - upTo : n - upTo;
        tally.same(index.previous(p), ones[upTo - 1], what("previous"));
        tally.same(index.previous0(p), zeros[upTo0 - 1], what("previous0"));
        for (const name of ["next", "next0", "previous", "previous0"]) tally.same(vector[name](p), index[name](p), what(`vector ${name}`));
        if (p < n) {
            tally.same(index.get(p), bits[p], what("get"));
            tally.same(vector.get(p), bits[p], what("vector get"));
        }
        tally.same(vector.count(0, p), rank[p], what("count"));
        tally.same(vector.count0(p, n), n - p - (rank[n] - rank[p]), what("count0"));
    }
}

function lists(bits, index, { rank, ones, zeros }, r, many) {
    const n = bits.length, asked = Array.from({ length: many }, () => r() % (n + 1));
    const ranks = asked.map(p => rank[p]);
    for (const Type of [Uint32Array, Float64Array]) {
        tally.list(index.rankList(Type.from(asked)), ranks, "rankList");
        tally.list(index.rank0List(Type.from(asked)), asked.map((p, k) => p - ranks[k]), "rank0List");
        tally.list(index.selectList(Type.from(asked)), asked.map(k => ones[k] ?? NaN), "selectList");
        tally.list(index.select0List(Type.from(asked)), asked.map(k => zeros[k] ?? NaN), "select0List");
    }
    tally.list(index.rankList(asked), ranks, "rankList of an array");
    tally.list(index.selectList(asked), asked.map(k => ones[k]), "selectList of an array");
    const wide = BigUint64Array.from(asked, BigInt);
    tally.list(index.rankList(wide), ranks.map(BigInt), "rankList of BigInts");
    tally.list(index.select0List(wide), asked.map(k => BigInt(zeros[k] ?? bitm.NO_ANSWER)), "select0List of BigInts");
}

function compare(n, seed, share, options, many) {
    const bits = booleans(n, seed, share), all = counted(bits), r = random(seed + 1);
    const vector = BitVector.fromBooleans(bits), index = new Index(vector, options);
    tally.same(index.count(), all.ones.length, () => "count");
    tally.same(index.count0(), all.zeros.length, () => "count0");
    tally.same(index.check(), true, () => "check");
    tally.list([...index.ones()], all.ones, "ones");
    tally.list([...vector.zeros(n >> 1)], all.zeros.filter(p => p >= n >> 1), "zeros");
    tally.list(vector.toPositions(), all.ones, "toPositions");
    if (n < 3000) tally.list([...index], bits, "booleans");
    singles(bits, index, vector, all, r);
    lists(bits, index, all, r, many);
    vector.free();
    index.free();
}

test("each length up to 130, and each shape of a last block", () => {
    for (let n = 0; n <= 130; n++) compare(n, n + 1, 5, {}, 20);
    for (let k = 3; k <= 40; k++) compare(64 * k + ((k * 29) % 64), k, k % 2 ? 5 : 16, k % 3 ? {} : { sampleLog2: 7 }, 50);
});

test("many bits: sparse, dense, in runs, with samples and without", () => {
    for (const [share, options] of [[1, {}], [5, { sampleLog2: 9 }], [15, {}], [16, { sampleLog2: 7 }], [0, {}]])
        compare(600001, share + 7, share, options, 40000);
    tally.atLeast(1800000);
});

test("from positions, bytes, words and booleans: the same vector", () => {
    const bits = booleans(1000, 3), { ones } = counted(bits), wanted = BitVector.fromBooleans(bits);
    for (const it of [ones, new Set(ones), Uint32Array.from(ones), Float64Array.from(ones), BigUint64Array.from(ones, BigInt), Uint16Array.from(ones), ones.map(BigInt)])
        assert.ok(BitVector.fromPositions(it, 1000).equals(wanted));
    assert.equal(BitVector.fromPositions(ones).length, ones.at(-1) + 1);
    assert.ok(BitVector.fromBytes(wanted.toBytes(), 1000).equals(wanted));
    assert.ok(BitVector.fromBytes(wanted.toBytes().buffer, 1000).equals(wanted));
    assert.ok(BitVector.fromWords(wanted.toWords(), 1000).equals(wanted));
    assert.ok(BitVector.fromBooleans(bits.values()).equals(wanted));
    assert.ok(BitVector.fromBooleans(Uint8Array.from(bits)).equals(wanted));
    assert.ok(new Index(wanted).toBitVector().equals(wanted));
    assert.ok(Index.fromPositions(ones, 1000).toBitVector().equals(wanted));
    assert.ok(Index.fromBooleans(bits).toBitVector().equals(wanted));
});

test("bits past the length are neither kept nor counted", () => {
    const v = BitVector.fromBytes(Uint8Array.of(255, 255), 11);
    assert.equal(v.count(), 11);
    assert.deepEqual(v.toBytes(), Uint8Array.of(255, 7));
    assert.equal(v.complement().count(), 0);
});

test("set operations as those of Set", () => {
    const a = booleans(777, 5), b = booleans(777, 6, 9), left = BitVector.fromBooleans(a), right = BitVector.fromBooleans(b);
    const cases = { intersection: (x, y) => x && y, union: (x, y) => x || y, symmetricDifference: (x, y) => x !== y, difference: (x, y) => x && !y };
    for (const [name, of] of Object.entries(cases)) assert.deepEqual([...left[name](right)], a.map((x, k) => of(x, b[k])), name);
    assert.deepEqual([...left.complement()], a.map(x => !x));
    const both = left.intersection(right);
    assert.ok(both.isSubsetOf(left) && left.isSupersetOf(both) && !left.isSubsetOf(both) && both.isDisjointFrom(left.complement()));
    assert.equal(left.clone().xor(left).count(), 0);
    assert.equal(left.clone().andNot(left).count(), 0);
    assert.ok(left.clone().and(left).equals(left) && left.clone().or(left).equals(left));
});

test("counts of set operations, of which no vector is made", () => {
    for (const n of [0, 1, 63, 64, 65, 777, 65535, 65536, 65537, 131072, 200001]) {
        const a = booleans(n, n + 1), b = booleans(n, n + 2, 9), left = BitVector.fromBooleans(a), right = BitVector.fromBooleans(b), { used } = bitm.memoryUse();
        const cases = { countIntersection: (x, y) => x && y, countUnion: (x, y) => x || y, countSymmetricDifference: (x, y) => x !== y, countDifference: (x, y) => x && !y };
        for (const [name, of] of Object.entries(cases)) {
            tally.same(left[name](right), a.filter((x, k) => of(x, b[k])).length, () => `${name} of ${n}`);
            tally.same(left[name](left), a.filter(x => of(x, x)).length, () => `${name} of ${n} with itself`);
        }
        tally.list([left.count(), right.count(), bitm.memoryUse().used], [a.filter(x => x).length, b.filter(x => x).length, used], "what was compared stays");
        left.free();
        right.free();
    }
});

test("changes beside an array", () => {
    const r = random(8), bits = booleans(900, 8), v = BitVector.fromBooleans(bits);
    for (let round = 0; round < 600; round++) {
        const [a, b] = [r() % 901, r() % 901].sort((x, y) => x - y), k = r() % 900, value = r() % 2 === 0;
        if (round % 4 === 0) v.set(k, value), (bits[k] = value);
        else if (round % 4 === 1) v.fill(value, a, b), bits.fill(value, a, b);
        else if (round % 4 === 2) {
            v.flip(a, b);
            for (let p = a; p < b; p++) bits[p] = !bits[p];
        } else {
            const count = Math.min(b - a, 900 - k);
            v.setRange(k, v, a, count);
            bits.splice(k, count, ...bits.slice(a, a + count));
        }
        if (round % 20 === 0) assert.deepEqual([...v], bits);
    }
    assert.deepEqual([...v], bits);
    assert.deepEqual([...v.slice(100, 333)], bits.slice(100, 333));
    assert.equal(v.clone().flip(17).get(17), !bits[17]);
    assert.equal(v.clone().flip().count(), v.count0());
});

test("numbers and fragments of every width, beside BigInts", () => {
    const r = random(4), bits = booleans(640, 4), v = BitVector.fromBooleans(bits);
    const read = (begin, width) => bits.slice(begin, begin + width).reduceRight((sum, bit) => 2n * sum + (bit ? 1n : 0n), 0n);
    const write = (begin, width, value) => { for (let k = 0; k < width; k++) bits[begin + k] = ((value >> BigInt(k)) & 1n) === 1n; };
    const plain = it => (it < 2n ** 53n ? Number(it) : it);
    for (let width = 0; width <= 64; width++) {
        const begin = r() % (640 - width + 1), value = (BigInt(r()) << 32n) | BigInt(r());
        assert.equal(v.getNumber(begin, width), plain(read(begin, width)));
        v.setNumber(begin, width, value);
        write(begin, width, value);
        v.xorNumber(begin, width, 5);
        write(begin, width, read(begin, width) ^ BigInt.asUintN(width, 5n));
        const last = width ? Math.floor(640 / width) - 1 : 3;
        assert.equal(v.getFragment(last, width), plain(read(last * width, width)));
        v.setFragment(last, width, 3).swapFragments(0, last, width);
        const [first, end] = [read(0, width), BigInt.asUintN(width, 3n)];
        if (last > 0) write(last * width, width, first);
        write(0, width, end);
        if (width > 50) v.fillFragments(width, value, 2), write(0, width, value), write(width, width, value);
        assert.deepEqual([...v], bits, `width ${width}`);
    }
});

test("words", () => {
    assert.equal(bitm.selectInWord(0b10110n, 2), 4);
    assert.equal(bitm.selectInWord(2n ** 63n, 0), 63);
    assert.equal(bitm.selectInWord(6, 2), undefined);
    assert.equal(bitm.bitsToStore(0), 0);
    assert.equal(bitm.bitsToStore(2n ** 64n - 1n), 64);
    assert.ok(bitm.optimalSampleLog2(1000, 100000, 12) >= 7);
});
