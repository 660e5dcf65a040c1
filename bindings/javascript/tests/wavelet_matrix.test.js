// WaveletMatrix beside plain arrays; blocks of which bytes were changed or cut off.
import assert from "node:assert/strict";
import { test } from "node:test";
import { Tally, bitm, random, spoil, unlessWrong } from "./plain.js";

const { NO_ANSWER, WaveletMatrix, WrongTables } = bitm;
const tally = new Tally();

/** n numbers below `limit`, a number or a BigInt; those from 2^53 on are BigInts. */
function drawn(n, limit, seed) {
    const r = random(seed), most = BigInt(limit);
    return Array.from({ length: n }, () => {
        const it = ((BigInt(r()) << 32n) | BigInt(r())) % most;
        return it < 2n ** 53n ? Number(it) : it;
    });
}

const sorted = items => [...items].sort((a, b) => (a < b ? -1 : a > b ? 1 : 0));

/** What a range has: each number and how often, the most frequent, and what another range has too. */
function ofRanges(matrix, items, begin, end, r) {
    const n = items.length, counts = new Map(), from = r() % (n + 1), to = from + (r() % (n - from + 1)), other = new Set(items.slice(from, to));
    for (const it of sorted(items.slice(begin, end))) counts.set(it, (counts.get(it) ?? 0) + 1);
    const most = [...counts].sort((a, b) => b[1] - a[1]);
    tally.list(matrix.distinct(begin, end).flat(), [...counts].flat(), "distinct");
    for (const k of [0, 1, r() % 9, n, 2 ** 53 - 1, 2n ** 64n - 1n]) tally.list(matrix.top(k, begin, end).flat(), most.slice(0, Number(k)).flat(), `top ${k}`);
    tally.list(matrix.intersect(begin, end, BigInt(from), to), [...counts.keys()].filter(it => other.has(it)), "intersect");
}

/** The queries of one number, over all numbers and over a range. */
function ofNumber(matrix, items, x, begin, end) {
    const range = items.slice(begin, end), less = range.filter(it => it < x), more = range.filter(it => it >= x);
    const where = items.flatMap((it, k) => (it === x ? [k] : [])), said = what => () => `${what} of ${x} in ${begin} to ${end}`;
    tally.same(matrix.rank(x), where.length, said("rank"));
    tally.same(matrix.rank(x, begin), where.filter(k => k < begin).length, said("rank before"));
    for (const k of [0, where.length >> 1, where.length - 1, where.length]) if (k >= 0) tally.same(matrix.select(x, k), where[k], said(`select ${k}`));
    tally.same(matrix.countLess(x, begin, end), less.length, said("countLess"));
    tally.same(matrix.nextValue(x, begin, end), sorted(more)[0], said("nextValue"));
    tally.same(matrix.previousValue(x, begin, end), sorted(less).at(-1), said("previousValue"));
}

function compare(items, width, seed, absent) {
    for (const quarters of [false, true]) for (const hints of [false, true]) compareWith(items, { width, quarters, hints }, seed, absent);
}

function compareWith(items, options, seed, absent) {
    const matrix = new WaveletMatrix(items, options), n = items.length, r = random(seed);
    assert.equal(matrix.length, n);
    assert.ok(matrix.check());
    items.forEach((it, k) => tally.same(matrix.get(k), it, () => `get ${k} of ${n}`));
    for (let round = 0; round < 30; round++) {
        const begin = r() % (n + 1), end = begin + (r() % (n - begin + 1)), inOrder = sorted(items.slice(begin, end));
        for (const k of [0, r() % (n + 1), inOrder.length - 1, inOrder.length])
            if (k >= 0) tally.same(matrix.quantile(k, begin, end), inOrder[k], () => `quantile ${k} of ${begin} to ${end}`);
        if (n > 0) ofNumber(matrix, items, items[r() % n], begin, end);
        for (const x of absent) ofNumber(matrix, items, x, begin, end);
        ofRanges(matrix, items, begin, end, r);
    }
    tally.list([...matrix], items, "iterator");
    lists(matrix, items, r);
    const again = WaveletMatrix.open(matrix.toBytes());
    assert.deepEqual(again.toBytes(), matrix.toBytes());
    assert.equal(again.width, matrix.width);
    matrix.free();
    again.free();
}

function lists(matrix, items, r) {
    const n = items.length, at = items.map(() => r() % n), before = items.map(() => r() % (n + 1)), ranks = items.map(() => r() % 4);
    const asked = items.map((it, k) => (k % 5 ? it : 7)), rank = (x, i) => items.slice(0, i).filter(it => it === x).length;
    const select = (x, k) => items.flatMap((it, i) => (it === x ? [i] : []))[k];
    tally.list(matrix.getList(at), at.map(k => items[k]), "getList");
    tally.list(matrix.getList(BigUint64Array.from(at, BigInt)), at.map(k => BigInt(items[k])), "getList of BigInts");
    tally.list(matrix.rankList(asked, before), asked.map((x, k) => rank(x, before[k])), "rankList");
    tally.list(matrix.rankList(BigUint64Array.from(asked, BigInt), before), asked.map((x, k) => BigInt(rank(x, before[k]))), "rankList of BigInts");
    tally.list(matrix.selectList(asked, Uint32Array.from(ranks)), asked.map((x, k) => select(x, ranks[k])), "selectList");
    tally.list(matrix.selectList(BigUint64Array.from(asked, BigInt), ranks), asked.map((x, k) => BigInt(select(x, ranks[k]) ?? NO_ANSWER)), "selectList of BigInts");
    if (items.some(it => typeof it === "bigint")) return assert.throws(() => matrix.getList(Uint32Array.from(items, (_, k) => k)), /BigUint64Array/);
    tally.list(matrix.getList(Uint32Array.from(at)), at.map(k => items[k]), "getList of doubles");
    tally.list(matrix.rankList(Float64Array.from(asked), before), asked.map((x, k) => rank(x, before[k])), "rankList of doubles");
    return tally.list(matrix.selectList(Float64Array.from(asked), ranks), asked.map((x, k) => select(x, ranks[k]) ?? NaN), "selectList of doubles");
}

test("matrices of each width", () => {
    for (let n = 0; n < 20; n++) compare(drawn(n, 5, n + 1), undefined, n + 9, [5, 6, 2 ** 53 - 1, 2n ** 64n - 1n]);
    compare(drawn(600, 2, 1), 1, 1, [2]);
    compare(drawn(600, 300, 2), undefined, 2, [301, 2 ** 40]);
    compare(drawn(600, 300, 3), 17, 3, [2 ** 17 - 1, 2 ** 17]);
    compare(drawn(300, 2 ** 53 - 1, 4), 53, 4, [0, 2 ** 53 - 1]);
    compare(drawn(300, 2n ** 64n, 5), undefined, 5, [0, 2n ** 64n - 1n, 2n ** 53n]);
    compare([...drawn(100, 2n ** 64n, 6), 2n ** 64n - 1n, 0, 2n ** 53n, 2 ** 53 - 1], 64, 6, [1, 2n ** 63n]);
    assert.deepEqual([0, 1, 2, 255, 256, 2 ** 52, 2n ** 63n].map(it => new WaveletMatrix([0, it]).width), [1, 1, 2, 8, 9, 53, 64]);
    tally.atLeast(20000);
});

test("lists of ranges that are longer than a page, and end with one", () => {
    const top = 2n ** 64n - 1n;
    for (const n of [511, 512, 513, 1024, 3000]) {
        const items = Array.from({ length: n }, (_, k) => 2 * k), more = [...items, top, top], matrix = new WaveletMatrix([...more, ...more]);
        const kinds = [...items.map(it => [it, 2]), [top, 4]];
        assert.deepEqual(matrix.distinct(), kinds);
        assert.deepEqual(matrix.top(n), [[top, 4], ...kinds.slice(0, n - 1)]);
        assert.deepEqual(matrix.intersect(0, n + 2, n + 2, 2 * n + 4), [...items, top]);
        assert.deepEqual(matrix.intersect(0, n, n + 2, 2 * n + 4), items);
    }
    const pages = Array.from({ length: 512 }, (_, k) => top - BigInt(511 - k)), last = new WaveletMatrix(pages), wide = new WaveletMatrix([2 ** 53 - 1, 2n ** 53n]);
    assert.deepEqual([last.distinct().map(it => it[0]), last.intersect(0, 512, 0, 512)], [pages, pages]);
    assert.deepEqual(wide.distinct(), [[2 ** 53 - 1, 1], [2n ** 53n, 1]]);
    const round = new WaveletMatrix(Array.from({ length: 1100 }, (_, k) => 2n ** 53n - 600n + BigInt(k)));
    assert.equal(round.distinct().length + round.intersect(0, 1100, 0, 1100).length, 2200);
    assert.deepEqual([new WaveletMatrix([]).distinct(), new WaveletMatrix([]).top(9), new WaveletMatrix([]).intersect(0, 0, 0, 0)], [[], [], []]);
});

test("the first number of more bits than the width is named", () => {
    for (const progress of [undefined, () => assert.fail("no level is built")]) {
        const refused = (numbers, width, said) => assert.throws(() => new WaveletMatrix(numbers, { width, progress }), new RangeError(`bitm: ${said}`));
        refused([3, 4], 2, "number 1 (4) has more than 2 bits");
        refused([1, 300, 1, 1, 300], 8, "number 1 (300) has more than 8 bits");
        refused([2n ** 63n], 63, `number 0 (${2n ** 63n}) has more than 63 bits`);
        refused([2n ** 53n - 1n, 2n ** 53n], 53, `number 1 (${2n ** 53n}) has more than 53 bits`);
    }
});

test("arguments that are wrong", () => {
    const matrix = new WaveletMatrix([3, 1, 4, 1, 5]);
    for (const it of [-1, 0.5, NaN, 2 ** 53, -1n, 2n ** 64n]) {
        for (const name of ["get", "rank", "countLess", "quantile", "nextValue", "previousValue"]) assert.throws(() => matrix[name](it), RangeError, `${name}(${it})`);
        for (const name of ["countLess", "quantile", "nextValue", "previousValue"]) {
            assert.throws(() => matrix[name](1, it), RangeError, `${name}(1, ${it})`);
            assert.throws(() => matrix[name](1, 0, it), RangeError, `${name}(1, 0, ${it})`);
        }
        for (const call of [() => matrix.distinct(it), () => matrix.distinct(0, it), () => matrix.top(it), () => matrix.top(1, it), () => matrix.top(1, 0, it), () => matrix.intersect(it, 5, 0, 5),
            () => matrix.intersect(0, it, 0, 5), () => matrix.intersect(0, 5, it, 5), () => matrix.intersect(0, 5, 0, it)]) assert.throws(call, RangeError, `${call} of ${it}`);
        assert.throws(() => matrix.rank(1, it), RangeError);
        assert.throws(() => matrix.select(1, it), RangeError);
        assert.throws(() => matrix.select(it, 0), RangeError);
        assert.throws(() => new WaveletMatrix([it]), RangeError);
        assert.throws(() => matrix.rankList([it], [0]), RangeError);
        assert.throws(() => matrix.rankList([0], [it]), RangeError);
    }
    for (const it of ["1", null, {}, [1], true, Symbol("1")]) {
        for (const name of ["get", "rank", "countLess", "quantile", "nextValue", "previousValue"]) assert.throws(() => matrix[name](it), TypeError);
        for (const name of ["countLess", "quantile", "top"]) assert.throws(() => matrix[name](1, 0, it), TypeError);
        for (const call of [() => matrix.distinct(it), () => matrix.distinct(0, it), () => matrix.top(it), () => matrix.intersect(0, 5, 0, it)]) assert.throws(call, TypeError, `${call}`);
        assert.throws(() => matrix.select(1, it), TypeError);
        assert.throws(() => new WaveletMatrix([it]), TypeError);
    }
    for (const [begin, end] of [[0, 6], [3, 2], [6, 6], [0, 2n ** 64n - 1n]]) {
        for (const name of ["countLess", "quantile", "nextValue", "previousValue", "top"]) assert.throws(() => matrix[name](1, begin, end), RangeError);
        for (const call of [() => matrix.distinct(begin, end), () => matrix.intersect(begin, end, 0, 5), () => matrix.intersect(0, 5, begin, end)]) assert.throws(call, RangeError);
    }
    for (const call of [() => matrix.top(), () => matrix.intersect(), () => matrix.intersect(0, 5), () => matrix.intersect(0, 5, 0)]) assert.throws(call, TypeError);
    assert.equal(matrix.rank(1, 5), 2);
    for (const it of [5, 6, 2n ** 64n - 1n]) assert.throws(() => matrix.get(it), RangeError);
    for (const it of [6, 2n ** 64n - 1n]) assert.throws(() => matrix.rank(1, it), RangeError);
    assert.equal(matrix.select(1, 2n ** 64n - 1n), undefined);
    assert.equal(matrix.quantile(2n ** 64n - 1n), undefined);
    for (const width of [0, 65, 2.5, NaN, -1]) assert.throws(() => new WaveletMatrix([1], { width }), RangeError);
    for (const width of ["3", null, 3n]) assert.throws(() => new WaveletMatrix([1], { width }), TypeError);
    assert.throws(() => new WaveletMatrix("12"), TypeError);
    assert.throws(() => matrix.getList([0, 5]), /item 1 of indices is past the end: 5/);
    assert.throws(() => matrix.rankList([1, 1], [0, 6]), RangeError);
    assert.throws(() => matrix.rankList([1, 1], [0]), /2 numbers, and 1 indices/);
    assert.throws(() => matrix.selectList([1], [0, 0]), RangeError);
});

test("each changed byte is seen, and each prefix; unchecked blocks answer within their range", () => {
    const items = drawn(30, 60, 8), bytes = new WaveletMatrix(items).toBytes();
    spoil(WaveletMatrix, bytes, 1 / 3, matrix => {
        const asks = [x => matrix.get(x % 30), x => matrix.rank(x, 30), x => matrix.select(x, 0), x => matrix.countLess(x, 3, 20), x => matrix.quantile(x % 17, 3, 20),
            x => matrix.nextValue(x, 3, 20), x => matrix.previousValue(x, 3, 20)];
        const most = [63, 30, 29, 17, 63, 63, 63];
        for (let x = 0; x < 64; x += 7) asks.forEach((ask, k) => {
            const answer = unlessWrong(() => ask(x));
            assert.ok(answer === undefined || (answer >= 0 && answer <= most[k]), `${ask}: ${answer}`);
        });
        const kinds = unlessWrong(() => matrix.distinct(3, 20)) ?? [], frequent = unlessWrong(() => matrix.top(4, 3, 20)) ?? [], shared = unlessWrong(() => matrix.intersect(0, 9, 3, 20)) ?? [];
        for (const [it, count] of [...kinds, ...frequent]) assert.ok(it <= 63 && count >= 1 && count <= 17);
        for (const them of [kinds.map(it => it[0]), shared]) assert.ok(them.every((it, k) => k === 0 || it > them[k - 1]));
    });
    assert.throws(() => WaveletMatrix.open("block"), TypeError);
    assert.throws(() => bitm.Tree.open(bytes), WrongTables);
    assert.throws(() => WaveletMatrix.open(new bitm.Tree([1, 0]).toBytes()), WrongTables);
    assert.deepEqual([...WaveletMatrix.open(bytes.buffer)], items);
});

test("a matrix that was freed, and memory", () => {
    const before = bitm.memoryUse().used, matrix = new WaveletMatrix([1, 0]);
    matrix.free();
    matrix.free();
    assert.equal(matrix.byteLength, 0);
    const asks = [() => matrix.get(1), () => matrix.rank(1), () => matrix.select(1, 0), () => matrix.quantile(0), () => matrix.nextValue(0), () => matrix.countLess(0),
        () => matrix.previousValue(2), () => matrix.getList([0]), () => matrix.rankList([0], [0]), () => matrix.selectList([0], [0]), () => [...matrix], () => matrix.distinct(), () => matrix.top(1),
        () => matrix.intersect(0, 1, 0, 1), () => matrix.check(), () => matrix.toBytes()];
    for (const ask of asks) assert.throws(ask, /was freed/);
    assert.throws(() => new WaveletMatrix([1, 2], { width: 1 }));
    assert.throws(() => WaveletMatrix.open(new Uint8Array(800)), WrongTables);
    assert.equal(bitm.memoryUse().used, before);
});
