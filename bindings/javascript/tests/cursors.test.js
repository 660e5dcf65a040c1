// Cursors beside arrays; intersections and unions beside sets; sequences that are freed, and parts of damaged files.
import assert from "node:assert/strict";
import { test } from "node:test";
import { bitm, random, sectionAt, Tally, unlessWrong } from "./plain.js";

const { Cursor, EliasFano, WrongTables, intersect, open, union } = bitm;
const tally = new Tally();
const TOP = 2n ** 64n - 1n;

/** Numbers that do not decrease, some equal; now and then none, and the greatest. */
function drawn(r, most) {
    const found = Array.from({ length: r() % 8 ? r() % 150 : 0 }, () => r() % most).sort((a, b) => a - b);
    if (r() % 3 === 0) found.push(TOP);
    return found;
}

const rising = all => [...new Set(all)].sort((a, b) => (a < b ? -1 : a > b ? 1 : 0));

test("a cursor moves as an index of an array", () => {
    const r = random(5);
    for (let round = 0; round < 400; round++) {
        const items = drawn(r, [9, 200, 2 ** 31][r() % 3]), cursor = new EliasFano(items).cursor();
        let k = 0;
        for (let step = 0; step < 30; step++) {
            tally.list([cursor.index, cursor.number], [k, items[k]], "where it stands");
            if (r() % 3 === 0) {
                const got = cursor.next(), here = items[k];
                tally.list([got.value, got.done], [here, k === items.length], "next");
                while (k < items.length && items[k] === here) k++;
                continue;
            }
            const value = r() % 20 === 0 ? TOP : r() % 2 ? (items[r() % (items.length || 1)] ?? 7) : Number(BigInt.asUintN(32, BigInt(items[k] ?? 3))) + (r() % 9);
            while (k < items.length && items[k] < value) k++;
            tally.list([cursor.nextGeq(value), cursor.nextGeq(value)], [items[k], items[k]], `nextGeq ${value}`);
        }
        tally.list([...cursor], rising(items.slice(k)), "the rest");
        tally.list([cursor.index, cursor.number, cursor.nextGeq(0), cursor.next().done], [items.length, undefined, undefined, true], "the end");
        cursor.free();
    }
});

test("intersections and unions are those of sets", () => {
    const r = random(6);
    for (let round = 0; round < 300; round++) {
        const lists = Array.from({ length: 1 + (r() % 5) }, () => drawn(r, 120)), made = lists.map(it => new EliasFano(it)), from = r() % 3 ? r() % 60 : 0;
        const any = rising(lists.flat()), all = any.filter(it => lists.every(of => of.includes(it))), limit = r() % 3 ? r() % 30 : undefined;
        tally.list(intersect(made), all, "intersect");
        tally.list(union(made), any, "union");
        tally.list(intersect(new Set(made), from, limit), all.filter(it => it >= from).slice(0, limit), "intersect from a number");
        tally.list(union(made.values(), BigInt(from), limit), any.filter(it => it >= from).slice(0, limit), "union from a number");
        tally.list(made[0].union(...made.slice(1)).toArray(), any, "union as a sequence");
        tally.list(made[0].intersection(...made.slice(1)).toArray(), all, "intersection as a sequence");
        tally.same(made[0].countUnion(...made.slice(1)), any.length, () => "countUnion");
        tally.same(made[0].countIntersection(...made.slice(1)), all.length, () => "countIntersection");
        for (const it of made) it.free();
    }
    assert.deepEqual(union([]), []);
    assert.throws(() => intersect([]), RangeError);
    tally.atLeast(50000);
});

test("answers that are longer than a block, and end with one", () => {
    for (const n of [2047, 2048, 2049, 4096, 10000]) {
        const even = new EliasFano(Float64Array.from({ length: n }, (_, k) => 2 * k)), third = new EliasFano(Float64Array.from({ length: n }, (_, k) => 3 * k));
        assert.deepEqual(union([even, even]), [...even]);
        assert.deepEqual(intersect([even, third]), Array.from({ length: Math.ceil(2 * n / 6) }, (_, k) => 6 * k));
        assert.equal(union([even, third]).length, even.union(third).length);
        assert.deepEqual(union([even], 0, n), [...even]);
        const top = new EliasFano(BigUint64Array.from([...even.toArray().slice(1).map(BigInt), TOP]));
        assert.equal(intersect([top, top]).at(-1), TOP);
        assert.equal(union([top]).length, n);
    }
});

test("arguments that are wrong", () => {
    const s = new EliasFano([2, 3, 5]), cursor = s.cursor();
    for (const it of [-1, 0.5, NaN, 2 ** 53, -1n, 2n ** 64n]) {
        for (const call of [() => cursor.nextGeq(it), () => intersect([s], it), () => union([s], it)]) assert.throws(call, RangeError, String(it));
        if (it !== 2n ** 64n) for (const call of [intersect, union]) assert.throws(() => call([s], 0, it), RangeError, `limit ${it}`);
    }
    for (const it of ["1", null, {}, [1], true, Symbol("1"), () => 1]) {
        for (const call of [() => cursor.nextGeq(it), () => intersect([s], it), () => union([s], 0, it), () => new Cursor(it), () => union([s, it]), () => intersect([it])])
            assert.throws(call, TypeError, String(it));
    }
    for (const it of [5, null, undefined, "ab", {}]) for (const call of [intersect, union]) assert.throws(() => call(it), TypeError);
    for (const it of [Object.create(EliasFano.prototype), new bitm.Tree([0]), cursor, s.constructor]) assert.throws(() => new Cursor(it), TypeError);
    for (const name of ["index", "number"]) assert.throws(() => { cursor[name] = 1; }, TypeError);
    for (const it of [{}, s]) assert.throws(() => Cursor.prototype.nextGeq.call(it, 1), TypeError);
    assert.equal(cursor.number, 2);
});

test("sequences and cursors that were freed, and memory", () => {
    const before = bitm.memoryUse().used, s = new EliasFano([2, 3, 5]), other = new EliasFano([3]), cursor = s.cursor(), gone = s.cursor();
    gone.free();
    gone.free();
    const asks = it => [() => it.nextGeq(1), () => it.next(), () => it.index, () => it.number, () => [...it]];
    for (const ask of asks(gone)) assert.throws(ask, /Cursor was freed/);
    s.free();
    const taken = new EliasFano([7, 8, 9]); // where the parts were
    for (const ask of [...asks(cursor), () => s.cursor(), () => new Cursor(s), () => union([other, s]), () => intersect([s]), () => other.union(s)]) assert.throws(ask, /EliasFano was freed/);
    const freeing = { *[Symbol.iterator]() { yield other; yield taken; other.free(); } };
    assert.throws(() => union(freeing), /EliasFano was freed/);
    cursor.free();
    taken.free();
    assert.equal(bitm.memoryUse().used, before);
});

test("a cursor keeps its sequence", () => {
    const cursors = Array.from({ length: 50 }, (_, k) => new EliasFano(Float64Array.from({ length: 1000 }, (_, i) => i * k)).cursor());
    for (let k = 0; k < 2000; k++) new EliasFano([k, k + 1]);
    globalThis.gc?.();
    cursors.forEach((it, k) => assert.equal(it.nextGeq(500 * k), 500 * k));
});

test("parts of damaged files: numbers that rise, or WrongTables", () => {
    const r = random(9), made = new EliasFano(Float64Array.from({ length: 300 }, () => r() % 9000).sort()), file = made.toBytes(), from = sectionAt(file, 0);
    for (let round = 0; round < 300; round++) {
        const bad = file.slice();
        for (let k = 0; k < 6; k++) bad[from + (r() % (bad.length - from))] ^= 1 << r() % 8;
        const s = open(bad, { check: false });
        for (const call of [() => [...s.cursor()], () => union([s, made], 5), () => intersect([s, made]), () => s.union(made).toArray()]) {
            const found = unlessWrong(call) ?? [];
            for (let k = 1; k < found.length; k++) tally.same(found[k] > found[k - 1], true, () => `it falls: ${found.slice(k - 1, k + 1)}`);
        }
        const cursor = unlessWrong(() => s.cursor());
        for (let value = 0; cursor && value < 9000; value += r() % 900) {
            const found = unlessWrong(() => cursor.nextGeq(value)) ?? value;
            tally.same(found >= value, true, () => `nextGeq ${value} is ${found}`);
        }
        s.free();
    }
    assert.ok(new WrongTables() instanceof Error);
});
