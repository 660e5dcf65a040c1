// SparseBits beside plain arrays of positions; blocks of which bytes were changed or cut off.
import assert from "node:assert/strict";
import { test } from "node:test";
import { Tally, bitm, random, spoil, unlessWrong } from "./plain.js";

const { BitVector, NO_ANSWER, SparseBits, WrongTables } = bitm;
const tally = new Tally();

/** n positions, each from 1 to `most` after the one before it. */
function drawn(n, most, seed) {
    const r = random(seed), found = [];
    let next = r() % most;
    for (let k = 0; k < n; k++) {
        found.push(next);
        next += 1 + Math.floor((r() / 2 ** 32) * most);
    }
    return found;
}

/** The answers by a walk over the positions: undefined where there is none. */
function plain(positions, length) {
    const is = new Set(positions), rank = at => positions.filter(it => it < at).length;
    const select0 = k => {
        let at = k;
        for (const it of positions) if (it <= at) at++;
        return k < length - positions.length ? at : undefined;
    };
    const step = (from, by) => {
        let at = from;
        while (at >= 0 && at < length && is.has(at)) at += by;
        return at >= 0 && at < length ? at : undefined;
    };
    return {
        is, rank, select0, rank0: at => at - rank(at), select: k => positions[k], next: from => positions.find(it => it >= from),
        previous: from => positions.filter(it => it <= from).at(-1), next0: from => step(from, 1), previous0: from => step(Math.min(from, length - 1), -1),
    };
}

function compare(positions, length, seed) {
    const bits = new SparseBits(positions, length), n = length ?? (positions.at(-1) ?? -1) + 1, of = plain(positions, n), r = random(seed);
    assert.deepEqual([bits.length, bits.count(), bits.count0()], [n, positions.length, n - positions.length]);
    assert.ok(bits.check());
    const some = positions.filter((_, k) => k < 20 || k % 37 === 0), at = [0, 1, n - 1, n, ...some.flatMap(it => [it - 1, it, it + 1])];
    for (let k = 0; k < 30; k++) at.push(r() % (n + 1));
    const inside = at.filter(it => it >= 0 && it < n), upTo = at.filter(it => it >= 0 && it <= n);
    for (const it of inside) tally.same(bits.get(it), of.is.has(it), () => `get ${it} of ${n}`);
    for (const name of ["rank", "rank0"]) for (const it of upTo) tally.same(bits[name](it), of[name](it), () => `${name} ${it} of ${n}`);
    for (const name of ["next", "next0", "previous", "previous0"])
        for (const it of [...upTo, 2 ** 53 - 1]) tally.same(bits[name](it), of[name](it), () => `${name} ${it} of ${n}`);
    const ranks = [0, 1, 2, positions.length - 1, positions.length, n - positions.length - 1, n - positions.length, r() % (n + 1), 2 ** 53 - 1].filter(it => it >= 0);
    for (const name of ["select", "select0"]) for (const it of ranks) tally.same(bits[name](it), of[name](it), () => `${name} ${it} of ${n}`);
    lists(bits, of, inside, upTo, ranks);
    tally.list([...bits.ones()], positions, "ones");
    tally.list([...bits.ones(Math.min(n, 50))], positions.filter(it => it >= 50), "ones from 50");
    walks(bits, of, [0, 1, n - 1, n, n + 1, 2 ** 53 - 1, ...some.slice(0, 9).flatMap(it => [it, it + 1])].filter(it => it >= 0 && it < 2 ** 53));
    const again = SparseBits.open(bits.toBytes());
    assert.deepEqual(again.toBytes(), bits.toBytes());
    assert.equal(again.length, bits.length);
    bits.free();
    again.free();
}

/** The first 40 answers of an iteration. */
function begun(walk) {
    const found = [];
    for (const it of walk) if (found.push(it) === 40) break;
    return found;
}

/** The first 40 positions from each of some on, and all to the end where these are few. */
function walks(bits, of, froms) {
    for (const [name, next] of [["ones", "next"], ["zeros", "next0"]]) {
        for (const from of froms) {
            const wanted = [];
            for (let at = of[next](from); at !== undefined && wanted.length < 40; at = of[next](at + 1)) wanted.push(at);
            tally.list(begun(bits[name](from)), wanted, `${name} from ${from} of ${bits.length}`);
            tally.list(begun(bits[name](BigInt(from))), wanted, `${name} from the BigInt ${from} of ${bits.length}`);
        }
    }
}

function lists(bits, of, inside, upTo, ranks) {
    tally.list(bits.getList(inside), inside.map(it => of.is.has(it)), "getList");
    tally.list(bits.getList(Float64Array.from(inside)), inside.map(it => Number(of.is.has(it))), "getList of doubles");
    for (const name of ["rank", "rank0"]) {
        tally.list(bits[`${name}List`](upTo), upTo.map(of[name]), `${name}List`);
        tally.list(bits[`${name}List`](Float64Array.from(upTo)), upTo.map(of[name]), `${name}List of doubles`);
        tally.list(bits[`${name}List`](BigUint64Array.from(upTo, BigInt)), upTo.map(it => BigInt(of[name](it))), `${name}List of BigInts`);
    }
    for (const name of ["select", "select0"]) {
        tally.list(bits[`${name}List`](ranks), ranks.map(of[name]), `${name}List`);
        tally.list(bits[`${name}List`](Float64Array.from(ranks)), ranks.map(it => of[name](it) ?? NaN), `${name}List of doubles`);
        tally.list(bits[`${name}List`](BigUint64Array.from(ranks, BigInt)), ranks.map(it => BigInt(of[name](it) ?? NO_ANSWER)), `${name}List of BigInts`);
    }
}

test("bits of each density", () => {
    for (let n = 0; n < 20; n++) compare(drawn(n, 1 + (n % 5), n + 1), undefined, n + 9);
    for (const most of [1, 2, 9, 1000, 2 ** 20, 2 ** 40]) compare(drawn(500, most, most % 1009), undefined, 5);
    compare([], 0, 1);
    compare([], 1000, 2);
    compare([0], 2 ** 53 - 1, 3);
    compare([2 ** 53 - 2], undefined, 4);
    compare(drawn(100, 50, 7), 2 ** 40, 5);
    assert.deepEqual([...new SparseBits([3n, 100n], 2n ** 40n).ones()], [3, 100]);
    assert.deepEqual([...new SparseBits(Uint32Array.of(3, 100)).ones()], [3, 100]);
    tally.atLeast(10000);
});

test("walks: the same as those of a BitVector, also from past the end", () => {
    const r = random(5);
    for (const share of [0, 1, 2, 8, 15, 16]) {
        const length = 700, vector = BitVector.fromBooleans(Array.from({ length }, () => r() % 16 < share)), bits = new SparseBits(vector.toPositions(), length);
        for (const name of ["ones", "zeros"]) {
            assert.deepEqual([...bits[name]()], [...vector[name]()], `${name} of ${share} in 16`);
            for (const from of [0, 1, 63, 64, 65, 350, 699, 700, 701, 2 ** 53 - 1, 2n ** 64n - 1n]) assert.deepEqual([...bits[name](from)], [...vector[name](from)], `${name} from ${from}`);
            assert.throws(() => bits[name](-1), { name: "RangeError", message: /^bitm: from must be/ });
            assert.throws(() => bits[name](null), { name: "TypeError", message: /^bitm: from must be/ });
        }
    }
    assert.deepEqual([...new SparseBits([]).zeros(), ...new SparseBits([]).ones(1), ...new SparseBits([3]).ones(4), ...new SparseBits([3]).zeros(4n)], []);
    assert.deepEqual(begun(new SparseBits([2 ** 53 - 2]).zeros(2 ** 53 - 4)), [2 ** 53 - 4, 2 ** 53 - 3]);
    assert.equal(Symbol.iterator in SparseBits.prototype, false);
});

test("a walk whose bits are freed throws, inside a gap too", () => {
    for (const name of ["ones", "zeros"]) {
        const bits = new SparseBits([3, 100000]), walk = bits[name](), late = bits[name]();
        walk.next();
        bits.free();
        assert.throws(() => walk.next(), /these SparseBits were freed/);
        assert.throws(() => late.next(), /these SparseBits were freed/);
        assert.throws(() => bits[name]().next(), /these SparseBits were freed/);
    }
});

test("arguments that are wrong", () => {
    const bits = new SparseBits([3, 100, 101, 4000], 5000);
    const names = ["get", "rank", "rank0", "select", "select0", "next", "next0", "previous", "previous0"];
    for (const it of [-1, 0.5, NaN, 2 ** 53, -1n, 2n ** 64n]) {
        for (const name of names) assert.throws(() => bits[name](it), RangeError, `${name}(${it})`);
        for (const name of ["getList", "rankList", "rank0List", "selectList", "select0List"]) assert.throws(() => bits[name]([it]), RangeError, `${name}([${it}])`);
        assert.throws(() => new SparseBits([it]), RangeError);
        assert.throws(() => new SparseBits([1], it), RangeError);
    }
    for (const it of ["1", null, {}, [1], true, Symbol("1")]) {
        for (const name of names) assert.throws(() => bits[name](it), TypeError);
        assert.throws(() => new SparseBits([it]), TypeError);
        assert.throws(() => new SparseBits([1], it), TypeError);
    }
    for (const it of [5000, 5001, 2n ** 64n - 1n]) assert.throws(() => bits.get(it), /past the end/);
    for (const it of [5001, 2n ** 64n - 1n]) assert.throws(() => bits.rank(it), /past the end/);
    assert.equal(bits.rank0(5000), 4996);
    assert.equal(bits.select(2n ** 64n - 1n), undefined);
    assert.equal(bits.previous(2n ** 64n - 1n), 4000);
    assert.throws(() => bits.getList([0, 5000]), /item 1 of positions is past the end: 5000$/);
    assert.throws(() => bits.rankList([0, 5001]), /item 1 of positions is past the end: 5001$/);
    for (const [given, length, said] of [[[3], 3, "0 (3)"], [[3, 4], 4, "1 (4)"], [[0], 0, "0 (0)"], [[7, 2n ** 60n], undefined, `1 (${2n ** 60n})`]])
        assert.throws(() => new SparseBits(given, length), new RangeError(`bitm: position ${said} is not below ${length ?? 2 ** 53 - 1}`));
    for (const [given, k] of [[[3, 3], 1], [[4, 3], 1], [[0, 5, 5, 6], 2], [[0, 5, 2 ** 60, 6], 3]])
        assert.throws(() => new SparseBits(given.map(BigInt), 100), new RangeError(`bitm: position ${k} (${BigInt(given[k])}) is not above position ${k - 1} (${BigInt(given[k - 1])})`));
    assert.throws(() => new SparseBits("12"), TypeError);
});

test("each changed byte is seen, and each prefix; unchecked blocks answer within their range", () => {
    const positions = drawn(30, 60, 8), length = positions.at(-1) + 5, bytes = new SparseBits(positions, length).toBytes();
    spoil(SparseBits, bytes, 1 / 3, bits => {
        for (let x = 0; x <= length; x += 7) {
            for (const name of ["rank", "rank0"]) assert.ok((unlessWrong(() => bits[name](x)) ?? 0) <= x, name);
            for (const name of ["select", "select0"]) assert.ok((unlessWrong(() => bits[name](x % 30)) ?? 0) < length, name);
            for (const name of ["next", "next0"]) assert.ok((unlessWrong(() => bits[name](x)) ?? x) >= x, name);
            for (const name of ["previous", "previous0"]) assert.ok((unlessWrong(() => bits[name](x)) ?? x) <= x, name);
            unlessWrong(() => bits.get(x % length));
        }
        for (const from of [0, 100, length]) {
            const ones = unlessWrong(() => [...bits.ones(from)]) ?? [], zeros = unlessWrong(() => [...bits.zeros(from)]) ?? [];
            for (const it of [ones, zeros]) assert.ok(it.every((at, k) => at < length && (it === ones || (at >= from && !(at <= it[k - 1])))), `${it} from ${from}`);
        }
    });
    assert.throws(() => SparseBits.open("block"), TypeError);
    assert.throws(() => bitm.Tree.open(bytes), WrongTables);
    assert.throws(() => SparseBits.open(new bitm.Tree([1, 0]).toBytes()), WrongTables);
    assert.deepEqual([...SparseBits.open(bytes.buffer).ones()], positions);
});

test("bits that were freed, and memory", () => {
    const before = bitm.memoryUse().used, bits = new SparseBits([1, 5], 9);
    bits.free();
    bits.free();
    assert.equal(bits.byteLength, 0);
    const asks = [() => bits.get(1), () => bits.rank(1), () => bits.rank0(1), () => bits.select(1), () => bits.select0(1), () => bits.next(0), () => bits.next0(0),
        () => bits.previous(2), () => bits.previous0(2), () => bits.getList([0]), () => bits.rankList([0]), () => bits.selectList([0]), () => [...bits.ones()], () => bits.check(),
        () => bits.toBytes()];
    for (const ask of asks) assert.throws(ask, /these SparseBits were freed/);
    assert.throws(() => new SparseBits([2, 1]));
    assert.throws(() => SparseBits.open(new Uint8Array(800)), WrongTables);
    assert.equal(bitm.memoryUse().used, before);
});
