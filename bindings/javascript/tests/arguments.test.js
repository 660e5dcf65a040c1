// What is no whole number, no list, detached, or freed: an error, and never an answer.
import assert from "node:assert/strict";
import { test } from "node:test";
import { bitm } from "./plain.js";

const { BitVector, EliasFano, Index, PerfectHash, open } = bitm;
const v = BitVector.fromPositions([1, 3, 4, 6], 7), x = new Index(v), s = new EliasFano([2, 3, 5, 7]), h = new PerfectHash(["a", "b"]);
const RANGE = [-1, 0.5, NaN, Infinity, -Infinity, 2 ** 53, 2 ** 64, -1n, 2n ** 64n];
const TYPE = ["1", null, undefined, true, {}, [], [1], () => 1, Symbol("1")];

const one = {
    "Index.rank": it => x.rank(it), "Index.rank0": it => x.rank0(it), "Index.select": it => x.select(it), "Index.select0": it => x.select0(it),
    "Index.next": it => x.next(it), "Index.previous0": it => x.previous0(it), "Index.get": it => x.get(it),
    "BitVector.get": it => v.get(it), "BitVector.set": it => v.set(it), "BitVector.next": it => v.next(it), "BitVector.flip": it => v.flip(it, 7), "BitVector.flip of one": it => v.flip(it), "BitVector.setRange": it => v.setRange(0, v, it),
    "BitVector.count": it => v.count(it, 7), "BitVector.fill": it => v.fill(true, it, 7), "BitVector.ones": it => v.ones(it).next(),
    "BitVector.getNumber": it => v.getNumber(it, 2), "BitVector.setNumber": it => v.setNumber(0, 2, it), "BitVector.slice": it => v.slice(it, 7),
    "EliasFano.firstAtLeast": it => s.firstAtLeast(it), "EliasFano.lastAtMost": it => s.lastAtMost(it), "EliasFano.has": it => s.has(it),
    "EliasFano.successor": it => s.successor(it), "EliasFano.valuesFrom": it => s.valuesFrom(it).next(), "EliasFano.values": it => s.values(it).next(),
};
const mayBeUndefined = /count|fill|ones|slice|setRange|values$/;

test("single arguments", () => {
    const before = v.toBytes();
    for (const [name, call] of Object.entries(one)) {
        for (const it of RANGE) assert.throws(() => call(it), RangeError, `${name}(${it})`);
        for (const it of TYPE) if (!(it === undefined && mayBeUndefined.test(name))) assert.throws(() => call(it), TypeError, `${name}(${String(it)})`);
    }
    for (const it of [0.5, NaN, Infinity, 2 ** 53]) assert.throws(() => s.at(it), RangeError);
    for (const it of TYPE) assert.throws(() => s.at(it), TypeError);
    for (const it of [-1, 0.5, NaN, 2 ** 53, -1n]) assert.throws(() => new BitVector(it), RangeError);
    for (const it of TYPE) assert.throws(() => new BitVector(it), TypeError);
    assert.deepEqual(v.toBytes(), before, "a refused call changed a bit");
});

test("past the end", () => {
    for (const it of [8, 2 ** 53 - 1, 2n ** 53n, 2n ** 64n - 1n]) {
        assert.throws(() => x.rank(it), RangeError);
        assert.throws(() => x.get(it), RangeError);
        assert.throws(() => v.set(it), RangeError);
        assert.equal(x.select(it), undefined);
        assert.equal(x.next(it), undefined);
        assert.equal(x.previous(it), 6);
    }
    assert.throws(() => v.fill(true, 0, 8), RangeError);
    assert.throws(() => v.count(5, 4), RangeError);
    assert.throws(() => v.setRange(6, v, 0, 2), RangeError);
    assert.throws(() => x.rankList([0, 8]), RangeError);
    assert.throws(() => s.atList([0, 4]), RangeError);
    assert.throws(() => BitVector.fromPositions([7], 7), RangeError);
    assert.throws(() => BitVector.fromBytes(new Uint8Array(1), 9), RangeError);
    assert.throws(() => v.and(new BitVector(8)), RangeError);
    assert.throws(() => v.getNumber(0, 65), RangeError);
    assert.throws(() => new Index(v, { sampleLog2: 6 }), RangeError);
    assert.throws(() => new BitVector(2 ** 45), RangeError, "no memory for so much");
    assert.equal(x.rank(7n), 4);
});

const list = { rankList: it => x.rankList(it), select0List: it => x.select0List(it), atList: it => s.atList(it), hasList: it => s.hasList(it),
    firstAtLeastList: it => s.firstAtLeastList(it), EliasFano: it => new EliasFano(it), fromPositions: it => BitVector.fromPositions(it) };

test("lists", () => {
    for (const [name, call] of Object.entries(list)) {
        for (const it of RANGE) if (typeof it === "number") assert.throws(() => call(Float64Array.of(0, it)), RangeError, `${name} of ${it}`);
        for (const it of RANGE) assert.throws(() => call([0, it]), RangeError, `${name} of [0, ${it}]`);
        for (const it of TYPE) assert.throws(() => call([0, it]), TypeError, `${name} of [0, ${String(it)}]`);
        for (const it of [1, "12", null, undefined, {}, new DataView(new ArrayBuffer(8)), new ArrayBuffer(8)]) assert.throws(() => call(it), TypeError, `${name}(${String(it)})`);
        assert.throws(() => call(Int32Array.of(0, -1)), RangeError);
        assert.throws(() => call(Float32Array.of(0.5)), RangeError);
        assert.throws(() => call([0, , 2]), TypeError, "a hole");
        for (const Type of [Uint32Array, Float64Array, BigUint64Array]) {
            const gone = new Type(4);
            structuredClone(gone.buffer, { transfer: [gone.buffer] });
            assert.throws(() => call(gone), TypeError, `${name} of a detached buffer`);
            const shared = new Type(new SharedArrayBuffer(16));
            assert.doesNotThrow(() => call(shared));
            assert.doesNotThrow(() => call(new Type(0)));
        }
        if (ArrayBuffer.prototype.resize) {
            const buffer = new ArrayBuffer(64, { maxByteLength: 64 }), view = new Float64Array(buffer, 0, 8);
            buffer.resize(8);
            assert.throws(() => call(view), TypeError, `${name} of a buffer that became shorter`);
        }
    }
    for (const it of ["0", 2, -1, null, {}, 2n, NaN]) {
        assert.throws(() => BitVector.fromBooleans([true, it]), TypeError);
        assert.throws(() => v.set(0, it), TypeError);
        assert.throws(() => v.fill(it), TypeError);
    }
    assert.throws(() => v.flip(undefined), TypeError);
    assert.throws(() => v.fillFragments(64, 0, 2 ** 53 - 1), RangeError);
    v.clone().fillFragments(0, 1, 2 ** 53 - 1);
    assert.throws(() => BitVector.fromBooleans(["0"]), TypeError);
    assert.throws(() => new PerfectHash("abc"), TypeError);
    assert.throws(() => new PerfectHash([{}]), TypeError);
    assert.throws(() => new PerfectHash(["a", "a"]), RangeError);
    for (const it of [1, "x", null, [1]]) assert.throws(() => open(it), TypeError);
});

test("a buffer that is detached", () => {
    const bytes = x.toBytes();
    structuredClone(bytes.buffer, { transfer: [bytes.buffer] });
    assert.throws(() => open(bytes), TypeError);
    assert.throws(() => open(bytes.buffer), TypeError);
    assert.throws(() => BitVector.fromBytes(bytes), TypeError);
});

const FREED = { BitVector: () => v.clone(), Index: () => new Index(v), EliasFano: () => new EliasFano([1, 2]), PerfectHash: () => new PerfectHash(["a"]),
    "PerfectHash with seeds": () => new PerfectHash(["a"], { tries: 9 }) };
const ARGUMENTS = { fillFragments: [1, 1, 1], setFragment: [0, 1, 1], swapFragments: [0, 1, 1], getFragment: [0, 1], getNumber: [0, 1], setNumber: [0, 1, 1], xorNumber: [0, 1, 1] };

test("after free() every method throws a TypeError", () => {
    for (const [name, make] of Object.entries(FREED)) {
        const it = make(), kind = Object.getPrototypeOf(it), other = make();
        it.free();
        it.free();
        assert.equal(it.byteLength, 0);
        for (const method of Reflect.ownKeys(kind)) {
            const found = Object.getOwnPropertyDescriptor(kind, method).value;
            if (typeof found !== "function" || ["constructor", "free"].includes(method) || /dispose|inspect/.test(String(method))) continue;
            const takesOther = /^(and|or|xor|andNot|intersection|union|difference|symmetricDifference|count(Union|Intersection|Difference|SymmetricDifference)|is\w+|equals|setRange)$/.test(String(method));
            const args = ARGUMENTS[method] ?? (/List$/.test(String(method)) ? [[0]] : method === "setRange" ? [0, other] : takesOther && name !== "Index" ? [other] : [0]);
            assert.throws(() => { const got = it[method](...args); if (typeof got?.next === "function") got.next(); }, TypeError, `${name}.${String(method)}`);
            if (takesOther && typeof other[method] === "function") assert.throws(() => (method === "setRange" ? other.setRange(0, it) : other[method](it)), TypeError, `${name}.${String(method)} of it`);
        }
    }
    const walk = new Index(v).ones();
    const gone = new Index(v), half = gone.ones();
    half.next();
    gone.free();
    assert.equal(walk.next().value, 1);
    const rest = new EliasFano(Array.from({ length: 100 }, (_, k) => k)), each = rest.values();
    each.next();
    rest.free();
    assert.throws(() => [...each], TypeError);
});

test("a list whose reading frees the value", () => {
    const it = new Index(v);
    assert.throws(() => it.rankList({ *[Symbol.iterator]() { it.free(); yield 1; } }), TypeError);
});
