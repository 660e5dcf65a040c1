// TextIndex beside a plain search in the text; what is built, and what is refused; blocks of which bytes were changed or cut off.
import assert from "node:assert/strict";
import { readFileSync } from "node:fs";
import { test } from "node:test";
import { Tally, bitm, random, spoil, unlessWrong } from "./plain.js";

const { TextIndex, WrongTables } = bitm;
const VERSE = "she sells sea shells on the sea shore", BLOCK = new Uint8Array(readFileSync(new URL("../../tests/sea_shells.block", import.meta.url)));
const tally = new Tally(), bytesOf = it => new TextEncoder().encode(it);

/** The positions at which a pattern stands, in the order of the text; and in that of the rest of the text from there on. */
function positions(pattern, verse = VERSE) {
    const found = [];
    for (let at = 0; at + pattern.length <= verse.length; at++) if (verse.startsWith(pattern, at)) found.push(at);
    const rest = at => verse.slice(at);
    return [found, [...found].sort((a, b) => (rest(a) < rest(b) ? -1 : rest(a) > rest(b) ? 1 : 0))];
}

test("answers are those of a plain search", () => {
    const text = TextIndex.open(BLOCK), numbers = TextIndex.ofLetters(bytesOf(VERSE), 256);
    assert.deepEqual([text.length, text.width, text.byteLength, text.check(), text.text()], [37, 4, BLOCK.length, true, VERSE]);
    assert.deepEqual([numbers.length, numbers.width, numbers.check(), numbers.text()], [37, 8, true, VERSE]);
    const parts = ["", "shop", "\0", "ÿ", `${VERSE}!`, VERSE];
    for (let from = 0; from < VERSE.length; from++) for (const n of [1, 2, 3, 5, 9]) parts.push(VERSE.slice(from, from + n));
    for (const part of parts) {
        const [found, inOrder] = positions(part);
        for (const pattern of [[...bytesOf(part)], Uint32Array.from(bytesOf(part)), Array.from(bytesOf(part), BigInt)]) {
            tally.same(numbers.count(pattern), found.length, () => `count of ${part} as numbers`);
            tally.list(numbers.locate(pattern), inOrder, `locate ${part} as numbers`);
        }
        for (const pattern of [part, bytesOf(part)]) {
            tally.same(text.count(pattern), found.length, () => `count of ${part}`);
            tally.same(text.has(pattern), found.length > 0, () => `has ${part}`);
            tally.list(text.locate(pattern), inOrder, `locate ${part}`);
            tally.list(text.locate(pattern, { from: 1, limit: 2n }), inOrder.slice(1, 3), `locate ${part} from 1 on`);
        }
        tally.list(text.findAll(part), found, `findAll ${part}`);
        assert.deepEqual(text.locate(part, { limit: 0 }), []);
        assert.deepEqual(text.locate(part, { from: 2n ** 64n - 1n }), []);
    }
    for (let from = 0; from <= VERSE.length; from++)
        for (let to = from; to <= VERSE.length; to++) {
            assert.deepEqual(text.slice(from, to), bytesOf(VERSE.slice(from, to)));
            tally.same(text.text(from, to), VERSE.slice(from, to), () => `text ${from} to ${to}`);
        }
    for (let at = 0; at < VERSE.length; at++) tally.same(text.get(at), VERSE.charCodeAt(at), () => `letter ${at}`);
    assert.deepEqual(TextIndex.open(text.toBytes()).toBytes(), BLOCK);
    tally.atLeast(5000);
});

test("what is built", () => {
    const text = TextIndex.of(VERSE);
    assert.deepEqual(text.toBytes(), BLOCK);
    assert.deepEqual(TextIndex.of(bytesOf(VERSE), { step: 32n }).toBytes(), BLOCK);
    assert.equal(TextIndex.of("Grüße").text(), "Grüße");
    const r = random(5), before = bitm.memoryUse().used;
    for (let round = 0; round < 60; round++) {
        const kinds = [1, 2, 3, 26][round % 4], step = [1, 3, 32, 2 ** 32 - 1][r() % 4];
        const verse = String.fromCharCode(...Array.from({ length: r() % 60 }, () => 97 + (r() % kinds)));
        const it = TextIndex.of(verse, { step }), from = r() % (verse.length + 1);
        assert.ok(it.check());
        assert.equal(it.text(), verse);
        for (const part of ["", "a", "ab", "z!", verse, verse.slice(from), verse.slice(from, from + 2)]) {
            tally.list(it.findAll(part), positions(part, verse)[0], `findAll ${part} in ${verse}`);
            tally.list(it.locate(part), positions(part, verse)[1], `locate ${part} in ${verse}`);
        }
        it.free();
    }
    const list = Array.from({ length: 200 }, () => (r() % 3) * 400), some = list.slice(20, 24);
    for (const given of [list, new Set(list), Uint16Array.from(list), list.map(BigInt), Float64Array.from(list), BigUint64Array.from(list, BigInt)]) {
        const wide = TextIndex.ofLetters(given, given instanceof Set ? 801n : 801, { step: 4 });
        if (!(given instanceof Set)) assert.deepEqual([wide.slice(), wide.width, wide.check(), wide.findAll(some).includes(20)], [list, 10, true, true]);
        assert.equal(wide.count([5]) + wide.count([801]) + wide.count([2n ** 64n - 1n]), 0);
        assert.equal(wide.get(1), [...given].map(Number)[1]);
        wide.free();
    }
    assert.equal(TextIndex.of("").count("") + TextIndex.of(new Uint8Array(0)).count("a") + TextIndex.ofLetters([], 0).count([]), 2);
    assert.ok(bitm.memoryUse().used - before < 20000, "memory was not given back");
});

test("what is not built", () => {
    const before = bitm.memoryUse().used;
    for (const it of [1, null, undefined, {}, [1, 2], true, new Uint16Array(2), new ArrayBuffer(2), new DataView(new ArrayBuffer(2))]) assert.throws(() => TextIndex.of(it), TypeError);
    for (const step of [0, -1, 0.5, NaN, 2 ** 32, 2 ** 53, -1n, 2n ** 64n]) {
        assert.throws(() => TextIndex.of("a", { step }), RangeError);
        assert.throws(() => TextIndex.ofLetters([0], 1, { step }), RangeError);
    }
    for (const step of ["1", {}, true, Symbol("1")]) assert.throws(() => TextIndex.of("a", { step }), TypeError);
    for (const [letters, said] of [[3, "number 1 (3) is not below 3"], [0, "number 0 (0) is not below 0"]]) for (const progress of [undefined, () => assert.fail("it was ordered")])
        assert.throws(() => TextIndex.ofLetters([0, 3], letters, { progress }), new RangeError(`bitm: ${said}`));
    for (const letters of [-1, 0.5, NaN, 2 ** 32, 2 ** 53, -1n, 2n ** 64n, 3, 0, 3n]) assert.throws(() => TextIndex.ofLetters([0, 3], letters), RangeError);
    for (const letters of ["4", null, undefined, {}, true]) assert.throws(() => TextIndex.ofLetters([0, 3], letters), TypeError);
    for (const it of [-1, 0.5, NaN, 2 ** 53, -1n, 2n ** 64n]) assert.throws(() => TextIndex.ofLetters([0, it], 9), RangeError);
    for (const it of ["1", 1, null, undefined, {}, ["1"], [null]]) assert.throws(() => TextIndex.ofLetters(it, 9), TypeError);
    const gone = new Uint8Array(4);
    structuredClone(gone.buffer, { transfer: [gone.buffer] });
    assert.throws(() => TextIndex.of(gone), TypeError);
    assert.throws(() => TextIndex.ofLetters([0], 2 ** 32 - 1), RangeError, "no memory for that many letters");
    assert.throws(() => new TextIndex({ words: 9, fill: () => {} }), TypeError);
    assert.equal(bitm.memoryUse().used, before);
});

test("arguments that are wrong", () => {
    const text = TextIndex.open(BLOCK), numbers = TextIndex.ofLetters([1, 0, 2], 3);
    for (const it of [1, null, undefined, {}, true, new DataView(new ArrayBuffer(8))]) for (const name of ["count", "has", "locate", "findAll"]) assert.throws(() => text[name](it), TypeError);
    for (const it of [[], [115, 101], Uint16Array.of(115), new Set([1n])]) for (const name of ["count", "has", "locate", "findAll"]) assert.throws(() => text[name](it), TypeError);
    for (const it of [-1, 0.5, 2 ** 53, -1n, 2n ** 64n]) {
        for (const name of ["count", "locate"]) assert.throws(() => numbers[name]([it]), RangeError);
        for (const call of [() => text.get(it), () => text.slice(it), () => text.slice(0, it), () => text.locate("s", { from: it }), () => text.locate("s", { limit: it })])
            assert.throws(call, RangeError);
    }
    for (const call of [() => text.get(37), () => text.get(2n ** 64n - 1n), () => text.slice(0, 38), () => text.text(38)]) assert.throws(call, /past the end/);
    for (const call of [() => text.slice(3, 2), () => text.text(37, 36)]) assert.throws(call, /begins above its end/);
    for (const it of ["1", null, {}, true]) for (const call of [() => text.get(it), () => text.slice(it === null ? "0" : it)]) assert.throws(call, TypeError);
    for (const it of ["block", [1], 3, undefined]) assert.throws(() => TextIndex.open(it), TypeError);
    for (const it of [BLOCK, VERSE, undefined]) assert.throws(() => new TextIndex(it), TypeError);
});

test("a pattern is read once, and before the text", () => {
    const numbers = TextIndex.ofLetters([1, 0, 2, 0], 3), text = TextIndex.ofLetters([1, 0, 2, 0], 3), bytes = TextIndex.open(BLOCK);
    function* once() { yield 0; }
    assert.deepEqual([numbers.count(once()), numbers.has(once()), numbers.locate(once()), numbers.findAll(once())], [2, true, [3, 1], [1, 3]]);
    const freeing = { *[Symbol.iterator]() { text.free(); yield 0; } };
    for (const name of ["count", "has", "locate", "findAll"]) assert.throws(() => text[name](freeing), /was freed/);
    assert.throws(() => bytes.locate("s", { get from() { bytes.free(); return 0; } }), /was freed/);
});

test("each changed byte is seen, and each prefix; unchecked blocks answer within their range", () => {
    const r = random(9);
    spoil(TextIndex, BLOCK, 1 / 2, text => {
        for (const pattern of ["", "s", "he", "\x01"]) {
            assert.ok((unlessWrong(() => text.count(pattern)) ?? 0) <= 38);
            assert.ok((unlessWrong(() => text.locate(pattern)) ?? []).every(it => it <= 37));
        }
        assert.equal((unlessWrong(() => text.slice(r() % 30, 34)) ?? [0]).length > 0, true);
    });
    assert.throws(() => bitm.Tree.open(BLOCK), WrongTables);
    assert.throws(() => TextIndex.open(new bitm.Tree([1, 0]).toBytes()), WrongTables);
});

test("an index that was freed, and memory", () => {
    const before = bitm.memoryUse().used, text = TextIndex.open(BLOCK);
    text.free();
    text.free();
    assert.equal(text.byteLength, 0);
    for (const ask of [() => text.count("s"), () => text.has("s"), () => text.locate("s"), () => text.findAll("s"), () => text.get(0), () => text.slice(), () => text.text(), () => text.check(), () => text.toBytes()])
        assert.throws(ask, /was freed/);
    assert.throws(() => TextIndex.open(new Uint8Array(800)), WrongTables);
    assert.equal(bitm.memoryUse().used, before);
});
