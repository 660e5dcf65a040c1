// What a text or a list of numbers becomes: an index of bitm, the same as a plain array, and the queries of both.
import { BitVector, EliasFano, Index, TextIndex } from "../../bindings/javascript/src/web.js";

const CAP = 5_000_000;
/** How many bytes a text has at most whose parts are looked for, and how many are shown on either side of one. */
const SEARCHED = CAP, AROUND = 40;

/** Of a text: its numbers if it has nothing else, or where its words begin. */
export function indexed(text) {
    const items = /^[\s,;\d]*$/.test(text) ? text.match(/\d+/g) ?? [] : null;
    if (items?.length) {
        if (items.some(it => Number(it) > Number.MAX_SAFE_INTEGER)) throw new RangeError("This page takes numbers up to 2^53 - 1.");
        return ofNumbers(Float64Array.from(items, Number));
    }
    if (!/\S/.test(text)) throw new RangeError("There is nothing in it.");
    return ofText(text);
}

export function ofNumbers(numbers) {
    if (numbers.length > CAP) throw new RangeError(`This page takes up to ${CAP.toLocaleString("en")} numbers.`);
    const doubles = numbers.slice().sort(), largest = doubles.at(-1), span = Math.min(largest + 1, Number.MAX_SAFE_INTEGER);
    // The array that one would take for these numbers: of 32 bits each where they fit.
    const plain = largest < 2 ** 32 ? Uint32Array.from(doubles) : doubles, kind = plain.constructor.name;
    const began = performance.now(), sequence = new EliasFano(plain), ms = performance.now() - began;
    return {
        title: `${count(plain.length)} numbers, from ${count(plain[0])} to ${count(largest)}`,
        label: "A number to look for", example: plain[plain.length >> 1], ms,
        memory: [["Elias-Fano sequence", sequence.byteLength, true], [kind, plain.byteLength, false]],
        answers: x => numberAnswers(sequence, x),
        queries: r => Math.floor(r() * span),
        timed: [["the first that is at least x, one call each", qs => each(qs, x => sequence.firstAtLeast(x) ?? NaN), true],
            ["the same, one call for all", qs => sequence.firstAtLeastList(qs), true],
            [`halving a ${kind}`, qs => each(qs, x => lowerBound(plain, x, NaN)), false]],
        free: () => sequence.free(),
    };
}

function numberAnswers(sequence, x) {
    const first = sequence.firstAtLeast(x), next = sequence.successor(x), before = sequence.predecessor(x);
    return [["Is it there", sequence.has(x) ? "yes" : "no"], ["Numbers below it", count(first ?? sequence.length)],
        ["At least it", next === undefined ? "none" : count(next)], ["At most it", before === undefined ? "none" : count(before)]];
}

/** The bit of a position is 1 where a word begins; and the index by which parts of the text are found. */
function ofText(text) {
    if (text.length > 16 * CAP) throw new RangeError("This page takes texts of up to 80 million characters.");
    const starts = [];
    for (const it of text.matchAll(/\S+/g)) starts.push(it.index);
    const began = performance.now(), bits = BitVector.fromPositions(starts, text.length), index = new Index(bits), ms = performance.now() - began;
    bits.free();
    const plain = Uint32Array.from(starts), bytes = new TextEncoder().encode(text);
    const parts = bytes.length <= SEARCHED ? TextIndex.of(bytes) : null, ofParts = parts ? [["text index, which has the text too", parts.byteLength, true]] : [];
    return {
        title: `${count(text.length)} characters, ${count(starts.length)} words`,
        label: "A word by its number, from 1 on, or what to find", example: (starts.length + 1) >> 1, ms, isText: true,
        memory: [["index: bits and tables", index.byteLength, true], ["Uint32Array of where words begin", plain.byteLength, false], ...ofParts, ["the text", bytes.length, false]],
        answers: (k, typed) => (Number.isNaN(k) ? partAnswers(parts, typed) : textAnswers(text, index, k)),
        queries: r => Math.floor(r() * (text.length + 1)),
        timed: [["words before a position, one call each", qs => each(qs, p => index.rank(p)), true],
            ["the same, one call for all", qs => index.rankList(qs), true],
            ["halving a Uint32Array", qs => each(qs, p => lowerBound(plain, p, plain.length)), false]],
        free: () => {
            index.free();
            parts?.free();
        },
    };
}

/** How often a part stands in the text, and what is around one of them, by the index alone. */
function partAnswers(parts, part) {
    if (!parts) return [["It stands there", `this page looks in texts of up to ${count(SEARCHED)} bytes`]];
    const times = parts.count(part);
    if (times === 0) return [["It stands there", "never"]];
    const [at] = parts.locate(part, { limit: 1 }), end = at + new TextEncoder().encode(part).length;
    // A letter of several bytes may be cut off at the ends.
    const cut = (from, to) => parts.text(from, to).replace(/\s+/g, " ").replace(/^\ufffd+|\ufffd+$/g, "");
    return [["It stands there", times === 1 ? "once" : `${count(times)} times`], ["At byte", count(at)],
        ["There", [cut(Math.max(at - AROUND, 0), at), part, cut(end, Math.min(end + AROUND, parts.length))]]];
}

function textAnswers(text, index, k) {
    const at = k >= 1 ? index.select(k - 1) : undefined;
    if (at === undefined) return [["Word", `there is none: the last is ${count(index.count())}`]];
    const end = at + /^\S+/.exec(text.slice(at, at + 200))[0].length;
    const before = index.previous(Math.max(at - 40, 0)) ?? 0, cut = it => it.replace(/\s+/g, " ");
    return [["Word", text.slice(at, end)], ["Begins at", count(at)], ["Words before", count(index.rank(at))],
        ["There", [cut(text.slice(before, at)), text.slice(at, end), cut(text.slice(end, end + 40))]]];
}

export const count = n => n.toLocaleString("en").replaceAll(",", "\u202f");

function each(queries, ask) {
    const out = new Float64Array(queries.length);
    for (let k = 0; k < queries.length; k++) out[k] = ask(queries[k]);
    return out;
}

function lowerBound(items, x, none) {
    let low = 0, high = items.length;
    while (low < high) {
        const middle = (low + high) >>> 1;
        if (items[middle] < x) low = middle + 1;
        else high = middle;
    }
    return low < items.length ? low : none;
}
