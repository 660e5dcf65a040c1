// Cursors over EliasFano values, and what several of these share, or any of them has: each by one call of the library for a
// move, or for a block of the answer.
import { bytesAt, calls, numberAt, smallest, wordsAt } from "./core.js";
import { partsOf } from "./elias_fano.js";
import { isIterable, mustBe } from "./given.js";
import { BITM_CURSOR, BITM_SEQUENCE } from "./layout.js";
import { copyOut } from "./lists.js";
import { Block, dispose, freed, withRoom } from "./memory.js";
import { answerOf, big, byBigInts, must, orNone, place, refused } from "./numbers.js";
import { shows } from "./shown.js";

const MOST = 2n ** 64n - 1n;
/** How many numbers of an intersection or a union are read by one call. */
const BLOCK = 2048;

/** Puts a cursor at the first number of a sequence, whose struct stands at `parts`. */
function startAt(at, parts) {
    bytesAt(at, BITM_CURSOR.sizeof).fill(0);
    bytesAt(at, BITM_SEQUENCE.sizeof).set(bytesAt(parts, BITM_SEQUENCE.sizeof));
    must(calls.bitm_cursor_start(at), "sequence");
}

/**
 * A position in an EliasFano, which moves forward only: at a number, or at the end. As an iterator it gives the number where it
 * stands, and moves on to the next greater one, so each number once.
 */
export class Cursor {
    #sequence;
    #block;

    /** At the first number of a sequence. */
    constructor(sequence) {
        const parts = partsOf(sequence, "sequence");
        this.#sequence = sequence;
        this.#block = new Block(BITM_CURSOR.sizeof).heldBy(this, at => startAt(at, parts));
    }

    /** Where the struct stands. TypeError where the sequence was freed, or the cursor. */
    #live() {
        partsOf(this.#sequence);
        const at = this.#block.at;
        if (at === 0) throw freed("Cursor");
        return at;
    }

    /** The index of the number where it stands; how many numbers there are at the end. */
    get index() { return numberAt(this.#live() + BITM_CURSOR.index); }

    /** The number where it stands; undefined at the end. */
    get number() {
        const at = this.#live();
        return numberAt(at + BITM_CURSOR.index) < numberAt(at + BITM_CURSOR.sequence_len) ? numberAt(at + BITM_CURSOR.number) : undefined;
    }

    /** Moves to the first number from here on that is at least value, and returns it; stays where the number here is. */
    nextGeq(value) {
        const at = this.#live();
        return orNone(answerOf("bitm_cursor_next", at, value), "value", value);
    }

    /** The number where it stands, as an iterator gives it; and moves on to the next greater one. */
    next() {
        const value = this.number, at = this.#live();
        if (value === undefined) return { value, done: true };
        const more = BigInt(value) + 1n;
        if (more > MOST) wordsAt(at + BITM_CURSOR.index, 1)[0] = wordsAt(at + BITM_CURSOR.sequence_len, 1)[0]; // the end: none is greater
        else orNone(answerOf("bitm_cursor_next", at, smallest(more)), "value", more);
        return { value, done: false };
    }
    [Symbol.iterator]() { return this; }

    /** Gives the memory back at once. */
    free() { this.#block.free(); }
    [dispose]() { this.free(); }
}

shows(Cursor, "Cursor", it => ({ index: it.index, number: it.number }), "the toBytes() of its sequence");

/** Runs body(cursors, n, out) with cursors at the first numbers of n sequences, of the shortest first, and room for numbers. */
function withCursors(sequences, room, body) {
    const parts = [...sequences].sort((a, b) => a.length - b.length).map(it => partsOf(it)), n = parts.length;
    return withRoom(BITM_CURSOR.sizeof * n + 8 * room, cursors => {
        parts.forEach((it, k) => startAt(cursors + BITM_CURSOR.sizeof * k, it));
        return body(cursors, n, cursors + BITM_CURSOR.sizeof * n);
    });
}

/** How many numbers from `from` on a call that merges sequences wrote. */
function written(name, cursors, n, from, out, room) {
    const found = byBigInts(name, cursors, n, from, out, room);
    if (found < 0) throw refused(found, "sequences", n);
    return found;
}

/** All sequences that a user gave, of which each is one that is not freed. */
function allOf(sequences) {
    if (!isIterable(sequences)) throw mustBe("sequences", "an array or another iterable of EliasFano values", sequences);
    const all = Array.from(sequences);
    all.forEach((it, k) => partsOf(it, `item ${k} of sequences`));
    return all;
}

/** Runs each(out, count) over the first `most` numbers from `from` on, block by block. */
function eachBlock(name, sequences, { from, most }, each) {
    withCursors(sequences, BLOCK, (cursors, n, out) => {
        for (let next = from, left = most, more = true; more;) {
            const room = Math.min(BLOCK, left), count = written(name, cursors, n, next, out, room);
            const last = count > 0 ? wordsAt(out, count)[count - 1] : MOST; // before each(), which changes what stands there
            each(out, count);
            left -= count;
            next = last + 1n;
            more = count === room && left > 0 && last < MOST;
        }
    });
}

/** The first `limit` numbers from `from` on, of sequences that a user gave. */
function merged(name, all, from, limit) {
    const found = [], range = { from: big(from, "from"), most: limit === undefined ? Infinity : place(limit, "limit") };
    eachBlock(name, all, range, (out, count) => {
        for (const it of copyOut(out, count, "plain", false)) found.push(it);
    });
    return found;
}

/** How many numbers a call finds in sequences. */
export function countMerged(name, sequences) {
    let sum = 0;
    eachBlock(name, sequences, { from: 0n, most: Infinity }, (_, count) => { sum += count; });
    return sum;
}

/** The numbers from `from` on that each of the sequences has, ascending and each once, the first `limit` of them. RangeError
 *  where there is no sequence. */
export function intersect(sequences, from = 0, limit = undefined) {
    const all = allOf(sequences);
    if (all.length === 0) throw new RangeError("bitm: sequences is an empty list: what all of no sequences have is every number");
    return merged("bitm_cursors_intersect", all, from, limit);
}

/** The numbers from `from` on that any of the sequences has, likewise. */
export function union(sequences, from = 0, limit = undefined) { return merged("bitm_cursors_union", allOf(sequences), from, limit); }

/** Runs body(at, n) over all n numbers in memory that a call finds in sequences, which are no more than `most`. */
export function withMerged(name, sequences, most, body) {
    return withCursors(sequences, most, (cursors, n, out) => body(out, written(name, cursors, n, 0, out, most)));
}
