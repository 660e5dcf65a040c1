import { BESIDE, calls, smallest, wordsAt } from "./core.js";
import { Cursor, countMerged, withMerged } from "./cursor.js";
import { unsorted } from "./faults.js";
import { mustBe } from "./given.js";
import { Copied, InBlock } from "./in_block.js";
import { BITM_SEQUENCE, STATUS } from "./layout.js";
import { answers, copyIn, copyOut, itemsAt, numbersOf } from "./lists.js";
import { dispose, withRoom } from "./memory.js";
import { WrongTables, answerOf, byBigInts, must, orNone, orThrow, place, wrongType } from "./numbers.js";
import { shows } from "./shown.js";

const CALLS = { open: "bitm_sequence_block_open", check: "bitm_sequence_block_check" };
export const KIND = { name: "EliasFano", ...CALLS, layout: BITM_SEQUENCE };

/** A list of numbers in our memory, from which a sequence is built without a copy by JavaScript. */
export class Listed {
    constructor(at, length) {
        this.at = at;
        this.length = length;
    }
}

/** Where the struct of a sequence stands: TypeError where it is no EliasFano, which the name says, or one that was freed. */
export let partsOf;

/** Numbers that do not decrease, each from 0 to 2^64 - 1, in little memory. */
export class EliasFano {
    #held;
    #length;

    static {
        partsOf = (it, name) => {
            if (typeof it !== "object" || it === null || !(#held in it)) throw mustBe(name, "an EliasFano", it);
            return it.#held.at;
        };
    }

    /** The numbers, sorted: a Uint32Array, Float64Array, BigUint64Array, or another iterable of numbers and BigInts. */
    constructor(numbers) {
        if (numbers instanceof Copied) this.#held = new InBlock(KIND, this, numbers);
        else if (numbers instanceof Listed) this.#build(numbers.at, numbers.length);
        else {
            const { items } = numbersOf(numbers, "numbers"), n = items.length;
            withRoom(8 * n, at => {
                copyIn(items, at, "numbers");
                this.#build(at, n);
            });
        }
        this.#length = this.#held.member("len");
    }

    #build(list, n) {
        const largest = n ? smallest(wordsAt(list, n)[n - 1]) : 0;
        const words = orThrow(answerOf("bitm_sequence_block_size", n, largest), "numbers", n);
        this.#held = new InBlock(KIND, this, words, at => {
            const got = calls.bitm_sequence_block_build(list, n, at, words);
            if (got === -STATUS.UNSORTED) throw unsorted(list, n, "number", false);
            must(got, "numbers");
        });
    }

    get length() { return this.#length; }

    /** How many bytes the block has. */
    get byteLength() { return this.#held.byteLength; }

    /** The number at an index, which counts from the end if it is negative; undefined where there is none. */
    at(index) {
        if (typeof index !== "number" && typeof index !== "bigint") throw wrongType("index", index);
        if (typeof index === "number" && !Number.isSafeInteger(index))
            throw new RangeError(`bitm: index must be a whole number above -2^53 and below 2^53, and is ${index}`);
        const k = index < 0 ? this.length + Number(index) : index;
        const at = this.#held.at;
        if (k < 0 || k >= this.length) return undefined;
        return orThrow(calls.bitm_sequence_get(at, Number(k)), "index", index);
    }

    /** The least index whose number is at least value; undefined where there is none. */
    firstAtLeast(value) {
        const at = this.#held.at;
        const got = typeof value === "number" ? calls.bitm_sequence_first_at_least(at, value) : byBigInts("bitm_sequence_first_at_least", at, value);
        return got >= 0 ? got : orNone(got, "value", value);
    }
    /** The greatest index whose number is at most value; undefined where there is none. */
    lastAtMost(value) {
        const at = this.#held.at;
        const got = typeof value === "number" ? calls.bitm_sequence_last_at_most(at, value) : byBigInts("bitm_sequence_last_at_most", at, value);
        return got >= 0 ? got : orNone(got, "value", value);
    }
    has(value) {
        const at = this.#held.at;
        const got = typeof value === "number" ? calls.bitm_sequence_contains(at, value) : byBigInts("bitm_sequence_contains", at, value);
        return (got >= 0 ? got : orThrow(got, "value", value)) === 1;
    }

    /** The least number that is at least value, and the greatest that is at most value; undefined where there is none. */
    successor(value) {
        const k = this.firstAtLeast(value);
        return k === undefined ? undefined : this.at(k);
    }
    predecessor(value) {
        const k = this.lastAtMost(value);
        return k === undefined ? undefined : this.at(k);
    }

    /** The least index of a number that equals value, or -1. */
    indexOf(value) {
        const k = this.firstAtLeast(value);
        return k !== undefined && this.has(value) ? k : -1;
    }

    /** Lists: an array of the same kind as the queries, see README.md. */
    atList(indices) {
        return itemsAt(indices, this.length, (n, out, at) => calls.bitm_sequence_get_list(this.#held.at, at, n, out, n));
    }
    firstAtLeastList(values) { return this.#list("bitm_sequence_first_at_least_list", values, "fill"); }
    lastAtMostList(values) { return this.#list("bitm_sequence_last_at_most_list", values, "fill"); }
    hasList(values) { return this.#list("bitm_sequence_contains_list", values, "flags"); }

    #list(name, given, missing) {
        return answers([[given, "values"]], missing, (n, out, at) => calls[name](this.#held.at, at, n, out, n, BESIDE));
    }

    /** The numbers from an index on, or from the first that is at least value on. */
    values(from = 0) { return this.#valuesAt(place(from, "from")); }
    valuesFrom(value) { return this.values(this.firstAtLeast(value) ?? this.length); }
    [Symbol.iterator]() { return this.values(); }

    *#valuesAt(from) {
        let size = 16;
        for (let k = from; k < this.length; size = Math.min(2 * size, 512)) {
            const found = this.#items(k, size);
            yield* found;
            k += found.length;
        }
    }

    #items(from, size) {
        return withRoom(8 * size, at => {
            const n = orThrow(calls.bitm_sequence_items(this.#held.at, from, at, size), "index", from);
            if (n === 0) throw new WrongTables();
            return copyOut(at, n, "plain", false);
        });
    }

    /** All numbers. */
    toArray() { return [...this]; }
    toBigUint64Array() { return this.#all("words"); }
    /** RangeError if a number is 2^53 or more. */
    toFloat64Array() { return this.#all("doubles"); }

    #all(form) {
        const n = this.length;
        return withRoom(8 * n, at => {
            if (orThrow(calls.bitm_sequence_items(this.#held.at, 0, at, n), "index", 0) < n) throw new WrongTables();
            return copyOut(at, n, form, false);
        });
    }

    /** A position at the first number, which moves forward only. */
    cursor() { return new Cursor(this); }

    /** The numbers that any of these has, each once; and those that all of them have. */
    union(...others) { return merged("bitm_cursors_union", this, others, (a, b) => a + b); }
    intersection(...others) { return merged("bitm_cursors_intersect", this, others, (a, b) => Math.min(a, b)); }

    /** How many numbers these would have: none is made. */
    countUnion(...others) { return countMerged("bitm_cursors_union", withOthers(this, others)); }
    countIntersection(...others) { return countMerged("bitm_cursors_intersect", withOthers(this, others)); }

    /** Whether the block is as it was written and holds a sequence, by going over all of it. */
    check() { return this.#held.check(); }

    /** The bytes of the block: what open() takes, and the C library and its other bindings. */
    toBytes() { return this.#held.toBytes(); }

    /** Gives the memory back at once. */
    free() { this.#held.free(); }
    [dispose]() { this.free(); }
}

shows(EliasFano, "EliasFano", it => ({ numbers: it.length }));

/** A sequence and others that a user gave, none of which is freed. */
function withOthers(first, others) {
    others.forEach((it, k) => partsOf(it, `item ${k} of others`));
    return [first, ...others];
}

/** The sequence that a call makes of several; it has no more numbers than most(a, b) of their lengths. */
function merged(name, first, others, most) {
    const sequences = withOthers(first, others);
    return withMerged(name, sequences, sequences.map(it => it.length).reduce(most), (at, n) => new EliasFano(new Listed(at, n)));
}
