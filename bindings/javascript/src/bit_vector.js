import { bytesAt, calls, wasm, wordsAt } from "./core.js";
import { arrayKind, bytesOf, isIterable, mustBe, mustBeAttached } from "./given.js";
import { STATUS } from "./layout.js";
import { chunks, copyIn, copyOut, numbersOf } from "./lists.js";
import { Block, dispose, freed, withRoom } from "./memory.js";
import { big, must, noRange, orNone, orThrow, pastEnd, place, refused, upTo, within } from "./numbers.js";
import { shows } from "./shown.js";

const MOST_BITS = 2 ** 50;
/** How many words are combined at a time where the result is counted alone. */
const PIECE = 1024;

/**
 * Where the words of a vector stand, how many there are, and how many bits: for the other values of this package. TypeError where
 * what a user gave is no BitVector, which the name says, or one that was freed.
 */
export let wordsOf;

/** A fixed number of bits, each 0 or 1. Bit i is bit i % 64, lowest first, of word i / 64. */
export class BitVector {
    #block;
    #words;
    #length;

    static { wordsOf = (it, name) => [BitVector.#given(it, name).#live(), it.#words, it.#length]; }

    /** The vector that a user gave, of this class by its own members and not by what it says of itself. */
    static #given(it, name) {
        if (typeof it !== "object" || it === null || !(#block in it)) throw mustBe(name, "a BitVector", it);
        return it;
    }

    /** All bits are 0. */
    constructor(length) {
        this.#length = upTo(length, MOST_BITS, "length");
        this.#words = calls.bitm_bits_words_len(this.#length);
        const bytes = 8 * this.#words;
        this.#block = new Block(bytes).heldBy(this, at => bytesAt(at, bytes).fill(0));
    }

    /** A new vector, which fill(it) fills, and which is freed where that throws. */
    static #filled(length, fill) {
        const made = new BitVector(length);
        try {
            fill(made);
            return made;
        } catch (it) {
            made.free();
            throw it;
        }
    }

    /** The bits at these positions are 1. Without a length, the largest position is the last bit. */
    static fromPositions(positions, length) {
        const { items } = numbersOf(positions, "positions"), n = items.length;
        return withRoom(8 * n, list => {
            copyIn(items, list, "positions");
            const bits = length === undefined ? lengthOf(items) : length;
            return BitVector.#filled(bits, made => {
                const outside = calls.bitm_bits_set_list(made.#live(), made.#words, made.#length, list, n, 1);
                if (orThrow(outside, "positions", n) === 0) return;
                const k = items.findIndex(it => it >= made.#length);
                throw pastEnd(`item ${k} of positions`, items[k], made.#length - 1);
            });
        });
    }

    /** From booleans, or numbers and BigInts that are 0 or 1. */
    static fromBooleans(bits) {
        if (!isIterable(bits)) throw mustBe("bits", "a list of booleans", bits);
        const isTyped = arrayKind(bits) !== undefined, items = Array.isArray(bits) || isTyped ? bits : Array.from(bits);
        if (isTyped) mustBeAttached(bits, "bits");
        const bytes = new Uint8Array(Math.ceil(items.length / 8));
        for (let k = 0; k < items.length; k++) {
            const bit = bitIn(items[k]);
            if (bit === undefined) throw noBit(`item ${k} of bits`, items[k]);
            if (bit) bytes[Math.floor(k / 8)] |= 1 << k % 8;
        }
        return BitVector.fromBytes(bytes, items.length);
    }

    /** From bytes, the lowest bit of each first: a Uint8Array, or any buffer or view. */
    static fromBytes(bytes, length) {
        return BitVector.#ofBytes(bytesOf(bytes, "bytes"), length);
    }

    static #ofBytes(from, length) {
        const most = Math.min(8 * from.length, MOST_BITS), bits = length === undefined ? most : upTo(length, most, "length");
        const needed = Math.ceil(bits / 8);
        return BitVector.#filled(bits, made => {
            bytesAt(made.#live(), needed).set(from.subarray(0, needed));
            must(calls.bitm_bits_clear_from(made.#live(), made.#words, bits), "length", bits);
        });
    }

    /** From 64-bit words, the lowest bit of each first. */
    static fromWords(words, length) {
        if (arrayKind(words) !== "BigUint64Array") throw mustBe("words", "a BigUint64Array", words);
        return BitVector.#ofBytes(bytesOf(words, "words"), length);
    }

    #live() {
        if (this.#block.at === 0) throw freed("BitVector");
        return this.#block.at;
    }

    get length() { return this.#length; }

    /** How many bytes of memory the bits take. */
    get byteLength() { return this.#block.at === 0 ? 0 : 8 * this.#words; }

    get(position) {
        const got = calls.bitm_bits_get(this.#live(), this.#words, this.#length, place(position, "position"));
        return orThrow(got, "position", position) === 1;
    }

    set(position, value = true) {
        const got = calls.bitm_bits_set(this.#live(), this.#words, this.#length, place(position, "position"), bitOf(value, "value"));
        if (got < 0) throw refused(got, "position", position);
        return this;
    }

    /** Makes the bits from begin on and before end equal to value. */
    fill(value = true, begin = 0, end = this.#length) {
        return this.#fill(bitOf(value, "value"), begin, end);
    }

    #fill(bit, begin, end) {
        const from = place(begin, "begin"), to = place(end, "end");
        const got = calls.bitm_bits_fill_range(this.#live(), this.#words, this.#length, from, to, bit);
        if (got !== 0) throw this.#noRange(got, begin, end);
        return this;
    }

    /** The error of a range that a call refused. */
    #noRange(got, begin, end) { return got === -STATUS.NONE ? noRange(begin, end, this.#length) : refused(got, "end", end); }

    /** Changes a single bit; each from begin on and before end; without arguments all. */
    flip(...range) {
        const isOne = range.length === 1, from = range.length ? place(range[0], isOne ? "position" : "begin") : 0;
        const to = range.length > 1 ? place(range[1], "end") : isOne ? from + 1 : this.#length;
        const got = calls.bitm_bits_flip_range(this.#live(), this.#words, this.#length, from, to);
        if (got !== 0) throw isOne ? pastEnd("position", range[0]) : this.#noRange(got, ...range);
        return this;
    }

    /** How many 1 bits there are from begin on and before end. */
    count(begin = 0, end = this.#length) { return this.#count(1, begin, end); }
    count0(begin = 0, end = this.#length) { return this.#count(0, begin, end); }

    #count(one, begin, end) {
        const from = place(begin, "begin"), to = place(end, "end");
        const got = from === 0 && to === this.#length
            ? calls.bitm_bits_count(this.#live(), this.#words, this.#length, one)
            : calls.bitm_bits_count_range(this.#live(), this.#words, this.#length, one, from, to);
        if (got < 0) throw this.#noRange(got, begin, end);
        return got;
    }

    /** The position of the first 1 bit, or 0 bit, at or after `from`; of the last one at or before it. */
    next(from) { return this.#seek("bitm_bits_next", 1, from); }
    next0(from) { return this.#seek("bitm_bits_next", 0, from); }
    previous(from) { return this.#seek("bitm_bits_previous", 1, from); }
    previous0(from) { return this.#seek("bitm_bits_previous", 0, from); }

    #seek(name, one, from) {
        return orNone(calls[name](this.#live(), this.#words, this.#length, one, place(from, "from")), "from", from);
    }

    /** The positions of the 1 bits, or 0 bits, from `from` on, in increasing order. */
    ones(from = 0) { return this.#positions(1, from); }
    zeros(from = 0) { return this.#positions(0, from); }

    #positions(one, from) {
        const fetch = (begin, at, size) => calls.bitm_bits_positions(this.#live(), this.#words, this.#length, one, begin, at, size);
        return chunks(fetch, place(from, "from"), (_, found) => found.at(-1) + 1);
    }

    /** The positions of all 1 bits. */
    toPositions() {
        const n = this.count();
        return withRoom(8 * n, at => {
            orThrow(calls.bitm_bits_positions(this.#live(), this.#words, this.#length, 1, 0, at, n), "positions", 0);
            return copyOut(at, n, "doubles", false);
        });
    }

    toBytes() { return bytesAt(this.#live(), Math.ceil(this.#length / 8)).slice(); }
    toWords() { return wordsAt(this.#live(), this.#words).slice(); }

    *[Symbol.iterator]() {
        for (let k = 0; k < this.#length; k++) yield this.get(k);
    }

    /** The number in `width` bits from begin on, lowest bit first; a BigInt if it is 2^53 or more. */
    getNumber(begin, width) {
        const got = calls.bitm_bits_get_number(this.#live(), this.#words, this.#length, place(begin, "begin"), widthOf(width));
        return orThrow(got, "the end of the number", `${width} bits from begin ${begin} on`);
    }

    /** Replaces these bits by the lowest of value; combines them with these by exclusive or. */
    setNumber(begin, width, value) { return this.#write("bitm_bits_set_number", "begin", begin, width, value); }
    xorNumber(begin, width, value) { return this.#write("bitm_bits_xor_number", "begin", begin, width, value); }

    /** The bits as an array of numbers of `width` bits: reads, replaces, exchanges; replaces each of the first `count`. */
    getFragment(index, width) {
        const got = calls.bitm_bits_get_fragment(this.#live(), this.#words, this.#length, place(index, "index"), widthOf(width));
        return orThrow(got, "index", `${index}, of fragments of ${width} bits`);
    }
    setFragment(index, width, value) { return this.#write("bitm_bits_set_fragment", "index", index, width, value); }
    swapFragments(first, second, width) {
        const a = place(first, "first"), b = place(second, "second");
        const got = calls.bitm_bits_swap_fragments(this.#live(), this.#words, this.#length, a, b, widthOf(width));
        must(got, a > b ? "first" : "second", `${Math.max(a, b)}, of fragments of ${width} bits`);
        return this;
    }
    fillFragments(width, value, count) {
        const bits = widthOf(width), number = big(value, "value"), n = place(count, "count");
        const vector = [this.#live(), this.#words, this.#length].map(BigInt);
        must(wasm.bitm_bits_fill_fragments(...vector, bits, number, BigInt(bits === 0 ? 0 : n)), "count", `${count} fragments of ${width} bits`);
        return this;
    }

    #write(name, what, at, width, value) {
        const where = BigInt(place(at, what)), bits = widthOf(width), number = big(value, "value");
        const got = wasm[name](BigInt(this.#live()), BigInt(this.#words), BigInt(this.#length), where, bits, number);
        must(got, what, `${at}, of ${width} bits`);
        return this;
    }

    /** Replaces `count` bits from begin on by those of other from otherBegin on. */
    setRange(begin, other, otherBegin = 0, count = undefined) {
        const [at, words_len, length] = wordsOf(other, "the other"), its = [at, words_len];
        const to = upTo(begin, this.#length, "begin"), from = upTo(otherBegin, length, "otherBegin"), rest = length - from;
        const n = count === undefined ? rest : upTo(count, rest, "count");
        if (n > this.#length - to) throw pastEnd("begin + count", to + n, this.#length);
        if (other !== this) return this.#copy(to, ...its, from, n);
        const words = calls.bitm_bits_words_len(n);
        return withRoom(8 * words, room => { // the call takes no words that overlap
            must(calls.bitm_bits_copy_range(room, words, 0, ...its, from, n), "count", n);
            return this.#copy(to, room, words, 0, n);
        });
    }

    #copy(to, words, words_len, from, n) {
        must(calls.bitm_bits_copy_range(this.#live(), this.#words, to, words, words_len, from, n), "count", n);
        return this;
    }

    /** A new vector of the bits from begin on and before end. */
    slice(begin = 0, end = this.#length) {
        const from = upTo(begin, this.#length, "begin"), to = upTo(end, this.#length, "end"), n = Math.max(to - from, 0);
        return BitVector.#filled(n, made => made.setRange(0, this, n === 0 ? 0 : from, n));
    }

    clone() { return this.slice(); }

    equals(other) {
        const [at, words, length] = wordsOf(other, "the other"), from = this.#live();
        if (this.#length !== length) return false;
        return orThrow(calls.bitm_bits_equal_range(from, this.#words, 0, at, words, 0, length), "the other", length) === 1;
    }

    /** These change this vector, bit by bit; other has as many bits. */
    and(other) { return this.#combine("bitm_bits_and", other, true); }
    or(other) { return this.#combine("bitm_bits_or", other, true); }
    xor(other) { return this.#combine("bitm_bits_xor", other, false); }
    andNot(other) { return this.#combine("bitm_bits_and_not", other, false); }
    not() { return this.flip(0, this.#length); }

    /** The other, if it is a vector of as many bits. */
    #alike(other) {
        const [, , length] = wordsOf(other, "the other");
        if (length !== this.#length) throw new RangeError(`bitm: the other has ${length} bits, and not ${this.#length}`);
        return other;
    }

    /** With itself a vector stays as it is, or has 0 bits alone: the call takes no words that overlap. */
    #combine(name, other, isKept) {
        const at = this.#live();
        if (this.#alike(other) === this) return isKept ? this : this.#fill(0, 0, this.#length);
        must(calls[name](at, this.#words, other.#live(), other.#words), "the other");
        return this;
    }

    /** These make a new vector, as those of Set do. */
    intersection(other) { return this.#changed(it => it.and(other)); }
    union(other) { return this.#changed(it => it.or(other)); }
    symmetricDifference(other) { return this.#changed(it => it.xor(other)); }
    difference(other) { return this.#changed(it => it.andNot(other)); }
    complement() { return this.#changed(it => it.not()); }

    /** A copy which change(it) has changed. */
    #changed(change) {
        return BitVector.#filled(this.#length, it => change(it.setRange(0, this, 0, this.#length)));
    }

    /** How many 1 bits the vectors would have that these make: none is made. */
    countIntersection(other) { return this.#countBy("bitm_bits_and", other); }
    countUnion(other) { return this.#countBy("bitm_bits_or", other); }
    countSymmetricDifference(other) { return this.#countBy("bitm_bits_xor", other); }
    countDifference(other) { return this.#countBy("bitm_bits_and_not", other); }

    /** Combines a copy of a few words at a time with those of other, and counts in these. */
    #countBy(name, other) {
        const from = this.#live(), its = this.#alike(other).#live();
        return withRoom(8 * PIECE, room => {
            const memory = new Uint8Array(wasm.memory.buffer);
            let sum = 0;
            for (let k = 0; k < this.#words; k += PIECE) {
                const n = Math.min(PIECE, this.#words - k), at = from + 8 * k;
                memory.copyWithin(room, at, at + 8 * n);
                must(calls[name](room, n, its + 8 * k, n), "the other");
                sum += orThrow(calls.bitm_bits_count(room, n, Math.min(64 * n, this.#length - 64 * k), 1), "the other", n);
            }
            return sum;
        });
    }

    /** Whether each 1 bit is one of other too; each of other is one of these; no position has a 1 bit in both. */
    isSubsetOf(other) { return this.#asks("bitm_bits_is_subset", this.#alike(other)); }
    isSupersetOf(other) { return this.#alike(other).#asks("bitm_bits_is_subset", this); }
    isDisjointFrom(other) { return !this.#asks("bitm_bits_intersects", this.#alike(other)); }

    #asks(name, other) {
        const got = calls[name](this.#live(), this.#words, other.#live(), other.#words, this.#length);
        return orThrow(got, "the other", this.#length) === 1;
    }

    /** Gives the memory back at once. */
    free() { this.#block.free(); }
    [dispose]() { this.free(); }
}

shows(BitVector, "BitVector", it => ({ bits: it.length, ones: it.count() }));

/** How many bits a vector has of which the last is at the largest of these positions. */
function lengthOf(positions) {
    const k = positions.findIndex(it => it >= MOST_BITS);
    if (k >= 0) throw pastEnd(`item ${k} of positions`, positions[k], MOST_BITS - 1);
    return positions.reduce((most, it) => (it >= most ? Number(it) + 1 : most), 0);
}

/** 0 or 1 of what is a bit, else undefined. */
function bitIn(value) {
    if (value === true || value === 1 || value === 1n) return 1;
    return value === false || value === 0 || value === 0n ? 0 : undefined;
}

function noBit(name, it) {
    if (typeof it === "number" || typeof it === "bigint") return new TypeError(`bitm: ${name} must be a boolean, or 0 or 1, and is ${it}`);
    return mustBe(name, "a boolean, or 0 or 1", it);
}

function bitOf(value, name) {
    const bit = bitIn(value);
    if (bit === undefined) throw noBit(name, value);
    return bit;
}

const widthOf = width => within(width, 0, 64, "width");
