import { BESIDE, bytesAt, calls } from "./core.js";
import { BitVector, wordsOf } from "./bit_vector.js";
import { optionsOf } from "./given.js";
import { Copied, InBlock } from "./in_block.js";
import { BITM_INDEX } from "./layout.js";
import { answers, chunks } from "./lists.js";
import { dispose } from "./memory.js";
import { must, orNone, orThrow, place, within } from "./numbers.js";
import { attachSamples, withSamples } from "./samples.js";
import { shows } from "./shown.js";

export const KIND = { name: "Index", open: opened, check: "bitm_index_block_check", layout: BITM_INDEX };

/** Opens a block of bits, with the samples that it has. Writes the struct. */
function opened(block, words, at) {
    if (calls.bitm_index_block_open(block, words, at) !== 0) return false;
    attachSamples(block, words, at);
    return true;
}

/** Words in our memory, of which an index is built: `logs` has the logarithm of the distance of samples for ones and for zeros. */
export class Words {
    constructor(at, words_len, length, logs) {
        Object.assign(this, { at, words_len, length, logs });
    }
}

/** Bits that do not change, with tables to count and find them at once. */
export class Index {
    #held;
    #length;
    #words; // where the words stand, and how many there are

    /** Copies the bits. With sampleLog2 (7 to 31) selections are faster: one number for each 2^sampleLog2 bits of a kind. */
    constructor(bits, options) {
        if (bits instanceof Copied) this.#held = new InBlock(KIND, this, bits);
        else this.#build(bits instanceof Words ? bits : wordsGiven(bits, optionsOf(options)));
        this.#length = this.#held.member("bits_len");
        this.#words = [this.#held.member("words"), this.#held.member("words_len")];
    }

    #build({ at, words_len, length, logs }) {
        const words = orThrow(calls.bitm_index_block_size(length), "length", length);
        const fill = block => must(calls.bitm_index_block_build(at, words_len, length, block, words), "bits");
        const made = (size, write) => { this.#held = new InBlock(KIND, this, size, write); };
        if (logs.ones || logs.zeros) withSamples({ words, fill }, logs, made);
        else made(words, fill);
    }

    static fromPositions(positions, length, options) { return indexOf(BitVector.fromPositions(positions, length), options); }
    static fromBooleans(bits, options) { return indexOf(BitVector.fromBooleans(bits), options); }

    get length() { return this.#length; }

    /** How many bytes the block with bits, tables and samples has. */
    get byteLength() { return this.#held.byteLength; }

    get(position) {
        const at = this.#held.at && this.#words[0];
        return orThrow(calls.bitm_bits_get(at, this.#words[1], this.#length, place(position, "position")), "position", position) === 1;
    }

    /** How many 1 bits, or 0 bits, there are before a position. */
    rank(position) {
        const got = calls.bitm_index_rank(this.#held.at, 1, typeof position === "number" ? position : place(position, "position"));
        return got >= 0 ? got : orThrow(got, "position", position);
    }
    rank0(position) {
        const got = calls.bitm_index_rank(this.#held.at, 0, typeof position === "number" ? position : place(position, "position"));
        return got >= 0 ? got : orThrow(got, "position", position);
    }

    /** The position of the 1 bit, or 0 bit, that has `rank` of them before it; undefined where there is none. */
    select(rank) {
        const got = calls.bitm_index_select(this.#held.at, 1, typeof rank === "number" ? rank : place(rank, "rank"));
        return got >= 0 ? got : orNone(got, "rank", rank);
    }
    select0(rank) {
        const got = calls.bitm_index_select(this.#held.at, 0, typeof rank === "number" ? rank : place(rank, "rank"));
        return got >= 0 ? got : orNone(got, "rank", rank);
    }

    /** The position of the first 1 bit, or 0 bit, at or after `from`; of the last one at or before it. */
    next(from) { return orNone(calls.bitm_index_next(this.#held.at, 1, place(from, "from")), "from", from); }
    next0(from) { return orNone(calls.bitm_index_next(this.#held.at, 0, place(from, "from")), "from", from); }
    previous(from) { return orNone(calls.bitm_index_previous(this.#held.at, 1, place(from, "from")), "from", from); }
    previous0(from) { return orNone(calls.bitm_index_previous(this.#held.at, 0, place(from, "from")), "from", from); }

    /** How many 1 bits, or 0 bits, there are. */
    count() { return this.rank(this.length); }
    count0() { return this.rank0(this.length); }

    /** Lists: an array of the same kind as the queries, see README.md. */
    rankList(positions) { return this.#list("bitm_index_rank_list", 1, positions, "positions", "throw"); }
    rank0List(positions) { return this.#list("bitm_index_rank_list", 0, positions, "positions", "throw"); }
    selectList(ranks) { return this.#list("bitm_index_select_list", 1, ranks, "ranks", "fill"); }
    select0List(ranks) { return this.#list("bitm_index_select_list", 0, ranks, "ranks", "fill"); }

    #list(name, one, given, what, missing) {
        return answers([[given, what]], missing, (n, out, at) => calls[name](this.#held.at, one, at, n, out, n, BESIDE));
    }

    /** The positions of the 1 bits, or 0 bits, from `from` on, in increasing order. */
    ones(from = 0) { return this.#positions(1, from); }
    zeros(from = 0) { return this.#positions(0, from); }

    #positions(one, from) {
        const fetch = (begin, at, size) => calls.bitm_index_positions(this.#held.at, one, begin, at, size);
        return chunks(fetch, place(from, "from"), (_, found) => found.at(-1) + 1);
    }

    *[Symbol.iterator]() {
        for (let k = 0; k < this.length; k++) yield this.get(k);
    }

    /** The bits, as a vector of its own. */
    toBitVector() {
        const at = this.#held.at && this.#words[0];
        return BitVector.fromBytes(bytesAt(at, 8 * this.#words[1]).slice(), this.#length);
    }

    /** Whether the block is as it was written and holds bits with their tables, by going over all of it. */
    check() { return this.#held.check(); }

    /** The bytes of the block: what open() takes, and the C library and its other bindings. */
    toBytes() { return this.#held.toBytes(); }

    /** Gives the memory back at once. */
    free() { this.#held.free(); }
    [dispose]() { this.free(); }
}

shows(Index, "Index", it => ({ bits: it.length, ones: it.count() }));

/** The words of a vector that a user gave, with samples as options say. */
function wordsGiven(bits, options) {
    const log2 = options.sampleLog2 === undefined ? 0 : within(options.sampleLog2, 7, 31, "sampleLog2");
    return new Words(...wordsOf(bits, "bits"), { ones: log2, zeros: log2 });
}

function indexOf(bits, options) {
    try {
        return new Index(bits, options);
    } finally {
        bits.free();
    }
}
