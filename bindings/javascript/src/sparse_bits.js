import { BESIDE, calls } from "./core.js";
import { notBelow, unsorted } from "./faults.js";
import { Copied, InBlock, openedAs } from "./in_block.js";
import { BITM_SPARSE, STATUS } from "./layout.js";
import { answers, copyIn, numbersOf } from "./lists.js";
import { dispose, withRoom } from "./memory.js";
import { WrongTables, must, orNone, orThrow, place, upTo } from "./numbers.js";
import { shows } from "./shown.js";

const MOST_BITS = Number.MAX_SAFE_INTEGER;
const KIND = { name: "SparseBits", open: "bitm_sparse_open", check: "bitm_sparse_check", layout: BITM_SPARSE };

/** Bits of which few are 1 bits, and that do not change: the positions of these alone take memory. */
export class SparseBits {
    #held;
    #length;
    #ones;

    /** The positions of the 1 bits, each greater than the one before it; and how many bits there are: up to the last 1 bit,
     *  unless it is given. */
    constructor(positions, length) {
        if (positions instanceof Copied) this.#held = new InBlock(KIND, this, positions);
        else this.#build(numbersOf(positions, "positions").items, length);
        this.#length = this.#held.member("bits_len");
        this.#ones = this.#held.member("positions_len");
        if (typeof this.#length !== "bigint") return;
        this.free();
        throw new RangeError("bitm: there are more than 2^53 - 1 bits");
    }

    #build(items, given) {
        const n = items.length, last = n === 0 ? 0 : place(items[n - 1], `item ${n - 1} of positions`);
        const length = given === undefined ? Math.min(n === 0 ? 0 : last + 1, MOST_BITS) : upTo(given, MOST_BITS, "length");
        withRoom(8 * n, list => {
            copyIn(items, list, "positions");
            const words = orThrow(calls.bitm_sparse_size(n, last), "positions", n);
            this.#held = new InBlock(KIND, this, words, at => {
                const got = calls.bitm_sparse_build(list, n, length, at, words);
                if (got === -STATUS.WRONG) throw notBelow(list, n, "position", length);
                if (got === -STATUS.UNSORTED) throw unsorted(list, n, "position", true);
                must(got, "positions");
            });
        });
    }

    /**
     * The bits in the bytes of a block, as toBytes() gives them and the C library writes them; they are copied once. Unless
     * `check` is false, all of them are looked at, and WrongTables is thrown where they are not as they were written; without
     * that, answers may be wrong, but no position is past the end, and a rank is at most its position.
     */
    static open(bytes, options) { return openedAs(SparseBits, KIND, bytes, options); }

    /** How many bits there are. */
    get length() { return this.#length; }

    /** How many bytes the block has. */
    get byteLength() { return this.#held.byteLength; }

    /** The bit at a position. */
    get(position) { return orThrow(calls.bitm_sparse_get(this.#held.at, place(position, "position")), "position", position) === 1; }

    /** How many 1 bits, or 0 bits, there are before a position. */
    rank(position) { return orThrow(calls.bitm_sparse_rank(this.#held.at, 1, place(position, "position")), "position", position); }
    rank0(position) { return orThrow(calls.bitm_sparse_rank(this.#held.at, 0, place(position, "position")), "position", position); }

    /** The position of the 1 bit, or 0 bit, that has `rank` of them before it; undefined where there is none. */
    select(rank) { return orNone(calls.bitm_sparse_select(this.#held.at, 1, place(rank, "rank")), "rank", rank); }
    select0(rank) { return orNone(calls.bitm_sparse_select(this.#held.at, 0, place(rank, "rank")), "rank", rank); }

    /** The position of the first 1 bit, or 0 bit, at or after `from`; of the last one at or before it. */
    next(from) { return orNone(calls.bitm_sparse_next(this.#held.at, 1, place(from, "from")), "from", from); }
    next0(from) { return orNone(calls.bitm_sparse_next(this.#held.at, 0, place(from, "from")), "from", from); }
    previous(from) { return orNone(calls.bitm_sparse_previous(this.#held.at, 1, place(from, "from")), "from", from); }
    previous0(from) { return orNone(calls.bitm_sparse_previous(this.#held.at, 0, place(from, "from")), "from", from); }

    /** How many 1 bits, or 0 bits, there are. */
    count() { return this.#ones; }
    count0() { return this.#length - this.#ones; }

    /** Lists: an array of the same kind as the queries, see README.md. */
    getList(positions) {
        return answers([[positions, "positions"]], "flags", (n, out, at) => calls.bitm_sparse_get_list(this.#held.at, at, n, out, n, BESIDE));
    }
    rankList(positions) { return this.#list("bitm_sparse_rank_list", 1, positions, "positions", "throw"); }
    rank0List(positions) { return this.#list("bitm_sparse_rank_list", 0, positions, "positions", "throw"); }
    selectList(ranks) { return this.#list("bitm_sparse_select_list", 1, ranks, "ranks", "fill"); }
    select0List(ranks) { return this.#list("bitm_sparse_select_list", 0, ranks, "ranks", "fill"); }

    #list(name, one, given, what, missing) {
        return answers([[given, what]], missing, (n, out, at) => calls[name](this.#held.at, one, at, n, out, n, BESIDE));
    }

    /** The positions of the 1 bits, or 0 bits, from `from` on, in increasing order; none from past the end. */
    ones(from = 0) { return this.#onesFrom(place(from, "from")); }
    zeros(from = 0) { return this.#zerosFrom(place(from, "from")); }

    *#onesFrom(from) {
        for (let k = this.rank(Math.min(from, this.#length)); k < this.#ones; k++) yield this.#one(k);
    }

    /** The 0 bits fill the gaps between the 1 bits: a query for each gap, and none for a 0 bit. */
    *#zerosFrom(from) {
        let at = from;
        for (let k = this.rank(Math.min(from, this.#length)); at < this.#length; k++) {
            const end = k < this.#ones ? this.#one(k) : this.#length;
            if (end < at) throw new WrongTables();
            while (at < end && this.#held.at) yield at++; // it throws if they were freed meanwhile
            at = end + 1;
        }
    }

    /** The position of 1 bit k, which there is. */
    #one(k) {
        const position = this.select(k);
        if (position === undefined) throw new WrongTables();
        return position;
    }

    /** Whether the block is as it was written and holds sparse bits, by going over all of it. */
    check() { return this.#held.check(); }

    /** The bytes of the block: what open() takes, and the C library and its other bindings. */
    toBytes() { return this.#held.toBytes(); }

    /** Gives the memory back at once. */
    free() { this.#held.free(); }
    [dispose]() { this.free(); }
}

shows(SparseBits, "SparseBits", it => ({ bits: it.length, ones: it.count() }));
