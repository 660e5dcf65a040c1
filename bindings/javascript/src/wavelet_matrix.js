import { BESIDE, calls, wordsAt } from "./core.js";
import { tooWide } from "./faults.js";
import { Copied, InBlock, openedAs } from "./in_block.js";
import { callback, flag, optionsOf } from "./given.js";
import { BITM_MATRIX, STATUS } from "./layout.js";
import { answers, copyIn, copyOut, itemsAt, numbersOf } from "./lists.js";
import { dispose, withRoom } from "./memory.js";
import { answerOf, must, orNone, orThrow, place, rangeOf, upTo, whole, within } from "./numbers.js";
import { shows } from "./shown.js";
import { bitsToStore } from "./words.js";

const KIND = { name: "WaveletMatrix", open: "bitm_matrix_open", check: "bitm_matrix_check", layout: BITM_MATRIX };
/** How many numbers of a range a call writes. */
const PAGE = 512, MOST = 2n ** 64n - 1n;

/** Numbers in any order: where and how often each of them is, and which of a range are the least. */
export class WaveletMatrix {
    #held;
    #length;
    #width;

    /**
     * The numbers. Each is kept in `width` bits (1 to 64), which is as many as the largest has unless it is given. With `quarters`
     * the block takes an eighth more, and most queries read fewer words. With `hints` it takes a quarter of the numbers' bits
     * more, and select() reads fewer words. progress(done, total) is called after each of `width` levels.
     */
    constructor(numbers, options) {
        if (numbers instanceof Copied) this.#held = new InBlock(KIND, this, numbers);
        else this.#build(numbersOf(numbers, "numbers").items, optionsOf(options));
        this.#length = this.#held.member("len");
        this.#width = this.#held.member("width");
    }

    #build(items, options) {
        const n = items.length, quarters = flag(options.quarters, "quarters", false), hints = flag(options.hints, "hints", false);
        const progress = callback(options.progress);
        const given = options.width === undefined ? undefined : within(options.width, 1, 64, "width");
        withRoom(24 * n, list => {
            copyIn(items, list, "numbers");
            const width = given ?? widthOf(items), words = orThrow(calls.bitm_matrix_size(n, width, quarters, hints), "numbers", n);
            const how = { list, n, width, quarters, hints, scratch: list + 8 * n, words };
            this.#held = new InBlock(KIND, this, words, at => (progress ? byLevels(how, at, progress) : atOnce(how, at)));
        });
    }

    /**
     * The matrix in the bytes of a block, as toBytes() gives them and the C library writes them; they are copied once. Unless
     * `check` is false, all of them are looked at, and WrongTables is thrown where they are not as they were written; without
     * that, answers may be wrong, but no index is past the end, and no number has more bits than the width.
     */
    static open(bytes, options) { return openedAs(WaveletMatrix, KIND, bytes, options); }

    /** How many numbers there are. */
    get length() { return this.#length; }

    /** How many bits each has at most. */
    get width() { return this.#width; }

    /** How many bytes the block has. */
    get byteLength() { return this.#held.byteLength; }

    /** The number at an index. */
    get(index) { return orThrow(calls.bitm_matrix_get(this.#held.at, place(index, "index")), "index", index); }

    /** How many of the numbers before an index are this one; of all, unless the index is given. */
    rank(number, index = this.#length) {
        const got = answerOf("bitm_matrix_rank", this.#held.at, whole(number, "number"), upTo(index, this.#length, "index"));
        return orThrow(got, "index", index);
    }

    /** The index of this number that has `rank` such numbers before it; undefined where there is none. */
    select(number, rank) {
        return orNone(answerOf("bitm_matrix_select", this.#held.at, whole(number, "number"), place(rank, "rank")), "rank", rank);
    }

    /** How many numbers from index begin on and before end are less than bound. */
    countLess(bound, begin = 0, end = this.#length) {
        return orThrow(this.#ofRange("bitm_matrix_count_less", begin, end, whole(bound, "bound")), "end", end);
    }

    /** The number of a range that would stand at index k if the range were sorted; undefined where it has no more than k. */
    quantile(k, begin = 0, end = this.#length) {
        return orNone(this.#ofRange("bitm_matrix_quantile", begin, end, place(k, "k")), "k", k);
    }

    /** The least number of a range that is at least bound, and the greatest that is less; undefined where there is none. */
    nextValue(bound, begin = 0, end = this.#length) {
        return orNone(this.#ofRange("bitm_matrix_next_value", begin, end, whole(bound, "bound")), "bound", bound);
    }
    previousValue(bound, begin = 0, end = this.#length) {
        return orNone(this.#ofRange("bitm_matrix_previous_value", begin, end, whole(bound, "bound")), "bound", bound);
    }

    #ofRange(name, begin, end, number) {
        return answerOf(name, this.#held.at, ...this.#range(begin, end), number);
    }

    #range(begin, end, names = undefined) { return rangeOf(begin, end, this.#length, names); }

    /** The distinct numbers of a range, ascending, each as `[number, count]`: how often the range has it. */
    distinct(begin = 0, end = this.#length) {
        const range = this.#range(begin, end);
        return this.#pages((from, numbers, counts) => answerOf("bitm_matrix_distinct", this.#held.at, ...range, from, numbers, PAGE, counts, PAGE), paired);
    }

    /** The k most frequent numbers of a range, or all, as distinct() has them: the most frequent first, of equally frequent ones the least. */
    top(k, begin = 0, end = this.#length) {
        const [from, to] = this.#range(begin, end), room = Math.min(place(k, "k"), to - from, 2 ** this.#width);
        return withRoom(16 * room, numbers => {
            const counts = numbers + 8 * room;
            return paired(numbers, counts, orThrow(calls.bitm_matrix_top(this.#held.at, from, to, numbers, room, counts, room), "k", k));
        });
    }

    /** The numbers that are in both of two ranges, ascending and each once. Pass the shorter range first. */
    intersect(begin, end, otherBegin, otherEnd) {
        const ranges = [...this.#range(begin, end), ...this.#range(otherBegin, otherEnd, ["otherBegin", "otherEnd"])];
        return this.#pages((from, numbers) => answerOf("bitm_matrix_intersect", this.#held.at, ...ranges, from, numbers, PAGE),
            (numbers, _, n) => copyOut(numbers, n, "plain", false));
    }

    /** All numbers of a call that writes a page of them from a number on: fetch(from, numbers, counts) says how many. */
    #pages(fetch, taken) {
        const all = [];
        return withRoom(16 * PAGE, numbers => {
            const counts = numbers + 8 * PAGE;
            for (let from = 0, n = PAGE; n === PAGE && from <= MOST;) {
                n = orThrow(fetch(from, numbers, counts), "end", from);
                const last = n === 0 ? 0n : wordsAt(numbers, n)[n - 1];
                for (const it of taken(numbers, counts, n)) all.push(it);
                from = last < 2n ** 53n - 1n ? Number(last) + 1 : last + 1n;
            }
            return all;
        });
    }

    /** Lists: an array of the same kind as the first list, see README.md. */
    getList(indices) {
        return itemsAt(indices, this.#length, (n, out, at) => calls.bitm_matrix_get_list(this.#held.at, at, n, out, n));
    }

    /** rank of each numbers[i] before indices[i]; select of each numbers[i] with ranks[i]. */
    rankList(numbers, indices) {
        return answers([[numbers, "numbers"], [indices, "indices"]], "throw",
            (n, out, at, before) => calls.bitm_matrix_rank_list(this.#held.at, at, n, before, n, out, n, BESIDE));
    }
    selectList(numbers, ranks) {
        return answers([[numbers, "numbers"], [ranks, "ranks"]], "fill",
            (n, out, at, them) => calls.bitm_matrix_select_list(this.#held.at, at, n, them, n, out, n, BESIDE));
    }

    *[Symbol.iterator]() {
        for (let k = 0; k < this.#length; k++) yield this.get(k);
    }

    /** Whether the block is as it was written and holds a wavelet matrix, by going over all of it. */
    check() { return this.#held.check(); }

    /** The bytes of the block: what open() takes, and the C library and its other bindings. */
    toBytes() { return this.#held.toBytes(); }

    /** Gives the memory back at once. */
    free() { this.#held.free(); }
    [dispose]() { this.free(); }
}

shows(WaveletMatrix, "WaveletMatrix", it => ({ numbers: it.length, width: it.width }));

function atOnce({ list, n, width, quarters, hints, scratch, words }, at) {
    const got = calls.bitm_matrix_build(list, n, width, quarters, hints, scratch, 2 * n, at, words);
    if (got === -STATUS.WRONG) throw tooWide(list, n, "number", width);
    must(got, "numbers");
}

/** Builds the same block level by level. progress() may run code of the user's. */
function byLevels({ list, n, width, quarters, hints, scratch, words }, at, progress) {
    const fault = tooWide(list, n, "number", width);
    if (fault) throw fault;
    for (let depth = 0; depth < width; depth++) {
        must(calls.bitm_matrix_write_level(list, n, width, quarters, hints, depth, scratch, n, at, words), "numbers");
        if (depth === width - 1) must(calls.bitm_matrix_seal(n, width, quarters, hints, at, words), "numbers");
        progress(depth + 1, width);
    }
}

/** n numbers in memory, each with its count. */
function paired(numbers, counts, n) {
    const often = copyOut(counts, n, "plain", false);
    return copyOut(numbers, n, "plain", false).map((it, k) => [it, often[k]]);
}

/** How many bits the largest has; 1 where there is none. */
function widthOf(items) {
    const largest = items.reduce((most, it) => (it > most ? it : most), items instanceof BigUint64Array ? 0n : 0);
    return Math.max(bitsToStore(largest), 1);
}
