import { BESIDE, bytesAt, calls, numberAt } from "./core.js";
import { notBelow } from "./faults.js";
import { Copied, InBlock, Made, openedAs } from "./in_block.js";
import { callback, mustBe, optionsOf } from "./given.js";
import { BITM_TEXT, STATUS } from "./layout.js";
import { copyIn, copyOut, numbersOf } from "./lists.js";
import { dispose, withRoom } from "./memory.js";
import { must, orThrow, place, rangeOf, upTo } from "./numbers.js";
import { encoded, withBytes, withPattern } from "./patterns.js";
import { shows } from "./shown.js";

const KIND = { name: "TextIndex", open: "bitm_text_open", check: "bitm_text_check", layout: BITM_TEXT };

const COUNT = { numbers: "bitm_text_count", bytes: "bitm_text_count_bytes" };
const LOCATE = { numbers: "bitm_text_locate", bytes: "bitm_text_locate_bytes" };

const decoder = new TextDecoder("utf-8", { ignoreBOM: true });

/** Each how many letters a position is kept, and what is called as the build goes on. */
function settingsOf(options) {
    const given = optionsOf(options), step = given.step === undefined ? 32 : place(given.step, "step");
    if (step < 1 || step >= 2 ** 32) throw new RangeError(`bitm: step must be 1 to 2^32 - 1, and is ${given.step}`);
    return { step, progress: callback(given.progress) };
}

/** The calls that write a block: at once, and in two steps. */
const OF_BYTES = { build: "bitm_text_build_bytes", order: "bitm_text_order_bytes", ordered: "bitm_text_build_ordered_bytes" };
const OF_LETTERS = { build: "bitm_text_build", order: "bitm_text_order", ordered: "bitm_text_build_ordered" };

/** Writes the block of a text: the status. progress() may run code of the user's. */
function written(names, text, scratch, block, { step, progress }) {
    if (!progress) return calls[names.build](...text, step, ...scratch, ...block);
    const got = calls[names.order](...text, ...scratch);
    if (got !== 0) return got;
    progress(1, 2);
    must(calls[names.ordered](...text, step, ...scratch, ...block), "text");
    progress(2, 2);
    return 0;
}

/** Where a pattern stands in a text, by the index of the text in one block, which is all that is needed. */
export class TextIndex {
    #held;
    #length;
    #width;
    #isOfBytes;

    constructor(block) {
        if (block instanceof Made) this.#held = new InBlock(KIND, this, block.words, block.fill);
        else if (block instanceof Copied) this.#held = new InBlock(KIND, this, block);
        else throw new TypeError("bitm: a TextIndex is made by TextIndex.of(text), or opened by TextIndex.open(bytes)");
        this.#length = this.#held.member("letters_len");
        this.#width = this.#held.member("letters_width");
        this.#isOfBytes = this.#held.member("used_len") > 0;
    }

    /**
     * The index of a text: a string, as its bytes in UTF-8, or bytes in a Uint8Array. Each `step` bytes (32) a position is kept:
     * a larger step takes less memory, and more time to find a position or a part. progress(done, total) is called after each of
     * two steps.
     */
    static of(text, options) {
        const settings = settingsOf(options), bytes = encoded(text, "text");
        if (!bytes) throw mustBe("text", "a string or a Uint8Array (TextIndex.ofLetters takes numbers)", text);
        return withBytes(bytes, (at, n) => {
            const room = orThrow(calls.bitm_text_size_bytes(at, n, settings.step, BESIDE), "text", n);
            const words = numberAt(BESIDE);
            return withRoom(4 * room, scratch => new TextIndex(new Made(words, block => {
                must(written(OF_BYTES, [at, n], [scratch, room], [block, words], settings), "text");
            })));
        });
    }

    /** The index of numbers below `letters`, for each of which 8 bytes are kept. A pattern is then a list of numbers too. */
    static ofLetters(numbers, letters, options) {
        const settings = settingsOf(options), most = 2 ** 32 - 1, below = upTo(letters, most, "letters");
        const { items } = numbersOf(numbers, "numbers"), n = items.length;
        const room = orThrow(calls.bitm_text_size_letters(n, below, settings.step, BESIDE), "numbers", n);
        const words = numberAt(BESIDE);
        return withRoom(8 * n, at => {
            copyIn(items, at, "numbers");
            return withRoom(4 * room, scratch => new TextIndex(new Made(words, block => {
                const got = written(OF_LETTERS, [at, n, below], [scratch, room], [block, words], settings);
                if (got === -STATUS.WRONG) throw notBelow(at, n, "number", below);
                must(got, "numbers");
            })));
        });
    }

    /**
     * The index in the bytes of a block, which are copied once. Unless `check` is false, all of them are looked at, and
     * WrongTables is thrown where they are not as they were written; without that, answers may be wrong, but a position is
     * one of the text's, or its end, and a count no more than there are of these.
     */
    static open(bytes, options) { return openedAs(TextIndex, KIND, bytes, options); }

    /** How many letters the text has. */
    get length() { return this.#length; }

    /** How many bits a letter takes: of bytes as many as the number of different bytes needs. */
    get width() { return this.#width; }

    /** How many bytes the block has. */
    get byteLength() { return this.#held.byteLength; }

    /** Runs body(form, at, n) over a pattern that was copied into memory; of numbers only where the text is one of numbers. */
    #with(pattern, body) {
        return withPattern(pattern, "pattern", (form, at, n) => {
            if (form === "numbers" && this.#isOfBytes) throw new TypeError("bitm: pattern must be a string or a Uint8Array: this is the index of bytes");
            return body(form, at, n);
        });
    }

    #count(form, at, n) { return orThrow(calls[COUNT[form]](this.#held.at, at, n), "pattern", n); }

    /** At how many positions a pattern stands: a string (as UTF-8) or bytes in a Uint8Array; of numbers a list of them. */
    count(pattern) { return this.#with(pattern, (...it) => this.#count(...it)); }

    /** Whether it stands anywhere. */
    has(pattern) { return this.count(pattern) > 0; }

    /**
     * The positions at which a pattern stands, in the order of the rest of the text from there on: without the first `from` of
     * them, and at most `limit`.
     */
    locate(pattern, options) {
        const { from: first = 0, limit = Number.MAX_SAFE_INTEGER } = optionsOf(options), from = place(first, "from"), most = place(limit, "limit");
        return this.#with(pattern, (form, at, n) => {
            const room = Math.min(this.#count(form, at, n), most);
            return withRoom(8 * room, out => {
                const written = orThrow(calls[LOCATE[form]](this.#held.at, at, n, from, out, room), "pattern", n);
                return copyOut(out, written, "plain", false);
            });
        });
    }

    /** All of them, in the order of the text. */
    findAll(pattern) { return this.locate(pattern).sort((a, b) => a - b); }

    /** The letter at a position, of bytes the byte. */
    get(position) {
        const at = place(position, "position");
        return withRoom(8, out => {
            if (this.#isOfBytes) {
                must(calls.bitm_text_extract_bytes(this.#held.at, at, out, 1), "position", position);
                return bytesAt(out, 1)[0];
            }
            must(calls.bitm_text_extract(this.#held.at, at, out, 1), "position", position);
            return numberAt(out);
        });
    }

    /** The letters from one position on and before another: as a Uint8Array where they are bytes, else as an array. */
    slice(from = 0, to = this.#length) {
        const [start, end] = rangeOf(from, to, this.#length, ["from", "to"]), n = end - start, text = this.#held.at;
        if (this.#width > 8 && !this.#isOfBytes) {
            return withRoom(8 * n, out => {
                must(calls.bitm_text_extract(text, start, out, n), "from", start);
                return copyOut(out, n, "plain", false);
            });
        }
        return withRoom(n, out => {
            must(calls.bitm_text_extract_bytes(text, start, out, n), "from", start);
            return bytesAt(out, n).slice();
        });
    }

    /** The same as a string, of bytes in UTF-8; U+FFFD where they are none. TypeError where letters have more than 8 bits. */
    text(from = 0, to = this.#length) {
        const letters = this.slice(from, to);
        if (Array.isArray(letters)) throw new TypeError("bitm: the letters are numbers and no bytes: slice() has them");
        return decoder.decode(letters);
    }

    /** Whether the block is as it was written and holds the index of a text, by going over all of it and through the text. */
    check() { return this.#held.check(); }

    /** The bytes of the block: what open() takes, and the C library and its other bindings. */
    toBytes() { return this.#held.toBytes(); }

    /** Gives the memory back at once. */
    free() { this.#held.free(); }
    [dispose]() { this.free(); }
}

shows(TextIndex, "TextIndex", it => ({ letters: it.length, width: it.width }));
