import { bySeeds } from "./collisions.js";
import { BESIDE, bytesAt, calls, numberAt } from "./core.js";
import { Copied, InBlock, openedAs } from "./in_block.js";
import { callback, isIterable, mustBe, optionsOf } from "./given.js";
import { BITM_LIST_COUNTS, BITM_STRINGS } from "./layout.js";
import { withHash } from "./levels.js";
import { copyIn, copyOut } from "./lists.js";
import { dispose, withRoom } from "./memory.js";
import { WrongTables, big, called, must, orNone, orThrow, place } from "./numbers.js";
import { inOrder, textBytes, withBytes } from "./patterns.js";
import { shows } from "./shown.js";

const KIND = { name: "Strings", open: "bitm_strings_open", check: "bitm_strings_check", layout: BITM_STRINGS };
const decoder = new TextDecoder("utf-8", { ignoreBOM: true });
/** The seeds that are tried where none is given. */
const SEEDS = [0n, 1n];

/**
 * Copies strings into memory, one after another with where each ends, and runs body([bytes, how many, ends, how many], areEqual),
 * where areEqual(i, j) says whether two of them are equal.
 */
function withStrings(given, body) {
    if (!isIterable(given)) throw mustBe("strings", "an array or another iterable of strings and Uint8Arrays", given);
    const all = Array.from(given).map((it, k) => textBytes(it, "strings", k)), n = all.length, ends = new Float64Array(n);
    let length = 0;
    all.forEach((it, k) => (ends[k] = length += it.length));
    return withRoom(8 * n + length, at => {
        const text = at + 8 * n, room = bytesAt(text, length);
        all.forEach((it, k) => room.set(it, ends[k] - it.length));
        copyIn(ends, at, "strings");
        const copyOf = k => bytesAt(text, length).subarray(k === 0 ? 0 : ends[k - 1], ends[k]);
        return body([text, length, at, n], (i, j) => inOrder(copyOf(i), copyOf(j)) === 0);
    });
}

/** Numbers for strings, with the strings: each of n strings has a number of its own below n, and nothing else has. */
export class Strings {
    #held;
    #length;

    /**
     * Strings (as UTF-8) or Uint8Arrays, no two equal. percent: 100 takes least memory, 200 less time; seed is the key of
     * their hashes, SipHash-1-3: unless it is given 0, and 1 where that gives two strings one hash. progress(done, total) is
     * called after each level of the hash, with how many strings have a number so far.
     */
    constructor(strings, options) {
        if (strings instanceof Copied) this.#held = new InBlock(KIND, this, strings);
        else this.#build(strings, optionsOf(options));
        this.#length = this.#held.member("hash_keys");
    }

    #build(strings, { percent = 100, seed, progress }) {
        const seeds = seed === undefined ? SEEDS : [big(seed, "seed")];
        const how = { percent, tries: undefined, progress: callback(progress) };
        withStrings(strings, (spelled, areEqual) => withRoom(16 * spelled[3], hashes => {
            const n = spelled[3], moved = hashes + 8 * n;
            const build = it => {
                must(called("bitm_strings_hashes", ...spelled, it, hashes, n), "strings");
                bytesAt(moved, 8 * n).set(bytesAt(hashes, 8 * n));
                return withHash(moved, n, how, hash => this.#of(spelled, it, hash));
            };
            bySeeds(seeds, "strings", { hashes, moved, n }, build, areEqual);
        }));
    }

    /** Writes the block of the hash by a seed, and of the strings. */
    #of(spelled, seed, hash) {
        const [, length, , n] = spelled;
        const words = orThrow(calls.bitm_strings_size(hash.words_len, hash.sizes_len, n, length), "strings", n);
        this.#held = new InBlock(KIND, this, words, to => {
            must(called("bitm_strings_build", hash.at, seed, ...spelled, to, words), "strings");
        });
    }

    /**
     * The strings in the bytes of a block, as toBytes() gives them and the C library writes them; they are copied once. Unless
     * `check` is false, all of them are looked at, and WrongTables is thrown where they are not as they were written; without
     * that, a string may have no number, but a number that is found is that of the string which stands there.
     */
    static open(bytes, options) { return openedAs(Strings, KIND, bytes, options); }

    /** How many strings there are. */
    get length() { return this.#length; }

    /** How many bytes the block has. */
    get byteLength() { return this.#held.byteLength; }

    /** The seed of the hashes. */
    get seed() { return this.#held.member("seed"); }

    /** The number of a string (as UTF-8) or of bytes, below length; undefined for what is none of the strings. And whether it is one. */
    find(string) {
        return withBytes(textBytes(string, "string"), (at, n) => orNone(calls.bitm_strings_find(this.#held.at, at, n), "string", n));
    }
    has(string) { return this.find(string) !== undefined; }

    /** The numbers of several strings, as find() answers them. */
    findList(strings) {
        return withStrings(strings, spelled => withRoom(8 * spelled[3], out => {
            must(calls.bitm_strings_find_list(this.#held.at, ...spelled, out, spelled[3], BESIDE), "strings");
            if (numberAt(BESIDE + BITM_LIST_COUNTS.wrong) !== 0) throw new WrongTables();
            return copyOut(out, spelled[3], "plain", true);
        }));
    }

    /** The string of a number, as bytes; undefined where there is none. */
    get(number) {
        const length = orNone(calls.bitm_strings_get(this.#held.at, place(number, "number"), BESIDE), "number", number);
        return length === undefined ? undefined : bytesAt(this.#held.member("bytes") + numberAt(BESIDE), length).slice();
    }

    /** The same as a string, of bytes in UTF-8; U+FFFD where they are none. */
    text(number) {
        const bytes = this.get(number);
        return bytes && decoder.decode(bytes);
    }

    /** The strings, as bytes, in the order of their numbers. */
    *[Symbol.iterator]() { for (let k = 0; k < this.#length; k++) yield this.get(k); }

    /** Whether the block is as it was written and holds strings, by going over all of it. */
    check() { return this.#held.check(); }

    /** The bytes of the block: what open() takes, and the C library and its other bindings. */
    toBytes() { return this.#held.toBytes(); }

    /** Gives the memory back at once. */
    free() { this.#held.free(); }
    [dispose]() { this.free(); }
}

shows(Strings, "Strings", it => ({ strings: it.length }));
