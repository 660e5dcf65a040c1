import { bySeeds } from "./collisions.js";
import { BESIDE, bytesAt, calls, doublesAt, numberAt, put, smallest, wordsAt } from "./core.js";
import { Copied, InBlock, openedAs } from "./in_block.js";
import { callback, optionsOf } from "./given.js";
import { BITM_DICTIONARY, BITM_HASH, BITM_LIST_COUNTS } from "./layout.js";
import { withHash } from "./levels.js";
import { answers, copyIn, numbersOf } from "./lists.js";
import { dispose, withRoom } from "./memory.js";
import { WrongTables, answerOf, big, must, orNone, orThrow, whole } from "./numbers.js";
import { shows } from "./shown.js";

const KIND = { name: "Dictionary", open: "bitm_dictionary_open", check: "bitm_dictionary_check", layout: BITM_DICTIONARY };
/** How many keys are copied at a time. */
const PIECE = 512;

/** Writes the hashes of n keys: their sums with the seed, which wrap. */
function putHashes(keys, n, salt, to) {
    const hashes = wordsAt(to, n), from = wordsAt(keys, n);
    for (let k = 0; k < n; k++) hashes[k] = from[k] + salt;
}

/** Numbers for keys that are whole numbers, with the keys: each of n keys has a number of its own below n, and nothing else has. */
export class Dictionary {
    #held;
    #length;

    /**
     * The keys, no two equal, each 0 to 2^64 - 1. percent: 100 takes least memory, 200 less time; seed is added to a key to hash
     * it. progress(done, total) is called after each level of the hash, with how many keys have a number so far.
     */
    constructor(keys, options) {
        if (keys instanceof Copied) this.#held = new InBlock(KIND, this, keys);
        else this.#build(numbersOf(keys, "keys").items, optionsOf(options));
        this.#length = this.#held.member("keys_len");
    }

    /** Rooms for the keys, their hashes, and the keys at their numbers, where the build moves the hashes before. */
    #build(items, { percent = 100, seed = 0, progress }) {
        const n = items.length, salt = big(seed, "seed"), how = { percent, tries: undefined, progress: callback(progress) };
        withRoom(24 * n, keys => {
            const hashes = keys + 8 * n, moved = hashes + 8 * n;
            copyIn(items, keys, "keys");
            putHashes(keys, n, salt, hashes);
            bytesAt(moved, 8 * n).set(bytesAt(hashes, 8 * n));
            const build = () => withHash(moved, n, how, hash => this.#of({ n, salt, keys, hashes, placed: moved }, hash));
            bySeeds([salt], "keys", { hashes, moved, n }, build, () => true);
        });
    }

    /** Puts each key at its number, and writes the block of the hash and of these. */
    #of(it, hash) {
        withRoom(8 * it.n, numbers => this.#place(hash.at, it, numbers));
        const size = orThrow(calls.bitm_dictionary_size(hash.words_len, hash.sizes_len, it.n), "keys", it.n);
        withRoom(BITM_DICTIONARY.sizeof, at => {
            put(at, BITM_DICTIONARY, { keys: it.placed, keys_len: it.n, seed: it.salt });
            bytesAt(at, BITM_HASH.sizeof).set(bytesAt(hash.at, BITM_HASH.sizeof));
            this.#held = new InBlock(KIND, this, size, to => must(calls.bitm_dictionary_build(at, to, size), "keys"));
        });
    }

    /** Puts each key at its number, which the hash at `at` has for it; `numbers` is room for all of these. */
    #place(at, { hashes, n, keys, placed }, numbers) {
        must(calls.bitm_hash_get_list(at, hashes, n, numbers, n, BESIDE), "keys");
        if (numberAt(BESIDE + BITM_LIST_COUNTS.missing) + numberAt(BESIDE + BITM_LIST_COUNTS.wrong) > 0) throw new WrongTables();
        calls.to_doubles(numbers, n, 0);
        const to = wordsAt(placed, n), from = wordsAt(keys, n), where = doublesAt(numbers, n);
        for (let k = 0; k < n; k++) to[where[k]] = from[k];
    }

    /**
     * The dictionary in the bytes of a block, as toBytes() gives them and the C library writes them; they are copied once. Unless
     * `check` is false, all of them are looked at, and WrongTables is thrown where they are not as they were written; without
     * that, a key may have no number, but a number that is found is that of the key which stands there.
     */
    static open(bytes, options) { return openedAs(Dictionary, KIND, bytes, options); }

    /** How many keys there are. */
    get length() { return this.#length; }

    /** How many bytes the block has. */
    get byteLength() { return this.#held.byteLength; }

    /** What is added to a key to hash it. */
    get seed() { return this.#held.member("seed"); }

    /** The number of a key, below length; undefined for what is no key. And whether it is one. */
    get(key) { return orNone(answerOf("bitm_dictionary_find", this.#held.at, whole(key, "key")), "key", key); }
    has(key) { return this.get(key) !== undefined; }

    /** The numbers of a list of keys: an array of the same kind, see README.md. */
    getList(keys) {
        return answers([[keys, "keys"]], "fill", (n, out, at) => calls.bitm_dictionary_find_list(this.#held.at, at, n, out, n, BESIDE));
    }

    /** The key that has a number; undefined where there is none. */
    keyOf(number) {
        const at = this.#held.member("keys"), k = big(number, "number");
        return k < this.#length ? numberAt(at + 8 * Number(k)) : undefined;
    }

    /** The keys, in the order of their numbers. */
    *keys() {
        for (let k = 0; k < this.#length; k += PIECE) yield* Array.from(this.#keysAt(k, Math.min(PIECE, this.#length - k)), smallest);
    }
    [Symbol.iterator]() { return this.keys(); }
    toBigUint64Array() { return this.#keysAt(0, this.#length); }

    #keysAt(k, n) { return wordsAt(this.#held.member("keys") + 8 * k, n).slice(); }

    /** Whether the block is as it was written and holds a dictionary, by going over all of it. */
    check() { return this.#held.check(); }

    /** The bytes of the block: what open() takes, and the C library and its other bindings. */
    toBytes() { return this.#held.toBytes(); }

    /** Gives the memory back at once. */
    free() { this.#held.free(); }
    [dispose]() { this.free(); }
}

shows(Dictionary, "Dictionary", it => ({ keys: it.length }));
