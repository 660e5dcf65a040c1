import { ANSWER, BESIDE, bytesAt, calls, numberAt, wordsAt } from "./core.js";
import { bySeeds } from "./collisions.js";
import { Copied, InBlock, openedAs } from "./in_block.js";
import { sizeWith, writeWith } from "./extending.js";
import { callback, isIterable, mustBe, optionsOf } from "./given.js";
import { areEqual, halfAt, hashKey, isKey, noKey } from "./keys.js";
import { BITM_LIST_COUNTS, BITM_SECTION, BITM_SEEDED_HASH } from "./layout.js";
import { withHash } from "./levels.js";
import { copyOut } from "./lists.js";
import { dispose, withRoom } from "./memory.js";
import { WrongTables, called, must, orThrow, refused, whole, within } from "./numbers.js";
import { hashOldKey } from "./old_keys.js";
import { shows } from "./shown.js";

/** The seeds by which keys are hashed where none is given: the first that gives no two one hash. */
const SEEDS = [0, 1];

// The block is that of the hash, with a section of our own after those of its kind: of bytes, which are a word with the width of
// a fingerprint, and the words of these. Its role says how keys are hashed: "bitmhas2" as in the packages for other languages,
// which write it too, and "bitmhjs1" as here before.
const ROLE = 0x327361686d746962n, OLD_ROLE = 0x31736a686d746962n;
/** Up to how many bits of a fingerprint cross as a number, and which of them its high half has. */
const PLAIN = 53, HIGH = 2 ** (PLAIN - 32) - 1;
/** Where numbers of ours stand, after the struct of the library. */
const END = BITM_SEEDED_HASH.sizeof;
const LAYOUT = {
    ...BITM_SEEDED_HASH, seed: END, prints: END + 8, prints_len: END + 16, width: END + 24, is_seeded: END + 32, is_old: END + 40,
};
const KIND = { name: "PerfectHash", open: opened, check: isWritten, layout: LAYOUT };

/** Opens a block of a hash, with seeds or without: whether it is one that toBytes() gave. Writes the struct. */
function opened(block, words, at) {
    let got = calls.bitm_hash_block_open_seeded_bytes(block, words, block, 8 * words, at);
    const isSeeded = !(got < 0);
    if (!isSeeded) got = calls.bitm_hash_block_open(block, words, at);
    if (got < 0) return false;
    const seed = orThrow(got, "seed");
    return calls.bitm_block_section(block, words, isSeeded ? 5 : 4, BESIDE) === 0 && isOurs(at, seed, isSeeded);
}

/** Whether the section of which the struct stands at BESIDE has the fingerprints of the hash at `at`. */
function isOurs(at, seed, isSeeded) {
    const of = name => numberAt(BESIDE + BITM_SECTION[name]), count = of("count"), from = of("words");
    const role = wordsAt(BESIDE + BITM_SECTION.role, 1)[0], isOld = role === OLD_ROLE;
    if ((role !== ROLE && !isOld) || (isOld && !(seed > 0 && seed < 2 ** 32)) || count < 8) return false;
    const width = numberAt(from), prints_len = (count - 8) / 8, most = isOld ? 32 : 64;
    if (width > most || calls.bitm_bits_words_len(numberAt(at + LAYOUT.hash_keys) * width) !== prints_len) return false;
    const found = { seed, prints: from + 8, prints_len, width, is_seeded: isSeeded, is_old: isOld };
    for (const [name, value] of Object.entries(found)) wordsAt(at + LAYOUT[name], 1)[0] = BigInt(value);
    return true;
}

function isWritten(block, words) {
    return calls.bitm_hash_block_check_seeded(block, words) === 0 || calls.bitm_hash_block_check(block, words) === 0;
}

/** The keys that a user gave, as an array. */
function listOf(keys) {
    if (!isIterable(keys)) throw mustBe("keys", "an array or another iterable of keys", keys);
    const all = Array.from(keys), k = all.findIndex(it => !isKey(it));
    if (k >= 0) throw noKey(all[k], "keys", k);
    return all;
}

/** Writes the hashes of all keys to memory, and what their fingerprints of that width are, each by hash(). */
function put(hash, all, seed, width, hashes, prints) {
    all.forEach((key, k) => hash(key, seed, hashes + 8 * k, prints + 8 * k, width));
}

/** Numbers for keys: each of n keys has one of its own below n. No key is kept. */
export class PerfectHash {
    #held;
    #length;
    #seed;
    #hash; // by what keys are hashed
    #prints; // what a query says of the fingerprints: where they stand, how many words they have, and their width

    /**
     * The keys: strings, numbers, BigInts, Uint8Arrays; no two equal, and 5 equals 5n. A fingerprint of fingerprintBits (0 to 32)
     * for each says of most other values that they are no key. percent: 100 takes least memory, 200 less time. With tries, 1 to
     * 256, each word of the hash has the best of that many seeds: with 64 a key takes 2.3 bits beside its fingerprint, for 2.8
     * without. seed is the key of the hashes, SipHash-1-3: unless it is given 0, and 1 where that gives two keys one hash.
     * progress(done, total) is called after each level, with how many keys have a number so far.
     */
    constructor(keys, options) {
        if (keys instanceof Copied) this.#held = new InBlock(KIND, this, keys);
        else this.#build(keys, optionsOf(options));
        this.#length = this.#held.member("hash_keys");
        this.#seed = this.#held.member("seed");
        this.#hash = this.#held.member("is_old") === 1 ? hashOldKey : hashKey;
        this.#prints = ["prints", "prints_len", "width"].map(it => this.#held.member(it));
    }

    /** Builds the hash, by another seed where two hashes are equal. */
    #build(keys, { fingerprintBits = 16, percent = 100, tries, seed, progress }) {
        const all = listOf(keys), width = within(fingerprintBits, 0, 32, "fingerprintBits"), n = all.length;
        const seeds = seed === undefined ? SEEDS : [whole(seed, "seed")], how = { percent, tries, progress: callback(progress) };
        withRoom(24 * n, hashes => {
            const prints = hashes + 8 * n, rooms = { hashes, moved: prints + 8 * n, n };
            const build = by => {
                put(hashKey, all, by, width, hashes, prints);
                bytesAt(rooms.moved, 8 * n).set(bytesAt(hashes, 8 * n));
                return withHash(rooms.moved, n, how, hash => this.#fingerprint({ n, hashes, prints, seed: by, width }, hash));
            };
            bySeeds(seeds, "keys", rooms, build, (i, j) => areEqual(all[i], all[j]));
        });
    }

    /** Writes the fingerprints at the numbers of their keys, and the block of the hash and of these. */
    #fingerprint({ n, hashes, prints, seed, width }, hash) {
        const prints_len = calls.bitm_bits_words_len(n * width), length = 8 * (1 + prints_len);
        withRoom(length, items => {
            bytesAt(items, length).fill(0);
            wordsAt(items, 1)[0] = BigInt(width);
            must(calls.bitm_hash_set_prints_seeded(hash.at, hashes, n, prints, n, items + 8, prints_len, width), "fingerprints");
            withBlockOf(hash, seed, (block, words) => {
                const section = { role: ROLE, count: length, items, items_len: length / 8 };
                const size = orThrow(sizeWith(block, words, section), "fingerprints", length);
                this.#held = new InBlock(KIND, this, size, to => must(writeWith(block, words, section, to, size), "fingerprints"));
            });
        });
    }

    /**
     * The hash in the bytes of a block, as toBytes() gives them; they are copied once. Unless `check` is false, all of them are
     * looked at, and WrongTables is thrown where they are not as they were written; without that, a key may have no number, or
     * that of another.
     */
    static open(bytes, options) { return openedAs(PerfectHash, KIND, bytes, options); }

    /** How many keys there are. */
    get length() { return this.#length; }

    /** How many bytes the block has. */
    get byteLength() { return this.#held.byteLength; }

    /** The seed by which keys are hashed. */
    get seed() { return this.#seed; }

    /** How many bits the fingerprint of a key has. */
    get width() { return this.#prints[2]; }

    /** Whether its words have seeds. */
    get hasSeeds() { return this.#held.member("is_seeded") === 1; }

    /** The number of a key, below length; undefined for most values that are no key: all but one in 2^fingerprintBits. */
    get(key) {
        const [prints, words, width] = this.#prints, hash = this.#hash;
        if (width > PLAIN) return this.getList([key])[0];
        hash(key, this.#seed, BESIDE, ANSWER, width); // may run code of the user's, which may free this value
        const print = halfAt(ANSWER) + (halfAt(ANSWER + 4) & HIGH) * 2 ** 32;
        const low = halfAt(BESIDE), high = halfAt(BESIDE + 4);
        const number = calls.bitm_hash_find_seeded(this.#held.at, prints, words, width, low, high, print);
        if (number >= 0) return number;
        if (number === -1) return undefined;
        throw refused(number, "key");
    }

    /** The numbers of several keys, as get() answers them. */
    getList(keys) {
        const all = listOf(keys), n = all.length;
        return withRoom(24 * n, list => {
            const prints = list + 8 * n, to = prints + 8 * n;
            put(this.#hash, all, this.#seed, this.#prints[2], list, prints);
            must(calls.bitm_hash_find_list_seeded(this.#held.at, ...this.#prints, list, n, prints, n, to, n, BESIDE), "keys");
            if (numberAt(BESIDE + BITM_LIST_COUNTS.wrong) !== 0) throw new WrongTables();
            return copyOut(to, n, "plain", true);
        });
    }

    /** Whether the block is as it was written and holds a hash, by going over all of it. */
    check() { return this.#held.check(); }

    /** The bytes of the block: what open() takes. */
    toBytes() { return this.#held.toBytes(); }

    /** Gives the memory back at once. */
    free() { this.#held.free(); }
    [dispose]() { this.free(); }
}

shows(PerfectHash, "PerfectHash", it => ({ keys: it.length, width: it.width }));

const CALLS = [["bitm_hash_block_size", "bitm_hash_block_build"], ["bitm_hash_block_size_seeded", "bitm_hash_block_build_seeded"]];

/** Runs body(block, words) over the block of a hash without fingerprints, which is words long. */
function withBlockOf(hash, seed, body) {
    const seeds = hash.isSeeded ? [hash.seeds, hash.seeds_len] : [], [sizeOf, build] = CALLS[Number(hash.isSeeded)];
    const size = orThrow(calls[sizeOf](hash.words_len, hash.sizes_len), "keys", hash.words_len);
    withRoom(8 * size, block => {
        must(called(build, hash.words, hash.words_len, ...seeds, hash.sizes, hash.sizes_len, seed, block, size), "keys");
        body(block, size);
    });
}
