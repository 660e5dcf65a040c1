// A minimal perfect hash of hashes that stand in memory, as the blocks of keys, of a dictionary and of strings have one.
import { BESIDE, calls, numberAt, put, wordsAt } from "./core.js";
import { BITM_SEEDED_HASH } from "./layout.js";
import { withRoom } from "./memory.js";
import { orThrow, within } from "./numbers.js";

/** How many levels a hash has at most. */
const LEVELS = 256;

/**
 * Runs body(hash) over the hash of n hashes, which are moved: `at` is where its struct stands, words, sizes and seeds are where
 * these parts stand, and words_len, sizes_len and seeds_len are how long they are. With tries each word has one of that many
 * seeds, which isSeeded says, else none. progress(done, total), if there is one, is called after each level. Answers how many
 * hashes are left without a number: if any, then some are equal, they stand first, and body did not run.
 */
export function withHash(hashes, n, { percent, tries, progress }, body) {
    const first = calls.bitm_hash_level_len(n, within(percent, 50, 10000, "percent"));
    // All levels together have some e^(100 / percent) times the words of the first, and each has one at least.
    const most = 8 * first + 2 * LEVELS, isSeeded = tries !== undefined;
    const seedsTried = isSeeded ? within(tries, 1, 256, "tries") : 0;
    return withRoom(8 * (first + most + LEVELS) + (isSeeded ? 8 * n + most : 0), again => {
        const words = again + 8 * first, sizes = words + 8 * most, sorted = sizes + 8 * LEVELS, seeds = sorted + 8 * n;
        const rooms = { hashes, n, percent, isSeeded, seedsTried, again, first, words, most, sizes, sorted, seeds };
        const { left, words_len, sizes_len } = progress ? byLevels(rooms, progress) : atOnce(rooms);
        if (left !== 0) return left;
        const parts = { words, words_len, sizes, sizes_len, seeds, seeds_len: isSeeded ? words_len : 0 };
        withTables(parts, n, at => body({ at, isSeeded, ...parts }));
        return 0;
    });
}

/** Builds all levels: how many hashes are left, and how many words and levels there are. */
function atOnce({ hashes, n, percent, isSeeded, seedsTried, again, first, words, most, sizes, sorted, seeds }) {
    const before = [hashes, n, percent], after = [sizes, LEVELS, BESIDE, BESIDE + 8];
    const left = isSeeded
        ? calls.bitm_hash_build_seeded(...before, seedsTried, words, most, seeds, most, again, first, sorted, n, ...after)
        : calls.bitm_hash_build(...before, words, most, again, first, ...after);
    return { left: orThrow(left, "keys", n), sizes_len: numberAt(BESIDE), words_len: numberAt(BESIDE + 8) };
}

/** The same, level by level. progress() may run code of the user's. */
function byLevels(it, progress) {
    let left = it.n, words_len = 0, sizes_len = 0;
    if (left === 0) progress(0, 0);
    while (left > 0 && sizes_len < LEVELS) {
        const size = calls.bitm_hash_level_len(left, it.percent), to = [it.words + 8 * words_len, size], again = [it.again, size];
        if (size > it.most - words_len) break;
        const seeded = [it.seeds + words_len, size, ...again, it.sorted, it.n];
        const got = it.isSeeded
            ? calls.bitm_hash_level_seeded(it.hashes, left, sizes_len, it.seedsTried, ...to, ...seeded)
            : calls.bitm_hash_level(it.hashes, left, sizes_len, ...to, ...again);
        left = orThrow(got, "keys", it.n);
        wordsAt(it.sizes, LEVELS)[sizes_len++] = BigInt(size);
        words_len += size;
        progress(it.n - left, it.n);
    }
    return { left, words_len, sizes_len };
}

/** Builds the tables of the levels, and writes the struct, which begins with that of a hash without seeds: runs body(at). */
function withTables({ words, words_len, sizes, sizes_len, seeds, seeds_len }, keys, body) {
    const upper_len = calls.bitm_index_upper_len(words_len), lower_len = calls.bitm_index_lower_len(words_len);
    withRoom(BITM_SEEDED_HASH.sizeof + 8 * (upper_len + lower_len), at => {
        const upper = at + BITM_SEEDED_HASH.sizeof, lower = upper + 8 * upper_len;
        orThrow(calls.bitm_index_build(words, words_len, upper, upper_len, lower, lower_len), "the levels", words_len);
        put(at, BITM_SEEDED_HASH, {
            hash_index_words: words, hash_index_words_len: words_len, hash_index_upper: upper, hash_index_upper_len: upper_len,
            hash_index_lower: lower, hash_index_lower_len: lower_len, hash_index_bits_len: 64 * words_len, hash_sizes: sizes,
            hash_sizes_len: sizes_len, hash_keys: keys, seeds, seeds_len,
        });
        body(at);
    });
}
