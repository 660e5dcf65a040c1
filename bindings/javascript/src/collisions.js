// Items that have one hash, by which no perfect hash tells them apart: which they are.
import { wordsAt } from "./core.js";

/** The indices of the first two of n hashes that are equal, and one of the `left` at `moved`; undefined where there are none. */
function equalPair({ hashes, moved, n }, left) {
    const among = new Set(wordsAt(moved, left)), firsts = new Map(), items = wordsAt(hashes, n);
    for (let k = 0; k < n; k++) {
        if (firsts.has(items[k])) return [firsts.get(items[k]), k];
        if (among.has(items[k])) firsts.set(items[k], k);
    }
    return undefined;
}

/**
 * Builds a hash by the first of some seeds that gives no two of n items one hash. build(seed) writes the hashes to `hashes`,
 * hands a copy at `moved` to withHash() and says what that left; areEqual(i, j) says whether two items are equal. RangeError that
 * names two items, as `what`, where they are equal or have one hash by each seed.
 */
export function bySeeds(seeds, what, rooms, build, areEqual) {
    let pair;
    for (const seed of seeds) {
        const left = build(seed);
        if (left === 0) return;
        pair = equalPair(rooms, left);
        if (pair && areEqual(...pair)) throw new RangeError(`bitm: ${what} ${pair.join(" and ")} are equal`);
    }
    const why = pair ? `${what} ${pair.join(" and ")} have one hash` : `the ${what} take more levels than a hash has`;
    throw new RangeError(`bitm: ${why}: take another seed`);
}
