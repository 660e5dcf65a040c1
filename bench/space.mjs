// node bench/space.mjs: how much memory each structure takes: the bytes of its block, which every language writes alike, for
// each of 2^20 items. Prints the CSV rows of docs/plots/space.csv; they are the same on every machine.
import { BitVector, Dictionary, EliasFano, Index, PerfectHash, SparseBits, Strings, Tree, Trie, WaveletMatrix } from "../bindings/javascript/src/node.js";

const LOG2 = 20, ITEMS = 2 ** LOG2;

/** Whole numbers below a limit, by a generator that nobody has to trust. */
function drawn(count, limit, seed) {
    let x = seed;
    return Float64Array.from({ length: count }, () => {
        x ^= x << 13;
        x ^= x >>> 17;
        x ^= x << 5;
        return Math.floor(((x >>> 0) / 2 ** 32) * limit);
    });
}

/** Numbers that rise by 1 to `most`. */
function rising(count, most, seed) {
    let sum = -1;
    return drawn(count, most, seed).map(gap => (sum += 1 + gap));
}

const print = (row, by, bytes, items) => console.log(`${row},${by},${LOG2},even,${(8 * bytes / items).toPrecision(3)},bits,${bytes}`);

const halves = drawn(ITEMS, 2, 1), few = rising(ITEMS, 1999, 2), keys = rising(ITEMS, 1 << 24, 3), words = Array.from(keys, key => `key ${key}`);
const index = new Index(BitVector.fromPositions(halves.reduce((ones, it, at) => (it && ones.push(at), ones), []), ITEMS));
print("index", "block", index.toBytes().length, ITEMS);
print("sparse", "block", new SparseBits(few, few.at(-1) + 1).toBytes().length, ITEMS);
print("sequence", "block", new EliasFano(rising(ITEMS, 1000, 4)).toBytes().length, ITEMS);
print("matrix of 8 bits", "block", new WaveletMatrix(drawn(ITEMS, 256, 5), { width: 8 }).toBytes().length, ITEMS);
for (const [by, tries] of [["block", undefined], ["block with seeds", 64]]) {
    print("hash", by, new PerfectHash(keys, { tries, fingerprintBits: 0 }).toBytes().length, ITEMS);
}
print("dictionary", "block", new Dictionary(keys).toBytes().length, ITEMS);
print("strings beside their bytes", "block", new Strings(words).toBytes().length - words.join("").length, ITEMS);
print("tree", "block", new Tree(Array.from({ length: ITEMS }, (_, at) => (at < ITEMS / 2 - 1 ? 2 : at === ITEMS / 2 - 1 ? 1 : 0))).toBytes().length, ITEMS);
const trie = Trie.ofWords(words.slice(0, 1 << 17));
print("trie", "block", trie.toBytes().length, trie.length);
