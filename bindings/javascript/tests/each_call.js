// Each parameter of each call that types/*.d.ts declare: a call with a value in its place, and others that are right.
import { parameters } from "./declared.js";
import { bitm } from "./plain.js";

const { BitVector, Cursor, Dictionary, EliasFano, Index, OWN_ROLE, PerfectHash, SparseBits, Strings, TextIndex, Tree, Trie, WaveletMatrix } = bitm;

/** A value of each class. */
export const made = {
    BitVector: () => BitVector.fromPositions([1, 3, 4, 6], 7), Index: () => Index.fromPositions([1, 3, 4, 6], 7), SparseBits: () => new SparseBits([1, 3, 4, 6], 7),
    EliasFano: () => new EliasFano([2, 3, 5, 7]), Cursor: () => new Cursor(new EliasFano([2, 3, 5, 7])), WaveletMatrix: () => new WaveletMatrix([3, 1, 4, 1, 5]),
    PerfectHash: () => new PerfectHash(["a", "b"]), Dictionary: () => new Dictionary([4, 9, 49]), Strings: () => new Strings(["ada", "bob"]),
    TextIndex: () => TextIndex.of("she sells sea shells"), Tree: () => new Tree([2, 0, 1, 0]), Trie: () => Trie.ofWords(["be", "a", "b"]),
};

/** What is right for a parameter of a name, and for one of a call where that differs. */
const GOOD = {
    position: 3, begin: 0, end: 2, from: 0, to: 2, length: 7, rank: 0, index: 1, first: 0, second: 1, width: 2, value: 1, count: 1, otherBegin: 0, otherEnd: 2, number: 1, bound: 2, k: 0,
    node: 0, label: 97, letters: 9, role: OWN_ROLE, items: 3, most: 20, limit: 2, positions: [0, 1], ranks: [0, 1], indices: [0, 1], values: [0, 1], nodes: [0, 1], ks: [0, 0], numbers: [1, 2],
    degrees: [1, 0], labels: "a", keys: [1, 2], key: 1, strings: ["ada", "bob"], string: "ada", words: ["a", "b"], word: "be", pattern: "se", text: "ab", bits: [true, false],
    sequences: [made.EliasFano()], sections: [[OWN_ROLE, new Uint8Array(1)]], block: made.Tree().toBytes(), bytes: new Uint8Array(8), other: made.BitVector(), sequence: made.EliasFano(),
    others: made.EliasFano(), options: undefined, step: 9,
};
const OTHERWISE = {
    "selectInWord(word)": 5, "open(bytes)": made.Index().toBytes(), "Index.constructor(bits)": made.BitVector(), "BitVector.fromWords(words)": new BigUint64Array(1),
    "WaveletMatrix.rankList(numbers)": [1, 3], "BitVector.flip(position)": 1,
};
const OPTIONS = {
    IndexOptions: it => new Index(made.BitVector(), it), OpenOptions: it => Tree.open(GOOD.block, it), PerfectHashOptions: it => new PerfectHash(["a"], it), DictionaryOptions: it => new Dictionary([1], it),
    StringsOptions: it => new Strings(["a"], it), WaveletMatrixOptions: it => new WaveletMatrix([3], it), LocateOptions: it => made.TextIndex().locate("s", it), StepOptions: it => TextIndex.of("ab", it),
    TrieOptions: it => new Trie([1, 0], "a", it),
};

const all = parameters();
const goodOf = it => {
    if (it.key in OTHERWISE) return OTHERWISE[it.key];
    return it.name === "bytes" && it.key.includes(".open") ? made[it.key.split(".")[0]]().toBytes() : GOOD[it.name];
};

/** Runs an iteration to its end, so that what a generator refuses is refused. */
function through(got) {
    if (Object.prototype.toString.call(got) === "[object Generator]") for (const it of got) void it;
    return got;
}

/** The call of a parameter, given what it takes for it: of a value, or static, or of no class. */
function callOf(it) {
    const [call] = it.key.split("("), [holder, member] = call.includes(".") ? call.split(".") : [undefined, call];
    if (holder in OPTIONS) return value => through(OPTIONS[holder]({ [it.name]: value }));
    const siblings = all.filter(other => other.key.startsWith(`${call}(`)), index = siblings.indexOf(it), isFlip = call === "BitVector.flip";
    const before = siblings.slice(isFlip ? 1 : 0, index), after = siblings.slice(index + 1).filter(other => !other.isOptional && (!isFlip || index > 0));
    const given = value => [...before.map(goodOf), value, ...after.map(goodOf)];
    if (!holder) return value => through(bitm[member](...given(value)));
    if (member === "constructor") return value => new bitm[holder](...given(value));
    return (value, on = Object.hasOwn(bitm[holder], member) ? bitm[holder] : made[holder]()) => through(on[member](...given(value)));
}

/** Each parameter with its call: start() and startSync() have ended, and take no more. */
export const calls = all.filter(it => !/^start/.test(it.key)).map(it => ({ ...it, good: goodOf(it), call: callOf(it) }));
