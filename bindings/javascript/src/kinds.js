// The kinds of blocks: the class that opens each, and how an error calls what it holds.
import { BESIDE, calls, numberAt } from "./core.js";
import { BITM_DICTIONARY, BITM_STORED } from "./layout.js";
import { withRoom } from "./memory.js";
import { OtherKind, WrongTables } from "./numbers.js";

/** By the second word of a block (docs/FORMAT.md); a dictionary has the number of a perfect hash. */
const CLASSES = {
    2: "Index", 3: "EliasFano", 4: "SparseBits", 5: "PerfectHash", 6: "WaveletMatrix", 7: "Tree", 8: "TextIndex", 9: "Trie", 10: "Strings",
    12: "Strings",
};
/** By the second word of a file of version 2. */
export const OF_INDEX = 1;
const CLASSES_OF_VERSION_2 = { [OF_INDEX]: "Index", 2: "EliasFano" };
const CALLED = {
    Index: "an index", EliasFano: "a sequence", SparseBits: "sparse bits", PerfectHash: "a perfect hash", Dictionary: "a dictionary",
    WaveletMatrix: "a wavelet matrix", Tree: "a tree", TextIndex: "the index of a text", Trie: "a trie", Strings: "strings",
};

/** The class of what a file in memory holds; undefined where its header or directory is damaged, or its kind is not known. */
function classIn(file, words) {
    if (calls.bitm_stored_read(file, words, BESIDE) === 0) return CLASSES_OF_VERSION_2[numberAt(BESIDE + BITM_STORED.kind)];
    if (calls.bitm_block_section(file, words, 0, BESIDE) !== 0) return undefined;
    const isDictionary = withRoom(BITM_DICTIONARY.sizeof, at => calls.bitm_dictionary_open(file, words, at) === 0);
    return isDictionary ? "Dictionary" : CLASSES[numberAt(file + 8)];
}

const listed = names => names.map(it => CALLED[it]).join(" or ");

/** The error for a file in memory that none of the named classes takes: it holds something else, or is damaged. */
export function notOf(names, file, words) {
    const found = classIn(file, words);
    if (found === undefined || names.includes(found)) return damaged(names);
    return new OtherKind(`bitm: it holds ${CALLED[found]}, not ${listed(names)}`);
}

/** The error for bytes that are no whole block. */
export const damaged = names => new WrongTables(`bitm: it is not the block of ${listed(names)}, or not all of it`);
