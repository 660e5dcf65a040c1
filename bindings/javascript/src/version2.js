// Files of version 2 of the format, as releases before blocks wrote them: an index, or a sequence. Their parts have no
// checksum, so a check finds only what does not fit.
import { BESIDE, bytesAt, calls, numberAt, put, wasm } from "./core.js";
import { Index, Words } from "./bit_index.js";
import { EliasFano, Listed } from "./elias_fano.js";
import { unsorted } from "./faults.js";
import { OF_INDEX, notOf } from "./kinds.js";
import { BITM_INDEX, BITM_SEQUENCE, BITM_STORED } from "./layout.js";
import { withRoom } from "./memory.js";
import { WrongTables, orThrow } from "./numbers.js";

/** The Index or EliasFano of a file, as a block; all parts are looked at if isChecked. */
export function openVersion2(bytes, isChecked) {
    const words = Math.floor(bytes.length / 8);
    return withRoom(8 * words, file => {
        bytesAt(file, 8 * words).set(bytes.subarray(0, 8 * words));
        if (calls.bitm_stored_read(file, words, BESIDE) !== 0)
            throw notOf(["Index", "EliasFano"], file, words);
        const header = headerAt(BESIDE);
        return header.kind === OF_INDEX ? indexIn(file, header, isChecked) : sequenceIn(file, header, isChecked);
    });
}

/** The numbers of a header. */
function headerAt(at) {
    const members = Object.entries(BITM_STORED).filter(([name]) => name !== "sizeof");
    return Object.fromEntries(members.map(([name, offset]) => [name, numberAt(at + offset)]));
}

/** Throws unless each of some calls of the library takes the struct at `at`. */
function mustFit(at, checks) {
    if (checks.some(([name, ...more]) => wasm[name](BigInt(at), ...more) !== 0))
        throw new WrongTables("bitm: the parts of the file do not fit: it was damaged");
}

function tables(file, it) {
    const members = ["words", "upper", "lower"].flatMap(name => [[name, file + it[`${name}_at`]], [`${name}_len`, it[`${name}_len`]]]);
    return Object.fromEntries(members);
}

/** The members of samples of one kind: the names of the two kinds in a struct and in a header. */
function samples(file, it, kind, zero) {
    return {
        [`${kind}_samples`]: file + it[`samples${zero}_at`], [`${kind}_samples_len`]: it[`samples${zero}_len`],
        [`${kind}_starts`]: file + it[`starts${zero}_at`], [`${kind}_starts_len`]: it[`starts${zero}_len`], [`${kind}_log2`]: it[`${kind}_log2`],
    };
}

function indexIn(file, it, isChecked) {
    const sampled = [["ones", 1], ["zeros", 0]].filter(([kind]) => it[`${kind}_log2`]).map(([, one]) => ["bitm_index_check_samples", one]);
    if (isChecked) withRoom(BITM_INDEX.sizeof, at => {
        put(at, BITM_INDEX, { ...tables(file, it), bits_len: it.len, ...samples(file, it, "ones", ""), ...samples(file, it, "zeros", "0") });
        mustFit(at, [["bitm_index_check"], ...sampled]);
    });
    return new Index(new Words(file + it.words_at, it.words_len, it.len, { ones: it.ones_log2, zeros: it.zeros_log2 }));
}

function sequenceIn(file, it, isChecked) {
    const n = it.len;
    return withRoom(BITM_SEQUENCE.sizeof + 8 * n, at => {
        const items = at + BITM_SEQUENCE.sizeof;
        put(at, BITM_SEQUENCE, { ...tables(file, it), len: n, width: it.width, low: file + it.low_at, low_len: it.low_len });
        if (isChecked) mustFit(at, [["bitm_sequence_check"]]);
        if (orThrow(calls.bitm_sequence_items(at, 0, items, n), "index", 0) < n) throw new WrongTables();
        if (unsorted(items, n, "number", false)) throw new WrongTables();
        return new EliasFano(new Listed(items, n));
    });
}
