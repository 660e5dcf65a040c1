// Calls of the library on a single word, or on none.
import { ANSWER, numberAt, wasm } from "./core.js";
import { big, place, refused } from "./numbers.js";

/** The position, 0 to 63, of the 1 bit of a 64-bit word with the given rank; undefined where it has no more than rank. */
export function selectInWord(word, rank) {
    const status = wasm.bitm_bits_select_in_word(big(word, "word"), Math.min(place(rank, "rank"), 64), BigInt(ANSWER));
    if (status > 1) throw refused(-status, "rank", rank);
    return status === 0 ? numberAt(ANSWER) : undefined;
}

/** How many binary digits a number has: the width that stores it; 0 for 0. */
export function bitsToStore(value) {
    return wasm.bitm_bits_to_store(big(value, "value"));
}

/** A sampleLog2 for `items` bits of a kind among `length` bits, such that samples take about the same share of memory. */
export function optimalSampleLog2(items, length, most = 31) {
    return wasm.bitm_optimal_log2(big(items, "items"), big(length, "length"), Math.min(place(most, "most"), 31));
}
