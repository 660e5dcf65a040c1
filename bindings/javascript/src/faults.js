// Why a call refused a list of numbers that stands in memory: errors that name the number, counted from 0.
import { calls, numberAt } from "./core.js";
import { answerOf } from "./numbers.js";

/** An item of a list, as an error calls it. */
const named = (list, what, k) => `${what} ${k} (${numberAt(list + 8 * k)})`;

/** The error of the first number that is less than the number before it, or `strictly` not above it; undefined where none is. */
export function unsorted(list, n, what, strictly) {
    const k = calls.bitm_numbers_unsorted(list, n, strictly ? 1 : 0);
    if (k < 0) return undefined;
    return new RangeError(`bitm: ${named(list, what, k)} is ${strictly ? "not above" : "less than"} ${named(list, what, k - 1)}`);
}

/** The error of the first number that is not below a bound. */
export function notBelow(list, n, what, bound) {
    const k = bound === 0 ? 0 : calls.bitm_numbers_above(list, n, bound - 1);
    return new RangeError(`bitm: ${named(list, what, k)} is not below ${bound}`);
}

/** The error of the first number of more than `width` bits; undefined where there is none. */
export function tooWide(list, n, what, width) {
    const k = answerOf("bitm_numbers_above", list, n, width > 53 ? 2n ** BigInt(width) - 1n : 2 ** width - 1);
    return k < 0 ? undefined : new RangeError(`bitm: ${named(list, what, k)} has more than ${width} bits`);
}

/** The error of the first node at which degrees form no tree; undefined where they form one. */
export function noTree(list, n) {
    if (n === 0) return new RangeError("bitm: there are no degrees, and a tree has a root");
    const node = calls.bitm_tree_misfit(list, n);
    if (node < 0) return undefined;
    return new RangeError(`bitm: node ${node} is a child of no node before it, or has more children than there are nodes left`);
}

/** The error of the first label that does not stand above the label of the child before it, where degrees form a tree. */
export function fallingLabel(degrees, n, labels) {
    for (let node = 0, child = 0; node < n; node++) {
        const begin = child;
        child += numberAt(degrees + 8 * node);
        const k = begin + calls.bitm_numbers_unsorted(labels + 8 * begin, child - begin, 1);
        if (k < begin) continue;
        const [label, before] = [k, k - 1].map(it => named(labels, "label", it));
        return new RangeError(`bitm: ${label} is not above ${before}, of a child of the same node`);
    }
    return new RangeError("bitm: the degrees and labels form no trie");
}
