// Arguments: a whole number as a number below 2^53 or a BigInt below 2^64. Anything else is refused: TypeError for another
// type, RangeError for another number.
import { ANSWER, calls, numberAt, smallest, wasm } from "./core.js";
import { mustBe } from "./given.js";
import { BAD_ARGUMENT, STATUS } from "./layout.js";

const MOST = 2n ** 64n - 1n;

/** Tables that do not match the words, as in a damaged file that was opened with `check: false`. */
export class WrongTables extends Error {
    constructor(message = "bitm: the tables do not match the words") {
        super(message);
        this.name = "WrongTables";
    }
}

/** A right file of another kind than its class takes, which the message names. */
export class OtherKind extends WrongTables {
    constructor(message) {
        super(message);
        this.name = "OtherKind";
    }
}

export const wrongType = (name, it) => mustBe(name, "a whole number", it);

export function notWhole(name, it) {
    if (it === undefined) return new RangeError(`bitm: ${name} is no whole number from 0 to 2^53 - 1`);
    if (typeof it === "bigint") return new RangeError(`bitm: ${name} must be 0 to 2^64 - 1, and is ${it}`);
    return new RangeError(`bitm: ${name} must be a whole number from 0 to 2^53 - 1 (beyond it a BigInt), and is ${it}`);
}

/** A BigInt from 0 to 2^64 - 1 of a number or a BigInt. */
export function big(it, name) {
    if (typeof it === "number") {
        if (!Number.isSafeInteger(it) || it < 0) throw notWhole(name, it);
        return BigInt(it);
    }
    if (typeof it !== "bigint") throw wrongType(name, it);
    if (it < 0n || it > MOST) throw notWhole(name, it);
    return it;
}

/** A number from 0 to 2^53 - 1, where all that are larger mean the same as 2^53 - 1: past the end. */
export function place(it, name) {
    if (typeof it === "bigint") return Math.min(Number(big(it, name)), Number.MAX_SAFE_INTEGER);
    if (typeof it !== "number") throw wrongType(name, it);
    if (!Number.isSafeInteger(it) || it < 0) throw notWhole(name, it);
    return it;
}

/** The error of what is past the end, of a list or of bits: `it`, where it is known, and the most that it may be. */
export function pastEnd(name, it, most) {
    const found = it === undefined ? "" : `: ${it}`, end = most === undefined ? "" : `, and the most is ${most}`;
    return new RangeError(`bitm: ${name} is past the end${found}${end}`);
}

/** A number from 0 to `most`. */
export function upTo(it, most, name) {
    const found = whole(it, name);
    if (found > most) throw pastEnd(name, it, most);
    return found;
}

const ENDS = ["begin", "end"];

/** The error of two positions of what has `length` items that are no range: which is past the end, or that it begins above its end. */
export function noRange(begin, end, length, names = ENDS) {
    if (begin > length) return pastEnd(names[0], begin, length);
    if (end > length) return pastEnd(names[1], end, length);
    return new RangeError(`bitm: ${names[0]} is ${begin}, and ${names[1]} ${end}: the range begins above its end`);
}

/** The numbers of a range of what has `length` items, as `[begin, end]`. */
export function rangeOf(begin, end, length, names = ENDS) {
    const from = whole(begin, names[0]), to = whole(end, names[1]);
    if (from > to || to > length) throw noRange(from, to, length, names);
    return [from, to];
}

/** A whole number from `least` to `most`, which is no BigInt. */
export function within(it, least, most, name) {
    if (typeof it !== "number") throw mustBe(name, `a number from ${least} to ${most}`, it);
    if (!Number.isInteger(it) || it < least || it > most) throw new RangeError(`bitm: ${name} is ${least} to ${most}, and not ${it}`);
    return it;
}

/** The error of what an adaptor returned in place of an answer: `it` is what stands for the name, if it is known. */
export function refused(got, name, it) {
    switch (-got) {
        case STATUS.NONE: return pastEnd(name, it);
        case STATUS.BAD_SIZE: return new RangeError(`bitm: a length is wrong: ${name}`);
        case STATUS.WRONG: return new WrongTables();
        case STATUS.UNSORTED: return new RangeError("bitm: a number is less than the one before it");
        case BAD_ARGUMENT: return notWhole(name, it);
        default: return new Error(`bitm: ${name}: status ${-got}`);
    }
}

/** Throws unless an adaptor without an answer, or the library itself, said that all is well. */
export function must(got, name, it) {
    if (got !== 0) throw refused(-Math.abs(got), name, it);
}

/** A number below 2^53, or a BigInt from 2^53 to 2^64 - 1, of either. */
export function whole(it, name) {
    return typeof it === "bigint" ? smallest(big(it, name)) : place(it, name);
}

/** A call of the library by BigInts, since an argument may be any number of 64 bits: its status. */
export const called = (name, ...given) => wasm[name](...given.map(BigInt));

/** A call of the library by BigInts, whose answer stands at ANSWER: the answer, or minus the status. */
export function byBigInts(name, at, ...given) {
    const status = wasm[name](BigInt(at), ...given.map(it => big(it, "value")), BigInt(ANSWER));
    return status === STATUS.OK ? numberAt(ANSWER) : -status;
}

/** What an adaptor says of whole numbers, or the library where one is 2^53 or more: the answer, or minus the status. */
export function answerOf(name, at, ...given) {
    return given.every(it => typeof it === "number") ? calls[name](at, ...given) : byBigInts(name, at, ...given);
}

/** The answer of an adaptor, or undefined where it says that there is none. */
export function orNone(got, name, it) {
    if (got >= 0) return got;
    if (got !== got) return numberAt(ANSWER);
    if (got === -STATUS.NONE) return undefined;
    throw refused(got, name, it);
}

/** The answer of an adaptor; a RangeError where it says that there is none. */
export function orThrow(got, name, it) {
    if (got >= 0) return got;
    if (got !== got) return numberAt(ANSWER);
    throw refused(got, name, it);
}
