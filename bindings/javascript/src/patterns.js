// Patterns of a text, and words of a trie: strings and bytes, or numbers.
import { bytesAt } from "./core.js";
import { arrayKind, bytesOf, isIterable, itemOf, mustBe } from "./given.js";
import { copyIn, numbersOf } from "./lists.js";
import { withRoom } from "./memory.js";

const encoder = new TextEncoder();

/**
 * The bytes of a string in UTF-8, or those of a Uint8Array; of anything else undefined. TypeError where a string is not well
 * formed: a lone surrogate has no bytes, and those of U+FFFD in its place would make different strings equal. It is an argument,
 * or item k of one.
 */
export function encoded(given, name, k) {
    if (typeof given !== "string") return arrayKind(given) === "Uint8Array" ? bytesOf(given, itemOf(name, k)) : undefined;
    if (!given.isWellFormed()) throw new TypeError(`bitm: ${itemOf(name, k)} is not well formed: a lone surrogate has no bytes in UTF-8`);
    return encoder.encode(given);
}

/** The same, and a TypeError for anything else. */
export function textBytes(given, name, k) {
    const bytes = encoded(given, name, k);
    if (!bytes) throw mustBe(itemOf(name, k), "a string or a Uint8Array", given);
    return bytes;
}

/** Copies bytes into memory and runs body(at, n). */
export function withBytes(bytes, body) {
    const n = bytes.length;
    return withRoom(n, at => {
        bytesAt(at, n).set(bytes);
        return body(at, n);
    });
}

/**
 * Reads a pattern once, copies it into memory, and runs body(form, at, n): form is "bytes" of a string or of bytes, else
 * "numbers". The pattern may run code of the user's, and body runs after it.
 */
export function withPattern(pattern, name, body) {
    const bytes = encoded(pattern, name);
    if (bytes) return withBytes(bytes, (at, n) => body("bytes", at, n));
    if (!isIterable(pattern)) throw mustBe(name, "a string, a Uint8Array or a list of numbers", pattern);
    const { items } = numbersOf(pattern, name), n = items.length;
    return withRoom(8 * n, at => {
        copyIn(items, at, name);
        return body("numbers", at, n);
    });
}

/** Words that a user gave, strings or Uint8Arrays: copies of their bytes, in the order of these, each once. */
export function rising(words) {
    if (!isIterable(words)) throw mustBe("words", "an array or another iterable of strings and Uint8Arrays", words);
    const all = Array.from(words, (it, k) => {
        const bytes = textBytes(it, "words", k);
        return typeof it === "string" ? bytes : bytes.slice();
    });
    return all.sort(inOrder).filter((it, k) => k === 0 || inOrder(all[k - 1], it) !== 0);
}

/** Below 0, 0 or above it, as bytes stand before others, are these, or stand after them. */
export function inOrder(a, b) {
    const n = Math.min(a.length, b.length);
    let k = 0;
    while (k < n && a[k] === b[k]) k++;
    return k < n ? a[k] - b[k] : a.length - b.length;
}
