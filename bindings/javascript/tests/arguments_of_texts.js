// Arguments for the calls over texts.
import assert from "node:assert/strict";
import { readFileSync } from "node:fs";
import { ANSWER, library, memory, r, slot, words } from "./arena.js";

/** The block of a text in slot 62, of which a word after the directory may be wrong, and its struct in slot 63: its words. */
const TEXT = readFileSync(new URL("../../tests/sea_shells.block", import.meta.url));
function text(spoilt) {
    const size = TEXT.length / 8;
    new Uint8Array(memory.buffer, slot(62), TEXT.length).set(TEXT);
    assert.equal(library.bitm_text_open(BigInt(slot(62)), BigInt(size), BigInt(slot(63))), 0);
    if (spoilt) words(slot(62), size)[72 + (r() % (size - 72))] ^= BigInt(r());
    return size;
}

/** What a text is asked, by letters and by bytes. */
function ofText() {
    text(r() % 3 === 0);
    words(slot(64), 3).set([8n, 2n, 1n]); // of the bytes that it uses those of sea
    return { text: slot(63), pattern: slot(64), pattern_len: r() % 4, from: r() % 40, out: slot(65), out_len: r() % 9 };
}
function ofTextInBytes() {
    const given = ofText();
    new Uint8Array(memory.buffer, slot(66), 3).set([115, 101, 97]);
    return { ...given, pattern: slot(66) };
}
/** A text of 20 letters below 4 or bytes in slot 86 and rooms for what is built of it: slots 87 to 89. */
function ofTextBuilt(ofBytes) {
    const n = 20, step = 1 + (r() % 9), at = BigInt(slot(86)), answer = BigInt(ANSWER), less = () => (r() % 9 ? 0 : 1);
    if (ofBytes) new Uint8Array(memory.buffer, slot(86), n).forEach((_, k, bytes) => { bytes[k] = r() % 4 * 60; });
    else for (let k = 0; k < n; k++) words(slot(86), n)[k] = BigInt(r() % 4);
    assert.equal(ofBytes ? library.bitm_text_size_bytes(at, BigInt(n), step, BigInt(slot(89)), answer) : library.bitm_text_size_letters(BigInt(n), 4, step, BigInt(slot(89)), answer), 0);
    const scratch_len = Number(words(ANSWER, 1)[0]) - less();
    const block_len = Number(words(slot(89), 1)[0]) - less();
    return { text: slot(86), text_len: n, letters: r() % 7 ? 4 : 3, step, scratch: slot(87), scratch_len, block: slot(88), block_len };
}

/** The same with the order of its suffixes in the scratch, of which two may be exchanged. */
function ofTextOrdered(ofBytes) {
    const given = ofTextBuilt(ofBytes), [at, n, scratch, room] = [given.text, given.text_len, given.scratch, given.scratch_len].map(BigInt);
    if (ofBytes) library.bitm_text_order_bytes(at, n, scratch, room);
    else library.bitm_text_order(at, n, 4, scratch, room);
    if (r() % 4 === 0) new Uint32Array(memory.buffer, given.scratch, 2).reverse();
    return given;
}

const ofTextBlock = () => ({ block: slot(62), block_len: text(r() % 3 === 0) - (r() % 7 ? 0 : 1), text: slot(67) });

/** Arguments that have to fit together, by export and name. */
export const TEXTS = {
    bitm_text_build: () => ofTextBuilt(false),
    bitm_text_build_bytes: () => ofTextBuilt(true),
    bitm_text_order: () => ofTextBuilt(false),
    bitm_text_order_bytes: () => ofTextBuilt(true),
    bitm_text_build_ordered: () => ofTextOrdered(false),
    bitm_text_build_ordered_bytes: () => ofTextOrdered(true),
    bitm_text_open: ofTextBlock,
    bitm_text_check: ofTextBlock,
    bitm_text_len: ofText,
    bitm_text_count: ofText,
    bitm_text_count_bytes: ofTextInBytes,
    bitm_text_locate: ofText,
    bitm_text_locate_bytes: ofTextInBytes,
    bitm_text_extract: ofText,
    bitm_text_extract_bytes: ofTextInBytes,
};
