// Memory of the library in which parts fit together: an index, a sequence and a hash, and slots for what else a call takes.
import assert from "node:assert/strict";
import { readFileSync } from "node:fs";
import { callsOf, structsOf } from "../header.mjs";
import { moduleBytes, random } from "./plain.js";

const beside = new URL("../", import.meta.url);
const header = readFileSync(process.env.BITM_HEADER ?? new URL("../../include/bitm.h", beside), "utf8");
export const exported = callsOf(header);
export const structs = structsOf(header);
export const load = name => new WebAssembly.Module(moduleBytes(name));
export const library = new WebAssembly.Instance(load("bitm"), {}).exports;
export const memory = library.memory;
export const START = memory.buffer.byteLength, ROOM = 4096, SLOTS = 16;
try {
    memory.grow(8n);
} catch {
    memory.grow(8);
}
export const ANSWER = START + 2 * SLOTS * ROOM;
const link = { bitm: { ...library, answer: new WebAssembly.Global({ value: "i64" }, BigInt(ANSWER)) } };
export const adaptors = new WebAssembly.Instance(load("calls"), link).exports;
export const arena = () => new Uint8Array(memory.buffer, START, 7 * 65536);
export const words = (at, n) => new BigUint64Array(memory.buffer, at, n);
export const r = random(77), N = 40, BITS = 64 * N - 9;
export const slot = k => START + k * ROOM;

// Slots: 0 words, 1 upper, 2 lower, 3 an index, 4 to 7 the parts of a sequence, 8 its struct, 9 a hash, 10 on: free.
export const put = (at, name, members) => {
    for (const it of structs.get(name).members) if (it.name in members) words(at + it.at, 1)[0] = BigInt(members[it.name]);
};

/** Fills the memory: an index, a sequence and a hash, of whose tables some may be wrong. Answers the parts of the sequence. */
export function prepare(spoilt) {
    arena().fill(0);
    for (let k = 0; k < 2 * ROOM / 8; k++) words(slot(10) + 8 * k, 1)[0] = BigInt(r() % 3000);
    for (let k = 0; k < N; k++) words(slot(0), N)[k] = (BigInt(r()) << 32n) | BigInt(r());
    const B = BigInt, upper = Number(library.bitm_index_upper_len(B(N))), lower = Number(library.bitm_index_lower_len(B(N)));
    assert.equal(library.bitm_index_build(B(slot(0)), B(N), B(slot(1)), B(upper), B(slot(2)), B(lower), B(ANSWER)), 0);
    const index = { words: slot(0), words_len: N, upper: slot(1), upper_len: upper, lower: slot(2), lower_len: lower, bits_len: BITS };
    put(slot(3), "bitm_index", index);
    const used = slot(15), samples = [slot(12), 20, slot(12) + 1024, upper].map(B);
    assert.equal(library.bitm_index_build_samples(B(slot(3)), 1, 8, ...samples, B(used)), 0);
    put(slot(3) + structs.get("bitm_index").members.find(it => it.name === "ones").at, "bitm_samples",
        { samples: samples[0], samples_len: words(used, 1)[0], starts: samples[2], starts_len: samples[3], log2: 8 });
    const items = Array.from({ length: 60 }, () => r() % 3000).sort((a, b) => a - b), lens = slot(15);
    words(slot(14), 60).set(items.map(BigInt));
    assert.equal(library.bitm_sequence_sizes(60n, B(items[59]), B(lens)), 0);
    const [width, ...sizes] = Array.from(words(lens, 5), Number), parts = sizes.flatMap((it, k) => [slot(4 + k), it]);
    assert.equal(library.bitm_sequence_build(B(slot(14)), 60n, ...parts.map(B), B(ANSWER)), 0);
    const names = ["low", "low_len", "words", "words_len", "upper", "upper_len", "lower", "lower_len"];
    put(slot(8), "bitm_sequence", { len: 60, width, ...Object.fromEntries(names.map((it, k) => [it, parts[k]])) });
    put(slot(9), "bitm_index", index);
    words(slot(9) + structs.get("bitm_index").size, 3).set([B(slot(13)), 2n, B(BITS)]);
    words(slot(13), 2).set([25n, 15n]);
    if (spoilt) for (let k = 0; k < 4; k++) words(slot([1, 2, 6, 7][k]), 1)[0] ^= B(r());
    words(ANSWER, 1)[0] = 2n ** 64n - 1n; // an answer of 32 bits is read from four bytes alone
    return parts;
}
