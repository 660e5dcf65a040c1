// Arguments for the calls over perfect hashes, with seeds and without, dictionaries and strings.
import assert from "node:assert/strict";
import { ANSWER, N, START, arena, library, memory, put, r, slot, structs, words } from "./arena.js";

/** The struct of a hash in slot 76 over the hashes in slot 69, which it moves: how many words and levels it has. The words and
 * the sizes of the levels are in slots 70 and 72. */
function hashed() {
    const B = BigInt, at = k => B(slot(k)), outs = [0n, 8n, 16n].map(it => at(73) + it);
    assert.equal(library.bitm_hash_build(at(69), B(N), 100, at(70), 64n, at(71), 64n, at(72), 64n, ...outs), 0);
    const [levels, len] = Array.from(words(slot(73), 2), Number), lower = library.bitm_index_lower_len(B(len));
    assert.equal(library.bitm_index_build(at(70), B(len), at(74), 1n, at(75), lower, B(ANSWER)), 0);
    put(slot(76), "bitm_index", { words: slot(70), words_len: len, upper: slot(74), upper_len: 1, lower: slot(75), lower_len: lower, bits_len: 64 * len });
    words(slot(76) + structs.get("bitm_index").size, 3).set([at(72), B(levels), B(N)]);
    return { len, levels };
}

/** A dictionary of 40 numbers: its parts with the struct in slot 76; its block in slot 78, of which a word may be wrong, with
 * the struct in slot 79. The numbers are in slot 68. */
function dictionary(spoilt) {
    const B = BigInt, at = k => B(slot(k)), keys = words(slot(68), N), hashes = words(slot(69), N), seed = 7n;
    for (let i = 0; i < N; i++) hashes[i] = (keys[i] = B(977 * i + (r() % 977))) + seed;
    const { len, levels } = hashed();
    put(slot(76), "bitm_dictionary", { keys: slot(77), keys_len: N, seed });
    for (const key of keys) {
        assert.equal(library.bitm_hash_get(at(76), key + seed, B(ANSWER)), 0);
        words(slot(77), N)[Number(words(ANSWER, 1)[0])] = key;
    }
    assert.equal(library.bitm_dictionary_size(B(len), B(levels), B(N), B(ANSWER)), 0);
    const size = words(ANSWER, 1)[0];
    assert.equal(library.bitm_dictionary_build(at(76), at(78), size), 0);
    assert.equal(library.bitm_dictionary_open(at(78), size, at(79)), 0);
    if (spoilt) words(slot(78), Number(size))[40 + (r() % (Number(size) - 40))] ^= B(r());
    return { len, levels, size: Number(size) };
}
const ofDictionaryBlock = () => ({ block: slot(78), block_len: dictionary(r() % 3 === 0).size - (r() % 7 ? 0 : 1), dictionary: slot(80), hash: slot(80) });
function ofDictionary() {
    dictionary(r() % 3 === 0);
    for (let i = 0; i < N; i++) words(slot(81), N)[i] = r() % 3 ? words(slot(68), N)[r() % N] : BigInt(r() % 40000);
    return { dictionary: slot(79), key: Number(words(slot(81), N)[0]), keys: slot(81), out: slot(82), counts: slot(83) };
}
function ofHashBlock() {
    const { len, levels } = dictionary(false);
    assert.equal(library.bitm_hash_block_size(BigInt(len), BigInt(levels), BigInt(ANSWER)), 0);
    const size = Number(words(ANSWER, 1)[0]);
    return { words: slot(70), words_len: len, sizes: slot(72), sizes_len: levels, block: slot(84), block_len: size - (r() % 7 ? 0 : 1) };
}

/** Keys of the hash in slot 76, their fingerprints, and the words in which these stand. */
function ofPrints() {
    dictionary(false);
    const areKeys = r() % 2 === 1;
    for (let i = 0; i < N; i++) words(slot(81), N)[i] = words(slot(68), N)[r() % 9 ? i : 0] + (areKeys || r() % 9 ? 7n : 8n);
    const key_hash = Number(words(slot(81), N)[r() % N]), prints_len = r() % 7 ? N : r() % N;
    return { hash: slot(76), key_hash, key_hashes: slot(81), key_prints: slot(10), key_print: r() % 9, prints: slot(85), prints_len, width: r() % 5 ? r() % 4 : r() % 70 };
}

/** The same by a hash with a seed for each word, or with none, in slot 108: over the levels of one that was built without. */
function ofSeededPrints() {
    const given = ofPrints(), size = structs.get("bitm_hash").size, at = slot(108);
    if (r() % 2) for (let i = 0; i < N; i++) words(slot(81), N)[i] = words(slot(68), N)[i] + 7n;
    arena().copyWithin(at - START, slot(76) - START, slot(76) - START + size);
    put(at, "bitm_seeded_hash", { seeds: slot(10), seeds_len: r() % 8 ? 0 : Number(words(slot(76) + 8, 1)[0]) - (r() % 7 ? 0 : 1) });
    return { ...given, hash: at };
}

/** The parts of the block of that hash with seeds, which are any bytes, and how many words it takes. */
function seededParts() {
    const { len, levels } = dictionary(false);
    assert.equal(library.bitm_hash_block_size_seeded(BigInt(len), BigInt(levels), BigInt(ANSWER)), 0);
    return { len, levels, size: Number(words(ANSWER, 1)[0]) };
}
function ofSeededBuilt() {
    const { len, levels, size } = seededParts(), wrong = () => (r() % 7 ? 0 : 1);
    return { words: slot(70), words_len: len, seeds: slot(10), seeds_len: len - wrong(), sizes: slot(72), sizes_len: levels, block: slot(84), block_len: size - wrong() };
}
function ofSeededBlock() {
    const { len, levels, size } = seededParts(), B = BigInt, at = k => B(slot(k)), wrong = () => (r() % 7 ? 0 : 1);
    assert.equal(library.bitm_hash_block_build_seeded(at(70), B(len), at(10), B(len), at(72), B(levels), 7n, at(84), B(size)), 0);
    if (r() % 3 === 0) words(slot(84), size)[40 + (r() % (size - 40))] ^= B(r());
    return { block: slot(84), block_len: size - wrong(), bytes: slot(84), bytes_len: 8 * size - wrong(), hash: slot(108) };
}

/** 40 strings of three bytes in slot 99, whose ends are in slot 100; their block in slot 102, of which a word may be wrong, with
 * the struct in slot 103: the size of the block, and the seed of the hashes. */
function strings(spoilt) {
    const B = BigInt, at = k => B(slot(k)), bytes = new Uint8Array(memory.buffer, slot(99), 3 * N), seed = r();
    for (let i = 0; i < N; i++) {
        bytes.set([i, r() % 256, r() % 256], 3 * i);
        words(slot(100), N)[i] = B(3 * i + 3);
    }
    assert.equal(library.bitm_strings_hashes(at(99), B(3 * N), at(100), B(N), B(seed), at(69), B(N)), 0);
    const { len, levels } = hashed();
    assert.equal(library.bitm_strings_size(B(len), B(levels), B(N), B(3 * N), B(ANSWER)), 0);
    const size = words(ANSWER, 1)[0];
    assert.equal(library.bitm_strings_build(at(76), B(seed), at(99), B(3 * N), at(100), B(N), at(102), size), 0);
    assert.equal(library.bitm_strings_open(at(102), size, at(103)), 0);
    if (spoilt) words(slot(102), Number(size))[40 + (r() % (Number(size) - 40))] ^= B(r());
    return { size: Number(size), seed };
}
function ofStrings() {
    const { size, seed } = strings(r() % 3 === 0), lists = { bytes: slot(99), bytes_len: 3 * N, ends: slot(100), ends_len: N };
    const one = { string: slot(99) + 3 * (r() % N), string_len: r() % 5 ? 3 : r() % 5, number: r() % (N + 5) };
    return { ...lists, ...one, strings: slot(103), hash: slot(76), seed, block: slot(104), block_len: size - (r() % 7 ? 0 : 1), out: slot(106), counts: slot(107) };
}
const ofStringsBlock = () => ({ block: slot(102), block_len: strings(r() % 3 === 0).size - (r() % 7 ? 0 : 1), strings: slot(105) });

/** Arguments that have to fit together, by export and name. */
export const KEYS = {
    bitm_hash_set_prints: ofPrints,
    bitm_hash_find: ofPrints,
    bitm_hash_find_list: ofPrints,
    bitm_hash_get_seeded: ofSeededPrints,
    bitm_hash_get_list_seeded: ofSeededPrints,
    bitm_hash_set_prints_seeded: ofSeededPrints,
    bitm_hash_find_seeded: ofSeededPrints,
    bitm_hash_find_list_seeded: ofSeededPrints,
    bitm_strings_hashes: ofStrings,
    bitm_strings_size: () => ({ levels: r() % 300 }),
    bitm_strings_build: ofStrings,
    bitm_strings_open: ofStringsBlock,
    bitm_strings_check: ofStringsBlock,
    bitm_strings_find: ofStrings,
    bitm_strings_find_list: ofStrings,
    bitm_strings_get: ofStrings,
    bitm_hash_block_size: () => ({ levels: r() % 300 }),
    bitm_hash_block_build: ofHashBlock,
    bitm_hash_block_open: ofDictionaryBlock,
    bitm_hash_block_check: ofDictionaryBlock,
    bitm_hash_block_size_seeded: () => ({ levels: r() % 300 }),
    bitm_hash_block_build_seeded: ofSeededBuilt,
    bitm_hash_block_open_seeded_bytes: ofSeededBlock,
    bitm_hash_block_check_seeded: ofSeededBlock,
    bitm_dictionary_size: () => ({ levels: r() % 300 }),
    bitm_dictionary_build: () => ({ block_len: dictionary(false).size - (r() % 7 ? 0 : 1), dictionary: slot(76), block: slot(84) }),
    bitm_dictionary_open: ofDictionaryBlock,
    bitm_dictionary_check: ofDictionaryBlock,
    bitm_dictionary_find: ofDictionary,
    bitm_dictionary_find_list: ofDictionary,
};
