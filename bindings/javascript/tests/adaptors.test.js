// Each export of include/bitm.h by its adaptor and by BigInts, over the same memory: the same status, the same answer, and
// the same bytes afterwards. And which exports the package reaches.
import assert from "node:assert/strict";
import { readFileSync, readdirSync } from "node:fs";
import { test } from "node:test";
import { wasmType } from "../header.mjs";
import * as layout from "../src/layout.js";
import { ANSWER, adaptors, arena, exported, library, load, prepare, structs, words } from "./arena.js";
import { argumentsOf } from "./arguments.js";
import { Tally } from "./plain.js";

const beside = new URL("../", import.meta.url), tally = new Tally();

// These write numbers up to the first index that has none; their status, BITM_NONE, says so.
const STOPS = new Set(["bitm_sequence_get_list", "bitm_matrix_get_list"]);

const isAnswer = (call, k) => k === call.parameters.length - 1 && /^uint(32|64)_t \*$/.test(call.parameters[k].type);

function both(call, parts) {
    const given = argumentsOf(call, parts), hasAnswer = call.parameters.some((_, k) => isAnswer(call, k));
    const plain = given.map((it, k) => (isAnswer(call, k) ? ANSWER : it));
    const before = arena().slice();
    const status = library[call.name](...plain.map((it, k) => (wasmType(call.parameters[k].type) === "i64" ? BigInt(it) : it)));
    const after = arena().slice(), stood = words(ANSWER, 1)[0];
    arena().set(before);
    const numbers = given.flatMap((it, k) => (isAnswer(call, k) ? [] : call.parameters[k].name === "key_hash" ? [it >>> 0, Math.floor(it / 2 ** 32)] : [it]));
    const got = adaptors[call.name](...numbers), isStatus = call.result === "uint32_t" && !/version|optimal|to_store/.test(call.name);
    const value = isStatus ? (hasAnswer ? (call.parameters.at(-1).type === "uint32_t *" ? stood & 0xffffffffn : stood) : 0n) : BigInt.asUintN(64, BigInt(status));
    const wanted = isStatus && status !== 0 ? -status : value < 2n ** 53n ? Number(value) : NaN;
    tally.same(got, wanted, () => `${call.name}(${given})`);
    assert.ok(Buffer.compare(arena(), after) === 0, `${call.name}(${given}) wrote something else`);
    return !isStatus || status === 0 || (status === 1 && STOPS.has(call.name));
}

test("each adaptor does what its export does", () => {
    assert.equal(exported.length, 214);
    for (const call of exported) {
        let answered = 0;
        for (let round = 0; round < 60; round++) answered += both(call, prepare(round % 4 === 3));
        assert.ok(answered >= 5, `${call.name} answered ${answered} times of 60`);
    }
    tally.atLeast(214 * 60);
});

test("each adaptor refuses what is no whole number of its range", () => {
    const parts = prepare(false);
    for (const call of exported) {
        const given = argumentsOf(call, parts), own = call.parameters.filter((_, k) => !isAnswer(call, k));
        own.forEach((it, k) => {
            if (it.type.endsWith("*") || (it.type === "size_t" && it.name.endsWith("_len")) || it.type === "bool" || it.name === "key_hash") return;
            const most = 2 ** ({ uint32_t: 32, uint16_t: 16 }[it.type] ?? 53);
            for (const bad of [-1, 0.5, NaN, Infinity, -Infinity, most]) {
                const tried = given.slice(0, own.length), before = arena().slice();
                tried[k] = bad;
                if (own.at(-1).name === "key_hash") tried.push(0);
                assert.equal(adaptors[call.name](...tried), -5, `${call.name}: ${it.name} = ${bad}`);
                assert.ok(Buffer.compare(arena(), before) === 0, `${call.name} wrote`);
            }
        });
    }
});

test("the layout says how many bytes each struct has, and where each of its members stands", () => {
    for (const [name, { size, members }] of structs) {
        const said = layout[name.toUpperCase()], own = members.filter(it => !/reserved/.test(it.name) && (it.type.endsWith("*") || !it.type.startsWith("struct ")));
        assert.equal(said.sizeof, size, name);
        for (const { name: member, at } of own) assert.equal(said[member], at, `${name}.${member}`);
    }
    assert.equal(Object.keys(layout).length, structs.size + 2);
});

// Exports that no function of the package calls, each with the reason.
const LEFT_OUT = {
    bitm_bytes_get57: "a DataView reads 8 bytes of a buffer where they are; a copy into memory would be slower",
    bitm_bytes_init57: "as bitm_bytes_get57",
    bitm_bytes_set57: "as bitm_bytes_get57",
    bitm_bytes_get25: "as bitm_bytes_get57",
    bitm_bytes_init25: "as bitm_bytes_get57",
    bitm_bytes_set25: "as bitm_bytes_get57",
    bitm_index_count: "a rank at the length gives the same number with fewer reads",
    bitm_stored_index: "toBytes() writes blocks; files of version 2 are read alone",
    bitm_stored_index_room: "as bitm_stored_index",
    bitm_stored_build: "as bitm_stored_index",
    bitm_stored_sequence: "as bitm_stored_index",
    bitm_sequence_sizes: "bitm_sequence_block_size says how long the block is",
    bitm_sequence_build: "bitm_sequence_block_build builds all parts",
    bitm_prefix_sums: "there are no shards here yet",
    bitm_prefix_sums_check: "as bitm_prefix_sums",
    bitm_shards_find: "as bitm_prefix_sums",
    bitm_shards_rank: "as bitm_prefix_sums",
    bitm_shards_select: "as bitm_prefix_sums",
    bitm_shards_next: "as bitm_prefix_sums",
    bitm_shards_previous: "as bitm_prefix_sums",
    bitm_shards_rank_list: "as bitm_prefix_sums",
    bitm_shards_select_list: "as bitm_prefix_sums",
    bitm_hash_get: "bitm_hash_find_seeded looks at the fingerprint too",
    bitm_hash_get_seeded: "as bitm_hash_get",
    bitm_hash_get_list_seeded: "as bitm_hash_get",
    bitm_hash_set_prints: "bitm_hash_set_prints_seeded takes hashes without seeds too",
    bitm_hash_find: "as bitm_hash_set_prints",
    bitm_hash_find_list: "as bitm_hash_set_prints",
    bitm_trie_unsorted_word: "Trie.ofWords sorts the words",
    bitm_strings_hash: "bitm_strings_hashes hashes one string too",
    bitm_text_len: "the struct of an open block has the length",
    bitm_text_size: "a block of other widths than those of letters below a bound is not made here",
};

test("each export is reached, or listed with its reason", () => {
    const source = readdirSync(new URL("src/", beside)).map(it => readFileSync(new URL(`src/${it}`, beside), "utf8")).join("\n");
    const reached = name => new RegExp(`\\b${name}\\b`).test(source);
    assert.deepEqual(exported.map(it => it.name).filter(it => !reached(it)).sort(), Object.keys(LEFT_OUT).sort());
    const readme = readFileSync(new URL("README.md", beside), "utf8");
    for (const it of Object.keys(LEFT_OUT)) assert.ok(readme.includes(`\`${it}\``) || /bytes_/.test(it), `README.md does not list ${it}`);
    const names = WebAssembly.Module.exports(load("bitm")).map(it => it.name).filter(it => it.startsWith("bitm_")).sort();
    assert.deepEqual(names, exported.map(it => it.name).sort());
    assert.deepEqual(WebAssembly.Module.imports(load("bitm")), []);
});
