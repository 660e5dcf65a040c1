// Arguments for the exports of include/bitm.h, over memory whose parts fit together: what a call takes, right or wrong.
import assert from "node:assert/strict";
import { ANSWER, BITS, N, START, arena, library, put, r, slot, structs, words } from "./arena.js";
import { KEYS } from "./arguments_of_keys.js";
import { NODES } from "./arguments_of_nodes.js";
import { NUMBERS } from "./arguments_of_numbers.js";
import { TEXTS } from "./arguments_of_texts.js";

const SMALL = { index: 70, first: 30, second: 30, ones_log2: 14, zeros_log2: 14, width: 66, rank: 70, log2: 40, percent: 300, level: 9, most: 40, len: 100, largest: 100, count: 90, left: 400, kind: 4, number: 6000, first_bit: 300 };
// Which parts of the arena a pointer of this name has; others are free slots, one for each parameter.
const WHERE = { index: slot(3), sequence: slot(8), hash: slot(9) };

/** Two shards, both the index in slot 3, with their counts, of which one may be wrong: the struct. */
function shards(spoilt) {
    const index = structs.get("bitm_index").size, both = slot(17), bits = slot(20), ones = slot(21), at = slot(22);
    for (let k = 0; k < 2; k++) arena().copyWithin(both - START + k * index, slot(3) - START, slot(3) - START + index);
    assert.equal(library.bitm_index_count(BigInt(slot(3)), 1, BigInt(ANSWER)), 0);
    const count = words(ANSWER, 1)[0];
    words(bits, 3).set([0n, BigInt(BITS), BigInt(2 * BITS)]);
    words(ones, 3).set([0n, count, 2n * count]);
    if (spoilt) words(r() % 2 ? bits : ones, 3)[r() % 3] = BigInt(r() % 9000);
    put(at, "bitm_prefixes", { bits, bits_len: 3, ones, ones_len: r() % 7 ? 3 : 2 });
    put(at, "bitm_shards", { shards: both, shards_len: r() % 7 ? 2 : 1 });
    return at;
}

/** What lists of shards have in common; the slots of their answers are none of those that shards() fills. */
const ofShards = () => ({ shards: shards(r() % 3 === 0), out: slot(16), room: slot(18), room_len: r() % (4 * N), counts: slot(19) });

/** Sums of the first numbers in slot 10, of which one may be wrong, in slot 16: of how many numbers. */
function sums(spoilt) {
    const n = r() % N;
    assert.equal(library.bitm_prefix_sums(BigInt(slot(10)), BigInt(n), BigInt(slot(16)), BigInt(n + 1)), 0);
    if (spoilt) words(slot(16), n + 1)[r() % (n + 1)] += 1n;
    return n;
}

const someLog2 = () => (r() % 5 ? [0, 7 + (r() % 8)][r() % 2] : r() % 40);
// By export: arguments that have to fit together, by name.
const FITTING = {
    ...NODES,
    ...KEYS,
    ...NUMBERS,
    ...TEXTS,
    bitm_bits_set_list: () => ({ positions: slot(11) }),
    bitm_bits_intersects: () => ({ other: slot([0, 10][r() % 2]) }),
    bitm_bits_is_subset: () => ({ other: slot([0, 10][r() % 2]) }),
    bitm_stored_build() {
        const ones_log2 = someLog2(), zeros_log2 = someLog2(), wrong = () => (r() % 20 ? 0 : 1);
        return {
            ones_log2, zeros_log2, words_len: N, to_len: N, upper_len: 1 + wrong(), lower_len: 2 - wrong(),
            starts_len: Math.sign(ones_log2) - (ones_log2 ? wrong() : 0), starts0_len: Math.sign(zeros_log2) + wrong(), samples_len: r() % 9 ? 64 : r() % 40,
        };
    },
    bitm_prefix_sums() {
        const n = r() % N;
        return { numbers_len: n, out_len: n + (r() % 7 ? 1 : 0) };
    },
    bitm_prefix_sums_check() {
        const n = sums(r() % 3 === 0);
        return { numbers_len: n, sums: slot(16), sums_len: n + (r() % 7 ? 1 : 0) };
    },
    bitm_shards_find: () => ({ counts: shards(r() % 3 === 0) }),
    bitm_shards_rank: () => ({ shards: shards(r() % 3 === 0), position: r() % (2 * BITS + 60) }),
    bitm_shards_select: () => ({ shards: shards(r() % 3 === 0), rank: r() % (2 * BITS) }),
    bitm_shards_next: () => ({ shards: shards(r() % 3 === 0), from: r() % (2 * BITS + 60) }),
    bitm_shards_previous: () => ({ shards: shards(r() % 3 === 0), from: r() % (2 * BITS + 60) }),
    bitm_shards_rank_list: () => ({ positions: slot(11), ...ofShards() }),
    bitm_shards_select_list: () => ({ ranks: slot(11), ...ofShards() }),
};

/** Arguments that keep the duties of the header: lengths are those of the memory, or wrong ones that are refused. */
export function argumentsOf(call, parts) {
    const building = call.name === "bitm_sequence_build", ofIndex = call.name === "bitm_index_build";
    const fitting = FITTING[call.name]?.() ?? {};
    let free = 16;
    if (call.name === "bitm_stored_read" && r() % 3) library.bitm_stored_sequence(60n, BigInt(slot(15)), BigInt(slot(10)));
    return call.parameters.map(({ type, name }, k) => {
        if (name in fitting) return fitting[name];
        if (name in WHERE && type.endsWith("*")) return WHERE[name];
        if (building && k >= 2 && k < 10) return parts[k - 2];
        if (building && name === "items") return slot(14);
        if (building && name === "items_len") return 60;
        if (ofIndex && k < 6) return [slot(0), N, slot(10), Number(library.bitm_index_upper_len(BigInt(N))), slot(12), Number(library.bitm_index_lower_len(BigInt(N)))][k];
        if (type === "const uint64_t *" && name === "words") return slot(0);
        if (type.endsWith("*")) return k === 0 ? slot(10) : slot(free++);
        if (type === "bool") return r() % 2;
        if (name === "starts_len") return r() % 7 ? 1 : 2;
        if (name === "file_len") return r() % 7 ? 400 : r() % 400;
        if (type === "uint64_t" && /^(ones|zeros)_len$/.test(name)) return r() % 4;
        if (name === "bits_len") return r() % 9 ? BITS : r() % 4000;
        if (name.endsWith("_len") || name === "sizes_len") return r() % 7 ? N : r() % N;
        if (type === "uint32_t") return r() % (SMALL[name] ?? 2 ** 31);
        if (type === "uint16_t") return r() % 300;
        return r() % 50 === 0 ? Number.MAX_SAFE_INTEGER - (r() % 9) : r() % (SMALL[name] ?? BITS + 60);
    });
}
