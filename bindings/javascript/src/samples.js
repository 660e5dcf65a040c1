// Samples of an index in its block: after the sections of its kind two for the 1 bits, and then two for the 0 bits. The first
// of the two has the samples, and the second what else an index takes: the logarithm of their distance, and for each upper
// block how many samples stand before it.
import { BESIDE, bytesAt, calls, numberAt, wordsAt } from "./core.js";
import { sizeWith, writeWith } from "./extending.js";
import { BITM_INDEX, BITM_SECTION } from "./layout.js";
import { Block, withRoom } from "./memory.js";
import { must, orThrow } from "./numbers.js";

const KINDS = [
    { name: "ones", one: 1, role: 7n, startsRole: 0x316174736d746962n }, // "bitmsta1"
    { name: "zeros", one: 0, role: 8n, startsRole: 0x306174736d746962n }, // "bitmsta0"
];
const MOST_SECTIONS = 16, OF_BITS = 3, LEAST_LOG2 = 7, MOST_LOG2 = 31;

/**
 * Runs body(words, fill) for the block of an index with samples: it has `words` words, and fill(at) writes them. The block
 * without samples is plain = { words, fill }; logs says for "ones" and "zeros" the logarithm of the distance, or 0 for none.
 */
export function withSamples(plain, logs, body) {
    let { words } = plain, block = new Block(8 * words);
    try {
        plain.fill(block.at);
        withSections(block.at, words, KINDS.filter(it => logs[it.name]), logs, sections => {
            const sizeOf = it => orThrow(sizeWith(block.at, words, it), "samples", it.count), last = sections.pop();
            for (const it of sections) {
                const size = sizeOf(it), before = block;
                block = new Block(8 * size);
                try {
                    must(writeWith(before.at, words, it, block.at, size), "samples");
                } finally {
                    before.free();
                }
                words = size;
            }
            const size = sizeOf(last);
            body(size, to => must(writeWith(block.at, words, last, to, size), "samples"));
        });
    } finally {
        block.free();
    }
}

/** Runs body(sections) over the sections with the samples of the index whose block stands at `block`. */
function withSections(block, words, kinds, logs, body) {
    withRoom(BITM_INDEX.sizeof, index => {
        bytesAt(index, BITM_INDEX.sizeof).fill(0);
        must(calls.bitm_index_block_open(block, words, index), "samples");
        const of = member => numberAt(index + BITM_INDEX[member]), starts = of("upper_len");
        const most = kinds.map(it => calls.bitm_index_samples_len(of("words_len"), logs[it.name]));
        const bytes = most.map(n => 8 * (1 + starts + Math.ceil(n / 2))), all = bytes.reduce((sum, it) => sum + it, 0);
        withRoom(all, room => {
            bytesAt(room, all).fill(0);
            body(kinds.flatMap((it, k) => built(index, it, logs[it.name], { at: room + (k && bytes[0]), starts, most: most[k] })));
        });
    });
}

/** Builds the samples of a kind at `at`: the logarithm, the starts, the samples. The two sections. */
function built(index, { one, role, startsRole }, log2, { at, starts, most }) {
    const samples = at + 8 * (1 + starts);
    wordsAt(at, 1)[0] = BigInt(log2);
    const count = orThrow(calls.bitm_index_build_samples(index, one, log2, samples, most, at + 8, starts), "samples", most);
    return [
        { role, count, items: samples, items_len: Math.ceil(count / 2) },
        { role: startsRole, count: 8 * (1 + starts), items: at, items_len: 1 + starts },
    ];
}

/** Writes to the struct of an index the samples that its block has; what is none it leaves out. */
export function attachSamples(block, words, index) {
    const sections = [], starts = numberAt(index + BITM_INDEX.upper_len);
    for (let k = OF_BITS; k < MOST_SECTIONS && calls.bitm_block_section(block, words, k, BESIDE) === 0; k++) {
        const [role] = wordsAt(BESIDE + BITM_SECTION.role, 1);
        sections.push({ role, count: numberAt(BESIDE + BITM_SECTION.count), at: numberAt(BESIDE + BITM_SECTION.words) });
    }
    const isTaken = it => it?.count === 8 * (1 + starts) && numberAt(it.at) >= LEAST_LOG2 && numberAt(it.at) <= MOST_LOG2;
    for (const { name, role, startsRole } of KINDS) {
        const k = sections.findIndex((it, i) => it.role === role && sections[i + 1]?.role === startsRole && isTaken(sections[i + 1]));
        if (k < 0) continue;
        const { at, count } = sections[k], beside = sections[k + 1].at;
        const members = { samples: at, samples_len: count, starts: beside + 8, starts_len: starts, log2: numberAt(beside) };
        for (const [member, value] of Object.entries(members)) wordsAt(index + BITM_INDEX[`${name}_${member}`], 1)[0] = BigInt(value);
    }
}
