// node bench/calls.mjs [LOG2 [ROUNDS [FORM]]]: times the calls of the JavaScript package over 2^LOG2 random bits (20), and
// beside each what one writes without a library. FORM is 32 or 64: the module to use. Prints CSV rows: name, by, LOG2, kind
// of bits, least time of all rounds (400), unit, sum of the answers; and for each pair a line `# NAME: A of B`, the quotient
// of the least times. Both take turns in each round, so that the load of the machine is that of both.
//   counted  bits in a Uint32Array, and the number of 1 bits before each 512 of them
//   halving  the sorted positions, or numbers, in a Uint32Array
// For 64-bit memory Node 20 to 23 needs --experimental-wasm-memory64.
import { readFileSync } from "node:fs";

const [log2 = 20, rounds = 400, form] = process.argv.slice(2).map(Number);
const QUERIES = 1 << 12, BITS = 2 ** log2;

const began = performance.now(), bitm = await loaded();
const { BitVector, EliasFano, Index } = bitm;
new Index(BitVector.fromPositions([3, 5, 900])).rank(6);
console.log(`# from the import to the first answer: ${(performance.now() - began).toFixed(1)} ms`);

async function loaded() {
    if (!form) return import("../bindings/javascript/src/node.js");
    const it = await import("../bindings/javascript/src/bitm.js");
    const read = name => readFileSync(new URL(`../bindings/javascript/wasm/${name}${form}.wasm`, import.meta.url));
    await it.start(read("bitm"), read("calls"));
    return it;
}

/** Whole numbers below a limit, by a generator that nobody has to trust. */
function drawn(count, limit, seed) {
    let x = seed;
    return Float64Array.from({ length: count }, () => {
        x ^= x << 13;
        x ^= x >>> 17;
        x ^= x << 5;
        return Math.floor(((x >>> 0) / 2 ** 32) * limit);
    });
}

function ones(x) {
    x -= (x >>> 1) & 0x55555555;
    x = (x & 0x33333333) + ((x >>> 2) & 0x33333333);
    return Math.imul((x + (x >>> 4)) & 0x0f0f0f0f, 0x01010101) >>> 24;
}

/** Bits in words of 32, and how many 1 bits there are before each 16 words. */
class Counted {
    constructor(words) {
        this.words = words;
        this.length = 32 * words.length;
        this.counts = new Uint32Array(words.length / 16 + 1);
        words.forEach((it, k) => (this.counts[(k >>> 4) + 1] += ones(it)));
        for (let k = 1; k < this.counts.length; k++) this.counts[k] += this.counts[k - 1];
    }

    rank(position) {
        if (!(position >= 0 && position <= this.length)) throw new RangeError(`no position ${position}`);
        const words = this.words, end = position >>> 5, rest = position & 31;
        let sum = this.counts[position >>> 9];
        for (let k = (position >>> 9) << 4; k < end; k++) sum += ones(words[k]);
        return rest ? sum + ones(words[end] & ((1 << rest) - 1)) : sum;
    }

    select(rank) {
        if (!(rank >= 0 && rank < this.counts.at(-1))) return undefined;
        let k = (firstAbove(this.counts, rank) - 1) << 4, left = rank - this.counts[k >>> 4];
        for (let here; left >= (here = ones(this.words[k])); k++) left -= here;
        let word = this.words[k];
        for (; left; left--) word &= word - 1;
        return 32 * k + 31 - Math.clz32(word & -word);
    }
}

function firstAbove(items, x) {
    let low = 0, high = items.length;
    while (low < high) {
        const middle = (low + high) >>> 1;
        if (items[middle] <= x) low = middle + 1;
        else high = middle;
    }
    return low;
}

function firstAtLeast(items, x) {
    let low = 0, high = items.length;
    while (low < high) {
        const middle = (low + high) >>> 1;
        if (items[middle] < x) low = middle + 1;
        else high = middle;
    }
    return low;
}

/** A loop of its own for each function, so that none slows down another: of a text of its own, since V8 keeps what it learned
 * of a loop for all functions of the same text. */
let loops = 0;
const loop = () => new Function("queries", "ask", `/* ${loops++} */ let sum = 0; for (let k = 0; k < queries.length; k++) sum += ask(queries[k]); return sum;`);
const total = answers => answers.reduce((sum, it) => sum + it, 0);

/** Times some ways to answer the same queries. The first ones are ours. */
function compare(name, queries, ways) {
    const made = Object.entries(ways).map(([by, ask]) => {
        const run = by.endsWith("list") ? ask : loop();
        return { by, run: () => run(queries, ask), least: Infinity, sum: 0 };
    });
    for (let round = 0; round < rounds; round++) {
        for (const it of made) {
            const start = performance.now(), got = it.run();
            it.least = Math.min(it.least, performance.now() - start);
            it.sum = typeof got === "number" ? got : total(got);
        }
    }
    for (const it of made) {
        if (it.sum !== made[0].sum) throw new Error(`${name}: ${it.by} answers otherwise`);
        console.log(`${name},${it.by},${log2},even,${((1e6 * it.least) / queries.length).toFixed(2)},ns,${it.sum}`);
    }
    const ours = made.filter(it => it.by.startsWith("bitm")), plain = made.filter(it => !it.by.startsWith("bitm"));
    for (const a of ours) for (const b of plain) console.log(`# ${name}: ${a.by} ${(a.least / b.least).toFixed(2)} of ${b.by}`);
}

const words = Uint32Array.from({ length: BITS / 32 }, ((it, k) => () => it[k++])(drawn(BITS / 32, 2 ** 32, 2463534242), 0));
const bits = BitVector.fromBytes(new Uint8Array(words.buffer)), index = new Index(bits), plain = new Counted(words);
const sampled = new Index(bits, { sampleLog2: 9 });
console.log(`# Node ${process.version}, ${form || (bitm.has64() ? 64 : 32)}-bit memory, ${QUERIES} queries, load ${readFileSync("/proc/loadavg", "utf8").split(" ")[0]}`);

const positions = Uint32Array.from(bits.toPositions()), n = positions.length;
const queried = drawn(QUERIES, BITS, 77), ranks = drawn(QUERIES, n, 78);
compare("rank", queried, {
    "bitm": it => index.rank(it), "bitm list": it => index.rankList(it),
    "counted": it => plain.rank(it), "halving": it => firstAtLeast(positions, it),
});
compare("select", ranks, {
    "bitm": it => index.select(it), "bitm sampled": it => sampled.select(it),
    "bitm list": it => index.selectList(it), "bitm sampled list": it => sampled.selectList(it), "counted": it => plain.select(it),
});

/** As many numbers below 2^32 as there are 1 bits: what a sequence is for. */
const numbers = Uint32Array.from(drawn(n, 2 ** 32, 80)).sort(), sequence = new EliasFano(numbers), values = drawn(QUERIES, numbers[n - 1], 79);
compare("first_at_least", values, {
    "bitm": it => sequence.firstAtLeast(it), "bitm list": it => sequence.firstAtLeastList(it), "halving": it => firstAtLeast(numbers, it),
});
console.log(`# bytes: index ${index.byteLength}, counted ${words.byteLength + plain.counts.byteLength}, positions ${positions.byteLength}, ` +
    `sequence ${sequence.byteLength}, numbers ${numbers.byteLength}`);
