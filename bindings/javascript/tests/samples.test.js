// The samples of an index in its block: which sections there are, that an index is opened with them, and that they change no
// answer, whatever they hold.
import assert from "node:assert/strict";
import { test } from "node:test";
import { bytesAt, calls, numberAt, wasm } from "../src/core.js";
import { BITM_INDEX } from "../src/layout.js";
import { withRoom } from "../src/memory.js";
import { attachSamples } from "../src/samples.js";
import { bitm, booleans, counted } from "./plain.js";

const { BitVector, Index, extend, open, sections } = bitm;
const STARTS = 0x316174736d746962n, STARTS0 = 0x306174736d746962n; // the letters bitmsta1 and bitmsta0, lowest byte first
const letters = role => new TextDecoder().decode(new BigUint64Array([role]));

/** The samples with which the index of a block is opened, for each kind of bit; and whether the library says that they are right. */
function samplesOf(block) {
    return withRoom(BITM_INDEX.sizeof + block.length, index => {
        const at = index + BITM_INDEX.sizeof;
        bytesAt(index, BITM_INDEX.sizeof).fill(0);
        bytesAt(at, block.length).set(block);
        assert.equal(calls.bitm_index_block_open(at, block.length / 8, index), 0);
        attachSamples(at, block.length / 8, index);
        return [["ones", 1], ["zeros", 0]].map(([name, one]) => {
            const of = member => numberAt(index + BITM_INDEX[`${name}_${member}`]);
            return { log2: of("log2"), count: of("samples_len"), starts: of("starts_len"), isRight: wasm.bitm_index_check_samples(BigInt(index), one) === 0 };
        });
    });
}

const none = { log2: 0, count: 0, starts: 0, isRight: false };

test("the sections of samples, and an index that is opened with them", () => {
    assert.deepEqual([letters(STARTS), letters(STARTS0)], ["bitmsta1", "bitmsta0"]);
    for (const [n, log2] of [[0, 9], [1, 7], [5000, 7], [5000, 8], [100001, 9], [100001, 31]]) {
        const bits = booleans(n, 3), { ones } = counted(bits), block = new Index(BitVector.fromBooleans(bits), { sampleLog2: log2 }).toBytes();
        const [, , , first, starts, second, starts0] = sections(block);
        assert.deepEqual(sections(block).map(it => it[0]), [1, 2, 3, 7, STARTS, 8, STARTS0]);
        const inWords = 64 * Math.ceil(n / 64) - ones.length; // the 0 bits, those after the last bit too
        const begins = n === 0 ? [] : [0n], counts = [ones.length, inWords].map(it => Math.ceil(it / 2 ** log2));
        for (const [it, count] of [[first, counts[0]], [second, counts[1]]]) assert.ok(it[1] instanceof Uint32Array && it[1].length === count);
        for (const it of [starts, starts0]) assert.deepEqual([...new BigUint64Array(it[1].buffer)], [BigInt(log2), ...begins]);
        assert.deepEqual(samplesOf(block), counts.map(count => ({ log2, count, starts: begins.length, isRight: true })));
        assert.deepEqual(open(block).toBytes(), block);
    }
});

test("an index of which one kind alone has samples, or none", () => {
    const plain = new Index(BitVector.fromBooleans(booleans(5000, 4))), block = plain.toBytes(), sampled = new Index(plain.toBitVector(), { sampleLog2: 8 }).toBytes();
    const [, , , first, starts, second, starts0] = sections(sampled);
    assert.deepEqual(samplesOf(block), [none, none]);
    assert.equal(samplesOf(extend(block, [first, starts]))[0].log2, 8);
    assert.deepEqual(samplesOf(extend(block, [first, starts]))[1], none);
    assert.deepEqual(samplesOf(extend(block, [second, starts0]))[0], none);
    // Not those of samples: alone, in another order, of another kind, with another section between.
    const note = [bitm.OWN_ROLE, Uint8Array.of(1)];
    for (const others of [[first], [starts], [starts, first], [first, starts0], [first, note, starts], [second, starts]])
        assert.deepEqual(samplesOf(extend(block, others)), [none, none]);
    assert.equal(samplesOf(extend(block, [note, first, starts]))[0].log2, 8);
    assert.equal(samplesOf(extend(block, [first, [STARTS, new BigUint64Array([32n, 0n])], first, starts]))[0].log2, 8);
});

test("samples that are none, or hold anything, change no answer", () => {
    const bits = booleans(9000, 5), { ones, zeros } = counted(bits), plain = new Index(BitVector.fromBooleans(bits)), block = plain.toBytes();
    const startsOf = (...words) => [STARTS, new BigUint64Array(words)], some = Array.from({ length: 40 }, (_, k) => (k * 2654435761) % 2 ** 32);
    const refused = [startsOf(6n, 0n), startsOf(32n, 0n), startsOf(2n ** 32n + 9n, 0n), startsOf(9n), startsOf(9n, 0n, 0n), startsOf()];
    for (const starts of refused) assert.deepEqual(samplesOf(extend(block, [[7, new Uint32Array(9)], starts])), [none, none]);
    const taken = [[Uint32Array.from(some), startsOf(7n, 0n)], [new Uint32Array(0), startsOf(9n, 0n)], [new Uint32Array(40).fill(2 ** 32 - 1), startsOf(31n, 2n ** 64n - 1n)]];
    for (const [items, starts] of taken) {
        const it = open(extend(block, [[7, items], starts, [8, items], [STARTS0, starts[1]]]));
        assert.ok(it.check());
        assert.deepEqual(it.selectList([...ones.keys(), ones.length]), [...ones, undefined]);
        assert.deepEqual(it.select0List([...zeros.keys(), zeros.length]), [...zeros, undefined]);
        it.free();
    }
});
