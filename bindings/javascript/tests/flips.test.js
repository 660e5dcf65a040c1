// Each single bit of a file of each kind, flipped: open() refuses it, as long as it looks at all bytes. The same of the file
// with a section of the caller's own.
import assert from "node:assert/strict";
import { test } from "node:test";
import { bitm } from "./plain.js";

const { BitVector, Dictionary, EliasFano, Index, PerfectHash, SparseBits, Strings, TextIndex, Tree, Trie, WaveletMatrix, WrongTables, OWN_ROLE, extend, open } = bitm;
const bits = BitVector.fromPositions([0, 3, 4, 70, 99, 128], 130), words = ["a", "be", "bee", "ü"];

const FILES = {
    "an index": [new Index(bits), open],
    "an index with samples": [new Index(bits, { sampleLog2: 7 }), open],
    "an index of no bits": [new Index(new BitVector(0), { sampleLog2: 9 }), open],
    "a sequence": [new EliasFano([2, 3, 5, 5, 1000, 2n ** 60n]), open],
    "an empty sequence": [new EliasFano([]), open],
    "sparse bits": [new SparseBits([3, 100, 4000], 5000), SparseBits.open],
    "a hash": [new PerfectHash(words), PerfectHash.open],
    "a hash with seeds": [new PerfectHash(words, { tries: 4 }), PerfectHash.open],
    "a dictionary": [new Dictionary([4, 9, 49]), Dictionary.open],
    "strings": [new Strings(words), Strings.open],
    "a tree": [new Tree([2, 0, 1, 0]), Tree.open],
    "a trie": [Trie.ofWords(words), Trie.open],
    "a matrix": [new WaveletMatrix([3, 1, 4, 1, 5]), WaveletMatrix.open],
    "a matrix with quarters": [new WaveletMatrix([3, 1, 4, 1, 5], { quarters: true }), WaveletMatrix.open],
    "a matrix with hints": [new WaveletMatrix([3, 1, 4, 1, 5], { hints: true }), WaveletMatrix.open],
    "a matrix with both": [new WaveletMatrix([3, 1, 4, 1, 5], { quarters: true, hints: true }), WaveletMatrix.open],
    "a text": [TextIndex.of("she sells sea shells", { step: 3 }), TextIndex.open],
    "a text of numbers": [TextIndex.ofLetters([300, 1, 300], 400), TextIndex.open],
};

for (const [name, [value, read]] of Object.entries(FILES)) {
    test(`${name}: no flipped bit is taken`, () => {
        const file = value.toBytes(), before = bitm.memoryUse().used;
        assert.deepEqual(read(file).toBytes(), file);
        for (const bytes of [file, extend(file, [[OWN_ROLE, Uint8Array.of(1, 2, 255)]])]) {
            read(bytes).free();
            for (let bit = 0; bit < 8 * bytes.length; bit++) {
                const changed = bytes.slice();
                changed[bit >> 3] ^= 1 << (bit & 7);
                assert.throws(() => read(changed), WrongTables, `bit ${bit % 8} of byte ${bit >> 3}`);
            }
        }
        assert.ok(bitm.memoryUse().used <= before + file.length + 464, "a file that was refused was not freed");
    });
}
