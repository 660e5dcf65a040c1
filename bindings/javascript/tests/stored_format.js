// Writes an index and a sequence into the first folder, and reads those of all: what the other bindings wrote too.
import assert from "node:assert/strict";
import { mkdirSync, readFileSync, writeFileSync } from "node:fs";
import { bitm, counted } from "./plain.js";

const { EliasFano, Index, open } = bitm;
export const BITS = Array.from({ length: 100001 }, (_, k) => (k * k) % 7 < 2 || k % 1000 < 100);
export const NUMBERS = Array.from({ length: 3000 }, (_, k) => 1000 * k + ((k * k) % 1000));

export function write(folder) {
    mkdirSync(folder, { recursive: true });
    writeFileSync(`${folder}/index`, Index.fromBooleans(BITS, { sampleLog2: 9 }).toBytes());
    writeFileSync(`${folder}/sequence`, new EliasFano(NUMBERS).toBytes());
}

export function read(folder) {
    const index = open(readFileSync(`${folder}/index`)), sequence = open(readFileSync(`${folder}/sequence`));
    assert.ok(index instanceof Index && sequence instanceof EliasFano, folder);
    assert.deepEqual([...index], BITS, folder);
    assert.deepEqual([...sequence], NUMBERS, folder);
    const { ones, zeros } = counted(BITS);
    assert.deepEqual(index.selectList([...ones.keys(), ones.length]), [...ones, undefined], folder);
    assert.deepEqual(index.select0List([...zeros.keys(), zeros.length]), [...zeros, undefined], folder);
}

const folders = process.argv.slice(2).filter(() => process.argv[1]?.endsWith("stored_format.js"));
if (folders.length) {
    write(folders[0]);
    folders.forEach(read);
    console.log(`JavaScript: reads the files of ${folders.length} folders, its own first`);
}
