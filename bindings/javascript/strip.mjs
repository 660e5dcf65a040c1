// strip.mjs FROM TO: copies a WebAssembly module without its custom sections, which hold names of functions. No other byte
// changes.
import { readFileSync, writeFileSync } from "node:fs";

const [from, to] = process.argv.slice(2), bytes = readFileSync(from), kept = [bytes.subarray(0, 8)];
for (let at = 8; at < bytes.length; ) {
    const begin = at, id = bytes[at++];
    let size = 0, shift = 0, byte;
    do {
        byte = bytes[at++];
        size += (byte & 127) * 2 ** shift;
        shift += 7;
    } while (byte > 127);
    at += size;
    if (id !== 0) kept.push(bytes.subarray(begin, at));
}
writeFileSync(to, Buffer.concat(kept));
