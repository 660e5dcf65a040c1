// The two WebAssembly modules, one instance of each for all values: bitm.wasm, which is the proved C library, and
// calls.wasm, its adaptors, which take and return numbers in place of BigInts.
export const VERSION = "0.3.0";
const VERSION_NUMBER = 300;
const PAGE = 65536;

const early = { get: () => { throw new Error("bitm: no value can be made before start() has ended"); } };
let isStarted = false;

/** The exports of the library, which take BigInts, and those of the adaptors, which take numbers. */
export let wasm = new Proxy({}, early), calls = wasm;
/** Where the adaptors leave an answer; where calls may write what they say beside it (1024 bytes); 48 KiB for lists; and the
 *  rest of the page, for what a call needs until its end. */
export let ANSWER, BESIDE, PIECES, STACK;
export const STACK_BYTES = 12288;
/** The address from which on memory is ours: below stands what the library itself uses. */
export let firstFree;

/** Whether this engine runs modules with 64-bit memory; else the same library, lowered to 32 bits, is used. */
export function has64() {
    return WebAssembly.validate(Uint8Array.of(0, 97, 115, 109, 1, 0, 0, 0, 5, 3, 1, 4, 1));
}

/** Makes the values of this package usable, given both modules, compiled or as bytes. Does nothing the second time. */
export async function start(module, adaptors) {
    if (isStarted) return;
    const library = await instance(module, {});
    const linked = await instance(adaptors, imports(library));
    if (!isStarted) adopt(library, linked);
}

/** The same at once, where an engine lets modules of this size be compiled at once: in Node, and in workers. */
export function startSync(module, adaptors) {
    if (isStarted) return;
    const compiled = it => (Object.prototype.toString.call(it) === "[object WebAssembly.Module]" ? it : new WebAssembly.Module(it));
    const library = new WebAssembly.Instance(compiled(module), {}).exports;
    adopt(library, new WebAssembly.Instance(compiled(adaptors), imports(library)).exports);
}

async function instance(from, given) {
    const made = await WebAssembly.instantiate(from, given);
    return (made.instance ?? made).exports;
}

function imports(library) {
    const answer = library.memory.buffer.byteLength;
    grow(library.memory, 1);
    return { bitm: { ...library, answer: new WebAssembly.Global({ value: "i64" }, BigInt(answer)) } };
}

function adopt(library, linked) {
    if (linked.bitm_version() !== VERSION_NUMBER) throw new Error(`bitm: bitm.wasm is not of version ${VERSION}`);
    isStarted = true;
    wasm = library;
    calls = linked;
    firstFree = library.memory.buffer.byteLength;
    ANSWER = firstFree - PAGE;
    BESIDE = ANSWER + 64;
    PIECES = ANSWER + 4096;
    STACK = firstFree - STACK_BYTES;
}

function grow(memory, pages) {
    try {
        memory.grow(BigInt(pages)); // a 64-bit memory, as it was standardized
    } catch (it) {
        if (!(it instanceof TypeError)) throw it;
        memory.grow(pages); // a 32-bit memory, and a 64-bit one in older engines
    }
}

/** Adds at least the given number of bytes to memory. RangeError where there is not so much. */
export function moreMemory(bytes) {
    const pages = Math.ceil(bytes / PAGE);
    try {
        grow(wasm.memory, pages);
    } catch {
        throw new RangeError(`bitm: no memory for ${bytes} bytes more. Values that are garbage are freed between tasks, not inside ` +
            "one: free() what a loop makes, or declare it by `using`");
    }
    return pages * PAGE;
}

/** Views of memory, to be used before anything else is allocated: where memory grows, older views are detached. */
export const bytesAt = (at, length) => new Uint8Array(wasm.memory.buffer, at, length);
export const wordsAt = (at, length) => new BigUint64Array(wasm.memory.buffer, at, length);
export const doublesAt = (at, length) => new Float64Array(wasm.memory.buffer, at, length);
export const halvesAt = (at, length) => new Uint32Array(wasm.memory.buffer, at, length);

/** Writes a struct: the members that are given, and zeros. */
export function put(at, layout, members) {
    bytesAt(at, layout.sizeof).fill(0);
    for (const [name, value] of Object.entries(members)) wordsAt(at + layout[name], 1)[0] = BigInt(value);
}

/** A BigInt, as a number where it is below 2^53. */
export const smallest = it => (it <= 0x1fffffffffffffn ? Number(it) : it);
/** A number of 64 bits in memory, so. */
export const numberAt = at => smallest(wordsAt(at, 1)[0]);
