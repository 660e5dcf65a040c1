// Blocks of the memory of WebAssembly, each from a multiple of 64 bytes on. A block that a value holds is given back by
// free(), or some time after the value is garbage; what a call needs for itself is given back at its end.
import { STACK, STACK_BYTES, firstFree, moreMemory, wasm } from "./core.js";
import { Heap } from "./heap.js";

/** How many bytes a unit of the heap has. */
const UNIT = 64;
const LEAST_GROWTH = 1 << 20;
const unitsOf = bytes => Math.max(Math.ceil(bytes / UNIT), 1);
const heap = new Heap();
/** How many bytes of the stack are taken by calls that run. */
let taken = 0;

/** The address of a new block. Its bytes may be any. */
export function allocate(bytes) {
    const units = unitsOf(bytes);
    return UNIT * (heap.take(units) ?? grown(units));
}

/** Takes units where memory has to grow for them; where it cannot, what is free is looked through. */
function grown(units) {
    const end = wasm.memory.buffer.byteLength / UNIT, needed = UNIT * (units - heap.endingAt(end));
    try {
        heap.give(end, moreOf(needed) / UNIT);
    } catch (it) {
        const found = heap.take(units, true);
        if (found === undefined) throw it;
        return found;
    }
    return heap.take(units, true);
}

/** Adds at least so many bytes to memory, and more if there are: how many. */
function moreOf(bytes) {
    if (bytes >= LEAST_GROWTH) return moreMemory(bytes);
    try {
        return moreMemory(LEAST_GROWTH);
    } catch {
        return moreMemory(bytes);
    }
}

export function release(at, bytes) { heap.give(at / UNIT, unitsOf(bytes)); }

/** Runs body(at) over bytes of memory that are given back at its end: a few from a stack, since such calls nest. */
export function withRoom(bytes, body) {
    const size = UNIT * unitsOf(bytes), isSmall = size <= STACK_BYTES - taken, at = isSmall ? STACK + taken : allocate(bytes);
    if (isSmall) taken += size;
    try {
        return body(at);
    } finally {
        if (isSmall) taken -= size;
        else release(at, bytes);
    }
}

/** How many bytes of WebAssembly memory there are, and how many of them hold values. */
export function memoryUse() {
    const total = wasm.memory.buffer.byteLength;
    return { total, used: total - firstFree - UNIT * heap.units };
}

const registry = new FinalizationRegistry(it => release(it.at, it.bytes));

/** A block that a value holds; `at` is 0 after free(). */
export class Block {
    constructor(bytes) {
        this.bytes = bytes;
        this.at = allocate(bytes);
    }

    /** Fills the block by body(at), and frees it if that throws. Once `owner` is garbage, it is freed too. */
    heldBy(owner, body) {
        try {
            body(this.at);
        } catch (it) {
            this.free();
            throw it;
        }
        registry.register(owner, { at: this.at, bytes: this.bytes }, this);
        return this;
    }

    free() {
        if (this.at === 0) return;
        registry.unregister(this);
        release(this.at, this.bytes);
        this.at = 0;
    }
}

/** The error of a call of a value after free(): the names of some classes are plurals. */
export function freed(name) {
    return new TypeError(`bitm: ${name.endsWith("s") ? `these ${name} were` : `the ${name} was`} freed`);
}

/** Symbol.dispose, or where an engine has none a symbol that nobody calls. */
export const dispose = Symbol.dispose ?? Symbol("Symbol.dispose");
