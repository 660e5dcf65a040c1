// What the tests compare with: plain counting over arrays, and random contents that a seed determines.
import assert from "node:assert/strict";
import { readFileSync } from "node:fs";
import { has64, startSync } from "../src/core.js";
import { WrongTables } from "../src/numbers.js";

export function random(seed) {
    let x = seed >>> 0 || 1;
    return () => {
        x ^= x << 13;
        x ^= x >>> 17;
        x ^= x << 5;
        return x >>> 0;
    };
}

/** Booleans, of which about `share` of 16 are true, in runs where `share` is 16. */
export function booleans(n, seed, share = 5) {
    const r = random(seed), out = new Array(n);
    let run = 0, value = false;
    for (let k = 0; k < n; k++) {
        if (share < 16) out[k] = r() % 16 < share;
        else {
            if (run-- <= 0) [run, value] = [r() % 3000, !value];
            out[k] = value;
        }
    }
    return out;
}

export function sorted(n, span, seed) {
    const r = random(seed), out = new Float64Array(n);
    for (let k = 0; k < n; k++) out[k] = Math.floor((((r() >>> 5) * 67108864 + (r() >>> 6)) / 9007199254740992) * span);
    return out.sort();
}

/** Ranks and positions of booleans, one by one. */
export function counted(bits) {
    const rank = new Array(bits.length + 1), ones = [], zeros = [];
    bits.forEach((bit, k) => {
        rank[k] = ones.length;
        (bit ? ones : zeros).push(k);
    });
    rank[bits.length] = ones.length;
    return { rank, ones, zeros };
}

/** The least index whose item is at least x, by halving; the length where there is none. */
export function lowerBound(items, x) {
    let low = 0, high = items.length;
    while (low < high) {
        const middle = (low + high) >>> 1;
        if (items[middle] < x) low = middle + 1;
        else high = middle;
    }
    return low;
}

/** Where section k of a block begins, by its directory (docs/FORMAT.md). */
export const sectionAt = (block, k) => Number(new DataView(block.buffer, block.byteOffset).getBigUint64(128 + 32 * k + 8, true));

/** What a call answers; undefined where it throws the error of wrong tables. */
export function unlessWrong(call) {
    try {
        return call();
    } catch (it) {
        assert.ok(it instanceof WrongTables, it);
        return undefined;
    }
}

/**
 * Spoils a block: with one bit of a byte changed it is refused, and so is each part of it. look(it) gets what opens unchecked,
 * which has to be at least `least` of all.
 */
export function spoil(Kind, bytes, least, look) {
    let opened = 0;
    for (let at = 0; at < bytes.length; at++) {
        const changed = bytes.slice();
        changed[at] ^= 1 << at % 8;
        assert.throws(() => Kind.open(changed), WrongTables, `byte ${at}`);
        const it = unlessWrong(() => Kind.open(changed, { check: false }));
        if (!it) continue;
        opened++;
        look(it);
        it.free();
    }
    assert.ok(opened > bytes.length * least, `${opened} of ${bytes.length} changed blocks were opened`);
    for (let n = 0; n < bytes.length; n++) assert.throws(() => Kind.open(bytes.subarray(0, n)), WrongTables);
}

/** Counts answers that are as they should be; throws at the first that is not. */
export class Tally {
    count = 0;

    same(got, wanted, what) {
        if (!Object.is(got, wanted)) assert.fail(`${what()}: ${String(got)} and not ${String(wanted)}`);
        this.count++;
    }

    list(got, wanted, what) {
        assert.equal(got.length, wanted.length, what);
        for (let k = 0; k < got.length; k++) this.same(got[k], wanted[k], () => `${what}, item ${k}`);
    }

    atLeast(least) {
        assert.ok(this.count >= least, `${this.count} answers are less than ${least}`);
        console.log(`${this.count} answers as counted`);
    }
}

/** "32" or "64": the pair of modules that is tested, the one that this engine takes unless BITM_FORM says another. */
export const form = process.env.BITM_FORM ?? (has64() ? "64" : "32");
export const moduleBytes = name => readFileSync(new URL(`../wasm/${name}${form}.wasm`, import.meta.url));
startSync(moduleBytes("bitm"), moduleBytes("calls"));
export const bitm = await import("../src/bitm.js");
