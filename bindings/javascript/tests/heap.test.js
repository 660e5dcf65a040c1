// The heap beside a plain array of flags, one for each unit: what is taken was free, and holes are as large as they can be.
import assert from "node:assert/strict";
import { test } from "node:test";
import { Heap } from "../src/heap.js";
import { random } from "./plain.js";

/** Runs of true flags: [[from, length], ..]. */
function runsOf(flags) {
    const found = [];
    flags.forEach((flag, k) => {
        if (flag && flags[k - 1]) found.at(-1)[1]++;
        else if (flag) found.push([k, 1]);
    });
    return found;
}

/** Takes units of both, and compares: those were free, and they are refused only where no hole is large enough. */
function takeOf(heap, flags, units, all) {
    const at = heap.take(units, all), largest = Math.max(0, ...runsOf(flags).map(it => it[1]));
    if (at === undefined) assert.ok(largest < (all ? units : units * 9 / 8), `${units} units were refused, and a hole has ${largest}`);
    else {
        assert.ok(flags.slice(at, at + units).length === units && flags.slice(at, at + units).every(Boolean), `${units} units at ${at} were not free`);
        flags.fill(false, at, at + units);
    }
    return at;
}

test("units that are taken were free, and those given back join what is free beside them", () => {
    for (let seed = 1; seed <= 30; seed++) {
        const r = random(seed), size = 300 + (r() % 1500), heap = new Heap(), flags = new Array(size).fill(true), held = [];
        heap.give(0, size);
        for (let round = 0; round < 400; round++) {
            if (held.length > 0 && r() % 5 < 2) {
                const [[at, units]] = held.splice(r() % held.length, 1);
                heap.give(at, units);
                flags.fill(true, at, at + units);
            } else {
                const units = 1 + (r() % [3, 12, 200][r() % 3]), at = takeOf(heap, flags, units, r() % 2 === 0);
                if (at !== undefined) held.push([at, units]);
            }
            const runs = runsOf(flags);
            assert.deepEqual([heap.holes, heap.units], [runs.length, runs.reduce((sum, it) => sum + it[1], 0)]);
            for (const [at, units] of runs) assert.equal(heap.endingAt(at + units), units);
        }
        for (const [at, units] of held) heap.give(at, units);
        assert.deepEqual([heap.holes, heap.units, heap.endingAt(size)], [1, size, size]);
    }
});

test("sizes at the borders of their classes", () => {
    const sizes = [1, 7, 8, 9, 15, 16, 17, 18, 31, 32, 33, 255, 256, 257, 2 ** 20, 2 ** 26 + 1, 2 ** 30, 2 ** 31 - 1];
    for (const size of sizes) {
        const heap = new Heap();
        heap.give(5, size);
        assert.equal(heap.take(size + 1), undefined);
        assert.equal(heap.take(size), 5);
        assert.deepEqual([heap.holes, heap.units, heap.take(1)], [0, 0, undefined]);
    }
    const heap = new Heap();
    heap.give(0, 2 ** 31 - 1);
    for (const size of [2 ** 31, 2 ** 32, 2 ** 41, 2 ** 52]) assert.equal(heap.take(size), undefined);
});

test("what is freed in any order becomes one hole again, however often", () => {
    const heap = new Heap(), r = random(3);
    heap.give(0, 1e6);
    for (let round = 0; round < 20; round++) {
        const held = Array.from({ length: 2000 }, () => 1 + (r() % 300)).map(units => [heap.take(units), units]);
        assert.ok(held.every(it => it[0] !== undefined));
        held.sort(() => (r() % 3) - 1).forEach(it => heap.give(...it));
        assert.deepEqual([heap.holes, heap.units], [1, 1e6]);
    }
});

test("a heap with a hundred times as many holes takes no longer", () => {
    const timed = holes => {
        const heap = new Heap(), rounds = 20000;
        heap.give(0, 8 * holes + 40 * rounds);
        const held = Array.from({ length: 2 * holes }, () => heap.take(4));
        for (let k = 0; k < held.length; k += 2) heap.give(held[k], 4);
        assert.equal(heap.holes, holes + 1);
        const start = process.cpuUsage().user;
        const more = Array.from({ length: rounds }, () => heap.take(20));
        more.forEach(it => heap.give(it, 20));
        return process.cpuUsage().user - start;
    };
    timed(2000);
    const [few, many] = [2000, 200000].map(holes => Math.min(timed(holes), timed(holes)));
    assert.ok(many < 20 * few + 20000, `${many} us with 200,000 holes, and ${few} us with 2,000`);
});
