// Each argument of each call that is wrong: refused by an error of the right class that names it, and never answered.
import assert from "node:assert/strict";
import { test } from "node:test";
import { calls, made } from "./each_call.js";
import { bitm } from "./plain.js";

const { BitVector, EliasFano } = bitm;
const ODD = [null, true, {}, () => 1, Symbol("3"), made.Tree(), made.Index()];
const NOT_WHOLE = [-1, 1.5, NaN, Infinity, -Infinity, 2 ** 53, -1n, 2n ** 64n];
const gone = made.BitVector(), goneSequence = made.EliasFano();
gone.free();
goneSequence.free();

/** By type: what is a TypeError, what a RangeError, and what an item of a list is of; an item may be left out of none. */
const TYPES = {
    Whole: { type: [...ODD, "3", "", [], [3]], range: NOT_WHOLE },
    "number | bigint": { type: [...ODD, "3", "", [], [3]], range: [1.5, NaN, Infinity, -Infinity, 2 ** 53] },
    number: { type: [...ODD, "3", "", [], 3n], range: [-1, 1.5, NaN, Infinity, 65536, 2 ** 53] },
    boolean: { type: [null, 0, 1, "", "false", {}, [], 0n, Symbol("3")], range: [] },
    Bit: { type: [...ODD.filter(it => it !== true), "1", [], 2, -1, NaN, 0.5, 2n, -1n, Object.create(null)], range: [] },
    Progress: { type: [null, true, 1, "f", {}, [], Symbol("f")], range: [] },
    BitVector: { type: [...ODD, 3, "3", [], [true], Object.create(BitVector.prototype), gone], range: [] },
    EliasFano: { type: [...ODD, 3, "3", [], [3], Object.create(EliasFano.prototype), goneSequence], range: [] },
    Bytes: { type: [...ODD, 3, "3", [], [3]], range: [] },
    BigUint64Array: { type: [...ODD, 3, "3", [], [3n], new Uint8Array(8)], range: [] },
    Key: { type: [...ODD, [], [3], new Uint16Array(1)], range: [] },
    StringOrBytes: { type: [...ODD, 3, 3n, [], [3], "\ud800", new Uint16Array(1)], range: [] },
    Pattern: { type: [null, true, {}, () => 1, Symbol("3"), 3, 3n, "\ud800", ["3"]], range: [[-1], [1.5], [2 ** 53]] },
    Options: { type: [null, true, 3, "3", 3n, Symbol("3"), () => 1], range: [] },
    Pair: { type: [...ODD, 3, "ab", [], [65536], [65536, "a"], ["a", new Uint8Array(1)], [null, new Uint8Array(1)]], range: [[-1, new Uint8Array(1)], [1.5, new Uint8Array(1)], [1, new Uint8Array(1)]] },
};
const ITEMS = {
    Wholes: "Whole", "NumberArray,BigUint64Array,Iterable<Whole>": "Whole", "NumberArray | BigUint64Array,Iterable<Whole>": "Whole", "Iterable<Bit>": "Bit", "Iterable<Key>": "Key", StringsOrBytes: "StringOrBytes",
    "Iterable<string | Uint8Array>": "StringOrBytes", "Iterable<EliasFano>": "EliasFano", "Iterable<readonly [Whole, Bytes]>": "Pair",
};
const LISTS = { type: [null, true, {}, () => 1, Symbol("3"), 3, 3n, "12", "", new ArrayBuffer(8), new DataView(new ArrayBuffer(8))], range: [] };
const AS = { "string | Uint8Array": "StringOrBytes", "EliasFano[]": "EliasFano", IndexOptions: "Options" };

const typeOf = it => [...new Set(it.types)].join();
const shown = it => (typeof it === "bigint" ? `${it}n` : typeof it === "object" && it !== null ? `${it.constructor?.name} ${Array.isArray(it) ? it.map(String) : ""}` : String(it));

/** Throws unless a call throws an error of this class whose message is ours, and names what is wrong. */
function refuses(call, name, kind, says, what) {
    let got;
    try {
        got = call();
    } catch (it) {
        assert.equal(it.name, kind, `${what}: ${it.stack}`);
        assert.match(it.message, /^bitm: /, `${what}: ${it.stack}`);
        const said = it.message.replace(/of type undefined/g, "");
        assert.ok(says.test(said) || /(?:was|were) freed/.test(said), `${what} names no ${name}: ${it.message}`);
        assert.doesNotMatch(said, /undefined|\[object/, `${what}: ${it.message}`);
        return;
    }
    assert.fail(`${what} answers ${String(got)}`);
}

function refusesEach({ key, name, call }, { type, range }, says, wrap = it => it) {
    const faults = [];
    for (const [kind, values] of [["TypeError", type], ["RangeError", range]]) {
        for (const value of values) {
            try {
                refuses(() => call(wrap(value)), name, kind, says, `${key} of ${shown(value)}`);
            } catch (it) {
                faults.push(it.message);
            }
        }
    }
    return faults;
}

const isList = it => typeOf(it) in ITEMS;
const kindOf = it => TYPES[AS[typeOf(it)] ?? (/Options$/.test(typeOf(it)) ? "Options" : typeOf(it))];
const none = faults => assert.equal(faults.length, 0, `${faults.length}:\n${faults.join("\n")}`);

test("each argument of each call takes what is right", () => {
    for (const { key, good, call } of calls) if (key.endsWith(")") && !key.startsWith("TextIndex.constructor")) assert.doesNotThrow(() => call(good), key);
    assert.ok(calls.length > 250, `${calls.length} arguments`);
});

test("a single argument that is wrong is named", () => {
    const them = calls.filter(it => !isList(it) && typeOf(it) !== "never");
    for (const it of them) assert.ok(kindOf(it), `${it.key}: there is no type ${typeOf(it)}`);
    none(them.flatMap(it => {
        const kind = kindOf(it), left = it.isOptional || typeOf(it) === "EliasFano[]" ? [] : [undefined];
        return refusesEach(it, { ...kind, type: [...kind.type, ...left] }, new RegExp(`\\b${it.name}\\b`));
    }));
});

test("a list that is none is named", () => {
    none(calls.filter(isList).flatMap(it => refusesEach(it, { ...LISTS, type: [...LISTS.type, undefined] }, new RegExp(`\\b${it.name}\\b`))));
});

test("an item of a list that is wrong is named, and the list", () => {
    none(calls.filter(isList).flatMap(it => {
        const kind = TYPES[ITEMS[typeOf(it)]], [first] = it.good;
        return refusesEach(it, { ...kind, type: [...kind.type, undefined] }, new RegExp(`\\bitem 1 of ${it.name}\\b`), value => [first, value]);
    }));
});

test("an argument left out is named", () => {
    none(calls.filter(it => !it.isOptional && it.key.endsWith(")") && !/others|flip/.test(it.key)).flatMap(it => refusesEach(it, { type: [undefined], range: [] }, new RegExp(`\\b${it.name}\\b|TextIndex`))));
});
