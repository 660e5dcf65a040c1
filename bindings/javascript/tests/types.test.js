// The texts of types/*.d.ts: each public entry has one of its own.
import assert from "node:assert/strict";
import { readFileSync, readdirSync } from "node:fs";
import { test } from "node:test";
import { entries, nameOf, parameters } from "./declared.js";

const folder = new URL("../types/", import.meta.url), files = readdirSync(folder);
const listed = them => them.map(it => `${it.file} ${nameOf(it)}: ${it.comment}`).join("\n");

test("the declarations are read: no line of them is left out", () => {
    assert.ok(entries.length > 350, `${entries.length} entries`);
    assert.equal(new Set(entries.map(nameOf)).size, entries.length, "an entry stands twice");
    const lines = files.flatMap(it => readFileSync(new URL(it, folder), "utf8").replace(/^declare global \{[^]*?^\}/m, "").replace(/\/\*\*[^]*?\*\//g, "").split("\n"));
    const declared = lines.filter(it => it.trim() && !/^(?:import|export \*|\/\/|\s*\})/.test(it)), found = entries.flatMap(it => it.signatures);
    assert.equal(found.length, declared.length);
    assert.ok(parameters().length > 280);
});

test("each public entry has a text", () => {
    const without = entries.filter(it => !it.comment);
    assert.equal(without.length, 0, `${without.length} of ${entries.length} have none:\n${listed(without)}`);
});

test("a text is of one entry alone, says more than its name, and ends as a sentence", () => {
    const seen = new Map(), plain = it => it.comment.toLowerCase().replace(/[^a-z0-9]+/g, " ").trim();
    for (const it of entries) seen.set(plain(it), [...(seen.get(plain(it)) ?? []), it]);
    const twice = [...seen.values()].filter(it => it.length > 1).flat();
    assert.equal(twice.length, 0, `${twice.length} have the text of another:\n${listed(twice)}`);
    const short = entries.filter(it => it.comment.split(" ").length < 4 || !/[.)]$/.test(it.comment));
    assert.equal(short.length, 0, listed(short));
});
