// The package itself: its types, the lines of its README, its fields, its sums, and what `npm pack` makes of it.
import assert from "node:assert/strict";
import { execFileSync, spawnSync } from "node:child_process";
import { createHash } from "node:crypto";
import { copyFileSync, existsSync, mkdtempSync, readFileSync, readdirSync, rmSync, writeFileSync } from "node:fs";
import { tmpdir } from "node:os";
import { join } from "node:path";
import { fileURLToPath } from "node:url";
import { after, test } from "node:test";
import { banner, write } from "../one_file.mjs";
import { bitm } from "./plain.js";

const root = fileURLToPath(new URL("..", import.meta.url)), room = mkdtempSync(join(tmpdir(), "bitm-package-"));
after(() => rmSync(room, { recursive: true }));
const has = tool => spawnSync(tool, ["--version"]).status === 0;
const read = name => readFileSync(join(root, name), "utf8");

test("the modules have the sums that stand beside them, and import nothing", () => {
    const lines = [...read("wasm/PROVED").matchAll(/^([0-9a-f]{64})  (\S+)$/gm)].map(it => it.slice(1));
    assert.deepEqual(lines.map(it => it[1]).sort(), ["bitm32.wasm", "bitm64.wasm", "calls32.wasm", "calls64.wasm"]);
    for (const [sum, name] of lines) assert.equal(createHash("sha256").update(readFileSync(join(root, "wasm", name))).digest("hex"), sum, name);
    assert.deepEqual(WebAssembly.Module.imports(new WebAssembly.Module(readFileSync(join(root, "wasm/bitm32.wasm")))), []);
});

test("the file for pages has what the package has, and imports nothing", { skip: !has("esbuild") && "esbuild is not here" }, () => {
    write(join(room, "bitm.js"));
    write(join(room, "again.js"));
    const made = readFileSync(join(room, "bitm.js"), "utf8");
    assert.equal(made, readFileSync(join(room, "again.js"), "utf8"));
    assert.equal(made.split("\n", 1)[0], banner());
    assert.doesNotMatch(made, /^import /m);
    const names = /^export \{([^}]*)\};\n*$/m.exec(made)[1].split(",").map(it => it.trim().split(" as ").at(-1));
    assert.deepEqual(names.sort(), Object.keys(bitm).sort());
});

test("package.json names files that are there, and nothing is left out", () => {
    const it = JSON.parse(read("package.json")), named = [it.types, ...it.sideEffects];
    for (const target of Object.values(it.exports)) named.push(...(typeof target === "string" ? [target] : Object.values(target)));
    for (const name of named) if (!name.includes("*") && name !== "./page/bitm.js") assert.ok(existsSync(join(root, name)), name);
    const version = existsSync(join(root, "../../VERSION")) ? readFileSync(join(root, "../../VERSION"), "utf8").trim() : bitm.VERSION;
    assert.deepEqual([it.version, bitm.VERSION], [version, version]);
    assert.equal(it.dependencies, undefined);
});

test("each value that is exported has a type, and each type a value", async () => {
    const declarations = readdirSync(join(root, "types")).map(it => read(`types/${it}`)).join("\n");
    const types = [...declarations.matchAll(/^export (?:declare )?(?:class|function|const) (\w+)/gm)].map(it => it[1]);
    assert.deepEqual([...new Set(types)].sort(), Object.keys(bitm).sort());
    for (const name of ["BitVector", "Index", "EliasFano", "Cursor", "SparseBits", "PerfectHash", "Dictionary", "Strings", "Tree", "Trie", "WaveletMatrix", "TextIndex"]) {
        const body = new RegExp(`^export class ${name} [^]*?^}`, "m").exec(declarations)[0];
        const declared = new Set([...body.matchAll(/^    (?:static |readonly )?(\w+)[(:?]/gm)].map(it => it[1]));
        const own = [...Object.getOwnPropertyNames(bitm[name].prototype), ...Object.getOwnPropertyNames(bitm[name])];
        const there = new Set(own.filter(it => !["name", "prototype"].includes(it) && !(it === "length" && !declared.has(it))));
        assert.deepEqual([...declared].sort(), [...there].sort(), name);
    }
});

/** Installs what npm pack makes, without a network; without the file for pages where esbuild is not here. */
function installed() {
    const folder = join(room, "site");
    if (!existsSync(folder)) {
        const words = ["pack", "--json", "--pack-destination", room, ...(has("esbuild") ? [] : ["--ignore-scripts"])];
        const packed = JSON.parse(/^\[[^]*/m.exec(execFileSync("npm", words, { cwd: root, encoding: "utf8" }))[0])[0];
        execFileSync("mkdir", ["-p", join(folder, "node_modules/bitm")]);
        execFileSync("tar", ["-xzf", join(room, packed.filename), "-C", join(folder, "node_modules/bitm"), "--strip-components=1"]);
        writeFileSync(join(folder, "package.json"), '{ "type": "module" }');
    }
    return folder;
}

/** Runs Node where the repository is hidden by an empty folder, if a namespace of its own can be had. */
function withoutRepository(cwd, args) {
    const top = join(root, "../.."), run = { cwd, encoding: "utf8" };
    if (!existsSync(join(top, "VERSION")) || spawnSync("unshare", ["-rm", "true"]).status !== 0) return execFileSync(process.execPath, args, run);
    const hidden = `mount -t tmpfs none "$0" && [ ! -e "$0/VERSION" ] && exec "$@"`;
    return execFileSync("unshare", ["-rm", "sh", "-c", hidden, top, process.execPath, ...args], run);
}

/** The blocks of README.md in a language. */
const blocksOf = language => [...read("README.md").matchAll(new RegExp(`\`\`\`${language}\\n([^]*?)\`\`\``, "g"))].map(it => it[1]);

test("the lines of README.md, against the packed package", { skip: !has("npm") && "npm is not here" }, () => {
    const folder = installed();
    const names = ["LICENSE", "README.md", "package.json", ...(has("esbuild") ? ["page"] : []), "src", "types", "wasm"];
    assert.deepEqual(readdirSync(join(folder, "node_modules/bitm")).sort(), names);
    const lines = blocksOf("js").filter(it => !it.startsWith("// app.js")).join("\n").split("\n");
    const plain = 'const shown = it => JSON.stringify(it, (_, x) => typeof x === "bigint" ? `${x}n` : x === undefined ? "undefined" : Number.isNaN(x) ? "NaN" : ArrayBuffer.isView(x) ? Array.from(x) : x);';
    const checked = lines.map(line => {
        const [, call, said] = /^(.*?);\s*\/\/ (.*)$/.exec(line) ?? [];
        const value = said && /^(?:\w+Array )?(\[.*\]|\w+)(?:[:;,].*)?$/.exec(said.replace("NO_ANSWER], which is 2n ** 64n - 1n", "18446744073709551615n]"));
        if (!value || /^(const|import) /.test(line) || /^(a|an)$/.test(value[1])) return line;
        return `if (shown(${call}) !== shown(${value[1].replace(/^NaN$/, "NaN")})) throw new Error(${JSON.stringify(line)} + ": " + shown(${call})); else count++;`;
    });
    writeFileSync(join(folder, "readme.js"), `let count = 0; ${plain}\n${checked.join("\n")}\nconsole.log(count);`);
    const got = Number(withoutRepository(folder, ["readme.js"]));
    assert.ok(got >= 20, `${got} lines of README.md were compared`);
});

test("each bundle that README.md has esbuild make runs alone", { skip: !(has("esbuild") && has("npm")) && "esbuild is not here" }, () => {
    const folder = installed(), app = blocksOf("js").find(it => it.startsWith("// app.js")), elsewhere = mkdtempSync(join(room, "bundles-"));
    const commands = blocksOf("sh").find(it => it.startsWith("esbuild")).trim().split("\n").map(it => it.split("#")[0].trim().split(/\s+/));
    writeFileSync(join(folder, "app.js"), app);
    assert.equal(commands.length, 3);
    for (const [tool, ...words] of commands) {
        const made = words.at(-1).replace("--outfile=", ""), alone = join(elsewhere, made.replace("page.js", "page.cjs"));
        execFileSync(tool, [...words, "--log-level=warning"], { cwd: folder });
        copyFileSync(join(folder, made), alone);
        assert.equal(withoutRepository(elsewhere, [alone]), "2 4\n", made);
    }
});

test("npm pack without esbuild says what is missing, and how to do without it", () => {
    const { status, stderr } = spawnSync(process.execPath, ["one_file.mjs", join(room, "none.js")], { cwd: root, env: { PATH: room }, encoding: "utf8" });
    assert.equal(status, 1);
    assert.match(stderr, /^bitm: esbuild is not here.*\n.*npm pack --ignore-scripts.*\n.*npm install PATH\/bindings\/javascript.*\n$/);
});

test("the line for JavaScript in the README of the repository, and its program, in an empty folder", { skip: !(has("npm") && existsSync(join(root, "../../VERSION"))) && "there is no repository" }, () => {
    const readme = readFileSync(join(root, "../../README.md"), "utf8"), [, install] = /`(npm install \.\.\/vokhuliza\/bindings\/javascript)`/.exec(readme);
    const [program, said] = ["javascript", "output"].map(it => new RegExp(`^\`\`\`${it}\\n([^]*?)^\`\`\``, "m").exec(readme)[1]);
    const empty = mkdtempSync(join(room, "empty-")), command = install.replace("../vokhuliza", join(root, "../.."));
    execFileSync("sh", ["-c", `${command} --offline --no-audit --no-fund --silent`], { cwd: empty });
    writeFileSync(join(empty, "x.mjs"), program);
    assert.equal(execFileSync(process.execPath, ["x.mjs"], { cwd: empty, encoding: "utf8" }), said);
});

const USE = `import { BitVector, Cursor, Dictionary, Index, EliasFano, SparseBits, PerfectHash, Strings, Trie, WaveletMatrix, TextIndex, intersect, open, union, NO_ANSWER, WrongTables } from "bitm";
import { OWN_ROLE, extend, isWritten, section, sections } from "bitm";
const index: Index = new Index(BitVector.fromPositions([1, 2n, 3], 10), { sampleLog2: 9 });
const rank: number = index.rank(4), position: number | undefined = index.select(2n);
const doubles: Float64Array = index.rankList(Uint32Array.of(1)), wide: BigUint64Array = index.selectList(BigUint64Array.of(1n));
const list: (number | undefined)[] = index.selectList([1, 2]), all: number[] = [...index.ones()];
const numbers = new EliasFano(new Set([1, 2])), least: number | bigint | undefined = numbers.successor(1);
const flags: boolean[] = numbers.hasList([1]), bytes: Uint8Array = numbers.hasList(Float64Array.of(1));
const opened = open(index.toBytes().buffer, { check: false });
if (opened instanceof EliasFano) { const more: IterableIterator<number | bigint> = opened.valuesFrom(1); void more; }
const key: number | undefined = new PerfectHash(["a", 1, 1n]).get("a");
const matrix = new WaveletMatrix([3, 1n], { width: 9 }), median: number | bigint | undefined = matrix.quantile(1, 0, 2n), often: number = matrix.rank(3);
const before: Float64Array = matrix.rankList(Uint32Array.of(3), [1]), found: (number | undefined)[] = WaveletMatrix.open(matrix.toBytes()).selectList([3], [0]);
const sparse = new SparseBits([3, 100n], 2n ** 40n), near: number | undefined = sparse.next0(3), bits: boolean[] = sparse.getList([3]);
const text: TextIndex = TextIndex.open(new Uint8Array(0)), positions: number[] = text.locate("she", { from: 1, limit: 2n }), part: Uint8Array | (number | bigint)[] = text.slice(1, 2);
const made: TextIndex[] = [TextIndex.of("she"), TextIndex.of(new Uint8Array(1), { step: 3n }), TextIndex.ofLetters(new Set([1n]), 2, {})];
const cursor: Cursor = numbers.cursor(), there: number | bigint | undefined = cursor.nextGeq(2n), rest: (number | bigint)[] = [...cursor, ...intersect([numbers]), ...union(new Set([numbers]), 1n, 2)];
const words = new Dictionary([4, 9n], { percent: 150, seed: 3n }), which: number | undefined = words.get(4n), many: (number | undefined)[] = words.getList([4]), key9: number | bigint | undefined = words.keyOf(1);
const names = new Strings(["ada", Uint8Array.of(98)], { percent: 150, seed: 3n }), numberOf: number | undefined = names.find("ada"), known: (number | undefined)[] = names.findList(new Set(["ada"]));
const spelled: Uint8Array | undefined = names.get(0n), spoken: string | undefined = Strings.open(names.toBytes(), { check: false }).text(0), each: Uint8Array[] = [...names];
const few = new PerfectHash(new Set(["a", 1n]), { tries: 64, percent: 100, fingerprintBits: 8 }), again: PerfectHash = PerfectHash.open(few.toBytes().buffer, { check: false }), seeds: boolean = again.hasSeeds && again.check();
const noted: Uint8Array = extend(few.toBytes(), [[OWN_ROLE, Uint8Array.of(1)], [7n, new Uint32Array(2)]]), more: Uint8Array = extend(noted.buffer, new Map([[OWN_ROLE + 1, new DataView(noted.buffer)]]));
const items: Uint8Array | Uint32Array | BigUint64Array | undefined = section(noted, OWN_ROLE), roles: (number | bigint)[] = sections(more).map(([role]) => role), fine: boolean = isWritten(extend(more, sections(noted)));
void [seeds, items, roles, fine];
const vector = BitVector.fromPositions([1]), both: number = vector.countIntersection(vector) + vector.countUnion(vector) + vector.countDifference(vector) + numbers.countIntersection(numbers, numbers);
const json: () => never = vector.toJSON;
void [both, json];
void [numberOf, known, spelled, spoken, each, names.has("bob"), names.seed];
const trie = new Trie([2, 0, 1n, 0], "abe", { width: 9, ends: BitVector.fromPositions([1], 4) }), node: number | undefined = trie.find([98n]), deepest: { node: number; count: number } = trie.longest("bee");
const label: number | bigint | undefined = trie.label(3n), ends: boolean | undefined = Trie.open(trie.toBytes(), { check: false }).isEnd(1), letters: Uint8Array | (number | bigint)[] | undefined = trie.word(3);
const kinds: [number | bigint, number][] = matrix.distinct(0, 2n), often3 = new Map(matrix.top(3)), shared: (number | bigint)[] = matrix.intersect(0, 1, 1n, 2);
void [kinds, often3.get(3), shared];
void [node, deepest, label, ends, letters, ...trie.children(0)];
void [there, rest, which, many, key9, Dictionary.open(words.toBytes(), { check: false }).has(4), numbers.union(numbers).length];
void [median, often, before, found, near, bits, positions, part, text.has([1n, 2]), made];
void [rank, position, doubles, wide, list, all, least, flags, bytes, key, NO_ANSWER === 1n, WrongTables];
`;
const WRONG = ["index.rank('1')", "index.rank()", "const x: number = index.select(1)", "const x: number = numbers.at(0)", "new EliasFano('12')",
    "new Index([1, 2])", "index.selectList([1]).byteLength", "open('name')", "new PerfectHash([{}])", "index.set(1)", "matrix.select(1)", "const y: number = matrix.get(0)", "TextIndex.of([1])",
    "TextIndex.ofLetters([1])", "new Cursor([1])", "cursor.nextGeq('1')", "const z: number = words.get(1)", "new Strings('ada')", "new Strings([1])", "const s: string = names.get(0)", "names.findList('ada')", "new Dictionary(['1'])", "intersect(numbers)", "union([index])",
    "new PerfectHash(['a'], { tries: '64' })", "few.hasSeeds = true", "PerfectHash.open('a')", "extend(noted)", "extend(noted, { 65536: noted })", "extend(noted, [['7', noted]])", "extend('block', [])", "section(noted)",
    "const b: Uint8Array = section(noted, OWN_ROLE)", "sections(few)", "isWritten('block')", "matrix.top()", "matrix.intersect(0, 1)", "new Trie([1, 0])", "trie.find(98)", "vector.countUnion(index)", "numbers.countUnion([1])", "const t: string = JSON.parse(index)", "const w: number = trie.find('b')", "new Trie([1, 0], 'a', { ends: [1] })"];

test("tsc takes the types, and refuses what is wrong", { skip: !(has("tsc") && has("npm")) && "tsc is not here" }, () => {
    const folder = installed(), base = ["--strict", "--noEmit", "--target", "es2022", "--lib", "es2022,dom"];
    writeFileSync(join(folder, "use.mts"), USE);
    WRONG.forEach((line, k) => writeFileSync(join(folder, `wrong${k}.mts`), `${USE}\n${line};\n`));
    const run = (names, mode) => spawnSync("tsc", [...base, ...mode, ...names], { cwd: folder, encoding: "utf8" });
    const node = ["--module", "node16", "--moduleResolution", "node16"];
    const fine = run(["use.mts"], node);
    assert.equal(fine.status, 0, fine.stdout);
    const found = run(WRONG.map((_, k) => `wrong${k}.mts`), node).stdout;
    WRONG.forEach((line, k) => assert.ok(found.includes(`wrong${k}.mts(`), `tsc takes: ${line}`));
});

test("a page's way to load: start() with bytes, from a module of its own", async () => {
    const core = join(root, "src/bitm.js"), body = `import { readFileSync } from "node:fs";
        const { start, has64, open, Index, BitVector, EliasFano, PerfectHash } = await import(${JSON.stringify(core)}), kind = has64() ? "64" : "32";
        const read = name => readFileSync(${JSON.stringify(join(root, "wasm/"))} + name + kind + ".wasm");
        for (const make of [() => new BitVector(1), () => new EliasFano([1]), () => new PerfectHash([]), () => open(new Uint8Array(9))]) {
            try { make(); } catch (it) { if (/start\\(\\)/.test(it.message)) continue; }
            throw new Error("a value was made before start()");
        }
        await start(read("bitm"), new WebAssembly.Module(read("calls")));
        await start(read("bitm"), read("calls"));
        console.log(new Index(BitVector.fromPositions([5])).select(0));`;
    assert.equal(execFileSync(process.execPath, ["--input-type=module", "-e", body], { encoding: "utf8" }), "5\n");
});
