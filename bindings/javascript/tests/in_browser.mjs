// node in_browser.mjs [BROWSER]: runs the tests that need nothing of Node in a headless browser: those of bits, sequences,
// hashes, arguments and spoilt files. BROWSER is a command whose name has chromium or firefox in it (else chromium).
import { spawnSync } from "node:child_process";
import { once } from "node:events";
import { readFile } from "node:fs/promises";
import { createServer } from "node:http";
import { extname } from "node:path";
import { fileURLToPath } from "node:url";
import { chromium, firefox } from "../../../examples/browser/browsers.mjs";

const TESTS = ["bits", "elias_fano", "perfect_hash", "arguments", "attacks"];
const [command = "chromium"] = process.argv.slice(2), isFirefox = /firefox/.test(command);
if (spawnSync(command, ["--version"]).status !== 0) {
    console.log(`skipped: the tests in a browser, since ${command} is not here`);
    process.exit(0);
}
if (isFirefox && typeof WebSocket === "undefined") {
    const { status } = spawnSync(process.execPath, ["--experimental-websocket", ...process.argv.slice(1)], { stdio: "inherit" });
    process.exit(status ?? 1);
}

// What stands in for the modules of Node that the tests import.
const SHIMS = {
    "test.js": `const all = [];
        export const test = (name, body) => all.push([name, body]);
        export async function run() {
            for (const [name, body] of all) {
                try {
                    await body();
                } catch (it) {
                    throw new Error(name + ": " + it.message + it.stack);
                }
            }
            return all.length;
        }`,
    "assert.js": `const fail = said => { throw new Error(typeof said === "string" ? said : "it is not so"); };
        function same(a, b) {
            if (Object.is(a, b)) return true;
            if (typeof a !== "object" || typeof b !== "object" || !a || !b) return false;
            const names = Object.keys(a);
            return Object.getPrototypeOf(a) === Object.getPrototypeOf(b) && names.length === Object.keys(b).length &&
                names.every(it => Object.hasOwn(b, it) && same(a[it], b[it]));
        }
        export default {
            fail,
            ok: (it, said) => it || fail(said),
            equal: (a, b, said) => Object.is(a, b) || fail(said ?? String(a) + " is not " + String(b)),
            deepEqual: (a, b, said) => same(a, b) || fail(said),
            doesNotThrow: body => body(),
            throws(body, kind, said) {
                try {
                    body();
                } catch (it) {
                    if (typeof kind === "function" && !(it instanceof kind)) fail((said ?? "") + " throws " + it);
                    return;
                }
                fail((said ?? "it") + " throws nothing");
            },
        };`,
    "fs.js": `const files = new Map();
        for (const name of ["bitm32", "bitm64", "calls32", "calls64"]) {
            const url = new URL("/bindings/javascript/wasm/" + name + ".wasm", location.href);
            files.set(url.href, new Uint8Array(await (await fetch(url)).arrayBuffer()));
        }
        export const readFileSync = url => files.get(url.href);`,
};
const PAGE = `<!doctype html><title>tests</title><link rel="icon" href="data:,"><script>globalThis.process = { env: {} };</script>
<script type="importmap">{ "imports": { "node:test": "/shims/test.js", "node:assert/strict": "/shims/assert.js", "node:fs": "/shims/fs.js" } }</script>`;
const TYPES = { ".js": "text/javascript", ".wasm": "application/wasm" }, root = fileURLToPath(new URL("../../..", import.meta.url));

const server = createServer(async (asked, answer) => {
    const path = new URL(asked.url, "http://x").pathname, shim = SHIMS[path.replace("/shims/", "")];
    // With these two a page may have a SharedArrayBuffer.
    answer.setHeader("Cross-Origin-Opener-Policy", "same-origin").setHeader("Cross-Origin-Embedder-Policy", "require-corp");
    if (path === "/") return answer.setHeader("Content-Type", "text/html").end(PAGE);
    answer.setHeader("Content-Type", TYPES[extname(path)] ?? "application/octet-stream");
    if (shim) return answer.end(shim);
    try {
        if (!/^\/bindings\/javascript\/(src|tests|wasm)\/[\w.]+$/.test(path)) throw new Error(path);
        answer.end(await readFile(root + path));
    } catch {
        answer.statusCode = 404;
        answer.end();
    }
});
await once(server.listen(0, "127.0.0.1"), "listening");
const browser = await (isFirefox ? firefox : chromium)(command);
try {
    const page = await browser.open(`http://127.0.0.1:${server.address().port}/`, 800);
    const [tests, answers, form] = await page.value(`(async () => {
        let answers = 0;
        console.log = said => { answers += Number(/^\\d+(?= answers as counted)/.exec(said)?.[0] ?? 0); };
        for (const name of ${JSON.stringify(TESTS)}) await import("/bindings/javascript/tests/" + name + ".test.js");
        const { run } = await import("node:test"), tests = await run();
        return [tests, answers, (await import("/bindings/javascript/tests/plain.js")).form];
    })()`);
    if (answers < 3e6) throw new Error(`${answers} answers are too few`);
    console.log(`JavaScript in ${isFirefox ? "Firefox" : "Chromium"}: ${tests} tests and ${answers} answers over ${form}-bit memory`);
} finally {
    await browser.close();
    server.close();
}
