// node examples/browser/test.mjs [BROWSER [FOLDER]]: opens the page in a headless browser at the width of a phone and of a desk,
// drops files on it, chooses and types, and looks at answers, messages of the console and the width. Says how long after
// the page has loaded the first query is answered. BROWSER is a command whose name has chromium or firefox in it (else
// chromium). Writes pictures to FOLDER, if it is given.
import assert from "node:assert/strict";
import { spawnSync } from "node:child_process";
import { once } from "node:events";
import { createServer } from "node:http";
import { readFile, writeFile } from "node:fs/promises";
import { extname, join } from "node:path";
import { fileURLToPath } from "node:url";
import { chromium, firefox } from "./browsers.mjs";

const [command = "chromium", pictures] = process.argv.slice(2), isFirefox = /firefox/.test(command);
if (spawnSync(command, ["--version"]).status !== 0) {
    console.log(`skipped: the page in a browser, since ${command} is not here`);
    process.exit(0);
}
if (isFirefox && typeof WebSocket === "undefined") {
    const { status } = spawnSync(process.execPath, ["--experimental-websocket", ...process.argv.slice(1)], { stdio: "inherit" });
    process.exit(status ?? 1);
}
const root = fileURLToPath(new URL("../..", import.meta.url));
const TYPES = { ".html": "text/html", ".js": "text/javascript", ".css": "text/css", ".wasm": "application/wasm" };

const EMPTY = '<!doctype html><title>empty</title><link rel="icon" href="data:,">';

const server = createServer(async (asked, answer) => {
    const path = new URL(asked.url, "http://x").pathname;
    try {
        if (path === "/empty.html") return answer.setHeader("Content-Type", "text/html").end(EMPTY);
        if (!/^\/(examples\/browser|bindings\/javascript)\/[\w./]+$/.test(path) || path.includes("..")) throw new Error(path);
        answer.setHeader("Content-Type", TYPES[extname(path)] ?? "application/octet-stream");
        answer.end(await readFile(join(root, path)));
    } catch {
        answer.statusCode = 404;
        answer.end();
    }
});
await once(server.listen(0, "127.0.0.1"), "listening");
const browser = await (isFirefox ? firefox : chromium)(command);
const address = path => `http://127.0.0.1:${server.address().port}/${path}`;

async function opened(width) {
    const page = await browser.open(address("examples/browser/index.html"), width);
    const until = async (state, what) => {
        for (let k = 0; k < 300 && (await page.value("document.body?.dataset.state")) !== state; k++) await new Promise(done => setTimeout(done, 100));
        assert.equal(await page.value("document.body.dataset.state"), state, `${what}: ${await page.value("document.getElementById('status')?.textContent")}`);
    };
    await until("done", "the text that the page begins with");
    return { ...page, until };
}

async function picture(it, name) {
    if (pictures) await writeFile(join(pictures, `${name}.png`), Buffer.from(await it.picture(), "base64"));
}

/** Drops a file of this text, as a user would. */
const drop = (it, text, name) => it.value(`{
    document.body.dataset.state = "waiting";
    const data = new DataTransfer();
    data.items.add(new File([${JSON.stringify(text)}], ${JSON.stringify(name)}));
    dispatchEvent(new DragEvent("drop", { dataTransfer: data, cancelable: true, bubbles: true }));
}`);

const query = (it, text) => it.value(`{
    const input = document.getElementById("query");
    input.value = ${JSON.stringify(text)};
    input.dispatchEvent(new Event("input"));
    document.getElementById("answers").innerText
}`);

/** Nothing is wider than the page, and no two lines of text lie over each other. */
async function fits(it, what) {
    const wide = await it.value(`[...document.querySelectorAll("body *")].filter(e => e.getBoundingClientRect().right > innerWidth + 0.5).map(e => e.id || e.className || e.tagName)`);
    assert.deepEqual(wide, [], `${what}: wider than ${it.width}`);
    assert.ok((await it.value("document.documentElement.scrollWidth")) <= it.width, `${what} scrolls sideways`);
}

async function numbers(it) {
    const items = Array.from({ length: 30000 }, (_, k) => 7 * ((k * 12347) % 30000));
    await drop(it, items.join("\n"), "sevens.txt");
    await it.until("done", "numbers");
    const found = await query(it, "100");
    for (const part of [/there\s+no/, /below it\s+15/, /least it\s+105/, /most it\s+98/]) assert.match(found, part);
    assert.match(await query(it, "700"), /there\s+yes/);
    assert.match(await query(it, "-1"), /no whole number/);
    assert.match(await query(it, "1.5"), /no whole number/);
    assert.match(await query(it, "9007199254740992"), /no whole number/);
    assert.match(await query(it, "x<b>"), /no whole number/);
    assert.match(await it.value("document.getElementById('memory').innerText"), /kB/);
    await fits(it, "numbers");
}

async function texts(it) {
    await drop(it, "To be, or not to be: <b>that</b> is\nthe question.\n".repeat(2000) + "e".repeat(500), "hamlet.txt");
    await it.until("done", "a text");
    const found = await query(it, "7");
    for (const part of [/Word\s+<b>that<\/b>/, /Begins at\s+21/, /Words before\s+6/]) assert.match(found, part);
    assert.match(await query(it, "20001"), /e{100}/);
    assert.match(await query(it, "20002"), /there is none/);
    await fits(it, "a text");
    assert.match(await query(it, "10"), /Word\s+question\./);
    const part = await query(it, "not to be: <b>");
    for (const one of [/there\s+2\D?000 times/, /There\s+.*or not to be: <b>that<\/b>/]) assert.match(part, one);
    assert.match(await query(it, "hamlet"), /there\s+never/);
    await fits(it, "a part of a text");
    assert.match(await query(it, "10"), /Word\s+question\./);
}

async function others(it) {
    await drop(it, " \n", "empty.txt");
    await it.until("refused", "an empty file");
    await drop(it, "1 2 99999999999999999999", "large.txt");
    await it.until("refused", "a number that is too large");
    await fits(it, "a refusal");
    await it.value(`{ const it = document.getElementById("paste"); it.value = "3, 1, 2"; it.dispatchEvent(new Event("change")); }`);
    await it.until("done", "typed numbers");
    assert.match(await it.value("document.getElementById('title').textContent"), /^3 numbers, from 1 to 3$/);
    for (const id of ["text", "numbers"]) {
        await it.value(`document.body.dataset.state = "waiting"; document.getElementById("${id}").click()`);
        await it.until("done", id);
        await fits(it, id);
        assert.match(await it.value("document.getElementById('compared').textContent"), /same answers/);
        await picture(it, `${id}-${it.width}`);
    }
}

/** A worker that has loaded the pair for 32-bit memory makes a file, which one that loads by itself opens. */
const inWorkers = it => it.value(`(async () => {
    const from = location.origin + "/bindings/javascript/", run = (body, given) => new Promise((done, fail) => {
        const it = new Worker(URL.createObjectURL(new Blob([body], { type: "text/javascript" })), { type: "module" });
        it.onmessage = said => done(said.data);
        it.onerror = said => fail(new Error(said.message));
        setTimeout(() => it.postMessage(given), 0);
    });
    const bytes = await run(\`import { start, EliasFano } from "\${from}src/bitm.js";
        onmessage = async said => {
            const [a, b] = await Promise.all(["bitm32", "calls32"].map(async name => (await fetch("\${from}wasm/" + name + ".wasm")).arrayBuffer()));
            await start(a, b);
            postMessage(new EliasFano(said.data).toBytes());
        };\`, [3, 5, 900]);
    return run(\`onmessage = async said => {
            const { open } = await import("\${from}src/web.js"), it = open(said.data);
            postMessage([it.toArray(), it.successor(6)].join());
        };\`, bytes);
})()`);

/** The milliseconds from the end of loading an empty page to the first answer, the least of some pages. */
async function firstAnswer() {
    let least = Infinity;
    for (let k = 0; k < 5; k++) {
        const it = await browser.open(address("empty.html"), 360);
        const took = await it.value(`(async () => {
            const start = performance.now(), { BitVector, Index } = await import("/bindings/javascript/src/web.js");
            const got = new Index(BitVector.fromPositions([3, 5, 900])).rank(6);
            return got === 2 ? performance.now() - start : NaN;
        })()`);
        assert.ok(took > 0, "the first answer");
        least = Math.min(least, took);
    }
    return least;
}

try {
    for (const width of [360, 1000]) {
        const it = await opened(width);
        await fits(it, "the page at first");
        assert.match(await query(it, "lazy dog"), /there\s+\d+\D\d+ times/);
        await numbers(it);
        await texts(it);
        await others(it);
        assert.equal(await inWorkers(it), "3,5,900,900");
    }
    const first = await firstAnswer();
    assert.deepEqual(browser.messages, [], "the console is empty");
    console.log(`the page in ${isFirefox ? "Firefox" : "Chromium"}, 360 and 1000 wide, and workers: answers as expected, no message, ` +
        `nothing wider than the page; ${Math.round(first)} ms from an empty page to the first answer`);
} finally {
    await browser.close();
    server.close();
}
