// Two headless browsers under one set of calls, without a package: Chromium by its own protocol over pipes, and Firefox by
// WebDriver BiDi. Each gives { open(address, width), messages, close() }; a page has value(expression), picture() and width.
import { spawn } from "node:child_process";
import { once } from "node:events";
import { mkdtemp, rm } from "node:fs/promises";
import { tmpdir } from "node:os";
import { join } from "node:path";

const HEIGHT = 800;

/** Sends commands by `write` and hands on what comes back; `take` gets each answer and event, as an object. */
function commands(write) {
    const waiting = new Map();
    let number = 0;
    const ask = (method, params = {}, more = {}) =>
        new Promise((done, fail) => {
            waiting.set(++number, it => (it.error ? fail(new Error(`${method}: ${it.message ?? it.error.message}`)) : done(it.result)));
            write(JSON.stringify({ id: number, method, params, ...more }));
        });
    const take = (said, onEvent) => (said.id ? waiting.get(said.id)?.(said) : onEvent(said));
    return { ask, take };
}

/** A folder of its own for the browser, and how to end it. */
async function started(command, flagsOf, stdio) {
    const home = await mkdtemp(join(tmpdir(), "bitm-page-")), browser = spawn(command, flagsOf(home), { stdio });
    const ended = once(browser, "exit");
    const close = async () => {
        browser.kill();
        await ended;
        await rm(home, { recursive: true, force: true, maxRetries: 5 }).catch(() => {});
    };
    return { browser, close };
}

export async function chromium(command) {
    const flags = ["--headless", "--no-sandbox", "--disable-gpu", "--hide-scrollbars", "--remote-debugging-pipe"];
    const stdio = ["ignore", "ignore", "ignore", "pipe", "pipe"], messages = [];
    const { browser, close } = await started(command, home => [...flags, `--user-data-dir=${home}`, "about:blank"], stdio);
    const { ask, take } = commands(it => browser.stdio[3].write(it + "\0"));
    const noted = ["Runtime.consoleAPICalled", "Runtime.exceptionThrown", "Log.entryAdded"];
    let rest = "";
    browser.stdio[4].on("data", it => {
        const parts = (rest + it).split("\0");
        rest = parts.pop();
        for (const part of parts) take(JSON.parse(part), said => noted.includes(said.method) && messages.push(JSON.stringify(said.params)));
    });

    async function open(address, width) {
        const { targetId } = await ask("Target.createTarget", { url: "about:blank" });
        const { sessionId } = await ask("Target.attachToTarget", { targetId, flatten: true });
        const page = (method, params) => ask(method, params, { sessionId });
        for (const it of ["Page", "Runtime", "Log", "DOM"]) await page(`${it}.enable`);
        await page("Emulation.setDeviceMetricsOverride", { width, height: HEIGHT, deviceScaleFactor: 2, mobile: width < 500 });
        await page("Page.navigate", { url: address });
        const value = async it => {
            const { result, exceptionDetails } = await page("Runtime.evaluate", { expression: it, awaitPromise: true, returnByValue: true });
            if (exceptionDetails) throw new Error(exceptionDetails.exception?.description ?? it);
            return result.value;
        };
        const picture = async () => (await page("Page.captureScreenshot", { format: "png", captureBeyondViewport: true })).data;
        return { value, picture, width };
    }
    return { open, messages, close };
}

/** Needs a Node with WebSocket: from 22 on, before that by --experimental-websocket. */
export async function firefox(command) {
    const { browser, close } = await started(command, home => ["--headless", "--profile", home, "--remote-debugging-port", "0"], ["ignore", "ignore", "pipe"]);
    const address = await new Promise((done, fail) => {
        let said = "";
        browser.stderr.on("data", it => {
            const found = /WebDriver BiDi listening on (ws:\/\/\S+)/.exec((said += it));
            if (found) done(found[1]);
        });
        browser.on("exit", () => fail(new Error(`${command} ended: ${said}`)));
    });
    const socket = new WebSocket(`${address}/session`), messages = [];
    await new Promise((done, fail) => Object.assign(socket, { onopen: done, onerror: fail }));
    const { ask, take } = commands(it => socket.send(it));
    socket.onmessage = it => take(JSON.parse(it.data), said => said.method === "log.entryAdded" && messages.push(JSON.stringify(said.params)));
    await ask("session.new", { capabilities: {} });
    await ask("session.subscribe", { events: ["log.entryAdded"] });

    async function open(url, width) {
        const { context } = await ask("browsingContext.create", { type: "tab" });
        await ask("browsingContext.setViewport", { context, viewport: { width, height: HEIGHT }, devicePixelRatio: 2 });
        await ask("browsingContext.navigate", { context, url, wait: "complete" });
        // By a function that evaluates, so that what the text declares stays inside, as a value of JSON.
        const value = async it => {
            const expression = `(async () => JSON.stringify((await eval(${JSON.stringify(it)})) ?? null))()`;
            const { result, exceptionDetails } = await ask("script.evaluate", { expression, target: { context }, awaitPromise: true });
            if (exceptionDetails) throw new Error(exceptionDetails.text);
            return JSON.parse(result.value) ?? undefined;
        };
        const picture = async () => (await ask("browsingContext.captureScreenshot", { context, origin: "document" })).data;
        return { value, picture, width };
    }
    return { open, messages, close };
}
