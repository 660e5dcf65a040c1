// For browsers, workers and bundlers: fetches the modules beside this file.
import { has64, start } from "./core.js";

const [library, adaptors] = has64()
    ? [new URL("../wasm/bitm64.wasm", import.meta.url), new URL("../wasm/calls64.wasm", import.meta.url)]
    : [new URL("../wasm/bitm32.wasm", import.meta.url), new URL("../wasm/calls32.wasm", import.meta.url)];

async function bytes(url) {
    const found = await fetch(url);
    if (!found.ok) throw new Error(`bitm: ${url} answered ${found.status}`);
    return found.arrayBuffer();
}

await start(...(await Promise.all([bytes(library), bytes(adaptors)])));

export * from "./bitm.js";
