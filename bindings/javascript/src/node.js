// For Node: reads the modules beside this file.
import { readFileSync } from "node:fs";
import { has64, startSync } from "./core.js";

const kind = has64() ? "64" : "32";
const read = name => readFileSync(new URL(`../wasm/${name}${kind}.wasm`, import.meta.url));
startSync(read("bitm"), read("calls"));

export * from "./bitm.js";
