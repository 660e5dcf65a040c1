// node one_file.mjs [FILE]: writes all of src/web.js as one file (else page/bitm.js), by esbuild (Debian has it), so that a
// page without a bundler fetches one script in place of all of these. The first line has the sum of the sources. `npm pack` calls
// it: the file is of the package, and not kept in the repository.
import { execFileSync } from "node:child_process";
import { createHash } from "node:crypto";
import { readFileSync, readdirSync } from "node:fs";
import { fileURLToPath } from "node:url";

const root = fileURLToPath(new URL(".", import.meta.url));

/** The first line of the file: made of which sources. */
export function banner() {
    const sum = createHash("sha256");
    for (const name of readdirSync(`${root}src`).sort()) if (name !== "node.js") sum.update(readFileSync(`${root}src/${name}`));
    return `// src/web.js and all that it imports, in one file: made by one_file.mjs. sha256 of the sources: ${sum.digest("hex")}`;
}

export function write(to = `${root}page/bitm.js`) {
    execFileSync("esbuild", ["src/web.js", "--bundle", "--format=esm", "--target=es2022", "--log-level=warning", `--banner:js=${banner()}`,
        `--outfile=${to}`], { cwd: root, stdio: "inherit" });
}

/** What is said where esbuild is not here, in place of the file. */
const MISSING = `bitm: esbuild is not here, which makes page/bitm.js, the whole package in one file for pages.
Install it (Debian: apt-get install esbuild; npm: npm install --global esbuild), or leave that file out: npm pack --ignore-scripts.
A checkout needs neither: npm install PATH/bindings/javascript.`;

if (process.argv[1] === fileURLToPath(import.meta.url)) {
    try {
        write(process.argv[2]);
    } catch (it) {
        if (it.code !== "ENOENT") throw it;
        console.error(MISSING);
        process.exitCode = 1;
    }
}
