// The page: takes what is dropped, chosen or typed, shows what its index holds and answers, and times both ways.
import { VERSION, has64 } from "../../bindings/javascript/src/web.js";
import { count, indexed, ofNumbers } from "./indexed.js";

const at = id => document.getElementById(id);
const QUERIES = 50000;
let current = null;

function say(text, isBad = false) {
    at("status").textContent = text;
    at("status").classList.toggle("bad", isBad);
}

/** Lets the browser draw before work that takes long. */
const drawn = () => new Promise(done => requestAnimationFrame(() => setTimeout(done, 0)));

async function take(name, make) {
    document.body.dataset.state = "busy";
    say(`Reading ${name} ..`);
    await drawn();
    try {
        const made = await make();
        current?.free();
        current = made;
        say(`${name}: the index was built in ${made.ms.toFixed(1)} ms.`);
        show(made);
        await drawn();
        compare(made);
        document.body.dataset.state = "done";
    } catch (it) {
        say(it.message, true);
        document.body.dataset.state = "refused";
    }
}

function show(made) {
    at("title").textContent = made.title;
    at("query-label").textContent = made.label;
    at("query").value = made.example;
    at("query").inputMode = made.isText ? "text" : "numeric";
    at("result").hidden = false;
    at("times").replaceChildren();
    at("compared").textContent = "Timing ..";
    bars("memory", made.memory.map(([name, bytes, ours]) => [name, bytes, size(bytes), ours]));
    answer();
}

function answer() {
    const text = at("query").value.replaceAll(/[\s\u202f,]/g, ""), x = Number(text);
    let rows;
    try {
        rows = text === "" ? [] : current.answers(x, at("query").value);
    } catch (it) {
        rows = [["", `${text} is no whole number from 0 to 2^53 - 1`]];
    }
    at("answers").replaceChildren(...rows.flatMap(([name, value]) => [element("dt", name), element("dd", value)]));
}

function element(kind, value, className = "") {
    const made = document.createElement(kind);
    made.className = className;
    if (Array.isArray(value)) {
        const [before, found, after] = value;
        made.append(before, element("mark", found), after);
    } else made.textContent = value;
    return made;
}

function bars(id, rows) {
    const most = Math.max(...rows.map(it => it[1]));
    at(id).replaceChildren(...rows.flatMap(([name, amount, text, ours]) => {
        const bar = element("div", "", ours ? "bar ours" : "bar");
        bar.style.width = `${(100 * amount) / most}%`;
        return [element("span", name, "name"), element("span", text, "value"), bar];
    }));
}

function size(bytes) {
    if (bytes < 10000) return `${count(bytes)} bytes`;
    return bytes < 1e6 ? `${(bytes / 1000).toFixed(1)} kB` : `${(bytes / 1e6).toFixed(2)} MB`;
}

/** The best of five passes over the same random queries, which all must answer alike. */
function compare(made) {
    const queries = Float64Array.from({ length: QUERIES }, () => made.queries(Math.random));
    const rows = made.timed.map(([name, ask, ours]) => {
        let best = Infinity, got;
        for (let pass = 0; pass < 5; pass++) {
            const began = performance.now();
            got = ask(queries);
            best = Math.min(best, performance.now() - began);
        }
        return { name, ours, got, ns: (best * 1e6) / QUERIES };
    });
    bars("times", rows.map(it => [it.name, it.ns, `${it.ns.toFixed(0)} ns`, it.ours]));
    const plain = rows.at(-1).got, differ = rows.some(it => it.got.some((x, k) => !Object.is(x, plain[k])));
    if (differ) throw new Error("The two ways answered differently: please report this.");
    at("compared").textContent = `${count(QUERIES)} random queries each, the best of five passes; all ways gave the same answers.`;
}

const takeFile = file => take(file.name, async () => indexed(await file.text()));

function sampleText() {
    const words = "the quick brown fox jumps over a lazy dog while seven grey owls count bits between two tall pines".split(" ");
    let x = 1, out = "";
    for (let k = 0; k < 400000; k++) {
        x = (Math.imul(x, 1103515245) + 12345) >>> 0;
        out += words[(x >>> 16) % words.length] + (k % 11 === 10 ? ".\n" : " ");
    }
    return out;
}

at("file").addEventListener("change", () => at("file").files[0] && takeFile(at("file").files[0]));
at("numbers").addEventListener("click", () => take("A million numbers", () => ofNumbers(Float64Array.from({ length: 1e6 }, () => Math.floor(Math.random() * 1e9)))));
const takeSample = () => take("A long text", () => indexed(sampleText()));
at("text").addEventListener("click", takeSample);
at("paste").addEventListener("change", () => take("What you typed", () => indexed(at("paste").value)));
at("query").addEventListener("input", answer);
at("ask").addEventListener("submit", it => it.preventDefault());
addEventListener("dragover", it => {
    it.preventDefault();
    at("drop").classList.add("over");
});
addEventListener("dragleave", () => at("drop").classList.remove("over"));
addEventListener("drop", it => {
    it.preventDefault();
    at("drop").classList.remove("over");
    const file = it.dataTransfer.files[0], text = it.dataTransfer.getData("text/plain");
    if (file) takeFile(file);
    else if (text) take("What was dropped", () => indexed(text));
});

at("engine").textContent = `Version ${VERSION}, with ${has64() ? "64" : "32"}-bit memory.`;
takeSample();
