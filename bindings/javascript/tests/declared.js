// What types/*.d.ts declare: each entry with its comment, its signatures, and the parameters of these.
import { readFileSync, readdirSync } from "node:fs";

const FOLDER = new URL("../types/", import.meta.url);
const WORDS = /^(?:(?:export|static|readonly|class|interface|type|const|function) )*/;
const DECLARED = /^( {4})?((?:export )?(?:(?:static|readonly|class|interface|type|const|function) )*(\w+|\[[\w.]+\])(?:[?:(<]| [{=ei]).*)$/;

/** What stands inside the first parentheses of a signature, in pieces: `position: Whole`, `length?: Whole`. */
function piecesOf(signature) {
    const begin = signature.indexOf("(");
    if (begin < 0 || /^[^(]*[:=]/.test(signature)) return [];
    const found = [""];
    let depth = 0;
    for (const it of signature.slice(begin).replaceAll("=>", "")) {
        if (depth === 1 && it === ")") break;
        if (depth === 1 && it === ",") found.push("");
        else if (depth > 0) found[found.length - 1] += it;
        depth += "([{<".includes(it) ? 1 : ")]}>".includes(it) ? -1 : 0;
    }
    return found.map(it => it.trim()).filter(Boolean);
}

/** The parameters of a signature: `{ name, type, isOptional }`. */
function parametersOf(signature) {
    return piecesOf(signature).map(it => {
        const [, name, mark, type] = /^(?:\.\.\.)?(\w+)(\??): (.*)$/.exec(it);
        return { name, type, isOptional: mark === "?" };
    });
}

/** The entries of a file; overloads of one name that stand beside each other are one. */
function entriesOf(file) {
    const text = readFileSync(new URL(file, FOLDER), "utf8").replace(/^declare global \{[^]*?^\}/m, ""), found = [];
    let holder = "", comment = "", inside = false;
    for (const line of text.split("\n")) {
        if (inside || line.trimStart().startsWith("/**")) {
            comment += ` ${line.replace(/^\s*(?:\/\*\*|\*(?!\/))|\*\/\s*$/g, "").trim()}`;
            inside = !line.includes("*/");
            continue;
        }
        const it = /^(?:import|export \*)/.test(line) ? null : DECLARED.exec(line);
        if (!it) continue;
        const [, indent, signature, name] = it, last = found.at(-1), said = comment.trim().replace(/\s+/g, " ");
        if (!indent) holder = /\b(?:class|interface) /.test(signature) ? name : "";
        const own = signature.replace(WORDS, ""), at = indent ? holder : "";
        comment = "";
        if (last && last.name === name && last.holder === at && !said) last.signatures.push(own);
        else found.push({ file, holder: at, name, comment: said, signatures: [own] });
    }
    return found;
}

/** All entries of all files. */
export const entries = readdirSync(FOLDER).filter(it => it.endsWith(".d.ts")).flatMap(entriesOf);

/** How an entry is called in a message. */
export const nameOf = ({ holder, name }) => (holder ? `${holder}.${name}` : name);

/** The parameters of all calls, each once: `{ call, name, type, isOptional }`; and the members of options. */
export function parameters() {
    const found = new Map();
    for (const entry of entries) {
        const isOption = /Options$/.test(entry.holder);
        const them = entry.signatures.flatMap(it => (isOption ? [{ name: entry.name, type: /\?: (.*);/.exec(it)[1], isOptional: true }] : parametersOf(it)));
        for (const it of them) {
            const key = isOption ? `${entry.holder}.${it.name}` : `${nameOf(entry)}(${it.name})`, known = found.get(key);
            if (known) known.types.push(it.type);
            else found.set(key, { ...it, key, types: [it.type] });
        }
    }
    return [...found.values()];
}
