// What include/bitm.h declares, read from its text: the calls with their parameters, the structs with the offset of each
// member, and the statuses.

/** The calls, each `{ name, result, parameters: [{ type, name }] }`; functions with a body in the header are left out. */
export function callsOf(header) {
    const text = withoutComments(header), calls = [];
    for (const [, result, name, list] of text.matchAll(/(?<!inline )\b(uint32_t|size_t|void)\s+(bitm_\w+)\(([^()]*)\);/g)) {
        const parameters = list.trim() === "void" ? [] : list.split(",").map(it => parameterOf(it.trim()));
        calls.push({ name, result, parameters });
    }
    return calls;
}

function parameterOf(text) {
    const found = /^(.*?)(\w+)$/.exec(text.replace(/\s+/g, " "));
    return { type: found[1].trim(), name: found[2] };
}

/** The structs: name, size and `members: [{ name, at }]`, where a member of a struct has its own members in its place. */
export function structsOf(header) {
    const text = withoutComments(header), structs = new Map();
    for (const [, name, body] of text.matchAll(/struct (bitm_\w+)\s*\{([^{}]*)\};/g)) {
        const members = [];
        let size = 0;
        for (const line of body.split(";").map(it => it.trim().replace(/\s+/g, " ")).filter(Boolean)) {
            const [, type, member, , count] = /^(.*?)(\w+)(\[(\d+)\])?$/.exec(line);
            const bytes = bytesOf(type.trim(), structs);
            if (size % Math.min(bytes, 8)) throw new Error(`${name}.${member} is not aligned`);
            members.push({ name: member, at: size, type: type.trim() });
            size += bytes * Number(count ?? 1);
        }
        structs.set(name, { size, members });
    }
    return structs;
}

function bytesOf(type, structs) {
    if (type.endsWith("*") || type === "size_t" || type === "uint64_t") return 8;
    if (type === "uint32_t") return 4;
    const inner = structs.get(type.replace("struct ", ""));
    if (!inner) throw new Error(`a type of unknown size: ${type}`);
    return inner.size;
}

/** The statuses: from the name without BITM_ to the number. */
export function statusesOf(header) {
    const body = /enum bitm_status \{([^}]*)\}/.exec(withoutComments(header))[1];
    return Object.fromEntries([...body.matchAll(/BITM_(\w+) = (\d+)/g)].map(it => [it[1], Number(it[2])]));
}

function withoutComments(text) {
    return text.replace(/\/\*[\s\S]*?\*\//g, " ").replace(/^#.*$/gm, " ");
}

/** How a parameter crosses into WebAssembly: an address or 64 bits as i64, a bool or fewer bits as i32. */
export const wasmType = type => (/^(bool|uint32_t|uint16_t)$/.test(type) ? "i32" : "i64");
