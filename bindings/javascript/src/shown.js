// What Node shows of a value, and an error in place of the `{}` that JSON would have for it.
const INSPECT = Symbol.for("nodejs.util.inspect.custom");

/** What is shown of a value: the name of its class, and what says(it) says of it. */
function textOf(name, it, says, options, inspect) {
    if (it.byteLength === 0 && (it.length > 0 || name !== "BitVector")) return `${name} (freed)`;
    try {
        return `${name} ${inspect(says(it), options)}`;
    } catch (fault) {
        return `${name} (${fault instanceof TypeError ? "freed" : fault.message})`;
    }
}

/** Gives the values of a class what console.log shows of them, `Tree { nodes: 4 }`, and a toJSON() that names what to keep. */
export function shows(Class, name, says, kept = "its toBytes()") {
    const methods = {
        [INSPECT](depth, options, inspect) { return depth < 0 ? `[${name}]` : textOf(name, this, says, options, inspect); },
        toJSON() { throw new TypeError(`bitm: a value of the class ${name} has no JSON: keep ${kept}`); },
    };
    for (const key of Reflect.ownKeys(methods))
        Object.defineProperty(Class.prototype, key, { value: methods[key], writable: true, configurable: true });
}
