// What a user gave: arrays and buffers, of this realm or another, as of a frame or a context of Node's vm; and options.

const typed = Object.getPrototypeOf(Uint8Array.prototype);
const getterOf = (from, name) => Object.getOwnPropertyDescriptor(from, name).get;
const tagOf = getterOf(typed, Symbol.toStringTag);
const lengthsOf = [ArrayBuffer, globalThis.SharedArrayBuffer].filter(Boolean).map(it => getterOf(it.prototype, "byteLength"));

/** Which typed array it is, such as "Uint8Array"; undefined where it is none. Neither a realm nor a subclass changes that. */
export const arrayKind = it => tagOf.call(it);

/** What look() answers of a view or buffer, which fails where a buffer is detached, or too short for a view of it: a TypeError. */
function attachedBy(look, name) {
    try {
        return look();
    } catch {
        throw new TypeError(`bitm: the buffer of ${name} is detached, or too short for it`);
    }
}

/** Throws a TypeError where the buffer of a typed array is detached, or too short for it. */
export function mustBeAttached(given, name) { attachedBy(() => typed.at.call(given, 0), name); }

function isBuffer(given) {
    return lengthsOf.some(get => {
        try {
            return get.call(given) >= 0;
        } catch {
            return false;
        }
    });
}

/** The bytes of a view or buffer, itself; TypeError where it is detached or is neither. */
export function bytesOf(given, name) {
    if (arrayKind(given)) {
        mustBeAttached(given, name);
        return new Uint8Array(given.buffer, given.byteOffset, given.byteLength);
    }
    if (ArrayBuffer.isView(given)) return attachedBy(() => new Uint8Array(given.buffer, given.byteOffset, given.byteLength), name);
    if (isBuffer(given)) return attachedBy(() => new Uint8Array(given), name);
    throw mustBe(name, "an ArrayBuffer or a view of one", given);
}

/** The type of what was given in place of something else, for the text of an error. */
export const typeOf = it => (it === null ? "null" : typeof it);

/** How an error calls an argument, or item k of it, if there is one. */
export const itemOf = (name, k) => (k === undefined ? name : `item ${k} of ${name}`);

/** The error of an argument, or of an item of one, that is of another type than it must be. */
export const mustBe = (name, what, it) => new TypeError(`bitm: ${name} must be ${what}, and is of type ${typeOf(it)}`);

/** Whether it is an object that can be iterated over, so no string. */
export const isIterable = it => typeof it === "object" && it !== null && typeof it[Symbol.iterator] === "function";

/** The options that were given, each read once, and none that is inherited: Object.prototype has no say. */
export function optionsOf(given) {
    if (given !== undefined && typeOf(given) !== "object")
        throw new TypeError(`bitm: options must be an object, and are of type ${typeOf(given)}`);
    return Object.assign(Object.create(null), given);
}

/** An option that is a boolean, or what it is where it is not given. */
export function flag(given, name, otherwise) {
    if (given === undefined) return otherwise;
    if (typeof given !== "boolean") throw mustBe(name, "a boolean", given);
    return given;
}

/** A function that was given to be called as a build goes on, or none. */
export function callback(given) {
    if (given !== undefined && typeof given !== "function") throw mustBe("progress", "a function", given);
    return given;
}
