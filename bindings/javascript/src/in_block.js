// What a block of memory holds, as the C library writes and opens it. kind says which: `{ name, open, check, layout }`, the
// class, two calls, and where the members of its struct stand. In place of the name of a call a function of the same arguments
// says whether all is well.
import { bytesAt, calls, numberAt } from "./core.js";
import { bytesOf, flag, optionsOf } from "./given.js";
import { damaged, notOf } from "./kinds.js";
import { BITM_TEXT } from "./layout.js";
import { Block, freed } from "./memory.js";
import { WrongTables } from "./numbers.js";

/** How many bytes stand before the block: room for the struct that queries take (a text has the largest), in whole lines. */
const BEFORE = 64 * Math.ceil(BITM_TEXT.sizeof / 64);

/** Memory with a copy of a block that a user gave, which is not looked at yet. */
export class Copied {
    constructor(kind, bytes) {
        const from = bytesOf(bytes, "bytes");
        if (from.length % 8 !== 0) throw damaged([kind.name]);
        this.block = new Block(BEFORE + from.length);
        bytesAt(this.block.at + BEFORE, from.length).set(from);
    }
}

/** A block of the given number of words, which fill(at) writes. */
export class Made {
    constructor(words, fill) {
        this.words = words;
        this.fill = fill;
    }
}

/** Whether a call says that all is well. */
const isFine = (call, ...given) => (typeof call === "function" ? call(...given) : calls[call](...given) === 0);

/** An open block, and its struct before it: what a value of the package holds. */
export class InBlock {
    #kind;
    #block;

    /** Of a copy, or of a number of words, which fill(at) writes. They are freed once the owner is garbage. */
    constructor(kind, owner, from, fill = () => {}) {
        const block = from instanceof Copied ? from.block : new Block(BEFORE + 8 * from);
        this.#kind = kind;
        this.#block = block.heldBy(owner, at => {
            fill(at + BEFORE);
            bytesAt(at, BEFORE).fill(0);
            const words = (block.bytes - BEFORE) / 8;
            if (!isFine(kind.open, at + BEFORE, words, at)) throw notOf([kind.name], at + BEFORE, words);
        });
    }

    /** Where the struct stands that the calls take. TypeError after free(). */
    get at() {
        const at = this.#block.at;
        if (at === 0) throw freed(this.#kind.name);
        return at;
    }

    /** A member of the struct. */
    member(name) { return numberAt(this.at + this.#kind.layout[name]); }

    get byteLength() { return this.#block.at === 0 ? 0 : this.#block.bytes - BEFORE; }

    check() { return isFine(this.#kind.check, this.at + BEFORE, this.byteLength / 8); }

    toBytes() { return bytesAt(this.at + BEFORE, this.byteLength).slice(); }

    free() { this.#block.free(); }
}

/** A value of a class from a copy of its block, all of which is looked at unless options say that it need not be. */
export function openedAs(Class, kind, bytes, options) {
    const isChecked = flag(optionsOf(options).check, "check", true), it = new Class(new Copied(kind, bytes));
    if (!isChecked || it.check()) return it;
    it.free();
    throw new WrongTables("bitm: the block is not as it was written: it was damaged");
}
