import { BESIDE, bytesAt, calls, numberAt } from "./core.js";
import { wordsOf } from "./bit_vector.js";
import { fallingLabel, noTree, tooWide } from "./faults.js";
import { Copied, InBlock, Made, openedAs } from "./in_block.js";
import { optionsOf } from "./given.js";
import { BITM_TRIE, STATUS } from "./layout.js";
import { copyIn, copyOut, numbersOf } from "./lists.js";
import { dispose, withRoom } from "./memory.js";
import { childrenOf, isNode, ofNode } from "./nodes.js";
import { answerOf, must, orNone, orThrow, place, whole, within } from "./numbers.js";
import { encoded, rising, withPattern } from "./patterns.js";
import { shows } from "./shown.js";

const KIND = { name: "Trie", open: "bitm_trie_open", check: "bitm_trie_check", layout: BITM_TRIE };
const FIND = { numbers: "bitm_trie_find", bytes: "bitm_trie_find_bytes" };
const LONGEST = { numbers: "bitm_trie_longest", bytes: "bitm_trie_longest_bytes" };

/** A set of words: a tree in which each node but the root has a label, and the labels of a node's children ascend. */
export class Trie {
    #held;
    #length;
    #width;
    #hasEnds;

    /**
     * The degree of each node, level by level; the labels of the nodes from 1 on, a string (as UTF-8) or numbers of `width` bits
     * (1 to 63; 8 unless it is given); and `ends`, a BitVector that says for each node whether a word ends there, or none.
     */
    constructor(degrees, labels, options) {
        if (degrees instanceof Copied) this.#held = new InBlock(KIND, this, degrees);
        else if (degrees instanceof Made) this.#held = new InBlock(KIND, this, degrees.words, degrees.fill);
        else this.#build(numbersOf(degrees, "degrees").items, numbersOf(encoded(labels, "labels") ?? labels, "labels").items, optionsOf(options));
        this.#length = this.#held.member("tree_len");
        this.#width = this.#held.member("width");
        this.#hasEnds = this.#held.member("ends_len") > 0;
    }

    #build(degrees, labels, { width = 8, ends }) {
        const n = degrees.length, bits = within(width, 1, 63, "width");
        const [at, words_len, length] = ends === undefined ? [0, 0, n] : wordsOf(ends, "ends");
        if (length !== n) throw new RangeError(`bitm: there are ${n} nodes, and ${length} ends`);
        if (labels.length !== Math.max(n - 1, 0))
            throw new RangeError(`bitm: there are ${n} nodes, and ${labels.length} labels: each node but the root has one`);
        withRoom(8 * (n + labels.length), list => {
            const marks = list + 8 * n, parts = [list, n, marks, labels.length, bits, at, words_len];
            copyIn(degrees, list, "degrees");
            copyIn(labels, marks, "labels");
            const words = orThrow(calls.bitm_trie_size(n, bits, ends === undefined ? 0 : 1), "degrees", n);
            this.#held = new InBlock(KIND, this, words, at => {
                const got = calls.bitm_trie_build(...parts, at, words);
                if (got === -STATUS.WRONG)
                    throw noTree(list, n) ?? tooWide(marks, labels.length, "label", bits) ?? fallingLabel(list, n, marks);
                must(got, "degrees");
            });
        });
    }

    /**
     * The trie of words, each a string (as UTF-8) or a Uint8Array, with labels of 8 bits, and ends. They may come in any order,
     * and more than once: they are sorted by their bytes, and counted once.
     */
    static ofWords(words) {
        const all = rising(words), n = all.length, begins = new Float64Array(n + 1);
        all.forEach((it, k) => { begins[k + 1] = begins[k] + it.length; });
        return withRoom(8 * (n + 1) + begins[n], starts => {
            const bytes = starts + 8 * (n + 1), given = [bytes, begins[n], starts, n + 1];
            copyIn(begins, starts, "starts");
            all.forEach((it, k) => bytesAt(bytes + begins[k], it.length).set(it));
            const nodes = orThrow(calls.bitm_trie_nodes_of_words(...given), "words", n);
            const size = orThrow(calls.bitm_trie_size(nodes, 8, 1), "words", nodes);
            const room = 3 * nodes - 2 + Math.ceil(nodes / 64);
            return withRoom(8 * room, scratch => new Trie(new Made(size, block => {
                must(calls.bitm_trie_build_words(...given, scratch, room, block, size), "words");
            })));
        });
    }

    /**
     * The trie in the bytes of a block, as toBytes() gives them and the C library writes them; they are copied once. Unless
     * `check` is false, all of them are looked at, and WrongTables is thrown where they are not as they were written; without
     * that, answers may be wrong, but a parent is less than its child, no node is past the end, and a word is no longer than
     * the number of its node.
     */
    static open(bytes, options) { return openedAs(Trie, KIND, bytes, options); }

    /** How many nodes there are. */
    get length() { return this.#length; }

    /** How many bits a label has at most. */
    get width() { return this.#width; }

    /** Whether there is a bit for each node that says whether a word ends there. */
    get hasEnds() { return this.#hasEnds; }

    /** How many bytes the block has. */
    get byteLength() { return this.#held.byteLength; }

    /** The node to which a word leads from the root: a string (as UTF-8), bytes or a list of labels; undefined where it leads to none. */
    find(word) { return withPattern(word, "word", (form, at, n) => orNone(calls[FIND[form]](this.#held.at, at, n), "word", n)); }

    /** Whether it is one of the words: it leads to a node, and a word ends there. A trie without ends has no words. */
    has(word) {
        const node = this.find(word);
        return node !== undefined && this.isEnd(node) === true;
    }

    /**
     * The deepest node to which a beginning of a word leads from the root, and how many labels lead there: all of them where the
     * word leads to a node.
     */
    longest(word) {
        return withPattern(word, "word", (form, at, n) => {
            const count = orNone(calls[LONGEST[form]](this.#held.at, at, n, BESIDE), "word", n);
            return count === undefined ? { node: 0, count: 0 } : { node: numberAt(BESIDE), count };
        });
    }

    /** The word that leads from the root to a node: bytes where a label has at most 8 bits, else an array; undefined where there is no such node. */
    word(node) {
        const n = orNone(this.#wordAt(node, BESIDE, 0), "node", node);
        return n === undefined ? undefined : withRoom(8 * n, out => {
            orThrow(this.#wordAt(node, out, n), "node", node);
            if (this.#width > 8) return copyOut(out, n, "plain", false);
            calls.to_bytes(out, n);
            return bytesAt(out, n).slice();
        });
    }

    #wordAt(node, out, n) { return calls.bitm_trie_word(this.#held.at, place(node, "node"), out, n); }

    /** The label of a node; undefined at the root and where there is no such node. */
    label(node) { return ofNode("bitm_trie_label", this.#held.at, node); }

    /** Whether a word ends at a node; undefined where there is no such node, or the trie has no ends. */
    isEnd(node) { return isNode("bitm_trie_is_end", this.#held.at, node); }

    /** The child of a node with a label; undefined where none has it, or there is no such node. */
    childByLabel(node, label) {
        return orNone(answerOf("bitm_trie_child", this.#held.at, place(node, "node"), whole(label, "label")), "node or label", `${node}, ${label}`);
    }

    /** The parent of a node; undefined at the root and where there is no such node. */
    parent(node) { return ofNode("bitm_tree_parent", this.#held.at, node); }

    /** How many children a node has; undefined where there is no such node. */
    degree(node) { return ofNode("bitm_tree_degree", this.#held.at, node); }

    /** The children of a node, by ascending labels. */
    children(node) { return childrenOf(this.#held, node); }

    /** Whether the block is as it was written and holds a trie, by going over all of it. */
    check() { return this.#held.check(); }

    /** The bytes of the block: what open() takes, and the C library and its other bindings. */
    toBytes() { return this.#held.toBytes(); }

    /** Gives the memory back at once. */
    free() { this.#held.free(); }
    [dispose]() { this.free(); }
}

shows(Trie, "Trie", it => ({ nodes: it.length, width: it.width }));
