import { BESIDE, calls } from "./core.js";
import { noTree } from "./faults.js";
import { Copied, InBlock, openedAs } from "./in_block.js";
import { BITM_TREE, STATUS } from "./layout.js";
import { answers, copyIn, numbersOf } from "./lists.js";
import { dispose, withRoom } from "./memory.js";
import { childrenOf, isNode, ofNode } from "./nodes.js";
import { must, orNone, orThrow, place } from "./numbers.js";
import { shows } from "./shown.js";

const KIND = { name: "Tree", open: "bitm_tree_open", check: "bitm_tree_check", layout: BITM_TREE };

/** A tree whose nodes are numbered level by level: the root is 0, and the children of a node follow one another. */
export class Tree {
    #held;
    #length;

    /** The degree of each node, which is how many children it has: an array of numbers, in the order of the nodes. */
    constructor(degrees) {
        if (degrees instanceof Copied) this.#held = new InBlock(KIND, this, degrees);
        else this.#build(numbersOf(degrees, "degrees").items);
        this.#length = this.#held.member("len");
    }

    #build(items) {
        const n = items.length;
        withRoom(8 * n, list => {
            copyIn(items, list, "degrees");
            const words = orThrow(calls.bitm_tree_size(n), "degrees", n);
            this.#held = new InBlock(KIND, this, words, at => {
                const got = calls.bitm_tree_build(list, n, at, words);
                if (got === -STATUS.WRONG) throw noTree(list, n);
                must(got, "degrees");
            });
        });
    }

    /**
     * The tree in the bytes of a block, as toBytes() gives them and the C library writes them; they are copied once. Unless
     * `check` is false, all of them are looked at, and WrongTables is thrown where they are not as they were written; without
     * that, answers may be wrong, but a parent is less than its child, and no node is past the end.
     */
    static open(bytes, options) { return openedAs(Tree, KIND, bytes, options); }

    /** How many nodes there are. */
    get length() { return this.#length; }

    /** How many bytes the block has. */
    get byteLength() { return this.#held.byteLength; }

    /** The parent of a node; undefined at the root and where there is no such node. */
    parent(node) { return ofNode("bitm_tree_parent", this.#held.at, node); }

    /** Child k of a node, counted from 0; undefined where there is none. */
    child(node, k) {
        const got = calls.bitm_tree_child(this.#held.at, place(node, "node"), place(k, "k"));
        return got >= 0 ? got : orNone(got, "node or k", `${node}, ${k}`);
    }

    /** How many children a node has; undefined where there is no such node. */
    degree(node) { return ofNode("bitm_tree_degree", this.#held.at, node); }

    /** Whether a node has no children; undefined where there is no such node. */
    isLeaf(node) { return isNode("bitm_tree_is_leaf", this.#held.at, node); }

    /** The child of a node's parent after it, and before it; undefined where there is none. */
    nextSibling(node) { return ofNode("bitm_tree_next_sibling", this.#held.at, node); }
    previousSibling(node) { return ofNode("bitm_tree_previous_sibling", this.#held.at, node); }

    /** Which child of its parent a node is, counted from 0; undefined at the root and where there is no such node. */
    childRank(node) { return ofNode("bitm_tree_child_rank", this.#held.at, node); }

    /** The children of a node, in their order. */
    children(node) { return childrenOf(this.#held, node); }

    /** Lists: an array of the same kind as the nodes, see README.md. */
    parentList(nodes) { return this.#list("bitm_tree_parent_list", nodes); }
    degreeList(nodes) { return this.#list("bitm_tree_degree_list", nodes); }

    #list(name, nodes) {
        return answers([[nodes, "nodes"]], "fill", (n, out, at) => calls[name](this.#held.at, at, n, out, n, BESIDE));
    }

    /** Child ks[i] of each node nodes[i]. */
    childList(nodes, ks) {
        return answers([[nodes, "nodes"], [ks, "ks"]], "fill",
            (n, out, at, ranks) => calls.bitm_tree_child_list(this.#held.at, at, n, ranks, n, out, n, BESIDE));
    }

    /** Whether the block is as it was written and holds a tree, by going over all of it. */
    check() { return this.#held.check(); }

    /** The bytes of the block: what open() takes, and the C library and its other bindings. */
    toBytes() { return this.#held.toBytes(); }

    /** Gives the memory back at once. */
    free() { this.#held.free(); }
    [dispose]() { this.free(); }
}

shows(Tree, "Tree", it => ({ nodes: it.length }));
