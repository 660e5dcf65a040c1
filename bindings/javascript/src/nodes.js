// Queries of a node, which a tree and a trie share: the struct of a trie begins with that of its tree, and `at` is where
// either stands.
import { calls } from "./core.js";
import { WrongTables, orNone, place } from "./numbers.js";

/** What a call of the library says of one node; undefined where there is no such node, or no answer. */
export function ofNode(name, at, node) { return orNone(calls[name](at, place(node, "node")), "node", node); }

/** The same of a call that says no by 0 and yes by 1. */
export function isNode(name, at, node) {
    const got = ofNode(name, at, node);
    return got === undefined ? undefined : got === 1;
}

/** The children of a node that a user gave, in their order. */
export function childrenOf(held, node) { return childrenIn(held, place(node, "node")); }

function* childrenIn(held, node) {
    const n = ofNode("bitm_tree_degree", held.at, node) ?? 0;
    const first = n === 0 ? 0 : orNone(calls.bitm_tree_child(held.at, node, 0), "node", node);
    if (first === undefined) throw new WrongTables();
    for (let k = 0; k < n; k++) yield first + k;
}
