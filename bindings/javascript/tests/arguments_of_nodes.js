// Arguments for the calls over trees and tries.
import assert from "node:assert/strict";
import { ANSWER, N, ROOM, library, memory, r, slot, words } from "./arena.js";

/** A tree of 40 nodes in slot 24, of which a word after the directory may be wrong, and its struct: how many words it has. */
function tree(spoilt) {
    const degrees = words(slot(23), N), block = slot(24);
    for (let node = 0, known = 1; node < N; node++) {
        const left = N - known, most = Math.min(left, 3), least = node === known - 1 && left > 0 ? 1 : 0;
        const degree = least + (r() % (most - least + 1));
        degrees[node] = BigInt(degree);
        known += degree;
    }
    assert.equal(library.bitm_tree_size(BigInt(N), BigInt(ANSWER)), 0);
    const size = words(ANSWER, 1)[0];
    assert.equal(library.bitm_tree_build(BigInt(slot(23)), BigInt(N), BigInt(block), size), 0);
    assert.equal(library.bitm_tree_open(BigInt(block), size, BigInt(slot(25))), 0);
    if (spoilt) words(block, Number(size))[32 + (r() % (Number(size) - 32))] ^= BigInt(r());
    return Number(size);
}

/** What a query of a tree is asked, and what lists of queries have in common. */
const ofTree = () => (tree(r() % 3 === 0), { tree: slot(25), node: r() % (N + 5), k: r() % 4 });
function ofTrees() {
    const given = ofTree();
    for (let i = 0; i < N; i++) words(slot(28), N)[i] = BigInt(r() % (N + 5));
    for (let i = 0; i < N; i++) words(slot(29), N)[i] = BigInt(r() % 4);
    return { ...given, nodes: slot(28), ks: slot(29), out: slot(30), counts: slot(31) };
}

/** A block for what opens and checks it. */
const ofBlock = () => ({ block: slot(24), block_len: tree(r() % 3 === 0) - (r() % 7 ? 0 : 1), tree: slot(27) });

/** A trie of 40 nodes in slot 95, whose labels are the numbers of the nodes, with the struct in slot 96; a word of the block
 * may be wrong: its words. Degrees are in slot 23, labels in slot 93, ends in slot 94. */
function trie(spoilt) {
    tree(false);
    for (let i = 0; i < N; i++) words(slot(93), N)[i] = BigInt(i + 1);
    words(slot(94), 1)[0] = BigInt(r());
    assert.equal(library.bitm_trie_size(BigInt(N), 7, 1, BigInt(ANSWER)), 0);
    const size = words(ANSWER, 1)[0], parts = [slot(23), N, slot(93), N - 1].map(BigInt);
    assert.equal(library.bitm_trie_build(...parts, 7, BigInt(slot(94)), 1n, BigInt(slot(95)), size), 0);
    assert.equal(library.bitm_trie_open(BigInt(slot(95)), size, BigInt(slot(96))), 0);
    if (spoilt) words(slot(95), Number(size))[40 + (r() % (Number(size) - 40))] ^= BigInt(r());
    return Number(size);
}
function ofTrie() {
    trie(r() % 3 === 0);
    for (let i = 0; i < 3; i++) words(slot(97), 3)[i] = BigInt(1 + (r() % (4 + 6 * i)));
    return { trie: slot(96), word: slot(97), word_len: r() % 3, label: 1 + (r() % N) };
}
const ofNode = () => ({ ...ofTrie(), node: r() % (N + 5) });
const ofTrieBlock = () => ({ block: slot(95), block_len: trie(r() % 3 === 0) - (r() % 7 ? 0 : 1), trie: slot(98) });
function ofTrieBuilt() {
    const block_len = trie(false) - (r() % 7 ? 0 : 1);
    return { degrees: slot(23), degrees_len: N, labels: slot(93), labels_len: N - 1, width: r() % 7 ? 7 : r() % 9, ends: slot(94), ends_len: 1, block: slot(98), block_len };
}

/** Words in slot 109, which do not always rise, and where they begin in slot 110; with room for the block of their trie. */
function ofWords() {
    const all = [...new Set(Array.from({ length: 9 }, () => `${r() % 200}`))].sort(), begins = [0n];
    if (r() % 5 === 0) all.reverse();
    for (const it of all) begins.push(begins.at(-1) + BigInt(it.length));
    const text = new TextEncoder().encode(all.join(""));
    new Uint8Array(memory.buffer, slot(109), text.length).set(text);
    words(slot(110), begins.length).set(begins);
    const nodes = 1 + new Set(all.flatMap(it => Array.from(it, (_, k) => it.slice(0, k + 1)))).size, wrong = () => (r() % 20 ? 0 : 1);
    assert.equal(library.bitm_trie_size(BigInt(nodes), 8, 1, BigInt(ANSWER)), 0);
    return {
        bytes: slot(109), bytes_len: text.length - wrong(), starts: slot(110), starts_len: begins.length - wrong(), scratch: slot(111),
        scratch_len: 3 * nodes - 2 + Math.ceil(nodes / 64) + wrong(), block: slot(98), block_len: Number(words(ANSWER, 1)[0]) - wrong(),
    };
}

/** Arguments that have to fit together, by export and name. */
export const NODES = {
    bitm_tree_build: () => ({ degrees: slot(23), degrees_len: N, block: slot(26), block_len: tree(false) - (r() % 7 ? 0 : 1) }),
    bitm_tree_open: ofBlock,
    bitm_tree_check: ofBlock,
    bitm_tree_parent: ofTree,
    bitm_tree_child: ofTree,
    bitm_tree_degree: ofTree,
    bitm_tree_is_leaf: ofTree,
    bitm_tree_next_sibling: ofTree,
    bitm_tree_previous_sibling: ofTree,
    bitm_tree_child_rank: ofTree,
    bitm_tree_parent_list: ofTrees,
    bitm_tree_degree_list: ofTrees,
    bitm_tree_child_list: ofTrees,
    bitm_trie_size: () => ({ nodes: r() % 3000, width: r() % 66 }),
    bitm_trie_build: ofTrieBuilt,
    bitm_trie_nodes_of_words: ofWords,
    bitm_trie_unsorted_word: ofWords,
    bitm_trie_build_words: ofWords,
    bitm_trie_open: ofTrieBlock,
    bitm_trie_check: ofTrieBlock,
    bitm_trie_label: ofNode,
    bitm_trie_is_end: ofNode,
    bitm_trie_child: () => ({ ...ofNode(), ...(([node, label]) => ({ node, label }))(r() % 2 ? [0, 1] : [r() % 9, r() % N]) }),
    bitm_trie_find: ofTrie,
    bitm_trie_find_bytes: () => ({ ...ofTrie(), word_len: r() % 2 }),
    bitm_trie_longest: ofTrie,
    bitm_trie_longest_bytes: ofTrie,
    bitm_trie_word: () => (({ trie }) => ({ trie, node: r() % (N + 5) }))(ofTrie()),
};
