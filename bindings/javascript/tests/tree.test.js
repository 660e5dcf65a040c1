// Tree beside plain arrays of parents and children; blocks of which bytes were changed or cut off.
import assert from "node:assert/strict";
import { test } from "node:test";
import { Tally, bitm, random, spoil, unlessWrong } from "./plain.js";

const { NO_ANSWER, Tree, WrongTables } = bitm;
const tally = new Tally();

/** Degrees of a drawn tree: a node has up to `most` children, as long as there are nodes left. */
function drawn(n, most, seed) {
    const r = random(seed), degrees = new Array(n);
    let known = 1;
    for (let node = 0; node < n; node++) {
        let degree = r() % (most + 1);
        if (degree === 0 && known === node + 1) degree = 1;
        known += degrees[node] = Math.min(degree, n - known);
    }
    return degrees;
}

/** The parent of each node, and its first child. */
function plain(degrees) {
    const parents = [undefined], first = [];
    degrees.forEach((degree, node) => {
        first.push(parents.length);
        for (let k = 0; k < degree; k++) parents.push(node);
    });
    return { parents, first };
}

function compare(degrees) {
    const tree = new Tree(degrees), { parents, first } = plain(degrees), n = degrees.length;
    assert.equal(tree.length, n);
    assert.ok(tree.check());
    const rank = node => (node === 0 ? undefined : node - first[parents[node]]);
    for (let node = 0; node < n; node++) {
        const said = what => () => `${what} ${node} of ${n}`;
        tally.same(tree.parent(node), parents[node], said("parent"));
        tally.same(tree.degree(node), degrees[node], said("degree"));
        tally.same(tree.isLeaf(node), degrees[node] === 0, said("isLeaf"));
        tally.same(tree.childRank(node), rank(node), said("childRank"));
        tally.same(tree.nextSibling(node), node > 0 && rank(node) + 1 < degrees[parents[node]] ? node + 1 : undefined, said("nextSibling"));
        tally.same(tree.previousSibling(node), rank(node) > 0 ? node - 1 : undefined, said("previousSibling"));
        tally.list([...tree.children(node)], Array.from({ length: degrees[node] }, (_, k) => first[node] + k), "children");
        tally.same(tree.child(node, degrees[node]), undefined, said("child"));
    }
    for (const none of [n, n + 1, 2 ** 53 - 1, 2n ** 64n - 1n]) {
        for (const name of ["parent", "degree", "isLeaf", "nextSibling", "previousSibling", "childRank"]) assert.equal(tree[name](none), undefined);
        assert.equal(tree.child(none, 0), undefined);
    }
    const nodes = Array.from({ length: n + 1 }, (_, k) => k), ks = nodes.map(k => k % 3);
    const child = (node, k) => (k < (degrees[node] ?? 0) ? first[node] + k : undefined);
    tally.list(tree.parentList(nodes), nodes.map(k => parents[k]), "parentList");
    tally.list(tree.degreeList(Float64Array.from(nodes)), nodes.map(k => degrees[k] ?? NaN), "degreeList");
    tally.list(tree.childList(BigUint64Array.from(nodes, BigInt), ks), nodes.map((node, k) => BigInt(child(node, ks[k]) ?? NO_ANSWER)), "childList");
    const again = Tree.open(tree.toBytes());
    assert.deepEqual(again.toBytes(), tree.toBytes());
    tree.free();
    again.free();
}

test("trees of each shape", () => {
    for (let n = 1; n < 40; n++) compare(drawn(n, 1 + (n % 4), n));
    compare(drawn(2000, 1, 1));
    compare(drawn(2000, 3, 2));
    compare(drawn(2000, 100, 3));
    compare([1999, ...new Array(1999).fill(0)]);
});

test("degrees that are those of no tree", () => {
    for (const [none, node] of [[[0, 0], 1], [[1, 1], 1], [[0, 1], 1], [[2, 0], 0], [[1, 0, 1], 2], [[2 ** 53 - 1, 1], 0], [[2n ** 64n - 1n, 2], 0]])
        assert.throws(() => new Tree(none), new RangeError(`bitm: node ${node} is a child of no node before it, or has more children than there are nodes left`));
    assert.throws(() => new Tree([]), new RangeError("bitm: there are no degrees, and a tree has a root"));
    assert.throws(() => new Tree([1, -1]), RangeError);
    assert.throws(() => new Tree([0.5]), RangeError);
    assert.throws(() => new Tree("10"), TypeError);
    assert.throws(() => new Tree([2, 0, 0]).childList([0, 0], [1]), RangeError);
});

test("each changed byte is seen, and each prefix; unchecked blocks answer within their range", () => {
    const degrees = drawn(9, 3, 5), bytes = new Tree(degrees).toBytes();
    spoil(Tree, bytes, 1 / 3, tree => {
        for (let node = 0; node < 10; node++) {
            for (const name of ["parent", "degree", "isLeaf", "nextSibling", "previousSibling", "childRank"]) {
                const answer = unlessWrong(() => tree[name](node));
                if (name === "parent" && answer !== undefined) assert.ok(answer < node);
                if (typeof answer === "number") assert.ok(answer < 9);
            }
        }
    });
    assert.throws(() => Tree.open("block"), TypeError);
});

test("a tree that was freed", () => {
    const tree = new Tree([1, 0]);
    tree.free();
    tree.free();
    assert.equal(tree.byteLength, 0);
    for (const ask of [() => tree.parent(1), () => tree.toBytes(), () => tree.check(), () => tree.parentList([1])]) assert.throws(ask, /was freed/);
});

test("how many answers were compared", () => assert.ok(tally.count > 20000, `${tally.count}`));
