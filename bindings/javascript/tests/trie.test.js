// Trie beside a plain Map of words, made of words and of parts; words that are read once; blocks of which bytes were changed or cut off.
import assert from "node:assert/strict";
import { test } from "node:test";
import { Tally, bitm, random, spoil, unlessWrong } from "./plain.js";

const { BitVector, Tree, Trie, WrongTables } = bitm;
const tally = new Tally(), MOST = [2 ** 53 - 1, 2n ** 53n, 2n ** 64n - 1n];
const small = new Trie([2, 0, 1, 0], "abe", { ends: BitVector.fromPositions([1, 2, 3], 4) }); // a, b and be

/** Words of up to five labels of `width` bits each, drawn of few labels. */
function drawn(count, width, seed) {
    const r = random(seed), labels = [0n, 1n, 2n, 3n].filter(it => it < 2n ** BigInt(width)).concat(2n ** BigInt(width) - 1n);
    return Array.from({ length: count }, () => Array.from({ length: r() % 6 }, () => labels[r() % labels.length]));
}

const key = word => word.join();
const plain = it => (it < 2n ** 53n ? Number(it) : it);

/** The nodes of a set of words, level by level, as Map from the beginning of a word to its node; and what makes their trie. */
function partsOf(words) {
    const beginnings = new Map([[], ...words].flatMap(it => it.map((_, k) => it.slice(0, k + 1)).concat([[]])).map(it => [key(it), it]));
    const order = (a, b) => a.length - b.length || a.map((it, k) => (it < b[k] ? -1 : it > b[k] ? 1 : 0)).find(it => it !== 0) || 0;
    const nodes = [...beginnings.values()].sort(order), numbers = new Map(nodes.map((it, k) => [key(it), k])), degrees = new Array(nodes.length).fill(0);
    for (const it of nodes.slice(1)) degrees[numbers.get(key(it.slice(0, -1)))]++;
    const all = new Set(words.map(key));
    return { nodes, numbers, degrees, labels: nodes.slice(1).map(it => it.at(-1)), isEnd: nodes.map(it => all.has(key(it))) };
}

function longestOf(numbers, word) {
    for (let count = word.length; ; count--) if (numbers.has(key(word.slice(0, count)))) return { node: numbers.get(key(word.slice(0, count))), count };
}

function ofNode(trie, { numbers, degrees, labels, isEnd }, word, node) {
    const said = what => () => `${what} of ${key(word)}`, got = trie.word(node);
    assert.equal(got instanceof Uint8Array, trie.width <= 8);
    tally.list([...got], word.map(plain), "word");
    tally.same(trie.label(node), node === 0 ? undefined : plain(word.at(-1)), said("label"));
    tally.same(trie.parent(node), node === 0 ? undefined : numbers.get(key(word.slice(0, -1))), said("parent"));
    tally.same(trie.degree(node), degrees[node], said("degree"));
    tally.same(trie.isEnd(node), isEnd[node], said("isEnd"));
    const children = [...trie.children(node)];
    tally.list(children, children.map(it => trie.childByLabel(node, labels[it - 1])), "children");
    tally.same(children.length, degrees[node], said("children"));
    for (const it of MOST) tally.same(trie.childByLabel(node, it), labels.findIndex((label, k) => label === BigInt(it) && children.includes(k + 1)) + 1 || undefined, said("no child"));
}

function ofWord(trie, numbers, word) {
    const wanted = numbers.get(key(word)), longest = longestOf(numbers, word), forms = [word, word.map(plain), BigUint64Array.from(word), new Set(word).size === word.length ? new Set(word) : word];
    if (word.every(it => it < 256n)) forms.push(Uint8Array.from(word, Number), Uint32Array.from(word, Number), word.values());
    for (const form of forms) tally.same(trie.find(form), wanted, () => `find ${key(word)}`);
    for (const form of [word, Float64Array.from(word.map(Number).filter(Number.isSafeInteger))].slice(0, word.every(it => it < 2n ** 53n) ? 2 : 1)) {
        const { node, count } = trie.longest(form);
        tally.list([node, count], [longest.node, longest.count], "longest");
    }
    if (word.every(it => it < 256n)) assert.deepEqual(trie.longest(Uint8Array.from(word, Number)), longest);
}

function compare(words, width) {
    const parts = partsOf(words), trie = new Trie(parts.degrees, parts.labels, { width, ends: BitVector.fromBooleans(parts.isEnd) }), n = trie.length;
    assert.deepEqual([n, trie.width, trie.hasEnds, trie.check()], [parts.nodes.length, width, true, true]);
    parts.nodes.forEach((it, node) => ofNode(trie, parts, it, node));
    for (const it of parts.nodes) for (const word of [it, it.slice(0, -1), [...it, 0n], [...it, 3n, 2n], [1n, ...it], [...it, 2n ** 64n - 1n]]) ofWord(trie, parts.numbers, word);
    const isWord = word => parts.isEnd[parts.numbers.get(key(word))] ?? false;
    for (const it of parts.nodes) for (const word of [it, [...it, 0n], [...it, 1n], it.slice(1)]) tally.same(trie.has(word), isWord(word), () => `has ${key(word)}`);
    for (const none of [n, n + 1, ...MOST]) {
        for (const name of ["word", "label", "parent", "degree", "isEnd"]) assert.equal(trie[name](none), undefined, name);
        assert.deepEqual([trie.childByLabel(none, 0), ...trie.children(none)], [undefined]);
    }
    const again = Trie.open(trie.toBytes());
    assert.deepEqual(again.toBytes(), trie.toBytes());
    assert.deepEqual([again.length, again.width, again.hasEnds, again.byteLength], [n, width, true, trie.toBytes().length]);
    trie.free();
    again.free();
}

test("answers are those of a Map", () => {
    for (const [width, count] of [[1, 9], [2, 60], [8, 0], [8, 1], [8, 90], [13, 70], [53, 60], [54, 60], [63, 80]]) compare(drawn(count, width, width + count), width);
    tally.atLeast(10000);
});

/** The trie of words of bytes is that of its parts, however they come. */
function ofWords(words) {
    const { degrees, labels, isEnd } = partsOf(words.map(it => Array.from(it, BigInt))), trie = Trie.ofWords(words);
    const wanted = new Trie(degrees, labels, { ends: BitVector.fromBooleans(isEnd) }).toBytes();
    for (const it of [trie, Trie.ofWords(new Set([...words, ...words.map(it => it.slice())].reverse())), Trie.ofWords(words.values())]) assert.deepEqual(it.toBytes(), wanted);
    tally.same(trie.check(), true, () => "check");
    for (const it of words) tally.same(trie.has(it), true, () => `has ${it}`);
    trie.free();
}

test("tries of words are those of their parts", () => {
    const r = random(31);
    for (let turn = 0; turn < 40; turn++) {
        const letter = () => (turn % 2 ? r() % 256 : r() % 3);
        ofWords(Array.from({ length: turn * 2 }, () => Uint8Array.from({ length: r() % (1 + turn % 7) }, letter)));
    }
});

test("words are strings or bytes, in any order", () => {
    const words = Trie.ofWords(["be", Uint8Array.of(98), "a", "be"]);
    assert.deepEqual(words.toBytes(), small.toBytes());
    assert.deepEqual(["a", "b", "be", "", "e", "bee", [98, 101], Uint8Array.of(97), [98]].map(it => words.has(it)), [true, true, true, false, false, false, true, true, true]);
    const texts = ["ü", "z", "\uffff", "\u{1f600}", "\0", "a\0", ""], trie = Trie.ofWords(texts);
    for (const it of texts) assert.ok(trie.has(it) && trie.has(new TextEncoder().encode(it)), it);
    for (const it of ["u", "\0\0", "a", "\u{1f601}"]) assert.equal(trie.has(it), false);
    for (const [given, isEnd] of [[[], false], [[""], true]]) {
        const root = Trie.ofWords(given);
        assert.deepEqual([root.length, root.hasEnds, root.find(""), root.has(""), root.has("a"), root.check()], [1, true, 0, isEnd, false, true]);
    }
    assert.equal(new Trie([2, 0, 1, 0], "abe").has("be"), false, "there are no ends");
});

test("many words", () => {
    const r = random(32), words = new Set(Array.from({ length: 1e5 }, () => `${r() % 1e6}`)), trie = Trie.ofWords(words);
    let ends = 0;
    for (let node = 0; node < trie.length; node++) ends += trie.isEnd(node) ? 1 : 0;
    assert.deepEqual([ends, trie.check()], [words.size, true]);
    for (let k = 0; k < 1e6; k += 7) tally.same(trie.has(`${k}`), words.has(`${k}`), () => `has ${k}`);
});

test("what are no words", () => {
    const before = bitm.memoryUse().used;
    for (const it of ["be", 5, null, undefined, true, {}, Uint8Array.of(98), new ArrayBuffer(8)]) assert.throws(() => Trie.ofWords(it), TypeError);
    for (const it of [5, null, undefined, true, {}, [98], 5n, Uint16Array.of(98), new ArrayBuffer(1)]) assert.throws(() => Trie.ofWords(["a", it]), TypeError);
    const gone = new Uint8Array(2);
    structuredClone(gone.buffer, { transfer: [gone.buffer] });
    assert.throws(() => Trie.ofWords([gone]), TypeError);
    const late = Uint8Array.of(98, 101), words = Trie.ofWords({ *[Symbol.iterator]() { yield late; late[0] = 97; yield "a"; structuredClone(late.buffer, { transfer: [late.buffer] }); } });
    assert.deepEqual([words.has("be"), words.has("ae"), words.length], [true, false, 4]);
    words.free();
    assert.equal(bitm.memoryUse().used, before);
});

test("strings are their bytes in UTF-8", () => {
    assert.deepEqual(["be", "", "e", "bee"].map(it => small.find(it)), [3, 0, undefined, undefined]);
    assert.deepEqual(["be", "", "e", "bee"].map(it => small.longest(it)), [{ node: 3, count: 2 }, { node: 0, count: 0 }, { node: 0, count: 0 }, { node: 3, count: 2 }]);
    assert.deepEqual([0, 1, 2, 3].map(it => new TextDecoder().decode(small.word(it))), ["", "a", "b", "be"]);
    const bytes = [...new TextEncoder().encode("ü")], wide = new Trie([1, 1, 0], "ü");
    assert.deepEqual([wide.find("ü"), wide.longest("ö"), [...wide.word(2)]], [2, { node: 1, count: 1 }, bytes]);
});

test("ends may be missing, and are those of a BitVector", () => {
    const trie = new Trie([2, 0, 1, 0], "abe");
    assert.deepEqual([trie.hasEnds, trie.isEnd(3), trie.isEnd(4), trie.find("be"), trie.check()], [false, undefined, undefined, 3, true]);
    for (const ends of [null, "0111", [0, 1, 1, 1], Uint8Array.of(14), 5, true]) assert.throws(() => new Trie([2, 0, 1, 0], "abe", { ends }), TypeError);
    for (const n of [0, 3, 5, 64]) assert.throws(() => new Trie([2, 0, 1, 0], "abe", { ends: new BitVector(n) }), /4 nodes, and \d+ ends/);
    const gone = new BitVector(4), late = new BitVector(4);
    gone.free();
    assert.throws(() => new Trie([2, 0, 1, 0], "abe", { ends: gone }), /BitVector was freed/);
    assert.throws(() => new Trie([2, 0, 1, 0], { *[Symbol.iterator]() { late.free(); yield* [97, 98, 101]; } }, { ends: late }), /BitVector was freed/);
});

test("degrees and labels that are those of no trie", () => {
    const misfit = node => `node ${node} is a child of no node before it, or has more children than there are nodes left`;
    const refused = [
        [[2, 0, 1, 0], "bae", "label 1 (97) is not above label 0 (98), of a child of the same node"],
        [[0, 2, 0, 0], "bae", misfit(1)],
        [[1, 2, 0, 0], "bee", "label 2 (101) is not above label 1 (101), of a child of the same node"],
        [[2, 0, 1, 0], "aae", "label 1 (97) is not above label 0 (97), of a child of the same node"],
        [[2, 0, 1, 0], "ab", "there are 4 nodes, and 2 labels: each node but the root has one"],
        [[2, 0, 1, 0], "abec", "there are 4 nodes, and 4 labels: each node but the root has one"],
        [[], "a", "there are 0 nodes, and 1 labels: each node but the root has one"],
        [[0, 1], "a", misfit(1)],
        [[], "", "there are no degrees, and a tree has a root"],
        [[3, 0, 0, 0], [1, 2, 300], "label 2 (300) has more than 8 bits"],
        [[1, 0], [2n ** 64n - 1n], `label 0 (${2n ** 64n - 1n}) has more than 8 bits`],
    ];
    for (const [degrees, labels, said] of refused) assert.throws(() => new Trie(degrees, labels), new RangeError(`bitm: ${said}`));
    for (const width of [0, 64, -1, 0.5, NaN, Infinity, 2 ** 53]) assert.throws(() => new Trie([1, 0], [0], { width }), RangeError);
    for (const width of [8n, "8", null, {}]) assert.throws(() => new Trie([1, 0], [0], { width }), TypeError);
    for (const it of [-1, 0.5, NaN, 2 ** 53, -1n, 2n ** 64n]) for (const call of [() => new Trie([1, it], "a"), () => new Trie([1, 0], [it])]) assert.throws(call, RangeError);
    for (const it of [null, undefined, 1, {}, true, [null], ["a"], new DataView(new ArrayBuffer(8)), new ArrayBuffer(8)])
        for (const call of [() => new Trie(it, "a"), () => new Trie([1, 0], it)]) assert.throws(call, TypeError);
    assert.throws(() => new Trie("10", "a"), TypeError);
    const labels = new Uint8Array(1);
    structuredClone(labels.buffer, { transfer: [labels.buffer] });
    assert.throws(() => new Trie([1, 0], labels), TypeError);
    assert.deepEqual([...new Trie([2, 0, 1, 0].values(), new Set([97n, 98, 101])).word(3)], [98, 101]);
});

test("nodes and words that are wrong", () => {
    for (const it of [-1, 0.5, NaN, Infinity, 2 ** 53, -1n, 2n ** 64n]) {
        for (const name of ["word", "label", "parent", "degree", "isEnd"]) assert.throws(() => small[name](it), RangeError, `${name} ${it}`);
        for (const call of [() => [...small.children(it)], () => small.childByLabel(it, 0), () => small.childByLabel(0, it), () => small.find([it]), () => small.longest([it]), () => small.has([it])])
            assert.throws(call, RangeError, `${it}`);
    }
    for (const it of ["1", null, undefined, true, {}, [1], Symbol("1"), () => 1]) {
        for (const name of ["word", "label", "parent", "degree", "isEnd"]) assert.throws(() => small[name](it), TypeError);
        for (const call of [() => [...small.children(it)], () => small.childByLabel(it, 0), () => small.childByLabel(0, it), () => small.find([it]), () => small.longest([it]), () => small.has([it])])
            assert.throws(call, TypeError);
    }
    for (const it of [5, null, undefined, true, {}, new DataView(new ArrayBuffer(8)), new ArrayBuffer(8)]) for (const name of ["find", "longest", "has"]) assert.throws(() => small[name](it), TypeError);
    const word = new Uint8Array(2);
    structuredClone(word.buffer, { transfer: [word.buffer] });
    for (const name of ["find", "longest", "has"]) assert.throws(() => small[name](word), TypeError);
    for (const Type of [Uint8Array, Uint16Array, Float64Array, BigUint64Array]) assert.equal(small.find(Type.from("be", it => (Type === BigUint64Array ? BigInt(it.charCodeAt()) : it.charCodeAt()))), 3);
});

test("a word is read once, and before the trie", () => {
    function* once() { yield* [98, 101]; }
    assert.deepEqual([small.find(once()), small.longest(once()), small.has(once())], [3, { node: 3, count: 2 }, true]);
    for (const name of ["find", "longest", "has"]) {
        const trie = new Trie([2, 0, 1, 0], "abe");
        assert.throws(() => trie[name]({ *[Symbol.iterator]() { trie.free(); yield 98; } }), /Trie was freed/);
    }
});

test("each changed byte is seen, and each prefix; unchecked blocks answer within their range", () => {
    const { degrees, labels, isEnd } = partsOf(drawn(5, 8, 5)), n = degrees.length;
    const bytes = new Trie(degrees, labels, { ends: BitVector.fromBooleans(isEnd) }).toBytes();
    spoil(Trie, bytes, 1 / 3, trie => {
        for (let node = 0; node <= n; node++) {
            for (const ask of [() => trie.childByLabel(node, 1), () => trie.find([1, 2]), () => trie.degree(node)]) assert.ok((unlessWrong(ask) ?? 0) < n);
            assert.ok((unlessWrong(() => trie.parent(node)) ?? -1) < node);
            assert.ok((unlessWrong(() => trie.word(node)) ?? []).length <= node);
            assert.ok([undefined, false, true].includes(unlessWrong(() => trie.has([1, 2]))));
            const { node: deepest, count } = unlessWrong(() => trie.longest([1, 0, 2])) ?? { node: 0, count: 0 };
            assert.ok(deepest < n && count <= 3);
        }
    });
    assert.throws(() => Trie.open("block"), TypeError);
    assert.throws(() => Tree.open(bytes), WrongTables);
    assert.throws(() => Trie.open(new Tree([1, 0]).toBytes()), WrongTables);
});

test("a trie that was freed, and memory", () => {
    const before = bitm.memoryUse().used, trie = new Trie([2, 0, 1, 0], "abe"), walk = trie.children(0);
    trie.free();
    trie.free();
    assert.equal(trie.byteLength, 0);
    const asks = [() => trie.find("b"), () => trie.has("b"), () => trie.longest("b"), () => trie.word(1), () => trie.label(1), () => trie.isEnd(1), () => trie.childByLabel(0, 97), () => trie.parent(1),
        () => trie.degree(1), () => walk.next(), () => trie.check(), () => trie.toBytes()];
    for (const ask of asks) assert.throws(ask, /was freed/);
    for (const call of [() => new Trie([2, 0, 1, 0], "bae"), () => new Trie([1, 0], "a", { width: 64 }), () => small.find([-1])]) assert.throws(call);
    assert.throws(() => Trie.open(new Uint8Array(800)), WrongTables);
    assert.equal(bitm.memoryUse().used, before);
});
