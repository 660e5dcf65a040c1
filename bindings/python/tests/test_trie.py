"""Trie beside a dict of words; files and buffers of blocks, of which bytes were changed or cut off."""
import array
import random
import re

import pytest
from block_values import answer_of, over_each_change, refuses_another, refuses_once_closed, stored_and_copied

import bitm
from bitm import BitVector, Trie


def parts_of(words):
    """The nodes of a set of words, tuples of labels, level by level; and the degrees, the labels and the ends of their trie."""
    nodes = sorted({word[:count] for word in [(), *words] for count in range(len(word) + 1)}, key=lambda it: (len(it), it))
    degrees = [0] * len(nodes)
    number = {word: node for node, word in enumerate(nodes)}
    for word in nodes[1:]:
        degrees[number[word[:-1]]] += 1
    return number, degrees, [word[-1] for word in nodes[1:]], BitVector.from_bits([word in words for word in nodes])


def drawn(count, width, seed):
    draw = random.Random(seed)
    labels = [*range(min(4, 1 << width)), (1 << width) - 1]
    return {tuple(draw.choice(labels) for _ in range(draw.randint(0, 5))) for _ in range(count)}


def longest_of(number, word):
    return next((number[word[:count]], count) for count in range(len(word), -1, -1) if word[:count] in number)


@pytest.mark.parametrize("width, count", [(1, 9), (2, 60), (8, 1), (8, 90), (13, 70), (63, 80)])
def test_answers_are_those_of_a_dict(width, count):
    words = drawn(count, width, count)
    number, degrees, labels, ends = parts_of(words)
    trie = Trie(degrees, labels, width, ends)
    assert len(trie) == len(number) and trie.check() and trie.width == width and trie.has_ends
    for word, node in number.items():
        of_bytes = width <= 8
        assert trie.word(node) == (bytes(word) if of_bytes else list(word)) and trie.is_end(node) is (list(word) in trie) is (word in words)
        assert trie.label(node) == (word[-1] if word else None) and trie.degree(node) == degrees[node]
        assert trie.parent(node) == (number[word[:-1]] if word else None)
        for child in trie.children(node):
            assert trie.child_by_label(node, labels[child - 1]) == child
        for other in (word, word[:-1], (*word, 0), (*word, 3, 2), (1, *word)):
            wanted = number.get(other), longest_of(number, other)
            assert (trie.find(list(other)), trie.longest(other)) == wanted and (other in trie) is (other in words)
            if max(other, default=0) < 256:
                assert (trie.find(bytes(other)), trie.longest(bytearray(other))) == wanted and (bytes(other) in trie) is (other in words)
    for node in (len(trie), 2**63, 2**64 - 1):
        assert [ask(node) for ask in (trie.word, trie.label, trie.is_end, trie.parent, trie.degree)] == [None] * 5
        assert trie.child_by_label(node, 0) is None and list(trie.children(node)) == []


def test_ends_may_be_missing():
    trie = Trie([2, 0, 1, 0], b"abe")
    assert not trie.has_ends and trie.is_end(3) is None and trie.find(b"be") == 3 and trie.longest(b"bee") == (3, 2)
    assert b"be" not in trie and b"bee" not in trie


def test_parts_of_no_trie_are_refused():
    for parts, said in ((([2, 0, 1, 0], b"bae"), "label 1 (97) is not above label 0 (98), of the same node"),
                        (([1, 3, 0, 0, 0], b"xaba"), "label 3 (97) is not above label 2 (98), of the same node"),
                        (([2, 0, 1, 0], b"aae"), "label 1 (97) is not above label 0 (97), of the same node"),
                        (([0, 1], b"a"), "node 1 is a child of no node before it, or has more children than there are nodes left"),
                        (([], b""), "the degrees are those of no tree, or the labels none for it"), (([1, 0], [256]), "label 0 (256) has more than 8 bits"),
                        (([1, 1, 0], [255, 2**64 - 1]), f"label 1 ({2**64 - 1}) has more than 8 bits"), (([1, 0], [2], 1), "label 0 (2) has more than 1 bit"),
                        (([1, 0], [2**63], 63), f"label 0 ({2**63}) has more than 63 bits")):
        with pytest.raises(ValueError, match=f"^{re.escape(said)}$"):
            Trie(*parts)
    for parts in (([2, 0, 1, 0], b"ab"), ([2, 0, 1, 0], b"abea"), ([2, 0, 1, 0], b""), ([0, 1], b"ab"), ([], b"a")):
        with pytest.raises(ValueError, match="the labels not one for each node but the root"):
            Trie(*parts)
    for width, ends in ((0, None), (64, None), (2**64 - 1, None), (8, b"\1" * 16)):
        with pytest.raises(ValueError, match="width is not 1 to 63, or the ends"):
            Trie([2, 0, 1, 0], b"abe", width, ends)
    for ends in (b"", BitVector(), BitVector(3), BitVector.from_bits("111")):
        with pytest.raises(ValueError, match="the ends are not a bit for each node"):
            Trie([2, 0, 1, 0], b"abe", ends=ends)
    for wrong, error in ((("a",), TypeError), ((None, b""), TypeError), (([1, 0], "a"), TypeError), (([1, 0], b"a", -1), OverflowError),
                         (([1, 0], b"a", 8, 5), TypeError)):
        with pytest.raises(error):
            Trie(*wrong)


def test_words_are_bytes_text_or_labels():
    trie = Trie.of_words(["a", "b", "be", "ß"])
    for word in (b"be", bytearray(b"be"), memoryview(b"be"), "be", [98, 101], (98, 101), array.array("B", b"be"), iter(b"be")):
        assert trie.find(word) == 4
    for word in (b"be", "be", [98, 101]):
        assert (trie.longest(word), word in trie) == ((4, 2), True)
    assert (trie.find("ß"), trie.longest("Ü"), "ß" in trie, "Ü" in trie) == (5, (3, 1), True, False)
    for ask in (trie.find, trie.longest, trie.__contains__):
        for wrong in (5, None, [None], ["b"], ["be"]):
            with pytest.raises(TypeError):
                ask(wrong)
        with pytest.raises(OverflowError):
            ask([-1])
        with pytest.raises(UnicodeEncodeError):
            ask("\ud800")


def test_a_value_that_is_closed_while_a_word_is_taken_is_not_read():
    class Label:
        def __index__(self):
            trie.close()
            return 98

    for ask in (Trie.find, Trie.longest, Trie.__contains__):
        trie = Trie([2, 0, 1, 0], b"abe")
        with pytest.raises(ValueError, match="closed"):
            ask(trie, [Label()])


def test_files_and_copies(tmp_path):
    number, *parts = parts_of(drawn(90, 8, 3))
    trie = Trie(*parts[:2], ends=parts[2])
    for other in stored_and_copied(trie, tmp_path / "trie"):
        assert all(other.find(list(word)) == node and other.word(node) == bytes(word) for word, node in number.items())
        refuses_once_closed(other, lambda it: it.find(b""), lambda it: it.word(0), lambda it: it.has_ends, lambda it: b"" in it)
    refuses_another(Trie, bytes(trie.block), "trie")
    assert isinstance(bitm.loads(bytes(trie.block)), Trie)


def test_each_changed_byte_and_each_prefix_is_seen():
    _, *parts = parts_of(drawn(5, 8, 5))
    for trie in over_each_change(Trie, bytes(Trie(*parts[:2], ends=parts[2]).block)):
        for node in range(len(trie) + 1):
            assert answer_of(trie.__contains__, b"\1\2") in (None, False, True)
            for answer in (answer_of(trie.child_by_label, node, 1), answer_of(trie.find, b"\1\2"), answer_of(trie.parent, node)):
                assert answer is None or 0 <= answer < len(trie)
            word, longest = answer_of(trie.word, node), answer_of(trie.longest, b"\1\0\2")
            assert word is None or len(word) <= node
            assert longest is None or longest[0] < len(trie) and longest[1] <= 3
