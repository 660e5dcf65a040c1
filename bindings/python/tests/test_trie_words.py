"""Tries of words beside sets of words: those that Hypothesis draws, many, text and bytes, and what are no words."""
import array
import itertools
import random
import re

import pytest
from hypothesis import given, settings, strategies as st

from bitm import Trie, _core

# Words that share beginnings, words of any bytes, and text; zero bytes and empty words among them.
FEW = st.text("ab\0", max_size=6).map(str.encode)
ANY = st.binary(max_size=6)
TEXT = st.text(max_size=4)


def as_bytes(word):
    return word.encode() if isinstance(word, str) else bytes(word)


def beginnings(words):
    return {word[:count] for word in (b"", *words) for count in range(len(word) + 1)}


def as_set(trie, words):
    """The trie has a node for each beginning of a word, and a word ends at those that are words."""
    starts = beginnings(words)
    assert trie.check() and trie.has_ends and trie.width == 8 and len(trie) == len(starts)
    nodes = {trie.word(node): node for node in range(len(trie))}
    assert set(nodes) == starts and list(nodes) == sorted(nodes, key=lambda it: (len(it), it))
    for word, node in nodes.items():
        assert trie.find(word) == node and trie.is_end(node) is (word in trie) is (word in words)
        for other in (word + b"\0", word + b"a", word + b"\xff", word[:-1], word[1:]):
            assert (trie.find(other) is not None) is (other in starts) and (other in trie) is (other in words)
            assert trie.longest(other)[1] == max(count for count in range(len(other) + 1) if other[:count] in starts)


@settings(max_examples=200, deadline=None, database=None)
@given(words=st.one_of(st.lists(FEW, max_size=40), st.lists(ANY, max_size=40), st.lists(TEXT, max_size=20), st.lists(st.one_of(FEW, TEXT), max_size=20)))
def test_a_trie_has_its_words(words):
    trie = Trie.of_words(words)
    as_set(trie, {as_bytes(it) for it in words})
    assert all(it in trie for it in words)
    random.Random(len(words)).shuffle(words)
    assert Trie.of_words(iter(words)).block == Trie.of_words({*words, *words[:3]}).block == trie.block


def test_words_are_text_and_bytes():
    for words in ([], [""], [b""], ["", "a"], ["\0", "\0\0", "a\0", "a"], ["ü", "u", "ß".encode(), "日本", "\U0001f600"], [b"\xff", b"\x7f", b"\x80", b"\xff\0"]):
        as_set(Trie.of_words(words), {as_bytes(it) for it in words})
    mixed = Trie.of_words(["be", b"be", bytearray(b"b"), memoryview(b"a"), "a"])
    assert mixed.block == Trie.of_words(["b", "be", "a"]).block and [mixed.word(node) for node in range(4)] == [b"", b"a", b"b", b"be"]
    assert Trie.of_words({"a": 1, "b": 2}).block == Trie.of_words(("b", "a")).block
    nothing, empty = Trie.of_words([]), Trie.of_words([""])
    assert (len(nothing), nothing.find(""), "" in nothing, len(empty), "" in empty) == (1, 0, False, 1, True)


def test_many_words():
    draw = random.Random(7)
    words = {f"{draw.randrange(10**7):x}" for _ in range(100_000)}
    trie = Trie.of_words(words)
    assert trie.check() and sum(map(trie.is_end, range(len(trie)))) == len(words)
    assert all(word in trie for word in words)
    others = {f"{draw.randrange(10**8):x}" for _ in range(100_000)}
    assert [it in trie for it in others] == [it in words for it in others]
    long = Trie.of_words([b"a" * 100_000, b"a" * 99_999 + b"b"])
    assert len(long) == 100_002 and b"a" * 100_000 in long and b"a" * 99_999 not in long


def test_what_are_no_words():
    for wrong in ("word", b"word", bytearray(b"word"), memoryview(b"word"), 5, None, [5], [None], [["a"]], [array.array("B", b"a")], ["a", 1]):
        with pytest.raises(TypeError):
            Trie.of_words(wrong)
    with pytest.raises(UnicodeEncodeError):
        Trie.of_words(["a", "\ud800"])

    def broken():
        yield "a"
        raise KeyError("broken")

    with pytest.raises(KeyError):
        Trie.of_words(broken())


def test_a_class_of_ones_own():
    class Words(Trie):
        pass

    assert type(Words.of_words(["a"])) is Words and "a" in Words.of_words("a b".split())


def test_sorted_words_are_looked_at():
    """What the package itself calls, with words that are none, or do not rise."""
    def made(data, *starts):
        return _core.trie_of_sorted(Trie, data, array.array("Q", starts))

    assert made(b"xaab", 1, 2, 4).block == Trie.of_words(["a", "ab"]).block
    long = b"x" * 99
    for words in ((b"a", b"a"), (b"ab", b"a"), (b"b", b"a"), (b"", b""), (b"\x80", b"\x7f"), (long + b"b", long + b"a")):
        one, other = (repr(it) if len(it) < 50 else f"b'{'x' * 55}..." for it in words)
        for before in ((), (b"",), (b"", b"\0")) if words[0] else ((),):
            said = f"word {len(before) + 1} ({other}) does not stand after word {len(before)} ({one})"
            with pytest.raises(ValueError, match=f"^{re.escape(said)}$"):
                made(b"".join((*before, *words)), *itertools.accumulate(map(len, (*before, *words)), initial=0))
    for starts in ((), (2,), (1, 0), (0, 2), (0, 2**64 - 1)):
        with pytest.raises(ValueError, match="no words"):
            made(b"a", *starts)
    for arguments in ((int, b"a", [0, 1]), (Trie, "a", [0, 1]), (Trie, b"a", [None]), (Trie, b"a"), (Trie(b"\0", b""), b"a", [0, 1])):
        with pytest.raises(TypeError):
            _core.trie_of_sorted(*arguments)
    with pytest.raises(OverflowError):
        _core.trie_of_sorted(Trie, b"a", [-1])
