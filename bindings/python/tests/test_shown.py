"""What repr() says: the class of a value and its numbers, by the same names and in the same order as in the other languages."""
import pytest

import bitm

BITS = bitm.BitVector.from_indices([1, 2, 3, 50, 99], 100)
SHOWN = [
    (BITS, "BitVector(bits=100, ones=5)"),
    (bitm.Index(BITS), "Index(bits=100, ones=5)"),
    (bitm.SparseBits([3, 7], 2**40), "SparseBits(bits=1099511627776, ones=2)"),
    (bitm.EliasFano(range(9)), "EliasFano(numbers=9)"),
    (bitm.PerfectHash(["a", "b"]), "PerfectHash(keys=2, width=16)"),
    (bitm.PerfectHash(["a", "b", "c"], bits=7, tries=4), "PerfectHash(keys=3, width=7)"),
    (bitm.Dictionary([4]), "Dictionary(keys=1)"),
    (bitm.Strings(["ada", "bob"]), "Strings(strings=2)"),
    (bitm.Tree([2, 0, 0]), "Tree(nodes=3)"),
    (bitm.Trie.of_words(["ab"]), "Trie(nodes=3, width=8)"),
    (bitm.WaveletMatrix([3, 1, 4]), "WaveletMatrix(numbers=3, width=3)"),
    (bitm.TextIndex(b"banana"), "TextIndex(letters=6, width=2)"),
]


@pytest.mark.parametrize("value, text", SHOWN, ids=[text for _, text in SHOWN])
def test_a_value_is_shown_by_what_it_is_and_when_it_is_closed(value, text, tmp_path):
    fields = text.split("(", 1)[1]
    assert repr(value) == str(value) == text
    if value is BITS:
        return
    value.save(tmp_path / "it")
    mine = type("Mine", (type(value),), {}).open(tmp_path / "it")
    assert repr(mine) == f"Mine({fields}"
    for it in (mine, value):
        it.close()
        assert repr(it) == f"{type(it).__name__}(closed)"


def test_few_numbers_and_few_bits_are_shown_all():
    assert repr(bitm.EliasFano([2, 3, 2**64 - 1])) == f"EliasFano([2, 3, {2**64 - 1}])" and repr(bitm.EliasFano([])) == "EliasFano([])"
    assert repr(bitm.BitVector.from_bits("0101")) == "BitVector('0101')" and repr(bitm.BitVector(64)) == f"BitVector('{64 * '0'}')"
    assert repr(bitm.BitVector(65)) == "BitVector(bits=65, ones=0)"


def test_cursors_and_shards(tmp_path):
    numbers = bitm.EliasFano([2, 3, 5])
    cursor = numbers.cursor()
    assert repr(cursor) == "Cursor(index=0, number=2)" and next(cursor) == 2 and repr(cursor) == "Cursor(index=1, number=3)"
    assert list(cursor) == [3, 5] and repr(cursor) == "Cursor(index=3, number=None)"
    numbers.close()
    assert repr(cursor) == "Cursor(closed)"
    assert repr(bitm.Shards.build([BITS, BITS], tmp_path / "shards")) == "Shards(bits=200, ones=10, shards=2)"


def test_wrong_tables():
    index = bitm.Index.over(bytes(8), b"\xff" * 8, b"\xff" * 8)
    assert repr(index) == "Index(bits=64, wrong tables)"
