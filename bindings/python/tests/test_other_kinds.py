"""A right file of another kind: its error names what the file holds, and is not that of damage."""
import pytest
from block_values import bytes_of
from blocks import as_bytes, block

import bitm
from bitm import OtherKind

# A value of each class, and what a file of it holds.
HELD = {
    "an index": bitm.Index(bitm.BitVector.from_bits("0101101")),
    "a sequence": bitm.EliasFano([2, 3, 5]),
    "sparse bits": bitm.SparseBits([3, 100], 5000),
    "a perfect hash": bitm.PerfectHash(["zero"]),
    "a dictionary": bitm.Dictionary([4, 9, 49]),
    "a wavelet matrix": bitm.WaveletMatrix([3, 1, 4]),
    "a tree": bitm.Tree([2, 0, 1, 0]),
    "the index of a text": bitm.TextIndex(b"banana"),
    "a trie": bitm.Trie.of_words(["a", "be"]),
    "strings": bitm.Strings(["ada", "bob"]),
}


@pytest.mark.parametrize("wanted", HELD)
@pytest.mark.parametrize("held", HELD)
def test_what_a_file_holds(held, wanted, tmp_path):
    path, kind = tmp_path / "file", type(HELD[wanted])
    HELD[held].save(path)
    if held == wanted:
        with kind.open(path) as found:
            assert type(found) is kind and found.check()
        return
    says = f"it holds {held}, not {wanted}"
    with pytest.raises(OtherKind) as error:
        kind.open(path)
    assert str(error.value) == f"{path!r}: {says}" and isinstance(error.value, ValueError)
    if kind not in (bitm.Index, bitm.EliasFano):  # whose `over` takes parts
        with pytest.raises(OtherKind, match=f"^{says}$"):
            kind.over(path.read_bytes())


@pytest.mark.parametrize("name, what", [("index", "an index"), ("sequence", "a sequence"), ("hash", "a perfect hash")])
def test_files_of_version_2(name, what, tmp_path):
    from block_values import VERSION_2
    for wanted, value in HELD.items():
        if wanted == what:
            assert type(value).open(VERSION_2 / name).check()
        else:
            with pytest.raises(OtherKind, match=f"it holds {what}, not {wanted}$"):
                type(value).open(VERSION_2 / name)


def test_damage_is_no_other_kind(tmp_path):
    for value in HELD.values():
        data = bytearray(bytes_of(value))
        for at in range(128 + 32):  # header, and an entry of the directory
            data[at] ^= 1
            (tmp_path / "file").write_bytes(data)
            for kind in (bitm.Tree, bitm.Strings, bitm.TextIndex):
                for opened in (lambda: kind.open(tmp_path / "file"), lambda: kind.over(data)):
                    with pytest.raises(ValueError) as error:
                        opened()
                    assert type(error.value) is ValueError
            data[at] ^= 1


def test_a_kind_that_is_not_known(tmp_path):
    (tmp_path / "file").write_bytes(as_bytes(block(11, 0, 0, [(1, [0])])))
    for call in (bitm.load, bitm.Tree.open):
        with pytest.raises(ValueError, match="not a stored") as error:
            call(tmp_path / "file")
        assert type(error.value) is ValueError


def test_subclasses_open_files(tmp_path):
    class Mine(bitm.Tree):
        pass

    bitm.Tree([1, 0]).save(tmp_path / "tree")
    bitm.Trie.of_words(["a"]).save(tmp_path / "trie")
    assert type(Mine.open(tmp_path / "tree")) is Mine
    with pytest.raises(OtherKind, match="it holds a trie, not a tree"):
        Mine.open(tmp_path / "trie")
