"""What files hold: blocks as docs/FORMAT.md has them, of which no changed bit is accepted; and files of format version 2."""
import io
import pickle
import struct

import pytest
from block_values import VERSION_2, bytes_of, refused
from blocks import as_bytes, as_version_3, block, of_bits, of_sequence

import bitm
from bitm import BitVector, EliasFano, Index, PerfectHash


@pytest.mark.parametrize("count", [0, 1, 64, 2047, 5000])
def test_the_bytes_of_a_file_are_those_of_the_documents(count):
    bits = BitVector.from_bits([at * at % 7 < 2 for at in range(count)])
    numbers = [1000 * at + at * at % 1000 for at in range(count)]
    words = list(memoryview(bits))
    assert bytes_of(Index(bits)) == as_bytes(of_bits(count, 0, words)) == bytes(Index(bits).block)
    assert bytes_of(EliasFano(numbers)) == as_bytes(of_sequence(count, 0, numbers)) == bytes(EliasFano(numbers).block)
    index = Index(bits, sample_log2=9)
    _, (*_, ones, starts, zeros, starts0) = bitm._core.parts(index)
    added = ((7, ones, 0x316174736D746962, starts), (8, zeros, 0x306174736D746962, starts0))
    assert bytes(index.block) == bitm.extend(Index(bits).block, [it for role, samples, after, begins in added
                                                                 for it in ((role, samples), (after, b"\x09" + bytes(7) + bytes(begins)))])


def small_values():
    bits = BitVector.from_bits([at * at % 7 < 2 for at in range(700)])
    yield from (Index(bits), Index(bits, sample_log2=7), EliasFano(range(0, 900, 7)), PerfectHash(range(40)), PerfectHash(range(40), tries=4))
    yield from (bitm.SparseBits([3, 100, 101, 4000], 5000), bitm.Dictionary([4, 9, 49]), bitm.Strings(["ada", "bob", "eve"]), bitm.Tree([2, 0, 1, 0]))
    yield from (bitm.Trie.of_words(["a", "be"]), bitm.WaveletMatrix([3, 1, 4, 1]), bitm.WaveletMatrix(range(40), quarters=True), bitm.TextIndex(b"banana"))
    yield from (bitm.WaveletMatrix(range(40), hints=True), bitm.WaveletMatrix([3, 1, 4, 1], quarters=True, hints=True))
    yield bitm.TextIndex.of_letters([3, 1, 4, 1, 5], 8)


@pytest.mark.parametrize("note", [{}, {65536: b"a note"}], ids=["without a note", "with a note"])
@pytest.mark.parametrize("value", small_values(), ids=lambda it: type(it).__name__)
def test_no_file_of_which_one_bit_was_flipped_is_accepted(value, note):
    data = bytearray(bitm.extend(bytes_of(value), note))
    assert bitm.loads(bytes(data)).check()
    for at in range(8 * len(data)):
        data[at // 8] ^= 1 << at % 8
        try:
            found = bitm.loads(data)
        except ValueError:
            pass
        else:
            assert not found.check(), at
            found.close()
        data[at // 8] ^= 1 << at % 8


ASKED = {
    Index: lambda it: [it.rank(at) for at in range(701)],
    EliasFano: list,
    PerfectHash: lambda it: it.get_list(range(41)),
    bitm.SparseBits: lambda it: it.select_list(range(5)),
    bitm.Dictionary: lambda it: it.get_list([4, 9, 49, 50]),
    bitm.Strings: lambda it: it.find_list(["ada", "bob", "eve", "joe"]),
    bitm.Tree: lambda it: it.parent_list(range(4)),
    bitm.Trie: lambda it: [it.find(word) for word in ("a", "b", "be", "c")],
    bitm.WaveletMatrix: list,
    bitm.TextIndex: lambda it: it[:],
}


@pytest.mark.parametrize("value", small_values(), ids=lambda it: type(it).__name__)
def test_a_block_of_version_3_answers_and_has_version_4_once_it_is_extended(value, tmp_path):
    plain = bytes(value.block)
    old = as_bytes(as_version_3(list(struct.unpack(f"<{len(plain) // 8}Q", plain))))
    path = tmp_path / "old"
    path.write_bytes(old)
    noted = bitm.extend(old, {65536: b"a note"})
    assert (plain[7], old[7], noted[7]) == (4, 3, 4)
    # `over` of an index or a sequence takes its parts, not a block
    over = [] if isinstance(value, (Index, EliasFano)) else [type(value).over(old)]
    for found in (*over, bitm.loads(old), bitm.load(path), bitm.load(path, mmap=True), bitm.loads(noted)):
        assert type(found) is type(value) and found.check() and ASKED[type(value)](found) == ASKED[type(value)](value)
    assert bytes_of(bitm.loads(old)) == old
    for data in (old[:8] + plain[8:], plain[:8] + old[8:]):  # the checksums are those of the other version
        refused(data, path, True)


def of_version_2():
    bits = BitVector.from_bits([at * at % 7 < 2 or at % 100 < 10 for at in range(1001)])
    keys = [f"key {at}" for at in range(100)]
    yield "index", Index(bits)
    yield "index_with_samples", Index(bits, sample_log2=7)
    yield "sequence", EliasFano(1000 * at + at * at % 1000 for at in range(100))
    yield "hash", PerfectHash(keys, bits=9, seed=5)
    yield "hash_blake2b", PerfectHash(keys, bits=9, seed=5, hash="blake2b")


@pytest.mark.parametrize("name, value", of_version_2(), ids=lambda it: it if isinstance(it, str) else "")
def test_a_file_of_version_2_is_read_and_saved_as_a_block(name, value, tmp_path):
    path = VERSION_2 / name
    data = path.read_bytes()
    assert data[:8] == b"bitmtab\x02"
    for old in (bitm.load(path), bitm.load(path, mmap=True), bitm.loads(data), bitm.loads(bytearray(data))):
        assert type(old) is type(value) and old.check() and len(old) == len(value)
        if isinstance(value, PerfectHash):
            assert [old[f"key {at}"] for at in range(100)] == [value[f"key {at}"] for at in range(100)] and old.hash == value.hash
        else:
            assert old == value
        old.save(tmp_path / "it")
        assert (tmp_path / "it").read_bytes() == bytes_of(value) == bytes(old.block) and bitm.load(tmp_path / "it").check()
    for at in range(0, 192, 8):
        refused(data[:at] + bytes([data[at] ^ 1]) + data[at + 1 :], tmp_path / "it", True)


def test_pickles_of_parts_are_read():
    with open(VERSION_2 / "pickled", "rb") as file:
        values = pickle.load(file)
    for old, (_, value) in zip(values, of_version_2(), strict=True):
        assert type(old) is type(value) and old.check() and bytes(old.block) == bytes(value.block)


def test_samples_that_do_not_fit_are_left_out():
    bits = BitVector.from_bits([at % 3 == 0 for at in range(5000)])
    plain, ones = Index(bits), (7, 0x316174736D746962)
    whole = Index(bits, sample_log2=8)
    _, (*_, samples, starts, _, _) = bitm._core.parts(whole)
    right = bytes([8] + [0] * 7) + bytes(starts)
    cases = {right: 8, bytes([6]) + right[1:]: 0, bytes([32]) + right[1:]: 0, bytes([8, 1]) + right[2:]: 0, right[:8]: 0, right + bytes(8): 0, right[:-1]: 0, b"": 0}
    for begins, log2 in cases.items():
        for added in ([(ones[0], samples), (ones[1], begins)], [(7, b""), (65536, b"note"), (ones[0], samples), (ones[1], begins)]):
            index = bitm.loads(bitm.extend(plain.block, added))
            assert bitm._core.parts(index)[0] == (5000, log2, 0) and index.check()
            assert index.select_list(range(1700)) == plain.select_list(range(1700))
    apart = bitm.loads(bitm.extend(plain.block, [(ones[0], samples), (65536, b""), (ones[1], right)]))
    assert bitm._core.parts(apart)[0] == (5000, 0, 0)
    wrong = bitm.loads(bitm.extend(plain.block, [(ones[0], bytes(len(samples) * 4)), (ones[1], right)]))
    assert not wrong.check() and wrong.select_list(range(1700)) == plain.select_list(range(1700))
    most = bitm._core.parts(Index(b"\xff" * 8, sample_log2=7))[1][3]
    many = bitm.loads(bitm.extend(Index(b"\xff" * 8).block, [(7, bytes(4 * (len(most) + 1))), (ones[1], bytes([7] + [0] * 15))]))
    assert bitm._core.parts(many)[0] == (64, 0, 0)


def test_what_is_damaged_gets_no_block():
    width, low, words, upper, lower = EliasFano(1000 * (at // 8) + at % 8 for at in range(256)).parts
    falling = bytearray(low)
    falling[0] |= 7  # of 0, which 1 follows
    none = bytes(8 * len(words))
    for wrong in (EliasFano.over(256, width, falling, words, upper, lower), EliasFano.over(256, width, low, none, upper, lower)):
        assert not wrong.check()
        with pytest.raises((ValueError, bitm.WrongTables)):
            wrong.save(io.BytesIO())


def test_a_small_file_that_claims_many_numbers():
    many = as_bytes(block(3, 1 << 33, 0, [(1, [0]), (2, [0]), (3, [0]), (9, [])]))
    assert len(many) < 600
    for data in (many, (VERSION_2 / "claims_much").read_bytes()):
        with pytest.raises(ValueError, match="the number of numbers"):
            bitm.loads(data)
