"""What is refused, and with which error: the same for single and list forms; values that are closed; wrong tables."""
import array
import io
import random

import pytest

import bitm
from bitm import BitVector, EliasFano, Index, PerfectHash, WrongTables


class Number:
    def __init__(self, value):
        self.value = value

    def __index__(self):
        return self.value


def values():
    return Index(b"\x35" * 16, sample_log2=7), EliasFano([2, 3, 5, 7]), BitVector.from_words(b"\x35" * 16)


def single():
    index, sequence, vector = values()
    return [index.rank, index.rank0, index.select, index.select0, index.next_one, index.next_zero, index.previous_one,
            index.previous_zero, sequence.first_at_least, sequence.last_at_most, sequence.rank, sequence.from_value,
            vector.next_one, vector.next_zero, vector.previous_one, vector.previous_zero, vector.ones, vector.zeros,
            index.ones, index.zeros, sequence.items, BitVector]


def lists():
    index, sequence, _ = values()
    return [index.rank_list, index.rank0_list, index.select_list, index.select0_list, sequence.get_list,
            sequence.first_at_least_list, sequence.last_at_most_list, EliasFano, BitVector.from_indices, values()[2].set_list]


@pytest.mark.parametrize("bad, error", [(-1, OverflowError), (2**64, OverflowError), (-(2**70), OverflowError), (1.0, TypeError),
                                        (1.5, TypeError), ("1", TypeError), (b"1", TypeError), ([1], TypeError), (1j, TypeError)])
def test_numbers(bad, error):
    for call in single() + [lambda it, f=f: f([it]) for f in lists()]:
        for it in (bad, Number(bad)) if isinstance(bad, int) else (bad,):
            with pytest.raises(error):
                call(it)
    for call in single() + [lambda it, f=f: f([it]) for f in lists()]:
        for good in (3, Number(3), True):
            call(good)


def test_numbers_that_are_too_long_to_be_printed():
    long = 10**5000
    _, sequence, vector = values()
    for bad in (long, -long, Number(long)):
        for call in single() + [lambda it, f=f: f([it]) for f in lists()]:
            with pytest.raises(OverflowError, match="below 2.*64, not a number of 16610 bits"):
                call(bad)
    for call in (vector.append, vector.index, lambda it: vector.fill(it), lambda it: vector.set_list([1], it)):
        with pytest.raises(ValueError, match="a bit is true or false, not a number of 16610 bits"):
            call(long)
    for call in (sequence.index, bitm.WaveletMatrix([1]).index):
        with pytest.raises(ValueError, match="a number of 16610 bits is not in the"):
            call(long)
    for role in (long, -1):
        with pytest.raises(OverflowError, match="a role is 0 to"):
            bitm.extend(bitm.Tree([0]).block, {role: b""})
    assert long not in sequence and sequence.count(long) == 0 and bitm.PerfectHash(["a"], bits=64).get(long) is None


def test_buffers():
    bad = [array.array("d", [1.0]), array.array("f", [1.0]), memoryview(bytes(8)).cast("?"), memoryview(bytes(16)).cast("Q", [1, 2]),
           memoryview(bytes(16)).cast("B", [4, 4]), "01"]
    for buffer in bad:
        for call in lists() + [Index, BitVector.from_words, bitm.tables_of, bitm.loads]:
            if buffer == "01" and call in (Index,):
                continue
            with pytest.raises((TypeError, ValueError)):
                call(buffer)
    for call in (Index, BitVector.from_words, bitm.tables_of):
        for buffer in [array.array(code, [1, 2]) for code in "hHiIqld"] + [memoryview(array.array("Q", range(8)))[::2], [1], 5, None]:
            with pytest.raises(TypeError):
                call(buffer)
        call(memoryview(bytearray(17))[1:].cast("Q"))  # not aligned: copied
    with pytest.raises(TypeError):
        memoryview(BitVector(8))[0] = 1


def test_names():
    index, sequence, vector = values()
    bad = [lambda: vector.count(1, 0, 1, 2), lambda: vector.count(bit=1, other=2), lambda: vector.count(1, bit=1), lambda: vector.insert(1),
           lambda: index.ones(0, 1, True), lambda: Index(), lambda: Index(b"", 0, 7), lambda: Index(b"", bits=b""), lambda: EliasFano([], 1),
           lambda: index.rank(), lambda: index.rank(1, 2), lambda: index.rank_list([1], missing=3), lambda: index.select_list(), lambda: BitVector(None)]
    for call in bad:
        with pytest.raises(TypeError):
            call()
    for call in (lambda: index.select_list([1], missing="none"), lambda: index.select_list([1], missing="mask"), lambda: PerfectHash([1], bits=65),
                 lambda: PerfectHash([1, 1]), lambda: PerfectHash([True, 1]), lambda: Index(b"abc", 25), lambda: EliasFano([3, 2])):
        with pytest.raises(ValueError):
            call()
    assert vector.count(stop=8, bit=0) == 4 and list(index.ones(start=1, stop=5)) == [2, 4] and index.select_list(queries=[0]) == [0]


def test_places():
    index, sequence, vector = values()
    bad = [lambda: index.rank(129), lambda: index[128], lambda: index[-129], lambda: index[2**70], lambda: vector[128], lambda: vector[-(2**70)],
           lambda: index.rank_list([128, 129]), lambda: index.rank0_list(array.array("B", [129])), lambda: sequence[4], lambda: sequence[-5],
           lambda: sequence.get_list([4]), lambda: sequence.get_list([2**64 - 1]), lambda: index.select_list([64], missing="error"),
           lambda: BitVector.from_indices([5], 5), lambda: vector.get_bits(100, 64), lambda: vector.set_bits(128, 1, 1), lambda: vector.count(1, 0, 129),
           lambda: BitVector().pop(), lambda: vector.__setitem__(128, 1), lambda: vector.__delitem__(-129)]
    for call in bad:
        with pytest.raises(IndexError):
            call()
    for call in (lambda: index["a"], lambda: index[1.0], lambda: sequence[None], lambda: vector[(1, 2)], lambda: vector.__setitem__("a", 1)):
        with pytest.raises(TypeError):
            call()
    for bit in (2, -1, "1", None, [1]):
        with pytest.raises(ValueError):
            vector[0] = bit
    with pytest.raises(KeyError):
        PerfectHash(["a"], bits=64)["b"]
    for key in (1.5, None, ["a"]):
        with pytest.raises(TypeError):
            PerfectHash(["a"])[key]
        assert key not in PerfectHash(["a"])
    with pytest.raises(ValueError):
        EliasFano([1, 2]).index(3)
    assert EliasFano([1, 2, 2]).index(2) == 1 and list(sequence.items(1, 3)) == [3, 5] and list(sequence.items(1, reverse=True)) == [7, 5, 3]
    with pytest.raises(OverflowError):
        vector.set_bits(0, 3, 8)
    with pytest.raises(TypeError):
        list(PerfectHash(["a"]))


def test_closed():
    index, sequence, _ = values()
    numbers = PerfectHash([1, 2])
    walks = [index.ones(), iter(sequence), sequence.items()]
    views = [index.words, sequence.parts[2]]
    other = Index(b"\x35" * 16)
    for it in (index, sequence, numbers):
        assert not it.closed
        it.close()
        it.close()
        assert it.closed and repr(it) == f"{type(it).__name__}(closed)"
    assert views[0][0] == int.from_bytes(b"\x35" * 8, "little") and len(views[1]) > 0  # they hold the memory
    calls = [lambda it=it, f=f: f(it) for it in (index, sequence, numbers)
             for f in (len, lambda it: it.check(), lambda it: it.save(io.BytesIO()), lambda it: it.__enter__(), lambda it: it.__reduce_ex__(5),
                       lambda it: it.__copy__(), lambda it: 1 in it, lambda it: it[0])]
    calls += [lambda f=f: f(1) for f in (index.rank, index.rank0, index.select, index.select0, index.next_one, index.next_zero, index.previous_one,
                                         index.previous_zero, sequence.first_at_least, sequence.last_at_most, sequence.rank, sequence.index,
                                         sequence.count, sequence.from_value, numbers.get, lambda _: index.count(), lambda _: list(index),
                                         lambda _: index[1:3], lambda _: index == other, lambda _: other == index, lambda _: index.words,
                                         lambda _: index.ones(), lambda _: list(sequence), lambda _: sequence[1:3], lambda _: sequence.parts,
                                         lambda _: sequence == EliasFano([2]), lambda _: sequence.to_numpy(), lambda _: numbers.get_list([1]))]
    calls += [lambda f=f: f([1]) for f in (index.rank_list, index.rank0_list, index.select_list, index.select0_list, sequence.get_list,
                                           sequence.first_at_least_list, sequence.last_at_most_list)]
    calls += [lambda it=it: next(it) for it in walks]
    for number, call in enumerate(calls):
        with pytest.raises(ValueError):
            call()
            print(number)


def test_made_anew():
    made = Index.__new__(Index)
    assert made.closed
    with pytest.raises(ValueError):
        made.rank(0)
    made.__init__(b"\xff")
    assert made.rank(8) == 8
    made.__init__(b"\x01")
    assert made.rank(8) == 1
    with pytest.raises(TypeError):
        made.__init__(5)
    assert made.rank(8) == 1


def test_wrong_tables():
    random.seed(5)
    words = array.array("Q", (random.getrandbits(64) for _ in range(300)))
    upper, lower, _ = bitm.tables_of(words)
    refused = 0
    for at in range(len(lower)):
        wrong = lower[:at] + array.array("Q", [random.getrandbits(64)]) + lower[at + 1 :]
        index = Index.over(words, upper, wrong)
        assert not index.check()
        for rank in range(0, 9000, 37):
            for call in (index.select, index.select0, lambda it: index.select_list([it])[0]):
                try:
                    position = call(rank)
                    assert position is None or index[position] == (call != index.select0)
                except WrongTables:
                    refused += 1
            try:
                assert index.rank(2 * rank) <= 2 * rank and index.rank_list([2 * rank])[0] <= 2 * rank
            except WrongTables:
                refused += 1
    assert refused
    index = Index.over(array.array("Q", [0]), array.array("Q", [0]), array.array("Q", [99]))
    for call in (lambda: index.rank(64), lambda: index.rank0(64), index.count, lambda: index.rank_list([64]), lambda: index.next_zero(3)):
        with pytest.raises(WrongTables):
            call()
    assert repr(index) == "Index(bits=64, wrong tables)"
    for tables in ((upper, lower[:0]), (upper[:0], lower), (lower + lower, lower)):
        with pytest.raises(ValueError):
            Index.over(words, *tables)


def test_wrong_parts_of_a_sequence():
    width, low, bits, upper, lower = EliasFano(range(0, 100000, 100)).parts
    sequence = EliasFano.over(1000, width, low, memoryview(bytes(8 * len(bits))).cast("Q"), upper, lower)
    assert not sequence.check()
    for call in (lambda: sequence[999], lambda: list(sequence), lambda: sequence.get_list([999]), lambda: sequence[0:5], lambda: sequence.to_numpy()):
        with pytest.raises(WrongTables):
            call()
    for past_the_end in (lambda: sequence[1000], lambda: sequence.get_list([1000, 999])):
        with pytest.raises(IndexError):
            past_the_end()
    for parts in ((100000, width, low), (1000, 64, low), (1000, width, low[:1])):
        with pytest.raises(ValueError):
            EliasFano.over(*parts, bits, upper, lower)
