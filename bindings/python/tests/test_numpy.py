"""Arrays of NumPy: whole numbers of every kind in, arrays of uint64 out, and what stands for a missing answer."""
import itertools
import sys
import threading
import time

import pytest

import bitm
from bitm import BitVector, EliasFano, Index, PerfectHash

numpy = pytest.importorskip("numpy")
KINDS = [f"{order}{sign}{size}" for order in "<>" for sign in "ui" for size in (1, 2, 4, 8)]


def values():
    return Index(BitVector.from_indices(range(0, 500, 3), 500), sample_log2=7), EliasFano(range(0, 5000, 7))


def calls():
    index, sequence = values()
    return [index.rank_list, index.rank0_list, index.select_list, index.select0_list, sequence.get_list, sequence.first_at_least_list,
            sequence.last_at_most_list, sequence.contains_list]


@pytest.mark.parametrize("kind", KINDS)
def test_each_kind_of_whole_numbers(kind):
    asked = numpy.array([0, 5, 7, 100, 5, 120], dtype=kind)
    for call in calls():
        wanted = call(asked.tolist())
        for array in (asked, numpy.repeat(asked, 2)[::2], asked[::-1][::-1], numpy.asfortranarray(asked), asked.copy().view(numpy.ndarray)):
            found = call(array)
            assert found.tolist() == wanted and found.dtype == (bool if isinstance(wanted[0], bool) else numpy.uint64)
        off = numpy.frombuffer(b"x" + asked.tobytes(), dtype="u1")[1:].view(kind)
        assert call(off).tolist() == wanted
        assert call(memoryview(asked.astype(kind[1:]))) == wanted
        empty = call(asked[:0])
        assert isinstance(empty, numpy.ndarray) and len(empty) == 0
        if kind[1] == "i":
            for position in (0, 3, 5):
                bad = asked.copy()
                bad[position] = -1
                with pytest.raises(OverflowError, match="-1"):
                    call(bad)
    assert list(BitVector.from_indices(asked).ones()) == [0, 5, 7, 100, 120]
    assert list(EliasFano(numpy.sort(asked))) == sorted(asked.tolist())
    vector = BitVector.from_bits("1" * 130)
    vector.set_list(asked[::2], 0)
    assert list(vector.zeros()) == [0, 5, 7]


def test_other_kinds_are_type_errors():
    for bad in (numpy.array([1.0]), numpy.array([True]), numpy.array(["1"]), numpy.ones((2, 2), "u8"), numpy.array(5), numpy.zeros(1, "u8,u8"),
                numpy.array([1], dtype="M8[s]"), numpy.array([1j])):
        for call in calls() + [EliasFano, BitVector.from_indices, BitVector(200).set_list]:
            with pytest.raises((TypeError, ValueError)):
                call(bad)
    for bad in (numpy.array([1, 2]), numpy.array([1.0]), numpy.ones((2, 2), "u8"), numpy.arange(8, dtype="u8")[::2], numpy.array([1], ">u8")):
        for call in (Index, BitVector.from_words, bitm.tables_of):
            with pytest.raises(TypeError):
                call(bad)
    with pytest.raises(TypeError, match="from_bits"):
        Index(numpy.array([True, False]))


def test_what_stands_for_a_missing_answer():
    index, sequence = values()
    most = 2**64 - 1
    for call, asked in ((index.select_list, [0, 167, 5, most]), (index.select0_list, [0, 333, 5, most]), (sequence.first_at_least_list, [0, 4999, 5, most]),
                        (EliasFano([5, 9]).last_at_most_list, [9, 4, most])):
        wanted, array = call(asked), numpy.array(asked, dtype="u8")
        assert None in wanted
        for missing in (None, "mask"):
            found = call(array, missing=missing)
            assert isinstance(found, numpy.ma.MaskedArray) and found.dtype == numpy.uint64 and found.tolist() == wanted
        for fill in (0, 7, most):
            filled = [fill if it is None else it for it in wanted]
            assert call(asked, missing=fill) == filled
            found = call(array, missing=fill)
            assert type(found) is numpy.ndarray and found.dtype == numpy.uint64 and found.tolist() == filled
        for given in (asked, array):
            with pytest.raises(IndexError):
                call(given, missing="error")
            for bad, error in (("none", ValueError), (-1, OverflowError), (1.5, TypeError)):
                with pytest.raises(error):
                    call(given, missing=bad)
        with pytest.raises(ValueError):
            call(asked, missing="mask")
        there = call(numpy.array([5]), missing="error")
        assert type(there) is numpy.ndarray and there.flags.writeable and there.flags.owndata is False
    assert type(index.rank_list(numpy.array([3]))) is numpy.ndarray


def test_values_as_arrays():
    index, sequence = values()
    for made in (numpy.asarray(index), index.to_numpy(), numpy.array(index)):
        assert made.dtype == bool and made.tolist() == list(index)
    numbers = EliasFano([1, 2**63 + 1, 2**64 - 1])
    for made in (numpy.asarray(numbers), numbers.to_numpy(), numpy.array(numbers)):
        assert made.dtype == numpy.uint64 and made.tolist() == list(numbers)
    assert numpy.asarray(sequence, dtype="i4").dtype == numpy.int32 and sequence.to_numpy("u2").dtype == numpy.uint16
    with pytest.raises(ValueError):
        sequence.__array__(copy=False)
    for length in (0, 1, 7, 8, 9, 63, 64, 65, 1000):
        flags = numpy.random.default_rng(length).integers(0, 2, length).astype(bool)
        for array in (flags, numpy.repeat(flags, 2)[::2], flags.astype("i8"), flags.astype("f4")):
            vector = BitVector.from_bits(array)
            assert len(vector) == length and vector.to_numpy().tolist() == flags.tolist() and vector.to_numpy().dtype == bool
        words = numpy.asarray(vector)
        assert words.dtype == numpy.uint64 and not words.flags.writeable and BitVector.from_words(words, length) == vector
        assert numpy.unpackbits(numpy.frombuffer(vector.tobytes(), "u1"), bitorder="little", count=length).tolist() == flags.tolist()
    for bad in (numpy.array(["0"]), numpy.ones((2, 2), bool), numpy.array(True)):
        with pytest.raises(TypeError):
            BitVector.from_bits(bad)
    vector = BitVector(10)
    vector[2:5] = numpy.array([True, False, True])
    vector[numpy.int64(9)] = numpy.bool_(True)
    assert str(vector) == "BitVector('0010100001')" and vector[numpy.uint8(2)] is True


def test_scalars_of_numpy():
    index, sequence = values()
    for kind in (numpy.int8, numpy.uint64, numpy.int32):
        assert index.rank(kind(9)) == 3 and index.select(kind(1)) == 3 and sequence[kind(1)] == 7 and kind(7) in sequence
    for seven in (numpy.float32(7), numpy.float64(7)):
        assert seven in sequence
        with pytest.raises(TypeError):
            index.rank(seven)
    with pytest.raises(OverflowError):
        index.rank(numpy.int8(-1))


def test_keys_in_arrays():
    for kind in KINDS:
        keys = numpy.arange(100).astype(kind)
        made = PerfectHash(keys)
        found = made.get_list(keys, missing="error")
        assert found.dtype == numpy.uint64 and sorted(found.tolist()) == list(range(100)) and [made[it] for it in range(100)] == found.tolist()
        assert [made[it] for it in keys] == found.tolist() and made.get_list(range(100)) == found.tolist()
    keys = numpy.array([-5, -1, 0, 2**62], dtype="i8")
    assert PerfectHash(keys).get_list(keys.tolist()) == PerfectHash(keys.tolist()).get_list(keys, missing=9).tolist()
    large = numpy.array([2**63, 2**64 - 1, 5], dtype="u8")
    assert PerfectHash(large).get_list(large.tolist()) == PerfectHash(large.tolist()).get_list(large, missing=9).tolist()
    texts = numpy.array(["a", "b"])
    made = PerfectHash(texts, bits=40)
    assert sorted(made.get_list(texts).tolist()) == [0, 1] and made.get_list(numpy.array(["a", "c"])).mask.tolist() == [False, True]
    with pytest.raises(TypeError):
        PerfectHash(numpy.array([1.5]))


def gives_way(call, tries, seconds=0):
    """Whether another thread runs while a call does, in one of some tries, or of more in so many seconds: on a machine with
    much else to do it may wake late. Threads are not exchanged by time meanwhile: the other one can go on only where the
    call gives the interpreter's lock back."""
    interval, woken, end = sys.getswitchinterval(), [], time.monotonic() + seconds
    sys.setswitchinterval(1000)
    try:
        for at in itertools.count():
            if at >= tries and time.monotonic() >= end:
                return False
            lock = threading.Lock()
            lock.acquire()
            thread = threading.Thread(target=lambda: lock.acquire() and woken.append(1))
            thread.start()
            time.sleep(0.001)
            lock.release()
            call()
            is_woken = bool(woken)
            thread.join()
            if is_woken:
                return True
            woken.clear()
    finally:
        sys.setswitchinterval(interval)


def test_the_interpreter_goes_on_in_each_list_and_build(tmp_path):
    index, sequence = Index(BitVector.from_indices(range(0, 1 << 20, 3))), EliasFano(range(0, 1 << 22, 9))
    asked = numpy.arange(1 << 18) % 1000
    text, keys, hashed = "01" * (1 << 20), numpy.arange(1 << 16), PerfectHash(numpy.arange(1 << 16))
    rising, words = numpy.sort(asked), bytes(1 << 23)
    large, hash_of_many = Index(words), PerfectHash(numpy.arange(1 << 22))  # a check of few bits ends before a thread wakes
    shards = bitm.Shards.build([index, index], tmp_path)
    assert shards.rank(1 << 20) and shards.rank(5)
    many = [lambda: index.rank_list(asked), lambda: index.rank0_list(asked), lambda: index.select_list(asked, missing=0),
            lambda: index.select0_list(asked, missing=0), lambda: sequence.get_list(asked), lambda: sequence.first_at_least_list(asked),
            lambda: sequence.last_at_most_list(asked, missing=0), lambda: sequence.contains_list(asked), lambda: hashed.get_list(keys),
            lambda: BitVector.from_indices(asked), lambda: BitVector.from_bits(text), lambda: BitVector.from_words(words),
            lambda: EliasFano(rising), lambda: Index(words), lambda: PerfectHash(keys), sequence.to_numpy,
            lambda: sequence.intersection(sequence), lambda: sequence.union(sequence), sequence.check, large.check,
            hash_of_many.check,
            lambda: shards.rank_list(asked), lambda: shards.select_list(asked, missing=0)]
    assert [at for at, call in enumerate(many) if not gives_way(call, 200, 60)] == []


def test_the_interpreter_waits_while_the_words_of_a_vector_are_written():
    vector, asked = BitVector(1 << 22), numpy.arange(1 << 18)
    assert not gives_way(lambda: vector.set_list(asked), 3) and not gives_way(vector.count, 3)
