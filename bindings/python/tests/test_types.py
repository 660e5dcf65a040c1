"""What each type owes Python: copies, pickles, sizes, one line of text, subclasses; and walks over sequences."""
import copy
import gc
import itertools
import pickle
import random
import sys
import weakref
from collections.abc import MutableSequence, Sequence
from decimal import Decimal
from fractions import Fraction

import pytest

import bitm
from bitm import BitVector, EliasFano, Index, PerfectHash, WrongTables


def values():
    return [BitVector.from_bits("0101" * 300), Index(b"\x35" * 1000, sample_log2=7), EliasFano(range(0, 5000, 3)), PerfectHash(range(500))]


KINDS = pytest.mark.parametrize("kind", range(4), ids=["BitVector", "Index", "EliasFano", "PerfectHash"])


def same(one, other):
    return type(one) is type(other) and len(one) == len(other) and (one.get_list(range(600)) == other.get_list(range(600)) if isinstance(one, PerfectHash) else one == other)


@KINDS
def test_copies_and_pickles(kind):
    value = values()[kind]
    for make in [copy.copy, copy.deepcopy, *(lambda it, p=p: pickle.loads(pickle.dumps(it, p)) for p in range(pickle.HIGHEST_PROTOCOL + 1))]:
        made = make(value)
        assert same(made, value) and (kind == 0 or made.check())
        if kind == 0:
            made.append(1)
            assert not same(made, value)
        else:
            other = values()[kind]
            made = make(other)
            other.close()
            assert same(made, value)
    kept = []
    data = pickle.dumps(value, 5, buffer_callback=kept.append)
    assert len(data) < 500 and kept and all(it.raw().readonly for it in kept)
    assert same(pickle.loads(data, buffers=kept), value)
    assert same(pickle.loads(data, buffers=[bytes(it) for it in kept]), value)
    with pytest.raises((ValueError, IndexError, pickle.UnpicklingError, TypeError)):
        pickle.loads(data, buffers=[b"1234567"] * len(kept))


@KINDS
def test_subclasses_keep_their_class_and_attributes(kind):
    base = type(values()[kind])
    sub = type("Sub", (base,), {"__module__": __name__})
    globals()["Sub"] = sub
    made = sub(*[[40], [b"\x35" * 9], [[1, 2, 3]], ["abc"]][kind])
    made.name = "it"
    for make in (copy.copy, copy.deepcopy, lambda it: pickle.loads(pickle.dumps(it, 5)), lambda it: pickle.loads(pickle.dumps(it, 2))):
        again = make(made)
        assert type(again) is sub and len(again) == len(made)
        assert again.name == "it"
    made.me = made
    gone = weakref.ref(made)
    del made, again
    gc.collect()
    assert gone() is None


@KINDS
def test_small_duties(kind):
    value = values()[kind]
    assert weakref.ref(value)() is value and "\n" not in repr(value) and len(repr(value)) < 120
    small = type(value)(*[[0], [b""], [[]], [[]]][kind])
    assert sys.getsizeof(value) > sys.getsizeof(small) > 40
    if kind < 3:
        assert isinstance(value, Sequence)
    assert isinstance(value, MutableSequence) == (kind == 0)
    assert type(value).__module__ == "bitm" and type(value).__doc__
    if kind:
        with value as it:
            assert it is value and not it.closed
        assert it.closed
        with pytest.raises(ValueError):
            it.__enter__()
        with pytest.raises(TypeError):
            with type(value)():
                pass
    with pytest.raises(TypeError):
        value < value
    assert (value == 5) is False and (value != "x") is True


def test_what_is_compared_by_its_content_has_no_hash_and_all_else_is_hashed_as_an_object():
    others = (bitm.SparseBits([1]), bitm.Dictionary([1]), bitm.Strings(["a"]), bitm.Tree([0]), bitm.Trie([0], b""), bitm.WaveletMatrix([1]), bitm.TextIndex(b"a"))
    for value in (*values(), *others):
        if type(value).__eq__ is object.__eq__:
            other = copy.copy(value)
            assert value != other and {value: 5, other: 6}[value] == 5
        else:
            assert isinstance(value, (BitVector, Index, EliasFano)) and value == copy.copy(value)
            with pytest.raises(TypeError, match="unhashable"):
                hash(value)


def test_memory_is_given_back_when_the_last_reader_is_gone():
    words = bytearray(800)
    index = Index(words)
    other, view = copy.copy(index), index.words
    for reader in (index.close, other.close, view.release):
        with pytest.raises(BufferError):
            words.append(0)
        reader()
    words.append(0)
    vector = BitVector(100)
    with Index(vector):
        with pytest.raises(BufferError):
            vector.append(1)
        vector[5] = 1  # the length alone is locked
    vector.append(1)
    for bad in ({"length": 10**9}, {"sample_log2": -1}, {"length": "x"}):
        with pytest.raises((ValueError, OverflowError, TypeError)):
            Index(vector, **bad)
        vector.append(1)


def test_walks_over_sequences():
    random.seed(8)
    for count in (0, 1, 255, 256, 257, 3000):
        numbers = sorted(random.randrange(5 * count) for _ in range(count))
        sequence = EliasFano(numbers)
        assert list(sequence) == numbers and list(reversed(sequence)) == numbers[::-1]
        assert list(sequence.items(5, 300)) == numbers[5:300] and list(sequence.items(5, 300, reverse=True)) == numbers[5:300][::-1]
        for value in (0, 3, count, 4 * count, 2**64 - 1):
            assert list(sequence.from_value(value)) == [it for it in numbers if it >= value]
        walk, left = iter(sequence), numbers
        for value in sorted(random.randrange(6 * count + 1) for _ in range(40)):
            left = [it for it in left if it >= value]
            assert walk.next_geq(value) == (left[0] if left else None)
            left = left[1:]
        assert list(walk) == left
        walk, left = sequence.from_value(4 * count, reverse=True), [it for it in numbers if it <= 4 * count][::-1]
        for value in sorted((random.randrange(5 * count + 1) for _ in range(40)), reverse=True):
            left = [it for it in left if it <= value]
            assert walk.next_leq(value) == (left[0] if left else None)
            left = left[1:]
        assert list(walk) == left
        assert list(reversed(sequence).seek(2 * count)) == [it for it in numbers if it <= 2 * count][::-1]
        for value in (0, 3, count, 2**64 - 1):
            assert list(sequence.from_value(value, reverse=True)) == [it for it in numbers if it <= value][::-1]
            assert list(sequence.items(2, 300).seek(value)) == [it for it in numbers[2:300] if it >= value]
            assert list(sequence.items(2, 300, reverse=True).seek(value)) == [it for it in numbers[2:300] if it <= value][::-1]


def test_walks_that_are_refused():
    sequence = EliasFano([1, 2])
    for walk, other in ((reversed(sequence), "next_geq"), (iter(sequence), "next_leq")):
        with pytest.raises(ValueError):
            getattr(walk, other)(3)
        for bad, error in ((-1, OverflowError), (2**64, OverflowError), (1.5, TypeError)):
            with pytest.raises(error):
                walk.seek(bad)
    most = EliasFano([0, 2**64 - 1, 2**64 - 1])
    assert most.from_value(0, reverse=True).next_leq(2**64 - 1) == 0 and list(reversed(most).seek(2**64 - 1)) == [2**64 - 1, 2**64 - 1, 0]


def test_intersections_and_unions():
    random.seed(9)
    for count in [1, 2, 3, 4, 5, 6, 7, 8, 9] * 7:
        lists = [sorted(random.randrange(400) for _ in range(random.choice([0, 1, 50, 3000]))) for _ in range(count)]
        first, *others = map(EliasFano, lists)
        for made, call in ((first.intersection(*others), set.intersection), (first.union(*others), set.union)):
            assert type(made) is EliasFano and list(made) == sorted(call(*map(set, lists)))
    most = EliasFano([5, 2**64 - 1])
    assert list(EliasFano([2**64 - 1]).intersection(most)) == [2**64 - 1] and list(EliasFano([2**64 - 1, 2**64 - 1]).union(most)) == [5, 2**64 - 1]
    assert list(most.union(*[most] * 100)) == [5, 2**64 - 1] == list(most.intersection(*[most] * 100))
    closed = EliasFano([1])
    closed.close()
    for call in (EliasFano.intersection, EliasFano.union):
        with pytest.raises(TypeError):
            call(first, [1])
        for one, other in ((first, closed), (closed, first)):
            with pytest.raises(ValueError):
                call(one, other)


def test_sequences_of_wrong_parts_have_no_union_and_no_intersection():
    width, low, words, upper, lower = EliasFano(1000 * (at // 8) + at % 8 for at in range(256)).parts
    falling = bytearray(low)
    falling[0] |= 7  # of 0, which 1 follows
    wrong = EliasFano.over(256, width, falling, words, upper, lower)
    assert width >= 3 and not wrong.check()
    for call in (wrong.union, wrong.intersection):
        with pytest.raises(WrongTables):
            call(wrong)


def test_numbers_of_other_types_in_a_sequence():
    sequence = EliasFano([3, 5, 5, 2**64 - 1])
    for five in (5, 5.0, Fraction(5), Decimal(5), True + 4, 5 + 0j):
        assert (five in sequence) is not isinstance(five, complex), five
    for other in (4, 5.5, -1, 2**64, "5", b"5", None, [5], float("nan"), float("inf"), Fraction(11, 2)):
        assert other not in sequence
        assert sequence.count(other) == 0
        with pytest.raises(ValueError):
            sequence.index(other)
    assert (sequence.count(5), sequence.index(5), sequence.count(2**64 - 1)) == (2, 1, 1)
    assert sequence.contains_list([5, 4, 2**64 - 1]) == [True, False, True]


def test_an_index_from_a_position_backwards_and_in_a_range():
    index = Index(BitVector.from_indices([1, 3, 4, 6], 8))
    assert (list(index.ones(3)), list(index.ones(2, 5)), list(index.ones(reverse=True))) == ([3, 4, 6], [3, 4], [6, 4, 3, 1])
    assert (list(index.zeros()), list(index.zeros(3, reverse=True)), list(index.zeros(9, 4))) == ([0, 2, 5, 7], [7, 5], [])
    vector = BitVector.from_indices([1, 3, 4, 6], 8)
    for position in vector.ones():
        vector[position] = 0
    assert not vector.any()
    walk = BitVector(5000).zeros()
    assert sum(1 for _ in itertools.islice(walk, 100)) == 100 and len(list(walk)) == 4900


def test_a_vector_is_a_mutable_sequence_and_an_index_a_sequence():
    bits = [1, 0, 0, 1, 1]
    vector = BitVector.from_bits(bits)
    index = Index(vector.copy())
    for bit in (0, 1):
        for start, stop in ((0, 5), (1, 5), (2, 5), (1, 2)):
            for it in (vector, index):
                try:
                    assert it.index(bit, start, stop) == bits.index(bit, start, stop)
                except ValueError:
                    assert bit not in bits[start:stop]
    for call in (vector.index, index.index, vector.remove, vector.count, index.count):
        with pytest.raises(ValueError):
            call(2)
    for change in (lambda it: it.remove(0), lambda it: it.reverse(), lambda it: it.remove(1), lambda it: it.extend([1, 1]), lambda it: it.clear()):
        change(bits)
        change(vector)
        assert list(vector) == bits
    with pytest.raises(ValueError):
        vector.remove(1)
    for name in MutableSequence.__abstractmethods__ | {"append", "clear", "extend", "remove", "reverse", "pop", "__iadd__", "__iter__", "index", "count"}:
        assert hasattr(vector, name), name
    assert list(reversed(index)) == list(index)[::-1]


def test_the_index_of_a_number_in_a_range_is_that_of_a_list():
    numbers = [1, 3, 3, 3, 7]
    for value in (EliasFano(numbers), bitm.WaveletMatrix(numbers)):
        for number, start, stop in itertools.product((1, 3, 7, 3.0, 4, "x"), range(7), (*range(7), 2**64 - 1)):
            try:
                wanted = numbers.index(number, start, min(stop, 9))
            except ValueError:
                with pytest.raises(ValueError, match="is not in the"):
                    value.index(number, start, stop)
            else:
                assert value.index(number, start, stop=stop) == wanted
        assert value.index(3) == value.index(3, 1) == value.index(3, start=0, stop=None) == 1
        for bad in (-1, 2**64):
            with pytest.raises(OverflowError):
                value.index(3, bad)
        with pytest.raises(TypeError):
            value.index()


def test_fingerprints_let_as_many_others_pass_as_their_bits_say():
    for bits in (0, 1, 4, 8):
        made = PerfectHash([f"key {at}" for at in range(3000)], bits=bits)
        passed = sum(it is not None for it in made.get_list([f"other {at}" for at in range(20000)]))
        assert 0.7 < passed * 2**bits / 20000 < 1.3 or (bits == 0 and passed > 10000)


def test_bits_at_many_positions():
    bits = [0] * 100
    vector = BitVector(100)
    for positions, bit in (([3, 99, 3, 0], 1), (range(2, 50, 5), True), ([3, 4], 0), (b"\x07\x09", 1), ([], 0)):
        vector.set_list(positions, bit)
        for at in positions:
            bits[at] = bit
        assert list(vector) == bits
    for bad, error in (([1, 100], IndexError), ([1, -1], OverflowError), ([1, 2**64], OverflowError), ([1, 1.5], TypeError), ([1, "2"], TypeError), (vector, TypeError), (5, TypeError)):
        with pytest.raises(error):
            vector.set_list(bad)
        assert list(vector) == bits  # none is set
    for bad in (2, "1", None):
        with pytest.raises(ValueError):
            vector.set_list([1], bad)
    many = list(range(5000)) + [5000]
    large = BitVector(5000)
    with pytest.raises(IndexError, match="5000 of 5000"):
        large.set_list(many)
    assert not large.any()
    large.set_list(many[:-1])
    assert large.all()


def test_positions_that_lie_in_the_words_themselves():
    for kind in (lambda it: memoryview(it), lambda it: it.words, lambda it: memoryview(it).cast("B")):
        vector = BitVector.from_words(b"".join(it.to_bytes(8, "little") for it in [*range(64, 3000)]))
        before = list(kind(vector))
        wanted = set(vector.ones()) | set(before)
        vector.set_list(kind(vector))
        assert set(vector.ones()) == wanted


def test_a_vector_that_its_own_positions_cut():
    vector = BitVector(100)

    class Cut:
        def __index__(self):
            vector.clear()
            return 3

    with pytest.raises(IndexError):
        vector.set_list([Cut()])


def test_seeds(monkeypatch):
    keys = [f"key {at}" for at in range(1000)]
    by = {seed: PerfectHash(keys, seed=seed, bits=3) for seed in (None, 0, 1, 2**64 - 1)}
    assert {seed: it.seed for seed, it in by.items()} == {None: 0, 0: 0, 1: 1, 2**64 - 1: 2**64 - 1}
    answers = {seed: it.get_list(keys) for seed, it in by.items()}
    assert answers[None] == answers[0] and all(answers[0] != answers[it] for it in (1, 2**64 - 1))
    assert (by[1].bits, by[1].hash, PerfectHash([], hash="blake2b").hash) == (3, "siphash", "blake2b")
    for again in (pickle.loads(pickle.dumps(by[1], 5)), copy.copy(by[1])):
        assert (again.seed, again.bits, again.hash, again.get_list(keys)) == (1, 3, "siphash", answers[1])
    for seed, error in ((-1, OverflowError), (2**64, OverflowError), (0.5, TypeError)):
        with pytest.raises(error):
            PerfectHash(keys, seed=seed)
    for seed in (None, 0):
        for equal in (["a", "a"], iter(["a", "a"])):
            with pytest.raises(ValueError, match="equal"):
                PerfectHash(equal, seed=seed)
    # Keys whose hashes are equal by the seed 0, which nobody can name for SipHash.
    right = bitm._more.blake
    monkeypatch.setattr("bitm._more.blake", lambda key, seed: right(key, seed) if seed else (5, 5))
    made = PerfectHash(keys, hash="blake2b")
    assert made.seed == 1 and sorted(map(made.get, keys)) == list(range(1000))
    for refused in (lambda: PerfectHash(keys, hash="blake2b", seed=0), lambda: PerfectHash(iter(keys), hash="blake2b")):
        with pytest.raises(ValueError, match="another seed"):
            refused()
    made.close()
    for name in ("seed", "bits", "hash"):
        with pytest.raises(ValueError):
            getattr(made, name)
