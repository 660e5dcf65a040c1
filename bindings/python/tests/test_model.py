"""Each type beside plain lists, by Hypothesis; with numbers of every kind that a buffer may hold."""
import array
import bisect
import copy
import io
import os
import pickle
import tempfile

os.environ.setdefault("HYPOTHESIS_STORAGE_DIRECTORY", os.path.join(tempfile.gettempdir(), "bitm-hypothesis"))  # not here

import pytest
from hypothesis import HealthCheck, given, settings, strategies as st
from hypothesis.stateful import RuleBasedStateMachine, initialize, invariant, rule

import bitm

numpy = pytest.importorskip("numpy")
EXAMPLES = int(os.environ.get("BITM_EXAMPLES", "60"))
settings.register_profile("all", database=None, deadline=None, suppress_health_check=list(HealthCheck), max_examples=EXAMPLES)
settings.load_profile("all")

BITS = st.one_of(
    st.lists(st.integers(0, 1), max_size=300),
    st.tuples(st.integers(0, 4200), st.sets(st.integers(0, 4199), max_size=40)).map(lambda it: [int(i in it[1]) for i in range(it[0])]),
)


class Vectors(RuleBasedStateMachine):
    """A BitVector and a list of bools, by the same changes."""

    @initialize(bits=BITS)
    def begin(self, bits):
        self.list = [bool(it) for it in bits]
        self.vector = bitm.BitVector.from_bits(bits)

    @rule(bit=st.booleans())
    def append(self, bit):
        self.list.append(bit)
        self.vector.append(bit)

    @rule(bits=BITS)
    def extend(self, bits):
        self.list += map(bool, bits)
        self.vector += bits

    @rule(at=st.integers(-400, 400), bit=st.booleans())
    def insert(self, at, bit):
        self.list.insert(at, bit)
        self.vector.insert(at, bit)

    @rule(at=st.integers(-400, 400))
    def pop(self, at):
        answers = []
        for it in (self.list, self.vector):
            try:
                answers.append(it.pop(at))
            except IndexError:
                answers.append("none")
        assert answers[0] == answers[1]

    @rule(cut=st.slices(200), bits=BITS, kind=st.sampled_from(["vector", "list", "self", "delete"]))
    def assign(self, cut, bits, kind):
        value = {"vector": bitm.BitVector.from_bits(bits), "list": bits, "self": self.vector}.get(kind)
        values = list(self.list) if kind == "self" else [bool(it) for it in bits]
        answers = []
        for it, new in ((self.list, values), (self.vector, value)):
            try:
                if kind == "delete":
                    del it[cut]
                else:
                    it[cut] = new
                answers.append(None)
            except ValueError:
                answers.append("refused")
        assert answers[0] == answers[1]

    @rule(cut=st.slices(200), bit=st.booleans())
    def assign_bit(self, cut, bit):
        self.vector[cut] = bit
        self.list[cut] = [bit] * len(self.list[cut])

    @rule(cut=st.slices(200))
    def slice(self, cut):
        assert list(self.vector[cut]) == self.list[cut]

    @rule(start=st.integers(0, 300), stop=st.integers(0, 300), bit=st.sampled_from([0, 1, 2]))
    def range(self, start, stop, bit):
        if not start <= stop <= len(self.list):
            with pytest.raises(IndexError):
                self.vector.fill(bit % 2, start, stop)
            return
        assert self.vector.count(1, start, stop) == sum(self.list[start:stop])
        assert self.vector.find(1, start, stop) == (self.list.index(True, start, stop) if True in self.list[start:stop] else -1)
        if bit == 2:
            self.vector.flip(start, stop)
            self.list[start:stop] = [not it for it in self.list[start:stop]]
        else:
            self.vector.fill(bit, start, stop)
            self.list[start:stop] = [bool(bit)] * (stop - start)

    @rule(begin=st.integers(0, 300), length=st.integers(0, 64), data=st.data())
    def digits(self, begin, length, data):
        if begin + length > len(self.list) or begin >= max(1, len(self.list)):
            return
        value = data.draw(st.integers(0, 2**length - 1))
        assert self.vector.get_bits(begin, length) == sum(bit << i for i, bit in enumerate(self.list[begin : begin + length]))
        self.vector.set_bits(begin, length, value)
        self.list[begin : begin + length] = [bool(value >> i & 1) for i in range(length)]

    @rule(by=st.integers(0, 300))
    def shift(self, by):
        size = len(self.list)
        assert list(self.vector << by) == (self.list[by:] + [False] * by)[:size] if by < size else not (self.vector << by).any()
        assert list(self.vector >> by) == ([False] * by + self.list)[:size]

    @rule(other=BITS)
    def combine(self, other):
        size = len(self.list)
        other = [bool(it) for it in (other * (size // max(1, len(other)) + 1))[:size]] or [False] * size
        with_ = bitm.BitVector.from_bits(other)
        assert list(self.vector & with_) == [a and b for a, b in zip(self.list, other)]
        assert list(self.vector | with_) == [a or b for a, b in zip(self.list, other)]
        assert list(self.vector ^ with_) == [a != b for a, b in zip(self.list, other)]
        assert list(self.vector.and_not(with_)) == [a and not b for a, b in zip(self.list, other)]
        assert list(~self.vector) == [not a for a in self.list]
        assert list(self.vector + with_) == self.list + other

    @rule(borrower=st.sampled_from([bitm.Index, memoryview]))
    def lend(self, borrower):
        held = borrower(self.vector)
        with pytest.raises(BufferError):
            self.vector.append(1)
        held.close() if borrower is bitm.Index else held.release()

    @invariant()
    def same(self):
        assert list(self.vector) == self.list
        assert self.vector == bitm.BitVector.from_bits(self.list)
        assert (len(self.vector), self.vector.count(), self.vector.any(), self.vector.all()) == (
            len(self.list), sum(self.list), any(self.list), all(self.list))
        assert list(self.vector.ones()) == [i for i, bit in enumerate(self.list) if bit]
        assert list(self.vector.zeros(reverse=True)) == [i for i, bit in enumerate(self.list) if not bit][::-1]
        assert list(reversed(self.vector)) == self.list[::-1]
        for made in (copy.copy(self.vector), copy.deepcopy(self.vector), pickle.loads(pickle.dumps(self.vector, 5))):
            assert made == self.vector


TestVectors = Vectors.TestCase


@given(BITS, st.sampled_from([None, 7, 12]), st.data())
def test_index(bits, log2, data):
    cut = data.draw(st.integers(0, len(bits)))
    index = bitm.Index(bitm.BitVector.from_bits(bits), cut, sample_log2=log2)
    bits = bits[:cut]
    positions = [[i for i, bit in enumerate(bits) if bit == kind] for kind in (0, 1)]
    asked = list(range(len(bits) + 1))
    ranks = [[bisect.bisect_left(positions[kind], i) for i in asked] for kind in (0, 1)]
    assert ([index.rank(i) for i in asked], [index.rank0(i) for i in asked]) == (ranks[1], ranks[0])
    assert (index.rank_list(asked), index.rank0_list(asked)) == (ranks[1], ranks[0])
    for kind, one, many in ((1, index.select, index.select_list), (0, index.select0, index.select0_list)):
        wanted = [positions[kind][i] if i < len(positions[kind]) else None for i in asked]
        assert [one(i) for i in asked] == wanted == many(asked)
        assert many(asked, missing=7) == [7 if it is None else it for it in wanted]
    for kind, following, before in ((1, index.next_one, index.previous_one), (0, index.next_zero, index.previous_zero)):
        for i in asked[:80]:
            assert following(i) == next((at for at in positions[kind] if at >= i), None)
            assert before(i) == next((at for at in reversed(positions[kind]) if at <= i), None)
    start, stop = data.draw(st.integers(0, len(bits) + 2)), data.draw(st.integers(0, len(bits) + 2))
    for kind, walk in ((1, index.ones), (0, index.zeros)):
        wanted = [at for at in positions[kind] if start <= at < stop]
        assert (list(walk(start, stop)), list(walk(start, stop, reverse=True))) == (wanted, wanted[::-1])
    assert index.check() and list(index) == [bool(it) for it in bits] and list(index[::-2]) == [bool(it) for it in bits[::-2]]
    again = pickle.loads(pickle.dumps(index, 5))
    assert again == index and again.check() and again.select_list(asked) == index.select_list(asked)
    file = io.BytesIO()
    index.save(file)
    again = bitm.loads(file.getvalue())
    assert again == index and again.check() and again.select0_list(asked) == index.select0_list(asked)


KINDS = ["u1", "i1", "u2", "i2", "u4", "i4", "u8", "i8", ">u2", ">i2", ">u4", ">i4", ">u8", ">i8"]


@pytest.mark.parametrize("kind", KINDS)
@given(st.integers(-3, 3).filter(bool), st.lists(st.integers(-3, 127), max_size=40), st.integers(0, 7))
@settings(max_examples=25)
def test_buffers_of_every_kind(kind, step, values, offset):
    index = bitm.Index(b"\x55" * 16)
    kind = numpy.dtype(kind)
    raw = bytearray(offset + kind.itemsize * abs(step) * len(values) + 8)
    whole = numpy.frombuffer(raw, kind, count=abs(step) * len(values), offset=offset)
    view = whole[::step]
    if kind.kind == "u":
        values = [max(it, 0) for it in values]
    view[:] = values
    if min(values, default=0) < 0:
        for call in (index.rank_list, index.select_list, bitm.EliasFano, bitm.BitVector.from_indices):
            with pytest.raises(OverflowError):
                call(view)
        return
    found = index.rank_list(view)
    assert found.dtype == numpy.uint64 and found.tolist() == [index.rank(it) for it in values]
    positions = index.select_list(view)
    assert positions.tolist() == [index.select(it) for it in values]
    assert index.select_list(view, missing=2**64 - 1).tolist() == [2**64 - 1 if (at := index.select(it)) is None else at for it in values]
    if any(index.select(it) is None for it in values):
        with pytest.raises(IndexError):
            index.select_list(view, missing="error")
    assert list(bitm.BitVector.from_indices(view).ones()) == sorted(set(values))
    if values == sorted(values):
        assert list(bitm.EliasFano(view)) == values


def seeks(sequence, numbers, value, steps):
    """A walk that has gone some steps goes on from a value."""
    walk = iter(sequence)
    for _ in range(steps):
        next(walk, None)
    left = list(walk)
    walk = iter(sequence)
    for _ in range(len(numbers) - len(left)):
        next(walk)
    assert list(walk.seek(value)) == [it for it in left if it >= value]


@given(st.lists(st.integers(0, 2**64 - 1) | st.integers(0, 50), max_size=700).map(sorted), st.data())
def test_sequence(numbers, data):
    numbers += data.draw(st.sampled_from([[], [2**64 - 1], [2**64 - 2, 2**64 - 1]])) if numbers[-1:] != [2**64 - 1] else []
    sequence = bitm.EliasFano(numbers)
    assert (list(sequence), len(sequence), sequence.check()) == (numbers, len(numbers), True)
    assert list(reversed(sequence)) == numbers[::-1] and numpy.asarray(sequence).tolist() == numbers
    assert numpy.asarray(sequence).dtype == numpy.uint64
    for value in [*data.draw(st.lists(st.integers(0, 2**64 - 1), max_size=5)), *numbers[:9], 0, 25, 2**64 - 1]:
        at, end = bisect.bisect_left(numbers, value), bisect.bisect_right(numbers, value)
        assert sequence.first_at_least(value) == (at if at < len(numbers) else None)
        assert sequence.last_at_most(value) == (end - 1 if end else None)
        assert (sequence.rank(value), value in sequence, sequence.count(value)) == (at, value in numbers, numbers.count(value))
        assert list(sequence.from_value(value)) == numbers[at:]
        seeks(sequence, numbers, value, data.draw(st.integers(0, 5)))
    indexes = data.draw(st.lists(st.integers(0, len(numbers) - 1), max_size=20)) if numbers else []
    for kind in (list, iter, lambda it: numpy.array(it, "u2"), lambda it: array.array("q", it)):
        assert list(sequence.get_list(kind(indexes))) == [numbers[it] for it in indexes]
    values = [*numbers[:20], 0, 2**64 - 1]
    assert sequence.first_at_least_list(values) == [sequence.first_at_least(it) for it in values]
    assert sequence.last_at_most_list(values) == [sequence.last_at_most(it) for it in values]
    cut = data.draw(st.slices(len(numbers)))
    assert sequence[cut] == numbers[cut]
    again = pickle.loads(pickle.dumps(sequence, 5))
    assert again == sequence and again.check()
    file = io.BytesIO()
    sequence.save(file)
    assert bitm.loads(file.getvalue()) == sequence


KEYS = st.text(max_size=8) | st.binary(max_size=20) | st.integers() | st.integers(2**62, 2**66)


@given(st.lists(KEYS, max_size=200, unique_by=lambda it: (type(it), it)), st.integers(0, 64), st.integers(0, 2**64 - 1))
def test_hash(keys, bits, seed):
    for hash in ("siphash", "blake2b"):
        compare_hash(keys, bits, seed, hash)


def compare_hash(keys, bits, seed, hash):
    numbers = bitm.PerfectHash(keys, bits=bits, seed=seed, hash=hash)
    assert sorted(numbers[it] for it in keys) == list(range(len(keys))) and numbers.check()
    assert numbers.get_list(keys) == [numbers[it] for it in keys]
    if bits > 40:
        assert "no such key, or so" not in numbers and numbers.get_list(["no such key, or so"], missing=7) == [7]
    file = io.BytesIO()
    numbers.save(file)
    for again in (bitm.loads(file.getvalue()), pickle.loads(pickle.dumps(numbers, 5)), copy.copy(numbers)):
        assert again.get_list(keys) == numbers.get_list(keys) and again.check()


def test_load_from_everything():
    with tempfile.TemporaryDirectory() as room:
        path = os.path.join(room, "it")
        bitm.Index(b"\xff" * 8000, sample_log2=7).save(path)
        with open(path, "rb") as file, open(path, "rb") as other:
            data = file.read()
            made = [bitm.load(path), bitm.load(path, mmap=True), bitm.load(os.fsencode(path)), bitm.load(other), bitm.loads(data)]
        for it in made:
            assert it.check() and it.select(63999) == 63999
        for at in range(192):
            for bad in (data[:at], data[:at] + bytes([data[at] ^ 1]) + data[at + 1 :]):
                with pytest.raises(ValueError):
                    bitm.loads(bad)


def test_bitarray():
    bitarray = pytest.importorskip("bitarray")
    for endian in ("big", "little"):
        made = bitarray.bitarray("1000000001", endian=endian)
        for call in (bitm.BitVector.from_bits, bitm.BitVector.from_words):
            assert list(call(made).ones()) == [0, 9] and len(call(made)) == 10
        for count in (0, 1, 7, 8, 9, 63, 64, 65, 200):
            bits = [i * i % 7 < 3 for i in range(count)]
            index = bitm.Index(bitarray.bitarray(bits, endian=endian))
            assert list(index) == bits and index.count() == sum(bits) and index.check()


def test_bits_are_no_numbers():
    bitarray = pytest.importorskip("bitarray")
    index, sequence = bitm.Index(b"\xff"), bitm.EliasFano([1])
    for bits in (bitm.BitVector(5), bitarray.bitarray("0101")):
        for call in (index.rank_list, index.select_list, sequence.get_list, sequence.contains_list, bitm.EliasFano, bitm.BitVector.from_indices):
            with pytest.raises(TypeError, match="ones"):
                call(bits)


def test_array_of_words_is_read_where_it_lies():
    words = array.array("Q", [0] * 10)
    index = bitm.Index(words)
    words[3] = 1
    assert not index.check() and index[192]
    data = bytearray(80)
    index = bitm.Index(data)
    data[8] = 1
    assert not index.check() and index[64]
