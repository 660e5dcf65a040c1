"""SparseBits beside plain lists of positions; drawn positions and queries by Hypothesis; files and buffers of blocks, of which
bytes were changed or cut off."""
import bisect
import gc
import itertools
import random
import re

import pytest
from block_values import answer_of, over_each_change, refuses_another, refuses_once_closed, stored_and_copied, wrong_while_closed
from hypothesis import given, settings, strategies as st

from bitm import SparseBits

EXAMPLE = [3, 100, 101, 4000]


def drawn(count, most, seed):
    draw, at, found = random.Random(seed), 0, []
    for _ in range(count):
        at += draw.randrange(most)
        found.append(at)
        at += 1
    return found


def rank(positions, at, bit):
    ones = bisect.bisect_left(positions, at)
    return ones if bit else at - ones


def select(positions, length, k, bit):
    if bit:
        return positions[k] if k < len(positions) else None
    for it in positions:
        k += it <= k
    return k if k < length else None


def nearest(positions, length, start, bit, step):
    """The first position from start on, or back, with such a bit."""
    at = min(start, length - 1) if step < 0 else start
    if bit:
        found = [it for it in positions if (it <= at if step < 0 else it >= at)]
        return None if not found else found[-1] if step < 0 else found[0]
    taken = set(positions)
    while 0 <= at < length and at in taken:
        at += step
    return at if 0 <= at < length else None


def of_one(bits, positions, length, at):
    if at < length:
        assert bits[at] is (at in positions) and bits[at - length] is bits[at]
    if at <= length:
        assert bits.rank(at) == rank(positions, at, 1) and bits.rank0(at) == rank(positions, at, 0)
    assert bits.select(at) == select(positions, length, at, 1) and bits.select0(at) == select(positions, length, at, 0)
    assert bits.next_one(at) == nearest(positions, length, at, 1, 1) and bits.next_zero(at) == nearest(positions, length, at, 0, 1)
    assert bits.previous_one(at) == nearest(positions, length, at, 1, -1) and bits.previous_zero(at) == nearest(positions, length, at, 0, -1)


def as_plain(bits, positions, length):
    draw = random.Random(length)
    assert len(bits) == length and bits.check() and bits.count() == len(positions) and bits.count(0) == length - len(positions)
    assert list(bits.positions) == positions
    near = {it + side for it in positions[:30] + positions[-3:] for side in (-1, 0, 1)}
    ends = {len(positions), length - len(positions), length, length + 1, 2**64 - 1}
    asked = sorted(it for it in {*range(5), *near, *ends, *(it - 1 for it in ends), *(draw.randrange(length + 1) for _ in range(20))} if it >= 0)
    for at in asked:
        of_one(bits, positions, length, at)
    inside, up_to = [it for it in asked if it < length], [it for it in asked if it <= length]
    assert bits.get_list(inside) == [it in positions for it in inside]
    assert bits.rank_list(up_to) == [bits.rank(it) for it in up_to] and bits.rank0_list(up_to) == [bits.rank0(it) for it in up_to]
    assert bits.select_list(asked) == [bits.select(it) for it in asked] and bits.select0_list(asked) == [bits.select0(it) for it in asked]
    assert (1 in bits, False in bits, 2 in bits, "1" in bits) == (bool(positions), len(positions) < length, False, False)
    taken = set(positions)
    assert list(itertools.islice(bits, 5000)) == [it in taken for it in range(min(length, 5000))]


@pytest.mark.parametrize("count, most", [(0, 1), (1, 1), (1, 2**60), (2, 9), (63, 1), (64, 2), (65, 40), (400, 5), (500, 2**40), (2100, 3)])
def test_answers_are_those_of_plain_lists(count, most):
    positions = drawn(count, most, count)
    end = positions[-1] + 1 if positions else 0
    as_plain(SparseBits(positions), positions, end)
    as_plain(SparseBits(positions, end + 70), positions, end + 70)


@settings(max_examples=60, deadline=None)
@given(st.data())
def test_any_positions_and_any_query(data):
    length = data.draw(st.integers(0, 2 ** data.draw(st.integers(1, 20))))
    positions = sorted(data.draw(st.sets(st.integers(0, max(length - 1, 0)), max_size=min(length, 40)))) if length else []
    bits = SparseBits(positions, length)
    assert list(bits.positions) == positions and len(bits) == length
    of_one(bits, positions, length, data.draw(st.integers(0, length + 3) | st.integers(0, 2**64 - 1)))


def test_wrong_arguments():
    bits = SparseBits(EXAMPLE, 5000)
    asks = (bits.rank, bits.rank0, bits.select, bits.select0, bits.next_one, bits.next_zero, bits.previous_one, bits.previous_zero)
    for wrong, error in ((-1, OverflowError), (2**64, OverflowError), ("1", TypeError), (1.0, TypeError), (None, TypeError)):
        for ask in asks:
            with pytest.raises(error):
                ask(wrong)
        for ask in (bits.get_list, bits.rank_list, bits.rank0_list, bits.select_list, bits.select0_list):
            with pytest.raises(error):
                ask([wrong])
    for no_index in (5000, -5001, 2**63, -2**80):
        with pytest.raises(IndexError):
            bits[no_index]
    for no_index in ("1", slice(0, 3), None):
        with pytest.raises(TypeError):
            bits[no_index]


def test_arguments_that_are_too_large():
    bits = SparseBits(EXAMPLE, 5000)
    for ask in (bits.rank, bits.rank0):
        with pytest.raises(IndexError, match="5001"):
            ask(5001)
    with pytest.raises(IndexError, match="item 1 of the list"):
        bits.get_list([0, 5000])
    with pytest.raises(IndexError, match="item 1 of the list"):
        bits.rank_list([0, 5001])
    with pytest.raises(IndexError):
        bits.select_list([4], missing="error")
    assert bits.select_list([3, 4], missing=9) == [4000, 9] and bits.count(True) == 4 and bits.count(bit=0) == 4996
    with pytest.raises(ValueError):
        bits.count(2)
    assert repr(bits) == "SparseBits(bits=5000, ones=4)" and [bits[i] for i in (3, -1000, -1)] == [True, True, False]


def test_positions_and_lengths_that_are_refused():
    for positions, error in (([1, -1], OverflowError), (["1"], TypeError), (3, TypeError), ([0.5], TypeError), ([2**64], OverflowError)):
        with pytest.raises(error):
            SparseBits(positions)
    for positions, said in (([3, 3], "1 (3) is not above position 0 (3)"), ([4, 3], "1 (3) is not above position 0 (4)"),
                            ([0, 5, 5, 6], "2 (5) is not above position 1 (5)"), ([0, 500, 5], "2 (5) is not above position 1 (500)")):
        with pytest.raises(ValueError, match=f"^position {re.escape(said)}$"):
            SparseBits(positions, 100)
    for positions, length, said in (([3], 3, "0 (3) is not below 3"), ([0], 0, "0 (0) is not below 0"), ([3, 4, 7], 4, "1 (4) is not below 4"),
                                    ([2**64 - 1], None, f"0 ({2**64 - 1}) is not below {2**64 - 1}")):
        with pytest.raises(ValueError, match=f"^position {re.escape(said)}$"):
            SparseBits(positions, length)
    for length, error in ((-1, OverflowError), ("3", TypeError), (2**64, OverflowError)):
        with pytest.raises(error):
            SparseBits([1], length)
    for positions, length in (([1], 2**63), ([2**63 - 1], None)):
        with pytest.raises(ValueError, match=r"2\*\*63 bits or more"):
            SparseBits(positions, length)
    assert len(SparseBits([2**63 - 2])) == 2**63 - 1 and len(SparseBits([])) == 0 and len(SparseBits([], 9)) == 9


def test_arrays_of_numpy():
    numpy = pytest.importorskip("numpy")
    positions = drawn(3000, 20, 5)
    for kind in (numpy.uint64, numpy.int64, numpy.uint32, numpy.dtype(">u4")):
        bits = SparseBits(numpy.array(positions, dtype=kind))
        assert list(bits.positions) == positions
    every = numpy.arange(len(bits) + 1)
    flags = bits.get_list(every[:-1])
    assert flags.dtype == bool and numpy.flatnonzero(flags).tolist() == positions
    assert (bits.rank_list(every)[1:] == numpy.cumsum(flags)).all() and (bits.rank_list(every) + bits.rank0_list(every) == every).all()
    found = bits.select_list(numpy.array([7, 3000]))
    assert found.mask.tolist() == [False, True] and found[0] == positions[7]
    assert (numpy.asarray(bits.positions) == positions).all()


def test_files_and_copies(tmp_path):
    positions = drawn(300, 90, 1)
    bits = SparseBits(positions)
    for other in stored_and_copied(bits, tmp_path / "bits"):
        kept = other.positions
        assert list(kept) == positions
        refuses_once_closed(other, lambda it: it[0], lambda it: it.rank(1), lambda it: it.positions, lambda it: it.check(), lambda it: it.get_list([0]))
        assert list(kept) == positions
    refuses_another(SparseBits, bytes(bits.block), "sparse bits")


def test_the_block_lives_as_long_as_a_view_of_it():
    block, positions = SparseBits(drawn(900, 20, 2)).block, SparseBits(drawn(900, 20, 2)).positions
    gc.collect()
    assert list(SparseBits.over(block).positions) == list(positions) == drawn(900, 20, 2)
    with pytest.raises(TypeError):
        block[0] = 1


def test_each_changed_byte_and_each_prefix_is_seen():
    for bits in over_each_change(SparseBits, bytes(SparseBits(drawn(9, 40, 5)).block)):
        length = len(bits)
        for i in range(0, length, 3):
            for ask, low, high in ((bits.rank, 0, i), (bits.rank0, 0, i), (bits.next_one, i, length - 1), (bits.next_zero, i, length - 1),
                                   (bits.previous_one, 0, i), (bits.previous_zero, 0, i), (bits.select, 0, length - 1), (bits.select0, 0, length - 1)):
                answer = answer_of(ask, i)
                assert answer is None or low <= answer <= high


def test_threads_ask_and_close_at_once():
    positions = drawn(4000, 12, 6)
    bits = SparseBits(positions)
    assert not wrong_while_closed(bits, lambda: [it for it in zip(bits.select_list(range(4000)), positions) if it[0] != it[1]])
