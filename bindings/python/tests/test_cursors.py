"""Cursors over sequences beside plain lists, and what several sequences share or have beside Python's sets; drawn numbers by
Hypothesis; cursors whose sequence is closed, made anew, or gone, which other threads move, and over parts of no sequence."""
import array
import copy
import gc
import pickle
import random
import threading
from itertools import chain

import pytest
from hypothesis import given, settings, strategies as st

import bitm
from bitm import Cursor, EliasFano, WrongTables, intersect, union

MOST = 2**64 - 1
NUMBERS = st.lists(st.integers(0, 60) | st.integers(0, 5000) | st.integers(MOST - 3, MOST) | st.integers(0, MOST), max_size=60).map(sorted)


class Number:
    """A whole number that does something when it is asked for."""

    def __init__(self, value, before):
        self.value, self.before = value, before

    def __index__(self):
        self.before()
        return self.value


def stands(cursor, numbers, index):
    at_end = index == len(numbers)
    assert (cursor.index, cursor.number) == (index, None if at_end else numbers[index])


@settings(max_examples=200, deadline=None)
@given(NUMBERS, st.data())
def test_a_cursor_moves_as_a_loop_over_a_list(numbers, data):
    cursor, index = EliasFano(numbers).cursor(), 0
    for _ in range(len(numbers) + 3):
        stands(cursor, numbers, index)
        if data.draw(st.booleans()):
            here = numbers[index] if index < len(numbers) else None
            assert next(cursor, None) == here
            while index < len(numbers) and numbers[index] == here:
                index += 1
        else:
            value = data.draw(st.integers(0, MOST) | st.sampled_from(numbers or [0]) | st.integers(0, 80))
            while index < len(numbers) and numbers[index] < value:
                index += 1
            assert cursor.next_geq(value) == cursor.next_geq(value) == (numbers[index] if index < len(numbers) else None)
    stands(cursor, numbers, index)
    assert list(cursor) == sorted(set(numbers[index:])) and cursor.number is None and list(cursor) == [] and cursor.next_geq(0) is None


@settings(max_examples=200, deadline=None)
@given(st.lists(NUMBERS, max_size=5), st.integers(0, 80) | st.integers(0, MOST), st.integers(0, 12) | st.none())
def test_merges_are_those_of_sets(lists, start, limit):
    sequences = [EliasFano(it) for it in lists]
    wanted = sorted(it for it in set(chain(*lists)) if it >= start)
    assert union(sequences, start, limit) == wanted[:limit] and union(iter(sequences)) == sorted(set(chain(*lists)))
    if not lists:
        with pytest.raises(ValueError, match="no sequence"):
            intersect(sequences, start, limit)
        return
    wanted = sorted(it for it in set(lists[0]).intersection(*lists) if it >= start)
    assert intersect(sequences, start=start, limit=limit) == wanted[:limit]
    assert intersect(sequences) == list(sequences[0].intersection(*sequences[1:])) and union(sequences) == list(sequences[0].union(*sequences[1:]))


@pytest.mark.parametrize("count", [1023, 1024, 1025, 2048, 2049, 30000])
def test_answers_longer_than_a_block(count):
    even, third = EliasFano(range(0, 2 * count, 2)), EliasFano(range(0, 2 * count, 3))
    assert union([even, even]) == list(range(0, 2 * count, 2)) == intersect([even] * 3)
    assert intersect([even, third]) == list(range(0, 2 * count, 6))
    assert union([third, even], 5, count) == [it for it in range(5, 2 * count) if it % 2 == 0 or it % 3 == 0][:count]
    assert union([even], limit=count) == intersect([even], limit=count + 1) == list(even)


def test_blocks_that_end_with_the_greatest_number():
    greatest = EliasFano([*range(1023), MOST])
    assert union([greatest, greatest])[-2:] == [1022, MOST] and len(intersect([greatest])) == 1024
    cursor = greatest.cursor()
    assert cursor.next_geq(1023) == next(cursor) == MOST and cursor.index == 1024 and next(cursor, None) is None and cursor.next_geq(MOST) is None


def test_arrays_of_numpy():
    numpy = pytest.importorskip("numpy")
    some, other = EliasFano([2, 3, 5, MOST]), EliasFano([3, 4, MOST])
    for call, wanted in ((intersect, [3, MOST]), (union, [2, 3, 4, 5, MOST])):
        found = call([some, other], to_numpy=True)
        assert found.dtype == numpy.uint64 and found.tolist() == wanted == call([some, other]) and found.flags.writeable
        assert call(numpy.array([some, other], dtype=object), numpy.int32(3), limit=numpy.uint8(1), to_numpy=True).tolist() == [3]
    assert union([], to_numpy=True).shape == (0,)


def test_wrong_arguments():
    sequence = EliasFano([2, 3, 5])
    cursor = sequence.cursor()
    for wrong, error in ((-1, OverflowError), (2**64, OverflowError), (1.0, TypeError), ("1", TypeError), (None, TypeError)):
        for call in (cursor.next_geq, lambda it: intersect([sequence], it), lambda it: union([sequence], it)):
            with pytest.raises(error):
                call(wrong)
    stands(cursor, [2, 3, 5], 0)
    for call in (intersect, union):
        for sequences in (5, None, sequence.cursor, [[2, 3]], [sequence, 3], [sequence.cursor()], [bitm.Index(b"\1")], "ab", sequence):
            with pytest.raises(TypeError):
                call(sequences)
        for bad in (lambda: call(), lambda: call([sequence], 0, 1, True), lambda: call([sequence], limit="1"), lambda: call([sequence], 0, 0.5)):
            with pytest.raises(TypeError):
                bad()
        with pytest.raises(OverflowError):
            call([sequence], limit=-1)
    for bad in (lambda: Cursor(), lambda: Cursor(sequence), lambda: type(cursor).__new__(Cursor), lambda: sequence.cursor(1), lambda: cursor.next_geq(),
                lambda: copy.copy(cursor), lambda: pickle.dumps(cursor), lambda: type("Sub", (Cursor,), {})):
        with pytest.raises(TypeError):
            bad()
    for name in ("index", "number"):
        with pytest.raises(AttributeError):
            setattr(cursor, name, 1)
    assert repr(cursor) == "Cursor(index=0, number=2)" and repr(EliasFano([]).cursor()) == "Cursor(index=0, number=None)"


def refused(cursor):
    for call in (lambda: cursor.next_geq(0), lambda: next(cursor), lambda: cursor.index, lambda: cursor.number, lambda: list(cursor)):
        with pytest.raises(ValueError):
            call()
    assert repr(cursor) == "Cursor(closed)"


def test_a_sequence_that_is_closed_or_made_anew():
    sequence, other = EliasFano(range(100000)), EliasFano(range(9))
    cursor = sequence.cursor()
    assert cursor.next_geq(77) == 77
    sequence.__init__(range(500000))
    refused(cursor)
    cursor = sequence.cursor()
    sequence.close()
    refused(cursor)
    for call in (intersect, union):
        with pytest.raises(ValueError, match="closed"):
            call([other, sequence])
    with pytest.raises(ValueError, match="closed"):
        sequence.cursor()


def test_buffers_are_given_back_at_the_close():
    width, *parts = EliasFano(range(0, 3000, 3)).parts
    parts = [array.array("Q", it) for it in parts]
    sequence = EliasFano.over(1000, width, *parts)
    cursor = sequence.cursor()
    with pytest.raises(BufferError):
        parts[1].pop()
    sequence.close()
    parts[1].pop()
    refused(cursor)


def test_a_cursor_keeps_its_sequence():
    cursor = EliasFano(range(0, 90000, 9)).cursor()
    gc.collect()
    assert cursor.next_geq(80000) == 80001 and sum(1 for _ in cursor) == 1111


def test_arguments_that_close_or_move():
    sequence = EliasFano(range(1000))
    cursor = sequence.cursor()
    assert cursor.next_geq(Number(5, lambda: cursor.next_geq(9))) == 9 and cursor.next_geq(Number(5, lambda: list(cursor))) is None
    cursor = sequence.cursor()
    with pytest.raises(ValueError):
        cursor.next_geq(Number(5, sequence.close))
    for call in (intersect, union):
        sequence = EliasFano(range(1000))
        with pytest.raises(ValueError, match="closed"):
            call([sequence], Number(5, sequence.close))
        sequence = EliasFano(range(1000))
        with pytest.raises(ValueError, match="closed"):
            call((it for it in (sequence, EliasFano([2]), sequence.close()) if it), limit=3)


def test_finalizers_of_a_cycle_ask():
    kept = []

    class Owner:
        def __init__(self, it):
            self.it, self.me = it, self

        def __del__(self):
            kept.append((self.it.next_geq(5), next(self.it), self.it))

    Owner(EliasFano(range(0, 90, 3)).cursor())
    gc.collect()
    assert kept[0][:2] == (6, 6)
    try:
        assert next(kept[0][2]) == 9
    except ValueError:
        refused(kept[0][2])


def test_threads_move_one_cursor():
    sequence = EliasFano(range(40000))
    cursor, found = sequence.cursor(), [[] for _ in range(6)]
    them = [threading.Thread(target=lambda to=to: to.extend(cursor)) for to in found]
    for it in them:
        it.start()
    for it in them:
        it.join()
    assert sorted(chain(*found)) == list(range(40000)) and all(it == sorted(it) for it in found)


def test_threads_merge_and_close_at_once():
    draw = random.Random(5)
    lists = [sorted(draw.sample(range(60000), 20000)) for _ in range(3)]
    wanted, wrong, stopped = (sorted(set(lists[0]).intersection(*lists)), sorted(set(chain(*lists)))), [], threading.Event()

    def ask(shared):
        while not stopped.is_set():
            try:
                if (intersect(shared), union(shared)) != wanted:
                    wrong.append(shared)
            except ValueError:
                return

    for _ in range(8):
        shared = [EliasFano(it) for it in lists]
        them = [threading.Thread(target=ask, args=(shared,)) for _ in range(3)]
        for it in them:
            it.start()
        shared[draw.randrange(3)].close()
        for it in them:
            it.join()
    stopped.set()
    assert not wrong


def answer_of(call):
    try:
        return call()
    except WrongTables:
        return WrongTables


def union_by_calls(cursors, start, limit=MOST):
    """The least of what the cursors answer, again and again."""
    found = []
    while start <= MOST and len(found) < limit:
        answers = [it for it in [cursor.next_geq(start) for cursor in cursors] if it is not None]
        if not answers:
            break
        found.append(min(answers))
        start = found[-1] + 1
    return found


def intersection_by_calls(first, others, start, limit=MOST):
    """Each answer of the first cursor, where the others answer it too."""
    found = []
    while start <= MOST and len(found) < limit:
        number = first.next_geq(start)
        if number is None:
            break
        others_from = next((it for it in (cursor.next_geq(number) for cursor in others) if it != number), number)
        if others_from is None:
            break
        if others_from == number:
            found.append(number)
        start = max(others_from, number + 1)
    return found


def test_parts_of_no_sequence():
    """A merge answers what its cursors do, call by call, and WrongTables exactly where one of these calls does; two sequences
    that are read by blocks, with room for 64 numbers, answer numbers that rise, or WrongTables."""
    draw, ended, few = random.Random(3), [], 50
    for _ in range(300):
        made = EliasFano(sorted(draw.randrange(4000) for _ in range(200)))
        width, *parts = made.parts
        parts = [bytearray(it) for it in parts]
        for part in parts:
            for _ in range(draw.randrange(4)):
                part[draw.randrange(len(part))] ^= 1 << draw.randrange(8)
        wrong = EliasFano.over(200, width, *parts)
        for call, by_calls in (
            (lambda: list(wrong.cursor()), lambda: union_by_calls([wrong.cursor()], 0)),
            (lambda: union([wrong, made], 9, few), lambda: union_by_calls([wrong.cursor(), made.cursor()], 9, few)),
            (lambda: union([made, wrong], 0, few), lambda: union_by_calls([made.cursor(), wrong.cursor()], 0, few)),
            (lambda: union([made, wrong, made]), lambda: union_by_calls([made.cursor(), wrong.cursor()], 0)),
            (lambda: intersect([made, wrong], 0, few), lambda: intersection_by_calls(made.cursor(), [wrong.cursor()], 0, few)),
            (lambda: intersect([wrong, made, made], 7), lambda: intersection_by_calls(wrong.cursor(), [made.cursor()] * 2, 7)),
        ):
            found = answer_of(call)
            assert found == answer_of(by_calls)
            ended.append(found is WrongTables)
            assert found is WrongTables or found == sorted(set(found)) and len(found) <= 400
        for merge, of, start in ((union, [wrong, made], 9), (union, [made, wrong], 0), (intersect, [made, wrong], 0)):
            found = answer_of(lambda: merge(of, start))
            ended.append(found is WrongTables)
            assert found is WrongTables or found == sorted(set(found)) and len(found) <= 400 and min(found, default=start) >= start
        try:
            cursor = wrong.cursor()
        except WrongTables:
            continue
        for value in sorted(draw.randrange(5000) for _ in range(20)):
            try:
                found = cursor.next_geq(value)
            except WrongTables:
                continue
            assert found is None or found >= value
    assert any(ended) and not all(ended)


def test_words_with_no_bit():
    zeros = array.array("Q", [0])
    wrong = EliasFano.over(1, 0, b"", zeros, zeros, array.array("Q", [0]))
    for call in (wrong.cursor, lambda: union([wrong]), lambda: intersect([EliasFano([3]), wrong])):
        with pytest.raises(WrongTables):
            call()
