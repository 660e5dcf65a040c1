"""WaveletMatrix beside plain lists; drawn lists and queries by Hypothesis; files and buffers of blocks, of which bytes were
changed or cut off."""
import gc
import random
from collections import Counter

import pytest
from block_values import answer_of, over_each_change, refuses_another, refuses_once_closed, stored_and_copied, wrong_while_closed
from hypothesis import given, settings, strategies as st

import bitm
from bitm import WaveletMatrix

EXAMPLE = [3, 1, 4, 1, 5, 1]


def drawn(count, bits, seed):
    draw = random.Random(seed)
    return [draw.getrandbits(bits) if draw.random() < 0.7 else draw.randrange(min(3, 1 << bits)) for _ in range(count)]


LISTS = [drawn(count, bits, count) for count, bits in [(0, 1), (1, 1), (1, 64), (2, 3), (63, 1), (64, 2), (65, 7), (300, 9), (500, 64), (2100, 3)]]


def none_or(call, items):
    return call(items) if items else None


def as_plain_lists(matrix, plain):
    draw, n = random.Random(len(plain)), len(plain)
    asked = sorted({0, 1, 2**64 - 1, *draw.sample(plain, min(n, 12)), *(it + 1 for it in plain[:4] if it < 2**64 - 1)})
    ends = sorted({0, n, *(draw.randrange(n + 1) for _ in range(8))})
    assert len(matrix) == n and list(matrix) == plain and matrix[:] == plain and matrix[::-3] == plain[::-3] and matrix.check()
    for number in asked:
        indexes = [i for i, it in enumerate(plain) if it == number]
        assert matrix.count(number) == len(indexes) and (number in matrix) is bool(indexes)
        assert [matrix.select(number, rank) for rank in range(len(indexes) + 1)] == [*indexes, None]
        for end in ends:
            assert matrix.rank(number, end) == plain[:end].count(number)
    for start in ends:
        for stop in (it for it in ends if it >= start):
            part = sorted(plain[start:stop])
            assert [matrix.quantile(k, start, stop) for k in (0, len(part) // 2, len(part))] == [*(none_or(lambda it: it[k], part) for k in (0, len(part) // 2)), None]
            for bound in asked:
                assert matrix.count_less(bound, start, stop) == sum(it < bound for it in part)
                assert matrix.next_value(bound, start, stop) == none_or(min, [it for it in part if it >= bound])
                assert matrix.previous_value(bound, start, stop) == none_or(max, [it for it in part if it < bound])
            counts = Counter(part)
            assert matrix.distinct(start, stop) == sorted(counts.items())
            for k in (0, 2, n):
                assert matrix.top(k, start, stop) == sorted(counts.items(), key=lambda it: (-it[1], it[0]))[:k]
            assert matrix.intersect(start, stop, stop, n) == sorted(set(part) & set(plain[stop:]))


@pytest.mark.parametrize("plain", LISTS, ids=len)
def test_answers_are_those_of_plain_lists(plain):
    matrix = WaveletMatrix(plain)
    assert matrix.width == max(1, max(plain, default=0).bit_length())
    as_plain_lists(matrix, plain)
    as_plain_lists(WaveletMatrix(plain, width=64), plain)
    quick = WaveletMatrix(plain, quarters=True)
    assert (len(quick.block) > len(matrix.block)) is (len(plain) > 0)
    as_plain_lists(quick, plain)
    for quarters in (False, True):
        led = WaveletMatrix(plain, quarters=quarters, hints=True)
        assert len(led.block) > len(WaveletMatrix(plain, quarters=quarters).block)
        as_plain_lists(led, plain)


@settings(max_examples=60, deadline=None)
@given(st.data())
def test_any_list_and_any_query(data):
    bits = data.draw(st.integers(1, 64))
    plain = data.draw(st.lists(st.integers(0, 2**bits - 1), max_size=40))
    matrix, number, n = WaveletMatrix(plain, width=bits), data.draw(st.integers(0, 2**64 - 1) | st.sampled_from(plain or [0])), len(plain)
    start, stop = data.draw(st.integers(0, n)), data.draw(st.integers(0, 2 * n))
    if start > stop or stop > n:
        for ask in (matrix.count_less, matrix.quantile, matrix.next_value, matrix.previous_value):
            with pytest.raises(IndexError):
                ask(number, start, stop)
        return
    part, k = sorted(plain[start:stop]), data.draw(st.integers(0, n))
    assert matrix.rank(number, stop) == plain[:stop].count(number) and matrix.count(number) == plain.count(number)
    assert matrix.select(number, k) == dict(enumerate(i for i, it in enumerate(plain) if it == number)).get(k)
    assert matrix.quantile(k, start, stop) == (part[k] if k < len(part) else None)
    assert matrix.count_less(number, start, stop) == sum(it < number for it in part)
    assert matrix.next_value(number, start, stop) == min((it for it in part if it >= number), default=None)
    assert matrix.previous_value(number, start, stop) == max((it for it in part if it < number), default=None)


def test_it_is_read_like_a_list():
    matrix = WaveletMatrix(EXAMPLE)
    assert [matrix[i] for i in range(-6, 6)] == EXAMPLE * 2 and list(reversed(matrix)) == EXAMPLE[::-1]
    assert matrix.index(1) == 1 and matrix.index(5) == 4 and 1.0 in matrix and "1" not in matrix and -1 not in matrix and 2**64 not in matrix
    assert matrix.count("1") == 0 and matrix.count(1.5) == 0 and matrix.count(True) == 3
    for no_index in (6, -7, 2**63, -2**80):
        with pytest.raises(IndexError):
            matrix[no_index]
    with pytest.raises(TypeError):
        matrix["1"]
    for value in (2, 2**64, "x", None):
        with pytest.raises(ValueError, match="not in the list"):
            matrix.index(value)
    assert isinstance(matrix, __import__("collections").abc.Sequence) and repr(matrix) == "WaveletMatrix(numbers=6, width=3)"


def test_wrong_arguments():
    matrix = WaveletMatrix(EXAMPLE)
    for wrong, error in ((-1, OverflowError), (2**64, OverflowError), ("1", TypeError), (1.0, TypeError), (None, TypeError)):
        for ask in (lambda it: matrix.rank(it, 0), lambda it: matrix.rank(1, it), lambda it: matrix.select(it, 0), lambda it: matrix.select(1, it),
                    matrix.quantile, matrix.count_less, matrix.next_value, matrix.previous_value, lambda it: matrix.count_less(it, 0, 1)):
            with pytest.raises(error):
                ask(wrong)
        if wrong is not None:
            with pytest.raises(error):
                matrix.count_less(1, wrong)
            with pytest.raises(error):
                matrix.count_less(1, 0, wrong)
    with pytest.raises(IndexError, match="index 7 of 6 numbers"):
        matrix.rank(1, 7)
    for start, stop in ((7, None), (3, 2), (0, 7), (2**64 - 1, None), (0, 2**64 - 1)):
        with pytest.raises(IndexError, match="the range from"):
            matrix.count_less(1, start, stop)
    assert matrix.count_less(1, 6) == 0 and matrix.quantile(0, 6, 6) is None and matrix.quantile(2**64 - 1) is None
    assert matrix.count_less(bound=4, start=1, stop=5) == 2 and matrix.rank(number=1, index=4) == 2 and matrix.select(number=1, rank=2) == 5
    with pytest.raises(TypeError):
        matrix.rank(1)
    with pytest.raises(TypeError):
        matrix.count_less(bounds=1)


def test_numbers_and_widths_that_are_refused():
    for numbers, error in (([1, -1], OverflowError), (["1"], TypeError), (3, TypeError), ([0.5], TypeError), ([2**64], OverflowError)):
        with pytest.raises(error):
            WaveletMatrix(numbers)
    for width in (0, 65, 2**32 + 3, 2**64 - 1):
        with pytest.raises(ValueError, match="1 to 64 bits"):
            WaveletMatrix([1], width=width)
    for width, error in ((-1, OverflowError), ("3", TypeError)):
        with pytest.raises(error):
            WaveletMatrix([1], width=width)
    with pytest.raises(ValueError, match="more than 2 bits"):
        WaveletMatrix(EXAMPLE, width=2)
    with pytest.raises(TypeError):
        WaveletMatrix([1], 3)
    assert WaveletMatrix([], width=7).width == 7 and WaveletMatrix([], width=None).width == 1


def test_lists():
    plain = drawn(5000, 5, 3)
    matrix, draw = WaveletMatrix(plain), random.Random(4)
    indices = [draw.randrange(5000) for _ in range(6000)]
    numbers, ends, ranks = ([draw.randrange(end) for _ in range(6000)] for end in (40, 5003, 300))
    assert matrix.get_list(indices) == [plain[i] for i in indices] and matrix.get_list(range(5000)) == plain
    wanted = [matrix.rank(number, end) if end <= 5000 else None for number, end in zip(numbers, ends)]
    assert matrix.rank_list(numbers, ends) == wanted == matrix.rank_list(numbers=iter(numbers), indices=tuple(ends))
    assert matrix.rank_list(numbers, ends, missing=9999) == [9999 if it is None else it for it in wanted]
    assert matrix.select_list(numbers, ranks) == [matrix.select(number, rank) for number, rank in zip(numbers, ranks)]
    assert matrix.rank_list([], []) == matrix.select_list([], []) == matrix.get_list([]) == []
    with pytest.raises(IndexError, match="item 1 of the list"):
        matrix.get_list([0, 5000])
    with pytest.raises(ValueError, match="2 numbers and 1 indices"):
        matrix.rank_list([1, 2], [3])
    with pytest.raises(IndexError):
        matrix.select_list([1], [10**6], missing="error")
    with pytest.raises(ValueError):
        matrix.select_list([1], [0], missing="mask")
    for ask in (matrix.rank_list, matrix.select_list):
        for first, second, error in (([-1], [0], OverflowError), ([0], [-1], OverflowError), ([0], ["0"], TypeError), (0, [0], TypeError), ([0], 0, TypeError)):
            with pytest.raises(error):
                ask(first, second)
        with pytest.raises(TypeError):
            ask([0])


def test_arrays_of_numpy():
    numpy = pytest.importorskip("numpy")
    plain = drawn(3000, 13, 5)
    for kind in (numpy.uint64, numpy.int64, numpy.uint16, numpy.dtype(">u4")):
        matrix = WaveletMatrix(numpy.array(plain, dtype=kind))
        assert matrix[:] == plain and matrix.width == 13
    every = numpy.arange(3001)
    assert (matrix.get_list(every[:3000]) == plain).all() and (numpy.asarray(matrix) == plain).all()
    ranks = matrix.rank_list(numpy.full(3001, plain[0]), every)
    assert ranks.tolist() == [plain[:end].count(plain[0]) for end in range(3001)]
    found = matrix.select_list(numpy.array([plain[7], 2**13]), numpy.array([0, 0]))
    assert found.mask.tolist() == [False, True] and found[0] == plain.index(plain[7])
    assert matrix.select_list(numpy.array([2**13]), [0], missing=5).tolist() == [5]
    assert matrix.to_numpy(numpy.uint16).dtype == numpy.uint16
    with pytest.raises(ValueError):
        matrix.to_numpy(copy=False)
    with pytest.raises(ValueError):
        matrix.rank_list(every, every[1:])


def test_files_and_copies(tmp_path):
    plain = drawn(300, 9, 1)
    matrix = WaveletMatrix(plain)
    for other in stored_and_copied(matrix, tmp_path / "numbers"):
        assert other[:] == plain
        refuses_once_closed(other, list, lambda it: it[0], lambda it: it.rank(1, 1))
    refuses_another(WaveletMatrix, bytes(matrix.block), "matrix")
    assert isinstance(bitm.loads(bytes(bitm.Tree([1, 0]).block)), bitm.Tree)


def test_the_block_lives_as_long_as_a_view_of_it():
    block = WaveletMatrix(drawn(900, 20, 2)).block
    gc.collect()
    assert WaveletMatrix.over(block)[:] == drawn(900, 20, 2)
    with pytest.raises(TypeError):
        block[0] = 1


def test_each_changed_byte_and_each_prefix_is_seen():
    for matrix in over_each_change(WaveletMatrix, bytes(WaveletMatrix(drawn(9, 4, 5), width=4).block)):
        queries = [lambda i: matrix[i], lambda i: matrix.rank(i, i), lambda i: matrix.count_less(i, 0, i), lambda i: matrix.next_value(i), lambda i: matrix.select(i, 0),
                   lambda i: matrix.get_list([i])[0]]
        for i in range(9):
            for ask in queries:
                answer = answer_of(ask, i)
                assert answer is None or 0 <= answer < 16


def test_threads_ask_and_close_at_once():
    plain = drawn(4000, 12, 6)
    matrix = WaveletMatrix(plain)

    def wrong_of():
        listed = [it for it in zip(matrix.get_list(range(4000)), plain) if it[0] != it[1]]
        return listed + [1] * (matrix.rank_list([plain[0]], [4000]) != [plain.count(plain[0])])

    assert not wrong_while_closed(matrix, wrong_of)
