"""Dictionary beside a plain dict; drawn keys and queries by Hypothesis; files and buffers of blocks, of which bytes were changed
or cut off."""
import gc
import random

import pytest
from block_values import answer_of, over_each_change, refuses_another, refuses_once_closed, stored_and_copied, wrong_while_closed
from hypothesis import given, settings, strategies as st

from bitm import Dictionary

SQUARES = [4, 9, 49]
ENDS = [0, 1, 2**32, 2**63 - 1, 2**63, 2**64 - 2, 2**64 - 1]


def drawn(count, most, seed):
    draw, found = random.Random(seed), set()
    while len(found) < count:
        found.add(draw.randrange(most))
    return draw.sample(sorted(found), count)


def as_plain(found, keys):
    """Each key has a number of its own, at which it stands, and what is no key has none."""
    taken = set(keys)
    assert len(found) == len(keys) and found.check() and set(found) == taken and len(list(found)) == len(taken)
    assert sorted(found[key] for key in keys) == list(range(len(keys)))
    near = {key + side for key in [*keys[:50], *ENDS] for side in (-1, 0, 1)} | {random.Random(len(keys)).randrange(2**64) for _ in range(50)}
    for key in sorted(it for it in near if 0 <= it < 2**64):
        assert (key in found) is (key in taken)
        if key in taken:
            assert found.keys[found[key]] == key and found.get(key) == found[key]
        else:
            assert found.get(key) is None and found.get(key, "none") == "none"
            with pytest.raises(KeyError, match=str(key)):
                found[key]
    asked = [*keys, *(it for it in ENDS if it not in taken)]
    assert found.get_list(asked) == [found.get(it) for it in asked]
    assert found.get_list(asked, missing=7) == [found.get(it, 7) for it in asked]


@pytest.mark.parametrize("count, most", [(0, 1), (1, 1), (1, 2**64), (2, 2), (64, 64), (65, 100), (700, 2**20), (5000, 2**64)])
def test_answers_are_those_of_a_dict(count, most):
    keys = drawn(count, most, count)
    as_plain(Dictionary(keys), keys)
    as_plain(Dictionary(iter(keys), percent=200, seed=2**64 - 3), keys)


def test_the_ends_of_the_range():
    as_plain(Dictionary(ENDS), ENDS)


@settings(max_examples=60, deadline=None)
@given(st.sets(st.integers(0, 2**64 - 1) | st.integers(0, 50), max_size=60), st.integers(0, 2**64 - 1), st.integers(0, 400))
def test_any_keys_and_any_seed(keys, seed, percent):
    found = Dictionary(keys, seed=seed, percent=percent)
    assert found.seed == seed
    as_plain(found, sorted(keys))


def test_wrong_arguments():
    found = Dictionary(SQUARES)
    for wrong, error in ((-1, OverflowError), (2**64, OverflowError), ("1", TypeError), (4.0, TypeError), (None, TypeError)):
        for ask in (found.get, lambda it: found[it], lambda it: found.get_list([it]), lambda it: Dictionary([it])):
            with pytest.raises(error):
                ask(wrong)
    assert -1 not in found and 2**64 not in found and "4" not in found and 4.0 in found and 4.5 not in found and True not in found
    with pytest.raises(IndexError, match="1 items"):
        found.get_list([4, 5], missing="error")
    for call, error in ((lambda: Dictionary(3), TypeError), (lambda: Dictionary([4, 4]), ValueError), (lambda: Dictionary(SQUARES, seed=-1), OverflowError),
                        (lambda: Dictionary(SQUARES, percent="x"), TypeError), (lambda: Dictionary(SQUARES, 100), TypeError),
                        (lambda: Dictionary(), TypeError), (lambda: found.get(), TypeError), (lambda: found.get_list(4), TypeError)):
        with pytest.raises(error):
            call()
    assert repr(found) == "Dictionary(keys=3)" and found.seed == 0 and Dictionary([]).get(0) is None
    with pytest.raises(TypeError):
        found.keys[0] = 1


def test_arrays_of_numpy():
    numpy = pytest.importorskip("numpy")
    keys = numpy.array(drawn(3000, 2**31, 5))
    for kind in (numpy.uint64, numpy.int64, numpy.uint32, numpy.dtype(">u4")):
        found = Dictionary(keys.astype(kind))
        assert (numpy.sort(found.keys) == numpy.sort(keys)).all()
    answers = found.get_list(keys)
    assert (numpy.asarray(found.keys)[answers] == keys).all() and not numpy.ma.getmaskarray(answers).any()
    some = found.get_list(numpy.append(keys[:2], 2**32))
    assert some.mask.tolist() == [False, False, True] and found.get_list(numpy.array([2**32]), missing=9).tolist() == [9]


def test_files_and_copies(tmp_path):
    keys = drawn(300, 2**64, 1)
    found = Dictionary(keys)
    numbers = found.get_list(keys)
    for other in stored_and_copied(found, tmp_path / "keys"):
        kept = other.keys
        assert other.get_list(keys) == numbers
        refuses_once_closed(other, lambda it: it[0], lambda it: it.get(1), lambda it: 1 in it, lambda it: it.keys, lambda it: it.check(), lambda it: it.get_list([0]), iter)
        assert sorted(kept) == sorted(keys)
    refuses_another(Dictionary, bytes(found.block), "dictionary")


def test_the_block_lives_as_long_as_a_view_of_it():
    block, keys = Dictionary(drawn(900, 2**40, 2)).block, Dictionary(drawn(900, 2**40, 2)).keys
    gc.collect()
    assert list(Dictionary.over(block)) == list(keys) and set(keys) == set(drawn(900, 2**40, 2))
    with pytest.raises(TypeError):
        block[0] = 1


def test_each_changed_byte_and_each_prefix_is_seen():
    keys = drawn(9, 2**50, 5)
    for found in over_each_change(Dictionary, bytes(Dictionary(keys).block)):
        for key in [*keys, *ENDS, *found.keys]:
            number = answer_of(found.get, key)
            assert number is None or found.keys[number] == key


def test_threads_ask_and_close_at_once():
    keys = drawn(4000, 2**64, 6)
    found = Dictionary(keys)
    numbers = found.get_list(keys)
    assert not wrong_while_closed(found, lambda: [it for it in zip(found.get_list(keys), numbers) if it[0] != it[1]])
