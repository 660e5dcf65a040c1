"""Errors say which item was refused: the first that a plain walk finds, counted from 0."""
import itertools
import random
import re
import threading

import pytest
from hypothesis import given, settings, strategies as st
from test_keys import NUMBER, siphash
from test_strings import ONE_SIPHASH

from bitm import Dictionary, EliasFano, PerfectHash, SparseBits, Strings, TextIndex, WaveletMatrix

NUMBERS = st.lists(st.integers(0, 9) | st.integers(0, 2**64 - 1), max_size=9)


def refused(call, said):
    with pytest.raises(ValueError, match=f"^{re.escape(said)}$") as found:
        call()
    assert type(found.value) is ValueError


def first(found):
    return next(found, None)


@settings(max_examples=200, deadline=None)
@given(NUMBERS)
def test_numbers_that_fall(numbers):
    at = first(at for at in range(1, len(numbers)) if numbers[at] < numbers[at - 1])
    if at is None:
        assert list(EliasFano(numbers)) == numbers
    else:
        refused(lambda: EliasFano(numbers), f"number {at} ({numbers[at]}) is less than number {at - 1} ({numbers[at - 1]})")


@settings(max_examples=200, deadline=None)
@given(NUMBERS, st.integers(0, 2**63 - 1) | st.integers(0, 9))
def test_positions_that_do_not_rise_or_lie_past_the_end(positions, length):
    at = first(at for at in range(1, len(positions)) if positions[at] <= positions[at - 1])
    past = first(at for at, it in enumerate(positions) if it >= length)
    if at is not None:
        refused(lambda: SparseBits(positions, length), f"position {at} ({positions[at]}) is not above position {at - 1} ({positions[at - 1]})")
    elif past is not None:
        refused(lambda: SparseBits(positions, length), f"position {past} ({positions[past]}) is not below {length}")
    else:
        assert list(SparseBits(positions, length).positions) == positions


@settings(max_examples=200, deadline=None)
@given(NUMBERS, st.integers(1, 64), st.booleans())
def test_numbers_that_are_too_wide(numbers, width, is_by_levels):
    at = first(at for at, it in enumerate(numbers) if it >> width)
    steps = []
    progress = (lambda *step: steps.append(step)) if is_by_levels else None
    if at is None:
        assert list(WaveletMatrix(numbers, width=width, progress=progress)) == numbers
    else:
        refused(lambda: WaveletMatrix(numbers, width=width, progress=progress), f"number {at} ({numbers[at]}) has more than {width} bit{'s' if width > 1 else ''}")
        assert steps == []


@settings(max_examples=200, deadline=None)
@given(NUMBERS, st.integers(0, 9), st.booleans())
def test_letters_that_are_not_below(numbers, letters, is_in_steps):
    at = first(at for at, it in enumerate(numbers) if it >= letters)
    progress = divmod if is_in_steps else None
    if at is None:
        assert len(TextIndex.of_letters(numbers, letters, progress=(lambda *step: None) if is_in_steps else None)) == len(numbers)
    else:
        refused(lambda: TextIndex.of_letters(numbers, letters, progress=progress), f"letter {at} ({numbers[at]}) is not below {letters}")


def test_many_items():
    numbers = [*range(10**5), 7, *range(10**5)]
    refused(lambda: EliasFano(numbers), "number 100000 (7) is less than number 99999 (99999)")
    refused(lambda: SparseBits(numbers, 10**6), "position 100000 (7) is not above position 99999 (99999)")
    refused(lambda: Dictionary(numbers), "keys 0 and 100001 are equal: 0")
    refused(lambda: PerfectHash(numbers), "keys 0 and 100001 are equal: 0")
    refused(lambda: PerfectHash([*range(10**5), 777], tries=3), "keys 777 and 100000 are equal: 777")
    refused(lambda: Strings(map(str, [*range(10**5), 777])), "strings 777 and 100000 are equal: b'777'")


def pair_of(keys):
    """The first key that is there again, and where that is first."""
    return first((one, other) for one in range(len(keys)) for other in range(one + 1, len(keys)) if keys[one] == keys[other])


KEYS = st.lists(st.sampled_from(["a", b"a", 97, "ab", -1, 2**64, "\ud800", 2**63]) | st.text(max_size=3) | st.integers(-(2**70), 2**70), max_size=30)


@settings(max_examples=200, deadline=None)
@given(KEYS, st.sampled_from([{}, {"seed": 3}, {"tries": 4}, {"hash": "blake2b"}, {"progress": lambda done, total: None}]))
def test_keys_that_are_equal(keys, how):
    pair = pair_of(keys)
    if pair is None:
        assert sorted(PerfectHash(keys, **how).get_list(keys)) == list(range(len(keys)))
        return
    named = f"keys {pair[0]} and {pair[1]} are equal"
    refused(lambda: PerfectHash(keys, **how), f"{named}: {keys[pair[0]]!r}")
    refused(lambda: PerfectHash(iter(keys), **how), f"{named}, or have one hash: take another seed")


@settings(max_examples=100, deadline=None)
@given(st.lists(st.integers(0, 20) | st.integers(0, 2**64 - 1), max_size=20), st.sampled_from([{}, {"seed": 2**64 - 1}, {"progress": lambda done, total: None}]))
def test_numbers_that_are_equal(keys, how):
    pair = pair_of(keys)
    if pair is None:
        assert set(Dictionary(keys, **how)) == set(keys)
    else:
        refused(lambda: Dictionary(keys, **how), f"keys {pair[0]} and {pair[1]} are equal: {keys[pair[0]]}")


@settings(max_examples=100, deadline=None)
@given(st.lists(st.binary(max_size=2), max_size=20), st.sampled_from([{}, {"seed": 5}, {"progress": lambda done, total: None}]))
def test_strings_that_are_equal(strings, how):
    pair = pair_of(strings)
    if pair is None:
        assert set(Strings(strings, **how)) == set(strings)
    else:
        refused(lambda: Strings(strings, **how), f"strings {pair[0]} and {pair[1]} are equal: {strings[pair[0]]!r}")


def test_keys_are_shown_in_sixty_characters():
    class Text(str):
        def __repr__(self):
            return "not this"

    class Number(int):
        __repr__ = Text.__repr__

    class Index:
        def __index__(self):
            return 77

    for key, shown in ((58 * "x", f"'{58 * 'x'}'"), (59 * "x", f"'{56 * 'x'}..."), (10**6 * "x", f"'{56 * 'x'}..."), (99 * b"\n", "b'" + 27 * "\\n" + "\\..."), (10**58, str(10**58)),
                       (-(10**58), str(-(10**58))), (10**5000, "a number of 16610 bits"), (Text("abc"), "'abc'"), (Number(5), "5"), (Index(), "77"), (True, "1")):
        refused(lambda: PerfectHash([0, key, key]), f"keys 1 and 2 are equal: {shown}")
    numpy = pytest.importorskip("numpy")
    refused(lambda: PerfectHash(numpy.array([5, -6, -6])), "keys 1 and 2 are equal: -6")
    refused(lambda: PerfectHash(numpy.array([5, 2**64 - 1, 2**64 - 1], dtype=numpy.uint64), tries=2), f"keys 1 and 2 are equal: {2**64 - 1}")
    refused(lambda: PerfectHash([1, True]), "keys 0 and 1 are equal: 1")


def test_keys_that_are_gone_or_others_when_they_are_looked_at_again():
    class Once:
        """Iterated over twice: the second time it has other keys, or raises."""
        def __init__(self, *turns):
            self.turns = iter(turns)

        def __iter__(self):
            return iter(next(self.turns)) if self.turns else iter(())

    unsure = "keys 0 and 1 are equal, or have one hash: take another seed"
    for again in ([], ["a"], iter(["a"])):
        refused(lambda: PerfectHash(Once("aa", again)), unsure)
        refused(lambda: PerfectHash(Once("aa", again), seed=4), unsure)
    refused(lambda: PerfectHash(Once("aa", "ab"), seed=4), "keys 0 and 1 have one hash: take another seed")
    assert len(PerfectHash(Once("aa", "ab", "abc"))) == 3  # of the second seed
    with pytest.raises(TypeError):
        PerfectHash(Once("aa", [1.5, 2.5]))
    with pytest.raises(ZeroDivisionError):
        PerfectHash(Once("aa", (1 // it for it in (1, 0))))
    endless = Once("aa", itertools.repeat("a"))
    refused(lambda: PerfectHash(endless), "keys 0 and 1 are equal: 'a'")


# By SipHash-1-3 with the key (0, NUMBER) these two have one hash, and with the seed 1 they have not.
ONE_NUMBER = [0x24F38E2F8E2B7174, 0xD870BEC42C7BCD05 - 2**64]


def test_keys_of_one_hash():
    hashes = [[siphash(it.to_bytes(8, "little", signed=True), seed, NUMBER) for it in ONE_NUMBER] for seed in (0, 1)]
    assert hashes[0] == 2 * [0x44D0DD55225C756D] and hashes[1][0] != hashes[1][1]
    for how in ({}, {"tries": 3}, {"progress": lambda done, total: None}):
        said = "keys 99 and 101 have one hash: take another seed"
        keys = [*range(99), ONE_NUMBER[0], "between", ONE_NUMBER[1]]
        refused(lambda: PerfectHash(keys, seed=0, **how), said)
        refused(lambda: PerfectHash(iter(keys), **how), "keys 99 and 101 are equal, or have one hash: take another seed")
        assert (PerfectHash(keys, **how).seed, PerfectHash(keys, seed=2, **how).seed) == (1, 2)
        refused(lambda: PerfectHash([*ONE_NUMBER, ONE_NUMBER[1]], seed=0, **how), said.replace("99", "0").replace("101", "1"))
        refused(lambda: PerfectHash([*ONE_NUMBER, ONE_NUMBER[1]], **how), f"keys 1 and 2 are equal: {ONE_NUMBER[1]}")
    numpy = pytest.importorskip("numpy")
    refused(lambda: PerfectHash(numpy.array(ONE_NUMBER), seed=0), "keys 0 and 1 have one hash: take another seed")
    assert PerfectHash(numpy.array(ONE_NUMBER)).seed == 1


def test_strings_of_one_hash():
    refused(lambda: Strings([*map(str, range(99)), *ONE_SIPHASH], seed=0), "strings 99 and 100 have one hash: take another seed")
    assert Strings(ONE_SIPHASH).seed == 1
    refused(lambda: Strings([*ONE_SIPHASH, ONE_SIPHASH[0]]), "strings 0 and 2 are equal: b'DfPggx7rn3H'")


def test_threads_that_are_refused():
    """While the item is sought other threads run, which are refused too."""
    draw, said = random.Random(5), []
    numbers = draw.sample(range(10**6), 10**5)

    def ask():
        for call in (lambda: EliasFano([*range(10**5), 3]), lambda: Dictionary([*numbers, numbers[7]]), lambda: Strings(map(str, [*numbers, numbers[7]]))):
            try:
                call()
            except ValueError as error:
                said.append(str(error))

    threads = [threading.Thread(target=ask) for _ in range(4)]
    for it in threads:
        it.start()
    for it in threads:
        it.join()
    assert sorted(said) == 4 * [f"keys 7 and 100000 are equal: {numbers[7]}"] + 4 * ["number 100000 (3) is less than number 99999 (99999)"] + 4 * [f"strings 7 and 100000 are equal: {str(numbers[7]).encode()}"]
