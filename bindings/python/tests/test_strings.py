"""Strings beside a plain set; drawn strings and queries by Hypothesis; files and buffers of blocks, of which bytes were changed or cut
off; arguments that run code."""
import gc
import itertools
import random

import pytest
from block_values import answer_of, over_each_change, refuses_another, refuses_once_closed, stored_and_copied, wrong_while_closed
from hypothesis import given, settings, strategies as st

from bitm import Strings

NAMES = ["ada", "bob", "eve"]
ODD = [b"", b"\0", b"\0\0", b"a", b"a\0", b"\xff", "ü".encode(), b"x" * 10000]
# By SipHash-1-3 with the seed 0 these two have one hash, and with the seed 1 they have not.
ONE_SIPHASH = ["DfPggx7rn3H", "t_0e0z8MQ6G"]
# By FNV-1a these two have one hash, and by SipHash-1-3 they have not.
ONE_HASH = ["8yn0iYCKYHlIj4-BwPqk", "GReLUrM4wMqfg9yzV3KQ"]


def drawn(count, longest, seed):
    draw, found = random.Random(seed), set()
    while len(found) < count:
        found.add(draw.randbytes(draw.randrange(longest + 1)))
    return draw.sample(sorted(found), count)


def as_bytes(string):
    return string.encode() if isinstance(string, str) else bytes(string)


def as_plain(found, strings):
    """Each string has a number of its own, at which it stands, and what is none of them has none."""
    taken = {as_bytes(it) for it in strings}
    assert len(found) == len(strings) == len(taken) and found.check() and set(found) == taken
    assert sorted(found.find(it) for it in strings) == list(range(len(strings)))
    near = [it for word in sorted(taken)[:50] for it in (word[1:], word + b"\0", word + word)]
    asked = [*strings, *near, *ODD]
    for string in asked:
        assert (string in found) is (as_bytes(string) in taken)
        number = found.find(string)
        assert found[number] == as_bytes(string) if string in found else number is None
    assert found.find_list(asked) == [found.find(it) for it in asked]
    assert found.find_list(iter(asked), missing=7) == [7 if found.find(it) is None else found.find(it) for it in asked]
    everything = list(found)
    assert [found[at] for at in range(-len(found), len(found))] == 2 * everything
    assert (found[1:], found[::-2], found[-3:7:2], found[9:2]) == (everything[1:], everything[::-2], everything[-3:7:2], everything[9:2])


@pytest.mark.parametrize("count, longest", [(0, 0), (1, 0), (1, 9), (2, 1), (64, 1), (257, 1), (700, 3), (5000, 40)])
def test_answers_are_those_of_a_set(count, longest):
    strings = drawn(count, longest, count)
    as_plain(Strings(strings), strings)
    as_plain(Strings(iter(strings), percent=200, seed=2**64 - 3), strings)


@settings(max_examples=60, deadline=None)
@given(st.sets(st.binary(max_size=9) | st.text("abü", max_size=4).map(str.encode), max_size=60), st.integers(0, 2**64 - 1), st.integers(0, 400))
def test_any_strings_and_any_seed(strings, seed, percent):
    found = Strings(strings, seed=seed, percent=percent)
    assert found.seed == seed
    as_plain(found, sorted(strings))


@settings(max_examples=60, deadline=None)
@given(st.sets(st.text(max_size=6), max_size=30))
def test_a_str_is_its_utf_8(words):
    """Without lone surrogates, which have none, and which Hypothesis draws."""
    able = [it for it in words if not any("\ud800" <= letter <= "\udfff" for letter in it)]
    found = Strings(able)
    as_plain(found, able)
    assert sorted(it.decode() for it in found) == sorted(able)
    for word in words.difference(able):
        assert word not in found
        for ask in (found.find, lambda it: found.find_list([it]), lambda it: Strings([it])):
            with pytest.raises(UnicodeEncodeError):
                ask(word)


def test_strings_of_each_kind():
    class Word(str):
        def __str__(self):
            return "other"

    class Bytes(bytes):
        pass

    kinds = [Word("ada"), Bytes(b"bob"), bytearray(b"eve"), memoryview(b"dora")[::2], memoryview(b"abcd").cast("B", (2, 2))]
    found = Strings(kinds)
    assert set(found) == {b"ada", b"bob", b"eve", b"dr", b"abcd"} and all(it in found for it in kinds)
    assert [type(it) for it in found] == 5 * [bytes] and found.find_list(kinds) == [found.find(it) for it in kinds]
    assert found.find_list(dict.fromkeys(NAMES)) == [found.find(it) for it in NAMES]


def test_strings_that_fnv_gives_one_hash_have_numbers_by_each_seed():
    assert (Strings(ONE_HASH).seed, Strings(ONE_HASH, seed=5).seed, Strings(NAMES).seed) == (0, 5, 0)
    for seed in (0, 1, 256, 2**64 - 1):
        as_plain(Strings(ONE_HASH, seed=seed), ONE_HASH)
    for twice, said in ((["a", "a"], "0 and 1 are equal: b'a'"), (["a", b"a"], "0 and 1 are equal: b'a'"), (["", ""], "0 and 1 are equal: b''"), ([*NAMES, "ada"], "0 and 3 are equal: b'ada'")):
        with pytest.raises(ValueError, match=f"^strings {said}$"):
            Strings(twice)


def test_strings_of_one_hash_have_another_seed():
    found = Strings(ONE_SIPHASH)
    assert found.seed == 1
    as_plain(found, ONE_SIPHASH)
    with pytest.raises(ValueError, match="^strings 0 and 1 have one hash: take another seed$"):
        Strings(ONE_SIPHASH, seed=0)


def test_wrong_arguments():
    found = Strings(NAMES)
    for wrong in (5, None, 4.0, ["ada"], ("ada",), object(), memoryview(bytes(8)).cast("I"), range(3)):
        for ask in (found.find, lambda it: found.find_list([it]), lambda it: Strings([it])):
            with pytest.raises(TypeError):
                ask(wrong)
        assert wrong not in found
    for wrong in (3, None, "ada", b"ada", bytearray(b"ada"), object()):
        for ask in (Strings, found.find_list):
            with pytest.raises(TypeError):
                ask(wrong)
    for key, error in ((3, IndexError), (-4, IndexError), (2**63, IndexError), (2**64, IndexError), ("ada", TypeError), (None, TypeError), (1.0, TypeError)):
        with pytest.raises(error):
            found[key]
    with pytest.raises(IndexError, match="1 items"):
        found.find_list(["ada", "x"], missing="error")
    for call, error in ((lambda: Strings(NAMES, seed=-1), OverflowError), (lambda: Strings(NAMES, seed=2**64), OverflowError), (lambda: Strings(NAMES, percent="x"), TypeError),
                        (lambda: Strings(NAMES, 100), TypeError), (lambda: Strings(), TypeError), (lambda: found.find(), TypeError),
                        (lambda: found.find_list(), TypeError), (lambda: found.find_list(NAMES, 9), TypeError), (lambda: found.find_list(NAMES, missing=-1), OverflowError)):
        with pytest.raises(error):
            call()
    assert repr(found) == "Strings(strings=3)" and list(Strings([])) == [] and Strings([]).find("") is None


def test_arrays_of_numpy():
    numpy = pytest.importorskip("numpy")
    words = [f"word {it}" for it in range(300)]
    found = Strings(numpy.array(words))
    as_plain(found, words)
    asked = numpy.array([*words[:2], "other"], dtype=object)
    answers = found.find_list(asked)
    assert answers.mask.tolist() == [False, False, True] and answers.tolist()[:2] == found.find_list(words[:2])
    assert found.find_list(asked.astype("S"), missing=9).tolist()[2] == 9
    for numbers in (numpy.array([1, 2]), numpy.array([1, 2], dtype=numpy.uint8)):
        with pytest.raises(TypeError):
            found.find_list(numbers)


def test_a_value_that_is_closed_while_strings_are_taken_is_not_read():
    found = Strings(NAMES)

    def closing():
        yield "ada"
        found.close()
        yield "bob"

    with pytest.raises(ValueError, match="closed"):
        found.find_list(closing())
    again = Strings(NAMES)

    class Index:
        def __index__(self):
            again.close()
            return 0

    with pytest.raises(ValueError, match="closed"):
        again[Index()]


def test_strings_that_change_while_they_are_taken():
    """Each has the bytes that it had when its turn came."""
    word = bytearray(b"ada")

    def changing():
        yield word
        word[:] = b"x" * 100000
        yield word
        word.clear()
        yield word
        raise KeyError("the end")

    with pytest.raises(KeyError, match="the end"):
        Strings(changing())
    word[:] = b"ada"
    assert set(Strings(itertools.islice(changing(), 3))) == {b"ada", b"x" * 100000, b""}
    released = memoryview(b"ada")
    released.release()
    with pytest.raises(ValueError, match="released"):
        Strings([released])


def test_files_and_copies(tmp_path):
    strings = drawn(300, 20, 1)
    found = Strings(strings)
    numbers = found.find_list(strings)
    for other in stored_and_copied(found, tmp_path / "names"):
        kept, everything = other.block, list(other)
        assert other.find_list(strings) == numbers and set(everything) == set(strings)
        refuses_once_closed(other, lambda it: it[0], lambda it: it[:1], lambda it: it.find("ada"), lambda it: "ada" in it, lambda it: 5 in it, lambda it: it.seed,
                            lambda it: it.check(), lambda it: it.find_list(["ada"]), iter)
        assert list(Strings.over(kept)) == everything
    refuses_another(Strings, bytes(found.block), "strings")


def test_the_block_lives_as_long_as_a_view_of_it():
    block = Strings(drawn(900, 9, 2)).block
    gc.collect()
    assert set(Strings.over(block)) == set(drawn(900, 9, 2))
    with pytest.raises(TypeError):
        block[0] = 1


def test_each_changed_byte_and_each_prefix_is_seen():
    strings = drawn(9, 6, 5)
    for found in over_each_change(Strings, bytes(Strings(strings).block)):
        everything = [answer_of(found.__getitem__, at) for at in range(len(found))]
        for string in [*strings, *ODD, *(it for it in everything if it is not None)]:
            number = answer_of(found.find, string)
            assert number is None or found[number] == string
        answers = answer_of(found.find_list, strings)
        assert answers is None or all(it is None or found[it] == string for it, string in zip(answers, strings))


def test_threads_ask_and_close_at_once():
    strings = drawn(4000, 9, 6)
    found = Strings(strings)
    numbers = found.find_list(strings)
    assert not wrong_while_closed(found, lambda: [it for it in zip(found.find_list(strings), numbers) if it[0] != it[1]])
