"""TextIndex beside plain searches in bytes and lists; drawn texts and patterns by Hypothesis; files and buffers of blocks, of
which bytes were changed or cut off. What is built has the block that docs/FORMAT.md says."""
import array
import gc
import os
import random
import subprocess
import sys
import threading

import pytest
from block_values import refuses_once_closed, stored_and_copied, wrong_while_closed
from blocks import as_bytes, of_bytes, of_text
from hypothesis import given, settings, strategies as st

import bitm
from bitm import TextIndex

VERSE = b"she sells sea shells on the sea shore"


def numbered(text, **how):
    """The index of numbers of a block that was written here."""
    return TextIndex.over(as_bytes(of_text(text, **how)))


def positions(text, pattern):
    """The positions at which the pattern stands, the end too where it is empty."""
    return [at for at in range(len(text) - len(pattern) + 1) if text[at : at + len(pattern)] == pattern]


def as_plain(index, text, pattern):
    found = positions(text, pattern)
    in_order = sorted(found, key=lambda at: text[at:])
    assert index.count(pattern) == len(found) and (pattern in index) is bool(found)
    assert index.find_all(pattern) == found and index.locate(pattern) == in_order
    for start in (0, 1, len(found), len(found) + 1, 2**64 - 1):
        assert index.locate(pattern, start) == in_order[start:] and index.locate(pattern, start, 2) == in_order[start : start + 2]
    assert index.locate(pattern=pattern, limit=0) == []


@pytest.mark.parametrize("text", [b"", b"a", b"\0", b"\xff\0\xff", b"banana", VERSE, b"ab" * 90, bytes(range(256))])
@pytest.mark.parametrize("step", [1, 5, 32])
def test_answers_are_those_of_plain_searches(text, step):
    index = TextIndex(text, step)
    assert len(index) == len(text) and index.check() and index[:] == text and bytes(index.block) == as_bytes(of_bytes(text, step))
    assert index.width == max(1, (max(len(set(text)), 1) - 1).bit_length())
    for pattern in (b"", b"a", b"she", b"sea sh", b"ana", b"abab", b"\xff", b"\0\xff", text, text + b"a", text[3:9], text[-2:]):
        as_plain(index, text, pattern)


@settings(max_examples=80, deadline=None)
@given(st.data())
def test_any_text_and_any_pattern(data):
    text = data.draw(st.binary(max_size=60) | st.text("ab", max_size=60).map(str.encode))
    index = TextIndex(text, data.draw(st.integers(1, 9)))
    as_plain(index, text, data.draw(st.binary(max_size=3) | st.sampled_from([text[i:j] for i in range(0, len(text) + 1, 7) for j in (i + 1, i + 4)])))
    assert index[data.draw(st.slices(len(text)))] is not None
    some = data.draw(st.slices(len(text)))
    assert index[some] == text[some]


def test_slices_and_letters():
    index = TextIndex(VERSE)
    for at in range(-len(VERSE), len(VERSE)):
        assert index[at] == VERSE[at]
    for start in (None, 0, 3, -5, 40, -90):
        for stop in (None, 0, 9, -1, 37, 99):
            for step in (None, 1, 2, 7, -1, -3, 50):
                assert index[start:stop:step] == VERSE[start:stop:step]
    with pytest.raises(ValueError):
        index[::0]
    for no_index in (len(VERSE), -len(VERSE) - 1, 2**63, -2**80):
        with pytest.raises(IndexError):
            index[no_index]
    for no_index in ("1", None, 1.0):
        with pytest.raises(TypeError):
            index[no_index]


def test_letters_that_are_no_bytes():
    draw = random.Random(3)
    text = [draw.randrange(3) * 400 for _ in range(90)]
    index = TextIndex.of_letters(text, 801, step=4)
    assert bytes(index.block) == as_bytes(of_text(text, 10, 801, 4))
    assert index.check() and index.width == 10 and index[:] == text and index[10:50:3] == text[10:50:3] and index[-1] == text[-1]
    for pattern in ([], [400], [400, 800], [5], [2**64 - 1], text[20:23]):
        as_plain(index, text, pattern)
    assert index.count(b"") == 91 and index.count(b"\1") == 0 and index.count(b"\0") == text.count(0)


def test_patterns_of_any_kind():
    index, numbers = TextIndex(VERSE), TextIndex.of_letters(VERSE, 256)
    assert numbers.block == numbered(VERSE).block and numbers.width == 8 and numbers[:] == VERSE
    for pattern in (b"sea", bytearray(b"sea"), memoryview(b"sea"), memoryview(b"s.e.a")[::2], array.array("B", b"sea")):
        assert index.count(pattern) == numbers.count(pattern) == 2 and index.find_all(pattern) == [10, 28]
    for pattern in ([115, 101, 97], (115, 101, 97), iter([115, 101, 97]), array.array("Q", [115, 101, 97])):
        assert numbers.count(pattern) == 2
    for pattern in ([115, 101, 97], [], array.array("b", b"sea"), array.array("Q", [115, 101, 97])):
        for ask in (index.count, index.locate, index.find_all, lambda it: it in index):
            with pytest.raises(TypeError, match="bytes"):
                ask(pattern)
    numpy = pytest.importorskip("numpy")
    assert index.count(numpy.frombuffer(b"sea", dtype=numpy.uint8)) == numbers.count(numpy.array([115, 101, 97], dtype=">i4")) == 2


def test_texts_of_any_kind():
    wanted = TextIndex(VERSE).block
    texts = [bytearray(VERSE), memoryview(VERSE), memoryview(b".".join(VERSE[i:i + 1] for i in range(37)))[::2], array.array("B", VERSE)]
    for text in texts:
        assert TextIndex(text).block == TextIndex(text=text, step=32).block == TextIndex(text, None).block == wanted
    for text in ([1, 0, 2], (1, 0, 2), iter([1, 0, 2]), array.array("i", [1, 0, 2]), bytearray([1, 0, 2])):
        index = TextIndex.of_letters(text, letters=3)
        assert index.count([0, 2]) == 1 and index[:] == b"\1\0\2" and index.block == numbered([1, 0, 2], width=2, letters=3).block
    numpy = pytest.importorskip("numpy")
    assert TextIndex(numpy.frombuffer(VERSE, dtype=numpy.uint8)).block == wanted
    many = numpy.arange(0, 60000, 3, dtype=numpy.int32)
    index = TextIndex.of_letters(many, 60000, 7)
    assert index.check() and index.find_all(many[40:43]) == [40] and index[5:8] == [15, 18, 21] and len(index) == 20000


EURO, TEXTS = "\u20ac", ("", "banana", "3 \u20ac, 5 \u20ac, \U0001f41a\0\u20ac", "\u03b1\u03b2\u03b1\u03b2")


@pytest.mark.parametrize("text", TEXTS)
def test_a_str_is_taken_as_its_utf_8(text):
    index, encoded = TextIndex(text, step=3), text.encode()
    assert index.block == TextIndex(encoded, step=3).block == TextIndex(type("Mine", (str,), {})(text), 3).block and index[:] == encoded
    assert len(index) == len(encoded) and index.check()
    for pattern in ("", "a", "ana", EURO, "\u03b1\u03b2", "\U0001f41a\0", text, "no such pattern", type("Mine", (str,), {})(EURO)):
        wanted = [at for at in range(len(encoded) + 1) if encoded.startswith(pattern.encode(), at)]
        assert index.find_all(pattern) == sorted(index.locate(pattern, 0)) == wanted and index.count(pattern) == len(wanted)
        assert (pattern in index) == bool(wanted) and index.locate(pattern, 1, 2) == index.locate(pattern.encode(), 1, 2)


def test_a_str_that_has_no_utf_8_or_no_letters():
    index, numbers = TextIndex("text"), TextIndex.of_letters([1, 2], 3)
    for lone in ("\ud800", "te\udcffxt"):
        for call in (TextIndex, index.count, index.locate, index.find_all, lambda it: it in index, lambda it: index.__init__(it)):
            with pytest.raises(UnicodeEncodeError):
                call(lone)
    for call in (numbers.count, numbers.locate, numbers.find_all, lambda it: it in numbers):
        with pytest.raises(TypeError, match="list of them"):
            call("\1")
    with pytest.raises(TypeError):
        TextIndex.of_letters("text", 256)
    assert index.count("t") == 2
    index.close()
    for call in (index.count, index.locate, lambda it: it in index):
        with pytest.raises(ValueError, match="closed"):
            call("t")


def test_texts_that_are_refused():
    for text in (3, None, [1, 2], array.array("i", [1]), array.array("b", [1]), iter(b"a"), object()):
        with pytest.raises(TypeError, match="a text is a str or bytes"):
            TextIndex(text)
    for step, error in ((0, ValueError), (2**32, ValueError), (2**63, ValueError), (-1, OverflowError), (2**64, OverflowError), (1.0, TypeError), ("1", TypeError)):
        with pytest.raises(error):
            TextIndex(b"text", step)
        with pytest.raises(error):
            TextIndex.of_letters([1], 2, step)
        with pytest.raises(error):
            TextIndex.of_letters([1], letters=2, step=step)
    assert TextIndex(VERSE, 2**32 - 1).find_all(b"sea") == [10, 28]
    for numbers, letters, error in (([3], 3, ValueError), ([0, 2**64 - 1], 9, ValueError), ([0], 0, ValueError), ([0], 2**32, ValueError), ([0], -1, OverflowError),
                                    ([0], 2**64, OverflowError), ([0], 1.0, TypeError), ([0], None, TypeError), ([-1], 3, OverflowError), ([2**64], 3, OverflowError),
                                    (["s"], 3, TypeError), (3, 3, TypeError), (None, 3, TypeError), (array.array("d", [1.0]), 3, TypeError)):
        with pytest.raises(error):
            TextIndex.of_letters(numbers, letters)
    for call in (lambda: TextIndex(), lambda: TextIndex(b"a", 1, 2), lambda: TextIndex(b"a", steps=1), lambda: TextIndex.of_letters([1]), lambda: TextIndex.of_letters(),
                 lambda: TextIndex.of_letters([1], 2, 3, 4), lambda: TextIndex.of_letters([1], alphabet=2)):
        with pytest.raises(TypeError):
            call()
    assert TextIndex.of_letters([], 0).count([]) == TextIndex(b"").count(b"") == 1 and TextIndex.of_letters([0, 0], 1).count([0]) == 2


def test_a_value_that_closes_or_changes_what_is_read():
    index = TextIndex(VERSE)
    text = bytearray(VERSE)
    changing = TextIndex(text)
    text[:] = b"."
    assert changing[:] == VERSE and len(changing) == 37

    class Closing:
        def __index__(self):
            index.close()
            return 1
    with pytest.raises(ValueError, match="closed"):
        index.locate(b"s", Closing())
    index.__init__(b"anew", Closing())
    assert index[:] == b"anew"
    with pytest.raises(TypeError):
        index.__init__(["a"])
    assert index[:] == b"anew"


@pytest.mark.skipif("asan" in os.environ.get("LD_PRELOAD", ""), reason="a sanitizer takes more than the limit")
def test_memory_that_is_refused():
    """A new value is not there then, and one that is stays as it was."""
    program = ("import resource, bitm\ntext = bytes(range(256)) * (1 << 16)\nindex = bitm.TextIndex(b'kept')\n"
               "resource.setrlimit(resource.RLIMIT_AS, (1 << 27, -1))\n"
               "for call in (lambda: bitm.TextIndex(text), lambda: index.__init__(text), lambda: bitm.TextIndex.of_letters([0], 1 << 31)):\n"
               "    try:\n        call()\n    except MemoryError:\n        print(index[:])\n")
    assert subprocess.run([sys.executable, "-c", program], capture_output=True, text=True, check=True).stdout == "b'kept'\n" * 3


def test_wrong_arguments():
    index = numbered(VERSE)
    for wrong, error in (("sea", TypeError), (1, TypeError), (None, TypeError), ([-1], OverflowError), ([2**64], OverflowError), (["s"], TypeError)):
        for ask in (index.count, index.locate, index.find_all, lambda it: it in index):
            with pytest.raises(error):
                ask(wrong)
    for wrong, error in ((-1, OverflowError), (2**64, OverflowError), ("1", TypeError), (1.0, TypeError)):
        with pytest.raises(error):
            index.locate(b"s", wrong)
        with pytest.raises(error):
            index.locate(b"s", limit=wrong)
    for call in (lambda: index.locate(), lambda: index.locate(b"s", 0, 1, 2), lambda: index.locate(b"s", other=1), index.count):
        with pytest.raises(TypeError):
            call()
    assert repr(index) == "TextIndex(letters=37, width=8)"


def test_blocks_that_are_refused():
    for wrong, error in (("block", TypeError), (None, TypeError), (3, TypeError), (b"", ValueError), (b"123", TypeError), (bytes(640), ValueError)):
        with pytest.raises(error):
            TextIndex.over(wrong)
    with pytest.raises(ValueError, match="index of a text"):
        TextIndex.over(bitm.WaveletMatrix([1, 2]).block)
    with pytest.raises(ValueError):
        bitm.WaveletMatrix.over(as_bytes(of_text(b"banana")))


def test_files_and_copies(tmp_path):
    data, path = as_bytes(of_bytes(VERSE)), tmp_path / "text"
    index = TextIndex(VERSE)
    assert bytes(index.block) == data
    for other in (*stored_and_copied(index, path), TextIndex.open(path), TextIndex.open(str(path))):
        assert isinstance(other, TextIndex) and other.check() and other[:] == VERSE and other.find_all(b"sea") == [10, 28]
        with other:
            pass
        refuses_once_closed(other, lambda it: it[0], lambda it: it[:], lambda it: it.count(b"s"), lambda it: it.locate(b"s"), lambda it: it.check(), lambda it: it.width)
    bitm.WaveletMatrix([1, 2]).save(tmp_path / "matrix")
    with pytest.raises(bitm.OtherKind, match="a wavelet matrix"):
        TextIndex.open(tmp_path / "matrix")
    with pytest.raises(FileNotFoundError):
        TextIndex.open(tmp_path / "none")


def test_a_subclass_stays_one(tmp_path):
    class Own(TextIndex):
        pass
    Own(VERSE).save(tmp_path / "text")
    for own in (Own(VERSE), Own.of_letters(VERSE, 256), Own.over(as_bytes(of_text(VERSE))), Own.open(tmp_path / "text")):
        assert type(own) is Own and own.count(b"she") == 2


def test_the_block_lives_as_long_as_a_view_of_it():
    block = TextIndex(VERSE).block
    gc.collect()
    assert TextIndex.over(block)[:] == VERSE
    with pytest.raises(TypeError):
        block[0] = 1


def within(index):
    """Whatever the block holds, every call answers within its range, or says that the block is wrong."""
    draw, length = random.Random(1), len(index)
    for pattern in (b"", b"s", b"se", bytes(draw.randrange(256) for _ in range(3))):
        try:
            assert 0 <= index.count(pattern) <= length + 1
            assert all(0 <= at <= length for at in index.locate(pattern))
        except bitm.WrongTables:
            pass
    try:
        assert len(index[3:20]) == min(length, 20) - 3
    except bitm.WrongTables:
        pass


@pytest.mark.parametrize("data", [as_bytes(of_text(b"mississippi", letters=120, step=3)), as_bytes(of_bytes(b"mississippi", 3))], ids=["numbers", "bytes"])
def test_each_changed_byte_and_each_prefix_is_seen(data):
    for at in range(len(data)):
        changed = bytearray(data)
        changed[at] ^= 1 << at % 8
        try:
            index = TextIndex.over(changed)
        except ValueError:
            assert at < 576
            continue
        assert not index.check()
        within(index)
    for end in range(0, len(data), 8):
        with pytest.raises(ValueError):
            TextIndex.over(data[:end])


def test_random_words_behind_a_right_header():
    draw, data = random.Random(7), as_bytes(of_bytes(VERSE))
    for turn in range(60):
        changed = bytearray(data)
        for at in range(576, len(data)):
            if draw.randrange(4) > turn % 4:
                changed[at] = draw.randrange(256) & draw.randrange(256)
        index = TextIndex.over(changed)
        assert not index.check() or bytes(changed) == data
        within(index)


def test_threads_ask_and_close_at_once():
    index = TextIndex(VERSE * 20)
    assert not wrong_while_closed(index, lambda: [1] * (index.count(b"sea") != 40 or index[5:9] != b"ells"), times=300)


def test_threads_build_and_close_at_once():
    built, wrong = [], []

    def build():
        for turn in range(40):
            made = TextIndex(VERSE * (1 + turn % 7), 1 + turn % 5)
            built.append(made)
            if made.count(b"sea") != 2 * (1 + turn % 7) or made[10:13] != b"sea":
                wrong.append(turn)
            built.pop(0).close()

    def safely(run):
        def call():
            try:
                run()
            except ValueError as error:
                if "closed" not in str(error):
                    wrong.append(error)
        return call
    threads = [threading.Thread(target=safely(build)) for _ in range(4)]
    for each in threads:
        each.start()
    for each in threads:
        each.join()
    assert not wrong
