"""Sections of a caller's own: in the blocks of each kind, which answer as before; beside blocks that are written by docs/FORMAT.md
alone; drawn sections by Hypothesis; blocks of which bytes were changed or cut off; buffers of every sort, and arguments that run code."""
import array
import gc
import mmap
import threading

import pytest
from blocks import as_bytes, block as plain_block, hinted, tree_sections, unhinted
from hypothesis import given, settings, strategies as st

import bitm
from bitm import extend, is_written, section, sections

OWN = 65536
TREE = bytes(bitm.Tree([2, 0, 0]).block)
VALUES = (
    (bitm.Tree([2, 0, 1, 0]), lambda it: it.parent_list(range(4))),
    (bitm.Trie.of_words(["be", "a", "b"]), lambda it: [it.find(word) for word in ("be", "a", "b", "c")]),
    (bitm.SparseBits([3, 100, 101, 4000], 5000), lambda it: it.select_list(range(5))),
    (bitm.Dictionary([4, 9, 49]), lambda it: it.get_list([4, 9, 49, 50])),
    (bitm.Strings(["ada", "bob", ""]), lambda it: it.find_list(["ada", "bob", "", "a"])),
    (bitm.PerfectHash("abc", tries=5), lambda it: it.get_list("abcd")),
    (bitm.WaveletMatrix([3, 1, 4, 1, 5]), lambda it: it.get_list(range(5))),
    (bitm.WaveletMatrix([3, 1, 4, 1, 5], quarters=True), lambda it: it.get_list(range(5))),
    (bitm.WaveletMatrix([3, 1, 4, 1, 5], hints=True), lambda it: [it.select(1, k) for k in range(3)]),
    (bitm.WaveletMatrix([3, 1, 4, 1, 5], quarters=True, hints=True), lambda it: [it.select(1, k) for k in range(3)]),
    (bitm.TextIndex(b"banana"), lambda it: it.find_all(b"ana")),
)


def spelled(block):
    return [(role, bytes(items)) for role, items in sections(block)]


@pytest.mark.parametrize("value, ask", VALUES, ids=[repr(value) for value, _ in VALUES])
def test_each_kind_answers_as_before(value, ask, tmp_path):
    for count in (0, 1, 7, 8, 9, 1000):
        data = bytes(range(256)) * 4
        noted = extend(value.block, {OWN: data[:count], 2**64 - 1: data[: 2 * count]})
        (tmp_path / "noted").write_bytes(noted)
        for other in (type(value).over(noted), bitm.loads(noted), bitm.load(tmp_path / "noted", mmap=True)):
            assert type(other) is type(value) and ask(other) == ask(value) and other.check() and bytes(other.block) == noted
        assert is_written(noted) and len(noted) % 64 == 0
        assert spelled(noted) == spelled(value.block) + [(OWN, data[:count]), (2**64 - 1, data[: 2 * count])]
        assert (bytes(section(noted, OWN)), bytes(section(noted, 2**64 - 1)), section(noted, OWN + 1)) == (data[:count], data[: 2 * count], None)
        assert extend(extend(value.block, {OWN: data[:count]}), [(2**64 - 1, data[: 2 * count])]) == noted
    assert extend(value.block, {}) == bytes(value.block) and is_written(value.block)


@pytest.mark.parametrize("value, ask", [*VALUES[:3], (bitm.EliasFano([2, 3, 5, 1000]), list)], ids=["tree", "trie", "sparse", "sequence"])
def test_a_block_that_was_written_before_there_were_hints(value, ask):
    words = list(memoryview(value.block).cast("B").cast("Q"))
    other = bitm.loads(as_bytes(unhinted(words)))
    assert type(other) is type(value) and ask(other) == ask(value) and other.check()
    assert [role for role, _ in sections(value.block)] == [*(role for role, _ in sections(other.block)), 22]


@settings(max_examples=80, deadline=None)
@given(st.lists(st.integers(0, 3), max_size=30), st.lists(st.tuples(st.integers(OWN, 2**64 - 1) | st.just(15), st.binary(max_size=40)), max_size=12))
def test_a_block_is_that_of_the_documents(drawn, added):
    degrees = [len(drawn), *([0] * len(drawn))]
    written = [(role, [int.from_bytes(data[at : at + 8], "little") for at in range(0, len(data), 8)], len(data)) for role, data in added]
    wanted = as_bytes(plain_block(7, len(degrees), 0, [*hinted(tree_sections(degrees), len(degrees)), *written]))
    assert extend(bitm.Tree(degrees).block, added) == wanted
    assert spelled(wanted)[4:] == added


def test_items_of_four_bytes_and_of_eight():
    halves, whole = array.array("I", [1, 2, 2**32 - 1]), array.array("Q", [5, 2**64 - 1])
    noted = extend(TREE, {7: halves, 8: halves[1:], 15: b"abc", 99: whole, OWN: whole})
    assert [section(noted, it).tolist() for it in (7, 8, 15, 99)] == [[1, 2, 2**32 - 1], [2, 2**32 - 1], [97, 98, 99], [5, 2**64 - 1]]
    assert bytes(section(noted, OWN)) == whole.tobytes() and [section(noted, it).format for it in (7, 15, 99, OWN)] == ["I", "B", "Q", "B"]
    for role, count in ((7, 3), (8, 5), (99, 4), (0, 1)):
        with pytest.raises(ValueError, match=f"an item of role {role} has"):
            extend(TREE, {role: bytes(count)})
    role, items = sections(noted)[0]
    assert (role, items.format, items.readonly) == (1, "Q", True) and extend(TREE, sections(noted)[4:]) == noted
    twice = extend(TREE, [(OWN, b"one"), (OWN, b"two")])
    assert bytes(section(twice, OWN)) == b"one" and spelled(twice)[5] == (OWN, b"two")


def test_sixteen_sections_and_no_more():
    data = TREE
    for role in range(OWN, OWN + 12):
        data = extend(data, {role: bytes([role % 256])})
    assert len(sections(data)) == 16 and [section(data, role)[0] for role in range(OWN, OWN + 12)] == list(range(12)) and len(bitm.Tree.over(data)) == 3
    for call in (lambda: extend(data, {OWN: b""}), lambda: extend(TREE, [(OWN, b"")] * 13)):
        with pytest.raises(ValueError, match="16 sections"):
            call()


def buffers(data, path):
    """The same bytes in every sort of buffer, in place, misaligned, and in a file."""
    path.write_bytes(data)
    yield from (data, bytearray(data), memoryview(data), array.array("Q", data), memoryview(b"x" + data)[1:], memoryview(bytearray(b"xyz") + data)[3:], memoryview(data).cast("Q"),
                memoryview(data).cast("I"), memoryview(data).cast("b"))
    with open(path, "r+b") as file:
        yield mmap.mmap(file.fileno(), 0, access=mmap.ACCESS_READ)
        yield mmap.mmap(file.fileno(), 0)


def test_buffers_of_every_sort(tmp_path):
    note = bytes(range(21))
    wanted = extend(TREE, {OWN: note})
    for data in buffers(TREE, tmp_path / "it"):
        for items in (note, bytearray(note), memoryview(note), array.array("B", note), memoryview(bytes(range(0, 21)) * 2)[:21], memoryview(b"".join(bytes([it, 9]) for it in note))[::2]):
            assert extend(data, {OWN: items}) == wanted
        assert is_written(data) and len(sections(data)) == 4 and section(data, OWN) is None
    for data in buffers(wanted, tmp_path / "it"):
        assert bytes(section(data, OWN)) == note and extend(data, {OWN + 1: data}) == extend(wanted, {OWN + 1: wanted})
    numpy = pytest.importorskip("numpy")
    grid = numpy.arange(6, dtype=numpy.float32).reshape(2, 3)
    assert numpy.frombuffer(section(extend(numpy.frombuffer(TREE, dtype=numpy.uint64), {OWN: grid}), OWN), dtype=numpy.float32).tolist() == [0, 1, 2, 3, 4, 5]
    assert extend(TREE, {OWN: grid.T}) == extend(TREE, {OWN: grid.T.copy()})
    with pytest.raises(TypeError):
        is_written(numpy.frombuffer(TREE * 2, dtype=numpy.uint64)[::2])


def test_each_changed_byte_is_seen_and_each_prefix():
    data = extend(TREE, {OWN: b"abc"})
    for at in range(len(data)):
        changed = bytearray(data)
        changed[at] ^= 1 << at % 8
        assert not is_written(changed)
        for call in (lambda: extend(changed, {OWN: b"x"}), lambda: extend(changed, {})):
            with pytest.raises(ValueError, match="no block, or not as it was written"):
                call()
        try:
            assert len(sections(changed)) == 5
        except ValueError:
            assert at < 320
    for end in range(len(data)):
        assert not is_written(data[:end])
        for call in (sections, lambda it: section(it, 1), lambda it: extend(it, {OWN: b""}), lambda it: extend(it, {})):
            with pytest.raises(ValueError, match="no block"):
                call(data[:end])
    for more in (b"\0", bytes(8), bytes(64)):
        assert not is_written(data + more)


@settings(max_examples=200, deadline=None)
@given(st.binary(max_size=600), st.integers(0, 600), st.booleans())
def test_drawn_bytes_are_no_block(data, at, is_block):
    drawn = TREE[:at] + data if is_block else data
    if drawn != TREE:
        assert not is_written(drawn)
    for call in (sections, lambda it: extend(it, {OWN: data})):
        try:
            call(drawn)
        except ValueError:
            continue
        assert drawn[:256] == TREE[:256]  # a header and a directory that are right


def test_wrong_arguments():
    for wrong in (None, 5, "block", [1, 2], bitm.Tree([0]), object(), 1.5):
        for call in (is_written, sections, lambda it: section(it, 1), lambda it: extend(it, {}), lambda it: extend(it, {OWN: b""}), lambda it: extend(TREE, {OWN: it})):
            with pytest.raises(TypeError):
                call(wrong)
    for wrong in (None, 5, [5], [None], ["a"], "ab", ["ab"], {"a": b""}, {1.0: b""}, {None: b""}, [(OWN,)], [(OWN, b"", b"")], b"ab"):
        with pytest.raises((TypeError, ValueError)):
            extend(TREE, wrong)
    for role in (-1, 2**64, -(2**70)):
        for call in (lambda: section(TREE, role), lambda: extend(TREE, {role: bytes(8)})):
            with pytest.raises(OverflowError):
                call()
    for role in ("1", 1.0, None, b"1", [1]):
        for call in (lambda: section(TREE, role), lambda: extend(TREE, [(role, bytes(8))])):
            with pytest.raises(TypeError):
                call()
    released = memoryview(TREE)
    released.release()
    for call in (is_written, sections, lambda it: section(it, 1), lambda it: extend(it, {OWN: b""}), lambda it: extend(TREE, {OWN: it})):
        with pytest.raises(ValueError):
            call(released)
    for call in (lambda: extend(), lambda: extend(TREE), lambda: extend(block=TREE, sections={}), lambda: section(TREE), lambda: sections(), lambda: is_written(TREE, 1)):
        with pytest.raises(TypeError):
            call()
    with pytest.raises(TypeError):
        section(TREE, 1)[0] = 1


def test_the_items_live_as_long_as_a_view_of_them(tmp_path):
    items = section(extend(bitm.Tree([2, 0, 0]).block, {OWN: bytes(range(200))}), OWN)
    gc.collect()
    assert bytes(items) == bytes(range(200))
    kept = bytearray(extend(TREE, {OWN: b"note"}))
    items = section(kept, OWN)
    with pytest.raises(BufferError):
        kept.append(1)
    del items
    kept.append(1)
    (tmp_path / "it").write_bytes(extend(TREE, {OWN: b"note"}))
    with open(tmp_path / "it", "rb") as file:
        mapped = mmap.mmap(file.fileno(), 0, access=mmap.ACCESS_READ)
    items = section(mapped, OWN)
    with pytest.raises(BufferError):
        mapped.close()
    assert bytes(items) == b"note"
    del items
    gc.collect()
    mapped.close()


def test_a_mapping_and_roles_that_run_code():
    """What they change is changed before the block is looked at."""
    data, note = bytearray(TREE), bytearray(b"abc")

    class Role:
        def __index__(self):
            data.clear()
            return OWN

    with pytest.raises(ValueError, match="no block"):
        extend(data, [(Role(), b"abc")])

    def changing():
        yield OWN, note
        note[:] = b"x" * 100000

    assert bytes(section(extend(TREE, changing()), OWN)) == b"x" * 100000
    value = bitm.Tree([2, 0, 0])

    def closing():
        yield OWN, b"abc"
        value.close()

    assert bytes(section(extend(value.block, closing()), OWN)) == b"abc"


def test_threads_that_write_the_block_meanwhile():
    """The answer is right or a ValueError, and what is written stays in the memory of the block."""
    wanted = extend(TREE, {OWN: bytes(1 << 16)})
    data, stop, wrong = bytearray(wanted), threading.Event(), []

    def write():
        at = 0
        while not stop.is_set():
            at = (at + 4099) % len(data)
            data[at] ^= 255
            data[at] ^= 255

    def ask():
        for _ in range(60):
            for call in (lambda: extend(data, {OWN: data}), lambda: is_written(data), lambda: sections(data)):
                try:
                    call()
                except ValueError:
                    continue
                except BaseException as error:
                    wrong.append(error)

    threads = [threading.Thread(target=write), *(threading.Thread(target=ask) for _ in range(3))]
    for it in threads:
        it.start()
    for it in threads[1:]:
        it.join()
    stop.set()
    threads[0].join()
    assert not wrong and bytes(data) == wanted and is_written(data)
