"""Shards beside NumPy's counting: any bits in any shards, of which any are mapped; which ones are mapped by a query or list."""
import array
import contextlib
import tempfile
import threading

import pytest
from hypothesis import given, settings
from hypothesis import strategies as st

import bitm
from bitm import BitVector, Shards
from bitm._core import ShardSet

numpy = pytest.importorskip("numpy")
BITS = st.lists(st.lists(st.booleans(), max_size=150), max_size=5)
KINDS = st.sampled_from(["u8", "i8", ">u4", "i2", "list"])


def built(bits, folder, which):
    """The shards, of which some are mapped, and their joined bits."""
    shards = Shards.build(map(BitVector.from_bits, bits), folder)
    for shard in which:
        if shard < len(bits):
            shards.shard(shard)
    return shards, numpy.array([bit for it in bits for bit in it], dtype=bool)


def ranks_of(bits, one):
    return numpy.concatenate([[0], numpy.cumsum(bits == one)])


def as_queries(numbers, kind):
    return list(numbers) if kind == "list" else numpy.array(numbers, dtype=kind)


@settings(deadline=None)
@given(BITS, st.data(), KINDS, st.booleans())
def test_lists_are_those_of_counting_and_map_what_they_read(bits, data, kind, one):
    with tempfile.TemporaryDirectory() as folder:
        which = data.draw(st.sets(st.sampled_from(range(len(bits))))) if bits else set()
        shards, joined = built(bits, folder, which)
        ranks, positions = ranks_of(joined, one), numpy.flatnonzero(joined == one)
        asked = data.draw(st.lists(st.integers(0, len(joined)), max_size=40))
        rank_list = shards.rank_list if one else shards.rank0_list
        select_list = shards.select_list if one else shards.select0_list
        found = rank_list(as_queries(asked, kind))
        assert type(found) is (list if kind == "list" else numpy.ndarray)
        assert list(found) == [ranks[it] for it in asked]
        ends = numpy.cumsum([len(it) for it in bits])
        assert set(shards._open) == which | {int(numpy.searchsorted(ends, it, "right")) for it in asked if it < len(joined)}
        found = select_list(as_queries(asked, kind), missing=2**40)
        assert list(found) == [positions[it] if it < len(positions) else 2**40 for it in asked]
        past = as_queries([*asked, len(joined) + 1, 0], kind)
        with pytest.raises(IndexError, match=f"item {len(asked)} of the list"):
            rank_list(past)
        for call in (rank_list, select_list):
            with pytest.raises(OverflowError):
                call([*asked, -1])
        if len(positions) in asked:
            with pytest.raises(IndexError):
                select_list(as_queries(asked, kind), missing="error")


@settings(deadline=None)
@given(BITS, st.sets(st.integers(0, 4)), st.lists(st.integers(0, 800), max_size=12), st.booleans())
def test_queries_of_shards_of_which_some_are_mapped_are_those_of_counting(bits, which, asked, one):
    with tempfile.TemporaryDirectory() as folder:
        shards, joined = built(bits, folder, which)
        ranks, positions = ranks_of(joined, one), numpy.flatnonzero(joined == one)
        calls = [getattr(shards, it + ("_one" if one else "_zero")) for it in ("next", "previous")]
        rank, select = (shards.rank, shards.select) if one else (shards.rank0, shards.select0)
        for at in asked:
            for turn in range(2):  # when a shard is mapped by the query, and when it is
                after, before = positions[positions >= at], positions[positions <= at]
                assert calls[0](at) == (after[0] if len(after) else None)
                assert calls[1](at) == (before[-1] if len(before) else None)
                assert select(at) == (positions[at] if at < len(positions) else None)
                if at < len(ranks):
                    assert rank(at) == ranks[at]
                else:
                    with pytest.raises(IndexError):
                        rank(at)
            shards.close()


def test_a_query_maps_no_shard_that_it_does_not_read(tmp_path):
    shards = Shards.build([BitVector.from_bits(it) for it in ("01", "", "000", "10", "11")], tmp_path)
    for call, at, answer, mapped in [(shards.rank, 4, 1, {2}), (shards.rank, 5, 1, set()), (shards.select, 1, 5, {3}),
                                     (shards.select0, 2, 3, {2}), (shards.next_one, 3, 5, {2, 3}), (shards.next_one, 2, 5, {3}),
                                     (shards.previous_one, 4, 1, {0}), (shards.previous_zero, 3, 3, {2}),
                                     (shards.previous_one, 100, 8, {4}), (shards.next_one, 9, None, set()),
                                     (shards.rank0, 9, 5, set()), (shards.select, 4, None, set()), (shards.find, 6, (3, 1), set())]:
        assert (call(at), set(shards._open)) == (answer, mapped)
        shards.close()


def test_counts_and_indexes_that_do_not_fit_are_refused():
    index, numbers = bitm.Index(BitVector(3)), array.array("Q", [0, 3])
    made = ShardSet(numbers, array.array("Q", [0, 0]))
    closed = bitm.Index(BitVector(3))
    closed.close()
    for shard, value, error in [(1, index, IndexError), (-1, index, IndexError), (0, closed, ValueError), (0, BitVector(3), TypeError)]:
        with pytest.raises(error):
            made.put(shard, value)
    made.put(0, index)
    made.put(0, bitm.Index(b"\xff"))  # the first one stays
    assert made.rank(0, 3) == 3 and made.needed(2, [0, 1]) == [] and made.find(2, 3) is None
    for bits, ones in [([], []), ([0, 3], [0]), ([0], []), ([7, 3], [0, 0])]:
        other = ShardSet(array.array("Q", bits), array.array("Q", ones))
        for call in (lambda: other.rank(1, 2), lambda: other.rank_list(1, [2])):
            with pytest.raises((bitm.WrongTables, IndexError)):
                call()
        with contextlib.suppress(bitm.WrongTables):
            assert other.needed(2, [2]) == [] and other.find(2, 2) is None
    for bad in ([1], (numbers,), (b"1", b"1"), ([0, 3], [0, 0])):
        with pytest.raises(TypeError):
            ShardSet(*bad)


def test_lists_are_answered_while_another_thread_closes(tmp_path):
    shards = Shards.build([BitVector.from_bits("0110" * 500) for _ in range(4)], tmp_path)
    queries, wanted, wrong = numpy.arange(8001), ranks_of(numpy.tile([False, True, True, False], 2000), True), []

    def ask():
        for _ in range(30):
            if shards.rank_list(queries).tolist() != wanted.tolist() or shards.next_one(4000) != 4001:
                wrong.append(1)

    threads = [threading.Thread(target=ask) for _ in range(3)]
    for it in threads:
        it.start()
    while any(it.is_alive() for it in threads):
        shards.close()
    assert not wrong
