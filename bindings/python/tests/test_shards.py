"""Shards: as one index over the joined bits, whatever makes the shards; lists by NumPy; what the folder holds."""
import concurrent.futures
import json
import multiprocessing
import os
import pickle
import random

import pytest

import bitm
from bitm import BitVector, Index, Shards

QUERIES = ["rank", "rank0", "select", "select0", "next_one", "next_zero", "previous_one", "previous_zero"]
LISTS = ["rank_list", "rank0_list", "select_list", "select0_list"]


def pieces(seed):
    """Bits of a few shards, some of them empty or of one kind of bit."""
    draw = random.Random(seed)
    lengths = [draw.choice([0, 0, 1, 63, 64, 65, 700, 3000]) for _ in range(draw.choice([0, 1, 2, 5, 9]))]
    return ["".join(draw.choice(kind) for _ in range(it)) for it in lengths for kind in [draw.choice(["01", "0", "1", "0001"])]]


def made(seed, folder):
    bits = pieces(seed)
    return bits, Index(BitVector.from_bits("".join(bits))), Shards.build(map(BitVector.from_bits, bits), folder)


def told(call, *arguments, **named):
    """The answer, or the kind of exception."""
    try:
        return call(*arguments, **named)
    except Exception as error:
        return type(error)


@pytest.mark.parametrize("seed", range(40))
def test_queries_are_those_of_one_index(seed, tmp_path):
    bits, whole, shards = made(seed, tmp_path)
    draw, size = random.Random(seed), len(whole)
    asked = [0, 1, size - 1, size, size + 1, 2**64 - 1, 2**64, -1, *(draw.randrange(size + 3) for _ in range(50))]
    asked += [sum(map(len, bits[:k])) + d for k in range(len(bits)) for d in (-1, 0, 1)]
    for name in QUERIES:
        for query in asked:
            assert told(getattr(shards, name), query) == told(getattr(whole, name), query), (name, query)
    assert (len(shards), shards.count(), shards.count(0)) == (size, whole.count(), whole.count(0))
    for query in [*range(-3, 3), size - 1, size, -size, -size - 1]:
        assert told(shards.__getitem__, query) == told(whole.__getitem__, query)
    for _ in range(20):
        start, stop, step = draw.randrange(size + 2), draw.randrange(size + 2), draw.choice([None, 1, -1, 2, -3])
        assert shards[start:stop:step] == whole[start:stop:step]
        for reverse in (False, True):
            assert list(shards.ones(start, stop, reverse=reverse)) == list(whole.ones(start, stop, reverse=reverse))
            assert list(shards.zeros(start, stop, reverse=reverse)) == list(whole.zeros(start, stop, reverse=reverse))
    assert list(shards.ones()) == list(whole.ones())
    shards.check()


@pytest.mark.parametrize("seed", range(20))
def test_lists_are_those_of_one_index(seed, tmp_path):
    _, whole, shards = made(seed, tmp_path)
    draw = random.Random(seed)
    inside = [draw.randrange(len(whole) + 1) for _ in range(70)]
    more = [*inside, len(whole) + 1, 2**64 - 1]
    for name in LISTS:
        ours, wanted = getattr(shards, name), getattr(whole, name)
        for queries in (inside, more, [], [-1], ["x"], range(3), tuple(inside)):
            assert told(ours, queries) == told(wanted, queries)
        assert ours(iter(inside[:5])) == wanted(inside[:5])
    for name in LISTS[2:]:
        for missing in (None, 7, "error", "mask", "x", -1, 2**64, 1.5):
            for queries in (inside, more, []):
                ours, wanted = (told(getattr(it, name), queries, missing=missing) for it in (shards, whole))
                assert ours == wanted, (name, missing)


@pytest.mark.parametrize("kind", ["u8", "i8", "u2", "i4", ">u8"])
def test_arrays_are_those_of_one_index(kind, tmp_path):
    numpy = pytest.importorskip("numpy")
    _, whole, shards = made(7, tmp_path)
    inside = numpy.random.default_rng(1).integers(0, min(len(whole), 2**15), 500).astype(kind)
    for name in LISTS:
        for queries in (inside, inside[:0], inside[::3]):
            ours, wanted = getattr(shards, name)(queries), getattr(whole, name)(queries)
            assert type(ours) is type(wanted) and ours.dtype == wanted.dtype == numpy.uint64
            assert ours.tolist() == wanted.tolist()
    for name in LISTS[2:]:
        for missing in (None, 7, "error", "mask", "x", -1):
            ours, wanted = (told(getattr(it, name), inside, missing=missing) for it in (shards, whole))
            assert type(ours) is type(wanted)
            assert ours.tolist() == wanted.tolist() if hasattr(ours, "tolist") else ours == wanted
    with pytest.raises(IndexError, match="item 500 of the list"):
        shards.rank_list(numpy.array([*inside.tolist(), len(whole) + 1]))
    for bad in (numpy.array([1.0]), numpy.ones((2, 2), "u8"), numpy.array([True])):
        with pytest.raises((TypeError, ValueError)):
            shards.rank_list(bad)


def test_large_arrays_are_answered_in_blocks(tmp_path):
    numpy = pytest.importorskip("numpy")
    _, whole, shards = made(7, tmp_path)
    queries = numpy.random.default_rng(2).integers(0, len(whole) + 1, 2**18 + 5)
    assert (shards.rank_list(queries) == whole.rank_list(queries)).all()
    queries[-1] = len(whole) + 1
    with pytest.raises(IndexError, match=f"item {2**18 + 4} of the list"):
        shards.rank_list(queries)
    assert shards.select_list(queries, missing=5).tolist() == whole.select_list(queries, missing=5).tolist()
    queries[-1] = -1
    with pytest.raises(OverflowError):
        shards.rank_list(queries)


class Drawn:
    """A source that a worker makes where it builds."""

    def __init__(self, seed):
        self.seed = seed

    def __call__(self):
        return BitVector.from_bits("".join(random.Random(self.seed).choices("01", k=1000 + self.seed)))


def test_any_map_builds_the_same(tmp_path):
    sources = [Drawn(seed) for seed in range(5)]
    with concurrent.futures.ThreadPoolExecutor(2) as threads:
        Shards.build(sources, tmp_path / "threads", map=threads.map)
    with concurrent.futures.ProcessPoolExecutor(2, multiprocessing.get_context("spawn")) as workers:
        Shards.build(sources, tmp_path / "workers", map=workers.map)
        Shards(tmp_path / "workers").check(map=workers.map)
        Shards.build(sources, tmp_path / "futures", map=lambda call, tasks: [workers.submit(call, it) for it in tasks])
    here = Shards.build(iter(sources), tmp_path / "here", sample_log2=7)
    assert here[:] == sum((it() for it in sources[1:]), sources[0]())
    for name in ("threads", "workers", "futures"):
        there = Shards(tmp_path / name)
        assert there[:] == here[:] and [it[:3] for it in there.parts] == [it[:3] for it in here.parts]


def test_each_kind_of_source(tmp_path):
    raw = bytes(range(256)) * 3
    path = tmp_path / "raw"
    path.write_bytes(raw)
    (tmp_path / "empty").write_bytes(b"")
    index = Index(raw, 1000)
    sources = [raw, (raw, 77), path, str(path), (path, 2001), index, lambda: (path, 9), memoryview(raw), BitVector(3), tmp_path / "empty"]
    lengths = [6144, 77, 6144, 6144, 2001, 1000, 9, 6144, 3, 0]
    shards = Shards.build(sources, tmp_path / "shards")
    assert [it.bits for it in shards.parts] == lengths
    whole = BitVector.from_words(raw)
    assert all(shards.shard(k)[:] == whole[:length] for k, length in enumerate(lengths) if k != 8)
    for bad in (5, "no such file", (raw, 10**9), "x\0"):
        assert told(Shards.build, [bad], tmp_path / "bad") in (TypeError, FileNotFoundError, ValueError)
    assert not (tmp_path / "bad" / "shards.json").exists()


def test_shards_are_added_and_replaced(tmp_path):
    shards = Shards.build([BitVector.from_bits("0110")], tmp_path)
    shards.append(BitVector.from_bits("111"))
    shards.append(BitVector.from_bits("0"))
    assert shards[:] == BitVector.from_bits("01101110") and shards.select(4) == 6
    before = Shards(tmp_path)
    shards.replace(1, BitVector.from_bits("00000"))
    shards.replace(-1, BitVector.from_bits("1"))
    assert shards[:] == Shards(tmp_path)[:] == BitVector.from_bits("0110000001")
    with pytest.raises(bitm.ShardError, match="shard 1 "):
        before.rank(6)
    assert before.rank(3) == 2
    for bad in (3, -4):
        with pytest.raises(IndexError):
            shards.replace(bad, BitVector(1))
    assert len(list(tmp_path.iterdir())) == 4
    with pytest.raises(FileExistsError):
        Shards.build([], tmp_path)
    shards.check()


def test_a_pickle_is_the_folder(tmp_path):
    shards = Shards.build([Drawn(seed) for seed in range(3)], tmp_path)
    assert shards.rank(2500) and len(pickle.dumps(shards)) < 300
    again = pickle.loads(pickle.dumps(shards))
    assert repr(again) == repr(shards) and again[:] == shards[:] and not pickle.loads(pickle.dumps(shards))._open
    os.chdir("/")
    assert Shards(os.path.relpath(tmp_path)).folder == str(tmp_path)


def test_files_are_mapped_when_they_are_asked(tmp_path):
    shards = Shards.build([Drawn(seed) for seed in range(3)], tmp_path)
    os.rename(tmp_path / shards.parts[2].file, tmp_path / "away")
    assert shards.rank(10) <= 10 and shards.find(1500) == (1, 500) and shards.rank(len(shards)) == shards.count()
    with pytest.raises(bitm.ShardError, match="shard 2 "):
        shards.rank(2500)
    os.rename(tmp_path / "away", tmp_path / shards.parts[2].file)
    assert shards.rank(2500)
    shards.close()
    assert shards.rank(2500)


@pytest.mark.parametrize("change", [
    lambda it: it.update(version=2), lambda it: it.update(format="x"), lambda it: it.pop("shards"), lambda it: it.update(shards=[1]),
    lambda it: it["shards"][0].pop("ones"), lambda it: it["shards"][0].update(ones=-1), lambda it: it["shards"][0].update(bits=1.5),
    lambda it: it["shards"][0].update(file="../x"), lambda it: it["shards"][0].update(ones=5000), lambda it: it["shards"][0].update(bits=True),
    lambda it: it["shards"][0].update(bits=2**64), lambda it: it["shards"][0].update(sum=7), lambda it: it["shards"][0].update(file=""),
])
def test_a_manifest_that_is_none_is_refused(change, tmp_path):
    Shards.build([Drawn(1)], tmp_path)
    manifest = json.loads((tmp_path / "shards.json").read_text())
    change(manifest)
    (tmp_path / "shards.json").write_text(json.dumps(manifest))
    with pytest.raises(ValueError):
        Shards(tmp_path)
