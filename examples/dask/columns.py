"""A sorted column split by ranges: each range is a stored sequence that its worker builds and asks, here two processes of
this machine over loopback.

    python3 columns.py FOLDER

Shard k has the numbers from RANGE * k on and below RANGE * (k + 1). The client holds how many numbers there are before each
shard. The shard of a number is its range; that of an item is a predecessor among the counts. Both are one message to one
shard, whatever the number of shards.
"""
import itertools
import pathlib
import sys

import numpy
from distributed import Client, LocalCluster

import bitm

SHARDS, RANGE = 8, 2**40


def numbers_of(shard):
    """The sorted numbers of a range: some twice, and none in shard 3."""
    draw = numpy.random.default_rng(shard)
    many = 0 if shard == 3 else 20000 + 1000 * shard
    return numpy.sort(numpy.repeat(draw.integers(RANGE * shard, RANGE * (shard + 1), many, dtype=numpy.uint64), 2))


def built(task):
    path, shard = task
    sequence = bitm.EliasFano(numbers_of(shard))
    sequence.save(path)
    return len(sequence)


class Column:
    """The numbers of all shards, queried as one sorted list."""

    def __init__(self, paths, counts):
        self.paths = paths
        self.before = bitm.EliasFano([0, *itertools.accumulate(counts)])

    def __len__(self):
        return self.before[-1]

    def location(self, item):
        """The shard of an item, and the item in it."""
        shard = self.before.last_at_most(item)
        return shard, item - self.before[shard]

    def ask(self, client, shard, call, queries):
        """A list of queries of one shard, answered by some worker: one message there, and one back."""
        return client.submit(call, str(self.paths[shard]), queries)

    def grouped(self, client, shards, call, queries):
        """Each shard with queries answers them with one list; the answers are in the order of the queries."""
        asked = {it: self.ask(client, it, call, queries[shards == it]) for it in numpy.unique(shards).tolist()}
        answers = numpy.empty(len(queries), dtype=numpy.uint64)
        for shard, future in asked.items():
            answers[shards == shard] = future.result()
        return answers

    def items(self, client, queries):
        shards = numpy.array([self.location(it)[0] for it in queries.tolist()])
        starts = numpy.array([self.before[it] for it in shards.tolist()])
        return self.grouped(client, shards, items_of, queries - starts)

    def ranks(self, client, values):
        """How many numbers are below each value: so the item of the first that is not."""
        shards = numpy.minimum(values // RANGE, SHARDS - 1).astype(int)
        starts = numpy.array([self.before[it] for it in shards.tolist()], dtype=numpy.uint64)
        return starts + self.grouped(client, shards, ranks_of, values)


def items_of(path, items):
    return bitm.load(path, mmap=True).get_list(items.astype(numpy.uint64))


def ranks_of(path, values):
    sequence = bitm.load(path, mmap=True)
    return sequence.first_at_least_list(values.astype(numpy.uint64), missing=len(sequence))


def main(folder):
    folder.mkdir(parents=True, exist_ok=True)
    paths = [folder / f"column-{shard}.bitm" for shard in range(SHARDS)]
    every = numpy.concatenate([numbers_of(shard) for shard in range(SHARDS)])
    draw = numpy.random.default_rng(99)
    cluster = LocalCluster(n_workers=2, threads_per_worker=1, host="127.0.0.1", dashboard_address=None)
    with cluster, Client(cluster) as client:
        column = Column(paths, client.gather(client.map(built, [(str(it), k) for k, it in enumerate(paths)])))
        items, drawn = draw.integers(0, len(every), 5000), draw.integers(0, RANGE * SHARDS, 5000)
        values = numpy.concatenate([drawn.astype(numpy.uint64), every[items], every[items] + numpy.uint64(1)])
        assert len(column) == len(every)
        assert (column.items(client, items) == every[items]).all()
        assert (column.ranks(client, values) == numpy.searchsorted(every, values)).all()
    print(f"{len(every)} numbers in {SHARDS} shards: items and ranks are those of the sorted list")


if __name__ == "__main__":
    main(pathlib.Path(sys.argv[1]))
