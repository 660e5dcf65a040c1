"""Bits in shards, built and asked by the workers of a Dask cluster, here two processes of this machine over loopback.

    python3 shards.py FOLDER

The client holds the manifest alone. Each worker maps the shards that it is asked.
"""
import pathlib
import sys

import dask
import dask.array
import numpy
from distributed import Client, LocalCluster

import bitm

SHARDS, BITS = 8, 2**22 - 17  # of each shard


class Drawn:
    """Bits that the worker makes where it builds: a task has the seed alone."""

    def __init__(self, seed):
        self.seed = seed

    def __call__(self):
        words = numpy.random.default_rng(self.seed).integers(0, 2**64, -(-BITS // 64), dtype=numpy.uint64)
        return words & (words >> numpy.uint64(1)), BITS


def plain():
    """All bits as bools, from the sources."""
    made = [numpy.unpackbits(Drawn(seed)()[0].view(numpy.uint8), count=BITS, bitorder="little") for seed in range(SHARDS)]
    return numpy.concatenate(made).astype(bool)


def by_delayed(shards, ranks):
    """Pieces of a list, each answered by some worker: the shards travel as their folder."""
    asked = [dask.delayed(shards.select_list)(piece, missing="error") for piece in numpy.array_split(ranks, 4)]
    return numpy.concatenate(dask.compute(*asked))


def by_blocks(shards, positions):
    """The same for an array of Dask's: each block of positions becomes a block of ranks."""
    lazy = dask.array.from_array(positions, chunks=len(positions) // 5 + 1)
    return lazy.map_blocks(shards.rank_list, dtype=numpy.uint64).compute()


def of_a_column(shards):
    """A column of bools in Arrow's layout (bit i is bit i % 8 of byte i // 8, and room up to 64 bytes) is indexed where
    it lies: `pyarrow_array.buffers()[1]` is such a buffer."""
    column = numpy.zeros(64 * 1000, dtype=numpy.uint8)
    column[: 64 * 1000 - 9] = 0x81
    shards.append((column, 8 * len(column) - 72))
    return 2 * (len(column) - 9)


def main(folder):
    bits = plain()
    ones, zeros = numpy.flatnonzero(bits), numpy.flatnonzero(~bits)
    counts = numpy.concatenate([[0], numpy.cumsum(bits, dtype=numpy.uint64)])
    draw = numpy.random.default_rng(99)
    cluster = LocalCluster(n_workers=2, threads_per_worker=1, host="127.0.0.1", dashboard_address=None)
    with cluster, Client(cluster) as client:
        shards = bitm.Shards.build([Drawn(seed) for seed in range(SHARDS)], folder, map=client.map)
        shards.check(map=client.map)
        assert len(shards) == len(bits) and shards.count() == len(ones)
        ranks, positions = draw.integers(0, len(ones), 10000), draw.integers(0, len(bits) + 1, 10000)
        assert (by_delayed(shards, ranks) == ones[ranks]).all()
        assert (by_blocks(shards, positions) == counts[positions]).all()
        border = shards.parts[0].bits
        assert shards.rank(border) == counts[border] and shards.select0(len(zeros) - 1) == zeros[-1]
        more = of_a_column(shards)
        assert shards.count() == len(ones) + more and client.submit(shards.count).result() == shards.count()
    print(f"{shards.parts[0].bits} bits a shard, {len(shards.parts)} shards: as plain counting, on the client and on the workers")


if __name__ == "__main__":
    main(pathlib.Path(sys.argv[1]))
