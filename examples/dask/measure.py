"""What docs/SCALE.md says is measured by: 2^33 bits in 64 shards.

    python3 measure.py FOLDER [LOG2_OF_BITS]

Raw bits are drawn into files first (not timed). Then: shards built of these by one process and by more, and one index
of all; lists of 10^6 ranks and selections of either; the memory of the process that asks.
"""
import concurrent.futures
import multiprocessing
import pathlib
import resource
import shutil
import sys
import time

import numpy

import bitm

SHARDS, QUERIES = 64, 10**6


def draw(task):
    path, seed, words = task
    made = numpy.random.default_rng(seed).integers(0, 2**64, words, dtype=numpy.uint64)
    made.tofile(path)


def memory():
    """Megabytes of this process: its own, and those of mapped files."""
    lines = dict(line.split(":") for line in open("/proc/self/status") if line.startswith("Rss"))
    return {name: int(lines[name].split()[0]) // 1024 for name in ("RssAnon", "RssFile")}


def best(call, rounds=5):
    """The least processor time of a few runs, in milliseconds: of this process, which other programs disturb less."""
    times = []
    for _ in range(rounds):
        begin = time.process_time()
        call()
        times.append(1000 * (time.process_time() - begin))
    return min(times)


def of_children():
    used = resource.getrusage(resource.RUSAGE_CHILDREN)
    return used.ru_utime + used.ru_stime


def builds(folder, raw, bits):
    for workers in (1, 2, 4):
        shutil.rmtree(folder / "shards", ignore_errors=True)
        before = of_children()
        with concurrent.futures.ProcessPoolExecutor(workers, multiprocessing.get_context("spawn")) as pool:
            list(pool.map(abs, range(8 * workers)))  # each has started
            begin = time.perf_counter()
            bitm.Shards.build(raw, folder / "shards", map=pool.map)
            took = time.perf_counter() - begin
        used = of_children() - before
        print(f"build by {workers}: {took:.2f} s, {bits / 8 / took / 1e6:.0f} MB/s; processor time {used:.2f} s", flush=True)


def lists(folder, raw, bits):
    shards = bitm.Shards(folder / "shards")
    positions = numpy.random.default_rng(1).integers(0, bits, QUERIES, dtype=numpy.uint64)
    begin = time.process_time()
    answers = shards.rank_list(positions)
    print(f"the first list, which maps {SHARDS} shards: {time.process_time() - begin:.2f} s; MB: {memory()}", flush=True)
    ranks = numpy.random.default_rng(2).integers(0, shards.count(), QUERIES, dtype=numpy.uint64)
    found = shards.select_list(ranks, missing="error")
    print(f"after both lists, MB: {memory()}; the manifest has {(folder / 'shards' / 'shards.json').stat().st_size} bytes")
    whole = bitm.Index(numpy.concatenate([numpy.fromfile(it, dtype=numpy.uint64) for it in raw]))
    assert (whole.rank_list(positions) == answers).all() and (whole.select_list(ranks, missing="error") == found).all()
    for name, queries, more in (("rank", positions, {}), ("select", ranks, {"missing": "error"})):
        ours, one = (best(lambda: getattr(it, f"{name}_list")(queries, **more)) for it in (shards, whole))
        print(f"{name}: {QUERIES} queries of {SHARDS} shards {ours:.0f} ms, of one index {one:.0f} ms: {ours / one:.2f}", flush=True)
        single = best(lambda: [getattr(shards, name)(it) for it in queries[:10000].tolist()])
        print(f"{name}: one query {single / 10000 * 1e6:.0f} ns", flush=True)


def main(folder, log2):
    folder.mkdir(parents=True, exist_ok=True)
    bits, raw = 2**log2, [folder / f"raw.{k}" for k in range(SHARDS)]
    print(f"an empty client, MB: {memory()}")
    with concurrent.futures.ProcessPoolExecutor(4, multiprocessing.get_context("spawn")) as pool:
        list(pool.map(draw, [(it, k, bits // SHARDS // 64) for k, it in enumerate(raw)]))
    builds(folder, raw, bits)
    lists(folder, raw, bits)


if __name__ == "__main__":
    main(pathlib.Path(sys.argv[1]), int(sys.argv[2]) if len(sys.argv) > 2 else 33)
