#!/usr/bin/env python3
"""calls.py LOG2 ROUNDS: times the calls of the Python package over 2^LOG2 random bits, and beside them bitarray's, NumPy's
and bisect's, where these are installed. Prints CSV rows: name, by, LOG2, kind of bits, least time of all rounds, unit,
sum of the answers. The time is that of a query, a bit, a position, a number or a key.
Rows, words, queries and clock are those of the crate `tool_bench`; single calls are timed for the first 2^12 queries alone, with
the loop around them. With NumPy the lists are arrays. With BITM_LIB (the archive) the rows `C` are the library's calls of
the same lists."""
import array
import bisect
import collections
import ctypes
import os
import subprocess
import sys
import tempfile
import threading
import time

import bitm

try:
    import numpy
except ImportError:
    numpy = None
try:
    import bitarray
except ImportError:
    bitarray = None

MASK = (1 << 64) - 1
QUERIES, SINGLE = 1 << 17, 1 << 12


def drawn(state):
    while True:
        state ^= state << 13 & MASK
        state ^= state >> 7
        state ^= state << 17 & MASK
        yield state * 0x2545F4914F6CDD1D & MASK


class Rows:
    def __init__(self, log2, rounds):
        self.log2, self.rounds = log2, rounds

    def add(self, name, by, count, call, answers):
        least = 1 << 62
        for _ in range(self.rounds):
            start = time.thread_time_ns()
            call()
            least = min(least, time.thread_time_ns() - start)
        print(f"{name},{by},{self.log2},even,{least / count:.2f},ns,{sum(map(int, answers())) & MASK}", flush=True)

    def single(self, name, by, call, asked):
        """A function of one argument, without a Python frame around it."""
        asked = asked[:SINGLE]
        self.add(name, by, len(asked), lambda: collections.deque(map(call, asked), 0), lambda: map(call, asked))

    def item(self, name, by, it, asked):
        asked = asked[:SINGLE]

        def loop():
            for at in asked:
                it[at]

        self.add(name, by, len(asked), loop, lambda: [it[at] for at in asked])

    def whole(self, name, by, count, call):
        self.add(name, by, count, call, call)


def rank_and_select(rows, index, some):
    for name, limit in (("rank", len(index)), ("select", index.count(1)), ("select0", index.count(0))):
        asked, call, many = [at % limit for at in some], getattr(index, name), getattr(index, name + "_list")
        rows.single(name, "Python", call, asked)
        queries = listed(asked)
        choice = {} if name == "rank" else {"missing": "error"}
        rows.whole(name + "_list", "Python", QUERIES, lambda: many(queries, **choice))
    asked = [at % len(index) for at in some]
    rows.single("next_one", "Python", index.next_one, asked)
    rows.item("index[i]", "Python", index, asked)
    if numpy is not None:
        queries = numpy.array(asked, dtype=numpy.int32)
        rows.whole("rank_list of int32", "Python", QUERIES, lambda: index.rank_list(queries))


def set_each(it, asked):
    def loop():
        for at in asked:
            it[at] = True

    return loop


def changes(rows, vector, some):
    asked = [at % len(vector) for at in some[:SINGLE]]
    rows.item("vector[i]", "Python", vector, asked)
    rows.add("vector[i] = True", "Python", SINGLE, set_each(vector.copy(), asked), lambda: asked)
    rows.single("vector.next_one", "Python", vector.next_one, asked)
    rows.whole("from_words", "Python", len(vector), lambda: [bitm.BitVector.from_words(vector).count()])
    positions = listed(list(vector.ones()))
    rows.add("from_indices", "Python", len(positions), lambda: bitm.BitVector.from_indices(positions), lambda: positions)
    rows.whole("list(vector.ones())", "Python", len(positions), lambda: list(vector.ones()))
    rows.whole("vector[5:-5]", "Python", len(vector), lambda: [vector[5:-5].count()])
    rows.add("set_list", "Python", len(positions), lambda: vector.copy().set_list(positions), lambda: positions)
    if numpy is not None:
        flags = vector.to_numpy()
        rows.add("from_bits of bools", "Python", len(flags), lambda: bitm.BitVector.from_bits(flags), lambda: [vector.count()])
        rows.add("from_bits of bools", "packbits", len(flags), lambda: numpy.packbits(flags, bitorder="little"), lambda: [vector.count()])
        rows.add("from_indices", "packbits", len(positions), lambda: packed(positions, len(flags)), lambda: positions)
    if bitarray is not None:
        bits = bitarray.bitarray(endian="little")
        bits.frombytes(vector.tobytes())
        rows.single("count before i", "bitarray", lambda at: bits.count(1, 0, at), asked[:64])
        rows.single("find from i", "bitarray", lambda at: bits.find(1, at), asked)
        rows.item("vector[i]", "bitarray", bits, asked)
        rows.add("vector[i] = True", "bitarray", SINGLE, set_each(bits.copy(), asked), lambda: asked)
        rows.whole("vector[5:-5]", "bitarray", len(vector), lambda: [bits[5:-5].count()])


def packed(positions, length):
    """The bits at positions by NumPy's own means."""
    flags = numpy.zeros(length, dtype=bool)
    flags[positions] = True
    return numpy.packbits(flags, bitorder="little")


def threads(rows, index, some):
    """The time on the clock for a query, of one thread and of two that ask at once: half of it where they do not wait."""
    queries = numpy.array([at % len(index) for at in some] * 8, dtype=numpy.uint64)
    least = {1: 1 << 62, 2: 1 << 62}
    for _ in range(rows.rounds):
        for count in least:
            all_of_them = [threading.Thread(target=index.rank_list, args=(queries,)) for _ in range(count)]
            start = time.perf_counter_ns()
            for it in all_of_them:
                it.start()
            for it in all_of_them:
                it.join()
            least[count] = min(least[count], time.perf_counter_ns() - start)
    for count, name in ((1, "rank_list of one thread"), (2, "rank_list of two threads")):
        print(f"{name},Python,{rows.log2},even,{least[count] / count / len(queries):.2f},ns,{len(queries)}", flush=True)


def sequences(rows, numbers, some):
    sequence = bitm.EliasFano(numbers)
    values, indexes = [at % numbers[-1] for at in some], [at % len(numbers) for at in some]
    rows.add("EliasFano(numbers)", "Python", len(numbers), lambda: bitm.EliasFano(numbers), lambda: numbers)
    rows.item("ef[i]", "Python", sequence, indexes)
    rows.single("first_at_least", "Python", sequence.first_at_least, values)
    rows.single("first_at_least", "bisect", lambda value: bisect.bisect_left(numbers, value), values)
    rows.whole("list(ef)", "Python", len(numbers), lambda: list(sequence))
    where, what = listed(indexes), listed(values)
    rows.whole("ef.get_list", "Python", QUERIES, lambda: sequence.get_list(where))
    rows.whole("ef.first_at_least_list", "Python", QUERIES, lambda: sequence.first_at_least_list(what, missing="error"))
    rows.whole("ef.contains_list", "Python", QUERIES, lambda: sequence.contains_list(what))
    if numpy is not None:
        plain = numpy.array(numbers, dtype=numpy.uint64)
        rows.whole("ef.first_at_least_list", "searchsorted", QUERIES, lambda: numpy.searchsorted(plain, what))


def hashes(rows):
    keys = [f"key {at}" for at in range(20000)]
    made, plain = bitm.PerfectHash(keys), dict.fromkeys(keys, 0)
    rows.add("PerfectHash(keys)", "Python", len(keys), lambda: bitm.PerfectHash(keys), lambda: [len(made)])
    rows.item("hash[key]", "Python", made, keys)
    rows.item("hash[key]", "dict", plain, keys)
    rows.whole("hash.get_list", "Python", len(keys), lambda: made.get_list(keys, missing="error"))


def of_library(rows, index, some):
    """The library's own lists, by ctypes: a call takes a microsecond more than in C."""
    with tempfile.TemporaryDirectory() as room:
        path = os.path.join(room, "bitm.so")
        subprocess.run(["cc", "-shared", "-nostdlib", "-o", path, "-Wl,--whole-archive", os.environ["BITM_LIB"], "-Wl,--no-whole-archive"], check=True)
        library = ctypes.CDLL(path)
    upper, lower, ones = bitm.tables_of(index.words)
    parts = [numpy.frombuffer(it, dtype=numpy.uint64) for it in (index.words, upper, lower)]
    struct = numpy.zeros(32, dtype=numpy.uint64)
    for at, part in enumerate(parts):
        struct[2 * at : 2 * at + 2] = part.ctypes.data, len(part)
    struct[6] = len(index)
    counts, out = numpy.zeros(2, dtype=numpy.uint64), numpy.zeros(QUERIES, dtype=numpy.uint64)
    calls = (("rank_list", library.bitm_index_rank_list, 1, len(index)), ("select_list", library.bitm_index_select_list, 1, ones),
             ("select0_list", library.bitm_index_select_list, 0, len(index) - ones))
    for name, call, one, limit in calls:
        queries = numpy.array([at % limit for at in some], dtype=numpy.uint64)
        call.argtypes = [ctypes.c_void_p, ctypes.c_bool, ctypes.c_void_p, ctypes.c_size_t, ctypes.c_void_p, ctypes.c_size_t, ctypes.c_void_p]
        given = (struct.ctypes.data, bool(one), queries.ctypes.data, QUERIES, out.ctypes.data, QUERIES, counts.ctypes.data)
        rows.add(name, "C", QUERIES, lambda: call(*given), lambda: out)


def listed(values):
    return array.array("Q", values) if numpy is None else numpy.array(values, dtype=numpy.uint64)


def main(log2, rounds):
    rows = Rows(log2, rounds)
    draws = drawn(88172645463325252)
    words = array.array("Q", (word for k, word in zip(range(3 << (log2 - 6)), draws) if k % 3 == 0))
    draws = drawn(2463534242088117)
    some = [next(draws) for _ in range(QUERIES)]
    start = time.thread_time_ns()
    index = bitm.Index(words)
    print(f"build_a_word,Python,{log2},even,{(time.thread_time_ns() - start) / len(words):.2f},ns,{index.count()}")
    rank_and_select(rows, index, some)
    if numpy is not None and "BITM_LIB" in os.environ:
        of_library(rows, index, some)
    if numpy is not None:
        threads(rows, index, some)
    vector = bitm.BitVector.from_words(words)
    changes(rows, vector, some)
    sequences(rows, list(vector.ones(0, min(len(vector), 1 << 21))), some)
    hashes(rows)


if __name__ == "__main__":
    main(*map(int, sys.argv[1:]))
