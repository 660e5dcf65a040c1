"""No call makes an object that it does not return: what single queries take of memory."""
import array
import sys
import tracemalloc

import pytest

import bitm

INDEX = bitm.Index(bitm.BitVector.from_bits([1, 0] * 5000), sample_log2=7)
VECTOR = bitm.BitVector(10000)
SEQUENCE = bitm.EliasFano(range(5, 60000, 6))
NUMBERS = bitm.PerfectHash([*range(1000), *map(str, range(1000)), b"key"])
SEEDED = bitm.PerfectHash([*range(1000), *map(str, range(1000)), b"key"], tries=9)
CALLS = {
    "rank": lambda: INDEX.rank(9000),
    "rank0": lambda: INDEX.rank0(9000),
    "select": lambda: INDEX.select(4000),
    "select0": lambda: INDEX.select0(4000),
    "next_one": lambda: INDEX.next_one(5001),
    "previous_zero": lambda: INDEX.previous_zero(5000),
    "index[i]": lambda: INDEX[5000],
    "index[-i]": lambda: INDEX[-5000],
    "vector[i]": lambda: VECTOR[5000],
    "vector[i] = True": lambda: VECTOR.__setitem__(5000, True),
    "vector.next_zero": lambda: VECTOR.next_zero(5000),
    "vector.count": lambda: VECTOR.count(),
    "vector.get_bits": lambda: VECTOR.get_bits(5000, 20),
    "ef[i]": lambda: SEQUENCE[5000],
    "first_at_least": lambda: SEQUENCE.first_at_least(30000),
    "in": lambda: 30000 in SEQUENCE,
    "hash[int]": lambda: NUMBERS[77],
    "hash[str]": lambda: NUMBERS["77"],
    "hash[bytes]": lambda: NUMBERS[b"key"],
    "hash with seeds[int]": lambda: SEEDED[77],
    "hash with seeds[str]": lambda: SEEDED["77"],
    "hash.get": lambda: NUMBERS.get("none", 5),
}


def blocks(call, turns):
    """The greatest number of blocks that are taken during the turns, above that before."""
    call()
    tracemalloc.start()
    before = tracemalloc.get_traced_memory()[0]
    tracemalloc.reset_peak()
    for _ in range(turns):
        call()
    peak = tracemalloc.get_traced_memory()[1]
    tracemalloc.stop()
    return peak - before


@pytest.mark.parametrize("name", CALLS)
def test_a_query_takes_memory_for_its_answer_alone(name):
    call = CALLS[name]
    answer = call()
    least = blocks(lambda: None, 1000)
    assert blocks(call, 1000) - least <= sys.getsizeof(answer) + 64, name


def test_a_list_takes_memory_for_its_answers_alone():
    numpy = pytest.importorskip("numpy")
    asked = numpy.arange(10000, dtype=numpy.uint64)
    for call in (lambda: INDEX.rank_list(asked), lambda: SEQUENCE.get_list(asked % 10000 // 2), lambda: INDEX.select_list(asked // 3, missing="error")):
        call()
        assert blocks(call, 5) < 16000 + 8 * 10000 * 2  # objects; that of an operand
    queries = array.array("I", range(10000))
    assert INDEX.rank_list(queries)[-1] == 5000
