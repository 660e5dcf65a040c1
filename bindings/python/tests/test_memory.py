"""Where an owner's words lie: aligned to a line of the cache, and in huge pages where there are many."""
import os
import re

import pytest

import bitm

numpy = pytest.importorskip("numpy")
LINE, LARGE = 64, 4 << 20  # bytes
SIZES = [1, 64, 1000, 8 * LARGE - 64, 8 * LARGE, 8 * LARGE + 12345]  # bits


def address_of(buffer):
    """Where the bytes of a buffer begin."""
    return numpy.frombuffer(buffer, dtype=numpy.uint8).ctypes.data


def flags_at(address):
    """The flags of the mapping that an address lies in."""
    with open("/proc/self/smaps", encoding="utf-8") as file:
        inside = False
        for line in file:
            bounds = re.match(r"([0-9a-f]+)-([0-9a-f]+) ", line)
            if bounds:
                inside = int(bounds[1], 16) <= address < int(bounds[2], 16)
            elif inside and line.startswith("VmFlags:"):
                return line.split()[1:]
    raise AssertionError(f"no mapping has the address {address:#x}")


def vectors(length):
    """A vector of that many bits, made in each way that takes memory of its own."""
    new, grown = bitm.BitVector(length), bitm.BitVector(1)
    grown.extend(bitm.BitVector(length - 1))
    return {"new": new, "grown": grown, "copied": new.copy(), "a slice": new[:], "inverted": ~new}


@pytest.mark.parametrize("length", SIZES)
def test_words_are_aligned(length):
    for how, vector in vectors(length).items():
        assert len(vector) == length, how
        assert address_of(vector) % LINE == 0, how


@pytest.mark.parametrize("length", SIZES)
def test_a_vector_that_grows_keeps_its_bits(length):
    vector = bitm.BitVector(length)
    vector[0] = vector[length - 1] = True
    for more in (1, 64, 5000, 8 * LARGE):
        before = len(vector)
        vector.extend(bitm.BitVector(more))
        assert vector.count() == (1 if length == 1 else 2), more
        assert vector[0] and vector[length - 1] and not vector[before], more


@pytest.mark.skipif(not os.path.exists("/proc/self/smaps"), reason="Linux alone says how memory is mapped")
@pytest.mark.skipif(not os.path.exists("/sys/kernel/mm/transparent_hugepage"), reason="this system has no huge pages")
def test_huge_pages_are_requested_for_many_words():
    large = bitm.BitVector(8 * LARGE)
    assert "hg" in flags_at(address_of(large) + LARGE // 2)
    small = bitm.BitVector(8 * (LARGE // 2))
    assert "hg" not in flags_at(address_of(small) + LARGE // 4)
