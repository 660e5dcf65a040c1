"""Writes an index and a sequence into the first folder, and reads those of all: what other languages wrote too."""
import os
import sys

import bitm

BITS = [i * i % 7 < 2 or i % 1000 < 100 for i in range(100001)]
NUMBERS = [1000 * i + i * i % 1000 for i in range(3000)]


def write(folder):
    bitm.Index(bitm.BitVector.from_bits(BITS), sample_log2=9).save(os.path.join(folder, "index"))
    bitm.EliasFano(NUMBERS).save(os.path.join(folder, "sequence"))


def read(folder, mapped):
    index = bitm.load(os.path.join(folder, "index"), mmap=mapped)
    sequence = bitm.load(os.path.join(folder, "sequence"), mmap=mapped)
    assert index.check() and sequence.check(), folder
    assert list(index) == BITS and list(sequence) == NUMBERS, folder
    for kind, select in ((True, index.select_list), (False, index.select0_list)):
        positions = [i for i, bit in enumerate(BITS) if bit == kind]
        assert select(range(len(positions) + 1)) == [*positions, None], folder


if __name__ == "__main__":
    write(sys.argv[1])
    for path in sys.argv[1:]:
        read(path, False)
        read(path, True)
