"""Blocks that C writes, and files of version 2 that a release wrote, beside those by docs/FORMAT.md of the same bits and numbers."""
import itertools
import struct
import subprocess

import pytest

from blocks import as_bytes, as_version_3, of_bits, of_bytes, of_dictionary, of_hash, of_matrix, of_old_bits, of_old_sequence
from blocks import of_seeded_hash, of_sequence, of_sparse, of_strings, of_tree, of_trie, packed, siphash
from checks import TOP
from common import compiled
from shell import needs

# By the kind of the block; a dictionary and a hash with seeds are of kind 5, as a hash.
WRITERS = {2: of_bits, 3: of_sequence, 4: of_sparse, 5: of_hash, 6: of_matrix, 7: of_tree, 9: of_trie, 12: of_strings,
           50: of_dictionary, 51: of_seeded_hash}
SEEDED = {5, 12, 50, 51}


def test_blocks_are_those_of_the_format(tmp_path):
    needs("gcc")
    it = compiled("gcc -O2 -std=c11", "bindings/c/formats.c", tmp_path)
    printed = subprocess.run([it], capture_output=True, check=True).stdout
    words = list(struct.unpack(f"<{len(printed) // 8}Q", printed))
    kinds = []
    while words:
        kind, length, width, given, size, seed = words[:6]
        seeds = [seed] if kind in SEEDED else []
        made = WRITERS[kind](length, width, words[6 : 6 + given], *seeds)
        assert words[6 + given : 6 + given + size] == made, (kind, length, width)
        kinds.append(kind)
        del words[: 6 + given + size]
    assert {kind: kinds.count(kind) for kind in WRITERS} == {
        2: 9, 3: 9, 4: 18, 5: 9, 6: 96, 7: 18, 9: 36, 12: 9, 50: 9, 51: 12}


@pytest.mark.parametrize("of", [list, as_version_3], ids=["", "of version 3"])
@pytest.mark.parametrize("kind", [10, 12])
def test_strings_in_blocks_of_either_kind_are_found(tmp_path, kind, of):
    """Blocks that are written by docs/FORMAT.md: strings hashed by FNV-1a in kind 10, by SipHash-1-3 in kind 12."""
    needs("gcc")
    it = compiled("gcc -O2 -std=c11", "bindings/c/read_strings.c", tmp_path)
    for count in (0, 1, 3, 300):
        strings = [b"%d" % (k * k) * (k % 5) + b"!" * (k % 17) + b"%x" % k for k in range(count)]
        ends, text = [*itertools.accumulate(map(len, strings))], b"".join(strings)
        words = struct.unpack(f"<{-(-len(text) // 8)}Q", text + bytes(-len(text) % 8))
        made = of(of_strings(count, 100, [*ends, *words], 7 * count, kind))
        printed = subprocess.run([it], input=as_bytes(made), capture_output=True, check=True).stdout
        assert sorted(printed.splitlines()) == sorted(strings), (kind, count)


def test_strings_are_hashed_as_rust_does():
    """Values of `core::hash::SipHasher13` of Rust 1.95 with the key (seed, 0), of the bytes 0, 1, 2, .. modulo 256."""
    known = {(0, 0): 0xD1FBA762150C532C, (1, 0): 0xC44A0EBF4E962581, (0x0706050403020100, 0): 0xF46D3BFE2EA281DC,
             (0x0706050403020100, 7): 0x3DD20BC6123B60E0, (0x0706050403020100, 8): 0x5124317F8CFC24CB,
             (0x0706050403020100, 17): 0xF0F41B97A64C8426, (0x0706050403020100, 300): 0xA2FA13B0E57D2054}
    assert {(seed, n): siphash(bytes(k % 256 for k in range(n)), seed) for seed, n in known} == known


def test_the_block_that_other_tests_read():
    """That of a text, which `bitm text build` and tests in C++, Rust and JavaScript have from here."""
    made = as_bytes(of_bytes(b"she sells sea shells on the sea shore"))
    for folder in ("bindings/tests", "bindings/rust/tests/common"):
        assert (TOP / folder / "sea_shells.block").read_bytes() == made


SQUARES = [n * n for n in range(40)]
STRINGS = [3, 6, int.from_bytes(b"adabob", "little")]
EACH_KIND = [
    of_bits(100, 0, packed([at % 3 == 0 for at in range(100)])),
    of_sequence(40, 0, SQUARES),
    of_sparse(40, 2000, SQUARES),
    of_hash(40, 100, SQUARES, 7),
    of_seeded_hash(40, 100, [*SQUARES, 16], 7),
    of_dictionary(40, 100, SQUARES, 7),
    of_matrix(6, 3, [3, 1, 4, 1, 5, 1]),
    of_tree(4, 0, [2, 0, 1, 0]),
    of_bytes(b"banana"),
    of_trie(4, 8, [2, 0, 1, 0, 97, 98, 101, 0b1110]),
    of_strings(2, 100, STRINGS, 0),
    of_strings(2, 100, STRINGS, 0, kind=10),
]


def test_the_blocks_of_version_3_that_other_tests_read():
    """One of each kind, one after another, which tests in C, C++, Rust, Python and JavaScript open, check and query."""
    made = b"".join(as_bytes(as_version_3(it)) for it in EACH_KIND)
    for folder in ("bindings/tests", "bindings/rust/tests/common"):
        assert (TOP / folder / "version_3.blocks").read_bytes() == made


def test_blocks_of_version_3_in_c(tmp_path):
    needs("gcc")
    it = compiled("gcc -O2 -std=c11", "bindings/c/version3.c", tmp_path)
    assert subprocess.run([it, TOP / "bindings/tests/version_3.blocks"], capture_output=True, check=True).stdout


def test_files_of_version_2_are_those_of_the_format():
    released = TOP / "bindings/python/tests/version_2"
    bits = [at * at % 7 < 2 or at % 100 < 10 for at in range(1001)]
    assert (released / "index").read_bytes() == as_bytes(of_old_bits(1001, packed(bits)))
    numbers = [1000 * at + at * at % 1000 for at in range(100)]
    assert (released / "sequence").read_bytes() == as_bytes(of_old_sequence(numbers))
