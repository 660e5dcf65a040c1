"""How keys are hashed: by SipHash-1-3 with the key (seed, kind), beside a plain program, which answers as Python's own hash
of bytes does."""
import random
import subprocess
import sys

import pytest
from blocks import as_bytes, block, hash_sections, packed

import bitm

MASK = 2**64 - 1
TEXT, BYTES, NUMBER, LARGE = 1, 2, 3, 4


def turned(word, by):
    return (word << by | word >> 64 - by) & MASK


def siphash(data, k0, k1):
    v0, v1, v2, v3 = k0 ^ 0x736F6D6570736575, k1 ^ 0x646F72616E646F6D, k0 ^ 0x6C7967656E657261, k1 ^ 0x7465646279746573
    whole = data + bytes(-(len(data) + 1) % 8) + bytes([len(data) % 256])
    rounds = [(int.from_bytes(whole[at : at + 8], "little"), 1) for at in range(0, len(whole), 8)] + [(None, 3)]
    for word, count in rounds:
        if word is None:
            v2 ^= 0xFF
        else:
            v3 ^= word
        for _ in range(count):
            v0, v2 = (v0 + v1) & MASK, (v2 + v3) & MASK
            v1, v3 = turned(v1, 13) ^ v0, turned(v3, 16) ^ v2
            v0 = turned(v0, 32)
            v2, v0 = (v2 + v1) & MASK, (v0 + v3) & MASK
            v1, v3 = turned(v1, 17) ^ v2, turned(v3, 21) ^ v0
            v2 = turned(v2, 32)
        v0 ^= word or 0
    return v0 ^ v1 ^ v2 ^ v3


def mixed(word):
    """The last steps of MurmurHash3."""
    word = (word ^ word >> 33) * 0xFF51AFD7ED558CCD & MASK
    word = (word ^ word >> 33) * 0xC4CEB9FE1A85EC53 & MASK
    return word ^ word >> 33


def fingerprint(key, seed):
    """The 64 bits that are kept of a single key, whose number is 0."""
    _, parts = bitm._core.parts(bitm.PerfectHash([key], bits=64, seed=seed))
    return memoryview(parts[4])[0]


def test_the_plain_program_is_python_s_own_hash():
    if sys.hash_info.algorithm != "siphash13":
        return
    program = "print([hash(bytes(range(count))) for count in range(1, 70)])"
    done = subprocess.run([sys.executable, "-c", program], capture_output=True, text=True, check=True, env={"PYTHONHASHSEED": "0"})
    assert [it % 2**64 for it in eval(done.stdout)] == [siphash(bytes(range(count)), 0, 0) for count in range(1, 70)]


def test_keys():
    random.seed(4)
    for seed in (0, 1, 2**64 - 1):
        for count in [*range(40), 255, 256, 1000]:
            data = random.randbytes(count)
            text = "".join(map(chr, data))
            assert fingerprint(data, seed) == mixed(siphash(data, seed, BYTES))
            assert fingerprint(text, seed) == mixed(siphash(text.encode(), seed, TEXT))
        for number in (0, 1, -1, 255, -(2**63), 2**63 - 1, random.getrandbits(62)):
            assert fingerprint(number, seed) == mixed(siphash(number.to_bytes(8, "little", signed=True), seed, NUMBER))
        for number in (2**63, 2**64 - 1, -(2**63) - 1, 2**64, 2**200, -(2**200), 2**127, 2**128 - 1):
            data = number.to_bytes(number.bit_length() // 8 + 1, "little", signed=True)
            assert fingerprint(number, seed) == mixed(siphash(data, seed, LARGE))


def test_keys_of_other_types_are_hashed_as_those_that_they_equal():
    class Text(str):
        pass

    class Data(bytes):
        pass

    class Number(int):
        pass

    class Index:
        def __index__(self):
            return 77

    for one, other in ((Text("abc"), "abc"), (Data(b"abc"), b"abc"), (Number(77), 77), (Index(), 77), (True, 1), ("\ud800", "\ud800")):
        assert fingerprint(one, 5) == fingerprint(other, 5)
    assert fingerprint("\ud800", 5) == mixed(siphash("\ud800".encode("utf-8", "surrogatepass"), 5, TEXT))
    assert len({fingerprint(it, 5) for it in ("a", b"a", 97, "97")}) == 4


# The hash and the fingerprint of a key by a seed, as numbers: files depend on them, those of other languages too.
PINNED = (
    ("foobar", TEXT, b"foobar", 0, 0x355C0EF1F4CC71BB, 0xF881BAAC463E28C4),
    ("", TEXT, b"", 1, 0xFFB385B99BA0D439, 0xE7E73B7DC4F4BAB8),
    ("\ud800", TEXT, b"\xed\xa0\x80", 5, 0x48903223F600DAC0, 0x7D3849D404D01E60),
    (b"foobar", BYTES, b"foobar", 2**64 - 1, 0xDDACE939BF079FDA, 0x4F48A43C80E1B998),
    (-2, NUMBER, b"\xfe" + b"\xff" * 7, 0, 0x25B31ED122F89661, 0x1190A2AF381885A1),
    (2**63, LARGE, bytes(7) + b"\x80\0", 3, 0x16D0E47E44E60F44, 0x6313C9D0098304B0),
)


@pytest.mark.parametrize("key, kind, data, seed, hashed, print_of", PINNED)
def test_hashes_stay_as_they_are(key, kind, data, seed, hashed, print_of):
    assert (siphash(data, seed, kind), mixed(hashed)) == (hashed, print_of)
    assert fingerprint(key, seed) == print_of


@pytest.mark.parametrize("bits", [0, 1, 16, 32])
def test_a_block_that_another_language_wrote_is_read(bits):
    """Built by docs/FORMAT.md alone, of keys of each kind: the hash, and a section of fingerprints whose role is `bitmhas2`."""
    kinds = [(key, kind, data) for key, kind, data, *_ in PINNED] + [(f"key {at}", TEXT, f"key {at}".encode()) for at in range(200)]
    hashes = [siphash(data, 7, kind) for _, kind, data in kinds]
    sections, order = hash_sections(hashes, 100)
    prints = packed([mixed(it) >> k & 1 for it in order for k in range(bits)])
    role = int.from_bytes(b"bitmhas2", "little")
    data = as_bytes(block(5, len(order), 0, [*sections, (role, [bits, *prints], 8 + 8 * len(prints))], a=7))
    keys = [key for key, _, _ in kinds]
    for found in (bitm.loads(data), bitm.PerfectHash.over(data)):
        assert (found.bits, found.seed, found.hash, found.check()) == (bits, 7, "siphash", True)
        assert [found[key] for key in keys] == found.get_list(keys) == [order.index(it) for it in hashes]
    assert bytes(bitm.PerfectHash(keys, bits=bits, seed=7).block) == data
