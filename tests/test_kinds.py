"""The program bitm beside docs/FORMAT.md: `check` finds blocks of each kind good that are written by that page alone,
of version 3, without hints and with a section of a caller's own too, and wrong once a bit is flipped (of each word, with LARGE=1 each bit); `info` says what
their headers have. The same of files of version 2, which earlier releases wrote."""
import subprocess

import pytest
from blocks import as_bytes, as_version_3, of_bits, of_bytes, of_dictionary, of_hash, of_matrix, of_old_bits, of_old_sequence, of_seeded_hash, of_sequence
from blocks import noted, of_sparse, of_strings, of_text, of_tree, of_trie, old_checksum, packed, unhinted
from checks import TOP
from programs import LARGE, built, room

PROGRAM = built("program_bitm")
SPELLED = int.from_bytes(b"adabob", "little")
# What `info` says of its kind, how many items it has, and how many bits each; the words.
BLOCKS = {
    "bits": ("bits", 101, 0, of_bits(101, 0, [1 << 3 | 1 << 9, 1 << 36])),
    "sequence": ("sequence", 5, 1, of_sequence(5, 0, [2, 3, 5, 5, 11])),
    "sparse bits": ("sparse", 3, 5, of_sparse(3, 101, [3, 9, 100])),
    "a hash": ("hash", 40, 0, of_hash(40, 100, [n * n * 0x9E3779B9 for n in range(40)], 7)),
    "a hash of nothing": ("hash", 0, 0, of_hash(0, 100, [], 7)),
    "a hash with seeds": ("hash with seeds", 40, 0, of_seeded_hash(40, 100, [*(n * n * 0x9E3779B9 for n in range(40)), 16], 7)),
    "a dictionary": ("dictionary", 40, 0, of_dictionary(40, 100, [n * n for n in range(40)], 2)),
    "a matrix": ("matrix", 6, 3, of_matrix(6, 3, [3, 1, 4, 1, 5, 1])),
    "a tree": ("tree", 4, 0, of_tree(4, 0, [2, 0, 1, 0])),
    "a text of bytes": ("text", 6, 2, of_bytes(b"banana")),
    "a text of numbers": ("text", 6, 3, of_text([3, 1, 4, 1, 5, 1], 3, 8)),
    "a trie": ("trie", 4, 8, of_trie(4, 8, [2, 0, 1, 0, 97, 98, 101, 0b1110])),
    "strings": ("strings", 2, 0, of_strings(2, 100, [3, 6, SPELLED], 0)),
    "strings that FNV-1a hashes": ("strings", 2, 0, of_strings(2, 100, [3, 6, SPELLED], 0, kind=10)),
}


def bitm(command, data, questions=""):
    """The status of a command on a file of these bytes, and what it writes."""
    path = room() / "some.block"
    path.write_bytes(data)
    made = subprocess.run([PROGRAM, command, path], input=questions, capture_output=True, text=True, check=False)
    return made.returncode, made.stdout, made.stderr


def info(kind, length, width, data):
    hundredths = 800 * len(data) // length if length else 0
    rate = f"{hundredths // 100}.{hundredths % 100:02}" if length else "none"
    return f"kind {kind}\nlen {length}\nwidth {width}\nbytes {len(data)}\nbits_per_item {rate}\n"


@pytest.mark.parametrize("of", [list, unhinted, as_version_3], ids=["", "without hints", "of version 3"])
@pytest.mark.parametrize("name", BLOCKS)
def test_block(name, of):
    kind, length, width, words = BLOCKS[name]
    data = as_bytes(of(words))
    assert bitm("check", data) == (0, "good\n", "")
    assert bitm("info", data) == (0, info(kind, length, width, data), "")


WRONG = (2, "", "bitm: not a block of a kind that bitm queries, or not as it was written\n")


@pytest.mark.parametrize("of", [list, unhinted, noted, as_version_3], ids=["", "without hints", "with a section of a caller's own", "of version 3"])
@pytest.mark.parametrize("name", BLOCKS)
def test_flipped(name, of):
    words = of(BLOCKS[name][3])
    assert bitm("check", as_bytes(words)) == (0, "good\n", "")
    for at in range(len(words)):
        for bit in range(64) if LARGE else [(at * 29 + 5) % 64]:
            data = as_bytes([word ^ (n == at) << bit for n, word in enumerate(words)])
            assert bitm("check", data) == (1, "wrong\n", ""), (at, bit)
    assert bitm("info", data) == WRONG


@pytest.mark.parametrize("data", [as_bytes(BLOCKS["a tree"][3][:-8]), as_bytes(BLOCKS["a tree"][3])[:-1], b"bitmtab\x04", b"bitmtab\x03", b"bitmtab\x02"])
def test_cut(data):
    assert bitm("check", data) == (1, "wrong\n", "")
    assert bitm("info", data) == bitm("query", data) == WRONG


@pytest.mark.parametrize("data", [b"", b"ada\n", b"one\ntwo\nthree\n", as_bytes([1, 11]), b"bitmtab", b"bitmtaB\x03" + bytes(248)])
def test_unmarked(data):
    assert bitm("check", data) == (1, "wrong\n", "")
    assert bitm("info", data) == bitm("query", data) == (2, "", "bitm: not a file of bitm\n")


@pytest.mark.parametrize("name", BLOCKS)
def test_version_of_another_block(name):
    """The checksums are those of the other version of blocks."""
    new, old = as_bytes(BLOCKS[name][3]), as_bytes(as_version_3(BLOCKS[name][3]))
    for data in (old[:8] + new[8:], new[:8] + old[8:]):
        assert bitm("check", data) == (1, "wrong\n", "")
        assert bitm("info", data) == bitm("query", data) == WRONG


@pytest.mark.parametrize("version", [0, 1, 5, 255])
def test_other_version(version):
    for words in (BLOCKS["bits"][3], OLD["bits"][3]):
        data = as_bytes(words)
        data = data[:7] + bytes([version]) + data[8:]
        assert bitm("check", data) == (1, "wrong\n", "")
        assert bitm("info", data) == bitm("query", data) == (2, "", f"bitm: a file of version {version}, which this bitm does not read\n")


# What an earlier release wrote, and the same by docs/FORMAT.md; the bits and the numbers that they hold.
RELEASED = TOP / "bindings/python/tests/version_2"
BITS = [at * at % 7 < 2 or at % 100 < 10 for at in range(1001)]
NUMBERS = [1000 * at + at * at % 1000 for at in range(100)]
OLD = {
    "bits": ("bits", 1001, 0, of_old_bits(1001, packed(BITS))),
    "a sequence": ("sequence", 100, 9, of_old_sequence(NUMBERS)),
    "no bits": ("bits", 0, 0, of_old_bits(0, [])),
}
FITS = "good: the parts fit each other (version 2, which has no checksum of them)\n"


@pytest.mark.parametrize("name", OLD)
def test_old(name):
    kind, length, width, words = OLD[name]
    data = as_bytes(words)
    assert bitm("check", data) == (0, FITS, "")
    assert bitm("info", data) == (0, info(f"{kind} (version 2)", length, width, data), "")
    for at in (1, 9, 24 if length else 8):  # the kind, where a part begins, the first word
        spoilt = as_bytes([word ^ (n == at) for n, word in enumerate(words)])
        assert bitm("check", spoilt) == (1, "wrong\n", "")
        assert bitm("info", spoilt) == bitm("query", spoilt) == WRONG


def test_old_of_release():
    assert (RELEASED / "index").read_bytes() == as_bytes(OLD["bits"][3])
    assert (RELEASED / "sequence").read_bytes() == as_bytes(OLD["a sequence"][3])
    data = (RELEASED / "index_with_samples").read_bytes()
    assert bitm("check", data) == (0, FITS, "")
    assert bitm("info", data) == (0, info("bits (version 2)", 1001, 0, data), "")


def test_old_of_other_kind():
    words = list(OLD["bits"][3])
    words[1] = 3
    words[23] = old_checksum(words[:23])
    assert bitm("check", as_bytes(words)) == (1, "wrong\n", "")


@pytest.mark.parametrize("name", ["index", "index_with_samples"])
def test_old_bits_answer(name):
    ones = [at for at, bit in enumerate(BITS) if bit]
    asked = [f"{word} {at}" for at in range(1003) for word in ("rank", "select", "get")]
    answers = []
    for at in range(1003):
        answers += [sum(BITS[:at]) if at <= 1001 else "none", ones[at] if at < len(ones) else "none", int(BITS[at]) if at < 1001 else "none"]
    said = bitm("query", (RELEASED / name).read_bytes(), "".join(f"{it}\n" for it in asked))
    assert said == (0, "".join(f"{it}\n" for it in answers), "")


def test_old_sequence_answers():
    asked = [f"{word} {value}" for value in range(0, 100002, 77) for word in ("rank", "next")]
    answers = []
    for value in range(0, 100002, 77):
        rank = sum(it < value for it in NUMBERS)
        answers += [rank, NUMBERS[rank] if rank < 100 else "none"]
    said = bitm("query", (RELEASED / "sequence").read_bytes(), "".join(f"{it}\n" for it in asked) + "degree 0\n")
    assert said == (1, "".join(f"{it}\n" for it in answers) + "bad question\n", "")
