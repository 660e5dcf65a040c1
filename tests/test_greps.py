"""The program bitm beside grep: which lines of a text have a pattern or one of a list, how many, and at which bytes these stand;
the status is that of grep."""
import os
import random
import subprocess

import pytest
from programs import built, room

PROGRAM = built("program_bitm")
RANDOM = random.Random(1)
TEXTS = {
    "no byte": b"",
    "a line feed": b"\n",
    "empty lines": b"a\n\n\nb\n\n",
    "an open last line": b"ab\nba\nab",
    "letters": b"".join(bytes(RANDOM.choices(b"ab ", k=RANDOM.randrange(9))) + b"\n" for _ in range(400)),
    "bytes": bytes(it for it in RANDOM.choices(range(1, 256), k=4000)).replace(b"\n", b"\n\n") + b"\n",
    "words": b"".join(b"%s %d\n" % (RANDOM.choice([b"whale", b"sea", b"ship", b"seas"]), n) for n in range(500)),
}
PATTERNS = ["", "a", "ab", "aa", "aba", "b a", "sea", "seas 4", " 1", "whale 49", "z"]


def bitm(*arguments, text=b""):
    """What bitm writes; its status is 1 where it found nothing."""
    made = subprocess.run([PROGRAM, "text", *arguments], input=text, capture_output=True, check=False)
    found = arguments[0] == "build" or any(int(it) for it in made.stdout.split()) or arguments[0] == "locate" and made.stdout != b""
    assert (made.returncode, made.stderr) == (0 if found else 1, b"")
    return made.stdout


def grep(*arguments, text):
    """What grep writes of a text as bytes, of which it says nothing where no line has the pattern."""
    made = subprocess.run(["grep", "-aF", *arguments], input=text, capture_output=True, env={**os.environ, "LC_ALL": "C"}, check=False)
    assert made.returncode == (1 if made.stdout in (b"", b"0\n") else 0)
    return made.stdout


def numbers(lines):
    return [int(it.split(b":")[0]) for it in lines.split(b"\n")[:-1]]


@pytest.fixture(params=TEXTS, scope="module")
def block(request):
    path = room() / f"{request.param}.block"
    path.write_bytes(bitm("build", text=TEXTS[request.param]))
    return TEXTS[request.param], path


@pytest.mark.parametrize("pattern", PATTERNS)
def test_lines(block, pattern):
    text, path = block
    found = numbers(bitm("lines", pattern, path))
    assert found == [n for n, it in enumerate(text.removesuffix(b"\n").split(b"\n"), 1) if text and pattern.encode() in it]
    told = grep("-n", pattern, text=text)
    assert found == numbers(told)
    assert len(found) == int(grep("-c", pattern, text=text))


@pytest.mark.parametrize("pattern", PATTERNS[1:])
def test_places(block, pattern):
    """grep goes on after a match, so those that overlap it are of `locate` alone."""
    text, path = block
    found = numbers(bitm("locate", pattern, path))
    assert found == [at for at in range(len(text)) if text.startswith(pattern.encode(), at)]
    assert set(numbers(grep("-bo", pattern, text=text))) <= set(found)
    assert len(found) == int(bitm("count", pattern, path))


LISTS = {
    "words": ["sea", "whale 49", "ship 1"],
    "some that stand nowhere": ["zz", "b a", "sea 3", "q"],
    "none that stands": ["zz", "qq"],
    "one twice": ["ab", "ab"],
    "an empty one": ["ab", ""],
    "no pattern": [],
}


@pytest.mark.parametrize("end", ["\n", "\r\n"])
@pytest.mark.parametrize("name", LISTS)
def test_lists(block, name, end, tmp_path):
    """A pattern a line; grep takes a carriage return for a part of the pattern."""
    text, path = block
    patterns, listed, plain = LISTS[name], tmp_path / "listed", tmp_path / "plain"
    listed.write_bytes("".join(it + end for it in patterns).encode())
    plain.write_text("".join(f"{it}\n" for it in patterns))
    assert numbers(bitm("lines", "-f", listed, path)) == numbers(grep("-n", "-f", plain, text=text))
    assert numbers(bitm("count", "-f", "-", path, text=listed.read_bytes())) == [
        sum(text.startswith(it.encode(), at) for at in range(len(text) + 1)) for it in patterns]
    places = {at for at in range(len(text) + 1) for it in patterns if text.startswith(it.encode(), at)}
    assert numbers(bitm("locate", "-f", listed, path)) == sorted(places)


def test_damaged(tmp_path):
    """Without a look at the checksums a block of which a letter was changed is still answered, or refused."""
    text = TEXTS["words"]
    data = bytearray(bitm("build", text=text))
    file = tmp_path / "damaged.block"
    for at in range(512, len(data), 997):
        data[at] ^= 1
        file.write_bytes(data)
        made = subprocess.run([PROGRAM, "text", "count", "sea", file], capture_output=True, check=False)
        assert (made.returncode, made.stdout) == (2, b"")
        made = subprocess.run([PROGRAM, "text", "count", "--no-check", "sea", file], capture_output=True, check=False)
        assert made.returncode == 2 or int(made.stdout) <= len(text) + 1
        data[at] ^= 1
