"""Indexes of texts that are built in C beside one scan of each text: how often patterns stand in it, and where. With LARGE=1 a
million patterns each, and texts of 2^30 letters, which take 10 GB and 20 minutes of a processor each."""
import pathlib
import shutil

import pytest
from checks import TOP
from common import LARGE, bitm_program, compiled
from shell import bash, needs

WORDS = pathlib.Path("/usr/share/dict/words")  # Debian: wamerican
PATTERNS, LOG2 = (1000000, 30) if LARGE else (100000, 20)
FILES = {
    "words": WORDS.read_bytes if WORDS.is_file() else None,
    "program": lambda: pathlib.Path(shutil.which("bash")).read_bytes(),
    "one letter": lambda: b"a" * (1 << 20),
    "each byte": lambda: bytes(range(256)) * (1 << 10),
    "sources": lambda: b"".join(it.read_bytes() for it in sorted(TOP.glob("crates/*/src/**/*.rt"))),
}
DRAWN = {"four letters": f"four {LOG2}", "sentences": f"words {WORDS} {LOG2}"}


@pytest.fixture(scope="module")
def program(tmp_path_factory):
    needs("gcc")
    return compiled("gcc -std=c11 -O2", "bindings/c/scanned.c", tmp_path_factory.mktemp("scanned"))


@pytest.mark.parametrize("name", FILES)
def test_file(name, program, tmp_path):
    """The program `bitm text build` makes the same block."""
    if not FILES[name]:
        pytest.skip(f"no {WORDS}")
    (tmp_path / "text").write_bytes(FILES[name]())
    bash(f"{bitm_program()} text build < text > block", tmp_path)
    bash(f"{program} {PATTERNS} file text block", tmp_path)


@pytest.mark.parametrize("name", DRAWN)
def test_drawn(name, program, tmp_path):
    if name == "sentences" and not WORDS.is_file():
        pytest.skip(f"no {WORDS}")
    bash(f"timeout 3600 {program} {PATTERNS} {DRAWN[name]}", tmp_path)
