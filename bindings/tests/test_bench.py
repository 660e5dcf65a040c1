"""The programs of bench over few items: they compile, print rows, and find no answer that is not that of counting, of
another form or of sdsl-lite."""
import csv
import subprocess

import pytest
from common import ARCHIVE, bitm_program
from shell import bash, needs

CC = "cc -std=c11 -O2 -march=x86-64-v2"
CXX = "c++ -std=c++14 -O2 -DNDEBUG -march=x86-64-v2"
OF_SDSL = "-lsdsl -ldivsufsort -ldivsufsort64"
IN_C = {"calls": ["10 1"], "stored": ["10 1"], "limits": ["12 1", "12 1 huge"],
        "mapped": [f"{kind} 16 1" for kind in ("index", "sequence", "matrix", "tree")] + ["tree 23 1"]}
BESIDE_SDSL = {"sdsl": ["10 1"], "structures": [f"{it} 10 1" for it in ("numbers8", "numbers16", "sequence", "sparse", "tree")], "texts": []}


def run(compiler, source, library, program, words):
    """Compiles a program and runs it with each of the words; a row has seven fields, of which the fifth is a number."""
    bash(f"{compiler} -o {program} {source} {library}")
    for it in words:
        rows = list(csv.reader(bash(f"{program} {it}", program.parent, TMPDIR=str(program.parent)).splitlines()))
        assert rows and all(len(row) == 7 and float(row[4]) >= 0 for row in rows), rows


def has_header(name):
    """Whether a C++ compiler finds a header."""
    return not subprocess.run(["c++", "-E", "-include", name, "-x", "c++", "/dev/null"], capture_output=True, check=False).returncode


@pytest.mark.parametrize("name", IN_C)
def test_in_c(name, tmp_path):
    needs("cc")
    run(CC, f"bench/{name}.c", ARCHIVE, tmp_path / name, IN_C[name])


@pytest.mark.parametrize("name", BESIDE_SDSL)
def test_beside_sdsl(name, tmp_path):
    needs("c++")
    if not has_header("sdsl/bit_vectors.hpp"):
        pytest.skip("no sdsl-lite")
    (tmp_path / "text").write_bytes(b"she sells sea shells on the sea shore " * 50)
    words = [f"text {tmp_path}/text {bitm_program()} 1"] if name == "texts" else BESIDE_SDSL[name]
    run(CXX, f"bench/{name}.cpp", f"{ARCHIVE} {OF_SDSL}", tmp_path / name, words)


@pytest.mark.parametrize("what", ["words", "keys 10", "lists 15"])
def test_beside_peers(what, tmp_path):
    needs("c++")
    if not has_header("marisa.h"):
        pytest.skip("no marisa-trie")
    if not has_header("roaring/roaring.h"):
        pytest.skip("no CRoaring")
    (tmp_path / "lines").write_text("".join(f"{at * at} sea shells\n" for at in range(300)), encoding="utf-8")
    words = f"words {tmp_path}/lines 1" if what == "words" else f"{what} 1"
    run(CXX, "bench/peers.cpp", f"{ARCHIVE} -lmarisa -lroaring", tmp_path / "peers", [words])
