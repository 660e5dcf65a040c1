"""What the tests of the artefacts share: the artefacts, unpacked where nothing else is, and their examples."""
import functools
import os
import pathlib
import re
import shutil
import tempfile

import pytest
from checks import TOP
from shell import bash, needs

DIST = pathlib.Path(os.environ.get("DIST", TOP / "dist")).resolve()
COMMIT = re.search(r"^commit +(\w+)$", (DIST / "PROVED").read_text(), re.M)[1]
VERSION = re.search(r"vokhuliza-(.*)\.spdx\.json", " ".join(map(str, DIST.glob("*.spdx.json"))))[1]
TARGET = "x86_64-unknown-linux-gnu"
slow = pytest.mark.skipif(os.environ.get("QUICK") == "1", reason="takes long")
WARNINGS = "-Wall -Wextra -Wconversion -pedantic -Werror"
PROGRAMS = "check statuses sequences stored hashes one_view pages guarded hostile careless".split()
PYTHON = "/usr/bin/python3"


def artefact(pattern):
    """The artefact of that name; skips the test where there is none."""
    found = sorted(DIST.glob(pattern))
    if not found:
        pytest.skip(f"no {pattern}")
    return found[0]


@functools.lru_cache(None)
def room():
    """A folder of this run, away from the artefacts."""
    folder = tempfile.TemporaryDirectory(prefix="dist-check-")
    room.folder = folder  # goes when the run ends
    return pathlib.Path(folder.name)


@functools.lru_cache(None)
def unpacked(pattern, name):
    """The folder in a tarball, under a name that it has nowhere else."""
    to = room() / name
    shutil.unpack_archive(artefact(pattern), to, "gztar")
    return next(to.iterdir())


def sources():
    return unpacked(f"vokhuliza-{VERSION}.tar.gz", "source")


def ready():
    """The sources with the archive in them."""
    return unpacked(f"vokhuliza-{VERSION}-{TARGET}.tar.gz", "ready")


@functools.lru_cache(None)
def tree():
    """Headers, libraries, guides and examples, in a folder that they were not made for."""
    needs("gcc", "g++", "pkg-config")
    return unpacked(f"bitm-{VERSION}-{TARGET}.tar.gz", "tree").rename(room() / "moved")


def flags_of(folder, words="--cflags --libs"):
    return bash(f"pkg-config {words} bitm", folder, PKG_CONFIG_PATH=str(folder / "lib/pkgconfig")).strip()


def run_example(source, flags, **variables):
    """Compiles and runs an example, and compares what it prints with the text beside it. Returns the program."""
    folder, language, name = source.parents[1], source.suffix[1:], source.stem
    compiler = {"c": "gcc -std=c11", "cpp": "g++ -std=c++17"}[language]
    program = pathlib.Path(tempfile.mkdtemp(dir=room())) / name
    bash(f"{compiler} {WARNINGS} {source} {flags} -o {program}", room())
    said = next(it for it in (folder / f"c/{name}.txt", folder / f"{name}.txt") if it.is_file())
    assert bash(f"{program} {program}.file", room(), **variables) == said.read_text()
    return program


def examples_in_c(folder, flags, **variables):
    """Those in C and one in C++; the first program."""
    return [run_example(it, flags, **variables) for it in [folder / "c/primes.c", *sorted(folder.glob("c/*.c")), folder / "cpp/primes.cpp"]][0]


def examples_in_python(python, **variables):
    folder = sources() / "examples"
    for name in ("primes", "words"):
        assert bash(f"{python} -W error {folder}/python/{name}.py", room(), **variables) == (folder / f"{name}.txt").read_text()


def environment(name, python=PYTHON):
    """A fresh one, which sees the system's modules for its tests, and has no bitm. Returns its Python."""
    needs(f"{python}:venv", f"{python}:ensurepip")
    bash(f"{python} -m venv --system-site-packages {room()}/{name}")
    own = room() / name / "bin/python"
    bash(f"! {own} -c 'import bitm'", "/")
    return own


def install(python, what, words=""):
    bash(f"{python} -m pip install --quiet --disable-pip-version-check --no-index {words} {what}", room())
    bash(f"{python} -c 'import bitm, sys; assert bitm.__file__.startswith(sys.prefix), bitm.__file__'", "/")
