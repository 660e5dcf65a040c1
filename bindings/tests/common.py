"""What the tests of the bindings know of the archive, of the program, of compilers and of the examples."""
import functools
import os
import platform
import re

import pytest
from checks import TOP, read
from programs import built
from shell import bash

PROCESSOR = {"x86_64": "x86-64-v2"}.get(platform.machine(), platform.machine())
BUILT, PREBUILT = TOP / "crates/bitm_c/out/libbitm_c.a", TOP / f"prebuilt/{PROCESSOR}/libbitm_c.a"
ARCHIVE = BUILT if BUILT.is_file() else PREBUILT
LARGE = os.environ.get("LARGE", "0") != "0"
large = pytest.mark.skipif(not LARGE, reason="with LARGE=1")
PYTHON = "/usr/bin/python3"
SEEDS = int(os.environ.get("SEEDS", "0"))
WARNINGS = "-Wall -Wextra -Wconversion -pedantic -Werror"
# -g1: a report names the line; where each variable lies would take a fifth of the time of the compiler
SANITIZED = "-g1 -O1 -fsanitize=address,undefined -fno-sanitize-recover=all"
EXAMPLES = "primes stored postings perfect_hash".split()


def compiled(compiler, source, folder, library=f"-Iinclude {ARCHIVE}"):
    """Compiles a program without a warning, and returns its path."""
    bash(f"{compiler} {WARNINGS} {source} {library} -o {folder}/program")
    return folder / "program"


@functools.lru_cache(None)
def bitm_program():
    """The program bitm: that of prebuilt/ where it is proved, of the sources of this tree, else one that is built."""
    try:
        bash("python3 scripts/prebuilt check prebuilt")
    except AssertionError:
        return built("program_bitm")
    return TOP / "prebuilt/bin/bitm-x86-64" if platform.machine() == "x86_64" else built("program_bitm")


def exports():
    return sorted(re.findall(r" T (\w+)$", bash(f"nm --extern-only --defined-only {ARCHIVE}"), re.M))


def wanted(example):
    """What an example prints."""
    own = TOP / f"examples/c/{example}.txt"
    return read(own if own.is_file() else f"examples/{example}.txt")


def arguments(example):
    return "file" if example == "stored" else ""
