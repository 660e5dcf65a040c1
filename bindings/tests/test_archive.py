"""The archive, and the libraries of Rattle below it."""
import re
import shutil

from checks import TOP, below, read
from common import ARCHIVE, LARGE, exports
from shell import bash, needs


def test_exports_are_those_of_the_header():
    needs("nm")
    declared = re.findall(r"^(?:BITM_MUST_USE )?(?:uint32_t|size_t|void) (bitm_[a-z0-9_]+)\(", read("include/bitm.h"), re.M)
    assert exports() == sorted(declared) != []
    assert " U " not in bash(f"nm --undefined-only {ARCHIVE}")


def test_size_is_what_its_readme_says():
    said = 1024 * int(re.search(r"archive has (\d+) KB", read("crates/bitm_c/README.md"))[1])
    assert 19 * said < 20 * ARCHIVE.stat().st_size < 21 * said


def test_rattle_in_another_repository(tmp_path):
    """The libraries that are copied stand as they are proved here, and a program over them runs."""
    needs("rt")
    bash(f"scripts/vendor {tmp_path}")
    shutil.copytree(TOP / "crates/example_primes", tmp_path / "crates/example_primes")
    with open(tmp_path / "crates.txt", "a", encoding="utf-8") as lines:
        lines.write("example_primes: bitm\n")
    for name in ["bitm", *below("bitm")]:
        for part in (it for it in ("src", "specs", "proofs") if (TOP / "crates" / name / it).exists()):
            bash(f"diff -r crates/{name}/{part} {tmp_path}/crates/{name}/{part}")
    if LARGE:
        bash(f"source scripts/below && FOLDER={tmp_path}/crates/example_primes rattle_over example_primes check src/main.rt")
    printed = bash("rt try -- data/primes_below_1000.txt", tmp_path / "crates/example_primes")
    assert printed == read("crates/example_primes/stdout") == read("examples/primes.txt")
