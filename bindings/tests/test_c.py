"""The programs in C, also under sanitizers and by clang; fuzzers over their corpora; the headers alone."""
import shutil

import pytest
from checks import TOP
from common import LARGE, SANITIZED, SEEDS, WARNINGS, compiled, large
from shell import bash, needs

PROGRAMS = "check one_view sequences walks cursors stored statuses lengths opened flipped pages guarded hostile careless hashes fingerprints shards trees tries trie_words items sections matrices matrix_levels matrix_ranges matrix_tallies blocks extended sparse texts built_texts dictionaries seeded_blocks strings string_hashes costs hostile_blocks".split()
# They touch what they may not, or map pages of their own.
BY_GCC_ALONE = {"pages", "guarded", "hostile", "hostile_blocks", "careless", "cursors"}
WAYS = {"gcc": "gcc -O2 -pthread", "sanitizers": f"gcc {SANITIZED}", "clang": "clang -O2"}
STRICT = f"{WARNINGS} -Wsign-conversion -Wshadow -Wcast-align -Wcast-qual -Iinclude -fsyntax-only"


@pytest.mark.parametrize("program, way", [(it, way) for it in PROGRAMS for way in WAYS if way == "gcc" or it not in BY_GCC_ALONE])
def test_program(program, way, tmp_path):
    """It says at its end what it found, so one that ends before fails."""
    needs(WAYS[way].split()[0])
    it = compiled(f"{WAYS[way]} -std=c11", f"bindings/c/{program}.c", tmp_path)
    for seed in [*range(1, SEEDS + 1), ""] if way == "gcc" else [""]:
        assert bash(f"{it} {seed}", tmp_path)


def test_every_program_is_listed():
    """Those that other tests run are named there; that of two_parts.c is for the hand (crates/bitm_c/README.md)."""
    others = "".join(it.read_text(encoding="utf-8") for it in (TOP / "bindings/tests").glob("*.py"))
    for it in (TOP / "bindings/c").glob("*.c"):
        assert it.stem in (*PROGRAMS, "two_parts") or f"bindings/c/{it.name}" in others, it


@large
def test_many_hostile_queries(tmp_path):
    """10^8 queries of blocks whose sections hold anything."""
    bash(f"{compiled('gcc -O2 -std=c11', 'bindings/c/hostile_blocks.c', tmp_path)} 1 100", tmp_path)


@pytest.mark.parametrize("name", ["stored", "index", "sequences", "hashes", "cpp"])
def test_fuzzer(name, tmp_path):
    """Over its corpus, and with LARGE=1 over a minute of other inputs. One that fails is printed, in base 64."""
    compiler, source = ("clang++ -std=c++17", "bindings/cpp/fuzz.cpp")
    if name != "cpp":
        compiler, source = ("clang -std=c11", f"bindings/c/fuzz/{name}.c")
    needs(compiler.split()[0])
    it = compiled(f"{compiler} {SANITIZED} -fsanitize=fuzzer", source, tmp_path)
    shutil.unpack_archive(TOP / source.replace(".cpp", ".c").replace(".c", "_seed_corpus.zip"), tmp_path / "corpus")
    bash(f"{it} -runs=0 corpus", tmp_path)
    if LARGE:
        bash(f"mkdir new && {it} -max_total_time=60 -max_len=4096 -print_final_stats=1 new corpus", tmp_path)


@pytest.mark.parametrize("c, cpp, newest", [("gcc", "g++", "c++17"), ("clang", "clang++", "c++20")])
def test_headers_alone(c, cpp, newest):
    """bitm.h and bitm.hpp in each standard, without exceptions too, and each header of C++ in one: no warning."""
    needs(c, cpp)
    for standard in ("c99", "c11", "c17", "c2x"):
        bash(f"{c} -std={standard} {STRICT} -x c - <<< '#include <bitm.h>'")
    for header in sorted((TOP / "include/bitm").glob("*.hpp")):
        bash(f"{cpp} -std={newest} {STRICT} -Wnon-virtual-dtor -x c++ - <<< '#include <bitm/{header.name}>'")
    for standard in ("c++17", "c++20", "c++2b"):
        for more in ("", "-fno-exceptions -fno-rtti"):
            bash(f"{cpp} -std={standard} {more} {STRICT} -x c++ - <<< '#include <bitm.hpp>'")


@pytest.mark.parametrize("target, why", [
    ("s390x-linux-gnu", "little-endian processors"), ("aarch64_be-linux-gnu", "little-endian processors"),
    ("i386-linux-gnu", "processors with 64-bit addresses"), ("arm-linux-gnueabihf", "processors with 64-bit addresses"),
])
def test_header_elsewhere(target, why):
    """On a machine of the other byte order, or of 32 bits, bitm.h does not compile and says why."""
    needs("clang")
    refused = f"! clang --target={target} -ffreestanding -Iinclude -fsyntax-only -x c - <<< '#include <bitm.h>' 2>&1"
    assert f'error: "bitm: the library is for {why}"' in bash(refused)
