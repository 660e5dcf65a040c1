"""The programs in C++, also under sanitizers, by clang and in each mode; and those that must not compile."""
import pytest
from checks import TOP
from common import SANITIZED, compiled, large
from shell import bash, needs

WAYS = {"gpp": "g++ -std=c++17 -O2", "sanitizers": f"g++ -std=c++17 {SANITIZED}", "clang": "clang++ -std=c++20 -O2"}
VERSION_2, TESTS = TOP / "bindings/cpp/version2", TOP / "bindings/tests"
DATA = {"texts": TESTS / "sea_shells.block", "files": VERSION_2, "kinds": VERSION_2, "version3": TESTS / "version_3.blocks",
        "keys": TESTS / "key_hashes.blocks"}
MODES = ["c++17 -fno-exceptions -fno-rtti", "c++20", "c++20 -fno-exceptions -fno-rtti", "c++2b"]


@pytest.mark.parametrize("way", WAYS)
@pytest.mark.parametrize("program", [
    "check", "stored", "shards", "trees", "tries", "matrices", "sparse", "sections", "cursors", "dictionaries", "hashes", "keys", "strings", "texts",
    "files", "kinds", "shown", "version3"])
def test_program(program, way, tmp_path):
    """It says at its end what it found, so one that ends before fails."""
    needs(WAYS[way].split()[0])
    it = compiled(WAYS[way], f"bindings/cpp/{program}.cpp", tmp_path)
    assert bash(f"{it} {DATA.get(program, '')}", tmp_path)


@large
@pytest.mark.parametrize("mode", MODES)
@pytest.mark.parametrize("compiler", ["g++", "clang++"])
def test_check_in_each_mode(compiler, mode, tmp_path):
    needs(compiler)
    bash(compiled(f"{compiler} -std={mode} -O1", "bindings/cpp/check.cpp", tmp_path), tmp_path)


@pytest.mark.parametrize("compiler", ["g++", "clang++"])
def test_programs_that_must_not_compile(compiler):
    needs(compiler)
    bash(f"bindings/cpp/refused.sh '{compiler} -std=c++17'")


@pytest.mark.parametrize("compiler", ["true", "false"])
def test_a_compiler_that_takes_all_or_nothing_fails(compiler):
    """So the programs that must not compile are counted, and so is the one that has to."""
    bash(f"! bindings/cpp/refused.sh {compiler}")
