"""The library from where `make install` lays it: outside of /usr, by pkg-config, by CMake and by the README's own lines;
by CMake in a checkout; and the program with its manual page and its completions."""
import re
import shutil

import pytest
from checks import TOP, read
from common import EXAMPLES, arguments, compiled, exports, wanted
from shell import bash, needs

FETCHED = """cmake_minimum_required(VERSION 3.16)
project(fetched C)
set(CMAKE_C_STANDARD 11)
include(FetchContent)
FetchContent_Declare(bitm SOURCE_DIR {top})
FetchContent_MakeAvailable(bitm)
add_executable(primes {top}/examples/c/primes.c)
target_link_libraries(primes PRIVATE bitm::{kind})
"""
LANGUAGES = {"c": "gcc -std=c11", "cpp": "g++ -std=c++17"}


@pytest.fixture(scope="module")
def prefix(tmp_path_factory):
    needs("make", "gcc")
    folder = tmp_path_factory.mktemp("prefix")
    bash(f"make --quiet install PREFIX={folder}")
    return folder


@pytest.fixture
def flags(prefix):
    needs("pkg-config")
    return bash(f"PKG_CONFIG_PATH={prefix}/lib/pkgconfig pkg-config --cflags --libs bitm").strip()


def test_install_and_uninstall(prefix, tmp_path):
    """Also with DESTDIR and LIBDIR; `make uninstall` leaves nothing."""
    assert (prefix / "lib/libbitm_c.so").is_file()
    elsewhere = f"DESTDIR={tmp_path}/stage PREFIX=/opt/it LIBDIR=/opt/it/lib/some"
    for words in (f"PREFIX={tmp_path}/gone", elsewhere):
        bash(f"make --quiet install {words}")
    laid = tmp_path / "stage/opt/it"
    assert (laid / "include/bitm/bitm.hpp").is_file()
    assert "prefix=/opt/it" in (laid / "lib/some/pkgconfig/bitm.pc").read_text().split("\n")
    for words in (f"PREFIX={tmp_path}/gone", elsewhere):
        bash(f"make --quiet uninstall {words}")
    assert bash(f"find {tmp_path} ! -type d") == ""


def test_lines_of_the_readme(tmp_path):
    needs("make", "cc", "c++")
    home = {"HOME": str(tmp_path)}
    install, line = (re.search(f"`({it}[^`]*)`", read("README.md"))[1] for it in ("make install ", r"cc x\.c "))
    bash(install.replace("make", "make --quiet", 1), **home)
    for example in EXAMPLES:
        for language, one in (("c", line), ("cpp", line.replace("cc x.c", "c++ x.cpp"))):
            shutil.copy(TOP / f"examples/{language}/{example}.{language}", tmp_path / f"x.{language}")
            assert bash(f"{one} && ./a.out {arguments(example)}", tmp_path, **home) == wanted(example)


def test_symbol_versions(prefix):
    """The exports, each with a version, and nothing else."""
    needs("nm")
    said = bash(f"nm --dynamic --defined-only --with-symbol-versions {prefix}/lib/libbitm_c.so")
    named = [it.split()[2].split("@@") for it in said.strip().split("\n") if it.split()[1] != "A"]
    assert sorted(it[0] for it in named) == exports() and all(it[1].startswith("BITM_") for it in named)


def test_c_by_pkg_config(flags, tmp_path):
    bash(compiled(LANGUAGES["c"], "bindings/c/example.c", tmp_path, flags), tmp_path)


@pytest.mark.parametrize("language", LANGUAGES)
@pytest.mark.parametrize("example", EXAMPLES)
def test_example(example, language, flags, tmp_path):
    it = compiled(LANGUAGES[language], f"examples/{language}/{example}.{language}", tmp_path, flags)
    assert bash(f"{it} {arguments(example)}", tmp_path) == wanted(example)


def test_cmake(prefix, tmp_path):
    needs("cmake")
    bash(f"cmake -S examples/cpp -B {tmp_path} -DCMAKE_PREFIX_PATH={prefix} && cmake --build {tmp_path}")
    assert bash(f"{tmp_path}/primes") == wanted("primes")


@pytest.mark.parametrize("kind", ["bitm", "shared"])
def test_cmake_of_the_checkout(kind, tmp_path):
    """By FetchContent, with the targets that find_package gives; by examples/cpp, where nothing is laid."""
    needs("cmake", "gcc", "g++")
    (tmp_path / "CMakeLists.txt").write_text(FETCHED.format(top=TOP, kind=kind))
    bash("env -u BITM_LIB cmake -S . -B build && cmake --build build", tmp_path)
    assert bash(f"{tmp_path}/build/primes") == wanted("primes")
    not_laid = "-DCMAKE_DISABLE_FIND_PACKAGE_bitm=ON"
    bash(f"env -u BITM_LIB cmake -S examples/cpp -B {tmp_path}/own {not_laid} && cmake --build {tmp_path}/own")
    assert bash(f"{tmp_path}/own/primes") == wanted("primes")


@pytest.fixture(scope="module")
def program(prefix):
    """The folder of the program, and the commands that docs/PROGRAM.md lists, without options."""
    assert (prefix / "bin/bitm").is_file(), "there is no program bitm: make prebuilt"
    part = read("docs/PROGRAM.md").split("\n## The program `bitm`\n")[1]
    return prefix / "bin", re.findall(r"^    (bitm [a-z].*)$", part.partition("`build` and `query`")[0], re.M)


def test_manual_page(prefix, program, tmp_path):
    """It lists the commands of docs/PROGRAM.md, has no fault that man knows, and the program answers its examples."""
    page = prefix / "share/man/man1/bitm.1"
    plain = page.read_text().replace("\\-", "-").replace("\\en", "\\n")
    parts = dict(re.findall(r"^\.SH (.*)\n((?:(?!\.SH).*\n)*)", re.sub(r"\\f[BIR]", "", plain), re.M))
    assert re.findall("^bitm [a-z].*", parts["SYNOPSIS"], re.M) == program[1]
    examples = re.findall(r"^\$ (.*)\n((?:[^.$].*\n)*)", parts["EXAMPLES"], re.M)
    for command, said in examples:
        assert bash(f"PATH={program[0]}:$PATH; {command}", tmp_path) == said
    assert examples
    needs("man")
    assert bash(f"man --warnings=w -l {page} 2>&1 > /dev/null", LC_ALL="C.UTF-8", MANROFFSEQ="") == ""


def test_completions(prefix, program):
    """The words of each command, and each kind that `build` takes."""
    def offered(*words):
        line = f"COMP_WORDS=({' '.join(words)} '') COMP_CWORD={len(words)}; _bitm; echo ${{COMPREPLY[*]}}"
        return bash(f"source {prefix}/share/bash-completion/completions/bitm; {line}").split()
    for command in program[1]:
        words = re.match(r"(?:[a-z]+ ?)+", command)[0].split()
        for at in range(1, len(words)):
            assert words[at] in offered(*words[:at]), command
    kinds = re.search(r"^\| Kind \| Numbers.*\n.*\n((?:\|.*\n)*)", read("docs/PROGRAM.md"), re.M)[1]
    assert offered("bitm", "build") == re.findall(r"^\| `(\w+)`", kinds, re.M) != []
    assert "README.md" in offered("bitm", "check")
