"""The packages of Python, Rust and JavaScript, installed with no network."""
import os
import pathlib
import shutil

import pytest
from common import COMMIT, PYTHON, VERSION, artefact, environment, examples_in_python, install, room, slow, sources, unpacked
from shell import bash, needs

WHEEL = "*manylinux*x86_64.whl"
JAVASCRIPT = """import { BitVector, Index, open } from "bitm";
const x = open(new Index(BitVector.fromPositions([1, 3, 4, 6], 7)).toBytes());
console.log(x.rank(4), x.select(2), x.select0(1));
"""


@pytest.fixture(scope="module")
def python():
    wheel, own = artefact(WHEEL), environment("by_wheel")
    install(own, wheel)
    return own


def test_wheel(python):
    examples_in_python(python)


@slow
def test_wheel_by_each_python():
    for number, one in enumerate(sorted(pathlib.Path("~/.pyenv/versions").expanduser().glob("*/bin/python3"))):
        if bash(f"{one} -c 'import sys; print(sys.version_info >= (3, 11))' 2> /dev/null || echo").strip() == "True":
            own = environment(f"each.{number}", one)
            install(own, artefact(WHEEL))
            examples_in_python(own)


@slow
def test_tests_in_python(python):
    needs(f"{PYTHON}:pytest", f"{PYTHON}:hypothesis")
    tests = unpacked(f"bitm-{VERSION}.tar.gz", "sdist") / "tests"
    bash(f"{python} -m pytest -q -p no:cacheprovider --assert=plain --disable-warnings {tests}", room(), PYTHONPATH="")


def by_its_files(pattern, name, python):
    """The examples over the files of a wheel, by a Python that could not install it."""
    bash(f"{PYTHON} -m zipfile -e {artefact(pattern)} {room()}/{name}")
    examples_in_python(python, PYTHONPATH=f"{room()}/{name}")


def test_wheel_for_musl_on_glibc():
    """Its extension names no library of either."""
    needs("readelf")
    by_its_files("*musllinux*x86_64.whl", "musl", PYTHON)
    assert "NEEDED" not in bash(f"readelf -d {room()}/musl/bitm/_core.abi3.so")


@slow
def test_wheel_for_aarch64():
    """By the Python of a system for aarch64, whose folder AARCH64 names, and QEMU."""
    needs("qemu-aarch64")
    system = pathlib.Path(os.environ.get("AARCH64", "/none"))
    there = sorted(it for it in system.glob("usr/bin/python3.[0-9]*") if "-" not in it.name)
    if not there:
        pytest.skip("AARCH64 names no folder with a system for it")
    by_qemu = f"qemu-aarch64 -L {system} -E PYTHONPATH={room()}/aarch64 {there[0]}"
    by_its_files("*manylinux*aarch64.whl", "aarch64", by_qemu)


@slow
def test_sdist():
    needs("gcc", f"{PYTHON}:setuptools", f"{PYTHON}:wheel")
    own = environment("by_sdist")
    install(own, artefact(f"bitm-{VERSION}.tar.gz"), "--no-build-isolation --no-deps")
    examples_in_python(own)


def crate():
    needs("cargo")
    return unpacked("*.crate", "crate")


def test_program_over_the_crate():
    examples, at = sources() / "examples", room() / "dependent"
    shutil.copytree(examples / "rust", at)
    bash(f"""sed -i 's|path = "[^"]*"|path = "{crate()}"|' Cargo.toml""", at)
    assert bash("cargo run --quiet --offline", at, CARGO_TARGET_DIR=f"{room()}/cargo") == (examples / "primes.txt").read_text()


@slow
def test_tests_of_the_crate():
    target = {"CARGO_TARGET_DIR": f"{room()}/cargo"}
    bash("cargo test --quiet --offline --features mmap", crate(), **target)
    bash("cargo doc --quiet --offline --no-deps", crate(), DOCS_RS="1", **target)


def test_javascript():
    needs("node", "npm")
    at = room() / "page"
    at.mkdir()
    (at / "package.json").write_text('{ "type": "module" }\n')
    (at / "x.js").write_text(JAVASCRIPT)
    bash(f"npm install --offline --no-audit --no-fund {artefact(f'bitm-{VERSION}.tgz')}", at, HOME=f"{room()}/home.npm")
    assert bash("node x.js", at) == "2 4 2\n"
    assert f"commit      {COMMIT}" in (at / "node_modules/bitm/PROVED").read_text()


@slow
def test_tests_in_javascript():
    """In the sources, with what is packed in place of their own."""
    needs("node")
    own = sources() / "bindings/javascript"
    shutil.copytree(unpacked(f"bitm-{VERSION}.tgz", "packed"), own, dirs_exist_ok=True)
    bash("tests/each", own)
