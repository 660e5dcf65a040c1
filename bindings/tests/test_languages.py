"""Rust, Python and JavaScript, each by its own tests, in this order: each language leaves a file of the same bits and one
of the same numbers, and reads those of the languages before it."""
import hashlib
import os
import re

import pytest
from checks import TOP, read
from common import LARGE, PYTHON, compiled, large
from shell import bash, needs

RUST = TOP / "bindings/rust"
CARGO = "cargo {} --quiet --release --offline --locked"
# With the checks of a debug build, which compiles in a third of the time, for tests that test_rust runs optimized.
UNOPTIMIZED = CARGO.replace(" --release", "")
# What the tests of each language print: how many ran; which one was left out, and why.
RAN = {"Rust": r"^test result: ok\. (\d+) passed", "Python": r": (\d+) passed", "JavaScript": r"(\d+) tests and"}
LEFT_OUT = r"^SKIPPED (?:\[\d+\] \S*?([\w.]+:\d+): )?(.*)"


@pytest.fixture
def noted(record_property):
    """Notes for scripts/ran how many tests of a language ran, by what they printed, and which were left out."""
    def note(language, printed):
        ran = sum(map(int, re.findall(RAN[language], printed, re.M)))
        assert ran, printed
        record_property("ran", f"{language} {ran}")
        for test, why in re.findall(LEFT_OUT, printed, re.M):
            record_property("not run", f"{language} {test or 'a test'}: {why}")
    return note


@pytest.fixture(scope="module")
def room(tmp_path_factory):
    it = tmp_path_factory.mktemp("languages")
    os.environ["CARGO_TARGET_DIR"] = str(it / "cargo")
    return it


@pytest.fixture
def of(room):
    """The folder of a language's files, and then those that are there."""
    def folders(language):
        (room / "of" / language).mkdir(parents=True)
        there = sorted(it.parent for it in room.glob("of/*/sequence"))
        return " ".join(map(str, [room / "of" / language, *there]))
    return folders


def test_files_of_cpp(of, tmp_path):
    needs("g++")
    it = compiled("g++ -std=c++17 -O2", "bindings/cpp/stored.cpp", tmp_path)
    bash(f"{it} {of('cpp')}")


def documented(room):
    """What Cargo prints of the examples in the documentation of the crate. They are compiled as one program, in a tenth of
    the time, where rustdoc can: it then looks for files that they include below its folder for temporary ones."""
    line, at = f"{CARGO.format('test')} --features mmap --doc", room / "documented"
    if "--merge-doctests" in bash("rustdoc --help -v"):
        (at / "tmp").mkdir(parents=True)
        (at / "tests").symlink_to(RUST / "tests")
        as_one = {"RUSTC_BOOTSTRAP": "1", "RUSTDOCFLAGS": "-Zunstable-options --merge-doctests=yes", "TMPDIR": str(at / "tmp")}
        try:
            return bash(line, RUST, **as_one)
        except AssertionError as why:
            if "failed to merge doctests" not in str(why):
                raise
    return bash(line, RUST)


def test_rust(of, noted, room):
    needs("cargo", "rustdoc")
    tests = bash(f"{CARGO.format('test')} --features mmap --lib --tests && {CARGO.format('build')} --features mmap --examples", RUST)
    noted("Rust", tests + documented(room))
    bash(f"{CARGO.format('run')} --example stored {of('rust')}", RUST)
    assert bash(CARGO.format("run"), TOP / "examples/rust") == read("examples/primes.txt")


def test_slices_of_empty_values_in_rust(room):
    """With the assertions of std, which looks at the pointers of slices."""
    needs("cargo")
    bash(f"CARGO_PROFILE_RELEASE_DEBUG_ASSERTIONS=true {CARGO.format('test')} --test empties", RUST)


def test_declarations_of_rust():
    needs("bindgen")
    bash("./declarations --check", RUST)


def test_rust_without_std_and_as_the_original_at_the_end(room):
    needs("cargo")
    without = {"CARGO_PROFILE_DEV_DEBUG": "0"}
    bash(f"{UNOPTIMIZED.format('test')} --no-default-features --tests", RUST, **without)
    bash(f"{UNOPTIMIZED.format('test')} --features original-end --test original_index --test queries", RUST, **without)


def test_clippy(room):
    needs("cargo-clippy")
    bash("cargo clippy --quiet --offline --locked --all-targets --features mmap -- -D warnings", RUST)


def test_python(site, of, noted):
    """The wheel in a fresh environment, by LARGE=1 in every Python that is here."""
    noted("Python", bash("bindings/python/tests/each" if LARGE else f"bindings/python/tests/each {PYTHON}"))
    bash(f"{PYTHON} -W error bindings/python/tests/stored_format.py {of('python')}", **site)
    for example in ("primes", "words"):
        assert bash(f"{PYTHON} examples/python/{example}.py", **site) == read(f"examples/{example}.txt")


def test_types_of_the_python_examples(site, room):
    needs(f"{PYTHON}:mypy", f"{PYTHON}:numpy")
    bash(f"{PYTHON} -m mypy --strict --cache-dir {room}/mypy examples/python/*.py", **site)


def test_types_by_pyright(site):
    needs("pyright")
    bash(f"pyright --pythonpath {PYTHON} examples/python/*.py", **site)
    bash(f"pyright --pythonpath {PYTHON} --ignoreexternal --verifytypes bitm", **site)


@large
@pytest.mark.parametrize("example", ["shards", "columns"])
def test_dask(example, site, tmp_path):
    needs(f"{PYTHON}:distributed")
    bash(f"{PYTHON} examples/dask/{example}.py {tmp_path}/{example}", **site)


@large
@pytest.mark.parametrize("text", ["README.md", "''"])
def test_demonstration(text, site, tmp_path):
    """Over this repository's documents; it compares its answers with the plain way."""
    needs(f"{PYTHON}:matplotlib", f"{PYTHON}:numpy")
    bash(f"{PYTHON} examples/demo/demo.py {text} {tmp_path}/picture.svg {tmp_path}/rows.csv", **site)
    total = hashlib.sha256((tmp_path / "rows.csv").read_bytes()).hexdigest()
    assert f"rows {total}" in (tmp_path / "picture.svg").read_text(encoding="utf-8")


def test_javascript(of, noted):
    needs("node")
    bash(f"node bindings/javascript/tests/stored_format.js {of('javascript')}")
    noted("JavaScript", bash("bindings/javascript/tests/each"))


@pytest.mark.parametrize("browser", ["chromium", pytest.param("firefox-esr", marks=large)])
def test_page_of_examples(browser):
    needs("node", browser)
    bash(f"node examples/browser/test.mjs {browser}")


@large
@pytest.mark.parametrize("browser", ["chromium", "firefox-esr"])
def test_javascript_in_browser(browser):
    needs("node", browser)
    bash(f"node bindings/javascript/tests/in_browser.mjs {browser}")


@large
def test_javascript_modules_are_made_again(tmp_path):
    needs("wasm-opt")
    bash(f"bindings/javascript/build {tmp_path}/wasm && diff -r -x PROVED {tmp_path}/wasm bindings/javascript/wasm")


def test_one_format(room):
    """The same bits and numbers make the same bytes in each language."""
    written = sorted(room.glob("of/*"))
    assert written, "no language wrote a file"
    for it in written:
        for file in ("index", "sequence"):
            assert (it / file).read_bytes() == (written[0] / file).read_bytes(), f"{it.name}: {file}"
