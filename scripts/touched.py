"""What a change touches, for `scripts/test --quick`: the files that differ from a commit, the crates with
them, the crates that see their contracts or test them, and the tests of the bindings."""
import re
import subprocess

from checks import TOP, crates
from functions import emptied, functions_of

# The tests of bindings/tests that a change below a folder or of a file touches, in the words of `pytest -k`.
TESTS = {
    "include/": "test_headers or test_c or test_cpp or test_blocks",
    "install/": "test_installed",
    "bindings/c/": "test_c.py or test_formats or test_faults",
    "bindings/cpp/": "test_cpp or files_of_cpp",
    "bindings/python/": "python",
    "bindings/rust/": "rust",
    "bindings/javascript/": "javascript",
    "bindings/tests/": "",
    "examples/": "example",
    "docs/": "test_blocks or test_guides",
    "README.md": "test_blocks",
}


def git(*words):
    return subprocess.run(["git", *words], cwd=TOP, capture_output=True, text=True, errors="replace", check=False)


def changed(base):
    """The files that differ from a commit, and those that git does not know yet."""
    listed = git("diff", "--name-only", base, "--")
    if listed.returncode:
        raise ValueError(listed.stderr.strip())
    return sorted({*listed.stdout.split(), *git("ls-files", "--others", "--exclude-standard").stdout.split()})


def interface(file, text):
    """A source without the bodies of its functions and without comments."""
    kept = emptied(text, functions_of(file, text))[0] if file.endswith(".rt") else text
    return [it for it in kept.split("\n") if it.strip() and not it.strip().startswith(("//", "--"))]


def shows(name, base):
    """Whether a crate above may see that a file changed: one of specs/, or more of a source than bodies and comments."""
    _, _, file = name.split("/", 2)
    path, was = TOP / name, git("show", f"{base}:{name}").stdout
    now = path.read_text(encoding="utf-8") if path.is_file() else ""
    return file.startswith(("src/", "specs/")) and interface(file, now) != interface(file, was)


def crates_of(names, base):
    """The crates whose code or proofs are among these files, the other crates that see their contracts or test them,
    and the crates whose mutants may be accepted now."""
    inside = [it for it in names if re.match(r"crates/\w+/(src|specs|proofs|stdout|data|args)", it)]
    own = {it.split("/")[1] for it in inside} & set(crates())
    seen = {it.split("/")[1] for it in inside if shows(it, base)}
    above = {it for it, below in crates().items() if seen & set(below) or it.startswith("test_") and own & set(below)}
    edited = {it.split("/")[1] for it in names if re.match(r"crates/\w+/(mutants\.txt|must-fail/)", it)}
    return sorted(own), sorted(above - own), sorted((own | edited) & set(crates()))


def tests_of(names):
    """What `pytest -k` chooses in bindings/tests, or None."""
    found = dict.fromkeys(TESTS[of] for of in TESTS for it in names if it.startswith(of))
    return None if not found else "" if "" in found else " or ".join(found)
