"""A checkout serves without the toolchain: what README.md has a reader paste in each language, where neither this
repository nor Rattle can be seen, ends in its answers, and takes less than a minute of a processor; and so does the
program `bitm` over a text of 10 MB."""
import itertools
import os
import pathlib
import random
import re
import resource
import shutil
import subprocess

import pytest
from checks import TOP, files
from common import PYTHON
from pasted import PACKAGE, Pasted
from shell import bash, hiding, needs

NEEDS = {"c": ["make", "cc"], "cpp": ["make", "c++"], "rust": ["cargo"], "javascript": ["npm", "node"],
         "python": [f"{PYTHON}:setuptools", f"{PYTHON}:wheel", f"{PYTHON}:ensurepip", "cc"]}
KEPT_OUT = "ARCHIVE PROGRAM BITM_LIB BITM_INCLUDE MAKEFLAGS MAKELEVEL CARGO_TARGET_DIR PYTHONPATH".split()


@pytest.fixture(scope="module")
def home(tmp_path_factory):
    """A folder with the files of git, as they are here."""
    folder = tmp_path_factory.mktemp("home")
    for name in files():
        to = folder / "vokhuliza" / name
        to.parent.mkdir(parents=True, exist_ok=True)
        shutil.copy(TOP / name, to)
    return folder


@pytest.fixture(scope="module")
def alone(home):
    """Runs a command of bash where this repository and Rattle are hidden, or, where they cannot be, rt is on no PATH."""
    kit = [os.path.dirname(bash("rt doc").strip())] if shutil.which("rt") else []
    words, path = hiding([TOP, *kit]), ["/usr/bin", *os.environ["PATH"].split(":")]
    if not words:
        path = [it for it in path if not (pathlib.Path(it) / "rt").exists()]
    kept = {name: it for name, it in os.environ.items() if name not in KEPT_OUT}
    for it in ("RUSTUP_HOME", "CARGO_HOME"):
        kept.setdefault(it, os.path.expanduser(f"~/.{it.partition('_')[0].lower()}"))

    def run(command, folder):
        line = [*words, "bash", "-euo", "pipefail", "-c", f"! rt version 2> /dev/null && {command}"]
        own = {**kept, "HOME": str(home), "PATH": ":".join(path)}
        how = {"env": own, "cwd": folder, "text": True, "errors": "replace", "stdin": subprocess.DEVNULL}
        made = subprocess.run(line, **how, capture_output=True, check=False)
        assert made.returncode == 0, f"{command}\n{made.stdout[-3000:]}{made.stderr[-3000:]}"
        return made.stdout
    return run


@pytest.fixture
def within_a_minute():
    """A test takes less than that of processors."""
    def used():
        it = resource.getrusage(resource.RUSAGE_CHILDREN)
        return it.ru_utime + it.ru_stime
    before = used()
    yield
    assert used() - before < 60


@pytest.mark.parametrize("language", NEEDS)
def test_pasted(language, home, alone, within_a_minute):
    needs(*NEEDS[language])
    getattr(Pasted(home, alone), language)()


def drawn_text(length):
    """Lines of words of two to eight letters, of which some are drawn often."""
    drawn = random.Random(41)
    words = ["".join(drawn.choices("abcdefghijklmnopqrstuvwxyz", k=drawn.randrange(2, 9))) for _ in range(20000)]
    weights = list(itertools.accumulate(1 / at for at in range(1, len(words) + 1)))
    lines = (" ".join(drawn.choices(words, cum_weights=weights, k=12)) + "\n" for _ in itertools.count())
    found, size = [], 0
    while size < length:
        found.append(next(lines))
        size += len(found[-1])
    return "".join(found)[:length].encode()


def test_program_over_10_mb(home, alone, within_a_minute):
    """`bitm`, as the README lays it, counts each position of a pattern, those that overlap too."""
    needs("make", "cc")
    readme, text = Pasted(home, alone), drawn_text(10_000_000)
    alone(readme.line("make install"), home / "vokhuliza")
    (readme.work / "book.txt").write_bytes(text)
    bitm = home / ".local/bin/bitm"
    alone(f"{bitm} text build < book.txt > book.block", readme.work)
    for pattern in ("abc", "ss", text[5_000_000:5_000_030].decode().partition("\n")[0]):
        count = len(re.findall(f"(?={re.escape(pattern)})".encode(), text))
        assert alone(f"{bitm} text count '{pattern}' book.block", readme.work) == f"{count}\n"


def test_cargo_by_git(home, alone):
    """Cargo finds the crate, and its archive, in a repository that it clones."""
    needs("cargo", "git")
    alone("git init -q && git add -A && git -c user.name=x -c user.email=x@x commit -qm x", home / "vokhuliza")
    readme = Pasted(home, alone)
    package = re.sub('path = "[^"]*"', f'git = "file://{home}/vokhuliza"', readme.line("bitm = {"))
    (readme.work / "Cargo.toml").write_text(f"{PACKAGE}{package}\n")
    readme.prints("rust", "src/main.rs", "cargo run --quiet")
