"""Runs a program with memory.c loaded before it: that counts, and refuses the request, the read or the write that is named."""
import collections
import fcntl
import functools
import os
import pathlib
import subprocess
import tempfile

from checks import TOP
from shell import bash

Run = collections.namedtuple("Run", "status out err requests blocks reads writes shrinks")
LARGE = os.environ.get("LARGE", "0") != "0"


@functools.lru_cache(None)
def room():
    """A folder of this run, with the object that is loaded before programs."""
    room.folder = tempfile.TemporaryDirectory(prefix="programs-")  # goes when the run ends
    clang = pathlib.Path(bash("rt doc").strip()).parent / "toolchain/bin/clang"
    bash(f"{clang} -O1 -shared -fPIC -nostdlib -o {room.folder.name}/memory.so tests/memory.c")
    return pathlib.Path(room.folder.name)


@functools.lru_cache(None)
def built(name):
    """The file of a program, which is built anew (and proved) only where it is older than a source of any crate; one program
    at a time."""
    program = TOP / f"crates/{name}/out/{name}"
    sources = [TOP / "crates.txt", *TOP.glob("crates/*/src/**/*.rt")]
    with open(TOP / "crates.txt", encoding="utf-8") as lock:
        fcntl.flock(lock, fcntl.LOCK_EX)
        if not program.is_file() or program.stat().st_mtime < max(it.stat().st_mtime for it in sources):
            program.unlink(missing_ok=True)
            bash(f"rt run < /dev/null 2>&1 || test -x out/{name}", program.parents[1])
    return program


def written(name, lines):
    """A file of these lines."""
    path = room() / name
    path.write_text("".join(f"{it}\n" for it in lines))
    return path


@functools.lru_cache(None)
def run(program, *arguments, **refuse):
    """The run of a program, with REFUSE, FAIL_READ or FAIL_WRITE; `out` and `err` are what it writes."""
    with tempfile.NamedTemporaryFile(dir=room()) as counts:
        environment = {**os.environ, "COUNTS": counts.name, "LD_PRELOAD": f"{room()}/memory.so", **{name: str(n) for name, n in refuse.items()}}
        made = subprocess.run([built(program), *arguments], stdin=subprocess.DEVNULL, capture_output=True, env=environment, check=False)
        counted = counts.read().split()
    assert len(counted) == 5, f"{program} ended with status {made.returncode} and no counts"
    return Run(made.returncode, made.stdout.decode(), made.stderr.decode(), *map(int, counted))
