"""What the scripts in Python share: the files of the repository, its crates, and the count of what passed and failed.
`checks.py CRATE..` prints the libraries below crates, for scripts in bash."""
import functools
import pathlib
import re
import subprocess
import sys

TOP = pathlib.Path(__file__).resolve().parent.parent
LAST = re.compile(r"(\d+) passed, (\d+) failed")  # the last line of each script that checks
sys.dont_write_bytecode = True
counts = [0, 0]


def claim(is_so, text):
    """Counts a check, and prints what is wrong where it failed."""
    counts[not is_so] += 1
    if not is_so:
        print(text)


def flat(text):
    """A text on one line."""
    return " ".join(text.split())


def says(document, text):
    """Counts whether a document says a text, wherever its lines break."""
    claim(flat(text) in flat(read(document)), f"{document} does not say: {text}")


def conclude():
    """Prints the last line, and returns the status."""
    print(f"{counts[0]} passed, {counts[1]} failed")
    return int(counts[1] > 0)


def counted(*command):
    """Runs a command whose last line has counts, shows the others, and adds its counts; one without them has failed."""
    made = subprocess.run(command, cwd=TOP, stdout=subprocess.PIPE, text=True, errors="replace", check=False)
    lines = made.stdout.strip().split("\n")
    found = LAST.fullmatch(lines[-1])
    print("\n".join(lines[:-1] if found else lines), end="\n" if lines[1:] or not found else "")
    for at, count in enumerate(found.groups() if found else (0, 1)):
        counts[at] += int(count)


def usage(text):
    """Prints what a script is for and ends, where it got a word that it does not know, or `--help`."""
    print(text)
    sys.exit(0 if "--help" in sys.argv else 2)


def read(name):
    return (TOP / name).read_text(encoding="utf-8")


def files():
    """The files that git has and that are here."""
    listed = subprocess.run(["git", "ls-files"], cwd=TOP, capture_output=True, check=False, text=True)
    if listed.returncode:
        sys.exit(f"{sys.argv[0]} needs git and a checkout: {listed.stderr.strip()}\n0 passed, 1 failed")
    return [name for name in listed.stdout.split() if (TOP / name).is_file()]


@functools.lru_cache(None)
def crates():
    """The crates of crates.txt in its order, each with the libraries that it lists."""
    lines = re.findall(r"^(\w+)[^:#\n]*:(.*)", read("crates.txt"), re.M)
    return {name: below.split() for name, below in lines}


def exporting():
    """The crates whose calls are the C library."""
    return re.findall(r"^(\w+) staticlib:", read("crates.txt"), re.M)


@functools.lru_cache(None)
def below(name):
    """The repository's libraries below a crate, each after those below it."""
    listed, found = crates(), []
    for one in (it for it in listed[name] if it in listed):
        found += [it for it in [*below(one), one] if it not in found]
    return found


if __name__ == "__main__":
    print("".join(f"{it}\n" for it in dict.fromkeys(it for name in sys.argv[1:] for it in below(name))), end="")
