"""The program bitm_vectors with odd arguments, files that cannot be read, outputs that fail, and each read and each write
failing once: the status and the texts are those of docs/PROGRAM.md."""
import os
import re
import shutil
import subprocess

import pytest
from checks import read
from programs import built, room, run, written

PROGRAM = built("bitm_vectors")
USAGE, CANNOT_READ, CANNOT_WRITE = "usage: bitm_vectors FILE\n", "bitm_vectors: cannot read the file\n", "bitm_vectors: cannot write\n"
# A file that is read in several pieces, with answers that are written in several: 12,000 ranks of bits that repeat 1011.
NUMBERS = [n % 128 for n in range(12000)]
LINES = written("lines", ["words d d", "build sampled", *(f"rank {n}" for n in NUMBERS)])
ANSWERS = "".join(f"{it}\n" for it in ["ok 2", "ones 6", *((n % 64 > 0) + (n % 64 > 2) + (n % 64 > 3) + 3 * (n > 63) for n in NUMBERS)])
BAD = written("bad", ["word 5"])
GOOD = run("bitm_vectors", LINES)


def test_examples_of_the_document():
    """A line, and from column 37 on its answer, which ends at two spaces."""
    parts = re.split(r"^##+ (.*)\n", read("docs/PROGRAM.md"), flags=re.M)
    shown = [it[4:] for title, text in zip(parts[1::2], parts[2::2]) if title.startswith("Examples") for it in text.split("\n") if it.startswith("    ")]
    made = run("bitm_vectors", written("examples", [it[:32].rstrip() for it in shown]))
    assert made.status == 1
    assert made.out.splitlines() == [it[32:].split("  ")[0] for it in shown] != []


# Runs that write no answer: the text, and the arguments.
ENDS = {
    "no argument": (USAGE, []),
    "two arguments": (USAGE, [LINES, LINES]),
    "an argument that is not text": (CANNOT_READ, [b"\xff\xfe"]),
    "an empty argument": (CANNOT_READ, [""]),
    "no such file": (CANNOT_READ, [room() / "missing"]),
    "a folder": (CANNOT_READ, [room()]),
    "a file below a file": (CANNOT_READ, [LINES / "below"]),
}


ENDS |= {f"read {n} of {GOOD.reads} fails": (CANNOT_READ, [LINES], n) for n in range(1, GOOD.reads + 1)}
FIELDS = pytest.mark.parametrize("field", ["status", "blocks", "out", "err"])


@FIELDS
@pytest.mark.parametrize("what", ENDS)
def test_ends_with_no_answer(what, field):
    text, arguments, *fails = ENDS[what]
    made = run("bitm_vectors", *arguments, **{"FAIL_READ": n for n in fails})
    assert getattr(made, field) == {"status": 2, "blocks": 0, "out": "", "err": text}[field]


def test_bad_command():
    made = run("bitm_vectors", BAD)
    assert (made.status, made.blocks, made.out, made.err) == (1, 0, "bad command\n", "")


def test_good_file():
    assert (GOOD.status, GOOD.blocks, GOOD.out, GOOD.err) == (0, 0, ANSWERS, "")
    assert GOOD.reads >= 4 and GOOD.writes >= 3, "the file and the answers are of several pieces"


def by_shell(line):
    """What a line of bash ends with and writes, in which $IT is the program, with nothing loaded before it."""
    named = {"IT": PROGRAM, "GOOD": LINES, "BAD": BAD, "MISSING": room() / "missing"}
    made = subprocess.run(["bash", "-c", line], env={**os.environ, **named}, capture_output=True, text=True, check=False)
    return made.returncode, made.stdout, made.stderr


def test_file_without_permission():
    """As nobody where root runs this, whom nothing is forbidden."""
    own = shutil.copy(PROGRAM, room() / "program")
    room().chmod(0o711), own.chmod(0o755), BAD.chmod(0)
    drop = "setpriv --reuid=65534 --regid=65534 --clear-groups --no-new-privs" if os.geteuid() == 0 else ""
    assert by_shell(f"{drop} {own} $BAD") == (2, "", CANNOT_READ)
    BAD.chmod(0o644)


OUTPUTS = {
    "standard output full": ("$IT $GOOD > /dev/full", (2, "", CANNOT_WRITE)),
    "standard output closed": ("$IT $GOOD >&-", (2, "", CANNOT_WRITE)),
    "standard error closed, a good file": ("$IT $GOOD 2>&-", (0, ANSWERS, "")),
    "standard error closed, no such file": ("$IT $MISSING 2>&-", (2, "", "")),
    "standard error full, no argument": ("$IT 2> /dev/full", (2, "", "")),
    "both closed": ("$IT $GOOD >&- 2>&-", (2, "", "")),
}


@pytest.mark.parametrize("what", OUTPUTS)
def test_outputs(what):
    line, wanted = OUTPUTS[what]
    assert by_shell(line) == wanted


def test_broken_output():
    reader, writer = os.pipe()
    os.close(reader)
    made = subprocess.run([PROGRAM, LINES], stdout=writer, stderr=subprocess.PIPE, text=True, check=False)
    os.close(writer)
    assert (made.returncode, made.stderr) == (2, CANNOT_WRITE)


@FIELDS
@pytest.mark.parametrize("n", range(1, GOOD.writes + 1))
def test_write_fails(n, field):
    """What was written is a beginning of the answers."""
    made = run("bitm_vectors", LINES, FAIL_WRITE=n)
    if field == "out":
        assert ANSWERS.startswith(made.out)
    else:
        assert getattr(made, field) == {"status": 2, "blocks": 0, "err": CANNOT_WRITE}[field]
