"""What the program bitm reads and writes in more than one form: lines that end with a carriage return and a line feed, answers
as JSON, which Python's own reader takes, and what it says on a terminal."""
import json
import os
import pty
import select
import subprocess
import time
from contextlib import contextmanager

import pytest
from programs import built, room

PROGRAM = built("program_bitm")
NUMBERS = "3\n1\n4\n1\n5\n1\n"
QUESTIONS = "get 4\nget 6\nrank 1 4\nselect 1 2\nselect 1\n"
TEXT = "banana\nfig\nananas\n"
NAMES = "ada\nbob\neve\n"


def bitm(*words, given=""):
    """The status, and what is written to standard output."""
    made = subprocess.run([PROGRAM, *words], input=given.encode(), capture_output=True, check=False)
    assert made.stderr == b""
    return made.returncode, made.stdout


@pytest.fixture(scope="module")
def folder():
    """A folder with a matrix, a tree without a node, a text and strings."""
    made = room() / "forms"
    made.mkdir(exist_ok=True)
    for name, words, given in [("matrix", ["build", "matrix"], NUMBERS), ("none", ["build", "sequence"], ""),
                               ("text", ["text", "build"], TEXT), ("names", ["strings", "build"], NAMES)]:
        status, block = bitm(*words, given=given)
        assert status == 0
        (made / name).write_bytes(block)
    return made


def values(out):
    """The JSON values of lines, each read by itself."""
    assert out.endswith(b"\n")
    return [json.loads(line) for line in out.splitlines()]


@pytest.mark.parametrize("words", [["build", "matrix"], ["build", "sparse"], ["strings", "build"]])
def test_lines_of_two_bytes_are_built(words):
    given = NUMBERS if "matrix" in words else "3\n9\n100\n" if "sparse" in words else NAMES
    assert bitm(*words, given=given.replace("\n", "\r\n")) == bitm(*words, given=given)


def test_lines_of_two_bytes_are_asked(folder):
    for words, given in [(["query", folder / "matrix"], QUESTIONS), (["strings", "find", folder / "names"], "bob\nbo\n\neve\n")]:
        assert bitm(*words, given=given.replace("\n", "\r\n")) == bitm(*words, given=given)


def test_a_carriage_return_within_a_line_stays():
    assert subprocess.run([PROGRAM, "build", "bits"], input=b"1\n2\r3\n", capture_output=True, check=False).stderr == \
        b"bitm: line 2: not a number\n"


def test_query_as_json(folder):
    status, out = bitm("query", "--json", folder / "matrix", given=QUESTIONS)
    assert (status, values(out)) == (1, [5, None, 2, 5, {"error": "bad question"}])


def test_check_as_json(folder):
    assert bitm("check", "--json", folder / "matrix") == (0, b"true\n")
    damaged = bytearray((folder / "matrix").read_bytes())
    damaged[-1] ^= 1
    (folder / "damaged").write_bytes(damaged)
    assert bitm("check", "--json", folder / "damaged") == (1, b"false\n")


@pytest.mark.parametrize("name", ["matrix", "none", "text", "names"])
def test_info_as_json(folder, name):
    """The names and values are those of the lines."""
    lines = [line.split(" ", 1) for line in bitm("info", folder / name)[1].decode().splitlines()]
    status, out = bitm("info", "--json", folder / name)
    read = {key: None if text == "none" else text if key == "kind" else float(text) for key, text in lines}
    assert (status, values(out)) == (0, [read])


def test_strings_as_json(folder):
    status, out = bitm("strings", "find", "--json", folder / "names", given="bob\nbo\n")
    lines = bitm("strings", "find", folder / "names", given="bob\nbo\n")[1]
    assert (status, values(out)) == (0, [int(lines.split()[0]), None])


@pytest.mark.parametrize("options", [["--json"], ["--json", "--no-check"], ["--no-check", "--json"]])
def test_texts_as_json(folder, options):
    assert bitm("text", "locate", *options, "ana", folder / "text") == (0, b"1\n3\n11\n13\n")
    assert bitm("text", "count", *options, "-f", "-", folder / "text", given="ana\nfig\n") == (0, b"4\n1\n")


@pytest.mark.parametrize("words", [["query", "--jso", "matrix"], ["build", "--json", "matrix"], ["info", "--json"],
                                   ["text", "count", "-f", "--json", "list", "text"], ["strings", "build", "--json"]])
def test_other_options_are_none(folder, words):
    made = subprocess.run([PROGRAM, *words], cwd=folder, stdin=subprocess.DEVNULL, capture_output=True, check=False)
    assert made.returncode == 2 and made.stdout == b""


@contextmanager
def on_a_terminal(*words):
    """The program, whose standard error is a terminal, the end of the terminal to look at, and a list that gets what is
    written there."""
    mine, theirs = pty.openpty()
    said = []
    with subprocess.Popen([PROGRAM, *words], stdin=subprocess.PIPE, stdout=subprocess.PIPE, stderr=theirs) as run:
        yield run, mine, said
    os.write(theirs, b"end")
    text = b""
    while not text.endswith(b"end"):
        text += os.read(mine, 1000)
    os.close(theirs)
    os.close(mine)
    said += text.removesuffix(b"end").splitlines()


def told(said, done):
    """How many bytes were said to be read or written, each time."""
    return [int(line.split()[2]) for line in said if line.startswith(b"bitm: " + done)]


def test_much_work_is_told_on_a_terminal():
    """A slow machine has read or written bytes after two seconds too."""
    for size, lines in [(8_000_000, [b"bitm: working on 8000000 bytes"]), (7_999_999, [])]:
        with on_a_terminal("text", "build") as (run, _, said):
            run.communicate(b"a" * size)
        assert [line for line in said if not line.startswith((b"bitm: read", b"bitm: written"))] == lines


def test_slow_input_is_told_on_a_terminal():
    """Empty lines, which are passed over, come until the terminal says how much was read: not before two seconds."""
    began, given = time.monotonic(), 0
    with on_a_terminal("build", "bits") as (run, terminal, said):
        while given < 600 and not select.select([terminal], [], [], 0.1)[0]:
            given += run.stdin.write(b"\n")
            run.stdin.flush()
        took = time.monotonic() - began
        run.communicate()
    assert took >= 2 and 0 < told(said, b"read")[0] <= given


def test_slow_output_is_told_on_a_terminal():
    """After the first byte nobody reads for more than two seconds, and a pipe holds less than the block."""
    with on_a_terminal("build", "bits") as (run, _, said):
        run.stdin.write(b"8000000\n")
        run.stdin.close()
        size = len(run.stdout.read(1))
        time.sleep(2.2)
        size += len(run.stdout.read())
    numbers = told(said, b"written")
    assert 0 < numbers[0] <= size and numbers == sorted(numbers)


def test_a_short_run_says_nothing_on_a_terminal():
    began = time.monotonic()
    with on_a_terminal("build", "bits") as (run, _, said):
        run.communicate(b"1\n")
    assert said == [] or time.monotonic() - began >= 2
