"""The program test_memory, once for each of its requests for memory, with that request refused."""
import pytest
from checks import read
from programs import run

WANTED = read("crates/test_memory/stdout").splitlines()
NAMES = [line.removesuffix(" ok") for line in WANTED if line.endswith(" ok")]
AMPLE = run("test_memory")
REQUESTS = range(1, AMPLE.requests + 1)


def refused(n):
    return run("test_memory", REFUSE=n)


def differing(n):
    """The calls whose lines differ from those with ample memory, each with its line."""
    lines = refused(n).out.splitlines()
    assert len(lines) == len(WANTED)
    return [(wanted.split()[0], line) for wanted, line in zip(WANTED, lines) if line != wanted]


def test_ample_memory():
    assert (AMPLE.status, AMPLE.blocks) == (0, 0)


def test_answers_with_ample_memory():
    assert AMPLE.out.splitlines() == WANTED


@pytest.mark.parametrize("n", REQUESTS)
def test_all_memory_is_given_back(n):
    assert (refused(n).status, refused(n).blocks) == (0, 0)


@pytest.mark.parametrize("n", REQUESTS)
def test_one_line_says_so(n):
    """A block that could not be made smaller may also be kept, with all lines as they are."""
    found = differing(n)
    assert all(line in (f"{name} refused", f"{name} unready") for name, line in found)
    assert len(found) == 1 or not found and refused(n).shrinks > 0


@pytest.mark.parametrize("name", NAMES)
def test_each_call_is_refused_once(name):
    assert any((name, f"{name} refused") in differing(n) for n in REQUESTS)
