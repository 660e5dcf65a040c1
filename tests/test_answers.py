"""More than 10^8 answers each of a matrix of 2^25 numbers and of a tree of as many nodes, beside plain counts."""
import functools

import pytest
from checks import TOP
from programs import LARGE
from shell import bash


@functools.lru_cache(None)
def answers():
    bash("rt run", TOP / "crates/tool_bench")
    return bash("out/tool_bench answers 25", TOP / "crates/tool_bench").splitlines()


@pytest.mark.skipif(not LARGE, reason="with LARGE=1")
@pytest.mark.parametrize("number", range(2))
def test_answers(number):
    _, count, _, wrong, *_ = answers()[number].split()
    assert int(count) >= 3 << 25 and int(wrong) == 0 and len(answers()) == 2
