"""Examples of the methods of `Shards`, which help() shows below what they answer."""
from __future__ import annotations

from typing import Any

MADE = "shards = Shards.build([BitVector.from_bits('0110'), BitVector.from_bits('101')], 'bits')"
EXAMPLES = {  # a method, then lines and what each prints
    "build": [("shards", "Shards(bits=7, ones=4, shards=2)")],
    "append": [("shards.append(BitVector.from_bits('11'))", ""), ("len(shards), shards.count()", "(9, 6)")],
    "replace": [("shards.replace(0, BitVector.from_bits('00'))", ""), ("len(shards), shards.count()", "(5, 2)")],
    "check": [("shards.check()", "")],
    "shard": [("shards.shard(1).rank(2)", "1")],
    "close": [("shards.close()", ""), ("shards.rank(5)", "3")],
    "count": [("shards.count(), shards.count(0)", "(4, 3)")],
    "find": [("shards.find(5)", "(1, 1)")],
    "rank": [("shards.rank(5)", "3")],
    "rank0": [("shards.rank0(5)", "2")],
    "select": [("shards.select(3), shards.select(9)", "(6, None)")],
    "select0": [("shards.select0(2)", "5")],
    "next_one": [("shards.next_one(3)", "4")],
    "next_zero": [("shards.next_zero(4)", "5")],
    "previous_one": [("shards.previous_one(3)", "2")],
    "previous_zero": [("shards.previous_zero(100)", "5")],
    "ones": [("list(shards.ones(2))", "[2, 4, 6]")],
    "zeros": [("list(shards.zeros(reverse=True))", "[5, 3, 0]")],
    "rank_list": [("shards.rank_list([0, 5, 7])", "[0, 3, 4]")],
    "rank0_list": [("shards.rank0_list([0, 5, 7])", "[0, 2, 3]")],
    "select_list": [("shards.select_list([0, 2, 9])", "[1, 4, None]"), ("shards.select_list([9], missing=7)", "[7]")],
    "select0_list": [("shards.select0_list([0, 2])", "[0, 5]")],
}


def complete(shards: Any) -> None:
    """Adds the examples to the docstrings of the class; under `python -OO` there are none."""
    for name, lines in EXAMPLES.items():
        method = getattr(shards, name)
        method = getattr(method, "__func__", method)
        if method.__doc__:
            shown = [it for line, printed in [(MADE, ""), *lines] for it in (f">>> {line}", printed) if it]
            method.__doc__ = "\n        ".join([method.__doc__.rstrip() + "\n", *shown, ""])
