"""Tests of the programs in Rattle, proved and built: each request for memory refused, each read and each write failing,
odd arguments, answers that are replayed. `pytest tests/test_odd_runs.py` runs some, once its program is built or where
`rt` is; with LARGE=1 they take 2 GB and longer."""
import pathlib
import sys

TOP = pathlib.Path(__file__).resolve().parents[1]
sys.path[:0] = [str(TOP / "scripts"), str(TOP / "bindings/tests")]
