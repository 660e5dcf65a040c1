"""The stubs: every name is there, mypy --strict passes, and no user's line is of an unknown type."""
import inspect
import json
import pathlib
import re
import shutil
import subprocess
import sys

import pytest

import bitm

LINES = """
import bitm, numpy
bits = bitm.BitVector.from_indices([1, 3])
index, sequence, numbers = bitm.Index(bits), bitm.EliasFano([1, 2]), bitm.PerfectHash(["a"])
shards, names = bitm.Shards("x"), bitm.Strings(["a", b"b", bytearray(b"c")], seed=3)
array = numpy.array([1, 2], dtype=numpy.int64)
"""
# Functions of a user's that take what each of these is registered as.
CALLS = """
from bisect import bisect_left
from typing import MutableSequence, Sequence
def total(numbers: Sequence[int]) -> int: return sum(numbers) + bisect_left(numbers, 2) + numbers.index(1, 0, 5)
def shown(bits: Sequence[bool]) -> str: return "".join(map(str, reversed(bits)))
def grown(bits: MutableSequence[bool]) -> None: bits.append(True); bits[0] = False; bits += [True]
total(sequence); total(bitm.WaveletMatrix([1])); total(index); shown(bits); shown(index); grown(bits)
"""
EXPRESSIONS = """bits[1]; bits[1:]; bits & bits; ~bits; bits << 1; list(bits.ones()); bits.next_one(1); bits.to_numpy(); bits.words; bits.copy()
bits.set_list([1]); bits.set_list(array, 0); sequence.union(sequence); sequence.items(reverse=True).next_leq(3); numbers.seed; numbers.bits; numbers.hash
index.rank(3); index.select(3); index.rank_list([1]); index.rank_list(array); index.select_list(range(3)); index.select_list(array); index[1:3]
index.select_list(array, missing="error"); index.select_list(array, missing=7); index.select_list([1], missing=7); index.to_numpy(); index.words
sequence[0]; sequence[:1]; list(sequence); iter(sequence).next_geq(3); sequence.intersection(sequence); sequence.get_list(array); sequence.parts
sequence.contains_list(array); sequence.contains_list([1]); sequence.to_numpy(); sequence.first_at_least_list({1}); sequence.from_value(3, reverse=True)
numbers["a"]; numbers.get("b"); numbers.get("b", "x"); numbers.get_list(["a"]); numbers.get_list(array); numbers.get_list(iter(["a"]), missing=5)
shards[1]; shards[1:]; shards.rank(3); shards.select(3); shards.next_one(3); shards.find(3); list(shards.ones()); shards.parts; shards.shard(1)
shards.rank_list([1]); shards.rank_list(array); shards.select_list([1]); shards.select_list(array); shards.select0_list(array, missing="error")
bitm.TextIndex(b"a", 3).count(b"a"); bitm.TextIndex("a").find_all("a"); "a" in bitm.TextIndex("a"); bitm.TextIndex.of_letters([1], 2).locate([1]); bitm.TextIndex.of_letters(array, 9, step=1)[0]
names.find("a"); names.find(b"a"); names.find_list(["a", b"b"]); names.find_list(array); names.find_list({"a": 1}, missing=5); names[0]; names[1:]; list(names)
bitm.Shards.build([bits, (b"", 0)], "x"); shards.count(); shards.folder
bitm.intersect([sequence]); bitm.union(iter([sequence]), 3, limit=4); bitm.union([sequence], to_numpy=True); bitm.intersect([], 1, None, to_numpy=True)
sequence.cursor(); sequence.cursor().next_geq(3); next(sequence.cursor()); sequence.cursor().number; sequence.cursor().index; list(sequence.cursor())
bitm.PerfectHash(["a"], tries=64).has_seeds; bitm.PerfectHash({1: "a"}, tries=None).block; bitm.PerfectHash.over(b"")["a"]
bitm.extend(b"", {65536: b"a"}); bitm.extend(bits.words, [(65536, b"a"), (7, bits.words)]); bitm.sections(b"")[0]; dict(bitm.sections(b""))[1]
bitm.section(b"", 65536); bitm.is_written(b"")
bitm.load("x"); bitm.load("x").check(); bitm.loads(b""); bitm.tables_of(b""); bitm.Index(b"").over(b"", b"", b"")""".replace("\n", "; ").split("; ")


def mypy(*arguments):
    pytest.importorskip("mypy")
    done = subprocess.run([sys.executable, "-m", "mypy", "--strict", "--no-error-summary", *arguments], capture_output=True, text=True)
    return done.stdout


def test_the_package_is_strict():
    assert mypy("-p", "bitm") == ""


def test_the_stubs_are_those_of_the_types():
    pytest.importorskip("mypy.stubtest")
    done = subprocess.run([sys.executable, "-m", "mypy.stubtest", "bitm._core", "--concise"], capture_output=True, text=True)
    assert done.returncode == 0, done.stdout + done.stderr


def test_no_expression_of_a_user_has_a_part_of_an_unknown_type(tmp_path):
    """Without NumPy, whose arrays have a shape of an unknown type."""
    path = tmp_path / "lines.py"
    plain = [it for it in EXPRESSIONS if "array" not in it and "numpy" not in it]
    made = [it for it in LINES.replace(", numpy", "").splitlines() if "numpy" not in it]
    path.write_text("\n".join([*made, *plain, CALLS]))
    assert mypy("--disallow-any-expr", "--disallow-any-explicit", "--disallow-any-decorated", "--disallow-any-unimported", str(path)) == ""


def test_no_type_of_a_user_is_unknown(tmp_path):
    pytest.importorskip("numpy")
    path = tmp_path / "lines.py"
    path.write_text(LINES + "".join(f"reveal_type({it})\n" for it in EXPRESSIONS))
    shown = mypy(str(path))
    types = re.findall(r'Revealed type is "(.*)"', shown)
    assert len(types) == len(EXPRESSIONS) and "error" not in shown, shown
    for expression, found in zip(EXPRESSIONS, types):
        assert "Any" not in re.sub(r"(ndarray|MaskedArray)\[Any,", r"\1[", found), (expression, found)


def test_pyright_finds_nothing(tmp_path):
    """pyright is no package of Debian: where it is not installed, this is skipped by its name."""
    if shutil.which("pyright") is None:
        pytest.skip("pyright is not installed")
    path = tmp_path / "lines.py"
    path.write_text("# pyright: strict, reportUnusedExpression=false\n" + LINES + "".join(f"{it}\n" for it in EXPRESSIONS))
    for files in ([str(path)], ["--verifytypes", "bitm", "--ignoreexternal"]):
        done = subprocess.run(["pyright", "--outputjson", "--pythonpath", sys.executable, *files], capture_output=True, text=True)
        assert json.loads(done.stdout)["summary"]["errorCount"] == 0, done.stdout


def test_every_name_has_a_stub_and_a_text():
    stub = "\n".join(it.read_text() for it in pathlib.Path(bitm.__file__).parent.glob("_core*.pyi"))
    for kind in (bitm.BitVector, bitm.Index, bitm.EliasFano, bitm.Cursor, bitm.SparseBits, bitm.PerfectHash, bitm.Dictionary,
                 bitm.Strings, bitm.Tree, bitm.Trie, bitm.WaveletMatrix, bitm.TextIndex):
        body = re.search(rf"class {kind.__name__}.*?:\n(.*?)(\n\S|\Z)", stub, re.S)[1] + re.search(r"class _Value:\n(.*?)\n\S", stub, re.S)[1]
        for name in dir(kind):
            if not name.startswith("_"):
                assert re.search(rf"def {name}\(", body), (kind, name)
                assert inspect.getdoc(getattr(kind, name)), (kind, name)
    for name in bitm.__all__:
        assert hasattr(bitm, name)
