"""One format: the same values make the same bytes in C++, Python and JavaScript, a file of each kind; where no hash has a
parameter they are those of docs/FORMAT.md. What one language writes the other two open, and find as it was written."""
import os
import re
import subprocess

import pytest
from blocks import as_bytes, of_bits, of_matrix, of_sequence, of_sparse, of_tree, of_trie, packed
from checks import TOP
from common import PYTHON, compiled
from shell import needs

CPP = """#include <bitm.hpp>
#include <fstream>
static char **folders;
template <class Owner> static void both(const char *name, const Owner &made)
{
    made.save(name);
    std::ofstream(name + std::string(".shown")) << made;
    for (char **it = folders; *it; it++)
        if (Owner::load(std::string(*it) + name, bitm::verify::yes) != made) throw std::runtime_error(*it);
}
int main(int, char **words)
{
    folders = words + 1;
    both("index", bitm::rank_index(bitm::bits::of_positions({1, 500, 999}, 1000)));
    both("sequence", bitm::sequence{2, 3, 5, std::uint64_t{1} << 60});
    both("sparse", bitm::sparse_bits({1, 500, 999}, 1000));
    both("matrix", bitm::wavelet_matrix{3, 1, 4, 1, 5});
    both("hinted", bitm::wavelet_matrix(std::vector<std::uint64_t>{3, 1, 4, 1, 5}, 3, bitm::quarters::yes, bitm::hints::yes));
    both("tree", bitm::tree{2, 0, 1, 0});
    both("trie", bitm::trie::of_words({"a", "b", "be"}));
    both("dictionary", bitm::dictionary{4, 9, 49});
    both("strings", bitm::strings{"ada", "bob", "eve"});
    both("text", bitm::text_index("banana"));
}
"""
PYTHON_PROGRAM = """
import pathlib, sys, bitm
ones = [1, 500, 999]
made = dict(index=bitm.Index(bitm.BitVector.from_indices(ones, 1000)), sequence=bitm.EliasFano([2, 3, 5, 2**60]),
            sparse=bitm.SparseBits(ones, 1000), matrix=bitm.WaveletMatrix([3, 1, 4, 1, 5]), tree=bitm.Tree([2, 0, 1, 0]),
            hinted=bitm.WaveletMatrix([3, 1, 4, 1, 5], quarters=True, hints=True),
            trie=bitm.Trie.of_words(["a", "b", "be"]), dictionary=bitm.Dictionary([4, 9, 49]),
            strings=bitm.Strings(["ada", "bob", "eve"]), text=bitm.TextIndex(b"banana"))
for name, value in made.items():
    value.save(name)
    pathlib.Path(name + ".shown").write_text(repr(value))
    for folder in sys.argv[1:]:
        found = bitm.load(folder + name)
        assert type(found) is type(value) and found.check(), (folder, name)
"""
JAVASCRIPT = """
import { readFileSync, writeFileSync } from "node:fs";
import { inspect } from "node:util";
const B = await import(process.argv[2]), ones = [1, 500, 999];
const made = {
    index: new B.Index(B.BitVector.fromPositions(ones, 1000)), sequence: new B.EliasFano([2, 3, 5, 2n ** 60n]),
    sparse: new B.SparseBits(ones, 1000), matrix: new B.WaveletMatrix([3, 1, 4, 1, 5]), tree: new B.Tree([2, 0, 1, 0]),
    hinted: new B.WaveletMatrix([3, 1, 4, 1, 5], { quarters: true, hints: true }),
    trie: B.Trie.ofWords(["a", "b", "be"]), dictionary: new B.Dictionary([4, 9, 49]),
    strings: new B.Strings(["ada", "bob", "eve"]), text: B.TextIndex.of("banana"),
};
for (const [name, value] of Object.entries(made)) {
    writeFileSync(name, value.toBytes());
    writeFileSync(name + ".shown", inspect(value));
    for (const folder of process.argv.slice(3)) {
        const read = value.constructor.open ?? B.open;
        if (read.call(value.constructor, readFileSync(folder + name)).length !== value.length) throw new Error(folder + name);
    }
}
"""
KINDS = "index sequence sparse matrix hinted tree trie dictionary strings text".split()
ONES = [1, 500, 999]
BY_THE_PAGE = {
    "index": of_bits(1000, 0, packed([at in ONES for at in range(1000)])),
    "sequence": of_sequence(4, 0, [2, 3, 5, 2**60]),
    "sparse": of_sparse(3, 1000, ONES),
    "matrix": of_matrix(5, 3, [3, 1, 4, 1, 5]),
    "hinted": of_matrix(5, 3 + 3 * 256, [3, 1, 4, 1, 5]),
    "tree": of_tree(4, 0, [2, 0, 1, 0]),
    "trie": of_trie(4, 8, [2, 0, 1, 0, 97, 98, 101, 0b1110]),
}


@pytest.fixture(scope="module")
def files(site, tmp_path_factory):
    """The folder of each language, in which each has read the files of the other two."""
    needs("g++", "node", f"{PYTHON}:setuptools")
    folders = {name: tmp_path_factory.mktemp(name) for name in ("cpp", "python", "javascript")}
    (folders["cpp"] / "x.cpp").write_text(CPP)
    program = compiled("g++ -std=c++17 -O1", folders["cpp"] / "x.cpp", folders["cpp"])
    module = TOP / "bindings/javascript/src/node.js"
    commands = {"cpp": [program], "python": [PYTHON, "-c", PYTHON_PROGRAM],
                "javascript": ["node", "--input-type=module", "-e", JAVASCRIPT, "-", module]}
    there = []
    for name in [*commands, *commands]:
        how = {"cwd": folders[name], "env": {**os.environ, **site}, "text": True, "capture_output": True}
        made = subprocess.run([*commands[name], *there], check=False, **how)
        assert made.returncode == 0, made.stdout + made.stderr
        there += [f"{folders[name]}/"] * (len(there) < len(commands))
    return folders


@pytest.mark.parametrize("kind", KINDS)
def test_same_bytes(kind, files):
    written = {name: (it / kind).read_bytes() for name, it in files.items()}
    assert len(set(written.values())) == 1
    if kind in BY_THE_PAGE:
        assert written["cpp"] == as_bytes(BY_THE_PAGE[kind])


@pytest.mark.parametrize("kind", KINDS)
def test_same_names_and_numbers_are_shown(kind, files):
    """But where a value is shown by what it holds: bits, an index and a sequence in C++, a short sequence in Python."""
    shown = {name: (it / f"{kind}.shown").read_text() for name, it in files.items()}
    fields = {re.sub(r"[():={},\s]+", " ", text).split(" ", 1)[1] for text in shown.values() if re.search(r"\w[=:]", text)}
    assert len(fields) == 1 and all(re.search(r"\d", text) for text in shown.values()), shown
