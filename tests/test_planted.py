"""Faults that are planted in a copy of the repository, each of which the quick stage named with it has to see, in the
words of what it prints. All plants of a stage are made at once, and it runs once. Each function of a stage that claims
something has to see one of them, and each script that checks has to count a check that failed."""
import ast
import importlib.machinery
import importlib.util
import json
import os
import re
import shutil
import subprocess
import sys

import pytest
from checks import LAST, TOP, files

# What is planted: the stage, a file, a text of it (None for a file that goes, or an edit that changes nothing), what
# takes its place, and what the stage prints then.
PLANTS = {
    "a status of the root": (
        "promises", "include/bitm.h", "BITM_NONE exactly at the root and if there is no such node. Reads what one",
        "BITM_WRONG exactly at the root and if there is no such node. Reads what one",
        "bitm_tree_parent: its comment has WRONG"),
    "two statuses exchanged": (
        "promises", "include/bitm.h", "BITM_NONE exactly if there is no such number; BITM_WRONG exactly if the starts",
        "BITM_WRONG exactly if there is no such number; BITM_NONE exactly if the starts",
        "bitm_strings_get: its comment has WRONG NONE"),
    "the reads of a number": (
        "promises", "include/bitm.h", "Reads or writes at most two words", "Reads or writes at most one word",
        "bitm_bits_get_number: its comment has NONE one"),
    "the reads of a rank": (
        "promises", "include/bitm.h", " upper entry, one lower entry and eight words.",
        " upper entry, one lower entry and seven words.", "bitm_index_rank: its reads"),
    "a limit": (
        "promises", "include/bitm.h", "BITM_BAD_SIZE if there are 2^57 nodes or more",
        "BITM_BAD_SIZE if there are 2^59 nodes or more", "bitm_trie_size: 2^59 is in none of its clauses"),
    "a limit of a section": (
        "promises", "include/bitm.h", "also if words_len is 2^58 or more. An error", "also if words_len is 2^59 or more. An error",
        "words without tables: 2^59 is in none of its clauses"),
    "an example that takes a value of another": (
        "promises", "include/bitm.h", " *     uint64_t found[8], written;\n", "", "an example takes ['found', 'written'] from elsewhere"),
    "a call that no example of its comment calls": (
        "promises", "include/bitm.h", "bitm_bits_select_in_word(0x5a,", "bitm_bits_select_in(0x5a,",
        "bitm_bits_select_in_word: no example of its comment calls it"),
    "reads in a comment of Rattle": (
        "numbers", "crates/bitm_tables/src/quarters.rt", "no lower entry and two words are read; by its code",
        "no lower entry and one word are read; by its code", "rank_by_quarters_on: its cost has one word"),
    "a role": ("numbers", "docs/FORMAT.md", "| 17 | 8 | labels", "| 16 | 8 | labels", "no row has the role {'17'}"),
    "a kind": (
        "numbers", "docs/FORMAT.md", "| 7 | tree (LOUDS)", "| 12 | tree (LOUDS)",
        "its kinds are not those of the code"),
    "a section of a kind": (
        "numbers", "docs/FORMAT.md", "| words, upper, lower, labels, ends; then hints or not |",
        "| words, upper, lower, ends, labels; then hints or not |", "asks TRIE for the sections"),
    "the factor of the checksum": (
        "numbers", "docs/FORMAT.md", "(h xor word) * 0x9e3779b97f4a7c15", "(h xor word) * 0x9e3779b97f4a7c17",
        "the factor of the checksum is not that"),
    "a test vector": (
        "numbers", "docs/FORMAT.md", "`0xb5dda96bf4e1ef47`", "`0xb5dda96bf4e1ef48`",
        "the checksums of eight times 0 are"),
    "a word of a trie looked up twice": (
        "thin", "crates/tree_block/src/trie/view.rt", "find_by(&finder, &mut source,",
        "self.longest(word); find_by(&finder, &mut source,",
        "tree_block/src/trie/view.rt: find does more or less"),
    "a string found after a check of the block": (
        "thin", "crates/hash_block/src/strings/view.rt", "self.find_counted(string).0",
        "self.check(); self.find_counted(string).0", "hash_block/src/strings/view.rt: find does more or less"),
    "a rank that counts all words first": (
        "thin", "crates/bitm/src/index.rt", "match self.try_rank(index) {",
        "let _ = count_bit_ones(self.content().as_slice()); match self.try_rank(index) {",
        "bitm/src/index.rt: rank does more or less"),
    "a second body of a question": (
        "thin", "crates/elias_fano/src/counted.rt", "found(first_at_least_by(source, &BY_TABLES, low, n, v))", "None",
        "elias_fano/src/counted.rt: first_at_least_on asks what first_at_least_by of elias_fano does"),
    "a twin that is gone": (
        "thin", "scripts/once.py", '("bitm_view", "rank_on")', '("bitm_view", "rank_at")',
        "LEFT has rank_at of bitm_view"),
    "one more in C++": (
        "thin", "include/bitm/trie.hpp", "return tried(status, out)", "return tried(status, out + 1)",
        "include/bitm/trie.hpp: return"),
    "one more in JavaScript": (
        "thin", "bindings/javascript/src/tree.js", "return got >= 0 ? got :", "return got >= 0 ? got + 1 :",
        "src/tree.js: return"),
    "a line out of the list of plain calls": (
        "thin", "scripts/plain.py", "\nelias_fano/src/finding.rt first_at_least:successor+found last_at_most:_by+found contains:has", "",
        "elias_fano/src/finding.rt: first_at_least does more or less"),
    "a file of tests whose tests are renamed": (
        "ran", "bindings/tests/test_formats.py", "def test_", "def check_", "bindings/tests/test_formats.py: 0 where"),
    "a file of tests that is gone": (
        "ran", "bindings/tests/test_archive.py", None, "", "bindings/tests/test_archive.py: nothing where"),
    "a test that is always skipped": (
        "ran", "tests/test_greps.py", "import pytest\n",
        'import pytest\npytest.skip("later", allow_module_level=True)\n',
        "tests/test_greps.py: tests/skips.txt has no such reason"),
    "a test in Rust that is ignored": (
        "ran", "bindings/rust/tests/words.rs", "#[test]\n", "#[test]\n#[ignore]\n",
        "words.rs: tests/skips.txt has no such reason"),
    "a test in Rattle that is none": (
        "ran", "crates/test_bits/src/bits/bytes.rt", "#[test]\n", "", "crates/test_bits/src/bits/bytes.rt: nothing where"),
    "a stage that is not run": (
        "ran", "scripts/test", '"documents", "prose", ', '"documents", ', "not run by scripts/test: prose"),
    "a gate that runs nothing": (
        "documents", ".ci/run", "exec scripts/test", "exec true", ".ci/run does not run scripts/test"),
    "a line of HANDLES": ("documents", "HANDLES", "none", "all", "HANDLES has changed"),
    "a licence": (
        "documents", "bindings/python/LICENSE", "Apache License", "Apache Licence",
        "is not the text of the Apache License"),
    "a version of Python": (
        "documents", "docs/PLATFORMS.md", "CPython 3.11 in each", "CPython 3.10 in each", "docs/PLATFORMS.md: Python"),
    "what a user needs": (
        "documents", "README.md", "| Node 20 on any", "| Node 18 on any", "README.md: Node {'18'}, and "),
    "what the gate needs": (
        "documents", "CONTRIBUTING.md", "Python 3.9 or later", "Python 3.8 or later", "CONTRIBUTING.md: C?Python {'3.8'}"),
    "a link to no heading": (
        "documents", "docs/guides/rank-and-select.md", "#beside-what-memory-allows", "#beside-what-memory-has",
        "and there is no such heading"),
    "a word that documents do not use": (
        "prose", "docs/FAQ.md", "\n", "\nA superblock.\n", "docs/FAQ.md:2: 'superblock'"),
    "a mutant that changes nothing": (
        "mutants", "crates/bitm_tables/mutants.txt", None, "new: ", "it changes nothing"),
    "a source that the archives were not built of": (
        "prebuilt", "crates/bit_lists/src/lib.rt", "\n", "\n\n",
        "prebuilt/aarch64/libbitm_c.a is not of the sources of this tree"),
    "a proof that is not one": (
        "prebuilt", "prebuilt/PROVED", "logic=proved", "logic=refused",
        "prebuilt/PROVED has no verdict of each crate in x86-64/libbitm_c.a"),
    "a module that is gone": (
        "prebuilt", "bindings/javascript/wasm/calls32.wasm", None, "",
        "wasm/calls32.wasm is not the file whose sum stands in PROVED"),
    "a time in the README": (
        "documents", "README.md", "`rank` 10.5, 59.6 ns", "`rank` 10.5, 49.6 ns", "README.md: the row of `Index` does not say"),
    "a part of a version that is not released": (
        "version", "CHANGELOG.md", "## Unreleased", "## Soon", "CHANGELOG.md: its newest part is 'Soon'"),
    "the name of the shared object": (
        "version", "docs/FAQ.md", "libbitm_c.so.0.3", "libbitm_c.so.0.4", "docs/FAQ.md: the shared object is"),
    "a toolchain": (
        "prebuilt", "bindings/javascript/wasm/PROVED", "toolchain   rattle-kit-13", "toolchain   rattle-kit-12",
        "bindings/javascript/wasm/PROVED is not of the toolchain"),
    "a skip for any reason": (
        "ran", "tests/skips.txt", "prose | misspellings | no codespell", "prose | * | *", "tests/skips.txt has a reason that any"),
    "a mutant that is gone, and its number": (
        "ran", "crates/elias_fano/mutants.txt", "thorough: ", "", "crates/elias_fano/mutants.txt: "),
    "a program that must not compile": (
        "ran", "bindings/cpp/refused.cpp", "#elif CASE == 84", "#elif 84", "bindings/cpp/refused.cpp: "),
    "a version in one place": (
        "version", "include/bitm.h", '#define BITM_VERSION "', '#define BITM_VERSION "9', "include/bitm.h: after"),
    "a file that is not there": (
        "documents", "docs/SCALE.md", "`crates/sharded_index`", "`crates/sharded_indexes`",
        "docs/SCALE.md names crates/sharded_indexes, which is no file here"),
    "a lemma under another": (
        "documents", "docs/PROOFS.md", "TableLemmas <- EntryLemmas", "TableLemmas <- FieldLemmas",
        "TableLemmas does not use FieldLemmas"),
    "a lemma file of the map": (
        "documents", "docs/PROOFS.md", "MadeLemmas; Sampled", "MaidLemmas; Sampled", "its map names MaidLemmas"),
    "a definition": (
        "documents", "docs/PROOFS.md", "(`digit`, `bit_of`,", "(`digits_of`, `bit_of`,", "does not define digits_of"),
    "a quote": ("documents", "docs/PROOFS.md", "(r p : ℕ) : Type 0", "(r q : ℕ) : Type 0", "docs/PROOFS.md: not in"),
    "the place of a mutant": (
        "documents", "docs/PROOFS.md", "note: src/ranking.rt:", "note: src/ranking.rt:9", "the notes on its mutant begin"),
    "a crate that names one above it": (
        "documents", "crates/broadword/src/lib.rt", "//!", "use bitm::Rank;\n//!",
        "broadword names the crate bitm, which is above it"),
    "a name from a crate that hands it on": (
        "documents", "crates/louds/src/labels.rt", "use bit_words::{", "use bitm::{", "louds imports what another crate"),
    "a module that names one to its right": (
        "documents", "crates/bitm_tables/src/levels.rt", "pub const", "use crate::ranking::rank_on;\npub const",
        "names the module ranking, which is to its right"),
    "a law that is not passed on": (
        "documents", "crates/bit_lists/src/laws/writes.rt", "pub fn ", "pub fn no_such_law() {}\n\npub fn ",
        "no_such_law does not stand in laws.rt"),
    "a long line": (
        "documents", "crates/bit_lists/src/lib.rt", "//!", f"//! {'long ' * 30}\n//!",
        "crates/bit_lists/src/lib.rt: longer than 120 columns"),
    "a size in a picture": ("documents", "docs/layout.svg", "8 words each", "9 words each", "docs/layout.svg: "),
    "a line of a program": (
        "documents", "docs/guides/rank-and-select.md", "words::set_bit(content.as_mut_slice(), position)",
        "words::set_bit(content.as_mut_slice(), position + 1)", "its program is not crates/example_callers"),
    "an answer of the first run": (
        "documents", "docs/PROGRAM.md", "ok 65", "ok 66", "docs/PROGRAM.md: its first run does not show"),
    "the reads of a row": (
        "documents", "docs/PERFORMANCE.md", "1 upper entry, 1 lower entry, 8 words", "1 upper entry, 1 lower entry, 7 words",
        "the row `rank`, `rank0` does not say"),
    "the size of a table": (
        "documents", "docs/DIFFERENCES.md", "tables of 2.5 KiB", "tables of 3.5 KiB", "does not say: tables of 2.5 KiB"),
    "a caller": (
        "documents", "crates/bitm/CALLING.md", "rank_on(&mut probe, position)", "rank_on(&mut probe, position + 1)",
        "crates/bitm/CALLING.md: its first caller is not of"),
    "the list of all crates": (
        "documents", "docs/ARCHITECTURE.md", "\n| `digits` | ", "\n| `digit` | ", "docs/ARCHITECTURE.md: its crates differ from crates.txt"),
    "a crate in two families": (
        "documents", "docs/ARCHITECTURE.md", "`bitm_block`, `block_tables` |", "`bitm_block`, `louds` |",
        "docs/ARCHITECTURE.md: its families have not each crate once"),
    "a crate of a family above": (
        "documents", "docs/ARCHITECTURE.md", "`matrix_levels`, `levels_view`,", "`matrix_levels`, `louds`,",
        "docs/ARCHITECTURE.md: matrix_block stands on levels_view, whose family is above its own"),
    "how many exports there are": (
        "documents", "crates/bitm_c/README.md", " exports and no undefined", "0 exports and no undefined", "crates/bitm_c/README.md does not say:"),
    "a link to no file": (
        "documents", "docs/FAQ.md", "](PLATFORMS.md)", "](PLATFORM.md)", "docs/FAQ.md links to PLATFORM.md"),
    "mutants out of their order": (
        "mutants", "crates/bitm_bits/mutants.txt", "gate: ", "gate: zz.",
        "crates/bitm_bits/mutants.txt: its mutants are not in their order"),
    "the mark": ("numbers", "docs/FORMAT.md", "74 61 62 04`", "74 61 62 05`", "the mark is not that of the code"),
    "a byte of the header": (
        "numbers", "docs/FORMAT.md", "| 32 | 4 | width", "| 40 | 4 | width", "its HEADER_WORDS begin at the bytes"),
    "how many sections there are at most": (
        "numbers", "docs/FORMAT.md", "up to 16 in all", "up to 15 in all", "a block has other than"),
    "the bytes of an item": (
        "numbers", "docs/FORMAT.md", "| 15 | 1 | seeds", "| 15 | 8 | seeds", "the bytes of an item are not those"),
    "the bytes of an item in the header of C": (
        "numbers", "include/bitm.h", "the roles from 65536 on", "the roles from 32768 on", "the bytes of an item are not those"),
    "a role of a caller's own": (
        "numbers", "docs/FORMAT.md", "0x687361686d746962", "0x687361686d746963", "no code has the number 0x687361686d746963"),
    "a status that is excluded": (
        "promises", "include/bitm.promises", "never NONE: AreOccurrencesWithin",
        "never WRONG: AreOccurrencesWithin", "AreOccurrencesWithin does not exclude WRONG"),
    "a lemma that nothing cites": (
        "thin", "crates/bit_lists/proofs/lemmas/BesideLemmas.antt", "pub number_at-word :", "uncited_lemma : ℕ\n\npub number_at-word :", "nothing cites the lemma uncited_lemma"),
    "a name of two definitions": (
        "thin", "crates/sparse_bits/specs/Answers.antt", "abbrev pub IsBitOf :", "abbrev pub IsRanked :",
        "the definition IsRanked stands in several crates"),
    "a length compared before a call": (
        "thin", "include/bitm/index.hpp", "        return try_near(bitm_index_select, true, rank);",
        "        if (rank >= size()) return maybe_position();\n        return try_near(bitm_index_select, true, rank);",
        "include/bitm/index.hpp: if (rank >= size())"),
}
STAGES = sorted({it[0] for it in PLANTS.values()})
# Runs a script as its own line would, and writes the functions in which a claim failed into the file SEEN.
NOTING = """
import json, os, runpy, sys
sys.path.insert(0, 'scripts')
import checks
claim, seen = checks.claim, set()
def noted(is_so, text):
    frame = sys._getframe(1)
    while frame and not is_so:
        seen.add((os.path.basename(frame.f_code.co_filename), frame.f_code.co_name))
        frame = frame.f_back
    claim(is_so, text)
checks.claim = noted
sys.argv = sys.argv[1:]
try:
    runpy.run_path(sys.argv[0], run_name='__main__')
finally:
    with open(os.environ['SEEN'], 'w', encoding='utf-8') as file:
        json.dump(sorted(seen), file)
"""
# The scripts with the checks of a stage, where it has more than its own; a check of what a gate printed, which
# test_gate_fails_where_nothing_ran tries.
PARTS = {"thin": ["thin", "plain.py"]}
OF_LOGS = ("ran", "look_at_run")


def copied(folder):
    """The files of the repository, in a repository of their own."""
    for name in files():
        (folder / name).parent.mkdir(parents=True, exist_ok=True)
        shutil.copy2(TOP / name, folder / name)
    subprocess.run("git init -q && git add -Af", shell=True, cwd=folder, check=True)
    return folder


def plant(path, old, new):
    """Changes the first place of a text in a file, and answers whether it has that text; with None for it takes the file
    away, or makes an edit that changes nothing."""
    if old is None and not new:
        path.unlink()
        return True
    text = path.read_text(encoding="utf-8")
    if old is None:
        same = re.sub(r"^old: (.*)\nnew: .*$", r"old: \1\nnew: \1", text, count=1, flags=re.M)
        path.write_text(same, encoding="utf-8")
    else:
        if old not in text:
            return False
        every = old in ("def test_", "#[test]\n", "Apache License")
        path.write_text(text.replace(old, new) if every else text.replace(old, new, 1), encoding="utf-8")
    return True


@pytest.fixture(scope="module")
def repository(tmp_path_factory):
    return copied(tmp_path_factory.mktemp("planted"))


@pytest.fixture(scope="module")
def said(repository, tmp_path_factory):
    """What each stage prints over its plants, its status, and the functions in which a claim failed; and the plants whose
    text no file has any more."""
    found, seen, gone = {}, tmp_path_factory.mktemp("seen") / "functions", []
    for stage in STAGES:
        plants = [it for it in PLANTS.values() if it[0] == stage]
        kept = {file: (repository / file).read_bytes() for _, file, *_ in plants}
        gone += [it for it in plants if not plant(repository / it[1], *it[2:4])]
        words = script("test").COMMANDS.get(stage, f"scripts/{stage}").split()
        command = [sys.executable, "-c", NOTING, *words]
        how = {"cwd": repository, "env": {**os.environ, "SEEN": str(seen)}, "capture_output": True, "text": True}
        made = subprocess.run(command, **how, check=False)
        found[stage] = made.returncode, made.stdout, json.loads(seen.read_text())
        for file, text in kept.items():
            (repository / file).write_bytes(text)
    return {**found, "gone": gone}


@pytest.mark.parametrize("name", PLANTS)
def test_fault_is_seen(name, said):
    stage, file, old, _, words = PLANTS[name]
    assert PLANTS[name] not in said["gone"], f"{file} has no {old}"
    assert words in said[stage][1]


@pytest.mark.parametrize("stage", STAGES)
def test_failures_are_counted(stage, said):
    """As many at least as there are plants of the stage, in its last line and its status."""
    status, printed, _ = said[stage]
    last = LAST.fullmatch(printed.strip().split("\n")[-1])
    assert status == 1 and last and int(last[2]) >= sum(it[0] == stage for it in PLANTS.values())


def claiming(name):
    """The functions of a script that claim something themselves."""
    of_script = ast.parse((TOP / "scripts" / name).read_text(encoding="utf-8"))
    for function in (it for it in ast.walk(of_script) if isinstance(it, ast.FunctionDef) and it.name != "main"):
        called = {it.func.id for it in ast.walk(function) if isinstance(it, ast.Call) and isinstance(it.func, ast.Name)}
        if called & {"claim", "says"}:
            yield function.name


@pytest.mark.parametrize("stage", STAGES)
def test_each_check_sees_a_plant(stage, said):
    """So one that is left out, or that passes whatever there is, fails here."""
    _, _, seen = said[stage]
    own = [(name, it) for name in PARTS.get(stage, [stage]) for it in claiming(name)]
    assert [it for it in own if [*it] not in seen and it != OF_LOGS] == []


def script(name):
    """A script as a module."""
    loader = importlib.machinery.SourceFileLoader(name.replace("-", "_"), str(TOP / "scripts" / name))
    module = importlib.util.module_from_spec(importlib.util.spec_from_loader(loader.name, loader))
    loader.exec_module(module)
    return module


def test_stage_without_counts_has_failed():
    gate = script("test")
    gate.COMMANDS["nothing"] = "true"
    assert gate.run("nothing").failed == 1


def test_gate_fails_where_nothing_ran(monkeypatch):
    """Whatever else passes: its last stage compares what ran with tests/counts.txt."""
    gate = script("test")
    run, passed = gate.run, gate.Ended("programs", 1, 0, 0, 0, 0)
    monkeypatch.setattr(gate, "GATE", [])
    monkeypatch.setattr(gate, "run", lambda stage, *words, **_: run(stage, *words) if stage == "ran" else passed)
    monkeypatch.setattr(gate.Beside, "refused", lambda self: [])
    assert gate.main([]) == 1


def test_edit_that_no_goal_refuses_is_a_failure():
    """By what the prover prints: nothing, another goal, and its own."""
    refused = script("refused")
    crate = refused.Crate("bitm_tables", [0])
    edit = next(it for it in crate.edits if len(crate.places[it]) == 1)
    (function,) = crate.places[edit]
    line = f"{edit.file}:{function.at}:1: error: `{{}}`: \n"
    assert crate.verdict(edit, refused.QUICK, "", False) is None
    assert crate.verdict(edit, refused.ALONE, "", False) == "NOT REFUSED"
    assert "was refused by other" in crate.verdict(edit, refused.ALL_GOALS, line.format("other"), False)
    assert crate.verdict(edit, refused.ALL_GOALS, line.format(edit.goal), False) == ""


def test_what_was_refused_is_kept_by_all_that_its_checks_read(tmp_path):
    refused = script("refused")
    library = tmp_path / "rlibs/bit_lists.rlib/interface"
    library.parent.mkdir(parents=True)

    def kept(interface="one", tiers=(0,), **others):
        library.write_text(interface)
        crate = refused.Crate("broadword", tiers)
        for it in crate.edits:
            vars(it).update(others)
        return crate.kept(str(tmp_path))

    assert kept() == kept() and kept().parent.name == "broadword"
    assert len({kept(), kept("two"), kept(tiers=(0, 1)), kept(name="other"), kept(text="other")}) == 5
