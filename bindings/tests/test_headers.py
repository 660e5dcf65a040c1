"""include/bitm.h beside the exports, structs and statuses of the library, the symbols of the shared object, and the
declarations of the version before, with which programs were compiled."""
import re

import pytest
from checks import TOP, read
from header import PLAIN, header
from shell import bash, needs

HEADER, VERSION = header(), read("VERSION").strip()
SOURCES = "\n".join(it.read_text() for name in ("bitm_abi", "bitm_c", "bitm_numbers_c", "bitm_keys_c", "bitm_trees_c") for it in sorted(TOP.glob(f"crates/{name}/src/**/*.rt")))
OF_INLINE = {"bitm_sequence_walk"}  # of functions in the header alone
NUMBERS = {"u8": "uint8_t", "u16": "uint16_t", "u32": "uint32_t", "u64": "uint64_t", "usize": "uint64_t", "bool": "bool", "": "void"}


def in_c(name):
    """The type of C that a number or a struct of the library is."""
    return NUMBERS.get(name) or "struct bitm" + re.sub("[A-Z]", lambda it: f"_{it[0].lower()}", name)


def of_library(text):
    """The parameters or fields that those of the library are in C; a slice is a pointer and a length."""
    for name, kind in re.findall(r"(\w+): ([^,]+)", re.sub(r"//.*|'\w+ |<'\w+>", "", text)):
        of, mut, opens, item, size = re.fullmatch(r"\s*(&?)(mut )?(\[?)(\w+)(?:; (\d+))?\]?\s*", kind).groups()
        yield name, ("const " if of and not mut else "") + in_c(item) + (f"[{size}]" if size else " *" if of else "")
        if of and opens:
            yield f"{name}_len", "uint64_t"


def of_header(variables):
    """size_t and uint64_t are numbers of 64 bits."""
    return [(it.name, it.type.replace("size_t", "uint64_t")) for it in variables]


EXPORTS = {name: (in_c(result), list(of_library(given))) for name, given, result in re.findall(
    r'#\[unsafe\(no_mangle\)\]\s*pub extern "C" fn (\w+)(?:<[^>]*>)?\(([^)]*)\)(?: -> (\w+))?', SOURCES)}
STRUCTS = {in_c(name).split()[1]: list(of_library(fields)) for name, fields in re.findall(r"#\[repr\(C\)\][^{]*?pub struct (\w+)(?:<'a>)? \{([^}]*)\}", SOURCES)}


def test_exports_are_read():
    assert SOURCES.count("no_mangle") == len(EXPORTS) > 0


def test_names_of_calls():
    assert sorted(EXPORTS) == sorted(HEADER.calls)


def test_names_of_structs():
    assert sorted(STRUCTS) == sorted(set(HEADER.structs) - OF_INLINE)


@pytest.mark.parametrize("name", sorted(EXPORTS | HEADER.calls))
def test_call(name):
    declared = HEADER.calls[name]
    assert (declared.result.replace("size_t", "uint64_t"), of_header(declared.given)) == EXPORTS[name]


@pytest.mark.parametrize("name", sorted(STRUCTS | HEADER.structs))
def test_struct(name):
    assert name in OF_INLINE or of_header(HEADER.structs[name]) == STRUCTS[name]


def test_compiler_warns_where_a_status_is_not_looked_at():
    assert HEADER.must_use == {name for name, (result, _) in EXPORTS.items() if result == "uint32_t"} - PLAIN


def test_statuses():
    statuses = re.findall(r"pub const (\w+): u32 = (\d+);", read("crates/bitm_abi/src/answer.rt"))
    assert HEADER.statuses == {f"BITM_{name}": code for name, code in statuses} != {}


def test_statuses_in_words():
    assert sorted(re.findall(r"case (BITM_\w+): return", read("include/bitm.h"))) == sorted(HEADER.statuses)


def test_codes_of_lists():
    codes = re.findall(r"pub const (NO_ANSWER|WRONG_TABLES): usize = (.*);", "\n".join(it.read_text() for it in TOP.glob("crates/*/src/**/*.rt")))
    in_lists = {name: code.strip("()") for name, code in HEADER.constants.items() if "MAX" in code}
    assert in_lists == {f"BITM_{name}": code.replace("usize::", "UINT64_") for name, code in codes} != {}


def series(version):
    """Within a series programs go on working: a minor version before 1.0, from 1.0 on a major one."""
    return re.match(r"0\.\d+|\d+", version)[0]


NODES = re.findall(r"^BITM_([\d.]+) \{\nglobal:\n(.*?)^(?:local:\n    \*;\n)?\}", read("install/libbitm_c.map"), re.M | re.S)


def test_symbols():
    """Each call has a version. A new one goes to the node of VERSION, after the others; a new series begins anew."""
    named = sorted(re.findall(r"bitm_\w+", " ".join(names for _, names in NODES)))
    assert named == sorted(HEADER.calls), f"not in both: {set(named) ^ set(HEADER.calls)}"


def test_symbols_are_of_this_series():
    assert {series(it) for it, _ in NODES} == {series(VERSION)}


# Structs whose reserved words were taken since: what stands there, a word each. A program of before has zeros there, which
# mean none, as its header said.
TAKEN = {it: [("hints", "const uint64_t *"), ("hints_len", "size_t")] for it in ("bitm_sequence", "bitm_tree")}


def with_room(name, members):
    """The members of a struct, with its reserved words in place of what took them."""
    if name not in TAKEN:
        return members
    assert [(it.name, it.type) for it in members[-2:]] == TAKEN[name]
    return [*members[:-2], members[0]._replace(name="reserved", type="uint64_t[2]")]


KEPT = sorted(TOP.glob("install/bitm-*.h"))
IS_SERIES = [series(it.stem.removeprefix("bitm-")) == series(VERSION) for it in KEPT] == [True]


def test_one_version_before_is_kept():
    assert len(KEPT) == 1


@pytest.mark.skipif(not IS_SERIES, reason="the declarations that are kept are of another series")
@pytest.mark.parametrize("what", ["calls", "structs", "statuses", "constants"])
def test_declarations_stay(what):
    before, now = (getattr(it, what) for it in (header(KEPT[0]), HEADER))
    assert {name: with_room(name, now.get(name)) for name in before} == before


@pytest.mark.skipif(not IS_SERIES, reason="the declarations that are kept are of another series")
def test_abidiff_finds_no_change(tmp_path):
    """Of shared objects whose calls do nothing; it is silent of what was added."""
    needs("abidiff", "gcc")
    for name, path in (("before", KEPT[0]), ("now", TOP / "include/bitm.h")):
        bodies = "".join(f"{it.result} {it.name}({', '.join(f'{of.type} {of.name}' for of in it.given)}) {{ return 0; }}\n" for it in header(path).calls.values())
        (tmp_path / f"{name}.c").write_text(f'#include "{path}"\n{bodies}')
        bash(f"gcc -g -w -shared -fPIC -nostdlib {name}.c -o {name}.so", tmp_path)
    (tmp_path / "taken").write_text("".join(f"[suppress_type]\nname = {it}\n" for it in TAKEN))
    bash("abidiff --no-added-syms --suppressions taken before.so now.so", tmp_path)
