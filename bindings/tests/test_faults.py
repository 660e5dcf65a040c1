"""One fault at a time, planted in an export, which a program of bindings/c has to see. Each export is wrapped by the linker
(--wrap): the wrapper calls the archive and then does one thing that the header forbids. The wrappers are made from
include/bitm.h and the tables below; an export that EXPORTS lacks is an error. The environment names the fault of a run,
so each program is built once. `LARGE=1 pytest bindings/tests/test_faults.py -k bitm_bits_get` plants those of some."""
import collections
import concurrent.futures
import os
import resource
import subprocess
import tempfile

import pytest
from checks import TOP
from common import ARCHIVE, LARGE, large
from header import PLAIN, header
from shell import bash, needs
from test_c import PROGRAMS as IN_C

# The exports, by their statuses besides BITM_OK (None, Bad size, Wrong, Unsorted) and the arrays of which they read a part.
EXPORTS = {
    "": "version bits_words_len bits_to_store index_upper_len index_lower_len index_samples_len optimal_log2"
        " hash_level_len strings_hash key_hash",
    "NB words": "bits_get bits_set bits_get_number bits_set_number bits_xor_number bits_get_fragment"
        " bits_set_fragment bits_swap_fragments bits_fill_fragments bits_count_range bits_next bits_previous"
        " bits_fill_range bits_flip_range",
    "B words": "bits_set_list bits_positions index_build_samples"
        " dictionary_find_list",
    "B": "bits_count bits_and bits_or bits_xor bits_and_not index_build sequence_sizes hash_level hash_build"
        " hash_build_seeded"
        " stored_index stored_index_room stored_build stored_sequence prefix_sums tree_size matrix_size"
        " matrix_get_list matrix_rank_list matrix_select_list index_block_size index_block_build sequence_block_size"
        " sparse_size text_size text_size_letters text_size_bytes text_build_bytes text_len"
        " hash_block_size hash_block_build hash_block_size_seeded hash_block_build_seeded"
        " dictionary_size trie_size strings_size strings_hashes strings_find_list"
        " hash_level_seeded matrix_write_level matrix_seal text_order_bytes",
    "- words": "bits_clear_from",
    "N": "bits_copy_range bits_equal_range bits_select_in_word numbers_unsorted numbers_above tree_misfit",
    "NB": "trie_unsorted_word",
    "B words other": "bits_intersects bits_is_subset",
    "N bytes": "bytes_get57 bytes_init57 bytes_set57 bytes_get25 bytes_init25 bytes_set25",
    "BW": "hash_set_prints hash_set_prints_seeded index_check sequence_check tree_build matrix_build text_build cursor_start cursors_intersect"
        " dictionary_build trie_build strings_build block_extend text_order text_build_ordered text_build_ordered_bytes",
    "BW block": "block_extended_size",
    "NW block": "block_section",
    "BW words": "index_check_samples",
    "NBW words lower": "index_rank hash_get hash_find hash_get_seeded hash_find_seeded tree_parent tree_child tree_degree tree_is_leaf tree_next_sibling"
        " tree_previous_sibling tree_child_rank",
    "NBW words lower samples": "index_select index_next index_previous",
    "B words lower": "index_rank_list index_positions hash_get_list hash_find_list hash_get_list_seeded"
        " hash_find_list_seeded tree_parent_list tree_degree_list tree_child_list",
    "B words samples": "index_select_list",
    "B lower": "index_count",
    "BU": "sequence_build sequence_block_build trie_nodes_of_words trie_build_words",
    "BUW": "sparse_build",
    "NBW words low": "sequence_get sequence_first_at_least sequence_last_at_most sparse_get sparse_rank sparse_select"
        " sparse_next sparse_previous",
    "BW words low": "sequence_contains",
    "B words low": "sequence_items sequence_get_list sequence_first_at_least_list sequence_last_at_most_list"
        " sequence_contains_list sparse_get_list sparse_rank_list sparse_select_list",
    "W file": "stored_read",
    "W": "cursors_union prefix_sums_check tree_check matrix_check index_block_check sequence_block_check"
        " sparse_check text_check text_open"
        " hash_block_check hash_block_check_seeded dictionary_check trie_check strings_check block_check",
    "NBW bits ones": "shards_find",
    "NBW bits ones shards": "shards_rank shards_select shards_next shards_previous",
    "B bits ones shards": "shards_rank_list shards_select_list",
    "W block": "tree_open matrix_open index_block_open sequence_block_open sparse_open"
        " hash_block_open dictionary_open trie_open strings_open",
    "BW block bytes": "hash_block_open_seeded_bytes",
    "NBW words": "matrix_get matrix_rank matrix_select matrix_count_less matrix_quantile"
        " matrix_distinct matrix_top matrix_intersect"
        " dictionary_find",
    "NBW words bytes": "strings_find strings_get",
    "NB labels ends words": "trie_label trie_is_end",
    "NBW labels words lower": "trie_child trie_find trie_find_bytes trie_longest trie_longest_bytes trie_word",
    "NBW": "matrix_next_value matrix_previous_value cursor_next",
    "BW words starts": "text_count text_count_bytes",
    "BW words starts samples": "text_locate text_locate_bytes",
    "NBW words starts samples": "text_extract text_extract_bytes",
}
STATUSES = {"O": "BITM_OK", "N": "BITM_NONE", "B": "BITM_BAD_SIZE", "W": "BITM_WRONG", "U": "BITM_UNSORTED", "?": "5"}
# The words beside the bits that a call changes, which may not change.
BESIDE = {
    "bitm_bits_set": ("position", "position"), "bitm_bits_set_number": ("begin", "begin + width"),
    "bitm_bits_xor_number": ("begin", "begin + width"), "bitm_bits_clear_from": ("bits_len", None),
    "bitm_bits_set_fragment": ("index * width", "index * width + width"), "bitm_bits_fill_range": ("from", "to"),
    "bitm_bits_flip_range": ("from", "to"),
}
# Arrays of which nothing is said after a call: all of them, or what is after those that are left.
SCRATCH, LEFT = ("again", "room", "scratch", "sorted", "cursors"), ("hashes",)
# The statuses with which a list may hold anything.
SPOILS = {"W": "text_locate text_locate_bytes text_extract text_extract_bytes cursors_union hash_set_prints hash_set_prints_seeded"
          " matrix_distinct matrix_top matrix_intersect trie_word strings_build", "BW": "cursors_intersect"}
# What no answer of these may be, whatever the tables hold, where they would say that the tables are wrong; a list's i-th answer.
OUTSIDE = {
    "position + 1": "index_rank shards_rank sparse_rank",
    "positions[i] + 1": "index_rank_list shards_rank_list sparse_rank_list",
    "index->bits_len": "index_select index_select_list index_next index_previous",
    "sequence->len": "sequence_first_at_least sequence_last_at_most sequence_first_at_least_list sequence_last_at_most_list",
    "at_least - 1": "cursor_next",
    "2": "sequence_contains sequence_contains_list tree_is_leaf sparse_get sparse_get_list",
    "node": "tree_parent",
    "nodes[i]": "tree_parent_list",
    "trie->tree.len": "trie_child trie_find trie_find_bytes",
    "node + 1": "trie_word",
    "tree->len": "tree_child tree_degree tree_next_sibling tree_previous_sibling tree_child_rank tree_degree_list tree_child_list",
    "matrix->width < 64 ? (uint64_t)1 << matrix->width : 0": "matrix_get matrix_quantile",
    "end - start + 1": "matrix_count_less",
    "bound - 1": "matrix_next_value",
    "bound": "matrix_previous_value",
    "index + 1": "matrix_rank",
    "indices[i] + 1": "matrix_rank_list",
    "matrix->len": "matrix_select matrix_select_list",
    "sparse->bits_len": "sparse_select sparse_next sparse_previous sparse_select_list",
    "text->letters.len + 2": "text_count text_locate",
    "hash->keys": "hash_get hash_get_list hash_find hash_find_list",
    "hash->hash.keys": "hash_get_seeded hash_get_list_seeded hash_find_seeded hash_find_list_seeded",
    "dictionary->keys_len": "dictionary_find dictionary_find_list",
    "strings->hash.keys": "strings_find strings_find_list",
    "shards->counts.bits[shards->shards_len]": "shards_select shards_next shards_previous shards_select_list",
}
# The programs that have to see such an answer by themselves, before any other is run.
HOSTILE = ["hostile", "cursors", "guarded", "hashes", "fingerprints", "shards", "trees", "tries", "matrices", "matrix_ranges", "matrix_tallies", "sparse", "texts", "dictionaries", "seeded_blocks", "strings"]
PROGRAMS = list(dict.fromkeys(["statuses", "pages", *IN_C]))
for one in ("walks", "lengths", "careless"):
    PROGRAMS.remove(one)
Array = collections.namedtuple("Array", "at len name is_const")
Fault = collections.namedtuple("Fault", "export kind words statement")


def by_name(table):
    return {f"bitm_{name}": value for value, names in table.items() for name in names.split()}


def arrays(variables, prefix=""):
    """Each pointer with a length after it, of the parameters and of the structs that they point to."""
    names, structs = [it.name for it in variables], header().structs
    for it in variables:
        if it.is_pointer and f"{it.name}_len" in names:
            yield Array(prefix + it.name, f"{prefix}{it.name}_len", it.name, it.is_const)
        elif it.kind in structs and (it.is_const or not it.is_pointer):
            yield from arrays(structs[it.kind], f"{prefix}{it.name}{'->' if it.is_pointer else '.'}")


def numbers(kind, prefix=""):
    """The numbers of a struct, those of structs in it too."""
    for it in header().structs.get(kind, ()):
        yield from numbers(it.kind, f"{prefix}{it.name}.") if it.kind in header().structs else [f"{prefix}{it.name}{it.size}"]


def of_statuses(statuses):
    for was in statuses:
        for other in (it for it in STATUSES if it != was):
            kind = "unknown status" if other == "?" else "status"
            yield kind, f"{STATUSES[other]} for {STATUSES[was]}", f"if (result == {STATUSES[was]}) result = {STATUSES[other]};"
    yield "unknown status", "5 for BITM_OK", "if (ok) result = 5;"
    yield "status", "BITM_NONE for BITM_OK", "if (ok) result = BITM_NONE;"


def of_kept_outputs(status, listed, single):
    outputs = [(it.name, it.name, "") for it in single] + [(it.name, it.at, f" && {it.len} > 0") for it in listed if not it.is_const]
    for name, at, given in outputs:
        yield "kept", f"writes {name} and returns {status}", f"if (result == {status}{given}) flip({at});"


def of_answers(listed, single):
    for it in single:
        for field in numbers(it.kind):
            yield "answer", f"{it.name}.{field} is one more", f"if (ok) {it.name}->{field} += 1;"
        if it.kind not in header().structs:
            yield "answer", f"{it.name} is one more", f"if (ok) *{it.name} += 1;"
            yield "answer", f"{it.name} is one less", f"if (ok) *{it.name} -= 1;"
            yield "rare answer", f"{it.name} is one more in each 20th answer", f"if (ok && ++answers % 20 == 0) *{it.name} += 1;"
    filled = next((f"*{it.name}" for it in single if it.name in ("written", "used", "left")), None)
    for it in (it for it in listed if not it.is_const and it.name not in SCRATCH):
        counted = filled if filled and it.name in ("out", "samples", *LEFT) else it.len
        yield "answer", f"first of {it.name} is another", f"if (ok && {counted} > 0) {it.at}[0] ^= 1;"
        yield "answer", f"last of {it.name} is another", f"if (ok && {counted} > 0) {it.at}[{counted} - 1] ^= 1;"
        if counted != it.len and it.name not in LEFT:
            yield "too many", f"writes one of {it.name} too many", f"if (ok && {counted} < {it.len}) {it.at}[{counted}] ^= 1;"


def of_items_outside(listed, single):
    for it in single:
        for offset, side in (("1", "behind"), ("-1", "before")):
            yield "writes outside", f"writes {side} {it.name}", f"if (ok) flip({it.name} + {offset});"
    for it in listed:
        for offset, side in ((it.len, "behind"), ("-1", "before")):
            what, how = ("reads", "look") if it.is_const else ("writes", "flip")
            yield f"{what} outside", f"{what} {side} {it.name}", f"if (ok && {it.len} > 0) {how}({it.at} + {offset});"


def faults_of(call, statuses, parts):
    """The kind, in words, and the statement after the call of the archive."""
    if call.result == "size_t" or call.name in PLAIN:
        yield from (("answer", "one more", "result += 1;"), ("answer", "one less", "result -= 1;"))
        return
    listed, names, outside = list(arrays(call.given)), {it.name for it in call.given}, by_name(OUTSIDE).get(call.name)
    single = [it for it in call.given if it.is_pointer and not it.is_const and f"{it.name}_len" not in names]
    if call.result == "uint32_t":
        yield from of_statuses(statuses)
    for status in statuses:
        kept = [] if status in by_name(SPOILS).get(call.name, "") else listed
        yield from of_kept_outputs(STATUSES[status], kept, single)
    yield from of_answers(listed, single)
    for offset, side in zip(BESIDE.get(call.name, ()), ("before", "behind")):
        at = f"({offset}) / 64 {'-' if side == 'before' else '+'} 1"
        if offset:
            yield "too many", f"spoils the word {side}", f"if (ok && {at} < words_len) words[{at}] ^= 1;"
    yield from of_items_outside(listed, single)
    if outside and call.name.endswith("_list"):
        yield ("hostile answer", "a position outside for BITM_WRONG_TABLES",
               f"for (size_t i = 0; ok && i < out_len; i++) if (out[i] == BITM_WRONG_TABLES) out[i] = {outside};")
    elif outside:
        yield "hostile answer", "an answer outside for BITM_WRONG", f"if (result == BITM_WRONG) *out = {outside}, result = BITM_OK;"
    for it in (it for it in listed if it.name in parts):
        yield "reads all", f"reads all of {it.name}", f"if (ok) touch({it.at}, {it.len}, sizeof *{it.at});"


def all_faults():
    for name, (statuses, *parts) in ((name, (it or "-").split()) for name, it in by_name(EXPORTS).items()):
        if name in header().calls:
            yield from (Fault(name, *it) for it in faults_of(header().calls[name], statuses.strip("-"), parts))


FAULTS = list(all_faults())
HEAD = """#include "bitm.h"
#include <stdlib.h>
static int fault;
static unsigned answers;
static volatile unsigned char seen;
__attribute__((constructor)) static void choose(void)
{
    const char *number = getenv("BITM_FAULT");
    fault = number ? atoi(number) : 0;
}
static void flip(void *at) { *(volatile unsigned char *)at += 1; }
static void look(const void *at) { seen = *(const volatile unsigned char *)at; }
static void touch(const void *at, size_t len, size_t size)
{
    for (size_t i = 0; i < len; i++) look((const unsigned char *)at + i * size);
}
"""


def wrapper(call):
    """The function in C that has the faults of a call, numbered from 1 on."""
    given = ", ".join(f"{it.type} {it.name}" for it in call.given) or "void"
    real = f"__real_{call.name}({', '.join(it.name for it in call.given)})"
    cases = "".join(f"    case {n}: {it.statement} break;\n" for n, it in enumerate(FAULTS, 1) if it.export == call.name)
    before, after = ("", "") if call.result == "void" else (f"{call.result} result = ", "    return result;\n")
    ok = "result == BITM_OK" if call.result == "uint32_t" else "true"
    return (f"{call.result} __real_{call.name}({given});\n{call.result} __wrap_{call.name}({given})\n{{\n    {before}{real};\n"
            f"    const bool ok = {ok};\n    (void)ok;\n    switch (fault) {{\n{cases}    }}\n{after}}}\n")


@pytest.fixture(scope="module")
def room(tmp_path_factory):
    """A folder with the programs over the wrappers."""
    needs("gcc")
    folder = tmp_path_factory.mktemp("faults")
    (folder / "faults.c").write_text(HEAD + "".join(map(wrapper, header().calls.values())))
    wrap = " ".join(f"-Wl,--wrap={name}" for name in header().calls)
    gcc = f"gcc -std=c11 -O2 -w -I{TOP}/include -pthread"
    bash(f"{gcc} -c faults.c", folder)
    for name in PROGRAMS:
        bash(f"{gcc} {TOP}/bindings/c/{name}.c faults.o {ARCHIVE} {wrap} -o {name}", folder)
    return folder


def quiet():
    resource.setrlimit(resource.RLIMIT_CORE, (0, 0))
    resource.setrlimit(resource.RLIMIT_AS, (1 << 32, 1 << 32))


def fails(room, name, number):
    """Whether a program fails with a fault, or does not end in time."""
    with tempfile.TemporaryDirectory(dir=room) as own:
        how = {"cwd": own, "env": {**os.environ, "BITM_FAULT": str(number)}, "stdout": subprocess.DEVNULL, "stderr": subprocess.DEVNULL}
        try:
            return subprocess.run([room / name], timeout=60, preexec_fn=quiet, check=False, **how).returncode != 0
        except subprocess.TimeoutExpired:
            return True


@pytest.fixture(scope="module")
def seen(request, room):
    """The first program that sees each fault that was chosen."""
    def first(number):
        names = dict.fromkeys([*(HOSTILE if FAULTS[number - 1].kind == "hostile answer" else ()), *PROGRAMS])
        return next((name for name in names if fails(room, name, number)), None)
    chosen = [it.callspec.params["number"] for it in request.session.items if it.originalname == "test_fault"]
    with concurrent.futures.ThreadPoolExecutor(len(os.sched_getaffinity(0))) as pool:
        return dict(zip(chosen, pool.map(first, chosen)))


def test_each_export_has_faults():
    assert set(by_name(EXPORTS)) == set(header().calls) == {it.export for it in FAULTS}


@large
@pytest.mark.parametrize("name", PROGRAMS)
def test_no_fault(name, room):
    assert not fails(room, name, 0)


@large
@pytest.mark.parametrize("number", [pytest.param(n, id=f"{it.export}: {it.words}") for n, it in enumerate(FAULTS, 1) if LARGE])
def test_fault(number, seen, record_property):
    record_property("seen by", seen[number])
    assert seen[number], f"{FAULTS[number - 1].kind}: no program fails"
