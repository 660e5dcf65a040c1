"""Bodies and names that stand twice, which scripts/thin looks for.

A question has one body, over memory that may hold anything: `total_get_on`. What answers the same question otherwise,
`get_on` or `get_by`, is a line over it, or over a body that it calls too. So among the functions of a question, which
their names say, most call another one. Where one is a `total_`, two that call none are a twin if the crate of one stands
on the other's. LEFT has those that there are, and why; no other may come, and one that is gone has to go there too.

A name of a definition stands in one crate. SHARED has the names that stand in several, and the idea of which each is an
instance there."""
import collections
import functools
import re

from checks import below, claim, counts, crates, exporting, files, read
from functions import functions_of

NAME = re.compile(r"(total_)?(\w+?)((?:_on|_by)*)")
# By crate and name: what stands beside a `total_`.
LEFT = {
    ("bitm_view", "rank_on"): "ranks by ranked_on of tables_view, which runs total_rank_on",
    ("bitm_view", "select_on"): "selects by search_on, as total_select_on does",
    ("hash_buckets", "number_on"): "of another structure than number_by of perfect_hash: a seed for each bucket",
    ("louds", "degree_by"): "reads the words after one selection, where the clause of degree_on has two",
    ("louds", "degree_on"): "its clause has two selections, and no words between them",
    ("perfect_hash", "number_by"): "of another structure than number_on of hash_buckets: levels with a bit for each key",
    ("text_index", "longer_on"): "for the check, where the letters are a matrix, and nothing else is known",
} | {
    ("digit_levels", name): "of another structure: levels of digits, where bodies of levels_view read levels of bits"
    for name in ("back_on", "first_position_on", "get_on", "last_position_on", "next_on", "rank_on", "select_on", "step_on",
                 "stretch_on")
}
SHARED = {
    "a block of a kind": "CanHold IsBlockOf IsSoundBlock StandsIn AreParts HasLengths parts_of sections_of",
    "the hints of a structure": "hints_in with_hints AreHintsWritten",
    "why nothing was made": "IsReason",
    "the text of an error": "build_error_text error_text failure_text",
    "what a call of C answers":
        "FindAnswered RankAnswered NextAnswered PreviousAnswered",
}
DEFINED = re.compile(r"^(?:abbrev )?pub (?:record |data )?([A-Za-z]\w*)(?= [({:])", re.M)


@functools.cache
def stands_on(name):
    """A crate and those below it."""
    return {name, *below(name)}


def libraries():
    """The files of the libraries, each with its crate."""
    others = {*exporting(), "bitm_vectors"}
    for file in files():
        if it := re.fullmatch(r"crates/(\w+)/src/.*\.rt", file):
            if it[1] in crates() and it[1] not in others and not re.match("(test|example|tool|program)_", it[1]):
                yield file, it[1]


def questions():
    """By question: the functions that ask it, each with its crate and its body."""
    found = collections.defaultdict(list)
    for file, crate in libraries():
        for it in functions_of(file, read(file)):
            total, question, how = NAME.fullmatch(it.own).groups()
            if it.body() and (total or how):
                found[question].append((crate, it, "\n".join(it.body())))
    return found


def bodies(asked):
    """Those functions of a question that call none of it."""
    names = {it.own for _, it, _ in asked}
    return [(crate, it) for crate, it, body in asked
            if not any(re.search(rf"\b{name}\b", body) for name in names - {it.own})]


def twins():
    """Each function beside another body of its question, of which there is a `total_`, where the crate of one stands on
    the other's."""
    for asked in questions().values():
        counts[0] += len(asked)
        alone = bodies(asked) if any(it.own.startswith("total_") for _, it, _ in asked) else []
        for crate, it in (one for one in alone if not one[1].own.startswith("total_")):
            for other, beside in alone:
                if beside is not it and (crate in stands_on(other) or other in stands_on(crate)):
                    yield crate, it, other, beside


def look_at_names():
    """No name of a definition stands in several crates but those of SHARED."""
    found, shared = collections.defaultdict(set), " ".join(SHARED.values()).split()
    for file in files():
        if it := re.fullmatch(r"crates/(?!test_|example_|tool_)(\w+)/specs/.*\.antt", file):
            for name in DEFINED.findall(read(file)):
                found[name].add(it[1])
    for name, where in found.items():
        claim(len(where) == 1 or name in shared, f"the definition {name} stands in several crates: {sorted(where)}")
    for name in shared:
        claim(len(found[name]) > 1, f"scripts/once.py: SHARED has {name}, which does not stand in several crates")


def run_once():
    """No function stands twice but those of LEFT, and no name of a definition but those of SHARED."""
    look_at_names()
    found = set()
    for crate, it, other, beside in twins():
        found.add((crate, it.own))
        claim((crate, it.own) in LEFT, f"{it.file}: {it.own} asks what {beside.own} of {other} does, and calls none of it")
    for crate, name in LEFT:
        claim((crate, name) in found, f"scripts/once.py: LEFT has {name} of {crate}, which does not stand twice")
