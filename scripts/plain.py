"""The calls without a counter of reads, which scripts/thin holds to their counted bodies.

Such a call is a public function that makes a probe of its tables, or that has a counted twin: `find` has
`total_find_on`, `find_on`, `find_by` or `find_counted`, with a clause on reads, in its crate or below. It calls its
twin once, and besides only what hands that its arguments (HANDED): no loop, and no branch but by whether there are
samples, and in the form of a trait's default, where None is unreachable, or of an owner's call of a body whose answer is
an `Answer`, where Wrong is, as it is in `right`. PLAIN has those whose body has another name, or that call one thing
more; OTHERS those that do otherwise, and why."""
import collections
import functools
import re

from checks import below, claim, counts, crates, files, read
from functions import functions_of

# By file: the calls without a counter, each with the counted body that it runs, or the end of its name after the call's
# own, or nothing where that is `_on`, and after a `+` what it calls besides. Where a body takes a `Finds` or a
# `Query`, the counted call runs it too, and stands here as well.
PLAIN = """
bitm/src/index.rt try_rank:rank_on try_get_bit:bit_on try_select:select try_select0:select0 rank:try_rank
    select:try_select select0:try_select0 bit_and_rank
bitm/src/index/many.rt rank_many select_many select0_many:select_many_on
bitm/src/ranges.rt ones_between:_in zeros_between:_in next_one:_in next_zero:_in previous_one:_in previous_zero:_in
    select_from:_in select0_from:_in
bitm_strategies/src/binary.rt select:_counted select0:_counted
bitm_strategies/src/combined.rt select:_counted select0:_counted
bitm_view/src/view.rt rank_of:rank_on rank:rank_of
elias_fano/src/finding.rt first_at_least:successor+found last_at_most:_by+found contains:has
elias_fano/src/items.rt item:_by+parts successor:first_at_least_by+parts has:contains_by+parts
elias_fano_view/src/sequence.rt item:get successor:first_at_least has:contains
louds/src/counted.rt child_on:total_child_on is_leaf_on:is_leaf_by parent_on:parent_by next_sibling_on:next_sibling_by
louds/src/labelled.rt child_by_label:_by find:_by
louds/src/node.rt degree_of:degree_after_by is_leaf_of:ends_after_on children_of:children_after_by parent_of:_by
louds/src/tree.rt end:_after_by degree:_by child:_by children:_by zero:_by is_leaf:_by parent:_by child_rank:_by
    next_sibling:_by previous_sibling:_by
perfect_hash/src/asking.rt number_by_on:total_number_by_on+found+tables_have_sizes total_number_by_on:number_by
perfect_hash/src/table.rt get:number number:_by+found get_counted:number_by_on
sharded_index/src/shard.rt rank:rank_of
sparse_bits/src/sparse.rt try_rank:rank_in+asked+found try_get_bit:bit_in+asked bit_and_rank:_in+asked
    try_select:select_in+asked+found try_select0:select0_in+asked+found
sequence_block/src/sparse/queries.rt rank:_in+asked get_bit:bit_in+asked select:_in+asked select0:_in+asked
text_index/src/growing.rt extend:rows_with
text_index/src/index.rt count:total_count_on locate:total_locate_on extract:total_extract_on rows_of:total_rows_of_on
    rows_with:total_rows_with_on position:total_position_on
text_index/src/matches.rt matches:rows_of
tree_block/src/trie/queries.rt total_child_by_label_on:child_by_label_by total_find_on:find_by total_longest_on:longest_by
wavelet_matrix/src/distinct.rt quantile_and_count:total_quantile_and_count_on
wavelet_matrix/src/queries.rt get:total_get_on try_get:total_get_on get_and_rank:total_get_and_rank_on
    get_many:total_get_list_on rank:total_rank_on try_rank:total_rank_on rank_many:total_rank_list_on
    select:total_nth_by try_select:total_select_by
wavelet_matrix/src/range_queries.rt count_less:total_count_less_on range_count:total_range_count_on
    quantile:total_quantile_on next_value:total_next_value_on previous_value:total_previous_value_on intersect
"""
# Public functions that have a twin, or make a probe, and do not run one body: by file, and why.
OTHERS = {
    "bitm/src/queries.rt": {"bit_and_rank": "the default of a trait: a bit, and a rank"},
    "bitm_abi/src/hash.rt": {"number": "one body with seeds, the same without"},
    "bitm_abi/src/shards.rt": {
        "rank": "a shard with a wrong length is Wrong", "rank_list": "a shard with a wrong length is Wrong",
        "select": "a shard with a wrong length is Wrong", "select_list": "a shard with a wrong length is Wrong"},
    "bitm_numbers_c/src/cursors/moving.rt": {"bitm_cursor_start": "writes where the cursor stands, or says why not"},
    "block_items/src/items.rt": {"next": "an iterator over items, each of which is one query"},
    "block_items/src/views.rt": {"item": "a query of the view, whose answer the iterator takes"},
    "elias_fano_view/src/sequence/items.rt": {"items_from": "a selection, and one body for all numbers after it"},
    "matrix_block/src/shared.rt": {"intersect": "next values of both ranges by turns, without memory of its own"},
    "perfect_hash/src/dictionary.rt": {"get": "a number, and the key's fingerprint there"},
    "hash_block/src/seeded/packed.rt": {"get": "a byte of a word, and no table"},
    "sharded_index/src/near.rt": {"next": "a rank and a selection", "previous": "a rank and a selection"},
    "sharded_index/src/selections.rt": {"select_list": "one list for each shard"},
    "sharded_index/src/shard.rt": {
        "select": "a call of the view for each kind", "select_list": "a call of the view for each kind"},
    "sharded_index/src/sharded.rt": {
        "rank": "the prefix counts, and one shard", "select": "the prefix counts, and one shard"},
    "hash_block/src/strings/view.rt": {"get": "two starts of strings, and no table"},
    "text_index/src/collection/collection.rt": {
        "count": "a pattern of other letters is nowhere, else one count", "locate": "positions, each with its document"},
    "text_index/src/growing.rt": {"count": "no reads: the rows are known"},
    "text_index/src/matches.rt": {"next": "an iterator over positions, each of which is one query"},
    "text_block/src/byte_queries.rt": {"extract_bytes": "None where letters are no bytes, else one body"},
    "wavelet_matrix/src/distinct.rt": {"next": "an iterator over items, each of which is one query"},
    "wavelet_matrix/src/iterating.rt": {"next": "an iterator over items, each of which is one query"},
}
# Bodies that take another way: by file, a text in it, and what takes its place.
OTHER_WAYS = {
    "bitm/src/index.rt": {
        "match self.try_rank(index) {":
            "let _ = count_bit_ones(self.content().as_slice()); match self.try_rank(index) {",
        "match self.try_select(rank) {": "self.try_select(rank); match self.try_select(rank) {",
        "match bit_and_rank_on(&mut self.probe(), position) {":
            "self.rank(position); match bit_and_rank_on(&mut self.probe(), position) {",
    },
    "bitm_view/src/view.rt": {
        "return self.select_on::<BIT, Probe<'_>, ByTables>(":
            "self.rank::<BIT>(rank); return self.select_on::<BIT, Probe<'_>, ByTables>(",
    },
    "tree_block/src/tree.rt": {
        "degree_by(&self.finder(),": "self.child(node, 0); degree_by(&self.finder(),",
    },
    "hash_block/src/strings/view.rt": {
        "self.find_counted(string).0": "self.check(); self.find_counted(string).0",
    },
    "tree_block/src/trie/view.rt": {
        "find_by(&finder, &mut source,": "self.longest(word); find_by(&finder, &mut source,",
    },
    "louds/src/node.rt": {
        "ends_after_on(&mut self.probe(), self.len(), node.number, node.position)": "self.is_leaf(node.number)",
        "parent_of_by(index,": "self.parent(node.number); parent_of_by(index,",
    },
    "louds/src/tree.rt": {
        "parent_by(index,": "parent_on(&mut probe, self.len(), node); parent_by(index,",
        "match is_leaf_by(index,": "self.degree(node); match is_leaf_by(index,",
        "child_rank_by(index,": "self.zero(node); child_rank_by(index,",
        "match next_sibling_by(index,":
            "next_sibling_by(index, &mut probe, self.len(), node); match next_sibling_by(index,",
        "match previous_sibling_by(index,": "if node == 0 { return None; } match previous_sibling_by(index,",
    },
    "perfect_hash/src/table.rt": {
        "self.number(self.hash(key))": "self.number(self.hash(key)); self.number(self.hash(key))",
        "found(number_by::<0,": "self.index.rank(0); found(number_by::<0,",
    },
    "wavelet_matrix/src/queries.rt": {
        "match levels.total_nth_by(index,":
            "levels.total_rank_on(&mut probe, number, k); match levels.total_nth_by(index,",
        "levels.total_select_by(index,":
            "levels.total_rank_on(&mut probe, number, k); levels.total_select_by(index,",
    },
}
SOURCES = re.compile(r"crates/(?!test_|example_|program_|tool_)\w+/src/.*\.rt")
ON_READS = re.compile(r"ReadsAtMost|OnlyReads|OnlyRanks|OnlySelects|ReadsLabels|ReadsFragments")
TWINS = ("total_{}_on", "{}_on", "total_{}_by", "{}_by", "{}_counted", "try_{}")
COUNTED = re.compile(r"_(?:on|by|in|with|counted)$")
PROBES = re.compile(r"\b(?:probe|own_parts|no_source)\(")
BRANCH = re.compile(r"\b(?:if|match|for|while|loop)\b")
CALL = re.compile(r"\b([a-z_]\w*)(?:::<[^();]*?>)?\(")
# The forms of a branch that decides nothing: the trait's default, the answer of right words, and with samples or without.
DEFAULT = re.compile(r"match (.*?) \{\s*Some\((\w+)\) => \2,\s*None => unreachable!\(\),\s*\}", re.S)
ANSWERED = re.compile(
    r"match (.*?) \{\s*Answer::Found\((?:(\w+)|\((\w+), (\w+)\))\) => "
    r"(?:Some\(\2\),\s*Answer::Absent => None,\s*Answer::Wrong|\2,\s*_|\3\.\.\4,\s*_|\{\}\s*_) => unreachable!\(\),\s*\}", re.S)
SAMPLED = re.compile(r"if samples\.samples\.is_empty\(\) \{\s*return ([^;]*);\s*\}")
# Calls that read neither words nor tables.
HANDED = set("""all_parts as_slice by_ones by_zeros finder hash into_reads is_one keys l1ranks l2ranks len low_digits new
    no_reads no_source number own_parts parts probe right samples sizes step tables tables_have_sizes""".split())


def does_one(body, counted, more=None):
    """Whether a body calls one of these once, with or without samples, and besides only what hands it arguments;
    without `more` it may answer a field as well."""
    body = ANSWERED.sub(r"\1", DEFAULT.sub(r"\1", body))
    ways = [*SAMPLED.findall(body), SAMPLED.sub("", body)]
    called = [CALL.findall(it) for it in ways]
    twins = {it for it in counted if all(many.count(it) == 1 for many in called)}
    known = HANDED | set(more or ())
    if more is None and not BRANCH.search(body) and set(sum(called, [])) <= HANDED:
        return True
    return not BRANCH.search(ways[-1]) and any(set(sum(called, [])) <= known | {it} for it in twins)


def listed():
    """PLAIN: by file, each call with its counted body and what it calls besides."""
    found = {}
    for file, calls in re.findall(r"^(\S+)(.*\n(?: .*\n)*)", PLAIN, re.M):
        for name, _, counted in (it.partition(":") for it in calls.split()):
            first, *more = (counted or "_on").split("+")
            found.setdefault(file, {})[name] = name + first if first.startswith("_") else first, more
    return found


@functools.lru_cache(None)
def functions():
    """The public functions with a body, by their files."""
    return {file.removeprefix("crates/"): functions_of(file, read(file)) for file in files() if SOURCES.fullmatch(file)}


@functools.lru_cache(None)
def counted():
    """The functions with a clause on reads, each with the crates that have one of that name."""
    found = collections.defaultdict(set)
    for file, many in functions().items():
        for it in many:
            if any(ON_READS.search(words) for _, _, words in it.clauses()):
                found[it.own].add(file.split("/")[0])
    return found


@functools.lru_cache(None)
def near_to(crate):
    """A crate and those below it."""
    return {crate, *below(crate)} if crate in crates() else {crate}


def twins(file, function, body):
    """The counted bodies that a plain call may run; none where it is no such call."""
    near = near_to(file.split("/")[0])
    named = {it.format(function.own) for it in TWINS[:-1]}
    found = {it for it in named if counted().get(it, set()) & near}
    if PROBES.search(body):
        found |= {it for it in CALL.findall(body) if COUNTED.search(it) and counted().get(it, set()) & near}
    return found | ({f"try_{function.own}"} if found else set())


def is_counted(function):
    """Whether a function has a counter itself, or takes the source that it reads."""
    head = " ".join(function.lines[function.at - 1 : function.opens])
    has_source = re.search(r"TableSource|Finds\b|Query\b|\bsource: &mut|ReadCounts", head)
    return has_source or any(ON_READS.search(words) for _, _, words in function.clauses())


def strays(file, many, calls):
    """The calls of a file that do more or less than run their counted body."""
    for it in many:
        body = "\n".join(it.body())
        if it.own in calls:
            first, more = calls[it.own]
            if body and not does_one(body, {first}, more):
                yield it.own
        elif it.is_public and body and not is_counted(it):
            found = twins(file, it, body)
            if found and not does_one(body, found):
                yield it.own


def run_counted():
    for file, many in functions().items():
        calls, others = listed().get(file, {}), OTHERS.get(file, {})
        found = [*strays(file, many, calls)]
        bodies = {it: "\n".join(it.body()) for it in many}
        counts[0] += sum(it.own in calls or bool(it.is_public and body and twins(file, it, body))
                         for it, body in bodies.items()) - len(found)
        for name in set(found) - set(others):
            claim(False, f"crates/{file}: {name} does more or less than run its counted body")
        for name in set(others) - set(found):
            claim(False, f"crates/{file}: {name} runs its counted body, or is gone, and OTHERS has it")
        gone = set(calls) - {it.own for it in many if it.body()}
        claim(not gone, f"crates/{file}: PLAIN has {', '.join(sorted(gone))}, which are not there")
        for old, new in OTHER_WAYS.get(file, {}).items():
            text = read(f"crates/{file}")
            changed = [*strays(file, functions_of(file, text.replace(old, new)), calls)]
            claim(old in text and set(changed) - set(found), f"crates/{file}: another way than {old} is not seen")
    for file in {*listed(), *OTHERS, *OTHER_WAYS} - set(functions()):
        claim(False, f"crates/{file} is not there, and scripts/plain.py names it")
