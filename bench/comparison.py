"""The tables and figures of docs/COMPARISON.md, of the rows of docs/plots/*.csv."""
from checks import says
from rows import number
from tables import laid, rows_of

SIZE_OF_WORDS = 16  # the greatest logarithm of which the list has words
# What is compared with whom, in which file of rows, at which logarithm of the size: the row, who answers here and there.
BESIDE = {
    ("sdsl-lite", "sdsl", 28): {"rank in bits, ns": ("rank", "library", "sdsl"), "select in bits with samples, ns": ("select", "sampled", "sdsl")},
    ("sdsl-lite", "structures", 27): {
        "item of a sorted list, ns": ("sequence_get", "C", "sdsl"), "its successor, ns": ("sequence_first_at_least", "C", "sdsl"),
        "its space, bits a number": ("sequence_space", "C", "sdsl"), "bit of sparse bits, ns": ("sparse_get", "C", "sdsl"),
        "their rank, ns": ("sparse_rank", "C", "sdsl"), "their select, ns": ("sparse_select", "C", "sdsl"),
        "item of a wavelet matrix, ns": ("numbers8_get", "C", "sdsl wm_int"), "its rank, ns": ("numbers8_rank", "C", "sdsl wm_int"),
        "its select, ns": ("numbers8_select", "C", "sdsl wm_int"), "its space, bits a byte": ("numbers8_space_a_number", "C", "sdsl wm_int"),
        "parent in a tree, ns": ("tree_parent", "C", "sdsl"), "first child, ns": ("tree_child", "C", "sdsl"), "degree, ns": ("tree_degree", "C", "sdsl"),
        "space of a tree, bits a node": ("tree_space", "C", "sdsl")},
    ("sdsl-lite", "texts", 24): {"counting 8 letters in a text, ns": ("words_count8", "C", "sdsl csa_wt"), "locating, ns a position": ("words_locate", "C", "sdsl csa_wt"),
                                 "space of a text, bits a letter": ("words_space_a_letter", "C", "sdsl csa_wt")},
    ("CRoaring", "peers", 24): {"intersection, ns a number": ("lists_intersection", "C", "CRoaring"), "union, ns a number": ("lists_union", "C", "CRoaring"),
                                "space, bits a number": ("lists_space", "C", "CRoaring")},
    ("marisa-trie", "peers", SIZE_OF_WORDS): {"finding a word, ns": ("words_find", "C trie", "marisa"), "finding none, ns": ("words_find_none", "C trie", "marisa"),
                                              "building, ns a word": ("words_build", "C trie", "marisa"), "space, bits a word": ("words_space", "C trie", "marisa")},
    ("cmph, CHD", "hashes", 20): {"minimal perfect hash, a query, ns": ("hash_get", "C", "cmph CHD"), "building, ns a key": ("hash_build_a_key", "C", "cmph CHD"),
                                  "space, bits a key": ("hash_space_a_key", "C", "cmph CHD")},
    ("cmph, BDZ", "hashes", 20): {"hash with seeds, a query, ns": ("hash_get", "C with seeds", "cmph BDZ"),
                                  "building, ns a key": ("hash_build_a_key", "C with seeds", "cmph BDZ"),
                                  "space, bits a key": ("hash_space_a_key", "C with seeds", "cmph BDZ")},
    ("`std::unordered_map`", "peers", 24): {"finding a key of 64 bits, ns": ("keys_find", "C", "unordered_map"), "building, ns a key": ("keys_build", "C", "unordered_map")},
}


def beside():
    """Each peer at the greatest size measured, and the quotient."""
    lines = []
    for (who, stem, size), of in BESIDE.items():
        for what, (row, here, there) in of.items():
            pair = [rows_of(stem)[row, by, size] for by in (here, there)]
            lines.append([who, what, *map(number, pair), f"{pair[0] / pair[1]:.2f}"])
    return laid(["beside", "what", "here", "there", "here / there"], lines)


# Sentences of docs/COMPARISON.md, and the quotients in them: a file of rows, the logarithm of the size, a row, who over whom.
SENTENCES = {
    "merges are {} to {} times as fast as here": ("peers 24 lists_intersection C CRoaring", "peers 24 lists_union_of_few C CRoaring"),
    "`EliasFano`: {} of CRoaring's space": ("peers 24 lists_space C CRoaring",),
    "{} of the space of `Trie`": (f"peers {SIZE_OF_WORDS} words_space marisa C-trie",),
    "`Strings`: {} times as fast as marisa-trie, in {} times its space":
        (f"peers {SIZE_OF_WORDS} words_find marisa C-strings", f"peers {SIZE_OF_WORDS} words_space C-strings marisa"),
    "`PerfectHash`: {} of the space of CHD of cmph, {} of the time": ("hashes 20 hash_space_a_key C cmph-CHD", "hashes 20 hash_get C cmph-CHD"),
    "{} of the time of `Dictionary`": ("peers 24 keys_find unordered_map C",),
}


def sentences():
    """The quotients in the sentences of docs/COMPARISON.md are those of the rows."""
    for text, places in SENTENCES.items():
        over = []
        for stem, size, row, one, other in map(str.split, places):
            rows = rows_of(stem)
            over.append(rows[row, one.replace("-", " "), int(size)] / rows[row, other.replace("-", " "), int(size)])
        says("docs/COMPARISON.md", text.format(*(f"{it:.1f}" if it >= 1 else f"{it:.2f}" for it in over)))
