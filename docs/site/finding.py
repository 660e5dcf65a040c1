"""What the search finds, an extension of Sphinx: the words that people seek a page by, and an index without parameters."""
import json
import pathlib

from sphinx import addnodes

WORDS = {
    "README": "getting started, tutorial, quick start",
    "bits": "bitmap, bitset, bit array, sieve",
    "column-store": "Arrow, Parquet, offsets, column",
    "genome": "DNA, sequence, FM-index",
    "ip-ranges": "IP address, CIDR, geolocation, range lookup",
    "perfect-hash": "hash map, hash table, URL, dictionary, minimal perfect hash, MPHF",
    "posting-lists": "inverted index, search engine, intersection, union, Elias-Fano, Roaring",
    "quantiles": "median, percentile, top, time series, wavelet matrix",
    "rank-and-select": "rank, select, bitmap, validity, null, filter, pandas, Arrow, popcount",
    "store-and-map": "mmap, memory map, file, serialize, save, load",
    "strategies": "select, samples, binary search",
    "text-index": "full-text search, substring, grep, log, FM-index, suffix array",
    "trie": "autocomplete, autocompletion, typeahead, prefix, completions, word list",
}


def add_words(app, tree):
    """A guide's words are entries of the search's index, which go before methods of the same name."""
    folder, _, name = app.env.docname.rpartition("/")
    if folder == "docs/guides" and name in WORDS:
        tree.insert(0, addnodes.docutils_meta("", name="keywords", content=WORDS[name]))
        entries = [("single", word, "", "", None) for word in WORDS[name].split(", ")]
        tree.insert(0, addnodes.index(entries=entries))


def tidy(app, failed):
    """Parameters leave the index. Titles and entries stand in it in the order in which Sphinx's processes ended, so that
    two runs would differ: they are sorted."""
    file, begin = pathlib.Path(app.outdir) / "searchindex.js", "Search.setIndex("
    if failed or app.builder.format != "html":
        return
    index = json.loads(file.read_text().removeprefix(begin).removesuffix(")"))
    for listed in ("alltitles", "indexentries"):
        index[listed] = {name: sorted(places, key=str) for name, places in sorted(index[listed].items())}
    no_items = {int(it) for it, kind in index["objtypes"].items() if kind.endswith("Param")}
    index["objects"] = {name: [it for it in listed if it[1] not in no_items] for name, listed in index["objects"].items()}
    file.write_text(f"{begin}{json.dumps(index)})")


def setup(app):
    app.connect("doctree-read", add_words)
    app.connect("build-finished", tidy)
    return {"parallel_read_safe": True, "parallel_write_safe": True}
