"""A text under an index, beside the ordinary tools: answers compared, time and memory printed and drawn.

python3 examples/demo/demo.py [TEXT [PICTURE [ROWS]]]

TEXT is any file of lines; if it is left out or empty, all documents of this repository. PICTURE is where the picture
goes, or else out/demo.svg, and ROWS where the figures go that it is drawn from. It needs the package `bitm`
(README.md), NumPy, matplotlib and grep.
"""
import array
import bisect
import collections
import csv
import hashlib
import io
import pathlib
import random
import re
import resource
import subprocess
import sys
import tempfile
import time

import bitm
import matplotlib
import numpy

matplotlib.use("Agg")
matplotlib.rcParams["svg.hashsalt"] = "demo"  # the same names in the picture each time
from matplotlib import pyplot  # noqa: E402

TOP = pathlib.Path(__file__).resolve().parents[2]
QUERIES = 2000
LINE, PHRASE = "line of a byte", "count of a phrase"
LISTS = ("line starts", "positions of words", "text and suffixes")
# What was measured, who does it, over how many bytes of the text: a time in nanoseconds, or how many bytes are taken.
Row = collections.namedtuple("Row", "row by bytes value unit")


def the_text():
    """The bytes of the file that is named, or of all documents one after another."""
    if sys.argv[1:2] not in ([], [""]):
        return pathlib.Path(sys.argv[1]).read_bytes()
    documents = (it for kind in ("*.md", "docs/**/*.md", "crates/*/*.md") for it in TOP.glob(kind))
    return b"".join(it.read_bytes() for it in sorted(documents))


def stored(value):
    """How many bytes a value takes in a file, which is also what it takes in memory."""
    file = io.BytesIO()
    value.save(file)
    return len(file.getvalue())


def processor_time():
    """The nanoseconds that this program and the programs that it ran have had of a processor."""
    others = resource.getrusage(resource.RUSAGE_CHILDREN)
    return time.process_time_ns() + 1e9 * (others.ru_utime + others.ru_stime)


def nanoseconds(call, queries):
    """What a query takes of a processor: the best of five runs over all of them."""
    best = float("inf")
    for _ in range(5):
        began = processor_time()
        for query in queries:
            call(query)
        best = min(best, processor_time() - began)
    return best / len(queries)


def begins_of(text):
    """Where each line begins: as bits, of which a 1 is the first of a line, and as an array."""
    begins = array.array("Q", [0, *(it.end() for it in re.finditer(rb"\n", text) if it.end() < len(text))])
    return bitm.SparseBits(begins, len(text)), begins


def memory(what, text, here, arrays):
    return [Row(what, "index", len(text), here, "bytes"), Row(what, "arrays", len(text), arrays, "bytes")]


def lines_and_bytes(text):
    """The line of a byte, and the first byte of a line: answers are those of the plain way. Rows of their memory."""
    bits, begins = begins_of(text)
    for at in random.Random(1).sample(range(len(text)), min(QUERIES, len(text))):
        line = bits.rank(at + 1) - 1
        assert line == text.count(b"\n", 0, at), at
        assert bits.select(line) == begins[line], line
    middle = len(text) // 2
    print(f"{len(text)} bytes in {bits.count()} lines; byte {middle} is in line {bits.rank(middle + 1)}")
    return memory(LISTS[0], text, stored(bits), 8 * len(begins))


def posting_lists(text):
    """Where each word stands, as sorted lists. Rows of the bytes of all of them, by Elias-Fano and as plain arrays."""
    words, positions = re.findall(rb"[a-z]{2,}", text.lower()), {}
    for at, word in enumerate(words):
        positions.setdefault(word, []).append(at)
    lists = {word: bitm.EliasFano(of) for word, of in positions.items() if len(of) > 64}
    pairs = collections.Counter(it for it in zip(words, words[1:]) if it[0] in lists and it[1] in lists)
    for first, second in (it for it, _ in pairs.most_common(9)):
        beside = [at for at in lists[first] if at + 1 in lists[second]]
        assert len(beside) == pairs[first, second], (first, second)
        print(f"'{first.decode()} {second.decode()}' stands there {len(beside)} times, first as word {beside[0]}")
    return memory(LISTS[1], text, sum(map(stored, lists.values())), sum(8 * len(it) for it in lists.values()))


def phrases_of(text):
    """Pieces of the text of 12 bytes, none of which overlaps itself, so that all ways count alike."""
    drawn = (text[at : at + 12] for at in random.Random(2).sample(range(len(text) - 12), min(QUERIES, len(text) - 12)))
    good = (it for it in drawn if it.isascii() and b"\n" not in it)
    return list(dict.fromkeys(it for it in good if not any(it.startswith(it[k:]) for k in range(1, 12))))


def grep(file, phrase):
    """How often grep finds a phrase."""
    found = subprocess.run(["grep", "-aoF", "-e", phrase, file], stdout=subprocess.PIPE, check=False)
    return found.stdout.count(b"\n")


def times(what, text, calls):
    """A row for each way: who does it, the call, and the queries."""
    taken = {by: nanoseconds(*of) for by, of in calls.items()}
    return [Row(what, by, len(text), round(ns, 1), "ns") for by, ns in taken.items()]


def times_of_lines(text):
    """The line of a byte by the index, by halving an array, and by counting line feeds."""
    bits, begins = begins_of(text)
    queries = random.Random(3).choices(range(len(text)), k=QUERIES)
    return times(LINE, text, {
        "SparseBits.rank": (lambda at: bits.rank(at + 1) - 1, queries),
        "bisect": (lambda at: bisect.bisect_right(begins, at) - 1, queries),
        "counting line feeds": (lambda at: text.count(b"\n", 0, at), queries[:64])})


def times_of_phrases(text):
    """How often a phrase stands in the text by the index, by Python's search and by grep; building the index."""
    began = processor_time()
    index, phrases = bitm.TextIndex(text), phrases_of(text)
    built = Row("building", "TextIndex", len(text), processor_time() - began, "ns")
    with tempfile.NamedTemporaryFile() as file:
        file.write(text)
        file.flush()
        for it in phrases[:16]:
            assert index.count(it) == text.count(it) == grep(file.name, it), it
        return [built, *memory(LISTS[2], text, stored(index), 5 * len(text)), *times(PHRASE, text, {
            "TextIndex.count": (index.count, phrases), "bytes.count": (text.count, phrases[:16]),
            "grep -oF": (lambda it: grep(file.name, it), phrases[:4])})]


def measured(text):
    """All rows: times for longer and longer beginnings of the text, up to all of it."""
    yield from lines_and_bytes(text)
    yield from posting_lists(text)
    for length in [*(1 << k for k in range(14, 40, 2) if 1 << k < 0.7 * len(text)), len(text)]:
        yield from times_of_lines(text[:length])
        yield from times_of_phrases(text[:length])


def below(axes):
    """The legend below a plot, where it covers no curve."""
    axes.legend(loc="upper center", bbox_to_anchor=(0.5, -0.16), frameon=False)


def curves(axes, rows, what, title):
    for by, style in zip(dict.fromkeys(it.by for it in rows if it.row == what), ("o-", "s--", "^:")):
        axes.loglog(*zip(*((it.bytes, it.value) for it in rows if (it.row, it.by) == (what, by))), style, label=by)
    axes.set(xlabel="bytes of text", ylabel="processor time of a query, ns", title=title)
    below(axes)


def draw(rows, text, to):
    """The picture, which names the sum of its rows."""
    figure, (left, middle, right) = pyplot.subplots(1, 3, figsize=(13, 5))
    curves(left, rows, LINE, "Which line is a byte in?")
    curves(middle, rows, PHRASE, "How often does a phrase occur?")
    spots, length = numpy.arange(len(LISTS)), max(it.bytes for it in rows)
    for shift, by in ((-0.2, "index"), (0.2, "arrays")):
        sizes = {it.row: it.value / 1000 for it in rows if (it.by, it.bytes) == (by, length)}
        bars = right.bar(spots + shift, [sizes[it] for it in LISTS], 0.4, label=by)
        right.bar_label(bars, fmt="%.0f", fontsize=8)
    right.set(yscale="log", ylabel="kB", title="Memory")
    right.set_xticks(spots, [it.replace(" ", "\n", 1) for it in LISTS])
    below(right)
    figure.tight_layout()
    to.parent.mkdir(parents=True, exist_ok=True)
    figure.savefig(to, metadata={"Date": None, "Description": f"rows {hashlib.sha256(text.encode()).hexdigest()}"})


def as_text(rows):
    """The rows as a file of them has them."""
    file = io.StringIO()
    csv.writer(file, lineterminator="\n").writerows([Row._fields, *rows])
    return file.getvalue()


def main():
    rows = []
    for it in measured(the_text()):
        print(f"{it.row}, {it.by}, {it.bytes} bytes of text: {it.value:.0f} {it.unit}")
        rows.append(it)
    to = pathlib.Path(sys.argv[2]) if sys.argv[2:] else TOP / "out/demo.svg"
    draw(rows, as_text(rows), to)
    if sys.argv[3:]:
        pathlib.Path(sys.argv[3]).write_text(as_text(rows), encoding="utf-8")
    print(f"the picture: {to}")


if __name__ == "__main__":
    main()
