#!/usr/bin/env python3
"""plot.py FILE.csv FOLDER [CAPTION]: prints the table of the rows, and draws for each kind of content one SVG: on the left
the times over the size, on the right their quotients to the original crate or to sdsl-lite, all axes logarithmic.

The plots need matplotlib (Debian: python3-matplotlib); without it the table alone is printed. Each SVG names the sum of
its rows, by which scripts/documents sees that the plot was drawn from them."""
import csv
import hashlib
import os
import sys

COLOURS = ["#1b6ca8", "#c8553d", "#2a9d55", "#8e44ad", "#b8860b", "#555555", "#d1495b", "#00798c", "#6a994e", "#bc6c25"]
MARKERS = "osD^vP*Xdp"
# What is drawn of a table's rows; the others are in the table alone.
DRAWN = ["rank", "rank of a simple index", "select", "select0", "select, binary", "select0, binary", "select, sampled",
         "select0, sampled", "select_many", "select0_many", "building the tables", "building with both samples"]
BASES = {"original": "the original crate", "sdsl": "sdsl-lite"}


def base_of(by):
    """The base that a row is of, such as `original binary`, if it is one's."""
    return next((b for b in BASES if by == b or by.startswith(b + " ")), None)


def rows_of(path):
    """The value and the unit of each row, by its name, what answers it, the kind of content and the size."""
    with open(path, encoding="utf-8") as it:
        return {(r[0], r[1], r[3], int(r[2])): (float(r[4]), r[5]) for r in csv.reader(it) if len(r) == 7 and r[2].isdigit()}


def table(rows, kind, sizes):
    lines = [f"\n### {kind}\n", "| row | " + " | ".join(f"2^{s}" for s in sizes) + " |", "|---" + "|--:" * len(sizes) + "|"]
    for name, by in dict.fromkeys((r[0], r[1]) for r in rows if r[2] == kind):
        cells = [rows.get((name, by, kind, s)) for s in sizes]
        unit = next(c[1] for c in cells if c)
        texts = ["" if c is None else f"{c[0]:.2f}" if c[0] < 100 else f"{c[0]:.0f}" for c in cells]
        lines.append(f"| {name} ({by}, {unit}) | " + " | ".join(texts) + " |")
    return "\n".join(lines)


def draw_series(rows, kind, base, times, quotients):
    """The times of each series of rows, and their quotients by those of the base."""
    def line(name, by, of):
        return [(2**s, of(v[0], s)) for (n, b, k, s), v in sorted(rows.items(), key=lambda it: it[0][3]) if (n, b, k) == (name, by, kind)]

    series = [it for it in dict.fromkeys((r[0], r[1]) for r in rows if r[2] == kind) if it[0] in DRAWN]
    mine = [it for it in series if not base_of(it[1])]
    for k, (name, by) in enumerate(mine):
        look = {"color": COLOURS[k % 10], "marker": MARKERS[k % 10], "markersize": 5, "linewidth": 1.3}
        label = name if by == "library" else f"{name}, {by}"
        timed = next(v[1] for r, v in rows.items() if r[:2] == (name, by)) == "ns"
        if timed:
            times.plot(*zip(*line(name, by, lambda v, _: v)), label=label, **look)
        rival = f"{base} {by}" if (name, f"{base} {by}") in series else base
        if (name, rival) in series:
            if timed and (rival != base or [n for n, _ in mine].index(name) == k):
                times.plot(*zip(*line(name, rival, lambda v, _: v)), linestyle=":", **look)
            over = {s: v[0] for (n, b, c, s), v in rows.items() if (n, b, c) == (name, rival, kind)}
            quotients.plot(*zip(*line(name, by, lambda v, s: v / over[s])), label=label, **look)


def draw(rows, kind, base, caption, total, path):
    import matplotlib

    matplotlib.use("svg")
    matplotlib.rcParams.update({"svg.fonttype": "none", "svg.hashsalt": "bitm", "font.size": 9})
    from matplotlib import pyplot, ticker

    figure, (times, quotients) = pyplot.subplots(1, 2, figsize=(11, 5))
    draw_series(rows, kind, base, times, quotients)
    titles = ("ns a query" + (f"; dotted: {BASES[base]}" if base else ""), f"time / time of {BASES.get(base)}")
    for axes, title in zip((times, quotients), titles):
        axes.set_xscale("log", base=2)
        axes.set_yscale("log")
        axes.set_title(title)
        axes.set_xlabel("bits of the content")
        axes.set_xticks(sorted({2 ** r[3] for r in rows if r[2] == kind}))
        axes.grid(True, which="both", color="#e4e4e4", linewidth=0.6)
        axes.yaxis.set_major_formatter(ticker.FormatStrFormatter("%g"))
        axes.yaxis.set_minor_formatter(ticker.NullFormatter())
    (quotients if base else times).legend(fontsize=7, loc="upper left", bbox_to_anchor=(1.01, 1))
    quotients.set_visible(bool(base))
    if base:
        quotients.axhline(1, color="#222222", linewidth=0.9)
        quotients.yaxis.set_major_locator(ticker.FixedLocator([0.2, 0.25, 0.33, 0.5, 0.7, 1, 1.4]))
    figure.text(0.01, 0.01, caption, fontsize=8)
    figure.tight_layout(rect=(0, 0.03, 1, 1))
    figure.savefig(path, metadata={"Date": None, "Description": f"rows {total}"})
    pyplot.close(figure)


def main(path, folder, caption=""):
    rows = rows_of(path)
    with open(path, "rb") as it:
        total = hashlib.sha256(it.read()).hexdigest()
    kinds = list(dict.fromkeys(r[2] for r in rows))
    for kind in kinds:
        print(table(rows, kind, sorted({r[3] for r in rows if r[2] == kind})))
    try:
        import matplotlib  # noqa: F401
    except ImportError:
        print("plot.py: matplotlib is not installed (Debian: python3-matplotlib), so nothing is drawn", file=sys.stderr)
        return
    for kind in kinds:
        base = next((b for b in BASES if any(base_of(r[1]) == b and r[2] == kind for r in rows)), None)
        stem = os.path.splitext(os.path.basename(path))[0]
        name = stem if len(kinds) == 1 else f"{stem}-{kind}"
        draw(rows, kind, base, caption, total, os.path.join(folder, f"{name}.svg"))


if __name__ == "__main__":
    main(*sys.argv[1:])
