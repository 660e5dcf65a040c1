"""Rows of docs/plots/*.csv, and tables of Markdown: what bench/page and bench/comparison.py share."""
import csv
import re

from checks import TOP


def rows_of(stem):
    """The values of a file of rows, by name, by who answers, and by the logarithm of the size."""
    with open(TOP / f"docs/plots/{stem}.csv", encoding="utf-8") as file:
        return {(it[0], it[1], int(it[2])): float(it[4]) for it in csv.reader(file) if len(it) == 7 and it[2].isdigit()}


def laid(heads, lines):
    """A table in Markdown: columns of numbers have a size, a level, a kind of page, a unit or who answers as their heads."""
    marks = ["--:" if re.search(r"^2\^|^v\d$|^(huge|here|there|list|pages|csa_wt_int)$|, (us|ms|MB)$| / ", it) else "---" for it in heads]
    return "\n".join("| " + " | ".join(it) + " |" if it is not marks else "|" + "|".join(it) + "|" for it in (heads, marks, *lines))
