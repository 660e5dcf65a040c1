"""The guides whose problem has a real size: the pages of docs/guides with a `data` block.

The `data` block makes the files of the page with N items, the `ordinary` block answers its queries without the library, and
the blocks of each language before 'In Rattle' are one program: all print the same lines, here for the N that the first line
of `data` calls small, and with LARGE=1 also for the N of the page, where they are its `output` block. A file *.bitm is the
same from each language. The tables below 'What it costs' have the rows of docs/plots/guides.csv. The head of a table is
`n items, language | by | ..`, or without a language, and a row `what, unit | value | ..`; n is written as 10^6 or 104334."""
import csv
import functools
import os
import re

import pytest
from checks import TOP, read
from common import large
from pages import IN_RATTLE, blocks_in, expect_same_files, has_data, printed_by
from shell import bash

LANGUAGES = ("python", "cpp", "rust", "javascript", "c")
HEADINGS = ["The data", "The program", "The ordinary way", "What it costs", "Good to know"]
COSTS = "docs/plots/guides.csv"
GUIDES = [pytest.param(it, id=it.stem) for it in sorted((TOP / "docs/guides").glob("*.md")) if has_data(it)]


def before_rattle(page):
    return page.read_text(encoding="utf-8").partition(IN_RATTLE)[0]


def code_of(page, language):
    """The blocks of a language, one after another."""
    return "\n".join(code for of, code in blocks_in(before_rattle(page)) if of == language)


def items_of(page, is_large):
    """N of a page, and its small N, as the first line of its `data` block has them."""
    found = re.match(r"N=\$\{N:-(\d+)\} +# small: N=(\d+)\n", code_of(page, "data"))
    assert found, f"{page.name}: the data does not begin: N=${{N:-1000000}}  # small: N=2000"
    return found[1 if is_large else 2]


@pytest.fixture(scope="module")
def data(tmp_path_factory):
    """The folder with the files of a page for N items, and what the ordinary way prints of them."""
    @functools.lru_cache(None)
    def of(page, items):
        folder = tmp_path_factory.mktemp(f"{page.stem}-{items}-data")
        bash(code_of(page, "data"), folder, N=items)
        return folder, bash(code_of(page, "ordinary"), folder, N=items)
    return of


@pytest.mark.parametrize("page", GUIDES)
def test_form(page):
    blocks, titles = blocks_in(before_rattle(page)), re.findall(r"^## (.*)", page.read_text(encoding="utf-8"), re.M)
    assert [it for it in titles if it in HEADINGS] == HEADINGS
    assert [it for it in dict.fromkeys(of for of, _ in blocks) if it in LANGUAGES] == [*LANGUAGES]
    assert all(sum(of == it for of, _ in blocks) == 1 for it in ("data", "ordinary", "output"))


@pytest.mark.parametrize("is_large", [pytest.param(False, id="small"), pytest.param(True, id="large", marks=large)])
@pytest.mark.parametrize("language", LANGUAGES)
@pytest.mark.parametrize("page", GUIDES)
def test_guide(page, language, is_large, data, tmp_path, request):
    if "/usr/share/dict/words" in code_of(page, "data") and not os.path.exists("/usr/share/dict/words"):
        pytest.skip("no /usr/share/dict/words")
    items = items_of(page, is_large)
    folder, expected = data(page, items)
    assert expected == (code_of(page, "output") if is_large else expected) != ""
    for it in folder.iterdir():
        (tmp_path / it.name).symlink_to(it)
    assert printed_by(language, [code_of(page, language)], tmp_path, expected, request) == expected
    expect_same_files((page, items), tmp_path)


def costs_of(page):
    """The cells of the tables below 'What it costs': (what, by, n, value, unit) of each."""
    part = re.search(r"^## What it costs\n(.*?)(?=^## |\Z)", page.read_text(encoding="utf-8"), re.M | re.S)[1]
    for table in re.findall(r"(?:^\|.*\n)+", part, re.M):
        head, _, *rows = [[re.sub("`", "", cell).strip() for cell in line.strip("|").split("|")] for line in table.split("\n")[:-1]]
        base, power, language = re.match(r"(\d+)(?:\^(\d+))?[^,]*(?:, (.*))?", head[0]).groups()
        named = [f"{language} {it}" if language else it for it in head]
        for what, *values in rows:
            name, _, unit = what.rpartition(", ")
            yield from ((name, by, str(int(base) ** int(power or 1)), it, unit) for by, it in zip(named[1:], values) if it)


@pytest.mark.parametrize("page", GUIDES)
def test_costs_are_those_that_were_measured(page):
    rows = csv.DictReader(read(COSTS).splitlines())
    measured = [tuple(it[key] for key in ("what", "by", "n", "value", "unit")) for it in rows if it["guide"] == page.stem]
    assert measured and sorted(costs_of(page)) == sorted(measured)
