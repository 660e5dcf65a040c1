#!/usr/bin/env python3
"""sources.py SITE: the sources of all items of the reference as pages in SITE/html/source, a line of which is an anchor.

`address` is the page of a line, and `doxygen_lines` says in which lines the items are that Doxygen found.
"""
import pathlib
import re
import sys
import xml.etree.ElementTree as xml

from pygments import highlight
from pygments.formatters import HtmlFormatter
from pygments.lexers import get_lexer_for_filename

from definitions import CRATES
from headers import filtered
from lexers import Rattle

TOP = pathlib.Path(__file__).resolve().parents[2]
KINDS = ["include/bitm.h", "include/bitm/*.hpp", "bindings/python/bitm/*.py", "bindings/python/bitm/*.pyi", "bindings/javascript/types/*.d.ts",
         *(f"crates/{it}/{kind}" for it in CRATES for kind in ("src/**/*.rt", "specs/*.antt"))]
PAGE = """<!doctype html><html lang="en"><head><meta charset="utf-8"><title>{name}</title>
<meta name="viewport" content="width=device-width, initial-scale=1"><link rel="icon" href="data:,">
<link rel="stylesheet" href="{up}_static/pygments.css"><link rel="stylesheet" href="{up}_static/source.css"></head>
<body><h1>{name}</h1>{code}</body></html>
"""


def address(path, line):
    """The page of a line of a source, from the top of the site."""
    return f"source/{path}.html#L-{line}"


def bare(line):
    """A line without its comment; nothing for a line of a comment."""
    return re.sub(r"\s*(/\*|//).*", "", line).strip() if not re.match(r"\s*(/?\*|//)", line) else ""


def source_lines(path):
    """The line of a header for each line of what Doxygen was given of it, whose code has the same order."""
    source, at, found = [bare(it) for it in path.read_text(encoding="utf-8").split("\n")], 0, {}
    for number, line in enumerate(map(bare, filtered(path).split("\n")), 1):
        if line and line in source[at:]:
            at = source.index(line, at) + 1
            found[number] = at
    return found


def doxygen_lines(site):
    """The id of each item that Doxygen found, and its (path, line)."""
    places, headers = {}, {}
    for path in site.glob("doxygen/*/xml/*.xml"):
        for it in (x for tag in ("memberdef", "compounddef") for x in xml.parse(path).getroot().iter(tag)):
            location = it.find("location")
            name, line = ("", "0") if location is None else (location.get("file"), location.get("line", "0"))
            if name.startswith("include/") and name.endswith((".h", ".hpp")):
                if name not in headers:
                    headers[name] = source_lines(TOP / name)
                places[it.get("id")] = name, headers[name].get(int(line), 1)
    return places


def main():
    to = pathlib.Path(sys.argv[1]) / "html/source"
    look = HtmlFormatter(linenos="inline", lineanchors="L", anchorlinenos=True)
    for path in (it for kind in KINDS for it in sorted(TOP.glob(kind))):
        name = path.relative_to(TOP).as_posix()
        lexer = Rattle() if path.suffix in (".rt", ".antt") else get_lexer_for_filename(name)
        made = to / f"{name}.html"
        made.parent.mkdir(parents=True, exist_ok=True)
        code = highlight(path.read_text(encoding="utf-8"), lexer, look)
        made.write_text(PAGE.format(name=name, up="../" * (name.count("/") + 1), code=code), encoding="utf-8")


if __name__ == "__main__":
    main()
