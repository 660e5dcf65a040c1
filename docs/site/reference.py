#!/usr/bin/env python3
"""reference.py TO: the pages of the reference for C and C++ in TO, of the headers and of what Doxygen found in them.

The comment that opens a header opens its chapter. Below it stands everything public of it, so nothing public is left out.
"""
import os
import pathlib
import re
import sys
import xml.etree.ElementTree as xml

TOP = pathlib.Path(__file__).resolve().parents[2] / "include"
FOUND = pathlib.Path(os.environ["SITE"]) / "doxygen"
HEADERS = ("bits", "bits_view", "index", "index_block", "sequence", "sequence_view", "cursor", "perfect_hash", "seeded_hash", "key_hash", "levels", "dictionary", "strings", "tree", "trie", "matrix", "sparse", "text", "sections", "shards", "file", "format", "core", "failure", "memory")


def opening(path):
    """The comment at the top of a header as Markdown: its first sentence, and the rest."""
    text = path.read_text(encoding="utf-8")
    if path.suffix == ".h":
        lines = re.match(r"/\*+(?: @file\n \*)?(.*?)\*/", text, re.S)[1].split("\n")
        lines = [re.sub(r"^ \* ?", "", it) for it in lines]
    else:
        lines = [re.sub(r"^///? ?", "", it) for it in re.match(r"(//.*\n)+", text)[0].split("\n")]
    return markdown(lines, "c" if path.suffix == ".h" else "cpp")


def markdown(lines, language):
    """The lines of a comment as Markdown: its lists, and as blocks of code what is indented after an empty line."""
    text = "\n".join(re.sub(r"^  - ", "- ", it) for it in lines).rstrip()
    text = "\n\n" + text.lstrip("\n")
    text = re.sub(r"^    (?=  )", "    ", re.sub(r"(?<![\w`])([a-z]+_\w+_)(?= )", r"`\1`", text), flags=re.M)
    return re.sub(r"(?<=\n\n)(?:^    .*\n?)+", lambda it: f"```{language}\n" + re.sub("^    ", "", it[0], flags=re.M).rstrip() + "\n```\n", text, flags=re.M)


def directive(kind, name, project, more=""):
    return f"```{{doxygen{kind}}} {name}\n:project: {project}\n{more}```\n"


MEMBERS = ":members:\n:undoc-members:\n"
KINDS = {"function": "function", "enum": "enum", "typedef": "typedef", "variable": "variable", "define": "define"}


def parsed(project, stem):
    return xml.parse(FOUND / project / "xml" / f"{stem}.xml").getroot().find("compounddef")


def tidy():
    """Inherited members get labels of their own, and no method is called `inline` on the page."""
    for path in (FOUND / "cpp/xml").glob("*.xml"):
        text = path.read_text(encoding="utf-8").replace(' inline="yes"', ' inline="no"')
        own = re.compile(rf'(<memberdef [^>]*id=")(?!{path.stem}_1)')
        text = own.sub(rf"\g<1>{path.stem}_of_", text) if path.stem.startswith(("class", "struct")) else text
        path.write_text(text, encoding="utf-8")


def of_group(title):
    """What the header says of a group, below its title."""
    found = re.search(rf"/\* ---- {re.escape(title)}\n \*\n(.*?) ?\*/", (TOP / "bitm.h").read_text(encoding="utf-8"), re.S | re.I)
    return markdown([re.sub(r"^ \* ?", "", it) for it in found[1].split("\n")], "c") + "\n" if found else ""


def text_of(it, tag):
    return "".join(it.find(tag).itertext())


def c_page():
    yield "(c-reference)=\n# C\n\n" + opening(TOP / "bitm.h") + "\n```{toctree}\n:hidden:\n\n../crates/bitm_c/README\n```\n"
    file = parsed("c", "bitm_8h")
    groups = [parsed("c", it.get("refid")) for it in sorted(xml.parse(FOUND / "c/xml/index.xml").getroot(), key=lambda it: it.get("refid")) if it.get("kind") == "group"]
    in_groups = {it.get("id") for group in groups for it in group.iter("memberdef")} | {it.get("refid") for group in groups for it in group.iter("innerclass")}
    yield "## What calls return, and the version\n"
    for it in file.iter("memberdef"):
        if it.get("id") not in in_groups and it.get("id").startswith("bitm_8h") and it.find("name").text not in ("BITM_H", "BITM_MUST_USE", "BITM_SELDOM"):
            yield directive(KINDS[it.get("kind")], it.find("name").text, "c")
    for it in file.iter("innerclass"):
        if it.get("refid") not in in_groups:
            yield directive("struct", it.text, "c", MEMBERS)

    def first(group):
        return min((int(it.find("location").get("line")) for it in group.iter("memberdef")), default=0)

    for group in sorted(groups, key=first):
        yield f"## {text_of(group, 'title')}\n\n{of_group(text_of(group, 'title'))}"
        yield directive("group", group.find("compoundname").text, "c", ":content-only:\n" + MEMBERS)


def cpp_page():
    yield "(cpp-reference)=\n# C++\n\n`#include <bitm.hpp>` has all of the headers below; C++17 or later, over the library for C.\n"
    yield "[Examples](cpp-examples.md) show the calls one by one.\n\n```{toctree}\n:hidden:\n\ncpp-examples\n```\n"
    space = parsed("cpp", "namespacebitm")
    classes = [parsed("cpp", it.get("refid")) for it in space.iter("innerclass")]
    for stem in HEADERS:
        name = f"include/bitm/{stem}.hpp"
        yield f"## bitm/{stem}.hpp\n\n" + opening(TOP / f"bitm/{stem}.hpp")
        for it in classes:
            if it.find("location").get("file").endswith(name):
                yield directive(it.get("kind"), it.find("compoundname").text, "cpp", MEMBERS)
        for it in space.iter("memberdef"):
            if it.find("location").get("file").endswith(name):
                arguments = re.sub(r"\s*(noexcept|=0|override)\b", "", it.find("argsstring").text or "") if it.get("kind") == "function" else ""
                yield directive(KINDS[it.get("kind")], f"bitm::{it.find('name').text}{arguments}", "cpp")


if __name__ == "__main__":
    tidy()
    for page, lines in (("c", c_page()), ("cpp", cpp_page())):
        (pathlib.Path(sys.argv[1]) / f"{page}.md").write_text("\n".join(lines), encoding="utf-8")
