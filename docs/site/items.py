#!/usr/bin/env python3
"""items.py SITE: each public item has a place on a page of SITE/html, a text and an example. Exit 1 if one has not.

C: each call, struct, field, constant and status of include/bitm.h; each call is called in code of the page. C++: each class and
member in namespace bitm, by what Doxygen found; each method is called in code of a page. Python: each name that bitm
exports, and each public member of its classes; their docstrings have examples. JavaScript: each declaration. Rust: each item
that rustdoc lists, if it ran. Rattle, and the guides: each page has code.
"""
import html
import inspect
import pathlib
import re
import sys
import xml.etree.ElementTree as xml

import declarations

SITE = pathlib.Path(sys.argv[1]).resolve()
HEADER = pathlib.Path(__file__).resolve().parents[2] / "include/bitm.h"
INNER = {"BITM_H", "BITM_MUST_USE", "BITM_SELDOM", "bitm_sequence_walk_search"}  # no caller writes these
# The names that the standard library looks for: what they answer is known.
STANDARD = {"swap", "rend", "data", "empty", "read", "parts", "raw"}
lacks, looked = [], 0


def see(is_so, what):
    global looked
    looked += 1
    if not is_so:
        lacks.append(what)


def page(name):
    """The identifiers and the code of a page."""
    text = (SITE / "html" / name).read_text(encoding="utf-8")
    code = "\n".join(re.findall(r"<pre\b.*?</pre>", text, re.S))
    return set(re.findall(r' id="([^"]+)"', text)), html.unescape(re.sub(r"<[^>]*>", "", code))


def c():
    ids, code = page("reference/c.html")
    text = re.sub(r"/\*.*?\*/", "", HEADER.read_text(encoding="utf-8"), flags=re.S)
    calls = set(re.findall(r"^[^\s{}#/].*?\b(bitm_\w+)\(", text, re.M)) - INNER
    others = set(re.findall(r"^#define (BITM_\w+) ", text, re.M) + re.findall(r"^(?:struct|enum) (bitm_\w+) \{", text, re.M)) - INNER
    for name in sorted(calls | others):
        see(f"c.{name}" in ids, f"C: {name} is on no page")
    for name in sorted(calls):
        see(f"{name}(" in code, f"C: no example calls {name}")


def cpp():
    _, code = page("reference/cpp.html")
    code += page("reference/cpp-examples.html")[1]
    shown = (SITE / "html/reference/cpp.html").read_text(encoding="utf-8")
    shown = html.unescape(re.sub(r"<[^>]*>", "", shown))
    for path in sorted((SITE / "doxygen/cpp/xml").glob("*.xml")):
        found = xml.parse(path).getroot().find("compounddef")
        inside = "" if found is None else found.find("compoundname").text
        if not re.match(r"bitm(::|$)", inside) or "detail" in inside or found.get("kind") == "file":
            continue
        for it in found.iter("memberdef"):
            name, rest = it.find("name").text, "".join(it.find("argsstring").itertext()) if it.find("argsstring") is not None else ""
            if it.get("prot") != "public" or it.get("kind") == "friend" or re.search(r"=\s*delete", rest):
                continue
            said = "".join("".join(it.find(tag).itertext()) for tag in ("briefdescription", "detaileddescription")).strip()
            see(said, f"C++: {inside}::{name} has no text")
            see(name in shown, f"C++: {inside}::{name} is on no page")
            is_call = it.get("kind") == "function" and not name.startswith(("operator", "~", "try_")) and name != inside.split("::")[-1]
            see(not is_call or name in STANDARD or re.search(rf"\b{name}\(", code), f"C++: no example calls {inside}::{name}")


def python():
    sys.path.insert(0, str(SITE / "python"))
    import bitm
    ids, _ = page("reference/python.html")
    for name in bitm.__all__:
        it = getattr(bitm, name)
        members = [m for m in dir(it) if not m.startswith("_")] if inspect.isclass(it) and not issubclass(it, Exception) else []
        see(f"bitm.{name}" in ids, f"Python: {name} is on no page")
        for member in members:
            see(f"bitm.{name}.{member}" in ids, f"Python: {name}.{member} is on no page")
        for what in [it, *(getattr(it, m) for m in members)] if members or not inspect.isclass(it) else []:
            see(">>>" in (inspect.getdoc(what) or ""), f"Python: {name}: {getattr(what, '__name__', what)} has no example")


def javascript():
    ids, _ = page("reference/javascript.html")
    for path in sorted(declarations.TYPES.glob("*.d.ts")):
        see(path.name[:-5] in declarations.FILES, f"JavaScript: {path.name} is on no page")
        holder = ""
        for it in declarations.parsed(path):
            names = {declarations.name(text) for text in it.signatures}
            holder = names.copy().pop() if it.kind == "class" else holder
            for name in names:
                see((f"{holder}.{name}".replace("[", "-").strip("]") if it.indent else name) in ids, f"JavaScript: {holder} {name} is on no page")


def rust():
    listed = SITE / "html/rustdoc/bitm_proved/all.html"
    here = (SITE / "html/reference/rust.html").read_text(encoding="utf-8")
    for link in re.findall(r'<li><a href="(\w[^"]+)"', listed.read_text(encoding="utf-8") if listed.exists() else ""):
        module = link.split("/")[0]
        see(f'bitm_proved/{link}"' in here or "/" in link and f'bitm_proved/{module}/index.html"' in here, f"Rust: {link} is on no page")


def pages():
    """Each page has an example, but for that of a crate in which nothing runs."""
    for path in sorted([*(SITE / "html/reference").rglob("*.html"), *(SITE / "html/docs/guides").glob("[!R]*.html")]):
        see("<pre" in path.read_text(encoding="utf-8"), f"{path.relative_to(SITE / 'html')} has no example")


for part in (c, cpp, python, javascript, rust, pages):
    part()
print(*lacks, sep="\n", end="\n" if lacks else "")
print(f"{looked} looks at public items, {len(lacks)} of which found no page, text or example")
sys.exit(len(lacks) > 0)
