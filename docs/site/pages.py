#!/usr/bin/env python3
"""pages.py TO: lays the documents of the repository out as pages of the site, in folder TO.

A page keeps its path, so that its links hold; README.md becomes index.md. Links to documents that are no page become plain
text, names of pages in backquotes become links, `rustdoc:ITEM` leads to the page of an item in Rust, blocks of code in
several languages, one right after another, become tabs.
"""
import os
import pathlib
import re
import shutil
import subprocess
import sys

TOP = pathlib.Path(__file__).resolve().parents[2]
NAMES = {"c": "C", "cpp": "C++", "rust": "Rust", "python": "Python", "rattle": "Rattle", "js": "JavaScript",
         "javascript": "JavaScript"}
PAGES = re.compile(r"(README|CONTRIBUTING|CHANGELOG)\.md|docs/[\w-]+\.md|docs/guides/[\w-]+\.md|docs/site/reference/[\w-]+\.md"
                   r"|bindings/(javascript|python|rust)/README\.md|crates/bitm_c/README\.md|crates/\w+/CALLING\.md|examples/(demo|browser)/README\.md")

# The playground itself stands below the title of its page.
PLAYGROUND = '\n\n<iframe class="playground" src="index.html" title="Playground"></iframe>\n\n'


def tabs(text):
    """Blocks of two languages or more with only empty lines between them, as tabs."""
    def one(run):
        parts = re.findall(r"^```(\w+)\n(.*?)^```$", run[0], re.M | re.S)
        if len({it for it, _ in parts}) < 2 or any(it not in NAMES for it, _ in parts):
            return run[0]
        return "".join(f"`````{{tab}} {NAMES[it]}\n```{it}\n{code}```\n`````\n" for it, code in parts)
    fence = r"^```\w+\n(?:(?!^```).*\n)*?^```\n"
    return re.sub(rf"(?:{fence}\n*){{2,}}", one, text, flags=re.M)


def outside_code(change, text):
    """Changes the pieces of a page that are no code: neither a fence nor an indented block."""
    pieces = re.split(r"(^```.*?^```$|^    [^\n]*$)", text, flags=re.M | re.S)
    return "".join(it if at % 2 else change(it) for at, it in enumerate(pieces))


def page(name, pages):
    """A page's text, with its links."""
    folder = os.path.dirname(name)

    def to(path):
        moved = os.path.dirname(name.replace("docs/site/", ""))
        return os.path.relpath("index.md" if path == "README.md" else path.replace("docs/site/", ""), moved or ".")

    def link(it):
        target, _, anchor = it[2].partition("#")
        path = os.path.normpath(os.path.join(folder, target)) if target else name
        if item := re.match(r"rustdoc:([\w./]+)", target):
            text = re.sub("`(.*)`", r"<code>\1</code>", it[1])
            return f'<a href="../rustdoc/bitm_proved/{item[1]}.html">{text}</a>'
        if re.match(r"\w+:", it[2]) or not target or path.startswith("reference/") or re.search(r"\.svg$", path):
            return it[0]
        return f"[{it[1]}]({to(path)}{'#' + anchor if anchor else ''})" if path in pages else it[1]

    def named(it):
        path = next((x for x in (it[1], os.path.normpath(os.path.join(folder, it[1]))) if x in pages), None)
        return f"[{it[0]}]({to(path)})" if path and path != name else it[0]

    def change(text):
        text = re.sub(r"(?<!!)\[([^\]\n]*(?:\n[^\]\n]+)?)\]\(([^)\s]+)\)", link, text)
        return re.sub(r"(?<!\[)`([\w./-]+\.md)`(?!\])", named, text)

    text = tabs(outside_code(change, (TOP / name).read_text(encoding="utf-8")))
    return text.replace("\n\n", PLAYGROUND, 1) if name == "examples/browser/README.md" else text


def main():
    to = pathlib.Path(sys.argv[1])
    files = subprocess.run(["git", "ls-files", "-co", "--exclude-standard"], cwd=TOP, stdout=subprocess.PIPE, check=True, text=True).stdout.split()
    pages = {it for it in files if PAGES.fullmatch(it)}
    for name in pages:
        target = to / ("index.md" if name == "README.md" else name.replace("docs/site/", ""))
        target.parent.mkdir(parents=True, exist_ok=True)
        target.write_text(page(name, pages), encoding="utf-8")
    with open(to / "index.md", "a", encoding="utf-8") as out:
        out.write((TOP / "docs/site/contents.md").read_text(encoding="utf-8"))
    for it in (it for it in files if re.fullmatch(r"(docs|examples)/([\w-]+/)?[\w-]+\.svg", it)):
        (to / it).parent.mkdir(parents=True, exist_ok=True)
        shutil.copyfile(TOP / it, to / it)


if __name__ == "__main__":
    main()
