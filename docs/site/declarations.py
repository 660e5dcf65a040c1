#!/usr/bin/env python3
"""declarations.py PAGE: adds to PAGE what the package for JavaScript exports, of bindings/javascript/types: a chapter a
file, an entry a declaration. Overloads, which are neighbours of one name, share a comment."""
import collections
import pathlib
import re
import sys

TYPES = pathlib.Path(__file__).resolve().parents[2] / "bindings/javascript/types"
FILES = {"bitm": "The package", "bits": "Bits", "numbers": "Numbers", "keys": "Keys", "texts": "Texts, trees and tries",
         "sections": "Sections", "common": "Types of arguments"}
WORDS = r"(?:(?:static|readonly|class|interface|type|const|function) )*"
NAME = r"(?:\w+|\[[\w.]+\])"
DECLARED = re.compile(rf"( {{0,4}})(?:export )?({WORDS}{NAME}(?:$|[ ?(:<].*))")
Entry = collections.namedtuple("Entry", "indent kind comment signatures lines")


def kind_of(text, indent):
    if indent:
        return "method" if re.match(rf"(static )?{NAME}\(", text) else "attribute"
    return {"function": "function", "class": "class", "interface": "class"}.get(text.split()[0], "data")


def name(text):
    return re.match(f"{WORDS}({NAME})", text)[1]


def parsed(path):
    """The declarations of a file, with their comments."""
    found, comment, begun = [], "", 0
    text = re.sub(r"^declare global \{.*?^\}", lambda it: "\n" * it[0].count("\n"), path.read_text(encoding="utf-8"), flags=re.M | re.S)
    for number, line in enumerate(text.split("\n"), 1):
        if begun or line.lstrip().startswith("/**"):
            comment += " " + re.sub(r"^\s*(/\*\*|\*(?!/))|\s*\*/\s*$", "", line).strip()
            begun = "*/" not in line
        elif (made := DECLARED.fullmatch(line)) and not line.startswith(("import ", "export *")):
            indent, said = len(made[1]), re.sub(r"(;| \{\}?)$", "", made[2])
            kind, last = kind_of(said, indent), found[-1] if found else None
            if last and not comment and (last.indent, last.kind) == (indent, kind) and name(last.signatures[-1]) == name(said):
                last.signatures.append(said)
                last.lines.append(number)
            else:
                found.append(Entry(indent, kind, comment.strip(), [said], [number]))
            comment = ""
    return found


def escaped(text):
    return re.sub(r"(?<![`\w])\*|(?<=\w)_(?!\w)", lambda it: "\\" + it[0], text)


def entry(path, it):
    margin = "   " * (it.indent // 4)
    head = f"{margin}.. js:{it.kind}:: "
    yield head + ("\n" + " " * len(head)).join(it.signatures)
    yield f"{margin}   :lines: " + " ".join(f"bindings/javascript/types/{path.name}:{k}" for k in it.lines) + "\n"
    yield f"{margin}   {escaped(it.comment)}\n"


def page():
    for stem, title in FILES.items():
        path = TYPES / f"{stem}.d.ts"
        opening = " ".join(it[3:] for it in re.match(r"(//.*\n)+", path.read_text(encoding="utf-8"))[0].strip().split("\n"))
        yield f"\n## {title}\n\n{opening}\n\n```{{eval-rst}}"
        for it in parsed(path):
            yield from entry(path, it)
        yield "```"


if __name__ == "__main__":
    with open(pathlib.Path(sys.argv[1]), "a", encoding="utf-8") as out:
        out.write("\n".join(page()) + "\n")
