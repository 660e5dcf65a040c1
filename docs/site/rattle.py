#!/usr/bin/env python3
"""rattle.py TO [--count]: the reference of the libraries in Rattle as MyST pages in TO: one a crate, and one of definitions.

A page has each public item that lib.rt lets a user reach, with its `///` text. Clauses stand beside the sentences that say
them: `requires` beside Conditions, clauses about reads and sizes beside Cost, those about refusals beside Errors, all others
beside the first text. Below stand the definitions that the clauses name, with their comments from `specs/*.antt`, and a caller.
A name that a lib.rt hands on and that is on no page is an error.
"""
import collections, functools, pathlib, re, sys
import callers
from definitions import CRATES, TOP, anchor, definitions, definitions_page
from sources import address

COST = re.compile(r"^(?:reads|cost|size|searches)\b|\bReads|\breads\b")
ERRORS = re.compile(r"IsErr|IfErr|AllocError|\bErr\b")
ITEM = re.compile(r"( {0,4})(?:pub )?(?:const )?(fn|struct|enum|trait|const|type) (\w+)")
COUNT, Item = collections.Counter(), collections.namedtuple("Item", "box kind name doc head clauses place")

def ended(kind, text):
    """Whether the lines of an item are all there, up to its body."""
    last, level = text.split("\n")[-1].strip(), text.count("{") - text.count("}")
    if kind in ("struct", "enum"):
        return last == "}" or (level == 0 and last.endswith((";", "}")))
    if kind == "trait" or (kind == "fn" and not re.match(r"requires|ensures", last) and last.endswith("{")):
        return last.endswith("{") and text.count("(") == text.count(")")
    return level == 0 and (last.endswith(";") or kind == "fn" and (last == "{}" or last.endswith("}") and "\n" not in text))

def split(text, kind):
    """The head of an item, without private fields, and its clauses as (kind, label, formula)."""
    found = []
    for it in re.finditer(r"^\s*(requires|ensures)(?: (\w+))? \{", text, re.M):
        level, end = 1, it.end()
        while level:
            level += {"{": 1, "}": -1}.get(text[end], 0)
            end += 1
        found.append((it[1], it[2] or "", " ".join(text[it.end(): end - 1].split())))
    head = re.split(r"\n\s*(?:requires|ensures)\b", text, 1)[0]
    if kind == "struct" and (body := re.search(r"\{.*\}", head, re.S)):
        head = head[: body.start()] + "\n".join(["{", *re.findall(r"^ *(?:///.*|pub .*)$", body[0], re.M), "    ..", "}"])
    return (head if kind in ("struct", "enum") else re.sub(r"\s*(\{|\{\}|;)?$", "", head)), found

def items(path):
    """The public items of a file, in order."""
    lines, doc, box, k = path.read_text(encoding="utf-8").split("\n"), [], None, 0
    while k < len(lines):
        line, bare = lines[k], lines[k].strip()
        if bare.startswith("///"):
            doc.append(bare[4:])
        elif line.startswith("impl") or (made := ITEM.match(line)):
            kind, text, begin = ("trait", line, k) if line.startswith("impl") else (made[2], line, k)
            while not ended(kind, text) and lines[k] != "}" and not (kind == "trait" and text.endswith("}")):
                k += 1
                text += "\n" + lines[k]
            if line.startswith("impl"):
                plain = " ".join(text.split())
                while re.search(r"<[^<>]*>", plain):
                    plain = re.sub(r"<[^<>]*>", "", plain)
                box, doc = (None if " for " in plain else re.match(r"impl (\w+)", plain)[1]), []
            else:
                owner = (box or "").split()[-1:] if made[1] else [""]
                if owner and (bare.startswith("pub ") or (made[1] and box.startswith("trait "))):
                    head, clauses = split(re.sub("^" + made[1], "", text, flags=re.M), kind)
                    yield Item(owner[0], kind, made[3], doc, head, clauses, (path.relative_to(TOP.parent), begin + 1))
                box, doc = (f"trait {made[3]}" if kind == "trait" else box), []
        elif line == "}":
            box, doc = None, []
        elif bare and not bare.startswith(("#[", "//")) and not bare.endswith("]"):
            doc = []
        k += 1

@functools.cache
def parts(crate):
    """The root of a crate, "", and its public modules that hand on names of modules inside, each with its file."""
    root = TOP / crate / "src"
    modules = re.findall(r"^pub mod (\w+);", (root / "lib.rt").read_text(encoding="utf-8"), re.M)
    files = {it: root / f"{it}.rt" for it in modules}
    hands_on = re.compile(r"^mod \w+;.*^pub use", re.M | re.S)
    return {"": root / "lib.rt", **{it: at for it, at in files.items() if hands_on.search(at.read_text(encoding="utf-8"))}}

def part_of(crate, path):
    """The part of a crate that a file belongs to."""
    first = path.relative_to(TOP / crate / "src").parts[0].removesuffix(".rt")
    return first if first in parts(crate) else ""

def reached(crate, part=""):
    """The names and the files that a part of a crate makes public, and the (crate, names) that it takes from others."""
    path = parts(crate)[part]
    names, others, todo = set(), [], [(path, path.parent / part)]
    for path, folder in todo:
        text = path.read_text(encoding="utf-8")
        for it in re.finditer(r"^pub use (\w+)([\w:]*?)::(?:(\w+)|\{([^}]*)\});", text, re.M):
            listed = re.findall(r"\w+", it[3] or it[4])
            is_own = it[1] not in CRATES or (folder / f"{it[1]}.rt").exists()
            names.update(listed) if is_own else others.append((it[1], listed))
        modules = [it for it in re.findall(r"^pub mod (\w+);", text, re.M) if part or it not in parts(crate)]
        todo += [(folder / f"{it}.rt", folder / it) for it in modules]
    return names, {it for it, _ in todo[not part:]}, others

def path_of(crate, it):
    """The path of an item in its crate."""
    return "::".join(x for x in (part_of(crate, TOP.parent / it.place[0]), it.box, it.name) if x)

def fenced(text):
    """Plain fences are Rattle, and headings bold words: the page has headings of its own."""
    return re.sub(r"```\n(.*?)```", r"```rattle\n\1```", re.sub(r"^# (.*)$", r"**\1**\n", text, flags=re.M), flags=re.S)

def said(text):
    """What a file says of itself, in its `//!` lines."""
    return fenced("\n".join(x[4:] for x in text.split("\n") if x.startswith("//!")))

def item(crate, it, known):
    full = path_of(crate, it)
    pieces = re.split(r"^# (.*)$", "\n".join(it.doc), flags=re.M)
    texts = {"": fenced(pieces[0].strip()), **{t: fenced(x.strip()) for t, x in zip(pieces[1::2], pieces[2::2])}}
    yield f"(rattle-{crate}-{full.replace('::', '.')})=\n{'###' if it.box else '##'} `{full}`\n\n```rattle\n{it.head}\n```\n"
    yield f'<a class="source" href="../../{address(*it.place)}">source</a>\n'
    COUNT.update({"items": 1, "items without `///`": not texts[""], "clauses": len(it.clauses)})
    if not it.clauses:
        yield "\n\n".join(f"**{title}.** {text}" if title else text for title, text in texts.items()) + "\n"
        yield callers.example(crate, it.box, it.name) if it.kind == "fn" else ""
        return
    groups = {title: [] for title in texts}
    for ask, name, formula in it.clauses:
        title = ("Conditions" if ask == "requires" else "Cost" if COST.search(name + " " + formula) else
                 "Errors" if ERRORS.search(formula) and "Errors" in texts else "")
        groups.setdefault(title, []).append(f"```rattle\n{ask}{name and ' ' + name}: {formula}\n```")
        COUNT.update({"clauses with no label": not name, f"clauses of {title or 'the answer'} with no sentence": not texts.get(title)})
    yield "::::{list-table}\n:class: contract\n:widths: 48 52\n:header-rows: 1\n\n* - In words\n  - As proved"
    for title, stated in groups.items():
        COUNT[f"{title or 'the answer'} in words only"] += not stated
        words = (f"**{title}**\n\n" if title else "") + (texts.get(title) or "*no sentence*")
        yield "* - " + words.replace("\n", "\n    ") + "\n  - " + ("\n".join(stated) or "*in words only*").replace("\n", "\n    ")
    yield "::::\n"
    named = [x for x in dict.fromkeys(re.findall(r"\w+", " ".join(f for _, _, f in it.clauses))) if x in known]
    if named:
        yield ":::{container} where\n" + "\n".join(f"- [`{x}`]({anchor(x)}): {known[x][2] or '*no comment*'}" for x in named) + "\n:::\n"
    example = callers.example(crate, it.box, it.name)
    COUNT["items with clauses that no caller calls"] += not example
    yield example

def public(crate):
    found = {part: reached(crate, part) for part in parts(crate)}
    each = ((found[part_of(crate, path)], path) for path in sorted((TOP / crate / "src").rglob("*.rt")))
    return [x for (names, files, _), path in each for x in items(path) if (x.box or x.name) in names or path in files]

def definer(crate, name, entries):
    """The crate that defines what a crate hands on by this name, and its path where that is an item of its page, no module."""
    if it := next((x for x in entries[crate] if not x.box and x.name == name), None):
        return crate, path_of(crate, it)
    if (TOP / crate / f"src/{name}.rt").exists():
        return crate, None
    taken = (it for part in parts(crate) for it in reached(crate, part)[2])
    return next((definer(at, name, entries) for at, listed in taken if name in listed), (None, None))

def page(crate, known, entries):
    lib, handed = (TOP / crate / "src/lib.rt").read_text(encoding="utf-8"), {}
    yield f"(rattle-{crate})=\n# {crate}\n\n" + said(lib) + "\n"
    if caller := callers.opening(crate):
        yield f"```rattle\n{caller}\n```\n\n[How to call it](../../crates/{crate}/CALLING.md) goes on from this example.\n\n```{{toctree}}\n:hidden:\n\n../../crates/{crate}/CALLING\n```\n"
    for at, name in ((at, x) for at, listed in reached(crate)[2] for x in listed):
        of, path = definer(at, name, entries)
        COUNT[f"name of {crate} without a page: {name}"] += not of
        handed.setdefault(of, []).append(f"[`{name}`](rattle-{of}-{path.replace('::', '.')})" if path else f"`{name}`")
    for other, listed in handed.items():
        yield f"From [{other}](rattle-{other}): " + ", ".join(listed) + ".\n"
    types = list(dict.fromkeys(x.box or x.name for x in entries[crate] if x.box or x.kind in ("struct", "enum", "trait")))
    place = {name: k for k, name in enumerate(types)}  # types with their methods first, then functions
    order = {part: k for k, part in enumerate(parts(crate))}
    part = {id(x): part_of(crate, TOP.parent / x.place[0]) for x in entries[crate]}
    last = ""
    for entry in sorted(entries[crate], key=lambda x: (order[part[id(x)]], place.get(x.box or x.name, len(types)), bool(x.box))):
        if part[id(entry)] != last:
            last = part[id(entry)]
            yield f"## {crate}::{last}\n\n" + said(parts(crate)[last].read_text(encoding="utf-8")) + "\n"
        yield from item(crate, entry, known)

def main():
    to, known, entries = pathlib.Path(sys.argv[1]), definitions(), {crate: public(crate) for crate in CRATES}
    to.mkdir(parents=True, exist_ok=True)
    for crate in CRATES:
        (to / f"{crate}.md").write_text("\n".join(page(crate, known, entries)), encoding="utf-8")
    (to / "definitions.md").write_text(definitions_page(known), encoding="utf-8")
    COUNT.update({"definitions": len(known), "definitions without a comment": sum(not it[2] for it in known.values())})
    missing = [it for it, n in COUNT.items() if n and "without a page" in it]
    print(*(f"{n:5}  {what}" for what, n in COUNT.most_common() if n and "--count" in sys.argv), *missing, sep="\n", end="")
    sys.exit(bool(missing))

if __name__ == "__main__":
    main()
