"""The functions of a file of Rattle, as `rt fmt` lays it out: where each stands, its contract and its body; its ghost
members; and the definitions of a file of specs."""
import re

FN = re.compile(r'(\s*)(?:#\[.*?\] *)?(pub(?:\([a-z]+\))? )?(?:final )?(?:const )?(?:unsafe )?(?:extern "C" )?fn (\w+)')
BLOCK = re.compile(r"(?:unsafe )?(pub )?(?:pub\([a-z]+\) )?(impl|trait)\b(.*)")
DEFINES = re.compile(r"(?:(?:abbrev|pub|record|data|law|unfoldable) )*([A-Za-z]\w*)(?=[\s:({]|$)")
GHOST = re.compile(r" *(?:pub )?ghost (\w+)[^{;]*\{")
CALL = re.compile(r"(?:Ok\()?(?:self\.)?(?:\w+::)*(\w+)(?:::<.*?>)?\(")
CLAUSE = re.compile(r"^\s*(requires|ensures)\b([^{]*)\{", re.M)


def closed(text, begin, marks):
    """The end of a bracket that opens before `begin`."""
    depth, at = 1, begin
    while depth and at < len(text):
        depth += (text[at] == marks[0]) - (text[at] == marks[1])
        at += 1
    return at


class Function:
    """A function: its file, the types that it is of (a trait's too), its name below the crate, and its lines: from the
    comments above it on, its head, the brace that opens its body (0: there is none below the head) and its end."""

    def __init__(self, file, lines, at, inside):
        self.file, self.lines, self.at, self.inside = file, lines, at, inside
        indent, public, self.own = FN.match(lines[at - 1]).groups()
        # the functions of a trait, and of an impl of one, are as public as the trait
        self.is_public = public == "pub " or not public and bool(indent) and inside.is_open
        self.name = "::".join(it for it in (*inside.home, "".join(inside.types), self.own) if it)
        self.first = at
        while self.first > 1 and not re.search(r"^\s*$|\{$|\}$", lines[self.first - 2]):
            self.first -= 1
        self.opens, self.last = self.ends(indent)

    def ends(self, indent):
        for at in range(self.at, len(self.lines) + 1):
            line = self.lines[at - 1].rstrip()
            if re.match(rf"{indent}(?! ).*\{{$", line):
                return at, self.lines.index(f"{indent}}}", at) + 1
            if line.endswith(";") or line == f"{indent}{{}}" or at == self.at and line.endswith("}"):
                return 0, at
        return 0, len(self.lines)

    def clauses(self):
        """Each clause as its kind, its label, and its words."""
        text, found, at = "\n".join(self.lines[self.at - 1 : self.opens or self.last]), [], 0
        while it := CLAUSE.search(text, at):
            at = closed(text, it.end(), "{}")
            found.append((it[1], it[2].strip(), " ".join(text[it.end() : at - 1].split())))
        return found

    def body(self):
        """The lines between the braces."""
        return self.lines[self.opens : self.last - 1] if self.opens else []

    def calls(self):
        """The name of the one function that its body calls, where the body is a line, or None."""
        line = " ".join(it.strip() for it in self.body() if not it.strip().startswith("//")).rstrip(";")
        called = CALL.match(line)
        return called[1] if called and not re.search(r"[;{]", line) else None


class Inside:
    """An impl or a trait: its types, the trait last, whether others may call its functions, and the module of these."""

    def __init__(self, module, homes, head=None, text=""):
        self.types, self.is_open, self.home = [], False, module
        if head:
            text = re.sub("->", "", text.split("{")[0])
            text = text[closed(text, 1, "<>") :] if text.startswith("<") else text
            trait, _, of = text.partition(" for ") if head[2] == "impl" else (text.split(":")[0], "", "")
            self.types = [bare(it) for it in (of, trait) if it]
            self.is_open = bool(of or head[2] == "trait" and head[1])
            self.home = module if of else homes.get(self.types[0], module)


def bare(words):
    """A type's or trait's own name: without generics, references and its path."""
    while re.search(r"<[^<>]*>", words):
        words = re.sub(r"<[^<>]*>", "", words)
    return words.split(" where ")[0].strip().lstrip("&").strip().split("::")[-1].strip()


def module_of(file):
    """The parts of the path of the module that a file is."""
    parts = file.removeprefix("src/").removesuffix(".rt").removesuffix("/mod").split("/")
    return [] if parts[-1] in ("lib", "main") else parts


def homes_of(folder):
    """The module of each type of a crate, by which a method of its own is named wherever it is written."""
    types = re.compile(r"^(?:pub(?:\([a-z]+\))? )?(?:struct|enum) (\w+)", re.M)
    files = {str(it.relative_to(folder)): it.read_text(encoding="utf-8") for it in (folder / "src").rglob("*.rt")}
    return {it: module_of(file) for file, text in files.items() for it in types.findall(text)}


def functions_of(file, text, homes=None):
    """The functions of a file, of a crate whose types have these homes."""
    lines = text.split("\n")
    return [Function(file, lines, at, inside) for at, inside in insides(file, lines, homes) if FN.match(lines[at - 1])]


def insides(file, lines, homes=None):
    """The number of each line, with the impl or trait that it is inside."""
    module = module_of(file)
    inside = Inside(module, homes)
    for at, line in enumerate(lines, 1):
        head = BLOCK.match(line)
        if head or line == "}":
            inside = Inside(module, homes or {}, head, " ".join([head[3], *lines[at : at + 6]]) if head else "")
        yield at, inside


def definitions_of(text):
    """The definitions of a file of specs, by their names: the lines of each, comments apart."""
    found, name = {}, ""
    for line in text.split("\n"):
        first = None if line.startswith(("--", "use ", "pub use ", "pub mod ")) else DEFINES.match(line)
        name = first[1] if first else name if line.startswith(" ") else ""
        if name and not line.strip().startswith("--"):
            found.setdefault(name, []).append(line.rstrip())
    return {name: "\n".join(lines) for name, lines in found.items()}


def ghosts_of(file, text):
    """The ghost members of a file of Rattle, each with its type or trait: what it is."""
    found, lines = {}, text.split("\n")
    for at, inside in insides(file, lines):
        member = GHOST.match(lines[at - 1])
        if member:
            rest = "\n".join(lines[at - 1 :])[member.end() :]
            found[" for ".join(inside.types[::-1]), member[1]] = " ".join(rest[: closed(rest, 0, "{}") - 1].split())
    return found


def emptied(text, functions):
    """The text of a file without the bodies of these functions, and the functions that had one."""
    lines, had = text.split("\n"), []
    for it in functions:
        if it.opens and it.opens < it.last - 1 and "const fn" not in lines[it.at - 1]:
            # as many lines as before: what is printed names them
            indent = re.match(r"\s*", lines[it.at - 1])[0]
            lines[it.opens : it.last - 1] = [f"{indent}    unreachable!()", *[""] * (it.last - 2 - it.opens)]
            had.append(it)
    return "\n".join(lines), had
