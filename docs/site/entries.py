"""The entries of the reference, an extension of Sphinx: overloads that share a comment are one entry, each signature has a
link to its source, and declarations of TypeScript are entries of JavaScript."""
import inspect
import os
import pathlib
import re

import sources
from docutils import nodes
from docutils.parsers.rst import directives
from sphinx import addnodes
from sphinx.domains.javascript import JSObject

PACKAGE = pathlib.Path(os.environ["SITE"]) / "python"  # the Python package that is read
found = {}


class Declaration(JSObject):
    """A declaration as TypeScript writes it, with links from the names of its types."""

    option_spec = {**JSObject.option_spec, "lines": directives.unchanged}

    @property
    def allow_nesting(self):
        return self.objtype == "class"

    def handle_signature(self, sig, signode):
        before, name, rest = re.fullmatch(r"((?:(?:static|readonly|class|interface|type|const|function) )*)(\[[\w.]+\]|\w+)(.*)", sig).groups()
        holder = self.env.ref_context.get("js:object")
        full = f"{holder}.{name}" if holder else name
        signode.update_basic_atts({"module": None, "object": holder or "", "fullname": full})
        signode["line"] = self.options["lines"].split()[sum(isinstance(it, addnodes.desc_signature) for it in signode.parent) - 1]
        signode += addnodes.desc_annotation(before, before)
        signode += addnodes.desc_name(name, name)
        for at, text in enumerate(re.split(r"\b([A-Z]\w+)\b", rest)):
            link = {"refdomain": "js", "reftype": "class", "reftarget": text}
            signode += addnodes.pending_xref("", nodes.Text(text), **link) if at % 2 else nodes.Text(text)
        return full, holder


def place(domain, signature):
    """(path, line) of what a signature declares, or None."""
    if domain == "js":
        path, line = signature["line"].rsplit(":", 1)
        return path, int(line)
    if domain == "py":
        return python_place(signature["module"], signature["fullname"])
    return next((found[x] for it in signature.findall(nodes.target) for x in it["ids"] if x in found), None)


def python_place(module, name):
    it = __import__(module)
    for part in name.split("."):
        it = inspect.getattr_static(it, part)
    it = inspect.unwrap(getattr(it, "fget", None) or getattr(it, "__func__", it))
    try:
        path, line = pathlib.Path(inspect.getsourcefile(it)), max(inspect.getsourcelines(it)[1], 1)
    except (OSError, TypeError):  # it is of C, and its declaration in a stub; or a class that bitm/__init__.py renames
        path, line = declared_place(*name.split("."))
    return f"bindings/python/{path.relative_to(PACKAGE)}", line


def declared_place(holder, member=""):
    """The line of a class or function, or of a member that the class has of itself."""
    for path in (*sorted(PACKAGE.glob("bitm/*.pyi")), *sorted(PACKAGE.glob("bitm/*.py"))):
        text = path.read_text(encoding="utf-8")
        if found := re.search(rf"^(?:class|def) {holder}\b.*\n(?:(?: .*)?\n)*", text, re.M):
            inside = re.search(rf"^    (?:def )?{member}\b", found[0], re.M) if member else None
            return path, text.count("\n", 0, found.start() + (inside.start() if inside else 0)) + 1
    raise LookupError(f"no file declares {holder}")


def link_sources(app, tree):
    up = "../" * app.env.docname.count("/")
    for it in tree.findall(addnodes.desc_signature):
        if to := place(it.parent["domain"], it):
            it.insert(0, nodes.raw("", f'<a class="source" href="{up}{sources.address(*to)}">source</a>', format="html"))


def next_entry(first):
    """The entry right after another, or None."""
    after = first.next_node(lambda it: not isinstance(it, addnodes.index), descend=False, siblings=True)
    return after if isinstance(after, addnodes.desc) and after["domain"] == first["domain"] else None


def join_overloads(tree):
    """Neighbours with the same text become one entry: all signatures, then the text once."""
    joined = set()
    for first in list(tree.findall(addnodes.desc)):
        text = first[-1].astext().strip()
        if not text or id(first) in joined or any(first[-1].findall(addnodes.desc)):
            continue
        while (after := next_entry(first)) is not None and after[-1].astext().strip() == text:
            joined.add(id(after))
            after.parent.remove(after)
            first[-1:-1] = after[:-1]


def entries(app, tree):
    join_overloads(tree)
    link_sources(app, tree)


def setup(app):
    found.update(sources.doxygen_lines(PACKAGE.parent))
    for kind in ("class", "method", "attribute", "function", "data"):
        app.add_directive_to_domain("js", kind, Declaration, override=True)
    app.connect("doctree-read", entries, priority=400)
    return {"parallel_read_safe": True, "parallel_write_safe": True}
