#!/usr/bin/env python3
"""headers.py HEADER: the header on standard output, with its comments in the form that Doxygen reads.

C: a block between empty lines is a comment and the declarations that it is about, each of which gets it. `/* ---- title`
begins a group. Lines that are indented after an empty one are code. C++: `//` above a declaration, which holds for those
right below it too. Comments that are Doxygen's already stay as they are.
"""
import pathlib
import re
import sys


def linked(comment, types):
    """Calls as `name()` and statuses as `#NAME`, which Doxygen links, outside of indented code."""
    def line(text):
        if text.startswith(" *     "):
            return text
        text = re.sub(r"(?<![#\w`])(bitm_\w+)\b(?![(.`])", lambda it: it[1] if it[1] in types or it[1].endswith("_") else it[1] + "()", text)
        text = re.sub(r"(?<![\w`])([a-z]+_len)\b(?!`)", r"`\1`", text)
        return re.sub(r"(?<![#\w`])(BITM_[A-Z]\w*)", r"#\1", text)
    text = "\n".join(map(line, comment.split("\n")))
    return re.sub(r"(?<=\n \*\n)((?: \*     .*(?:\n|$))+)", lambda it: f" * @code{{.c}}\n{it[1].rstrip()}\n * @endcode\n ", text)


def c_block(block, types):
    found = re.match(r"/\*(?!\*)(.*?)\*/\n?", block, re.S)
    rest = re.sub(r"([;,\d\w]) +/\*(?![*<])", r"\1 /**< ", block[found.end():] if found else block)
    if not found or re.match(r"#if", rest):
        return rest if not found else block
    about = linked(found[1], types)
    shared = r"^(?=[^\s{}#/].*?\bbitm_\w+\(|#define BITM_\w+ )"
    if len(re.findall(shared, rest, re.M)) > 1:
        return re.sub(shared, lambda _: f"/**{about}*/\n", rest, flags=re.M)
    return f"/**{about}*/\n{rest}"


def c_header(text):
    types = set(re.findall(r"^(?:struct|enum) (\w+) \{", text, re.M))
    inside = False
    for at, block in enumerate(re.split(r"\n\n+", text)):
        title = re.match(r"/\* ---- ([^\n*]+?)(?: \*/)?(?=\n|$)", block)
        if title:
            block = block[title.end():].lstrip("\n")
            about = re.match(r" \*\n(.*?) ?\*/", block, re.S)
            name = "_".join(re.findall(r"[a-z0-9]+", re.split(r"[,:(]", title[1])[0].lower()))
            said = "\n" + linked(about[1], types) if about else ""
            yield ("/** @} */\n" if inside else "") + f"/** @defgroup {name} {title[1][0].upper()}{title[1][1:]}\n *{said}\n * @{{ */"
            block, inside = (block[about.end():] if about else block).strip("\n"), True
            if not block:
                continue
        # the head of the file is a chapter of the page, so no comment of a declaration
        yield block if at == 0 else c_block(block, types)
    if inside:
        yield "/** @} */"


def cpp_header(text):
    # Doxygen finds no scope for members of std
    text = re.sub(r"^template <> struct std::.*?^\};\n", "", text, flags=re.M | re.S)
    comment, runs = [], 0
    for line in text.split("\n"):
        bare = line.strip()
        if re.match(r"//(?!/)", bare):
            comment = [] if runs else comment
            comment.append(re.sub("//", "///", line, 1))
            runs = 0
            yield comment[-1]
            continue
        indent = len(line) - len(line.lstrip())
        starts = bare and not re.match(r"[{}:#)]|return|if|public|private|protected|throw|for|//", bare)
        if not bare:
            comment = []
        elif comment and starts and indent == len(comment[0]) - len(comment[0].lstrip()):
            runs += 1
            if runs > 1 and ("(" in bare or bare.startswith("using ")):
                yield "\n".join(comment)
        yield line


def filtered(path):
    """What Doxygen is given of a header."""
    text = path.read_text(encoding="utf-8")
    return "\n\n".join(c_header(text)) if path.suffix == ".h" else "\n".join(cpp_header(text))


if __name__ == "__main__":
    print(filtered(pathlib.Path(sys.argv[1])))
