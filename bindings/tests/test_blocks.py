"""The code of README.md, docs/guides, docs/site/reference, the READMEs of bindings and of the demonstration, and of the
comments of include/bitm.h and include/bitm/*.hpp (lines that are indented after an empty one).

The blocks of one language on a page are one program, in their order; where none has a `main`, they are the body of one.
Those of include/bitm.h are a function each, which has only this header.
The `output` blocks of a page are what the program of each language prints (in a header, the numbers in comments after a
line), and a file that programs of several languages write is the same. A block in Rattle stands in a file of
crates/example_callers, which is proved; those of a page that do not are one program, which `rt try` runs in another
repository. Of a guide with a `data` block this is so of its code in Rattle; test_guides.py runs the rest."""
import re

import pytest
from blocks import as_bytes, of_bytes
from checks import TOP
from pages import RUN, alone, blocks_of, by_gcc, examples_of, expect_same_files, lines_of, printed_by

PAGES = ("README.md docs/guides/*.md bindings/*/README.md crates/bitm_c/README.md examples/demo/README.md include/bitm.h "
         "include/bitm/*.hpp docs/site/reference/[!r]*.md docs/site/reference/rust.md").split()
HEADER = TOP / "include/bitm.h"
# What `bitm text build` makes of these is there where a page names it.
TEXTS = {"banana.block": b"banana", "sea_shells.block": b"she sells sea shells on the sea shore"}
PROGRAMS = [pytest.param(page, language, id=f"{page.relative_to(TOP)}, {language}")
            for name in PAGES for page in sorted(TOP.glob(name)) for language in RUN if language in dict(blocks_of(page))]


@pytest.mark.parametrize("page, language", PROGRAMS)
def test_code(page, language, tmp_path, request):
    blocks = blocks_of(page)
    parts, expected = [code for of, code in blocks if of == language], "".join(code for of, code in blocks if of == "output")
    if language == "rattle":
        proved = [lines_of(it.read_text()) for it in (TOP / "crates/example_callers/src").rglob("*.rt")]
        parts = [it for it in parts if not any(lines_of(it) in text for text in proved)]
        if not parts:
            return
    for name, text in TEXTS.items():
        if any(name in it for it in parts):
            (tmp_path / name).write_bytes(as_bytes(of_bytes(text)))
    printed = printed_by(language, parts, tmp_path, expected, request)
    if page.suffix != ".md":
        expected = [it for _, code in blocks for line in re.findall(r"std::cout.*// ([\d ]+)$", code, re.M) for it in line.split()]
        printed = printed.split()
    assert printed == expected
    expect_same_files(page, tmp_path)


@pytest.mark.parametrize("more, says", [
    ("    if (!taken) return 1;\n", "bitm.h:9:.*undeclared"), ("    return strlen(\"\") > 0;\n", "bitm.h:9:.*declaration of function"),
    ("    if (bitm_version() > 0) return 1;\n", "bitm.h:9: the example fails"),
])
def test_example_stands_alone(more, says, tmp_path):
    """An example in C that takes a variable of the one before it, or needs another header, does not compile; one that fails
    is named by its line."""
    examples = [*examples_of(HEADER.read_text(encoding="utf-8"))[:3], (5, "    int taken = 1;\n    if (!taken) return 1;\n")]
    by_gcc("gcc -std=gnu11 -x c", alone(examples, HEADER.name), tmp_path)
    with pytest.raises(AssertionError, match=says):
        by_gcc("gcc -std=gnu11 -x c", alone([*examples, (9, more)], HEADER.name), tmp_path)
