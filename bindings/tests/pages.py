"""What the tests of documents share: the blocks of code of a page, and how a program of each language is made and run."""
import hashlib
import re

from checks import TOP
from common import ARCHIVE, PYTHON
from shell import bash, needs

HEADS = {
    "c": "#include <bitm.h>\n",
    "cpp": "#include <bitm.hpp>\n#include <iostream>\n#include <string>\n#include <vector>\n",
}
# What stands at the top of a program, and what is put around the rest.
MAINS = {
    "rust": (r"^use .*\n", "\nfn main() -> Result<(), Box<dyn std::error::Error>> {\n", "    Ok(())\n}\n"),
    "c": (r"^#(?:include|define) .*\n", "\nint main(void)\n{\n", "    return 0;\n}\n"),
}
MAINS["cpp"] = MAINS["c"]
FLAGS = f"-Wall -Wextra -Werror -O1 -I{TOP}/include"
IN_RATTLE = "\n## In Rattle\n"  # the heading below which a guide with a `data` block has its code in Rattle
written = {}  # the digest of each file that a program of a page wrote


def blocks_in(text):
    """The languages and texts of the blocks of a document."""
    return re.findall(r"^```(\w+)\n(.*?)^```$", text, re.M | re.S)


def has_data(page):
    """Whether a page is a guide with a `data` block."""
    return page.suffix == ".md" and "data" in dict(blocks_in(page.read_text(encoding="utf-8")))


def blocks_of(page):
    """The languages and texts of the blocks of a page, or of the comments of a header; of a guide with a `data` block
    those in Rattle, and their output."""
    text = page.read_text(encoding="utf-8")
    if page.suffix == ".md":
        return blocks_in(text.partition(IN_RATTLE)[2] if has_data(page) else text)
    if page.suffix == ".h":
        return [("c", alone(examples_of(text), page.name))]
    found = [re.sub(r"^// *", "", it, flags=re.M) for it in re.findall(r"^//\n((?://     .*\n)+)", text, re.M)]
    return [("cpp", it) for it in [HEADS["cpp"], *found]] if found else []


def examples_of(text):
    """The examples in the comments of a header of C, each with its line: what is indented after an empty line."""
    found = re.finditer(r"^ \*\n((?: \*     .*\n)+)", text, re.M)
    return [(text.count("\n", 0, it.start(1)) + 1, re.sub(r" *\*/$", "", re.sub(r"^ \* *", "    ", it[1], flags=re.M))) for it in found]


def alone(examples, name):
    """The program of examples, each a function of its own below the header alone: none can take a value of another. It
    says which one failed, by its line; where one does not compile, the compiler does."""
    functions = "".join(f'static int at_{line}(void)\n{{\n#line {line} "{name}"\n{code}    return 0;\n}}\n' for line, code in examples)
    calls = "".join(f'    if (at_{line}()) return printf("{name}:{line}: the example fails\\n"), 1;\n' for line, _ in examples)
    return f"{HEADS['c']}{functions}#include <stdio.h>\nint main(void)\n{{\n{calls}    return 0;\n}}\n"


def whole(language, code):
    """The program of the blocks, with a `main` around them if they have none."""
    if language not in MAINS or re.search(r"\bmain\(", code):
        return code
    head, start, end = MAINS[language]
    return "".join(re.findall(head, code, re.M)) + start + re.sub(r"^(?=.)", "    ", re.sub(head, "", code, flags=re.M), flags=re.M) + end


def lines_of(text):
    """The lines of a program in Rattle, less comments, attributes and `ghost use`."""
    return "\n".join(it.strip() for it in text.split("\n") if it.strip() and not re.match(r"\s*(//|#\[|ghost use )", it)) + "\n"


def by_gcc(compiler, code, folder):
    (folder / "page").write_text(code)
    return bash(f"{compiler} {FLAGS} page -x none {ARCHIVE} -o program && ./program", folder)


def by_cargo(code, folder):
    needs("cargo")
    (folder / "src").mkdir()
    (folder / "src/main.rs").write_text(code)
    crate = f'bitm = {{ package = "bitm-proved", path = "{TOP}/bindings/rust", features = ["mmap"] }}'
    (folder / "Cargo.toml").write_text(f'[package]\nname = "page"\nversion = "0.0.0"\nedition = "2021"\n[dependencies]\n{crate}\n[workspace]\n'
                                       "[profile.dev]\nopt-level = 1\n")
    return bash("cargo run -q --offline", folder, CARGO_TARGET_DIR=str(folder.parent / "cargo"))


def by_python(code, folder, site):
    (folder / "page.py").write_text(code)
    return bash(f"{PYTHON} page.py", folder, **site)


def by_node(code, folder):
    needs("node")
    (folder / "node_modules").mkdir()
    (folder / "node_modules/bitm").symlink_to(TOP / "bindings/javascript")
    (folder / "page.mjs").write_text(code)
    return bash("node page.mjs", folder)


def by_rt(code, folder, expected):
    needs("rt")
    wanted = " ".join(sorted({it for it in re.findall(r"^use (\w+)::", code, re.M) if (TOP / "crates" / it).is_dir()}))
    bash(f"scripts/vendor {folder} {wanted} && cd {folder} && mkdir -p crates/page/src && echo 'page: {wanted}' >> crates.txt && git init -q")
    (folder / "crates/page/src/main.rt").write_text(code)
    printed = bash("rt try", folder / "crates/page")  # rt says beside it how the run went
    return "".join(it + "\n" for it in printed.split("\n") if it in expected.split("\n") and it)


RUN = {
    "c": lambda code, folder, *_: by_gcc("gcc -std=gnu11 -x c", code, folder),
    "cpp": lambda code, folder, *_: by_gcc("g++ -std=c++17 -x c++", code, folder),
    "rust": lambda code, folder, *_: by_cargo(code, folder),
    "python": lambda code, folder, _, request: by_python(code, folder, request.getfixturevalue("site")),
    "javascript": lambda code, folder, *_: by_node(code, folder),
    "rattle": lambda code, folder, expected, _: by_rt(code, folder, expected),
}


def printed_by(language, parts, folder, expected, request):
    """What the program of these blocks prints, run in a folder."""
    if language == "python" and any("import numpy" in it for it in parts):
        needs(f"{PYTHON}:numpy")
    needs({"c": "gcc", "cpp": "g++"}.get(language, "bash"))
    return RUN[language](whole(language, "\n".join(parts)), folder, expected, request)


def expect_same_files(key, folder):
    """The files *.bitm are those that the programs of the other languages wrote."""
    for made in folder.glob("*.bitm"):
        digest = hashlib.sha256(made.read_bytes()).hexdigest()
        assert digest == written.setdefault((key, made.name), digest), f"{made.name} differs from that of another language"
