"""Examples for the reference of Rattle: functions of crates/example_callers, all of which are proved, by what they call."""
import pathlib
import re

TOP = pathlib.Path(__file__).resolve().parents[2] / "crates"
LINES = 24  # longer callers show too much else


def functions():
    """(file, text) of each function there, without comments, attributes and `ghost use`."""
    for path in sorted((TOP / "example_callers/src").rglob("*.rt")):
        text = re.sub(r"^ *(//|#\[|ghost use ).*\n", "", path.read_text(encoding="utf-8"), flags=re.M)
        for it in re.finditer(r"^(?:pub )?fn .*?^\}$", text, re.M | re.S):
            if it[0].count("\n") < LINES:
                yield path.relative_to(TOP), text, it[0]


CALLERS = sorted(functions(), key=lambda it: len(it[2]))
NEAR = {"bitm_bits": "bitm", "bitm_select": "bitm", "bitm_tables": "bitm",
        "bitm_strategies": "bitm", "bit_words": "bitm", "broadword": "bitm",
        "matrix_levels": "wavelet_matrix", "tables_view": "bitm_view", "levels_view": "matrix_block"}


def opening(crate):
    """The caller that CALLING.md of a crate begins with."""
    path = TOP / crate / "CALLING.md"
    head = path.read_text(encoding="utf-8").split("\n## ")[0] if path.exists() else ""
    lines = re.findall(r"^    .*$|^(?=\n    )", head, re.M)
    return "\n".join(it[4:] for it in lines).strip()


def example(crate, box, name):
    """The shortest caller of a method or function, as text in Markdown; empty if there is none."""
    call = rf"[.:]{name}(::<[^()]*>)?\(" if box else rf"\b{name}(::<[^()]*>)?\("
    for file, whole, text in CALLERS:
        if re.search(rf"\buse ({crate}|{NEAR.get(crate, crate)})::", whole) and re.search(call, text.split("{", 1)[1]):
            return f"**Example** (`{file}`)\n\n```rattle\n{text}\n```\n"
    return ""
