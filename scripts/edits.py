"""The mutants, edits of what a function means (docs/TESTING.md has their form): scripts/mutants looks whether each can
be applied, scripts/refused has the prover refuse it. Those of a crate stand in its file mutants.txt, and in must-fail/
where `rt ci` tries them too."""
import re

from checks import TOP, read

# Those that the gate tries, and the rest, which the thorough run tries too.
TIERS = ("gate", "thorough")
# What a goal ends with that was refused since a line of its proof, written by hand, no longer fits: this does not show
# that the clause refuses the mutant.
IN_ANSWER = ", in its answer"
BODY = r"(?:goal: ?(.*)\n)?(?:also: ?(.*)\n)?(?:test: (\w+ \S+)\n)?file: ?(.*)\n((?:old: ?.*\nnew: ?.*\n)+)"
FORM, RECORD = re.compile(BODY), re.compile(rf"({'|'.join(TIERS)}): (\S+)\n{BODY}")


class Edit:
    """A mutant of a crate: its name, the goal that it names, other goals that fail with it, the crate and the name of a
    test that fails on it, its file (None where the edit has another form), and the lines that it changes, each with what
    takes its place."""

    def __init__(self, path, crate, tier, name, text):
        self.path, self.crate, self.tier, self.name, self.text = path, crate, tier, name, text
        form = FORM.fullmatch(text)
        self.goal, also, test, self.file, pairs = form.groups() if form else (None, None, None, None, "")
        self.also = also.split(", ") if also else []
        self.test = test.split() if test else None
        self.pairs = re.findall(r"old: ?(.*)\nnew: ?(.*)\n", pairs)

    def __str__(self):
        return f"{self.path}: {self.name}"

    def applied(self, text):
        """The text of its file with its changes, each over those before it, and the number of each changed line."""
        numbers = []
        for old, new in self.pairs:
            if text.count(old) != 1:
                raise ValueError(f"its line stands {text.count(old)} times in {self.file}: {old.strip()}")
            numbers.append(text[: text.index(old)].count("\n") + 1)
            text = text.replace(old, new)
        return text, numbers

    def names_goals(self, goal, also):
        """The same mutant, which names this goal and those that fail with it."""
        lines = [f"goal: {goal}\n", *([f"also: {', '.join(also)}\n"] if also else [])]
        self.text = "".join([*lines, re.sub(r"^(?:goal|also): .*\n", "", self.text, flags=re.M)])


def in_file(crate):
    """The mutants of a crate's mutants.txt. What is no record is one without a file."""
    path = f"crates/{crate}/mutants.txt"
    for text in read(path).rstrip("\n").split("\n\n") if (TOP / path).is_file() else ():
        head, _, body = text.partition("\n")
        tier, _, name = head.partition(": ")
        yield Edit(path, crate, tier, name, f"{body}\n" if RECORD.fullmatch(f"{text}\n") else text)


def in_must_fail(crate):
    for path in sorted(TOP.glob(f"crates/{crate}/must-fail/*.edit")):
        place = str(path.relative_to(TOP))
        yield Edit(place, crate, TIERS[0], path.stem, read(place))


def edits(tiers, crate="*"):
    """The mutants of these tiers, 0 and 1, of one crate or of all."""
    folders = sorted(it.name for it in TOP.glob(f"crates/{crate}") if it.is_dir())
    all_of_them = [it for name in folders for it in [*in_file(name), *in_must_fail(name)]]
    return [it for it in all_of_them if it.tier not in TIERS or TIERS.index(it.tier) in tiers]


def laid(those):
    """The text of a crate's mutants.txt: the records in the order of their names."""
    return "\n".join(f"{it.tier}: {it.name}\n{it.text}" for it in sorted(those, key=lambda it: it.name))


def write(crate, those):
    """Writes a crate's mutants.txt."""
    (TOP / f"crates/{crate}/mutants.txt").write_text(laid(those), encoding="utf-8")
