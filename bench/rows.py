#!/usr/bin/env python3
"""rows.py WHAT: measures the rows of docs/plots/ anew, from which bench/page lays the tables of docs/PERFORMANCE.md.

    original FOLDER [RUNS]  original-v1.csv, original-v2.csv and original-v3.csv: beside the original crate. FOLDER is
                            not in this repository, since the original's program is in it. It has a script run.sh:
                            `run.sh --cpu LEVEL --sizes .. --densities 50 --keep ROOM --out TO PROJECT` builds both for
                            that level of x86-64 in ROOM (with --as-is it builds nothing), times them by turns in one
                            program, and writes TO/compare.csv with the columns row, log2, percent of 1 bits, who (up is
                            the original, rt this library), value and unit
    sdsl [RUNS]             sdsl.csv: beside sdsl-lite (Debian: libsdsl-dev)
    structures [RUNS]       structures.csv: matrices, sequences, sparse bits and trees beside those of sdsl-lite; 8 GB of memory
    peers [RUNS]            peers.csv: tries, strings and dictionaries beside marisa-trie and std::unordered_map, merges beside
                            std:: and CRoaring (Debian: libmarisa-dev, libroaring-dev, wamerican)
    hashes [RUNS]           hashes.csv: perfect hashes beside those of cmph (Debian: libcmph-dev)
    texts [RUNS]            texts.csv: indexes of texts beside those of sdsl-lite; words from a list (Debian: wamerican)
    limits [RUNS]           limits.csv: beside one random word and a rank by hand, in the loop that is timed and as a call
                            with checks, in small pages and huge ones
    mapped [RUNS]           mapped.csv: blocks in mapped files of 1.1 GB, below $TMPDIR or /tmp, which has to be on a disk;
                            8 GB of memory
    javascript [RUNS]       javascript.csv: the package beside plain JavaScript, by both modules (Node)
    space                   space.csv: how much memory each structure takes, the same on every machine (Node)

A value is the least of RUNS programs (3) one after the other. Plots are drawn anew where matplotlib is installed. The
rows are those of the state that stands here, so commit first, stop all other work on the machine, and write the day and
the machine into the page."""
import csv
import pathlib
import random
import subprocess
import sys

BENCH = pathlib.Path(__file__).resolve().parent
TOP, ROOM, PLOTS = BENCH.parent, BENCH / "out", BENCH.parent / "docs/plots"
LEVELS = {"v1": "0,20,24,28", "v2": "0,20,24,28,30", "v3": "0,20,24,28"}
# The names in the documents of what the comparison with the original crate times; 0, in a word, stands at 2^20.
NAMES = {"select64": "select64 alone", "bit_ones": "going over the ones, a one", "build_binary": "building the tables",
         "build_sampled": "building with both samples", "build_simple": "building a simple index",
         "count_bit_ones": "counting, a word", "get_bit": "get_bit", "get_bits_13": "get_bits of 13",
         "get_fragment_13": "get_fragment of 13", "rank": "rank", "rank_simple": "rank of a simple index",
         "select0_binary": "select0, binary", "select0_sampled": "select0, sampled", "select_binary": "select, binary",
         "select_sampled": "select, sampled", "set_bits_13": "set_bits of 13"}
WHO = {"rt": "library", "up": "original"}
CALLS = ("rank", "select", "select0", "select_many", "select0_many")
CC = ("cc", "-std=c11", "-O2", "-march=x86-64-v2")
CXX = ("c++", "-std=c++14", "-O3", "-DNDEBUG", "-march=x86-64-v2")
OF_SDSL = ("-lsdsl", "-ldivsufsort", "-ldivsufsort64")
ARCHIVE = TOP / "crates/bitm_c/out/libbitm_c.a"
STRUCTURES = ("numbers8", "numbers16", "sequence", "sparse", "tree")
SIZES_OF_ITEMS = {20: 15, 24: 5, 27: 3}  # the logarithm, and the rounds of a program
TEXTS = ("words", "four")  # words of a list, and random ones of four letters
WORDS = "/usr/share/dict/words"
SIZES_OF_PEERS = {20: 15, 24: 5}
SIZES_OF_TEXTS = {20: 15, 24: 5}
BLOCKS = ("index", "sequence", "matrix", "tree")
BITS_OF_BLOCK = 33


def number(value):
    """A time, of three digits."""
    if value is None:
        return ""
    return f"{value:.2f}" if value < 10 else f"{value:.1f}" if value < 100 else f"{value:.0f}"


def said(*command):
    """What a command prints; its errors are seen meanwhile."""
    return subprocess.run([str(it) for it in command], check=True, cwd=TOP, stdout=subprocess.PIPE, text=True).stdout


def made(*command):
    """Runs a command that builds, and keeps what it prints in bench/out/build.log."""
    with open(ROOM / "build.log", "a", encoding="utf-8") as log:
        subprocess.run([str(it) for it in command], check=True, cwd=TOP, stdout=log, stderr=log)


def named(row):
    """The name in the documents: chained queries are those of their call."""
    call, chained = (row[: -len("_chained")], ", chained") if row.endswith("_chained") else (row, "")
    return NAMES.get(call, call) + chained


def write(stem, found):
    """Writes the rows, the least value of each: (name, by, log2) to (value, unit, check) of each run."""
    with open(PLOTS / f"{stem}.csv", "w", encoding="utf-8") as file:
        file.write("row,by,log2,kind,value,unit,check\n")
        for (name, by, log2), values in found.items():
            value, unit, check = min(values)
            text = f"{value:.0f}" if unit == "pages" else number(value)
            file.write(f"{name},{by},{log2},even,{text},{unit},{check}\n")
    print(f"docs/plots/{stem}.csv: {len(found)} rows", file=sys.stderr)


def draws(python):
    """Whether this interpreter has matplotlib."""
    return subprocess.run([python, "-c", "import matplotlib"], stderr=subprocess.DEVNULL).returncode == 0


def draw(stem, level):
    """Draws the plot of a file of rows."""
    day, models = said("date", "+%-d %B %Y").strip(), said("sed", "-n", "s/^model name.*: //p", "/proc/cpuinfo")
    caption = f"{models.splitlines()[0]}, {day}, built for x86-64-{level}"
    tried = (sys.executable, "/usr/bin/python3")  # Debian's own has Debian's matplotlib
    python = next((it for it in tried if draws(it)), tried[0])
    said(python, BENCH / "plot.py", PLOTS / f"{stem}.csv", PLOTS, caption)


def original(folder, runs):
    """Beside the original crate, at each level of x86-64."""
    script = pathlib.Path(folder).resolve() / "run.sh"
    if not script.is_file():
        sys.exit(f"rows.py: there is no {script}: name the folder of the comparison (--help says what it has)")
    for level, sizes in LEVELS.items():
        found, to = {}, ROOM / f"original-{level}"
        for run in range(runs):
            print(f"x86-64-{level}, run {run + 1} of {runs}", file=sys.stderr)
            kept = ["--as-is"] if run else []
            said(script, "--cpu", level, "--sizes", sizes, "--densities", "50", "--keep", ROOM / "original", *kept,
                 "--out", to, TOP)
            with open(to / "compare.csv", encoding="utf-8") as file:
                rows = sorted((int(it[1]) or 20, int(it[1]) > 0, *it) for it in csv.reader(file) if len(it) == 6)
            for log2, _, row, _, _, who, value, unit in rows:
                if who in WHO and row.removesuffix("_chained") in NAMES:
                    found.setdefault((f'"{named(row)}"', WHO[who], log2), []).append((float(value), unit, ""))
        write(f"original-{level}", found)
    draw("original-v2", "v2")


def sdsl(runs):
    """Beside sdsl-lite."""
    made("sh", "-c", "cd crates/tool_bench && rt run")
    made(*CXX, "-o", ROOM / "sdsl", BENCH / "sdsl.cpp", *OF_SDSL)
    found = {}
    for _ in range(runs):
        for log2 in (20, 24, 28):
            for program, kind in ((ROOM / "sdsl", []), (TOP / "crates/tool_bench/out/bench", ["even"])):
                for it in csv.reader(said(program, log2, *kind, 5 if log2 == 28 else 15).splitlines()):
                    if len(it) == 7 and it[0].removesuffix("_chained") in CALLS and it[1] != "simple":
                        by = "library" if it[0].startswith("rank") and it[1] == "binary" else it[1]
                        if not (it[0].startswith("rank") and by == "sampled"):
                            found.setdefault((f'"{named(it[0])}"', by, log2), []).append((float(it[4]), it[5], ""))
    write("sdsl", found)
    draw("sdsl", "v2")


def add(found, *command):
    """Adds the rows that a program prints."""
    print(" ".join(["of", command[0].name, *(str(it) for it in command[1:])]), file=sys.stderr)
    for it in csv.reader(said(*command).splitlines()):
        found.setdefault((it[0], it[1], int(it[2])), []).append((float(it[4]), it[5], it[6]))


def structures(runs):
    """Matrices, sequences, sparse bits and trees beside those of sdsl-lite."""
    made("make", "archive")
    made(*CXX, "-o", ROOM / "structures", BENCH / "structures.cpp", ARCHIVE, *OF_SDSL)
    found = {}
    for _ in range(runs):
        for what in STRUCTURES:
            for log2, rounds in SIZES_OF_ITEMS.items():
                add(found, ROOM / "structures", what, log2, rounds)
    write("structures", found)


def peers(runs):
    """Beside what a program would take in their place."""
    made("make", "archive")
    made(*CXX, "-o", ROOM / "peers", BENCH / "peers.cpp", ARCHIVE, "-lmarisa", "-lroaring")
    found = {}
    for _ in range(runs):
        add(found, ROOM / "peers", "words", WORDS, 15)
        for what in ("keys", "lists"):
            for log2, rounds in SIZES_OF_PEERS.items():
                add(found, ROOM / "peers", what, log2, rounds)
    write("peers", found)


def hashes(runs):
    """Perfect hashes beside those of cmph."""
    made("make", "archive")
    made(*CXX, "-o", ROOM / "cmph", BENCH / "cmph.cpp", ARCHIVE, "-lcmph")
    found = {}
    for _ in range(runs):
        for log2, rounds in SIZES_OF_PEERS.items():
            add(found, ROOM / "cmph", log2, rounds)
    write("hashes", found)


def text(kind, size):
    """A file of `size` letters, drawn at random: words of a list, or the letters of a genome."""
    drawn, path = random.Random(kind), ROOM / f"{kind}.{size}"
    with open(WORDS, encoding="utf-8") as file:
        items = [f"{it} " for it in file.read().split()] if kind == "words" else list("acgt")
    with open(path, "wb") as file:
        while file.tell() < size:
            file.write("".join(drawn.choices(items, k=1 << 16)).encode())
        file.truncate(size)
    return path


def texts(runs):
    """Indexes of texts beside those of sdsl-lite."""
    made("make", "archive")
    made("sh", "-c", "cd crates/program_bitm && rt run < /dev/null || test -x out/program_bitm")
    made(*CXX, "-o", ROOM / "texts", BENCH / "texts.cpp", ARCHIVE, *OF_SDSL)
    found, program = {}, TOP / "crates/program_bitm/out/program_bitm"
    files = {(kind, log2): text(kind, 1 << log2) for kind in TEXTS for log2 in SIZES_OF_TEXTS}
    for _ in range(runs):
        for (kind, log2), path in files.items():
            add(found, ROOM / "texts", kind, path, program, SIZES_OF_TEXTS[log2])
    write("texts", found)


def mapped(runs):
    """Blocks in mapped files."""
    made("make", "archive")
    made(*CC, "-o", ROOM / "mapped", BENCH / "mapped.c", ARCHIVE)
    found = {}
    for _ in range(runs):
        for kind in BLOCKS:
            add(found, ROOM / "mapped", kind, BITS_OF_BLOCK, 5)
    write("mapped", found)


def limits(runs):
    """Beside what memory allows."""
    made("make", "archive")
    made(*CC, "-o", ROOM / "limits", BENCH / "limits.c", ARCHIVE)
    found = {}
    for _ in range(runs):
        for log2 in (20, 28, 30):
            for pages in ([], ["huge"]):
                for it in csv.reader(said(ROOM / "limits", log2, 5 if log2 > 24 else 40, *pages).splitlines()):
                    found.setdefault((it[0], it[1], log2), []).append((float(it[4]), it[5], it[6]))
    write("limits", found)


def javascript(runs):
    """Beside what one writes without a library, in 32-bit memory and in 64-bit memory, for which older Nodes need a flag."""
    flag, found = "--experimental-wasm-memory64", {}
    flags = [flag] if subprocess.run(["node", flag, "-e", "0"], stderr=subprocess.DEVNULL).returncode == 0 else []
    for _ in range(runs):
        for form in (32, 64):
            for it in csv.reader(said("node", *flags, BENCH / "calls.mjs", 20, 400, form).splitlines()):
                if len(it) == 7:
                    found.setdefault((it[0], f'"{it[1]}, {form}-bit"', 20), []).append((float(it[4]), it[5], it[6]))
    write("javascript", found)


def space(_):
    """How much memory each structure takes."""
    (PLOTS / "space.csv").write_text("row,by,log2,kind,value,unit,check\n" + said("node", BENCH / "space.mjs"), encoding="utf-8")


def main(arguments):
    what, rest = arguments[0] if arguments else "", arguments[1:]
    folder = [rest.pop(0)] if what == "original" and rest else []
    known = folder or what in ("sdsl", "structures", "peers", "hashes", "texts", "limits", "mapped", "javascript", "space")
    if not known or len(rest) > 1 or not all(it.isdigit() for it in rest):
        print(__doc__)
        return 2
    ROOM.mkdir(exist_ok=True)
    measure = {"original": original, "sdsl": sdsl, "structures": structures, "peers": peers, "hashes": hashes, "texts": texts, "limits": limits,
               "mapped": mapped, "javascript": javascript, "space": space}
    measure[what](*folder, int(rest[0]) if rest else 3)
    said(BENCH / "page")
    return 0


if __name__ == "__main__":
    sys.exit(main(sys.argv[1:]))
