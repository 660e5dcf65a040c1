"""What the program bitm says of its commands, `bitm --help` and the like, beside docs/PROGRAM.md and VERSION; each example that
it shows is run, and does what its line says."""
import re
import subprocess

import pytest
from checks import TOP, read
from programs import built, room

PROGRAM = built("program_bitm")
USAGE = "usage: bitm build KIND | bitm query [--json] BLOCK"
# The commands, as that page lists them.
PART = read("docs/PROGRAM.md").split("\n## The program `bitm`\n")[1]
SHOWN = re.findall(r"^    (bitm [a-z].*)$", PART.partition("`build` and `query`")[0], re.M)


def plain(command):
    """A command without what it reads and writes."""
    return re.sub(r" [<>] [A-Z]+", "", command)


COMMANDS = [plain(it) for it in SHOWN]
TOPICS = ["build", "query", "check", "info", "text", "strings"]
# The words of an example, and what it writes: of every seventh number below 1000, of the book, words and names below.
BOOK = "A whale is no fish.\nThe sea is wide.\nOne whale, two whales.\n"
WORDS, NAMES = "sea\nwhale\n", "ada\nbob\neve\n"
SAYS = {
    "seq 0 7 1000 | bitm build bits > sevens.block": "",
    "echo 'rank 100' | bitm query sevens.block": "15\n",
    "bitm check sevens.block": "good\n",
    "bitm info sevens.block": r"kind bits\nlen 995\nwidth 0\nbytes \d+\nbits_per_item \d+\.\d\d\n",
    "bitm text build < book.txt > book.block": "",
    "bitm text count whale book.block": "3\n",
    "bitm text count -f words.txt book.block": "1\n3\n",
    "bitm text locate whale book.block": "2\n41\n52\n",
    "bitm text locate -f words.txt book.block": "2\n24\n41\n52\n",
    "bitm text lines whale book.block": "1\n3\n",
    "bitm text lines -f words.txt book.block": "1\n2\n3\n",
    "bitm strings build < names.txt > names.block": "",
    "echo ada | bitm strings find names.block": "1\n",
    "bitm info --json sevens.block": r'\{"kind":"bits","len":995,"width":0,"bytes":\d+,"bits_per_item":\d+\.\d\d\}\n',
    "bitm query --help": r"bitm query BLOCK(?s:.*)",
    "bitm --help": r"bitm builds(?s:.*)",
    "bitm --version": r"bitm \d+\.\d+\.\d+\n",
}


def bitm(*arguments):
    """The status, and what is written."""
    made = subprocess.run([PROGRAM, *arguments], stdin=subprocess.DEVNULL, capture_output=True, text=True, check=False)
    return made.returncode, made.stdout, made.stderr


def told(*arguments):
    status, out, err = bitm(*arguments)
    assert (status, err) == (0, "")
    return out


@pytest.fixture(scope="module")
def folder():
    """A folder with the files that the examples read, and the program as `bitm`."""
    made = room() / "helped"
    made.mkdir(exist_ok=True)
    (made / "book.txt").write_text(BOOK)
    (made / "words.txt").write_text(WORDS)
    (made / "names.txt").write_text(NAMES)
    (made / "bitm").symlink_to(PROGRAM)
    return made


def by_shell(line, folder):
    made = subprocess.run(["bash", "-c", f"PATH={folder}:$PATH; {line}"], cwd=folder, capture_output=True, text=True, check=False)
    return made.returncode, made.stdout, made.stderr


@pytest.mark.parametrize("command", COMMANDS)
def test_help_has_the_command(command):
    """`--help` has each command with an example below it; its own help begins with it."""
    lines = told("--help").split("\n")
    named = [plain(re.split("  +", it.strip())[0]) for it in lines]
    words = re.match(r"bitm ((?:[a-z]+ ?)+)", command)[1].strip()
    assert f"bitm {words} " in lines[named.index(command) + 1]
    assert command in map(plain, told(*words.split(), "--help").split("\n"))


@pytest.mark.parametrize("word", TOPICS)
def test_ways_to_ask(word):
    wanted = told(word, "--help")
    assert wanted.startswith(f"bitm {word} ")
    assert told(word, "-h") == told("help", word) == wanted
    assert told("--help") == told("-h") == told("help") != wanted


@pytest.mark.parametrize("arguments", [("text", "count"), ("text", "build"), ("strings", "find")])
def test_two_words(arguments):
    assert told(*arguments, "--help") == told(*arguments, "-h") == told(arguments[0], "--help")


def test_version():
    assert told("--version") == f"bitm {(TOP / 'VERSION').read_text().strip()}\n"


def test_examples(folder):
    """Those of `--help` in their order, and then those of each command, of which the first two files may be made anew."""
    shown = re.findall(r"^    (\S.*)$", told("--help"), re.M)
    assert shown == list(SAYS)
    for word in TOPICS:
        shown += re.findall(r"^  (\S.*)$", told(word, "--help").rpartition("\n\n")[2], re.M)
    for line in shown:
        status, out, err = by_shell(line, folder)
        assert (status, err) == (0, "") and re.fullmatch(SAYS[line], out), line


def test_no_command():
    for arguments in ([], ["halp"], ["--halp"], ["help", "halp"], ["halp", "--help"], ["--version", "more"]):
        status, out, err = bitm(*arguments)
        assert (status, out) == (2, "") and err.startswith("usage: bitm "), arguments
    assert bitm()[2].startswith(USAGE)


def test_file_named_as_help(folder):
    """Such a file has to be named with its folder."""
    (folder / "--help").write_bytes(b"no block")
    assert by_shell("bitm check ./--help", folder) == (1, "wrong\n", "")
    assert by_shell("bitm check --help", folder)[1].startswith("bitm check BLOCK")
    (folder / "--help").unlink()


@pytest.mark.parametrize("asked", ["--help", "--version", "text --help"])
@pytest.mark.parametrize("output", ["> /dev/full", ">&-"])
def test_output_that_fails(folder, asked, output):
    assert by_shell(f"bitm {asked} {output}", folder) == (2, "", "bitm: cannot write\n")
