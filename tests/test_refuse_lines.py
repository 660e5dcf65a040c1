"""The program bitm_vectors on lists of lines, once for each of its requests for memory, with that request refused.

Before the lines, a refused request ends with status 2 and the text of a file that cannot be read; but the room for a buffer
and for a list of arguments can be done without. Those for the file's bytes are after the last one of a run over a file that
is not there, and each ends with status 2. A request of a line makes one `no memory`, in that line, and the answers that
follow from it; the lines come in order."""
import pytest
from programs import room, run, written

FULL = "words" + 70 * f" {2**64 - 1:x}"  # several lower entries and samples
# Lists of lines, and what is answered where no line is refused (0), and where line 1, 2, .. is.
LISTS = {
    # a vector that is refused leaves the index that was built
    "vectors": (["words 5", "build simple", "words 7", "rank 3", "build sampled", "build binary", "rank 1", "bits 0 3"], {
        0: "ok 1,ones 2,ok 1,not built,ones 3,ones 3,1,7", 1: "no memory,ones 0,ok 1,not built,ones 3,ones 3,1,7",
        2: "ok 1,no memory,ok 1,not built,ones 3,ones 3,1,7", 3: "ok 1,ones 2,no memory,2,ones 2,ones 2,1,5",
        5: "ok 1,ones 2,ok 1,not built,no memory,ones 3,1,7", 6: "ok 1,ones 2,ok 1,not built,ones 3,no memory,not built,7"}),
    # an index that is refused leaves the vector, and none is built then, though one was
    "indexes": (["words 5", "build simple", "build binary", "rank 1", "bits 0 3"], {
        0: "ok 1,ones 2,ones 2,1,5", 1: "no memory,ones 0,ones 0,none,none", 2: "ok 1,no memory,ones 2,1,5",
        3: "ok 1,ones 2,no memory,not built,5"}),
    "several": (["words 1", FULL, "build sampled", "select 4479", "select0 0", "build binary", "select 4479", "rank 4480"], {
        0: "ok 1,ok 70,ones 4480,4479,none,ones 4480,4479,4480", 1: "no memory,ok 70,ones 4480,4479,none,ones 4480,4479,4480",
        2: "ok 1,no memory,ones 1,none,1,ones 1,none,none", 3: "ok 1,ok 70,no memory,not built,not built,ones 4480,4479,4480",
        6: "ok 1,ok 70,ones 4480,4479,none,no memory,not built,not built"}),
}
TOLD = (2, "", "bitm_vectors: cannot read the file\n")
FILES = {name: written(name, lines) for name, (lines, _) in LISTS.items()}
BEFORE = run("bitm_vectors", room() / "missing").requests
AMPLE = {name: run("bitm_vectors", file) for name, file in FILES.items()}
REQUESTS = [(name, n) for name, it in AMPLE.items() for n in range(1, it.requests + 1)]


def refused(name, n):
    return run("bitm_vectors", FILES[name], REFUSE=n)


def outcome(name, made):
    """`told`, or which line was refused by the answers, 0 for none; None for anything else."""
    if (made.status, made.out, made.err) == TOLD:
        return "told"
    lines = {answers: line for line, answers in LISTS[name][1].items()}
    return lines.get(",".join(made.out.splitlines())) if (made.status, made.err) == (0, "") else None


def outcomes(name, numbers):
    return [outcome(name, refused(name, n)) for n in numbers]


@pytest.mark.parametrize("name", LISTS)
def test_ample_memory(name):
    assert (outcome(name, AMPLE[name]), AMPLE[name].blocks) == (0, 0)


@pytest.mark.parametrize("name, n", REQUESTS)
def test_all_memory_is_given_back(name, n):
    assert refused(name, n).blocks == 0


@pytest.mark.parametrize("name, n", REQUESTS)
def test_outcome(name, n):
    found, earlier = outcomes(name, [n])[0], outcomes(name, range(BEFORE + 1, n))
    if n <= BEFORE:
        assert found in (0, "told")
    elif found == "told":
        assert set(earlier) <= {"told"}
    else:
        assert found > 0 and found >= max((it for it in earlier if it not in ("told", None)), default=0)


@pytest.mark.parametrize("name, line", [(name, line) for name, (_, answers) in LISTS.items() for line in answers if line])
def test_each_line_is_refused_once(name, line):
    assert line in outcomes(name, range(BEFORE + 1, AMPLE[name].requests + 1))


@pytest.mark.parametrize("name", LISTS)
def test_room_for_a_buffer_can_be_done_without(name):
    assert outcomes(name, [BEFORE]) == [0]


@pytest.mark.parametrize("name", LISTS)
@pytest.mark.parametrize("found, is_before", [(0, True), ("told", True), ("told", False)])
def test_each_request_beside_the_lines_is_refused_once(name, found, is_before):
    """Those that can be done without, those for arguments, and those for the bytes of the file."""
    assert found in outcomes(name, range(1, BEFORE + 1) if is_before else range(BEFORE + 1, AMPLE[name].requests + 1))
