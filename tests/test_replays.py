"""The program test_original on a few lines whose values are worked out by hand: it has to pass right answers, to report
wrong ones, and to compare a rank at the exact length with the total."""
import pytest
from programs import LARGE, run, written

TWO = "content two 2 d 6"
# What the lines are, the status, how many ranks at the exact length there are, the lines.
# 5 ones before each later record: 5 * 2^32 + 5 * 2^43 + 5 * 2^54.
ROWS = [
    ("entries at places", 0, 0, [TWO, "l2at two 0:140280500000000 1:-"]),
    ("another entry", 1, 0, [TWO, "l2at two 0:140280500000001"]),
    ("an entry too many", 1, 0, [TWO, "l2at two 1:0"]),
    ("the exact length", 0, 4, [TWO, "ones two 5", "rank two 127:5 128:- 129:-", "rank0 two 128:- 129:-"]),
    ("another total", 1, 2, [TWO, "ones two 4", "rank two 128:-"]),
    ("another total of zeros", 1, 2, [TWO, "ones two 4", "rank0 two 128:-"]),
    ("an answer at the exact length", 0, 0, [TWO, "ones two 5", "rank two 128:5"]),
    ("a wrong answer there", 1, 0, [TWO, "ones two 5", "rank two 128:4"]),
    ("no answer before it", 1, 0, [TWO, "ones two 5", "rank two 127:-"]),
    ("no line of the ones", 1, 0, [TWO, "rank two 128:-"]),
    ("the ones of another content", 1, 0, [TWO, "ones other 5"]),
    ("a sample", 0, 0, [TWO, "samples two c7 1 7 0 / 0"]),
    ("another sample", 1, 0, [TWO, "samples two c7 1 7 0 / 1"]),
    ("another start", 1, 0, [TWO, "samplesat two c7 1 7 1 1 / 0:0"]),
]
# Bit vectors of two upper blocks, which take some 2 GB of memory.
LARGE_ROWS = [
    # 2^26 words with bit 0, which are one part of 2^21 entries, and two words more: 2^26 and 5 ones. An entry of the
    # first part has 8 ones in each record and 32 before each later entry; the one of the second has 5, 5, 5 and none.
    # Half an interval of 128 ones is 64 words, which are two entries: 2 * 2^21 in a sample.
    ("two parts", 0, 4, [
        "content parts 67108866 1*67108864 d 6", "ones parts 67108869", "l1 parts 0 67108864",
        "l2at parts 0:200801800000000 1:200801800000020 2097151:200801803ffffe0 2097152:140280500000000 2097153:-",
        "rank parts 4294967296:67108864 4294967298:67108865 4294967424:- 4294967425:-", "rank0 parts 4294967424:-",
        "select parts 67108863:4294967232 67108864:4294967296 67108868:4294967362 67108869:-",
        "select0 parts 4227858431:4294967295 4227858432:4294967297 4227858554:4294967423 4227858555:-",
        "samplesat parts c7 1 7 524289 0 524288 / 0:400000 524288:0", "samplesat parts c7 0 7 33030145 0 33030144 / 0:0"]),
    # More ones than a simple rank can number: that one is passed over. 128 in each record of the last entry.
    ("all ones", 0, 1, ["content ones 67108866 ffffffffffffffff*67108866", "ones ones 4294967424",
                        "l2at ones 2097152:2004008000000000", "rank ones 4294967300:4294967300 4294967424:-"]),
]


@pytest.mark.parametrize("status, ranks, lines", [pytest.param(*it, id=name) for name, *it in ROWS + LARGE_ROWS * LARGE])
def test_replay(status, ranks, lines, request):
    made = run("test_original", written(request.node.callspec.id, lines))
    said = made.out.splitlines()[-1].split(":")[1].split(",")[0]
    assert (made.status, made.blocks, said) == (status, 0, f" {ranks} ranks")
