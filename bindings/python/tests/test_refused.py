"""Memory is refused, request after request, while each call runs: it raises MemoryError, or answers right, and answers right afterwards.
Requests of Python's are refused by _testcapi, which not each Python has; those of the extension's by refusing.h, where it was built with
that (`SANITIZED=1 tests/each` does)."""
import array
import copy
import ctypes
import gc
import io
import pickle

import pytest

import bitm
from bitm import BitVector, Dictionary, EliasFano, Index, PerfectHash, SparseBits, Strings, TextIndex, Tree, Trie, WaveletMatrix

WORDS = array.array("Q", [0x5555, 2**64 - 1] * 40)
VECTOR = BitVector.from_words(WORDS)
INDEX, SPARSE = Index(VECTOR, sample_log2=7), SparseBits([3, 100], 5000)
NUMBERS, MATRIX = EliasFano(range(0, 900, 3)), WaveletMatrix([3, 1, 4, 1, 5] * 30)
TREE, TRIE, TEXT = Tree([2, 0, 1, 0]), Trie.of_words(["a", "b", "be"]), TextIndex(b"banana" * 9)
KEYS, SEEDED, SQUARES, NAMES = PerfectHash(range(30)), PerfectHash(range(30), tries=3), Dictionary([4, 9, 49]), Strings(["ada", "bob"])
BLOCK = bytes(TREE.block)
NOTED = bitm.extend(BLOCK, {65536: b"note"})
VALUES = (INDEX, NUMBERS, SPARSE, MATRIX, TREE, TRIE, TEXT, KEYS, SEEDED, SQUARES, NAMES)
FILES = [bytes(it.block) for it in VALUES]


FEW_BITS, EVEN_BITS, LONG = slice(0, 5), slice(0, 9, 2), 10**5000


class Sub(BitVector):
    pass


def noted(done, total):
    """A progress that requests memory."""
    return [done] * 99 + [total]


def changed(change):
    made = VECTOR.copy()
    change(made)
    return made


def saved(value):
    file = io.BytesIO()
    value.save(file)
    return file.getvalue()


def of_vectors():
    yield from (lambda: BitVector(1000), lambda: BitVector.from_bits("01" * 300), lambda: BitVector.from_bits(iter([1] * 300)))
    yield from (lambda: BitVector.from_words(WORDS), lambda: BitVector.from_words(b"abc"), lambda: BitVector.from_indices(iter([1, 2, 3]), 999))
    yield from (lambda: Sub.from_bits("011"), lambda: Sub.from_words(WORDS), lambda: Sub.from_indices([5]), lambda: BitVector.from_bits(VECTOR))
    yield from (VECTOR.copy, lambda: VECTOR & VECTOR, lambda: ~VECTOR, lambda: VECTOR << 3, lambda: VECTOR + VECTOR, lambda: VECTOR[3:900:2], lambda: VECTOR[5:])
    yield from (lambda: list(VECTOR.words), VECTOR.tobytes, lambda: list(VECTOR.ones(0, 300)), lambda: repr(VECTOR), lambda: VECTOR == VECTOR.copy())
    for change in (lambda it: it.extend([1, 0] * 99), lambda it: it.append(1), lambda it: it.insert(3, 1), lambda it: it.set_list([1, 2, 3]), lambda it: it.pop(0),
                   lambda it: it.__setitem__(FEW_BITS, "101"), lambda it: it.__delitem__(EVEN_BITS)):
        yield lambda change=change: changed(change)


def of_bits():
    yield from (lambda: Index(WORDS, sample_log2=7), lambda: Index(b"123", 20), lambda: INDEX.rank_list([1, 2, 3]), lambda: INDEX.select_list(iter([1, 10**9])))
    yield from (lambda: INDEX.select_list([1], missing="error"), lambda: INDEX.rank_list(WORDS[:0]), lambda: list(INDEX.words), lambda: INDEX[3:99], lambda: INDEX[::3])
    yield from (lambda: list(INDEX.zeros(0, 99)), lambda: repr(INDEX), lambda: copy.copy(INDEX), INDEX.check, INDEX.count)
    yield from (lambda: SparseBits([1, 2]), lambda: SPARSE.positions, lambda: SPARSE.get_list([1, 3]), lambda: list(SparseBits([1], 5)), lambda: 0 in SPARSE)
    yield from (lambda: bitm.tables_of(WORDS), lambda: bytes(INDEX.block), lambda: bitm._core.ShardSet(array.array("Q", [0, 5]), array.array("Q", [0, 2])).rank_list(1, [0]))


def of_numbers():
    yield from (lambda: EliasFano([1, 2, 3]), lambda: EliasFano(iter([1, 2])), lambda: list(NUMBERS), lambda: NUMBERS[2:50:3], lambda: NUMBERS[2:], lambda: NUMBERS.get_list([1, 2]))
    yield from (lambda: NUMBERS.contains_list([1, 3]), lambda: list(NUMBERS.from_value(800)), lambda: list(reversed(NUMBERS))[:3], lambda: NUMBERS.cursor().next_geq(8))
    yield from (lambda: bitm.union([NUMBERS, NUMBERS]), lambda: bitm.intersect([NUMBERS, NUMBERS]), lambda: NUMBERS.union(NUMBERS), lambda: NUMBERS.intersection(NUMBERS))
    yield from (lambda: list(map(bytes, NUMBERS.parts[1:])), lambda: 6.0 in NUMBERS, lambda: repr(NUMBERS), lambda: bytes(SPARSE.positions.block), lambda: NUMBERS == copy.copy(NUMBERS))
    yield from (lambda: WaveletMatrix([3, 1, 4]), MATRIX.distinct, lambda: MATRIX.top(3), lambda: MATRIX.intersect(0, 9, 3, 20), lambda: MATRIX[2:30:3])
    yield from (lambda: MATRIX.rank_list([1, 3], [5, 9]), lambda: MATRIX.select_list([1, 3], [5, 9]), lambda: MATRIX.index(4), lambda: NUMBERS.index(6))


def of_others():
    yield from (lambda: Tree([2, 0, 1, 0]), lambda: TREE.children(0), lambda: TREE.parent_list([0, 1]), lambda: TREE.child_list([0, 0], [0, 1]), lambda: Tree.over(BLOCK))
    yield from (lambda: Trie.of_words(["a", "bc"]), lambda: Trie([1, 0], b"a", ends=BitVector.from_bits("01")), lambda: TRIE.find("be"), lambda: TRIE.word(3), lambda: TRIE.longest([98, 101]))
    yield from (lambda: TextIndex(b"banana"), lambda: TEXT.find_all(b"ana"), lambda: TEXT[1:30:2], lambda: TEXT.locate(b"ana", 1, 2), lambda: TextIndex.of_letters([1, 2, 300], 301))
    yield from (lambda: PerfectHash(["a", "b", 5]), lambda: PerfectHash(["a", "b"], tries=2), lambda: PerfectHash(["a"], hash="blake2b"), lambda: KEYS.get_list([1, 2, "x"]), lambda: KEYS.get(2**100))
    yield from (lambda: PerfectHash(["a", "b", 5], progress=noted), lambda: PerfectHash(["a", "b"], tries=2, progress=noted), lambda: Strings(["a", "b"], progress=noted))
    yield from (lambda: WaveletMatrix([3, 1, 4], progress=noted), lambda: TextIndex(b"banana", progress=noted), lambda: TextIndex.of_letters([1, 2], 3, progress=noted))
    yield from (lambda: Dictionary([4, 9]), lambda: list(SQUARES.keys), lambda: SQUARES.get_list([1, 49]), lambda: Strings(["a", "b"]), lambda: NAMES[0:2], lambda: NAMES.find_list(["ada", b"x"]))
    yield from (lambda: bitm.extend(BLOCK, {65536: b"abc"}), lambda: [bytes(it) for _, it in bitm.sections(NOTED)], lambda: bitm.is_written(NOTED))
    for value, data in zip(VALUES, FILES):
        yield from (lambda value=value: saved(value), lambda data=data: bitm.loads(data), lambda data=data: bitm.loads(data).check(), lambda value=value: pickle.loads(pickle.dumps(value, 5)))
    wrong = Index.over(WORDS, *map(array.array, "QQ", map(bytes, bitm._core.parts(Index(WORDS))[1][1:3])))
    yield lambda: bytes(wrong.block)
    for refused in (lambda: INDEX.rank(10**9), lambda: INDEX.rank_list([1, -1]), lambda: EliasFano([3, 1]), lambda: BitVector(5).next_one(LONG),
                    lambda: PerfectHash([1, 1]), lambda: PerfectHash(iter("aa")), lambda: Dictionary([1, 1]), lambda: Strings(["a", "a"]), lambda: SparseBits([3, 3]),
                    lambda: WaveletMatrix([9], width=3), lambda: WaveletMatrix([9], width=3, progress=noted), lambda: Trie([1, 0], [300]), lambda: Tree([0, 0]),
                    lambda: TextIndex.of_letters([5], 3), lambda: bitm._core.trie_of_sorted(Trie, b"ba", [0, 1, 2]), lambda: bitm.loads(b"x" * 900)):
        yield lambda refused=refused: refusal(refused)


def that_make_functions():
    """3.12.1 and 3.13.0 themselves end where memory for a function is refused, so only the extension's requests are."""
    yield from (lambda: copy.deepcopy(INDEX), lambda: bytes(bitm.section(NOTED, 65536)), lambda: refusal(lambda: INDEX.rank(10**9)))


def refusal(call):
    """The exception that a call raises, unless memory is refused: then Python's own may have lost it, or its text."""
    try:
        call()
    except (MemoryError, SystemError):
        raise MemoryError from None
    except Exception as error:
        return type(error)


def said(answer):
    """What is compared: of a value its block, or its bits."""
    if isinstance(answer, VALUE):
        return bytes(answer.block)
    return (type(answer), answer.tobytes(), len(answer)) if isinstance(answer, BitVector) else answer


VALUE = tuple(map(type, VALUES))
KINDS = (of_vectors, of_bits, of_numbers, of_others, that_make_functions)
ALL = {kind: [pytest.param(call, id=f"{kind.__name__}-{at}") for at, call in enumerate(kind())] for kind in KINDS}
FEW = 12  # requests that are let pass before a call counts as one that makes no more


def refused_in_turn(call, refuse, forget):
    """Each request of a call is refused, until some in a row make no difference."""
    right, passed, at = said(call()), 0, 0
    while passed < FEW:
        refuse(at)
        try:
            answer = call()
        except MemoryError:
            passed = 0
        except pickle.PicklingError:  # so pickle says that memory is refused
            passed = 0
        else:
            passed += 1
            forget()
            assert said(answer) == right, at
        finally:
            forget()
        at += 1
    assert said(call()) == right
    return at - FEW


@pytest.mark.parametrize("call", [call for kind in KINDS[:-1] for call in ALL[kind]])
def test_requests_of_python_are_refused(call):
    testcapi = pytest.importorskip("_testcapi")
    gc.disable()  # which would request too, and tell of what it cannot raise
    try:
        assert refused_in_turn(call, lambda at: testcapi.set_nomemory(at, at + 1), testcapi.remove_mem_hooks) >= 0
    finally:
        gc.enable()


@pytest.mark.parametrize("call", [call for kind in KINDS for call in ALL[kind]])
def test_requests_of_the_extension_are_refused(call):
    library = ctypes.CDLL(bitm._core.__file__)
    if not hasattr(library, "bitm_refused_at"):
        pytest.skip("the extension is built without tests/refusing.h")
    requests, refused = (ctypes.c_long.in_dll(library, name) for name in ("bitm_requests", "bitm_refused_at"))

    def refuse(at):
        requests.value, refused.value = 0, at + 1

    def forget():
        refused.value = 0

    refused_in_turn(call, refuse, forget)
