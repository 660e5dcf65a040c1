"""Sequences of numbers as sets: what all of several have, and what any of them has. Cursors of the library move over them."""
from typing import TYPE_CHECKING, Any, Iterable, List, Literal, Optional, SupportsIndex, overload

from . import _blocks, _core

if TYPE_CHECKING:
    from ._core import EliasFano
    from ._core_types import _Answers


def _answer(window: Any, to_numpy: bool) -> Any:
    if not to_numpy:
        return memoryview(window).tolist()
    import numpy

    return numpy.asarray(window)


@overload
def intersect(sequences: "Iterable[EliasFano]", start: SupportsIndex = 0, limit: Optional[SupportsIndex] = None, *,
              to_numpy: Literal[False] = False) -> List[int]: ...


@overload
def intersect(sequences: "Iterable[EliasFano]", start: SupportsIndex = 0, limit: Optional[SupportsIndex] = None, *,
              to_numpy: Literal[True]) -> "_Answers": ...


def intersect(sequences: Any, start: Any = 0, limit: Any = None, *, to_numpy: bool = False) -> Any:
    """The numbers from start on that each of the sequences has, ascending and each once, the first `limit` of them: a list, or
    an array of uint64. ValueError where there is no sequence. Two sequences of about the same length are read side by side;
    else each number of the shortest one is looked up by cursors over the others. Other threads run meanwhile.

    >>> odd, primes = EliasFano([1, 3, 5, 7, 9, 11]), EliasFano([2, 3, 5, 7, 11])
    >>> intersect([odd, primes]), intersect([odd, primes], 4, 2)
    ([3, 5, 7, 11], [5, 7])
    """
    return _answer(_core.cursors_merged(True, tuple(sequences), start, limit), to_numpy)


@overload
def union(sequences: "Iterable[EliasFano]", start: SupportsIndex = 0, limit: Optional[SupportsIndex] = None, *,
          to_numpy: Literal[False] = False) -> List[int]: ...


@overload
def union(sequences: "Iterable[EliasFano]", start: SupportsIndex = 0, limit: Optional[SupportsIndex] = None, *,
          to_numpy: Literal[True]) -> "_Answers": ...


def union(sequences: Any, start: Any = 0, limit: Any = None, *, to_numpy: bool = False) -> Any:
    """The numbers from start on that any of the sequences has, ascending and each once, the first `limit` of them: a list, or
    an array of uint64. Two sequences are read side by side; else each number that is found moves a cursor over each sequence at
    most once. Other threads run meanwhile.

    >>> union([EliasFano([2, 3, 5]), EliasFano([3, 4]), EliasFano([])])
    [2, 3, 4, 5]
    """
    return _answer(_core.cursors_merged(False, tuple(sequences), start, limit), to_numpy)


def _intersection(self: Any, *others: Any) -> "_core.EliasFano":
    """The numbers that are in this sequence and in each other one, each once, in a new one, as `intersect` gives them; but the
    shortest one is checked.

    >>> list(EliasFano([2, 3, 5]).intersection(EliasFano([3, 4, 5]), EliasFano([5, 5, 6])))
    [5]
    """
    window = _core.cursors_merged(True, (self, *others), 0, None)
    if not min((self, *others), key=len).check():
        raise _core.WrongTables("the parts form no sequence")
    return _core.EliasFano(window)


def _union(self: Any, *others: Any) -> "_core.EliasFano":
    """The numbers that are in this sequence or in any other one, each once, in a new one. Needs memory for all numbers of
    all sequences, twice.

    >>> list(EliasFano([2, 3, 5]).union(EliasFano([3, 4, 5]), EliasFano([5, 5, 6])))
    [2, 3, 4, 5, 6]
    """
    return _core.EliasFano(_core.sequence_merged(self, *others))


def complete() -> None:
    """Gives sequences those methods that stand here."""
    _blocks.give(_core.EliasFano, "intersection", _intersection)
    _blocks.give(_core.EliasFano, "union", _union)
