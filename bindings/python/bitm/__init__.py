"""Bit vectors with rank and select, sparse bits, monotone integer sequences (Elias-Fano), lists of numbers in any order (wavelet matrices),
indexes of texts, minimal perfect hashes, dictionaries of numbers and strings, trees (LOUDS) and tries, over a library proved correct.

>>> import bitm
>>> bits = bitm.BitVector.from_indices([1, 3, 4, 6], 7)
>>> index = bitm.Index(bits)
>>> index.rank(4), index.select(2), index.select0(1)
(2, 4, 2)
>>> primes = bitm.EliasFano([2, 3, 5, 7, 11, 13])
>>> primes.first_at_least(8), primes[4]
(4, 11)

The answers come from the C library, where they are proved to be plain counting. The additions of this package (checks of
arguments, Python's conventions) are tested.
"""
from collections import abc as _abc
from typing import List as _List

from . import _blocks, _more, _shard_docs
from ._core import BitVector, Cursor, Dictionary, EliasFano, Index, OtherKind, PerfectHash, SparseBits, Strings, TextIndex, Tree, Trie, \
    WaveletMatrix, WrongTables
from ._files import load, loads
from ._more import tables_of
from ._sections import extend, is_written, section, sections
from ._sets import intersect, union
from .shards import ShardError, Shards

__version__ = "0.3.0"
__all__ = [
    "BitVector", "Cursor", "Dictionary", "EliasFano", "Index", "OtherKind", "PerfectHash", "ShardError", "Shards", "SparseBits", "Strings",
    "TextIndex", "Tree", "Trie", "WaveletMatrix", "WrongTables", "extend", "intersect", "is_written", "load", "loads", "section", "sections",
    "tables_of", "union",
]

_more.complete()
_shard_docs.complete(Shards)
_blocks.publish({name: globals()[name] for name in __all__})
_abc.Sequence.register(Index)
_abc.Sequence.register(EliasFano)
_abc.Sequence.register(WaveletMatrix)
_abc.MutableSequence.register(BitVector)


def __dir__() -> _List[str]:
    """What a user imports, and not what the package imports itself."""
    return [name for name in globals() if name in __all__ or name.startswith("__")]
