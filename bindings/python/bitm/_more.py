"""What is not a hot path: pickles, and NumPy where the caller has it. NumPy is imported only by calls that answer in arrays:
calls with that name, and calls that are passed an array."""
import array
import hashlib
import itertools
import operator
import pickle
from typing import Any, Callable, Optional, Tuple

from . import _blocks, _core, _sets
from ._blocks import give
from ._files import save


# ---- tables


def tables_of(words: Any) -> Tuple["array.array[int]", "array.array[int]", int]:
    """Both tables of a buffer of words, in two new arrays, and the number of 1 bits: what `Index.over` takes.

    >>> upper, lower, ones = tables_of(b"\x5a" * 8)
    >>> len(upper), len(lower), ones
    (1, 1, 32)
    """
    index = _core.Index(words)
    _, (_, upper, lower, *_) = _core.parts(index)
    return array.array("Q", bytes(upper)), array.array("Q", bytes(lower)), index.count()


# ---- NumPy


def array_of(window: Any, is_masked: bool = False, is_bool: bool = False) -> Any:
    """Answers as an array: plain, or masked where there is none, or bools."""
    import numpy

    answers = numpy.asarray(window)
    if is_bool:
        return answers.astype(bool)
    masked: Any = numpy.ma.masked_array
    return masked(answers, answers == numpy.uint64(2**64 - 1)) if is_masked else answers


def is_whole(keys: Any) -> bool:
    return bool(keys.ndim == 1 and keys.dtype.kind in "iu")


def packed_bits(bits: Any) -> Tuple[bytes, int]:
    """The bits of an array of bools or numbers, eight in a byte, and how many they are."""
    import numpy

    if bits.ndim != 1 or bits.dtype.kind not in "biuf":
        raise TypeError(f"a flat array of bools is needed, not one of {bits.ndim} dimensions of {bits.dtype}")
    packed: Any = numpy.packbits(bits.astype(bool, copy=False), bitorder="little")
    return packed.tobytes(), len(bits)


def _unpacked(data: bytes, length: int) -> Any:
    import numpy

    return numpy.unpackbits(numpy.frombuffer(data, dtype=numpy.uint8), count=length, bitorder="little").view(bool)


def _as(answers: Any, dtype: Any, copy: Optional[bool]) -> Any:
    if copy is False:
        raise ValueError("this can be an array only as a copy")
    return answers if dtype is None else answers.astype(dtype, copy=False)


def vector_to_numpy(self: Any) -> Any:
    """The bits as a new array of bools. (The buffer of a BitVector is its words: `numpy.asarray` gives these.)

    >>> BitVector.from_bits("0101").to_numpy()
    array([False,  True, False,  True])
    """
    return _unpacked(self.tobytes(), len(self))


def index_to_numpy(self: Any, dtype: Any = None, copy: Optional[bool] = None) -> Any:
    """The bits as a new array of bools, or of dtype. ValueError for copy=False.

    >>> Index(BitVector.from_bits("0101")).to_numpy()
    array([False,  True, False,  True])
    """
    return _as(vector_to_numpy(self[:]), dtype, copy)


def sequence_to_numpy(self: Any, dtype: Any = None, copy: Optional[bool] = None) -> Any:
    """All numbers as a new array of uint64, or of dtype. ValueError for copy=False.

    >>> EliasFano([2, 3, 2**64 - 1]).to_numpy()
    array([                   2,                    3, 18446744073709551615],
          dtype=uint64)
    """
    return _as(array_of(_core.sequence_window(self)), dtype, copy)


# ---- values over memory that exists already


def index_over(cls: Any, words: Any, upper: Any, lower: Any, length: Any = None) -> Any:
    """An index over tables that exist already, in buffers that it holds. ValueError where they have not the lengths that the
    words need; their contents are not looked at: call `check`.

    >>> words = b"\x5a" * 8
    >>> upper, lower, _ = tables_of(words)
    >>> Index.over(words, upper, lower).check()
    True
    """
    if length is None:
        length = len(words) if isinstance(words, _core.BitVector) else 8 * memoryview(words).nbytes
    return _core.over(cls, (length, 0, 0), (words, upper, lower, b"", b"", b"", b""))


def sequence_over(cls: Any, length: Any, width: Any, low: Any, words: Any, upper: Any, lower: Any) -> Any:
    """A sequence over parts that exist already, in buffers that it holds. ValueError where their lengths do not fit
    together; their contents are not looked at: call `check`.

    >>> numbers = EliasFano([2, 3, 5])
    >>> EliasFano.over(len(numbers), *numbers.parts) == numbers
    True
    """
    return _core.over(cls, (length, width), (low, words, upper, lower))


def matrix_to_numpy(self: Any, dtype: Any = None, copy: Optional[bool] = None) -> Any:
    """All numbers as a new array of uint64, or of dtype. ValueError for copy=False.

    >>> WaveletMatrix([3, 1, 4]).to_numpy()
    array([3, 1, 4], dtype=uint64)
    """
    import numpy

    return _as(self.get_list(numpy.arange(len(self), dtype=numpy.uint64)), dtype, copy)


def parts(self: Any) -> Any:
    """The width and the four parts, as `over` takes them after the length, to be read.

    >>> width, low, words, upper, lower = EliasFano([2, 3, 5]).parts
    >>> width, len(low), len(words)
    (0, 0, 1)
    """
    (_, width), windows = _core.parts(self)
    return (width, *map(memoryview, windows))


# ---- what a sequence of Python's has too


def vector_reverse(self: Any) -> None:
    """Reverses the order of the bits.

    >>> bits = BitVector.from_bits("0011")
    >>> bits.reverse()
    >>> bits
    BitVector('1100')
    """
    self[:] = self[::-1]


def vector_remove(self: Any, bit: Any, /) -> None:
    """Removes the first such bit; ValueError where there is none.

    >>> bits = BitVector.from_bits("0011")
    >>> bits.remove(1)
    >>> bits
    BitVector('001')
    """
    del self[self.index(bit)]


def index_index(self: Any, bit: Any, start: int = 0, stop: Optional[int] = None) -> int:
    """The position of the first such bit in a range; ValueError where there is none.

    >>> Index(BitVector.from_bits("0101101")).index(0, 3)
    5
    """
    if bit not in (0, 1):
        raise ValueError(f"a bit is true or false, not {bit!r}")
    found: Optional[int] = (self.next_one if bit else self.next_zero)(start)
    if found is None or (stop is not None and found >= stop):
        raise ValueError("there is no such bit")
    return found


# ---- keys


def int_bytes(key: int, _seed: int) -> bytes:
    return int.to_bytes(key, int.bit_length(key) // 8 + 1, "little", signed=True)


def _kind_and_bytes(key: Any) -> Tuple[bytes, bytes]:
    """What is hashed of a key: keys are equal where both are."""
    if isinstance(key, str):
        return b"str", str.encode(key, "utf-8", "surrogatepass")
    return (b"bytes", key) if isinstance(key, bytes) else (b"int", int_bytes(operator.index(key), 0))


def blake(key: Any, seed: int) -> Tuple[int, int]:
    """The two hashes of a key in files of version 0.2.0."""
    kind, data = _kind_and_bytes(key)
    both = hashlib.blake2b(data, digest_size=16, key=seed.to_bytes(8, "little"), person=kind).digest()
    return int.from_bytes(both[:8], "little"), int.from_bytes(both[8:], "little")


def short(key: Any) -> str:
    """A key as a message shows it: its repr, of 60 characters at most."""
    if not isinstance(key, (str, bytes)):
        bits = int.bit_length(operator.index(key))
        return int.__repr__(operator.index(key)) if bits < 196 else f"a number of {bits} bits"
    kind: Any = str if isinstance(key, str) else bytes  # whatever a subclass makes of slices
    shown = repr(kind.__getitem__(key, slice(60)))
    return shown if len(shown) <= 60 else shown[:57] + "..."


def equal_keys(keys: Any, first: int, second: int) -> Optional[str]:
    """Says which keys are equal, of two that have one hash; None where they are not. Of an iterator no key is left to look at."""
    named, given = f"keys {first} and {second} are equal", iter(keys)
    both = [] if given is keys else [key for at, key in enumerate(itertools.islice(given, second + 1)) if at in (first, second)]
    if len(both) < 2:
        return f"{named}, or have one hash: take another seed"
    one, other = map(_kind_and_bytes, both)
    return f"{named}: {short(both[0])}" if one == other else None


# ---- pickles: the block of a value, out of band where the pickler wants that. Older ones have numbers and parts.


def _packed(window: Any, protocol: int) -> Any:
    return pickle.PickleBuffer(window) if protocol >= 5 and len(window) else bytes(window)


def _vector(kind: Any, words: Any, length: int) -> Any:
    return kind.from_words(words, length)


def _value(kind: Any, numbers: Any, *buffers: Any) -> Any:
    return _core.over(kind, numbers, buffers)


def reduce(self: Any, protocol: Any) -> Any:
    if isinstance(self, _core.BitVector):
        made: Any = (_vector, (type(self), _packed(self, protocol), len(self)))
    else:
        made = (_value, (type(self), (), _packed(_core.block(self), protocol)))
    state = getattr(self, "__dict__", None)
    return (*made, state) if state else made


def _copy(share: Callable[[Any], Any]) -> Callable[[Any], Any]:
    def copy(self: Any) -> Any:
        """Another value over the same memory, which never changes: each is closed by itself."""
        made = share(self)
        if state := getattr(self, "__dict__", None):
            made.__dict__.update(state)
        return made

    return copy


# What is saved: a type, one of it, a query and its answer.
KEPT = (*((kind, made, query, answer) for kind, _, made, _, query, answer in _blocks.BLOCKS),
        (_core.Index, 'Index(BitVector.from_bits("0101"))', "rank(2)", 1), (_core.EliasFano, "EliasFano([2, 3, 5])", "first_at_least(3)", 1))


def complete() -> None:
    """Gives the types of the extension those methods that stand here, in `_blocks` and in `_sets`."""
    _blocks.complete()
    _sets.complete()
    for kind, made, query, answer in KEPT:
        example = f'>>> {made}.save("file")\n    >>> load("file").{query}\n    {answer}\n    '
        give(kind, "save", save, save.__doc__ and save.__doc__.split(">>>")[0] + example)
        give(kind, "__copy__", _copy(getattr(kind, "__copy__")))
    for each in (_core.BitVector, *(it[0] for it in KEPT)):
        give(each, "__reduce_ex__", reduce)
    for name, function in (("to_numpy", vector_to_numpy), ("reverse", vector_reverse), ("remove", vector_remove)):
        give(_core.BitVector, name, function)
    give(_core.Index, "index", index_index)
    for name in ("to_numpy", "__array__"):
        give(_core.Index, name, index_to_numpy)
        give(_core.EliasFano, name, sequence_to_numpy)
        give(_core.WaveletMatrix, name, matrix_to_numpy)
    for kind, over in ((_core.Index, index_over), (_core.EliasFano, sequence_over)):
        setattr(kind, "over", classmethod(_blocks.method(kind, "over", over)))
    setattr(_core.EliasFano, "parts", property(parts))
