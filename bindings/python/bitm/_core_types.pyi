# What the stubs of bitm._core share: the kinds of arguments and answers, and what all values have that can be closed.
from collections.abc import Callable, Iterable, Iterator, Mapping, Sequence, Set as AbstractSet
from types import TracebackType
from typing import Any, SupportsIndex, TypeVar, Union

from _typeshed import ReadableBuffer as Buffer, StrOrBytesPath
import numpy
from numpy.typing import NDArray
from typing_extensions import Self

_Bits = Union[Buffer, Iterable[object], str]
_Numbers = Union[Buffer, Iterable[SupportsIndex]]
# Arguments that are answered by a list; an array of NumPy, which is none of these, is answered by an array. Where NumPy is not installed its
# names are unknown here, and only they.
_Plain = Union[Sequence[SupportsIndex], AbstractSet[SupportsIndex], Iterator[SupportsIndex]]
_Array = NDArray[numpy.integer[Any]]
_Answers = NDArray[numpy.uint64]
_Masked = numpy.ma.MaskedArray[Any, numpy.dtype[numpy.uint64]]
_Bools = NDArray[numpy.bool_]
_Key = Union[str, bytes, SupportsIndex]
_PlainKeys = Union[Sequence[_Key], AbstractSet[_Key], Iterator[_Key], Mapping[_Key, object]]
_String = Union[str, bytes, bytearray, memoryview]
_PlainStrings = Union[Sequence[_String], AbstractSet[_String], Iterator[_String], Mapping[_String, object]]
_Progress = Callable[[int, int], object]
_T = TypeVar("_T")

class _Value:
    @classmethod
    def open(cls, path: StrOrBytesPath | int) -> Self: ...
    @property
    def closed(self) -> bool: ...
    def close(self) -> None: ...
    def __enter__(self) -> Self: ...
    def __exit__(self, kind: type[BaseException] | None, value: BaseException | None, trace: TracebackType | None, /) -> None: ...
    def __copy__(self) -> Self: ...
    def __len__(self) -> int: ...
    def check(self) -> bool: ...
    def save(self, target: object, /) -> None: ...
