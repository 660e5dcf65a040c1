"""Lists of queries of shards, by one proved call for each part of a list."""
from collections.abc import Iterator
from typing import TYPE_CHECKING, Any, Callable, List, Literal, Optional, SupportsIndex, Union, overload

from ._core import Index, ShardSet

if TYPE_CHECKING:
    from ._core_types import _Answers, _Array, _Masked, _Plain

ZEROS, ONES, POSITIONS = range(3)  # what is numbered, as bitm.h has it


class Lists:
    """The lists of queries of `Shards`."""

    __slots__ = ()  # so that help() shows nothing of this class
    _set: ShardSet

    def shard(self, number: int) -> Index:
        raise NotImplementedError

    def _asked(self, kind: int, queries: Any, call: Callable[[ShardSet, Any], Any]) -> Any:
        """One proved call for each part of a list, once the shards that it reads are mapped, and no other ones."""
        known, queries = self._set, list(queries) if isinstance(queries, Iterator) else queries
        for shard in known.needed(kind, queries):
            known.put(shard, self.shard(shard))
        return call(known, queries)

    @overload
    def rank_list(self, queries: "_Plain") -> List[int]: ...
    @overload
    def rank_list(self, queries: "_Array") -> "_Answers": ...

    def rank_list(self, queries: Any) -> Any:
        """`rank` of each position: a list, or an array of uint64 for an array. IndexError where one is past the end."""
        return self._asked(POSITIONS, queries, lambda known, them: known.rank_list(True, them))

    @overload
    def rank0_list(self, queries: "_Plain") -> List[int]: ...
    @overload
    def rank0_list(self, queries: "_Array") -> "_Answers": ...

    def rank0_list(self, queries: Any) -> Any:
        """`rank0` of each position, likewise."""
        return self._asked(POSITIONS, queries, lambda known, them: known.rank_list(False, them))

    @overload
    def select_list(self, queries: "_Plain", *, missing: Union[SupportsIndex, Literal["error"]]) -> List[int]: ...
    @overload
    def select_list(self, queries: "_Plain", *, missing: None = None) -> List[Optional[int]]: ...
    @overload
    def select_list(self, queries: "_Array", *, missing: Union[SupportsIndex, Literal["error"]]) -> "_Answers": ...
    @overload
    def select_list(self, queries: "_Array", *, missing: Optional[Literal["mask"]] = None) -> "_Masked": ...

    def select_list(self, queries: Any, *, missing: Any = None) -> Any:
        """`select` of each rank: a list, or an array for an array. Where there is none: None, in an array masked; the
        number `missing`; or IndexError for `missing="error"`."""
        return self._asked(ONES, queries, lambda known, them: known.select_list(True, them, missing))

    @overload
    def select0_list(self, queries: "_Plain", *, missing: Union[SupportsIndex, Literal["error"]]) -> List[int]: ...
    @overload
    def select0_list(self, queries: "_Plain", *, missing: None = None) -> List[Optional[int]]: ...
    @overload
    def select0_list(self, queries: "_Array", *, missing: Union[SupportsIndex, Literal["error"]]) -> "_Answers": ...
    @overload
    def select0_list(self, queries: "_Array", *, missing: Optional[Literal["mask"]] = None) -> "_Masked": ...

    def select0_list(self, queries: Any, *, missing: Any = None) -> Any:
        """`select0` of each rank, likewise."""
        return self._asked(ZEROS, queries, lambda known, them: known.select_list(False, them, missing))
