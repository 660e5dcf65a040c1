"""One bit vector in many files, asked as one: see `Shards`."""
import array
import builtins
import contextlib
import hashlib
import itertools
import json
import mmap as mapped
import operator
import os
import secrets
import struct
import zlib
from typing import Any, Callable, Dict, Iterable, Iterator, List, NamedTuple, Optional, Sequence, SupportsIndex, Tuple, TypeVar, Union, overload

from . import _files, _shard_lists
from ._core import BitVector, Index, ShardSet, WrongTables, parts
from ._shard_lists import POSITIONS

MANIFEST, FORMAT, VERSION = "shards.json", "bitm shards", 1
OTHER, WRONG = "it is not the one that the manifest names", "its tables do not match its words"
PathLike = Union[str, "os.PathLike[str]"]
Mapper = Callable[..., Iterable[Any]]
Answer = TypeVar("Answer")


class ShardError(Exception):
    """A shard is missing, cut short, or not the one that the manifest names: the message says which.

    >>> import glob, os
    >>> shards = Shards.build([BitVector.from_bits("0110")], "few")
    >>> for file in glob.glob("few/*.bitm"):
    ...     os.remove(file)
    >>> try:
    ...     shards.rank(3)
    ... except ShardError as error:
    ...     print("there is no shard 0" if "No such file" in str(error) else error)
    there is no shard 0
    """


class Part(NamedTuple):
    """The manifest's entry of a shard: its file in the folder, its bits and 1 bits, a sum of its lengths, tables and some
    words, which is looked at when the shard is mapped, and one of all words, which is looked at by `check`."""

    file: str
    bits: int
    ones: int
    sum: str
    words: int


# ---- one shard: built where its bits lie, and mapped where it is queried


def sum_of(index: Index) -> str:
    """A sum of the lengths of an index, both its tables, and one word in 2^13, so that few pages of a file are read: another
    one where some 512 bits have another number of 1 bits, or one of these words is another."""
    numbers, (words, upper, lower, *_) = parts(index)
    made = hashlib.blake2b(struct.pack("<4Q", len(words), *numbers), digest_size=16)
    made.update(memoryview(words)[::8192].tobytes())
    made.update(upper)
    made.update(lower)
    return made.hexdigest()


def words_sum_of(index: Index) -> int:
    """A sum of all words of an index: CRC-32, which costs little beside the write of a shard."""
    return zlib.crc32(parts(index)[1][0])


def _bits_of(source: Any) -> Tuple[Any, Any]:
    """The bits of a source, and how many they are: None for all."""
    if callable(source):
        source = source()
    source, length = source if isinstance(source, tuple) else (source, None)
    if isinstance(source, (str, os.PathLike)):
        with open(source, "rb") as file:
            size = os.fstat(file.fileno()).st_size
            source = mapped.mmap(file.fileno(), size, access=mapped.ACCESS_READ) if size else b""
    return source, length


def build_shard(task: Tuple[str, str, Any, Optional[int], str]) -> Part:
    """Builds one shard and stores it: what `build` has its map do, in whatever process. The last item of a task makes no
    two tasks equal, for maps that keep what they have once computed."""
    folder, file, source, sample_log2, _ = task
    bits, length = _bits_of(source)
    index = bits if isinstance(bits, Index) and length is None else Index(bits, length, sample_log2=sample_log2)
    path = os.path.join(folder, file)
    index.save(path)
    with Index.open(path) as stored:
        return Part(file, len(stored), stored.rank(len(stored)), sum_of(stored), words_sum_of(stored))


def _asked(shard: Tuple[str, int, Part]) -> Optional[str]:
    """What is wrong with a shard, if something is: for `check`."""
    folder, number, part = shard
    try:
        with _opened(folder, number, part) as index:
            if words_sum_of(index) != part.words:
                return _says(folder, number, part, OTHER)
            return None if index.check() else _says(folder, number, part, WRONG)
    except ShardError as error:
        return str(error)


def _says(folder: str, number: int, part: Part, what: object) -> str:
    return f"shard {number} ({os.path.join(folder, part.file)}): {what}"


def _opened(folder: str, number: int, part: Part) -> Index:
    try:
        index = Index.open(os.path.join(folder, part.file))
    except (OSError, ValueError) as error:
        raise ShardError(_says(folder, number, part, error)) from error
    if (len(index), index.rank(len(index)), sum_of(index)) != part[1:4]:
        raise ShardError(_says(folder, number, part, OTHER))
    return index


# ---- the manifest


def _read(folder: str) -> List[Part]:
    path = os.path.join(folder, MANIFEST)
    with open(path, encoding="utf-8") as file:
        try:
            found = json.load(file)
            if (found["format"], found["version"]) != (FORMAT, VERSION):
                raise ValueError("it is of another format or version")
            made = [Part(*(it[name] for name in Part._fields)) for it in found["shards"]]
            if not all(_is_part(it) for it in made):
                raise ValueError("a shard's entry is not one")
        except (ValueError, TypeError, LookupError) as error:
            raise ValueError(f"{path} is not a manifest of shards: {error}") from error
    return made


def _is_part(it: Part) -> bool:
    is_file = isinstance(it.file, str) and it.file not in ("", ".", "..") and os.path.basename(it.file) == it.file
    are_numbers = all(type(number) is int for number in (it.bits, it.ones, it.words)) and 0 <= it.ones <= it.bits
    return is_file and isinstance(it.sum, str) and are_numbers


def _write(folder: str, shards: Sequence[Part]) -> None:
    """Writes the manifest beside the old one, and puts it in its place: who reads it sees either whole."""
    data = {"format": FORMAT, "version": VERSION, "shards": [it._asdict() for it in shards]}
    made = json.dumps(data, indent=1).encode()
    _files._put(os.path.realpath(os.fsencode(os.path.join(folder, MANIFEST))), made)


# ---- the shards as one


class Shards(_shard_lists.Lists):
    """The bits of the shards of a folder, one after the other, queried as the bits of one `Index`.

    A folder has a manifest and one stored index a shard. A shard is mapped when a query first needs it; until then its
    file need not be there. ShardError if it is missing then, or is not the one that the manifest names. A value is pickled as its folder.

    >>> import bitm, tempfile
    >>> folder = tempfile.mkdtemp()
    >>> shards = bitm.Shards.build([bitm.BitVector.from_bits("0110"), bitm.BitVector.from_bits("101")], folder)
    >>> shards, shards.rank(5), shards.select(3), shards.select_list([0, 2, 9])
    (Shards(bits=7, ones=4, shards=2), 3, 6, [1, 4, None])
    """

    def __init__(self, folder: PathLike) -> None:
        self.folder = os.path.abspath(os.fspath(folder))
        self._take(_read(self.folder))

    def _take(self, shards: Sequence[Part]) -> None:
        self.parts: Tuple[Part, ...] = tuple(shards)
        bits = [0, *itertools.accumulate(it.bits for it in shards)]
        ones = [0, *itertools.accumulate(it.ones for it in shards)]
        if bits[-1] >= 2**64:
            raise ValueError("the shards have 2**64 bits or more")
        self._counts = array.array("Q", bits), array.array("Q", ones)
        self._starts = {True: ones, False: [all_ - one for all_, one in zip(bits, ones)], None: bits}
        self.close()

    # ---- making and changing

    @classmethod
    def build(cls, sources: Iterable[object], folder: PathLike, *, map: Mapper = builtins.map, sample_log2: Optional[int] = None) -> "Shards":
        """Builds one shard of each source, and writes the manifest once all are stored.

        A source is what `Index` takes, the path of a file of raw bits, a pair of one of these and a number of bits, or a
        callable without arguments that returns one of these where the shard is built. `map` is the builtin, an executor's
        `map`, or a Dask client's: it calls a function of this module with one argument for each source, and both travel to its
        workers by pickle. FileExistsError where the folder has a manifest. Where a build fails or is killed there is none, and
        another build in the folder writes all shards again."""
        path = os.path.abspath(os.fspath(folder))
        os.makedirs(path, exist_ok=True)
        if os.path.exists(os.path.join(path, MANIFEST)):
            raise FileExistsError(f"{path} has shards already")
        token = secrets.token_hex(8)
        tasks = [(path, f"shard-{k:06d}.bitm", it, sample_log2, token) for k, it in enumerate(sources)]
        made = [it.result() if hasattr(it, "result") else it for it in map(build_shard, tasks)]
        _write(path, [Part(*it) for it in made])
        return cls(path)

    def append(self, source: object, *, sample_log2: Optional[int] = None) -> None:
        """Adds a shard after the last."""
        self._store(len(self.parts), source, sample_log2)

    def replace(self, shard: int, source: object, *, sample_log2: Optional[int] = None) -> None:
        """Puts other bits, as many or not, in place of a shard. The file of the old one is removed once the manifest names
        the new one: who has opened the folder before, and not yet that shard, then gets a ShardError."""
        old = self.parts[range(len(self.parts))[shard]].file
        self._store(range(len(self.parts))[shard], source, sample_log2)
        with contextlib.suppress(FileNotFoundError):
            os.unlink(os.path.join(self.folder, old))

    def _store(self, shard: int, source: Any, sample_log2: Optional[int]) -> None:
        name = f"shard-{shard:06d}-{secrets.token_hex(8)}.bitm"
        made = build_shard((self.folder, name, source, sample_log2, ""))
        shards = [*self.parts[:shard], made, *self.parts[shard + 1 :]]
        _write(self.folder, shards)
        self._take(shards)

    def check(self, *, map: Mapper = builtins.map) -> None:
        """Reads each shard whole: ShardError names each shard that is missing, is not the one of the manifest, or has tables
        that do not match its words."""
        tasks = [(self.folder, k, it) for k, it in enumerate(self.parts)]
        found = [it.result() if hasattr(it, "result") else it for it in map(_asked, tasks)]
        if any(found):
            raise ShardError("; ".join(it for it in found if it))

    def __reduce__(self) -> Tuple[Any, Tuple[str]]:
        return type(self), (self.folder,)

    def __repr__(self) -> str:
        return f"{type(self).__name__}(bits={len(self)}, ones={self.count()}, shards={len(self.parts)})"

    def shard(self, number: int) -> Index:
        """The index of a shard, which is mapped when it is first needed."""
        number = range(len(self.parts))[number]
        found, known = self._open.get(number), self._set
        if found is None:
            found = self._open[number] = _opened(self.folder, number, self.parts[number])
            known.put(number, found)
        return found

    def close(self) -> None:
        """Gives the mapped files back. A shard that a query needs afterwards is mapped again."""
        self._open: Dict[int, Index] = {}
        self._set = ShardSet(*self._counts)

    # ---- single queries

    def __len__(self) -> int:
        return self._starts[None][-1]

    def count(self, bit: object = 1) -> int:
        """How many 1 bits, or 0 bits, there are."""
        if bit not in (0, 1):
            raise ValueError(f"a bit is true or false, not {bit!r}")
        return self._starts[bool(bit)][-1]

    def find(self, position: int, /) -> Tuple[int, int]:
        """The shard that has a position, and the position in it."""
        return self._find(POSITIONS, self._inside(position))

    def _find(self, kind: int, number: int) -> Tuple[int, int]:
        """Which shard holds a position, or the bit with a rank, and the number in it, where there is one: a proved call."""
        found = self._set.find(kind, number)
        if found is None:
            raise IndexError(f"number {number}, which the shards do not have")
        return found

    def _ask(self, call: "Callable[[ShardSet, bool, int], Answer]", one: bool, number: int) -> "Answer":
        """One proved call. It says that tables are wrong where it reads a shard that is not mapped: then the shard is mapped,
        and the call made again."""
        known, shard = self._set, 0
        try:
            return call(known, one, number)
        except WrongTables:
            number = operator.index(number)
        with contextlib.suppress(WrongTables, IndexError):  # a rank of wrong tables, which the counts may not have
            for shard in self._reads(known, call, one, number):
                known.put(shard, self.shard(shard))
                with contextlib.suppress(WrongTables):
                    return call(known, one, number)
        raise ShardError(_says(self.folder, shard, self.parts[shard], WRONG))

    def _reads(self, known: ShardSet, call: Callable[..., Any], one: bool, number: int) -> Iterator[int]:
        """The shards that a call reads: the shard of its position, unless the position is the first there; and once this is
        mapped, the shard of the bit that is found."""
        end = min(number + (call is ShardSet.previous), len(self))
        if call is not ShardSet.select and end < len(self):
            shard, within = self._find(POSITIONS, end)
            if within:
                yield shard
        if call is ShardSet.select:
            yield self._find(one, number)[0]
        elif call is not ShardSet.rank:
            yield self._find(one, known.rank(one, end) - (call is ShardSet.previous))[0]

    def _inside(self, position: int) -> int:
        if -len(self) <= position < len(self):
            return position % len(self)
        raise IndexError(f"index {position} of {len(self)} bits")

    @overload
    def __getitem__(self, position: SupportsIndex, /) -> bool: ...
    @overload
    def __getitem__(self, position: slice, /) -> BitVector: ...

    def __getitem__(self, position: Union[SupportsIndex, slice], /) -> Union[bool, BitVector]:
        if isinstance(position, slice):
            return self._slice(position)
        shard, within = self._find(POSITIONS, self._inside(operator.index(position)))
        return self.shard(shard)[within]

    def _slice(self, position: slice) -> BitVector:
        start, stop, step = position.indices(len(self))
        made = BitVector()
        for shard, low, high in self._pieces(*((start, stop) if step > 0 else (stop + 1, start + 1))):
            made += self.shard(shard)[low:high]
        if step in (1, -1):
            return made if step == 1 else made[::-1]
        return made[::step]

    def _pieces(self, start: int, stop: int) -> Iterator[Tuple[int, int, int]]:
        """The shards of a range, and the range in each."""
        bits = self._starts[None]
        while start < min(stop, len(self)):
            shard, low = self._find(POSITIONS, start)
            high = min(stop - bits[shard], self.parts[shard].bits)
            yield shard, low, high
            start = bits[shard] + high

    def rank(self, position: int, /) -> int:
        """How many 1 bits there are before a position. IndexError where it is past the end."""
        return self._ask(ShardSet.rank, True, position)

    def rank0(self, position: int, /) -> int:
        """How many 0 bits there are before a position. IndexError where it is past the end."""
        return self._ask(ShardSet.rank, False, position)

    def select(self, rank: int, /) -> Optional[int]:
        """The position of the 1 bit with this many 1 bits before it; None where there is none."""
        return self._ask(ShardSet.select, True, rank)

    def select0(self, rank: int, /) -> Optional[int]:
        """The position of the 0 bit with this many 0 bits before it; None where there is none."""
        return self._ask(ShardSet.select, False, rank)

    def next_one(self, position: int, /) -> Optional[int]:
        """The position of the first 1 bit at or after a position; None where there is none."""
        return self._ask(ShardSet.next, True, position)

    def next_zero(self, position: int, /) -> Optional[int]:
        """The position of the first 0 bit at or after a position; None where there is none."""
        return self._ask(ShardSet.next, False, position)

    def previous_one(self, position: int, /) -> Optional[int]:
        """The position of the last 1 bit at or before a position, which may be past the end; None where there is none."""
        return self._ask(ShardSet.previous, True, position)

    def previous_zero(self, position: int, /) -> Optional[int]:
        """The position of the last 0 bit at or before a position, which may be past the end; None where there is none."""
        return self._ask(ShardSet.previous, False, position)

    def ones(self, start: int = 0, stop: Optional[int] = None, *, reverse: bool = False) -> Iterator[int]:
        """The positions of the 1 bits of a range, ascending, or descending with `reverse`."""
        return self._positions("ones", start, stop, reverse)

    def zeros(self, start: int = 0, stop: Optional[int] = None, *, reverse: bool = False) -> Iterator[int]:
        """The positions of the 0 bits of a range, ascending, or descending with `reverse`."""
        return self._positions("zeros", start, stop, reverse)

    def _positions(self, kind: str, start: int, stop: Optional[int], reverse: bool) -> Iterator[int]:
        pieces: Iterable[Tuple[int, int, int]] = self._pieces(start, len(self) if stop is None else stop)
        for shard, low, high in reversed([*pieces]) if reverse else pieces:
            base = self._starts[None][shard]
            for found in getattr(self.shard(shard), kind)(low, high, reverse=reverse):
                yield base + found
