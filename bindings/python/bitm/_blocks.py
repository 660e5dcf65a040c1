"""What the values over one block have beside their queries: the block itself, and a value over one that exists already."""
import array
import itertools
import types
from typing import Any, Dict, List, Optional

from . import _core
from ._files import load

# What a value is, one, how many nodes, 1 bits, keys, strings, numbers or letters it has, and a query of it with its answer.
BLOCKS = (
    (_core.Tree, "A tree", "Tree([2, 0, 1, 0])", 4, "parent(3)", 2),
    (_core.Trie, "A trie", 'Trie.of_words(["a", "b", "be"])', 4, 'find(b"be")', 3),
    (_core.SparseBits, "Sparse bits", "SparseBits([3, 100, 101, 4000], 5000)", 4, "rank(101)", 2),
    (_core.Dictionary, "A dictionary", "Dictionary([4, 9, 49])", 3, "get(50, -1)", -1),
    (_core.Strings, "Strings", 'Strings(["ada"])', 1, 'find("ada")', 0),
    (_core.PerfectHash, "A perfect hash", 'PerfectHash(["zero"])', 1, 'get("zero")', 0),
    (_core.WaveletMatrix, "A list of numbers", "WaveletMatrix([3, 1, 4, 1, 5, 1])", 6, "rank(1, 4)", 2),
    (_core.TextIndex, "The index of a text", 'TextIndex(b"banana")', 6, 'count(b"ana")', 2),
)
PARTS = (
    (_core.Index, "An index", 'Index(BitVector.from_bits("0101101"))', 7, "rank(4)", 2),
    (_core.EliasFano, "A sequence", "EliasFano([2, 3, 5])", 3, "first_at_least(4)", 2),
)


def method(kind: Any, name: str, function: Any, doc: Optional[str] = None) -> Any:
    """A copy of a function that help() shows as a method of that name: the stubs have its types."""
    made = types.FunctionType(function.__code__, function.__globals__, name, function.__defaults__, function.__closure__)
    made.__kwdefaults__, made.__module__, made.__qualname__ = function.__kwdefaults__, "bitm", f"{kind.__name__}.{name}"
    made.__doc__ = function.__doc__ if doc is None else doc
    return made


def give(kind: Any, name: str, function: Any, doc: Optional[str] = None) -> None:
    """Gives a type of the extension a method."""
    setattr(kind, name, method(kind, name, function, doc))


def publish(names: Dict[str, Any]) -> None:
    """Shows the functions and classes that were written in Python under the names by which a user imports them, and without the types,
    which checkers read in the source. A class has the methods of its bases as its own."""
    for item in names.values():
        if isinstance(item, types.FunctionType):
            item.__module__, item.__annotations__ = "bitm", {}
        elif item.__module__ != "bitm":
            _publish_methods(item)
            item.__module__ = "bitm"


def _publish_methods(kind: Any) -> None:
    for name, it in [pair for base in reversed(kind.__mro__) if base.__module__.startswith("bitm.") for pair in vars(base).items()]:
        if isinstance(it, types.FunctionType):
            give(kind, name, it)
        elif isinstance(it, classmethod):
            setattr(kind, name, classmethod(method(kind, name, it.__func__)))


def _over(cls: Any, block: Any) -> Any:
    return _core.over(cls, (), (block,))


def _block(self: Any) -> memoryview:
    return memoryview(_core.block(self))


def _open(cls: Any, path: Any) -> Any:
    found = load(path, mmap=True)
    if type(found) is cls:
        return found
    try:
        return _over(cls, _core.block(found))
    except _core.OtherKind as error:
        raise _core.OtherKind(f"{path!r}: {error}") from None


def text_find_all(self: Any, pattern: Any) -> List[int]:
    """The positions at which a pattern stands, the first one first; they may overlap. Pattern and positions as in `locate`.

    >>> TextIndex("banana").find_all("ana")
    [1, 3]
    """
    return sorted(self.locate(pattern))


def _word(it: Any) -> bytes:
    if isinstance(it, str):
        return str.encode(it)
    if isinstance(it, (bytes, bytearray, memoryview)):
        return bytes(it)
    raise TypeError(f"a word is a str or bytes, not {it!r}")


def trie_of_words(cls: Any, words: Any) -> Any:
    """The trie of words, each bytes or a str as UTF-8: labels have 8 bits, and a bit for each node says whether a word ends
    there. They may come in any order, and more than once: they are copied, sorted and counted once. The rest of the work is
    done while other threads run.

    >>> words = Trie.of_words(["to", "tea", "a", "ten"])
    >>> "tea" in words, "te" in words, words.longest("tend")
    (True, False, (6, 3))
    """
    if isinstance(words, (str, bytes, bytearray, memoryview)):
        raise TypeError(f"words are needed, not the one word {words!r}")
    rising = sorted({_word(it) for it in words})
    return _core.trie_of_sorted(cls, b"".join(rising), array.array("Q", itertools.accumulate(map(len, rising), initial=0)))


def complete() -> None:
    """Gives the types of the extension what stands here."""
    for kind, what, made, count, query, answer in BLOCKS:
        name = kind.__name__
        setattr(kind, "over", classmethod(method(kind, "over", _over, f"""{what} in a block that exists already, in a buffer that it holds
    and does not copy. OtherKind where it holds another structure, ValueError where its header or directory is damaged; the
    rest is not looked at: call `check`.

    >>> block = {made}.block
    >>> {name}.over(block).{query}
    {answer}
    """)))
        setattr(kind, "block", property(_block, doc=f"""The words of the block, to be read: what `{name}.over` takes, and the
    bytes of the file.

    >>> {made}.block[3]  # a word of the header
    {count}
    """))
    setattr(_core.Index, "block", property(_block, doc="""The words of the block, to be read: the bytes of the file, and what
    `extend` takes. Where the index was not loaded from a block, one is made at each call.

    >>> Index(BitVector.from_bits("0101101")).block[3]  # a word of the header: how many bits
    7
    """))
    setattr(_core.EliasFano, "block", property(_block, doc="""The words of the block, to be read: the bytes of the file, and what
    `extend` takes. Where the sequence is over parts, as `over` makes it, one is made at each call.

    >>> EliasFano([2, 3, 5]).block[3]  # a word of the header: how many numbers
    3
    """))
    setattr(_core.Trie, "of_words", classmethod(method(_core.Trie, "of_words", trie_of_words)))
    for kind, what, made, _, query, answer in BLOCKS + PARTS:
        name = kind.__name__
        setattr(kind, "open", classmethod(method(kind, "open", _open, f"""{what} in a file, which is mapped and read where it lies, as
    `load` does. OtherKind where the file holds another structure; ValueError and OSError as for `load`.

    >>> {made}.save("file")
    >>> with {name}.open("file") as it:
    ...     it.{query}
    {answer}
    """)))
    give(_core.TextIndex, "find_all", text_find_all)
