"""Sections of a caller's own in a block of any kind, after the sections of its kind: notes, samples and the like."""
import operator
from typing import TYPE_CHECKING, Any, Iterable, List, Mapping, Optional, SupportsIndex, Tuple, Union

from . import _core

if TYPE_CHECKING:
    from _typeshed import ReadableBuffer as Buffer

# The first role that no kind has. From it on roles are a caller's, and their items are bytes.
OWN_ROLE = 65536
# The items of other roles, as docs/FORMAT.md says: numbers of 64 bits, but for these.
_ITEMS = {7: "I", 8: "I", 15: "B"}


def _format_of(role: int) -> str:
    return "B" if role >= OWN_ROLE else _ITEMS.get(role, "Q")


def _role(given: SupportsIndex) -> int:
    role = operator.index(given)
    if not 0 <= role < 2**64:
        shown = role if role.bit_length() < 1000 else f"a number of {role.bit_length()} bits"
        raise OverflowError(f"a role is 0 to 2**64 - 1, not {shown}")
    return role


def _flat(block: "Buffer") -> memoryview:
    """The bytes of a block, from a buffer that has no gaps."""
    with memoryview(block) as view:
        return view.cast("B")


def _words(block: "Buffer") -> memoryview:
    flat = _flat(block)
    if flat.nbytes % 8:
        raise ValueError("it is no block, or not all of it")
    return flat


def _extended(block: "Buffer", role: int, data: "Buffer") -> bytes:
    with memoryview(data) as view:
        items = view.tobytes()
    size = memoryview(b"").cast(_format_of(role)).itemsize
    if len(items) % size:
        raise ValueError(f"an item of role {role} has {size} bytes, and {len(items)} bytes were given")
    return _core.section_added(block, role, len(items) // size, items)


def extend(block: "Buffer", sections: "Union[Mapping[int, Buffer], Iterable[Tuple[SupportsIndex, Buffer]]]", /) -> bytes:
    """The bytes of a block with more sections after its own: `sections` maps roles to the items of each, in any buffer, or has
    pairs of these. A role from 65536 on is yours, and its items are bytes; docs/FORMAT.md has others. The block still holds the
    same structure, and values over it step over your sections.

    ValueError where there would be more than 16 sections, the bytes do not fill the items of a role, or a section of the block
    is not as it was written: a damaged section gets no right checksum. The block is copied once for each section, while other
    threads run.

    >>> noted = extend(Tree([2, 0, 0]).block, {65536: b"3 nodes"})
    >>> len(Tree.over(noted)), bytes(section(noted, 65536))
    (3, b'3 nodes')
    """
    pairs: Any = sections.items() if isinstance(sections, Mapping) else sections
    added = [(_role(role), data) for role, data in pairs]
    words = _words(block)
    if not added and not _core.block_is_written(words):
        raise ValueError("it is no block, or not as it was written")
    for role, data in added:
        words = memoryview(_extended(words, role, data))
    return words.tobytes()


def sections(block: "Buffer", /) -> List[Tuple[int, memoryview]]:
    """The sections of a block in their order, beginning with the sections of its kind: pairs of a role and of items, which are
    read where they lie, in a view of bytes, of uint32 for the roles 7 and 8, or of uint64 for others below 65536 but 15.
    ValueError where header or directory of the block are not right; whether the sections are as they were written is for
    `is_written` to say.

    >>> [role for role, _ in sections(extend(Tree([2, 0, 0]).block, {65536: b"3 nodes"}))]
    [1, 2, 3, 22, 65536]
    """
    return [(role, _items(role, count, window)) for role, count, window in _core.sections_of(_words(block))]


def _items(role: int, count: int, window: Any) -> memoryview:
    flat = memoryview(window).cast("B")
    items = flat.cast(_format_of(role))
    return items[:count]


def section(block: "Buffer", role: SupportsIndex, /) -> Optional[memoryview]:
    """The items of the first section with a role, as `sections` has them, or None where there is none. ValueError as there.

    >>> noted = extend(Tree([2, 0, 0]).block, [(65536, b"3 nodes"), (65537, b"")])
    >>> section(noted, 65536)[0], section(noted, 65538)
    (51, None)
    """
    sought = _role(role)
    return next((items for found, items in sections(block) if found == sought), None)


def is_written(block: "Buffer", /) -> bool:
    """Whether a block of any kind is as it was written: goes over all of it, while other threads run. Whether it holds such a
    structure is for the `check` of its kind to say.

    >>> block = bytearray(Tree([2, 0, 0]).block)
    >>> is_written(block)
    True
    >>> block[-1] ^= 1
    >>> is_written(block)
    False
    """
    flat = _flat(block)
    return flat.nbytes % 8 == 0 and _core.block_is_written(flat)
