"""Files: what save writes and load takes."""
import contextlib
import errno
import io
import mmap as mapped
import operator
import os
import secrets
import stat
from typing import Any, BinaryIO, Callable, Optional, Tuple, Union

from . import _core

PathLike = Union[str, bytes, "os.PathLike[str]", "os.PathLike[bytes]"]
Stored = Union["_core.Index", "_core.EliasFano", "_core.SparseBits", "_core.PerfectHash", "_core.Dictionary", "_core.Strings", "_core.Tree",
               "_core.Trie", "_core.WaveletMatrix", "_core.TextIndex"]
HEADER = 192  # bytes, in version 2; the header of a block has fewer


def _into(write: Callable[[Any], Any], block: Any) -> None:
    """Writes the words of a block."""
    data = memoryview(block).cast("B")
    while data.nbytes:
        data = data[_written(write, data) :]


def _written(write: Callable[[Any], Any], data: Any) -> int:
    """How many bytes a call of `write` took: all where it does not say, unless the file does not wait."""
    count = write(data)
    if count is None and not isinstance(getattr(write, "__self__", None), io.RawIOBase):
        return int(data.nbytes)
    if not count or not 0 < count <= data.nbytes:
        raise BlockingIOError(errno.EAGAIN, f"write took {count} of {data.nbytes} bytes")
    return int(count)


def save(self: Any, target: Any, /) -> None:
    """Writes the block of the value into a file, from which `bitm.load` takes it: a path, or a file object with `write`. Of a
    value that is in no block one is made, which takes as much memory as the file: of an index, unless it was loaded from a
    block, and of what was loaded from a file of format version 2.

    A path is written beside it first, into a new file without a name, synced, given an unforeseeable name, and put in its
    place: a write that fails leaves what stood there. A process that is killed leaves nothing more, but for a file
    `.bitm-..` beside the path if that happens between these last two steps, or if the file system has no files without a name
    (Linux: O_TMPFILE): such a file can be removed. A symbolic link is followed; what is not a regular file is refused; the
    mode of a file that is replaced stays. OSError where it cannot be written.

    >>> EliasFano([2, 3, 5]).save("numbers")
    >>> list(load("numbers"))
    [2, 3, 5]
    """
    if hasattr(target, "write"):
        _into(target.write, _core.block(self))
    else:
        path = os.path.realpath(os.fsencode(target))
        _put(path, _core.block(self))  # after __fspath__, which may close the value


def _put(path: bytes, block: Any) -> None:
    """Writes a new file beside a path, and puts it in its place."""
    try:
        mode: Optional[int] = os.stat(path).st_mode
    except FileNotFoundError:
        mode = None
    if mode is not None and not stat.S_ISREG(mode):
        raise OSError(errno.EINVAL, "it is not a regular file: pass an open file to write there", os.fsdecode(path))
    folder = os.path.dirname(path)
    beside = os.path.join(folder, b".bitm-" + secrets.token_hex(12).encode())
    number, is_named = _created(folder, beside)
    try:
        with open(number, "wb", buffering=0) as file:
            if mode is not None:
                os.fchmod(number, stat.S_IMODE(mode))
            _into(file.write, block)
            os.fsync(number)
            if not is_named:
                os.link(f"/proc/self/fd/{number}", beside, src_dir_fd=number, follow_symlinks=True)  # what the link leads to
                is_named = True
        os.replace(beside, path)
    except BaseException:
        if is_named:
            os.unlink(beside)
        raise
    _sync_folder(folder)


def _created(folder: bytes, beside: bytes) -> Tuple[int, bool]:
    """A new file, and whether it has the given name: it has none where the file system has such files, so that a process
    which is killed while it writes leaves nothing."""
    flags = os.O_WRONLY | os.O_CLOEXEC
    with contextlib.suppress(OSError):
        number = os.open(folder, flags | os.O_TMPFILE, 0o666)
        if os.path.exists(f"/proc/self/fd/{number}"):
            return number, False
        os.close(number)
    return os.open(beside, flags | os.O_CREAT | os.O_EXCL | os.O_NOFOLLOW, 0o666), True


def _sync_folder(folder: bytes) -> None:
    held = os.open(folder, os.O_RDONLY | os.O_DIRECTORY | os.O_CLOEXEC)
    try:
        os.fsync(held)
    except OSError:
        pass  # some file systems sync no folder
    finally:
        os.close(held)


def loads(data: Any, /) -> Stored:
    """The value in a buffer (bytes, mmap, ..), which is read where it lies, and held. ValueError where it has none.

    >>> EliasFano([2, 3, 5]).save("numbers")
    >>> with open("numbers", "rb") as file:
    ...     list(loads(file.read()))
    [2, 3, 5]
    """
    with memoryview(data) as view:
        flat = view.cast("B")
    return _core.stored_load(flat[: flat.nbytes // 8 * 8])


# By the mark, whose last byte is the version, where the header has the size of the file: versions 3 and 4 are blocks.
_SIZE_AT = {b"bitmtab\x02": 32, b"bitmtab\x03": 16, b"bitmtab\x04": 16}


def _look(head: bytes, size: Optional[int], shown: str) -> None:
    """A first look at a header, lest much is read in vain. What counts is the library's own, at the whole."""
    at = _SIZE_AT.get(head[:8])
    if at is None or (size is not None and int.from_bytes(head[at : at + 8], "little") > size):
        raise ValueError(f"{shown} is not a stored index, sequence, hash, dictionary, strings, tree, trie, matrix, text or sparse bits of this format, or not all of it")


def load(source: Union[PathLike, int, BinaryIO], *, mmap: bool = False) -> Stored:
    """The index, sequence, perfect hash, dictionary, strings, tree, trie, matrix, text or sparse bits that `save` wrote, from a
    path, a descriptor or a file object: read into memory, or with `mmap` mapped from the file and read where it lies. Bytes are a
    path: see `loads`.

    ValueError where it has no header of this format and byte order, or is shorter than its header says: the header is
    looked at first. The contents are not checked: call `check`, which says whether they are what was written. A file of
    format version 2 is read too, but its check finds only what does not fit. A mapped file must not be truncated while the
    value is used.

    >>> Index(BitVector.from_bits("0101101")).save("bits")
    >>> with load("bits", mmap=True) as index:
    ...     index.rank(4)
    2
    """
    if hasattr(source, "read"):
        if mmap:
            raise ValueError("a file object is read, not mapped: pass its path or its descriptor")
        return _loaded(_read(source, "the file object"), "the file object")
    shown = repr(source)
    named: Any = source
    named = operator.index(named) if hasattr(named, "__index__") else named
    with open(named, "rb", closefd=not isinstance(named, int)) as file:
        return _loaded(_held(file, mmap, shown), shown)


def _held(file: Any, mmap: bool, shown: str) -> Any:
    """The bytes of an open file, in memory or mapped."""
    status = os.fstat(file.fileno())
    if not stat.S_ISREG(status.st_mode):
        return _read(file, shown)
    size = status.st_size // 8 * 8
    _look(os.pread(file.fileno(), HEADER, 0), size, shown)
    if mmap:
        return mapped.mmap(file.fileno(), size, access=mapped.ACCESS_READ)
    data = bytearray(size)
    file.seek(0)  # of a descriptor, which may stand elsewhere
    return memoryview(data)[: file.readinto(data)]  # fewer where it was cut meanwhile


def _read(file: Any, shown: str) -> bytes:
    head = b""
    while len(head) < HEADER and (piece := file.read(HEADER - len(head))):
        if not isinstance(piece, bytes):
            raise TypeError("the file has to be opened in binary mode")
        head += piece
    _look(head, None, shown)
    return head + b"".join(iter(lambda: file.read(1 << 20) or b"", b""))


def _loaded(data: Any, shown: str) -> Stored:
    try:
        return loads(memoryview(data).toreadonly())
    except ValueError as error:
        raise ValueError(f"{shown}: {error}") from None
