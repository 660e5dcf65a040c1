"""For the tests of the values over one block: what is stored, copied and closed, blocks that were changed, and values that are closed
while threads query them."""
import copy
import io
import os
import pathlib
import pickle
import threading

import pytest

import bitm

# Files of format version 2, and a pickle of values in parts.
VERSION_2 = pathlib.Path(__file__).parent / "version_2"


def bytes_of(value):
    file = io.BytesIO()
    value.save(file)
    return file.getvalue()


def refused(data, path, is_file):
    with pytest.raises(ValueError):
        bitm.loads(data)
    with pytest.raises(ValueError):
        bitm.load(io.BytesIO(data))
    if is_file:
        path.write_bytes(data)
        with open(path, "rb") as file:
            for it in (path, file):
                with pytest.raises(ValueError, match="stored|is not the block|was saved here"):
                    bitm.load(it)
        number = os.open(path, os.O_RDONLY)
        with pytest.raises(ValueError):
            bitm.load(number)
        os.close(number)
        if data:
            with pytest.raises(ValueError):
                bitm.load(path, mmap=True)


def stored_and_copied(value, path):
    """The values that files, memory of others, copies and pickles of one have. The file has its block."""
    kind = type(value)
    value.save(path)
    data = path.read_bytes()
    assert data == bytes(value.block) and len(data) % 64 == 0
    others = [bitm.load(path), bitm.load(path, mmap=True), bitm.loads(data), kind.over(data), copy.copy(value)]
    others += [pickle.loads(pickle.dumps(value, protocol)) for protocol in (2, 4, 5)]
    for other in others:
        assert isinstance(other, kind) and other.check()
        yield other
    assert value.check()


def refuses_once_closed(value, *calls):
    """Closes a value: it says so, and a call raises ValueError then."""
    value.close()
    assert repr(value) == f"{type(value).__name__}(closed)"
    for call in (len, *calls):
        with pytest.raises(ValueError, match="closed"):
            call(value)


def refuses_another(kind, data, what):
    """The block of a kind is no tree, and that of a tree is none of the kind, whose error says what it should be."""
    with pytest.raises(ValueError, match="tree"):
        bitm.Tree.over(data)
    with pytest.raises(ValueError, match=what):
        kind.over(bitm.Tree([1, 0]).block)


def over_each_change(kind, data):
    """The values over a block of which one bit of a byte was changed, for each byte. They open where that is not in the header, nor in
    that of a block which is the first section, and do not pass the check; a part of the block does not open."""
    start = int.from_bytes(data[136:144], "little")  # where the first section begins, by the directory
    if data[128] == 21:  # its role: the words of a block
        start += int.from_bytes(data[start + 136 : start + 144], "little")
    for at in range(len(data)):
        changed = bytearray(data)
        changed[at] ^= 1 << at % 8
        try:
            value = kind.over(changed)
        except ValueError:
            assert at < start
            continue
        assert at >= start and not value.check()
        yield value
    for end in range(0, len(data), 8):
        with pytest.raises(ValueError):
            kind.over(data[:end])


def answer_of(ask, *arguments):
    """An answer, or None where the block turns out to be wrong."""
    try:
        return ask(*arguments)
    except bitm.WrongTables:
        return None


def wrong_while_closed(value, wrong_of, times=20):
    """What `wrong_of` lists in four threads, until the value is closed meanwhile, which a ValueError says."""
    wrong = []

    def ask():
        for _ in range(times):
            try:
                wrong.extend(wrong_of())
            except ValueError as error:
                if "closed" not in str(error):
                    wrong.append(error)
                return

    threads = [threading.Thread(target=ask) for _ in range(4)]
    for it in threads:
        it.start()
    value.close()
    for it in threads:
        it.join()
    return wrong
