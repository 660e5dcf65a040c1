"""Files: what save writes and load takes; what is refused, and what stays as it was."""
import array
import errno
import io
import mmap
import os
import pathlib
import random
import resource
import signal
import stat

import pytest
from block_values import VERSION_2, bytes_of, refused

import bitm
from bitm import BitVector, EliasFano, Index, PerfectHash


def values():
    yield Index(b"\x35" * 1000, sample_log2=7)
    yield Index(BitVector.from_bits("0110" * 77 + "1"))
    yield Index(b"")
    yield EliasFano(range(0, 90000, 37))
    yield EliasFano([])
    yield PerfectHash([f"key {it}" for it in range(300)], bits=9, seed=5)
    yield PerfectHash([], bits=0)
    yield PerfectHash([f"key {it}" for it in range(300)], bits=9, seed=5, tries=16)
    yield PerfectHash([], tries=1)
    yield bitm.SparseBits(range(0, 900, 7), 1000).positions


@pytest.mark.parametrize("value", values(), ids=repr)
def test_each_way_in_and_out(value, tmp_path):
    path = tmp_path / "it"
    value.save(path)
    data = path.read_bytes()
    assert data == bytes_of(value)
    number = os.open(path, os.O_RDONLY)
    with open(path, "rb") as file, open(path, "rb", buffering=0) as raw:
        made = [bitm.load(path), bitm.load(path, mmap=True), bitm.load(str(path)), bitm.load(os.fsencode(path)), bitm.load(file),
                bitm.load(raw), bitm.load(number), bitm.load(number, mmap=True), bitm.loads(data), bitm.loads(bytearray(data)),
                bitm.loads(memoryview(data)), bitm.loads(array.array("Q", data)), bitm.loads(b"x" + data and data + b"\0" * 5)]
        made.append(bitm.loads(mmap.mmap(file.fileno(), 0, access=mmap.ACCESS_READ)))
    os.close(number)
    for it in made:
        assert type(it) is type(value) and it.check() and len(it) == len(value) and bytes_of(it) == data
        if not isinstance(it, PerfectHash):
            assert it == value


def test_a_mapped_file_is_read_where_it_lies(tmp_path):
    path = tmp_path / "it"
    Index(bytes(1 << 25)).save(path)
    before = resource_pages()
    with bitm.load(path, mmap=True) as index:
        assert index.rank0(1 << 27) == 1 << 27
        with open(path, "rb") as file:
            mapped = mmap.mmap(file.fileno(), 0, access=mmap.ACCESS_READ)
        begin = int.from_bytes(mapped[136:144], "little")  # of the words, by the directory
        assert Index(memoryview(mapped)[begin : begin + (1 << 25)]).count() == 0
    assert resource_pages() - before < 1 << 23


def resource_pages():
    """Bytes of memory that is the process's own, without mapped files."""
    with open("/proc/self/status", encoding="ascii") as file:
        return next(1024 * int(line.split()[1]) for line in file if line.startswith("RssAnon"))


@pytest.mark.parametrize("value", [Index(b"\x35" * 100, sample_log2=7), EliasFano(range(50)), PerfectHash(range(50))], ids=repr)
def test_wrong_files_are_value_errors(value, tmp_path):
    path, data = tmp_path / "it", bytes_of(value)
    begin = int.from_bytes(data[136:144], "little")
    for at in [*range(begin), *range(begin, len(data), 64), len(data) - 1]:
        refused(data[:at], path, at % 16 == 0)
    for at in range(begin):
        for bit in range(8):
            refused(data[:at] + bytes([data[at] ^ 1 << bit]) + data[at + 1 :], path, at % 16 == 0 and bit == 0)


def test_any_bytes_in_the_parts_give_answers_or_wrong_tables():
    random.seed(3)
    for value in (Index(b"\x35" * 400, sample_log2=7), EliasFano(range(0, 5000, 7)), PerfectHash(range(200), bits=3)):
        data = bytearray(bytes_of(value))
        for _ in range(600):
            at = random.randrange(192, len(data))
            kept, data[at] = data[at], random.randrange(256)
            try:
                ask(bitm.loads(bytes(data)))
            except (ValueError, bitm.WrongTables):
                pass
            data[at] = kept


def ask(it):
    repr(it), it.check(), len(it)
    if isinstance(it, PerfectHash):
        assert all(at is None or 0 <= at < len(it) for at in map(it.get, range(20)))
    elif isinstance(it, EliasFano):
        it[5], it.first_at_least(700), list(it), bitm._core.sequence_window(it), it[3:9], it[::-1], it.contains_list([5])
    else:
        it.rank(len(it)), it.select(300), it.select_list(range(500)), it.next_zero(77), list(it.ones()), it.count()


def test_small_files_that_claim_much(tmp_path):
    data = bytearray((VERSION_2 / "hash").read_bytes())
    mark = data.find(b"bitmhas2")
    for at in range(6):
        wrong = data[: mark + 8 * at] + (2**64 - 1).to_bytes(8, "little") + data[mark + 8 * at + 8 :]
        try:  # without its mark it is an index; its seed may be any number
            assert isinstance(bitm.loads(wrong), Index if at == 0 else PerfectHash) and at in (0, 3)
        except ValueError:
            assert at not in (0, 3)
    path = tmp_path / "holes"
    path.write_bytes(data)
    os.truncate(path, 1 << 42)
    path.write_bytes(b"not one")
    os.truncate(path, 1 << 42)
    with pytest.raises(ValueError):
        bitm.load(path)


def test_kinds_of_sources_and_targets(tmp_path):
    index = Index(b"\xff" * 64)
    for call in (lambda: bitm.load(io.StringIO("text")), lambda: bitm.load(5.5), lambda: bitm.loads("text"), lambda: bitm.loads(None),
                 lambda: index.save(5.5), lambda: index.save(None)):
        with pytest.raises(TypeError):
            call()
    for call in (lambda: bitm.load(tmp_path / "none"), lambda: index.save(tmp_path / "none" / "it"), lambda: index.save(tmp_path), lambda: bitm.load(tmp_path)):
        with pytest.raises(OSError):
            call()
    with pytest.raises(ValueError):
        bitm.load(io.BytesIO(bytes_of(index)), mmap=True)
    read, write = os.pipe()
    os.write(write, bytes_of(index))
    os.close(write)
    assert bitm.load(read).count() == 512
    os.close(read)
    with open(tmp_path / "raw", "wb", buffering=0) as file:
        index.save(file)
    assert bitm.load(tmp_path / "raw") == index


def test_save_keeps_mode_links_and_devices(tmp_path):
    index, target, link = Index(b"\xff" * 64), tmp_path / "target", tmp_path / "link"
    target.touch(0o600)
    link.symlink_to(target)
    index.save(link)
    assert link.is_symlink() and stat.S_IMODE(target.stat().st_mode) == 0o600 and bitm.load(target) == index
    (tmp_path / "loose").symlink_to(tmp_path / "nothing yet")
    index.save(tmp_path / "loose")
    assert bitm.load(tmp_path / "nothing yet") == index
    os.mkfifo(tmp_path / "fifo")
    for path in (tmp_path / "fifo", "/dev/null"):
        with pytest.raises(OSError):
            index.save(path)
    assert stat.S_ISFIFO(os.stat(tmp_path / "fifo").st_mode) and stat.S_ISCHR(os.stat("/dev/null").st_mode)
    for name in ("n" * 255, "ä"):
        index.save(os.fsencode(tmp_path / name))
        assert bitm.load(tmp_path / name) == index
    assert sorted(it.name for it in tmp_path.iterdir()) == sorted(["target", "link", "loose", "nothing yet", "fifo", "n" * 255, "ä"])


def test_a_save_that_fails_leaves_the_old_file(tmp_path):
    path = tmp_path / "it"
    Index(b"\xff").save(path)
    pid = os.fork()
    if pid == 0:
        signal.signal(signal.SIGXFSZ, signal.SIG_IGN)
        resource.setrlimit(resource.RLIMIT_FSIZE, (4096, 4096))
        try:
            Index(bytes(1 << 20)).save(path)
        except OSError as error:
            os._exit(0 if error.errno == errno.EFBIG else 1)
        os._exit(2)
    assert os.waitpid(pid, 0)[1] == 0
    assert [it.name for it in tmp_path.iterdir()] == ["it"] and bitm.load(path).count() == 8

    class Full(io.BytesIO):
        def write(self, data):
            raise OSError(errno.ENOSPC, "full")

    with pytest.raises(OSError):
        Index(b"\xff").save(Full())


def test_a_name_that_others_foretell_is_refused(tmp_path, monkeypatch):
    victim, path = tmp_path / "victim", tmp_path / "it"
    victim.write_bytes(b"mine")
    monkeypatch.setattr("secrets.token_hex", lambda count: "0" * (2 * count))
    (tmp_path / (".bitm-" + "0" * 24)).symlink_to(victim)
    with pytest.raises(FileExistsError):
        Index(b"\xff").save(path)
    assert victim.read_bytes() == b"mine" and not path.exists()


def killed_while_it_saves(path):
    """A process that writes much to a path, and is killed when all but the last step is done."""
    pid = os.fork()
    if pid == 0:
        os.fsync = lambda number: os.kill(os.getpid(), signal.SIGKILL)
        Index(bytes(1 << 20)).save(path)
        os._exit(0)
    assert os.waitpid(pid, 0)[1] == signal.SIGKILL


def test_a_process_that_is_killed_leaves_what_stood_there_and_nothing_else(tmp_path):
    path, index = tmp_path / "it", Index(b"\xff" * 64)
    try:
        os.close(os.open(tmp_path, os.O_WRONLY | os.O_TMPFILE))
    except OSError:
        pytest.skip("this file system has no files without a name")
    killed_while_it_saves(path)
    assert [*tmp_path.iterdir()] == []
    index.save(path)
    killed_while_it_saves(path)
    assert [it.name for it in tmp_path.iterdir()] == ["it"] and bitm.load(path) == index


def test_a_file_system_without_files_that_have_no_name(tmp_path, monkeypatch):
    path, index, opened = tmp_path / "it", Index(b"\xff" * 64), os.open

    def without(path, flags, *more, **named):
        if flags & os.O_TMPFILE == os.O_TMPFILE:
            raise OSError(errno.EOPNOTSUPP, "it has none")
        return opened(path, flags, *more, **named)

    monkeypatch.setattr(os, "open", without)
    for bits in (index, Index(b"\x0f" * 64)):
        bits.save(path)
        assert [it.name for it in tmp_path.iterdir()] == ["it"] and bitm.load(path) == bits
    killed_while_it_saves(path)
    assert sorted(it.name[:6] for it in tmp_path.iterdir()) == [".bitm-", "it"] and bitm.load(path) == Index(b"\x0f" * 64)
    (tmp_path / "other").mkdir()
    test_a_name_that_others_foretell_is_refused(tmp_path / "other", monkeypatch)


def test_a_file_is_synced_before_it_is_put_in_its_place_and_its_folder_after(tmp_path, monkeypatch):
    done, sync, replace = [], os.fsync, os.replace
    monkeypatch.setattr(os, "fsync", lambda number: (done.append("folder" if stat.S_ISDIR(os.fstat(number).st_mode) else "file"), sync(number)))
    monkeypatch.setattr(os, "replace", lambda one, other: (done.append("replace"), replace(one, other)))
    Index(b"\xff").save(tmp_path / "it")
    assert done == ["file", "replace", "folder"]


def test_a_file_that_takes_less(tmp_path):
    index = Index(bytes(1 << 20))

    class Slow(io.BytesIO):
        def write(self, data):
            return super().write(bytes(data[:1000]))

    class Silent:
        data = b""

        def write(self, data):
            self.data += bytes(data)

    for file, taken in ((Slow(), io.BytesIO.getvalue), (Silent(), lambda it: it.data)):
        index.save(file)
        assert bitm.loads(taken(file)) == index
    for count in (0, -1, 1 << 40):
        file = Silent()
        file.write = lambda data, count=count: count
        with pytest.raises(OSError):
            index.save(file)
    read, write = os.pipe()
    os.set_blocking(write, False)
    with open(write, "wb", buffering=0) as file, pytest.raises(BlockingIOError):
        index.save(file)  # which takes 64 KiB, and then nothing
    os.close(read)


def test_a_descriptor_is_read_from_its_start(tmp_path):
    path, index = tmp_path / "it", Index(b"\xff" * 64)
    index.save(path)
    with open(path, "rb") as file:
        for _ in range(2):
            assert bitm.load(file.fileno()) == index


def test_a_descriptor_of_a_callers_stays_open(tmp_path):
    index = Index(b"\xff" * 64)
    index.save(tmp_path / "it")

    class Number:
        def __index__(self):
            return number

    with open(tmp_path / "it", "rb") as file:
        number = file.fileno()
        for source in (number, Number()):
            assert bitm.load(source) == bitm.load(source, mmap=True) == index
            os.fstat(number)


def test_a_signal_that_saves_to_the_same_path(tmp_path):
    path, index = tmp_path / "it", Index(b"\xff" * 64)

    class Path:
        def __fspath__(self):
            index.save(path)
            return str(path)

    index.save(Path())

    class Interrupts(io.BytesIO):
        def write(self, data):
            index.save(path)
            return super().write(data)

    index.save(Interrupts())
    assert bitm.load(path) == index and [it.name for it in tmp_path.iterdir()] == ["it"]


def test_an_index_of_fewer_bits_than_its_words(tmp_path):
    words = array.array("Q", [2**64 - 1] * 50)
    upper, lower, _ = bitm.tables_of(words)
    for length in (0, 1, 64, 100, 3136, 3137, 3200):
        index = Index.over(words, upper, lower, length)
        again = bitm.loads(bytes_of(index))
        assert (len(again), again.count(), again.check()) == (length, length, True)
