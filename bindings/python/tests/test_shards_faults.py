"""Faults: a worker that is killed, files cut short, exchanged or gone, a full disk. Each is an error; nothing is lost."""
import concurrent.futures
import errno
import json
import multiprocessing
import os
import resource
import shutil
import signal

import pytest

import bitm
from bitm import BitVector, Shards, ShardError


class Dies:
    """A source whose worker is killed while it builds, once."""

    def __init__(self, mark):
        self.mark = mark

    def __call__(self):
        if not self.mark.exists():
            self.mark.touch()
            os.kill(os.getpid(), signal.SIGKILL)
        return BitVector.from_bits("0111" * 100)


def test_a_worker_that_is_killed_leaves_no_manifest(tmp_path):
    folder, sources = tmp_path / "shards", [b"\x0f" * 80, Dies(tmp_path / "mark"), b"\xff" * 80]
    context = multiprocessing.get_context("spawn")
    with concurrent.futures.ProcessPoolExecutor(2, context) as workers:
        with pytest.raises(concurrent.futures.process.BrokenProcessPool):
            Shards.build(sources, folder, map=workers.map)
    with pytest.raises(FileNotFoundError):
        Shards(folder)
    with concurrent.futures.ProcessPoolExecutor(2, context) as workers:
        shards = Shards.build(sources, folder, map=workers.map)
    assert shards.count() == 320 + 300 + 640
    shards.check(map=map)


def test_a_source_that_fails_leaves_no_manifest(tmp_path):
    with pytest.raises(TypeError):
        Shards.build([b"\xff", 5], tmp_path)
    assert not (tmp_path / "shards.json").exists()
    assert Shards.build([b"\xff", b"\x01"], tmp_path).count() == 9


def cut(path):
    os.truncate(path, os.path.getsize(path) // 2)


def emptied(path):
    os.truncate(path, 0)


def of_other_bits(path):
    """A shard of as many bits, and as many 1 bits, in a file of the same size."""
    size = os.path.getsize(path)
    bitm.Index(b"\x0f" * 500 + b"\xf0" * 500 + b"\0" * 500 + b"\xff" * 500).save(path)
    assert os.path.getsize(path) == size


def of_another_kind(path):
    bitm.EliasFano(range(100)).save(path)


def flipped(path):
    with open(path, "r+b") as file:
        file.seek(192 + 100)
        byte = file.read(1)
        file.seek(192 + 100)
        file.write(bytes([byte[0] ^ 1]))


def made(folder):
    return Shards.build([b"\x55" * 2000, b"\x33" * 2000, b"\xff" * 16], folder)


@pytest.mark.parametrize("fault", [os.unlink, cut, emptied, of_other_bits, of_another_kind])
def test_a_shard_that_is_not_the_one_of_the_manifest_is_named(fault, tmp_path):
    shards = made(tmp_path)
    fault(tmp_path / shards.parts[1].file)
    for call in (lambda: shards.rank(17000), lambda: shards.select(9000), lambda: shards.rank_list([5, 17000]), lambda: shards[17000],
                 lambda: shards[:], lambda: list(shards.ones()), shards.check, lambda: Shards(tmp_path).next_one(17000)):
        with pytest.raises(ShardError, match=f"^shard 1 \\({tmp_path}/{shards.parts[1].file}\\): "):
            call()
    assert shards.rank(100) == 50 and shards.select(16000 + 7) == 32007 and shards.count() == 16128
    shards.replace(1, b"\x33" * 2000)
    assert shards.rank(17000) == 8500
    shards.check()


def test_words_that_were_changed_are_found_by_check(tmp_path):
    shards = made(tmp_path)
    flipped(tmp_path / shards.parts[1].file)
    assert shards.rank(16000) == 8000
    with pytest.raises(ShardError, match="shard 1 .* it is not the one that the manifest names"):
        shards.check()


def test_a_manifest_of_an_index_with_wrong_tables_is_found_by_check(tmp_path):
    shards = made(tmp_path)
    path = tmp_path / shards.parts[1].file
    flipped(path)
    manifest = json.loads((tmp_path / "shards.json").read_text())
    manifest["shards"][1]["words"] = bitm.shards.words_sum_of(bitm.load(path))
    (tmp_path / "shards.json").write_text(json.dumps(manifest))
    with pytest.raises(ShardError, match="shard 1 .* its tables do not match its words"):
        Shards(tmp_path).check()


def test_two_shards_that_were_exchanged_are_both_named(tmp_path):
    shards = made(tmp_path)
    first, second = (tmp_path / it.file for it in shards.parts[:2])
    shutil.move(first, tmp_path / "it")
    shutil.move(second, first)
    shutil.move(tmp_path / "it", second)
    with pytest.raises(ShardError) as found:
        shards.check()
    assert "shard 0 " in str(found.value) and "shard 1 " in str(found.value) and "shard 2 " not in str(found.value)


def limited(call, limit):
    """Runs a call in a process whose files may not grow past a limit: what a full disk does, but for the number."""
    pid = os.fork()
    if pid == 0:
        signal.signal(signal.SIGXFSZ, signal.SIG_IGN)
        resource.setrlimit(resource.RLIMIT_FSIZE, (limit, limit))
        try:
            call()
        except OSError as error:
            os._exit(0 if error.errno == errno.EFBIG else 1)
        os._exit(2)
    assert os.waitpid(pid, 0)[1] == 0


def test_a_full_disk_changes_nothing(tmp_path):
    limited(lambda: Shards.build([b"\xff" * 100000], tmp_path / "new"), 4096)
    assert [*(tmp_path / "new").iterdir()] == []
    shards = made(tmp_path / "old")
    names = sorted(os.listdir(tmp_path / "old"))
    for call in (lambda: shards.append(b"\xff" * 100000), lambda: shards.replace(0, b"\xff" * 100000)):
        limited(call, 4096)
    limited(lambda: shards.append(b""), 256)  # the shard of 192 bytes is stored, and the manifest is not
    left = sorted(os.listdir(tmp_path / "old"))
    assert [it for it in left if it in names] == names
    assert Shards(tmp_path / "old").rank(16000) == 8000
    Shards(tmp_path / "old").check()
