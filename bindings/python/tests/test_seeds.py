"""Perfect hashes with a seed for each word: beside a plain dictionary, and beside blocks that are written by docs/FORMAT.md alone; drawn
keys by Hypothesis; files and buffers of blocks, of which bytes were changed or cut off."""
import gc
import io
import random

import pytest
from block_values import answer_of, refuses_another, refuses_once_closed, stored_and_copied, wrong_while_closed
from blocks import as_bytes, block, hash_sections, of_hash, of_seeded_hash, packed
from hypothesis import given, settings, strategies as st
from test_keys import TEXT, mixed, siphash

import bitm
from bitm import PerfectHash

MARK = int.from_bytes(b"bitmhas2", "little")


def keys_of(count, start=0):
    return [f"key {it}" for it in range(start, start + count)]


def as_plain(numbers, keys, strangers):
    """Each key has a number of its own, and what is none has that of some key, or none."""
    assert len(numbers) == len(keys) and numbers.check() and numbers.has_seeds
    found = numbers.get_list(keys)
    assert sorted(found) == list(range(len(keys))) and found == [numbers[key] for key in keys] == [numbers.get(key) for key in keys]
    others = numbers.get_list(strangers)
    assert others == [numbers.get(it) for it in strangers] and all(it is None or 0 <= it < len(keys) for it in others)
    assert [it is not None for it in others] == [it in numbers for it in strangers]
    return sum(it is not None for it in others)


@pytest.mark.parametrize("count", [0, 1, 2, 3, 63, 64, 65, 700, 20000])
@pytest.mark.parametrize("tries, percent", [(1, 100), (64, 100), (256, 200), (5, 0)])
def test_each_key_has_a_number_of_its_own(count, tries, percent):
    taken = as_plain(PerfectHash(keys_of(count), tries=tries, percent=percent), keys_of(count), keys_of(2000, count))
    assert taken < 9
    as_plain(PerfectHash(iter(keys_of(count)), tries=tries, percent=percent, bits=0), keys_of(count), keys_of(20, count))


@settings(max_examples=60, deadline=None)
@given(st.sets(st.text(max_size=5) | st.binary(max_size=5) | st.integers(-(2**70), 2**70), max_size=60), st.integers(1, 256), st.integers(0, 400), st.integers(0, 64), st.integers(0, 2**64 - 1))
def test_any_keys_and_any_settings(keys, tries, percent, bits, seed):
    numbers = PerfectHash(keys, tries=tries, percent=percent, bits=bits, seed=seed)
    assert (numbers.seed, numbers.bits, numbers.hash) == (seed, bits, "siphash")
    as_plain(numbers, list(keys), [])


def test_a_key_takes_fewer_bits():
    keys = range(100000)
    plain, seeded = io.BytesIO(), PerfectHash(keys, tries=64, bits=0)
    PerfectHash(keys, bits=0).save(plain)
    assert 8 * seeded.block.nbytes < 2.35 * len(keys) < 2.8 * len(keys) < 8 * len(plain.getvalue())


def as_written(keys, tries, percent, bits, seed):
    """The block by docs/FORMAT.md alone, with the fingerprints at the numbers that the library answers."""
    hashes = {key: siphash(key.encode(), seed, TEXT) for key in keys}
    plain = of_seeded_hash(len(keys), percent, [*hashes.values(), tries], seed)
    sections = []
    for at in range(16, 36, 4):
        role, begin, items, _ = plain[at : at + 4]
        sections.append((role, plain[begin // 8 :][: -(-items // 8) if role == 15 else items], items))
    numbers = PerfectHash(keys, tries=tries, percent=percent, bits=bits, seed=seed)
    placed = sorted(keys, key=numbers.get)
    prints = packed([mixed(hashes[key]) >> k & 1 for key in placed for k in range(bits)])
    return as_bytes(block(5, len(keys), 0, [*sections, (MARK, [bits, *prints], 8 + 8 * len(prints))], a=seed)), numbers


@pytest.mark.parametrize("count", [0, 1, 5, 300])
def test_the_block_is_that_of_the_documents(count):
    for tries, percent, bits, seed in ((1, 100, 16, 0), (9, 200, 0, 5), (256, 50, 64, 2**64 - 1), (64, 100, 7, 1)):
        wanted, numbers = as_written(keys_of(count), tries, percent, bits, seed)
        assert bytes(numbers.block) == wanted
        as_plain(PerfectHash.over(wanted), keys_of(count), [])


def test_without_tries_there_are_no_seeds():
    plain, data = PerfectHash(keys_of(50)), io.BytesIO()
    plain.save(data)
    assert not plain.has_seeds and not bitm.loads(data.getvalue()).has_seeds and plain.get_list(keys_of(50)) == PerfectHash(keys_of(50), tries=None).get_list(keys_of(50))
    assert data.getvalue() == bytes(plain.block) and [role for role, _ in bitm.sections(plain.block)] == [1, 2, 3, 4, MARK]


@pytest.mark.parametrize("count", [0, 1, 5, 300])
def test_the_block_without_seeds_is_that_of_the_documents(count):
    for percent, bits, seed in ((100, 16, 0), (200, 0, 5), (50, 64, 2**64 - 1)):
        keys = keys_of(count)
        hashes = {key: siphash(key.encode(), seed, TEXT) for key in keys}
        sections, order = hash_sections(list(hashes.values()), percent)
        prints = packed([mixed(it) >> k & 1 for it in order for k in range(bits)])
        wanted = as_bytes(block(5, count, 0, [*sections, (MARK, [bits, *prints], 8 + 8 * len(prints))], a=seed))
        numbers = PerfectHash(keys, percent=percent, bits=bits, seed=seed)
        assert bytes(numbers.block) == wanted and PerfectHash.over(wanted).get_list(keys) == [order.index(hashes[key]) for key in keys]


def test_blake2b_and_numpy():
    numpy = pytest.importorskip("numpy")
    keys = numpy.array(random.Random(3).sample(range(2**40), 3000))
    numbers = PerfectHash(keys, tries=16)
    assert numpy.sort(numbers.get_list(keys)).tolist() == list(range(3000)) and numbers.get_list(keys).tolist() == numbers.get_list(keys.tolist())
    old = PerfectHash(keys_of(40), tries=16, hash="blake2b")
    as_plain(old, keys_of(40), keys_of(40, 40))
    again = bitm.loads(bytes(old.block))
    assert again.hash == "blake2b" and again.get_list(keys_of(40)) == old.get_list(keys_of(40))


def test_wrong_arguments():
    for tries in (0, 257, 2**64 - 1):
        with pytest.raises(ValueError, match="256"):
            PerfectHash("ab", tries=tries)
    for tries, error in ((-1, OverflowError), (2**64, OverflowError), ("64", TypeError), (64.0, TypeError), ([64], TypeError)):
        with pytest.raises(error):
            PerfectHash("ab", tries=tries)
    for call, error in ((lambda: PerfectHash(["a", "a"], tries=4), ValueError), (lambda: PerfectHash("ab", tries=4, bits=65), ValueError), (lambda: PerfectHash(5, tries=4), TypeError),
                        (lambda: PerfectHash([1.5], tries=4), TypeError), (lambda: PerfectHash("ab", 16, 100, None, "siphash", 4), TypeError), (lambda: PerfectHash.over(5), TypeError),
                        (lambda: PerfectHash.over(b""), ValueError), (lambda: PerfectHash.over(bytes(800)), ValueError), (lambda: PerfectHash.over(b"1234567"), TypeError)):
        with pytest.raises(error):
            call()
    assert PerfectHash("ab", tries=True).has_seeds and repr(PerfectHash("ab", tries=4)) == "PerfectHash(keys=2, width=16)"


def test_files_and_copies(tmp_path):
    keys = keys_of(300)
    numbers = PerfectHash(keys, tries=64, bits=9, seed=7)
    found = numbers.get_list(keys)
    for other in stored_and_copied(numbers, tmp_path / "keys"):
        kept = other.block
        assert other.get_list(keys) == found and (other.seed, other.bits, other.hash, other.has_seeds) == (7, 9, "siphash", True)
        refuses_once_closed(other, lambda it: it["a"], lambda it: it.get("a"), lambda it: "a" in it, lambda it: it.seed, lambda it: it.bits, lambda it: it.hash, lambda it: it.has_seeds,
                            lambda it: it.block, lambda it: it.check(), lambda it: it.get_list(["a"]))
        assert PerfectHash.over(kept).get_list(keys) == found
    refuses_another(PerfectHash, bytes(numbers.block), "perfect hash")
    for data in (bytes(numbers.block), bytes(bitm.Dictionary([1, 2]).block)):
        with pytest.raises(ValueError, match="strings"):
            bitm.Strings.over(data)
    with pytest.raises(ValueError, match="dictionary"):
        bitm.Dictionary.over(numbers.block)
    with pytest.raises(ValueError, match="perfect hash"):
        PerfectHash.over(bitm.Dictionary([1, 2]).block)


def test_sections_of_ones_own_stay(tmp_path):
    numbers = PerfectHash(keys_of(30), tries=4)
    noted = bitm.extend(numbers.block, {bitm.sections(numbers.block)[5][0]: b"no fingerprints", 65536: b"note"})
    (tmp_path / "noted").write_bytes(noted)
    for other in (bitm.load(tmp_path / "noted", mmap=True), PerfectHash.over(noted), bitm.loads(noted)):
        assert other.get_list(keys_of(30)) == numbers.get_list(keys_of(30)) and other.check() and bytes(bitm.section(other.block, 65536)) == b"note"


def test_blocks_whose_keys_were_hashed_in_another_way_or_without_fingerprints():
    plain = as_bytes(of_seeded_hash(2, 100, [5, 6, 9], 3))
    right = bitm.extend(plain, {MARK: (16).to_bytes(8, "little") + bytes(8)})
    assert len(PerfectHash.over(right)) == 2 and len(bitm.loads(right)) == 2
    words = [it.to_bytes(8, "little") for it in (0, 16, 65, 2**64 - 1)]
    wrong = [b"", words[0] + words[0], words[1], words[1] * 3, words[1] + bytes(7), words[2] + words[0] * 3, words[3] + bytes(8), b"\x10"]
    for data in [plain, as_bytes(of_hash(2, 100, [5, 6], 3)), *(bitm.extend(plain, {MARK: it}) for it in wrong), *(bitm.extend(plain, [(role, words[1] * 2)]) for role in (65536, 7, 5, MARK + 1)),
                 bitm.extend(plain, [(65536, b""), (MARK, words[1] * 2)])]:
        for call in (PerfectHash.over, bitm.loads, bitm.Dictionary.over):
            if not (call is bitm.Dictionary.over and data == plain):
                with pytest.raises(ValueError):
                    call(data)
    assert len(PerfectHash.over(bitm.extend(plain, {MARK: words[0]}))) == 2  # of fingerprints without bits


def test_the_block_lives_as_long_as_a_view_of_it():
    view = PerfectHash(keys_of(900), tries=9).block
    gc.collect()
    assert sorted(PerfectHash.over(view).get_list(keys_of(900))) == list(range(900))
    with pytest.raises(TypeError):
        view[0] = 1


def test_each_changed_byte_and_each_prefix_is_seen():
    """A changed width of the fingerprints does not open: it stands in the first word of their section."""
    keys = keys_of(9)
    data = bytes(PerfectHash(keys, tries=3).block)
    start = int.from_bytes(data[16 * 8 + 5 * 32 + 8 :][:8], "little")
    opened = 0
    for at in range(len(data)):
        changed = bytearray(data)
        changed[at] ^= 1 << at % 8
        try:
            numbers = PerfectHash.over(changed)
        except ValueError:
            assert at < 320 or start <= at < start + 8
            continue
        opened += 1
        assert not numbers.check()
        for key in keys:
            number = answer_of(numbers.get, key)
            assert number is None or 0 <= number < 9
        answer_of(numbers.get_list, keys)
    assert opened > len(data) // 3
    for end in range(0, len(data), 8):
        with pytest.raises(ValueError):
            PerfectHash.over(data[:end])


def test_threads_ask_and_close_at_once():
    keys = keys_of(4000)
    numbers = PerfectHash(keys, tries=9)
    found = numbers.get_list(keys)
    assert not wrong_while_closed(numbers, lambda: [it for it in zip(numbers.get_list(keys), found) if it[0] != it[1]])
