"""Builds that say how far they are: what they call, the same bytes as without, and callbacks that raise, re-enter and change what was given."""
import gc
import threading
import types

import pytest
from blocks import levels_of
from hypothesis import given, settings, strategies as st
from programs import Program
from test_keys import TEXT, siphash
from test_strings import ONE_SIPHASH

import bitm
from bitm import Dictionary, PerfectHash, Strings, TextIndex, WaveletMatrix

NAMES = [f"key {it}" for it in range(900)]
# What is built, with what is passed on to it, and how many steps there are in all.
BUILDS = (
    (lambda **how: PerfectHash(NAMES, **how), 900), (lambda **how: PerfectHash([], **how), 0), (lambda **how: PerfectHash(iter(NAMES), seed=5, percent=200, bits=3, **how), 900),
    (lambda **how: PerfectHash(NAMES, tries=9, **how), 900), (lambda **how: PerfectHash([], tries=256, **how), 0), (lambda **how: PerfectHash(NAMES, tries=1, percent=0, **how), 900),
    (lambda **how: PerfectHash(NAMES[:99], hash="blake2b", **how), 99), (lambda **how: Dictionary(range(0, 9000, 9), **how), 1000), (lambda **how: Dictionary([], **how), 0),
    (lambda **how: Strings(NAMES, **how), 900), (lambda **how: Strings([], **how), 0), (lambda **how: WaveletMatrix([3, 1, 4, 1, 5] * 99, **how), 3),
    (lambda **how: WaveletMatrix(range(2**60, 2**60 + 9), width=64, quarters=True, **how), 64), (lambda **how: WaveletMatrix([], **how), 1), (lambda **how: WaveletMatrix([1, 0], width=1, **how), 1),
    (lambda **how: TextIndex("banana" * 40, **how), 2), (lambda **how: TextIndex(b"", step=3, **how), 2), (lambda **how: TextIndex(bytearray(b"abc"), 2, **how), 2),
    (lambda **how: TextIndex.of_letters([5, 300, 2], 301, **how), 2), (lambda **how: TextIndex.of_letters([], 0, step=1, **how), 2),
)


class Stop(Exception):
    pass


@pytest.mark.parametrize("build, total", BUILDS)
def test_steps_and_bytes(build, total):
    steps = []
    found = build(progress=lambda done, total: steps.append((done, total)))
    assert steps[-1] == (total, total) and all(it[1] == total for it in steps) and steps == sorted(steps)
    assert all(type(it) is int for step in steps for it in step)
    assert bytes(found.block) == bytes(build().block) == bytes(build(progress=None).block) and found.check()


@pytest.mark.parametrize("build, total", BUILDS)
def test_an_error_in_a_step_ends_the_build(build, total):
    steps = []
    build(progress=lambda *step: steps.append(step))
    for last in range(len(steps)):
        calls = []

        def stop(done, total):
            calls.append((done, total))
            if len(calls) > last:
                raise Stop(done)

        with pytest.raises(Stop):
            build(progress=stop)
        assert calls == steps[: last + 1]


@settings(max_examples=60, deadline=None)
@given(st.sets(st.text("abü", max_size=6), max_size=200), st.integers(0, 300), st.integers(0, 2**64 - 1))
def test_the_steps_of_a_hash_are_its_levels(keys, percent, seed):
    keys, steps = sorted(keys), []
    PerfectHash(keys, percent=percent, seed=seed, progress=lambda done, total: steps.append(done))
    alone = [len(own) for _, _, own in levels_of([siphash(it.encode(), seed, TEXT) for it in keys], percent)]
    assert steps == [sum(alone[: at + 1]) for at in range(len(alone))] or (keys == [] and steps == [0])


@settings(max_examples=60, deadline=None)
@given(st.lists(st.integers(0, 9) | st.integers(0, 2**64 - 1), max_size=40), st.booleans(), st.booleans())
def test_matrices_of_any_numbers(numbers, quarters, hints):
    steps = []
    found = WaveletMatrix(numbers, quarters=quarters, hints=hints, progress=lambda *step: steps.append(step))
    width = max(1, *(it.bit_length() for it in numbers), 1)
    assert steps == [(at, width) for at in range(1, width + 1)]
    assert list(found) == numbers and bytes(found.block) == bytes(WaveletMatrix(numbers, quarters=quarters, hints=hints).block)


@settings(max_examples=60, deadline=None)
@given(st.binary(max_size=60) | st.text("ab", max_size=60), st.integers(1, 9))
def test_texts_of_any_bytes(text, step):
    assert bytes(TextIndex(text, step, progress=lambda *step: None).block) == bytes(TextIndex(text, step).block)
    letters = list(text.encode() if isinstance(text, str) else text)
    assert bytes(TextIndex.of_letters(letters, 256, progress=lambda *step: None).block) == bytes(TextIndex.of_letters(letters, 256).block)


def test_a_second_seed_begins_anew():
    """Strings that have one hash by the seed 0, whose levels are built twice."""
    steps = []
    found = Strings(ONE_SIPHASH, progress=lambda *step: steps.append(step))
    assert found.seed == 1 and steps[-1] == (2, 2) and (0, 2) in steps[:-1] and bytes(found.block) == bytes(Strings(ONE_SIPHASH).block)


def test_equal_keys_are_refused_after_their_steps():
    steps = []
    for build in (PerfectHash, Dictionary):
        with pytest.raises(ValueError, match="^keys 0 and 2 are equal: 7$"):
            build([7, 8, 7], progress=lambda *step: steps.append(step))
    assert (1, 3) in steps and (3, 3) not in steps


def test_what_is_no_function():
    for build, _ in BUILDS:
        for wrong in (5, "progress", [print], False):
            with pytest.raises(TypeError, match="progress is a function"):
                build(progress=wrong)
        with pytest.raises(TypeError):
            build(progress=lambda: None)
    for build in (lambda: WaveletMatrix([1], None, False, print), lambda: TextIndex("a", 32, print), lambda: TextIndex.of_letters([0], 1, 32, print), lambda: Strings(["a"], 100)):
        with pytest.raises(TypeError):
            build()


@pytest.mark.parametrize("build, total", BUILDS)
def test_a_step_may_build_the_same(build, total):
    inner = []
    found = build(progress=lambda done, total: inner.append(bytes(build(progress=lambda *step: gc.collect() if done == total else None).block)))
    assert set(inner) == {bytes(found.block)}


def test_steps_of_several_threads():
    wanted = {at: bytes(build().block) for at, (build, _) in enumerate(BUILDS)}
    found, steps = {}, []

    def work(at):
        found[at] = bytes(BUILDS[at][0](progress=lambda *step: steps.append((threading.current_thread(), step))).block)

    threads = [threading.Thread(target=work, args=(at,)) for at in wanted]
    for it in threads:
        it.start()
    for it in threads:
        it.join()
    assert found == wanted and {it for it, _ in steps} == set(threads)


class Bar:
    """What a bar of tqdm has."""
    def __init__(self):
        self.total, self.n, self.most = None, 0, 0

    def update(self, more):
        self.n += more
        self.most = max(self.most, self.n)

    def __enter__(self):
        return self

    def __exit__(self, *_):
        pass


def bars():
    try:
        from tqdm import tqdm
    except ImportError:
        return [Bar]
    return [Bar, lambda: tqdm(disable=None, file=types.SimpleNamespace(write=lambda it: None, flush=lambda: None))]


@pytest.mark.parametrize("made", bars())
def test_a_bar_shows_the_steps(made):
    """As README.md drives it."""
    for build, total in BUILDS:
        with made() as bar:
            def progress(done, total):
                bar.total = total
                bar.update(done - bar.n)

            build(progress=progress)
            assert (bar.n, bar.total) == (total, total)


class Steps(Program):
    """Steps that change, close and delete what a build was given, each as a program: it answers right."""
    def test_what_is_given_is_changed_meanwhile(self):
        self.run_program("""
def texts():
    given = bytearray(b"banana" * 99)
    def change(done, total): given.clear(); given.extend(b"other" * 999)
    return bitm.TextIndex(given, progress=change).find_all("nab") == list(range(4, 590, 6))
def lists():
    given = [3, 1, 4, 1, 5] * 99
    return list(bitm.WaveletMatrix(given, progress=lambda *step: given.clear())) == [3, 1, 4, 1, 5] * 99
def buffers():
    given = bytearray(b"banana" * 99)
    def change(done, total): given.clear(); given.extend(bytes(10**6))
    return bytes(bitm.WaveletMatrix(given, progress=change)) == b"banana" * 99
def keys():
    given = {f"key {it}": it for it in range(999)}
    return sorted(map(bitm.PerfectHash(given, progress=lambda *step: given.clear()).get, [f"key {it}" for it in range(999)])) == list(range(999))
def strings():
    given = [bytearray(b"a" * it) for it in range(99)]
    def change(done, total):
        for it in given: it.clear()
    return sorted(map(len, bitm.Strings(given, progress=change))) == list(range(99))
def numbers():
    given = array.array("Q", range(999))
    def change(done, total): del given[:]
    return sorted(bitm.Dictionary(given, progress=change)) == list(range(999))
print([it() for it in (texts, lists, buffers, keys, strings, numbers)])
""", ["[True, True, True, True, True, True]"])

    def test_a_value_that_is_made_anew_or_closed_meanwhile(self):
        self.run_program("""
class Anew(bitm.WaveletMatrix): pass
it = Anew([7, 7])
def again(done, total):
    if done == 1: it.__init__([9, 9, 9])
    elif done == 2: it.close()
it.__init__([1, 2, 3, 4, 5, 6, 7], progress=again); print(list(it), it.check())
def fail(done, total): it.close(); raise KeyError(done)
try: it.__init__([1, 2], progress=fail)
except KeyError as error: print(error, it.closed)
keys = bitm.PerfectHash(["a"])
def fail(done, total): raise KeyError(done)
try: keys.__init__(range(999), progress=fail)
except KeyError: print(keys["a"])
""", ["[1, 2, 3, 4, 5, 6, 7] True", "1 True", "0"])

    def test_a_step_that_is_a_cycle_and_deletes_itself(self):
        self.run_program("""
class Step:
    def __init__(self): self.me = self; self.steps = []
    def __call__(self, done, total): self.steps.append((done, total)); self.__dict__.pop("me", None); gc.collect()
def build(make):
    step = Step(); make(step); return step.steps[-1]
print(build(lambda it: bitm.TextIndex.of_letters(iter([1, 2, 3]), 4, progress=it)), build(lambda it: bitm.PerfectHash(map(str, range(99)), progress=it)))
print(bitm.WaveletMatrix([1, 2], progress=type("Step", (), {"__call__": lambda self, done, total: sys.exc_info()})())[1])
""", ["(2, 2) (99, 99)", "2"])

    def test_a_step_that_clears_the_arguments_that_hold_it(self):
        self.run_program("""
class Step:
    def __init__(self): self.steps = []
    def __call__(self, done, total):
        self.steps.append((done, total))
        for it in gc.get_referrers(self):
            if type(it) is dict and "progress" in it: it.clear(); cleared.append(type(self))
    def __del__(self): print(self.steps[-1], end=" ")
cleared = []
for make, first in ((bitm.TextIndex, "text"), (bitm.WaveletMatrix, "numbers"), (bitm.Dictionary, "keys"), (bitm.Strings, "strings"), (bitm.PerfectHash, "keys")):
    given = "banana" if first == "text" else list(map(str, range(99))) if first == "strings" else list(range(99))
    print(len(make(**{first: given[:], "progress": Step()})), end=" ")
print(len(cleared))
""", ["(2, 2) 6 (7, 7) 99 (99, 99) 99 (99, 99) 99 (99, 99) 99 5"])

    def test_a_signal_in_a_step(self):
        self.run_program("""
import signal
class Late(Exception): pass
def late(number, frame): raise Late
signal.signal(signal.SIGALRM, late)
def step(done, total): signal.raise_signal(signal.SIGALRM)
for build in (bitm.WaveletMatrix, bitm.PerfectHash, bitm.Dictionary):
    try: build(range(99), progress=step)
    except Late: print("late")
""", ["late", "late", "late"])
