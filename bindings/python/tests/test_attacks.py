"""Each break that an attack found in the ctypes package, as a program of its own: it has to answer right, or raise."""
import sys
import unittest

from programs import Program


class Attack(Program):
    # 1. the collector finalizes what holds a buffer before what asks

    def test_cycle_with_a_finalizer_that_asks_a_mapped_index(self):
        self.run_program("""
bitm.Index(bytes(1 << 20)).save(path)
class Owner:
    def __init__(self, index): self.index, self.me = index, self
    def __del__(self): print(self.index.closed, self.index.rank0(5000000), self.index.check())
Owner(bitm.load(path, mmap=True)); gc.collect(); print("survived")
""", ["False 5000000 True", "survived"])

    def test_frame_that_keeps_its_exception(self):
        self.run_program("""
bitm.Index(bytes(1 << 20)).save(path)
class Reporter:
    def __init__(self, index): self.index = index
    def __del__(self): print(self.index.rank0(5000000))
def work():
    reporter = Reporter(bitm.load(path, mmap=True))
    try: raise ValueError
    except ValueError as error: kept = error
work(); gc.collect(); print("survived")
""", ["5000000", "survived"])

    def test_cycle_with_each_type(self):
        self.run_program("""
words = array.array("Q", b"\\xff" * (8 << 17))
class Owner:
    def __init__(self, it): self.it, self.me = it, self
    def __del__(self):
        junk = [array.array("Q", [7] * 4096) for _ in range(50)]
        if isinstance(self.it, bitm.Index): print(self.it.check(), self.it.select(7000000))
        elif isinstance(self.it, bitm.EliasFano): print(self.it.check(), self.it[5], sum(1 for _ in self.it))
        elif isinstance(self.it, bitm.PerfectHash): print(self.it.check(), sorted(self.it[k] for k in range(5))[0] >= 0)
        elif isinstance(self.it, memoryview): print(bytes(self.it[:3]))
        else: print(next(self.it))
Owner(bitm.Index(words)); Owner(bitm.EliasFano(range(300000))); Owner(bitm.PerfectHash(range(1000)))
Owner(bitm.Index(words, sample_log2=7)); Owner(bitm.Index(words).ones(7)); Owner(iter(bitm.EliasFano([3, 4])))
Owner(bitm.PerfectHash(range(1000), tries=16)); Owner(bitm.section(bitm.extend(bitm.Tree([0] * 1).block, {65536: b"abc" * 9999}), 65536))
gc.collect(); print("survived")
""", ["True 7000000", "True 5 300000", "True True", "True 7000000", "7", "3", "True True", "b'abc'", "survived"])

    def test_index_that_is_brought_back(self):
        self.run_program("""
kept = []
class R:
    def __init__(self): self.me = self; self.index = bitm.Index(array.array("Q", b"\\xff" * (8 << 17)))
    def __del__(self): kept.append(self.index)
R(); gc.collect(); print(kept[0].closed)
try: print(kept[0].select(7000000))
except ValueError as error: print(error)
""", ["False", "7000000"])

    def test_index_in_a_cycle_through_its_own_buffer(self):
        self.run_program("""
class Words(bytearray): pass
words = Words(b"\\xff" * 8000); words.index = bitm.Index(words); print(words.index.rank(64)); del words
print(gc.collect() > 0, gc.garbage)
class Sub(bitm.Index): pass
it = Sub(b"\\xff" * 64); it.me = it; it.walk = it.ones(); print(next(it.walk)); del it; print(gc.collect() > 0)
""", ["64", "True []", "0", "True"])

    def test_finalizer_at_exit(self):
        self.run_program("""
class Late:
    def __init__(self, i): self.i = i
    def __del__(self): os.write(1, b"at exit: %d\\n" % self.i.select(3))
late = Late(bitm.Index(array.array("Q", [2**64 - 1] * 1000))); sys.modules["zz_keep"] = late
registry = {}; registry["a"] = Late(bitm.Index(b"\\xff" * 64)); registry["self"] = registry
""", ["at exit: 3", "at exit: 3"])

    def test_collection_in_the_midst_of_a_call_that_closes(self):
        # Making an object of the collector's may collect (3.11), and so run a finalizer that closes what is asked.
        self.run_program("""
import io
class Closer:
    def __init__(self, it): self.it, self.me = it, self
    def __del__(self): self.it.close()
closed = right = 0
def turn(make, call, want):
    global closed, right
    for threshold in range(1, 12):
        gc.set_threshold(0); gc.collect(); it = make(); Closer(it); gc.set_threshold(threshold)
        try: got = call(it)
        except ValueError: closed += 1
        else: assert want is None or got == want, (got, want); right += 1
index = lambda: bitm.Index(b"\\xff" * 8000, sample_log2=7)
for call, want in ((copy.copy, None), (lambda i: i.words.nbytes, 8000), (lambda i: i.rank_list([1, 2]), [1, 2]), (lambda i: i.select_list(array.array("Q", [1, 2])), [1, 2]),
                   (lambda i: len(pickle.dumps(i, 5)) > 8000, True), (lambda i: i.save(io.BytesIO()), None), (lambda i: list(i.ones(63990)), list(range(63990, 64000))),
                   (lambda i: i[5:7].count(), 2), (lambda i: i == index(), True), (lambda i: bitm._core.parts(i)[0][0], 64000), (repr, None)):
    turn(index, call, want)
sequence = lambda: bitm.EliasFano(range(1000))
for call, want in ((copy.copy, None), (lambda s: s.parts[0] >= 0, True), (lambda s: s.get_list([1, 2]), [1, 2]), (lambda s: list(s)[:3], [0, 1, 2]), (lambda s: s[5:7], [5, 6]), (lambda s: s[7:5:-1], [7, 6]),
                   (lambda s: next(s.from_value(9)), 9), (lambda s: len(pickle.dumps(s, 5)) > 100, True), (lambda s: s.save(io.BytesIO()), None), (lambda s: s == sequence(), True), (repr, None)):
    turn(sequence, call, want)
for call, want in ((copy.copy, None), (lambda h: h.get_list([1, 2]) != [], True), (lambda h: len(pickle.dumps(h, 5)) > 100, True), (lambda h: h.save(io.BytesIO()), None)):
    turn(lambda: bitm.PerfectHash(range(100)), call, want)
    turn(lambda: bitm.PerfectHash(range(100), tries=9), call, want)
note = {65536: b"note"}
for call, want in ((lambda t: len(bitm.Tree.over(bitm.extend(t.block, note))), 3), (lambda t: len(bitm.sections(t.block)), 4), (lambda t: bitm.section(t.block, 65536), None),
                   (lambda t: bitm.is_written(t.block), True), (lambda t: bitm.PerfectHash(map(str, t.children(0)), tries=3).has_seeds, True)):
    turn(lambda: bitm.Tree([2, 0, 0]), call, want)
words = list(map(str, range(100)))
for call, want in ((copy.copy, None), (lambda s: s.find_list(words[:2]) != [], True), (lambda s: len(s[1:50]), 49), (lambda s: len(list(s)), 100),
                   (lambda s: len(pickle.dumps(s, 5)) > 100, True), (lambda s: s.save(io.BytesIO()), None), (repr, None)):
    turn(lambda: bitm.Strings(words), call, want)
gc.set_threshold(700); print(closed + right == 42 * 11, closed > 0)
""", ["True True"])

    def test_parts_that_their_owner_resizes(self):
        self.run_program("""
made = bitm.EliasFano(range(0, 300000, 3)); width, *parts = made.parts
parts = [array.array("Q", it) for it in parts]
sequence = bitm.EliasFano.over(100000, width, *parts)
words = array.array("Q", b"\\xff" * 800); upper, lower, _ = bitm.tables_of(words); index = bitm.Index.over(words, upper, lower)
refused = 0
for it in (*parts, words, upper, lower):
    for cut in (lambda: it.append(1), lambda: it.pop(), lambda: it.extend([1] * 10**6)):
        try: cut()
        except BufferError: refused += 1
print(refused, sequence == made, index.select(6399))
sequence.close(); index.close(); parts[0].pop(); words.append(1); print("given back")
""", ["21 True 6399", "given back"])

    # 2. close while a save runs

    def test_path_that_closes(self):
        self.run_program("""
index = bitm.Index(b"\\xff" * (1 << 22), sample_log2=7)
class Path:
    def __fspath__(self): index.close(); return path
try: index.save(Path()); print(bitm.load(path).check())
except ValueError as error: print(error)
print(index.closed)
""", ["it is closed", "True"])

    def test_close_in_another_thread(self):
        self.run_program("""
bad = good = 0
for n in range(30):
    index = bitm.Index(b"\\xff" * (1 << 21), sample_log2=7)
    timer = threading.Timer(0.0003 * n, index.close); timer.start()
    try: index.save(path)
    except ValueError: continue
    finally: timer.join()
    good += 1; bad += not bitm.load(path).check()
print(bad, good > 0)
""", ["0 True"])

    def test_file_object_that_closes(self):
        self.run_program("""
import io
for made in (bitm.Index(b"\\xff" * (1 << 20), sample_log2=7), bitm.EliasFano(range(100000)), bitm.PerfectHash(range(1000)), bitm.PerfectHash(range(1000), tries=9)):
    class File(io.BytesIO):
        def write(self, data): made.close(); gc.collect(); return super().write(data)
    file = File(); made.save(file); print(bitm.loads(file.getvalue()).check(), made.closed)
""", ["True True"] * 4)

    # 3. length from one look, memory from another

    @unittest.skipIf(sys.version_info < (3, 12), "classes have no __buffer__")
    def test_buffers_that_differ_at_each_look(self):
        self.run_program("""
class Two:
    def __init__(self, *them): self.them, self.n = them, 0
    def __buffer__(self, flags):
        it = self.them[min(self.n, len(self.them) - 1)]; self.n += 1
        return memoryview(it)
long, short, none = array.array("Q", bytes(8 << 20)), array.array("Q", [1, 2, 3]), array.array("Q")
print([len(bitm.BitVector.from_words(Two(a, b))) for a, b in ((long, short), (long, none), (short, long), (none, long))])
print([len(bitm.Index(Two(a, b))) for a, b in ((long, short), (long, none), (short, long), (none, long))])
print(list(bitm.EliasFano(Two(short, array.array("q", [-5, -4, 7])))))
print(bitm.Index(short).rank_list(Two(array.array("Q", [64]), long)))
""", ["[67108864, 67108864, 192, 0]", "[67108864, 67108864, 192, 0]", "[1, 2, 3]", "[1]"])

    @unittest.skipIf(sys.version_info < (3, 12), "classes have no __buffer__")
    def test_blocks_that_differ_at_each_look(self):
        self.run_program("""
class Two:
    def __init__(self, *them): self.them, self.n = them, 0
    def __buffer__(self, flags):
        it = self.them[min(self.n, len(self.them) - 1)]; self.n += 1
        return memoryview(it)
tree = bytes(bitm.Tree([2, 0, 0]).block); noted = bitm.extend(tree, {65536: bytes(5000)})
for a, b in ((tree, noted), (noted, tree), (noted, b""), (b"", noted)):
    for call in (bitm.is_written, lambda it: len(bitm.sections(it)), lambda it: len(bitm.extend(it, {65536: Two(b"abc", noted)})), lambda it: len(bitm.Tree.over(it))):
        try: print(call(Two(a, b)), end=" ")
        except ValueError: print("refused", end=" ")
print("survived")
""", ["True 3 512 3 True 4 5632 3 True 4 5632 3 False refused refused refused survived"])

    def test_array_that_another_thread_shortens(self):
        self.run_program("""
sys.setswitchinterval(1e-6)
N = 1 << 14
a = array.array("Q", bytes(8 * N)); stop = False
def shrink():
    while not stop:
        try: del a[1:]
        except BufferError: pass
        try: a.extend(array.array("Q", bytes(8 * (N - len(a)))))
        except BufferError: pass
thread = threading.Thread(target=shrink); thread.start()
end, odd = time.time() + 4, 0
while time.time() < end:
    for call in (bitm.BitVector.from_words, bitm.Index, bitm.EliasFano):
        try: made = call(a)
        except (ValueError, BufferError): continue
        odd += any(made) if call is bitm.EliasFano else made.count()
stop = True; thread.join(); print(odd)
""", ["0"])

    # objects that were never made, or are made another's

    def test_objects_of_another_class_or_of_none(self):
        self.run_program("""
import itertools
def ask(it):
    calls = [len, list, repr, iter, copy.copy, lambda it: pickle.dumps(it, 5), lambda it: it[0], lambda it: it[:], lambda it: it[::2], lambda it: it == it, lambda it: 1 in it,
             lambda it: memoryview(it).tolist(), next, sys.getsizeof, lambda it: bitm.Index(it), lambda it: it.seek(3), lambda it: object.__reduce_ex__(it, 4)]
    calls += [lambda it, n=n, a=a: getattr(it, n)(*a) for n in dir(it) if not n.startswith("__") for a in ((), (1,), ([1, 2],), (1, 1), (0, 1, 1))]
    for call in calls:
        try: call(it)
        except (TypeError, ValueError, IndexError, KeyError, AttributeError, StopIteration, OverflowError, BufferError, OSError, ImportError, bitm.WrongTables): pass
makes = [lambda: bitm.Index(b"\\xff" * 80, sample_log2=7), lambda: bitm.EliasFano([1, 2, 3]), lambda: bitm.PerfectHash([1, 2, 3]), lambda: bitm.PerfectHash([1, 2, 3], tries=9), lambda: bitm.BitVector(5),
         lambda: bitm.Index(b"abc").ones(), lambda: iter(bitm.EliasFano([1])), lambda: memoryview(bitm.Index(b"abc").words).obj]
kinds = [type(make()) for make in makes] + [t for t in (type(o) for o in gc.get_referents(makes[0]())) if "_Memory" in t.__name__]
os.chdir(room); taken = 0
for make, kind in itertools.product(makes, kinds):
    it = make()
    try: it.__class__ = kind; taken += 1
    except TypeError: pass
    ask(it)
for kind in kinds:
    for new in (object.__new__, kind.__new__):
        try: it = new(kind)
        except TypeError: continue
        ask(it); taken += 1
print("survived", taken > 0)
""", ["survived True"])

    # 5, 6, 7

    def test_copies(self):
        self.run_program("""
import importlib, weakref
from collections.abc import MutableSequence, Sequence
for it in (bitm.BitVector(5), bitm.Index(b"abc"), bitm.EliasFano([1]), bitm.PerfectHash([1])):
    assert weakref.ref(it)() is it and sys.getsizeof(it) > 40, it
    try: hash(it); assert isinstance(it, bitm.PerfectHash)
    except TypeError: assert isinstance(it, Sequence)
assert isinstance(bitm.BitVector(), MutableSequence)
kind = bitm.Index; del sys.modules["bitm._core"]; importlib.import_module("bitm._core"); assert sys.modules["bitm._core"].Index is kind
b = bitm.BitVector.from_bits("0101")
for make in (copy.copy, copy.deepcopy, bitm.BitVector.copy, lambda it: pickle.loads(pickle.dumps(it, 5)), lambda it: pickle.loads(pickle.dumps(it, 2))):
    c = make(b); assert c == b; c[0] = True; assert not b[0] and c[0]
for it in (bitm.Index(b, sample_log2=7), bitm.EliasFano([1, 2, 3]), bitm.PerfectHash("abc"), bitm.PerfectHash("abc", tries=9)):
    for make in (copy.copy, copy.deepcopy, lambda it: pickle.loads(pickle.dumps(it, 5)), lambda it: pickle.loads(pickle.dumps(it, 2))):
        made = make(it); assert made.check() and len(made) == len(it), made
        if not isinstance(it, bitm.PerfectHash): assert made == it
        else: assert made.has_seeds is it.has_seeds
    other = copy.copy(it); it.close(); assert not other.closed and other.check()
kept = []; data = pickle.dumps(bitm.Index(b"\\xff" * 80000), 5, buffer_callback=kept.append)
assert len(data) < 1000 and len(kept) == 1, (len(data), len(kept))
again = pickle.loads(data, buffers=kept); assert again.check() and again.select(639999) == 639999
class Sub(bitm.BitVector): pass
s = Sub.from_bits("011"); s.name = "x"; t = copy.copy(s); assert type(t) is Sub and t.name == "x" and t == s
print("right")
""", ["right"])

    def test_save_replaces_no_link_fifo_or_mode(self):
        self.run_program("""
import stat
index, other = bitm.Index(b"\\xff" * 64), os.path.join(room, "target")
open(other, "wb").close(); os.chmod(other, 0o600); os.symlink(other, path); index.save(path)
print(os.path.islink(path), oct(stat.S_IMODE(os.stat(other).st_mode)), bitm.load(path).check(), sorted(os.listdir(room)))
os.mkfifo(path + ".fifo")
try: index.save(path + ".fifo")
except OSError as error: print(type(error).__name__, stat.S_ISFIFO(os.stat(path + ".fifo").st_mode))
try: index.save("/dev/null")
except OSError: print(stat.S_ISCHR(os.stat("/dev/null").st_mode))
name = os.path.join(room, "n" * 250); index.save(name); print(bitm.load(name).check())
index.save(os.fsencode(path) + b"2"); print(bitm.load(os.fsencode(path) + b"2").check())
""", ["True 0o600 True ['it', 'target']", "OSError True", "True", "True", "True"])

    def test_wrong_files(self):
        self.run_program("""
bitm.PerfectHash(range(10), bits=0).save(path)
data = bytearray(open(path, "rb").read())
mark = data.find(b"bitmhas2"); data[mark + 8 : mark + 16] = (2**64 - 1).to_bytes(8, "little")
open(path, "wb").write(data)
for what in (path, open(path, "rb"), open(path, "rb").fileno() if 0 else path.encode()):
    try: print(bitm.load(what))
    except ValueError: print("refused")
with open(path, "wb") as file: file.truncate(1 << 42)
begin = time.time()
try: bitm.load(path)
except ValueError: print(time.time() - begin < 1)
number = os.open(__file__ if "__file__" in globals() else sys.executable, os.O_RDONLY)
try: bitm.load(number)
except ValueError: print("by descriptor")
""", ["refused"] * 3 + ["True", "by descriptor"])

    def test_bits_of_texts_and_bytes(self):
        self.run_program("""
for bad in (b"0101", bytearray(b"01"), ["0", "0"], [b"1"], 5, None):
    try: print(bitm.BitVector.from_bits(bad))
    except TypeError: continue
try: bitm.BitVector(4).and_not([1])
except TypeError: print("right")
""", ["right"])

    def test_index_that_answers_another_number_each_time(self):
        self.run_program("""
class I:
    n = [5, 10**9]
    def __index__(self): return self.n.pop(0)
print(bitm.Index(b"\\xff" * 8).rank(I()))
index = bitm.Index(b"\\xff" * 8)
class Closer:
    def __index__(self): index.close(); return 5
try: print(index.rank(Closer()))
except ValueError: print("closed")
v = bitm.BitVector(1000)
class Cut:
    def __index__(self): v.clear(); return 999
for call in (lambda: v[Cut()], lambda: v.__setitem__(Cut(), 1), lambda: v.set_bits(Cut(), 1, 1), lambda: v[Cut():], lambda: v.next_one(Cut()), lambda: v.fill(1, Cut(), 1000), lambda: v.__setitem__(slice(Cut(), None, 2), 1)):
    v.clear(); v.extend(bitm.BitVector(1000))
    try: print(call())
    except IndexError: print("outside")
""", ["5", "closed", "outside", "outside", "outside", "BitVector('')", "None", "outside", "None"])

    def test_queries_that_close_what_they_ask(self):
        self.run_program("""
index, sequence, numbers, seeded = bitm.Index(b"\\xff" * 8), bitm.EliasFano([1, 2]), bitm.PerfectHash([1, 2]), bitm.PerfectHash([1, 2], tries=9)
def closing(it):
    it.close()
    yield 1
class Closer:
    def __init__(self, it): self.it = it
    def __index__(self): self.it.close(); return 1
    def __eq__(self, other): self.it.close(); return False
    __hash__ = None
closed = 0
for it in (index, sequence, numbers, seeded):
    for name in dir(it):
        if name.startswith("_") or name in ("close", "closed", "save", "check", "parts", "words", "to_numpy", "over", "open"): continue
        for how in (closing, lambda it: [Closer(it)], Closer):
            made = copy.copy(it)
            try: getattr(made, name)(how(made))
            except (ValueError, TypeError): closed += made.closed
print(closed > 30, index.check(), sequence.check(), numbers.check(), seeded.check())
""", ["True True True True True"])

    def test_buffers_of_ctypes_are_bytes(self):
        self.run_program("""
import ctypes
for kind in (ctypes.c_char, ctypes.c_ubyte):
    it = (kind * 3)(); memoryview(it).cast("B")[:] = b"abc"
    print(bitm.Index(it).count(), bitm.BitVector.from_words(it) == bitm.BitVector.from_words(b"abc"))
print(bitm.Index((ctypes.c_uint64 * 2)(1, 3)).count(), list(bitm.EliasFano((ctypes.c_int32 * 2)(1, 3))))
""", ["10 True", "10 True", "3 [1, 3]"])


if __name__ == "__main__":
    unittest.main()
