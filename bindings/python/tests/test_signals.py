"""Ctrl-C ends what may go on for long, as a program each: a signal comes while one call runs."""
import unittest

from programs import Program

START = """
import itertools, signal
class Late(Exception): pass
def late(number, frame): raise Late
signal.signal(signal.SIGALRM, late)
def ends(call):
    began = time.monotonic(); signal.setitimer(signal.ITIMER_REAL, 0.2)
    try: call()
    except Late: return time.monotonic() - began < 20
    finally: signal.setitimer(signal.ITIMER_REAL, 0)
"""


class Signals(Program):
    def test_iterators_without_an_end(self):
        self.run_program(START + """
for call in (bitm.BitVector.from_bits, bitm.BitVector.from_indices, bitm.BitVector(9).extend, bitm.EliasFano, bitm.WaveletMatrix, bitm.PerfectHash,
             bitm.Dictionary, bitm.Index(b"a").rank_list, bitm.EliasFano([1]).contains_list):
    print(ends(lambda: call(itertools.repeat(1))), end=" ")
print(ends(lambda: bitm.Strings(itertools.repeat("a"))))
""", ["True " * 9 + "True"])

    def test_values_of_many_items(self):
        self.run_program(START + """
bits, sparse = bitm.BitVector(1 << 30), bitm.SparseBits([0, 1 << 59], 1 << 60)
bits.fill(); index = bitm.Index(bits); numbers = bitm.EliasFano(array.array("Q", range(1 << 22)))
print(2 in sparse, 1 in sparse, 0 in sparse)
queries = bytes(1 << 27)
for call in (lambda: sum(sparse), lambda: max(iter(sparse)), lambda: sum(bits.ones()), lambda: sum(index.ones(reverse=True)), lambda: bits[::-1], lambda: index[::3],
             lambda: index.rank_list(queries), lambda: [numbers == copy.copy(numbers) for _ in range(1000)], lambda: sum(itertools.chain.from_iterable(map(lambda it: numbers, range(1000))))):
    print(ends(call), end=" ")
bits = index = None
print()
""", ["False True True", "True " * 9])

    def test_a_handler_that_changes_what_is_read(self):
        self.run_program(START + """
def change(number, frame):
    for it in (lambda: bits.clear(), lambda: bits.append(1), lambda: numbers.close(), lambda: index.close(), lambda: next(walk)):
        try: it()
        except (BufferError, ValueError, StopIteration): refused.append(1)
signal.signal(signal.SIGALRM, change)
for _ in range(3):
    refused, bits, numbers = [], bitm.BitVector(1 << 28), bitm.EliasFano(array.array("Q", range(1 << 22)))
    bits.fill(); index = bitm.Index(bitm.BitVector(1 << 26)); walk = bits.ones()
    for call in (lambda: bits[::-1], lambda: index[::-1], lambda: numbers == copy.copy(numbers), lambda: sum(walk), lambda: sum(numbers)):
        signal.setitimer(signal.ITIMER_REAL, 0.01)
        try: call()
        except ValueError: pass
        signal.setitimer(signal.ITIMER_REAL, 0)
print("survived")
""", ["survived"])


if __name__ == "__main__":
    unittest.main()
