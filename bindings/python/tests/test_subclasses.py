"""Subclasses of BitVector and classes with __buffer__, as a program each: what they make of buffers, and when others find them."""
import sys
import unittest

from programs import Program

WITH_BUFFERS = unittest.skipIf(sys.version_info < (3, 12), "classes have no __buffer__")


class Subclasses(Program):
    @WITH_BUFFERS
    def test_a_vector_is_its_own_words_whatever_buffer_its_class_gives(self):
        self.run_program("""
class Short(bitm.BitVector):
    def __buffer__(self, flags): return memoryview(b"\\xff" * 8).cast("Q")
for length in (1 << 30, 64000, 1):
    short = Short(length); short[length - 1] = 1
    index = bitm.Index(short)
    print(len(index), index.count(), index.select(0), len(index.words) == -(-length // 64), index.check())
    index.close(); short.append(1)
short = Short(64000); short[63999] = 1
print(bitm.BitVector.from_words(short) == short, bitm.BitVector.from_bits(short) == short, bitm.Index(short, 100).count())
plain = bitm.BitVector(64000); plain[:] = short; print(plain == short)
words = array.array("Q", bytes(8000)); upper, lower, _ = bitm.tables_of(words)
print(len(bitm.Index.over(short, upper, lower)))
print(bitm.Trie([2, 0, 1, 0], b"abe", ends=Short(4)).is_end(1))
""", ["1073741824 1 1073741823 True True", "64000 1 63999 True True", "1 1 0 True True", "True True 0", "True", "64000", "False"])

    @WITH_BUFFERS
    def test_a_vector_stays_locked_whatever_its_class_does_at_a_release(self):
        self.run_program("""
class Noisy(bitm.BitVector):
    def __buffer__(self, flags): raise ValueError("none")
    def __release_buffer__(self, view): raise ValueError("not mine")
vector = Noisy(1000); index = bitm.Index(vector)
try: vector.append(1)
except BufferError: print("locked")
vector.__class__ = type("Other", (bitm.BitVector,), {})
index.close(); vector.append(1); print(len(vector))
""", ["locked", "1001"])

    @WITH_BUFFERS
    def test_positions_whose_buffer_clears_the_vector_as_it_is_given_back(self):
        self.run_program("""
class Positions:
    def __init__(self, many): self.many = array.array("Q", many)
    def __buffer__(self, flags): return memoryview(self.many)
    def __release_buffer__(self, view): view.release(); held.release(); vector.clear(); vector.extend("0" * left)
for left in (0, 5, 1 << 21):
    vector = bitm.BitVector(1 << 20); held = memoryview(vector)
    try: vector.set_list(Positions([(1 << 20) - 1] * 3000)); print(vector.count())
    except IndexError as error: print(error)
""", ["position 1048575 of 0 bits", "position 1048575 of 5 bits", "1"])

    def test_no_thread_finds_an_object_of_a_subclass_before_it_is_filled(self):
        for made, length in (("Sub.from_indices(every_third, 6_000_000)", 6_000_000), ("Sub.from_bits(text)", 6_000_000),
                             ("Sub.from_words(words)", 96_000_000)):
            with self.subTest(made):
                self.run_program(f"""
class Sub(bitm.BitVector): pass
every_third, text = array.array("I", range(0, 6_000_000, 3)), "100" * 2_000_000
words = (0o1111111111111111111111111).to_bytes(10, "little")[:3] * 4_000_000
sys.setswitchinterval(1e-5); gc.collect(); gc.freeze()
seen, is_over = set(), False
def look():
    while not is_over:
        for it in gc.get_objects():
            if type(it) is Sub and len(it):
                seen.add((len(it), it.count()))
                try: it.clear()
                except BufferError: pass
thread = threading.Thread(target=look, daemon=True); thread.start()
for _ in range(10): made = {made}
is_over = True; thread.join()
print(seen - {{({length}, {length} // 3)}})
""", ["set()"])


if __name__ == "__main__":
    unittest.main()
