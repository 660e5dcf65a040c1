"""How much of the stack is taken, as a program each: by values over values, and by threads with little of it."""
import unittest

from programs import Program


class Stacks(Program):
    def test_the_last_of_a_long_chain_of_values_is_dropped(self):
        self.run_program("""
make = {"words": (bitm.Index(b"\\1" * 8), lambda it: bitm.Index(it.words)),
        "block": (bitm.Tree([0]), lambda it: bitm.Tree.over(it.block)),
        "loads": (bitm.Tree([0]), lambda it: bitm.loads(it.block)),
        "slice": (bitm.Index(b"\\1" * 8), lambda it: bitm.Index(memoryview(it.words).cast("B")[:8])),
        "cycle": (bitm.Index(b"\\1" * 8), lambda it: bitm.Index(it.words))}
gc.disable()
for name, (it, over) in make.items():
    for _ in range(100_000): it = over(it)
    if name == "cycle":
        class Owner: pass
        owner = Owner(); owner.me, owner.it = owner, it; del owner
    print(name, len(it)); del it; gc.collect(); print("dropped")
""", ["words 64", "dropped", "block 1", "dropped", "loads 1", "dropped", "slice 64", "dropped", "cycle 64", "dropped"])

    def test_what_lies_under_a_chain_is_given_back_with_it(self):
        self.run_program("""
words = bytearray(b"\\1" * 8); it = bitm.Index(words)
for _ in range(1000): it = bitm.Index(it.words)
try: words.append(1)
except BufferError: print("held")
it.close(); words.append(1); print(len(words))
""", ["held", "9"])

    def test_lists_in_a_thread_with_the_smallest_stack(self):
        self.run_program("""
vector = bitm.BitVector.from_indices(range(0, 100000, 3)); index = bitm.Index(vector, sample_log2=9)
sequence = bitm.EliasFano(range(0, 100000, 3)); matrix = bitm.WaveletMatrix([i % 97 for i in range(3000)])
tree, sparse, letters = bitm.Tree([1] * 1000 + [0]), bitm.SparseBits(range(0, 9000, 7)), bitm.TextIndex(b"banana" * 100)
keys, names, squares = bitm.PerfectHash(map(str, range(2000))), bitm.Strings(map(str, range(2000))), bitm.Dictionary(range(2000))
many, file = range(2500), bitm.Tree([0]).block
calls = [lambda: index.rank_list(many), lambda: index.select_list(many), lambda: index.select0_list(many), lambda: vector.set_list(many),
         lambda: bitm.BitVector.from_indices(many), lambda: sequence.get_list(many), lambda: sequence.contains_list(many),
         lambda: sequence == bitm.EliasFano(range(0, 100000, 3)), lambda: matrix.rank_list(many, many), lambda: matrix.select_list(many, many),
         lambda: matrix.distinct(), lambda: matrix.top(5), lambda: tree.parent_list(many), lambda: tree.child_list(many, many),
         lambda: sparse.rank_list(many[:1000]), lambda: letters.locate(b"ana"), lambda: letters[5:300], lambda: keys.get_list(map(str, many)),
         lambda: names.find_list(map(str, many)), lambda: squares.get_list(many), lambda: bitm.PerfectHash(map(str, many), tries=4),
         lambda: bitm.Strings(map(str, many)), lambda: bitm.TextIndex(b"abra" * 1000), lambda: bitm.Trie.of_words(["a", "b"]),
         lambda: bitm.intersect([sequence, sequence]), lambda: bitm.union([sequence, sequence]), lambda: bitm.extend(file, {65536: b"x"}),
         lambda: pickle.loads(pickle.dumps(index)).check(), lambda: pickle.loads(pickle.dumps(sequence)).check(), lambda: matrix.check()]
threading.stack_size(32768)
for call in calls:
    done = []; thread = threading.Thread(target=lambda: done.append(call())); thread.start(); thread.join()
    assert done, call
print("survived")
""", ["survived"])


if __name__ == "__main__":
    unittest.main()
