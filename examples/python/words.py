"""Words numbered by a perfect hash, which keeps none of them: how often each of some words stands in a text."""
import pathlib
import re
import bitm

text = pathlib.Path(__file__).parents[2] / "crates" / "example_concordance" / "data" / "rhyme.txt"
words: list[str] = re.findall(r"[A-Za-z]+", text.read_text())
numbers = bitm.PerfectHash(sorted(set(words)))
counts = [0] * len(numbers)
for word in words:
    counts[numbers[word]] += 1

print("different words:", len(numbers))
for word in ("Jack", "that", "horse"):
    number = numbers.get(word)
    print(f"{word}:", 0 if number is None else counts[number])
