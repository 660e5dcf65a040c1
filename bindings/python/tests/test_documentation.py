"""What help() says: each public item has a text with an example, and each example prints what it says."""
import doctest
import inspect
import pickle
import pydoc
import re

import pytest

import bitm
pytest.importorskip("numpy")
KINDS = (bitm.BitVector, bitm.Index, bitm.EliasFano, bitm.Cursor, bitm.SparseBits, bitm.PerfectHash, bitm.Dictionary, bitm.Strings,
         bitm.Shards, bitm.Tree, bitm.Trie, bitm.WaveletMatrix, bitm.TextIndex)
WALK = type(iter(bitm.EliasFano([1])))


def items():
    for kind in (*KINDS, WALK):
        if kind is not WALK:
            yield kind.__name__, kind
        for name in dir(kind):
            if not name.startswith("_"):
                yield f"{kind.__name__}.{name}", getattr(kind, name)
    for name in bitm.__all__:
        item = getattr(bitm, name)
        if inspect.isfunction(item) or (inspect.isclass(item) and issubclass(item, Exception)):
            yield name, item


@pytest.mark.parametrize("name, item", items(), ids=lambda it: it if isinstance(it, str) else "")
def test_the_example_of(name, item, tmp_path, monkeypatch):
    monkeypatch.chdir(tmp_path)
    text = inspect.getdoc(item)
    names = {it: getattr(bitm, it) for it in bitm.__all__}
    test = doctest.DocTestParser().get_doctest(text, names, name, None, None)
    assert test.examples, f"{name} has no example"
    assert doctest.DocTestRunner().run(test).failed == 0


def test_the_examples_of_the_module():
    """Of its own text: those of its items, which write files, are run one by one above."""
    (test,) = doctest.DocTestFinder(recurse=False).find(bitm)
    failed, examples = doctest.DocTestRunner().run(test)
    assert failed == 0 and examples > 5


def test_texts_are_of_their_class():
    """`dir` has the names of the package alone; what classes share has an example of each, under the name by which it is called."""
    assert sorted(it for it in dir(bitm) if not it.startswith("__")) == sorted(bitm.__all__) and {"__doc__", "__version__"} <= set(dir(bitm))
    assert {getattr(bitm, name).__module__ for name in bitm.__all__} == {"bitm"}
    for name, item in items():
        kind, _, method = name.partition(".")
        assert method not in ("close", "closed", "save", "over", "block") or re.search(rf"\b{kind}[.(]", item.__doc__), name
        assert not inspect.isroutine(item) or (item.__name__ == (method or kind) and item.__qualname__ in (name, f"_Numbers.{method}")), name
        assert max(map(len, inspect.getdoc(item).split("\n"))) <= 140, name


def test_signatures_are_as_a_user_writes_them():
    """Names and defaults, without types."""
    for name, item in items():
        if callable(item) and not inspect.isclass(item):
            shown = str(inspect.signature(item))
            assert re.fullmatch(r"\((\*?\w+(=[-\w']+|=<class 'map'>)?(, )?|/(, )?|\*, )*\)", shown), (name, shown)


def test_what_help_shows():
    shown = pydoc.render_doc(bitm.TextIndex, renderer=pydoc.plaintext)
    assert "class TextIndex in module bitm" in shown and " find_all(self, pattern)\n" in shown and " of_letters(numbers, letters, step=32, *, progress=None) " in shown
    assert "load(source, *, mmap=False)\n" in pydoc.render_doc(bitm.load, renderer=pydoc.plaintext)
    shards = pydoc.render_doc(bitm.Shards, renderer=pydoc.plaintext)
    assert " rank_list(self, queries)\n" in shards and "inherited from" not in shards and "Any" not in shards
    assert all(not line.startswith("  ") for line in inspect.getdoc(bitm.Shards.build).split("\n"))


def test_the_types_are_there_for_checkers_alone():
    """Values of the classes that were written in Python are pickled by the names that a user imports, and those of before are read."""
    assert pickle.loads(b"cbitm.shards\nShards\n.") is pickle.loads(pickle.dumps(bitm.Shards)) is bitm.Shards
    assert b"bitm\nShardError" in pickle.dumps(bitm.ShardError, 0) and pickle.loads(pickle.dumps(bitm.load)) is bitm.load
