"""The tests of the Python package with its extension under AddressSanitizer, in each Python that is here: there each request for memory,
of Python's and of the extension's, is refused in turn."""
import pathlib

import pytest
from common import PYTHON, large
from shell import bash, needs

PYTHONS = [PYTHON, *map(str, sorted(pathlib.Path("~/.pyenv/versions").expanduser().glob("3.*/bin/python3")))]


@large
@pytest.mark.parametrize("python", PYTHONS)
def test_python_under_sanitizers(python):
    needs("gcc", f"{PYTHON}:setuptools", f"{PYTHON}:wheel", python)
    if "libasan" not in bash("realpath $(gcc -print-file-name=libasan.so)"):
        pytest.skip("no libasan")
    if bash(f"{python} -c 'import sys; print(sys.version_info >= (3, 11))'").strip() != "True":
        pytest.skip("the package needs Python 3.11")
    needs(f"{python}:_testcapi")
    said = bash(f"SANITIZED=1 bindings/python/tests/each {python}")
    assert "under AddressSanitizer: " in said and " passed" in said, said
