"""Tests of the language bindings against the archive, that of crates/bitm_c/out where one was built, else that of
prebuilt/; scripts/bindings looks that it is proved, of the sources of this tree, and runs them all; `pytest
bindings/tests -k NAME` runs some. With LARGE=1 they take longer, with SEEDS=N the programs in C run on N other draws of
random contents. A test whose tools are not here is skipped."""
import os
import pathlib
import sys

import pytest

TOP = pathlib.Path(__file__).resolve().parents[2]
sys.path[:0] = [str(TOP / "scripts"), str(TOP / "tests")]
from common import ARCHIVE
os.environ |= {"BITM_LIB": str(ARCHIVE.parent), "BITM_INCLUDE": str(TOP / "include")}


@pytest.fixture(scope="session")
def site(tmp_path_factory):
    """The Python package as its wheel lays it, found by the programs that get these variables."""
    from common import PYTHON
    from shell import bash, needs
    needs(f"{PYTHON}:setuptools", f"{PYTHON}:wheel")
    room = tmp_path_factory.mktemp("python")
    bash(f"bindings/python/wheel {room}/wheel")
    bash(f"{PYTHON} -m pip install --quiet --disable-pip-version-check --no-index --no-deps --target {room}/site {room}/wheel/bitm-*.whl")
    return {"PYTHONPATH": f"{room}/site", "MYPYPATH": f"{room}/site", "PYTHONDONTWRITEBYTECODE": "1"}
