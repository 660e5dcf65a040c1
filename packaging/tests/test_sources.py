"""The sums, the bill of materials, the sources, with the archive in them too, the README's own lines, and the documents."""
import hashlib
import json
import os
import pathlib

import pytest
from common import DIST, PYTHON, VERSION, environment, examples_in_c, examples_in_python, flags_of, install, ready, room
from common import slow, sources, unpacked
from pasted import Pasted
from shell import bash, needs


def test_repository_is_hidden():
    for folder in os.environ.get("HIDDEN", "").split(":"):
        assert not folder or not os.listdir(folder)


def test_sums():
    sums = {it.name: hashlib.sha256(it.read_bytes()).hexdigest() for it in DIST.iterdir() if it.name != "SHA256SUMS"}
    assert "".join(f"{sums[name]}  {name}\n" for name in sorted(sums)) == (DIST / "SHA256SUMS").read_text()


def test_bill_of_materials():
    bill = json.loads(next(DIST.glob("*.spdx.json")).read_text())
    assert bill["spdxVersion"] == "SPDX-2.3" and bill["dataLicense"] == "CC0-1.0"
    elements = bill["packages"] + bill["files"]
    names = {it["SPDXID"] for it in elements} | {"SPDXRef-DOCUMENT"}
    assert len(names) == len(elements) + 1
    assert all(it["spdxElementId"] in names and it["relatedSpdxElement"] in names for it in bill["relationships"])
    listed = {it["packageFileName"]: it["checksums"][0]["checksumValue"] for it in bill["packages"] if "packageFileName" in it}
    there = [it for it in DIST.iterdir() if it.suffix in (".gz", ".tgz", ".deb", ".whl", ".crate")]
    assert listed == {it.name: hashlib.sha256(it.read_bytes()).hexdigest() for it in there}


def test_sources():
    """All that git has, and `make install` says what it lacks."""
    if "FILES" in os.environ:
        files = pathlib.Path(os.environ["FILES"]).read_text().split()
        assert sorted(bash("find . -type f -o -type l", sources()).split()) == sorted(f"./{it}" for it in files)
    assert "make install" in bash("make", sources())
    assert "make archive" in bash(f"! make install ARCHIVE=none PREFIX={room()}/no 2>&1", sources())


@pytest.mark.parametrize("tree", [sources, ready])
def test_install_from_the_sources(tree):
    """With the archive of prebuilt/, and with that of the artefacts."""
    needs("gcc", "g++", "pkg-config")
    prefix = room() / f"prefix.{tree.__name__}"
    bash(f"make --quiet install PREFIX={prefix}", tree())
    examples_in_c(tree() / "examples", flags_of(prefix))
    bash(f"make --quiet uninstall PREFIX={prefix}", tree())
    assert bash(f"find {prefix} ! -type d") == ""


def test_cargo_in_the_sources_with_the_archive():
    needs("cargo")
    printed = bash("cargo run --quiet --offline --locked", ready() / "examples/rust", CARGO_TARGET_DIR=f"{room()}/cargo")
    assert printed == (ready() / "examples/primes.txt").read_text()


@slow
def test_pip_in_the_sources_with_the_archive():
    needs(f"{PYTHON}:setuptools", f"{PYTHON}:wheel")
    python = environment("by_pip")
    install(python, ready() / "bindings/python", "--no-build-isolation --no-deps")
    examples_in_python(python)


@slow
def test_lines_of_the_readme():
    """With no tool on the PATH but those of a plain system and gcc, make, Python and Cargo."""
    needs("gcc", "g++", "make", "cargo", "dpkg", f"{PYTHON}:ensurepip")
    home, plain = room() / "home", "coreutils bash dash sed grep findutils gawk mawk"
    bash(f"""mkdir -p {room()}/bin {home} && cp -r {ready()} {home}/vokhuliza
        for it in gcc x86_64-linux-gnu-gcc g++ cc c++ as ld ar make python3 cargo rustc awk diff $(dpkg -L {plain} 2> /dev/null | sed -n 's|.*/bin/||p'); do
            if command -v $it > /dev/null; then ln -sf "$(command -v $it)" {room()}/bin/$it; fi
        done""")
    how = {"HOME": str(home), "PATH": f"{room()}/bin"}
    how |= {f"{it}_HOME": os.environ.get(f"{it}_HOME", os.path.expanduser(f"~/.{it.lower()}")) for it in ("RUSTUP", "CARGO")}

    readme = Pasted(home, lambda command, folder: bash(command, folder, **how))
    for language in ("c", "cpp", "rust", "python"):
        getattr(readme, language)()


@slow
def test_documents():
    """The pages link to nothing that is not there."""
    pages = unpacked(f"vokhuliza-docs-{VERSION}.tar.gz", "documents")
    assert (pages / "index.html").is_file()
    bash(f"{PYTHON} {sources()}/docs/site/links.py {pages}")
