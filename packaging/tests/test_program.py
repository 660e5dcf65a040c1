"""The program bitm with its manual page and its completions: in the tarball, in the package of Debian, and where `make install`
lays it from the sources with the archive."""
import gzip

import pytest
from common import DIST, VERSION, artefact, ready, room, sources, tree, unpacked
from shell import bash, needs

# The numbers 3, 1, 4, 1, 5 and 1: four of them come before the fifth, two of these are 1, the third 1 is the last of all.
QUESTIONS, ANSWERS = "get 4\nget 6\nrank 1 4\nselect 1 2\n", "5\nnone\n2\n5\n"
AARCH64 = f"bitm-{VERSION}-aarch64-unknown-linux-gnu.tar.gz"


def by_dpkg():
    needs("dpkg")
    bash(f"dpkg -x {artefact('bitm_*_amd64.deb')} {room()}/by_dpkg")
    return room() / "by_dpkg/usr"


def by_make():
    needs("make", "gcc")
    bash(f"make --quiet install PREFIX={room()}/by_make", ready())
    return room() / "by_make"


@pytest.mark.parametrize("laid", [tree, by_dpkg, by_make])
def test_program(laid):
    """Its bytes are those of the repository, which were proved and built, and it answers as counted by hand."""
    at, page = laid(), "share/man/man1/bitm.1"
    assert (at / "bin/bitm").read_bytes() == (sources() / "prebuilt/bin/bitm-x86-64").read_bytes()
    own = gzip.decompress((at / f"{page}.gz").read_bytes()) if laid is by_dpkg else (at / page).read_bytes()
    assert own == (sources() / "install/bitm.1").read_bytes()
    (room() / "questions").write_text(QUESTIONS)
    block = f"{room()}/numbers.block"
    bash(rf"printf '3\n1\n4\n1\n5\n1\n' | {at}/bin/bitm build matrix > {block}")
    assert bash(f"{at}/bin/bitm check {block}; {at}/bin/bitm query {block} < {room()}/questions") == "good\n" + ANSWERS


@pytest.mark.parametrize("laid", [tree, by_dpkg, by_make])
def test_completions(laid):
    file = laid() / "share/bash-completion/completions/bitm"
    assert file.read_bytes() == (sources() / "install/bitm.bash").read_bytes()
    assert bash(f"source {file}; COMP_WORDS=(bitm text c) COMP_CWORD=2; _bitm; echo ${{COMPREPLY[*]}}").split() == ["count"]


def test_no_program_for_aarch64():
    """What is for another processor has none that could not run there."""
    at = unpacked(AARCH64, "without_program")
    assert not (at / "bin").exists() and not (at / "share/man").exists()
    assert not list(DIST.glob("bitm_*_arm64.deb"))
