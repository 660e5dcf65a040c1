"""scripts/prebuilt takes an archive only where it was proved, of the sources of this tree, and scripts/dist one of prebuilt/
only where that is so."""
import os
import pathlib
import shutil

import pytest
from checks import TOP, exporting
from shell import bash
from test_planted import script

PROVED = "logic=proved functions=1 sum=0\n"


@pytest.fixture(scope="module")
def prebuilt():
    return script("prebuilt")


@pytest.fixture
def built(tmp_path):
    """An archive in a checkout of its own, with the sources of the C library, and a function that writes its log."""
    folder = tmp_path / "crates/bitm_c/out/aarch64"
    folder.mkdir(parents=True)
    (folder / "libbitm_c.a").write_bytes(b"archive")

    def logged(text):
        (folder / "archive.log").write_text(text)
        return folder / "libbitm_c.a"
    return logged


def proofs(count):
    return PROVED * count


def test_archive_of_these_sources(prebuilt, built):
    roots = prebuilt.roots_of("aarch64/libbitm_c.a")
    log = f"sources {prebuilt.sum_of(roots)}\n{proofs(len(roots))}"
    assert prebuilt.taken(built(log), "aarch64/libbitm_c.a") == [f"{it}: {PROVED.strip()}" for it in exporting()]


@pytest.mark.parametrize("log", [f"sources {'0' * 64}\n{PROVED * 99}", PROVED * 99, ""])
def test_archive_of_other_sources(prebuilt, built, log):
    """The sum is another; there is none, and the sources of its checkout are others."""
    built(log).parents[4].joinpath("crates.txt").write_text("bitm_c staticlib:\n")
    with pytest.raises(SystemExit, match="not of the sources of this tree"):
        prebuilt.taken(built(log), "aarch64/libbitm_c.a")


@pytest.mark.parametrize("proved", [lambda count: proofs(count - 1), lambda count: proofs(count) + "logic=trusted\n"])
def test_archive_that_is_not_proved(prebuilt, built, proved):
    roots = prebuilt.roots_of("aarch64/libbitm_c.a")
    log = f"sources {prebuilt.sum_of(roots)}\n{proved(len(roots))}"
    with pytest.raises(SystemExit, match="does not say that all is proved"):
        prebuilt.taken(built(log), "aarch64/libbitm_c.a")


@pytest.mark.parametrize("hours, is_taken", [(1, True), (-1, False)])
def test_archive_by_its_time(prebuilt, built, hours, is_taken):
    """Where its log has no sum, it has to be newer than the sources of its checkout, which are those of this tree."""
    roots = prebuilt.roots_of("aarch64/libbitm_c.a")
    archive, newest = built(proofs(len(roots))), 0
    top = pathlib.Path(archive).parents[4]
    shutil.copy(TOP / "crates.txt", top)
    for it in prebuilt.sources(roots)[1]:
        to = top / it.relative_to(TOP)
        to.parent.mkdir(parents=True, exist_ok=True)
        shutil.copy2(it, to)
        newest = max(newest, it.stat().st_mtime)
    os.utime(archive, (newest + 3600 * hours,) * 2)
    assert prebuilt.is_of_tree(archive, proofs(1), roots) == is_taken


def test_artefacts_of_other_sources(tmp_path):
    """None is made where the last commit has other sources than the archives of prebuilt/."""
    edit = "echo '// another' >> crates/bitm_c/src/lib.rt && git -c user.name=x -c user.email=x@x commit -qam x"
    bash(f"git clone -q {TOP} it && cd it && {edit}", tmp_path)
    said = bash("! scripts/dist out 2>&1", tmp_path / "it", ARCHIVE="", ARCHIVES="", UNPROVED="0")
    assert "prebuilt/aarch64/libbitm_c.a is not of the sources of this tree" in said
    assert not (tmp_path / "it/out").exists()
