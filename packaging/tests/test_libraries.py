"""The libraries for C and C++: where they were not made, by pkg-config and CMake, for other processors and another libc,
and as packages of Debian."""
import os
import pathlib
import re
import shutil
import tempfile

import pytest
from common import COMMIT, DIST, PROGRAMS, VERSION, WARNINGS, artefact, examples_in_c, flags_of, room, run_example, slow, sources, tree, unpacked
from shell import bash, needs

LEAST = {"x86-64": "Conroe", "x86-64-v2": "Nehalem", "x86-64-v3": "Haswell"}  # the least processor that each is for


def programs_by(compiler, flags, runner="", programs=tuple(PROGRAMS)):
    """The tests in C, compiled with these flags and run."""
    folder = tempfile.mkdtemp(dir=room())
    for program in programs:
        bash(f"{compiler} -std=c11 -O2 -pthread {WARNINGS} {sources()}/bindings/c/{program}.c {flags} -o {program} && {runner} ./{program}", folder)


def check_cpp(compiler, flags, runner=""):
    bash(f"{compiler} -std=c++17 -O2 {WARNINGS} {sources()}/bindings/cpp/check.cpp {flags} -o check_cpp && {runner} ./check_cpp", room())


def is_dynamic(program):
    return re.search("NEEDED.*libbitm_c", bash(f"readelf -d {program}")) is not None


def test_pkg_config():
    needs("readelf")
    guides = tree() / "share/doc/bitm"
    assert flags_of(tree(), "--modversion") == VERSION
    assert COMMIT in (guides / "PROVED").read_text()
    for source in [*sorted(guides.glob("examples/c/*.c")), *sorted(guides.glob("examples/cpp/*.cpp"))]:
        assert is_dynamic(run_example(source, flags_of(tree())))
    examples_in_c(guides / "examples", f"{flags_of(tree())} -static")


def test_links_of_the_guides():
    for page in (tree() / "share/doc/bitm").rglob("*.md"):
        prose = re.sub(r"^(`{3,}).*?^\1", "", page.read_text(), flags=re.M | re.S)
        for link in re.findall(r"\]\(([^)#\s]+)", prose):
            assert re.match(r"\w+:", link) or (page.parent / link).exists(), f"{page} links to {link}"


@pytest.mark.parametrize("kind", ["bitm", pytest.param("shared", marks=slow)])
def test_cmake(kind):
    needs("cmake", "g++")
    at = room() / f"cmake.{kind}"
    shutil.copytree(tree() / "share/doc/bitm/examples/cpp", at)
    lists = at / "CMakeLists.txt"
    lists.write_text(lists.read_text().replace("bitm::bitm", f"bitm::{kind}"))
    bash(f"cmake -S . -B build -DCMAKE_PREFIX_PATH={tree()} && cmake --build build", at)
    assert bash("build/primes", at) == (tree() / "share/doc/bitm/examples/primes.txt").read_text()


@slow
def test_c_and_cpp():
    programs_by("gcc", flags_of(tree()))
    check_cpp("g++", flags_of(tree()))


@slow
def test_c_with_musl():
    needs("musl-gcc")
    programs_by("musl-gcc", f"-static -I{tree()}/include {tree()}/lib/libbitm_c.a")


@slow
def test_choice_of_an_archive():
    """Between three bodies that say which they are, on this processor and on each of 64 bits that QEMU has."""
    needs("gcc")
    at = pathlib.Path(tempfile.mkdtemp(dir=room()))
    (at / "names.h").write_text("#define EACH(DO) DO(which)\n")
    bash(f"gcc -std=gnu11 -O2 -fPIC {WARNINGS} -I. -c {sources()}/packaging/choice.c -o choice.o", at)
    bash(f"gcc -std=gnu11 -O2 -static {WARNINGS} {sources()}/packaging/choice_test.c choice.o -o choice && ./choice", at)
    if shutil.which("qemu-x86_64"):
        for name in re.findall(r"^x86 (\S+)", bash("qemu-x86_64 -cpu help || true").split("\nRecognized")[0], re.M):
            bash(f"qemu-x86_64 -cpu {name} ./choice 2> said || grep -q 'does not support 64 bit mode' said", at)
        for level, name in enumerate(LEAST.values(), 1):
            assert bash(f"qemu-x86_64 -cpu {name} ./choice", at).strip() == str(level)


@slow
def test_levels_of_x86_64():
    """Each archive as it was built, on the least processor that it is for, and the three as one on each of these: Conroe
    counts no bits in hardware, Nehalem is of x86-64-v2, Haswell of x86-64-v3. One level more than the processor has is an
    illegal instruction, so that a test would tell. The arrays of `guarded` end where a page begins that may not be touched.
    QEMU 7.2 reads what vpmaskmovq masks, past such an end, so that of x86-64-v3 is run by a processor that has it."""
    needs("gcc", "qemu-x86_64")
    lib, flags = tree() / "lib", f"-static -I{tree()}/include"
    if not (lib / "bitm").is_dir():
        pytest.skip("there is one archive for x86-64 alone")
    few = PROGRAMS[:6]
    for level, programs in (("x86-64", PROGRAMS), ("x86-64-v2", [*few, "guarded"]), ("x86-64-v3", few)):
        programs_by("gcc", f"{flags} {lib}/bitm/{level}/libbitm_c.a", f"qemu-x86_64 -cpu {LEAST[level]}", programs)
    processor = set(pathlib.Path("/proc/cpuinfo").read_text().split())
    if {"avx2", "bmi2"} <= processor:
        programs_by("gcc", f"{flags} {lib}/bitm/x86-64-v3/libbitm_c.a", programs=["guarded"])
    for name in LEAST.values():
        programs_by("gcc", f"{flags} {lib}/libbitm_c.a", f"qemu-x86_64 -cpu {name}", few)
    for level, name in (("x86-64-v2", "Conroe"), ("x86-64-v3", "Nehalem")):
        bash(f"gcc -std=c11 -O2 {flags} {sources()}/bindings/c/check.c {lib}/bitm/{level}/libbitm_c.a -o above", room())
        assert bash(f"qemu-x86_64 -cpu {name} ./above > said 2>&1 || echo $?", room()).strip() == str(128 + 4)


@slow
def test_c_and_cpp_for_aarch64():
    needs("qemu-aarch64", "aarch64-linux-gnu-gcc")
    at = unpacked(f"bitm-{VERSION}-aarch64-unknown-linux-gnu.tar.gz", "aarch64")
    flags, system = f"-static -I{at}/include {at}/lib/libbitm_c.a", "/usr/aarch64-linux-gnu"
    programs_by("aarch64-linux-gnu-gcc", flags, "qemu-aarch64")
    shared = f"qemu-aarch64 -L {system} -E LD_LIBRARY_PATH={at}/lib:{system}/lib"
    programs_by("aarch64-linux-gnu-gcc", f"-I{at}/include -L{at}/lib -lbitm_c", shared, ["check", "stored"])
    if shutil.which("aarch64-linux-gnu-g++"):
        check_cpp("aarch64-linux-gnu-g++", flags, "qemu-aarch64")


def test_symbols():
    """The exports are those of the header and of SYMBOLS, in each library."""
    needs("nm", "readelf")
    symbols = (DIST / "SYMBOLS").read_text().split()
    for tarball in sorted(DIST.glob(f"bitm-{VERSION}-*-linux-gnu.tar.gz")):
        at = unpacked(tarball.name, f"symbols.{tarball.name}")
        declared = r"^(?:BITM_MUST_USE )?(?:uint32_t|size_t|void) (bitm_[a-z0-9_]+)\("
        assert sorted(re.findall(declared, (at / "include/bitm.h").read_text(), re.M)) == symbols
        shared = [it.split() for it in bash(f"readelf -W --dyn-syms {at}/lib/libbitm_c.so").split("\n") if it.split()]
        assert sorted(it[7].split("@")[0] for it in shared if len(it) > 7 and it[6].isdigit() and it[3] == "FUNC") == symbols
        for archive in at.rglob("libbitm_c.a"):
            assert sorted(re.findall(r"^\w+ \w (\w+)$", bash(f"nm --extern-only --defined-only {archive}"), re.M)) == symbols
            assert " U " not in bash(f"nm --undefined-only {archive}")


def test_debian_packages():
    """Both, installed into an empty system by dpkg itself, and taken away again."""
    needs("dpkg", "pkg-config", "gcc")
    packages = [artefact(f"{it}_*amd64.deb") for it in ("libbitm0", "libbitm-dev")]
    program = sorted(DIST.glob("bitm_*amd64.deb"))
    root, lib = room() / "root", "usr/lib/x86_64-linux-gnu"
    dpkg = f"dpkg --root={root} --force-not-root --force-script-chrootless --log=/dev/null"
    bash(f"mkdir -p {root}/var/lib/dpkg/{{info,updates,triggers}} && touch {root}/var/lib/dpkg/{{status,available}}")
    bash(f"{dpkg} -i {packages[0]} {packages[1]}")
    # libc6 is not in this system
    for package in program:
        bash(f"{dpkg} --force-depends -i {package}")
        assert bash(f"printf '3\\n9\\n' | {root}/usr/bin/bitm build sparse > {room()}/s.block && {root}/usr/bin/bitm check {room()}/s.block") == "good\n"
        assert (root / "usr/share/man/man1/bitm.1.gz").is_file()
    flags = bash(f"PKG_CONFIG_SYSROOT_DIR={root} PKG_CONFIG_LIBDIR={root}/{lib}/pkgconfig PKG_CONFIG_ALLOW_SYSTEM_LIBS=1 "
                 "PKG_CONFIG_ALLOW_SYSTEM_CFLAGS=1 pkg-config --cflags --libs bitm").strip()
    assert is_dynamic(examples_in_c(root / "usr/share/doc/libbitm-dev/examples", flags, LD_LIBRARY_PATH=f"{root}/{lib}"))
    bash(f"{dpkg} -P libbitm-dev libbitm0 {'bitm' if program else ''}")
    assert bash(f"find {root}/usr ! -type d || true") == ""


def test_debian_symbols():
    """What libbitm0 lists as symbols is what Debian's own tool finds in it, with the same versions."""
    needs("dpkg-deb", "dpkg-gensymbols")
    artefact("libbitm0_*.deb")
    for package in sorted(DIST.glob("libbitm0_*.deb")):
        arch = package.stem.split("_")[-1]
        if arch == "arm64" and not shutil.which("aarch64-linux-gnu-objdump"):
            continue
        at = pathlib.Path(tempfile.mkdtemp(dir=room()))
        os.makedirs(at / "debian")
        (at / "debian/control").write_text("Source: vokhuliza\n\nPackage: libbitm0\nArchitecture: any\n")
        bash(f"dpkg-deb -R {package} so && dpkg-gensymbols -c4 -v{VERSION} -plibbitm0 -Pso -Iso/DEBIAN/symbols -Ofound && diff found so/DEBIAN/symbols",
             at, DEB_HOST_ARCH=arch)


def test_lintian():
    needs("lintian")
    artefact("libbitm0*.deb")
    bash(f"lintian --fail-on error,warning --tag-display-limit 0 --allow-root {DIST}/*.deb")
