"""The extension is linked with the proved archive: that of BITM_LIB, else of lib/ beside this file (in an sdist), else that
which `make archive` built in the repository, else that of prebuilt/ there for this processor. `python setup.py sdist` takes it
along, with its header, so that a wheel can be built from the sdist alone.

BITM_LIB, BITM_INCLUDE   another archive, and the folder of its bitm.h
BITM_TAG                 a platform, as manylinux_2_17_x86_64 or musllinux_1_1_x86_64: the extension then names no
                         library, and takes the few functions of libc that it calls from the interpreter's process
BITM_CFLAGS              more flags, as -fsanitize=address
SOURCE_DATE_EPOCH        makes two builds the same bytes
"""
import gzip
import os
import pathlib
import platform
import shutil
import tarfile

from setuptools import Extension, setup
from setuptools.command.sdist import sdist

HERE = pathlib.Path(__file__).resolve().parent
TOP = HERE.parent.parent  # of the repository, where this is not an sdist
PREBUILT = TOP / "prebuilt" / {"x86_64": "x86-64-v2"}.get(platform.machine(), platform.machine())


def first(variable, *places):
    """What the variable names, else the first of the places that is there."""
    if variable in os.environ:
        found = pathlib.Path(os.environ[variable])
        if not found.exists():
            raise SystemExit(f"bitm: {variable} names {found}, which is not there")
        return found
    found = next((it for it in places if it.exists()), None)
    if not found:
        raise SystemExit(f"bitm: there is none of {', '.join(map(str, places))}: set {variable}, or run `make archive` (with Rattle) in the repository")
    return found


def archive(path):
    """The archive: a file, or that of a folder."""
    return path / "libbitm_c.a" if path.is_dir() else path


ARCHIVE = archive(first("BITM_LIB", HERE / "lib/libbitm_c.a", TOP / "crates/bitm_c/out/libbitm_c.a", PREBUILT / "libbitm_c.a"))
INCLUDE = first("BITM_INCLUDE", HERE / "include", TOP / "include")
TAG = os.environ.get("BITM_TAG")
FLAGS = os.environ.get("BITM_CFLAGS", "").split()
COMPILED = ["-std=c11", "-O2", "-g0", "-Wall", "-Wextra", "-fvisibility=hidden", "-fno-plt", *(["-fno-stack-protector"] if TAG else []), *FLAGS]
LINKED = ["-Wl,--exclude-libs,ALL", *(it for it in FLAGS if it.startswith("-fsanitize"))]


class WithArchive(sdist):
    """An sdist that has the archive and its header."""

    def make_release_tree(self, base_dir, files):
        super().make_release_tree(base_dir, files)
        for source, target in ((ARCHIVE, "lib/libbitm_c.a"), (INCLUDE / "bitm.h", "include/bitm.h")):
            path = pathlib.Path(base_dir, target)
            path.parent.mkdir(exist_ok=True)
            shutil.copyfile(source, path)

    def make_archive(self, base_name, format, root_dir=None, base_dir=None, owner=None, group=None):
        if format != "gztar" or "SOURCE_DATE_EPOCH" not in os.environ:
            return super().make_archive(base_name, format, root_dir, base_dir, owner, group)
        time = int(os.environ["SOURCE_DATE_EPOCH"])
        pathlib.Path(base_name).parent.mkdir(parents=True, exist_ok=True)
        with open(f"{base_name}.tar.gz", "wb") as file, gzip.GzipFile("", "wb", 9, file, time) as packed:
            with tarfile.open(fileobj=packed, mode="w", format=tarfile.GNU_FORMAT) as tar:
                for path in sorted(it for it in pathlib.Path(base_dir).rglob("*") if it.is_file()):
                    info = tarfile.TarInfo(path.as_posix())
                    info.size, info.mtime, info.mode = path.stat().st_size, time, 0o755 if os.access(path, os.X_OK) else 0o644
                    with open(path, "rb") as source:
                        tar.addfile(info, source)
        return f"{base_name}.tar.gz"


setup(
    cmdclass={"sdist": WithArchive},
    ext_modules=[
        Extension(
            "bitm._core",
            sorted(str(it.relative_to(HERE)) for it in HERE.glob("src/*.c")),
            depends=[*(str(it.relative_to(HERE)) for it in HERE.glob("src/*.h")), str(ARCHIVE)],
            include_dirs=[str(INCLUDE)],
            extra_objects=[os.path.relpath(ARCHIVE, HERE)],
            extra_compile_args=COMPILED,
            extra_link_args=[*LINKED, *(["-nostartfiles", "-nodefaultlibs", "-lgcc"] if TAG else [])],
            py_limited_api=True,
        )
    ],
    options={"bdist_wheel": {"py_limited_api": "cp311", **({"plat_name": TAG} if TAG else {})}},
)
