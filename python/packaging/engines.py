"""The engine of a wheel: the released program, or a program that is compiled here.

`dist/` has a released program and library for Linux on the processors of `FOLDERS`. For other
machines, it has the same engine as one C file (docs/guides/c-file.md). The C compiler of the
machine compiles it in about a minute. `dist/` is a folder of the checkout, or of an unpacked
source archive."""

from __future__ import annotations

import os
import pathlib
import platform
import re
import shlex
import shutil
import subprocess
import sys
import sysconfig
import tempfile
from collections.abc import Iterator
from typing import NamedTuple

HERE = pathlib.Path(__file__).resolve().parent.parent
FOLDERS = {"x86_64": "", "aarch64": "aarch64"}
"""The subfolder of `dist/` with the files of each processor."""
RELEASED = ("sagas", "libsagas.so")
SOURCES = ("engine.c", "sagas.h", "sagas.c.xz")
PLANNER = "sagas.html"
"""The planner page, which the dashboard serves."""
COMPILER_OPTIONS = ("-std=c11", "-O1")
"""The options of the compiler. More optimization takes minutes, and gains nothing."""


class Engine(NamedTuple):
    """The files of a wheel by name, and the tags of the systems that can run them."""

    files: dict[str, bytes]
    tags: list[str]


def engine(processor: str | None, version: str) -> Engine:
    """Return the engine for Linux on this processor, or for this machine if it is `None`."""
    machine = f"{platform.system()} on {platform.machine()}"
    if processor is not None:
        return released(processor)
    if has_release():
        return released(platform.machine())
    if platform.system() == "Windows" or sys.byteorder != "little":
        raise SystemExit(
            f"sagas cannot be installed here: this is {machine}. It requires Linux, macOS or "
            "another Unix, on a little-endian processor. On Windows, install it in WSL. You can "
            "plan and check sagas in a browser (dist/sagas.html) and in Node.js (dist/sagas.mjs)"
        )
    return Engine({"sagas": compiled(machine, version)}, [f"py3-none-{system()}"])


def has_release() -> bool:
    """Return whether there is a released program for this machine."""
    return platform.system() == "Linux" and platform.machine() in FOLDERS


def released(processor: str) -> Engine:
    """Return the released program and library of a processor.

    They run with glibc 2.17 or later, which the library requires, and with musl.
    """
    if processor not in FOLDERS:
        raise SystemExit(
            f"unknown processor {processor!r}: sagas is released for Linux on "
            f"{' and '.join(FOLDERS)}"
        )
    files = {name: of_dist(FOLDERS[processor], name).read_bytes() for name in RELEASED}
    systems = (f"manylinux_2_17_{processor}", f"musllinux_1_1_{processor}")
    return Engine(files, [f"py3-none-{name}" for name in systems])


def of_dist(folder: str, name: str) -> pathlib.Path:
    """Return the path of a file of `dist/`, in the checkout or the source archive."""
    path = pathlib.PurePosixPath("dist", folder, name)
    paths = (HERE / path, HERE.parent / path)
    existing = next((candidate for candidate in paths if candidate.is_file()), None)
    if existing is None:
        raise FileNotFoundError(
            f"missing file {paths[1]}. Build from a complete checkout, or from the source archive"
        )
    return existing


def archived() -> Iterator[tuple[str, bytes]]:
    """Yield each file of `dist/` that a wheel for any machine needs, with its path."""
    for folder, name in [
        *((folder, name) for folder in FOLDERS.values() for name in RELEASED),
        *(("", name) for name in (*SOURCES, PLANNER)),
    ]:
        yield pathlib.PurePosixPath("dist", folder, name).as_posix(), of_dist(
            folder, name
        ).read_bytes()


def system() -> str:
    """Return the platform tag of this system and processor."""
    if platform.system() == "Darwin":
        major, minor = (int(word) for word in (platform.mac_ver()[0] + ".0").split(".")[:2])
        return f"macosx_{major}_{0 if major > 10 else minor}_{platform.machine()}"
    return re.sub(r"\W", "_", sysconfig.get_platform())


def compiled(machine: str, version: str) -> bytes:
    """Compile the program from the C file with `$CC`, or with `cc`."""
    compiler = shlex.split(os.environ.get("CC") or "cc")
    if shutil.which(compiler[0]) is None:
        raise SystemExit(
            f"sagas: no C compiler {compiler[0]!r}. On this machine ({machine}), it has to compile "
            "the engine. Install one (macOS: xcode-select --install; Debian: apt-get install gcc "
            "libc6-dev; Alpine: apk add gcc musl-dev), or set CC to another"
        )
    with tempfile.TemporaryDirectory(prefix="sagas-") as name:
        folder = pathlib.Path(name)
        for source in ("engine.c", "sagas.h"):
            shutil.copyfile(of_dist("", source), folder / source)
        (folder / "sagas.c").write_bytes(unpacked(of_dist("", "sagas.c.xz")))
        command = [*compiler, *COMPILER_OPTIONS, f'-DSAGAS_VERSION="{version}"', "-o", "sagas"]
        done = subprocess.run(
            [*command, "engine.c", "sagas.c", "-lm"],
            cwd=folder,
            stdin=subprocess.DEVNULL,
            capture_output=True,
            text=True,
            check=False,
        )
        if done.returncode:
            raise SystemExit(
                f"sagas: {compiler[0]} cannot compile the engine for this machine ({machine}). "
                "The compiler needs C11 and the headers of a C library. Set CC to another. Its "
                f"message: {(done.stderr or done.stdout).strip()[-2000:]}"
            )
        look(folder / "sagas", machine)
        return (folder / "sagas").read_bytes()


def unpacked(packed: pathlib.Path) -> bytes:
    """Return the contents of an `xz` file."""
    try:
        import lzma
    except ImportError:
        raise SystemExit(
            f"sagas: this Python has no module lzma, which unpacks {packed.name}. Install with a "
            "Python that was built with liblzma"
        ) from None
    return lzma.decompress(packed.read_bytes())


def look(program: pathlib.Path, machine: str) -> None:
    """Exit with an error if the compiled program does not run here."""
    try:
        done = subprocess.run([str(program), "--version"], capture_output=True, check=False)
        why = None if done.returncode == 0 else f"exit status {done.returncode}"
    except OSError as error:
        why = str(error.strerror)
    if why is not None:
        raise SystemExit(
            f"sagas: the compiled engine does not run on this machine ({machine}): {why}. Set CC "
            "to a compiler for this machine"
        )
