"""Finds the `sagas` program and runs its commands over texts in memory."""

from __future__ import annotations

import contextlib
import functools
import os
import pathlib
import platform
import struct
import subprocess
import tempfile
from collections.abc import Sequence

from sagas.base.errors import EngineError, EngineNotRunnable
from sagas.base.fork_guard import private_descriptors

HERE = pathlib.Path(__file__).resolve().parents[1]
SYSTEM_ERROR_STATUS = 4
"""The exit status of a command that failed because of an error of the system."""
PROCESSORS = {"x86_64": 62, "aarch64": 183, "arm64": 183}
"""The machine number of ELF programs, by the name that the system has for the processor."""
INTERPRETER = 3  # the kind of a program header that names a loader


def release_paths(name: str) -> list[pathlib.Path]:
    """Return where a file of the release may be.

    It is in the package, or in the release of the surrounding checkout for this processor.
    """
    return [*_release_paths(name, platform.system(), platform.machine())]


@functools.cache
def _release_paths(name: str, system: str, machine: str) -> tuple[pathlib.Path, ...]:
    """Return the paths of `release_paths`, which a planner looks up for each plan."""
    part = "aarch64" if machine in ("aarch64", "arm64") else ""
    of_checkout = [above / "dist" / part / name for above in HERE.parents[:4]]
    return (HERE / "bin" / name, *(of_checkout if system == "Linux" else []))


def planner_page() -> bytes:
    """Return the planner page of the package, or of the surrounding checkout.

    Raises:
        EngineError: The page does not exist.
    """
    name = "sagas.html"
    candidates = [HERE / "bin" / name, *(above / "dist" / name for above in HERE.parents[:4])]
    for candidate in candidates:
        if candidate.is_file():
            return candidate.read_bytes()
    raise EngineError(
        f"the planner page does not exist: {candidates[0]}. Install the package again"
    )


def path(explicit: str | None = None) -> str:
    """Return the path of the program.

    It is the explicit path, `$SAGAS_PROGRAM`, the program of the package, or the release of the
    surrounding checkout, in this order.

    Raises:
        EngineError: The program does not exist.
        EngineNotRunnable: This machine cannot run it.
    """
    explicit = explicit or os.environ.get("SAGAS_PROGRAM")
    candidates = [pathlib.Path(explicit)] if explicit else release_paths("sagas")
    for candidate in candidates:
        if candidate.is_file():
            check_runnable(str(candidate))
            return str(candidate)
    raise EngineError(
        f"the program sagas does not exist: {candidates[0]}. Install the package again, "
        "or set SAGAS_PROGRAM to its path"
    )


def not_runnable(program: str, why: str) -> EngineNotRunnable:
    """Return the error that this machine cannot run the program, with its remedy."""
    machine = f"{platform.system()} on {platform.machine()}"
    return EngineNotRunnable(
        f"{program}: this machine ({machine}) cannot run it: {why}. Install the wheel "
        "for this platform, or set SAGAS_PROGRAM to a program for it"
    )


def check_runnable(program: str) -> None:
    """Raise `EngineNotRunnable` if this machine cannot run the program.

    The program is started for this check only if it seems to be for another machine.
    """
    why = _seems_wrong(program)
    if why is None:
        return
    try:
        run_to_end([program, "--version"])
    except OSError:
        raise not_runnable(program, why) from None


def _seems_wrong(program: str) -> str | None:
    """Return why this machine probably cannot run the program, from its rights and header."""
    if not os.access(program, os.X_OK):
        return "it is not executable"
    with open(program, "rb") as file:
        head = file.read(4096)
    if head[:4] != b"\x7fELF" or len(head) < 64:
        return None
    if platform.system() != "Linux":
        return "it is a program for Linux"
    if struct.unpack_from("<H", head, 18)[0] != PROCESSORS.get(platform.machine()):
        return "it is for another processor"
    loader = _loader(head)
    return (
        None
        if loader is None or os.path.exists(loader)
        else f"it requires {loader}, which does not exist"
    )


def _loader(head: bytes) -> str | None:
    """Return the loader that a program for Linux requires; None if its header names none."""
    start, size, count = struct.unpack_from("<Q", head, 32)[0], *struct.unpack_from("<HH", head, 54)
    for offset in range(start, min(start + size * count, len(head) - size + 1), size or 1):
        kind, begin, length = (
            struct.unpack_from("<I", head, offset)[0],
            *struct.unpack_from("<QQQQ", head, offset + 8)[::3],
        )
        if kind == INTERPRETER:
            return head[begin : begin + length].rstrip(b"\0").decode(errors="replace") or None
    return None


def descriptors() -> str | None:
    """Return the folder in which a child opens inherited descriptors; None if there is none."""
    return next(
        (folder for folder in ("/proc/self/fd", "/dev/fd") if os.path.exists(f"{folder}/0")), None
    )


def memory_file(name: str, data: bytes = b"") -> int:
    """Return the descriptor of a new file in memory with these bytes.

    If the system has no such files, it is a deleted file on disk.
    """
    try:
        fd = os.memfd_create(name, os.MFD_CLOEXEC)
    except (AttributeError, OSError):
        with tempfile.TemporaryFile(prefix="sagas-") as file:
            fd = os.dup(file.fileno())
    try:
        write_all(fd, data)
        os.lseek(fd, 0, os.SEEK_SET)
    except BaseException:
        os.close(fd)
        raise
    return fd


def write_all(fd: int, data: bytes) -> None:
    """Write all bytes to a descriptor."""
    left = memoryview(data)
    while left:
        left = left[os.write(fd, left) :]


class TextFiles:
    """Texts that a child process reads by `paths`.

    The child inherits them as the descriptors `files`. If the system cannot open descriptors by
    path, they are files in a temporary folder.
    """

    def __init__(self, texts: Sequence[str | bytes]) -> None:
        self.files: list[int] = []
        self.paths: list[str] = []
        self._folder: tempfile.TemporaryDirectory[str] | None = None
        folder = descriptors()
        try:
            if folder is None:
                self._folder = tempfile.TemporaryDirectory(prefix="sagas-")
            for index, text in enumerate(texts):
                self._add(folder, index, text.encode() if isinstance(text, str) else text)
        except BaseException:
            self.close()
            raise

    def _add(self, folder: str | None, index: int, data: bytes) -> None:
        if self._folder is None:
            self.files.append(memory_file("text", data))
            self.paths.append(f"{folder}/{self.files[-1]}")
        else:
            self.paths.append(os.path.join(self._folder.name, str(index)))
            pathlib.Path(self.paths[-1]).write_bytes(data)

    def close_passed_files(self) -> None:
        """Close the descriptors that the child has inherited. A folder is kept until `close`."""
        for fd in self.files:
            os.close(fd)
        self.files = []

    def close(self) -> None:
        """Close the descriptors and delete the folder."""
        self.close_passed_files()
        if self._folder is not None:
            self._folder.cleanup()


def run(
    command: str, texts: Sequence[str], program: str | None = None, *, options: Sequence[str] = ()
) -> subprocess.CompletedProcess[str]:
    """Run `sagas COMMAND OPTIONS` on these texts, in the order of its arguments."""
    with contextlib.closing(TextFiles(texts)) as text_files:
        process = run_to_end(
            [program or path(), command, *options, *text_files.paths], text_files.files
        )
    output = process.stdout.decode(), process.stderr.decode()
    return subprocess.CompletedProcess(process.args, process.returncode, *output)


def run_to_end(
    arguments: list[str], files: Sequence[int] = ()
) -> subprocess.CompletedProcess[bytes]:
    """Run a program and capture its output, even if other threads fork.

    `files`: descriptors that it inherits.
    """
    with private_descriptors.without_forks():
        child = subprocess.Popen(
            arguments,
            stdin=subprocess.DEVNULL,
            stdout=subprocess.PIPE,
            stderr=subprocess.PIPE,
            pass_fds=files,
        )
    with child:
        try:
            output = child.communicate()
        except BaseException:
            child.kill()
            raise
    return subprocess.CompletedProcess(arguments, child.returncode, *output)


def draw(definition: str, case: str | None = None, answer: str | None = None) -> str:
    """Return a definition's drawing as text for Graphviz.

    It shows the states of `case` and the decisions of `answer`, if they are given.
    """
    process = run("draw", [text for text in (definition, case, answer) if text is not None])
    if process.returncode != 0:
        raise EngineError((process.stdout + process.stderr).strip())
    return process.stdout
