"""Other systems and machines: fallbacks for missing features, and errors if the program cannot run.
"""

from __future__ import annotations

import errno
import fcntl
import os
import pathlib
import shutil
import struct
import subprocess
import tomllib
from collections.abc import Callable

import pytest
from driving import program

import sagas
import sagas.testing
from sagas.engine import library
from sagas.base import program as engine

Lack = Callable[[pytest.MonkeyPatch], None]


def refused(*_: object) -> int:
    """Raise as a system call that a kernel lacks."""
    raise OSError(errno.ENOSYS, os.strerror(errno.ENOSYS))


LACKS: dict[str, Lack] = {
    "no memfd_create": lambda patch: patch.delattr(os, "memfd_create"),
    "a kernel without memfd_create": lambda patch: patch.setattr(os, "memfd_create", refused),
    "no pidfd_open": lambda patch: patch.delattr(os, "pidfd_open"),
    "a kernel without pidfd_open": lambda patch: patch.setattr(os, "pidfd_open", refused),
    "no F_SETPIPE_SZ": lambda patch: patch.delattr(fcntl, "F_SETPIPE_SZ"),
    "no fdatasync": lambda patch: patch.delattr(os, "fdatasync"),
    "no /proc": lambda patch: patch.setattr(engine, "descriptors", lambda: None),
    "/dev/fd alone": lambda patch: patch.setattr(engine, "descriptors", lambda: "/dev/fd"),
}


def all_of_them(patch: pytest.MonkeyPatch) -> None:
    """Remove everything that only Linux has."""
    for name in ("no memfd_create", "no pidfd_open", "no F_SETPIPE_SZ", "no fdatasync", "no /proc"):
        LACKS[name](patch)


LACKS["none of them"] = all_of_them


def order() -> sagas.Saga:
    """Return a saga whose second step fails."""
    saga = sagas.Saga("order")

    @saga.step
    def charge(task: sagas.Task[int]) -> int:
        return task.input

    @charge.compensation
    def refund(task: sagas.Task[int]) -> None:
        assert task.result == task.input

    @saga.step(needs=[charge])
    def send(task: sagas.Task[int]) -> None:
        raise sagas.Fail("no such address")

    return saga


@pytest.mark.parametrize("lack", list(LACKS.values()), ids=list(LACKS))
def test_a_system_that_lacks(
    lack: Lack,
    monkeypatch: pytest.MonkeyPatch,
    caplog: pytest.LogCaptureFixture,
    tmp_path: pathlib.Path,
) -> None:
    """A saga is run to its end, also after a restart, with texts of each kind passed to the
    program; and nothing is left.
    """
    monkeypatch.setenv("TMPDIR", str(tmp_path))
    monkeypatch.setattr("tempfile.tempdir", None)
    lack(monkeypatch)
    saga = order()
    for key in ("first", "second"):
        with sagas.open_sync(tmp_path / "orders.db", [saga]) as store:
            end = store.start(saga, key, 40).wait(60)
            assert not end.ok and end.states == {"charge": "undone", "send": "failed"}
    monkeypatch.setattr(library, "path", lambda: None)
    definition = saga.toml()
    assert sagas.plan(definition, '{"states":["committed","failed"]}').yes
    assert "digraph" in engine.draw(definition)
    assert [path.name for path in tmp_path.iterdir() if path.name.startswith("sagas-")] == []
    assert [record.getMessage() for record in caplog.records if record.name == "asyncio"] == []


def of_other_processor(program_path: pathlib.Path) -> None:
    """Replace the program by one for ARM64 on x86-64, and the other way round."""
    data = bytearray(pathlib.Path(program()).read_bytes())
    struct.pack_into("<H", data, 18, 243)  # of RISC-V
    program_path.write_bytes(data)
    program_path.chmod(0o755)


def without_its_loader(program_path: pathlib.Path) -> None:
    """Replace the program by one without its loader."""
    data = pathlib.Path(shutil.which("true") or "/bin/true").read_bytes()
    assert data.count(b"/ld-linux") == 1
    program_path.write_bytes(data.replace(b"/ld-linux", b"/ld-nobody"[:9]))
    program_path.chmod(0o755)


def without_rights(program_path: pathlib.Path) -> None:
    """Make the program not executable."""
    shutil.copyfile(program(), program_path)
    program_path.chmod(0o644)


@pytest.mark.parametrize(
    "make",
    [of_other_processor, without_its_loader, without_rights],
    ids=["processor", "loader", "rights"],
)
@pytest.mark.parametrize("how", ["variable", "word"])
def test_a_program_that_cannot_be_run(
    make: Callable[[pathlib.Path], None],
    how: str,
    monkeypatch: pytest.MonkeyPatch,
    tmp_path: pathlib.Path,
) -> None:
    """The store does not open: a specific error has the reason and the remedy; a repeated call
    does not help.
    """
    program_path = tmp_path / "sagas"
    make(program_path)
    settings = sagas.Settings(program=str(program_path) if how == "word" else None)
    if how == "variable":
        monkeypatch.setenv("SAGAS_PROGRAM", str(program_path))
    with pytest.raises(
        sagas.EngineNotRunnable, match="this machine .* cannot run it.*SAGAS_PROGRAM"
    ):
        with sagas.open_sync(tmp_path / "orders.db", [order()], settings=settings):
            pass
    assert not isinstance(sagas.EngineNotRunnable("x"), sagas.StoreUnavailable)


def test_a_program_that_seems_to_be_for_another_machine_and_runs(
    monkeypatch: pytest.MonkeyPatch, tmp_path: pathlib.Path
) -> None:
    """As if an emulator of the system runs it: it is accepted."""
    monkeypatch.setattr(engine, "PROCESSORS", {})
    saga = order()
    with sagas.open_sync(tmp_path / "orders.db", [saga]) as store:
        assert store.start(saga, "only", 1).wait(60).states["charge"] == "undone"


def test_the_package_and_its_engine_have_one_version() -> None:
    """`__version__` is that of the wheel; the program and the library of `dist/` have the same."""
    top = pathlib.Path(__file__).resolve().parents[2]
    done = subprocess.run([program(), "--version"], capture_output=True, text=True, check=True)
    assert done.stdout == f"sagas {sagas.__version__}\n"
    assert f"Version: {sagas.__version__}\n" in (top / "dist/sagas.pc").read_text()
    rust = tomllib.loads((top / "examples/library/rust/Cargo.toml").read_text())
    assert rust["package"]["version"] == sagas.__version__
    named = tomllib.loads((top / "python/pyproject.toml").read_text())["project"]
    assert named["dynamic"] == ["version"] and "version" not in named
