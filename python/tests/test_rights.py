"""Files that this user may not read or write, and files that are not a store: the errors, and no
files left.
"""

from __future__ import annotations

import contextlib
import importlib
import os
import pathlib
import pkgutil
import shutil
import tempfile
from collections.abc import Iterator

import driving
import pytest
from cases import ended, run, simple

import sagas
from sagas.cli import store_command

USER = 65534
SAGA = simple(lambda task: 1)
REMEDY = "this user must be able to read and write it, and to write to its folder"


@pytest.fixture(autouse=True)
def reachable(monkeypatch: pytest.MonkeyPatch) -> Iterator[None]:
    """Let another user run the program and the package, also if the checkout is in a home folder:
    the program is copied, and all modules are imported before.
    """
    for module in pkgutil.walk_packages(sagas.__path__, "sagas."):
        if not module.name.endswith("__main__") and ".celery" not in module.name:
            importlib.import_module(module.name)
    with tempfile.TemporaryDirectory() as name:
        folder = pathlib.Path(name)
        folder.chmod(0o755)
        program = shutil.copy(driving.program(), str(folder / "sagas"))
        monkeypatch.setenv("SAGAS_PROGRAM", program)
        yield


@contextlib.contextmanager
def another() -> Iterator[None]:
    """Become a user without root's rights."""
    if os.geteuid() != 0:
        yield
        return
    os.seteuid(USER)
    try:
        yield
    finally:
        os.seteuid(0)


@pytest.fixture
def store() -> Iterator[pathlib.Path]:
    """Return a store in a folder that others may look into."""
    with tempfile.TemporaryDirectory() as name:
        folder = pathlib.Path(name)
        folder.chmod(0o755)
        run(used(folder / "x.db"))
        yield folder / "x.db"


async def used(path: pathlib.Path) -> None:
    """Open a store, and run a saga there if it has not run."""
    async with sagas.open(path, [SAGA]) as store:
        assert (await ended(store, SAGA)).ok


def test_the_command_reports_missing_rights(
    store: pathlib.Path, capsys: pytest.CaptureFixture[str]
) -> None:
    """For an unreadable file or folder it prints one line, with the remedy."""
    store.chmod(0)
    with another():
        for arguments in (["list"], ["abort", "k"], ["audit"]):
            assert store_command.main([str(store), *arguments]) == 4
            assert (
                capsys.readouterr().err
                == f"sagas store: {store}: unable to open database file: {REMEDY}\n"
            )
    store.parent.chmod(0)
    try:
        with another():
            assert (
                store_command.main([str(store), "list"]) == 4
                and "Permission denied. This user must be able to read its folder"
                in capsys.readouterr().err
            )
    finally:
        store.parent.chmod(0o755)


def test_the_command_reports_a_damaged_file(
    store: pathlib.Path, capsys: pytest.CaptureFixture[str]
) -> None:
    """A file that turns out to be a damaged database is reported in one line as well."""
    data = bytearray(store.read_bytes())
    data[4096:] = b"\xff" * (len(data) - 4096)
    store.write_bytes(data)
    assert store_command.main([str(store), "list"]) == 4
    errors = capsys.readouterr().err
    assert errors.startswith(f"sagas store: {store}") and errors.count("\n") == 1


@pytest.mark.skipif(os.geteuid() != 0, reason="only root can give files to others")
def test_open_names_the_owner_of_the_lock(store: pathlib.Path) -> None:
    """The error has the lock of another user, and a file that cannot be written or read, with the
    remedy.
    """

    def refused(match: str) -> None:
        with another(), pytest.raises(sagas.StoreUnavailable, match=match):
            run(used(store))

    store.chmod(0o644)
    refused(r"x\.db\.lock: it belongs to root. Open the store as root, or change the owner")
    os.unlink(f"{store}.lock")
    refused(r"x\.db\.lock: Permission denied. This user must be able to write to its folder")
    store.parent.chmod(0o777)
    refused(f"x.db: attempt to write a readonly database: {REMEDY}")
    os.unlink(f"{store}.lock")
    store.chmod(0)
    refused(f"x.db: unable to open database file: {REMEDY}")
    assert not os.path.exists(f"{store}.lock")


@pytest.mark.skipif(os.geteuid() != 0, reason="only root can give files to others")
def test_the_owner_deletes_after_root(store: pathlib.Path) -> None:
    """A run of an administrator does not prevent runs of the store's owner."""
    for path in (store.parent, *store.parent.iterdir()):
        os.chown(path, USER, USER)
    arguments = [str(store), "prune", "--older-than", "0s"]
    assert store_command.main(arguments) == 0
    with another():
        assert store_command.main(arguments) == 0


def test_no_files_next_to_a_file_that_is_not_a_store(tmp_path: pathlib.Path) -> None:
    """A user who passes a program instead of a store's path finds it unchanged, and no file next to
    it.
    """
    path = tmp_path / "order1.py"
    path.write_text("print('no store')\n")
    with pytest.raises(
        sagas.InvalidStore, match="order1.py: file is not a database. Give the path of a store"
    ):
        run(used(path))
    assert [*tmp_path.iterdir()] == [path] and path.read_text() == "print('no store')\n"
