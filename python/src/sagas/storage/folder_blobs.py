"""A blob store in a folder, and the option that names a blob store."""

from __future__ import annotations

import contextlib
import os
import pathlib
import re
import secrets
from collections.abc import Iterator
from typing import Any

from sagas.base.options import load_reference

KEY = re.compile(r"[0-9a-f]+(?:/[0-9a-f]+)*")
PART, TRIES = ".part", 3


class FolderBlobStore:
    """Keep large values as files of a folder, which all nodes and clients reach.

    A value is written under another name, synced, and renamed. Then its folder is synced. The files
    have the mode 0600: all programs run as one user.
    """

    def __init__(self, path: str | os.PathLike[str]) -> None:
        """Use a folder, which is created with the first value.

        Args:
            path: The folder.
        """
        self._folder = pathlib.Path(os.path.abspath(path))

    def _path(self, key: str) -> pathlib.Path:
        if not KEY.fullmatch(key):
            raise ValueError(f"{key[:80]!r}: is not a key of a blob")
        return self._folder.joinpath(*key.split("/"))

    def put(self, key: str, data: bytes, /) -> None:
        """Store a value. See `BlobStore.put`."""
        path = self._path(key)
        for is_last in (*(False,) * TRIES, True):
            try:
                self._put(path, data)
                return
            except FileNotFoundError:  # another program deleted its empty folder
                if is_last:
                    raise

    def _put(self, path: pathlib.Path, data: bytes) -> None:
        self._make(path.parent)
        part = path.with_name(f"{path.name}.{secrets.token_hex(4)}{PART}")
        try:
            with open(part, "xb", opener=_private) as file:
                file.write(data)
                file.flush()
                os.fsync(file.fileno())
            part.rename(path)
        except BaseException:
            part.unlink(missing_ok=True)
            raise
        _sync(path.parent)

    def _make(self, folder: pathlib.Path) -> None:
        """Create a folder, so that it survives a crash."""
        if folder.is_dir():
            return
        self._make(folder.parent)
        folder.mkdir(exist_ok=True)
        _sync(folder.parent)

    def get(self, key: str, /) -> bytes:
        """Return a value. See `BlobStore.get`."""
        try:
            return self._path(key).read_bytes()
        except FileNotFoundError:
            if not self._folder.is_dir():
                raise  # for example, it is not mounted
            raise KeyError(key) from None

    def delete(self, key: str, /) -> None:
        """Delete a value. See `BlobStore.delete`."""
        path = self._path(key)
        path.unlink(missing_ok=True)
        with contextlib.suppress(OSError):  # the folder has other values
            path.parent.rmdir()

    def keys(self, prefix: str, before: float, /) -> Iterator[str]:
        """Return the keys of older values. See `BlobStore.keys`."""
        keys = []
        for folder, _, names in os.walk(self._folder / prefix.rstrip("/")):
            for name in names:
                path = pathlib.Path(folder, name)
                with contextlib.suppress(FileNotFoundError):
                    if path.stat().st_mtime < before:
                        if name.endswith(PART):  # of a program that was killed
                            path.unlink()
                        else:
                            keys.append(path.relative_to(self._folder).as_posix())
        return iter(keys)


def _private(path: str, flags: int) -> int:
    """Create a file that no other user may read."""
    return os.open(path, flags, 0o600)


def _sync(folder: pathlib.Path) -> None:
    file = os.open(folder, os.O_RDONLY | os.O_DIRECTORY)
    try:
        os.fsync(file)
    finally:
        os.close(file)


def blobs_of(location: str) -> Any:
    """Return the blob store that an option names.

    Raises:
        ValueError: It is neither a folder nor something that a module has.
    """
    if ":" in location:
        return load_reference("--blobs", location)
    if pathlib.Path(location).exists() and not pathlib.Path(location).is_dir():
        raise ValueError(f"--blobs {location}: this is a file; pass a directory, or MODULE:NAME")
    return FolderBlobStore(location)
