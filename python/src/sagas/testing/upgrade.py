"""`check_upgrade`: whether a program can continue the open sagas of a store."""

from __future__ import annotations

import asyncio
import contextlib
import inspect
import os
from collections.abc import Iterable, Mapping
from typing import Any, Union

from sagas.base.errors import InvalidStore, StoreUnavailable
from sagas.definition import arguments, payloads
from sagas.definition.payloads import BlobStore, Codec, Reference
from sagas.definition.registry import DefinitionRegistry
from sagas.definition.saga import Saga
from sagas.inspection import upgrade
from sagas.inspection.question import Row, StoreReader
from sagas.inspection.upgrade import UpgradeReport
from sagas.storage import admin

Export = Mapping[str, Any]
"""A saga as `sagas store STORE export KEY` prints it."""
Stored = Union[str, "os.PathLike[str]", Export, Iterable[Export]]


class _Snapshot(StoreReader):
    """A read-only connection. All answers are as of one moment."""

    def __init__(self, path: str) -> None:
        super().__init__(self)
        self._source = admin.connect(path)
        self._source.begin()

    def rows(self, query: str, *parameters: Any) -> list[Row]:
        """Return the rows of a query."""
        return self._source.ask(query, *parameters)

    def close(self) -> None:
        """Close the connection."""
        self._source.close()


class _Blobs:
    """The values of a blob store, if there is one."""

    def __init__(self, blobs: BlobStore | None) -> None:
        self._blobs = blobs
        self._runner: asyncio.Runner | None = None

    def fetch(self, reference: Reference) -> str | None:
        """Return a stored text; None if it is not in a blob store, or without one.

        Raises:
            StoreUnavailable: The blob store does not return it.
        """
        if self._blobs is None:
            return None
        try:
            data: Any = self._blobs.get(reference.key)
            if inspect.isawaitable(data):
                self._runner = self._runner or asyncio.Runner()
                data = self._runner.run(_awaited(data))
            return bytes(data).decode("utf-8", "surrogatepass")
        except KeyError:
            return None
        except Exception as error:  # its text may contain the value
            raise StoreUnavailable(f"the blob store raised {type(error).__name__}") from error

    def close(self) -> None:
        """End the event loop of the blob store."""
        if self._runner is not None:
            self._runner.close()


async def _awaited(value: Any) -> Any:
    return await value


def check_upgrade(
    store: Stored,
    sagas: Iterable[Saga[Any]],
    *,
    codec: Codec | None = None,
    blobs: BlobStore | None = None,
) -> UpgradeReport:
    """Check whether a program can continue the open sagas of a store.

    Call it before you deploy the program. It reads and changes nothing, and calls no function of
    the sagas. Other programs may have the store open. It looks for functions and compensations that
    are missing, also those of completed children that an open saga may undo. It decodes the stored
    inputs, items and results of open sagas by the types of the functions. And it looks in the
    source of the functions for `task.result_of` of a step that an open saga does not have. A read
    that the source does not show is not found.

    Args:
        store: The path or the URL of the store; or a saga that `sagas store STORE export KEY`
            printed, or a list of them.
        sagas: The definitions of the program, as for `sagas.open`.
        codec: As for `sagas.open`. Without it, encoded values are reported as `not_checked`.
        blobs: As for `sagas.open`. Without it, values in a blob store are reported as
            `not_checked`. With coroutine functions, call this outside of an event loop.

    Returns:
        An `UpgradeReport`. Its `ok` is False if a saga cannot continue, or could not be checked.

    Raises:
        DefinitionError: A definition is not valid.
        InvalidStore: It is not a store, or of another release.
        StoreUnavailable: The store or the blob store cannot be read.
        TypeError: `codec` or `blobs` is not valid.

    Example:
        >>> with sagas.open_sync("upgrade.db", [order]) as store:
        ...     result = store.start(order, "order-7", {"amount": 40}).wait()
        refund 40
        >>> print(sagas.testing.check_upgrade("upgrade.db", [order]))
        the program can continue 0 open sagas
    """
    payloads.check_blobs(blobs, payloads.MIN_THRESHOLD)
    registry = DefinitionRegistry(sagas, payloads.checked(codec, blobs is not None))
    with contextlib.closing(_Blobs(blobs)) as values:
        if not isinstance(store, (str, os.PathLike)):
            exports = [store] if isinstance(store, Mapping) else [*store]
            return upgrade.check_exports(registry, exports)
        try:
            snapshot = _Snapshot(arguments.path(store))
        except admin.Trouble as error:
            raise InvalidStore(str(error)) from error
        with contextlib.closing(snapshot):
            return snapshot.ask(upgrade.check(registry, values.fetch))
