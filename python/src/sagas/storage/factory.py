"""The database that a store's name selects, and the session of a worker with it."""

from __future__ import annotations

from collections.abc import Callable
from typing import Any

from sagas.base.errors import DefinitionError, InvalidStore
from sagas.definition import saga as saga_module
from sagas.definition.definition_text import digest_of
from sagas.definition.registry import DefinitionRegistry
from sagas.storage.interface import Database
from sagas.storage.record_file import record_path
from sagas.storage.sqlite.storage import Sqlite
from sagas.storage.store_name import check_name, is_url, missing_client, urls_of
from sagas.storage.worker_session import WorkerSession, WorkerSessionSet


def make(
    name: str,
    definitions: DefinitionRegistry,
    node: str | None,
    lease: float,
    max_connections: int,
    transactions: Callable[..., Any],
    record: str | None = None,
    direct_url: str | None = None,
    is_member: bool = False,
) -> Database:
    """Return the database of that name, not yet opened.

    `transactions`, `record`, `direct_url` and `is_member` are those of `PostgreSQL`. Without
    `record`, the environment names the file.

    Raises `ImportError` if something that it needs is not installed, `InvalidStore` and
    `DefinitionError`.
    """
    check_name(name)
    if not is_url(name):
        if record:
            raise InvalidStore(
                f"record={record!r}: {name} is a SQLite file, and a record is of a store over "
                "PostgreSQL. Open the file without it"
            )
        if direct_url:
            raise InvalidStore(
                f"direct_url: {name} is a SQLite file, and no server. Open the file without it"
            )
        for step in (
            step
            for saga in definitions.sagas.values()
            for step in saga.all_steps
            if step.run.transaction or step.undo.transaction
        ):
            raise DefinitionError(
                f"{step.where}: saga {step.saga.name!r}, step {step.name!r}: transaction=True "
                f"needs PostgreSQL, and {name} is a SQLite file"
            )
        return Sqlite(name, definitions.payloads.codec is not None)
    try:
        from sagas.storage.postgresql.storage import PostgreSQL
    except ImportError as error:
        raise missing_client(error) from error
    kinds = definition_names(definitions)
    return PostgreSQL(
        name,
        node=node,
        lease=lease,
        max_connections=max_connections,
        sagas=[*(kind.rpartition("/")[0] for kind in kinds), *kinds],
        kinds=kinds,
        version=definitions.digest,
        transactions=transactions,
        record=record_path(record),
        encodes=definitions.payloads.codec is not None,
        direct_url=direct_url,
        is_member=is_member,
    )


async def reach(name: str) -> None:
    """Connect to the server of a store once, so that a caller can wait for it.

    It does nothing for a file. If it is cancelled, nothing remains.

    Raises:
        StoreUnavailable: The server does not answer, or does not accept connections yet.
        InvalidStore: The server refuses this user permanently.
        ImportError: The driver is not installed.
    """
    if not is_url(name):
        return
    try:
        from sagas.storage.postgresql import connections
    except ImportError as error:
        raise missing_client(error) from error
    await connections.reach(name)


def definition_names(definitions: DefinitionRegistry) -> list[str]:
    """Return the definitions of a program, as saga/version/digest."""
    texts = {f"{kind.name}/{kind.version}": kind.text for kind in definitions.kinds}
    texts |= {
        f"{saga.name}/{saga.version}": saga_module.declared_text(saga)
        for saga in definitions.sagas.values()
        if saga.is_shaped
    }
    return [f"{name}/{digest_of(text)}" for name, text in texts.items()]


def open_worker_session(store: str) -> WorkerSession:
    """Return a session with that store: a file, or one URL or more with commas between.

    It connects with its first query.
    """
    if is_url(store):
        from sagas.storage.postgresql.worker_session import PostgreSQLWorkerSession

        urls = urls_of(store)
        if len(urls) == 1:
            return PostgreSQLWorkerSession(store)
        return WorkerSessionSet([PostgreSQLWorkerSession(url) for url in urls])
    from sagas.storage.sqlite.worker_session import SqliteWorkerSession

    return SqliteWorkerSession(store)
