"""A pooler of transactions, with the URL of the server itself."""

from __future__ import annotations

from sagas.base.errors import InvalidStore, StoreUnavailable
from sagas.storage.postgresql import connections, poolers
from sagas.storage.postgresql.application_name import Purpose
from sagas.storage.postgresql.caller_connection import HERE
from sagas.storage.postgresql.connections import Hosts, Row


async def check(url: Hosts, direct_url: Hosts) -> None:
    """Find out whether `url` is a pooler, and check the URL of the server.

    Any pooler is taken for one of transactions, because the comparison of sessions is a probe: it
    may miss such a pooler while others use it.

    Raises:
        StoreUnavailable: One of them does not answer.
        InvalidStore: `direct_url` is a pooler of transactions, too. Or the two lead to different
            databases. Or a login is refused.
    """
    store_name = connections.named(url)
    await connections.check_access(url, store_name, Purpose.HOSTS)
    with connections.translate_errors(store_name):
        address = connections.address(url, Purpose.HOSTS)
        url.is_pooled = url.is_pooled or await poolers.is_pooler(address)
    here, there = await _database(url), await _database(direct_url)
    if here != there:
        raise InvalidStore(
            f"{store_name}: direct_url leads to another database, "
            f"{connections.named(direct_url)}. Name the server of the pooler, and the same "
            "database"
        )


async def _database(url: Hosts) -> list[Row]:
    """Return what identifies the database of a URL; nothing if its role may not read it."""
    try:
        with connections.translate_errors(connections.named(url)):
            connection = await connections.connect(url, Purpose.HOSTS)
            try:
                return await (await connection.execute(HERE.text)).fetchall()
            finally:
                await connection.close()
    except StoreUnavailable as error:
        if getattr(error.__cause__, "sqlstate", None) == "42501":
            return []
        raise
