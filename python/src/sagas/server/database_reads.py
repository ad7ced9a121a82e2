"""What calls read of all databases of a store.

A store of one database is read in the same way.
"""

from __future__ import annotations

from collections.abc import Awaitable, Callable
from typing import TYPE_CHECKING, Any, TypeVar

from sagas.inspection.question import Question

if TYPE_CHECKING:
    from sagas.server.operations import Call
    from sagas.server.service import Service

T = TypeVar("T")
MISSING = "sagas.missing"
"""Why databases of the store did not answer during a request, by their numbers."""


async def of_each(call: Call, work: Callable[[Service, int], Awaitable[T]]) -> dict[int, T]:
    """Return what a call reads of each database of the store, by the index of the database.

    Pages and answers name the databases that do not answer. Raises `Problem` if none does.
    """
    parts, missing = await call.service.each(work)
    call.request.scope.setdefault(MISSING, {}).update(missing)
    return parts


def unavailable_of(call: Call) -> dict[str, Any]:
    """Return the field of an answer with the databases that did not answer `of_each`.

    A store of one database has no such field.
    """
    if call.service.unavailable is None:
        return {}
    return {"unavailable": dict(call.request.scope.get(MISSING, {}))}


async def replies_to(call: Call, question: Callable[[], Question[T]]) -> list[T]:
    """Return the answers of the databases of the store to a question. See `of_each`."""
    parts = await of_each(call, lambda service, _: service.look(question()))
    return [part for _, part in sorted(parts.items())]
