"""A worker's side of external attempts, for both databases.

A worker asks for an attempt before it calls the function, and reports the outcome afterwards.
"""

from __future__ import annotations

from collections import OrderedDict
from collections.abc import Callable, Sequence
from typing import Any, Protocol

from sagas.base.errors import StoreUnavailable, WrongStore
from sagas.core.attempt.external_work import AttemptTexts, Order, Position, saga_id
from sagas.core.outcomes import Outcome
from sagas.definition.payloads import PLAIN
from sagas.definition.call_options import Function
from sagas.storage import queries

BEGIN = """
SELECT l.shard, e.attempt, e.outcome
FROM shards l LEFT JOIN external_attempts e ON e.attempt = ? WHERE l.name = ?
"""
INPUT = "SELECT input FROM sagas WHERE id = ?"
RESULT = (
    "SELECT value FROM attempts WHERE id = ? AND step = ? AND action = 'run' AND event = 'commit'"
)
DEFINITION = f"SELECT text FROM {queries.DEFINED} WHERE s.id = ?"
SHAPE = "SELECT shape FROM shapes WHERE id = ?"
OPEN = (None, "unknown", "suspended")
MAX_SHARDS = 10_000
"""Maximum number of shards whose databases are remembered."""


class WorkerSession(Protocol):
    """A worker's connection to the store, for one thread."""

    def begin(self, order: Order) -> AttemptTexts | None:
        """Return the texts of an attempt.

        Return None if the attempt is closed: the message is late, or arrived twice. Raises
        `WrongStore`, also if the saga was deleted, and `StoreUnavailable`.
        """

    def report(self, order: Order, outcome: Outcome) -> None:
        """Store the outcome of an attempt. Raises `StoreUnavailable`."""

    def within(self, order: Order, function: Function) -> Function:
        """Return the function as a transaction in the store's database.

        The report is part of the transaction. The function raises `Settled` if the attempt was
        already reported.
        """

    def close(self) -> None:
        """Close the connection."""


class WorkerSessionSet:
    """A worker's connections to the databases of a store over several, for one thread.

    An attempt is in the database that has its shard.
    """

    def __init__(self, sessions: Sequence[WorkerSession]) -> None:
        self._sessions = sessions
        self._by_shard: OrderedDict[str, WorkerSession] = OrderedDict()

    def begin(self, order: Order) -> AttemptTexts | None:
        """See `WorkerSession.begin`.

        If no database has the shard and one does not answer, that one may have it.
        """
        if order.log in self._by_shard:
            return self._by_shard[order.log].begin(order)
        wrong: WrongStore | None = None
        unavailable: StoreUnavailable | None = None
        for session in self._sessions:
            try:
                texts = session.begin(order)
            except WrongStore as error:
                wrong = error
            except StoreUnavailable as error:
                unavailable = error
            else:
                self._by_shard[order.log] = session
                if len(self._by_shard) > MAX_SHARDS:
                    self._by_shard.popitem(last=False)
                return texts
        if unavailable is not None:
            raise unavailable
        assert wrong is not None
        raise wrong

    def report(self, order: Order, outcome: Outcome) -> None:
        """See `WorkerSession.report`. This thread has started the attempt."""
        self._by_shard[order.log].report(order, outcome)

    def within(self, order: Order, function: Function) -> Function:
        """See `WorkerSession.within`. This thread has started the attempt."""
        return self._by_shard[order.log].within(order, function)

    def close(self) -> None:
        """Close the connections."""
        for session in self._sessions:
            session.close()


def fetched(
    order: Order, rows: list[tuple[Any, ...]], read_text: Callable[..., str], store_name: str
) -> AttemptTexts | None:
    """Return the result of `BEGIN`, with the texts that the order does not contain."""
    if not rows:
        raise WrongStore(
            f"{store_name}: it has no shard {order.log}. The message of saga {order.key!r} came "
            "from another store, or too late: the saga has been deleted. If no saga was "
            "deleted, give the worker and the program the same store"
        )
    shard, attempt, outcome = rows[0]
    if attempt is None or outcome not in OPEN:
        return None
    id = saga_id(shard, order.number)

    def whole(text: str | Position) -> str:
        return stored(RESULT, id, text.step) if isinstance(text, Position) else text

    def stored(*query: Any) -> str:
        return PLAIN.decode(read_text(*query))

    results = {name: whole(text) for name, text in order.results.items()}
    return AttemptTexts(
        stored(INPUT, id) if order.input is None else order.input,
        results,
        None if order.result is None else whole(order.result),
        None if order.declared is None else (read_text(DEFINITION, id), stored(SHAPE, id)),
    )
