"""Questions about trends: what was counted by time."""

from __future__ import annotations

from sagas.core.trends import CountedRow, TrendRange, Trends, trends_of
from sagas.inspection.question import Query, Question
from sagas.storage.filters import EVERYTHING, Scope
from sagas.storage.trends import READ, TOTAL


def trends(
    kind: TrendRange, now: float, definition: str | None = None, scope: Scope = EVERYTHING
) -> Question[Trends]:
    """Return the trends of a definition, or of all that a scope has completely. See `rows`."""
    return trends_of(kind, now, (yield from rows(kind, now, definition, scope)))


def rows(
    kind: TrendRange, now: float, definition: str | None = None, scope: Scope = EVERYTHING
) -> Question[list[CountedRow]]:
    """Return what `trends_of` adds up. Those of several databases may be added together.

    Sagas that undo children of a definition, or call its `on_end`, are among them only if all
    definitions are meant. Counts have no keys, so a scope with keys has none.
    """
    names: list[str] | None = None
    if definition is not None:
        names = [definition] if scope.has_definition(definition) else []
    elif scope.definitions is not None:
        names = sorted(scope.definitions)
    if scope.keys is not None:
        names = []
    condition = "1 = 1" if names is None else f"saga IN ({', '.join('?' * len(names))})"
    if names == []:
        return []
    text = READ.format(total=TOTAL, condition=condition)
    stored = yield Query(text, (kind.width, kind.buckets(now)[0], *(names or ())))
    return [(int(at), str(name), int(count)) for at, name, count in stored]
