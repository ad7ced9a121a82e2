"""Pages of the list of sagas, in the order of their starts."""

from __future__ import annotations

import dataclasses
from typing import Any, Optional

from sagas.core.results import Summary
from sagas.definition import arguments, labels as labels_module
from sagas.definition.labels import Labels
from sagas.inspection.lists import SUMMARY, summary_of
from sagas.inspection.question import Query, Question
from sagas.storage.filters import FEW as FEW_PHASES, Filter
from sagas.storage.queries import PHASES, SORTED_AT
from sagas.storage.sqlite.schema import PLANNED

Position = Optional[tuple[float, int]]
"""A position in the list: the start of a saga, and its id."""
Bounds = tuple[Position, Position]
"""Exclusive bounds of a page: sagas come after the first and before the second. None: no bound."""
RARE = ("stuck", "undo_failed", "resolved")
"""Phases that hold few sagas, however many sagas the store has."""
FEW = 3000
"""Up to this number, sagas are sorted without further checks."""
LABELED = "SELECT 1 FROM labels WHERE name = ? AND value = ?"
INDEXED = {
    "open": f"SELECT 1 FROM sagas s WHERE {PHASES['open']}",
    "recovered": f"SELECT 1 FROM sagas s WHERE {PLANNED}",
}
NEAR, MAX_NEAR = 100, 20_000
"""How many neighboring sagas are scanned for each one that is wanted, and at most. If these do not
suffice, all sagas of the filter are sorted.
"""


def check(phase: str | None, after: object, limit: int) -> None:
    """Raise `ValueError` or `TypeError` if the arguments of a page are invalid."""
    if phase is not None and phase not in PHASES:
        raise ValueError(f"phase={phase!r}: must be one of {', '.join(PHASES)}")
    if not (after is None or isinstance(after, Summary) or arguments.is_count(after)):
        raise TypeError(
            f"after={after!r}: must be the last saga of the previous page: list(after=page[-1])"
        )
    arguments.count("limit", limit)


def position(after: Summary | int | None) -> Question[Position]:
    """Return the position after which a page begins, from a summary or a saga's id.

    Raises `ValueError` if no saga has the id.
    """
    if after is None:
        return None
    if isinstance(after, Summary):
        return position_of(after)
    id = max(-1, min(after, 1 << 62))
    rows = yield Query("SELECT at FROM sagas WHERE id = ?", (id,))
    if not rows:
        raise ValueError(
            f"after={after!r}: no saga has this id, maybe because it was deleted. Pass the last "
            "saga of the previous page instead of its id: list(after=page[-1])"
        )
    return rows[0][0], id


def position_of(summary: Summary) -> tuple[float, int]:
    """Return the position of a saga."""
    return summary.started, summary.id


def page(
    *,
    phase: str | None = None,
    saga: str | None = None,
    labels: Labels = labels_module.NONE,
    search: str | None = None,
    before: Position = None,
    after: Position = None,
    newest: bool | None = None,
    limit: int | None = 50,
    of: Filter | None = None,
) -> Question[list[Summary]]:
    """Return a page of the list of sagas: those `before` or `after` a position.

    Args:
        phase: As in `Filter`.
        saga: As in `Filter`.
        labels: As in `Filter`.
        search: As in `Filter`.
        before: Return only sagas before this position.
        after: Return only sagas after this position.
        newest: Whether the newest come first. Default: no if `after` is given, else yes.
        limit: The maximum number of sagas. None: no maximum.
        of: A filter, instead of `phase`, `saga`, `labels` and `search`.

    A database cannot know which is cheaper: to scan sagas in their order, or to sort all sagas of
    the filter. So this scans a limited number of neighbors first, and sorts
    only if that is not enough.
    """
    of = of or Filter(phase, saga, labels, search)
    is_newest = after is None if newest is None else newest
    bounds = _bounds(of, after, before)
    if of.has_times_alone:
        return (yield from _rows(of, bounds, is_newest, limit, "s.at"))
    are_many = yield from _are_many(of)
    if limit is not None and are_many:
        near, is_all = yield from _near(bounds, is_newest, min(NEAR * limit, MAX_NEAR))
        result = yield from _rows(of, near, is_newest, limit, "s.at")
        if len(result) == limit or is_all:
            return result
    is_indexed = not are_many or bool(of.search) or bool(of.labels) or of.phase in FEW_PHASES
    of_few = bool(of.labels) and not are_many
    form = {"of_few": of_few, "each_label": are_many and bool(of.search)}
    at = "+s.at" if is_indexed else SORTED_AT
    return (yield from _rows(of, bounds, is_newest, limit, at, **form))


def _bounds(of: Filter, after: Position, before: Position) -> Bounds:
    """Combine the times of a filter and the bounds of a page. All ids are above -1."""
    since, until = (
        (at, -1) if at is not None else None for at in (of.started_after, of.started_before)
    )
    lower = [position for position in (after, since) if position is not None]
    upper = [position for position in (before, until) if position is not None]
    return max(lower, default=None), min(upper, default=None)


def _are_many(of: Filter) -> Question[bool]:
    """Return whether a filter may select too many sagas to sort them."""
    if of.phase in RARE or of.is_for_operator:
        return False
    probes: list[tuple[str, tuple[str, ...]]] = [(LABELED, label) for label in of.labels.items()]
    if of.phase in INDEXED:
        probes.append((INDEXED[of.phase], ()))
    for text, parameters in probes:
        rows = yield Query(f"SELECT count(*) FROM ({text} LIMIT ?) found", (*parameters, FEW))
        if rows[0][0] < FEW:
            return False
    return True


def _near(bounds: Bounds, newest: bool, limit: int) -> Question[tuple[Bounds, bool]]:
    """Return bounds of the next `limit` sagas of any filter, and whether these are all."""
    conditions, parameters = _within(bounds, "s.at")
    rows = yield Query(
        f"SELECT s.at, s.id FROM sagas s WHERE {' AND '.join(conditions)} "
        f"ORDER BY {_order('s.at', newest)} LIMIT 1 OFFSET ?",
        (*parameters, limit),
    )
    if not rows:
        return bounds, True
    at, id = rows[0]
    return (((at, id), bounds[1]) if newest else (bounds[0], (at, id))), False


def _within(bounds: Bounds, at: str) -> tuple[list[str], list[Any]]:
    """Return the conditions of bounds, and their parameters.

    `at` has a + if another index than that of the starts leads to fewer sagas.
    """
    limits = [(sign, position) for sign, position in zip("><", bounds) if position is not None]
    conditions = [f"({at}, s.id) {sign} (?, ?)" for sign, _ in limits]
    return ["1 = 1", *conditions], [value for _, position in limits for value in position]


def _order(at: str, newest: bool) -> str:
    return f"{at} DESC, s.id DESC" if newest else f"{at}, s.id"


def _rows(
    of: Filter, bounds: Bounds, newest: bool, limit: int | None, at: str, **form: bool
) -> Question[list[Summary]]:
    """Return the sagas of a filter within bounds.

    `at` is `s.at` if the index of the starts is used. `form` are options of `Filter.condition`.
    """
    conditions, parameters = _within(bounds, at)
    rest = dataclasses.replace(of, started_after=None, started_before=None)
    condition_of_filter, more = rest.condition(in_order=at == "s.at", **form)
    condition, parameters = " AND ".join([*conditions, condition_of_filter]), [*parameters, *more]
    if limit is None:
        query = f"SELECT {SUMMARY} FROM sagas s WHERE {condition}"
    else:  # labels are only joined for these
        page_of_ids = (
            f"SELECT s.id FROM sagas s WHERE {condition} ORDER BY {_order(at, newest)} LIMIT ?"
        )
        query = f"SELECT {SUMMARY} FROM ({page_of_ids}) lot CROSS JOIN sagas s WHERE s.id = lot.id"
        parameters.append(limit)
    summaries = map(summary_of, (yield Query(query, (*parameters,))))
    return sorted(summaries, key=position_of, reverse=newest)
