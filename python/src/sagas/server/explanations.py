"""What the failure of each step of a definition leads to, for its page. It is computed once."""

from __future__ import annotations

import asyncio
import dataclasses
from collections import OrderedDict
from concurrent.futures import ThreadPoolExecutor

from sagas.definition import definition_text
from sagas.engine.planner import Planner
from sagas.inspection import explanation, explanation_picture, explanation_text
from sagas.inspection.explanation_text import StepNames
from sagas.inspection.failure_cases import Moment

MAX_KEPT = 32
SMALL = 8192
"""A definition whose text has more characters is large: it has about 100 steps."""
WAIT = 1.0
"""How many seconds a page waits. A definition of 1,024 steps takes longer the first time."""


@dataclasses.dataclass(frozen=True, slots=True)
class FailureRow:
    """The failure of a step, or of several items of one step.

    Attributes:
        failed: What fails.
        step: The name of the step, or of the first item.
        moment: `late` or `early`; empty if both are the same.
        cost: The cost of the plan, or None.
        decision: What the plan does, or why there is none.
        is_stuck: Whether the saga is stuck.
        is_optional: Whether the step is optional.
    """

    failed: str
    step: str
    moment: str
    cost: int | None
    decision: str
    is_stuck: bool
    is_optional: bool


@dataclasses.dataclass(frozen=True, slots=True)
class FailureTable:
    """The failures of the steps of one definition.

    Attributes:
        rows: The failures.
        has_costs: Whether the costs have a meaning.
        has_moments: Whether some failures differ by their moment.
        no_return: The point of no return, in words; empty if there is none.
        never_undone: The steps that no plan undoes, in words; empty if there are none.
        worst_cost: The cost of the most expensive plan, or None.
    """

    rows: tuple[FailureRow, ...]
    has_costs: bool
    has_moments: bool
    no_return: str
    never_undone: str
    worst_cost: int | None


class Explanations:
    """The tables of the definitions, by the digest of each.

    It has a thread for small definitions and one for large definitions, so that a small one does
    not wait.
    """

    def __init__(self) -> None:
        self._small = ThreadPoolExecutor(1, "sagas-explain")
        self._large = ThreadPoolExecutor(1, "sagas-explain-large")
        self._tables: OrderedDict[str, asyncio.Future[FailureTable]] = OrderedDict()
        self._planners = set[Planner]()

    async def table(self, text: str) -> FailureTable | None:
        """Return the table of a definition; None if it is not computed within a second."""
        digest = definition_text.digest_of(text)
        table = self._tables.get(digest)
        if table is None or (table.done() and table.exception()):
            thread = self._small if len(text) < SMALL else self._large
            loop = asyncio.get_running_loop()
            table = self._tables[digest] = loop.run_in_executor(thread, self._made, text)
            table.add_done_callback(_retrieve_error)
        self._tables.move_to_end(digest)
        while len(self._tables) > MAX_KEPT:
            self._tables.popitem(last=False)
        await asyncio.wait([table], timeout=WAIT)
        return table.result() if table.done() else None

    def _made(self, text: str) -> FailureTable:
        planner = Planner(definition_text.listed_steps(text), threads=1)
        self._planners.add(planner)
        try:
            explained = explanation.of_definition(text, pairs=False, planner=planner)
        finally:
            self._planners.discard(planner)
        names = StepNames.of(explained)
        rows = explanation_text.rows(explained, explained.failures)
        return FailureTable(
            tuple(_failure_row(row) for row in rows),
            explained.pivot is None,
            any(row.case.moment != Moment.ANY for row in rows),
            names.listed(explained.point_of_no_return),
            names.listed(explained.never_undone),
            worst.cost if (worst := explained.worst) else None,
        )

    def close(self) -> None:
        """Stop to make plans."""
        for planner in [*self._planners]:
            planner.stop()
        for thread in (self._small, self._large):
            thread.shutdown(wait=True, cancel_futures=True)


def _failure_row(row: explanation_text.Row) -> FailureRow:
    case = row.case
    moment = "" if case.moment == Moment.ANY else case.moment
    decision = case.described(row.listed)
    return FailureRow(
        row.failed, case.steps[0], moment, case.cost, decision, case.is_stuck, case.is_optional
    )


def drawn(text: str, step: str, moment: str) -> str | None:
    """Return the picture of the failure of a step; None if the failure is unknown."""
    case = explanation.failure_of(text, step, moment)
    return None if case is None else explanation_picture.failure_svg(text, case)


def _retrieve_error(table: asyncio.Future[FailureTable]) -> None:
    """Retrieve the error of a table. The next page gets it, or has the table computed again."""
    if not table.cancelled():
        table.exception()
