"""An explanation as text, as values for JSON, and as a table in Markdown."""

from __future__ import annotations

import dataclasses
from collections.abc import Callable, Iterable, Iterator, Sequence
from typing import Any, NamedTuple, TYPE_CHECKING

from sagas.base.wording import number as counted
from sagas.definition import definition_text
from sagas.definition.drawing import Groups
from sagas.inspection.expected_cost import MAX_ORDERED, ExpectedCost
from sagas.inspection.failure_cases import MAX_PAIRED, FailureCase, Moment

if TYPE_CHECKING:
    from sagas.inspection.explanation import Explanation

MAX_NAMES = 6
"""How many names a part of a sentence has. Of more, the number follows."""
MAX_STUCK = 5
"""How many pairs that end stuck the text lists."""
WHEN = {Moment.LATE.value: "late", Moment.EARLY.value: "early", Moment.ANY.value: "-"}
LEGEND = (
    "late: each step that does not depend on the failed one has committed",
    "early: only the steps that it needs have committed",
)


class StepNames:
    """Names of steps in a sentence. Items of a step, and steps of an included saga, are folded."""

    def __init__(self, definition: str, names: Sequence[str]) -> None:
        """`names`: of all steps of the definition."""
        groups = Groups.read(definition)
        self._groups = [
            (
                group.name,
                group.title if group.items else f"the {len(group.steps):,} steps of {group.name}",
                [names[number] for number in group.steps],
            )
            for group in groups.by_name.values()
        ]
        self._declared = {name: origin.declared for name, origin in zip(names, groups.origins)}

    @classmethod
    def of(cls, explanation: Explanation) -> StepNames:
        """Return the names of the steps of an explanation."""
        listed = definition_text.listed_steps(explanation.definition)
        return cls(explanation.definition, [step.name for step in listed])

    def declared(self, name: str) -> str:
        """Return the declared name of a step."""
        return self._declared.get(name, name)

    def listed(self, names: Iterable[str], absent: Sequence[str] = ()) -> str:
        """Return names as a part of a sentence.

        Args:
            names: The names.
            absent: Names of steps that are known to be missing in their group, as they failed.
        """
        left = dict.fromkeys(names)
        shown = list[str]()
        for name, title, members in self._groups:
            others = [step for step in members if step not in absent]
            if len(others) > 1 and all(step in left for step in others):
                shown.append(title if len(others) == len(members) else f"the rest of {name}")
                left = dict.fromkeys(step for step in left if step not in {*others})
        shown += left
        if len(shown) > MAX_NAMES:
            return f"{', '.join(shown[:MAX_NAMES])} and {len(shown) - MAX_NAMES:,} more"
        return " and ".join([", ".join(shown[:-1]), shown[-1]] if len(shown) > 1 else shown)


class Row(NamedTuple):
    """A row of a table of failures, which may be that of several items of one step."""

    failed: str
    case: FailureCase
    listed: Callable[[Iterable[str]], str]


def rows(explanation: Explanation, cases: Sequence[FailureCase]) -> list[Row]:
    """Return a row for each failure. Items whose failures differ only in the item have one row."""
    names = StepNames.of(explanation)
    groups: dict[object, list[FailureCase]] = {}
    for case in cases:
        declared = tuple(map(names.declared, case.steps))
        counts = tuple(map(len, (case.undone, case.kept, case.run, case.skipped)))
        is_item = declared != case.steps
        looks = (declared, case.moment, case.cost, counts, case.is_stuck)
        groups.setdefault(looks if is_item else (case.steps, case.moment), []).append(case)

    def listed(case: FailureCase) -> Callable[[Iterable[str]], str]:
        return lambda steps: names.listed(steps, case.steps)

    return [Row(_failed(same), same[0], listed(same[0])) for same in groups.values()]


def _failed(same: Sequence[FailureCase]) -> str:
    failed = " and ".join(same[0].steps)
    return failed if len(same) == 1 else f"{failed} (or {len(same) - 1:,} like it)"


# -- text


def text(explanation: Explanation) -> str:
    """Return what `sagas explain` prints."""
    return "\n".join([*_failures(explanation, explanation.failures), "", *_facts(explanation)])


def pairs_text(explanation: Explanation) -> str:
    """Return the table of the failures of two steps, or why it is empty."""
    if explanation.pairs:
        return "\n".join(_failures(explanation, explanation.pairs))
    if len(explanation.steps) > MAX_PAIRED:
        return f"pairs are planned only for up to {MAX_PAIRED} steps"
    return "no two steps can fail together, because none are independent"


def _failures(explanation: Explanation, cases: Sequence[FailureCase]) -> Iterator[str]:
    has_costs = explanation.pivot is None
    shown = rows(explanation, cases)
    heads = ["FAILS", "WHEN", *["COST"] * has_costs, "WHAT HAPPENS"]
    cells = [
        [
            row.failed,
            WHEN[row.case.moment],
            *["-" if row.case.cost is None else str(row.case.cost)] * has_costs,
            row.case.described(row.listed),
        ]
        for row in shown
    ]
    widths = [max(len(line[at]) for line in [heads, *cells]) for at in range(len(heads) - 1)]
    for line in [heads, *cells]:
        parts = [
            cell.rjust(width) if has_costs and at == 2 else cell.ljust(width)
            for at, (cell, width) in enumerate(zip(line, widths))
        ]
        yield "  ".join([*parts, line[-1]])


def _facts(explanation: Explanation) -> Iterator[str]:
    names = StepNames.of(explanation)
    if any(case.moment != Moment.ANY for case in explanation.failures):
        yield from LEGEND
    yield f"point of no return: {_or_none(names, explanation.point_of_no_return)}"
    yield f"never undone: {_or_none(names, explanation.never_undone)}"
    yield from _stuck(explanation)
    if (worst := explanation.worst) and worst.cost:
        yield f"worst case: cost {worst.cost:,}, {_condition(worst)}"
    yield from _rates(explanation)


def _or_none(names: StepNames, steps: Sequence[str]) -> str:
    return names.listed(steps) if steps else "none"


def _condition(case: FailureCase) -> str:
    verb = "fails" if len(case.steps) == 1 else "fail"
    when = "" if case.moment == Moment.ANY else f" {case.moment}"
    return f"if {' and '.join(case.steps)} {verb}{when}"


def _stuck(explanation: Explanation) -> Iterator[str]:
    """Yield which failures end stuck. A pair is listed if neither of its steps ends so alone."""
    single = {case.steps[0] for case in explanation.failures if case.is_stuck}
    if single:
        listed = [*dict.fromkeys(_singles(explanation))]
        texts = [", ".join(listed[:-1]), listed[-1]] if len(listed) > 1 else listed
        yield f"stuck: if {' or '.join(texts)} fails"
    pairs = [case for case in explanation.pairs if case.is_stuck and not single & {*case.steps}]
    for case in pairs[:MAX_STUCK]:
        yield f"stuck: {_condition(case)}: {case.reason}"
    if len(pairs) > MAX_STUCK:
        yield f"stuck: {len(pairs) - MAX_STUCK:,} more pairs"
    if not single and not pairs:
        yield "stuck: no failure" + (" of one or two steps" if explanation.pairs else "")


def _singles(explanation: Explanation) -> Iterator[str]:
    for row in rows(explanation, explanation.failures):
        if row.case.is_stuck:
            yield row.failed


def _rates(explanation: Explanation) -> Iterator[str]:
    if not explanation.expected:
        return
    source = (
        ""
        if explanation.learned_from is None
        else f" (history of {counted(explanation.learned_from, 'saga')})"
    )
    names = StepNames.of(explanation)
    shown = (
        f"{names.declared(name)} {percent(rate)}"
        for name, rate in explanation.rates.items()
        if rate
    )
    listed = [*dict.fromkeys(shown)]
    more = f" and {len(listed) - MAX_NAMES:,} more" if len(listed) > MAX_NAMES else ""
    yield ""
    yield f"rates of failure{source}: {', '.join(listed[:MAX_NAMES]) or 'none'}{more}"
    yield from (_share(share) for share in _different(explanation.expected))
    for order in explanation.orders:
        yield (
            f"a better order: let {order.step} need {order.after}: expected cost "
            f"{amount(order.cost)} instead of {amount(order.cost_before)}"
        )
    if len(explanation.steps) > MAX_ORDERED and explanation.pivot is None:
        yield f"other orders are compared only for up to {MAX_ORDERED} steps"


def _different(expected: Sequence[ExpectedCost]) -> list[ExpectedCost]:
    """Return one of two equal expectations."""
    late, early = expected
    if dataclasses.replace(early, moment=late.moment) == late:
        return [dataclasses.replace(late, moment=Moment.ANY.value)]
    return [late, early]


def _share(share: ExpectedCost) -> str:
    when = "" if share.moment == Moment.ANY else f" ({share.moment})"
    ends = f"{percent(share.completed)} complete, {percent(share.recovered)} recover"
    ends += f", {percent(share.stuck)} are stuck" if share.stuck else ""
    cost = "" if share.cost is None else f"; expected cost of a saga: {amount(share.cost)}"
    return f"sagas{when}: {ends}{cost}"


def percent(share: float) -> str:
    """Return a share in percent, with up to three digits that count."""
    return f"{100 * share:.3g} %"


def amount(cost: float) -> str:
    """Return an expected cost, with up to four digits that count."""
    return f"{cost:,.0f}" if cost >= 1000 else f"{cost:.4g}"


# -- Markdown


def markdown(explanation: Explanation, has_pairs: bool = False) -> str:
    """Return the failures as a table in Markdown."""
    has_costs = explanation.pivot is None
    heads = ["Fails", "When", *["Cost"] * has_costs, "Undone", "Kept", "Run", "Skipped"]
    lines = [heads, ["---", "---", *["--:"] * has_costs, *["---"] * 4]]
    cases = (*explanation.failures, *(explanation.pairs if has_pairs else ()))
    for row in rows(explanation, cases):
        case = row.case
        decided = [row.listed(names) for names in (case.undone, case.kept, case.run, case.skipped)]
        if case.is_optional or case.is_stuck:
            decided = [case.described(row.listed), "", "", ""]
        cost = "" if case.cost is None else f"{case.cost:,}"
        when = "" if case.moment == Moment.ANY else case.moment
        lines.append([row.failed, when, *[cost] * has_costs, *decided])
    return "\n".join(f"| {' | '.join(line)} |" for line in lines)


# -- JSON


def document(explanation: Explanation) -> dict[str, Any]:
    """Return an explanation as values for JSON."""
    worst = explanation.worst
    return {
        "saga": explanation.saga,
        "version": explanation.version,
        "steps": [*explanation.steps],
        "pivot": explanation.pivot,
        "failures": [case_document(case) for case in explanation.failures],
        "pairs": [case_document(case) for case in explanation.pairs],
        "point_of_no_return": [*explanation.point_of_no_return],
        "never_undone": [*explanation.never_undone],
        "worst": worst and case_document(worst),
        "rates": dict(explanation.rates),
        "learned_from": explanation.learned_from,
        "expected": [dataclasses.asdict(share) for share in explanation.expected],
        "orders": [dataclasses.asdict(order) for order in explanation.orders],
    }


def case_document(case: FailureCase) -> dict[str, Any]:
    """Return a failure as values for JSON."""
    return {
        "steps": [*case.steps],
        "moment": case.moment,
        "stuck": case.is_stuck,
        "cost": case.cost,
        "undone": [*case.undone],
        "kept": [*case.kept],
        "run": [*case.run],
        "skipped": [*case.skipped],
        "blocking_steps": case.blocking_steps,
        "reason": case.reason,
    }
