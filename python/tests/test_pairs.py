"""Each option of a step with each other one that it may be combined with.

Each saga ends in time, and no limit is exceeded, with any combination.
"""

from __future__ import annotations

import asyncio
import dataclasses
import datetime
import itertools
import random
import time
from collections import Counter
from collections.abc import Iterator
from typing import Any

import pytest
from cases import QUICK, Task, run

import sagas

SECONDS = 60
"""The limit in which all sagas of a store are over; they take about two seconds."""
TOO_LONG = 0.05
TRIES = 5
"""More than a call has hazards, since each of them is another attempt in a transaction."""
STEP_OPTIONS: dict[str, dict[str, Any]] = {
    "tries": {"tries": TRIES},
    "backoff": {"backoff": sagas.Backoff(initial=0.03, maximum=0.05)},
    "timeout": {"timeout": TOO_LONG},
    "no_effect": {"no_effect": (LookupError,)},
    "max_unknown": {"max_unknown": 1},
    "unknown_time": {"max_unknown": datetime.timedelta(seconds=0.05)},
    "concurrency": {"concurrency": 1},
    "fleet_concurrency": {"fleet_concurrency": 2},
    "rate_limit": {"rate_limit": (2, 0.05)},
    "transaction": {"transaction": True},
}
KINDS = ("wait", "approval", "elsewhere")
UNDO = ("tries", "timeout", "unknown", "most", "plain", "elsewhere", "inside")
OPTIONS = (*STEP_OPTIONS, "plain", *KINDS, *(f"undo_{word}" for word in UNDO))
STEP = (
    "no_effect",
    "max_unknown",
    "unknown_time",
    "fleet_concurrency",
    "rate_limit",
    "transaction",
)
"""Options that need a function here."""
REFUSED: dict[str, tuple[str, ...]] = {
    "wait": (*STEP, "approval", "elsewhere"),
    "approval": (*STEP, "concurrency", "elsewhere"),
    "elsewhere": (*STEP, "timeout", "plain"),
    "max_unknown": ("unknown_time",),
    "undo_elsewhere": ("undo_timeout", "undo_unknown", "undo_most", "undo_plain", "undo_inside"),
}
LOST = dict.fromkeys(("max_unknown", "unknown_time"), "lost")
UNDO_LOST = dict.fromkeys(("undo_unknown", "undo_most"), "lost")
HAZARDS = {"tries": "misses", "no_effect": "refused", "timeout": "late", **LOST}
UNDO_HAZARDS = {"undo_tries": "misses", "undo_timeout": "late", **UNDO_LOST}
KEYS = ("well", "well-too", "well-as-well", "fails", "aborted")


def fits(options: frozenset[str]) -> bool:
    """Return whether a step may have all of these."""
    return not any(
        option in options and options & set(others) for option, others in REFUSED.items()
    )


def drawn(inside: bool) -> list[frozenset[str]]:
    """Return each option alone, each pair, and some larger sets."""
    known = [option for option in OPTIONS if inside or option not in ("transaction", "undo_inside")]
    pairs = [frozenset(pair) for pair in itertools.combinations(known, 2)]
    draw = random.Random(58)
    larger = [frozenset(draw.sample(known, draw.randint(3, 6))) for _ in range(120)]
    return [
        option
        for option in ([frozenset([option]) for option in known] + pairs + larger)
        if fits(option)
    ]


@dataclasses.dataclass
class Case:
    """A saga whose first step has these options, and has each of their hazards once."""

    name: str
    options: frozenset[str]
    now: int = 0
    highest: int = 0
    calls: Counter[tuple[str, bool]] = dataclasses.field(default_factory=Counter)

    def hazard(self, task: Task) -> str | None:
        """Do the hazard of this call."""
        number = self.calls[task.key, task.is_compensation]
        self.calls[task.key, task.is_compensation] += 1
        table = UNDO_HAZARDS if task.is_compensation else HAZARDS
        meets = [hazard for option, hazard in table.items() if option in self.options]
        hazards = list(dict.fromkeys(meets))
        return hazards[number] if number < len(hazards) else None

    def strike(self, hazard: str | None) -> None:
        if hazard == "misses":
            raise sagas.Retry("misses")
        if hazard == "refused":
            raise LookupError("refused")
        if hazard == "lost":
            raise (sagas.Unknown, ValueError)[len(self.calls) % 2]("outcome unknown")

    def enter(self, task: Task) -> int:
        """Count how many calls of the step run with this one; a compensation has no limit."""
        here = 0 if task.is_compensation else 1
        self.now += here
        self.highest = max(self.highest, self.now)
        return here

    async def act(self, task: Task) -> str:
        """The step as an async function."""
        hazard = self.hazard(task)
        here = self.enter(task)
        try:
            await asyncio.sleep(20 * TOO_LONG if hazard == "late" else 0.001)
            self.strike(hazard)
        finally:
            self.now -= here
        return task.step

    def act_in_thread(self, task: Task) -> str:
        """The step as a plain function."""
        hazard = self.hazard(task)
        here = self.enter(task)
        try:
            time.sleep(1.5 * TOO_LONG if hazard == "late" else 0.001)
            self.strike(hazard)
        finally:
            self.now -= here
        return task.step

    def saga(self) -> sagas.Saga:
        """Return its definition: `a` has the options, and `z` fails if the input says so."""
        saga = sagas.Saga(self.name)
        settings: dict[str, Any] = {"backoff": QUICK, "name": "a"}
        for option in self.options & STEP_OPTIONS.keys():
            settings |= STEP_OPTIONS[option]
        function = self.act_in_thread if "plain" in self.options else self.act
        wrapped = as_plain(function) if "plain" in self.options else as_async(function)
        if "elsewhere" in self.options:
            first = saga.step(external=True, **settings)
        elif "wait" in self.options:
            first = saga.wait(until=datetime.timedelta(seconds=0.02), **settings)(wrapped)
        elif "approval" in self.options:
            if "timeout" in settings:
                settings["call_timeout"] = settings.pop("timeout")
            first = saga.approval(**settings)(wrapped)
        else:
            first = saga.step(**settings)(wrapped)
        self._compensate(first)

        @saga.step(needs=[first])
        async def z(task: Task) -> None:
            if task.input == "fails":
                raise sagas.Fail("no")

        return saga

    def _compensate(self, first: sagas.Step[Any]) -> None:
        settings: dict[str, Any] = {"backoff": QUICK, "transaction": "undo_inside" in self.options}
        settings |= {"tries": TRIES} if "undo_tries" in self.options else {}
        settings |= {"timeout": TOO_LONG} if "undo_timeout" in self.options else {}
        settings |= {"max_unknown": 1} if "undo_most" in self.options else {}
        if "undo_elsewhere" in self.options:
            first.compensation(external=True, backoff=QUICK, tries=settings.get("tries", 1))
        elif "undo_plain" in self.options:
            first.compensation(**settings)(as_plain(self.act_in_thread))
        else:
            first.compensation(**settings)(as_async(self.act))


def as_async(function: Any) -> Any:
    """Return a separate function, which requests its connection if it has one."""

    async def act(task: Task) -> str:
        if has_connection(task):
            await task.connection.execute("SELECT 1")
        return str(await function(task))

    return act


def as_plain(function: Any) -> Any:
    """Return the same as a plain function."""

    def act(task: Task) -> str:
        if has_connection(task):
            task.connection.execute("SELECT 1")
        return str(function(task))

    return act


def has_connection(task: Task) -> bool:
    """Return whether it is called in a transaction. Half of them do nothing in it."""
    try:
        return not task.key.endswith("too") and task.connection is not None
    except sagas.ProgramError:
        return False


async def answer(store: sagas.Store, keys: list[str]) -> None:
    """Report each step that waits for an operator or a worker as done."""
    while True:
        for key in keys:
            for attempt in store.active_attempts(key):
                asks = attempt.waits == "unknown" and attempt.until is None
                if asks or attempt.waits in ("approval", "worker"):
                    try:
                        await store.complete(key, attempt.step, "a", undo=attempt.undo)
                    except (sagas.StepNotWaiting, sagas.NoSuchSaga):
                        pass  # it is over by now
        await asyncio.sleep(0.01)


def batches(cases: list[Case], size: int = 60) -> Iterator[list[Case]]:
    """Return batches of as many as a store takes."""
    for at in range(0, len(cases), size):
        yield cases[at : at + size]


@pytest.mark.parametrize(
    "location, concurrency", [("sqlite", 6), ("postgresql", 32)], indirect=["location"]
)
def test_options_in_pairs(location: str, concurrency: int, tmp_path: Any) -> None:
    """Five sagas of each at once: three end well, one fails after the step, one is aborted."""
    inside = location.startswith("postgresql")
    cases = [Case(f"s{number}", options) for number, options in enumerate(drawn(inside))]

    async def run_case(store: sagas.Store, case: Case, saga: sagas.Saga, key: str) -> None:
        run = await store.start(saga, key, "fails" if key.endswith("fails") else None)
        if key.endswith("aborted"):
            await run.abort()
        end = await run.wait()
        states = end.states
        assert end.phase in ("completed", "recovered"), (case.options, str(end))
        if "well" in key:
            assert end.ok, (case.options, str(end))
        elif key.endswith("fails"):
            assert states == {"a": "undone", "z": "failed"}, (case.options, str(end))

    async def run_batch(number: int, some: list[Case]) -> None:
        store_path = location if inside else str(tmp_path / f"store-{number}.db")
        kinds = {case.name: case.saga() for case in some}
        async with sagas.open(
            store_path, kinds.values(), concurrency=concurrency, shutdown_timeout=1
        ) as store:
            keys = {f"{case.name}-{key}": case for case in some for key in KEYS}
            answering = asyncio.create_task(answer(store, list(keys)))
            jobs = {
                key: asyncio.create_task(run_case(store, case, kinds[case.name], key))
                for key, case in keys.items()
            }
            _, late = await asyncio.wait(jobs.values(), timeout=SECONDS)
            open = [key for key, job in jobs.items() if job in late]
            still = [(sorted(keys[key].options), await store.waits_for(key)) for key in open]
            for job in (answering, *late):
                job.cancel()
            await asyncio.wait([answering, *late])
            assert not still
            await asyncio.gather(*jobs.values())

    async def main() -> None:
        for number, some in enumerate(batches(cases)):
            await run_batch(number, some)

    run(main())
    for case in cases:
        limits = {"concurrency": 1, "fleet_concurrency": 2}
        bounds = [limits[option] for option in case.options & limits.keys()]
        limit = min(bounds, default=case.highest)
        assert case.highest <= limit, case.options
