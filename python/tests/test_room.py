"""A saga is opened only if its log has space for its end.

A log without that space is full, and another one takes the saga. Each log has space for any
definition.
"""

from __future__ import annotations

import asyncio

import pytest
import records
from cases import Task, run

import sagas

GREATEST = 10**9


def row(name: str, steps: int, needs: int, tries: int = 1) -> sagas.Saga:
    """Return steps of the highest costs, and each needs `needs` steps before it.

    The first waits for a gate that its input names.
    """
    row = sagas.Saga(name)

    async def go(task: Task) -> None:
        if task.step == "s0" and task.input in GATES:
            await GATES[task.input].wait()

    for number in range(steps):
        before = row.steps[max(0, number - needs) : number]
        step = row.step(
            name=f"s{number}",
            needs=before,
            run=GREATEST,
            undo=GREATEST,
            skip=GREATEST,
            keep=GREATEST,
            tries=tries,
        )(go)
        step.compensation(tries=tries)(go)
    return row


GATES: dict[str, asyncio.Event] = {}


@pytest.mark.parametrize("location", ["postgresql"], indirect=True)
def test_the_greatest_definition_runs(location: str) -> None:
    """An empty log has space for it, with nine attempts of each action and compensation."""
    greatest = row("greatest", 1024, 8, tries=9)

    async def main() -> None:
        async with sagas.open(location, [greatest]) as store:
            assert (await store.start(greatest, "k")).new and await store.abort("k")
            assert (await store.wait("k")).phase == "recovered"

    run(main())


@pytest.mark.parametrize("location", ["sqlite"], indirect=True)
def test_a_full_log_is_followed_by_another(location: str) -> None:
    """One log takes four open sagas of 1,024 steps with 8,156 needs.

    The sagas of both logs end, and both logs pass their audit.
    """
    wide = row("wide", 1024, 8)

    async def main() -> list[int]:
        gate = GATES["wide"] = asyncio.Event()
        async with sagas.open(location, [wide], concurrency=100) as store:
            starts = [store.start(wide, f"k{number}", "wide") for number in range(6)]
            runs = await asyncio.gather(*starts)
            opened = records.read(location)
            assert all(await asyncio.gather(*(run.abort() for run in runs)))
            gate.set()
            assert {end.phase for end in await asyncio.gather(*(run.wait() for run in runs))} <= {
                "completed",
                "recovered",
            }
            assert [verdict[:3] for verdict in (await store.audit()).values()] == ["yes", "yes"]
        return [
            sum(saga.log == log for saga in opened.sagas.values()) for log in sorted(opened.logs)
        ]

    assert run(main()) == [4, 2]
