"""Claims and reports that come together, and callers that are cancelled."""

from __future__ import annotations

import asyncio
import contextlib
import json
import pathlib
import socket
import types
from collections.abc import Callable, Sequence
from typing import Any

import pytest
from cases import run
from serving import served, start, take

import sagas
from sagas.base.errors import Closed, StoreUnavailable
from sagas.server.limits import ConcurrencyLimits
from sagas.server.middleware import FOLLOWED, GONE, SERVICE
from sagas.server.problems import Problem
from sagas.server.routes import tasks as tasks_module
from sagas.server.service import WaitingClaims
from sagas.server.settings import ConcurrencySettings
from sagas.storage.external import Batcher

WORD = [("far", "a", "run")]


def opened(location: str, saga: sagas.Saga) -> sagas.Store:
    """Open a store that serves workers."""
    store = sagas.open(location, [saga])
    store.leased = True
    return store


def far() -> sagas.Saga:
    """Return a saga of one step, which workers do."""
    saga = sagas.Saga("far")
    saga.step(name="a", external=True, undo=0)
    return saga


class Table:
    """A table that returns a batch when the test says so, and keeps its requests."""

    def __init__(self) -> None:
        self.requests: list[list[str]] = []
        self.dropped: list[tuple[str, str]] = []
        self.may = asyncio.Event()
        self.fault: Exception | None = None
        self.then: Callable[[], object] = lambda: None
        self.grouped: Batcher[str, str] = Batcher(self.ask, 4, self.drop, self.group)

    def drop(self, request: str, answer: str) -> None:
        self.dropped.append((request, answer))

    def group(self, request: str) -> str | None:
        return request[0] if request[0].isupper() else None

    async def ask(self, some: Sequence[str]) -> list[str]:
        self.requests.append([*some])
        await self.may.wait()
        self.then()
        if self.fault:
            raise self.fault
        return [request * 2 for request in some]


def test_a_batch_has_one_group_at_most() -> None:
    """Requests that come while the first batch is in progress wait.

    Each batch has those that have waited longest.
    """

    async def main() -> None:
        table = Table()
        first = asyncio.create_task(table.grouped.ask("A0"))
        await asyncio.sleep(0.01)
        rest = [
            asyncio.create_task(table.grouped.ask(request))
            for request in ("A1", "B1", "x", "A2", "B2", "y", "z")
        ]
        await asyncio.sleep(0.01)
        assert table.requests == [["A0"]]
        table.may.set()
        assert await first == "A0A0"
        assert await asyncio.gather(*rest) == ["A1A1", "B1B1", "xx", "A2A2", "B2B2", "yy", "zz"]
        assert table.requests[1:] == [["A1", "x", "A2", "y"], ["B1", "B2", "z"]]
        assert not table.dropped

    run(main())


def test_a_batch_that_fails() -> None:
    """Its callers get the error, and the next batch is asked."""

    async def main() -> None:
        table = Table()
        table.fault = StoreUnavailable("away")
        table.may.set()
        for _ in range(2):
            with pytest.raises(StoreUnavailable):
                await table.grouped.ask("x")
        table.fault = None
        assert await table.grouped.ask("y") == "yy"

    run(main())


def test_callers_that_are_cancelled() -> None:
    """Their replies are dropped, also if the caller has its reply and has not continued yet."""

    async def main() -> None:
        table = Table()
        some = [asyncio.create_task(table.grouped.ask(request)) for request in ("x", "y", "z")]
        await asyncio.sleep(0.01)
        some[0].cancel()
        table.then = lambda: asyncio.get_running_loop().call_soon(some[1].cancel)
        table.may.set()
        for item in some[:2]:
            with pytest.raises(asyncio.CancelledError):
                await item
        assert await some[2] == "zz"
        assert table.dropped == [("x", "xx"), ("y", "yy")]

    run(main())


def test_a_cancelled_request_is_not_asked() -> None:
    """It is not asked: a claim would take tasks from others, and release them at once."""

    async def main() -> None:
        table = Table()
        some = [
            asyncio.create_task(table.grouped.ask(request)) for request in ("A0", "B1", "B2", "C3")
        ]
        await asyncio.sleep(0.01)
        some[1].cancel()
        some[3].cancel()
        table.may.set()
        assert await some[0] == "A0A0" and await some[2] == "B2B2"
        await asyncio.sleep(0.01)
        assert table.requests == [["A0"], ["B2"]] and not table.dropped
        assert await table.grouped.ask("x") == "xx"

    run(main())


def test_a_claim_that_is_cancelled_is_returned(location: str) -> None:
    """Wherever it was, the task can be claimed at once, despite its long lease."""
    saga = far()

    async def main() -> None:
        async with opened(location, saga) as store:
            await store.start(saga, "k")
            for turns in range(25):
                claiming = asyncio.create_task(store.workers.claim(WORD, wait=0, lease=600))
                for _ in range(turns):
                    await asyncio.sleep(0)
                claiming.cancel()
                with contextlib.suppress(asyncio.CancelledError):
                    for task in await claiming:  # it was over by then
                        await store.workers.heartbeat(task.attempt_id, task.lease, 0.0)
            (task,) = await store.workers.claim(WORD, wait=30, lease=600)
            assert await store.workers.report(task.attempt_id, task.lease, 5)
            assert (await (await store.start(saga, "k")).wait(60)).results == {"a": 5}

    run(main())


def test_many_at_once(location: str) -> None:
    """Each task is claimed once, and one of two reports of a task does not count."""
    saga = far()

    async def main() -> None:
        async with opened(location, saga) as store:
            for number in range(12):
                await store.start(saga, f"k{number}")
            wanted = [
                store.workers.claim(WORD, limit=limit, wait=30, lease=600) for limit in (1, 3, 2)
            ]
            batches = await asyncio.gather(*wanted)
            assert [len(tasks) for tasks in batches] == [1, 3, 2]
            tasks = [task for some in batches for task in some]
            reports = [
                store.workers.report(task.attempt_id, task.lease, number)
                for number, task in enumerate(tasks)
            ]
            again = store.workers.report(tasks[0].attempt_id, tasks[0].lease, "other")
            more = store.workers.claim(WORD, limit=50, lease=600)
            *kept, other, rest = await asyncio.gather(*reports, again, more, return_exceptions=True)
            assert kept == [True] * 6 and isinstance(other, sagas.ConflictingReport)
            assert not isinstance(rest, BaseException) and len(rest) == 6
            assert len({task.attempt_id for task in [*tasks, *rest]}) == 12

    run(main())


def test_an_invalid_claim_fails_no_other(location: str) -> None:
    """It has half of a surrogate pair in a worker's name or in its report, or a limit below 0.

    Concurrent claims and reports are kept.
    """
    saga = far()

    async def main() -> None:
        async with opened(location, saga) as store:
            for number in range(4):
                await store.start(saga, f"k{number}")
            task, torn = await store.workers.claim(WORD, limit=2, wait=30, lease=600)
            unknown = {"unknown": "no such file: /in/\udcff.pdf"}
            claimed, none, other, kept, reported = await asyncio.gather(
                store.workers.claim(WORD, wait=30, lease=600),
                store.workers.claim(WORD, limit=-1, lease=600),
                store.workers.claim(WORD, wait=30, lease=600, worker="w\ud800"),
                store.workers.report(task.attempt_id, task.lease, 5),
                store.workers.report(torn.attempt_id, torn.lease, **unknown),
            )
            assert kept and reported and not none
            assert len({task.attempt_id, claimed[0].attempt_id, other[0].attempt_id}) == 3
            assert not await store.workers.report(torn.attempt_id, torn.lease, **unknown)

    run(main())


@pytest.mark.parametrize("fault", [StoreUnavailable("away"), ValueError("odd"), None])
def test_tasks_that_cannot_be_read_are_returned(
    location: str, fault: Exception | None, monkeypatch: pytest.MonkeyPatch
) -> None:
    """This holds also if their claim is cancelled in the meantime.

    A task that this node cannot offer to any worker keeps its lease: it would block tasks that have
    waited less long.
    """
    saga = far()

    async def main() -> None:
        async with opened(location, saga) as store:
            for number in range(3):
                await store.start(saga, f"k{number}")
            external, reading = store._coordinator.external, asyncio.Event()
            whole, count = external._leased, 0

            async def leased(*arguments: Any) -> Any:
                nonlocal count
                count += 1
                if count == 2:
                    reading.set()
                    if fault:
                        raise fault
                    await asyncio.Event().wait()
                return await whole(*arguments)

            monkeypatch.setattr(external, "_leased", leased)
            await asyncio.sleep(0.2)  # all are offered
            claiming = asyncio.create_task(store.workers.claim(WORD, limit=3, wait=30, lease=600))
            await reading.wait()
            claiming.cancel() if fault is None else None
            with pytest.raises(type(fault) if fault else asyncio.CancelledError):
                await claiming
            claimed: list[Any] = []
            async with asyncio.timeout(20):
                while len(claimed) < (2 if isinstance(fault, ValueError) else 3):
                    claimed += await store.workers.claim(WORD, limit=3, wait=1, lease=600)
            assert not await store.workers.claim(WORD, lease=600)

    run(main())


def test_a_reported_task_is_not_claimed(location: str) -> None:
    """The lease is over, and its worker reports *done* while another one claims, in any order."""
    saga = far()

    async def main() -> None:
        async with opened(location, saga) as store:
            for number in range(6):
                started = await store.start(saga, f"k{number}")
                (task,) = await store.workers.claim(WORD, wait=30, lease=0.01)
                await asyncio.sleep(0.05)
                both: list[Any] = [
                    store.workers.claim(WORD, lease=600),
                    store.workers.report(task.attempt_id, task.lease, number),
                ]
                turn = 1 if number % 2 else -1
                claimed, kept = (await asyncio.gather(*both[::turn]))[::turn]
                assert (claimed, kept) == ([], True)
                assert (await started.wait(60)).results == {"a": number}

    run(main())


ONE_STEP = 'format = 2\nname = "one"\n[[step]]\nname = "a"\nundo = "never"\n'


def test_a_client_that_goes_with_its_report_keeps_no_lease(
    tmp_path: pathlib.Path, location: str
) -> None:
    """A task that was claimed for it can be claimed at once."""
    with served(
        tmp_path, {"one.toml": ONE_STEP}, store=location
    ) as service, service.client() as client:
        for number in range(40):
            start(client, "one", f"k{number}")
        host, port = service.address.split(":")
        for task in take(client, "one/a", limit=20):
            body = json.dumps(
                {"lease": task["lease"], "next": {"steps": ["one/a"], "lease": 600}}
            ).encode()
            head = (
                f"POST /v1/tasks/{task['attempt_id']}/complete HTTP/1.1\r\nHost: {host}\r\n"
                f"Content-Type: application/json\r\nContent-Length: {len(body)}\r\n\r\n"
            )
            with socket.create_connection((host, int(port))) as link:
                link.sendall(head.encode() + body)
        claimed: list[object] = []
        while some := take(client, "one/a", limit=100, wait=2):
            claimed += some
        assert len(claimed) == 20


class Claims:
    """A service whose claims and reports end as the case says."""

    def __init__(self, *outcomes: list[str] | BaseException) -> None:
        self.outcomes, self.given_back, self.is_stopping = [*outcomes], list[str](), False
        self.store = types.SimpleNamespace(workers=self, _now=lambda: 0.0)
        self.claims = WaitingClaims()
        self.tokens, self.stopping = None, asyncio.get_running_loop().create_future()
        self.concurrency = ConcurrencyLimits(ConcurrencySettings())
        self.gone: asyncio.Future[None] = asyncio.get_running_loop().create_future()

    def saw(self, *_: object) -> None:
        ...

    def task_names(self) -> set[str]:
        return set()

    async def claim(self, *_: object, **__: object) -> list[str]:
        outcome = self.outcomes.pop(0)
        if isinstance(outcome, BaseException):
            raise outcome
        return outcome

    async def give_back(self, tasks: list[str], holder: str) -> None:
        self.given_back += tasks


@pytest.mark.parametrize(
    ("second", "of_report", "expected_tasks", "back"),
    [
        (["t2"], None, ["t1", "t2"], []),
        (Closed("closed"), None, ["t1"], []),
        (Problem("RightsChanged", "ask again"), None, None, ["t1"]),
        (["t2"], ValueError("of the report"), None, ["t1"]),
        (["t2"], asyncio.CancelledError(), None, ["t1"]),
    ],
)
def test_a_claim_without_a_response_is_released(
    second: list[str] | BaseException,
    of_report: BaseException | None,
    expected_tasks: list[str] | None,
    back: list[str],
    monkeypatch: pytest.MonkeyPatch,
) -> None:
    """It is released, whether the report or the later claim raises."""
    monkeypatch.setattr(tasks_module.json_views, "task", lambda leased, now: leased)

    async def main() -> None:
        service = Claims(["t1"], second)
        followed = asyncio.get_running_loop().create_future()
        scope = {GONE: service.gone, FOLLOWED: followed, SERVICE: service}
        request: Any = types.SimpleNamespace(scope=scope)
        principal: Any = types.SimpleNamespace(name="w", digest="w")
        call: Any = types.SimpleNamespace(service=service, principal=principal, request=request)
        body = {"steps": ["far/a"], "limit": 3, "wait": 0.0, "lease": 9.0, "worker": ""}
        reply: Any = None
        with contextlib.suppress(Problem, ValueError, asyncio.CancelledError):
            async with tasks_module.NextClaim(call, body) as claim:
                claim.stored()
                await asyncio.sleep(0.01)
                if of_report:
                    raise of_report
                reply = await claim.answer()
        assert (reply and reply.tasks, service.given_back) == (expected_tasks, back)

    run(main())
