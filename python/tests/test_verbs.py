"""Stores and clients have the same calls, with and without async."""

from __future__ import annotations

import asyncio
import inspect
import pathlib
from typing import Any

import psycopg
import pytest
from cases import run
from serving import FEW, LONG, served

import sagas

PAIRS = [
    (sagas.Store, sagas.SyncStore),
    (sagas.Client, sagas.SyncClient),
    (sagas.AsyncServiceClient, sagas.ServiceClient),
    (sagas.Run, sagas.SyncRun),
    (sagas.ClientRun, sagas.SyncClientRun),
    (sagas.AsyncServiceRun, sagas.ServiceRun),
]
COMMON = set(
    "abort abort_all attention close compensate complete complete_all fail fail_all get list"
    " resolve resolve_all retry retry_all start wait".split()
)
OF_A_CALL = {"wait_idle": {"timeout"}, "list": {"options"}}
"""Parameters that only one side of a pair has."""


def verbs(kind: type) -> set[str]:
    return {name for name in dir(kind) if name[0] != "_"}


@pytest.mark.parametrize("pair", PAIRS, ids=[pair[0].__name__ for pair in PAIRS])
def test_both_sides_have_the_same_calls(pair: tuple[type, type]) -> None:
    first, second = pair
    assert verbs(first) == verbs(second)
    for name in verbs(first):
        calls = getattr(first, name), getattr(second, name)
        if all(map(callable, calls)) and name not in OF_A_CALL:
            assert len({tuple(inspect.signature(call).parameters) for call in calls}) == 1, name


@pytest.mark.parametrize("kind", [kind for pair in PAIRS[:3] for kind in pair])
def test_operators_have_the_same_calls_everywhere(kind: type) -> None:
    assert COMMON - verbs(kind) == set()


APP = """
import sagas
order = sagas.Saga("order")
@order.step(tries=1, on_exhausted="ask")
def charge(task):
    raise sagas.RetryAfter(0)
"""


def test_all_exhausted_attempts_of_a_filter_by_each_client(
    url: str, tmp_path: pathlib.Path
) -> None:
    """They are attempted again, or reported, up to the limit; others are left alone."""
    (tmp_path / "many_app.py").write_text(APP)

    async def value(result: Any) -> Any:
        return await result if inspect.isawaitable(result) else result

    async def exhausted(client: Any, count: int, step: str = "charge") -> None:
        async with asyncio.timeout(LONG):
            while True:
                entries = await value(client.attention())
                if sum(entry.why == "exhausted" for entry in entries) == count:
                    return
                await asyncio.sleep(0.02)

    async def handled(name: str, client: Any, order: sagas.Saga) -> None:
        labels, keys = {"by": name}, [f"{name}-{number}" for number in range(3)]
        is_service = isinstance(client, (sagas.ServiceClient, sagas.AsyncServiceClient))
        requester = {"note": name} if is_service else {"by": "ann", "note": name}
        for key in keys:
            await value(client.start(order, key, labels=labels))
        await value(client.start(order, f"{name}-other"))
        await exhausted(client, 4)
        assert await value(client.retry_all(saga=order, step="charge", labels=labels, limit=2)) == 2
        await exhausted(client, 4)
        assert await value(client.complete_all("paid", labels=labels, limit=1, **requester)) == 1
        assert await value(client.fail_all("no", saga="order", labels=labels)) == 2
        ends = [await value(client.wait(key, timeout=LONG)) for key in keys]
        assert sorted(end.ok for end in ends) == [False, False, True]
        assert await value(client.retry_all(labels=labels)) == 0
        await value(client.abort_all(saga=order, labels=labels))
        await value(client.fail(f"{name}-other", "charge", "no"))
        await value(client.wait(f"{name}-other", timeout=LONG))

    async def main(service_url: str) -> None:
        order = sagas.Saga("order")
        order.step(external=True, name="charge", tries=1)
        async with sagas.Client(url) as client:
            await handled("client", client, order)
        with sagas.SyncClient(url) as sync_client:
            await handled("sync", sync_client, order)
        with sagas.ServiceClient(service_url, timeout=LONG) as service_client:
            await handled("service", service_client, order)
        async with sagas.AsyncServiceClient(service_url, timeout=LONG) as async_client:
            await handled("async", async_client, order)
            listed = [saga.key async for saga in async_client.list(labels={"by": "async"})]
            assert sorted(listed) == [f"async-{number}" for number in range(3)]
            async with async_client.events(key="followed") as events:
                await events.open()
                await async_client.start("order", "followed")
                assert (await anext(aiter(events))).name == "saga_started"

    arguments = "--app", "many_app:order"
    with served(tmp_path, {"few.toml": FEW}, *arguments, store=url) as service:
        run(main(service.url))
    with psycopg.connect(url) as link:
        query = "SELECT value::jsonb ->> 'note' FROM sagas.operator_commands WHERE command = %s"
        noted = {note for (note,) in link.execute(query, ["complete"]).fetchall()}
    assert noted == {"client", "sync", "service", "async"}
