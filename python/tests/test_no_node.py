"""Sagas that no node executes.

Their definition is one that only another node has, or their shard has no node. A node takes a shard
if it can execute one of its sagas, and parks the others.
"""

from __future__ import annotations

import asyncio
import datetime
import json
import pathlib

import psycopg
import pytest
from cases import run, until
from serving import FEW, command, served

import sagas
from sagas import Task
from sagas.base.events import Event
from sagas.inspection import attention_pages, lists, store_figures
from sagas.inspection.question import StoreReader
from sagas.inspection.views import Waits

PAYMENTS = 20
HOUR = datetime.timedelta(hours=1)


def payment(gate: asyncio.Event) -> sagas.Saga:
    """Return a saga of both programs, which pays after its gate opens."""
    saga = sagas.Saga("payment")

    @saga.step
    async def charge(task: Task) -> str:
        await gate.wait()
        return "charged"

    return saga


def refunds(gate: asyncio.Event) -> list[sagas.Saga]:
    """Return sagas that only the new program has. Each waits for something else."""
    payout, parent, approved, timed = map(sagas.Saga, ("payout", "parent", "approved", "timed"))

    @payout.step
    async def transfer(task: Task) -> str:
        await gate.wait()
        return "transferred"

    @parent.child(payout)
    def pay_out(task: Task) -> None:
        ...

    @approved.approval
    def review(task: Task) -> None:
        ...

    @approved.step(needs=[review])
    async def send(task: Task) -> str:
        return "sent"

    @timed.wait(until=HOUR)
    def pause(task: Task) -> None:
        ...

    return [payout, parent, approved, timed]


def waits_of(store: sagas.Store, key: str) -> list[Waits]:
    """Return what the steps of a saga wait for."""
    reader = StoreReader(store._reader())
    try:
        return reader.ask(lists.waits(key=key, person=False))
    finally:
        reader.close()


def age(url: str) -> None:
    """Let a minute pass since the last node left its shards."""
    with psycopg.connect(url, autocommit=True) as link:
        link.execute("UPDATE sagas.takeovers SET at = at - interval '1 minute'")
        link.execute("UPDATE sagas.nodes SET lease = lease - interval '1 minute'")


def test_a_roll_back_freezes_no_other_saga(url: str, caplog: pytest.LogCaptureFixture) -> None:
    """The old program executes the payments of a shard that also has sagas of the new one. These
    are listed, and continue unchanged once a node has their definitions.
    """
    closed, open_gate, events = asyncio.Event(), asyncio.Event(), list[Event]()
    open_gate.set()
    old, ends = [payment(open_gate)], list[float | None]()

    async def deploy() -> None:
        kinds = [payment(closed), *refunds(closed)]
        options = {"node": "new", "shutdown_timeout": 0.0, "concurrency": 2 * PAYMENTS}
        async with sagas.open(url, kinds, **options) as store:
            for number in range(PAYMENTS):
                await store.start(kinds[0], f"pay-{number}")
            for kind in kinds[2:]:
                await store.start(kind, kind.name)
            await until(lambda: len(store.active_attempts("pay-0")) == 1)
            await until(lambda: store.active_attempts("parent/:pay_out"), 30)
            await asyncio.sleep(0.2)

    async def listed(store: sagas.Store) -> dict[tuple[str, str | None], str]:
        entries = await store.attention()
        return {(entry.key, entry.step): str(entry.why) for entry in entries}

    async def roll_back() -> None:
        async with sagas.open(url, old, node="old", on_event=events.append) as store:
            for number in range(PAYMENTS):
                assert (await store.wait(f"pay-{number}", timeout=60)).ok
            parked = {("parent/:pay_out", "transfer"): "no_definition"}
            await until(lambda: listed_in(store, parked), 30)
            (timed,) = waits_of(store, "timed")
            assert timed.why == "wait"
            ends.append(timed.until)
            await store.complete("approved", "review", None)
            parked["approved", "send"] = "no_definition"
            await until(lambda: listed_in(store, parked), 30)
            await look(store)
            await upgrade(store)

    async def listed_in(store: sagas.Store, wanted: dict[tuple[str, str | None], str]) -> bool:
        return await listed(store) == wanted

    async def look(store: sagas.Store) -> None:
        """It is in lists, with what is missing."""
        why = "this program did not open the store with that saga"
        (entry, _) = await store.attention()
        assert entry.detail == why and entry.saga in ("payout", "approved")
        (wait,) = waits_of(store, "parent/:pay_out")
        assert wait.why == "no_definition"
        reader = StoreReader(store._reader())
        try:
            figures = reader.ask(store_figures.attention())
            listed_there = reader.ask(attention_pages.entries("no_definition"))
        finally:
            reader.close()
        assert figures["payout", "no_definition"].number == 1
        assert sorted(entry.key for entry in listed_there) == ["approved", "parent/:pay_out"]
        shown = command("store", url, "pending").stdout
        assert "a node that has its definition" in shown, shown
        assert "no definition" in command("store", url, "attention").stdout

    async def upgrade(former: sagas.Store) -> None:
        """A node that has all definitions gets the shard of one that does not."""
        kinds = [payment(open_gate), *refunds(open_gate)]
        async with sagas.open(url, kinds, node="newer") as store:
            for key in ("parent", "approved"):
                assert (await store.wait(key, timeout=60)).ok
            assert await listed(former) == {}
            (timed,) = waits_of(store, "timed")
            assert timed.until == ends[0]
            await store.abort("timed")
            await store.wait("timed", timeout=60)

    run(deploy())
    run(roll_back())
    assert {event.saga for event in events if event.name == "step_no_definition"} == {
        "payout",
        "approved",
    }
    assert "this program cannot execute" in caplog.text


def test_a_saga_without_a_node_is_listed(url: str, tmp_path: pathlib.Path) -> None:
    """With what is missing and the node that had it, half a minute after that one has left."""
    gate = asyncio.Event()

    async def deploy() -> None:
        kinds = refunds(gate)
        for node in ("new/one", "new/two"):
            async with sagas.open(url, kinds, node=node, shutdown_timeout=0.0) as store:
                await store.start(kinds[0], "lost")
                await until(lambda: store.active_attempts("lost"))

    async def roll_back() -> None:
        async with sagas.open(url, [payment(gate)], node="old") as store:
            assert await store.attention() == []  # a takeover takes a while
            age(url)
            (entry,) = await store.attention()
            assert (entry.key, entry.saga, entry.step) == ("lost", "payout", None)
            assert entry.why == "no_node" and entry.since < asyncio.get_running_loop().time() + 2e9
            assert entry.detail == (
                "saga payout (version 1): no node has its shard; it was on new/two, new/one"
            )
            reader = StoreReader(store._reader())
            try:
                (listed,) = reader.ask(attention_pages.entries("no_node"))
                assert reader.ask(store_figures.attention())["payout", "no_node"].number == 1
                assert reader.ask(attention_pages.count("no_node")) == 1
            finally:
                reader.close()
            assert (listed.key, listed.step, listed.detail) == ("lost", None, entry.detail)
            (shown,) = json.loads(command("store", url, "attention", "--json").stdout)
            assert shown["why"] == "no_node" and shown["detail"] == entry.detail
            (waiting,) = json.loads(command("store", url, "pending", "--json").stdout)
            named = waiting["key"], waiting["why"], waiting["step"], waiting["error"]
            assert named == ("lost", "no_node", None, entry.detail)
            assert "a node that has its definition" in command("store", url, "pending").stdout
            shown = command("store", url, "show", "lost").stdout
            assert "a node that has its definition" in shown and entry.detail in shown
            assert await store.waits_for("lost") == [entry.detail]
            async with sagas.Client(url) as client:
                assert await client.waits_for("lost") == [entry.detail]
            await asyncio.to_thread(is_shown_by_a_service, entry.detail)

    def is_shown_by_a_service(detail: str) -> None:
        with served(tmp_path, {"few.toml": FEW}, store=url) as service, service.client() as client:
            saga = client.get("/v1/sagas/lost").json()
            (wait,) = [wait for wait in saga["waits"] if wait["why"] == "no_node"]
            assert (wait["step"], wait["detail"], wait["person"]) == (None, detail, False)
            page = client.get("/ui/sagas/lost").text
            assert "No node executes it" in page and detail.partition(": ")[2] in page

    run(deploy())
    run(roll_back())
