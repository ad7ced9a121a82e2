"""Each item that needs an operator, until an operator has resolved it, in each list."""

from __future__ import annotations

import asyncio
import json
import logging
import re
from typing import Any

import pytest
from cases import QUICK, Task, attempts_to_report, run, until

import sagas
from sagas.cli import store_command
from sagas.inspection import attention_pages, lists, store_figures
from sagas.inspection.question import StoreReader


def shop() -> sagas.Saga:
    """Return a saga that takes and sends.

    Its input decides: the send fails, and then the compensation; or the outcome is unknown; or no
    step is left.
    """
    shop = sagas.Saga("shop")

    @shop.step(keep=9, undo=0)
    def take(task: Task) -> int:
        if task.input == "stuck":
            raise sagas.Fail("none is left")
        return 1

    @take.compensation(on_exhausted="fail")
    def give(task: Task) -> None:
        if task.input == "gone":
            raise sagas.Fail("it is gone")

    @shop.step(needs=[take], max_unknown=1, backoff=QUICK)
    def send(task: Task) -> None:
        if task.input == "unknown":
            raise sagas.Unknown("no answer")
        raise sagas.Fail("no address")

    return shop


def must() -> sagas.Saga:
    """Return a saga that may be stuck."""
    must = sagas.Saga("must")

    @must.step(skip=sagas.NEVER)
    def machine(task: Task) -> None:
        raise sagas.Fail("broken")

    return must


Entry = tuple[str, str, str, str | None, bool, str | None]
WANTED: list[Entry] = [
    ("stuck", "must", "stuck", "machine", False, "because of machine: sagas.Fail: broken"),
    ("gone", "shop", "undo_failed", "take", True, "sagas.Fail: it is gone"),
    ("unknown", "shop", "unknown", "send", False, "sagas.Unknown: no answer"),
]


def entries_of(items: list[sagas.Attention]) -> list[Entry]:
    """Return items without their time."""
    return [(item.key, item.saga, item.why, item.step, item.undo, item.detail) for item in items]


async def fill(store: sagas.Store, kinds: list[sagas.Saga]) -> None:
    """Fill a store with one saga of each kind, and some that need no operator."""
    await (await store.start(kinds[1], "stuck")).wait()
    await (await store.start(kinds[0], "well-undone")).wait()
    end = await (await store.start(kinds[0], "gone", "gone")).wait()
    first, *_ = str(end).splitlines()
    assert first == "shop gone: recovered, but the compensation of take failed permanently"
    await store.start(kinds[0], "unknown", "unknown")
    await until(lambda: attempts_to_report(store))


def test_items_that_need_an_operator(
    location: str, capsys: pytest.CaptureFixture[str], caplog: pytest.LogCaptureFixture
) -> None:
    """The program, an operator's command and the service's first page have the same list.

    An item leaves it when an operator has resolved it.
    """
    kinds = [shop(), must()]

    async def main() -> None:
        events: list[sagas.Event] = []
        async with sagas.open(location, kinds, on_event=events.append) as store:
            await fill(store, kinds)
            assert entries_of(await store.attention()) == WANTED
            assert entries_of(await store.attention(limit=1)) == WANTED[:1]
            with pytest.raises(ValueError, match="limit=0"):
                await store.attention(limit=0)
            (failed,) = [event for event in events if event.name == "saga_undo_failed"]
            assert failed.key == "gone" and "the compensation failed permanently" in str(
                failed.detail
            )
            looks = StoreReader(store._reader())
            try:
                assert entries_of(looks.ask(lists.attention())) == WANTED
                assert looks.ask(store_figures.attention_counts()) == {
                    "stuck": 1,
                    "undo_failed": 1,
                    "unused_report": 0,
                    "unknown": 1,
                    "exhausted": 0,
                    "cannot_decode": 0,
                    "program_error": 0,
                    "on_end": 0,
                    "no_definition": 0,
                    "no_node": 0,
                    "damaged": 0,
                    "approval": 0,
                }
            finally:
                looks.close()

    with caplog.at_level(logging.ERROR):
        run(main())
    assert "saga_undo_failed key=gone saga=shop" in caplog.text
    capsys.readouterr()
    assert store_command.main([location, "attention", "--json"]) == 0
    shown = json.loads(capsys.readouterr().out)
    assert [tuple(row.values())[:6] for row in shown] == WANTED
    assert store_command.main([location, "attention"]) == 0
    assert "gone     shop  undo failed      take (undo)" in capsys.readouterr().out
    check_pages_and_filters(location, capsys)


def check_pages_and_filters(location: str, capsys: pytest.CaptureFixture[str]) -> None:
    """Check that the command says how many there are, continues, and has the inbox's filters."""

    def keys(*options: str) -> tuple[list[str], str]:
        assert store_command.main([location, "attention", "--json", *options]) == 0
        output = capsys.readouterr()
        return [entry["key"] for entry in json.loads(output.out)], output.err.strip()

    everything = ["stuck", "gone", "unknown"]
    assert keys() == (everything, "3 of 3 entries")
    assert keys("--limit", "2") == (everything[:2], "2 of 3 entries: continue with --after gone")
    assert keys("--limit", "2", "--after", "gone") == (["unknown"], "1 of 3 entries")
    assert keys("--limit", "0") == (everything, "3 of 3 entries")
    filters = {
        ("--kind", "unknown"): ["unknown"],
        ("--kind", "damaged"): [],
        ("--saga", "must"): ["stuck"],
        ("--label", "no=such"): [],
        ("--step", "take"): ["gone"],
        ("--search", "o"): ["gone", "unknown"],
        ("--error", "no answer"): ["unknown"],
        ("--error", "it is gone", "--saga", "must"): [],
    }
    for options, listed in filters.items():
        plural = "entry" if len(listed) == 1 else "entries"
        assert keys(*options) == (listed, f"{len(listed)} of {len(listed)} {plural}"), options
    assert store_command.main([location, "attention", "--after", "nobody"]) == 1
    assert "no entry of this saga is listed" in capsys.readouterr().err


async def by_store(location: str, kinds: list[sagas.Saga]) -> None:
    async with sagas.open(location, kinds) as store:
        await store.resolve("gone", "paid back", by="ann")
        await store.resolve("gone", "paid back")
        with pytest.raises(sagas.StepNotWaiting, match="'gone' .* The first note stays"):
            await store.resolve("gone", "again", by="bob")
        with pytest.raises(
            sagas.StepNotWaiting, match="'well-undone' does not need to be resolved"
        ):
            await store.resolve("well-undone", "x")


async def by_command(location: str, kinds: list[sagas.Saga]) -> None:
    for note, status in (("paid back", 0), ("again", 1), ("paid back", 0)):
        assert store_command.main([location, "resolve", "gone", "--note", note]) == status
    assert store_command.main([location, "resolve", "well-undone", "--note", "x"]) == 1


async def by_client(location: str, kinds: list[sagas.Saga]) -> None:
    async with sagas.Client(location) as client:
        assert entries_of(await client.attention()) == WANTED
        await client.resolve("gone", "paid back", by="ann")
        await client.resolve("gone", "paid back")
        with pytest.raises(sagas.StepNotWaiting, match="'gone' .* The first note stays"):
            await client.resolve("gone", "again", by="bob")
        with pytest.raises(
            sagas.StepNotWaiting, match="'well-undone' does not need to be resolved"
        ):
            await client.resolve("well-undone", "x")
        with pytest.raises(sagas.NoSuchSaga):
            await client.resolve("nobody", "x")


def by_plain_client(location: str) -> None:
    with sagas.SyncClient(location) as client:
        assert entries_of(client.attention(limit=2)) == WANTED[:2]
        client.resolve("gone", "paid back")


def by_plain_store(location: str, kinds: list[sagas.Saga]) -> None:
    with sagas.open_sync(location, kinds) as store:
        assert entries_of(store.attention()) == WANTED
        store.resolve("gone", "paid back")


AT_A_FILE = [by_store, by_command, by_plain_store]
EVERYBODY = [
    *(("sqlite", caller) for caller in AT_A_FILE),
    *(("postgresql", caller) for caller in (*AT_A_FILE, by_client, by_plain_client)),
]


@pytest.mark.parametrize(("location", "caller"), EVERYBODY, indirect=["location"])
def test_a_saga_with_a_failed_compensation_is_resolved(
    location: str, caller: Any, capsys: pytest.CaptureFixture[str]
) -> None:
    """Any operator may resolve it: then it needs no operator, and is in the list of resolved sagas.

    Its first note stays, with its time.
    """
    kinds = [shop(), must()]

    async def first() -> None:
        async with sagas.open(location, kinds) as store:
            await fill(store, kinds)

    async def then() -> None:
        async with sagas.open(location, kinds) as store:
            assert entries_of(await store.attention()) == [WANTED[0], WANTED[2]]
            (summary,) = await store.list(phase="resolved")
            assert (summary.key, summary.phase, summary.note) == ("gone", "resolved", "paid back")
            assert await store.list(phase="undo_failed") == []
            assert [summary.key for summary in await store.list(phase="recovered")] == [
                "well-undone"
            ]
            end = await store.wait("gone")
            assert (end.phase, end.note, end.states["take"]) == (
                "resolved",
                "paid back",
                "undo_failed",
            )

    run(first())
    if caller is by_plain_client:
        caller(location)
    elif caller is by_plain_store:
        caller(location, kinds)
    else:
        run(caller(location, kinds))
    run(then())

    def shell(*arguments: str) -> str:
        capsys.readouterr()
        assert store_command.main([location, *arguments]) == 0
        return capsys.readouterr().out

    text = shell("show", "gone")
    assert re.search(r"^resolved 2.*Z( by \S+)?\nnote     paid back$", text, re.M), text
    log, export = json.loads(shell("log", "gone", "--json")), json.loads(shell("export", "gone"))
    for notes in (log[-1:], export["notes"]):
        (note,) = notes
        assert (note["event"], note["value"]["what"]) == ("note", "resolve")
        assert note["value"]["note"] == "paid back" and note["at"] > 0


def test_the_cause_of_a_stuck_saga_is_its_first_error(location: str) -> None:
    """Not that of a step that failed after it, and not that no further attempt was made."""
    saga = sagas.Saga("payment")

    @saga.step(undo=sagas.NEVER, tries=1)
    def order(task: sagas.Task) -> int:
        return 1

    @saga.step(needs=[order], skip=sagas.NEVER, tries=3)
    async def charge(task: sagas.Task) -> None:
        raise sagas.Fail(f"card {task.key} was declined")

    @saga.step(needs=[order], tries=2, backoff=sagas.Backoff(initial=0.2, maximum=0.2))
    async def notify(task: sagas.Task) -> None:
        await asyncio.sleep(0.2)
        raise sagas.Fail("the mail server is down")

    async def main() -> None:
        async with sagas.open(location, [saga]) as store:
            for number in range(3):
                await (await store.start(saga, f"k{number}")).wait()
            reader = StoreReader(store._reader())
            try:
                groups = attention_pages.groups(reader.ask(attention_pages.entries("stuck")))
            finally:
                reader.close()
            (group,) = groups
            assert group.title == "charge: sagas.Fail: card k… was declined"
            assert [entry.key for entry in group.entries] == ["k0", "k1", "k2"]
            for entry in await store.attention():
                assert entry.detail == (
                    f"because of charge: sagas.Fail: card {entry.key} was declined"
                )

    run(main())


def entry(kind: str, step: str | None, detail: str | None, **more: Any) -> attention_pages.Entry:
    """Return an entry of a kind, as a store has it."""
    values = {"undo": False, "blocking": [], "key": "k", **more}
    return attention_pages.Entry(
        kind, 1.0, 1, 0, saga="trip", step=step, detail=detail, since=2.0, until=None, **values
    )


def test_entries_of_one_error_are_one_group() -> None:
    """Its title lists the steps. Without an error, each step has a group."""
    same = [entry("exhausted", f"part-{n}", f"NameError: line {n}") for n in range(24)]
    other = [
        entry("exhausted", "part-1", "NameError: line 1", undo=True),
        entry("exhausted", "part-1", "TypeError: line 1"),
    ]
    first, undoing, third = attention_pages.groups([same[0], *other, *same[1:]])
    assert first.entries == same and len(first.subjects) == 24
    assert first.title == "part-0, part-1, part-2 and 21 more steps: NameError: line …"
    assert (undoing.title, third.title) == (
        "undoing part-1: NameError: line …",
        "part-1: TypeError: line …",
    )
    assert len({group.cause for group in (first, undoing, third)}) == 3
    # what is left of a group has the same identity, so that a form still selects it
    assert attention_pages.groups(same[5:7])[0].cause == first.cause

    approvals = [entry("approval", step, None) for step in ("a", "b", "a")]
    assert [group.title for group in attention_pages.groups(approvals)] == ["a", "b"]
    stuck = [entry("stuck", None, "Fail: no", blocking=blocking) for blocking in (["a"], ["b"])]
    assert [group.title for group in attention_pages.groups(stuck)] == [
        "a: Fail: no",
        "b: Fail: no",
    ]
    unused = [entry("unused_report", step, '{"id": 7}') for step in ("a", "b")]
    assert [group.title for group in attention_pages.groups(unused)] == ["a", "b"]
