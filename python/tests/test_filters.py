"""Filters select the same over both databases, and errors name misspelt parts of them."""

from __future__ import annotations

import contextlib
import random
from typing import Any

import pytest
from cases import Task, run, until
from test_command import Shell

import sagas
from sagas.cli import store_command
from sagas.inspection import attention_pages
from sagas.storage import admin
from sagas.storage.filters import Filter

ODD = ("order-1", "ORDER-2", "order_3", "order%4", "Order-é5", "order-É6", "a\\b7", "x'y8", 'q"9')
ODD += ("ordEr-10", "ß11", "SS12", "*13", "[a]14", "İ15", "{16}")
ERRORS = (
    "no licence",
    "No Licence",
    "100%",
    "1000",
    "a_b",
    "axb",
    "back\\slash",
    "é",
    "É",
    "İ",
    'q"',
    "😀",
)
PARTS = (
    "order",
    "ORDER",
    "_",
    "%",
    "\\",
    "'",
    '"',
    "é",
    "É",
    "ß",
    "ss",
    "*",
    "[a]",
    "-1",
    "-",
    "Er",
)
PARTS += (
    "😀",
    "u00e9",
    "30",
    "licence",
    "Licence",
    "0%",
    "a_b",
    "İ",
    "i",
    "final",
    "error",
    "called",
    "true",
    "{",
    "}",
    ":",
)
VALUES = ("7", "77", "7 ", "a", "A")


def ask(task: Task) -> None:
    raise sagas.Retry(task.input["error"])


async def ask_people(store: sagas.Store, count: int) -> None:
    """Wait until this many attempts are used up."""

    async def is_there() -> bool:
        return len(await store.attention()) == count

    await until(is_there)


def definitions() -> dict[str, sagas.Saga]:
    """Return sagas: one fails permanently, one needs an operator, and one continues."""
    fails, asks, waits = sagas.Saga("fails"), sagas.Saga("asks"), sagas.Saga("waits")
    fails.step(ask, name="a", undo=0, tries=1)
    asks.step(ask, name="a", undo=0, on_exhausted="ask", tries=1)
    waits.approval(lambda task: None, name="a")
    return {saga.name: saga for saga in (fails, asks, waits)}


def drawn(draw: random.Random) -> Filter:
    """Draw a filter."""
    options: dict[str, Any] = {}
    if draw.random() < 0.4:
        options["labels"] = {draw.choice("cr"): draw.choice((*VALUES, "x", "y"))}
    if draw.random() < 0.5:
        options["search"] = draw.choice(PARTS)
    if draw.random() < 0.5:
        options["error"] = draw.choice(PARTS)
    if draw.random() < 0.3:
        options["saga"] = draw.choice(("fails", "asks", "waits"))
    return Filter(**options)


def is_selected(of: Filter, key: str, row: dict[str, Any]) -> bool:
    """Return whether a filter selects an item."""
    has_labels = all(row["labels"].get(name) == value for name, value in of.labels.items())
    has_error = of.error is None or (row["saga"] != "waits" and of.error in row["error"])
    is_of = of.saga in (None, row["saga"])
    return has_labels and has_error and is_of and (of.search is None or of.search in key)


def test_filters_mean_the_same_over_both_databases(location: str) -> None:
    """400 of them, each in the three ways in which its condition is written."""
    draw, kinds, rows = random.Random(3), definitions(), dict[str, dict[str, Any]]()

    async def main() -> None:
        async with sagas.open(location, kinds.values()) as store:
            for number in range(3 * len(ODD)):
                labels = {"c": draw.choice(VALUES), "r": draw.choice("xy")}
                name, error = draw.choice([*kinds]), draw.choice(ERRORS)
                key = f"{ODD[number % len(ODD)]}~{number}"
                rows[key] = {"saga": name, "labels": labels, "error": f"sagas.Retry: {error}"}
                await store.start(kinds[name], key, {"error": error}, labels=labels)
            for key, row in rows.items():
                if row["saga"] == "fails":
                    await store.wait(key)
            await ask_people(store, sum(row["saga"] == "asks" for row in rows.values()))

    run(main())
    with contextlib.closing(admin.connect(location)) as link:
        for number in range(400):
            of = drawn(draw)
            wanted = sorted(key for key, row in rows.items() if is_selected(of, key, row))
            for few, in_order in ((False, False), (True, False), (False, True)):
                condition, parameters = of.condition(of_few=few, in_order=in_order)
                selected = link.ask(f"SELECT key FROM sagas s WHERE {condition}", *parameters)
                assert sorted(key for key, in selected) == wanted, (number, of)


def shop() -> tuple[sagas.Saga, list[bool]]:
    """Return a saga whose items need an operator, and so does a step of an included saga."""
    works = list[bool]()

    def work(task: Task) -> None:
        if not works:
            raise sagas.Retry("no stock")

    inner, shop = sagas.Saga("inner"), sagas.Saga("shop")
    inner.step(work, name="room", undo=0, on_exhausted="ask", tries=1)
    shop.step(work, name="ship", for_each="items", undo=0, on_exhausted="ask", tries=1)
    shop.include(inner, name="inc")
    return shop, works


def test_a_filter_that_selects_nothing_by_mistake(
    location: str, caplog: pytest.LogCaptureFixture, capsys: pytest.CaptureFixture[str]
) -> None:
    """An empty one is refused; a step with items means all of them; names that nothing has are
    reported.
    """
    saga, works = shop()
    shell = Shell(location, capsys)

    async def main() -> None:
        async with sagas.open(location, [saga]) as store:
            label = {"customer": "7"}
            await store.start(saga, "k", {"items": [1, 2]}, labels=label)
            await ask_people(store, 3)
            for call in (store.abort_all, store.retry_all, store.complete_all):
                with pytest.raises(sagas.InvalidLabel, match="labels={} selects every saga"):
                    await call(labels={})  # type: ignore[operator]
            with pytest.raises(sagas.InvalidLabel):
                await store.resolve_all("seen", labels={})
            with pytest.raises(sagas.InvalidLabel):
                await store.fail_all("no", labels={})
            assert await store.retry_all(step="shp") == 0
            assert "no definition has a step 'shp'; did you mean 'ship'?" in caplog.text
            outcome = await store.abort_all(labels={"custmer": "7"})
            assert outcome.warnings == ["no saga has a label 'custmer'; did you mean 'customer'?"]
            outcome = await store.resolve_all("seen", labels={"customer": "8"})
            assert outcome.warnings == ["no saga has the label customer='8'"]
            assert not (await store.resolve_all("seen", labels=label)).warnings
            assert await store.fail_all("no", labels={"customer": "8"}) == 0
            assert [record.message for record in caplog.records if "label" in record.message] == [
                "no saga has a label 'custmer'; did you mean 'customer'?",
                "no saga has the label customer='8'",
                "no saga has the label customer='8'",
            ]
            for step, count in (("ship", 2), ("ship-1", 1), ("inc/room", 1), ("inc-room", 1)):
                question = attention_pages.entries("exhausted", step=step)
                assert len(await store._answer(question)) == count
                assert await store.retry_all(step=step) == count
                await ask_people(store, 3)
            works.append(True)
            assert await store.retry_all(step="ship") == 2 and await store.retry_all() == 1
            assert (await store.wait("k")).ok

    run(main())
    assert shell("retry", "--all", "--step", "ship") == "0 steps\n"
    cases = [("retry", "--step", "shp", "no definition has a step 'shp'; did you mean 'ship'")]
    label = "--label", "custmer=7", "no saga has a label 'custmer'; did you mean 'customer'"
    cases += [("abort", *label), ("retry", *label), ("resolve", "--note", "seen", *label)]
    for word, *arguments, text in cases:
        assert store_command.main([location, word, "--all", *arguments]) == 0
        assert text in capsys.readouterr().err
