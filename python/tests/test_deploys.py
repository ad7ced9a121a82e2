"""Nodes and clients of several releases in parallel: which node takes which start."""

from __future__ import annotations

import asyncio
import json
from typing import Any

import psycopg
import pytest
from cases import ended, run

import sagas
from sagas.cli import store_command
from sagas.definition.step import StepName


def release(*steps: str, keep: int = 0) -> sagas.Saga:
    """Return a release of one saga: each step notes its name."""
    kind = sagas.Saga("pair")
    for step in steps:
        kind.step(name=step, keep=keep)(lambda task: "done")
    return kind


def waiting(url: str) -> list[str]:
    """Return the keys of the starts that no log has yet."""
    with psycopg.connect(url) as link:
        rows = link.execute("SELECT key FROM sagas.pending_starts ORDER BY key").fetchall()
        return [key for (key,) in rows]


def nodes(url: str, capsys: pytest.CaptureFixture[str], *arguments: str) -> str:
    """Return the command's output about nodes."""
    assert store_command.main([url, "nodes", *arguments]) == 0
    return capsys.readouterr().out


@pytest.mark.parametrize("plain", [False, True])
def test_a_step_is_added(url: str, capsys: pytest.CaptureFixture[str], plain: bool) -> None:
    """A client that has the new step starts a saga next to a node that has not: the node leaves it,
    and both report that. A node that has the step takes it.
    """
    old, new = release("a", "b"), release("a", "b", "c")

    async def started(client: sagas.Client) -> sagas.ClientRun:
        if plain:
            with sagas.SyncClient(url) as other:
                await asyncio.to_thread(other.start, new, "k", 1)
            run = await client.get("k")
            assert run
            return run
        return await client.start(new, "k", 1)

    async def main() -> None:
        async with sagas.Client(url) as client:
            going = await started(client)
            assert (await (await client.start(old, "before", 1)).wait()).ok  # the node has looked
            assert waiting(url) == ["k"]
            with pytest.raises(TimeoutError) as error:
                await going.wait(0.01)
            message = (
                "no node has its definition of saga 'pair' (version 1): node old has other steps"
            )
            assert message in str(error.value)
            text = await asyncio.to_thread(nodes, url, capsys)
            assert "a node with this definition: old has another one" in text
            text = await asyncio.to_thread(nodes, url, capsys, "--json")
            (row,) = json.loads(text)["starts_without_node"]
            assert (row["saga"], row["starts"], row["nodes"]) == ("pair (version 1)", 1, ["old"])
            async with sagas.open(url, [new], node="new"):
                assert (await going.wait(60)).states == dict.fromkeys("abc", "committed")

    async def newer_node() -> None:
        async with sagas.open(url, [old], node="old"):
            await main()

    run(newer_node())


def test_a_start_of_an_older_client(url: str, capsys: pytest.CaptureFixture[str]) -> None:
    """A node with another definition leaves it too, until a client with the node's definition
    starts it again. A start of a release without digests, or of a client without steps, is taken by
    name.
    """
    old, new, named = release("a"), release("a", keep=5), sagas.Saga("pair")

    async def main() -> None:
        async with sagas.open(url, [new], node="new") as store, sagas.Client(url) as client:
            going = await client.start(old, "k", 1)
            assert (await (await client.start(named, "named", 1)).wait(60)).ok
            with psycopg.connect(url) as link:
                columns = "sagas.pending_starts(key, saga, version, input, at)"
                link.execute(f"INSERT INTO {columns} VALUES ('old', 'pair', 1, '1', 0)".encode())
            assert (await client.wait("old", 60)).ok and waiting(url) == ["k"]
            assert (await ended(store, new, "own")).ok
            again = await client.start(new, "k", 1)
            assert not again.new and (await going.wait(60)).ok

    run(main())


def test_two_releases_side_by_side(url: str) -> None:
    """A node with the same definition begins each start, whichever is asked first."""
    old, new = release("a", "b"), release("a", "b", "c")

    async def main() -> None:
        async with sagas.open(url, [old], node="old"), sagas.open(url, [new], node="new"):
            async with sagas.Client(url) as client:
                runs = [await client.start((old, new)[n % 2], f"k{n}", n) for n in range(20)]
                ends = await asyncio.gather(*(run.wait(60) for run in runs))
                assert [[*end.states] for end in ends] == [["a", "b"], ["a", "b", "c"]] * 10

    run(main())


def test_a_definition_with_a_fault_is_not_started(url: str) -> None:
    """A client gets the error at once: no node could have it."""
    kind: Any = release("a")
    kind.step(name="b", needs=[StepName("nobody")])(lambda task: 1)

    async def main() -> None:
        async with sagas.open(url, [release("a")]), sagas.Client(url) as client:
            with pytest.raises(sagas.DefinitionError):
                await client.start(kind, "k")
            assert waiting(url) == []

    run(main())
