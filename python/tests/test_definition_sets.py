"""More definitions in a store than a shard has, over both kinds of database."""

from __future__ import annotations

import contextlib
import os
import pathlib
import subprocess
import sys
import textwrap
from typing import Any

import pytest
from cases import Task, ended, run, simple, until
from driving import program

import sagas
from sagas.runtime import retention
from sagas.storage import admin, queries

HERE = pathlib.Path(__file__).resolve().parent
COUNT = 135
"""Definitions, in three sets."""


def many(first: int = 0, count: int = COUNT) -> list[sagas.Saga]:
    """Return sagas of two steps: the second waits for an operator if the input says so."""
    return [make(f"kind-{number}") for number in range(first, first + count)]


def make(name: str, version: int = 1) -> sagas.Saga:
    made = sagas.Saga(name, version=version)

    @made.step
    async def a(task: Task) -> str:
        return task.idempotency_key

    @a.compensation
    async def undo_a(task: Task) -> None:
        ...

    @made.approval(needs=[a])
    async def ask(task: Task) -> Any:
        return None if task.input else sagas.Approved(name)

    return made


def rows(path: str, query: str) -> list[tuple[Any, ...]]:
    """Return rows of a store, read without its programs."""
    with contextlib.closing(admin.connect(path)) as link:
        return link.ask(query)


def test_a_store_has_as_many_definitions_as_wanted(location: str) -> None:
    """There are sagas of each, before and after a restart; a shard has 64 definitions at most."""
    kinds = many()

    async def main() -> None:
        async with sagas.open(location, kinds) as store:
            for kind in kinds:
                await store.start(kind, f"{kind.name}-done")
                await store.start(kind, f"{kind.name}-open", True)
            for kind in kinds:
                assert (await store.wait(f"{kind.name}-done")).results["ask"] == kind.name
            with pytest.raises(sagas.KeyConflict):
                await store.start(kinds[0], "kind-134-open", True)
            assert not (await store.start(kinds[134], "kind-134-open", True)).new
        async with sagas.open(location, [*reversed(kinds), *many(COUNT, 10)]) as store:
            for kind in kinds:
                await store.complete(f"{kind.name}-open", "ask", kind.name)
            for kind in kinds:
                assert (await store.wait(f"{kind.name}-open")).results["ask"] == kind.name
            assert {verdict[:3] for verdict in (await store.audit()).values()} == {"yes"}

    run(main())
    counts = rows(location, "SELECT shard, count(*) FROM shard_definitions GROUP BY 1")
    assert {count for _, count in counts} == {7, 64}
    assert rows(location, "SELECT count(*) FROM definitions") == [(135,)]


def test_full_shards_of_several_sets(
    tmp_path: pathlib.Path, monkeypatch: pytest.MonkeyPatch
) -> None:
    """Each set has its own shard that takes sagas, and the next one of the set follows it."""
    monkeypatch.setattr("sagas.definition.registry.SHARD_CAPACITY", 3)
    monkeypatch.setattr("sagas.definition.registry.MAX_DEFINITIONS", 2)
    path, kinds = str(tmp_path / "store.db"), many(0, 5)

    async def main() -> None:
        async with sagas.open(path, kinds) as store:
            for number in range(4):
                for kind in kinds:
                    assert (await ended(store, kind, f"{kind.name}-{number}")).ok
            await until(
                lambda: rows(path, "SELECT count(*) FROM shards WHERE closed = 1") == [(5,)]
            )

    run(main())
    stored = rows(path, f"SELECT d.shard, s.id, s.key, text FROM {queries.DEFINED}")
    assert len({shard for shard, *_ in stored}) == 8 and len(stored) == 20
    for _, _, key, text in stored:
        assert f'name = "{key.rpartition("-")[0]}"' in text


def test_definitions_without_a_shard_leave(location: str) -> None:
    """They leave with their last shard; a version without open sagas is not required any more."""
    first, second = make("kind", 1), make("kind", 2)

    async def main(kinds: list[sagas.Saga], key: str, waits: bool) -> None:
        async with sagas.open(location, kinds) as store:
            await store.start(kinds[-1], key, waits)
            await (store.wait(key) if not waits else until(lambda: store.list(phase="open")))
            # shards that take no sagas any more are closed after the wait
            await until(lambda: len(rows(location, "SELECT 1 FROM shards WHERE closed = 0")) == 1)

    async def rest() -> None:
        async with sagas.open(location, [second]) as store:
            await store.abort_all()
            await store.wait_idle()
            await until(lambda: not rows(location, "SELECT 1 FROM shards WHERE closed = 0"))

    run(main([first], "a", False))
    run(main([first, second], "b", False))
    run(main([second], "c", True))
    with sagas.open_sync(location, [second]) as store:
        kept = store.definitions()
    assert kept == [sagas.DefinitionCount("kind", 1, 0, 1), sagas.DefinitionCount("kind", 2, 1, 2)]
    assert rows(location, "SELECT count(*) FROM definitions") == [(2,)]
    assert retention.prune(location, 0).sagas == 2  # they ended, and their shards are closed
    assert rows(location, "SELECT count(*) FROM definitions") == [(1,)]
    run(rest())
    assert retention.prune(location, 0).sagas == 1
    assert rows(location, "SELECT count(*) FROM definitions") == [(0,)]


def test_a_start_during_a_deletion(url: str) -> None:
    """Shards are made while sets without one are deleted: each shard has its set."""

    async def main() -> None:
        async with sagas.open(url, kinds) as store:
            for kind in kinds:
                saga = await store.start(kind, key=kind.name)
                with contextlib.suppress(sagas.NoSuchSaga):  # it was deleted before it was read
                    assert (await saga.wait()).ok

    for turn in range(3):
        kinds = [simple(lambda task: 1)] if not turn else many(turn, 1)
        run(main())
        retention.prune(url, 0)
    job = subprocess.Popen([sys.executable, "-c", PRUNE.format(url=url)], env=environment())
    try:
        for _ in range(5):
            kinds = many(100, 2)
            run(main())
            for shard, text in rows(
                url,
                "SELECT d.shard, text FROM shards LEFT JOIN shard_definitions d USING (shard) "
                "LEFT JOIN definitions USING (definition)",
            ):
                assert text, shard
    finally:
        job.kill()
        job.wait()


PRUNE = """
from sagas.runtime import retention
from sagas.storage import admin
while True:
    retention.prune({url!r}, 0)
    with admin.writing({url!r}) as link:
        link.drop_definitions()
"""
DRIVER = """
    import asyncio, sagas
    from test_definition_sets import many
    async def main():
        kinds = many()
        async with sagas.open({path!r}, kinds, lease=2.0) as store:
            for kind in kinds:
                await store.start(kind, kind.name, True)
                print(kind.name, flush=True)
            await store.serve()
    asyncio.run(main())
"""


def environment() -> dict[str, str]:
    """Return the environment of a separate program."""
    path = f"{HERE.parent / 'src'}:{HERE}"
    return {**os.environ, "PYTHONPATH": path, "SAGAS_PROGRAM": program()}


def test_a_killed_programs_sagas_of_all_sets_continue(
    location: str, tmp_path: pathlib.Path
) -> None:
    """Each acknowledged saga exists, under its definition, and is done once."""
    (file := tmp_path / "driver.py").write_text(textwrap.dedent(DRIVER.format(path=location)))
    began = []
    with subprocess.Popen(
        [sys.executable, "-u", str(file)], stdout=subprocess.PIPE, text=True, env=environment()
    ) as process:
        assert process.stdout
        began = [process.stdout.readline().rstrip() for _ in range(COUNT)]
        process.kill()
    assert began == [f"kind-{number}" for number in range(COUNT)]

    async def main() -> None:
        async with sagas.open(location, many(), lease=2.0) as store:
            for key in began:
                await store.complete(key, "ask", key)
                end = await store.wait(key)
                assert end.saga == key and end.results["ask"] == key
            assert {verdict[:3] for verdict in (await store.audit()).values()} == {"yes"}

    run(main())
    runs = rows(
        location,
        "SELECT key, value FROM attempts JOIN sagas USING (id) WHERE step = 0 AND event = 'commit'",
    )
    assert {*began} <= {key for key, _ in runs} and len(runs) == len({value for _, value in runs})
