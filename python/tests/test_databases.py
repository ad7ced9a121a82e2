"""A store over several databases: the map, its generations, and which database has a key."""

from __future__ import annotations

import asyncio
import contextlib
import itertools
import json
from collections.abc import Iterator
from typing import Any

import psycopg
import pytest
from cases import Task, run, until
from server import Server

import sagas
from sagas.cli import store_command
from sagas.core.database_map import DatabaseMap, position_of, routed_part
from sagas.storage.postgresql import database_maps, map_changes


@pytest.fixture
def urls(postgresql: Server) -> Iterator[list[str]]:
    """Return three empty databases."""
    urls = [postgresql.create() for _ in range(3)]
    yield urls
    for url in urls:
        postgresql.drop(url)


def order() -> sagas.Saga[Any]:
    """Return a saga with a step, and a child for inputs that name one."""
    order = sagas.Saga("order")

    @order.step
    async def charge(task: Task) -> str:
        if task.input == "fails":
            raise sagas.Fail("no")
        return str(task.key)

    return order


def keys_at(position: int, count: int, number: int, prefix: str = "order") -> list[str]:
    """Return keys that one of `count` databases has."""
    names = (f"{prefix}-{index}" for index in itertools.count())
    return list(
        itertools.islice((key for key in names if position_of(key, count) == position), number)
    )


def moving(before: int, position: int, number: int, prefix: str = "order") -> list[str]:
    """Return keys of a database that a further database takes."""
    names = (f"{prefix}-{index}" for index in itertools.count())
    chosen = (
        key
        for key in names
        if position_of(key, before) == position and position_of(key, before + 1) == before
    )
    return list(itertools.islice(chosen, number))


def keys_of(url: str) -> set[str]:
    """Return the keys of a database, with those of starts."""
    with psycopg.connect(url) as link:
        rows = link.execute(
            "SELECT key FROM sagas.sagas UNION SELECT key FROM sagas.pending_starts"
        )
        return {str(key) for (key,) in rows}


def test_the_first_lines_of_a_user(urls: list[str]) -> None:
    """Each saga is in the database of its key, and the lists have all of them."""
    saga = order()

    async def main() -> None:
        async with sagas.open(urls, [saga]) as store:
            runs = [await store.start(saga, f"order-{number}") for number in range(30)]
            for run in runs:
                assert (await run.wait(timeout=60)).ok
            assert await store.count() == 30
            assert {row.key for row in await store.list()} == {run.key for run in runs}
            for run in runs:
                assert run.key in keys_of(await store.database_of(run.key))

    run(main())
    keys = [keys_of(url) for url in urls]
    assert sum(map(len, keys)) == 30 and all(keys)


def test_a_client_starts_in_the_database_of_the_key(urls: list[str]) -> None:
    """A client needs the map, and its starts are taken by nodes of the same databases."""
    saga = order()

    async def main() -> None:
        with pytest.raises(sagas.InvalidStore, match="no map yet"):
            async with sagas.Client(urls):
                pass
        async with sagas.open(urls, [saga]), sagas.Client(urls) as client:
            for number in range(9):
                run = await client.start(saga, f"order-{number}")
                assert run.new and (await run.wait(timeout=60)).ok
            assert not (await client.start(saga, "order-1")).new
            with pytest.raises(sagas.KeyConflict):
                await client.start(saga, "order-1", "other")
            assert await client.get("order-77") is None
            with pytest.raises(sagas.NoSuchSaga):
                await client.wait("order-77")
            assert sum([len(await client.log(f"order-{number}")) for number in range(9)]) > 9

    run(main())


@pytest.mark.parametrize("named", [(1, 0, 2), (0, 1), (0,), (0, 1, 2, 2)])
def test_another_order_or_number_is_refused(urls: list[str], named: tuple[int, ...]) -> None:
    """The message names the order, and nothing is written."""
    map_changes.create(urls, print)

    async def main() -> None:
        with pytest.raises(sagas.InvalidStore):
            async with sagas.open([urls[index] for index in named], [order()]):
                pass
        with pytest.raises(sagas.InvalidStore):
            async with sagas.Client([urls[index] for index in named]):
                pass

    run(main())
    with psycopg.connect(urls[0]) as link:
        assert link.execute("SELECT count(*) FROM sagas.nodes").fetchone() == (0,)


def test_a_database_of_several_is_not_opened_alone(urls: list[str]) -> None:
    """A program that knows only one of them is refused."""
    map_changes.create(urls, print)

    async def main() -> None:
        with pytest.raises(sagas.InvalidStore, match="database 2 of 3"):
            async with sagas.open(urls[1], [order()]):
                pass
        with pytest.raises(sagas.InvalidStore, match="database 2 of 3"):
            async with sagas.Client(urls[1]):
                pass

    run(main())


def test_a_database_of_another_store_is_refused(urls: list[str], postgresql: Server) -> None:
    """A list that mixes two stores is refused, and so is a database that was created again."""
    map_changes.create(urls[:2], print)
    others = [urls[2], postgresql.create()]
    map_changes.create(others, print)
    with pytest.raises(sagas.InvalidStore, match="another store"):
        map_changes.create([urls[0], others[1]], print)
    with pytest.raises(sagas.InvalidStore, match="has no map of the store"):
        map_changes.create([urls[0], postgresql.create()], print)


def test_the_database_and_the_package_agree_on_positions(urls: list[str]) -> None:
    """The triggers compute what the package computes, for keys of every form."""
    map_changes.create(urls, print)
    keys = [f"k-{number}" for number in range(100)]
    keys += ["nightly@2026-03-01T02:00:00Z", "a@b.org", "parent/:step[1]/:x", "ключ", "a b", "日本"]
    with psycopg.connect(urls[0], autocommit=True) as link:
        for key in keys:
            row = link.execute("SELECT sagas.routed_part(%s)", (key,)).fetchone()
            assert row == (routed_part(key),)
            for count in (1, 2, 3, 7):
                part = routed_part(key)
                row = link.execute("SELECT sagas.position_of(%s, %s)", (part, count)).fetchone()
                assert row == (position_of(part, count),)


def test_a_further_database_takes_keys_and_moves_none_among_the_others() -> None:
    """Each database has its part of the keys."""
    keys = [f"key-{number}" for number in range(3000)]
    for count in range(1, 6):
        before, after = [[position_of(key, n) for key in keys] for n in (count, count + 1)]
        assert all(new in (old, count) for old, new in zip(before, after))
        assert abs(after.count(count) - len(keys) / (count + 1)) < 150


def test_children_and_schedules_are_where_their_roots_are() -> None:
    """A child has the position of its root, and a schedule's saga that of the schedule."""
    map = DatabaseMap("s", 1, (5,), tuple("abcde"), tuple("abcde"))
    for key in ("order-1/:pay", "order-1/:pay/:undo", "order-1/::end"):
        assert map.positions(key) == map.positions("order-1")
    assert map.positions("nightly@2026-03-01T02:00:00Z") == map.positions("nightly")


def test_a_key_of_an_earlier_generation_stays_where_it_is(urls: list[str]) -> None:
    """A key that the new database would have is found in the old one, and is not started again."""
    saga = order()
    old, new = moving(2, 0, 2)

    async def main() -> None:
        async with sagas.open(urls[:2], [saga]) as store:
            await (await store.start(saga, old)).wait(timeout=60)
        map_changes.add(urls[:2], urls[2], print)
        async with sagas.open(urls, [saga]) as store, sagas.Client(urls) as client:
            assert [store.map.generation, store.map.counts] == [2, (2, 3)]
            assert not (await store.start(saga, old)).new
            assert not (await client.start(saga, old)).new
            assert (await store.wait(old, 60)).ok and (await client.wait(old, 60)).ok
            assert await store.database_of(old) == urls[0]
            assert (await store.start(saga, new)).new
            assert (await (await client.start(saga, new)).wait(60)).ok
            assert await client.database_of(new) == urls[2]

    run(main())
    assert keys_of(urls[0]) == {old} and keys_of(urls[2]) == {new}


def test_programs_with_the_old_map_do_not_start_keys_that_moved(urls: list[str]) -> None:
    """The database refuses them, also of a node whose starts are written with those of others."""
    saga = order()
    kept, moved = keys_at(1, 3, 20, "kept"), moving(2, 0, 3, "moved")

    async def main() -> None:
        async with sagas.open(urls[:2], [saga]) as store, sagas.Client(urls[:2]) as client:
            await asyncio.to_thread(map_changes.add, urls[:2], urls[2], print)
            stay = keys_at(0, 3, 20, "stay")
            starts = [store.start(saga, key) for key in [*stay, moved[0], *kept]]
            results = await asyncio.gather(*starts, return_exceptions=True)
            assert isinstance(results[20], sagas.StoreUnavailable), results[20]
            assert "generation 2" in str(results[20])
            assert all(isinstance(result, sagas.Run) for result in results[:20] + results[21:])
            with pytest.raises(sagas.StoreUnavailable, match="generation 2"):
                await client.start(saga, moved[1])
            with pytest.raises(sagas.StoreUnavailable, match="generation 2"):
                await client.wait(moved[2])
            for key in stay + kept:
                assert (await store.wait(key, 60)).ok

    run(main())
    assert not {*moved} & set().union(*map(keys_of, urls))


def test_a_single_database_grows(urls: list[str]) -> None:
    """A store of one database gets a second one: its sagas stay, and old programs are refused."""
    saga = order()
    old, *moved = moving(1, 0, 4)

    async def main() -> None:
        async with sagas.open(urls[0], [saga]) as store:
            await (await store.start(saga, old)).wait(timeout=60)
            await asyncio.to_thread(map_changes.add, urls[:1], urls[1], print)
            with pytest.raises(sagas.StoreUnavailable, match="generation 2"):
                await store.start(saga, moved[0])
            assert (await (await store.start(saga, keys_at(0, 2, 1)[0])).wait(60)).ok
        async with sagas.open(urls[:2], [saga]) as both:
            assert not (await both.start(saga, old)).new
            assert (await (await both.start(saga, moved[0])).wait(60)).ok

    run(main())
    assert keys_of(urls[1]) == {moved[0]}


@pytest.mark.parametrize("done", range(7))
def test_map_add_is_continued_after_a_kill(
    urls: list[str], done: int, monkeypatch: pytest.MonkeyPatch
) -> None:
    """Whichever statement was the last one, a key that moves is in one database, or refused."""
    map_changes.create(urls[:2], print)
    saga, key = order(), moving(2, 0, 1)[0]
    calls = itertools.count()

    def counted(function: Any) -> Any:
        def call(*arguments: Any) -> Any:
            if next(calls) >= done:
                raise KeyboardInterrupt
            return function(*arguments)

        return call

    async def starts(names: list[str]) -> bool:
        async with sagas.Client(names) as client:
            try:
                await client.start(saga, key)
            except sagas.StoreUnavailable:
                return False
        return True

    with monkeypatch.context() as patch:
        for name in ("change", "activate"):
            patch.setattr(database_maps, name, counted(getattr(database_maps, name)))
        with contextlib.suppress(KeyboardInterrupt):
            map_changes.add(urls[:2], urls[2], print)
    for names in (urls[:2], urls):
        with contextlib.suppress(sagas.InvalidStore):
            run(starts(names))
    before = [key in keys_of(url) for url in urls[: 2 if done == 0 else 3]]
    assert sum(before) <= 1
    map_changes.add(urls[:2], urls[2], print)
    assert run(starts(urls))
    assert sum(key in keys_of(url) for url in urls) == 1


@pytest.mark.parametrize("done", range(7))
def test_a_creation_is_continued_after_a_kill(
    urls: list[str], done: int, monkeypatch: pytest.MonkeyPatch
) -> None:
    """Whichever statement was the last one, `init` makes a map in which all databases start."""
    calls, saga = itertools.count(), order()

    def counted(function: Any) -> Any:
        def call(*arguments: Any) -> Any:
            if next(calls) >= done:
                raise KeyboardInterrupt
            return function(*arguments)

        return call

    with monkeypatch.context() as patch:
        for name in ("change", "activate"):
            patch.setattr(database_maps, name, counted(getattr(database_maps, name)))
        with contextlib.suppress(KeyboardInterrupt):
            map_changes.create(urls, print)
    assert store_command.main([",".join(urls), "init"]) == 0
    assert store_command.main([",".join(urls), "map"]) == 0
    keys = [keys_at(position, 3, 1)[0] for position in range(3)]

    async def main() -> None:
        async with sagas.open(urls, [saga]) as store:
            for key in keys:
                assert (await (await store.start(saga, key)).wait(60)).ok

    run(main())
    assert [keys_of(url) for url in urls] == [{key} for key in keys]


@pytest.mark.parametrize("done", range(5))
def test_schedules_move_before_the_new_database_starts(
    urls: list[str], done: int, monkeypatch: pytest.MonkeyPatch
) -> None:
    """If `map add` is killed, no schedule is left where nothing can start it, once it is done."""
    map_changes.create(urls[:2], print)
    saga, names = order(), moving(2, 0, 2, "nightly")

    async def declare() -> None:
        async with sagas.open(urls[:2], [saga]) as store:
            for name in names:
                await store.schedule(name, saga, cron="0 2 1 1 *")

    run(declare())
    calls = itertools.count()
    real = {name: getattr(database_maps, name) for name in ("change", "activate")}

    def counted(function: Any) -> Any:
        def call(*arguments: Any) -> Any:
            if next(calls) >= done:
                raise KeyboardInterrupt
            return function(*arguments)

        return call

    with monkeypatch.context() as patch:
        for name, function in real.items():
            patch.setattr(database_maps, name, counted(function))
        with contextlib.suppress(KeyboardInterrupt):
            map_changes.add(urls[:2], urls[2], print)
    rows = map_changes.read_all(urls, map_changes.named(urls))
    is_active = isinstance(rows[2], database_maps.MapRow) and rows[2].is_active
    with psycopg.connect(urls[0]) as link:
        left = link.execute("SELECT count(*) FROM sagas.schedules").fetchone()
    assert not (is_active and left != (0,))
    map_changes.add(urls[:2], urls[2], print)
    with psycopg.connect(urls[2]) as link:
        moved = link.execute("SELECT name FROM sagas.schedules ORDER BY name").fetchall()
    assert [name for (name,) in moved] == sorted(names)


def test_pauses_hold_in_a_database_that_joins(urls: list[str]) -> None:
    """No step of a paused definition runs there, and a drained node takes nothing."""
    saga, (key,) = order(), moving(2, 0, 1)

    async def main() -> None:
        async with sagas.open(urls[:2], [saga], node="one") as store:
            await store.pause(saga, note="the bank is down")
            await store.drain("one", note="replaced")
        map_changes.add(urls[:2], urls[2], print)
        async with sagas.open(urls, [saga], node="two") as store:
            assert [pause.note for pause in await store.pauses()] == ["the bank is down"]
            assert len(await store.stores[2].pauses()) == 1
            await store.start(saga, key)
            with pytest.raises(TimeoutError):
                await store.wait(key, 1)
            await store.resume(saga)
            assert (await store.wait(key, 60)).ok
            for member in store.stores:
                assert "one" in [node.name for node in await member.nodes() if node.drain]

    run(main())


def test_an_old_generation_is_forgotten_when_it_has_no_saga(urls: list[str]) -> None:
    """The counts say how many of its sagas are open, and how many there are."""
    map_changes.create(urls[:2], print)
    old = moving(2, 0, 1)[0]
    with psycopg.connect(urls[0], autocommit=True) as link:
        link.execute(
            "INSERT INTO sagas.pending_starts(key, saga, version, input, at) "
            "VALUES (%s, 'order', 1, 'null', 0)",
            (old,),
        )
        map = map_changes.add(urls[:2], urls[2], print)
        counts = map_changes.counts(urls, map)
        assert [(row.generation, row.open, row.sagas) for row in counts] == [
            (1, 1, 1),
            (2, None, None),
        ]
        assert map_changes.retire(urls, print).counts == (2, 3)
        link.execute("DELETE FROM sagas.pending_starts")
    assert map_changes.retire(urls, print).counts == (3,)
    assert map_changes.create(urls, print).positions(old) == (2,)


def test_a_start_in_progress_is_seen_by_the_new_generation(urls: list[str]) -> None:
    """A caller's transaction that has started a key holds the change back until it ends."""
    map_changes.create(urls[:2], print)
    saga, (first, second) = order(), moving(2, 0, 2)

    async def main() -> None:
        async with sagas.Client(urls[:2]) as client:
            async with await psycopg.AsyncConnection.connect(urls[0]) as link:
                assert await client.database_of(first) == urls[0]
                await client.start(saga, first, connection=link)
                waits: list[str] = []
                change = asyncio.create_task(
                    asyncio.to_thread(map_changes.add, urls[:2], urls[2], waits.append)
                )
                await until(lambda: bool(waits))
                await link.commit()
            await change
        async with sagas.Client(urls) as client:
            assert not (await client.start(saga, first)).new
            assert await client.database_of(first) == urls[0]
            async with await psycopg.AsyncConnection.connect(urls[0]) as link:
                with pytest.raises(ValueError, match="another database"):
                    await client.start(saga, second, connection=link)

    run(main())


def test_an_older_snapshot_does_not_hide_a_change_of_the_map(urls: list[str]) -> None:
    """A transaction with a snapshot from before the change meets a conflict."""
    map_changes.create(urls[:2], print)
    key = moving(2, 0, 1)[0]
    with psycopg.connect(urls[0]) as link:
        link.execute("SET TRANSACTION ISOLATION LEVEL REPEATABLE READ")
        link.execute("SELECT count(*) FROM sagas.nodes")
        map_changes.add(urls[:2], urls[2], print)
        with pytest.raises(psycopg.errors.SerializationFailure):
            link.execute(
                "INSERT INTO sagas.pending_starts(key, saga, version, input, at) "
                "VALUES (%s, 'order', 1, 'null', 0)",
                (key,),
            )


def test_a_map_that_went_back_is_seen(urls: list[str]) -> None:
    """A database with the map of an earlier generation is refused until it is repaired."""
    before = map_changes.create(urls[:2], print)
    map_changes.add(urls[:2], urls[2], print)
    with psycopg.connect(urls[1], autocommit=True) as link:
        database_maps.write_row(link, database_maps.MapRow(before, 1, True))

    async def main() -> None:
        with pytest.raises(sagas.InvalidStore, match="restored from an older backup"):
            async with sagas.open(urls, [order()]):
                pass

    run(main())
    assert map_changes.repair(urls, print).generation == 2
    assert map_changes.create(urls, print).generation == 2


def test_commands_over_several_databases(
    urls: list[str], capsys: pytest.CaptureFixture[str]
) -> None:
    """A key selects the database, and other commands run in each under its name."""
    saga, three = order(), ",".join(urls)

    def command(*arguments: str) -> tuple[int, str]:
        status = store_command.main([three, *arguments])
        return status, capsys.readouterr().out

    assert store_command.main([",".join(urls[:2]), "init"]) == 0
    assert store_command.main([",".join(urls[:2]), "map", "add", urls[2]]) == 0
    keys = [keys_at(position, 3, 1)[0] for position in range(3)]

    async def main() -> None:
        async with sagas.open(urls, [saga]) as store:
            for key in keys:
                await (await store.start(saga, key)).wait(timeout=60)

    run(main())
    capsys.readouterr()
    for key in keys:
        assert command("show", key)[1].startswith(f"key      {key}")
    assert command("show", "missing")[0] == 1
    status, text = command("list", "--json")
    assert status == 0
    assert [[row["key"] for row in rows] for rows in json.loads(text).values()] == [
        [key] for key in keys
    ]
    assert command("audit")[0] == 0
    fields = json.loads(command("map", "--json")[1])
    assert (fields["generation"], fields["complete"], len(fields["databases"])) == (2, True, 3)
    assert [row["sagas"] for row in fields["generations"]] == [0, None]
    assert command("map", "retire")[0] == 0
    assert len(json.loads(command("map", "--json")[1])["generations"]) == 1
    assert command("map", "add")[0] == 2
    assert store_command.main([f"{urls[1]},{urls[0]},{urls[2]}", "list"]) == 4


def test_each_public_call_is_of_all_databases() -> None:
    """No call of a store or client is left out: it would need the only database."""
    inherited = {"serve", "opened_with", "restart"}  # they use calls that are
    for single, several in ((sagas.Store, sagas.StoreSet), (sagas.Client, sagas.ClientSet)):
        names = {name for name in dir(single) if name[0] != "_"} - inherited
        missing = {name for name in names if getattr(single, name) is getattr(several, name, None)}
        assert missing == set()
