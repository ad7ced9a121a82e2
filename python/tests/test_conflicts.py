"""Conflicts that the server reports: serialization failures and deadlocks.

A transaction of the package is repeated. A transaction of the caller is not, and its error has a
name.
"""

from __future__ import annotations

import asyncio
import concurrent.futures
import pathlib
from typing import Any

import psycopg
import pytest
from cases import QUICK, Task, run, until
from serving import DEFINITIONS, all_done, command, served, start

import sagas
from sagas.cli import store_command
from sagas.storage.postgresql import conflicts, schema

CODES = ("40001", "40P01")
TRIGGER = """
CREATE SEQUENCE public.c_{table};
GRANT USAGE ON SEQUENCE public.c_{table} TO PUBLIC;
CREATE FUNCTION public.f_{table}() RETURNS trigger LANGUAGE plpgsql AS $$
BEGIN
    IF nextval('public.c_{table}') <= {count} THEN
        RAISE EXCEPTION 'a conflict' USING ERRCODE = '{code}';
    END IF;
    RETURN NULL;
END $$;
CREATE TRIGGER conflict BEFORE INSERT OR UPDATE OR DELETE ON {schema}.{table}
FOR EACH STATEMENT EXECUTE FUNCTION public.f_{table}()
"""


def execute(url: str, text: str) -> list[tuple[Any, ...]]:
    """Execute a statement as the owner; return its rows."""
    with psycopg.connect(url, autocommit=True) as link:
        cursor = link.execute(text.encode())
        return cursor.fetchall() if cursor.description else []


def refuse(url: str, table: str, code: str, count: int, schema: str = "sagas") -> None:
    """Let the first `count` statements that write a table fail by a conflict."""
    execute(url, TRIGGER.format(table=table, code=code, count=count, schema=schema))


def refused(url: str, table: str) -> int:
    """Return how many statements on the table were executed, also those that failed."""
    ((count, was_called),) = execute(url, f"SELECT last_value, is_called FROM public.c_{table}")
    return int(count) if was_called else 0


def make_tables(url: str) -> None:
    """Create the tables of the store."""
    assert store_command.main([url, "init"]) == 0


def kinds() -> list[sagas.Saga]:
    """Return a saga with a step, a transaction, an approval and an external step."""
    kind = sagas.Saga("kind")

    @kind.step(fleet_concurrency=3)
    def a(task: Task) -> str:
        return task.key

    @kind.step(needs=[a], transaction=True, undo=sagas.NOTHING)
    async def books(task: Task) -> None:
        await task.connection.execute("INSERT INTO public.booked VALUES (%s)", (task.key,))

    @kind.approval(needs=[books])
    def approves(task: Task) -> None:
        ...

    kind.step(name="sends", needs=[a], external=True)
    return [kind]


@pytest.mark.parametrize("code", CODES)
def test_a_conflict_at_each_table(url: str, code: str) -> None:
    """Each statement of a node, a client and a worker that fails by a conflict is repeated."""
    make_tables(url)
    execute(url, "CREATE TABLE public.booked(key text PRIMARY KEY)")
    tables = [table for table in schema.TABLES if table != "store"]
    for table in tables:
        refuse(url, table, code, 1)

    async def main() -> None:
        (kind,) = declared = kinds()
        store = sagas.open(url, declared, node="one")
        store.leased = True
        async with store, sagas.Client(url) as client:
            await client.start(kind, "k")
            await store.start(kind, "other")
            for _ in range(2):
                (task,) = await store.workers.claim([("kind", "sends", "run")], wait=60)
                await store.workers.report(task.attempt_id, task.lease, "sent")
            for key in ("k", "other"):
                await until_reported(client, key)
                assert (await client.wait(key)).ok
            await store.start(kind, "aborted")
            await client.abort("aborted")
            await client.wait("aborted")
            assert all(verdict.startswith("yes") for verdict in (await store.audit()).values())

    run(main())
    assert {key for (key,) in execute(url, "SELECT key FROM public.booked")} >= {"k", "other"}
    met = {table for table in tables if refused(url, table) > 1}
    assert met >= {"nodes", "shards", "event_log", "sagas", "attempts", "pending_starts"}, met
    assert met >= {"external_attempts", "operator_commands", "suspensions"}, met


async def until_reported(client: sagas.Client, key: str) -> None:
    """Approve a saga, once it asks."""
    while True:
        try:
            await client.complete(key, "approves", True)
            return
        except sagas.StepNotWaiting:
            await asyncio.sleep(0.02)


@pytest.mark.parametrize("code", CODES)
def test_a_service_and_an_operator(url: str, tmp_path: pathlib.Path, code: str) -> None:
    """Starts, claims and reports over HTTP, and the commands of an operator, are repeated."""
    make_tables(url)
    with served(tmp_path, DEFINITIONS, store=url) as service, service.client() as client:
        for table in ("event_log", "external_attempts", "pauses", "operator_commands", "trends"):
            refuse(url, table, code, 2)
        for key in ("k", "other"):
            assert start(client, "trip", key).status_code == 201
            all_done(client, "trip/flight", "trip/car", "trip/tour")
            assert client.get(f"/v1/sagas/{key}/wait").json()["phase"] == "completed"
        paused = client.post("/v1/pauses", json={"definition": "trip", "note": "by hand"})
        assert paused.status_code == 200, paused.text
        resumed = command("store", url, "resume", "trip")
        assert resumed.returncode == 0, resumed.stderr
        assert service.stop() == 0
    for table in ("event_log", "external_attempts", "pauses"):
        assert refused(url, table) > 2, table


def test_a_conflict_that_lasts(url: str) -> None:
    """After the last repetition, the start raises an error, and nothing was started."""
    make_tables(url)
    refuse(url, "pending_starts", "40001", conflicts.MAX_TURNS + 1)

    async def main() -> None:
        async with sagas.Client(url) as client:
            with pytest.raises(sagas.StoreUnavailable, match="a conflict"):
                await client.start(kinds()[0], "k")
            assert refused(url, "pending_starts") == conflicts.MAX_TURNS + 1
            assert (await client.start(kinds()[0], "k")).new

    run(main())


@pytest.mark.parametrize("code", CODES)
def test_the_transaction_of_a_caller(url: str, code: str) -> None:
    """A start in it is not repeated: the exception has a name, and the caller repeats all."""
    make_tables(url)
    refuse(url, "pending_starts", code, 1)
    execute(url, "CREATE TABLE public.orders(key text)")
    kind = kinds()[0]
    with sagas.SyncClient(url) as client:
        for is_last in (False, True):
            with psycopg.connect(url) as link:
                link.execute("INSERT INTO public.orders VALUES ('k')")
                if is_last:
                    assert client.start(kind, "k", connection=link).new
                    continue
                with pytest.raises(sagas.TransactionConflict, match="repeat all of it"):
                    client.start(kind, "k", connection=link)
                link.rollback()
    assert refused(url, "pending_starts") == 2
    assert execute(url, "SELECT key FROM public.orders") == [("k",)]


def test_two_starts_in_serializable_transactions(url: str) -> None:
    """The server itself ends the one whose snapshot is from before the other's commit."""
    make_tables(url)
    kind = kinds()[0]
    with sagas.SyncClient(url) as client, psycopg.connect(url) as link:
        link.execute("SET TRANSACTION ISOLATION LEVEL SERIALIZABLE")
        link.execute("SELECT 1 FROM sagas.sagas")
        assert client.start(kind, "k").new
        with pytest.raises(sagas.TransactionConflict, match="could not serialize access"):
            client.start(kind, "k", connection=link)


def test_a_database_whose_transactions_are_serializable(url: str) -> None:
    """Two nodes execute sagas whose transactions conflict: each has its effect once."""
    name = url.rpartition("/")[2]
    execute(url, f"ALTER DATABASE {name} SET default_transaction_isolation = 'serializable'")
    execute(url, "CREATE TABLE public.total(count integer)")
    execute(url, "INSERT INTO public.total VALUES (0)")
    levels = set[str]()

    def declared() -> list[sagas.Saga]:
        kind = sagas.Saga("adds")

        @kind.step(transaction=True, backoff=QUICK, max_unknown=1000, undo=sagas.NOTHING)
        async def adds(task: Task) -> None:
            ((level,),) = await (
                await task.connection.execute("SHOW transaction_isolation")
            ).fetchall()
            levels.add(level)
            await task.connection.execute("UPDATE public.total SET count = count + 1")

        return [kind]

    async def main() -> None:
        (kind,), (same,) = declared(), declared()
        async with sagas.open(url, [kind], node="one", concurrency=4) as first:
            async with sagas.open(url, [same], node="two", concurrency=4) as second:
                async with sagas.Client(url) as client:
                    keys = [f"k{number}" for number in range(60)]
                    starters: list[Any] = [(first, kind), (second, same), (client, kind)]
                    runs = await asyncio.gather(
                        *(
                            starters[n % 3][0].start(starters[n % 3][1], k)
                            for n, k in enumerate(keys)
                        )
                    )
                    again = await asyncio.gather(*(client.start(kind, key) for key in keys))
                    assert not any(other.new for other in again)
                    assert all([(await each.wait()).ok for each in runs])

    run(main())
    assert execute(url, "SELECT count FROM public.total") == [(60,)]
    assert levels == {"serializable"}


WAITS = """
SELECT 1 FROM pg_stat_activity WHERE datname = current_database() AND wait_event_type = 'Lock'
AND starts_with(application_name, 'sagas admin')
"""


def test_a_deadlock_of_an_operator(url: str) -> None:
    """A command that the server ends by a deadlock is repeated, as a whole."""
    make_tables(url)
    execute(url, f"ALTER DATABASE {url.rpartition('/')[2]} SET deadlock_timeout = '3s'")
    arguments = "store", url, "pause", "--everything", "--note", "by hand"
    with psycopg.connect(url) as link, concurrent.futures.ThreadPoolExecutor() as threads:
        link.execute("SET deadlock_timeout = '10min'")
        link.execute("LOCK TABLE sagas.operator_commands IN EXCLUSIVE MODE")
        pausing = threads.submit(command, *arguments)
        while not execute(url, WAITS):
            assert not pausing.done(), pausing.result()
        link.execute("LOCK TABLE sagas.pauses IN ACCESS EXCLUSIVE MODE")  # waits for the command
        link.rollback()
        assert pausing.result(60).returncode == 0
    assert execute(url, "SELECT note FROM sagas.pauses") == [("by hand",)]
