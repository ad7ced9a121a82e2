"""Who may act on a saga that undoes a child, what it has of the child, and what an operator may
complete.
"""

from __future__ import annotations

import asyncio
import dataclasses
import json
import pathlib
from collections.abc import Callable
from typing import Any
from urllib.parse import quote

import pytest
from cases import Task, run, until
from serving import error_of, served, start, token
from test_children import Backwards
from test_command import Shell
from test_service_webhooks import Receiver, table, written
from test_service_workers import ONE_STEP

import sagas
import sagas.testing
from sagas.core import reports
from sagas.definition import child_sagas
from sagas.storage import admin, archive
from sagas.storage.filters import Scope

Json = dict[str, Any]


class Family:
    """A parent whose child is undone step by step: `c`, `b`, `a`, at a gate before each."""

    def __init__(self, fails: bool = False, **options: Any) -> None:
        self.done, self.keys = list[str](), list[str]()
        self.child, self.top = sagas.Saga("child"), sagas.Saga("top")
        self.gate, self.is_broken = asyncio.Event(), fails
        before: list[sagas.Step[Any]] = []
        for name in ("a", "b", "c"):
            step = self.child.step(self._run, name=name, needs=before[-1:], keep=9)
            step.compensation(on_exhausted="fail")(self._undo)
            before.append(step)
        self.kid = self.top.child(self.child, name="kid", input=lambda task: task.input, **options)
        self.top.step(self._last, name="fin", needs=[self.kid])
        self.all = [self.top, self.child]

    def _run(self, task: Task) -> Any:
        return f"{task.step} of {task.key}"

    async def _undo(self, task: Task) -> None:
        assert task.result == f"{task.step} of {task.key}"
        self.done.append(task.step)
        self.keys.append(task.idempotency_key)
        if task.step != "c":
            await self.gate.wait()
        if self.is_broken and task.step == "b":
            raise sagas.Fail("cannot")

    def _last(self, task: Task) -> None:
        raise sagas.Fail("no")

    async def exhausted(self, store: sagas.Store, key: str = "t") -> sagas.Attention:
        """Return what needs an operator about the parent."""

        async def entries() -> list[sagas.Attention]:
            return [entry for entry in await store.attention() if entry.key == key]

        (entry,) = await until(entries)
        assert isinstance(entry, sagas.Attention)
        return entry


def test_an_undo_saga_is_not_aborted(location: str, capsys: pytest.CaptureFixture[str]) -> None:
    """For its key the response has the reason; a command for many by a label leaves it out, and
    reports that. The undo continues to its end.
    """
    world, shell = Family(), Shell(location, capsys)

    async def main() -> None:
        async with sagas.open(location, world.all) as store:
            started = await store.start(world.top, "t", labels={"customer": "7"})
            await until(lambda: world.done == ["c", "b"])
            with pytest.raises(
                sagas.NotAbortable, match="'t/:kid:undo' undoes a child, so it is not aborted"
            ):
                await store.abort("t/:kid:undo", by="ann")
            assert world.child.name in [
                summary.saga for summary in await store.list(labels={"customer": "7"})
            ]
            arguments = ("abort", "--all", "--label", "customer=7")
            assert (
                await asyncio.to_thread(shell, *arguments) == "1 saga: --yes aborts it\n"
                "1 saga skipped, because it undoes a child or calls on_end\n"
            )
            assert await asyncio.to_thread(shell.json, *arguments) == {"count": 1, "undoing": 1}
            result = await store.abort_all(labels={"customer": "7"}, by="ann")
            assert (result.done, result.refused, result.waiting, result.undoing) == (
                ["t"],
                {},
                [],
                ["t/:kid:undo"],
            )
            assert (
                await asyncio.to_thread(shell, *arguments, "--yes")
                == "t/:kid:undo: skipped, because it undoes a child or calls on_end\n"
            )
            refusal = {
                "key": "t/:kid:undo",
                "asked": "abort",
                "answer": "skipped, because it undoes a child or calls on_end",
            }
            assert await asyncio.to_thread(shell.json, *arguments, "--yes") == [refusal]
            assert await asyncio.to_thread(shell, "abort", "t/:kid:undo", status=1) == ""
            world.gate.set()
            end = await started.wait(60)
            assert end.aborted and end.states == {"kid": "undone", "fin": "failed"}
            undone = await store.wait("t/:kid:undo", 60)
            assert undone.ok and not undone.aborted and not await store.abort("t/:kid:undo")
            with pytest.raises(sagas.NoSuchSaga):
                await store.abort("t/:other:undo")

    run(main())
    assert world.done == ["c", "b", "a"]


def test_a_client_or_another_node_cannot_abort_an_undo(url: str) -> None:
    """They ask its node, or know it by themselves."""
    world = Family()

    async def main() -> None:
        async with sagas.open(url, world.all, node="one") as store, sagas.Client(url) as client:
            started = await store.start(world.top, "t")
            await until(lambda: world.done == ["c", "b"])
            async with sagas.open(url, world.all, node="two") as other:
                for caller in (client, other):
                    with pytest.raises(sagas.NotAbortable):
                        await caller.abort("t/:kid:undo")
            assert (await client.abort_all(saga="child-undo")).undoing == ["t/:kid:undo"]
            world.gate.set()
            assert (await started.wait(60)).states["kid"] == "undone"

    run(main())


@pytest.mark.parametrize("location", ["sqlite", "postgresql"], indirect=True)
@pytest.mark.parametrize("way", ["retry", "complete", "fail"])
def test_an_undo_that_failed_waits_for_a_person(location: str, way: str) -> None:
    """It is treated as any compensation, also after a restart.

    A retry undoes what is left, in another saga.
    """
    world = Family(fails=True)
    world.gate.set()

    async def main() -> None:
        async with sagas.open(location, world.all) as store:
            await store.start(world.top, "t")
            entry = await world.exhausted(store)
            assert (entry.why, entry.step, entry.undo) == ("exhausted", "kid", True)
            assert "'t/:kid:undo' has not completed: recovered. b: sagas.Fail: cannot" in str(
                entry.detail
            )
        async with sagas.open(location, world.all) as store:
            run_again = await store.get("t")
            assert run_again is not None
            if way == "retry":
                await store.retry("t", "kid", undo=True)  # it fails once more
                await until(lambda: world.done == ["c", "b", "b"])
                assert "'t/:kid:undo/2'" in str((await world.exhausted(store)).detail)
                world.is_broken = False
                assert await store.retry_all(saga=world.top, by="ann") == 1
            elif way == "complete":
                await store.complete("t", "kid", undo=True)
            else:
                await store.fail("t", "kid", "it stays", undo=True)
            end = await run_again.wait(60)
            assert end.states["kid"] == ("undo_failed" if way == "fail" else "undone")
            last = await store.get("t/:kid:undo/3")
            assert (last is not None) == (way == "retry")
            assert last is None or (await last.wait(60)).states == dict.fromkeys("cba", "committed")

    run(main())
    assert world.done == (["c", "b", "b", "b", "a"] if way == "retry" else ["c", "b"])
    assert len({*world.keys}) == len({*world.done})  # one idempotency key per step, over all sagas


def test_no_operator_is_asked_if_so_declared(location: str) -> None:
    """Then the rest of the child stays."""
    world = Family(fails=True, undo_on_exhausted="fail")
    world.gate.set()

    async def main() -> None:
        async with sagas.open(location, world.all) as store:
            end = await (await store.start(world.top, "t")).wait(60)
            assert end.states["kid"] == "undo_failed"

    run(main())
    with pytest.raises(
        sagas.DefinitionError, match="undo_on_exhausted='retry': must be fail or ask"
    ):
        wrong: dict[str, Any] = {"undo_on_exhausted": "retry"}
        sagas.Saga("x").child(world.child, input=lambda task: 1, **wrong)


def test_an_undone_grandchild_stays_undone(location: str) -> None:
    """The saga that undoes it is retried by itself, or as a part of its parent's."""
    calls, broken = list[str](), [True]
    low, mid, top = (sagas.Saga(name) for name in ("low", "mid", "top"))

    def undo(task: Task) -> None:
        calls.append(f"{task.step} {task.key}")
        if task.step == "x" and broken:
            raise sagas.Fail("cannot")

    x = low.step(lambda task: 1, name="x", keep=9)
    y = low.step(lambda task: 2, name="y", needs=[x], keep=9)
    for step in (x, y):
        step.compensation(on_exhausted="fail")(undo)
    mid.child(low, name="below", input=lambda task: 1)
    kid = top.child(mid, name="kid", input=lambda task: 1)

    def last(task: Task) -> None:
        raise sagas.Fail("no")

    top.step(last, name="fin", needs=[kid])

    async def main() -> None:
        async with sagas.open(location, [top, mid, low]) as store:
            started = await store.start(top, "t")

            async def exhausted_keys() -> list[str]:
                return [entry.key for entry in await store.attention()]

            await until(exhausted_keys)
            assert await exhausted_keys() == ["t/:kid:undo"]
            with pytest.raises(sagas.NotAbortable):
                await store.abort("t/:kid:undo")
            await store.fail("t/:kid:undo", "below", "not now")
            await until(lambda: is_list(exhausted_keys, ["t"]))
            broken.clear()
            await store.retry("t", "kid", undo=True)
            assert (await started.wait(60)).states == {"kid": "undone", "fin": "failed"}
            keys = {summary.key for summary in await store.list()}
            assert {"t/:kid:undo/:below", "t/:kid:undo/2", "t/:kid:undo/2/:below"} <= keys

    run(main())
    low_key = "t/:kid/:below"
    assert calls == [f"y {low_key}", f"x {low_key}", f"x {low_key}"]


def test_undone_compensations_are_not_requested_again(location: str) -> None:
    """An external compensation is reported once, and not again in the next saga; with a
    codec, too.
    """
    broken, calls = [True], list[str]()
    child, top = sagas.Saga("child"), sagas.Saga("top")

    def undo(task: Task) -> None:
        calls.append(task.step)
        if broken:
            raise sagas.Fail("cannot")

    a = child.step(lambda task: "x" * 5000, name="a", keep=9)
    a.compensation(on_exhausted="fail")(undo)
    child.step(lambda task: None, name="b", needs=[a], keep=9).compensation(external=True)
    kid = top.child(child, name="kid", input=lambda task: task.input)

    def last(task: Task) -> None:
        raise sagas.Fail("no")

    top.step(last, name="fin", needs=[kid])

    async def main() -> None:
        async with sagas.open(location, [top, child], codec=Backwards()) as store:
            started = await store.start(top, "t", "y" * 5000)
            await until(lambda: store.get("t/:kid:undo"))
            await until(lambda: store.active_attempts("t/:kid:undo"))
            await store.complete("t/:kid:undo", "b")
            await until(
                lambda: [
                    attempt
                    for attempt in store.active_attempts("t")
                    if attempt.waits == "exhausted"
                ]
            )
            broken.clear()
            await store.retry("t", "kid", undo=True)
            assert (await started.wait(60)).states["kid"] == "undone"
            assert (await store.wait("t/:kid:undo/2", 60)).states == {
                "b": "committed",
                "a": "committed",
            }

    run(main())
    assert calls == ["a", "a"]


async def is_list(listing: Callable[[], Any], wanted: list[str]) -> bool:
    return bool(await listing() == wanted)


class Hand:
    """A parent whose child step needs an operator, since its child fails.

    In it, `gone` is undone by then, and `first` stays.
    """

    def __init__(self) -> None:
        self.undone = list[str]()
        self.child, self.top = sagas.Saga("child"), sagas.Saga("top")
        gone = self.child.step(lambda task: 7, name="gone", keep=9)
        first = self.child.step(lambda task: 8, name="first", keep=0, undo=3)
        for step in (gone, first):
            step.compensation(lambda task: self.undone.append(f"{task.step} {task.key}"))
        self.child.step(self._second, name="second", needs=[gone, first], keep=9, undo=0)
        self.kid = self.top.child(
            self.child, name="kid", input=lambda task: task.input, on_exhausted="ask", keep=9
        )
        self.top.approval(name="sign", needs=[self.kid])(lambda task: None)
        self.all = [self.top, self.child]

    def _second(self, task: Task) -> Any:
        if task.input == "fails":
            raise sagas.Fail("no")

    async def started_and_waiting(self, store: sagas.Store) -> sagas.Run:
        run = await store.start(self.top, "t", "fails")
        await until(
            lambda: [
                attempt for attempt in store.active_attempts("t") if attempt.waits == "exhausted"
            ]
        )
        return run


def result(key: Any, **more: Any) -> Json:
    return {"key": key, "phase": "completed", "results": {"first": 1}} | more


WRONG: list[tuple[Any, str]] = [
    (None, "this is not the result of a child"),
    ("t/:kid", "this is not the result of a child"),
    ({"key": "t/:kid"}, "this is not the result of a child"),
    (result("t/:kid", phase="open"), "the phase of a child's result is 'completed'"),
    (result("t/:kid", results=[1]), "the results of a child are an object by step"),
    (
        result("t/:kid", results={"third": 1}),
        "the results name a step that the child does not have",
    ),
    (result(7), "the key of a child is a text"),
    (
        result("good/:kid"),
        (
            "the key is not that of a child of this step.*: KEY is that of its child [(]it started"
            " 't/:kid'[)]"
        ),
    ),
    (result("t"), "the key is not that of a child of this step"),
    (result("nonsense"), "the key is not that of a child of this step"),
]


def test_a_child_step_is_completed_with_a_childs_result(
    location: str, capsys: pytest.CaptureFixture[str]
) -> None:
    """Anything else is refused, with nothing changed, by the store and by the command.

    Without a child there is nothing to undo.
    """
    world, shell = Hand(), Shell(location, capsys)

    async def main() -> None:
        async with sagas.open(location, world.all) as store:
            good = await store.start(world.top, "good", "works")
            started = await world.started_and_waiting(store)
            for wrong, why in WRONG:
                with pytest.raises(
                    sagas.InvalidResult, match=f"saga 't', step 'kid': {why}.*Nothing was stored"
                ):
                    await store.complete("t", world.kid, wrong, by="ann")
            with pytest.raises(sagas.InvalidResult):
                await store.complete_all(result("good/:kid"))
            arguments = ("complete", "t", "kid", "--result")
            for wrong in (None, result("good/:kid")):
                assert await asyncio.to_thread(shell, *arguments, json.dumps(wrong), status=1) == ""
            assert [attempt.waits for attempt in store.active_attempts("t")] == ["exhausted"]
            right = result(None)
            assert (
                await asyncio.to_thread(shell, *arguments, json.dumps(right))
                == "t: kid succeeded\n"
            )
            await store.complete("t", world.kid, right)  # the same again
            with pytest.raises(sagas.ConflictingReport):
                await store.complete("t", world.kid, result(None, results={}))
            await store.abort("t")
            assert (await started.wait(60)).states["kid"] == "undone"
            assert await store.get("t/:kid:undo") is None
            await store.complete("good", "sign")
            assert (await good.wait(60)).ok

    run(main())
    assert world.undone == ["gone t/:kid"]  # by the child itself


def test_the_rest_of_its_child_is_undone(location: str) -> None:
    """This holds also after a restart; steps that the child has undone are not undone again."""
    world = Hand()

    async def main() -> None:
        async with sagas.open(location, world.all) as store:
            await world.started_and_waiting(store)
            await store.retry("t", "kid")
            await until(lambda: store.get("t/:kid/2"))
            await until(
                lambda: [
                    attempt
                    for attempt in store.active_attempts("t")
                    if attempt.waits == "exhausted"
                ]
            )
            await store.complete("t", "kid", result("t/:kid"))
        async with sagas.open(location, world.all) as store:
            await store.abort("t")
            assert (await store.wait("t", 60)).states["kid"] == "undone"
            assert (await store.wait("t/:kid:undo", 60)).ok

    run(main())
    assert world.undone == ["gone t/:kid", "gone t/:kid/2", "first t/:kid"]


def test_a_wrong_stored_result_needs_an_operator(
    location: str, monkeypatch: pytest.MonkeyPatch
) -> None:
    """It undoes no other saga's child, and nothing hangs."""
    world = Hand()
    monkeypatch.setattr(reports, "check_child_result", lambda *arguments: None)

    async def main() -> None:
        async with sagas.open(location, world.all) as store:
            started = await world.started_and_waiting(store)
            await store.complete("t", "kid", result("nonsense"))
            await store.abort("t")

            async def entries() -> list[sagas.Attention]:
                return await store.attention()

            (entry,) = await until(entries)
            assert (entry.key, entry.step, entry.undo) == (
                "t",
                "kid",
                True,
            ) and "no key of a child" in str(entry.detail)
            await store.complete("t", "kid", undo=True)
            assert (await started.wait(60)).states["kid"] == "undone"

    run(main())
    assert world.undone == ["gone t/:kid"]


def test_open_and_completed_children() -> None:
    """An open one is neither left nor taken; one that has completed is not forgotten."""
    rows = [
        ("t/:kid", "recovered"),
        ("t/:kid/2", "open"),
        ("t/:kid:undo", "open"),
        ("t/:kid/x", "open"),
        ("t/:kid-2", "open"),
    ]
    for key, why in (
        (None, "its child 't/:kid/2' is open"),
        ("t/:kid/2", "is open"),
        ("t/:kid:undo", "is not that of a child of this step"),
    ):
        with pytest.raises(sagas.InvalidResult, match=why):
            reports.check_child_result("t", "kid", result(key), rows, ["first"])
    reports.check_child_result("t", "kid", result("t/:kid"), rows, None)
    with pytest.raises(sagas.InvalidResult, match="has completed, so its key is needed"):
        reports.check_child_result("t", "kid", result(None), [("t/:kid", "completed")], None)
    with pytest.raises(sagas.InvalidResult, match="it started none"):
        reports.check_child_result("t", "kid", result("t/:kid"), [], None)


@dataclasses.dataclass
class Account:
    number: str


def test_attributes_that_an_undo_has_of_its_child(location: str) -> None:
    """It has labels, the tenant, and the concurrency of its steps, whose calls are counted with
    those that undo them.
    """
    calls, gate = list[str](), asyncio.Event()
    child, top = sagas.Saga("child", fair_by=lambda input: input["number"]), sagas.Saga("top")

    def room(task: sagas.Task[Account]) -> None:
        ...

    step = child.step(
        room, name="room", keep=9, concurrency=1, concurrency_by=lambda account: account.number
    )

    @step.compensation
    async def cancel(task: sagas.Task[Account]) -> None:
        calls.append(task.key)
        await gate.wait()

    kid = top.child(child, name="kid", input=lambda task: {"number": task.input})

    def last(task: Task) -> None:
        raise sagas.Fail("no")

    top.step(last, name="fin", needs=[kid])

    async def main() -> None:
        async with sagas.open(location, [top, child]) as store:
            undone_sagas = [
                await store.start(top, key, number, labels={"of": number})
                for key, number in (("s", "7"), ("t", "7"), ("u", "8"))
            ]
            await until(lambda: len(calls) == 2)
            held = "t" if "s/:kid" in calls else "s"
            await until(
                lambda: [
                    attempt
                    for attempt in store.active_attempts(f"{held}/:kid:undo")
                    if attempt.waits
                ]
            )
            (waits,) = await store.waits_for(f"{held}/:kid:undo")
            assert waits == "room waits for a slot of its concurrency"
            tenants = {
                key: instance.tenant
                for key, instance in store._coordinator.sagas.by_key.items()
                if child_sagas.undoes_child(key)
            }
            assert tenants == {"s/:kid:undo": '"7"', "t/:kid:undo": '"7"', "u/:kid:undo": '"8"'}
            assert await store.count(saga="child-undo", labels={"of": "7"}) == 2
            gate.set()
            for undone_saga in undone_sagas:
                assert (await undone_saga.wait(60)).states["kid"] == "undone"

    run(main())


def test_an_undo_saga_cannot_be_started(url: str) -> None:
    """Not even a client that declares a saga of its name."""
    world = Family()

    async def main() -> None:
        async with sagas.open(url, world.all, node="one") as store, sagas.Client(url) as client:
            forged = {
                "key": "x",
                "token": "0-0",
                "input": None,
                "results": {"a": 1, "b": 1, "c": 1},
            }
            (undoing,) = [
                saga for saga in store._registry.sagas.values() if saga.undoes is world.child
            ]
            with pytest.raises(
                sagas.DefinitionError, match="only parents of such children start it"
            ):
                await store.start(undoing, "forged", forged)
            started = await client.start(sagas.Saga("child-undo"), "forged", forged)
            with pytest.raises(sagas.SagasError, match="'child-undo' undoes 'child' as a child"):
                await started.wait(60)
            for key in ("X/:kid", "X/:kid:undo"):
                with pytest.raises(sagas.InvalidKey):
                    await client.start(world.child, key)

    run(main())
    assert world.done == []


def test_scopes() -> None:
    """A token of the child covers it; a saga that only has its name is not covered."""
    scope = Scope(frozenset({"leaf"}))
    for key, sees in (
        ("t/:kid:undo", True),
        ("t/:kid:undo/2", True),
        ("t/:kid:undo/:kid", True),
        ("t:undo", False),
        ("t:undo/:kid", False),
    ):
        assert scope.has_saga("leaf-undo", key) == child_sagas.undoes_child(key) == sees
        assert scope.has_saga("leaf", key) and not scope.has_saga("other-undo", key)
    assert not Scope(frozenset({"leaf"}), frozenset({"s"})).has_saga("leaf-undo", "t/:kid:undo")
    assert Scope().has_saga("any", None) and not scope.has_saga("leaf-undo", None)
    assert (
        scope.may_have("leaf-undo")
        and not scope.has_definition("leaf-undo")
        and not scope.may_have("other-undo")
    )


APP = """
import sagas
leaf, plain = sagas.Saga("leaf"), sagas.Saga("plain")
room = leaf.step(lambda task: 1, name="room", keep=9)
def closed(task):
    raise sagas.Retry("closed")
room.compensation(tries=1)(closed)
def no(task):
    raise sagas.Fail("no")
plain.step(no, name="first")
top, hand = sagas.Saga("top"), sagas.Saga("hand")
kid = top.child(leaf, name="kid", input=lambda task: 1)
top.step(no, name="fin", needs=[kid])
hand.child(plain, name="kid", input=lambda task: 1, on_exhausted="ask", keep=9)
store = sagas.open("unused.db", [top, leaf, hand, plain])
"""


def test_over_http(tmp_path: pathlib.Path) -> None:
    """A token of the child sees it, and cannot abort it; one of another definition sees nothing.

    A webhook of the child gets its events.
    """
    (tmp_path / "app.py").write_text(APP)
    receiver, undo = Receiver(), "t/:kid:undo"
    hooks = written(
        tmp_path, table(receiver.url, 'definitions = ["leaf"]\ntypes = ["saga.attention"]')
    )
    every = token(tmp_path, "every", "operator")
    leafy = token(tmp_path, "leafy", "operator", "--definition", "leaf")
    other = token(tmp_path, "other", "operator", "--definition", "plain")
    options = (
        "--app",
        "app:store",
        "--token-file",
        str(tmp_path / "tokens.toml"),
        "--webhooks",
        hooks,
        "--local-webhooks",
    )
    path = f"/v1/sagas/{quote(undo, safe='')}"
    with served(tmp_path, {"one.toml": ONE_STEP}, *options) as service, service.client(
        every
    ) as client:
        assert (
            start(client, "top", "t").status_code == start(client, "hand", "h").status_code == 201
        )
        (received_post,) = receiver.wait(1)
        assert received_post["data"] == {
            "key": undo,
            "definition": "leaf-undo",
            "kind": "exhausted",
            "step": "room",
            "undo": False,
        }
        receiver.server.shutdown()
        for definition, key, problem in (
            ("leaf-undo", "x", "NoSuchDefinition"),
            ("leaf", "X/:kid", "InvalidKey"),
            ("leaf", "X/:kid:undo", "InvalidKey"),
        ):
            assert error_of(start(client, definition, key)) == problem
        bulk: Json = {"filter": {"definition": "leaf-undo"}, "dry_run": True}
        with service.client(leafy) as owner, service.client(other) as stranger:
            assert (
                owner.get(path).json()["definition"] == "leaf-undo"
                and stranger.get(path).status_code == 404
            )
            assert owner.get("/v1/sagas/t%2F:kid").status_code == 200
            assert client.get("/v1/sagas/t").json()["children"][1]["key"] == undo
            for query, keys in (
                ("", {"t/:kid", undo}),
                ("?definition=leaf-undo", {undo}),
                ("?definition=leaf", {"t/:kid"}),
            ):
                assert {
                    saga["key"] for saga in owner.get(f"/v1/sagas{query}").json()["sagas"]
                } == keys
            assert [
                entry["key"]
                for entry in owner.get("/v1/attention?kind=exhausted").json()["entries"]
            ] == [undo]
            assert error_of(stranger.get("/v1/sagas?definition=leaf-undo")) == "Forbidden"
            assert stranger.get("/v1/attention?kind=exhausted").json()["entries"] == []
            assert (
                error_of(start(owner, "leaf-undo", "x"))
                == error_of(start(owner, "top", "x"))
                == "Forbidden"
            )
            for word, body in (("abort", {}), ("what-if", {"abort": True})):
                assert error_of(owner.post(f"{path}/{word}", json=body)) == "NotAbortable"
                assert error_of(stranger.post(f"{path}/{word}", json=body)) == "NoSuchSaga"
            assert (
                owner.post(f"{path}/abort", json={})
                .json()["detail"]
                .startswith(f"saga '{undo}' undoes a child")
            )
            received_post = owner.post("/v1/bulk/abort", json=bulk).json()
            assert (received_post["count"], received_post["keys"], received_post["undoing"]) == (
                0,
                [],
                1,
            )
            received_post = client.post("/v1/bulk/abort", json={"filter": {}}).json()
            assert (received_post["count"], received_post["keys"], received_post["undoing"]) == (
                2,
                ["t", "h"],
                1,
            )
            assert error_of(stranger.post("/v1/bulk/abort", json=bulk)) == "Forbidden"
            with service.client() as page:
                assert (
                    page.post("/ui/login", data={"token": every, "next": "/ui"}).status_code == 303
                )
                assert (
                    "Abort…" not in page.get(f"/ui{path.removeprefix('/v1')}").text
                    and "Abort…" in page.get("/ui/sagas/t").text
                )
                form = page.get("/ui/sagas/h/steps/kid/done").text
                assert "enter null as the key" in form and "&#34;key&#34;: &#34;h/:kid&#34;" in form
                assert (
                    "enter null as the key"
                    not in page.get("/ui/sagas/t/steps/kid/done?undo=true").text
                )
            complete, filter = "/v1/sagas/h/steps/kid/complete", {
                "kind": "exhausted",
                "definition": "hand",
                "step": "kid",
            }
            assert (
                error_of(stranger.post(complete, json={"result": result(None, results={})}))
                == "NoSuchSaga"
            )
            for wrong in (None, result("t/:kid", results={}), result("nonsense", results={})):
                answer = client.post(complete, json={"result": wrong})
                assert (
                    error_of(answer) == "InvalidResult"
                    and "'h/:kid'" in answer.text
                    and "nonsense" not in answer.text
                )
            received_post = client.post(
                "/v1/bulk/complete",
                json={"filter": filter, "dry_run": False, "count": 1, "result": None},
            ).json()
            assert received_post.get("done") == 0, received_post
            assert received_post["refused"][0]["problem"]["status"] == 422
            assert (
                client.post(complete, json={"result": result("h/:kid", results={})}).status_code
                == 200
            )
            assert client.get("/v1/sagas/h/wait").json()["phase"] == "completed"
            # as any compensation
            assert (
                owner.post(f"{path}/steps/room/complete", json={"result": None}).status_code == 200
            )
            assert client.get("/v1/sagas/t/wait").json()["phase"] == "recovered"


def test_archives_hold_parents_and_deadlines(location: str, tmp_path: pathlib.Path) -> None:
    """Of each saga: null if there is none."""
    world = Family()
    world.gate.set()

    async def main() -> None:
        async with sagas.open(location, world.all) as store:
            await (await store.start(world.top, "t", deadline=3600)).wait(60)

    run(main())
    with admin.writing(location) as link:
        shards = [shard for shard, in link.ask("SELECT shard FROM shards")]
        folders = [archive.write(link, shard, tmp_path / "archive") for shard in shards]
    lines = [
        line
        for folder in folders
        if folder
        for line in (folder / "sagas.jsonl").read_text().splitlines()
    ]
    entries = {row["key"]: row for row in map(json.loads, lines)}
    assert {key: row["parent"] for key, row in entries.items()} == {
        "t": None,
        "t/:kid": "t",
        "t/:kid:undo": "t",
    }
    assert (
        entries["t"]["deadline"] == entries["t/:kid"]["deadline"] > entries["t"]["started"]
        and entries["t/:kid:undo"]["deadline"] is None
    )


def test_in_a_simulation() -> None:
    """Steps that an operator left in the saga that undoes the child are not undone again; the
    operator may answer.
    """
    child, top = sagas.Saga("child"), sagas.Saga("top")
    step = child.step(lambda task: 1, name="room", keep=9)
    step.compensation(on_exhausted="fail", tries=1)(lambda task: None)
    kid = top.child(child, name="kid", input=lambda task: 1, on_exhausted="ask", keep=9)
    last = top.step(lambda task: None, name="fin", needs=[kid])
    for answers, state in (({}, "undo_failed"), ({kid: None}, "undone")):
        trial = sagas.testing.run(
            top, fail={last: sagas.Fail("no")}, fail_undo={step: 1}, answers=answers
        )
        assert trial.states["kid"] == state
    trial = sagas.testing.run(
        top, fail={kid: sagas.Retry, last: sagas.Fail}, answers={kid: result(None)}
    )
    assert trial.states["kid"] == "undone" and not trial.children
    world = Hand()
    trial = sagas.testing.run(
        world.top, "fails", answers={world.kid: result("test/:kid"), "sign": sagas.Fail("no")}
    )
    assert trial.states["kid"] == "undone" and world.undone == ["gone test/:kid", "first test/:kid"]
