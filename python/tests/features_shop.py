"""The sagas of a round of `kills_features.py`, as two releases of a program declare them.

A witness outside notes each call of a function: its start, its effect and its end. Whether an
attempt fails is drawn from the key, the step and the attempt only.

The second release differs as the round's options say:

- `added`: `main` and its child have one more step.
- `renamed`: both have a version 2 with a step of another name, next to version 1.
- `typed`: the input and the result of a step have one more field, with a default.
"""

from __future__ import annotations

import asyncio
import dataclasses
import datetime
import json
import os
import pathlib
import random
import threading
import time
from collections.abc import Callable
from typing import Any

from records import urls_of
from witness import Witness
from world import QUICK, Refused, World, chance, failure, unknown_error

import sagas

DEPLOYS = ("added", "renamed", "typed")
LARGE = 700
"""Characters of a large result, which is over the threshold of blobs."""
MARK = "plainly-readable"
"""A part of each input, so that a search finds it wherever no codec encoded it."""
SHORT, LONG = 0.3, 6.0
"""Seconds that sagas wait whose deadline is late, and of those whose deadline is soon."""
MAX_MOVES = 1
"""Concurrent calls of `move` for an account in a program; over all nodes one more."""
EXTERNAL = [("main", "far", "run"), ("main", "far", "undo")]
OPTIONAL = {"mail", "send", "slip"}
"""Steps that are optional in a round with that feature."""
PIVOT = "charge"
"""The step of `main` that is its pivot in a round with that feature."""
WITHOUT_COSTS = ("main", "crate", "lid")
"""The sagas whose costs the package computes in such a round."""


@dataclasses.dataclass(frozen=True)
class Settings:
    """The settings of a round, as its programs read them from a file."""

    options: list[str]
    store: str
    direct: str
    folder: str
    socket: str
    deploy: str
    count: int
    seed: int
    lease: float
    hook: str = ""
    broker: str = ""
    queue: str = ""
    wrong: str = ""
    pooled: str = ""

    @classmethod
    def read(cls, path: str | os.PathLike[str]) -> Settings:
        """Read the settings from a file."""
        return cls(**json.loads(pathlib.Path(path).read_text()))

    def write(self, path: pathlib.Path) -> None:
        """Write the settings for a program."""
        path.write_text(json.dumps(dataclasses.asdict(self)))

    @property
    def is_served(self) -> bool:
        """Return whether the round is over PostgreSQL."""
        return self.store.startswith("postgresql:")

    @property
    def urls(self) -> list[str]:
        """The databases of the store."""
        return urls_of(self.store)

    @property
    def opened(self) -> tuple[str | list[str], str | list[str] | None]:
        """What a node opens, and its `direct_url`: the servers, if it opens poolers before them."""
        store, pooled = (
            urls if len(urls) > 1 else urls[0] for urls in (self.urls, urls_of(self.pooled or "-"))
        )
        return (pooled, store) if self.pooled else (store, None)


@dataclasses.dataclass
class Order:
    """The input of the first release."""

    i: int
    account: str
    items: list[str]
    mark: str


@dataclasses.dataclass
class LaterOrder(Order):
    """The input of the second one."""

    express: bool = False


@dataclasses.dataclass
class Box:
    """A result of the first release."""

    of: list[str]


@dataclasses.dataclass
class LaterBox(Box):
    """The same result of the second one."""

    color: str = "red"


class Scramble:
    """A codec for tests only: it makes texts unreadable."""

    TABLE = bytes(byte ^ 0x5A for byte in range(256))

    def encode(self, data: bytes) -> bytes:
        """Return the stored form."""
        return b"k1:" + data.translate(self.TABLE)

    def decode(self, data: bytes) -> bytes:
        """Return the value."""
        return data.removeprefix(b"k1:").translate(self.TABLE)


def order_of(number: int) -> dict[str, Any]:
    """Return the input of a saga."""
    items = [f"{MARK} {number} {index}" for index in range(number % 4)]
    return {"i": number, "account": f"a{number % 3}", "items": items, "mark": f"{MARK} {number}"}


def of(input: Any, name: str) -> Any:
    """Return a field of an input, as JSON has it or as it is typed."""
    return input[name] if isinstance(input, dict) else getattr(input, name)


def result_of(key: str, step: str) -> Any:
    """Return the result of a step of a saga."""
    draw = chance(f"{key}/{step}/result")
    if step == "pack":
        return {"of": [key, step]}
    if draw < 0.2:
        return None
    return {"of": [key, step], "fill": "x" * (LARGE if draw > 0.6 else 1)}


def labels_of(number: int) -> dict[str, str]:
    """Return the labels of a saga."""
    return {"lot": str(number % 3), "round": "features"}


class Shop:
    """The sagas of one release, over a witness to which each process has its own connection."""

    def __init__(self, settings: Settings, release: int, queue: Any = None) -> None:
        self.settings, self.release, self.queue = settings, release, queue
        self.options = set(settings.options)
        self._line: tuple[int, Witness] | None = None
        self._lock = threading.Lock()
        self.tick = self._tick()
        self.sagas = [self.tick]
        versions = {1: 1 if settings.deploy == "renamed" else release}
        if settings.deploy == "renamed" and release == 2:
            versions[2] = 2
        for version, like in versions.items():
            self.main = self._main(version, like)
        if queue is not None:
            self.post = self._post()
        self.visa = self._visa()
        if self.has("retention"):
            self.sagas.append(self.visa)

    def has(self, option: str) -> bool:
        """Return whether the round has a feature."""
        return option in self.options

    # -- notes for the witness

    def note(self, **what: Any) -> None:
        """Report a note to the witness."""
        with self._lock:
            if self._line is None or self._line[0] != os.getpid():
                self._line = os.getpid(), Witness(self.settings.socket)
        self._line[1].note(at=time.time(), pid=os.getpid(), **what)

    def _begins(self, task: Any, function: str) -> dict[str, Any]:
        call = {
            "key": task.key,
            "step": task.step,
            "kind": "undo" if task.is_compensation else "run",
            "token": task.attempt_id,
            "idempotency_key": task.idempotency_key,
            "call": f"{os.getpid()} {time.monotonic_ns()}",
        }
        more: dict[str, Any] = {"input": plain(task.input)}
        if task.declared_step == "send":
            more["item"] = task.item
        if task.declared_step in ("ship", "deliver") and self.has("optional"):
            more["failure"] = task.failure_of("mail")
        if self.has("context") and not function.startswith("post") and ".far" not in function:
            more["context"] = task.context.id
        if ".move" in function and call["kind"] == "run":
            more["limited"] = of(task.input, "account")
        results = {
            name: plain(value)
            for name, value in World.handed(None, task)["results"].items()  # type: ignore[arg-type]
        }
        if call["kind"] == "undo":
            more |= {"of": task.original_idempotency_key, "result": plain(task.result)}
        self.note(what="begin", function=function, results=results, **more, **call)
        return call

    async def act(self, task: Any, function: str, failing: float, unknown: float) -> Any:
        """Make a call: it starts, fails or has its effect, and its outcome may be unknown."""
        call = self._begins(task, function)
        try:
            await asyncio.sleep(random.uniform(0.0, 0.01))
            return self._does(task, call, failing, unknown)
        finally:
            self.note(what="end", **call)

    def act_in_thread(self, task: Any, function: str, failing: float, unknown: float) -> Any:
        """Make a call of a plain function."""
        call = self._begins(task, function)
        try:
            time.sleep(random.uniform(0.0, 0.01))
            return self._does(task, call, failing, unknown)
        finally:
            self.note(what="end", **call)

    def _does(self, task: Any, call: dict[str, Any], failing: float, unknown: float) -> Any:
        name = f"{task.key}/{task.step}/{call['kind']}/{task.attempt}"
        if task.declared_step == "ask":
            self._fails_at_first(task, call["kind"])
        elif chance(name) < failing:
            raise failure(chance(name) < failing / 4)
        self.note(what="effect", **call)
        if random.random() < unknown:
            raise NameError("a bug") if random.random() < 0.2 else unknown_error()
        return result_of(task.key, task.step)

    def _fails_at_first(self, task: Any, kind: str) -> None:
        """Fail this call if that is drawn; calls fail only before the first one that has
        an effect.
        """
        path = pathlib.Path(self.settings.folder, "fails", task.idempotency_key)
        calls = path.stat().st_size if path.exists() else 0
        if calls < int(chance(f"{task.key}/{kind}/calls") * 6):
            path.parent.mkdir(exist_ok=True)
            with open(path, "ab") as file:
                file.write(b"x")
            raise failure(False)

    def call_end(self, task: Any, version: int) -> Any:
        """Make a call after an end; note the end."""
        end = {
            "phase": task.end.phase,
            "states": task.end.states,
            "results": plain(task.end.results),
        }
        call = {
            "key": f"{task.key}/::end",
            "step": task.step,
            "kind": "run",
            "token": task.attempt_id,
            "idempotency_key": task.idempotency_key,
            "call": f"{os.getpid()} {time.monotonic_ns()}",
        }
        more: dict[str, Any] = {"context": task.context.id} if self._has_context(task) else {}
        function = f"{task.saga}-end.{version}.on_end"
        input = plain(task.input)
        self.note(
            what="begin", function=function, results={}, ended=end, input=input, **more, **call
        )
        try:
            return self._does(task, call, 0.3, 0.1)
        finally:
            self.note(what="end", **call)

    def _has_context(self, task: Any) -> bool:
        return self.has("context") and task.saga != "post"

    def _on_end(self, saga: sagas.Saga, kind: type | None = None, **options: Any) -> None:
        """Declare a function after the ends of a saga, if the round has that feature."""
        if not self.has("on_end"):
            return

        def call(task: Any) -> Any:
            assert kind is None or isinstance(task.input, kind)
            return self.call_end(task, saga.version)

        call.__annotations__ = {"task": sagas.EndTask[kind]} if kind else {}
        saga.on_end(backoff=QUICK, no_effect=(Refused,), **{"tries": 3} | options)(call)

    # -- how sagas are declared

    def step(
        self,
        saga: sagas.Saga,
        name: str,
        *,
        failing: float = 0.05,
        unknown: float = 0.05,
        undo_fails: float = 0.1,
        **options: Any,
    ) -> Any:
        """Declare a step and its compensation."""
        function = f"{saga.name}.{saga.version}.{name}"
        defaults = {**self._costs(saga), "tries": 1, "no_effect": (Refused,)}
        declare = saga.step(name=name, backoff=QUICK, **defaults | options)
        declared = declare(self._function(name, function, failing, unknown))
        undo = self._function(name + "-undo", f"{function}.undo", undo_fails, unknown)
        declared.compensation(tries=3, backoff=QUICK)(undo)
        return declared

    def _costs(self, saga: sagas.Saga, undo: int = 1, keep: int = 9) -> dict[str, int]:
        """Return the costs of a step of a saga; none if a pivot determines them."""
        is_free = self.has("pivot") and saga.name in WITHOUT_COSTS
        return {} if is_free else {"undo": undo, "keep": keep}

    def _function(
        self, name: str, function: str, failing: float, unknown: float
    ) -> Callable[[Any], Any]:
        if chance(name) < 0.5:

            async def call(task: Any) -> Any:
                return await self.act(task, function, failing, unknown)

            return call

        def call_in_thread(task: Any) -> Any:
            return self.act_in_thread(task, function, failing, unknown)

        return call_in_thread

    def _hotel(self, version: int, like: int) -> sagas.Saga:
        """Return the child: two steps, and its own child."""
        hotel = sagas.Saga("hotel", version=version, backoff=QUICK)
        spa = sagas.Saga("spa", version=version, backoff=QUICK)
        self.step(spa, "bath", tries=2)
        first = self.step(hotel, "suite" if version == 2 else "room", tries=2)
        hotel.child(spa, name="rest", input=lambda task: task.input, needs=[first])
        last = self.step(hotel, "key", needs=[first], failing=0.1)
        if like == 2 and version == 1:
            self.step(hotel, "minibar", needs=[last])
        self._on_end(hotel)
        self.sagas += [hotel, spa]
        return hotel

    def _included(self, version: int) -> sagas.Saga:
        """Return the saga that is included, with another one for each item."""
        crate = sagas.Saga("crate", version=version, backoff=QUICK)
        lid = sagas.Saga("lid", version=version, backoff=QUICK)
        self.step(lid, "close")
        fold = self.step(crate, "fold")
        crate.include(lid, for_each=lambda input: [of(input, "i")] * 2, needs=[fold])
        return crate

    def _main(self, version: int, like: int) -> sagas.Saga:
        """Return the saga with the features of the round."""
        has, is_later = self.has, like == 2 and self.settings.deploy == "typed"
        kind, box = (LaterOrder, LaterBox) if is_later else (Order, Box)
        options: dict[str, Any] = {"order": "declared"} if has("ordered") else {}
        if has("fair_by"):
            options["fair_by"] = lambda input: input["account"]
        main = sagas.Saga("main", version=version, input=kind, backoff=QUICK, **options)
        hold = self.step(main, "hold", tries=2)
        needs: list[Any] = [self._pack(main, kind, box, hold)]
        optional = {"optional": True, "failing": 0.4} if has("optional") else {}
        if has("optional"):
            needs.append(self.step(main, "mail", needs=[hold], tries=2, **optional))
        if has("for_each"):
            send = self.step(main, "send", for_each="items", needs=[hold], tries=2, **optional)
            needs.append(send)
        if has("when"):
            needs.append(
                self.step(main, "gift", when=lambda input: of(input, "i") % 3, needs=[hold])
            )
        if has("inclusion"):
            needs.append(main.include(self._included(version), name="crate", needs=[hold]))
        if has("child"):
            hotel = self._hotel(version, 2 if like == 2 and self.settings.deploy == "added" else 1)
            needs.append(
                main.child(
                    hotel,
                    name="stay",
                    needs=[hold],
                    **self._costs(main, 2, 8),
                    input=lambda task: {**order_of(of(task.input, "i")), "i": task.key},
                )
            )
        if has("each"):
            needs.append(self._parts(main, version, hold))
        if has("concurrency_by"):
            fleet = {"fleet_concurrency": MAX_MOVES + 1} if self.settings.is_served else {}
            needs.append(
                self.step(
                    main,
                    "move",
                    concurrency=MAX_MOVES,
                    needs=[hold],
                    concurrency_by=lambda input: of(input, "account"),
                    **fleet,
                )
            )
        if has("external"):
            costs: dict[str, Any] = self._costs(main)
            far = main.step(external=True, name="far", needs=[hold], tries=2, **costs)
            far.compensation(external=True, tries=3)
            needs.append(far)
        if has("early"):
            undo: Any = sagas.NOTHING if has("pivot") else 0
            needs.append(main.step(external=True, name="paper", needs=[hold], undo=undo, tries=1))
        if has("on_exhausted"):
            skip: dict[str, Any] = {} if has("pivot") else {"skip": sagas.NEVER}
            needs.append(self.step(main, "ask", on_exhausted="ask", tries=2, needs=[hold], **skip))
        if has("deadline"):
            wait = main.wait(until=_pause, name="pause", needs=needs, undo=0)
            needs = [wait(self._function("pause", f"main.{version}.pause", 0.0, 0.0))]
        if has("pivot"):
            pivot = self._pivot(main, needs)
            self.step(main, "thank", needs=[pivot], failing=0.2)
            needs = [pivot]
        name = "deliver" if version == 2 else "ship"
        last = self.step(main, name, needs=needs, failing=0.4, tries=2)
        if like == 2 and self.settings.deploy == "added":
            self.step(main, "extra", needs=[last], failing=0.2)
        self._on_end(main, kind)
        self.sagas.append(main)
        return main

    def _pivot(self, main: sagas.Saga, needs: list[Any]) -> Any:
        """Declare the pivot."""
        function = f"main.{main.version}.{PIVOT}"
        options: dict[str, Any] = {"tries": 2, "no_effect": (Refused,), "needs": needs}
        declare = main.step(name=PIVOT, pivot=True, backoff=QUICK, **options)
        return declare(self._function(PIVOT, function, 0.3, 0.05))

    def _parts(self, main: sagas.Saga, version: int, hold: Any) -> Any:
        """Declare a step that starts a child for each item of a list from a result."""
        parcel = sagas.Saga("parcel", version=version, backoff=QUICK)
        self.step(parcel, "load", tries=2)
        self.sagas.append(parcel)

        def items(task: Any) -> list[int]:
            task.result_of(hold)
            return [*range(1 + of(task.input, "i") % 3)]

        def part(task: Any) -> Any:
            return {**order_of(of(task.input, "i")), "i": task.key, "part": task.item}

        return main.child(parcel, name="parts", needs=[hold], for_each=items, input=part)

    def _pack(self, main: sagas.Saga, kind: type, box: type, hold: Any) -> Any:
        """Declare a step whose input and result have types."""
        function = f"main.{main.version}.pack"

        async def pack(task: Any) -> Any:
            assert isinstance(task.input, kind)
            return box(**await self.act(task, function, 0.05, 0.05))

        async def unpack(task: Any) -> None:
            assert isinstance(task.result, box)
            await self.act(task, f"{function}.undo", 0.1, 0.05)

        pack.__annotations__ = {"task": sagas.Task[kind], "return": box}
        unpack.__annotations__ = {"task": sagas.Task[kind]}
        options: dict[str, Any] = {"tries": 1, "no_effect": (Refused,), **self._costs(main)}
        declared = main.step(backoff=QUICK, needs=[hold], **options)(pack)
        declared.compensation(tries=3, backoff=QUICK)(unpack)
        return declared

    def _tick(self) -> sagas.Saga:
        """Return the saga of the schedule."""
        tick = sagas.Saga("tick", backoff=QUICK)
        toll = self.step(tick, "toll", tries=2)
        self.step(tick, "bell", needs=[toll], failing=0.2)
        return tick

    def _visa(self) -> sagas.Saga:
        """Return a saga that waits for an approval, while retention deletes others."""
        visa = sagas.Saga("visa", backoff=QUICK)
        apply = self.step(visa, "apply", tries=2)
        sign = visa.approval(name="sign", needs=[apply])(lambda task: None)
        self.step(visa, "enter", needs=[sign], failing=0.2)
        return visa

    def _post(self) -> sagas.Saga:
        """Return a saga for which Celery workers do two steps."""
        post = sagas.Saga("post", backoff=QUICK)
        options: dict[str, Any] = {"queue": self.queue, "timeout": 4.0}
        stamp = self.step(post, "stamp", tries=2, **options)
        needs = [self.step(post, "bag", needs=[stamp])]
        if self.has("optional"):
            slip = self.step(post, "slip", needs=needs, failing=0.4, optional=True, **options)
            needs.append(slip)
        self.step(post, "carry", needs=needs, failing=0.3, **options)
        self._on_end(post, **options)
        self.sagas.append(post)
        return post


def is_short(number: int) -> bool:
    """Return whether a saga has a deadline that is soon."""
    return number % 3 == 1


def is_erasable(key: str) -> bool:
    """Return whether the operator erases a saga once it has ended: half of them, and no child."""
    return "/:" not in key and chance(f"{key}/erased") < 0.5


def _pause(task: Any) -> datetime.timedelta:
    return datetime.timedelta(seconds=LONG if is_short(of(task.input, "i")) else SHORT)


def plain(value: Any) -> Any:
    """Return a value as JSON has it, without the fields of a later release."""
    if dataclasses.is_dataclass(value) and not isinstance(value, type):
        value = dataclasses.asdict(value)
    if isinstance(value, dict):
        return {
            name: plain(field) for name, field in value.items() if name not in ("express", "color")
        }
    return value
