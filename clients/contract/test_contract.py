"""The behavior of each client and worker at a real service, over both databases. See README.md."""

from __future__ import annotations

import contextlib
import itertools
import json
import time
from collections.abc import Callable, Iterator
from typing import Any

import pytest
from harness import LONG, Driver, commands, languages
from relay import relaying
from server import serving
from serving import Served, error_of, report, take

from sagas.server import auth

PAIR = """format = 2
name = "pair"
[[step]]
name = "a"
undo = 5
keep = 9
tries = 3
[[step]]
name = "b"
needs = ["a"]
undo = "never"
tries = 3
"""
MANNER = "".join(
    f'[step.{step}]\nbackoff = {{ initial = 0.01 }}\nundo_on_exhausted = "fail"\n' for step in "ab"
)
DEFINITIONS = {
    "pair.toml": PAIR,
    "pair.service.toml": MANNER,
    "solo.toml": PAIR.replace("pair", "solo"),
    "solo.service.toml": MANNER,
    "asked.toml": 'format = 2\nname = "asked"\n[[step]]\nname = "sign"\nundo = "never"\n',
    "asked.service.toml": '[step.sign]\nkind = "approval"\n',
}
SHOP = """import sagas
order = sagas.Saga("order")
ship = order.step(external=True, name="ship", for_each="parcels", undo=1, keep=9, skip=2)
ship.compensation(external=True)
order.step(external=True, name="mail", needs=[ship], undo=0)
fair = sagas.Saga("fair")
fair.include(order, name="stall", given=lambda task: {"from": task.key})
def lease(version):
    saga = sagas.Saga("lease", version=version)
    saga.step(external=True, name="sign", undo=0)
    return saga
store = sagas.open("unused.db", [order, fair, lease(1), lease(2)])
"""
"""Sagas whose steps come from their input, and two versions of one."""
ITEMS = [
    "order/ship",
    "order/ship/undo",
    "order/mail",
    "fair/stall/ship",
    "fair/stall/ship/undo",
    "fair/stall/mail",
]
STEPS = ["pair/a", "pair/a/undo", "pair/b"]
SOLO = [step.replace("pair", "solo") for step in STEPS]
"""The same definition twice: all cases share a worker of `pair`, and have their own workers for
`solo`.
"""
TOKENS = {
    "contract": ("operator", None),
    "weak": ("worker", ["pair/a"]),
    "caller": ("caller", None),
}
COUNT = itertools.count()
Json = dict[str, Any]
Make = Callable[[], Driver]
Made = Callable[[str], list[str]]


@pytest.fixture(scope="module")
def tokens() -> dict[str, str]:
    """Return the tokens of the service, which has them from its start on."""
    return {}


@pytest.fixture(scope="session")
def command() -> Iterator[Made]:
    with commands() as made:
        yield made


@pytest.fixture(
    scope="module",
    params=[
        pytest.param(kind, marks=pytest.mark.xdist_group(kind)) for kind in ("sqlite", "postgresql")
    ],
)
def service(
    request: pytest.FixtureRequest, tokens: dict[str, str], tmp_path_factory: pytest.TempPathFactory
) -> Iterator[Served]:
    folder = tmp_path_factory.mktemp("service")
    for name, (role, steps) in TOKENS.items():
        limits = auth.limits_of([role], {} if steps is None else {"steps": list(steps)})
        tokens[name] = auth.make(folder / "tokens.toml", name, [role], limits)
    with contextlib.ExitStack() as stack:
        url = None
        if request.param == "postgresql":
            server = stack.enter_context(serving())
            url = server.create()
        (folder / "shop.py").write_text(SHOP)
        options = ["--token-file", str(folder / "tokens.toml"), "--app", "shop:store"]
        options += ["--log-level", "debug"]  # it shows heartbeats and claims
        service = Served(folder, DEFINITIONS, *options, store=url)
        service.start()
        stack.callback(service.kill)
        yield service


@pytest.fixture(scope="module")
def operator(service: Served, tokens: dict[str, str]) -> str:
    return tokens["contract"]


@pytest.fixture(scope="module", params=languages())
def language(request: pytest.FixtureRequest) -> str:
    chosen: str = request.param
    return chosen


@pytest.fixture(scope="module")
def driver(service: Served, operator: str, language: str, command: Made) -> Iterator[Driver]:
    """Run a driver with a worker, for many cases."""
    with contextlib.ExitStack() as stack:
        driver = driven(stack, service, operator, language, command)
        work(driver, service.url, operator, "main")
        yield driver
        driver.end()


@pytest.fixture
def make(service: Served, operator: str, language: str, command: Made) -> Iterator[Make]:
    """Return a function that starts drivers; they are killed after their case."""
    with contextlib.ExitStack() as stack:
        yield lambda: driven(stack, service, operator, language, command)


def driven(
    stack: contextlib.ExitStack,
    service: Served,
    operator: str | None,
    language: str,
    command: Made,
) -> Driver:
    driver = Driver(command(language))
    stack.callback(driver.kill)
    assert driver.ask("open", url=service.url, token=operator) == {"language": language}
    return driver


def work(
    driver: Driver, url: str | list[str], token: str | None, name: str, **options: Any
) -> None:
    options = {"steps": STEPS, "concurrency": 4, "lease": 30, "wait": 5, **options}
    assert driver.ask("worker", worker=name, url=url, token=token, **options) == {}


def fresh(word: str = "k") -> str:
    return f"{word}-{next(COUNT)}"


def script(*outcomes: str, **more: list[str]) -> Json:
    """Return an input: the behavior of `a`, and that of the other steps."""
    return {
        "script": {
            "a": list(outcomes),
            **{name.replace("_", "/"): done for name, done in more.items()},
        }
    }


def played(driver: Driver, value: Any, key: str | None = None) -> Json:
    """Run a saga of `pair` from its start to its end."""
    key = key or fresh()
    started = driver.ask("start", definition="pair", key=key, input=value)
    assert started == {"key": key, "version": 1, "new": True}
    end: Json = driver.ask("wait", key=key, timeout=LONG)
    assert end["over"] and end["key"] == key and end["input"] == value
    return end


DONE = {"a": {"done": "a"}, "b": {"done": "b"}}


def test_outcomes(driver: Driver, language: str) -> None:
    """Check returned, failed, retried and unknown attempts: the calls of each function, their keys,
    and the end of the saga.
    """
    unknowns = ["unknown", "timeout", "refused", *(["throw"] if language != "python" else [])]
    cases: dict[str, tuple[Json, str, int, int, int]] = {
        "ok": (script("ok"), "completed", 1, 1, 0),
        "nothing": (script("nothing", b=["nothing"]), "completed", 1, 1, 0),
        "fail": (script("fail"), "recovered", 1, 0, 0),
        "retry": (script("retry", "retry", "ok"), "completed", 3, 1, 0),
        "exhausted": (script("retry"), "recovered", 3, 0, 0),
        "unknown": (script(*unknowns, "ok"), "completed", 1 + len(unknowns), 1, 0),
        "undone": (script("ok", b=["fail"]), "recovered", 1, 1, 1),
        "undone at last": (
            script("ok", b=["retry"], a_undo=["unknown", "ok"]),
            "recovered",
            1,
            3,
            2,
        ),
    }
    keys = {name: fresh("outcome") for name in cases}
    for name, (value, *_) in cases.items():
        driver.ask("start", definition="pair", key=keys[name], input=value)
    for name, (_, phase, of_a, of_b, of_undo) in cases.items():
        key, end = keys[name], driver.ask("wait", key=keys[name], timeout=LONG)
        called = [driver.calls(key, step) for step in ("pair/a", "pair/b", "pair/a/undo")]
        assert (end["phase"], *map(len, called)) == (phase, of_a, of_b, of_undo), (name, end)
        for calls in called:
            assert len({call["idempotency_key"] for call in calls}) == min(1, len(calls)), name
        if of_b:
            assert called[1][0]["results"] == {"a": None if name == "nothing" else {"done": "a"}}
        if of_undo:
            assert all(
                attempt["undo"] and attempt["result"] == {"done": "a"} for attempt in called[2]
            )
            assert end["states"] == {"a": "undone", "b": "failed"} and end["results"] == {}
        if name == "fail":
            assert end["states"]["a"] == "failed" and "no" in end["errors"]["a"]
        if name == "ok":
            assert end["results"] == DONE and end["states"] == {"a": "committed", "b": "committed"}
        if name == "nothing":
            assert end["results"] == {"a": None, "b": None}


def nested(depth: int) -> Any:
    value: Any = "core"
    for _ in range(depth):
        value = [value]
    return value


ODD = [
    "",
    'ünïcödé \u2028 \U0001f600 \x00 \x7f "quoted" \\ back',
    2**53 + 1,
    -(2**70),
    0.1,
    1e300,
    -0.5,
    True,
    None,
    [],
    {},
    {"": {"ß/~": [1, [2, {"x": None}]]}},
    "9007199254740993",
    "1" * 40,
    nested(60),
    {"bigint:": 12345678901234567890},
    [1234567890123456789, '\\"1234567890123456789'],
    "y" * 900_000,
]


def test_items(driver: Driver, service: Served, operator: str) -> None:
    """A task has its declared step, and its item with number and key; so have its compensation, and
    a task of an included saga, which has its own input.
    """
    work(driver, service.url, operator, "items", steps=ITEMS)
    listed, keyed, fair = fresh("items"), fresh("items"), fresh("items")
    order = {"script": {"ship-0": ["ok"], "mail": ["fail"]}, "parcels": [{"to": "Rome"}, 7]}
    assert driver.ask("start", definition="order", key=listed, input=order)["new"]
    assert driver.ask("wait", key=listed, timeout=LONG)["phase"] == "recovered"
    calls = {call["step"]: call for call in driver.calls(listed, "order/ship")}
    assert {
        (call["declared_step"], call["index"], call["item_key"]) for call in calls.values()
    } == {
        ("ship", 0, None),
        ("ship", 1, None),
    }
    assert (calls["ship-0"]["item"], calls["ship-1"]["item"], calls["ship-1"]["given"]) == (
        {"to": "Rome"},
        7,
        None,
    )
    (mail,) = driver.calls(listed, "order/mail")
    assert mail["results"]["ship"] == [{"done": "ship-0"}, {"done": "ship-1"}]
    assert (mail["declared_step"], mail["index"], mail["item_key"], mail["item"]) == (
        "mail",
        None,
        None,
        None,
    )
    order = {"script": {"ship-1": ["fail"]}, "parcels": {"a b": 1, "c/ü": [2]}}
    assert driver.ask("start", definition="order", key=keyed, input=order)["new"]
    assert driver.ask("wait", key=keyed, timeout=LONG)["phase"] == "recovered"
    items = {
        (call["index"], call["item_key"]): call["item"]
        for call in driver.calls(keyed, "order/ship")
    }
    assert items == {(0, "a b"): 1, (1, "c/ü"): [2]}
    assert driver.ask("start", definition="fair", key=fair, input={"script": {}, "parcels": ["x"]})[
        "new"
    ]
    assert driver.ask("wait", key=fair, timeout=LONG)["phase"] == "completed"
    (call,) = driver.calls(fair, "fair/stall/ship")
    assert (call["step"], call["declared_step"], call["item"]) == (
        "stall-ship-0",
        "stall/ship",
        "x",
    )
    assert call["given"] == {"from": fair}
    driver.ask("stop", worker="items")


def test_inputs(driver: Driver) -> None:
    """A value is the same as input, as result, and in the results that the next step needs."""
    keys = [fresh("odd/ü %\U0001f600") for _ in ODD]
    for key, value in zip(keys, ODD):
        order = {"script": {"a": ["echo"], "b": ["echo"]}, "value": value}
        driver.ask("start", definition="pair", key=key, input=order)
        assert not driver.ask("start", definition="pair", key=key, input=order)["new"]
    for key, value in zip(keys, ODD):
        end = driver.ask("wait", key=key, timeout=LONG)
        assert end["results"] == {"a": value, "b": value} and end["input"]["value"] == value, key
        assert json.dumps(end["results"]["a"]) == json.dumps(value)
        assert driver.calls(key, "pair/b")[0]["results"] == {"a": value}
    for value in (None, 7, "text", [1]):
        end = played(driver, value)
        assert end["results"] == {"a": value, "b": value}


def test_trace_contexts(driver: Driver) -> None:
    """Each function gets the trace context of the start, also a compensation.

    The client refuses an invalid one before it sends anything.
    """
    trace = "00-0af7651916cd43dd8448eb211c80319c-b7ad6b7169203331-01"
    value = script("ok", b=["fail"])
    for header in (trace, None):
        key, more = fresh("trace"), {} if header is None else {"traceparent": header}
        driver.ask("start", definition="pair", key=key, input=value, **more)
        assert driver.ask("wait", key=key, timeout=LONG)["phase"] == "recovered"
        calls = [call for step in STEPS for call in driver.calls(key, step)]
        assert [call["traceparent"] for call in calls] == [header] * 3
    for wrong in ("00-1", trace.replace("0af7", "0AF7"), f"ff{trace[2:]}", f"{trace}\r\nx: y"):
        arguments = {
            "definition": "pair",
            "key": fresh("trace"),
            "input": value,
            "traceparent": wrong,
        }
        assert driver.refused("start", **arguments) == "InvalidArgument"
        assert driver.refused("get", key=arguments["key"]) == "NoSuchSaga"


def test_big_results(driver: Driver, language: str) -> None:
    """A result of a megabyte is stored; a step whose result is refused is done all the same."""
    end = played(driver, script("big", b=["huge"]))
    assert end["results"]["a"] == {"text": "x" * 1_000_000}
    assert end["phase"] == "completed" and list(end["results"]["b"]) == ["unstorable"]


def test_callers(driver: Driver, service: Served) -> None:
    """Check each call of a caller, and the errors by their names."""
    ask, refused = driver.ask, driver.refused
    key, labels = fresh("call"), {"customer": fresh("c"), "ü": "ß=1"}
    start = {"definition": "asked", "key": key, "input": {"n": 1}, "labels": labels}
    assert ask("start", **start)["new"] and not ask("start", **start)["new"]
    assert refused("start", **start | {"input": {"n": 2}}) == "KeyConflict"
    assert refused("start", definition="none", key=fresh(), input=None) == "NoSuchDefinition"
    assert refused("start", definition="asked", key="a\nb", input=None) == "InvalidKey"
    assert refused("get", key="none") == refused("wait", key="none", timeout=1) == "NoSuchSaga"
    assert (
        refused("abort", key="none")
        == refused("complete", key="none", step="sign", result=1)
        == "NoSuchSaga"
    )
    assert refused("wait", key=key, timeout=0.05) == "Timeout"
    saga = ask("get", key=key)
    assert (saga["phase"], saga["over"], saga["definition"], saga["input"]) == (
        "open",
        False,
        "asked",
        {"n": 1},
    )
    assert refused("complete", key=key, step="none", result=1) == "StepNotWaiting"
    waiting = driver.send("wait", key=key, timeout=LONG)
    assert ask("complete", key=key, step="sign", result={"by": "Ada"}, note="seen") == {}
    assert ask("complete", key=key, step="sign", result={"by": "Ada"}) == {}
    assert refused("complete", key=key, step="sign", result={"by": "Bob"}) in (
        "ConflictingReport",
        "StepNotWaiting",
    )
    end = waiting.result(LONG)
    assert end["phase"] == "completed" and end["results"] == {"sign": {"by": "Ada"}}
    assert ask("abort", key=key) == {"aborted": False}

    failed = fresh("call")
    ask("start", definition="asked", key=failed, input=None, labels=labels)
    ask("fail", key=failed, step="sign", error="too ünusual")
    end = ask("wait", key=failed, timeout=LONG)
    assert end["phase"] == "recovered" and "too ünusual" in end["errors"]["sign"]

    aborted = fresh("call")
    ask("start", definition="asked", key=aborted, input=None, deadline=3600)
    assert ask("abort", key=aborted, note="no more") == {"aborted": True}
    assert ask("wait", key=aborted, timeout=LONG)["aborted"]

    rest = [fresh("listed") for _ in range(5)]
    for listed in rest:
        ask("start", definition="asked", key=listed, input=None, labels=labels)
    assert (
        ask("list", page=2, definition="asked", labels=labels, phase="open")["keys"] == rest[::-1]
    )
    assert ask("list", page=100, labels=labels)["keys"] == [*rest[::-1], failed, key]
    assert ask("list", page=100, search=rest[0])["keys"] == [rest[0]]
    assert ask("list", page=100, labels={"customer": "nobody"})["keys"] == []
    assert refused("list", page=0) in ("InvalidRequest", "InvalidArgument")


def test_decisions(driver: Driver) -> None:
    """A caller lists who decided what, page by page, with each filter."""
    ask, keys = driver.ask, [fresh("decided") for _ in range(3)]
    for key in keys:
        ask("start", definition="asked", key=key, input=None)
        ask("complete", key=key, step="sign", result=1, note=f"ünusual {key}")
        ask("wait", key=key, timeout=LONG)
    ask("start", definition="asked", key=keys[0] + "-2", input=None)
    ask("abort", key=keys[0] + "-2")
    for page in (1, 100):
        listed = ask("decisions", page=page, definition="asked", decision="complete")["decisions"]
        decided = [entry for entry in listed if entry["sagas"][0]["key"] in keys]
        assert [entry["note"] for entry in decided] == [f"ünusual {key}" for key in keys[::-1]]
        assert [entry["number"] for entry in listed] == sorted(
            (entry["number"] for entry in listed), reverse=True
        )
    (entry,) = ask("decisions", page=10, key=keys[0])["decisions"]
    saga = {"key": keys[0], "definition": "asked", "step": "sign", "undo": False, "answer": "done"}
    assert entry["sagas"] == [saga] and entry["at"] and entry["via"] == "http"
    assert not entry["bulk"] and entry["subject"] is None and entry["by"]
    (entry,) = ask("decisions", page=10, key=keys[0] + "-2", decision="abort")["decisions"]
    assert entry["sagas"][0]["step"] is None and entry["note"] is None
    assert ask("decisions", page=10, key="none")["decisions"] == []
    assert driver.refused("decisions", page=10, decision="none") in (
        "InvalidRequest",
        "InvalidArgument",
    )


@pytest.fixture(scope="module")
def several(tmp_path_factory: pytest.TempPathFactory) -> Iterator[Served]:
    """Run a service over two databases, without tokens."""
    with contextlib.ExitStack() as stack:
        server = stack.enter_context(serving())
        store = ",".join(server.create() for _ in range(2))
        service = Served(tmp_path_factory.mktemp("several"), DEFINITIONS, store=store)
        service.start()
        stack.callback(service.kill)
        yield service


@pytest.mark.xdist_group("postgresql")
def test_several_databases(several: Served, language: str, command: Made) -> None:
    """A client and a worker need no change: lists have pages of both, and tasks are of both."""
    keys = [fresh(f"several-{language}") for _ in range(6)]
    with contextlib.ExitStack() as stack:
        driver = driven(stack, several, None, language, command)
        ask = driver.ask
        work(driver, several.url, None, f"several-{language}")
        for key in keys:
            ask("start", definition="asked", key=key, input=None)
            ask("complete", key=key, step="sign", result=1)
            ask("wait", key=key, timeout=LONG)
        listed = ask("list", page=2, search=f"several-{language}")["keys"]
        assert listed == keys[::-1]
        entries = ask("decisions", page=1, definition="asked")["decisions"]
        decided = [entry["sagas"][0]["key"] for entry in entries]
        assert [key for key in decided if key in keys] == keys[::-1]
        for _ in range(4):
            played(driver, script("ok"))
        driver.end()


def test_versions(driver: Driver) -> None:
    """The version of a saga is asked for, and shown. A key keeps the version that it has."""
    ask, refused = driver.ask, driver.refused
    old, new, labels = fresh("version"), fresh("version"), {"run": fresh("v")}
    start = {"definition": "lease", "key": old, "input": None, "labels": labels}
    assert ask("start", **start, version=1)["version"] == 1
    assert ask("start", **start) == {"key": old, "version": 1, "new": False}
    assert ask("start", **start | {"key": new}) == {"key": new, "version": 2, "new": True}
    assert refused("start", **start, version=2) == "KeyConflict"
    assert refused("start", **start | {"key": fresh()}, version=3) == "NoSuchDefinition"
    assert (ask("get", key=old)["version"], ask("get", key=new)["version"]) == (1, 2)
    listed = ask("list", page=1, labels=labels)
    assert listed == {"keys": [new, old], "versions": [2, 1]}


def test_rights(make: Make, service: Served, tokens: dict[str, str]) -> None:
    """If a token is wrong or too weak, callers get the error, and a worker ends with it."""
    driver, url = make(), service.url
    weak, caller = tokens["weak"], tokens["caller"]
    for wrong in ("sagas_wrong", None):
        driver.ask("open", url=url, token=wrong)
        assert driver.refused("start", definition="pair", key=fresh(), input=None) == "Unauthorized"
        assert driver.refused("events") == "Unauthorized"
    driver.ask("open", url=url, token=weak)
    assert driver.refused("get", key="none") == "Forbidden"
    driver.ask("open", url=url, token=caller)
    key = fresh()
    assert driver.ask("start", definition="asked", key=key, input=None)["new"]
    assert driver.refused("complete", key=key, step="sign", result=None) == "Forbidden"
    for name, value in {
        "wrong": "sagas_wrong",
        "none": None,
        "caller": caller,
        "weak": weak,
    }.items():
        work(driver, url, value, name)
        (ended,) = driver.heard("worker_ended", worker=name)
        assert ended["error"]["name"] == (
            "Forbidden" if name in ("caller", "weak") else "Unauthorized"
        )
    work(driver, url, weak, "one", steps=["pair/a"])
    driver.ask("stop", worker="one")
    assert (
        driver.refused(
            "worker",
            worker="x",
            url="nowhere",
            token=None,
            steps=STEPS,
            concurrency=1,
            lease=1,
            wait=1,
        )
        == "InvalidArgument"
    )


def test_events(make: Make, service: Served) -> None:
    """Events come in order, of the requested saga.

    After a restart the stream reports that some are missed, and continues.
    """
    driver, key = make(), fresh("event")
    driver.ask("events", key=key)
    driver.ask("start", definition="asked", key=fresh(), input=None)
    driver.ask("start", definition="asked", key=key, input=None)
    driver.heard("event")
    service.kill()
    service.start()
    driver.heard("missed")
    driver.ask("complete", key=key, step="sign", result=1)

    def names() -> list[str]:
        return [note["event"]["name"] for note in driver.notes if note["note"] == "event"]

    while "saga_ended" not in names():
        driver.heard("event", len(names()) + 1)
    assert names()[0] == "saga_started" and names()[-1] == "saga_ended"
    assert {event["event"]["key"] for event in driver.heard("event")} == {key}
    driver.ask("events_stop")


def test_restart_of_the_service(make: Make, service: Served, operator: str) -> None:
    """The service is killed while functions run and callers wait, and is down for their reports.

    All of them are repeated, and each function ran once.
    """
    driver = make()
    work(driver, [service.url], operator, "w", steps=SOLO)
    keys = [fresh("restart") for _ in range(4)]
    for key in keys:
        driver.ask("start", definition="solo", key=key, input=script("hold"))
    for key in keys:
        driver.heard("called", key=key)
    waits = [driver.send("wait", key=key, timeout=LONG) for key in keys]
    service.kill()
    for key in keys:
        driver.ask("release", key=key, step="a")
    late = driver.send(
        "start", definition="solo", key=(last := fresh("restart")), input=script("ok")
    )
    service.start()
    assert late.result(LONG)["key"] == last
    for key, wait in zip([*keys, last], [*waits, driver.send("wait", key=last, timeout=LONG)]):
        assert wait.result(LONG)["results"] == DONE
        assert len(driver.calls(key, "solo/a")) == len(driver.calls(key, "solo/b")) == 1
    driver.ask("stop", worker="w")


def test_lost_answers(make: Make, service: Served, operator: str) -> None:
    """The reply to a start, to a claim and to each kind of report is lost: the request is repeated,
    and counts once.
    """
    host, _, port = service.address.rpartition(":")
    with relaying(int(port), host=host) as relay:
        driver, url = make(), f"http://127.0.0.1:{relay.port}"
        driver.ask("open", url=url, token=operator)
        for word, value in {
            "/v1/sagas HTTP": script("ok"),
            "/complete": script("ok"),
            "/fail": script("retry", "ok"),
            "/unknown": script("unknown", "ok"),
            "/claim": script("ok"),
        }.items():
            key = fresh("lost")
            relay.mark = word.encode() if word == "/v1/sagas HTTP" else None
            work(driver, url, operator, key, steps=SOLO, lease=3, wait=1)
            relay.mark = word.encode()
            driver.ask("start", definition="solo", key=key, input=value)
            end = driver.ask("wait", key=key, timeout=LONG)
            assert end["results"] == DONE and relay.mark is None, word
            assert len(driver.calls(key, "solo/a")) == (
                2 if "ok" in value["script"]["a"][1:] else 1
            ), word
            driver.ask("stop", worker=key)


def test_a_stopped_service(make: Make, service: Served, operator: str) -> None:
    """A stopped service costs no lease: the next service gets a heartbeat and an outcome while the
    lease lasts.
    """
    host, _, port = service.address.rpartition(":")
    driver, runs, ends = make(), fresh("still"), fresh("still")
    with contextlib.ExitStack() as stack:
        for key, word in ((runs, b"/heartbeat"), (ends, b"/complete")):
            relay = stack.enter_context(relaying(int(port), host=host))
            urls = [f"http://127.0.0.1:{relay.port}", service.url]
            work(driver, urls, operator, key, steps=SOLO, concurrency=1, lease=8, wait=1)
            driver.ask("start", definition="solo", key=key, input=script("hold"))
            driver.heard("called", key=key, worker=key)
            relay.still = word
        client = stack.enter_context(service.client(operator))
        beats = service.log_text().count("/heartbeat 200")
        driver.ask("release", key=ends, step="a")
        while service.log_text().count("/heartbeat 200") == beats:
            assert take(client, "solo/a", wait=0.2) == []  # the task of a lease that has ended
        driver.ask("release", key=runs, step="a")
        for key in (runs, ends):
            assert driver.ask("wait", key=key, timeout=LONG)["results"] == DONE
            assert len(driver.calls(key, "solo/a")) == 1


def test_lost_lease(make: Make, service: Served, operator: str) -> None:
    """A worker is stopped past its lease, and another one has the task.

    The function is notified, and its report counts for nothing.
    """
    driver = make()
    work(driver, service.url, operator, "w", steps=["solo/a"], lease=1, concurrency=2)
    key, done = fresh("lease"), fresh("lease")
    for saga_key, word in ((key, "hold"), (done, "deaf")):
        driver.ask("start", definition="solo", key=saga_key, input=script(word))
    for saga_key in (key, done):
        driver.heard("called", key=saga_key)
    with service.client(operator) as client:
        with driver.paused():
            tasks = {}
            while len(tasks) < 2:
                tasks |= {task["key"]: task for task in take(client, "solo/a", lease=LONG, limit=2)}
        driver.heard("canceled", key=key, why="lease")
        # `complete` counts under any lease that was issued
        driver.ask("release", key=done, step="a")
        theirs = driver.calls(done, "solo/a")[0]
        assert tasks[done]["idempotency_key"] == theirs["idempotency_key"]
        assert report(client, tasks[key], result={"done": "a"}).status_code == 200
        rest = {}
        while len(rest) < 2:
            rest |= {task["key"]: task for task in take(client, "solo/b", limit=2)}
        answer = report(client, tasks[done], result={"done": "another"})
        assert answer.status_code == 409 and error_of(answer) in ("ConflictingReport", "LeaseLost")
        for b in rest.values():
            assert report(client, b, result={"done": "b"}).status_code == 200
    for saga_key in (key, done):
        assert driver.ask("wait", key=saga_key, timeout=LONG)["results"] == DONE
    driver.ask("stop", worker="w")


def test_abort_while_a_function_runs(make: Make, service: Served, operator: str) -> None:
    """A heartbeat reports that the saga is to be undone, and the function reports that it had no
    effect. A function that does not listen is undone.
    """
    driver = make()
    work(driver, service.url, operator, "w", steps=SOLO, lease=4)
    listens, deaf = fresh("abort"), fresh("abort")
    for key, word in ((listens, "hold"), (deaf, "deaf")):
        driver.ask("start", definition="solo", key=key, input=script(word))
    for key in (listens, deaf):
        driver.heard("called", key=key)
        assert driver.ask("abort", key=key) == {"aborted": True}
    driver.heard("canceled", key=listens, why="abort")
    driver.ask("release", key=deaf, step="a")
    for key, states in ((listens, ("failed", "waiting")), (deaf, ("undone",))):
        end = driver.ask("wait", key=key, timeout=LONG)
        assert (end["phase"], end["aborted"]) == ("recovered", True) and end["states"][
            "a"
        ] in states
        assert (
            len(driver.calls(key, "solo/a/undo")) == ("undone" in states)
            and driver.calls(key, "solo/b") == []
        )
    driver.ask("stop", worker="w")


def test_an_abort_cancels_once(make: Make, service: Served, operator: str) -> None:
    """A function whose outcome is unknown then is called again, to find out: its heartbeats do not
    cancel it again.
    """
    driver, key = make(), fresh("doubt")
    work(driver, service.url, operator, "w", steps=SOLO, lease=4)
    driver.ask("start", definition="solo", key=key, input=script("doubt"))
    driver.heard("called", key=key)
    driver.ask("abort", key=key)
    driver.heard("canceled", key=key, why="abort")
    driver.heard("called", 2, key=key)
    beats, until = service.log_text().count("/heartbeat 200"), time.monotonic() + LONG
    while service.log_text().count("/heartbeat 200") < beats + 3 and time.monotonic() < until:
        time.sleep(0.1)
    driver.ask("release", key=key, step="a")
    assert driver.ask("wait", key=key, timeout=LONG)["states"]["a"] == "undone"
    assert len(driver.heard("canceled", key=key)) == 1 and len(driver.calls(key, "solo/a")) == 2
    driver.ask("stop", worker="w")


def test_killed_worker(make: Make, service: Served, operator: str) -> None:
    """A worker is killed with SIGKILL: when its leases have ended, another one does the tasks with
    the same idempotency keys.
    """
    first, second = make(), make()
    work(first, service.url, operator, "first", steps=SOLO, lease=1)
    keys = [fresh("kill") for _ in range(3)]
    for key in keys:
        first.ask("start", definition="solo", key=key, input=script("hold"))
    calls = {key: first.heard("called", key=key)[0] for key in keys}
    first.kill()
    for key in keys:
        second.ask("release", key=key, step="a")
    work(second, service.url, operator, "second", steps=SOLO)
    for key in keys:
        assert second.ask("wait", key=key, timeout=LONG)["results"] == DONE
        (again,) = second.calls(key, "solo/a")
        assert again["idempotency_key"] == calls[key]["idempotency_key"]
    second.ask("stop", worker="second")


def test_a_claim_that_is_answered_at_a_stop(make: Make, service: Served, operator: str) -> None:
    """The reply is in transit while the worker is stopped: its task is released, however long its
    lease is.
    """
    host, _, port = service.address.rpartition(":")
    with relaying(int(port), host=host) as relay, service.client(operator) as client:
        driver, key = make(), fresh("claim")
        work(driver, f"http://127.0.0.1:{relay.port}", operator, "w", steps=["solo/a"], lease=3600)
        relay.still = b'"attempt_id"'
        driver.ask("start", definition="solo", key=key, input=script("ok"))
        assert relay.stands.wait(LONG)
        stopped = driver.send("stop", worker="w")
        # the requests sent before are in transit
        assert driver.ask("get", key=key)["phase"] == "open"
        relay.go_on()
        assert stopped.result(LONG) == {}
        for step in ("a", "b"):
            (task,) = take(client, f"solo/{step}")
            assert (
                task["key"] == key
                and report(client, task, result={"done": step}).status_code == 200
            )
        assert (
            driver.ask("wait", key=key, timeout=LONG)["results"] == DONE
            and driver.calls(key, "solo/a") == []
        )


def test_an_idle_stop_is_quick(make: Make, service: Served, operator: str) -> None:
    """The claim that waits at the service ends with its worker, and later tasks go to other
    workers.
    """
    driver, key, claim = make(), fresh("idle"), "/v1/tasks/claim 200"
    before = service.log_text().count(claim)
    work(driver, service.url, operator, "idle", steps=["solo/a"], wait=30)
    until = time.monotonic() + LONG
    # the first one, which does not wait
    while service.log_text().count(claim) == before and time.monotonic() < until:
        time.sleep(0.1)
    assert driver.send("stop", worker="idle").result(20) == {}
    driver.ask("start", definition="solo", key=key, input=script("ok"))
    with service.client(operator) as client:
        for step in ("a", "b"):
            (task,) = take(client, f"solo/{step}")
            assert (task["key"], report(client, task, result={"done": step}).status_code) == (
                key,
                200,
            )
    assert driver.ask("wait", key=key, timeout=LONG)["results"] == DONE


def test_long_functions_and_a_stop(make: Make, service: Served, operator: str) -> None:
    """A lease is kept while a function runs.

    A worker that is asked to end reports it, and releases tasks that have not started.
    """
    driver = make()
    work(driver, service.url, operator, "w", steps=["solo/a"], concurrency=1, lease=3)
    keys = [fresh("stop") for _ in range(3)]
    driver.ask("start", definition="solo", key=keys[0], input=script("hold"))
    driver.heard("called", key=keys[0])
    with service.client(operator) as client:
        assert take(client, "solo/a", wait=6.6) == []  # longer than two leases
        for key in keys[1:]:
            driver.ask("start", definition="solo", key=key, input=script("ok"))
        stopped = driver.send("stop", worker="w")
        released: set[str] = set()
        while released != set(keys[1:]):
            for task in take(client, "solo/a", limit=2):
                assert report(client, task, result={"done": "a"}).status_code == 200
                released.add(task["key"])
        assert not stopped.done()
        driver.ask("release", key=keys[0], step="a")
        assert stopped.result(LONG) == {}
        for _ in keys:
            (task,) = take(client, "solo/b")
            assert report(client, task, result={"done": "b"}).status_code == 200
    for key in keys:
        assert driver.ask("wait", key=key, timeout=LONG)["results"] == DONE
        assert len(driver.calls(key, "solo/a")) == (1 if key == keys[0] else 0)
