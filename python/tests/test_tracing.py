"""Trace contexts are stored and passed on.

With OpenTelemetry's API, each attempt has a span, within which its function runs.
"""

from __future__ import annotations

import asyncio
import importlib
import pathlib
import sys
import threading
from collections.abc import Iterator
from typing import Any

import httpx
import pytest
import sagas
import sagas.testing
from cases import Task, run
from sagas.core.attempt.external_work import Order
from sagas.definition import tracing
from sagas.runtime.calls import Calls
from serving import Served, served, take

HERE = pathlib.Path(__file__).resolve().parent
TRACE, PARENT = "0af7651916cd43dd8448eb211c80319c", "b7ad6b7169203331"
TRACEPARENT = f"00-{TRACE}-{PARENT}-01"
MODULES = ("opentelemetry", "opentelemetry.trace")


@pytest.fixture
def api(monkeypatch: pytest.MonkeyPatch) -> Iterator[Any]:
    """Install OpenTelemetry's API, as if it is installed next to the package."""
    monkeypatch.syspath_prepend(HERE / "opentelemetry_api")
    for name in MODULES:
        monkeypatch.delitem(sys.modules, name, raising=False)
    yield importlib.import_module("opentelemetry.trace")
    for name in MODULES:
        sys.modules.pop(name, None)


@pytest.fixture
def without(monkeypatch: pytest.MonkeyPatch) -> None:
    """Remove it."""
    for name in MODULES:
        monkeypatch.setitem(sys.modules, name, None)  # type: ignore[arg-type]


def span_of(api: Any, name: str) -> Any:
    """Return the span of this name."""
    (matched,) = [span for span in api.ENDED if span.name == name]
    return matched


def context_of(span: Any) -> str:
    context = span.get_span_context()
    return f"00-{context.trace_id:032x}-{context.span_id:016x}-{int(context.trace_flags):02x}"


# -- the standard


@pytest.mark.parametrize(
    "text, read",
    [
        (TRACEPARENT, TRACEPARENT),
        (f" {TRACEPARENT}\t", TRACEPARENT),
        (TRACEPARENT[:-2] + "00", TRACEPARENT[:-2] + "00"),
        (
            TRACEPARENT[:-2] + "ff",
            TRACEPARENT[:-2] + "03",
        ),  # flags that the standard does not know are not passed on
        (f"cc-{TRACE}-{PARENT}-01", TRACEPARENT),  # of a later version the known parts are read
        (f"cc-{TRACE}-{PARENT}-01-what-follows", TRACEPARENT),
        (f"cc-{TRACE}-{PARENT}-01.what-follows", None),
        (f"ff-{TRACE}-{PARENT}-01", None),
        (TRACEPARENT + "-more", None),
        (TRACEPARENT.upper(), None),
        (TRACEPARENT.replace(TRACE, "0" * 32), None),
        (TRACEPARENT.replace(PARENT, "0" * 16), None),
        (TRACEPARENT[:-1], None),
        (f"{TRACEPARENT},{TRACEPARENT}", None),
        (f"{TRACEPARENT}\n", None),
        ("", None),
    ],
)
def test_a_header_is_read_as_the_standard_has_it(text: str, read: str | None) -> None:
    """https://www.w3.org/TR/trace-context: versions, flags, and invalid headers."""
    assert tracing.read(text) == read
    if read is None:
        with pytest.raises(ValueError, match="must be a W3C trace context"):
            tracing.checked(text)
    else:
        assert tracing.checked(text) == read


# -- without the API


def hearing(heard: list[str | None], **options: Any) -> sagas.Saga:
    """Return a saga whose step returns the context that it got."""
    saga = sagas.Saga("one")

    @saga.step(**options)
    async def a(task: Task) -> None:
        heard.append(task.traceparent)

    return saga


def test_without_the_api_a_context_is_kept(location: str, without: None) -> None:
    """Functions get it; of a repeated start the first one counts; an invalid one is refused before
    anything is written.
    """
    heard: list[str | None] = []
    saga = hearing(heard)

    async def main() -> None:
        assert tracing.tracer() is None
        async with sagas.open(location, [saga]) as store:
            for key, traceparent in (("with", TRACEPARENT), ("without", None)):
                await (await store.start(saga, key, traceparent=traceparent)).wait(60)
            again = await store.start(
                saga, "with", traceparent=TRACEPARENT.replace(PARENT, "1" * 16)
            )
            assert not again.new
            for wrong, error in (("00-1", ValueError), (7, TypeError)):
                with pytest.raises(error, match="traceparent"):
                    await store.start(saga, "wrong", traceparent=wrong)  # type: ignore[arg-type]
            assert await store.get("wrong") is None

    run(main())
    assert heard == [TRACEPARENT, None]


def test_a_context_outlives_the_program(location: str, without: None) -> None:
    """Another program that continues the saga has it from the store."""
    heard: list[str | None] = []
    saga = sagas.Saga("later")
    review = saga.approval(name="asked")(lambda task: None)
    saga.step(name="a", needs=[review])(lambda task: heard.append(task.traceparent))

    async def main() -> None:
        async with sagas.open(location, [saga]) as store:
            await store.start(saga, "k", traceparent=TRACEPARENT)
        heard.append("the second program")
        async with sagas.open(location, [saga]) as store:
            await store.complete("k", "asked")
            await store.wait("k", 60)

    run(main())
    assert heard == ["the second program", TRACEPARENT]


def test_a_child_is_in_the_trace_of_its_parent(location: str, without: None) -> None:
    heard: list[str | None] = []
    child = hearing(heard)
    saga = sagas.Saga("parent")
    saga.child(child, name="below", input=lambda task: None)

    async def main() -> None:
        async with sagas.open(location, [saga, child]) as store:
            await (await store.start(saga, "k", traceparent=TRACEPARENT)).wait(60)

    run(main())
    assert heard == [TRACEPARENT]


def test_a_client_s_start_has_it(url: str, without: None) -> None:
    """It is written with the start, also in the transaction of the caller, and a node
    passes it on.
    """
    heard: list[str | None] = []
    saga = hearing(heard)

    async def main() -> None:
        async with sagas.open(url, [saga]), sagas.Client(url) as client:
            await (await client.start(saga, "k", traceparent=TRACEPARENT)).wait(60)
            with pytest.raises(ValueError, match="traceparent"):
                await client.start(saga, "wrong", traceparent="00-1")
            assert await client.get("wrong") is None

    run(main())
    assert heard == [TRACEPARENT]


def test_a_message_has_it() -> None:
    """An order goes to a worker of a queue as JSON, and arrives unchanged."""
    order = Order("one", 1, "k", "log", 0, "a", "run", 1, 1, "null", {}, None, None, TRACEPARENT)
    assert Order.read(order.written()) == order and order.written()["traceparent"] == TRACEPARENT


# -- with the API


def trip(seen: list[tuple[str, str | None]], api: Any) -> sagas.Saga:
    """Return steps of all kinds, and the last fails permanently."""
    trip = sagas.Saga("trip")

    def look(task: Task) -> None:
        seen.append((task.attempt_id, context_of(api.get_current_span())))

    @trip.step(keep=9, undo=1)
    async def flight(task: Task) -> str:
        look(task)
        return "f"

    @flight.compensation
    def no_flight(task: Task) -> None:
        look(task)

    @trip.step(needs=[flight], keep=9, undo=1, tries=2, backoff=sagas.Backoff(0.0))
    def car(task: Task) -> str:
        look(task)
        if task.attempt == 1:
            raise sagas.Retry("no cars yet")
        return "c"

    @car.compensation
    async def no_car(task: Task) -> None:
        await asyncio.sleep(0)
        look(task)

    @trip.step(needs=[car], undo=sagas.NEVER)
    async def tour(task: Task) -> None:
        look(task)
        raise sagas.Fail("sold out")

    return trip


def test_each_attempt_has_a_span(location: str, api: Any) -> None:
    """It is in the trace of the caller that started the saga, current while the function runs: in
    the loop, in a thread, and in what it awaits.
    """
    seen: list[tuple[str, str | None]] = []
    saga = trip(seen, api)

    async def main() -> None:
        async with sagas.open(location, [saga]) as store:
            with api.use_span(
                api.NonRecordingSpan(
                    api.SpanContext(int(TRACE, 16), int(PARENT, 16), True, api.TraceFlags(1))
                )
            ):
                run = await store.start(saga, "k", {"to": "Rome"})
            assert (await run.wait(60)).phase == "recovered"

    run(main())
    spans = api.ENDED
    assert [span.name for span in spans] == [
        "run trip/flight",
        "run trip/car",
        "run trip/car",
        "run trip/tour",
        "undo trip/car",
        "undo trip/flight",
    ]
    assert seen == [(span.attributes["sagas.attempt_id"], context_of(span)) for span in spans]
    assert all(span.ends == 1 and context_of_parent(span) == TRACEPARENT for span in spans)
    flight, first, second, tour, no_car, no_flight = spans
    left = dict(flight.attributes)
    assert left.pop("code.function.name").endswith("trip.<locals>.flight") and left.pop(
        "sagas.attempt_id"
    )
    assert left == {
        "sagas.saga": "trip",
        "sagas.key": "k",
        "sagas.step": "flight",
        "sagas.action": "run",
        "sagas.attempt": 1,
        "sagas.outcome": "succeeded",
    }
    assert (flight.status.status_code, flight.errors, flight.links) == (
        api.StatusCode.UNSET,
        [],
        [],
    )
    assert (
        first.status.status_code,
        first.attributes["sagas.outcome"],
        first.attributes["error.type"],
    ) == (api.StatusCode.ERROR, "failed", "Retry")
    assert isinstance(first.errors[0], sagas.Retry)
    assert first.status.description == "sagas.Retry: no cars yet"
    assert (tour.attributes["sagas.outcome"], tour.attributes["error.type"]) == (
        "failed_permanently",
        "failed_permanently",
    )
    assert tour.status.description == "sagas.Fail: sold out"
    assert [links_of(span) for span in spans] == [
        [],
        [],
        [context_of(first)],
        [],
        [context_of(second)],
        [context_of(flight)],
    ]
    assert (
        no_flight.attributes["sagas.action"] == "undo"
        and no_car.attributes["sagas.outcome"] == "succeeded"
    )


def header_of(context: Any) -> str:
    return f"00-{context.trace_id:032x}-{context.span_id:016x}-{int(context.trace_flags):02x}"


def context_of_parent(span: Any) -> str | None:
    return None if span.parent is None else header_of(span.parent)


def links_of(span: Any) -> list[str]:
    return [header_of(link.context) for link in span.links]


def test_a_saga_without_a_trace(location: str, api: Any) -> None:
    """Its spans start their own traces, also if the store was opened within a span; a saga that a
    function starts is in the trace of that function.
    """
    heard: list[str | None] = []
    inner = hearing(heard)
    outer = sagas.Saga("outer")
    stores: list[sagas.Store] = []

    @outer.step
    async def a(task: Task) -> None:
        await stores[0].start(inner, "inner")

    async def main() -> None:
        with api.use_span(api.NonRecordingSpan(api.SpanContext(1, 2, True, api.TraceFlags(1)))):
            store = sagas.open(location, [outer, inner])
            await store.__aenter__()
        stores.append(store)
        try:
            await (await store.start(outer, "outer")).wait(60)
            await store.wait("inner", 60)
        finally:
            await store.close()

    run(main())
    first, second = span_of(api, "run outer/a"), span_of(api, "run one/a")
    assert first.parent is None and heard == [context_of(first)] == [context_of_parent(second)]


def test_a_timeout_and_an_abort_in_spans(tmp_path: pathlib.Path, api: Any) -> None:
    """An unknown outcome is an error of the span; a cancelled one has ended too."""
    saga = sagas.Saga("slow")

    @saga.step(timeout=0.05, max_unknown=1)
    async def a(task: Task) -> None:
        await asyncio.Event().wait()

    @saga.step(cancel_on_abort=True)
    async def b(task: Task) -> None:
        await asyncio.Event().wait()

    async def main() -> None:
        async with sagas.open(str(tmp_path / "store.db"), [saga]) as store:
            await store.start(saga, "k")
            while not api.ENDED:
                await asyncio.sleep(0.01)
            await store.complete("k", "a")
            await store.abort("k")
            while len(api.ENDED) < 2:
                await asyncio.sleep(0.01)

    run(main())
    slow, cancelled = span_of(api, "run slow/a"), span_of(api, "run slow/b")
    assert (slow.attributes["error.type"], slow.status.description) == (
        "unknown",
        "took longer than 0.05 s",
    )
    assert cancelled.ends == 1 and "sagas.outcome" not in cancelled.attributes


def test_programs_without_async(tmp_path: pathlib.Path, api: Any) -> None:
    """The span is that of the thread that starts the saga."""
    heard: list[str | None] = []
    saga = hearing(heard)
    with sagas.open_sync(str(tmp_path / "store.db"), [saga]) as store:
        with api.use_span(span := api.get_tracer("caller", "1").start_span("caller")):
            store.start(saga, "k").wait(60)
        store.start(saga, "given", traceparent=TRACEPARENT).wait(60)
    assert heard == [context_of(span), TRACEPARENT]


def test_errors_of_an_exporter_do_not_reach_a_saga(
    location: str, api: Any, monkeypatch: pytest.MonkeyPatch, caplog: pytest.LogCaptureFixture
) -> None:
    """Neither when a span starts, nor when it ends; it is logged once."""
    seen: list[str | None] = []
    saga = hearing(seen)

    def broken(*_: object, **options: object) -> None:
        raise RuntimeError("no exporter")

    async def main() -> None:
        async with sagas.open(location, [saga]) as store:
            for owner, name in ((api.Tracer, "start_span"), (api.Span, "end")):
                with monkeypatch.context() as patch:
                    patch.setattr(owner, name, broken)
                    await (await store.start(saga, name, traceparent=TRACEPARENT)).wait(60)

    run(main())
    assert (
        seen == [TRACEPARENT, TRACEPARENT]
        and [record.message for record in caplog.records].count(
            "a span could not be written: RuntimeError: no exporter"
        )
        == 1
    )


def test_without_a_tracer_functions_are_called_in_a_row(
    location: str, without: None, monkeypatch: pytest.MonkeyPatch
) -> None:
    """Without tracing no call is made in another way."""
    heard: list[str | None] = []
    saga = hearing(heard)
    calls: list[int] = []
    whole = Calls.start_simple
    monkeypatch.setattr(
        Calls, "start_simple", lambda self, some: (calls.append(len(some)), whole(self, some))[1]
    )

    async def main() -> None:
        async with sagas.open(location, [saga]) as store:
            await (await store.start(saga, "k", traceparent=TRACEPARENT)).wait(60)

    run(main())
    assert calls == [1] and heard == [TRACEPARENT]


# -- over HTTP

FILES = {
    "one.toml": (
        'format = 2\nname = "one"\n[[step]]\nname = "a"\nkeep = 9\nundo = 1\n[[step]]\nname ='
        ' "b"\nneeds = ["a"]\nundo = "never"\ntries = 1\n'
    )
}


@pytest.fixture(scope="module")
def service(tmp_path_factory: pytest.TempPathFactory, store: str | None) -> Iterator[Served]:
    with served(tmp_path_factory.mktemp("tracing"), FILES, store=store) as service:
        yield service


def test_the_header_of_a_start_goes_to_workers(service: Served) -> None:
    """It is stored with the saga; an invalid or repeated one is ignored, and is not an error."""
    with service.client() as client:
        for key, headers, header in (
            ("valid", [("traceparent", TRACEPARENT)], TRACEPARENT),
            ("none", [], None),
            ("wrong", [("traceparent", "00-1")], None),
            ("twice", [("traceparent", TRACEPARENT), ("traceparent", TRACEPARENT)], None),
        ):
            answer = client.post(
                "/v1/sagas", json={"definition": "one", "key": key}, headers=httpx.Headers(headers)
            )
            assert answer.status_code == 201
            (task,) = take(client, "one/a")
            assert (task["key"], task["traceparent"]) == (key, header)
            client.post(
                f"/v1/tasks/{task['attempt_id']}/fail",
                json={"lease": task["lease"], "error": "no", "final": True},
            )


def test_client_and_worker_of_python(service: Served, api: Any) -> None:
    """A span of a client's program is the parent of those of a worker's."""
    worker = sagas.Worker(service.url, concurrency=1, wait=1.0)
    seen: list[str] = []

    @worker.step("one", "a")
    def a(task: sagas.Task[Any]) -> None:
        seen.append(context_of(api.get_current_span()))

    @worker.compensation("one", "a")
    async def no_a(task: sagas.Task[Any]) -> None:
        seen.append(context_of(api.get_current_span()))

    @worker.step("one", "b")
    async def b(task: sagas.Task[Any]) -> None:
        seen.append(context_of(api.get_current_span()))
        raise sagas.Retry("not yet")

    thread = threading.Thread(target=worker.run)
    thread.start()
    try:
        with sagas.ServiceClient(service.url) as client, api.use_span(
            span := api.get_tracer("caller", "1").start_span("caller")
        ):
            assert client.start("one", "python").wait(60).phase == "recovered"
    finally:
        worker.stop()
        thread.join()
    spans = api.ENDED
    assert [span.name for span in spans] == ["run one/a", "run one/b", "undo one/a"]
    assert {context_of_parent(span) for span in spans} == {context_of(span)} and seen == [
        context_of(span) for span in spans
    ]
    assert [span.attributes["sagas.outcome"] for span in spans] == [
        "succeeded",
        "failed",
        "succeeded",
    ]
    assert (
        spans[1].attributes["error.type"] == "Retry"
        and spans[1].status.description == "sagas.Retry: not yet"
    )
    assert links_of(spans[2]) == [context_of(spans[0])]
