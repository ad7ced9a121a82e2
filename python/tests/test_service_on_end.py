"""Calls after ends by a service: workers, restricted tokens, the page, webhooks of the calls."""

from __future__ import annotations

import contextlib
import pathlib
import threading
from collections.abc import Iterator
from typing import Any

import httpx
import pytest
from serving import LONG, Served, error_of, report, served, start, take, token

import sagas

ORDER = """format = 2
name = "order"
[[step]]
name = "charge"
keep = 9
undo = 1
[[step]]
name = "send"
needs = ["charge"]
undo = "never"
"""
OTHER = 'format = 2\nname = "other"\n[[step]]\nname = "a"\nundo = "never"\n'
END = """[on_end]
tries = 2
backoff = { initial = 0.01, maximum = 0.02 }
max_unknown = 1
"""
FILES = {
    "order.toml": ORDER,
    "order.service.toml": END,
    "other.toml": OTHER,
    "other.service.toml": END,
}
TOKENS: dict[str, tuple[str, ...]] = {
    "operator": ("operator", "worker"),
    "of-order": ("worker", "--definition", "order"),
    "of-other": ("worker", "operator", "--definition", "other"),
    "mails": ("worker", "--step", "order-end/on_end"),
}


@pytest.fixture(scope="module")
def world(
    tmp_path_factory: pytest.TempPathFactory, store: str | None
) -> Iterator[tuple[Served, dict[str, str]]]:
    folder = tmp_path_factory.mktemp("on-end")
    tokens = {name: token(folder, name, *roles) for name, roles in TOKENS.items()}
    arguments = ("--token-file", str(folder / "tokens.toml"))
    with served(folder, FILES, *arguments, store=store) as service:
        yield service, tokens


@contextlib.contextmanager
def working(worker: sagas.Worker) -> Iterator[None]:
    """Run a worker in a thread, until the block ends."""
    thread = threading.Thread(target=worker.run)
    thread.start()
    try:
        yield
    finally:
        worker.stop()
        thread.join(LONG)


def ended(client: httpx.Client, key: str, fails: bool = False) -> None:
    """Run an order to its end."""
    assert start(client, "order", key, {"to": "you"}).status_code == 201
    (charge,) = take(client, "order/charge")
    assert report(client, charge, result={"id": 7}).status_code == 200
    (send,) = take(client, "order/send")
    if not fails:
        assert report(client, send, result="sent").status_code == 200
        return
    assert report(client, send, "fail", error="sold out", final=True).status_code == 200
    (refund,) = take(client, "order/charge/undo")
    assert report(client, refund, result=None).status_code == 200


def test_a_worker_is_called(world: tuple[Served, dict[str, str]]) -> None:
    """`Worker.on_end` gets the end and the input. The page and the JSON show the call."""
    service, tokens = world
    calls: list[Any] = []
    worker = sagas.Worker(service.url, tokens["mails"], wait=1.0)

    @worker.on_end("order")
    def mail(task: sagas.EndTask[Any]) -> str:
        calls.append((task.key, task.input, task.end.phase, task.end.errors, task.results))
        if len(calls) == 1:
            raise sagas.Retry("not now")
        return "mailed"

    with service.client(tokens["operator"]) as client, working(worker):
        ended(client, "w", fails=True)
        assert client.get("/v1/sagas/w/wait").json()["phase"] == "recovered"
        call: dict[str, Any] = {}
        while call.get("state") != "done":
            call = client.get("/v1/sagas/w").json()["end_call"]
        assert call == {"state": "done", "key": "w/::end", "detail": None}
        end = client.get("/v1/sagas/w%2F::end").json()
        assert (end["definition"], end["phase"], end["results"]) == (
            "order-end",
            "completed",
            {"on_end": "mailed"},
        )
    assert calls == [("w", {"to": "you"}, "recovered", {"send": "sold out"}, {})] * 2


def test_a_task_has_the_end_as_json(world: tuple[Served, dict[str, str]]) -> None:
    """Tokens of the definition see and claim the call; those of another one do not.

    A call that waits for a person is in the inbox, and is not aborted.
    """
    service, tokens = world
    with contextlib.ExitStack() as stack:
        client, of_order, of_other = (
            stack.enter_context(service.client(tokens[name]))
            for name in ("operator", "of-order", "of-other")
        )
        ended(client, "j")
        refused = of_other.post("/v1/tasks/claim", json={"steps": ["order-end/on_end"]})
        assert (refused.status_code, error_of(refused)) == (403, "Forbidden")
        (task,) = take(of_order, "order-end/on_end")
        assert (task["definition"], task["key"], task["step"]) == ("order-end", "j/::end", "on_end")
        assert task["input"]["key"] == "j" and task["input"]["input"] == {"to": "you"}
        end = task["input"]["end"]
        assert (end["phase"], end["results"]) == (
            "completed",
            {"charge": {"id": 7}, "send": "sent"},
        )
        assert of_other.get("/v1/sagas/j%2F::end").status_code == 404
        assert of_other.get("/v1/sagas").json()["sagas"] == []
        asked = report(of_order, task, "fail", error="no such address", final=True)
        assert asked.status_code == 200
        while not (entries := client.get("/v1/attention?kind=exhausted").json()["entries"]):
            pass
        assert [(entry["key"], entry["step"]) for entry in entries] == [("j/::end", "on_end")]
        assert client.get("/v1/sagas/j").json()["end_call"]["state"] == "person"
        aborted = client.post("/v1/sagas/j%2F::end/abort", json={})
        assert (aborted.status_code, error_of(aborted)) == (409, "NotAbortable")
        again = client.post("/v1/sagas/j%2F::end/steps/on_end/complete", json={"result": "by hand"})
        assert again.status_code == 200
        assert client.get("/v1/sagas/j%2F::end/wait").json()["phase"] == "completed"
        started = start(client, "order-end", "x")
        assert started.status_code == 404 and "has no definition 'order-end'" in started.text
        claimed = client.post("/v1/tasks/claim", json={"steps": ["order-end/on_end"], "wait": 0})
        assert claimed.json()["unknown_steps"] == []
        page = stack.enter_context(service.client())
        page.post("/ui/login", data={"token": tokens["operator"]})
        text = page.get("/ui/sagas/j").text
        assert "<dt>On end</dt><dd>called" in text and "/ui/sagas/j%2F%3A%3Aend" in text
        assert "Abort" not in page.get("/ui/sagas/j%2F::end").text
        assert page.get("/ui?kind=on_end").status_code == 200


@pytest.mark.parametrize(
    "text, message",
    [
        ("[on_end]\nneeds = []\n", "on_end: on_end has no key 'needs'"),
        ("[on_end]\ntries = 0\n", "order.service.toml:2: saga 'order-end', step 'on_end': tries=0"),
        ('[on_end]\non_exhausted = "fail"\n', "on_exhausted='fail' would give the call up"),
        (
            "[on_end]\nbackoff = 3\n",
            "order.service.toml:2: on_end: backoff must have only the keys",
        ),
        ("on_end = 3\n", "order.service.toml:1: on_end: must be a table [on_end]"),
    ],
)
def test_a_wrong_file_is_refused(tmp_path: pathlib.Path, text: str, message: str) -> None:
    from sagas.definition import definition_files

    (tmp_path / "order.toml").write_text(ORDER)
    (tmp_path / "order.service.toml").write_text(text)
    with pytest.raises(sagas.DefinitionError) as caught:
        definition_files.read(tmp_path)
    assert message in str(caught.value)
