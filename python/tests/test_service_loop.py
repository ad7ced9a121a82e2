"""A service responds while it reads and writes large values, and pages of them."""

from __future__ import annotations

import html
import json
import threading
import time
from collections.abc import Iterator

import httpx
import pytest
from serving import DEFINITIONS, LONG, Served, error_of, served, start, take

COUNT = 6
BIG = [0] * 500_000  # 1 MB of JSON
TEXT = json.dumps(BIG, separators=(",", ":"))
LARGE = f"""format = 2
name = "large"
{"".join(f'[[step]]{chr(10)}name = "s{number}"{chr(10)}' for number in range(COUNT))}[[step]]
name = "last"
needs = [{", ".join(f'"s{number}"' for number in range(COUNT))}]
"""
JSON = {"content-type": "application/json"}


def plain(service: Served) -> httpx.Client:
    """Return a client that checks no response."""
    return httpx.Client(base_url=service.url, timeout=LONG, trust_env=False, verify=False)


@pytest.fixture(scope="module")
def service(tmp_path_factory: pytest.TempPathFactory) -> Iterator[Served]:
    """Return a service with a saga whose input and results are as large as a request may be."""
    with served(tmp_path_factory.mktemp("loop"), DEFINITIONS | {"large.toml": LARGE}) as service:
        with plain(service) as client:
            began = f'{{"definition": "large", "key": "large", "input": {TEXT}}}'
            assert client.post("/v1/sagas", content=began, headers=JSON).status_code == 201
            for number in range(COUNT):
                (task,) = take(client, f"large/s{number}")
                path = f"/v1/tasks/{task['attempt_id']}/complete"
                body = f'{{"lease": "{task["lease"]}", "result": {TEXT}}}'
                assert client.post(path, content=body, headers=JSON).status_code == 200
        yield service


def slowest(service: Served, path: str) -> float:
    """Return the time of the slowest response that only the event loop makes, during this
    request.
    """
    times, has_begun, is_over = list[float](), threading.Event(), threading.Event()

    def asks() -> None:
        with plain(service) as client:
            while not is_over.is_set():
                began = time.monotonic()
                assert client.get("/health/live").status_code == 200
                times.append(time.monotonic() - began)
                has_begun.set()

    thread = threading.Thread(target=asks)
    thread.start()
    assert has_begun.wait(LONG)
    with plain(service) as client:
        assert client.get(path).status_code == 200
    is_over.set()
    thread.join()
    return max(times)


@pytest.mark.parametrize("path", ["/ui/sagas/large", "/ui/sagas/large/steps/last/done"])
def test_the_loop_answers_while_a_page_is_made(service: Served, path: str) -> None:
    """It is blocked for less than the time to write the values as the page shows them.

    The least of several measurements counts, since the machine may be busy.
    """
    began = time.monotonic()
    for _ in range(COUNT):
        json.dumps(BIG, indent=2)
    whole = time.monotonic() - began
    assert min(slowest(service, path) for _ in range(3)) < whole / 2


def test_large_values_are_unchanged(service: Served) -> None:
    """This holds for the responses of the API, the page, and the worker of the next step."""
    results = {f"s{number}": BIG for number in range(COUNT)}
    with plain(service) as client:
        saga = client.get("/v1/sagas/large").json()
        assert saga["input"] == BIG and saga["results"] == results
        events = client.get("/v1/sagas/large/log").json()["events"]
        assert [event["value"] for event in events if event["event"] == "commit"] == [BIG] * COUNT
        text = html.unescape(client.get("/ui/sagas/large").text)
        for value in (BIG, results):
            shown = json.dumps(value, indent=2)[:20_000]
            assert f">{shown}\n… (shortened; see the saga's log)</pre>" in text
        assert text.count("[0, 0, 0, 0, 0, 0") >= 2 * COUNT  # of its steps and of its events
        (task,) = take(client, "large/last")
        assert (task["input"], task["results"], task["result"]) == (BIG, results, None)


@pytest.mark.parametrize(
    "text", ["[" * 300_000, '{"key": ' + " " * 300_000, TEXT], ids=["deep", "cut", "list"]
)
def test_a_large_body_that_is_not_an_object(service: Served, text: str) -> None:
    """It is too deep, cut off, or another value: the response is that for a small one."""
    with service.client() as client:
        answer = client.post("/v1/sagas", content=text, headers=JSON)
        assert answer.status_code in (400, 422)
        assert error_of(answer) == ("InvalidRequest" if text == TEXT else "InvalidJson")
        assert start(client, "order", "after").status_code in (200, 201)
