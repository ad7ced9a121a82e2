"""The driver of the contract suite for Python: commands as lines of JSON. See README.md."""

from __future__ import annotations

import dataclasses
import json
import socket
import sys
import threading
from collections import Counter, defaultdict
from collections.abc import Callable
from typing import Any

import sagas

PATIENCE = 60.0
Json = dict[str, Any]


class Driver:
    """The commands, and the state that they share."""

    def __init__(self) -> None:
        self.lock = threading.Lock()
        self.client: sagas.ServiceClient | None = None
        self.stream: tuple[sagas.ServiceEvents, threading.Thread] | None = None
        self.workers: dict[str, tuple[sagas.Worker, threading.Thread, list[Exception]]] = {}
        self.counts: Counter[tuple[str, str]] = Counter()
        self.released: defaultdict[tuple[str, str], threading.Event] = defaultdict(threading.Event)

    def say(self, message: Json) -> None:
        text = json.dumps(message)
        with self.lock:
            print(text, flush=True)

    def carry_out(self, request: Json) -> None:
        number, name = request.pop("id"), request.pop("do")
        try:
            self.say({"id": number, "value": getattr(self, f"do_{name}")(**request)})
        except Exception as error:
            self.say({"id": number, "error": error_fields(error)})

    # -- callers

    def do_open(self, url: str | list[str], token: str | None) -> Json:
        if self.client:
            self.client.close()
        self.client = sagas.ServiceClient(url, token, timeout=PATIENCE)
        return {"language": "python"}

    @property
    def calls(self) -> sagas.ServiceClient:
        assert self.client
        return self.client

    def do_start(self, definition: str, key: str, **options: Any) -> Json:
        run = self.calls.start(definition, key, **options)
        return {"key": run.key, "version": run.version, "new": run.new}

    def do_get(self, key: str) -> Json:
        if (saga := self.calls.get(key)) is None:
            raise sagas.NoSuchSaga(key)
        return saga_of(saga)

    def do_wait(self, key: str, timeout: float) -> Json:
        return saga_of(self.calls.wait(key, timeout))

    def do_abort(self, key: str, **options: Any) -> Json:
        return {"aborted": self.calls.abort(key, **options)}

    def do_complete(self, key: str, step: str, **options: Any) -> Json:
        self.calls.complete(key, step, **options)
        return {}

    def do_fail(self, key: str, step: str, **options: Any) -> Json:
        self.calls.fail(key, step, **options)
        return {}

    def do_list(self, page: int, definition: str | None = None, **filters: Any) -> Json:
        listed = [*self.calls.list(page_size=page, saga=definition, **filters)]
        versions = [summary.version for summary in listed]
        return {"keys": [summary.key for summary in listed], "versions": versions}

    def do_decisions(self, page: int, definition: str | None = None, **filters: Any) -> Json:
        names = ("number", "by", "via", "note", "subject")
        listed = self.calls.decisions(page_size=page, saga=definition, **filters)
        decisions = [
            {
                **{name: getattr(entry, name) for name in names},
                "decision": entry.command,
                "bulk": entry.is_bulk,
                "at": entry.at > 0,
                "sagas": [
                    {
                        "key": saga.key,
                        "definition": saga.saga,
                        "step": saga.step,
                        "undo": saga.undo,
                        "answer": saga.answer,
                    }
                    for saga in entry.sagas
                ],
            }
            for entry in listed
        ]
        return {"decisions": decisions}

    def do_events(self, key: str | None = None, definition: str | None = None) -> Json:
        events = self.calls.events(key=key, saga=definition).open()
        thread = threading.Thread(target=self.follow, args=(events,), daemon=True)
        self.stream = events, thread
        thread.start()
        return {}

    def follow(self, events: sagas.ServiceEvents) -> None:
        with events:
            for event in events:
                if event.name == "missed":
                    self.say({"note": "missed"})
                else:
                    fields = dataclasses.asdict(event)
                    self.say(
                        {
                            "note": "event",
                            "event": {
                                name: fields[name] for name in fields if fields[name] is not None
                            },
                        }
                    )

    def do_events_stop(self) -> Json:
        assert self.stream
        events, thread = self.stream
        events.close()
        thread.join()
        return {}

    # -- workers

    def do_worker(
        self,
        worker: str,
        url: str | list[str],
        token: str | None,
        steps: list[str],
        concurrency: int,
        lease: float,
        wait: float,
        quiet: bool = False,
    ) -> Json:
        sagas_worker = sagas.Worker(
            url,
            token,
            concurrency=concurrency,
            lease=lease,
            wait=wait,
            name=worker,
            shutdown_timeout=PATIENCE,
        )
        for step in steps:
            saga, _, name = step.partition("/")
            undo, name = name.endswith("/undo"), name.removesuffix("/undo")
            declare = sagas_worker.compensation if undo else sagas_worker.step
            declare(saga, name)(self.play(worker, step, quiet))
        faults: list[Exception] = []
        thread = threading.Thread(
            target=self.work, args=(worker, sagas_worker, faults), daemon=True
        )
        self.workers[worker] = sagas_worker, thread, faults
        thread.start()
        return {}

    def work(self, name: str, worker: sagas.Worker, faults: list[Exception]) -> None:
        try:
            worker.run()
        except Exception as error:
            faults.append(error)
        if self.workers.pop(name, None):
            error = error_fields(faults[0]) if faults else None
            self.say({"note": "worker_ended", "worker": name, "error": error})

    def do_stop(self, worker: str) -> Json:
        sagas_worker, thread, faults = self.workers.pop(worker)
        sagas_worker.stop()
        thread.join()
        if faults:
            raise faults[0]
        return {}

    def do_release(self, key: str, step: str) -> Json:
        self.released[key, step].set()
        return {}

    def play(self, worker: str, name: str, quiet: bool) -> Callable[[sagas.Task[Any]], Any]:
        def played(task: sagas.Task[Any]) -> Any:
            if not quiet:
                self.say(
                    {
                        "note": "called",
                        "worker": worker,
                        "name": name,
                        "key": task.key,
                        "step": task.step,
                        "undo": task.is_compensation,
                        "attempt": task.attempt,
                        "idempotency_key": task.idempotency_key,
                        "results": task.results,
                        "result": task.result,
                        "traceparent": task.traceparent,
                        "declared_step": task.declared_step,
                        "given": task.given,
                        **item_of(task),
                    }
                )
            value = task.input
            if not isinstance(value, dict) or "script" not in value:
                return value
            action = f"{task.step}/undo" if task.is_compensation else task.step
            outcomes = value["script"].get(action, ["ok"])
            with self.lock:
                count = self.counts[task.key, action]
                self.counts[task.key, action] += 1
            return self.act(worker, outcomes[min(count, len(outcomes) - 1)], task, action)

        return played

    def act(self, worker: str, word: str, task: sagas.Task[Any], action: str) -> Any:
        match word:
            case "ok":
                return {"done": action}
            case "echo":
                return task.input["value"]
            case "nothing":
                return None
            case "fail":
                raise sagas.Fail("no")
            case "retry":
                raise sagas.Retry("not yet")
            case "unknown":
                raise sagas.Unknown("who knows")
            case "throw":
                raise TypeError("a bug")
            case "timeout":
                silent = socket.socketpair()
                silent[0].settimeout(0.01)
                silent[0].recv(1)
            case "refused":
                socket.create_connection(("127.0.0.1", 9))
            case "hold" | "deaf" | "doubt":
                self.hold(worker, task, word)
                return {"done": action}
            case "big" | "huge":
                return {"text": "x" * (1_000_000 if word == "big" else 3_000_000)}
        raise AssertionError(word)

    def hold(self, worker: str, task: sagas.Task[Any], word: str) -> None:
        released = self.released[task.key, task.step]
        is_deaf = word == "deaf" or word == "doubt" and task.cancelled.is_set()
        while not released.wait(0.05):
            if not is_deaf and task.cancelled.is_set():
                why = "lease" if task.cancelled.reason == "lost" else "abort"
                self.say(
                    {
                        "note": "canceled",
                        "worker": worker,
                        "key": task.key,
                        "step": task.step,
                        "why": why,
                    }
                )
                raise sagas.Fail("no") if word == "hold" else sagas.Unknown("who knows")


NAMES = "key", "version", "phase", "over", "aborted", "input", "states", "results", "errors"


def saga_of(saga: sagas.ServiceSaga) -> Json:
    return {"definition": saga.saga, **{name: getattr(saga, name) for name in NAMES}}


def item_of(task: sagas.Task[Any]) -> Json:
    """Return the item of a task as the service has it: the end of its step's name."""
    if not task.has_item:
        return {"index": None, "item_key": None, "item": None}
    key = task.index if isinstance(task.index, str) else None
    return {"index": int(task.step.rpartition("-")[2]), "item_key": key, "item": task.item}


def error_fields(error: Exception) -> Json:
    if isinstance(error, sagas.ServiceRefused):
        return {"name": error.name, "status": error.status, "text": str(error)}
    kinds = {
        sagas.ServiceUnavailable: "Unreachable",
        sagas.SagasError: type(error).__name__,
        TimeoutError: "Timeout",
        ValueError: "InvalidArgument",
        TypeError: "InvalidArgument",
    }
    name = next((name for kind, name in kinds.items() if isinstance(error, kind)), "Other")
    return {"name": name, "status": 0, "text": repr(error)}


def main() -> None:
    """Execute commands until the end of the input."""
    driver = Driver()
    for line in sys.stdin:
        request = json.loads(line)
        if request["do"] == "end":
            driver.say({"id": request["id"], "value": {}})
            break
        threading.Thread(target=driver.carry_out, args=(request,), daemon=True).start()


if __name__ == "__main__":
    main()
