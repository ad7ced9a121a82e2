"""Replies of a service to a client: sagas, entries of a list, events, and their values."""

from __future__ import annotations

import asyncio
import dataclasses
import inspect
import json
import threading
from collections.abc import Mapping
from typing import Any

from sagas.base.errors import (
    CannotDecode,
    ConflictingReport,
    InvalidInput,
    InvalidKey,
    InvalidLabel,
    KeyConflict,
    NoSuchSaga,
    NotRestartable,
    NotSerializable,
    SagasError,
    StepNotWaiting,
    TooLarge,
)
from sagas.base.events import Event
from sagas.definition.saga_result import EndQueries
from sagas.core.states import WAITS_FOR
from sagas.definition.payloads import (
    BlobStore,
    Codec,
    MIN_THRESHOLD,
    Reference,
    check_blobs,
    checked,
)
from sagas.definition.step_location import FIXED, Fan

ERRORS: dict[str, type[SagasError]] = {
    kind.__name__: kind
    for kind in (
        ConflictingReport,
        InvalidInput,
        InvalidKey,
        InvalidLabel,
        KeyConflict,
        NoSuchSaga,
        NotRestartable,
        NotSerializable,
        StepNotWaiting,
        TooLarge,
    )
}
"""The problems that are exceptions of a store, by name."""


@dataclasses.dataclass(frozen=True)
class ServiceSaga(EndQueries):
    """Show a saga at the time of the request. Made by `ServiceClient`.

    `str` shows a line for each step.

    Attributes:
        key: The saga's key.
        saga: The saga's name.
        phase: `open`, `completed`, `recovered`, `stuck` or `resolved`.
        started: Wall time, in seconds since 1970.
        ended: Wall time, in seconds since 1970, or None.
        deadline: When it is aborted if it has not ended: wall time, in seconds since 1970, or None.
        aborted: Whether it was aborted.
        note: The note of the operator who resolved it, or None.
        labels: Its labels.
        input: Its input.
        states: The state of each step, as in the HTTP API.
        results: The results of the steps that remain in effect.
        errors: The last error of failed steps, by step.
        plan: Its last plan, as in the HTTP API; None if nothing failed.
        waits: The attempts that wait, as in the HTTP API.
        progress: The last progress that running functions reported, as in the HTTP API.
        optional_failures: The failed steps without which the saga continued.
        version: The version of its definition, or None if the service does not report it.
    """

    key: str
    saga: str
    phase: str
    started: float
    ended: float | None
    deadline: float | None
    aborted: bool
    note: str | None
    labels: dict[str, str]
    input: Any
    states: dict[str, str]
    results: dict[str, Any]
    errors: dict[str, str]
    plan: dict[str, Any] | None
    waits: list[dict[str, Any]]
    progress: list[dict[str, Any]]
    optional_failures: list[str] = dataclasses.field(default_factory=list)
    version: int | None = None

    @property
    def over(self) -> bool:
        """Whether the saga has ended."""
        return self.phase != "open"

    @property
    def fan(self) -> Fan:
        """The steps of each declared step: a service names only single steps."""
        return FIXED

    @property
    def cost(self) -> int | None:
        """The cost of the last plan.

        None if there was none, if no plan was feasible, or if the saga has a pivot.
        """
        return self.plan["cost"] if self.plan and not self.plan.get("pivot") else None

    @property
    def blocking_steps(self) -> list[str]:
        """If it is stuck, the steps that show why no plan was feasible."""
        return list(self.plan["blocking_steps"]) if self.plan else []


@dataclasses.dataclass(frozen=True, slots=True)
class ServiceSummary:
    """Describe a saga in a list of a service. Made by `ServiceClient.list`.

    Attributes:
        key: The saga's key.
        saga: The saga's name.
        phase: `open`, `completed`, `recovered`, `stuck` or `resolved`.
        started: Wall time, in seconds since 1970.
        ended: Wall time, in seconds since 1970, or None.
        note: The note of the operator who resolved it, or None.
        undo_failed: Whether it ended by a plan, and a compensation failed permanently.
        labels: Its labels.
        deadline: When it is aborted if it has not ended: wall time, in seconds since 1970, or None.
        version: The version of its definition, or None if the service does not know it.
    """

    key: str
    saga: str
    phase: str
    started: float
    ended: float | None
    note: str | None
    undo_failed: bool
    labels: dict[str, str]
    deadline: float | None
    version: int | None = None


@dataclasses.dataclass(frozen=True, slots=True)
class ServiceEvent(Event):
    """Describe an event of a service's stream. Made by `ServiceEvents`.

    It has the attributes of an `Event`. See `Event`. An event named `missed` means that some events
    are lost: look at the sagas themselves.

    Attributes:
        id: For `last_event_id` of a later stream.
    """

    id: str = ""


def saga_of(reply: Mapping[str, Any]) -> ServiceSaga:
    """Return the saga of a reply."""
    return ServiceSaga(**_fields(ServiceSaga, reply), saga=reply["definition"])


def summary_of(reply: Mapping[str, Any]) -> ServiceSummary:
    """Return the entry of a list, from its reply."""
    return ServiceSummary(**_fields(ServiceSummary, reply), saga=reply["definition"])


def event_of(name: str, id: str, reply: Mapping[str, Any], now: float) -> ServiceEvent:
    """Return an event; `now` is its time if the reply has none."""
    fields: dict[str, Any] = {"at": now, **_fields(ServiceEvent, reply), "name": name, "id": id}
    return ServiceEvent(**fields)


def waits_of(reply: Mapping[str, Any]) -> list[str]:
    """Return what an open saga waits for, in words."""
    return [
        f"{'the compensation of ' if wait['undo'] else ''}{wait['step']} waits for "
        f"{WAITS_FOR.get(wait['why'], wait['why'])}"
        if wait["step"]
        else str(wait["detail"])
        for wait in reply["waits"]
    ]


def error_of(name: str, text: str) -> SagasError | None:
    """Return the exception of a problem that a store raises too, or None."""
    kind = ERRORS.get(name)
    return kind(text.partition(": ")[2] or text) if kind else None


def _fields(kind: type[Any], reply: Mapping[str, Any]) -> dict[str, Any]:
    """Return the fields that this release knows. A later service may send more."""
    names = {field.name for field in dataclasses.fields(kind)}
    return {name: value for name, value in reply.items() if name in names}


class ServiceValues:
    """Reads values with the codec and the blob store of a service."""

    def __init__(self, codec: Codec | None, blobs: BlobStore | None) -> None:
        """Make a reader. Raises `TypeError` if an argument has the wrong type."""
        check_blobs(blobs, MIN_THRESHOLD)
        self._payloads, self._blobs = checked(codec, blobs is not None), blobs

    def saga(self, reply: Mapping[str, Any]) -> Mapping[str, Any]:
        """Return a reply about a saga, with decoded values. Raises `CannotDecode`."""
        if not self._payloads.reads:
            return reply
        results = {step: self.read(value) for step, value in reply["results"].items()}
        return {**reply, "input": self.read(reply["input"]), "results": results}

    def read(self, value: Any) -> Any:
        """Return a decoded value. Raises `CannotDecode`."""
        is_stored = isinstance(value, dict) and bool({"$codec", "$blob"} & value.keys())
        if not is_stored or not self._payloads.reads:
            return value
        text = json.dumps(value, separators=(",", ":"))
        if self._blobs is not None and (reference := Reference.of(text)):
            text = self._fetched(reference.key)
        if self._payloads.codec is None and text.startswith('{"$codec":'):
            return json.loads(text)
        return json.loads(self._payloads.decode(text))

    def _fetched(self, key: str) -> str:
        assert self._blobs
        try:
            if inspect.iscoroutinefunction(self._blobs.get):
                data = _awaited(self._blobs.get, key)
            else:
                data = self._blobs.get(key)
        except KeyError:
            raise CannotDecode("its value is not in the blob store") from None
        except Exception as error:  # its text may contain the value
            name = type(error).__name__
            raise CannotDecode(f"its value cannot be got: the blob store raised {name}") from None
        return bytes(data).decode("utf-8", "surrogatepass")


def _awaited(function: Any, key: str) -> Any:
    """Run a coroutine function in a new loop: the caller's thread may have one."""
    result: list[Any] = []

    def work() -> None:
        try:
            result.extend((asyncio.run(function(key)), None))
        except Exception as error:
            result.extend((None, error))

    thread = threading.Thread(target=work, name="sagas-blobs")
    thread.start()
    thread.join()
    value, error = result
    if error is not None:
        raise error
    return value
