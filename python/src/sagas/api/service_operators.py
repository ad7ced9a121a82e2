"""The calls of a service's client by which operators change what sagas do."""

from __future__ import annotations

import contextlib
import itertools
import urllib.parse
from collections.abc import Callable, Iterable, Iterator, Mapping
from typing import Any

from sagas.api.service_connection import NO_HEADERS, ServiceRefused
from sagas.base.errors import ConflictingReport, NoSuchSaga, StepNotWaiting
from sagas.core.attention import Attention, AttentionReason
from sagas.core.decisions import DecidedSaga, DecisionEntry, decision_named
from sagas.definition import arguments
from sagas.definition.labels import Labels, selecting
from sagas.definition.saga import Saga
from sagas.definition.step import Step

ANSWER = 20.0  # seconds that one request, or the opening of a stream, may take
TURNS = 20
"""How often a count is repeated while the service's sagas change."""
RESOLVABLE = ("stuck", "undo_failed")


def path_of(key: str, *rest: str) -> str:
    """Return the path of a saga, or of something below it."""
    arguments.key(key, or_child=True)
    return "/".join(["/v1/sagas", *(urllib.parse.quote(part, safe="") for part in (key, *rest))])


def name_of(parameter: str, value: Saga[Any] | Step[Any] | str) -> str:
    """Return the name of a saga or of a step."""
    name = value.name if isinstance(value, (Saga, Step)) else value
    arguments.text(parameter, name, f"the name of a {parameter}")
    return name


def without_none(**options: Any) -> dict[str, Any]:
    """Return the options that are given."""
    return {name: value for name, value in options.items() if value is not None}


class ServiceOperators:
    """Change what the sagas of a service do. The calls take the token of an operator."""

    def _ask(
        self,
        path: str,
        body: dict[str, Any] | None = None,
        seconds: float = ANSWER,
        patience: float | None = None,
        headers: Mapping[str, str] = NO_HEADERS,
    ) -> dict[str, Any]:
        """Return a reply. Raises the exception of a store that the problem names."""
        raise NotImplementedError

    def retry(
        self, key: str, step: Step[Any] | str, *, undo: bool = False, note: str | None = None
    ) -> None:
        """Attempt a step again that is exhausted, or whose outcome is unknown.

        The same attempt is made at once, with its idempotency key.

        Args:
            key: The saga's key.
            step: The step, or its name.
            undo: Whether its compensation is meant (default: False).
            note: The reason; it is stored with the requester and the time (default: none).

        Raises:
            StepNotWaiting: The step does not wait for a retry.
            NoSuchSaga: No saga has the key.
            ServiceRefused: The service refuses the token.
            ServiceUnavailable: No service answered in time. Repeat the call.
        """
        path = path_of(key, "steps", name_of("step", step), "retry")
        self._ask(path, without_none(note=note) | {"undo": undo})

    def compensate(self, key: str, step: Step[Any] | str, *, note: str | None = None) -> None:
        """Have a step compensated that was reported before it started, and not used.

        Args:
            key: The saga's key.
            step: The step, or its name.
            note: The reason; it is stored with the requester and the time (default: none).

        Raises:
            StepNotWaiting: The saga has no unused report of the step.
            NoSuchSaga: No saga has the key.
            ServiceRefused: The service refuses the token.
            ServiceUnavailable: No service answered in time. Repeat the call.
        """
        path = path_of(key, "steps", name_of("step", step), "compensate")
        self._ask(path, without_none(note=note))

    def resolve(self, key: str, note: str) -> None:
        """Mark a saga as resolved: stuck, with a failed compensation or unused report.

        Args:
            key: The saga's key.
            note: What the operator has done about it. The requester and the time are stored too.

        Raises:
            StepNotWaiting: The saga needs no operator, or is resolved with another note.
            NoSuchSaga: No saga has the key.
            TypeError: The note is not a text.
            ValueError: The note is empty.
            ServiceRefused: The service refuses the token.
            ServiceUnavailable: No service answered in time. Repeat the call.
        """
        arguments.text("note", note, "what was done about it")
        self._ask(path_of(key, "resolve"), {"note": note})

    # -- many sagas

    def abort_all(
        self,
        *,
        saga: Saga[Any] | str | None = None,
        labels: Labels | None = None,
        note: str | None = None,
    ) -> int:
        """Abort every open saga of a filter.

        Args:
            saga: A definition, or its name (default: all).
            labels: Labels that the sagas have, all of these (default: any).
            note: The reason; it is stored with the requester and the time (default: none).

        Returns:
            The number of sagas, without those of a request whose reply was lost.

        Raises:
            InvalidLabel: A label is not valid, or `labels` is empty, which would mean every saga.
            ServiceRefused: The service refuses the token.
            ServiceUnavailable: No service answered in time. Repeat the call for the rest.
        """
        return self._change("abort", _filter(saga, labels), without_none(note=note))

    def resolve_all(
        self, note: str, *, saga: Saga[Any] | str | None = None, labels: Labels | None = None
    ) -> int:
        """Mark every saga of a filter as resolved.

        The call applies to stuck sagas, and to sagas with a failed compensation.

        See `ServiceClient.abort_all` for `saga`, `labels` and what is returned and raised.

        Args:
            note: What the operator has done about them.

        Raises:
            TypeError: The note is not a text.
            ValueError: The note is empty.
        """
        arguments.text("note", note, "what was done about it")
        selection = _filter(saga, labels)
        return sum(
            self._change("resolve", {**selection, "kind": kind}, {"note": note})
            for kind in RESOLVABLE
        )

    def retry_all(
        self,
        *,
        saga: Saga[Any] | str | None = None,
        step: str | None = None,
        labels: Labels | None = None,
        limit: int = 1000,
        note: str | None = None,
    ) -> int:
        """Attempt again each step whose attempts are exhausted. See `ServiceClient.retry`.

        `complete_all` and `fail_all` report them instead.

        Args:
            saga: Only sagas of this definition, or name (default: all).
            step: Only this step, and its compensation (default: all).
            labels: Only sagas with all of these labels (default: all).
            limit: Maximum number of attempts, those first whose sagas started first (default:
                1,000).
            note: The reason; it is stored with the requester and the time (default: none).

        Returns:
            The number of attempts, without those of a request whose reply was lost.

        Raises:
            InvalidLabel: A label is not valid, or `labels` is empty, which would mean every saga.
            ServiceRefused: The service refuses the token.
            ServiceUnavailable: No service answered in time. Repeat the call for the rest.
        """
        entries = self._exhausted(saga, step, labels, limit)
        return _each(entries, lambda key, name, undo: self.retry(key, name, undo=undo, note=note))

    def complete_all(
        self,
        result: Any = None,
        *,
        saga: Saga[Any] | str | None = None,
        step: str | None = None,
        labels: Labels | None = None,
        limit: int = 1000,
        note: str | None = None,
    ) -> int:
        """Report that each step succeeded whose attempts are exhausted.

        See `ServiceClient.retry_all` for the others.

        Args:
            result: The result of each step, as JSON (default: None).

        Raises:
            NotSerializable: The result is not JSON.
        """
        body = {"result": result}
        entries = self._exhausted(saga, step, labels, limit)
        return _each(
            entries, lambda key, name, undo: self._report("complete", key, name, undo, body, note)
        )

    def fail_all(
        self,
        error: str,
        *,
        saga: Saga[Any] | str | None = None,
        step: str | None = None,
        labels: Labels | None = None,
        limit: int = 1000,
        note: str | None = None,
    ) -> int:
        """Report that each step failed permanently whose attempts are exhausted.

        See `ServiceClient.retry_all` for the others.

        Args:
            error: Why they failed.

        Raises:
            TypeError: `error` is not a text.
        """
        arguments.text("error", error, "why it failed")
        body = {"error": error}
        entries = self._exhausted(saga, step, labels, limit)
        return _each(
            entries, lambda key, name, undo: self._report("fail", key, name, undo, body, note)
        )

    def _report(
        self,
        verb: str,
        key: str,
        step: Step[Any] | str,
        undo: bool,
        body: dict[str, Any],
        note: str | None,
        early: bool = False,
    ) -> None:
        options = without_none(note=note) | {"undo": undo, "early": early}
        self._ask(path_of(key, "steps", name_of("step", step), verb), body | options)

    def _change(self, verb: str, selection: dict[str, Any], body: dict[str, Any]) -> int:
        """Count the sagas that a filter selects, and change them, until none is left."""
        path, body = f"/v1/bulk/{verb}", {"filter": selection, **body}
        done = refused = turns = 0
        while turns < TURNS:
            count = self._ask(path, body)["count"]
            if count <= refused:  # the rest was refused
                break
            try:
                reply = self._ask(path, body | {"dry_run": False, "count": count})
            except ServiceRefused as refusal:
                if refusal.name != "CountChanged":
                    raise
                turns += 1
                continue
            done, refused = done + reply["done"], len(reply["refused"])
            turns = turns + 1 if not reply["done"] else 0
        return done

    # -- questions

    def attention(self, *, limit: int = 100) -> list[Attention]:
        """Return what needs an operator, one reason after the other, the oldest first.

        Approvals are left out: `ServiceClient.list` has their sagas.

        Args:
            limit: Maximum number of entries (default: 100).

        Raises:
            ValueError: The limit is not valid.
            ServiceRefused: The service refuses the token.
            ServiceUnavailable: No service answered in time.
        """
        arguments.count("limit", limit)
        return list(itertools.islice(self._entries([]), limit))

    def decisions(
        self,
        *,
        key: str | None = None,
        saga: Saga[Any] | str | None = None,
        decision: str | None = None,
        page_size: int = 100,
    ) -> Iterator[DecisionEntry]:
        """List decisions on sagas that the token may see, the newest first.

        It requests one page after another. A decision on many sagas is one entry, with at most
        1,000 of them. A pause and a resume are decisions, too.

        Args:
            key: Only decisions on the saga with this key (default: all).
            saga: Only decisions on sagas of this definition, or of its name (default: all).
            decision: Only decisions of this kind, for example `retry` (default: all).
            page_size: Entries of one request, from 1 to 1,000 (default: 100).

        Raises:
            ValueError: The kind is unknown, or the page size is not valid.
            ServiceRefused: The service refuses the token.
            ServiceUnavailable: No service answered in time.
        """
        query = without_none(
            limit=arguments.count("page_size", page_size),
            key=key,
            definition=None if saga is None else name_of("saga", saga),
            decision=None if decision is None else decision_named(decision).value,
        )
        return self._decision_pages(query)

    def _decision_pages(self, query: dict[str, Any]) -> Iterator[DecisionEntry]:
        while True:
            reply = self._ask(f"/v1/decisions?{urllib.parse.urlencode(query)}")
            yield from map(_decision_of, reply["decisions"])
            if reply["next"] is None:
                return
            query["after"] = reply["next"]

    def _exhausted(
        self, saga: Saga[Any] | str | None, step: str | None, labels: Labels | None, limit: int
    ) -> list[Attention]:
        arguments.count("limit", limit)
        query = [("kind", "exhausted")]
        if saga is not None:
            query.append(("definition", name_of("saga", saga)))
        if step is not None:
            query.append(("step", name_of("step", step)))
        query += [("label", f"{name}={value}") for name, value in selecting(labels).items()]
        return list(itertools.islice(self._entries(query), limit))

    def _entries(self, query: list[tuple[str, str]]) -> Iterator[Attention]:
        reasons, after = {reason.value for reason in AttentionReason}, list[tuple[str, str]]()
        while True:
            reply = self._ask(f"/v1/attention?{urllib.parse.urlencode(query + after)}")
            yield from (_entry_of(entry) for entry in reply["entries"] if entry["kind"] in reasons)
            if reply["next"] is None:
                return
            after = [("after", reply["next"])]


def _each(entries: Iterable[Attention], act: Callable[[str, str, bool], None]) -> int:
    """Act on the step of each entry; return how many no other command had handled."""
    count = 0
    for entry in entries:
        with contextlib.suppress(StepNotWaiting, ConflictingReport, NoSuchSaga):
            act(entry.key, entry.step or "", entry.undo)
            count += 1
    return count


def _filter(saga: Saga[Any] | str | None, labels: Labels | None) -> dict[str, Any]:
    name = None if saga is None else name_of("saga", saga)
    return without_none(definition=name, labels=dict(selecting(labels)) or None)


def _entry_of(entry: dict[str, Any]) -> Attention:
    return Attention(
        entry["key"],
        entry["definition"],
        AttentionReason(entry["kind"]),
        entry["step"],
        entry["undo"],
        entry["detail"],
        entry["since"],
        entry["by"],
    )


def _decision_of(entry: dict[str, Any]) -> DecisionEntry:
    sagas = [
        DecidedSaga(saga["key"], saga["definition"], saga["step"], saga["undo"], saga["answer"])
        for saga in entry["sagas"]
    ]
    return DecisionEntry(
        entry["number"],
        entry["decision"],
        entry["at"],
        entry["by"],
        entry["via"],
        entry["note"],
        entry["bulk"],
        entry["subject"],
        sagas,
    )
