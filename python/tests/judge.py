"""The verifier: it compares the witness, the database and the logs of a finished store.

Each fault begins with a name from `FAULTS`. Each wrong coordinator in `tests/wrong` must be found
by one of them.
"""

from __future__ import annotations

import pathlib
import tempfile
from collections import Counter, defaultdict
from collections.abc import Iterable, Iterator
from dataclasses import dataclass, field
from typing import Any

import records
from driving import audit
from follower import Illegal, follow
from records import LogRows, Records, SagaRow
from witness import notes_of
from world import SILENT, expected

from sagas.core.states import stored_event

Json = dict[str, Any]
HEADER = '{"format":2}\n'

FAULTS = {
    "broken-file": "SQLite finds a fault in its file",
    "gap": "a chunk of a log does not begin where the one before ends",
    "audit": "the program does not accept a log, or counts other sagas in it than the database has",
    "illegal": "the rules do not allow a log",
    "keys": "keys differ from the requested ones, or a saga of the database is not in its log",
    "lost": "the program got a reply, and the database does not have its content",
    "told-early": "the program got a reply before the database had its content",
    "told-otherwise": "the program got an end that is not the stored one, or two ends of a saga",
    "begun-early": "a function was called before its start was stored",
    "not-over": "a saga is neither ended nor stuck",
    "end": "the end of a saga in the database is not the one of its log",
    "results": "the results in the database are not those of the log's events",
    "not-called": "a failure of a function is stored, and the witness saw no call of that attempt",
    "tokens": (
        "an attempt with two tokens, a token of two attempts, or one that is not made from its log,"
        " saga, step and attempt"
    ),
    "no-effect": (
        "a step is committed or undone, and the witness saw no effect under the token of that"
        " attempt"
    ),
    "wrong-attempt": "an effect under the token of an attempt that did not commit",
    "effect-lost": "an action had an effect, and its step was neither kept nor undone",
    "undone-twice": "a compensation had effects under two tokens",
    "wrong-action": "a compensation was of another action than the one that was done",
    "input": "a function got the input of another saga",
    "handed": "a function got a result that its step did not return, or an end has such a result",
}


@dataclass
class Verdict:
    """The faults that the verifier found, and some figures."""

    faults: list[str] = field(default_factory=list)
    figures: Counter[str] = field(default_factory=Counter)

    def fault(self, name: str, text: object) -> None:
        """Note a fault by its name."""
        assert name in FAULTS, name
        self.faults.append(f"{name}: {text}")

    @property
    def names(self) -> set[str]:
        """Return the names of the faults."""
        return {fault.split(":", 1)[0] for fault in self.faults}


@dataclass(frozen=True)
class Event:
    """The end of an attempt, by the log."""

    word: str
    step: str
    kind: str
    attempt: int
    token: str


def ends_of(log: LogRows, steps: list[str], number: int) -> Iterator[Event]:
    """Return the ends of attempts of one saga of a log, with their tokens."""
    misses: Counter[tuple[int, str]] = Counter()
    kinds = {
        "commit": "run",
        "void": "run",
        "missed": "run",
        "fail": "run",
        "undone": "undo",
        "undo_missed": "undo",
        "undo_fail": "undo",
    }
    for event in log.events:
        word = event["event"]
        if event["saga"] != number or word not in kinds:
            continue
        step, kind = event["step"], kinds[word]
        attempt = misses[step, kind] + 1
        yield Event(
            word, steps[step], kind, attempt, f"{log.name}-{number}-{steps[step]}-{kind}-{attempt}"
        )
        misses[step, kind] += word in ("missed", "undo_missed")


KEPT = {"completed": "ended", "recovered": "ended", "stuck": "stuck"}
"""The phases that callers see, and what the store keeps of them."""


def seen_end(phase: str | None, end: Json) -> tuple[str, list[str]]:
    """Return the phase and the states that a caller sees at an end."""
    by_plan = (end["answer"] or {}).get("kind") == "plan"
    states = ["undo_failed" if state == "fixed" else state for state in end["states"]]
    return "stuck" if phase == "stuck" else "recovered" if by_plan else "completed", states


class Judge:
    """One store, one witness."""

    def __init__(self, store: pathlib.Path | str, notes: pathlib.Path) -> None:
        self.verdict = Verdict()
        self.store = store
        self.records: Records = records.read(store)
        self.notes = notes_of(notes)
        self.effects: dict[tuple[str, str, str], dict[str, list[Json]]] = defaultdict(
            lambda: defaultdict(list)
        )
        self.begun = {note["token"] for note in self.of("begin")}
        for note in self.of("effect"):
            self.effects[note["key"], note["step"], note["kind"]][note["token"]].append(note)

    def of(self, what: str) -> Iterable[Json]:
        """Return the witness's notes of a kind."""
        return (note for note in self.notes if note["what"] == what)

    def judge(self, count: int) -> Verdict:
        """Check everything; `count` sagas were requested."""
        fault = self.verdict.fault
        if (
            not str(self.store).startswith("postgresql:")
            and (report := records.integrity(pathlib.Path(self.store))) != "ok"
        ):
            fault("broken-file", report)
        if set(self.records.sagas) != {f"k{number}" for number in range(count)}:
            fault("keys", f"{len(self.records.sagas)} keys, {count} were asked for")
        for log in self.records.logs.values():
            self._log(log)
        self._replies()
        self._tokens()
        self._handed()
        for row in self.records.sagas.values():
            self._saga(row)
        self._figures()
        return self.verdict

    # -- the logs

    def _log(self, log: LogRows) -> None:
        fault, at = self.verdict.fault, 0
        for first, text in log.chunks:
            if first != at:
                fault("gap", f"log {log.log}: {first} after {at}")
            at = first + text.count("\n")
        rows = {row.number: row for row in self.records.sagas.values() if row.log == log.log}
        deleted = {
            id % records.ROOM: phase
            for id, phase in self.records.deleted.items()
            if id // records.ROOM == log.log
        }
        self._audit(log, [row.phase for row in rows.values()] + [*deleted.values()])
        try:
            follower = follow(log.texts, log.events)
        except Illegal as error:
            fault("illegal", f"log {log.log}: {error}")
            return
        numbers = sorted([*rows, *deleted])
        if numbers != [*range(len(follower.sagas))]:
            fault("keys", f"log {log.log} has {len(follower.sagas)} sagas, the database {numbers}")
            return
        for number, saga in enumerate(follower.sagas):
            if number in deleted:
                if not saga.is_over or saga.phase != deleted[number]:
                    fault("end", f"{number} of log {log.log} was deleted, and is {saga.phase}")
                continue
            row = rows[number]
            if not saga.is_over:
                fault("not-over", f"{row.key} is {saga.phase} by its log")
            elif row.end is None or (
                row.phase,
                row.end["states"],
                row.end["aborted"],
                row.definition_index,
            ) != (
                saga.phase,
                saga.states,
                saga.aborted,
                saga.definition_index,
            ):
                fault(
                    "end",
                    f"{row.key}: {row.phase} {row.end}, by the log {saga.phase} {saga.states}",
                )

    def _audit(self, log: LogRows, phases: list[str | None]) -> None:
        stuck, count = phases.count("stuck"), len(phases)
        wanted = f"yes sagas {count} ended {count - stuck} stuck {stuck} events {len(log.lines)}"
        with tempfile.TemporaryDirectory() as name:
            folder = pathlib.Path(name)
            (folder / "log").write_text(HEADER + "".join(text for _, text in log.chunks))
            paths = [folder / f"{index}.toml" for index in range(len(log.texts))]
            for path, text in zip(paths, log.texts):
                path.write_text(text)
            if (result := audit(folder / "log", paths)) != wanted:
                self.verdict.fault("audit", f"log {log.log}: {result}, and not {wanted}")

    # -- replies to the program

    def _replies(self) -> None:
        fault, sagas = self.verdict.fault, self.records.sagas
        for note in self.notes:
            what, key = note["what"], note.get("key")
            if what in ("started", "finished", "aborted", "over"):
                if not note["there"] or what == "over" and note["there"] != KEPT.get(note["phase"]):
                    fault("told-early", note)
                row = sagas.get(key or "")
                if row is None or what == "aborted" and not (row.end and row.end["aborted"]):
                    fault("lost", note)
                elif what == "over":
                    self._over(note, row)

    def _over(self, note: Json, row: SagaRow) -> None:
        states = list(note["states"].values())
        if row.end is None or (note["phase"], states) != seen_end(row.phase, row.end):
            self.verdict.fault("told-otherwise", f"{note}: kept is {row.phase} {row.end}")
        standing = {
            step for step, state in note["states"].items() if state in ("committed", "undo_failed")
        }
        if set(note["results"]) != standing:
            self.verdict.fault(
                "told-otherwise",
                f"{note['key']}: results of {set(note['results'])}, {standing} are stored",
            )
        for step, value in note["results"].items():
            if value != expected(note["key"], step):
                self.verdict.fault("handed", f"the end of {note['key']} has {value} of {step}")

    # -- arguments of functions

    def _tokens(self) -> None:
        fault = self.verdict.fault
        tokens, attempts = defaultdict(set), defaultdict(set)
        for note in self.of("begin"):
            attempt = note["key"], note["step"], note["kind"], note["attempt"]
            tokens[attempt].add(note["token"])
            attempts[note["token"]].add(attempt)
            if note["begun"] < note["attempt"]:
                fault("begun-early", note)
            if note["input"] != {"i": int(note["key"][1:])}:
                fault("input", note)
            if note["token"] != f"{note['idempotency_key']}-{note['attempt']}":
                fault("tokens", note)
        for attempt, same in tokens.items():
            if len(same) > 1:
                fault("tokens", f"{attempt} has {same}")
        for token, same in attempts.items():
            if len(same) > 1:
                fault("tokens", f"{token} is of {same}")
        self.verdict.figures["attempts"] = len(tokens)

    def _handed(self) -> None:
        for note in self.of("effect"):
            key = note["key"]
            for step, value in note["results"].items():
                if value != expected(key, step):
                    self.verdict.fault("handed", f"{key} {note['step']} got {value} of {step}")
            if note["kind"] == "undo" and note["result"] != expected(key, note["step"]):
                self.verdict.fault(
                    "handed",
                    f"the compensation of {key} {note['step']} got {note['result']}",
                )

    # -- saga by saga

    def _saga(self, row: SagaRow) -> None:
        fault, log = self.verdict.fault, self.records.logs[row.log]
        steps = log.steps(row.definition_index)
        if row.phase not in ("ended", "stuck"):
            fault("not-over", f"{row.key} is {row.phase} in the database")
        ends = list(ends_of(log, steps, row.number))
        kept = {
            (steps[step], kind, attempt): result.outcome
            for (id, step, kind, attempt), result in self.records.results.items()
            if id == row.id
        }
        if kept != {(end.step, end.kind, end.attempt): stored_event(end.word) for end in ends}:
            fault(
                "results",
                (
                    f"{row.key}: {kept}, by the log"
                    f" {[(end.word, end.step, end.attempt) for end in ends]}"
                ),
            )
        good = {(end.step, end.kind): end.token for end in ends if end.word in ("commit", "undone")}
        for (step, kind), token in good.items():
            self.verdict.figures["committed" if kind == "run" else "undone"] += 1
            if (step, kind) not in SILENT and token not in self.effects.get(
                (row.key, step, kind), {}
            ):
                fault("no-effect", f"{row.key} {step} {kind} {token}")
        for end in ends:
            if (
                end.word not in ("commit", "undone")
                and (end.step, end.kind) not in SILENT
                and end.token not in self.begun
            ):
                value = self.records.results.get(
                    (row.id, steps.index(end.step), end.kind, end.attempt)
                )
                if value is None or value.value.get("called", True):
                    fault("not-called", f"{row.key} {end.step} {end.kind} {end.token}")
        for step in steps:
            self._step(row, step, good)
        for (id, number, kind, _), result in self.records.results.items():
            if (
                id == row.id
                and result.outcome == "commit"
                and result.value != expected(row.key, steps[number])
            ):
                fault("handed", f"{row.key} {steps[number]}: kept is {result.value}")

    def _step(self, row: SagaRow, step: str, good: dict[tuple[str, str], str]) -> None:
        fault = self.verdict.fault
        for kind in ("run", "undo"):
            tokens = self.effects.get((row.key, step, kind), {})
            token = good.get((step, kind))
            if tokens and token is None:
                fault("effect-lost", f"{row.key} {step} {kind}: {set(tokens)}")
            elif set(tokens) - {token}:
                fault("wrong-attempt", f"{row.key} {step} {kind}: {set(tokens)}, kept is {token}")
            if kind == "undo" and len(tokens) > 1:
                fault("undone-twice", f"{row.key} {step}: {set(tokens)}")
            for note in (note for notes in tokens.values() for note in notes if kind == "undo"):
                action = good.get((step, "run"), "").rpartition("-")[0]
                if note["of"] != action:
                    fault(
                        "wrong-action",
                        f"{row.key} {step} compensates {note['of']}, done was {action}",
                    )

    def _figures(self) -> None:
        figures = self.verdict.figures
        figures["logs"] = len(self.records.logs)
        figures["sagas"] = len(self.records.sagas)
        figures["stuck"] = sum(row.phase == "stuck" for row in self.records.sagas.values())
        figures["events"] = sum(len(log.lines) for log in self.records.logs.values())
        figures["effects"] = sum(len(tokens) for tokens in self.effects.values())
        figures["effects again"] = sum(
            len(notes) - 1 for tokens in self.effects.values() for notes in tokens.values()
        )
        figures["told"] = sum(
            1 for note in self.notes if note["what"] in ("started", "finished", "aborted", "over")
        )


def judge(store: pathlib.Path | str, notes: pathlib.Path, count: int) -> Verdict:
    """Judge a finished store by its file and the witness's notes."""
    return Judge(store, notes).judge(count)
