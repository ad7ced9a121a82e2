"""The verifier of a round of `kills_features.py`: it compares the store with the witness's notes.

Each fault begins with a name from `FAULTS`. Each wrong variant of `features_wrong.py` must be found
by one of them.
"""

from __future__ import annotations

import contextlib
import pathlib
import re
import sqlite3
from collections import Counter, defaultdict
from collections.abc import Iterable, Iterator
from dataclasses import dataclass
from typing import Any

import judge as stores
from driving import audit
from features_deleted import DeletionCheck
from features_erased import DECIDED, ErasureCheck
from features_shop import (
    MARK,
    MAX_MOVES,
    OPTIONAL,
    Settings,
    labels_of,
    order_of,
    result_of,
)
from features_store import (
    CHILDREN,
    ERASED_TEXT,
    FAILED,
    FeatureStore,
    GOOD,
    Instance,
    NOT_UNDONE,
    SILENT,
    rows_of as rows_of,
)
from judge import Verdict

Json = dict[str, Any]
FAULTS = stores.FAULTS | {
    "aborted-twice": "two callers each got the reply that they aborted one saga",
    "blob-lost": "a row refers to a missing blob",
    "child": "a child does not agree with its parent, or a child of an undone step is not undone",
    "context": "a function got a context that its program had not entered, or had left",
    "deadline": "a step began long after the deadline, or the saga completed then",
    "early-lost": "a report before the step was acknowledged, and the step ended otherwise",
    "deleted-early": "a saga was deleted before its retention was over",
    "erased": "an erased saga has a value somewhere, no decision, or a saga below it is not erased",
    "family": "a saga was deleted before one above it, or was left when that one was deleted",
    "item": "a function got the item of another step",
    "labels": "a saga has other labels than those of its start, or of its parent",
    "limit": "more functions ran at once than a limit by key allows",
    "on-end": "an end was not followed by a call with it, by two, or by one that came before it",
    "operator-lost": "an operator's answer was acknowledged, and the step ended otherwise",
    "optional": "an optional step failed its saga, or its failure was undone, or is not void",
    "order": "a step began before one that it needs, or was undone before one that needs it",
    "paused": "a function was called while its definition was paused",
    "pivot": "a saga undid something after its pivot, or kept something without it",
    "plain": "a store with a codec has an input that can be read",
    "schedule": "a time of a schedule has no saga, or two",
    "webhook-lost": "no webhook got an end",
    "wrong-compensation": "a function of another definition was called, or of another step",
}
LATE = 3.0
"""Seconds after a deadline within which the store handles it, also after a takeover."""
OBEYED = 1.3
"""Seconds within which each node obeys a pause, and calls that were under way have started, on a
machine that delays no process.
"""
ROOT = re.compile(r"k(\d+)")
ENDING = re.compile(r"(.*/::end)(?:/\d+)?")
"""The key of a saga that calls `on_end`, and its beginning without a number."""
CALLING = {"main", "hotel", "post"}
"""The sagas with an `on_end` function, in a round with that feature."""
AGAIN = re.compile(r":undo/\d+$")
"""The end of the key of a saga that undoes a child again; it leaves out what is already undone."""


@dataclass
class FeatureVerdict(Verdict):
    """A `Verdict` with the faults of features."""

    def fault(self, name: str, text: object) -> None:
        """Note a fault by its name."""
        assert name in FAULTS, name
        shortened = re.sub(r"x{20,}", "x..", str(text))  # of large values
        self.faults.append(f"{name}: {shortened}")


class FeatureJudge(stores.Judge):
    """The verifier of one round."""

    def __init__(
        self, settings: Settings, notes: pathlib.Path, kills: Counter[str], is_exact: bool
    ) -> None:
        super().__init__(settings.direct, notes)
        self.verdict = FeatureVerdict()
        self.settings, self.kills, self.is_exact = settings, kills, is_exact
        self.options = set(settings.options)
        self.stored = FeatureStore(settings)
        frees_keys = "retention" in self.options
        self.erasures = ErasureCheck(self.stored.by_key, self.notes, self.verdict.fault, frees_keys)
        self.calls: dict[str, list[Json]] = defaultdict(list)
        self.done: dict[str, list[Json]] = defaultdict(list)
        for index, note in enumerate(self.notes):
            note["index"] = index
            if note["what"] == "begin":
                self.calls[note["idempotency_key"]].append(note)
            elif note["what"] == "effect":
                self.done[note["idempotency_key"]].append(note)
        self.begun = {note["call"]: note for notes in self.calls.values() for note in notes}
        self.by_hand: dict[tuple[str, str, str], list[Any]] = defaultdict(list)
        for note in (*self.of("answering"), *self.of("early")):
            if note.get("word", "complete") == "complete":
                subject = note["key"], note["step"], note.get("kind", "run")
                self.by_hand[subject].append(note["value"])

    def verdict_of(self) -> FeatureVerdict:
        """Return the verdict of all checks."""
        if not self.settings.is_served:
            report = stores.records.integrity(pathlib.Path(self.settings.direct))
            if report != "ok":
                self.verdict.fault("broken-file", report)
        for key in self.stored.undefined:
            self.verdict.fault("lost", f"the definition of {key}")
        for log in self.records.logs.values():
            if all(
                row.definition_index < len(log.texts)
                for row in self.records.sagas.values()
                if row.log == log.log
            ):
                self._log(log)
        self._archives()
        self._acknowledged()
        self._called()
        for instance in self.stored.instances:
            self._effects(instance)
            self._optional(instance)
            self._ordered(instance)
            self._pivot(instance)
            self._labels(instance)
            self._deadline(instance)
            root = self.stored.of(instance.key.partition("/:")[0])
            for step in instance.steps if len(root) == 1 else []:  # its key was not free before
                if instance.declared[step] in CHILDREN and not AGAIN.search(instance.key):
                    self._child(instance, step)
        self._ended()
        self._limits()
        self._contexts()
        self._pauses()
        self._drains()
        self._scheduled()
        self._posts()
        self._values()
        self._erased()
        self._deleted()
        self._count()
        assert isinstance(self.verdict, FeatureVerdict)
        return self.verdict

    def _archives(self) -> None:
        folder = pathlib.Path(self.settings.folder, "archive")
        for shard in sorted(path.parent for path in folder.glob("[!.]*/about.json")):
            result = audit(shard / "log", sorted(shard.glob("definition-*.toml")))
            if not result.startswith("yes"):
                self.verdict.fault("audit", f"{shard.name}: {result}")

    # -- acknowledgements of callers and operators

    def _acknowledged(self) -> None:
        fault, aborts = self.verdict.fault, Counter[str]()
        for note in self.notes:
            event, key = note["what"], note.get("key", "")
            sagas = self.stored.of(key)
            if event in ("started", "over", "aborted", "early", "answered", "resolved", "erased"):
                self.verdict.figures["acknowledged"] += 1
                if not sagas:
                    fault("lost", note)
                    continue
            if event == "over":
                self._over(note, sagas)
            elif event == "aborted":
                aborts[key] += not note.get("bulk", False)
                if not any(saga.end and saga.end["aborted"] for saga in sagas):
                    fault("lost", note)
            elif event == "early" and not any(self._has_early(saga, note) for saga in sagas):
                fault("early-lost", f"{note}: {[saga.values for saga in sagas]}")
            elif event == "answered" and not any(self._has_answer(saga, note) for saga in sagas):
                fault("operator-lost", f"{note}: {[saga.values for saga in sagas]}")
            elif event == "resolved" and not any(saga.note for saga in sagas):
                fault("lost", note)
        for key, count in aborts.items():
            if count > len(self.stored.of(key)):
                fault("aborted-twice", f"{key}: {count} callers")
        started = {note["key"] for note in self.of("started")}
        for number in range(self.settings.count):
            if f"k{number}" not in started:
                fault("keys", f"k{number} was not started")

    def _over(self, note: Json, sagas: list[Instance]) -> None:  # type: ignore[override]
        phase = {"resolved": "stuck"}.get(note["phase"], note["phase"])
        phases = {phase, "recovered"} if note["phase"] == "resolved" else {phase}
        for saga in sagas:
            states = {
                step: "undo_failed" if state == "fixed" else state
                for step, state in saga.states.items()
            }
            if saga.seen_phase in phases and states == note["states"]:
                break
        else:
            seen = [(saga.seen_phase, saga.states) for saga in sagas]
            self.verdict.fault("told-otherwise", f"{note}: kept is {seen}")
        for step, value in note["results"].items():
            if not self._is_result(note["key"], step, value):
                self.verdict.fault("handed", f"the end of {note['key']} has {value} of {step}")

    def _has_early(self, instance: Instance, note: Json) -> bool:
        """Return whether a saga has a report, or never started the step."""
        step = note["step"]
        if step not in instance.steps:
            return False
        number = instance.steps.index(step)
        is_begun = any(
            event["event"] == "start_run" and event["step"] == number
            for _, event in instance.events
        )
        if not is_begun:
            return True
        wanted = ("fail", "no paper") if note["failed"] else ("commit", note["value"])
        for (name, kind, _), (event, value) in instance.values.items():
            if name == step and kind == "run" and event == wanted[0]:
                return note["failed"] or self._is_hidden(instance) or value == wanted[1]
        return False

    def _has_answer(self, instance: Instance, note: Json) -> bool:
        """Return whether a saga ended a step with the outcome that an operator reported."""
        word, step = note["word"], note["step"]
        if step not in instance.steps or word == "retry":
            return step in instance.steps
        wanted = {"complete": ("commit", "undone"), "fail": ("fail", "undo_fail")}[word]
        for (name, kind, _), (event, value) in instance.values.items():
            if (name, kind) == (step, note["kind"]) and event in wanted:
                is_hidden = self._is_hidden(instance)
                if word == "fail" or kind == "undo" or is_hidden or value == note["value"]:
                    return True
        return False

    def _is_hidden(self, instance: Instance) -> bool:
        """Return whether the values of a saga cannot be compared."""
        return instance.is_erased or (instance.is_archived and "blobs" in self.options)

    # -- arguments of functions

    def _is_result(self, key: str, step: str, value: Any) -> bool:
        """Return whether a step of a saga returned this, or a caller has reported it."""
        name = step.rpartition("-")[2]
        if name in CHILDREN and isinstance(value, dict) and "phase" in value:
            below = f"{key}/:{name}"
            return bool(
                re.fullmatch(re.escape(below) + r"(/\d+)?", value["key"])
                and value["phase"] == "completed"
                and all(
                    self._is_result(value["key"], *result) for result in value["results"].items()
                )
            )
        if name == "parts" and isinstance(value, list):
            return all(
                re.fullmatch(rf"{re.escape(key)}/:parts(/\d+)?/:parts-{index}", part["key"])
                and part["phase"] == "completed"
                and all(self._is_result(part["key"], *result) for result in part["results"].items())
                for index, part in enumerate(value)
            )
        if isinstance(value, dict) and [*value] == [FAILED]:
            seen = value[FAILED], ERASED_TEXT
            return any(saga.failures.get(step) in seen for saga in self.stored.of(key))
        return value == result_of(key, step) or value in self.by_hand[key, step, "run"]

    def _called(self) -> None:
        fault = self.verdict.fault
        for id, notes in self.calls.items():
            if len({(note["key"], note["step"], note["kind"]) for note in notes}) > 1:
                fault("tokens", f"{id} is of {notes}")
            for note in notes:
                token = id.removesuffix(f"-{note['step']}-{note['kind']}")
                instance = self.stored.by_token.get(token)
                if (
                    instance is None
                    or _without_number(instance.key) != note["key"]
                    or not note["token"].startswith(f"{id}-")
                ):
                    fault("tokens", f"no saga has the call {note}")
                    continue
                self._function(instance, note)
                self._check_input(note)
                for step, value in note["results"].items():
                    if not self._is_result(note["key"], step, value):
                        fault("handed", f"{id} got {value} of {step}")
                failure = instance.failures.get("mail")
                is_known = failure != ERASED_TEXT or note.get("failure") is None
                if "failure" in note and is_known and note["failure"] != failure:
                    fault("handed", f"{id} got the failure {note['failure']} of mail")
                if note["kind"] == "undo":
                    if note["of"] != f"{token}-{note['step']}-run":
                        fault("wrong-action", f"{id} compensates {note['of']}")
                    if not self._is_result(note["key"], note["step"], note["result"]):
                        fault("handed", f"{id} got {note['result']} of itself")

    def _function(self, instance: Instance, note: Json) -> None:
        """Check that the function is that of the saga's own definition."""
        saga, version, name, *undo = note["function"].split(".")
        declared = instance.declared.get(note["step"], "")
        is_right = (
            name == declared.rpartition("/")[2]
            and version in ("0", str(instance.version))
            and bool(undo) == (note["kind"] == "undo")
            and ("/" in declared or saga == instance.saga)
        )
        if not is_right:
            self.verdict.fault("wrong-compensation", f"{instance.key} {note['step']}: {note}")

    def _check_input(self, note: Json) -> None:
        """Check that the input and the item are those of the saga."""
        root, order = ROOT.match(note["key"]), note["input"]
        if not root:
            return
        number = int(root[1])
        if ".lid." in f".{note['function']}":
            is_right = order == number
        elif "/:" in note["key"]:
            is_right = order["mark"] == order_of(number)["mark"]
        else:
            is_right = order == order_of(number)
        if not is_right:
            self.verdict.fault("input", note)
        if sent := re.fullmatch(r"send-(\d+)", note["step"]):
            if note["item"] != order_of(number)["items"][int(sent[1])]:
                self.verdict.fault("item", note)

    # -- effects

    def _effects(self, instance: Instance) -> None:
        """Check each effect: it is of a committed step, or was compensated, and no other exists."""
        if instance.is_undo:
            return
        for step in instance.steps:
            if instance.declared[step] in CHILDREN or instance.declared[step] in SILENT:
                continue
            run = instance.good.get((step, "run"))
            undo = instance.good.get((step, "undo"))
            self._match(instance, step, "run", {run.token} if run else set())
            self._failures(instance, step)
            tokens = {undo.token} if undo else set()
            key = instance.key
            for other in self.stored.undoes.get(instance.token, []):
                if by := other.good.get((step, "run")):
                    id = f"{instance.token}-{step}-undo"
                    tokens.add(f"{id}-{by.token.rpartition('-')[2]}")
                    key = other.key
            self._match(instance, step, "undo", tokens, key)
            self.verdict.figures["committed"] += bool(run)
            self.verdict.figures["undone"] += bool(tokens)

    def _failures(self, instance: Instance, step: str) -> None:
        """Check each failure: a function raised it, or an operator reported it."""
        begun = {
            note["token"] for kind in ("run", "undo") for note in self._of(instance, step, kind)
        }
        for end in instance.ends:
            is_failure = end.word not in GOOD or (step in instance.failures and end.kind == "run")
            if end.step != step or not is_failure or end.token in begun or instance.is_erased:
                continue
            _, value = instance.values.get((step, end.kind, end.attempt), ("", {}))
            if value.get("called", True) and "operator" not in str(value):
                self.verdict.fault("not-called", f"{instance.key} {end}: {value}")

    def _optional(self, instance: Instance) -> None:
        """Check that the failure of an optional step is its result, and that nothing undoes it.

        An abort fails it, as any other step.
        """
        fault, is_aborted = self.verdict.fault, bool(instance.end and instance.end["aborted"])
        for end in instance.ends if "optional" in self.options and not is_aborted else []:
            _, value = instance.values.get((end.step, end.kind, end.attempt), ("", {}))
            if end.word == "fail" and instance.declared[end.step] in OPTIONAL:
                if value.get("called", True):
                    fault("optional", f"{instance.key} failed by {end}: {value}")
        void = {end.step for end in instance.ends if end.word == "void"}
        if void != {*instance.failures}:
            fault("optional", f"{instance.key} has void {void}, and {[*instance.failures]} failed")
        for step in instance.failures:
            if instance.declared[step] not in OPTIONAL or self._of(instance, step, "undo"):
                fault("optional", f"{instance.key} {step} failed, and was undone")
        self.verdict.figures["optional failures"] += len(instance.failures)

    def _of(self, instance: Instance, step: str, kind: str) -> list[Json]:
        return self.calls.get(f"{instance.token}-{step}-{kind}", [])

    def _match(
        self, instance: Instance, step: str, kind: str, tokens: set[str], key: str | None = None
    ) -> None:
        fault, key = self.verdict.fault, key or instance.key
        if kind == "undo" and instance.declared[step] in NOT_UNDONE:
            return
        had = {note["token"] for note in self.done.get(f"{instance.token}-{step}-{kind}", [])}
        by_hand = self.by_hand.get((key, step, "run" if key != instance.key else kind))
        text = f"{instance.key} {step} {kind}: {sorted(had)}, kept is {sorted(tokens)}"
        if len(tokens) > 1:
            fault("undone-twice", text)
        elif tokens and not tokens & had and not by_hand:
            fault("no-effect", text)
        elif had and not tokens:
            fault("effect-lost", text)
        elif had - tokens and not by_hand:
            fault("wrong-attempt", text)

    def _ordered(self, instance: Instance) -> None:
        """Check that steps start after the steps that they need, and are undone before them."""
        first, last = dict[tuple[str, str], int](), dict[tuple[str, str], int]()
        for step in instance.steps:
            for kind in ("run", "undo"):
                id = f"{instance.token}-{step}-{kind}"
                if notes := self.calls.get(id):
                    first[step, kind] = notes[0]["index"]
                if notes := self.done.get(id):
                    last[step, kind] = notes[0]["index"]
        for step, needs in instance.needs.items():
            for need in needs:
                begun, done = first.get((step, "run")), last.get((need, "run"))
                if begun is not None and done is not None and begun < done:
                    self.verdict.fault("order", f"{instance.key} {step} began before {need}")
                begun, done = first.get((need, "undo")), last.get((step, "undo"))
                if begun is not None and done is not None and begun < done:
                    self.verdict.fault("order", f"{instance.key} {need} was undone before {step}")

    def _pivot(self, instance: Instance) -> None:
        """Check that nothing is undone after the pivot, and that all is undone without it.

        What has no compensation stays, and so does what a step needs that could not be undone.
        """
        pivot = instance.pivot
        if pivot is None:
            return
        fault, states = self.verdict.fault, instance.states
        needed = instance.needed_by([pivot])
        undone = {end.step for end in instance.ends if end.kind == "undo"}
        undone |= {step for step in instance.steps if self._of(instance, step, "undo")}
        if (pivot, "run") in instance.good:
            self.verdict.figures["pivots"] += 1
            if undone:
                fault("pivot", f"{instance.key} undid {undone} after its pivot")
            self._went_forward(instance, pivot)
        elif states and instance.seen_phase == "recovered":
            self.verdict.figures["without pivot"] += 1
            failed = {step for step, state in states.items() if state == "fixed"}
            stays = instance.needed_by(failed)
            for step in needed - stays:
                if states[step] == "committed" and instance.declared[step] not in NOT_UNDONE:
                    fault("pivot", f"{instance.key} ended without its pivot, and kept {step}")

    def _went_forward(self, instance: Instance, pivot: str) -> None:
        """Check that each step after the pivot ran, if the saga was not aborted."""
        states = instance.states
        if not instance.end or instance.end["aborted"]:
            return
        for step in instance.steps:
            is_next = all(states[need] == "committed" for need in instance.needs[step])
            is_over = states[step] in ("committed", "failed")
            if pivot in instance.needs[step] and is_next and not is_over:
                self.verdict.fault("pivot", f"{instance.key} {step} is {states[step]} after it")

    # -- children

    def _child(self, instance: Instance, step: str) -> None:
        """Check that the children of a step agree with its state."""
        fault, state = self.verdict.fault, instance.states.get(step)
        key = f"{instance.key}/:{step}"
        pattern = re.compile(re.escape(key) + r"(/\d+)?")
        below = [
            other
            for name, sagas in self.stored.by_key.items()
            if pattern.fullmatch(name)
            for other in sagas
        ]
        completed = [other for other in below if other.seen_phase == "completed"]
        again = re.compile(re.escape(key) + r":undo(/\d+)?")
        named = self.stored.by_key.items()
        undone = [other for name, some in named if again.fullmatch(name) for other in some]
        is_by_hand = bool(self.by_hand.get((instance.key, step, "undo")))
        phases = [other.seen_phase for other in below]
        text = f"{instance.key} {step} is {state}, and its child {phases}"
        self.verdict.figures["children"] += len(below)
        if state in ("committed", "undone", "fixed") and not completed:
            fault("child", text)
        elif state in ("failed", "waiting") and completed:
            fault("child", text)
        elif state == "undone" and not is_by_hand:
            if not any(other.seen_phase == "completed" for other in undone):
                fault("child", f"{text}, undone by {[other.seen_phase for other in undone]}")
            for other in completed:
                self._undone(other, f"{text}: not undone")
        elif state in ("committed", "failed", "waiting") and undone:
            fault("child", f"{text}, and it was undone")

    def _undone(self, instance: Instance, text: str) -> None:
        """Check that each committed step of a completed child was undone."""
        by = self.stored.undoes.get(instance.token, [])
        for step in instance.steps:
            if (step, "run") not in instance.good or instance.declared[step] in NOT_UNDONE:
                continue
            if not any((step, "run") in other.good for other in by):
                self.verdict.fault("child", f"{text} is {instance.key} {step}")

    # -- calls after ends

    def _ended(self) -> None:
        """Check that each end was followed by a call of one saga, with that end."""
        if "on_end" not in self.options:
            return
        calls: dict[str, list[Json]] = defaultdict(list)
        for note in self.of("begin"):
            if "ended" in note:
                calls[note["key"].removesuffix("/::end")].append(note)
        for key, instances in self.stored.by_key.items():
            ended = [instance for instance in instances if instance.saga in CALLING]
            if ended:
                self._followed(key, ended, calls[key])

    def _followed(self, key: str, ended: list[Instance], calls: list[Json]) -> None:
        fault, by_call = self.verdict.fault, defaultdict[str, list[Json]](list)
        self.verdict.figures["ends"] += len(ended)
        for note in calls:
            by_call[note["idempotency_key"]].append(note)
        if len(by_call) != len(ended):
            fault("on-end", f"{key} has ended {len(ended)} times, and {len(by_call)} sagas called")
        for notes in by_call.values():
            note = notes[0]
            if any(other["ended"] != note["ended"] for other in notes):
                fault("on-end", f"{key}: calls with different ends: {notes}")
            same = [instance for instance in ended if self._is_end(instance, note["ended"])]
            if not same:
                kept = [(instance.seen_phase, instance.states) for instance in ended]
                fault("on-end", f"{key}: called with {note['ended']}, kept is {kept}")
            times = [max(at or 0.0 for at, _ in instance.events) for instance in same]
            if times and note["at"] < min(times):
                fault("on-end", f"{key}: called before its end: {note}")
            for step, value in note["ended"]["results"].items():
                if not self._is_result(key, step, value):
                    fault("handed", f"the call after the end of {key} has {value} of {step}")

    @staticmethod
    def _is_end(instance: Instance, end: Json) -> bool:
        states = {
            step: "undo_failed" if state == "fixed" else state
            for step, state in instance.states.items()
        }
        return bool(instance.seen_phase == end["phase"] and states == end["states"])

    # -- the other features

    def _labels(self, instance: Instance) -> None:
        root = ROOT.match(instance.key)
        wanted = labels_of(int(root[1])) if root else {"by": "schedule"}
        labels = {name: text for name, text in instance.labels.items() if name[0] != "="}
        if labels != ({} if instance.is_erased else wanted):
            self.verdict.fault("labels", f"{instance.key} has {instance.labels}, not {wanted}")

    def _deadline(self, instance: Instance) -> None:
        if instance.deadline is None or instance.is_undo:
            return
        stood = [note["until"] for note in self.of("stood") if note["until"] > instance.deadline]
        for at, event in instance.events:
            if at is None or at < instance.deadline + LATE:
                continue
            if any(until - LATE < at < until + LATE for until in stood):
                continue  # no program looked at it
            if event["event"] == "start_run":
                step = instance.steps[event["step"]]
                late = at - instance.deadline
                self.verdict.fault("deadline", f"{instance.key} {step} began {late:.1f} s after it")
        self.verdict.figures["overdue"] += bool(instance.end and instance.end["aborted"])

    def _limits(self) -> None:
        """Check the calls that ran at once: in a program, and over all nodes if the limit
        is exact.
        """
        if "concurrency_by" not in self.options:
            return
        inside: dict[tuple[Any, ...], set[str]] = defaultdict(set)
        for note in self.notes:
            begun = self.begun.get(note.get("call", ""), {})
            if note["what"] == "killed":
                for calls in inside.values():
                    calls -= {call for call in calls if call.split()[0] == str(note["victim"])}
            elif "limited" in begun:
                for subject, limit in self._limits_of(begun):
                    calls = inside[subject]
                    if note["what"] == "begin":
                        calls.add(note["call"])
                        if len(calls) > limit:
                            self.verdict.fault("limit", f"{subject}: {sorted(calls)}")
                    elif note["what"] == "end":
                        calls.discard(note["call"])

    def _limits_of(self, begun: Json) -> Iterator[tuple[tuple[Any, ...], int]]:
        count = len(self.settings.urls)  # each database has the limit
        yield (begun["pid"], begun["limited"]), count * MAX_MOVES
        if self.settings.is_served and self.is_exact:
            yield ("fleet", begun["limited"]), count * (MAX_MOVES + 1)

    def _contexts(self) -> None:
        there = dict[str, int]()
        for note in self.notes:
            if note["what"] == "entered":
                there[note["context"]] = note["pid"]
            elif note["what"] == "left":
                there.pop(note["context"], None)
            elif note["what"] == "begin" and "context" in note:
                if there.get(note["context"]) != note["pid"]:
                    self.verdict.fault("context", note)

    def _pauses(self) -> None:
        """Check that no call begins during a pause, unless a node was stopped.

        A message that a queue has before the pause may be executed during it. A machine that delays
        the round also delays its nodes.
        """
        if self.kills["a node stood still"] or self.kills["the database"]:
            return
        obeyed = OBEYED + sum(note["seconds"] for note in self.of("delayed"))
        pauses: dict[str | None, Json] = {}
        for note in self.notes:
            if note["what"] == "paused":
                pauses[note["saga"]] = note
                self.verdict.figures["pauses"] += 1
            elif note["what"] == "resuming":
                pauses.pop(note["saga"], None)
            elif note["what"] == "begin" and not note["function"].startswith("post"):
                for saga, pause in pauses.items():
                    is_covered = saga is None or note["function"].startswith(f"{saga}.")
                    is_kept = pause["forward_only"] and note["kind"] == "undo"
                    if is_covered and not is_kept and note["at"] > pause["at"] + obeyed:
                        late = note["at"] - pause["at"]
                        self.verdict.fault("paused", f"{note['key']} began {late:.1f} s after it")

    def _drains(self) -> None:
        """Check that each acknowledged drain is in the list of decisions.

        Retention deletes old decisions.
        """
        if "drain" in self.options and "retention" not in self.options:
            drains = len([*self.of("drained")])
            self.verdict.figures["drains"] += drains
            query = "SELECT count(*) FROM operator_commands WHERE command = 'drain'"
            stored = sum(count for (count,) in self.stored.rows(query))
            if stored < drains * min(2, len(self.settings.urls)):  # the third may have joined later
                self.verdict.fault("lost", f"{drains - stored} drains")

    def _scheduled(self) -> None:
        rows = self.stored.rows("SELECT name, next_at FROM schedules")
        acknowledged = [note["at"] for note in self.of("scheduled")]
        if acknowledged and not rows:
            self.verdict.fault("lost", "the schedule")
        for name, next_at in rows if acknowledged else []:
            keys = [key for key in self.stored.by_key if key.startswith(f"{name}@")]
            times = {_seconds(key) for key in keys if "/:" not in key}
            wanted = range(int(min(acknowledged)) + 2, int(next_at))
            if missed := [at for at in wanted if at not in times]:
                self.verdict.fault("schedule", f"{name}: no sagas of {missed}")
            for key in keys:
                if len(self.stored.of(key)) > 1 and "retention" not in self.options:
                    self.verdict.fault("schedule", f"{key} has two sagas")
            self.verdict.figures["scheduled"] += len(times)

    def _posts(self) -> None:
        if "webhooks" not in self.options:
            return
        posted = {(note["key"], note["type"]) for note in self.of("posted")}
        for instance in self.stored.instances:
            if (instance.key, f"saga.{instance.seen_phase}") not in posted:
                self.verdict.fault("webhook-lost", f"{instance.key} {instance.seen_phase}")
        self.verdict.figures["posts"] += len(posted)

    def _values(self) -> None:
        for key in self.stored.values.lost:
            self.verdict.fault("blob-lost", key)
        self.verdict.figures["blobs"] += len(self.stored.values.blobs)
        if "codec" not in self.options:
            return
        for subject, text in self._texts():
            if MARK in text:
                self.verdict.fault(
                    "plain", f"{subject}: {text[max(0, text.index(MARK) - 60):][:160]}"
                )

    def _erased(self) -> None:
        """Check that nothing is left of erased sagas, except in archives.

        In a file, SQLite keeps bytes in unused parts of pages until `VACUUM`.
        """
        if "erase" not in self.options:
            return
        if not self.settings.is_served:
            with contextlib.closing(sqlite3.connect(self.settings.direct)) as link:
                link.execute("VACUUM")
                link.execute("PRAGMA wal_checkpoint(TRUNCATE)")
        decided, texts = self.stored.rows(DECIDED), self._texts(["store.db*"], with_blobs=False)
        self.erasures.check(decided, self.stored.values.blobs)
        self.erasures.search(texts)
        self.verdict.figures["erased"] += len(self.erasures.erased)

    def _deleted(self) -> None:
        """Check the sagas that were deleted from shards that remained."""
        if "retention" in self.options:
            folder = pathlib.Path(self.settings.folder, "archive")
            deletions = DeletionCheck(self.stored.by_key, self.verdict.fault, folder)
            deletions.check(self.stored.rows, self.settings.direct)
            self.verdict.figures["deleted one by one"] += deletions.count

    def _texts(
        self,
        names: Iterable[str] = ("store.db*", "archive/*/*", "blobs/**/*"),
        with_blobs: bool = True,
    ) -> Iterator[tuple[str, str]]:
        """Return all stored texts: of tables, of files, and of blobs in a database."""
        if self.settings.is_served:
            tables = self.stored.rows("SELECT tablename FROM pg_tables WHERE schemaname = 'sagas'")
            for (table,) in tables:
                for (row,) in self.stored.rows(f"SELECT t::text FROM sagas.{table} t"):
                    yield table, row
        folder = pathlib.Path(self.settings.folder)
        for path in (path for name in names for path in folder.glob(name) if path.is_file()):
            yield path.name, path.read_bytes().decode("latin-1")
        for key, data in self.stored.values.blobs.items() if with_blobs else ():
            yield key, data.decode("latin-1")

    def _count(self) -> None:
        figures, sagas = self.verdict.figures, self.stored.instances
        figures["sagas"] = len(sagas)
        figures["archived"] = sum(saga.is_archived for saga in sagas)
        for saga in sagas:
            figures[saga.seen_phase] += 1
        figures["calls"] = sum(map(len, self.calls.values()))
        figures["effects"] = len(self.done)
        figures["effects again"] = sum(len(notes) - 1 for notes in self.done.values())
        figures["answers of operators"] = sum(1 for _ in self.of("answered"))
        figures["early reports"] = sum(1 for _ in self.of("early"))


def _without_number(key: str) -> str:
    """Return the key of a saga, without the number of one that calls `on_end`."""
    match = ENDING.fullmatch(key)
    return match[1] if match else key


def _seconds(key: str) -> int:
    """Return the time of a key of a schedule."""
    import datetime

    text = key.partition("@")[2].replace("Z", "+00:00")
    return int(datetime.datetime.fromisoformat(text).timestamp())


def judge(
    settings: Settings, notes: pathlib.Path, kills: Counter[str], is_exact: bool
) -> FeatureVerdict:
    """Judge a round in which all is over."""
    return FeatureJudge(settings, notes, kills, is_exact).verdict_of()
