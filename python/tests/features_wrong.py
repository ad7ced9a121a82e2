"""Mutants of the package: each changes one thing in the nodes of a round by `apply`.

`finds` is the name of the fault by which the verifier must find it, in a round of these features.
"""

from __future__ import annotations

import asyncio
import dataclasses
import itertools
import pathlib
import types
from collections.abc import Callable
from typing import Any

import sagas
from sagas.api.commands import Commands
from sagas.api.end_calls import EndCalls
from sagas.core import protocol
from sagas.core.outcomes import SUCCEEDED, Outcome
from sagas.definition import pivot
from sagas.definition import child_fan_outs
from sagas.definition.task_data import Context
from sagas.definition.payloads import Payloads
from sagas.definition.registry import DefinitionRegistry
from sagas.definition.start_options import StartOptions
from sagas.definition.task import Task
from sagas.core.attempt import model as attempts, machine as attempt_machine
from sagas.core.attempt.pause_index import Pauses
from sagas.core.shard.limits import Slots
from sagas.runtime import retention
from sagas.runtime.children import Children
from sagas.runtime.instances import Deadlines
from sagas.runtime.executor import EarlyReports
from sagas.runtime.scheduler import Scheduler
from sagas.runtime.shards import Shards
from sagas.server import webhooks
from sagas.storage import archive, blob_layer, erasures, families, family_archive


@dataclasses.dataclass(frozen=True)
class Variant:
    """One mutant."""

    apply: Callable[[], None]
    finds: str
    options: list[str]
    deploy: str
    count: int
    seconds: float
    """Its shortest duration."""


VARIANTS: dict[str, Variant] = {}


def variant(
    finds: str, *options: str, deploy: str = "", count: int = 10, seconds: float = 0.0
) -> Callable[[Callable[[], None]], Callable[[], None]]:
    """Register a function as a variant."""

    def named(apply: Callable[[], None]) -> Callable[[], None]:
        VARIANTS[apply.__name__] = Variant(apply, finds, list(options), deploy, count, seconds)
        return apply

    return named


@variant("child", "child", count=16)
def child_undo_skipped() -> None:
    """A completed child counts as undone, and no saga undoes it."""
    right = Children._begun

    async def begun(self: Children, attempt: Any) -> Any:
        return Outcome(SUCCEEDED, "null") if attempt.undo else await right(self, attempt)

    setattr(Children, "_begun", begun)


@variant("child", "each", count=16)
def children_of_a_list_kept() -> None:
    """A step that started children for a list counts as undone, and no child is."""
    setattr(child_fan_outs, "made_key", lambda result: None)


@variant("optional", "optional", count=12)
def optional_failure_fails() -> None:
    """The failure of an optional step fails its saga."""
    setattr(attempt_machine, "kept_outcome", lambda attempt, outcome: outcome)


@variant("optional", "optional", count=12)
def optional_failure_counts() -> None:
    """The failure of an optional step is committed for the engine, so its costs count."""

    def word(attempt: Any) -> str:
        return "ok" if protocol.is_success(attempt) else "fail"

    setattr(protocol, "reported_word", word)


@variant("optional", "optional", "for_each", count=24)
def optional_failure_undone() -> None:
    """A plan undoes an optional step that failed by its compensation."""
    setattr(attempts, "undoes_failure", lambda attempt: False)


@variant("early-lost", "early")
def early_report_dropped() -> None:
    """A report before the step is acknowledged, and not stored."""

    def put(self: EarlyReports, report: Any) -> asyncio.Future[None]:
        future: asyncio.Future[None] = self._coordinator.loop.create_future()
        future.set_result(None)
        return future

    setattr(EarlyReports, "put", put)


@variant("deadline", "deadline", count=6)
def deadline_ignored() -> None:
    """No program looks at deadlines."""
    setattr(Deadlines, "look", lambda self: None)


@variant("limit", "concurrency_by", count=16)
def limit_not_held() -> None:
    """Each attempt starts, whatever the limit of its step."""
    setattr(Slots, "enter", Slots.request_slot)


@variant("webhook-lost", "webhooks", count=8)
def webhook_not_posted() -> None:
    """Each third delivery counts as posted, and is not."""
    right, turns = webhooks.post, itertools.count()

    async def post(*arguments: Any) -> int:
        return 204 if next(turns) % 3 == 0 else await right(*arguments)

    setattr(webhooks, "post", post)


@variant("blob-lost", "blobs", count=8)
def blob_swept() -> None:
    """A sweep takes each blob for an orphan."""
    setattr(retention, "DAY", 0.2)
    setattr(blob_layer, "AGE", -60.0)
    setattr(blob_layer, "referred", lambda rows: [])


@variant("plain", "codec", count=4)
def plain_input_kept() -> None:
    """Inputs are stored unencoded."""
    right = Payloads.encode

    def encode(self: Payloads, text: str) -> str:
        return text if '"mark":' in text else right(self, text)

    setattr(Payloads, "encode", encode)


@variant("aborted-twice", count=11)
def aborted_twice() -> None:
    """Each caller that aborts a saga gets the reply that it was not aborted before."""
    right = Commands.abort

    async def abort(self: Commands, *arguments: Any) -> bool:
        await right(self, *arguments)
        return True

    setattr(Commands, "abort", abort)


@variant("lost", count=11)
def abort_lost() -> None:
    """An abort is acknowledged, and nothing follows."""

    async def abort(self: sagas.Store, key: str, **options: Any) -> bool:
        return True

    setattr(sagas.Store, "abort", abort)


@variant("handed", count=6)
def wrong_result_handed() -> None:
    """A function gets the results of other steps under the names of those that it needs."""
    right: Any = Task.results

    def results(self: Task[Any]) -> dict[str, Any]:
        right_results = right.fget(self)
        return dict(
            zip(right_results, [*right_results.values()][1:] + [*right_results.values()][:1])
        )

    setattr(Task, "results", property(results))


@variant("item", "for_each", count=8)
def item_of_another() -> None:
    """A function gets the item of another step."""
    right: Any = Task.item
    setattr(Task, "item", property(lambda self: right.fget(self)[::-1]))


@variant("schedule", "schedule", count=4, seconds=4.5)
def schedule_not_started() -> None:
    """A schedule continues, and starts nothing."""

    async def start(self: Scheduler, row: Any, key: str) -> None:
        return None

    setattr(Scheduler, "_try", start)


@variant("labels", "label", count=4)
def labels_lost() -> None:
    """A saga starts without its labels."""
    right: Any = StartOptions.__init__

    def init(self: StartOptions, labels: Any = None, *arguments: Any, **more: Any) -> None:
        right(self, {}, *arguments, **more)

    setattr(StartOptions, "__init__", init)


@variant("wrong-compensation", count=24)
def wrong_compensation() -> None:
    """A step is undone by the compensation of another one."""
    right = DefinitionRegistry.__init__

    def init(self: DefinitionRegistry, sagas: Any, *arguments: Any) -> None:
        for saga in sagas:
            steps = {step.name: step for step in saga.steps}
            if "ship" in steps:
                steps["hold"].undo = steps["ship"].undo
        right(self, sagas, *arguments)

    setattr(DefinitionRegistry, "__init__", init)


@variant("no-effect", count=24)
def compensation_not_called() -> None:
    """A step counts as undone, and nothing was called."""
    right = DefinitionRegistry.__init__

    def init(self: DefinitionRegistry, sagas: Any, *arguments: Any) -> None:
        for step in (step for saga in sagas for step in saga.steps if step.undo.function):
            step.undo.function = lambda task: None
        right(self, sagas, *arguments)

    setattr(DefinitionRegistry, "__init__", init)


@variant("on-end", "on_end", count=4)
def end_not_called() -> None:
    """Each call after an end counts as started, and is not."""

    async def start(self: EndCalls, *arguments: Any) -> bool:
        return True

    setattr(EndCalls, "_start", start)


@variant("context", "context", count=4)
def context_of_another() -> None:
    """Functions get a context that was not entered."""
    setattr(Context, "get", lambda self: types.SimpleNamespace(id="another"))


@variant("operator-lost", "on_exhausted", count=16)
def answer_replaced() -> None:
    """The result of an operator is acknowledged, and another one is stored."""
    right = Commands.report

    async def report(
        self: Commands, key: str, step: str, outcome: Any, *arguments: Any, **more: Any
    ) -> None:
        if outcome.kind is SUCCEEDED:
            outcome = Outcome(SUCCEEDED, '{"operator":"nobody"}')
        await right(self, key, step, outcome, *arguments, **more)

    setattr(Commands, "report", report)


@variant("lost", "retention", count=20, seconds=6.0)
def deleted_without_archive() -> None:
    """Retention deletes shards that it has not archived."""
    setattr(archive, "write", lambda link, log, folder: pathlib.Path(folder))


@variant("family", "retention", "child", "deadline", count=20, seconds=6.0)
def deleted_child_of_an_open_saga() -> None:
    """Retention takes each ended saga for a root."""
    setattr(families, "ROOTS", families.ROOTS.replace(families.IS_ROOT, "1 = 1"))


@variant("keys", "retention", count=20, seconds=6.0)
def deleted_without_mark() -> None:
    """Retention deletes single sagas, and writes no marks."""
    setattr(families, "_mark", lambda link, ids, at: None)


@variant("lost", "retention", count=20, seconds=6.0)
def family_deleted_without_export() -> None:
    """Retention deletes families that it has not exported."""
    setattr(family_archive, "append", lambda link, ids, folder: None)


@variant("not-over", "drain", count=20, seconds=4.0)
def moved_shard_not_loaded() -> None:
    """A node owns the shards that move to it, and does not execute them."""
    setattr(Shards, "taken", lambda self, rows: None)


@variant("paused", "pause", count=40, seconds=6.0)
def pause_not_obeyed() -> None:
    """Attempts of a paused definition are called."""

    def hold(self: Pauses, attempt: Any) -> bool:
        return False

    setattr(Pauses, "hold", hold)
    setattr(Pauses, "of_attempt", lambda self, attempt: None)


@variant("erased", "erase", count=16, seconds=3.0)
def erased_result_kept() -> None:
    """An erasure leaves the results in place."""
    setattr(erasures, "_blank_value", lambda event, value, mark: value)


@variant("erased", "erase", "child", count=16, seconds=3.0)
def erased_child_kept() -> None:
    """An erasure leaves the sagas below the erased one in place."""
    tree = "SELECT id, key, phase, 0, 0 FROM sagas WHERE id = ?"
    setattr(erasures, "TREE", tree)


@variant("pivot", "pivot", count=24)
def undone_after_pivot() -> None:
    """A failure after the pivot undoes the other steps after it."""
    costs = {"run": 0, "undo": 0, "skip": 1, "keep": 1}
    setattr(pivot, "COSTS", {**pivot.COSTS, pivot.Role.AFTER: costs})


@variant("pivot", "pivot", count=24)
def kept_without_pivot() -> None:
    """A failure before the pivot keeps what has committed."""
    costs = {**pivot.COSTS[pivot.Role.BEFORE], "undo": 1, "keep": 0}
    setattr(pivot, "COSTS", {**pivot.COSTS, pivot.Role.BEFORE: costs})
