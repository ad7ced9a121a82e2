"""One shard without an engine, a loop or a database: its questions, and its effects after scripted
replies.
"""

from __future__ import annotations

import dataclasses
import json
from typing import Any

import pytest

import sagas
from sagas.core import outcomes, recovery
from sagas.core.shard.batch import LoadedShard
from sagas.core.effects import Abort, Effects
from sagas.core.attempt.model import Attempt, SuspensionRow
from sagas.core.attempt.instance import SagaInstance
from sagas.core.protocol import MAX_REPORTS, EngineDisagrees
from sagas.core.shard.driver import ShardDefinitions, ShardDriver, ShardIdentity
from sagas.core.states import (
    AttemptState,
    Check,
    IllegalTransition,
    RowState,
    ShardState,
    Suspension,
)
from sagas.definition.registry import DefinitionRegistry
from sagas.definition.start_options import StartOptions

NUMBER, NOW = 7, 50.0
TRACE = "00-0af7651916cd43dd8448eb211c80319c-b7ad6b7169203331-01"


def two() -> DefinitionRegistry:
    """Return a saga of two steps in a row; the first can be undone."""
    saga = sagas.Saga("two")

    @saga.step(tries=2)
    def a(task: sagas.Task[Any]) -> None:
        ...

    @a.compensation
    def unmake(task: sagas.Task[Any]) -> None:
        ...

    saga.step(name="b", needs=[a], tries=2)(lambda task: None)
    return DefinitionRegistry([saga])


DEFINITIONS = two()


def driver() -> ShardDriver:
    """Return a new shard with an engine."""
    shard = ShardDriver.created(
        ShardIdentity(NUMBER, "name", ShardDefinitions(DEFINITIONS.kinds)), "line"
    )
    shard.set_state(ShardState.STARTING)
    shard.set_state(ShardState.ACTIVE)
    return shard


def instance(key: str) -> SagaInstance:
    """Return a saga that is to be opened."""
    return SagaInstance(key, '{"n":1}', DEFINITIONS.kinds[0], 0)


def opened(number: int) -> str:
    """Return the reply to an open."""
    return f'{{"event":{{"def":0,"event":"open","saga":{number}}}}}'


def event(word: str, phase: str = "going", number: int = 0) -> str:
    """Return the reply to a report."""
    return f'{{"event":{{"event":"{word}","saga":{number},"step":0}},"phase":"{phase}"}}'


def tasks(*rows: tuple[int, int, str, int], settled: bool = False) -> str:
    """Return the reply to a claim: saga, step, action and number of each."""
    each = ",".join(
        f'{{"attempt":{count},"name":"x","saga":{saga},"step":{step},"task":"{word}"}}'
        for saga, step, word, count in rows
    )
    return (
        f'{{{chr(34)}settled{chr(34)}:true,"tasks":[{each}]}}'
        if settled
        else f'{{"tasks":[{each}]}}'
    )


def come(shard: ShardDriver, *replies: str, text: str = "line\n") -> Effects:
    """Return the effects of a reply."""
    effects = shard.replies(replies, text, NOW)
    assert isinstance(effects, Effects)
    return effects


def kept(shard: ShardDriver, effects: Effects) -> Effects:
    """Return the effects of a reply once its batch is durable."""
    shard.begin_commit(effects)
    shard.committed(effects)
    return effects


def begun(shard: ShardDriver, key: str = "k") -> Attempt:
    """Return the first attempt of a saga that is opened."""
    shard.open(instance(key))
    shard.requests(8)
    (attempt,) = kept(
        shard, come(shard, opened(shard.opened), tasks((shard.opened, 0, "run", 1)))
    ).dispatch
    return attempt


def test_a_saga_from_its_start_to_its_end() -> None:
    """The shard asks for it, and nothing of it counts before its commit; its end is in the batch of
    its last report.
    """
    shard, saga = driver(), instance("k")
    shard.open(saga)
    assert shard.requests(8) == ['{"def":0,"do":"open","saga":0}', '{"do":"next","most":2}']
    effects = come(shard, opened(0), tasks((0, 0, "run", 1)))
    assert (
        effects.batch.opened == [(7000, "k", "two", 0, '{"n":1}', NOW, None, None)]
        and effects.batch.new_shard
        and effects.unclaimed == 1
    )
    assert (
        effects.opened == [saga] and not saga.committed and shard.opens_sent and shard.events == 1
    )
    shard.begin_commit(effects)
    assert shard.commits_in_flight == 1 and not shard.is_over
    shard.committed(effects)
    assert (
        saga.committed
        and not shard.opens_sent
        and shard.commits_in_flight == 0
        and shard.new_shard is None
    )
    for step, phase in ((0, "going"), (1, "ended")):
        (attempt,) = effects.dispatch
        assert (attempt.step, attempt.is_uncalled, saga.busy) == (
            step,
            True,
            {attempt.action_key: attempt},
        )
        attempt.finish(outcomes.Outcome(outcomes.SUCCEEDED, str(step)), NOW)
        shard.reports[attempt] = None
        assert [*shard.unstored_reports()] == [attempt]
        assert (
            shard.requests(8)[0]
            == f'{{"attempt":1,"do":"report","outcome":"ok","saga":0,"step":{step},"task":"run"}}'
        )
        following = (
            [tasks((0, 1, "run", 1))] if phase == "going" else ['{"settled":true,"tasks":[]}']
        )
        effects = kept(shard, come(shard, event("commit", phase), *following))
        assert effects.reported == [attempt] and effects.batch.results == [
            (7000, step, "run", 1, "commit", str(step), NOW)
        ]
    assert (
        [row[0] for row in effects.batch.ended] == ["ended"]
        and effects.ended == [saga]
        and saga.over
    )
    assert shard.is_over and not shard.may_have_tasks and shard.requests(8) == []


def test_no_more_tasks_are_claimed_than_there_are_slots() -> None:
    """Without a free slot it claims none; a question has a bounded number of reports and opens."""
    shard = driver()
    for number in range(MAX_REPORTS + 10):
        shard.open(instance(f"k{number}"))
    assert (
        len(shard.requests(0)) == MAX_REPORTS
        and shard.unanswered
        and shard.unanswered.claim_count == 0
        and len(shard.opens) == 10
    )
    come(shard, *(opened(number) for number in range(MAX_REPORTS)))
    assert shard.may_have_tasks and len(shard.opens) == 10
    assert (
        shard.requests(3)[-1] == '{"do":"next","most":3}'
        and shard.drop_request() == 3
        and shard.unanswered is None
    )


def test_a_shard_that_is_full_takes_no_more() -> None:
    """Other shards take the sagas that it was asked for.

    An empty shard has room for any saga: an engine that reports otherwise is of another package.
    """
    shard, lives = driver(), [instance(f"k{number}") for number in range(3)]
    for saga in lives:
        shard.open(saga)
    shard.requests(0)
    effects = come(shard, opened(0), '{"refused":"full"}', '{"refused":"number"}')
    assert (
        effects.rare.displaced == lives[1:]
        and shard.is_full
        and not shard.has_room(1000)
        and shard.reserved == shard.opened == 1
    )
    empty, saga = driver(), SagaInstance("k", "1", two().kinds[0], 0)
    empty.open(saga)
    empty.requests(0)
    with pytest.raises(EngineDisagrees, match="an empty log was to take saga"):
        empty.replies(['{"refused":"log-full"}'], "", NOW)


def test_a_saga_past_its_deadline_is_aborted_when_opened() -> None:
    """No task of it is claimed: it is planned, and over in the batch that opens it.

    If the shard is full, it is opened elsewhere.
    """
    shard, soon = driver(), instance("soon")
    late, later = (
        SagaInstance(key, '{"n":1}', DEFINITIONS.kinds[0], 0, StartOptions(deadline=NOW))
        for key in "ab"
    )
    for saga in (soon, late, later):
        shard.open(saga)
    assert shard.requests(1, NOW)[3:] == [
        '{"do":"abort","saga":1}',
        '{"do":"abort","saga":2}',
        '{"do":"next","most":3}',
        '{"do":"show","saga":1}',
        '{"do":"show","saga":2}',
    ]
    plan = {"answer": {"kind": "plan", "cost": 3}, "phase": "ended", "saga": 1, "task": "plan"}
    claimed = json.dumps({"tasks": [{"attempt": 1, "saga": 0, "step": 0, "task": "run"}, plan]})
    aborted, no = event("abort", "draining", 1), '{"refused":"no-such-saga"}'
    end = shown("ended", plan["answer"], ["waiting", "waiting"])
    effects = kept(
        shard,
        come(shard, opened(0), opened(1), '{"refused":"full"}', aborted, no, claimed, end, no),
    )
    assert (
        effects.rare.overdue == effects.ended == [late]
        and late.aborted
        and effects.opened == [soon, late]
    )
    assert (
        effects.rare.displaced == [later]
        and not later.aborted
        and [attempt.instance for attempt in effects.dispatch] == [soon]
    )


def test_an_engine_that_knows_something_else() -> None:
    """The reply has another number of lines, a report of an attempt that is not in progress, or an
    open with another number: the shard is recovered.
    """
    shard = driver()
    attempt = begun(shard)
    attempt.finish(outcomes.Outcome(outcomes.SUCCEEDED, "1"), NOW)
    for replies in ([], ['{"error":"x"}', tasks((0, 1, "run", 1))]):
        shard.reports[attempt] = None
        shard.requests(8)
        with pytest.raises(EngineDisagrees):
            shard.replies(replies, "", NOW)
    shard.open(instance("other"))
    shard.reports.clear()
    shard.requests(0)
    with pytest.raises(EngineDisagrees):
        shard.replies(['{"refused":"number"}'], "", NOW)


def test_a_refused_commit_makes_it_stale() -> None:
    """Questions that were asked in the meantime get no reply any more; a stale shard asks
    nothing.
    """
    shard = driver()
    attempt = begun(shard)
    attempt.finish(outcomes.Outcome(outcomes.SUCCEEDED, "1"), NOW)
    shard.reports[attempt] = None
    shard.requests(8)
    effects = come(shard, event("commit"), tasks((0, 1, "run", 1)))
    shard.begin_commit(effects)
    shard.requests(5)
    assert (
        shard.failed(effects) == 2
        and shard.state is ShardState.STALE
        and shard.commits_in_flight == 0
        and not shard.is_current
    )
    assert [*shard.unstored_reports()] == [attempt] and shard.fail() == 0


def shown(phase: str, answer: object, states: list[str]) -> str:
    """Return a reply to `show`."""
    reply = {
        "aborted": False,
        "kept": [],
        "name": "trip",
        "phase": phase,
        "saga": 0,
        "states": states,
    }
    return json.dumps(
        reply | ({"answer": answer} if answer else {}), separators=(",", ":"), sort_keys=True
    )


def test_a_failing_saga_drains_and_its_result_is_requested() -> None:
    """Once it is over, its result goes into the batch of the reply that ends it.

    The question is sent along with the report that should end it; if another report ends it, after
    that reply.
    """
    shard = driver()
    attempt = begun(shard)
    saga = attempt.instance
    attempt.finish(outcomes.failure("no", final=True), NOW)
    shard.reports[attempt] = None
    report, _, look = shard.requests(8)
    assert '"outcome":"fail"' in report and look == '{"do":"show","saga":0}' and saga.has_deviated
    effects = kept(
        shard, come(shard, event("fail", "planning"), '{"tasks":[]}', shown("planning", None, []))
    )
    assert effects.rare.draining == [saga] and saga.draining and "no" in saga.rare.errors[0]
    shard.requests(8)
    plan = {"answer": {"kind": "plan", "cost": 3}, "phase": "ended", "saga": 0, "task": "plan"}
    claim = json.dumps({"settled": True, "tasks": [plan]})
    (show,) = shard.replies([claim], "plan\n", NOW)  # type: ignore[misc]
    assert show == '{"do":"show","saga":0}'
    effects = kept(
        shard, come(shard, shown("ended", plan["answer"], ["fixed", "waiting"]), text="")
    )
    assert (
        effects.rare.planned == [saga]
        and effects.ended == [saga]
        and effects.batch.text == "plan\n"
    )
    ((phase, outcome, recovered, undo_failed, at, id),) = effects.batch.ended
    assert outcome == (
        '{"aborted":false,"answer":{"cost":3,"kind":"plan"},"kept":[],'
        '"states":["fixed","waiting"]}'
    )
    assert (phase, recovered, undo_failed, at, id) == (
        "ended",
        True,
        True,
        NOW,
        7000,
    ) and not shard.sagas


def test_an_abort_is_answered() -> None:
    """The reply comes with the command of the abort, in the batch."""
    shard = driver()
    saga = begun(shard).instance
    for reply, done in (('{"refused":"over"}', False), (event("abort", "draining"), True)):
        abort = Abort(saga, command=4)
        shard.abort(abort)
        shard.requests(0)
        effects = come(shard, reply)
        assert (
            effects.rare.aborted == [abort]
            and abort.done is done
            and shard.aborts_sent == [abort]
            and saga.aborted is done
        )
        assert effects.batch.rare and effects.batch.rare.answers == [
            ("true" if done else "false", 4)
        ]
        kept(shard, effects)
        assert shard.aborts_sent == []


def test_a_suspension_is_kept_by_itself() -> None:
    """Its batch has only the row, after the replies before it."""
    shard = driver()
    attempt = begun(shard)
    effects = shard.suspended(attempt, SuspensionRow(Suspension.UNKNOWN, 60.0, "lost"), NOW)
    assert effects.batch.rare and effects.batch.rare.held == [
        (7000, 0, "run", 1, "unknown", 0, 0.0, 60.0, "lost")
    ]
    assert (
        [suspended for suspended, _ in effects.rare.suspended] == [attempt]
        and effects.batch.first == 1
        and not effects.batch.text
    )


def test_a_state_that_may_not_follow(monkeypatch: pytest.MonkeyPatch) -> None:
    """The table forbids it."""
    monkeypatch.setattr(Check, "is_on", True)
    shard = driver()
    shard.set_state(ShardState.CLOSED)
    with pytest.raises(IllegalTransition):
        shard.set_state(ShardState.ACTIVE)


def rows(*, results: list[Any] = [], held: list[Any] = [], open: bool = True) -> LoadedShard:
    """Return the rows of the store for a shard with one saga."""
    there = [(7000, "k", 0, '{"n":1}', 9.0, TRACE, None, 0.0)] if open else []
    return LoadedShard("x\n", 1, 1, there, results, held, epoch=3, timeline="other")


def recovered(
    shard: ShardDriver, loaded: LoadedShard, busy: list[tuple[int, str, int]]
) -> recovery.Recovery:
    """Return a shard that was recovered from them."""
    shard.fail()
    shard.set_state(ShardState.LOADING)
    shard.loaded(loaded)
    known = {saga.key: saga for saga in shard.sagas.values()}
    starting, new = recovery.take_unopened(shard, loaded, known)
    assert not starting and not new and recovery.requests(loaded) == ['{"do":"busy"}']
    busy_tasks = [
        {"saga": 0, "step": step, "task": word, "attempt": count} for step, word, count in busy
    ]
    return recovery.recover(loaded, [json.dumps({"busy": busy_tasks})], NOW, shard, known)


def test_recovery_keeps_running_attempts_and_drops_new_ones() -> None:
    """An attempt that the engine knows as started stays the same one; another one, which the store
    does not know, is dropped.
    """
    shard = driver()
    attempt = begun(shard)
    attempt.start()
    recovery_result = recovered(shard, rows(), [(0, "run", 1)])
    assert (
        recovery_result.resumed == [attempt]
        and attempt.state is AttemptState.RUNNING
        and not recovery_result.forgotten
    )
    assert (
        shard.state is ShardState.ACTIVE
        and shard.fence == (3, "other")
        and shard.epoch == 3
        and recovery_result.restored == [attempt.instance]
    )
    recovery_result = recovered(shard, rows(), [])
    assert (
        recovery_result.resumed == []
        and recovery_result.forgotten == [attempt]
        and attempt.instance.busy == {}
    )


def test_a_finished_attempt_is_reported_again_or_replaced() -> None:
    """It stays finished. If its transaction is missing, a new attempt replaces it."""
    shard = driver()
    attempt = begun(shard)
    attempt.finish(outcomes.Outcome(outcomes.SUCCEEDED, "1"), NOW)
    shard.reports[attempt] = None
    recovery_result = recovered(shard, rows(), [(0, "run", 1)])
    assert (
        recovery_result.resumed == [attempt]
        and attempt.state is AttemptState.FINISHED
        and [*shard.unstored_reports()] == []
    )
    attempt.is_recorded = True
    recovery_result = recovered(shard, rows(), [(0, "run", 1)])
    (other,) = recovery_result.resumed
    assert (
        recovery_result.forgotten == [attempt]
        and other is not attempt
        and other.state is AttemptState.CLAIMED
        and not other.is_uncalled
    )


@pytest.mark.parametrize(
    ("epoch", "line", "is_ours"),
    [(1, "line", True), (2, "line", True), (3, "line", False), (2, "other", False)],
)
def test_an_attempt_that_was_given_up_is_decided_again(
    epoch: int, line: str, is_ours: bool
) -> None:
    """A waiting attempt is made again from its row if another node may have had the shard, or
    another server took over: it may have been called there.
    """
    shard = driver()
    attempt = begun(shard)
    attempt.finish(outcomes.failure("not called", called=False), NOW)
    shard.reports[attempt] = None
    loaded = dataclasses.replace(rows(), epoch=epoch, timeline=line)
    (given_up,) = recovered(shard, loaded, [(0, "run", 1)]).resumed
    assert (
        given_up is not attempt
        and given_up.state is AttemptState.CLAIMED
        and given_up.is_uncalled is is_ours
    )
    shard.fence = (1, "line")
    given_up.suspend(Suspension.BACKOFF, NOW + 1)
    recovery_result = recovered(shard, loaded, [(0, "run", 1)])
    (other,) = recovery_result.resumed
    assert (
        (other is given_up) is is_ours
        and (given_up in recovery_result.forgotten) is not is_ours
        and other.is_uncalled is is_ours
    )


def test_rows_of_an_earlier_program() -> None:
    """A result without its report is reported; a suspension continues; a saga that is
    over is gone.
    """
    row = (7000, 0, "run", 1)
    begun_before = recovered(
        begun_shard := driver(), rows(results=[(*row, "ok", '"r"', 9.0)]), [(0, "run", 1)]
    )
    (attempt,) = begun_before.resumed
    assert (
        attempt.state is AttemptState.FINISHED
        and attempt.outcome
        and attempt.outcome.value == '"r"'
        and attempt.finished_at == 9.0
    )
    held = (*row, "unknown", 2, 5.0, 60.0, "lost")
    (attempt,) = recovered(driver(), rows(held=[held]), [(0, "run", 1)]).resumed
    assert (attempt.reason, attempt.count, attempt.until) == (Suspension.UNKNOWN, 2, 60.0)
    assert attempt.row_state is RowState.STORED and not attempt.is_uncalled
    saga = attempt.instance
    assert saga.rare.waits_over == {(0, "run")} and begun_shard.may_have_tasks
    gone = recovered(begun_shard, rows(open=False), [])
    assert [saga.key for saga in gone.gone] == ["k"] and not gone.restored and not begun_shard.sagas


def test_aborts_are_repeated_or_answered() -> None:
    """An abort of a saga that is open again is repeated; the abort of a saga that is gone did
    nothing.
    """
    shard = driver()
    saga = begun(shard).instance
    abort = Abort(saga)
    shard.abort(abort)
    shard.requests(0)
    assert (
        recovered(shard, rows(), []).aborted == []
        and shard.aborts == [abort]
        and shard.aborts_sent == []
    )
    recovery_result = recovered(shard, rows(open=False), [])
    assert recovery_result.aborted == [abort] and abort.done is False and shard.aborts == []


def aborted_by_the_log(shard: ShardDriver) -> recovery.Recovery:
    """Return a shard that was recovered after its engine ended, with an abort in its log."""
    loaded = rows()
    loaded.text = event("abort", "draining")
    shard.fail()
    shard.set_state(ShardState.LOADING)
    shard.loaded(loaded)
    reply = shown("draining", None, ["running", "waiting"]).replace("false", "true", 1)
    known = {saga.key: saga for saga in shard.sagas.values()}
    busy_reply = json.dumps({"busy": [{"saga": 0, "step": 0, "task": "run", "attempt": 1}]})
    return recovery.recover(loaded, [busy_reply, reply], NOW, shard, known)


@pytest.mark.parametrize("is_answered", [False, True])
def test_a_saga_is_aborted_by_one_abort(is_answered: bool) -> None:
    """Two aborts were requested when the engine ended: the first one counts, or neither if another
    one had its reply before.
    """
    shard = driver()
    saga = begun(shard).instance
    if is_answered:
        before = Abort(saga)
        shard.abort(before)
        shard.requests(0)
        kept(shard, come(shard, event("abort", "draining")))
        assert before.done
    aborts = [Abort(saga), Abort(saga)]
    for abort in aborts:
        shard.abort(abort)
    shard.requests(0)
    recovery_result = aborted_by_the_log(shard)
    assert recovery_result.aborted == aborts
    assert [abort.done for abort in aborts] == [not is_answered, False]


def test_a_saga_that_comes_from_the_store_has_its_options() -> None:
    """Another program started it: deadline and trace context are in the store."""
    shard = driver()
    recovery_result = recovered(shard, rows(), [])
    (saga,) = recovery_result.restored
    assert (saga.options.deadline, saga.options.traceparent) == (9.0, TRACE)
    attempt = Attempt(saga, 0, "run", 1, is_uncalled=True)
    assert attempt.traceparent == attempt.task().traceparent == TRACE


def test_labels_go_with_the_row_of_their_saga() -> None:
    """A saga that is displaced takes them into the next shard; other sagas have no row of them."""
    saga = SagaInstance(
        "k",
        "1",
        DEFINITIONS.kinds[0],
        0,
        StartOptions({"customer": "7", "region": "north"}, 5.0, traceparent=TRACE),
    )
    full, shard = driver(), driver()
    for each in (full, shard):
        each.open(saga)
        each.requests(0)
        effects = come(each, '{"refused":"full"}' if each is full else opened(0))
        labels = effects.batch.rare.labels if effects.batch.rare else []
        id = NUMBER * 1000
        rows = [(id, "customer", "7"), (id, "region", "north")]
        assert labels == ([] if each is full else rows) and bool(effects.rare.displaced) is (
            each is full
        )
        assert [row[-2:] for row in effects.batch.opened] == (
            [] if each is full else [(5.0, TRACE)]
        )
    shard.open(instance("other"))
    shard.requests(0)
    assert come(shard, opened(1)).batch.rare is None


def test_a_plan_comes_with_its_compensations() -> None:
    """For each saga that is expected to be planned, one more task is claimed, also beyond the
    slots: a plan comes before the compensations.
    """
    shard = driver()
    first, second = begun(shard, "one"), begun(shard, "two")
    for attempt in (first, second):
        attempt.attempt = attempt.instance.kind.tries["run"][attempt.step]
        attempt.finish(outcomes.failure("sold out", final=True), NOW)
        shard.reports[attempt] = None
    assert shard.requests(2)[2] == '{"do":"next","most":4}'
    shows = [shown("draining", None, []), shown("draining", None, [])]
    shard.replies(
        (event("fail", "draining"), event("fail", "draining", 1), tasks(settled=True), *shows),
        "",
        NOW,
    )
