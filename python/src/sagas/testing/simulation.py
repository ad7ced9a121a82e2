"""`Simulation`: one saga in memory, and `Family`: a saga with its descendants.

A simulation uses the `ShardDriver` and the `AttemptMachine` of a store. A store has an event loop,
a database and timers. A simulation has a heap of due events instead, and a clock that advances to
the next one. It makes no decisions itself.
"""

from __future__ import annotations

import asyncio
import dataclasses
import enum
import heapq
import json
import subprocess
from collections import Counter
from collections.abc import Mapping, Sequence
from typing import Any

from sagas.base import program
from sagas.base.errors import (
    CannotDecode,
    EngineError,
    Fail,
    InvalidError,
    NotSerializable,
    ProgramError,
)
from sagas.core import outcomes, protocol, reports
from sagas.core.attempt import child_attempts
from sagas.core.attempt.directives import Decision, Do
from sagas.core.attempt.machine import AttemptMachine
from sagas.core.effects import Abort, Effects
from sagas.core.states import (
    AFTER_FAILURE,
    Action,
    OutcomeKind,
    SagaPhase,
    StepState,
    Suspension,
    saga_phase,
    step_state,
)
from sagas.core.history import EFFECT_STATES, fan_of, live_json_result
from sagas.core.attempt.model import Attempt, RUNNING, SUSPENDED, SuspensionRow, undoes_failure
from sagas.core.attempt.instance import SagaInstance
from sagas.core.outcomes import Outcome, PERMANENT, SUCCEEDED, is_optional_failure
from sagas.core.shard.driver import MAX_CLAIMS, ShardDefinitions, ShardDriver, ShardIdentity
from sagas.definition import (
    child_sagas,
    end_calls,
    serialization,
    tokens,
    undo_sagas,
    validation,
)
from sagas.definition.child_sagas import undoes_child
from sagas.definition.compiled import CompiledDefinition
from sagas.definition.parts import SagaParts
from sagas.definition.payloads import Payloads
from sagas.definition.shape import Shape, write_definition
from sagas.definition.start_options import StartOptions, deadline_at
from sagas.definition.task_data import Context
from sagas.runtime import invocation
from sagas.testing import scripts
from sagas.testing.scripts import Rule, for_step
from sagas.testing.trial import Call, Clock, Trial


class Engine:
    """A process `sagas drive` for one definition, for use by `with`."""

    def __init__(self, definition: str) -> None:
        self._texts = program.TextFiles([definition])
        try:
            command = [program.path(), "drive", *self._texts.paths]
            self._process = subprocess.Popen(
                command,
                stdin=subprocess.PIPE,
                stdout=subprocess.PIPE,
                pass_fds=self._texts.files,
                start_new_session=True,
            )
        except BaseException:
            self._texts.close()
            raise
        self._texts.close_passed_files()

    def __enter__(self) -> Engine:
        return self

    def __exit__(self, *_: object) -> None:
        assert self._process.stdin and self._process.stdout
        self._process.stdin.close()
        self._process.stdout.close()
        self._process.wait()
        self._texts.close()

    def ask(self, lines: Sequence[str]) -> list[str]:
        """Return the replies to some requests.

        Raises:
            EngineError: The process ended unexpectedly.
        """
        assert self._process.stdin and self._process.stdout
        self._process.stdin.write("".join(f"{line}\n" for line in lines).encode())
        self._process.stdin.flush()
        replies = [self._process.stdout.readline() for _ in lines]
        if not all(replies):
            raise EngineError("sagas drive ended unexpectedly")
        return [reply.decode().rstrip("\n") for reply in replies]


MAX_CALLS = 10_000
FAILURES = (OutcomeKind.FAILED, OutcomeKind.FAILED_PERMANENTLY)


@dataclasses.dataclass(frozen=True, slots=True)
class Scenario:
    """The events that a test determines for one saga.

    Attributes:
        rules: The rules by step, for each of `failed` and `unknown`, and of `run` and `undo`.
        answers: The answers, by step.
        abort: The step after whose commit the saga is aborted, or None.
        connection: The value of `task.connection`.
        deadline: When the saga is aborted, by the clock of the simulation, or None.
        early: The outcomes that are reported before the steps start, by step.
        children: The scenarios of the children, by step.
        concurrency: Maximum concurrent calls of functions; None for no limit.
        end: The scenario of the call after the end, or None.
    """

    rules: Mapping[tuple[str, str], Mapping[str, Rule]]
    answers: Mapping[str, Any]
    abort: str | None = None
    connection: Any = None
    deadline: float | None = None
    early: Mapping[str, Outcome] = dataclasses.field(default_factory=dict)
    children: Mapping[str, Scenario] = dataclasses.field(default_factory=dict)
    concurrency: int | None = None
    end: Scenario | None = None

    def undoing(self) -> Scenario:
        """Return the scenario of the saga that undoes this one by compensations."""
        rules = {(outcome, "run"): self.rules[outcome, "undo"] for outcome, _ in self.rules}
        rules |= {(outcome, "undo"): {} for outcome, _ in self.rules}
        below = {step: scenario.undoing() for step, scenario in self.children.items()}
        return dataclasses.replace(
            self, rules=rules, abort=None, deadline=None, early={}, children=below, end=None
        )

    def child(self, step: str) -> Scenario:
        """Return the scenario of the child of a step, which may be that of an item."""
        return self.children.get(step) or self.children[step.rpartition("-")[0]]

    def rule(self, outcome: str, attempt: Attempt, count: int) -> Exception | None:
        """Return the exception with which an attempt is to end, or None.

        Args:
            outcome: `failed` or `unknown`.
            attempt: The attempt.
            count: The number of the attempt, or of the call, from 1.
        """
        rule = for_step(attempt, self.rules[outcome, attempt.kind])
        return rule(count) if rule else None


class Due(enum.Enum):
    """The kinds of due events of an attempt."""

    CALL = enum.auto()
    """Its function is called."""
    TIMER = enum.auto()
    """Its timer expires."""
    ANSWER = enum.auto()
    """A person, or another program, reports its outcome."""
    CHILD = enum.auto()
    """Its child saga runs."""


class Simulation:
    """A simulation of one saga, from its start to its end."""

    def __init__(
        self,
        key: str,
        text: str,
        kind: CompiledDefinition,
        scenario: Scenario,
        clock: Clock,
        children: Family,
        name: str = "test",
        shape: str | None = None,
    ) -> None:
        self._kind, self._scenario, self._clock = kind, scenario, clock
        self._children, self._followed = children, set[Attempt]()
        identity = ShardIdentity(0, name, ShardDefinitions([kind]))
        self._driver, self._machine = ShardDriver.created(identity), AttemptMachine()
        options = StartOptions(deadline=scenario.deadline, shape=shape)
        self._saga = SagaInstance(key, text, kind, 0, options)
        self._started_at = clock()
        self._due: list[tuple[float, int, Due, Attempt]] = []
        self._order = 0
        self._returns: Counter[tuple[int, str]] = Counter()
        self._calls: list[Call] = []
        self._noted: Outcome | None = None
        self._is_overdue = False
        self._fault: Exception | None = None  # an error of the test that a function met

    @property
    def saga(self) -> SagaInstance:
        """The saga in its present state."""
        return self._saga

    async def play(self, engine: Engine) -> Trial:
        """Run the saga to its end, and return its result."""
        self._driver.open(self._saga)
        for name, outcome in self._scenario.early.items():
            for step, step_name in enumerate(self._kind.names):
                if name in (step_name, self._kind.declared_name(step)):
                    key = (step, Action.RUN.value)
                    reports.EarlyReport(self._saga, key, outcome).keep()
        self._turn(engine)
        while self._due:
            deadline = self._saga.options.deadline
            if deadline is not None and self._due[0][0] >= deadline and not self._is_overdue:
                self._is_overdue = True
                self._clock.advance(max(0.0, deadline - self._clock()))
                self._driver.abort(Abort(self._saga))
                self._turn(engine)
                continue
            at, _, due, attempt = heapq.heappop(self._due)
            if self._is_due(at, due, attempt):
                self._clock.advance(max(0.0, at - self._clock()))
                await self._handle(due, attempt)
                self._turn(engine)
        return self._trial(engine)

    # -- due events

    def _put(self, at: float, due: Due, attempt: Attempt) -> None:
        self._order += 1
        heapq.heappush(self._due, (at, self._order, due, attempt))

    @staticmethod
    def _is_due(at: float, due: Due, attempt: Attempt) -> bool:
        """Return whether an event is still due: a saga that drains cancels attempts."""
        if due is Due.CALL:
            return attempt.state is RUNNING
        is_timed = due is not Due.TIMER or attempt.until is None or attempt.until <= at
        return attempt.state is SUSPENDED and is_timed

    async def _handle(self, due: Due, attempt: Attempt) -> None:
        now = self._clock()
        if due is Due.TIMER:
            self._do(attempt, self._machine.timer(attempt, now))
        elif due is Due.ANSWER:
            error = attempt.reason is Suspension.EXTERNAL and self._scenario.rule(
                "failed", attempt, attempt.attempt + attempt.failures
            )
            outcome = outcomes.raised(error, attempt.manner) if error else self._answer(attempt)
            report = self._machine.ended if error else self._machine.finish
            self._do(attempt, report(attempt, outcome, now))
        elif due is Due.CHILD:
            outcome = await self._child(attempt)
            self._do(attempt, self._machine.ended(attempt, outcome, self._clock()))
        else:
            outcome = await self._outcome(attempt)
            if outcome.kind is OutcomeKind.UNKNOWN:
                self._note(attempt, outcome)
            self._do(attempt, self._machine.ended(attempt, outcome, self._clock()))

    # -- a turn of the shard

    def _turn(self, engine: Engine) -> None:
        """Send requests to the engine until there are none left."""
        driver = self._driver
        while lines := driver.requests(self._free(), self._clock()):
            result = driver.replies(engine.ask(lines), "", self._clock())
            while isinstance(result, list):  # more requests
                result = driver.replies(engine.ask(result), "", self._clock())
            self._commit(result)

    def _free(self) -> int:
        """Return how many tasks may be claimed."""
        maximum = self._scenario.concurrency
        if maximum is None:
            return MAX_CLAIMS
        return maximum - sum(attempt.state is RUNNING for attempt in self._saga.busy.values())

    def _drain(self, saga: SagaInstance) -> None:
        for attempt, decision in self._machine.drain(saga, self._clock()):
            self._do(attempt, decision)

    def _commit(self, effects: Effects) -> None:
        """Apply effects as if the store had committed them."""
        self._driver.begin_commit(effects)
        self._driver.committed(effects)
        for attempt in effects.reported:
            declared = self._kind.declared_name(attempt.step)
            if attempt.event == "commit" and self._scenario.abort in (attempt.name, declared):
                self._driver.abort(Abort(self._saga))
        for attempt, _ in effects.rare.suspended:
            self._stored(attempt)
        for saga in effects.rare.draining:
            self._drain(saga)
        for abort in effects.rare.aborted:
            if abort.done:
                self._drain(abort.saga)
        for attempt in effects.dispatch:
            self._do(attempt, self._machine.begin(attempt, self._clock()))

    def _do(self, attempt: Attempt, decision: Decision) -> None:
        """Carry out a decision about an attempt."""
        if decision.do is Do.CALL:
            attempt.queue()
            attempt.start()
            self._put(self._clock(), Due.CALL, attempt)
        elif decision.do in (Do.REPORT, Do.REPORT_AGAIN):
            assert attempt.outcome
            if attempt.outcome.called and not undoes_failure(attempt):
                self._note(attempt, attempt.outcome)
            self._driver.reports[attempt] = None
        elif decision.do is Do.ASK:
            assert decision.option_calls
            attempt.rare.returned |= decision.option_calls.answers()
            self._do(attempt, self._machine.decide_again(attempt, self._clock()))
        elif decision.do is Do.OFFER:
            self._put(self._clock(), Due.ANSWER, attempt)
        elif decision.do is Do.FOLLOW and attempt not in self._followed:
            self._followed.add(attempt)
            self._put(self._clock(), Due.CHILD, attempt)
        elif decision.do is Do.SUSPEND and decision.timer:
            self._wait(attempt)
        if decision.row:
            self._suspend(attempt, decision.row)

    def _suspend(self, attempt: Attempt, row: SuspensionRow) -> None:
        if row.reason is Suspension.CANNOT_DECODE:
            raise CannotDecode(row.error)
        if row.reason is Suspension.PROGRAM_ERROR:
            assert attempt.outcome and attempt.outcome.error
            raise attempt.outcome.error
        if row.reason in AFTER_FAILURE and attempt.outcome:
            self._note(attempt, attempt.outcome)
        attempt.expect_row(row)
        self._commit(self._driver.suspended(attempt, row, self._clock()))

    def _stored(self, attempt: Attempt) -> None:
        self._do(attempt, self._machine.stored(attempt))
        is_child = attempt.reason is Suspension.CHILD
        if attempt.state is SUSPENDED and attempt.until is None and not is_child:
            self._put(self._clock(), Due.ANSWER, attempt)

    def _wait(self, attempt: Attempt) -> None:
        """Let an attempt wait for its time, or for the answer of the test to an approval."""
        has_answer = for_step(attempt, dict.fromkeys(self._scenario.answers, True))
        if attempt.reason is Suspension.APPROVAL and has_answer:
            self._put(self._clock(), Due.ANSWER, attempt)
        elif attempt.until is not None:
            self._put(max(self._clock(), attempt.until), Due.TIMER, attempt)

    # -- a call

    async def _child(self, attempt: Attempt) -> Outcome:
        """Return the outcome of a child, or the failure that the test determines."""
        self._followed.discard(attempt)
        error = self._scenario.rule("failed", attempt, attempt.attempt + attempt.failures)
        if error is not None:
            return outcomes.raised(error, attempt.manner)
        if self._saga.aborted and not attempt.undo:
            return outcomes.failure("its child saga was not started: the saga was aborted")
        scenario = self._scenario.child(attempt.declared.name)
        scenario = dataclasses.replace(scenario, deadline=self._saga.options.deadline)
        return await self._children.run(attempt, scenario)

    async def _outcome(self, attempt: Attempt) -> Outcome:
        """Return the outcome of a call, or the one that the test determines."""
        count = attempt.attempt + attempt.failures
        error = self._scenario.rule("failed", attempt, count)
        if error is not None:
            return outcomes.raised(error, attempt.manner)
        outcome = await self._call(attempt)
        if outcome.kind is not OutcomeKind.SUCCEEDED:
            return outcome
        self._returns[attempt.action_key] += 1
        error = self._scenario.rule("unknown", attempt, self._returns[attempt.action_key])
        return outcome if error is None else outcomes.unknown(str(error))

    async def _call(self, attempt: Attempt) -> Outcome:
        task, manner = attempt.task(), attempt.manner
        if manner.transaction:
            task._enter_by(self._connection)
        outcome = await invocation.call(manner, task, None)
        if outcome is None:
            raise asyncio.CancelledError
        if self._fault:
            raise self._fault
        is_result = outcome.kind is OutcomeKind.SUCCEEDED and not attempt.undo
        if is_result and attempt.declared.kind != "approval":
            serialization.stored(json.loads(outcome.value), task.step)
        return outcome

    def _connection(self) -> Any:
        """Return the connection for a step with `transaction=True`."""
        if self._scenario.connection is None:
            self._fault = RuntimeError("sagas.testing has no database. Set connection=...")
            raise self._fault
        return self._scenario.connection

    def _answer(self, attempt: Attempt) -> Outcome:
        """Return the outcome that a person, or another program, reports."""
        answers, name = self._scenario.answers, attempt.name
        if name not in answers:
            name = self._kind.declared_name(attempt.step)
        if name not in answers and attempt.reason is Suspension.EXHAUSTED:
            undoes = undoes_child(attempt.key)
            if attempt.is_child and (attempt.undo or undoes) and attempt.outcome:
                return attempt.outcome  # a person has answered in the saga that undoes it
        if name not in answers:
            step = f"{'the compensation of ' if attempt.undo else ''}step {name!r}"
            remedy = f"Set answers={{{name!r}: ...}}"
            raise LookupError(f"{step} {self._waits(attempt)}. {remedy}")
        answer = answers[name]
        try:
            if callable(answer):
                answer = answer(attempt.task())
            if isinstance(answer, Exception):
                raise answer
        except Exception as error:
            text = f"{type(error).__name__}: {error}"
            return outcomes.failure(text, final=isinstance(error, Fail))
        text = serialization.write_value(answer, f"answers[{name!r}]")
        return Outcome(OutcomeKind.SUCCEEDED, text)

    @staticmethod
    def _waits(attempt: Attempt) -> str:
        if attempt.reason is Suspension.UNKNOWN and attempt.outcome:
            times = f"{attempt.count} calls" if attempt.count > 1 else "1 call"
            return f"has an unknown outcome after {times}, the last one: {attempt.outcome.value}"
        if attempt.reason is Suspension.EXHAUSTED:
            return "has used up its attempts, and waits for an answer (on_exhausted='ask')"
        return "waits for an answer"

    # -- the result

    def _note(self, attempt: Attempt, outcome: Outcome) -> None:
        if outcome is self._noted:
            return
        self._noted = outcome
        if len(self._calls) >= MAX_CALLS:
            remedy = "If an outcome stays unknown, set max_unknown"
            raise RuntimeError(f"the saga makes more than {MAX_CALLS:,} calls. {remedy}")
        value: Any = outcome.value
        kind = PERMANENT if is_optional_failure(outcome) else outcome.kind
        if kind is not outcome.kind:
            value = outcomes.error_text(outcome)
        elif kind is not OutcomeKind.UNKNOWN:
            reported = json.loads(value)
            value = reported["error"] if outcome.kind in FAILURES else reported
        self._calls.append(
            Call(
                attempt.name,
                attempt.undo,
                attempt.attempt,
                attempt.token(),
                self._spent(),
                str(kind),
                value,
                attempt.extras.control.progress
                if attempt.extras and attempt.extras.control
                else None,
            )
        )

    def _trial(self, engine: Engine) -> Trial:
        reply = json.loads(engine.ask([protocol.show_line(0)])[0])
        names, answer = self._kind.names, self._saga.answer or {}
        failed = serialization.optional_failures(self._saga.results | self._saga.dropped_failures)
        states = [
            StepState.FAILED if step in failed else step_state(text)
            for step, text in enumerate(reply["states"])
        ]
        committed = [step for step, state in enumerate(states) if state in EFFECT_STATES]
        return Trial(
            phase=saga_phase(reply["phase"], answer.get("kind") == "plan", None).value,
            states={name: state.value for name, state in zip(names, states)},
            results={
                names[step]: serialization.fitting(
                    self._kind.payloads.decode(self._saga.results[step]),
                    self._kind.decoders.get(names[step]),
                )
                for step in committed
            },
            cost=None if self._kind.pivot else answer.get("cost"),
            blocking_steps=[names[step] for step in answer.get("chain", ())],
            aborted=reply["aborted"],
            calls=self._calls,
            seconds=self._spent(),
            saga=self._kind.name,
            key=self._saga.key,
            fan=fan_of(self._kind, self._saga.options.shape),
            optional_failures=[names[step] for step in sorted(failed)],
        )

    def _spent(self) -> float:
        return round(self._clock() - self._started_at, 6)


class Family:
    """A simulated saga and its descendants, which run one after another.

    Attributes:
        trials: The results of the descendants, by key.
    """

    def __init__(self, clock: Clock, context: Context, payloads: Payloads) -> None:
        self._clock, self._context, self._payloads = clock, context, payloads
        self._members: dict[str, tuple[Simulation, CompiledDefinition, str]] = {}
        self.trials: dict[str, Trial] = {}

    async def play(self, saga: SagaParts, key: str, input: Any, scenario: Scenario) -> Trial:
        """Run a saga to its end, and return its result.

        Raises:
            KeyError: The scenario names an item that the input does not have.
            InvalidInput: The input does not have a type that the saga or its functions name.
            NotSerializable: The input is not JSON.
        """
        text, values = serialization.write_value(input, "input"), None
        if saga.is_shaped:
            shape = Shape(saga, text)
            definition, values = write_definition(shape), self._payloads.encode(shape.values.text())
        else:
            definition = validation.checked_text(saga)
        kind = CompiledDefinition(definition, saga, self._context, self._payloads)
        if error := kind.input_types.error(text):
            raise error
        if kind.layout is not None:
            scripts.check_items(saga, kind.layout, _named(scenario))
        text = kind.payloads.encode(text)
        name = f"test{len(self._members) or ''}"
        simulation = Simulation(key, text, kind, scenario, self._clock, self, name, values)
        self._members[key] = simulation, kind, tokens.saga_token(name, 0)
        with Engine(kind.text) as engine:
            trial = await simulation.play(engine)
        if saga.end_saga is not None and scenario.end is not None:
            plain = kind.payloads.decode(text)
            await self._call_end(saga.end_saga, simulation.saga, plain, scenario.end)
        return trial

    async def _call_end(
        self, end_saga: SagaParts, ended: SagaInstance, text: str, scenario: Scenario
    ) -> None:
        """Call the `on_end` function of a saga. `text` is its input as JSON."""
        shape = ended.options.shape
        values = None if shape is None else self._payloads.decode(shape)
        input = end_calls.input_of(text, live_json_result(ended), ended.kind.text, values)
        key = child_sagas.end_key(ended.key)
        self.trials[key] = await self.play(end_saga, key, input, scenario)

    async def run(self, attempt: Attempt, scenario: Scenario) -> Outcome:
        """Run the child of an attempt to its end, and return the outcome of the attempt."""
        child = attempt.declared.child
        assert child
        is_undoing = attempt.undo or attempt.instance.kind.undoes is not None
        saga = self._undo_saga(attempt, child) if is_undoing else child
        if saga is None:
            return Outcome(SUCCEEDED, "null")
        if attempt.undo:
            scenario = scenario.undoing()
        elif not is_undoing:
            own_deadline = deadline_at(saga.deadline, self._clock())
            deadlines = [at for at in (scenario.deadline, own_deadline) if at is not None]
            scenario = dataclasses.replace(scenario, deadline=min(deadlines, default=None))
        try:
            child_input = self._input(attempt)
        except (CannotDecode, ProgramError, Fail) as error:
            return outcomes.raised(error, attempt.manner)
        except InvalidError as error:
            return outcomes.failure(f"{type(error).__name__}: {error}", final=True)
        except Exception as error:  # of the step's function
            return outcomes.raised(error, attempt.manner)
        if child_attempts.has_no_items(saga, child_input):
            return Outcome(SUCCEEDED, "[]")
        key = child_attempts.key_of(attempt)
        try:
            trial = self.trials[key] = await self.play(saga, key, child_input, scenario)
        except NotSerializable as error:
            return outcomes.failure(f"{type(error).__name__}: {error}", final=True)
        simulation, kind, _ = self._members[key]
        if trial.phase == SagaPhase.STUCK:  # as if an operator had resolved it
            trial = dataclasses.replace(trial, phase=SagaPhase.RESOLVED.value)
        outcome = child_attempts.child_outcome(trial, kind, simulation.saga.results)
        assert outcome
        return Outcome(SUCCEEDED, "null") if attempt.undo and outcome.kind is SUCCEEDED else outcome

    def _undo_saga(self, attempt: Attempt, child: SagaParts) -> SagaParts | None:
        """Return the saga that undoes the child of an attempt; None if nothing is to be undone."""
        if child.starts_for is None:
            return undo_sagas.undo_saga(child)
        key = child_attempts.undone_key(attempt)
        assert key
        text = undo_sagas.undo_text_of_child(child, self._members[key][1].text)
        return None if text is None else undo_sagas.undo_saga_of_text(child, text)

    def _input(self, attempt: Attempt) -> Any:
        key = child_attempts.undone_key(attempt)
        if key is None:
            return child_attempts.child_input(attempt)()
        simulation, kind, token = self._members[key]
        saga_instance = simulation.saga
        undone = child_attempts.undone_steps(self.trials[key].states, ())
        text, results = saga_instance.text, saga_instance.results
        return child_attempts.undo_input(key, token, kind, text, results, undone)


def _named(scenario: Scenario) -> set[str]:
    """Return the names of the steps in a scenario."""
    names = {name for rules in scenario.rules.values() for name in rules}
    names |= {*scenario.answers, *scenario.early}
    return names | {scenario.abort} if scenario.abort else names
