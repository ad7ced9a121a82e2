"""A shard without a store's event loop, functions and database: the core under random errors.

A `World` takes the part of the runtime: an engine (`sagas drive --lines`), a store in memory, and
functions that end when the test says so. Commits of the store may be refused or lose their reply. A
seeded generator draws each of its moves, so that one number reproduces a failure. At the end
`sagas audit` and the reference model of `follower.py` check the event log, and the rows are
compared with the log.
"""

from __future__ import annotations

import itertools
import json
import pathlib
import random
import subprocess
from collections import Counter, deque
from collections.abc import Callable, Sequence
from typing import Any

from driving import audit, program
from follower import Definition, Follower

import sagas
from sagas.core import outcomes, recovery
from sagas.core.attempt import machine as attempt_machine
from sagas.core.attempt.directives import Decision, Do
from sagas.core.attempt.machine import AttemptMachine, is_reportable
from sagas.core.shard.batch import Batch, LoadedShard
from sagas.core.effects import Abort, Effects
from sagas.core.attempt.model import Attempt, FINISHED, RUNNING, SUSPENDED, SuspensionRow
from sagas.core.attempt.instance import SagaInstance
from sagas.core.outcomes import Outcome
from sagas.core.shard.driver import ShardDefinitions, ShardDriver, ShardIdentity
from sagas.core.states import ShardState
from sagas.definition.capacity import HEADER, SHARD_CAPACITY
from sagas.definition.compiled import CompiledDefinition
from sagas.definition.serialization import FAILED_HEAD
from sagas.definition.start_options import StartOptions

Call = tuple[int, int, str, int]
"""The saga's number, the step, `run` or `undo`, and the attempt's number."""


class Wrong(AssertionError):
    """An error that the core must never make."""


class Engine:
    """A process `sagas drive --lines`, with one request at a time."""

    def __init__(self, paths: Sequence[pathlib.Path], log: pathlib.Path | None) -> None:
        arguments = ["--from", str(log), *map(str, paths)] if log else [*map(str, paths)]
        self._process = subprocess.Popen(
            [program(), "drive", "--lines", *arguments],
            stdin=subprocess.PIPE,
            stdout=subprocess.PIPE,
        )

    def ask(self, lines: Sequence[str]) -> tuple[list[str], str]:
        """Return the replies, and the new lines of the event log."""
        assert self._process.stdin and self._process.stdout
        self._process.stdin.write(("\n".join(lines) + "\n").encode())
        self._process.stdin.flush()
        replies, shown = list[str](), list[str]()
        while len(replies) < len(lines):
            line = self._process.stdout.readline().decode()
            assert line, "the engine ended by itself"
            if line.startswith("+"):
                shown.append(line[1:])
            else:
                replies.append(line.rstrip("\n"))
        return replies, "".join(shown).removeprefix(HEADER)

    def kill(self) -> None:
        """Kill the process."""
        self._process.kill()
        assert self._process.stdin and self._process.stdout
        self._process.stdin.close()
        self._process.stdout.close()
        self._process.wait()


class Store:
    """The durable state, and the state of the reference model with it."""

    def __init__(self, texts: Sequence[str]) -> None:
        self.follower = Follower([Definition.read(text) for text in texts])
        self.finals: set[tuple[int, int, str]] = set()
        """the actions that failed permanently"""
        self.missed: dict[tuple[int, int, str], float] = {}
        """the time of the last failure of an action that is retried"""
        self.chunks: list[str] = []
        self.events = 0
        self.sagas: dict[int, list[Any]] = {}
        """by id: key, slot, input, phase, outcome, deadline"""
        self.attempts: dict[tuple[int, int, str, int], tuple[str, str | None, float]] = {}
        self.suspensions: dict[tuple[int, int, str, int], Any] = {}
        self.newest: tuple[int, int, str, int] | None = None
        """the attempt of the last transaction"""

    def record(self, row: tuple[int, int, str, int], value: str, at: float) -> None:
        """Store the transaction of a step: its effect and its result."""
        if row in self.attempts:
            raise Wrong(f"{row} is done twice")
        self.attempts[row], self.newest = ("ok", value, at), row

    def commit(self, batch: Batch) -> None:
        """Commit a batch."""
        if batch.text:
            if batch.first != self.events:
                raise Wrong(f"lines after {batch.first} events, where {self.events} are")
            self.chunks.append(batch.text)
            self.events += batch.text.count("\n")
            for line in batch.text.splitlines():
                self.follower.take(json.loads(line))
        for id, key, _, slot, text, _, deadline, _ in batch.opened:
            if id in self.sagas or any(key == row[0] for row in self.sagas.values()):
                raise Wrong(f"{key} is there")
            self.sagas[id] = [key, slot, text, None, None, deadline]
        self.newest = None
        for id, step, kind, number, event, value, at in batch.results:
            recorded = self.attempts.get((id, step, kind, number))
            is_kept = recorded is not None and event in ("commit", "undone")
            if recorded and not (is_kept and recorded[:2] == ("ok", value)):
                raise Wrong(f"attempt {(id, step, kind, number)} is reported twice: {recorded}")
            self.attempts[id, step, kind, number] = event, value, at
            failure = json.loads(value) if event not in ("commit", "undone") and value else {}
            if failure.get("final"):
                self.finals.add((id, step, kind))
            elif failure.get("called", True):
                self.missed[id, step, kind] = at
            elif event == "fail" and not self.follower.sagas[id % SHARD_CAPACITY].aborted:
                raise Wrong(f"{(id, step, kind, number)} failed without a call")
        for phase, end, _, _, _, id in batch.ended:
            if self.sagas[id][3] is not None:
                raise Wrong(f"saga {id} ends twice")
            self.sagas[id][3:5] = phase, end
        if batch.rare:
            for row in batch.rare.held:
                self.suspensions[row[:4]] = row
            for id, step, kind, number in batch.rare.freed:
                for key in [*self.suspensions]:
                    if key[:3] == (id, step, kind) and key[3] <= number:
                        del self.suspensions[key]

    @property
    def text(self) -> str:
        """Return the event log, without its header."""
        return "".join(self.chunks)

    def load(self) -> LoadedShard:
        """Return what a program loads when it takes over the shard."""
        open_ones = {id: row for id, row in self.sagas.items() if row[3] is None}
        return LoadedShard(
            text=self.text,
            events=self.events,
            opened=len(self.sagas),
            open=[(id, *row[:3], row[5], None, None, 0.0) for id, row in sorted(open_ones.items())],
            results=[(*key, *row) for key, row in self.attempts.items() if key[0] in open_ones],
            held=[row for key, row in self.suspensions.items() if key[0] in open_ones],
            epoch=1,
        )


def is_failure(value: str) -> bool:
    """Return whether a stored result says that an optional step failed."""
    return value.startswith(FAILED_HEAD)


class World:
    """One shard, from its first saga to the end of its last."""

    def __init__(
        self, kinds: Sequence[sagas.Saga], folder: pathlib.Path, seed: int, max_sagas: int
    ) -> None:
        self.random, self.folder = random.Random(seed), folder
        texts = [kind.toml() for kind in kinds]
        self.paths = [folder / f"{number}.toml" for number in range(len(texts))]
        for path, text in zip(self.paths, texts):
            path.write_text(text)
        self.kinds = [CompiledDefinition(text, kind) for text, kind in zip(texts, kinds)]
        self.identity = ShardIdentity(0, "shard", ShardDefinitions(self.kinds))
        self.machine, self.store = AttemptMachine(), Store(texts)
        self.moves: Counter[str] = Counter()
        self.is_recovered = False
        self.aborts: list[Abort] = []
        self.driver = ShardDriver.created(self.identity)
        self.engine: Engine | None = None
        self.known: dict[str, SagaInstance] = {}
        self.now = 1_000_000.0
        self.left = max_sagas
        self.commits: deque[Effects] = deque()
        self.waiting: list[SagaInstance] = []  # to be opened once the shard is active
        self.running: dict[Attempt, None] = {}
        self.begun: Counter[Call] = Counter()
        self.effects: dict[tuple[int, int, str], str] = {}
        """the return value of the last call that succeeded"""

    # -- moves

    def play(self, steps: int) -> None:
        """Make this many moves, and then only moves that lead to the end."""
        try:
            for count in itertools.count():
                if not self.left and not self._is_open():
                    break
                if count > 10 * steps:
                    raise Wrong(f"it does not end: {self._stuck()}")
                self._move(calm=count > steps)
                self._look()
            while self.commits:
                self._commit()
            self._look_at_the_end()
        finally:
            if self.engine:
                self.engine.kill()

    def _is_open(self) -> bool:
        return bool(
            self.commits
            or self.waiting
            or any(row[3] is None for row in self.store.sagas.values())
            or not self.driver.is_over
        )

    def _move(self, calm: bool) -> None:
        moves: list[tuple[int, str, Callable[[], None]]] = []
        driver, engine = self.driver, self.engine
        if self.left and driver.state is ShardState.ACTIVE:
            moves.append((20, "open", self._open))
        if driver.state is ShardState.IDLE:
            moves.append((200, "start", self._start))
        if driver.state is ShardState.STALE and not self.commits:
            moves.append((200, "recover", self._recover))
        if driver.state is ShardState.ACTIVE and engine and self._is_due():
            moves.append((60, "turn", self._turn))
        if self.commits:
            moves.append((60, "commit", self._commit))
        if self.running:
            moves.append((120, "end_one", self._end_one))
        if timed := self._timed():
            moves.append((30, "ring", lambda: self._ring(timed)))
        if open_attempts := self._open_attempts():
            moves.append((20, "answer", lambda: self._answer(open_attempts)))
        if retried := [
            attempt for attempt in self._attempts() if attempt_machine.may_retry(attempt)
        ]:
            moves.append((3, "retry", lambda: self._retry(retried)))
        if not calm:
            if self.commits:
                moves += [(1, "refuse", self._refuse), (1, "lose_an_answer", self._lose_an_answer)]
            if self.store.newest:
                moves.append((3, "fall_back", self._fall_back))
            if driver.state is ShardState.ACTIVE:
                moves += [(1, "kill_engine", self._kill_engine), (1, "sleep", self._sleep)]
            if going := [
                saga for saga in driver.sagas.values() if not saga.over and saga.committed
            ]:
                moves.append((2, "abort", lambda: self._abort(going)))
            if self.store.sagas:
                moves.append((1, "restart", self._restart))
        if not moves:
            raise Wrong(f"nothing can be done: {driver.state}, {self._stuck()}")
        ((_, name, move),) = self.random.choices(moves, [weight for weight, *_ in moves])
        self.moves[name] += 1
        move()

    def _look(self) -> None:
        """Compare the sagas with the reference model, if nothing is in progress.

        Each of their attempts must be running, waiting or about to be reported.
        """
        driver = self.driver
        is_quiet = driver.is_current and not (
            self.commits or driver.unanswered or driver.commits_in_flight
        )
        if not is_quiet or (self.random.random() < 0.8 and not self.is_recovered):
            return
        self.is_recovered = False
        begun = {(task["saga"], task["step"], task["task"]) for task in self.store.follower.busy()}
        if begun != {
            (number, *word) for number, saga in driver.sagas.items() for word in saga.busy
        }:
            raise Wrong(f"{begun} are under way, and not {self._stuck()}")
        for attempt in self._attempts():
            reported = attempt.state is FINISHED and attempt in driver.reports
            runs = attempt.state is RUNNING and attempt in self.running
            if not (reported or runs or attempt.state is SUSPENDED):
                raise Wrong(f"no transition continues {attempt.row}, which is {attempt.state}")
        for number, saga in driver.sagas.items():
            state = self.store.follower.sagas[number]
            committed = {
                step
                for step, word in enumerate(state.states)
                if word in ("committed", "void", "undoing", "fixed")
            }
            drains = state.phase in ("draining", "planning")
            is_so = (
                {*saga.results} == committed,
                saga.aborted == state.aborted,
                saga.draining == drains,
            )
            if not all(is_so):
                raise Wrong(f"{saga.key}: {is_so} {saga.results} {state}")
            for step in committed:
                word, value = state.states[step], saga.results[step]
                if not self._is_result(number, step, value):
                    raise Wrong(f"{saga.key}: another result than was returned")
                if word in ("committed", "void") and is_failure(value) != (word == "void"):
                    raise Wrong(f"{saga.key}: step {step} is {word}, and its result is {value}")

    def _is_result(self, number: int, step: int, value: str) -> bool:
        """Return whether a value is what a step returned, or says that it failed."""
        return is_failure(value) or value == self.effects.get((number, step, "run"))

    def _look_at_the_end(self) -> None:
        """Check that nothing is left, and that each caller got its reply."""
        driver = self.driver
        left = (
            driver.opens_sent,
            driver.opens,
            driver.reports,
            driver.reports_sent,
            driver.aborts,
            driver.aborts_sent,
            driver.sagas,
        )
        if any(left) or driver.commits_in_flight or not driver.is_over:
            raise Wrong(f"something is left: {left}")
        if any(abort.done is None for abort in self.aborts):
            raise Wrong("an abort has no answer")

    def _stuck(self) -> str:
        return "; ".join(
            f"{saga.key}: {[(busy.row, busy.state, busy.reason) for busy in saga.busy.values()]}"
            for saga in self.driver.sagas.values()
        )

    def _open(self) -> None:
        self.left -= 1
        index = self.random.randrange(len(self.kinds))
        deadline = self.random.choice((None,) * 17 + (0.0, self.now, self.now + 3600))
        saga = SagaInstance(
            f"k{self.left}", "null", self.kinds[index], index, StartOptions(deadline=deadline)
        )
        self.known[saga.key] = saga
        self.driver.open(saga)

    def _start(self) -> None:
        self.driver.set_state(ShardState.STARTING)
        self.engine = self._engine()
        self.driver.set_state(ShardState.ACTIVE)

    def _engine(self) -> Engine:
        log = None
        if self.store.text:
            log = self.folder / "log.jsonl"
            log.write_text(HEADER + self.store.text)
        return Engine(self.paths, log)

    def _turn(self) -> None:
        """Handle what is due; the engine may die before its reply, or between two replies."""
        driver = self.driver
        free = (
            self.random.choice((0, 1, 3, 1000))
            if driver.reports or driver.opens or driver.aborts
            else 1000
        )
        lines = driver.requests(free, self.now)
        if not lines:
            return
        assert self.engine
        lines_or_effects: Effects | list[str] = lines
        while isinstance(lines_or_effects, list):
            if self.random.random() < 0.005:
                self._kill_engine()
                return
            lines_or_effects = driver.replies(*self.engine.ask(lines_or_effects), self.now)
        driver.begin_commit(lines_or_effects)
        self._put(lines_or_effects)

    def _put(self, effects: Effects) -> None:
        if effects.batch:
            self.commits.append(effects)
        else:
            self.driver.committed(effects)
            self._done(effects)

    def _commit(self) -> None:
        effects = self.commits.popleft()
        self.store.commit(effects.batch)
        self.driver.committed(effects)
        self._done(effects)

    def _refuse(self) -> None:
        """Refuse a commit, and with it the later ones."""
        while self.commits:
            self.driver.failed(self.commits.popleft())
        self._lose_engine()

    def _lose_an_answer(self) -> None:
        """Make a commit whose reply is lost, and refuse the later ones."""
        self.store.commit(self.commits[0].batch)
        self._refuse()

    def _fall_back(self) -> None:
        """Let another server take over, which has not got the newest transaction of a step."""
        row = self.store.newest
        assert row
        del self.store.attempts[row], self.effects[row[0] % SHARD_CAPACITY, row[1], row[2]]
        self.store.newest = None
        self.driver.fail()
        self._refuse()

    def _kill_engine(self) -> None:
        self.driver.fail()
        self._lose_engine()

    def _lose_engine(self) -> None:
        if self.engine:
            self.engine.kill()
        self.engine = None

    def _is_due(self) -> bool:
        """Return whether a request to the engine is due."""
        driver = self.driver
        return bool(driver.reports or driver.opens or driver.aborts or driver.may_have_tasks)

    def _sleep(self) -> None:
        """Let another shard use the engine, when nothing is in progress."""
        if not self.commits and not self._is_due() and not self.driver.unanswered:
            self._lose_engine()
            self.driver.set_state(ShardState.IDLE)

    def _restart(self) -> None:
        """Kill the program, and let another one take over the shard: running attempts are
        forgotten.
        """
        self._lose_engine()
        self.commits.clear()
        self.running.clear()
        self.aborts.clear()
        opened = {row[0] for row in self.store.sagas.values()}
        self.left += sum(key not in opened for key in self.known)  # their starts are repeated
        self.known = {key: saga for key, saga in self.known.items() if key in opened}
        spared = [int(key[1:]) for key in opened]
        self.left = min(self.left, min(spared, default=self.left))
        self.known = {}
        self.driver = ShardDriver(self.identity, ShardState.STALE, 1, len(self.store.sagas))

    def _recover(self) -> None:
        driver, rows = self.driver, self.store.load()
        driver.set_state(ShardState.LOADING)
        driver.loaded(rows)
        over = {row[0] for row in self.store.sagas.values() if row[3] is not None}
        # as the runtime looks for them
        for saga in [saga for saga in driver.opens_sent if saga.key in over]:
            del driver.opens_sent[saga]
        starting, new = recovery.take_unopened(driver, rows, self.known)
        self.engine = self._engine()
        overdue = recovery.overdue(rows, self.now)
        replies, text = self.engine.ask(recovery.requests(rows, overdue))
        before = {attempt for saga in driver.sagas.values() for attempt in saga.busy.values()} | {
            *driver.unstored_reports()
        }
        recovered = recovery.recover(
            rows, replies, self.now, driver, self.known, overdue=overdue, log_text=text
        )
        for saga in recovered.restored:
            self.known[saga.key] = saga
        for attempt in recovered.forgotten:
            attempt.forget()
            self.running.pop(attempt, None)
        after = {attempt for saga in driver.sagas.values() for attempt in saga.busy.values()}
        if any(attempt.state is not FINISHED for attempt in before - after):
            raise Wrong("an attempt that is gone is not finished")
        driver.begin_commit(recovered.effects)
        self._put(recovered.effects)
        for attempt in recovered.resumed:
            self._do(attempt, self.machine.resume(attempt, self.now))
        for saga in recovered.draining:
            self._drain(saga)
        for saga in (*starting, *new):
            driver.open(saga)
        self.is_recovered = True

    # -- what the executor does

    def _done(self, effects: Effects) -> None:
        for attempt, row in effects.rare.suspended:
            if attempt.pending_row is row:
                self._do(attempt, self.machine.stored(attempt))
        for saga in (*effects.rare.draining, *effects.rare.overdue):
            self._drain(saga)
        for saga in effects.opened:
            deadline = saga.options.deadline
            if deadline is not None and deadline <= effects.batch.at and not saga.aborted:
                raise Wrong(f"{saga.key} continues after its deadline")
        for abort in effects.rare.aborted:
            if abort.done:
                self._drain(abort.saga)
        for attempt in effects.dispatch:
            self._do(attempt, self.machine.begin(attempt, self.now))

    def _drain(self, saga: SagaInstance) -> None:
        for attempt, decision in self.machine.drain(saga, self.now):
            self._do(attempt, decision)

    def _do(self, attempt: Attempt, decision: Decision) -> None:
        if decision.do is Do.CALL:
            attempt.queue()
            self._call(attempt)
        elif decision.do is Do.REPORT_AGAIN:
            self.machine.report(attempt)
            self.driver.reports[attempt] = None
        elif decision.do is Do.REPORT:
            call = attempt.instance.number, attempt.step, attempt.kind, attempt.attempt
            decides_itself = attempt.declared.kind == "approval"
            if attempt.outcome and not attempt.outcome.called and self.begun[call]:
                if not decides_itself:
                    raise Wrong(f"{attempt.row} was called, and is reported as if it was not")
            self.driver.reports[attempt] = None
        if decision.row:
            self._suspend(attempt, decision.row)

    def _suspend(self, attempt: Attempt, row: SuspensionRow) -> None:
        attempt.expect_row(row)
        effects = self.driver.suspended(attempt, row, self.now)
        self.driver.begin_commit(effects)
        self._put(effects)

    def _call(self, attempt: Attempt) -> None:
        """Start the function of an attempt: its event is durable, and the steps that it needs are
        done.
        """
        saga, word = attempt.instance, "start_run" if attempt.kind == "run" else "start_undo"
        line = f'"event":"{word}","saga":{saga.number},"step":{attempt.step}}}'
        if self.store.text.count(line) < 1:
            raise Wrong(f"{attempt.row} is called before it is durable")
        for name, value in attempt.needed_results.items():
            step = saga.kind.names.index(name)
            if attempt.kind == "run" and not self._is_result(saga.number, step, value):
                raise Wrong(f"{attempt.row} is given {value} of {name}")
        if attempt.undo and is_failure(saga.results[attempt.step]):
            raise Wrong(f"{attempt.row} is called, and its step has no effect")
        action = saga.id, attempt.step, attempt.kind
        if action in self.store.finals:
            raise Wrong(f"{attempt.row} is called after a permanent failure")
        missed = self.store.missed.get(action)
        if attempt.attempt > 1 and missed is not None and not saga.draining and attempt.is_uncalled:
            if self.now < missed + attempt.manner.backoff.after(attempt.attempt - 1) - 1e-6:
                raise Wrong(f"{attempt.row} is called before its back-off is over")
        self.begun[saga.number, attempt.step, attempt.kind, attempt.attempt] += 1
        attempt.start()
        self.running[attempt] = None

    # -- functions, time and people

    def _end_one(self) -> None:
        attempt = self.random.choice([*self.running])
        del self.running[attempt]
        if attempt.state is not RUNNING:
            raise Wrong(f"{attempt.row} runs, and is {attempt.state}")
        outcome = self._outcome(attempt)
        if outcome.kind is outcomes.SUCCEEDED and attempt.manner.transaction:
            if not self._commit_step(attempt, outcome.value):
                return
        elif outcome.kind is outcomes.SUCCEEDED:
            self.effects[attempt.instance.number, attempt.step, attempt.kind] = outcome.value
        self._do(attempt, self.machine.ended(attempt, outcome, self.now))

    def _commit_step(self, attempt: Attempt, value: str) -> bool:
        """Commit an effect with its result.

        Returns False if the outcome of the commit is unknown.
        """
        drawn = self.random.random()
        if drawn < 0.95:
            self.store.record(attempt.row, value, self.now)
            self.effects[attempt.instance.number, attempt.step, attempt.kind] = value
        if drawn < 0.9:
            attempt.is_recorded = True
            return True
        attempt.claim()
        self._kill_engine()  # the recovery of its shard reports it
        return False

    def _outcome(self, attempt: Attempt) -> Outcome:
        drawn = self.random.random()
        if drawn < 0.7:
            return outcomes.succeeded(
                f"{attempt.name} {attempt.kind} {self.random.randrange(1000)}"
            )
        if drawn < 0.85:
            return outcomes.failure("it failed")
        if drawn < 0.9:
            return outcomes.failure("it failed", final=True)
        return outcomes.unknown("who knows")

    def _attempts(self) -> list[Attempt]:
        if not self.driver.is_current:
            return []
        return [attempt for saga in self.driver.sagas.values() for attempt in saga.busy.values()]

    def _timed(self) -> list[Attempt]:
        return [
            attempt
            for attempt in self._attempts()
            if attempt.state is SUSPENDED and attempt.until is not None and attempt.until > 0
        ]

    def _ring(self, attempts: list[Attempt]) -> None:
        attempt = min(attempts, key=lambda attempt: attempt.until or 0.0)
        assert attempt.until is not None
        self.now = max(self.now, attempt.until)
        if attempt.pending_row is None:  # its timer is set once its row exists
            self._do(attempt, self.machine.timer(attempt, self.now))

    def _open_attempts(self) -> list[Attempt]:
        return [attempt for attempt in self._attempts() if is_reportable(attempt)]

    def _answer(self, attempts: list[Attempt]) -> None:
        """Report the outcome of an attempt, as an operator does."""
        attempt = self.random.choice(attempts)
        outcome = self._outcome(attempt)
        if outcome.kind is outcomes.UNKNOWN:
            return
        if outcome.kind is outcomes.SUCCEEDED:
            self.effects[attempt.instance.number, attempt.step, attempt.kind] = outcome.value
        self._do(attempt, self.machine.finish(attempt, outcome, self.now))

    def _retry(self, attempts: list[Attempt]) -> None:
        """Let an operator retry an attempt."""
        attempt = self.random.choice(attempts)
        self._do(attempt, self.machine.retry(attempt, self.now))

    def _abort(self, going: list[SagaInstance]) -> None:
        self.aborts.append(Abort(self.random.choice(going)))
        self.driver.abort(self.aborts[-1])

    # -- the end

    def judge(self) -> None:
        """Check that the log is allowed, and that everything else agrees with it."""
        log = self.folder / "log.jsonl"
        log.write_text(HEADER + self.store.text)
        verdict = audit(log, self.paths)
        if not verdict.startswith("yes"):
            raise Wrong(f"sagas audit: {verdict}")
        follower = self.store.follower
        for id, (key, _, _, phase, end, _) in self.store.sagas.items():
            state, outcome = follower.sagas[id % SHARD_CAPACITY], json.loads(end)
            if (phase, outcome["states"], outcome["aborted"]) != (
                state.phase,
                state.states,
                state.aborted,
            ):
                raise Wrong(
                    f"{key}: {phase} {outcome}, where the log says {state.phase} {state.states}"
                )
        self._judge_rows()

    def _judge_rows(self) -> None:
        rows = self.store.attempts.items()
        void = {
            (id, step)
            for (id, step, kind, _), (event, value, _) in rows
            if kind == "run" and event == "commit" and is_failure(value or "")
        }
        for (id, step, kind, number), (event, value, _) in rows:
            returned = self.effects.get((id % SHARD_CAPACITY, step, kind))
            if (id, step) in void and (event == "undone" or is_failure(value or "")):
                continue
            if event == "ok" or (event in ("commit", "undone") and returned != value):
                raise Wrong(
                    f"{(id, step, kind, number)}: {value} is kept, and {returned} was returned"
                )
        if self.store.suspensions:
            raise Wrong(f"rows of suspensions are left: {self.store.suspensions}")
