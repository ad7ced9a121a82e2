"""`Planner`: many plans of one definition, in several threads."""

from __future__ import annotations

import os
import pathlib
import random
import signal
import subprocess
import sys
import time

import pytest
from serving import command, environment

import sagas
from sagas.definition import definition_text
from sagas.engine.planner import Planner
from sagas.inspection import explanation
from sagas.inspection.failure_cases import Moment, StepGraph

DEADLINE = 60.0
"""The maximum number of seconds until a condition holds."""
INDEPENDENT = 'format = 2\nname = "wide"\n' + "".join(
    f'[[step]]\nname = "s{number}"\nundo = {number}\nkeep = 30\n' for number in range(60)
)


def drawn(seed: int, size: int) -> str:
    """Return a random definition, in which some costs are `never`."""
    numbers = random.Random(seed)
    lines = ["format = 2", 'name = "drawn"']
    for number in range(size):
        needs = numbers.sample(range(number), min(number, numbers.randrange(3)))
        quoted = ", ".join(f'"s{need}"' for need in needs)
        lines += ["[[step]]", f'name = "s{number}"', f"needs = [{quoted}]"]
        for word in ("run", "undo", "skip", "keep"):
            cost = '"never"' if numbers.random() < 0.05 else numbers.randrange(40)
            lines.append(f"{word} = {cost}")
    return "\n".join(lines) + "\n"


def without_library(monkeypatch: pytest.MonkeyPatch, program: pathlib.Path, script: str) -> None:
    """Have a shell script make the plans."""
    program.write_text(f"#!/bin/sh\n{script}\n")
    program.chmod(0o755)
    monkeypatch.setenv("SAGAS_LIBRARY", "/nowhere/libsagas.so")
    monkeypatch.setenv("SAGAS_PROGRAM", str(program))


@pytest.mark.parametrize(("seed", "size"), [(1, 5), (2, 20), (3, 40), (4, 90)])
def test_the_number_of_threads_changes_nothing(seed: int, size: int) -> None:
    text = drawn(seed, size)
    rates = {"s0": 0.1, f"s{size - 1}": 0.2}
    results = []
    for threads in (1, 2, 8):
        planner = Planner(definition_text.listed_steps(text), threads)
        explained = explanation.of_definition(text, rates=rates, planner=planner)
        plans = [case.plan for case in (*explained.failures, *explained.pairs)]
        results.append((explained.json(), [plan.answer if plan else None for plan in plans]))
    assert results[0] == results[1] == results[2]


def test_the_program_makes_the_same_plans(monkeypatch: pytest.MonkeyPatch) -> None:
    text = drawn(5, 12)
    by_library = explanation.of_definition(text)
    monkeypatch.setenv("SAGAS_LIBRARY", "/nowhere/libsagas.so")
    assert explanation.of_definition(text) == by_library


def test_steps_after_an_abort_are_planned_without_those_that_wait() -> None:
    for seed in range(8):
        graph = StepGraph.read(drawn(seed, 30))
        planner = Planner(graph.steps, 2)
        states = [(number, graph.committed_before_abort(number)) for number in range(30)]
        whole = planner.plan(
            graph.case((), Moment.LATE)._replace(committed=committed, is_aborted=True)
            for _, committed in states
        )
        assert planner.keep_after_abort(states) == [
            answer.cost is None or bool(answer.kept >> number & 1)
            for (number, _), answer in zip(states, whole)
        ]


@pytest.mark.skipif(sys.platform != "linux", reason="only Linux has processors for each thread")
def test_a_planner_uses_the_processors_of_its_process() -> None:
    processors = os.sched_getaffinity(0)
    steps = definition_text.listed_steps(INDEPENDENT)
    assert Planner(steps).threads == min(8, len(processors))
    os.sched_setaffinity(0, {min(processors)})
    try:
        assert Planner(steps).threads == 1
    finally:
        os.sched_setaffinity(0, processors)


def test_a_program_that_dies_is_the_same_error(
    monkeypatch: pytest.MonkeyPatch, tmp_path: pathlib.Path
) -> None:
    without_library(monkeypatch, tmp_path / "sagas", "echo broken >&2; exit 9")
    errors = []
    for threads in (1, 4):
        planner = Planner(definition_text.listed_steps(INDEPENDENT), threads)
        with pytest.raises(sagas.EngineError) as raised:
            explanation.of_definition(INDEPENDENT, planner=planner)
        errors.append(str(raised.value))
    assert errors == ["sagas plan ended with 9: broken"] * 2
    (tmp_path / "wide.toml").write_text(INDEPENDENT)
    done = command("explain", str(tmp_path / "wide.toml"))
    assert (done.returncode, done.stdout) == (4, "")
    assert done.stderr == f"sagas explain: {errors[0]}\n"


UNLUCKY = """
import signal, sys
from concurrent.futures import ThreadPoolExecutor
from sagas.definition import definition_text
from sagas.engine import planner
from sagas.inspection import explanation

class Unlucky(ThreadPoolExecutor):
    def _adjust_thread_count(self):
        super()._adjust_thread_count()
        if len(self._threads) == 4:
            lock = self._idle_semaphore._cond
            lock.acquire()
            signal.raise_signal(signal.SIGINT)
            lock.release()

planner.ThreadPoolExecutor = Unlucky
text = sys.stdin.read()
try:
    explanation.of_definition(text, planner=planner.Planner(definition_text.listed_steps(text), 4))
except KeyboardInterrupt:
    print("interrupted")
    signal.raise_signal(signal.SIGINT)
"""


def test_ctrl_c_while_the_pool_holds_a_lock() -> None:
    """The threads end, and then the default handler is back."""
    done = subprocess.run(
        [sys.executable, "-c", UNLUCKY],
        input=INDEPENDENT,
        capture_output=True,
        text=True,
        env=environment(),
        timeout=DEADLINE,
    )
    assert (done.returncode, done.stdout) == (-signal.SIGINT, "interrupted\n"), done.stderr
    assert done.stderr.rstrip().endswith("KeyboardInterrupt")


def test_nothing_runs_after_ctrl_c(monkeypatch: pytest.MonkeyPatch, tmp_path: pathlib.Path) -> None:
    """The programs that run are waited for, and most of the 3,541 others never begin."""
    started, ended = tmp_path / "started", tmp_path / "ended"
    started.mkdir()
    script = f": >{started}/$$; until [ -e {ended} ]; do sleep 0.02; done; exit 9"
    without_library(monkeypatch, tmp_path / "sagas", script)
    (tmp_path / "wide.toml").write_text(INDEPENDENT)
    explain = subprocess.Popen(
        [sys.executable, "-m", "sagas", "explain", str(tmp_path / "wide.toml")],
        stdout=subprocess.PIPE,
        stderr=subprocess.PIPE,
        env=environment(),
        text=True,
    )
    try:
        deadline = time.monotonic() + DEADLINE
        while not [*started.iterdir()]:
            assert explain.poll() is None and time.monotonic() < deadline
            time.sleep(0.01)
        explain.send_signal(signal.SIGINT)
    finally:
        ended.touch()
        output = explain.communicate(timeout=DEADLINE)
    assert (explain.returncode, *output) == (130, "", "sagas explain: interrupted\n")
    programs = [int(path.name) for path in started.iterdir()]
    for program in programs:
        with pytest.raises(ProcessLookupError):
            os.kill(program, 0)
    assert 1 <= len(programs) < 3541
