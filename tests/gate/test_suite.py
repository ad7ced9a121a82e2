"""The parts that a change needs, the outcomes of scripts, and the order of jobs."""

from __future__ import annotations

import functools
import os
import subprocess
import threading
from pathlib import Path

import proofs
import pytest
import schedule
import scripts
import since
from crates import TOP, Tree
from schedule import Job, Schedule


@pytest.mark.parametrize(
    "files, crates, needed, left",
    [
        (["python/src/sagas/api/store.py"], [], ["python", "clients"], ["hostile", "page"]),
        (["docs/faq.md"], [], ["docs", "pages"], ["library", "hostile"]),
        (["page/src/page.js"], [], ["page", "release"], ["python", "hostile"]),
        (
            ["crates/saga_serve/src/lib.rt"],
            ["saga_serve", "saga_tool"],
            ["rows", "drive"],
            ["clients"],
        ),
        (["crates/saga_def/specs/Lib.antt"], ["saga_def", "saga_c", "saga_tests"], ["memory"], []),
        (["crates/saga_desk/mutants/claim_forgotten.edit"], [], ["mutants"], ["clients"]),
        (["tests/rows/plan/limits.toml"], [], ["rows"], ["python", "docs"]),
    ],
)
def test_a_change_needs_what_reads_it(
    files: list[str], crates: list[str], needed: list[str], left: list[str]
) -> None:
    needs = since.needs_of(Tree(), files)
    assert {*crates} <= {*needs.crates} and bool(crates) == bool(needs.crates)
    assert {*needed} <= {*needs.scripts}
    assert {*left} <= {*needs.left_scripts}
    assert {*needs.scripts} | {*needs.left_scripts} == {*scripts.names(TOP)}


def test_a_file_that_no_script_names_concerns_all() -> None:
    assert scripts.concerned(TOP, ["strange/file.c"]) == scripts.names(TOP)


def test_each_script_says_what_it_reads() -> None:
    assert scripts.READS.keys() == {*scripts.names(TOP)}


def test_the_crates_that_are_built_are_those_without_dependents() -> None:
    tree = Tree()
    assert since.tops(tree, ["saga_serve", "saga_tool"]) == ["saga_tool"]
    assert {*since.tops(tree, [*tree.crates])} == {
        "saga_c",
        "saga_tool",
        "saga_trials",
        "saga_tests",
    }


@pytest.fixture
def checkout(tmp_path: Path) -> Path:
    """A folder with scripts of a line each."""
    (tmp_path / "tests").mkdir()
    lines = {
        "good": "echo fine",
        "bad": "echo wrong; exit 1",
        "absent": "echo no such thing; exit 77",
    }
    for name, line in {**lines, "slow": "sleep 60 & sleep 60"}.items():
        (tmp_path / f"tests/{name}.sh").write_text(f"{line}\n")
    return tmp_path


@pytest.mark.parametrize(
    "name, status, last",
    [("good", 0, "fine"), ("bad", 1, "wrong"), ("absent", 77, "no such thing")],
)
def test_a_script_has_its_status_and_its_last_line(
    checkout: Path, name: str, status: int, last: str
) -> None:
    ran = scripts.run(checkout, name, is_quick=True)
    assert (ran.status, ran.last) == (status, last)


def test_a_script_that_hangs_fails(checkout: Path, monkeypatch: pytest.MonkeyPatch) -> None:
    monkeypatch.setattr(scripts, "LIMIT", 0.2)
    ran = scripts.run(checkout, "slow", is_quick=True)
    assert ran.status == 1 and "stopped" in ran.last


@pytest.mark.parametrize(
    "line, crate",
    [
        ("rt: saga_case proved\n", "saga_case"),
        ("rt: saga_case is kept: an earlier run on this machine proved the same\n", "saga_case"),
        ("rt: saga_case NOT PROVED\n", None),
        ("rt: saga_case: its tests are proved\n", None),
    ],
)
def test_a_crate_that_was_kept_is_proved(line: str, crate: str | None) -> None:
    """A round of mutants waits for its crate, also for one that an earlier run proved."""
    match = proofs.PROVED.match(line)
    assert (match and match[1]) == crate


def test_one_script_at_a_time_in_parallel_with_rounds(monkeypatch: pytest.MonkeyPatch) -> None:
    monkeypatch.setattr(schedule, "processors", lambda: 3)
    plan, lock, both = Schedule(), threading.Lock(), threading.Barrier(2, timeout=30)
    running: list[str] = []
    seen: list[list[str]] = []

    def action(name: str) -> None:
        with lock:
            running.append(name)
            seen.append([*running])
        if name in ("first", "round"):
            both.wait()
        with lock:
            running.remove(name)

    for name, is_script in (("first", True), ("second", True), ("round", False)):
        plan.add(Job(name, functools.partial(action, name), lambda: True, is_script=is_script))
    plan.run(None)
    assert sorted(name for names in seen for name in names[-1:]) == ["first", "round", "second"]
    assert not any({"first", "second"} <= {*names} for names in seen)


def test_a_job_that_is_not_ready_is_left_and_an_error_ends_the_run() -> None:
    plan = Schedule()
    plan.add(Job("never", lambda: None, lambda: False))
    plan.run(None)
    assert [job.name for job in plan.waiting] == ["never"]

    def fails() -> None:
        raise ValueError("wrong")

    plan.add(Job("wrong", fails, lambda: True))
    with pytest.raises(ValueError):
        plan.run(None)


@pytest.mark.parametrize(
    "root, ci, requested, installs",
    [
        (True, "", "", False),
        (False, "true", "1", False),
        (True, "true", "", True),
        (True, "", "1", True),
    ],
)
def test_nothing_is_installed_unasked(
    tmp_path: Path, root: bool, ci: str, requested: str, installs: bool
) -> None:
    """The missing package of a command is reported; apt-get would write a file."""
    folder = tmp_path / "bin"
    folder.mkdir()
    (folder / "apt-get").write_text(f"#!/bin/sh\ntouch {tmp_path}/installed\n")
    (folder / "id").write_text(f"#!/bin/sh\necho {0 if root else 1000}\n")
    for file in folder.iterdir():
        file.chmod(0o755)
    command = [str(TOP / "tests/need"), "no-such-command", "no-such-package"]
    environment = {"PATH": f"{folder}:{os.environ['PATH']}", "CI": ci, "SAGAS_INSTALL": requested}
    ran = subprocess.run(command, cwd=tmp_path, env=environment, capture_output=True, text=True)
    assert ran.returncode == 1 and "apt-get install no-such-package" in ran.stderr
    assert (tmp_path / "installed").exists() is installs
