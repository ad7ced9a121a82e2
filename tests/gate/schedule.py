"""Runs proofs, rounds of mutants and scripts side by side, so that no processor is idle.

`rt ci` comes first: it takes as many processors as it can use. While it waits for the longest chain
of crates, processors are idle. Then a round of mutants of a proved crate begins, or a script over
the release, one script at a time: scripts start servers, browsers and compilers of their own.
Scripts with leases and deadlines wait until nothing is proved any more.
"""

from __future__ import annotations

import threading
import time
from collections.abc import Callable
from dataclasses import dataclass

from proofs import Proofs, processors

IDLE_SECONDS = 4.0
"""The seconds that a processor must be idle before a job starts on it while proofs run.

Between two proofs `rt ci` uses fewer processors for a moment.
"""


@dataclass
class Job:
    """An action, the number of processors that it uses, and its condition to start."""

    name: str
    action: Callable[[], None]
    is_ready: Callable[[], bool]
    processors: int = 1
    is_script: bool = False


class Schedule:
    """Jobs that wait, and jobs that run in parallel with proofs."""

    def __init__(self) -> None:
        self.waiting: list[Job] = []
        self.running: list[Job] = []
        self.errors: list[BaseException] = []
        self.changed = threading.Condition()

    def add(self, job: Job) -> None:
        """Add a job after those that wait."""
        with self.changed:
            self.waiting.append(job)
            self.changed.notify_all()

    def wake(self) -> None:
        """Check again which jobs may start."""
        with self.changed:
            self.changed.notify_all()

    def run(self, proofs: Proofs | None) -> None:
        """Run all jobs, and wait for the proofs. Jobs that never become ready remain."""
        idle_since = time.monotonic()
        with self.changed:
            while not self.errors:
                now, idle = time.monotonic(), self.idle(proofs)
                is_proving = proofs is not None and not proofs.is_over
                if idle <= 0:
                    idle_since = now
                is_free = not is_proving or now - idle_since >= IDLE_SECONDS
                job = self.next_job(idle) if is_free else None
                if job:
                    self.begin(job)
                    idle_since = now
                elif not is_proving and not self.running:
                    break
                else:
                    self.changed.wait(1.0)
        if self.errors:
            raise self.errors[0]

    def idle(self, proofs: Proofs | None) -> int:
        """Return the number of idle processors."""
        return (
            processors()
            - (proofs.running if proofs else 0)
            - sum(it.processors for it in self.running)
        )

    def next_job(self, idle: int) -> Job | None:
        """Return the first job that may start with this number of idle processors."""
        has_script = any(job.is_script for job in self.running)
        for job in self.waiting:
            fits = job.processors <= idle or not self.running and idle >= processors()
            if fits and job.is_ready() and not (job.is_script and has_script):
                return job
        return None

    def begin(self, job: Job) -> None:
        """Start a job in its own thread."""
        self.waiting.remove(job)
        self.running.append(job)
        threading.Thread(target=self.carry_out, args=(job,), daemon=True).start()

    def carry_out(self, job: Job) -> None:
        """Run a job to its end."""
        try:
            job.action()
        except BaseException as error:
            self.errors.append(error)
        finally:
            with self.changed:
                self.running.remove(job)
                self.changed.notify_all()
