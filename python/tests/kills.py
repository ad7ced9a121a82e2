"""Kill programs at random moments, and judge each store when all its sagas are over.

    python3 tests/kills.py [--rounds N] [--kinds program,child,both,closing,disk] [--sagas N]
        [--seed S] [--jobs N]

A round is one store: the program of `world.py` is started on it again and again until all its sagas
are over. The kinds are:

- `program` kills it with SIGKILL, also while it starts.
- `child` kills the engine process, again and again.
- `both` does either.
- `closing` asks it to close, and mostly kills it before it has.
- `disk` stops its files from growing for a while, and mostly kills it then.

Every process that is signalled here was started here, and is named by its number.
"""

from __future__ import annotations

import argparse
import concurrent.futures
import os
import pathlib
import random
import resource
import shutil
import signal
import struct
import subprocess
import sys
import tempfile
import time
from collections import Counter
from dataclasses import dataclass, field

if __name__ == "__main__":
    sys.path.insert(0, str(pathlib.Path(__file__).resolve().parent.parent / "src"))

from driving import program
from judge import Verdict, judge
from witness import witness_at

HERE = pathlib.Path(__file__).resolve().parent
KINDS = ("program", "child", "both", "closing", "disk")


def children(pid: int) -> list[int]:
    """Return the children of a process, of all its threads."""
    pids: list[int] = []
    try:
        for task in os.listdir(f"/proc/{pid}/task"):
            pids += map(int, pathlib.Path(f"/proc/{pid}/task/{task}/children").read_text().split())
    except OSError:
        pass
    return pids


@dataclass
class Round:
    """The result of one store."""

    kind: str
    seed: int
    verdict: Verdict
    kills: Counter[str]
    folder: pathlib.Path | None = None
    """The folder of its files, if there are faults."""

    @property
    def problems(self) -> list[str]:
        return self.verdict.faults


@dataclass
class Striker:
    """Start the program on a store, and strike it, until all is over."""

    folder: pathlib.Path
    kind: str
    draw: random.Random
    sagas: int
    concurrency: int
    time_limit: float
    wrong: str | None = None
    quiet: int = 12
    small: bool = False
    kills: Counter[str] = field(default_factory=Counter)
    began: float = field(default_factory=time.monotonic)

    def __post_init__(self) -> None:
        self.command = [
            sys.executable,
            str(HERE / "world.py"),
            str(self.folder / "store.db"),
            str(self.folder / "socket"),
        ]
        self.command += [str(self.sagas), "--concurrency", str(self.concurrency)]
        self.command += ["--wrong", self.wrong] if self.wrong else []
        self.command += ["--small"] if self.small else []
        path = f"{HERE.parent / 'src'}{os.pathsep}{HERE}"
        self.environment = os.environ | {
            "PYTHONPATH": path,
            "SAGAS_PROGRAM": program(),
            "PYTHONUNBUFFERED": "1",
        }

    @property
    def is_late(self) -> bool:
        return time.monotonic() - self.began > self.time_limit

    @property
    def strikes(self) -> int:
        return sum(self.kills.values())

    def until_over(self) -> str | None:
        """Run until all is over; return the problems of the program itself."""
        with open(self.folder / "errors", "ab") as errors:
            while not self.is_late:
                process = subprocess.Popen(
                    self.command, env=self.environment, stdout=subprocess.PIPE, stderr=errors
                )
                try:
                    self._strike(process)
                    out = self._rest(process)
                finally:
                    process.kill()
                    process.wait()
                if process.returncode == 0 and b"done" in out:
                    return None
                if process.returncode not in (0, -signal.SIGKILL, -signal.SIGTERM):
                    return f"the program ended with status {process.returncode}"
        return f"not over after {self.time_limit:.0f} s"

    def _rest(self, process: subprocess.Popen[bytes]) -> bytes:
        try:
            return process.communicate(
                timeout=max(1.0, self.time_limit - (time.monotonic() - self.began))
            )[0]
        except subprocess.TimeoutExpired:
            return b""

    def _strike(self, process: subprocess.Popen[bytes]) -> None:
        if self.strikes >= self.quiet:
            return
        kind = self.draw.choice(("program", "child", "child")) if self.kind == "both" else self.kind
        assert process.stdout
        if kind == "program" and self.draw.random() < 0.25:
            self._wait(process, self.draw.uniform(0.02, 0.4))  # while it starts
            self._kill(process, "while it starts")
            return
        process.stdout.readline()  # it is open
        getattr(self, "_" + kind)(process)

    def _wait(self, process: subprocess.Popen[bytes], seconds: float) -> bool:
        """Wait a moment; return whether the program still runs."""
        try:
            process.wait(seconds)
        except subprocess.TimeoutExpired:
            return True
        return False

    def _kill(self, process: subprocess.Popen[bytes], victim: str) -> None:
        if process.poll() is None:
            process.kill()
            self.kills[victim] += 1

    def _program(self, process: subprocess.Popen[bytes]) -> None:
        self._wait(
            process, self.draw.choice((self.draw.uniform(0, 0.05), self.draw.uniform(0, 0.4)))
        )
        self._kill(process, "the program")

    def _child(self, process: subprocess.Popen[bytes]) -> None:
        while self.strikes < self.quiet and self._wait(process, self.draw.uniform(0.0, 0.12)):
            for child in children(process.pid):
                try:
                    os.kill(child, signal.SIGKILL)
                    self.kills["a child"] += 1
                except ProcessLookupError:
                    pass

    def _closing(self, process: subprocess.Popen[bytes]) -> None:
        if self._wait(process, self.draw.uniform(0, 0.3)):
            process.terminate()
            self.kills["asked to close"] += 1
            if self.draw.random() < 0.7:
                self._wait(process, self.draw.uniform(0, 0.05))
                self._kill(process, "while it closes")

    def _written(self) -> int:
        """Return where the next commit is written in the WAL.

        The WAL itself is longer: SQLite's index of it has the number of valid pages (its wal-index
        header, `mxFrame`).
        """
        with open(self.folder / "store.db-shm", "rb") as index:
            (pages,) = struct.unpack("=I", index.read(20)[16:])
        return 32 + pages * (4096 + 24)

    def _disk(self, process: subprocess.Popen[bytes]) -> None:
        if not self._wait(process, self.draw.uniform(0, 0.2)):
            return
        try:
            hard = resource.prlimit(process.pid, resource.RLIMIT_FSIZE)[1]
            resource.prlimit(
                process.pid,
                resource.RLIMIT_FSIZE,
                (self._written() + self.draw.randrange(20_000), hard),
            )
            self.kills["its disk full"] += 1
            self._wait(process, self.draw.uniform(0.05, 0.6))
            if self.draw.random() < 0.6:
                self._kill(process, "while its disk is full")
            else:
                resource.prlimit(process.pid, resource.RLIMIT_FSIZE, (hard, hard))
        except (ProcessLookupError, FileNotFoundError, struct.error):
            pass


def run_once(folder: pathlib.Path, sagas: int) -> int:
    """Run the program on a store without faults; return its status."""
    striker = Striker(folder, "program", random.Random(0), sagas, 16, 60)
    with witness_at(folder / "socket", folder / "notes"):
        return subprocess.run(
            striker.command,
            env=striker.environment,
            stdout=subprocess.DEVNULL,
            timeout=60,
            check=False,
        ).returncode


def play(
    kind: str,
    seed: int,
    sagas: int,
    *,
    time_limit: float = 90,
    wrong: str | None = None,
    quiet: int = 12,
) -> Round:
    """Play one round: a store, its kills and the verdict. The files stay if there are faults."""
    draw = random.Random(seed)
    folder = pathlib.Path(tempfile.mkdtemp(prefix="sagas-kills-"))
    concurrency, small = draw.choice((1, 4, 16, 64)), wrong is None and draw.random() < 0.5
    striker = Striker(folder, kind, draw, sagas, concurrency, time_limit, wrong, quiet, small)
    with witness_at(folder / "socket", folder / "notes"):
        trouble = striker.until_over()
    verdict = judge(folder / "store.db", folder / "notes", sagas)
    if trouble:
        verdict.fault("not-over", trouble)
    errors = (folder / "errors").read_text(errors="replace")
    if "Traceback" in errors and kind != "disk" and not wrong:
        verdict.faults.append("traceback: " + errors[errors.index("Traceback") :][:2000])
    if verdict.faults:
        return Round(kind, seed, verdict, striker.kills, folder)
    shutil.rmtree(folder)
    return Round(kind, seed, verdict, striker.kills)


def main() -> int:
    """Run the command."""
    parser = argparse.ArgumentParser(
        description=__doc__, formatter_class=argparse.RawDescriptionHelpFormatter
    )
    parser.add_argument("--rounds", type=int, default=20)
    parser.add_argument("--kinds", default=",".join(KINDS))
    parser.add_argument("--sagas", type=int, default=60)
    parser.add_argument("--seed", type=int, default=random.randrange(10**6))
    parser.add_argument("--jobs", type=int, default=2)
    options = parser.parse_args()
    kinds = options.kinds.split(",")
    kills: Counter[str] = Counter()
    figures: Counter[str] = Counter()
    bad = 0
    began = time.monotonic()
    with concurrent.futures.ProcessPoolExecutor(options.jobs) as pool:
        games = [
            pool.submit(play, kinds[number % len(kinds)], options.seed + number, options.sagas)
            for number in range(options.rounds)
        ]
        for done, game in enumerate(concurrent.futures.as_completed(games), 1):
            played = game.result()
            kills += played.kills
            figures += played.verdict.figures
            bad += bool(played.problems)
            for fault in played.problems[:5]:
                print(f"\n{played.kind} {played.seed} {played.folder}: {fault}")
            print(
                f"\r{done} of {options.rounds} rounds, {sum(kills.values())} faults, {bad} bad",
                end="",
                flush=True,
            )
    print(f"\nseed {options.seed}, {time.monotonic() - began:.0f} s")
    for title, counted in (("strikes", kills), ("figures", figures)):
        print(
            f"{title}: " + ", ".join(f"{name} {number}" for name, number in sorted(counted.items()))
        )
    return 1 if bad else 0


if __name__ == "__main__":
    sys.exit(main())
