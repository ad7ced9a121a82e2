"""Kill the service and its workers at random moments, and judge the store at the end.

    python3 tests/service_kills.py [--rounds N] [--store sqlite|postgresql] [--sagas N]
        [--workers N|mixed] [--callers N] [--strikes N] [--seed S]

A round is one store. Callers start sagas, wait for their ends and approve; workers do the steps.
Concurrently the service is killed with SIGKILL or asked to end, workers are killed, or are stopped
past their leases and continued; reports are sent twice. Some sagas are aborted as a step of theirs
is unknown. Over PostgreSQL there are two services, and half of the callers and workers use each;
one service may be stopped past its lease, too. Attempts whose functions had a bug are retried. With
`--workers mixed` ten workers are in Python, Node, Go and Java in turn. The package's verifier
judges the store. Every process that is signalled here was started here, and is named by its number.
"""

from __future__ import annotations

import argparse
import contextlib
import os
import pathlib
import random
import shutil
import signal
import subprocess
import sys
import tempfile
import threading
import time
from collections import Counter
from collections.abc import Callable, Iterator, Sequence
from typing import Any

import httpx

if __name__ == "__main__":
    sys.path.insert(0, str(pathlib.Path(__file__).resolve().parent.parent / "src"))
sys.path.insert(0, str(pathlib.Path(__file__).resolve().parents[2] / "clients" / "contract"))

import fleet
import service_actor
from harness import commands, languages
from judge import Verdict, judge
from server import Server, serving
from service_worker import texts
from serving import HERE, Served, environment
from witness import Witness, witness_at
from world import OutsideReader, expected

NAMES = ("chain", "trip", "must", "late")
LEASE = 1.0
NODE_LEASE = 2.0
"""Seconds: the leases of a task and of a service over PostgreSQL."""


class Callers:
    """Threads that start sagas, and wait for their ends despite failing services; each call goes to
    one service or another.
    """

    def __init__(
        self,
        services: list[Served],
        socket: pathlib.Path,
        sagas: int,
        count: int,
        time_limit: float,
    ) -> None:
        self.services, self.reader, self.witness = (
            services,
            OutsideReader(services[0].store),
            Witness(str(socket)),
        )
        self.left, self.lock = list(range(sagas)), threading.Lock()
        self.until, self.over = time.monotonic() + time_limit, threading.Event()
        self.faults: list[str] = []
        self.threads = [threading.Thread(target=self._call, daemon=True) for _ in range(count)]
        self.approver = threading.Thread(target=self._approve, daemon=True)

    def start(self) -> None:
        for thread in (*self.threads, self.approver):
            thread.start()

    @property
    def busy(self) -> bool:
        return any(thread.is_alive() for thread in self.threads)

    def end(self) -> None:
        """Wait for all threads; then no request is sent any more."""
        for thread in self.threads:
            thread.join()
        self.over.set()
        self.approver.join()

    def _ask(
        self, clients: list[httpx.Client], ask: Callable[[httpx.Client], httpx.Response]
    ) -> httpx.Response:
        """Repeat a request until a service replies, one service after the other."""
        while time.monotonic() < self.until:
            clients.append(clients.pop(0))
            with contextlib.suppress(httpx.HTTPError):
                answer = ask(clients[0])
                if answer.status_code < 500:
                    return answer
            time.sleep(0.05)
        raise TimeoutError("not over in time")

    @contextlib.contextmanager
    def _clients(self) -> Iterator[list[httpx.Client]]:
        with contextlib.ExitStack() as stack:
            yield [stack.enter_context(service.client()) for service in self.services]

    def _call(self) -> None:
        try:
            with self._clients() as clients:
                while True:
                    with self.lock:
                        if not self.left:
                            return
                        number = self.left.pop(0)
                    self._run_saga(clients, number)
        except Exception as error:  # reported at the end
            self.faults.append(f"a caller: {error!r}")

    def _run_saga(self, clients: list[httpx.Client], number: int) -> None:
        key, note = f"k{number}", self.witness.note
        body = {"definition": NAMES[number % 4], "key": key, "input": {"i": number}}
        answer = self._ask(clients, lambda client: client.post("/v1/sagas", json=body))
        if answer.status_code not in (200, 201):
            self.faults.append(f"{key}: {answer.status_code} {answer.text}")
            return
        note(what="started", key=key, there=self.reader.phase(key)[0])
        is_late = number % 5 == 3 and self._is_unknown(clients, key)
        if (number % 17 == 0 or is_late) and self._ask(
            clients,
            lambda client: client.post(f"/v1/sagas/{key}/abort", json={"note": "for a try"}),
        ).json()["aborted"]:
            note(what="aborted", key=key, there=self.reader.aborts(key))
        end: dict[str, Any] = {"over": False}
        while not end["over"]:
            end = self._ask(
                clients, lambda client: client.get(f"/v1/sagas/{key}/wait?seconds=5")
            ).json()
        end_note = {
            "phase": end["phase"],
            "states": end["states"],
            "results": end["results"],
            "cost": (end["plan"] or {}).get("cost"),
            "aborted": end["aborted"],
        }
        note(what="over", key=key, there=self.reader.phase(key)[1], **end_note)

    def _is_unknown(self, clients: list[httpx.Client], key: str) -> bool:
        """Wait for an unknown outcome, and return whether one occurs before the saga's end.

        A worker may have had its task from the service that does not drive it.
        """
        while True:
            saga = self._ask(
                clients, lambda client: client.get(f"/v1/sagas/{key}/wait?seconds=0")
            ).json()
            if saga["over"] or any(wait["why"] == "unknown" for wait in saga["waits"]):
                return not saga["over"]
            time.sleep(0.05)

    def _approve(self) -> None:
        with self._clients() as clients:
            while not self.over.is_set():
                with contextlib.suppress(httpx.HTTPError):
                    clients.append(clients.pop(0))
                    for key in self.reader.awaiting_approval():
                        value = expected(key, "approve")
                        if (
                            clients[0]
                            .post(f"/v1/sagas/{key}/steps/approve/complete", json={"result": value})
                            .status_code
                            == 200
                        ):
                            self.witness.note(
                                what="finished", key=key, there=self.reader.finished(key, value)
                            )
                    self._retry_bugs(clients[0])
                self.over.wait(0.1)

    def _retry_bugs(self, client: httpx.Client) -> None:
        """Retry each attempt whose function had a bug, as after a deploy of its worker."""
        answer = client.get("/v1/attention?kind=program_error")
        for entry in answer.json()["entries"] if answer.status_code == 200 else []:
            path = f"/v1/sagas/{entry['key']}/steps/{entry['step']}/retry"
            client.post(path, json={"undo": entry["undo"]})


class Round:
    """One store, its services, workers and callers, and their faults."""

    def __init__(
        self,
        folder: pathlib.Path,
        draw: random.Random,
        sagas: int,
        workers: int,
        callers: int,
        strikes: int,
        time_limit: float,
        url: str | None,
        others: Sequence[list[str]] = (),
    ) -> None:
        self.others = others
        self.folder, self.draw, self.strikes, self.url = folder, draw, strikes, url
        self.services = (
            [self._service(name, url) for name in ("one", "two")]
            if url
            else [Served(folder, texts())]
        )
        self.kills: Counter[str] = Counter()
        self.sagas, self.time_limit, self.count = sagas, time_limit, workers
        self.callers = callers
        self.workers: list[subprocess.Popen[bytes]] = []

    def _service(self, name: str, url: str) -> Served:
        (self.folder / name).mkdir()
        options = [
            "--node",
            name,
            "--lease",
            str(NODE_LEASE),
            "--record",
            str(self.folder / name / "record"),
        ]
        return Served(self.folder / name, texts(), *options, store=url)

    def _worker(self, index: int) -> subprocess.Popen[bytes]:
        service = self.services[index % len(self.services)]
        language = index % (1 + len(self.others))
        if language:
            with open(self.folder / "worker-errors", "ab") as errors:
                return service_actor.worker(
                    self.others[language - 1], service.url, self.folder / "actor", LEASE, errors
                )
        command = [
            sys.executable,
            str(HERE / "service_worker.py"),
            service.url,
            service.store,
            str(self.folder / "socket"),
        ]
        command += [str(service.folder / "definitions"), "--lease", str(LEASE)]
        path = f"{HERE.parent / 'src'}{os.pathsep}{HERE}"
        with open(self.folder / "worker-errors", "ab") as errors:
            return subprocess.Popen(
                command,
                env=environment() | {"PYTHONPATH": path},
                stdout=subprocess.DEVNULL,
                stderr=errors,
            )

    def play(self) -> Verdict:
        """Run until all is over; then judge it."""
        with contextlib.ExitStack() as stack:
            stack.enter_context(witness_at(self.folder / "socket", self.folder / "notes"))
            for service in self.services:
                service.start()
            if self.others:
                first = self.services[0]
                stack.enter_context(
                    service_actor.acting(
                        self.folder / "actor",
                        self.folder / "socket",
                        first.store,
                        first.folder / "definitions",
                    )
                )
            callers = Callers(
                self.services, self.folder / "socket", self.sagas, self.callers, self.time_limit
            )
            try:
                self.workers = [self._worker(index) for index in range(self.count)]
                callers.start()
                while callers.busy and sum(self.kills.values()) < self.strikes:
                    time.sleep(self.draw.uniform(0.05, 0.8))
                    self._strike()
                callers.end()
            finally:
                self._end()
        verdict = judge(self.services[0].store, self.folder / "notes", self.sagas)
        verdict.faults += callers.faults
        if self.url:
            verdict.faults += fleet.judged(
                self.url, [service.folder / "record" for service in self.services]
            )[1]
        for path in (*(service.errors for service in self.services), self.folder / "worker-errors"):
            text = path.read_text(errors="replace")
            if "Traceback" in text or '"trace"' in text:
                verdict.faults.append(f"traceback in {path}: {text[-2000:]}")
        return verdict

    def _strike(self) -> None:
        kinds = [
            "the service",
            "the service",
            "the service, asked to end",
            "a worker",
            "a worker pauses",
            *(["the service pauses"] if self.url else []),
        ]
        target = self.draw.choice(kinds)
        index = self.draw.randrange(self.count)
        service = self.draw.choice(self.services)
        if target == "the service":
            service.kill()
            service.start()
        elif target == "the service, asked to end":
            service.stop()
            service.start()
        elif target == "the service pauses":
            assert service.process
            self._stand_still(service.process, NODE_LEASE)
        elif target == "a worker":
            self.workers[index].kill()
            self.workers[index].wait()
            self.workers[index] = self._worker(index)
        else:
            self._stand_still(self.workers[index], LEASE)
        self.kills[target] += 1

    def _stand_still(self, process: subprocess.Popen[bytes], lease: float) -> None:
        process.send_signal(signal.SIGSTOP)
        time.sleep(lease * self.draw.uniform(0.9, 1.6))
        process.send_signal(signal.SIGCONT)

    def _end(self) -> None:
        for worker in self.workers:
            worker.kill()
            worker.wait()
        for service in self.services:
            service.kill()


def play(
    seed: int,
    sagas: int,
    workers: int,
    callers: int,
    strikes: int,
    time_limit: float = 240,
    server: Server | None = None,
    others: Sequence[list[str]] = (),
) -> tuple[Verdict, Counter[str], pathlib.Path | None]:
    """Play one round; its files stay if there are faults."""
    folder = pathlib.Path(tempfile.mkdtemp(prefix="sagas-service-"))
    url = server.create() if server else None
    game = Round(
        folder, random.Random(seed), sagas, workers, callers, strikes, time_limit, url, others
    )
    verdict = game.play()
    if verdict.faults:
        return verdict, game.kills, folder
    shutil.rmtree(folder)
    if server and url:
        server.drop(url)
    return verdict, game.kills, None


def main() -> int:
    """Run the command."""
    parser = argparse.ArgumentParser(
        description=__doc__, formatter_class=argparse.RawDescriptionHelpFormatter
    )
    parser.add_argument("--rounds", type=int, default=10)
    parser.add_argument("--store", choices=("sqlite", "postgresql"), default="sqlite")
    parser.add_argument("--sagas", type=int, default=200)
    parser.add_argument(
        "--workers", default="10", help="how many in Python, or mixed: ten in all languages"
    )
    parser.add_argument("--callers", type=int, default=20)
    parser.add_argument("--strikes", type=int, default=40)
    parser.add_argument("--seed", type=int, default=random.randrange(10**6))
    options = parser.parse_args()
    kills: Counter[str] = Counter()
    figures: Counter[str] = Counter()
    bad, began = 0, time.monotonic()
    with contextlib.ExitStack() as stack:
        server = (
            stack.enter_context(serving({"fsync": "on"})) if options.store == "postgresql" else None
        )
        made = stack.enter_context(commands())
        others = (
            [made(language) for language in languages() if language != "python"]
            if options.workers == "mixed"
            else []
        )
        workers = 10 if others else int(options.workers)
        for number in range(options.rounds):
            verdict, struck, folder = play(
                options.seed + number,
                options.sagas,
                workers,
                options.callers,
                options.strikes,
                time_limit=900,
                server=server,
                others=others,
            )
            kills += struck
            figures += verdict.figures
            bad += bool(verdict.faults)
            for fault in verdict.faults[:5]:
                print(f"{options.seed + number} {folder}: {fault}")
            print(
                f"{number + 1} of {options.rounds} rounds,"
                f" {sum(kills.values())} faults, {bad} bad",
                flush=True,
            )
    print(f"seed {options.seed}, {time.monotonic() - began:.0f} s")
    for title, counted in (("strikes", kills), ("figures", figures)):
        print(
            f"{title}: " + ", ".join(f"{name} {number}" for name, number in sorted(counted.items()))
        )
    return 1 if bad else 0


if __name__ == "__main__":
    sys.exit(main())
