"""The program of patroni.sh: a cluster, its failures, and a verdict.

The verdict is by the witness, by the database and by the records of the nodes.
"""

from __future__ import annotations

import asyncio
import contextlib
import json
import os
import pathlib
import shutil
import signal
import subprocess
import sys
import tempfile
import time
import urllib.request
from collections.abc import Callable
from typing import Any

import fleet
import psycopg
import records
from server import OTHER, folder_of_programs, free_port
from witness import Witness, witness_at

import sagas

MEMBERS, LOOPS, LONG = 3, 8, 180.0
TTL = 20
"""Seconds after which Patroni replaces a silent leader: the least that it accepts."""
EVENTS = ("switchover", "kill", "haproxy", "etcd", "frozen")
Json = dict[str, Any]


# -- a node and its callers


async def node(url: str, socket: str, name: str) -> None:
    """Start sagas and wait for them, until SIGTERM."""
    witness, saga, over = Witness(socket), sagas.Saga("pair"), asyncio.Event()

    @saga.step
    async def a(task: sagas.Task[Any]) -> str:
        witness.note(what="called", key=task.key, token=task.idempotency_key, at=time.time())
        return task.key

    @saga.step(needs=[a])
    async def b(task: sagas.Task[Any]) -> str:
        return task.result_of(a)

    async def again(work: Callable[[], Any]) -> Any:
        while True:
            try:
                return await work()
            except (sagas.TemporaryError, TimeoutError):
                await asyncio.sleep(0.05)

    async def calls(store: sagas.Store, loop: int) -> None:
        number = 0
        while not over.is_set():
            key, number = f"{name}-{loop}-{number}", number + 1
            await again(lambda: store.start(saga, key))
            witness.note(what="started", key=key, at=time.time())
            end = await again(lambda: store.wait(key, timeout=60))
            witness.note(
                what="told", key=key, phase=end.phase, result=end.results["b"], at=time.time()
            )
            await asyncio.sleep(0.02)

    asyncio.get_running_loop().add_signal_handler(signal.SIGTERM, over.set)
    async with sagas.open(url, [saga], node=name, lease=5, shutdown_timeout=10) as store:
        print("open", flush=True)
        await asyncio.gather(*(calls(store, loop) for loop in range(LOOPS)))


# -- the cluster


class Cluster:
    """Members, etcd and HAProxy in a folder; the address of the primary is HAProxy's."""

    def __init__(self, folder: pathlib.Path) -> None:
        self.folder, self.processes = folder, dict[str, subprocess.Popen[bytes]]()
        self.ports = [free_port() for _ in range(MEMBERS)]
        self.rests = [free_port() for _ in range(MEMBERS)]
        self.etcd, self.peer, self.proxy = free_port(), free_port(), free_port()
        self.url = f"postgresql://owner@127.0.0.1:{self.proxy}/postgres"
        self.give_to_user(folder)
        (folder / "haproxy.cfg").write_text(self.haproxy())
        for number in range(MEMBERS):
            (folder / f"m{number}.json").write_text(json.dumps(self.patroni(number)))

    def give_to_user(self, path: pathlib.Path) -> None:
        path.chmod(0o755)
        os.chown(path, OTHER, OTHER)

    def patroni(self, number: int) -> Json:
        """Return the settings of a member. JSON is YAML too."""
        rest, port = f"127.0.0.1:{self.rests[number]}", f"127.0.0.1:{self.ports[number]}"
        dcs = {
            "ttl": TTL,
            "loop_wait": 2,
            "retry_timeout": 5,
            "synchronous_mode": True,
            "synchronous_mode_strict": True,
        }
        dcs |= {
            "postgresql": {
                "use_pg_rewind": True,
                "parameters": {"max_connections": 100, "wal_log_hints": "on"},
            }
        }
        access = [f"host {base} all 127.0.0.1/32 trust" for base in ("all", "replication")]
        return {
            "scope": "sagas",
            "name": f"m{number}",
            "etcd3": {"host": f"127.0.0.1:{self.etcd}"},
            "restapi": {"listen": rest, "connect_address": rest},
            "bootstrap": {
                "dcs": dcs,
                "initdb": [{"encoding": "UTF8"}, {"auth": "trust"}, "no-locale"],
                "pg_hba": access,
            },
            "postgresql": {
                "listen": port,
                "connect_address": port,
                "data_dir": str(self.folder / f"data{number}"),
                "bin_dir": str(folder_of_programs()),
                "pgpass": str(self.folder / f"pgpass{number}"),
                "pg_hba": access,
                "authentication": {
                    "superuser": {"username": "owner"},
                    "replication": {"username": "replicator"},
                },
                "parameters": {"unix_socket_directories": str(self.folder)},
            },
            "watchdog": {"mode": "off"},
        }

    def haproxy(self) -> str:
        servers = "".join(
            f"  server m{at} 127.0.0.1:{port} check port {rest}\n"
            for at, (port, rest) in enumerate(zip(self.ports, self.rests))
        )
        return (
            "defaults\n  mode tcp\n  timeout connect 2s\n  timeout client 1h\n"
            "  timeout server 1h\n  timeout check 2s\n"
            f"listen primary\n  bind 127.0.0.1:{self.proxy}\n  option httpchk OPTIONS /primary\n"
            "  http-check expect status 200\n"
            "  default-server inter 500ms fall 3 rise 2 on-marked-down shutdown-sessions\n"
            f"{servers}"
        )

    def start(self, name: str) -> None:
        """Start one of its programs: `etcd`, `haproxy`, or the Patroni of a member."""
        command = {
            "etcd": [
                "etcd",
                "--data-dir",
                str(self.folder / "etcd"),
                "--listen-client-urls",
                f"http://127.0.0.1:{self.etcd}",
                "--advertise-client-urls",
                f"http://127.0.0.1:{self.etcd}",
                "--listen-peer-urls",
                f"http://127.0.0.1:{self.peer}",
                "--initial-advertise-peer-urls",
                f"http://127.0.0.1:{self.peer}",
                "--initial-cluster",
                f"default=http://127.0.0.1:{self.peer}",
            ],
            "haproxy": ["haproxy", "-db", "-f", str(self.folder / "haproxy.cfg")],
        }.get(name) or ["patroni", str(self.folder / f"{name}.json")]
        first = (
            ["setpriv", f"--reuid={OTHER}", f"--regid={OTHER}", "--clear-groups"]
            if os.geteuid() == 0
            else []
        )
        with open(self.folder / f"{name}.log", "ab") as log:
            environment = os.environ | {"HOME": str(self.folder)}
            self.processes[name] = subprocess.Popen(
                [*first, *command], stdout=log, stderr=log, cwd=self.folder, env=environment
            )

    def kill(self, name: str, how: int = signal.SIGKILL) -> None:
        """End one of its programs."""
        self.processes[name].send_signal(how)
        self.processes[name].wait(LONG)

    def postmaster(self, number: int) -> int | None:
        """Return the process of a member's PostgreSQL."""
        with contextlib.suppress(OSError, ValueError):
            return int((self.folder / f"data{number}" / "postmaster.pid").read_text().split()[0])
        return None

    def asks(self, number: int, path: str) -> bool:
        """Return whether the Patroni of a member reports a role."""
        try:
            with urllib.request.urlopen(
                f"http://127.0.0.1:{self.rests[number]}/{path}", timeout=2
            ) as answer:
                return bool(answer.status == 200)
        except OSError:
            return False

    def primary(self) -> int | None:
        return next((number for number in range(MEMBERS) if self.asks(number, "primary")), None)

    def is_whole(self) -> bool:
        """Return whether the primary, its synchronous standby and all others run."""
        others = sum(self.asks(number, "replica") for number in range(MEMBERS))
        return (
            self.primary() is not None
            and others == MEMBERS - 1
            and any(self.asks(number, "synchronous") for number in range(MEMBERS))
        )

    def open(self) -> None:
        self.start("etcd")
        self.start("haproxy")
        self.start("m0")
        until(lambda: self.primary() == 0)
        for number in range(1, MEMBERS):
            self.start(f"m{number}")
        until(self.is_whole)

    def close(self) -> None:
        """Stop all programs, and the servers that Patroni has started."""
        for name, process in reversed(self.processes.items()):
            with contextlib.suppress(OSError, subprocess.TimeoutExpired):
                process.send_signal(signal.SIGCONT)
                process.terminate()
                process.wait(20)
        for number in range(MEMBERS):
            if postmaster := self.postmaster(number):
                with contextlib.suppress(OSError):
                    os.kill(postmaster, signal.SIGQUIT)


def until(condition: Callable[[], Any], seconds: float = LONG) -> None:
    """Wait for a condition."""
    end = time.monotonic() + seconds
    while not condition():
        if time.monotonic() > end:
            raise TimeoutError("it takes too long")
        time.sleep(0.2)


# -- events


def switchover(cluster: Cluster) -> None:
    leader = cluster.primary()
    command = [
        "patronictl",
        "-c",
        str(cluster.folder / "m0.json"),
        "switchover",
        "sagas",
        "--master",
        f"m{leader}",
        "--force",
    ]
    subprocess.run(command, check=True, stdout=subprocess.DEVNULL)
    until(lambda: cluster.primary() not in (None, leader))


def kill(cluster: Cluster) -> None:
    """Kill the primary and its Patroni, and start Patroni after another primary was promoted."""
    leader = cluster.primary()
    assert leader is not None
    postmaster = cluster.postmaster(leader)
    cluster.kill(f"m{leader}")
    if postmaster:
        os.kill(postmaster, signal.SIGKILL)
    until(lambda: cluster.primary() not in (None, leader))
    cluster.start(f"m{leader}")


def haproxy(cluster: Cluster) -> None:
    cluster.kill("haproxy")
    time.sleep(5)
    cluster.start("haproxy")


def etcd(cluster: Cluster) -> None:
    """Stop etcd for a while. Without it Patroni allows no server to write."""
    cluster.kill("etcd")
    time.sleep(TTL + 10)
    cluster.start("etcd")


def frozen(cluster: Cluster) -> None:
    """Stop Patroni of the primary. It accepts writes still while another one is promoted."""
    leader = cluster.primary()
    assert leader is not None
    process = cluster.processes[f"m{leader}"]
    process.send_signal(signal.SIGSTOP)
    try:
        until(
            lambda: any(
                cluster.asks(number, "primary") for number in range(MEMBERS) if number != leader
            )
        )
        time.sleep(5)
    finally:
        process.send_signal(signal.SIGCONT)


# -- the verdict


def longest_pause(notes: list[Json], begin: float, end: float) -> float:
    """Return the longest time in which no caller got a result, in seconds."""
    times = [
        begin,
        *sorted(
            note["at"] for note in notes if note["what"] == "told" and begin < note["at"] < end
        ),
        end,
    ]
    return max(later - sooner for sooner, later in zip(times, times[1:]))


def faults_of(url: str, notes: list[Json], files: list[pathlib.Path]) -> list[str]:
    """Return the results that a caller got, and that the database does not have."""
    rows, faults = records.read(url).sagas, list[str]()
    for note in notes:
        row = rows.get(note["key"])
        if note["what"] in ("started", "told") and row is None:
            faults.append(f"{note['key']}: {note['what']}, and gone")
        elif (
            note["what"] == "told"
            and row
            and (row.phase != "ended" or note["result"] != note["key"])
        ):
            faults.append(f"{note['key']}: reported as ended, and is {row.phase}")
    return faults + [str(fault) for fault in fleet.judged(url, files, sync=True)[1]]


def main(events: list[str]) -> int:
    folder = pathlib.Path(tempfile.mkdtemp(prefix="sagas-patroni-"))
    cluster, spans = Cluster(folder), dict[str, tuple[float, float]]()
    nodes, files = list[subprocess.Popen[bytes]](), [
        folder / f"{name}.record" for name in ("one", "two")
    ]
    try:
        cluster.open()
        print(f"the cluster is there: {folder}", flush=True)
        with witness_at(folder / "socket", folder / "notes"):
            for file in files:
                command = [
                    sys.executable,
                    __file__,
                    "--node",
                    cluster.url,
                    str(folder / "socket"),
                    file.stem,
                ]
                with open(folder / f"{file.stem}.log", "wb") as log:
                    environment = os.environ | {"SAGAS_RECORD": str(file)}
                    nodes.append(
                        subprocess.Popen(
                            command, stdout=subprocess.PIPE, stderr=log, env=environment
                        )
                    )
                output = nodes[-1].stdout
                assert output and output.readline() == b"open\n", (
                    folder / f"{file.stem}.log"
                ).read_text()
            time.sleep(3)
            for name in events:
                begin = time.time()
                globals()[name](cluster)
                until(cluster.is_whole)
                until(
                    lambda: any(
                        note["at"] > time.time() - 1 for note in read(folder / "notes")[-50:]
                    )
                )
                time.sleep(3)
                spans[name] = begin, time.time()
                pause = longest_pause(read(folder / "notes"), *spans[name])
                print(f"{name}: no caller got a result for {pause:.1f} s at most", flush=True)
            for process in nodes:
                process.terminate()
            until(lambda: all(process.poll() is not None for process in nodes))
        notes = read(folder / "notes")
        faults = faults_of(cluster.url, notes, files)
        ends = sum(note["what"] == "told" for note in notes)
        print(
            f"{ends} sagas were reported as ended, {len(faults)} faults", *faults[:10], sep="\n  "
        )
    finally:
        for process in nodes:
            if process.poll() is None:
                process.kill()
        cluster.close()
    if not faults:
        shutil.rmtree(folder)
    return 1 if faults else 0


def read(path: pathlib.Path) -> list[Json]:
    """Return the complete notes of the witness."""
    text = path.read_text()
    return [json.loads(line) for line in text[: text.rfind("\n") + 1].splitlines()]


if __name__ == "__main__":
    if sys.argv[1:2] == ["--node"]:
        asyncio.run(node(*sys.argv[2:5]))
    else:
        sys.exit(main(sys.argv[1:] or list(EVENTS)))
