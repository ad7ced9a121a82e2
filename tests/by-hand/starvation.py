"""Measure how long one caller waits for a small reply while another one sends expensive requests.

    PYTHONPATH=python/src SAGAS_PROGRAM=dist/sagas python3 tests/by-hand/starvation.py [SECONDS]

The script starts a service with two tokens and a saga of 1,022 steps. Then it measures the median
time of a small GET of one token: alone, and while the other token has ten concurrent what-ifs of
the large saga, or twenty GETs of it. The callers are separate processes. The script fails if ten
what-ifs make the median more than three times as long, or twenty GETs more than ten times.

Measured on 2026-11-29 on four processors. Without queues for each token (load 12 to 20) it was 103
times as long for what-ifs, and 75 times for GETs. With queues, and with rests after long work (load
2 to 4), it is 1.0 to 1.3 times for what-ifs in five runs, and 3.3 to 4.8 times for GETs.
"""

from __future__ import annotations

import http.client
import json
import multiprocessing
import os
import pathlib
import random
import statistics
import subprocess
import sys
import tempfile
import time

HERE = pathlib.Path(__file__).resolve()
APP = """import sagas
many = sagas.Saga("many")
first = many.step(external=True, name="first")
each = many.step(for_each="items", needs=[first], external=True, name="each",
    undo=lambda item: item["undo"], keep=lambda item: item["keep"], skip=1)
each.compensation(external=True)
last = many.step(needs=[each], external=True, name="last")
small = sagas.Saga("small")
small.step(name="a", external=True)
all = [many, small]
"""
LARGE = ("POST", "/v1/sagas/large/what-if", b'{"abort": true}')
KINDS = {
    "ten what-ifs": (10, LARGE, 3),
    "twenty GETs": (20, ("GET", "/v1/sagas/large", b""), 10),
}
"""Connections, their request, and the limit of the factor by which others wait longer."""


def ask(
    link: http.client.HTTPConnection, token: str, method: str, path: str, body: bytes = b""
) -> int:
    """Send a request, read the whole reply, and return its status."""
    headers = {"Authorization": f"Bearer {token}", "Content-Type": "application/json"}
    link.request(method, path, body, headers)
    answer = link.getresponse()
    answer.read()
    return answer.status


def attack(address: tuple[str, int], token: str, request: tuple[str, str, bytes]) -> None:
    """Repeat a request until the process is terminated."""
    link = http.client.HTTPConnection(*address, timeout=60)
    while True:
        assert ask(link, token, *request) in (200, 429, 503)


def median(address: tuple[str, int], token: str, seconds: float) -> float:
    """Return the median of a small GET, in milliseconds."""
    link, times = http.client.HTTPConnection(*address, timeout=60), []
    end = time.monotonic() + seconds
    while time.monotonic() < end:
        began = time.perf_counter()
        assert ask(link, token, "GET", "/v1/sagas/small") == 200
        times.append((time.perf_counter() - began) * 1000)
        time.sleep(0.02)
    return statistics.median(times)


def measured(address: tuple[str, int], tokens: dict[str, str], seconds: float) -> bool:
    """Return whether each median is within its limit."""
    link, is_good = http.client.HTTPConnection(*address, timeout=60), True
    items = [
        {"undo": random.randrange(10**9), "keep": random.randrange(10**9)} for _ in range(1020)
    ]
    for name, key, value in (("many", "large", {"items": items}), ("small", "small", None)):
        body = json.dumps({"definition": name, "key": key, "input": value}).encode()
        assert ask(link, tokens["evil"], "POST", "/v1/sagas", body) == 201
    for name, (count, request, limit) in KINDS.items():
        alone = median(address, tokens["other"], seconds)
        some = [
            multiprocessing.Process(
                target=attack, args=(address, tokens["evil"], request), daemon=True
            )
            for _ in range(count)
        ]
        for attacker in some:
            attacker.start()
        time.sleep(1)
        during = median(address, tokens["other"], seconds)
        for attacker in some:
            attacker.terminate()
            attacker.join()
        is_good &= during <= limit * alone
        print(
            f"{name}: {alone:.1f} ms alone, {during:.1f} ms during them: "
            f"{during / alone:.1f} times"
        )
    return is_good


def main(seconds: float) -> int:
    """Measure, and return the status."""
    with tempfile.TemporaryDirectory() as room:
        folder = pathlib.Path(room)
        (folder / "starving.py").write_text(APP)
        source = os.environ.get("PYTHONPATH", str(HERE.parents[2] / "python/src"))
        environment = {**os.environ, "PYTHONPATH": f"{pathlib.Path(source).resolve()}:{folder}"}
        if "SAGAS_PROGRAM" in environment:
            environment["SAGAS_PROGRAM"] = str(pathlib.Path(environment["SAGAS_PROGRAM"]).resolve())
        sagas = [sys.executable, "-m", "sagas"]
        tokens = {
            name: subprocess.run(
                [*sagas, "token", "tokens.toml", name, "caller"],
                cwd=folder,
                env=environment,
                stdout=subprocess.PIPE,
                check=True,
            )
            .stdout.decode()
            .strip()
            for name in ("evil", "other")
        }
        serve = ["serve", "s.db", "--app", "starving:all", "--token-file", "tokens.toml"]
        serve += ["--listen", "127.0.0.1:0", "--log-level", "error"]
        with subprocess.Popen(
            [*sagas, *serve], cwd=folder, env=environment, stdout=subprocess.PIPE
        ) as service:
            try:
                assert service.stdout
                line = service.stdout.readline().decode()
                host, _, port = line.split("//")[1].strip().strip("/").partition(":")
                return 0 if measured((host, int(port)), tokens, seconds) else 1
            finally:
                service.terminate()


if __name__ == "__main__":
    sys.exit(main(float(sys.argv[1]) if sys.argv[1:] else 8.0))
