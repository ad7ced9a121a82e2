"""A worker of the kill tests.

Each call is reported to a witness outside, as those of `world.py` are.

    python3 tests/service_worker.py URL STORE SOCKET DEFINITIONS [--lease SECONDS] [--concurrency N]
"""

from __future__ import annotations

import argparse
import functools
import pathlib
import random
from typing import Any

from witness import Witness
from world import OutsideReader, Refused, World

import sagas
from sagas.api.service_connection import ServiceRefused
from sagas.definition import definition_files

LATE = """format = 2
name = "late"
[[step]]
name = "order"
keep = 9
undo = 1
undo_tries = 2
[[step]]
name = "approve"
needs = ["order"]
tries = 9
[[step]]
name = "go"
needs = ["approve"]
undo = "never"
"""
RATES: dict[tuple[str, str, str], tuple[float, float]] = {
    ("chain", "reserve", "run"): (0.05, 0.0),
    ("chain", "reserve", "undo"): (0.3, 0.0),
    ("chain", "charge", "run"): (0.3, 0.3),
    ("chain", "charge", "undo"): (0.05, 0.1),
    ("chain", "ship", "run"): (0.4, 0.0),
    ("trip", "flight", "run"): (0.1, 0.0),
    ("trip", "hotel", "run"): (0.2, 0.3),
    ("trip", "hotel", "undo"): (0.0, 0.0),
    ("trip", "car", "run"): (0.2, 0.0),
    ("trip", "car", "undo"): (0.1, 0.0),
    ("trip", "tour", "run"): (0.3, 0.0),
    ("must", "machine", "run"): (0.4, 0.0),
    ("must", "licence", "run"): (0.1, 0.0),
    ("late", "order", "run"): (0.05, 0.3),
    ("late", "order", "undo"): (0.2, 0.0),
    ("late", "go", "run"): (0.3, 0.0),
}
"""The chance that a call fails, and the chance that its outcome is unknown to its caller."""


class Bare(World):
    """The world without functions: its definitions are files."""

    has_bugs = True

    def __init__(self, witness: Any, reader: OutsideReader, folder: pathlib.Path) -> None:
        self.witness, self.reader = witness, reader
        self.sagas = definition_files.read(folder)


class Twice(sagas.Worker):
    """A client that sends some reports twice; the second one must be found to be the same."""

    def __init__(self, *arguments: Any, **more: Any) -> None:
        super().__init__(*arguments, **more)
        self._right = self._service.ask_until_answered
        self._service.ask_until_answered = self._twice  # type: ignore[method-assign]

    def _twice(
        self, path: str, body: dict[str, Any], giving_up: bool = False
    ) -> dict[str, Any] | None:
        reply = self._right(path, body, giving_up)
        if reply and "kept" in reply and random.random() < 0.2:
            try:
                again = self._right(
                    path, {name: value for name, value in body.items() if name != "next"}
                )
                assert again and again["repeated"], (path, body, again)
            except ServiceRefused as refusal:
                # a service that was restarted has forgotten an unknown outcome and its lease, and
                # after a failure the same attempt may be offered again, under another lease
                is_known = path.endswith(("/unknown", "/fail"))
                assert refusal.status == 409 and is_known, (path, body, refusal)
        return reply


def texts() -> dict[str, str]:
    """Return the definitions of `world.py`, with their service files."""
    world = World.__new__(World)
    files = {
        f"{saga.name}.toml": saga.toml()
        for saga in (World.chain(world), World.trip(world), World.must(world))
    }
    files["late.toml"] = LATE
    for name in ("chain", "trip", "must", "late"):
        steps = [step for saga, step, kind in RATES if saga == name and kind == "run"]
        pauses = {
            step: 0.5 if RATES.get((name, step, "run"), (0, 0))[1] else 0.02 for step in steps
        }
        manner = 'backoff = {{ initial = {0}, maximum = {0} }}\nundo_on_exhausted = "fail"\n'
        files[f"{name}.service.toml"] = "".join(
            f"[step.{step}]\n{manner.format(pauses[step])}" for step in steps
        )
    files["late.service.toml"] += '[step.approve]\nkind = "approval"\n'
    return files


def main() -> None:
    """Work until it is killed."""
    parser = argparse.ArgumentParser(description=__doc__)
    for name in ("url", "store", "socket", "definitions"):
        parser.add_argument(name)
    parser.add_argument("--lease", type=float, default=1.0)
    parser.add_argument("--concurrency", type=int, default=3)
    options = parser.parse_args()
    world = Bare(
        Witness(options.socket), OutsideReader(options.store), pathlib.Path(options.definitions)
    )
    worker = Twice(options.url, lease=options.lease, concurrency=options.concurrency, wait=5)
    for (saga, step, kind), (failing, unknown) in RATES.items():
        declare = worker.step if kind == "run" else worker.compensation
        declare(saga, step, no_effect=(Refused,))(
            functools.partial(world.act, failing=failing, unknown=unknown)
        )
    worker.run()


if __name__ == "__main__":
    main()
