"""Judge records of nodes and clients by the reference model and the program; they must agree."""

from __future__ import annotations

import functools
import pathlib
import subprocess
import tempfile
from collections.abc import Sequence

import fleet_model

from sagas.base import program
from sagas.cli import records
from sagas.cli.records import ShardCheck
from sagas.cli.snapshot import Snapshot


@functools.cache
def has_program() -> bool:
    """Return whether the program judges records; `test_fleet_records.py` requires that it does."""
    done = subprocess.run(
        [program.path(), "audit", "--help"], capture_output=True, text=True, check=False
    )
    return "--fleet" in done.stdout


def by_both(text: str) -> tuple[bool, str]:
    """Return the model's verdict on a record; the program's must be the same."""
    fault = fleet_model.judge(text)
    if has_program():
        good, answer = records.audit_record(text)
        begins = "yes sessions " if fault is None else f"no line {fault[0]} "
        assert good == (fault is None) and answer.startswith(
            begins
        ), f"{answer}, and the model says {fault}"
    return (
        fault is None,
        ""
        if fault is None
        else f"line {fault[0]}: {fault[1]}: {text.splitlines()[max(0, fault[0] - 8) : fault[0]]}",
    )


def shards_of(
    url: str, files: Sequence[pathlib.Path], sync: bool, folder: str | None = None
) -> list[ShardCheck]:
    """Return the shards of a store with their records."""
    notes = records.read([str(file) for file in files if file.exists()])
    with Snapshot(url) as store:
        return records.RecordChecker(store, notes, sync, folder, by_both).all()


def judged(
    url: str, files: Sequence[pathlib.Path] = (), *, sync: bool = False
) -> tuple[list[ShardCheck], list[str]]:
    """Return the shards, and the faults of each record."""
    shards, faults = shards_of(url, files, sync), list[str]()
    for shard in shards:
        faults += [] if shard.good else [f"record: shard {shard.shard}, {shard.answer}"]
        faults += [f"record: shard {shard.shard}: lost {loss}" for loss in shard.losses]
        faults += [
            f"record: shard {shard.shard}: the end of saga {id} is lost" for id in shard.ends_lost
        ]
    return shards, faults


def texts(url: str, files: Sequence[pathlib.Path], *, sync: bool = False) -> list[str]:
    """Return the records themselves."""
    with tempfile.TemporaryDirectory() as folder:
        shards_of(url, files, sync, folder)
        return [path.read_text() for path in sorted(pathlib.Path(folder).iterdir())]


def reasons(faults: Sequence[str]) -> set[str]:
    """Return the names of the faults."""
    return {fault.split(": ")[2] for fault in faults if ", line " in fault}
