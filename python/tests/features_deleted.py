"""The verifier's checks of single sagas that retention deleted in a round of features."""

from __future__ import annotations

import json
import os
import pathlib
import subprocess
import sys
from collections.abc import Callable, Iterable, Iterator, Mapping
from typing import Any

from driving import program
from features_store import FAMILIES, Instance
from records import urls_of

Json = dict[str, Any]
RETENTION = 1.5
"""Seconds after which the nodes of a round delete a saga."""
SKEW = 0.05
"""Seconds by which the clocks of a node and of its database may differ: both are this machine's."""
ORPHANS = """
SELECT s.key FROM children c JOIN sagas s ON s.id = c.id
WHERE NOT EXISTS (SELECT 1 FROM sagas p WHERE p.id = c.parent)
"""
MARKS = """
SELECT l.name, d.id % 1000, d.ended, d.deleted_at FROM deleted_sagas d
JOIN shards l ON l.shard = d.id / 1000
"""
Rows = list[tuple[Any, ...]]


def exported(folder: pathlib.Path) -> Iterator[Json]:
    """Yield the lines of deleted families in an archive directory."""
    for path in sorted((folder / FAMILIES).glob("families-*.jsonl")):
        yield from map(json.loads, path.read_text().splitlines())


class DeletionCheck:
    """The checks of sagas that were deleted from shards that remain, or remained for a time."""

    def __init__(
        self,
        by_key: Mapping[str, list[Instance]],
        fault: Callable[[str, object], None],
        folder: pathlib.Path,
    ) -> None:
        self._by_key, self._fault, self._folder = by_key, fault, folder
        self.count = 0

    def check(self, rows: Callable[[str], Rows], location: str) -> None:
        """Check marks, families, times, and the verdict of the command."""
        for (key,) in rows(ORPHANS):
            self._fault("family", f"{key} is left, and the saga above it was deleted")
        marks = {(name, number): (ended, at) for name, number, ended, at in rows(MARKS)}
        marks |= dict(self._archived())
        entries = {(line["name"], line["number"]): line for line in exported(self._folder)}
        for token, (ended, at) in marks.items():
            self.count += 1
            if token not in entries:
                self._fault("lost", f"{token} was deleted, and is in no export")
                continue
            self._times(entries[token], ended, at)
        for url in urls_of(location):
            self._audit(url)

    def _archived(self) -> Iterator[tuple[tuple[str, int], tuple[float, float]]]:
        """Yield the deletions that archives of whole shards list."""
        for path in self._folder.glob("[!.]*/sagas.jsonl"):
            for line in map(json.loads, path.read_text().splitlines()):
                if "deleted" in line:
                    yield (path.parent.name, line["number"]), (line["ended"], line["deleted"])

    def _times(self, entry: Json, ended: float, at: float) -> None:
        """Check that a saga, and the sagas above it, ended before the retention."""
        before = at - RETENTION + SKEW
        if ended != entry["ended"] or ended > before:
            text = f"it ended at {ended}, exported as {entry['ended']}, and was deleted at {at}"
            self._fault("deleted-early", f"{entry['key']}: {text}")
        root = entry["key"].partition("/:")[0]
        same = [saga.ended for saga in self._by_key.get(root, ()) if saga.ended is not None]
        if not any(end <= before for end in same):
            text = f"was deleted at {at}, and {root} ended at {same}"
            self._fault("family", f"{entry['key']} {text}")

    def _audit(self, location: str) -> None:
        """Check that the command finds no difference between rows and events."""
        command = [sys.executable, "-m", "sagas", "store", location, "audit", "--json"]
        source = pathlib.Path(__file__).resolve().parent.parent / "src"
        environment = os.environ | {"PYTHONPATH": str(source), "SAGAS_PROGRAM": program()}
        done = subprocess.run(command, env=environment, capture_output=True, text=True, check=False)
        if done.returncode:
            self._fault("audit", f"`sagas store audit`: {_bad(done.stdout) or done.stderr}")


def _bad(text: str) -> Iterable[Json]:
    try:
        return [shard for shard in json.loads(text) if not shard["good"]]
    except ValueError:
        return []
