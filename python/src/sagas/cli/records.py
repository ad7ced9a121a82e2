"""`record`: verifies the records of nodes and clients against the database."""

from __future__ import annotations

import argparse
import dataclasses
import json
import pathlib
import re
import zlib
from collections.abc import Callable, Sequence
from typing import Any

from sagas.base import program
from sagas.base.wording import escaped
from sagas.cli.formatting import CANNOT, GOOD, NO, Progress, show_json, table
from sagas.cli.nodes import check_database
from sagas.cli.snapshot import Snapshot
from sagas.core.shard.fleet_record import Chunk, InvalidLine, Loss, Records, ShardRecord, Takeover
from sagas.definition.capacity import SHARD_CAPACITY
from sagas.storage.admin import Trouble
from sagas.storage.postgresql.server import SERVER
from sagas.storage.record_file import number

LINE = f"SELECT {SERVER.timeline}"
SHARDS = "SELECT shard, name FROM shards ORDER BY shard"
TAKEOVERS = "SELECT epoch, node, last_seq, timeline FROM takeovers WHERE shard = ? ORDER BY id"
CHUNKS = "SELECT epoch, first_seq, text FROM event_log WHERE shard = ? ORDER BY first_seq"
ENDED = "SELECT id FROM sagas WHERE id >= ? AND id < ? AND phase IS NOT NULL"
DELETED = "SELECT id FROM deleted_sagas WHERE id >= ? AND id < ?"
"""The ended sagas that retention has deleted since."""
EVENT = re.compile(r'"saga":(\d+)')


@dataclasses.dataclass
class ShardCheck:
    """The check of a shard.

    Attributes:
        events: How many events its record has.
        good: Whether the program accepts the record, and the event log has no gap.
        answer: What the program prints.
        gaps: Gaps in its event log.
        losses: Acknowledged commits that are missing.
        ends_lost: Sagas whose acknowledged end is missing.
    """

    shard: int
    name: str
    events: int
    good: bool
    answer: str
    gaps: list[str]
    losses: list[Loss]
    ends_lost: list[int]

    @property
    def is_whole(self) -> bool:
        """Return whether it is accepted and nothing acknowledged is missing."""
        return self.good and not self.losses and not self.ends_lost


def read(paths: list[str]) -> Records:
    """Read the records of programs. Raises `Trouble`.

    An incomplete last line is skipped, because its program may be writing it.
    """
    records = Records()
    for path in paths:
        try:
            text = pathlib.Path(path).read_text(encoding="utf-8", errors="replace")
        except OSError as error:
            raise Trouble(f"{path}: {error.strerror}. Pass the file of a record", CANNOT) from error
        for number_of_line, line in enumerate(text[: text.rfind("\n") + 1].splitlines(), 1):
            try:
                records.add(line)
            except InvalidLine as error:
                raise Trouble(
                    f"{path}, line {number_of_line}: {error}. Pass a file that a program wrote for "
                    "SAGAS_RECORD",
                    CANNOT,
                ) from error
    return records


def save(path: pathlib.Path, text: str) -> None:
    """Write the record of a shard. Raises `Trouble`."""
    try:
        path.parent.mkdir(parents=True, exist_ok=True)
        path.write_text(text)
    except OSError as error:
        raise Trouble(
            f"{path}: {error.strerror}. Pass a writable folder to --save", CANNOT
        ) from error


class RecordChecker:
    """Checks the shards of a store, as of one moment."""

    def __init__(
        self,
        store: Snapshot,
        records: Records,
        is_synchronous: bool = False,
        folder: str | None = None,
        judge: Callable[[str], tuple[bool, str]] | None = None,
    ) -> None:
        self._store, self._records, self._judge = store, records, judge or audit_record
        self._is_synchronous, self._folder = is_synchronous, folder
        ((self._timeline,),) = store.rows(LINE)

    def all(self) -> list[ShardCheck]:
        """Check each shard of the store, and each one that was recorded."""
        names: dict[int, str] = {shard: name for shard, name in self._store.rows(SHARDS)}
        numbers = sorted({*names, *self._records.shards()})
        progress, checked = Progress("shards", len(numbers)), []
        for done, shard in enumerate(numbers, 1):
            if shard in names or not self._records.is_closed(shard):  # else it was deleted
                checked.append(self._shard(shard, names.get(shard, "")))
            progress.at(done)
        return checked

    def _shard(self, shard: int, name: str) -> ShardCheck:
        takeovers = [
            Takeover(epoch, node.rpartition("/")[2], last, timeline)
            for epoch, node, last, timeline in self._store.rows(TAKEOVERS, shard)
        ]
        chunks, at = self._chunks(shard)
        first = shard * SHARD_CAPACITY
        over = {id for (id,) in self._store.rows(ENDED, first, first + SHARD_CAPACITY)}
        if self._store.has_table("deleted_sagas"):
            over |= {id for (id,) in self._store.rows(DELETED, first, first + SHARD_CAPACITY)}
        seen = self._records.ends(first, first + SHARD_CAPACITY)
        ends = [(edge, at[id - first]) for id, edge in seen if id in over and id - first in at]
        record = ShardRecord(self._records.notes.get(shard, {}), self._is_synchronous)
        record.build(takeovers, chunks, self._timeline, ends)
        if self._folder:
            save(pathlib.Path(self._folder, f"{shard}.record"), record.text())
        is_allowed, answer = self._judge(record.text())
        gaps = gaps_of(chunks)
        good = is_allowed and not gaps
        lost = sorted({id for id, _ in seen if id not in over})
        return ShardCheck(shard, name, record.events, good, answer, gaps, record.losses, lost)

    def _chunks(self, shard: int) -> tuple[list[Chunk], dict[int, int]]:
        """Return the chunks of a shard.

        Also returns, for each saga, the number of events of the shard up to the saga's last
        one.
        """
        chunks, at, events, digest = list[Chunk](), dict[int, int](), 0, 0
        for epoch, first, text in self._store.rows(CHUNKS, shard):
            digest = zlib.crc32(text.encode(), digest)
            for line in text.splitlines():
                events += 1
                if match := EVENT.search(line):
                    at[int(match[1])] = events
            chunks.append(Chunk(epoch, first, first + text.count("\n"), number(digest)))
        return chunks, at


def gaps_of(chunks: Sequence[Chunk]) -> list[str]:
    """Return where a commit does not follow the previous one.

    A record has only the number of chunks, so the program cannot detect this.
    """
    gaps, events = [], 0
    for chunk in chunks:
        if chunk.first != events:
            before = f"the previous one ends at {events}"
            gaps.append(f"a commit follows event {chunk.first}, and {before}")
        events = chunk.end
    return gaps


def audit_record(text: str) -> tuple[bool, str]:
    """Return whether `sagas audit --fleet` accepts a record, and what it prints.

    Raises `Trouble` if it fails.
    """
    done = program.run("audit", [text], options=["--fleet"])
    answer = (done.stdout or done.stderr).strip()
    if done.returncode not in (GOOD, NO):
        raise Trouble(f"sagas audit --fleet: {answer}", CANNOT)
    return done.returncode == GOOD, answer


def record(path: str, options: argparse.Namespace) -> int:
    """Verify records of nodes and clients against commits and takeovers in the database.

    Without files, only commits and takeovers are verified.
    """
    check_database(path)
    records = read(options.files)  # before the store is read, which has all of it by then
    with Snapshot(path) as store:
        checked = RecordChecker(store, records, options.sync, options.save).all()
    if options.json:
        show_json([shown(shard) for shard in checked])
    else:
        heads = ["SHARD", "NAME", "EVENTS", "GOOD", "AUDIT"]
        print(table(heads, [cells(shard) for shard in checked]))
        for line in [line for shard in checked for line in lost(shard)]:
            print(escaped(line))
    return GOOD if all(shard.is_whole for shard in checked) else NO


def cells(shard: ShardCheck) -> tuple[object, ...]:
    """Return the table row of a shard."""
    return shard.shard, shard.name, shard.events, "yes" if shard.good else "NO", shard.answer


def shown(shard: ShardCheck) -> dict[str, Any]:
    """Return a shard as JSON."""
    fields: dict[str, Any] = json.loads(json.dumps(dataclasses.asdict(shard)))
    fields["losses"] = [
        {
            "chunks": loss.chunk_count,
            "told": [telling._asdict() for telling in loss.acknowledgements],
        }
        for loss in shard.losses
    ]
    return fields


def lost(shard: ShardCheck) -> list[str]:
    """Return the gaps of a shard, and what was acknowledged and no longer exists."""
    lines = [f"shard {shard.shard}: gap: {gap}" for gap in shard.gaps]
    for loss in shard.losses:
        last = max(telling.chunks for telling in loss.acknowledgements)
        edges = ", ".join(sorted({telling.edge for telling in loss.acknowledgements}))
        lines.append(
            f"shard {shard.shard}: lost: a server took over with {loss.chunk_count} commits, but "
            f"acknowledged results ({edges}) need {last}"
        )
    if shard.ends_lost:
        ids = ", ".join(map(str, shard.ends_lost[:8]))
        lines.append(f"shard {shard.shard}: lost: the acknowledged ends of the sagas {ids}")
    return lines
