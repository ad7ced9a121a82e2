"""The records of programs, and their merge with a shard's rows into one record.

`sagas audit --fleet` verifies the merged record. The lines of one program are in the order of its
events. Programs share no clock: a confirmation that a program received is placed as early as the
database's rows allow, which is the most lenient order.

A record of a program has a line for each event, with single spaces between its fields:

    sagas-record 1 RUN                                 a program starts; RUN is its unique name
    took RUN SHARD EPOCH TIMELINE EVENTS DIGEST        it has taken over a shard, and read EVENTS
    sent RUN SHARD EPOCH TIMELINE FIRST DIGEST         it sends a commit that follows FIRST events
    heard RUN SHARD EPOCH TIMELINE EVENTS              the server answered: there are EVENTS now
    stale RUN SHARD EPOCH TIMELINE                     it answered that another node has the shard
    failed RUN SHARD EPOCH TIMELINE                    it answered that it wrote nothing
    closed RUN SHARD EPOCH TIMELINE                    the shard is closed: it may be deleted
    told RUN SHARD EPOCH TIMELINE EVENTS EDGE          it acknowledges what rests on EVENTS
    seen RUN SAGA EDGE                                 it acknowledges that a saga has ended

EDGE is `call`, `wake`, `reply`, `read`, `client` or `webhook`. A digest is the one of the whole
event log up to there.
"""

from __future__ import annotations

import bisect
import dataclasses
from collections import deque
from collections.abc import Iterable, Mapping, Sequence
from typing import NamedTuple


FIELDS = {
    "took": 7,
    "sent": 7,
    "heard": 6,
    "stale": 5,
    "failed": 5,
    "closed": 5,
    "told": 7,
    "seen": 4,
}
"""The number of fields of each line."""
SEEN = "seen"
NO_SESSION = 999_999_999
"""The number of a session that never started; also more chunks than any shard has."""
NO_CHUNK = -1
"""The `last` of a takeover before the first chunk."""


# -- the lines of programs


class InvalidLine(Exception):
    """A line of a record is invalid."""


class RecordNote(NamedTuple):
    """An event of a program's record about one shard, with its number and its digest or edge."""

    event: str
    number: int = 0
    digest: int = 0
    edge: str = ""


class SessionName(NamedTuple):
    """The name of a session: the program, the epoch and the timeline."""

    run: str
    epoch: int
    timeline: str


@dataclasses.dataclass
class Records:
    """The records of programs.

    Attributes:
        notes: The notes of each session, by shard.
        seen: The edges at which the end of each saga was acknowledged, by saga.
    """

    notes: dict[int, dict[SessionName, list[RecordNote]]] = dataclasses.field(default_factory=dict)
    seen: dict[int, set[str]] = dataclasses.field(default_factory=dict)

    def add(self, line: str) -> None:
        """Add a line.

        Raises:
            InvalidLine: The line is invalid.
        """
        event, *fields = line.split(" ")
        if event == "sagas-record":
            if fields[:1] != ["1"]:
                raise InvalidLine("its format is not 1")
            return
        if FIELDS.get(event) != 1 + len(fields):
            raise InvalidLine("it is not an event")
        if event == SEEN:
            self.seen.setdefault(_number(fields[1]), set()).add(fields[2])
            return
        run, shard, epoch, timeline, *rest = fields
        session = SessionName(run, _number(epoch), timeline)
        if event == "told":
            note = RecordNote(event, _number(rest[0]), edge=rest[1])
        else:
            numbers = [*map(_number, rest), 0, 0]
            note = RecordNote(event, numbers[0], numbers[1])
        self._put(_number(shard), session, note)

    def shards(self) -> Iterable[int]:
        """Return the shards that have a note."""
        return self.notes.keys()

    def is_closed(self, shard: int) -> bool:
        """Whether a shard was closed."""
        notes = self.notes.get(shard, {}).values()
        return any(note.event == "closed" for of in notes for note in of)

    def ends(self, first: int, end: int) -> list[tuple[int, str]]:
        """Return the sagas from `first` to before `end` with acknowledged ends, and the edges."""
        pairs = ((id, edge) for id, edges in self.seen.items() for edge in sorted(edges))
        return sorted((id, edge) for id, edge in pairs if first <= id < end)

    def _put(self, shard: int, session: SessionName, note: RecordNote) -> None:
        notes = self.notes.setdefault(shard, {}).setdefault(session, [])
        if note.event != "failed":
            notes.append(note)
            return
        # the sent commit was not written; an acknowledgement may have followed it
        last = next(
            (session for session in reversed(range(len(notes))) if notes[session].event != "told"),
            None,
        )
        if last is not None and notes[last].event == "sent":
            del notes[last]


def _number(text: str) -> int:
    if not (text.isascii() and text.isdigit()):
        raise InvalidLine(f"{text[:20]!r} is not a number")
    return int(text)


# -- the merge


class Chunk(NamedTuple):
    """The chunk that one commit wrote to a shard.

    Attributes:
        epoch: The epoch that it claims.
        first: The number of events before it.
        end: The number of events after it.
        digest: The digest of the event log up to its end.
    """

    epoch: int
    first: int
    end: int
    digest: int


class Takeover(NamedTuple):
    """A new epoch of a shard in the database.

    `last`: the `first` of the last chunk before it, `NO_CHUNK` if there was none; None if unknown.
    """

    epoch: int
    run: str
    last: int | None
    timeline: str


@dataclasses.dataclass
class _Session:
    """The state that a node has of a shard after a takeover, as far as its notes are placed.

    `known` and `requested` count chunks; `digest` is that of the chunk that it sent last.
    """

    number: int
    requested: int
    notes: deque[RecordNote]
    known: int = 0
    stage: str = "done"
    digest: int = 0


class Acknowledgement(NamedTuple):
    """An acknowledgement to a caller: its edge, and the number of chunks on which it rests."""

    edge: str
    chunks: int


class Loss(NamedTuple):
    """The loss at a failover: the new server's chunks, and the acknowledgements beyond them."""

    chunk_count: int
    acknowledgements: list[Acknowledgement]


class ShardRecord:
    """The record of one shard, while it is built.

    Attributes:
        losses: The losses at failovers.
    """

    def __init__(
        self, notes: Mapping[SessionName, Sequence[RecordNote]], is_synchronous: bool
    ) -> None:
        self._unplaced = {line: deque(of) for line, of in notes.items()}
        self._synchronous, self._safe = is_synchronous, 0
        self._lines = [f"fleet 1 {'sync' if is_synchronous else 'async'}"]
        self._ends, self._digests = [0], [0]
        self._sessions: list[_Session] = []
        self._by_epoch: dict[tuple[int, str], _Session] = {}  # by epoch and timeline
        self._epoch = 0
        self._acknowledgements: list[Acknowledgement] = []
        self.losses: list[Loss] = []

    def text(self) -> str:
        """Return the record as `sagas audit --fleet` reads it."""
        return "".join(f"{line}\n" for line in self._lines)

    @property
    def events(self) -> int:
        """The number of events of the record."""
        return len(self._lines) - 1

    def build(
        self,
        takeovers: Sequence[Takeover],
        chunks: Sequence[Chunk],
        timeline: str,
        ends: Iterable[tuple[str, int]] = (),
    ) -> None:
        """Build the record.

        Args:
            takeovers: The takeovers that the database has, in order.
            chunks: The chunks that it has, in order.
            timeline: Its current timeline.
            ends: The edges at which ends of sagas were acknowledged, each with the number of
                events on which the end rests.
        """
        unplaced, pending = deque(chunks), deque(self._completed(takeovers, chunks))
        timelines = {timeline, *(takeover.timeline for takeover in takeovers)}
        timelines |= {line.timeline for line in self._unplaced}
        for server_timeline in sorted(
            server_timeline for server_timeline in timelines if server_timeline <= timeline
        ):
            while pending and pending[0].timeline == server_timeline:
                takeover = pending.popleft()
                self._write_before(takeover, unplaced, server_timeline)
                self._begin(
                    takeover.epoch,
                    server_timeline,
                    self._unplaced.pop(
                        SessionName(takeover.run, takeover.epoch, server_timeline), None
                    ),
                )
            if self._sessions:  # the remaining chunks were written before another server took over
                self._write_before(pending[0] if pending else None, unplaced, server_timeline)
            if server_timeline != timeline and self._is_known(server_timeline):
                self._move(server_timeline)
        self._end(ends)

    def _completed(self, takeovers: Sequence[Takeover], chunks: Sequence[Chunk]) -> list[Takeover]:
        """Return the takeovers, each with the last chunk before it.

        If the takeover did not record it, it is the last chunk that the node read; if that is not
        recorded either, the last chunk with an older epoch before the next takeover.
        """
        completed, next_last = list[Takeover](), NO_SESSION
        for takeover in reversed(takeovers):
            last = takeover.last
            if last is None:
                notes = self._unplaced.get(
                    SessionName(takeover.run, takeover.epoch, takeover.timeline), ()
                )
                events_read = next((note.number for note in notes if note.event == "took"), None)
                last = NO_CHUNK
                for chunk in chunks:
                    is_before = (
                        chunk.epoch < takeover.epoch
                        if events_read is None
                        else chunk.end <= events_read
                    )
                    if not is_before or chunk.first > next_last:
                        break
                    last = chunk.first
            next_last = last
            completed.append(takeover._replace(last=last))
        return completed[::-1]

    def _write_before(
        self, takeover: Takeover | None, unplaced: deque[Chunk], timeline: str
    ) -> None:
        """Place the chunks that the database has before a takeover; all, if there is none."""
        last = NO_SESSION if takeover is None or takeover.last is None else takeover.last
        while unplaced and unplaced[0].first <= last:
            self._add_chunk(unplaced.popleft(), timeline)

    def _is_known(self, timeline: str) -> bool:
        """Whether any session has a timeline."""
        return bool(self._sessions) or any(line.timeline == timeline for line in self._unplaced)

    def _end(self, ends: Iterable[tuple[str, int]]) -> None:
        for session in self._sessions:
            self._drain(session, forced=True)
        for line, notes in self._unplaced.items():
            self._add_unknown(line, notes)
        for edge, events in ends:
            self._add_end(Acknowledgement(edge, self._chunks(events)))

    # -- what the database has

    def _begin(self, epoch: int, timeline: str, notes: deque[RecordNote] | None) -> _Session:
        """Start a session, which reads all existing chunks, or those that its record names."""
        read, digest = len(self._ends) - 1, self._digests[-1]
        if start := next((note for note in notes or () if note.event == "took"), None):
            read, digest = self._chunks(start.number), start.digest
        session = _Session(len(self._sessions), read, notes or deque())
        self._sessions.append(session)
        self._by_epoch[epoch, timeline] = session
        self._lines.append(f"took {epoch} {read} {digest}")
        self._epoch = epoch
        self._drain(session)
        return session

    def _add_chunk(self, chunk: Chunk, timeline: str) -> None:
        session = self._by_epoch.get((chunk.epoch, timeline))
        if session is None:
            self._lines.append(f"wrote {NO_SESSION} {len(self._ends) - 1} {chunk.digest}")
            self._add(chunk.end, chunk.digest)
            return
        self._drain(session)
        if session.stage != "sent" and not any(note.event == "sent" for note in session.notes):
            if (
                session.stage == "done" and not session.notes
            ):  # it wrote again, so it had received the answer
                self._add_heard(session)
            self._add_sent(session, chunk.digest)
        self._write(session, chunk.end, chunk.digest)
        self._drain(session)

    def _write(self, session: _Session, end: int, digest: int) -> None:
        self._lines.append(f"wrote {session.number} {len(self._ends) - 1} {digest}")
        session.stage = "done"
        self._add(end, digest)

    def _add(self, end: int, digest: int) -> None:
        self._ends.append(end)
        self._digests.append(digest)

    # -- what programs noted

    def _drain(self, session: _Session, forced: bool = False) -> None:
        """Place the notes of a session as far as the database's rows allow; all if `forced`."""
        notes = session.notes
        while notes:
            note = notes[0]
            if note.event in ("took", "heard"):
                if not forced and not self._is_answered(session, note):
                    return
                self._add_heard(session)
            elif note.event == "sent":
                self._add_sent(session, note.digest)
            elif note.event == "stale":
                self._lines.append(f"stale {session.number}")
                session.stage = "refused"
            elif note.event == "told":
                self._acknowledge(session, Acknowledgement(note.edge, self._chunks(note.number)))
            notes.popleft()

    def _is_answered(self, session: _Session, note: RecordNote) -> bool:
        """Whether the write that the server confirmed to a session is placed."""
        if session.stage != "done":
            return False
        return (
            note.event == "took" or self._chunks(note.number) == session.known + session.requested
        )

    def _add_sent(self, session: _Session, digest: int) -> None:
        self._lines.append(f"sent {session.number} {digest}")
        session.requested, session.stage, session.digest = 1, "sent", digest

    def _add_heard(self, session: _Session) -> None:
        known = session.known + session.requested
        if self._synchronous and known > self._safe:  # a confirmed write is claimed to be safe
            self._safe = known
            self._lines.append(f"safe {known}")
        self._lines.append(f"heard {session.number}")
        session.known, session.requested, session.stage = known, 0, "idle"

    def _acknowledge(self, session: _Session | None, acknowledgement: Acknowledgement) -> None:
        self._lines.append(
            f"told {session.number if session else NO_SESSION} {acknowledgement.chunks}"
        )
        self._acknowledgements.append(acknowledgement)

    def _add_unknown(self, line: SessionName, notes: Iterable[RecordNote]) -> None:
        """Place a session that the database does not have.

        No program may have a confirmation of it, or acknowledgements that rest on it.
        """
        if _was_confirmed(line, notes):
            self._lines.append(f"heard {NO_SESSION}")
        for note in notes:
            if note.event == "told":
                self._acknowledge(None, Acknowledgement(note.edge, self._chunks(note.number)))

    def _chunks(self, events: int) -> int:
        """Return how many chunks contain these events; one more than all if none do."""
        return bisect.bisect_left(self._ends, events)

    def _add_end(self, acknowledgement: Acknowledgement) -> None:
        """Place the acknowledgement of an end.

        It belongs to the first session that has the end, or else to the session that wrote it,
        since the database shows it.
        """
        known = (
            candidate for candidate in self._sessions if candidate.known >= acknowledgement.chunks
        )
        session = next(known, None)
        if session is None:
            finished = [candidate for candidate in self._sessions if candidate.stage == "done"]
            session = finished[-1] if finished else None
            if session:
                self._add_heard(session)
        self._acknowledge(session, acknowledgement)

    # -- another server

    def _move(self, timeline: str) -> None:
        """Place a failover to a server that has the chunks that are placed so far.

        Further confirmations of the server before it are placed before the failover.
        """
        chunk_count, epoch = len(self._ends) - 1, self._epoch
        for session in self._sessions:
            self._lose(session)
        lines = [line for line in self._unplaced if line.timeline == timeline]
        for line in sorted(lines, key=lambda line: line.epoch):
            notes = self._unplaced.pop(line)
            if line.epoch <= self._epoch or not _was_confirmed(line, notes):
                self._add_unknown(line, notes)
                continue
            for between in range(self._epoch + 1, line.epoch):  # no program noted them
                self._begin(between, timeline, None)
            self._lose(self._begin(line.epoch, timeline, notes))
        self._lines.append(f"moved {chunk_count} {epoch}")
        if lost := [
            acknowledgement
            for acknowledgement in self._acknowledgements
            if acknowledgement.chunks > chunk_count
        ]:
            self.losses.append(Loss(chunk_count, lost))
        self._acknowledgements = []
        self._epoch = epoch
        del self._ends[chunk_count + 1 :], self._digests[chunk_count + 1 :]

    def _lose(self, session: _Session) -> None:
        """Place what the server confirmed to a session and the database does not have any more.

        The session may have received the confirmation of the remaining chunks, so an end that rests
        on them may have been acknowledged.
        """
        self._drain(session)
        while session.notes:
            if session.notes[0].event == "heard" and session.stage == "sent":
                self._write(session, session.notes[0].number, session.digest)
                self._drain(session)
            else:
                self._drain(session, forced=True)
        if session.stage == "done" and session.known + session.requested < len(self._ends):
            self._add_heard(session)


def _was_confirmed(line: SessionName, notes: Iterable[RecordNote]) -> bool:
    """Whether a program had its takeover confirmed; for a new shard, by its first commit."""
    return any(note.event == ("heard" if line.epoch == 1 else "took") for note in notes)
