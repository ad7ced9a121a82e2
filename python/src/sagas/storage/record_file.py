"""The record of a program: the replies to its commits, and its acknowledgements.

Each line is one event. An acknowledgement is recorded before the program sends it, and after all
replies that the program has received. `sagas store URL record` merges records with what the
database has. `core.shard.fleet_record` defines the lines.
"""

from __future__ import annotations

import os
from collections.abc import Container, Sequence
from typing import Any, Protocol
from zlib import crc32

from sagas.base.errors import InvalidStore
from sagas.base.logger import logger

VARIABLE = "SAGAS_RECORD"
"""The environment variable that names the file for stores without the option."""
MAX_WAITING = 32
"""Maximum number of texts that wait to be written. Each has one line or two."""
BEYOND = 999_999_999
"""More events than a shard ever has.

An acknowledgement of unknown cause rests on this number.
"""
WRITTEN_IN_PART = "it was written in part"
DIGESTS = BEYOND - 1
"""The number of distinct digest numbers."""
EDGES = "call", "wake", "reply", "read"
"""The points at which a program acknowledges something."""
Term = tuple[int, int, str]
"""Shard, epoch and timeline."""


class Session:
    """What a record has of one takeover of a shard.

    `storage.postgresql` begins it. What is acknowledged under it may be recorded before.

    Attributes:
        epoch: The epoch.
        timeline: The timeline of the server.
        present: The epoch if its server is the present one, else -1. It is valid only for the
            last session of a shard.
        fields: What each line has after its first word.
        sent_line: A `sent` line, to be formatted with its numbers.
        heard_line: A `heard` line, to be formatted with its number.
        acknowledgement_lines: A `told` line for each edge, to be formatted with its number.
        combined_lines: A `sent`, a `heard` and a `told` line for each edge, to be formatted
            together.
        digest: The digest of the whole event log, by the last reply.
        acknowledged: The number of events on which the last acknowledgement at each edge rests.
        max_acknowledged: The maximum of these numbers.
    """

    __slots__ = (
        "epoch",
        "timeline",
        "present",
        "fields",
        "sent_line",
        "heard_line",
        "acknowledgement_lines",
        "combined_lines",
        "digest",
        "acknowledged",
        "max_acknowledged",
    )

    def __init__(self, run: str, term: Term, digest: int) -> None:
        shard, self.epoch, self.timeline = term
        self.present = -1
        self.fields = f" {run} {shard} {self.epoch} {self.timeline} ".encode()
        escaped = self.fields.replace(b"%", b"%%")
        self.sent_line, self.heard_line = b"sent%b%%d %%d\n" % escaped, b"heard%b%%d\n" % escaped
        self.acknowledgement_lines = {
            edge: b"told%b%%d %b\n" % (escaped, edge.encode()) for edge in EDGES
        }
        self.combined_lines = {
            edge: self.sent_line + self.heard_line + self.acknowledgement_lines[edge]
            for edge in EDGES
        }
        self.digest = digest
        self.acknowledged = dict.fromkeys(EDGES, -1)
        self.max_acknowledged = -1


Rest = tuple[Session, int]
"""What an acknowledgement rests on: a session of a shard, and a number of its events."""
Heard = tuple[Session, int, int, int]
"""A chunk that the server has.

It has the session, the number of events before the chunk, the number of the digest after it, and
the number of events after it.
"""


class Commit(Protocol):
    """What one commit writes.

    Attributes:
        parts: Its rows. Those of `lines` are chunks of event logs, and those of `born` are new
            shards.
        events: The number of events of each shard after it.
    """

    parts: dict[str, Sequence[Any]]
    events: dict[int, int]


def record_path(path: str | None) -> str | None:
    """Return the given file; else the one that the environment names, if any."""
    return path or os.environ.get(VARIABLE) or None


class RecordFile:
    """A file to which lines are appended.

    An acknowledgement that rests on more events than those before it is written at once, after all
    lines of the replies before it. Other lines wait for such a write. So a program that is killed
    loses only lines at the end. Several programs of one machine may share a file: each line names
    its program. If a write fails, that is logged once, and nothing more is recorded. No saga waits
    for the record.

    Most acknowledgements follow a reply. So the lines of a chunk are formatted when the next event
    is recorded, together with its line. That takes fewer instructions.

    Attributes:
        path: The file.
        run: The word that names this run of the program.
        timeline: The timeline of the server, as far as the program knows. Only `moved` sets it.
        commit: The commit that is sent, and has no reply yet. It is set before the commit is
            sent. Then `heard`, `failed` or `unanswered` is called.
        sessions: The last session of each shard that has started. Only this class changes it.
    """

    def __init__(self, path: str, run: str) -> None:
        self.path, self.run, self.timeline = path, run, ""
        self.sessions: dict[int, Session] = {}
        self._file = -1
        self._others: dict[Term, Session] = {}  # sessions that have not started
        self._waiting: list[bytes] = []  # lines that are not written yet
        # what follows these lines: the last chunk with a reply, and then the commit that has none
        self._heard: Heard | None = None
        self.commit: Commit | None = None
        # of a commit that has lines, and no reply: shards, and the digest after it
        self._sent: list[tuple[int, Session, int]] = []

    @classmethod
    def of(cls, path: str | None, node: str) -> RecordFile | None:
        """Create the record of a node, if the node has one."""
        return cls(path, node.rpartition("/")[2]) if path else None

    def open(self) -> None:
        """Open the file, or create it.

        Raises:
            InvalidStore: It cannot be written.
        """
        try:
            self._file = os.open(self.path, os.O_WRONLY | os.O_APPEND | os.O_CREAT, 0o600)
        except OSError as error:
            raise InvalidStore(
                f"the record {self.path!r} cannot be written: {error.strerror}. Name a file in a "
                "folder that exists and that this program may write to"
            ) from error
        self._waiting = [f"sagas-record 1 {self.run}\n".encode()]
        self._write()

    def close(self) -> None:
        """Write all lines that wait, and close the file."""
        self._settle()
        self._write()
        self._end()

    def _end(self) -> None:
        file, self._file = self._file, -1
        if file >= 0:
            os.close(file)

    def _write(self) -> None:
        """Write the lines that wait."""
        data = b"".join(self._waiting)
        self._waiting.clear()
        try:
            if data and os.write(self._file, data) < len(data):
                raise OSError(None, WRITTEN_IN_PART)
        except OSError as error:
            self._failed(error)

    def _failed(self, error: OSError) -> None:
        if self._file >= 0:  # it is still open
            logger.error("the record %s ends here: %s", self.path, error.strerror)
        self._end()

    # -- sessions

    def moved(self, timeline: str) -> None:
        """Note that the server now has this timeline."""
        self._settle()
        self.timeline = timeline
        for session in self.sessions.values():
            session.present = session.epoch if session.timeline == timeline else -1

    def session(self, shard: int, epoch: int) -> Session:
        """Return the session of a shard under an epoch, with the present server.

        The session may not have started.
        """
        return self._of((shard, epoch, self.timeline))

    def _of(self, term: Term) -> Session:
        session = self.sessions.get(term[0])
        if session is not None and (session.epoch, session.timeline) == term[1:]:
            return session
        other = self._others.get(term)
        if other is None:
            digest = 0 if session is None else session.digest
            other = self._others[term] = Session(self.run, term, digest)
        return other

    def _begin(self, term: Term, digest: int) -> Session:
        session = self._others.pop(term, None) or Session(self.run, term, digest)
        session.digest = digest
        session.present = session.epoch if session.timeline == self.timeline else -1
        self.sessions[term[0]] = session
        return session

    # -- replies

    def took(self, term: Term, events: int, text: str) -> None:
        """Note that a shard was loaded under a new epoch, with this number of events."""
        self._settle()
        digest = crc32(text.encode())
        digest_number = number(digest) if events else 0
        fields = self._begin(term, digest).fields
        self._put(b"took%b%d %d\n" % (fields, events, digest_number))

    def read(self, term: Term, events: int, text: str) -> None:
        """Note that a shard was read under its present epoch, or for the first time.

        A late reply, after the shard was taken over again, is not a takeover.
        """
        shard, epoch, timeline = term
        known = self.sessions.get(shard)
        if known is not None and known.timeline == timeline and known.epoch >= epoch:
            self.acknowledge((self._of(term), events), "read")
        else:
            self.took(term, events, text)

    def heard(self, commit: Commit, mine: Container[int]) -> None:
        """Note the server's reply to the commit: these shards belong to this node."""
        if self.commit is not commit:
            self._answer(commit, mine)
            return
        self.commit = None
        parts = commit.parts
        if "born" in parts:
            self._births(commit)
        if "lines" not in parts:
            return
        for shard, first, _, text, epoch in parts["lines"]:
            if self._heard is not None:
                self._put_heard()
            session = self.sessions.get(shard)
            if session is None or session.present != epoch:
                session = self.session(shard, epoch)
            digest = crc32(text.encode(), session.digest)
            if shard in mine:
                session.digest = digest
                digest_number = digest % DIGESTS + 1  # as `number`
                self._heard = session, first, digest_number, commit.events[shard]
            else:
                self._put(session.sent_line % (first, number(digest)))
                self._put(b"stale%b\n" % session.fields[:-1])

    def unanswered(self) -> None:
        """Note that no reply to the commit will come."""
        self._settle()

    def failed(self) -> None:
        """Note the reply that nothing of the commit was written.

        The commit is then sent again in parts.
        """
        self._settle()
        for _, session, _ in self._sent:
            self._put(b"failed%b\n" % session.fields[:-1])

    def _answer(self, commit: Commit, mine: Container[int]) -> None:
        """Write the lines of the reply to a commit whose lines are written."""
        for shard, session, digest in self._sent:
            if shard in mine:
                session.digest = digest
                self._put(session.heard_line % commit.events[shard])
            else:
                self._put(b"stale%b\n" % session.fields[:-1])

    # -- lines of replies

    def _settle(self) -> None:
        """Format the lines of what was sent and replied, before anything else is recorded."""
        if self._heard is not None:
            self._put_heard()
        commit, self.commit = self.commit, None
        if commit is not None:
            if "born" in commit.parts:
                self._births(commit)
            self._sent = []
            for shard, first, _, text, epoch in commit.parts.get("lines", ()):
                session = self.session(shard, epoch)
                digest = crc32(text.encode(), session.digest)
                self._sent.append((shard, session, digest))
                self._put(session.sent_line % (first, number(digest)))

    def _put_heard(self) -> None:
        assert self._heard
        session, first, digest_number, events = self._heard
        self._heard = None
        self._put((session.sent_line + session.heard_line) % (first, digest_number, events))

    def _births(self, commit: Commit) -> None:
        """Begin the sessions of the new shards of a commit."""
        if self._heard is not None:
            self._put_heard()
        for shard, *_ in commit.parts["born"]:
            if self.sessions.get(shard) is not self.session(shard, 1):
                session = self._begin((shard, 1, self.timeline), 0)
                self._put(b"took%b0 0\n" % session.fields)

    def _put(self, line: bytes) -> None:
        self._waiting.append(line)
        if len(self._waiting) > MAX_WAITING:
            self._write()

    # -- acknowledgements

    def acknowledge(self, rest: Rest, edge: str) -> None:
        """Note an acknowledgement that is about to be sent, and that rests on some events.

        It is recorded if it rests on more events than the last one at the same edge. It is written
        at once if it rests on more than the last one at any edge. Otherwise it can wait, since the
        record already has as many.
        """
        session, events = rest
        if session.max_acknowledged >= events:
            if session.acknowledged[edge] < events:
                session.acknowledged[edge] = events
                if self._heard is not None or self.commit is not None:
                    self._settle()
                self._waiting.append(session.acknowledgement_lines[edge] % events)
            return
        session.max_acknowledged = session.acknowledged[edge] = events
        heard = self._heard
        if heard is not None and heard[0] is session and heard[3] >= events:
            self._heard = None
            line = session.combined_lines[edge] % (heard[1], heard[2], heard[3], events)
        else:
            if heard is not None or self.commit is not None:
                self._settle()
            line = session.acknowledgement_lines[edge] % events
        if self._waiting:
            self._waiting.append(line)
            line = b"".join(self._waiting)
            self._waiting.clear()
        try:
            if os.write(self._file, line) < len(line):
                raise OSError(None, WRITTEN_IN_PART)
        except OSError as error:
            self._failed(error)

    def seen(self, saga: int, edge: str) -> None:
        """Note an acknowledgement that a saga has ended, as the database says."""
        self._settle()
        self._waiting.append(f"seen {self.run} {saga} {edge}\n".encode())
        self._write()

    def closed(self, term: Term) -> None:
        """Note that a shard is closed. Nothing more is recorded of it."""
        self._settle()
        self._put(b"closed%b\n" % self._of(term).fields[:-1])
        shard = term[0]
        self.sessions.pop(shard, None)
        for other in [other for other in self._others if other[0] == shard]:
            del self._others[other]


def number(digest: int) -> int:
    """Return the number of a digest in a record: not 0, and at most nine digits."""
    return digest % DIGESTS + 1
