"""A reference model of `sagas audit --fleet`, written only from docs/dev/promises/saga_fleet.md.

It defines which event may come next in the record of one shard.
"""

from __future__ import annotations

from dataclasses import dataclass, field

BLANK = 0


@dataclass
class Session:
    """The belief of a node: counts of chunks, the digest of what it sent, and its stage."""

    server: int
    epoch: int
    unanswered: int
    known: int = 0
    digest: int = 0
    stage: str = "done"


@dataclass
class Log:
    """The content of the database."""

    is_synchronous: bool
    epoch: int = 0
    server: int = 0
    safe: int = 0
    digests: list[int] = field(default_factory=list)
    sessions: list[Session] = field(default_factory=list)

    def step(self, word: str, numbers: list[int]) -> str | None:
        """Take an event; return why it is not allowed."""
        if word in ("safe", "moved"):
            if numbers[0] < self.safe:
                return "FewerThanShipped"
            if numbers[0] > len(self.digests):
                return "MoreThanWritten"
            if word == "safe":
                self.safe = numbers[0]
            else:
                self.server, self.epoch = self.server + 1, numbers[1]
                del self.digests[numbers[0] :]
            return None
        if word == "took":
            return self.took(*numbers)
        if numbers[0] >= len(self.sessions):
            return "NoSuchSession"
        return str(getattr(self, word)(self.sessions[numbers[0]], *numbers[1:]) or "") or None

    def took(self, epoch: int, chunks: int, digest: int) -> str | None:
        """A session begins."""
        if epoch != self.epoch + 1:
            return "EpochNotNext"
        if chunks != len(self.digests):
            return "OtherLength"
        if digest != (self.digests[-1] if self.digests else BLANK):
            return "OtherContent"
        self.epoch = epoch
        self.sessions.append(Session(self.server, epoch, chunks))
        return None

    def sent(self, session: Session, digest: int) -> str | None:
        """It sends a chunk."""
        if session.stage != "idle":
            return "NotIdle"
        session.stage, session.unanswered, session.digest = "sent", 1, digest
        return None

    def wrote(self, session: Session, chunks: int, digest: int) -> str | None:
        """The database writes what the session sent."""
        faults = {
            "NothingSent": session.stage != "sent",
            "OtherServer": session.server != self.server,
            "OldEpoch": session.epoch != self.epoch,
            "OtherPlace": chunks != len(self.digests),
            "OtherContent": digest != session.digest,
        }
        session.stage = "done"
        self.digests.append(digest)
        return next((name for name, is_so in faults.items() if is_so), None)

    def stale(self, session: Session) -> str | None:
        """The database refuses the session."""
        was, session.stage = session.stage, "refused"
        return None if was == "sent" else "NothingSent"

    def heard(self, session: Session) -> str | None:
        """The session receives a confirmation."""
        if session.stage != "done":
            return "NothingDone"
        if session.server != self.server:
            return "OtherServer"
        session.known, session.unanswered, session.stage = (
            session.known + session.unanswered,
            0,
            "idle",
        )
        return "NotShipped" if self.is_synchronous and session.known > self.safe else None

    def told(self, session: Session, chunks: int) -> str | None:
        """The session acknowledges chunks."""
        return "NotKnown" if chunks > session.known else None


def judge(text: str) -> tuple[int, str] | None:
    """Return the number of the first line that is not allowed, and why; None if all are."""
    head, *lines = text.splitlines()
    log = Log({"fleet 1 sync": True, "fleet 1 async": False}[head])
    for number, line in enumerate(lines, 2):
        word, *numbers = line.split(" ")
        assert all(len(number) <= 9 for number in numbers), line
        if why := log.step(word, [int(number) for number in numbers]):
            return number, why
    return None
