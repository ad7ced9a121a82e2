"""What the package asks of a PostgreSQL server beyond tables, rows and their locks.

A statement that needs a function of the server itself takes it from `SERVER`. So another database
that speaks PostgreSQL's protocol is judged by `REQUIREMENTS`, and this module is what would change
for it. docs/reference/servers.md is the page for people.
"""

from __future__ import annotations

import dataclasses
from typing import NamedTuple


@dataclasses.dataclass(frozen=True, slots=True)
class ServerFunctions:
    """The functions of a server, as SQL expressions.

    Attributes:
        timeline: A text that is another, and a greater, one after each promotion of a standby. If
            one server has no copy of another's commit, both never have the same.
        system: A number that a server and its standbys share, and no other server has.
        may_read_system: Whether this role may read `system`.
        database: A number that a database keeps for its life.
        session: A number that no other open session of the server has.
        replicated: Writes to the write-ahead log and changes nothing. The transaction's commit
            waits until the synchronous standbys have everything before it.
        wait_canceled: The source of the warning that a commit did not wait for its standbys.
    """

    timeline: str
    system: str
    may_read_system: str
    database: str
    session: str
    replicated: str
    wait_canceled: str

    def notify(self, channel: str, payload: str) -> str:
        """Return the expression that sends a message at the commit. `payload`: an expression."""
        return f"pg_notify('{channel}', {payload})"

    def listen(self, channel: str) -> str:
        """Return the statement after which a session receives a channel's messages."""
        return f"LISTEN {channel}"

    def lock(self, key: str) -> str:
        """Return the expression that waits for a lock of the session, and takes it."""
        return f"pg_advisory_lock({key})"

    def try_lock(self, key: str) -> str:
        """Return the expression that takes a lock of the session, or is false."""
        return f"pg_try_advisory_lock({key})"

    def unlock(self, key: str) -> str:
        """Return the expression that releases a lock of the session."""
        return f"pg_advisory_unlock({key})"

    def lock_text(self, text: str, seed: int) -> str:
        """Return the expression that takes a lock on a text until the transaction ends."""
        return f"pg_advisory_xact_lock(hashtextextended({text}, {seed}))"


SERVER = ServerFunctions(
    timeline="left(pg_walfile_name(pg_current_wal_lsn()), 8)",
    system="(SELECT system_identifier FROM pg_control_system())",
    may_read_system="has_function_privilege('pg_control_system()', 'EXECUTE')",
    database="(SELECT oid FROM pg_database WHERE datname = current_database())",
    session="pg_backend_pid()",
    replicated="pg_logical_emit_message(true, 'sagas', '')",
    wait_canceled="SyncRepWaitForLSN",
)
"""The functions of PostgreSQL. Statements are built of them when their modules are imported."""


class Requirement(NamedTuple):
    """What a server must have.

    Attributes:
        name: Its name on the page.
        probe: A statement that fails on a server without it. Its success proves nothing yet.
        property: What has to hold of it.
    """

    name: str
    probe: str
    property: str


REQUIREMENTS = (
    Requirement(
        "row lock",
        "SELECT 1 FROM sagas.shards FOR NO KEY UPDATE",
        "held until the end of the transaction",
    ),
    Requirement(
        "skipped row",
        "SELECT 1 FROM sagas.shards FOR UPDATE SKIP LOCKED",
        "leaves out rows that another transaction has locked",
    ),
    Requirement(
        "read committed",
        "SET default_transaction_isolation = 'read committed'",
        "after a wait for a lock, a statement sees the latest commit",
    ),
    Requirement(
        "durable commit",
        "SELECT set_config('synchronous_commit', 'on', false)",
        "an answered commit survives a crash and a failover",
    ),
    Requirement(
        "timeline", f"SELECT {SERVER.timeline}", "greater after each promotion, and never the same"
    ),
    Requirement(
        "standby wait",
        f"SELECT {SERVER.replicated}",
        "its commit waits until standbys have all before it",
    ),
    Requirement(
        "session", f"SELECT {SERVER.session}", "other for each open session, and one for a session"
    ),
    Requirement(
        "session lock",
        f"SELECT {SERVER.try_lock('1')}",
        "one session at a time, until its end",
    ),
    Requirement(
        "transaction lock",
        "SELECT " + SERVER.lock_text("'a'", 1),
        "one transaction at a time, until its end",
    ),
    Requirement(
        "message",
        "SELECT " + SERVER.notify("a", "''"),
        "sent at the commit, in the order of commits",
    ),
    Requirement("listener", SERVER.listen("a"), "gets each message that is sent after it"),
    Requirement("system", f"SELECT {SERVER.system}", "the same for standbys, other elsewhere"),
    Requirement("database", f"SELECT {SERVER.database}", "the same for the life of a database"),
)
"""The list by which a server is judged. docs/reference/servers.md has what rests on each."""
