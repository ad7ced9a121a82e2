"""The name of a connection at the server: its node and its purpose.

`pg_stat_activity` lists it as `application_name`. It is a parameter of the connection, so it takes
no statement.
"""

from __future__ import annotations

import enum

PROGRAM = "sagas"
MAX_BYTES = 63
"""The server cuts a longer name."""


class Purpose(enum.Enum):
    """What a connection is for."""

    ADMIN = "admin"
    """The tables, and the commands of `sagas store`."""
    BLOBS = "blobs"
    """Large values, in a table of `PostgresBlobStore`."""
    CLAIM = "claim"
    """Claims and reports of workers."""
    CLIENT = "client"
    """Statements of a `sagas.Client`."""
    COMMIT = "commit"
    """Commits of shards."""
    HOSTS = "hosts"
    """A short look at which host is the primary, or whether a pooler pools transactions."""
    KEYS = "keys"
    """Lookups of keys by a node."""
    LEASE = "lease"
    """A node's lease, and its other short statements."""
    LISTEN = "listen"
    """Notifications."""
    READS = "reads"
    """Questions of the service, of callers and of the dashboard."""
    STEP = "step"
    """Transactions of steps."""
    WORKER = "worker"
    """Reports of a Celery worker."""


def application_name(prefix: str | None, node: str | None, purpose: Purpose) -> str:
    """Return `PREFIX/NODE PURPOSE`, or `PREFIX PURPOSE` without a node.

    A long name is cut before its purpose, since the server would cut the purpose.

    Args:
        prefix: The name in the URL (default: `sagas`).
        node: The name of the node.
        purpose: What the connection is for.
    """
    whole = prefix or PROGRAM if node is None else f"{prefix or PROGRAM}/{node}"
    # the server would write several characters for each other one
    plain = "".join(letter if " " <= letter <= "~" else "?" for letter in whole)
    end = f" {purpose.value}"
    return plain[: MAX_BYTES - len(end)] + end
