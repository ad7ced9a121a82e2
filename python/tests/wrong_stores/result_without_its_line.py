"""The rows of each fifth commit with results are written, and its lines are not."""

from __future__ import annotations

import itertools

from sagas.storage.postgresql.commit_statement import Commit

FINDS = {"illegal", "audit", "gap", "results", "end", "keys"}
STRIKES = "nodes"
MOMENT = "nothing_happens"


def apply() -> None:
    """Leaves lines out."""
    right, turns = Commit.bind, itertools.count(1)

    def bind(self: Commit, node: bytes) -> tuple[str, list[bytes | None]]:
        if "results" in self.parts and next(turns) % 5 == 0:
            self.parts.pop("lines", None)
        return right(self, node)

    setattr(Commit, "bind", bind)
