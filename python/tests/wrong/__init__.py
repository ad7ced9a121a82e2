"""Mutants of the coordinator: each module changes one thing in the package by `apply()`.

`FINDS` is the name of the fault by which the verifier must find it. `STRIKES` is the kind of strike
that reveals it, one of those of `kills.py`.
"""

from __future__ import annotations

import time

from sagas.storage.sqlite import writer
from sagas.storage.sqlite.writer import Events, Writer


def slow_disk() -> None:
    """Make each commit take twenty milliseconds in its thread.

    Actions before a commit are then seen before it, however fast the disk is.
    """
    right = Writer._sync

    def sync(self: Writer, events: Events, patient: bool) -> float:
        time.sleep(0.02)
        return right(self, events, patient)

    setattr(Writer, "_sync", sync)
    setattr(writer, "AT_ONCE", 0.0)
