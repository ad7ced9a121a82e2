"""`Settings`: what tests and special machines change of a store."""

from __future__ import annotations

import dataclasses
import time
from collections.abc import Callable

from sagas.definition import arguments
from sagas.definition.call_options import Seconds


@dataclasses.dataclass(frozen=True, slots=True)
class Settings:
    """Tune a store, for tests and special machines: `sagas.open(..., settings=...)`.

    Args:
        engine_processes: Maximum number of engine processes (default: 16).
        idle: Seconds, or a timedelta, after which an idle engine process ends (default: 5).
        clock: A function that returns wall time, in seconds since 1970 (default: `time.time`).
        program: Path of the program `sagas` (default: the one of the package).

    Raises:
        TypeError: A value has the wrong type.
        ValueError: A value is out of range.

    Example:
        >>> few = sagas.Settings(engine_processes=2, idle=60)
        >>> with sagas.open_sync("few.db", [order], settings=few) as store:
        ...     store.count()
        0
    """

    engine_processes: int = 16
    idle: Seconds = 5.0
    clock: Callable[[], float] = time.time
    program: str | None = None

    def __post_init__(self) -> None:
        arguments.count("engine_processes", self.engine_processes)
        arguments.time("idle", self.idle)
        arguments.calls("clock", self.clock, "that returns seconds since 1970, like time.time")


DEFAULTS = Settings()
