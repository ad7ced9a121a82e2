"""The nodes of a store, as operators see them."""

from __future__ import annotations

import dataclasses
import enum


class NodeState(enum.StrEnum):
    """What a node does."""

    RUNNING = "running"
    DRAINING = "draining"
    """An operator has drained it, and it still has shards with open sagas."""
    DRAINED = "drained"
    STOPPING = "stopping"
    GONE = "gone"
    """Its lease has expired, or it has ended while it was drained."""


@dataclasses.dataclass(frozen=True, slots=True)
class Drain:
    """That an operator has drained a node.

    Attributes:
        note: Why, for operators.
        by: The person or program that drained it, or None.
        at: When, in seconds since 1970.
    """

    note: str
    by: str | None
    at: float


@dataclasses.dataclass(frozen=True, slots=True)
class NodeStatus:
    """Describe a node of a store. `Store.nodes` returns all of them.

    Attributes:
        name: The name of the node.
        run: The random suffix of this run of the node; None if it has ended.
        release: The release of the package; None if it is an early one, or the node has ended.
        version: The version of its set of definitions; None if it has ended.
        definitions: Its definitions, as saga/version/digest.
        since: When it started, in seconds since 1970; None if it has ended.
        lease: The seconds until its lease ends, negative after that; None if there is none.
        heartbeat_age: The seconds since its last heartbeat; None if that is unknown.
        shards: How many open shards it has.
        open_sagas: How many open sagas it has.
        running: How many functions run; None if that is unknown.
        concurrency: How many functions may run at once; None if that is unknown.
        is_stopping: Whether it is about to end.
        drain: Its drain, or None.
        database: The database that it is a node of, if the store has several; else None.
    """

    name: str
    run: str | None = None
    release: str | None = None
    version: str | None = None
    definitions: tuple[str, ...] = ()
    since: float | None = None
    lease: float | None = None
    heartbeat_age: float | None = None
    shards: int = 0
    open_sagas: int = 0
    running: int | None = None
    concurrency: int | None = None
    is_stopping: bool = False
    drain: Drain | None = None
    database: str | None = None

    @property
    def state(self) -> NodeState:
        """What it does."""
        if self.run is None or (self.lease is not None and self.lease <= 0):
            return NodeState.GONE
        if self.is_stopping:
            return NodeState.STOPPING
        if self.drain is None:
            return NodeState.RUNNING
        return NodeState.DRAINING if self.open_sagas else NodeState.DRAINED

    @property
    def load(self) -> float | None:
        """The running functions as a part of those that may run; None if that is unknown."""
        if self.running is None or not self.concurrency:
            return None
        return self.running / self.concurrency
