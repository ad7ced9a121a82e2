"""The interface of a store's database, which `Sqlite` and `PostgreSQL` implement.

`factory.make` returns the `Database` that a store's name selects, and `blob_layer` may put a blob
store before it. The program that opened the store knows its database only by this interface, and
asks what it is able to do:

- `supports_nodes`: whether other nodes may own shards. Then `peers` has the calls between the
  nodes, and the database notifies them.
- `answers_at_once`: whether it is a file, which is read and written without a wait for a server.
- `inside`: calls functions in transactions; None for a file.
- `record`: the file that has each commit and each acknowledgement, if there is one.
- `blobs`: the blob store of large values, if there is one.
- `commit_seconds`: 0 if it never makes sense to hold back a commit.

Commits need only a `CommitWriter`, and a thread with questions needs only a `Reader`. The database
calls a `Watcher` when something may have changed. Its tables of external attempts and of deliveries
have their own interfaces (`external`, `deliveries`).

Others have connections of their own: commands of operators (`admin`), workers (`worker_session`),
and clients (`postgresql.caller_connection`, `postgresql.lookups`).

A database holds keys, inputs, results, outcomes and the event log of each shard. It is the only
truth. A commit writes a list of `Batch` objects (core/shard/batch.py). A batch is what one shard
gained at once. Functions are called, and callers are answered, only after the commit of their
batch.

A batch may open a saga without a lookup of its key (`Batch.unchecked_keys`). If the key is taken,
the batch is not written, and `then` is called with the shard as lost. A database that supports
nodes may have several: each shard has an owner and an epoch, which grows at each `load`. A batch is
also lost if its shard or epoch is no longer that of its writer.
"""

from __future__ import annotations

from collections.abc import Awaitable, Callable, Sequence
from concurrent.futures import Executor
from typing import TYPE_CHECKING, Any, Optional, Protocol

from sagas.base.errors import InvalidStore, StoreUnavailable
from sagas.core.shard.balance import NodeFigures, NodeShare
from sagas.core.shard.batch import (
    Batch,
    NewShard,
    NewStart,
    Grant,
    StoredSaga,
    LoadedShard,
    ShardRow,
    PendingRequest,
    SagaRow,
    PendingStart,
    Tail,
)
from sagas.core.attempt.step_transactions import StepTransactions
from sagas.core.attempt.child_attempts import CompletedChild
from sagas.storage.external import ExternalAttempts
from sagas.storage.record_file import RecordFile

if TYPE_CHECKING:
    from sagas.core.attempt.model import Attempt
    from sagas.core.outcomes import Outcome
    from sagas.definition.payloads import Payloads
    from sagas.definition.call_options import Bounds, Manner
    from sagas.definition.task import Task
    from sagas.storage.blob_layer import Blobs

CommitCallback = Callable[[Sequence[Batch], "BaseException | None", frozenset[int]], None]
"""Called with the batches, the error or None, and the shards that were lost.

The error is what kept the batches from being written, as far as that is known. Nothing was written
of the shards that were lost.
"""

FunctionCheck = Callable[[list[str], list[int], Sequence[CompletedChild]], "str | None"]
"""Return None if this program has all functions of a shard, else what is missing.

It takes the definitions of the shard, the indexes of those that have open sagas, and the completed
children below these sagas.
"""


class Reader(Protocol):
    """A connection that only reads. One thread at a time may use it."""

    def rows(self, query: str, *parameters: Any) -> list[tuple[Any, ...]]:
        """Return the rows of a query.

        SQLite and PostgreSQL both understand the query, which has a `?` for each parameter. Raises
        `StoreUnavailable`.
        """

    def close(self) -> None:
        """Close the connection."""


class Peers(Protocol):
    """Calls and messages between the services of one database."""

    node: str
    answers: dict[str, Callable[[Any], Awaitable[Any]]]
    """The handler of each command that another node may call."""
    on_message: Callable[..., object]
    """Called with each message that another node broadcast."""
    missed: Callable[..., object]
    """Called if this node may have missed a message."""
    follows: Callable[[], bool]
    """Returns whether this node needs the messages of the others at once."""
    others: set[str]
    """The other nodes that answer, as far as this node knows."""

    async def open(self) -> None:
        """Announce this node to the others."""

    async def close(self) -> None:
        """Stop: the other nodes call this one no more."""

    async def owner(self, shard: str) -> str | None:
        """Return the node that owns the shard with this name, if that node answers."""

    async def call(self, node: str, command: str, payload: Any) -> Any:
        """Call another node, and return its answer.

        Raises `OwnerUnavailable`, `StoreUnavailable`.
        """

    async def call_all(self, command: str) -> list[Any]:
        """Return the answers of all other nodes that answer."""

    def follow(self) -> None:
        """Have the other nodes send their messages without much delay, because one needs them."""

    def broadcast(self, message: Any) -> bool:
        """Send a message to all other nodes soon. Return False if it is too long."""


class Watcher(Protocol):
    """What the database calls, in the loop, when something may have changed."""

    def look(self) -> None:
        """There may be new requests or starts."""

    def lease_expired(self, is_older: bool = False) -> None:
        """The lease expired for a time, or another server has taken over.

        Each shard of this node may now belong to another one, or have other contents. `is_older`:
        the server may lack commits that were acknowledged.
        """

    def taken(self, rows: list[ShardRow]) -> None:
        """This node owns these shards from now on."""

    def paused(self) -> None:
        """The pauses may have changed."""

    def drained(self, is_drained: bool) -> None:
        """Whether an operator has drained this node, and another node takes its shards."""

    def figures(self) -> NodeFigures:
        """Return what this node stores about itself with its heartbeat."""

    def slots_freed(self) -> None:
        """Some node freed slots of a step (`Database.admit`)."""

    def reported(self) -> None:
        """A report of an external attempt arrived."""

    def suffice(self, tasks: Sequence[str]) -> bool:
        """Return whether a claim of this node waits for each of these tasks, offered now."""

    def reported_in(self, shards: Sequence[int]) -> None:
        """Reports arrived of attempts of these shards. Other nodes may have some of the shards."""

    def offered(self) -> None:
        """Another node offers something to workers."""

    def refused(self, error: InvalidStore) -> None:
        """The server has no tables of the store, and this node may not create them."""

    def logs(self) -> list[int]:
        """Return the shards that this node drives, as far as it knows."""


class CommitWriter(Protocol):
    """What commits need of a store's database."""

    supports_nodes: bool
    """Whether other nodes may own shards of it, and are notified by it."""

    answers_at_once: bool
    """Whether it is read and written without a wait for a server (`Database.find_many`)."""

    @property
    def path(self) -> str:
        """The name for messages: the file, or the URL without its password."""

    commit_seconds: float
    """Seconds that a recent commit took, while this program does other things.

    It is 0 if it never makes sense to hold back a commit.
    """

    @property
    def commits(self) -> int:
        """The number of transactions that were written."""

    def commit(self, batches: Sequence[Batch], then: CommitCallback, now: bool) -> None:
        """Write all batches in one transaction, and call `then` in the loop.

        There is one commit at a time: the next one may begin only after `then`. With `now`, `then`
        may be called before this returns.
        """

    def finish_commit(self) -> None:
        """Call `then` of a commit that had ended when `commit` returned.

        If the database answers at once, it is called in the loop's next turn after each such
        `commit`.
        """


class Database(CommitWriter, Protocol):
    """What the coordinator needs of a store's database.

    All calls are for the event loop in which it was opened. They raise `StoreUnavailable` if
    something cannot be read or written.
    """

    is_member: bool
    """Whether the program has all databases of the store, which has several."""

    @property
    def file(self) -> str:
        """The name by which a program opens it again: the file's whole path, or the URL."""

    external: ExternalAttempts
    """The table of external attempts."""

    @property
    def record(self) -> RecordFile | None:
        """The record that this program writes of commits and acknowledgements, if any."""

    @property
    def blobs(self) -> Blobs | None:
        """The blob store of large values, if there is one."""

    @property
    def pending_lookups(self) -> int:
        """The number of keys that are being looked up: most are about to be started."""

    # -- opening and closing

    async def open(self, check_functions: FunctionCheck) -> list[ShardRow]:
        """Create or migrate the tables, and return the open shards that this program drives.

        The shards are in order. Raises `StoreLocked`, `StoreUnavailable`, `StoreSchemaTooNew`,
        `InvalidStore`.
        """

    async def secret(self) -> bytes:
        """Return the store's secret, which signs leases. The first call creates it."""

    def peers(self) -> Peers | None:
        """Return the calls between this node and others; None if there are no other nodes."""

    def watch(self, watcher: Watcher) -> None:
        """Begin to call the watcher."""

    async def close(self) -> None:
        """Close after the commits under way. Other nodes can take the shards at once."""

    # -- shards and slots

    def new_shard(self) -> int:
        """Return the number of a shard that is about to be created (`Batch.born`)."""

    @property
    def timeline(self) -> str:
        """The server's timeline, as far as it is known. A file has the empty one."""

    def holds(self) -> bool:
        """Whether this program still owns its shards. It is read before each function call."""

    @property
    def inside(self) -> StepCaller | None:
        """What calls functions in transactions; None if there are no transactions.

        `attempt.record` has the state of such a call.
        """

    async def admit(self, name: str, bounds: Bounds, want: int, have: Sequence[int]) -> Grant:
        """Take slots of a step for calls that begin now, over all nodes.

        Of the slots of the step's limit this node keeps those of `have`, and frees the others.
        There is one call at a time for each name.

        Raises `StoreUnavailable`. Then the outcome is unknown. The next call corrects it, except
        for slots of a rate limit.

        Args:
            want: Maximum number of slots to take.
            have: The slots of the limit that this node keeps.
        """

    # -- reading, for the coordinator

    async def find(self, key: str) -> SagaRow | None:
        """Return the saga with this key. Its input may be a reference to a blob."""

    async def refusal(self, key: str) -> StoreUnavailable | None:
        """Return why this database starts no saga with a key that it does not have.

        Another database of the store has the key. It is None if this one has it.
        """

    def find_many(self, keys: Sequence[str]) -> dict[str, SagaRow]:
        """Return the sagas that have these keys, by key, at once. It is only for a file."""

    async def load(self, shard: int, epoch: int, born: NewShard | None) -> LoadedShard | None:
        """Return a shard as a runner loads it; None if another node owns it, or it is gone.

        Any commit of the shard that is on its way is in the result, or will never be written.
        `born`: the row of the shard, until a commit is known to hold it. Then the shard may not
        exist yet, and is empty.
        """

    def forget(self, shard: int) -> None:
        """Forget what is known of a shard: it is damaged, and an operator may delete it."""

    async def spare(self, shard: int) -> bool:
        """Release a shard that this program cannot read completely.

        Another node may take it. Return False if no node has come since the last try. Raises
        `StoreUnavailable`.
        """

    @property
    def node(self) -> str:
        """The run of this node. A file has the empty one."""

    @property
    def lease_seconds(self) -> float:
        """The seconds of this node's lease. A file has 0."""

    async def shares(self) -> list[NodeShare]:
        """Return the nodes with a valid lease. A file has none."""

    async def move(self, shard: int, epoch: int, node: str, difference: int | None) -> bool:
        """Pass a shard of this node to another one, which takes it at once.

        Args:
            shard: The shard. Nothing of it is in progress.
            epoch: Its epoch.
            node: The run of the other node.
            difference: By how many shards this node must exceed the other one. None: any.

        Returns:
            False if this node does not own it under that epoch, if the other node does not accept
            it any more, or if the difference is smaller.
        """

    async def take_up(self, shard: int, epoch: int) -> tuple[str, int] | None:
        """Return a shard's event log and its number of events, for a program that appends to it.

        Return None if this program does not own the shard under that epoch. No commit of the shard
        may be on its way.
        """

    async def requests(self, after: int, limit: int) -> list[PendingRequest]:
        """Return up to `limit` unanswered requests of this program's shards, after an id."""

    async def starts(
        self, limit: int, under_way: Sequence[int] | None, left: Sequence[int] = ()
    ) -> list[PendingStart]:
        """Return up to `limit` sagas that clients started, for this program to open.

        With `under_way`, also return those that this program took before and that are not among
        these. The starts of `left` are not taken.
        """

    async def leave_start(self, start: NewStart) -> bool:
        """Store a start for another node that has its definition.

        Return False if the node is unknown, or if the key is taken.
        """

    async def give_back(self, start: int, reason: str | None) -> None:
        """Release a start that this node took (`starts`), and that it did not open.

        Args:
            start: Its id.
            reason: Why the saga cannot be started, for example because its input yields no
                steps. No node takes it again until it is started again. With None, another node
                may take it.
        """

    async def ask(self, row: SagaRow, command: str, value: str, payloads: Payloads) -> Any:
        """Add a request for the node that owns this saga, and return its parsed answer."""

    async def replicated(self) -> None:
        """Return once all synchronous standbys have what was read."""

    async def wait_for_end(self, id: int, turn: int) -> None:
        """Return when the saga may have ended elsewhere, or after a pause.

        The pause grows with each turn. The caller then looks again.
        """

    # -- questions

    async def read(self, query: str, *parameters: Any) -> list[tuple[Any, ...]]:
        """Return the rows of a query.

        SQLite and PostgreSQL both understand the query, which has a `?` for each parameter.
        """

    async def read_stored(self, query: str, *parameters: Any) -> list[tuple[Any, ...]]:
        """As `read`, with references in place of values that are in a blob store."""

    async def read_long(self, query: str, *parameters: Any) -> list[tuple[Any, ...]]:
        """As `read`, for rows that may have many megabytes."""

    async def text(self, shard: int) -> str:
        """Return a shard's event log, which may have many megabytes."""

    async def known(self, row: SagaRow) -> StoredSaga:
        """Return what the store has of a saga. Raises `NoSuchSaga` if it was deleted."""

    async def history(self, row: SagaRow) -> StoredSaga:
        """As `known`, with the chunks of the event log that name the saga."""

    def reader(self) -> Reader:
        """Return another connection, for a thread that only reads."""


class StepCaller(StepTransactions, Protocol):
    """Calls functions in transactions, over connections of its own."""

    async def call(
        self,
        attempt: Attempt,
        manner: Manner,
        task: Task[Any],
        executor: Executor | None,
        late: Callable[[str], object] | None,
    ) -> Outcome | None:
        """Call a function in a transaction that holds its result.

        Raises `ShardLost` if it is unknown whether the transaction was committed.
        """

    def close_idle(self) -> None:
        """Close the idle connections."""

    async def close(self) -> None:
        """Close all connections."""


MakesTransactions = Callable[
    [str, str, str, Callable[[], str], Callable[[int], Optional[Tail]], int], StepCaller
]
"""Makes a `StepCaller`.

It takes the URL, the URL's name in messages, the node, a function for the server's timeline, a
function for the last chunk of a shard's log, and the maximum number of parallel calls.
"""
