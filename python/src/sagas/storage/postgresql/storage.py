"""One node's part of a PostgreSQL store."""

from __future__ import annotations

import asyncio
import contextlib
from collections import deque
from collections.abc import Sequence
from typing import Any

from sagas.base.cancellation import cancel_all
from sagas.base.errors import StoreUnavailable
from sagas.base.logger import logger
from sagas.core.database_map import Misplaced, check_alone
from sagas.core.shard.balance import NodeShare
from sagas.core.shard.batch import (
    Batch,
    Grant,
    LoadedShard,
    NewShard,
    NewStart,
    PendingRequest,
    PendingStart,
    SagaRow,
    ShardRow,
    StoredSaga,
)
from sagas.definition.arguments import BELOW
from sagas.definition.payloads import Payloads
from sagas.definition.serialization import cleaned
from sagas.definition.call_options import Bounds
from sagas.storage import queries, store_name
from sagas.storage.external import ExternalAttempts
from sagas.storage.interface import (
    CommitCallback,
    FunctionCheck,
    MakesTransactions,
    Peers,
    StepCaller,
    Watcher,
)
from sagas.storage.postgresql import (
    connections,
    database_maps,
    external_attempts,
    notifications,
    pooler_urls,
    saga_requests,
    schema,
    shard_moves,
)
from sagas.storage.postgresql.application_name import Purpose
from sagas.storage.postgresql.commit_statement import Commit
from sagas.storage.postgresql.connections import Asker
from sagas.storage.postgresql.external_attempts import PostgreSQLExternalAttempts
from sagas.storage.postgresql.limit_slots import TIDY, LimitSlots
from sagas.storage.postgresql.lookups import KeyFinder, Lookups, Reader
from sagas.storage.postgresql.node_lease import UNDRIVEN, Lease, describe_undriven
from sagas.storage.postgresql.notifications import Announcer
from sagas.storage.postgresql.peer_calls import PostgreSQLPeers
from sagas.storage.postgresql.schema import MissingTables
from sagas.storage.postgresql.shard_loader import ShardLoader
from sagas.storage.postgresql.writer import Continuity, Writer
from sagas.storage.record_file import RecordFile

RESERVE = 64
"""The size of the reserve."""
MORE_NUMBERS = f"SELECT nextval('shard_numbers') FROM generate_series(1, {RESERVE})"


class ShardNumbers:
    """Numbers for new shards of one node, with a reserve in memory.

    It sets `wanted` when `fill` should be called.
    """

    def __init__(self, asker: Asker, wanted: asyncio.Event) -> None:
        self._asker, self._wanted = asker, wanted
        self._numbers: deque[int] = deque()

    async def fill(self) -> None:
        """Get more from the server if few are left. Raises `StoreUnavailable`."""
        if len(self._numbers) < RESERVE // 2:
            self._numbers.extend(number for (number,) in await self._asker.ask(MORE_NUMBERS))

    def take(self) -> int:
        """Take a number. Raises `StoreUnavailable` if the reserve is empty."""
        if len(self._numbers) <= RESERVE // 2:
            self._wanted.set()
        if not self._numbers:
            raise StoreUnavailable(
                f"{self._asker.store_name}: the database has not assigned a new shard in time, "
                "because it does not answer or many sagas were started at once. Nothing was "
                "started. Start it again"
            )
        return self._numbers.popleft()


TEXT = "SELECT coalesce(string_agg(text, '' ORDER BY first_seq), '') FROM event_log WHERE shard = ?"


class PostgreSQL(queries.Questions):
    """One node's part of the store.

    One connection writes, a pool executes short statements, one connection looks up keys, one
    listens, and one answers questions. So a slow question delays no lease and no saga.
    """

    supports_nodes = True
    answers_at_once = False
    blobs = None
    commit_seconds = 0.0

    def __init__(
        self,
        url: str,
        *,
        node: str | None = None,
        lease: float = 10.0,
        sagas: Sequence[str] = (),
        kinds: Sequence[str] = (),
        version: str = "",
        max_connections: int = 16,
        transactions: MakesTransactions | None = None,
        record: str | None = None,
        encodes: bool = False,
        direct_url: str | None = None,
        is_member: bool = False,
    ) -> None:
        """Create the node's part. It is not open yet.

        Args:
            url: The URL of the database.
            node: The name of the node (default: the host's name and the process id).
            lease: Seconds of the node's lease.
            sagas: The starts that it takes: saga/version for starts without a digest, or
                saga/version/digest.
            kinds: Its definitions, as saga/version/digest.
            version: The version of its set of definitions.
            max_connections: Maximum number of connections for transactional steps.
            transactions: Makes what calls functions in transactions.
            record: The file of the record, if there is one.
            encodes: Whether there is a codec.
            direct_url: The URL of the server itself, if `url` is that of a pooler. Questions and
                claims use the pooler, and all other connections the server.
            is_member: Whether the caller has all databases of the store. If not, the database must
                be the only one.
        """
        self.is_member = is_member
        name = store_name.node_name(node)
        self._pooler = connections.hosts_of(url, name) if direct_url else None
        self.url = url = connections.hosts_of(direct_url or url, name)
        shared_url = self._pooler or url
        self.asker = connections.Asker(url, connections.named(url), 2, Purpose.LEASE)
        self.lease = Lease(self.asker, node, lease, version, kinds, encodes)
        self._sagas = list(sagas)
        external = PostgreSQLExternalAttempts(shared_url, self.asker)
        external.notify, external.follows = self._say, self._follow
        self.external: ExternalAttempts = external
        record_file = RecordFile.of(record, self.lease.node)
        self._loader = ShardLoader(self.asker, self.lease.node, self._spawn, record_file)
        self._timeline = ""
        self._writer = Writer(
            url,
            self.path,
            self.lease.node,
            self._check_server,
            self._kept,
            self._close_idle,
            record_file,
        )
        self._writer.late = self._look_at_hosts
        self._transactions = (
            transactions(
                url,
                self.path,
                self.lease.node,
                lambda: self._timeline,
                self._writer.tails.get,
                max_connections,
            )
            if transactions
            else None
        )
        self._keys = KeyFinder(url, self.path, self._spawn)
        self._questions = connections.Asker(shared_url, self.path, 1, Purpose.READS)
        self.asker.late = self._questions.late = self._look_at_hosts
        self._lookups = Lookups(self._questions, self._spawn)
        self._continuity = Continuity(
            self.asker, self._questions, self._writer, self._driven, self._begin_again
        )
        self._jobs: set[asyncio.Task[Any]] = set()
        self._announcer: Announcer | None = None
        self._watcher: Watcher | None = None
        self._closing = False
        self._turn = asyncio.Event()
        self._numbers = ShardNumbers(self.asker, self._turn)

    @property
    def path(self) -> str:
        """The URL for messages."""
        return self.asker.store_name

    @property
    def file(self) -> str:
        """The URL."""
        return self.url

    @property
    def record(self) -> RecordFile | None:
        """The record of this node, if it has one."""
        return self._writer.record

    @property
    def inside(self) -> StepCaller | None:
        """What calls functions in transactions."""
        return self._transactions

    def _close_idle(self) -> None:
        """Close the idle connections of steps."""
        if self._transactions:
            self._transactions.close_idle()

    # -- opening and closing

    async def open(self, check_functions: FunctionCheck) -> list[ShardRow]:
        """Migrate older tables, and return the shards that this node takes over.

        It keeps the lease from now on.
        """
        self._check_functions = check_functions
        if self.record:
            self.record.open()
        await asyncio.to_thread(self._migrate)
        if self._pooler is not None:
            await pooler_urls.check(self._pooler, self.url)
        await self.asker.open()
        await self._keys.open()  # now: later the server may have no connection left
        await self._questions.open()
        self._timeline = await self.lease.begin()
        self._spawn(self._keep())
        if self.record:
            self.record.moved(self._timeline)
        rows: list[ShardRow] = []
        while (
            taken := await self.lease.take(check_functions, [row.shard for row in rows])
        ) is not None:
            rows += taken
        await self._numbers.fill()
        await self.asker.ask(TIDY)
        return rows

    async def secret(self) -> bytes:
        """See `Database.secret`."""
        return await self.lease.secret()

    def _migrate(self) -> None:
        try:
            with connections.translate_errors(self.path):
                connection = connections.connect_now(self.url, Purpose.ADMIN)
                with contextlib.closing(connection):
                    schema.migrate(connection, self.path)
                    if not self.is_member:
                        check_alone(database_maps.read_row(connection), self.path)
        except StoreUnavailable as error:
            cause = error.__cause__
            if isinstance(cause, Exception) and connections.FINAL.search(str(cause)):
                raise connections.refused_login(self.path, cause) from error
            raise

    def peers(self) -> Peers:
        """Return the calls between this node and the others."""
        return PostgreSQLPeers(self.url, self.asker, self.lease.node)

    def watch(self, watcher: Watcher) -> None:
        """Listen to notifications, and take over shards."""
        self._watcher = watcher
        watcher.drained(self.lease.is_drained)
        channels = notifications.CHANNEL, external_attempts.CHANNEL
        listening = notifications.Notifications(
            self.url, self._heard, channels, watcher.reported_in
        )
        self._announcer = Announcer(listening, watcher.suffice)
        self._turn.set()

    async def close(self) -> None:
        """Release all that this node has, and close."""
        self._closing = True
        if self._announcer:
            self._announcer.stop()
        self._turn.set()
        if self._jobs:  # jobs end by themselves, unless the server does not answer
            _, late = await asyncio.wait(list(self._jobs), timeout=connections.CONNECT)
            await cancel_all(late)
        await self._writer.close()
        if self._announcer:
            await self._announcer.close()
        if self.lease.holds():
            with contextlib.suppress(StoreUnavailable):
                await self.lease.end()
        if self._transactions:
            await self._transactions.close()
        await self.asker.close()
        await self._questions.close()
        self._keys.close()
        if self.record:
            self.record.close()
        if self._jobs:  # callers of lookups get the error that the store is closed
            await asyncio.wait(list(self._jobs))

    def _heard(self, command: str) -> None:
        assert self._watcher
        if command in ("reported", ""):
            self._watcher.reported()
        if command in ("tasks", ""):
            self._watcher.offered()
        if command in ("paused", ""):
            self._watcher.paused()
        if command not in ("places", "reported", "tasks", "paused"):
            self._turn.set()
        if command in ("places", ""):
            self._watcher.slots_freed()

    def _spawn(self, work: Any) -> None:
        job = asyncio.get_running_loop().create_task(work)
        self._jobs.add(job)
        job.add_done_callback(self._done)

    def _done(self, job: asyncio.Task[Any]) -> None:
        self._jobs.discard(job)
        if not job.cancelled() and job.exception():
            logger.error("%s: %r", self.path, job.exception(), exc_info=job.exception())

    async def _keep(self) -> None:
        """Renew the lease, and look for shards without a node.

        It does so each second, and after each notification.
        """
        tables = MissingTables(self.url, self.path)
        tables.seen(self._timeline)
        while not self._closing:
            self._turn.clear()
            try:
                await self._heartbeat()
            except StoreUnavailable as error:
                if await tables.make(error):
                    continue
                if tables.refusal and self._watcher:
                    self._watcher.refused(tables.refusal)
            else:
                tables.seen(self._timeline)
            with contextlib.suppress(TimeoutError):
                async with asyncio.timeout(0 if self._closing else self.lease.pause):
                    await self._turn.wait()

    async def _heartbeat(self) -> None:
        if self._watcher is None:  # the node is opening, which may take longer than a lease
            await self.lease.renew()
            return
        has_expired, has_orphans, has_requests, timeline = await self.lease.beat(
            self._watcher.logs(), self._watcher.figures()
        )
        self._watcher.drained(self.lease.is_drained)
        self._check_age(timeline)
        if not self._is_known(timeline):
            self._writer.cut()
        elif has_expired:
            self._watcher.lease_expired()
        if has_orphans and not self._closing:
            rows = await self.lease.take(self._check_functions, self._watcher.logs())
            if rows is not None:  # the next heartbeat takes the next batch
                for row in rows:
                    self._writer.forget(row.shard)
                self._watcher.taken(rows)
                self._turn.set()
        if has_requests:
            self._watcher.look()
        if shards := self.lease.undriven():
            self._spawn(self._warn(shards))
        self._spawn(self._continuity.look())
        await self._numbers.fill()

    async def _warn(self, shards: list[int]) -> None:
        """Log that no node drives these shards.

        It is not a part of a heartbeat, which waits for no table.
        """
        try:
            rows = await self._questions.read(UNDRIVEN, shards=shards)
        except StoreUnavailable:
            self.lease.unreport(shards)
            return
        if rows:
            logger.warning("%s", describe_undriven(self.path, shards, rows))

    def _look_at_hosts(self) -> None:
        """Look for another primary, because a statement took too long.

        A server that was replaced may be waiting for its standby.
        """
        if self.url.are_several and not self._closing:
            self._spawn(self._choose_host())

    async def _choose_host(self) -> None:
        timeline = await self.url.choose(connections.address(self.url, Purpose.HOSTS))
        if timeline is not None and timeline > self._timeline and not self._closing:
            self._is_known(timeline, cuts=True)
            self._writer.cut()
            if self._announcer:  # the former server would send nothing more
                self._announcer.notifications.listener.cut()

    def _check_age(self, timeline: str) -> None:
        """Check that the server was not replaced by another one of the URL.

        Raises `StoreUnavailable` otherwise.
        """
        if self.url.are_several and timeline < self._timeline:
            raise StoreUnavailable(
                f"{self.path}: a server of timeline {timeline} answers, which one of timeline "
                f"{self._timeline} has replaced. Stop the former; or start this node again, if the "
                "store was restored there"
            )

    def _is_known(self, timeline: str, cuts: bool = False) -> bool:
        """Whether this is the same server as before.

        Another one may lack commits. Then each shard is loaded again before anything is written.
        `cuts`: queries to the former server will have no reply.
        """
        if timeline == self._timeline:
            return True
        logger.warning("%s: another server has taken over. Opening its shards again", self.path)
        self._timeline = timeline
        if self.record:
            self.record.moved(timeline)
        self._begin_again(cuts)
        return False

    def _driven(self) -> set[int]:
        return {*self._watcher.logs()} if self._watcher else set()

    def _begin_again(self, cuts: bool = False) -> None:
        """Load each shard again, since the database may lack commits.

        Nothing that was decided before is written. `cuts`: queries under way will have no reply.
        """
        self._writer.events.clear()
        self._keys.cut()
        self._close_idle()
        self._spawn(self.asker.renew(cuts))
        self._spawn(self._questions.renew(cuts))
        if self._watcher:
            self._watcher.lease_expired(is_older=True)

    def _check_line(self, timeline: str) -> None:
        if timeline != self._timeline:
            raise StoreUnavailable(f"{self.path}: another server has taken over")

    # -- writing

    def new_shard(self) -> int:
        """Return the number of a shard that is about to be created.

        Raises `StoreUnavailable` if the reserve of numbers is empty.
        """
        return self._numbers.take()

    def holds(self) -> bool:
        """Whether the lease holds, as far as this node knows."""
        return self.lease.holds()

    async def admit(self, name: str, bounds: Bounds, want: int, have: Sequence[int]) -> Grant:
        """Take slots of a step, over all nodes."""
        slots = LimitSlots(self.asker, self.lease.node, self._say)
        return await slots.take(name, bounds, want, have, self.lease.pause)

    @property
    def timeline(self) -> str:
        """The server's timeline, as far as this node knows."""
        return self._timeline

    @property
    def commits(self) -> int:
        """The number of transactions that were written."""
        return self._writer.commits

    def commit(self, batches: Sequence[Batch], then: CommitCallback, now: bool) -> None:
        """Write all batches in one statement, and call `then` in the loop.

        Pending notifications are sent after it: the server is at work anyway.
        """
        self._writer.commit(batches, then)
        if self._announcer:
            self._announcer.hurry()

    def finish_commit(self) -> None:
        """Do nothing: `then` is called as soon as the server's reply arrives."""

    async def _check_server(self, connection: connections.Link) -> None:
        timeline = await connections.timeline_of(connection)
        self._check_age(timeline)
        if not self._is_known(timeline):
            reason = "another server has taken over, and its data is read first"
            raise StoreUnavailable(f"{self.path}: {reason}")

    def _say(self, parameters: list[str]) -> None:
        """Notify the other nodes, after what the store has by now."""
        if self._announcer:
            self._announcer.say(parameters)

    def _follow(self, event: str) -> None:
        """Have the other nodes send messages of an event without delay."""
        if self._announcer:
            self._announcer.notifications.follow(event)

    def _kept(self, commit: Commit) -> None:
        """Note how long commits take, and notify the other nodes of one that the store has."""
        self.commit_seconds = self._writer.commit_seconds
        if self._announcer:
            self._announcer.kept(commit)

    # -- reading, for the coordinator

    @property
    def pending_lookups(self) -> int:
        """The number of keys that are being looked up."""
        return self._keys.pending_lookups

    async def refusal(self, key: str) -> StoreUnavailable | None:
        """See `Database.refusal`."""
        if BELOW in key or not (await self.read(database_maps.HAS_FUNCTION))[0][0]:
            return None
        ((reason,),) = await self.read(database_maps.REASON, key)
        return None if reason is None else Misplaced(f"{self.path}: {reason}")

    async def find(self, key: str) -> SagaRow | None:
        """See `KeyFinder.find`."""
        return await self._keys.find(key)

    async def load(self, shard: int, epoch: int, born: NewShard | None) -> LoadedShard | None:
        """Load a shard under a new epoch, which fences commits under way.

        Return None if another node owns it, or it is gone.
        """
        timeline = self._timeline
        loaded = await self._loader.load(shard, epoch, born)
        self._check_line(
            loaded.timeline if loaded else timeline
        )  # its connection may be to a former server
        await self._continuity.compare(shard, loaded.events if loaded else None)
        if loaded:
            self._writer.reached(shard, loaded.events, loaded.tail)
        return loaded

    def forget(self, shard: int) -> None:
        """See `Database.forget`."""
        self._writer.forget(shard)

    async def spare(self, shard: int) -> bool:
        """Release a shard for another node, if one has come since the last try."""
        return await self.lease.spare(shard)

    @property
    def node(self) -> str:
        """The run of this node."""
        return self.lease.node

    @property
    def lease_seconds(self) -> float:
        """The seconds of the lease."""
        return self.lease.seconds

    async def shares(self) -> list[NodeShare]:
        """Return the nodes with a valid lease."""
        return await shard_moves.shares(self.asker)

    async def move(self, shard: int, epoch: int, node: str, difference: int | None) -> bool:
        """Pass a shard of this node to another one. See `Database.move`."""
        is_moved = await shard_moves.move(
            self.asker, shard, epoch, self.lease.node, node, difference
        )
        if is_moved:
            self.lease.moved.append(shard)
        return is_moved

    async def take_up(self, shard: int, epoch: int) -> tuple[str, int] | None:
        """Return a shard's event log and its number of events.

        Return None if this node does not own it any more.
        """
        timeline = self._timeline
        event_log = await self._loader.take_up(shard, epoch, timeline)
        if event_log is None:
            return None
        self._check_line(timeline)
        if self._continuity.lacks(shard, event_log.events) or queries.damage_of(
            event_log.text, event_log.events
        ):
            return None  # the shard is loaded as after a failure
        self._writer.reached(shard, event_log.events, event_log.tail)
        return event_log.text, event_log.events

    async def requests(self, after: int, limit: int) -> list[PendingRequest]:
        """Return unanswered requests of this node's shards."""
        return await saga_requests.pending_requests(self.asker, self.lease.node, after, limit)

    async def starts(
        self, limit: int, under_way: Sequence[int] | None, left: Sequence[int] = ()
    ) -> list[PendingStart]:
        """Return sagas that clients started, for this node to open."""
        node, sagas, takes = self.lease.node, self._sagas, self.lease.takes
        return await saga_requests.take_starts(
            self.asker, node, sagas, limit, under_way, left, takes
        )

    async def leave_start(self, start: NewStart) -> bool:
        """Store a start for another node that has its definition."""
        return await saga_requests.leave_start(self.asker, self.lease.node, start)

    async def give_back(self, start: int, reason: str | None) -> None:
        """Release a start that this node took."""
        await saga_requests.give_back(self.asker, self.lease.node, start, reason)

    async def ask(self, row: SagaRow, command: str, value: str, payloads: Payloads) -> Any:
        """Add a request for the node that owns the saga, and return its answer."""
        assert self._announcer
        return await saga_requests.ask(
            self.asker, self._announcer.notifications, row, command, value, payloads
        )

    async def replicated(self) -> None:
        """Return once the synchronous standbys have what was read."""
        await self.asker.replicated()

    async def wait_for_end(self, id: int, turn: int) -> None:
        """Return when the saga may have ended, or after a pause, which grows with each turn."""
        if self._announcer:
            await self._announcer.notifications.of(id, turn)

    # -- questions

    async def read(self, query: str, *parameters: Any) -> list[tuple[Any, ...]]:
        """Return the rows of a query."""
        return await self._questions.rows(queries.for_postgresql(query), *cleaned(parameters))

    async def known(self, row: SagaRow) -> StoredSaga:
        """Return what the store has of a saga, in one lookup with other callers."""
        return await self._lookups.known(row)

    async def text(self, shard: int) -> str:
        """Return a shard's event log, which the server joins."""
        return str((await self.read(TEXT, shard))[0][0])

    def reader(self) -> Reader:
        """Return another connection, for a thread that only reads."""
        return Reader(self._pooler or self.url, self.path)

    def find_many(self, keys: Sequence[str]) -> dict[str, SagaRow]:
        """Raise an error: a database cannot answer at once."""
        raise NotImplementedError
