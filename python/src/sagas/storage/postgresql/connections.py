"""Connections: the URL and its hosts, settings, the meaning of errors.

A server that a standby has replaced may still accept writes, and its commits then wait for that
standby. A program that waits too long asks all hosts: the one with the highest timeline is the
primary.

A pooler whose transactions run in different sessions of the server is refused before anything is
set, unless the URL is known to be one: `poolers` has the connections to it.
"""

from __future__ import annotations

import asyncio
import contextlib
import functools
import re
from collections.abc import (
    AsyncIterator,
    Awaitable,
    Callable,
    Coroutine,
    Iterator,
    Mapping,
    Sequence,
)
from typing import Any, Protocol, TypeVar

import psycopg
from psycopg import conninfo, errors
from psycopg_pool import AsyncConnectionPool, PoolTimeout

from sagas.base.errors import InvalidStore, StoreUnavailable
from sagas.storage.postgresql import conflicts, replication
from sagas.storage.postgresql.application_name import Purpose, application_name
from sagas.storage.postgresql.poolers import (
    PooledConnection,
    PooledPlainConnection,
    StatementPooled,
    TransactionPooled,
    check_sessions,
    check_sessions_now,
)
from sagas.storage.postgresql.replication import (
    NotReplicated,
    PlainStoreConnection,
    StoreConnection,
)
from sagas.storage.postgresql.server import SERVER
from sagas.storage.store_name import FORM, is_url

PATIENCE = 20.0
"""Seconds that a statement may take.

If it takes longer, it is given up, and its effect is looked up.
"""
GRACE = 2.0
"""Seconds that a connection of a thread waits after the timeout of a statement.

The server has no timeout for a commit that waits for a standby.
"""
CONNECT = 5
LOGIN_TIMEOUT = 2.0
"""Seconds that a server has to accept a first connection."""
FINAL = re.compile(
    r"authentication failed|no password supplied|pg_hba\.conf|not permitted to log in|permission "
    r"denied for database"
    r"|(role|database) \".*\" does not exist|no such (user|database)"
)
"""The messages of a server that will never accept the login. They are only in English.

libpq does not return a code for them.
"""
DEFAULTS: dict[str, Any] = {
    "connect_timeout": CONNECT,
    "keepalives_idle": 5,
    "keepalives_interval": 2,
    "keepalives_count": 3,
    "tcp_user_timeout": 15_000,
    "target_session_attrs": "read-write",
}
DURABLE = (
    "SELECT set_config('synchronous_commit', 'on', false) WHERE "
    "current_setting('synchronous_commit') IN ('off', 'local')"
)
"""Makes a commit wait for the disk, and for a synchronous standby if there is one.

The database's own setting is ignored.
"""
SETTINGS = (
    "SET client_encoding = 'UTF8'; SET search_path = sagas; SET jit = off; SET enable_seqscan = "
    "off; SET enable_hashjoin = off; SET enable_mergejoin = off; SET default_transaction_isolation "
    f"= 'read committed'; {DURABLE}"
)
"""The settings of a connection.

Plans are made once, for tables that are empty then and full later. So the planner has to use
indexes. A statement that waits for a lock sees what was committed before it got the lock. The
database's own isolation level is ignored, because no higher one has this property.
"""

LIMITED = f"SET statement_timeout = '{int(PATIENCE)}s'"
ABANDONED = f"SET idle_in_transaction_session_timeout = '{int(PATIENCE)}s'"
"""The timeout of a transaction that is idle.

If a machine fails during a transaction, its locks are released soon. The server may notice the
failure only hours later.
"""
REPEATED = f"SET plan_cache_mode = force_generic_plan; {SETTINGS}"
"""The settings for statements whose plan does not depend on their parameters.

Without them some statements would be planned each time.
"""

RIGHTS = "have the owner of the database run `sagas store URL init --role {role}`"
"""The remedy for a role without the needed rights."""

CLIENT_ERRORS = (psycopg.Error, PoolTimeout, OSError, TimeoutError)
"""The errors of a server that does not answer as it should."""

TIMELINE = SERVER.timeline
"""The server's timeline: another one once a standby has taken over.

The standby may not have the last commits.
"""
TAKEOVER = (
    "INSERT INTO takeovers(shard, epoch, node, last_seq, timeline) "
    f"SELECT shard, epoch, {{node}}, {{last}}, {TIMELINE} FROM {{taken}}"
)
READ = TAKEOVER.format(node="%(node)s", last="last_seq(shard)", taken="mine")
"""Records the new epochs of the shards `mine`.

It is a part of a statement that raises the epochs, and reads these shards.
"""
RAISED = TAKEOVER.format(node="%(node)s", last="NULL::integer", taken="mine")
"""The same for a statement that does not read the shards.

So it does not wait for other transactions.
"""

ESCAPED = (
    "with % and two hex digits for each special character of a password, "
    'as urllib.parse.quote(password, safe="") returns it'
)

CUT = ("08", "57P0")
"""The prefixes of the codes of a closed connection.

An error without a code counts, too.
"""

T = TypeVar("T")
Row = tuple[Any, ...]
Link = StoreConnection


# -- the URL


def read(url: str) -> dict[str, Any]:
    """Return the parameters of a URL.

    Raises `InvalidStore` if it is not a valid URL, or most likely not one. The message has no part
    of a password.
    """
    if not is_url(url):
        raise InvalidStore(f"this is not a URL of a PostgreSQL database. Write {FORM}")
    if has_unescaped_at(url):
        raise invalid_url("its password probably contains @ or / unescaped")
    try:
        parameters: dict[str, Any] = conninfo.conninfo_to_dict(url)
    except psycopg.ProgrammingError as error:
        problem = str(error).strip()
        if (
            not problem.startswith("invalid URI query parameter") or "@" in url.partition("?")[2]
        ):  # another message may have a part of the password
            problem = (
                "two slashes are missing"
                if problem.startswith('missing "="')
                else problem.partition('"')[0].strip(" :")
            )
        raise invalid_url(problem) from None
    if not all(port.isdigit() or not port for port in str(parameters.get("port", "")).split(",")):
        raise invalid_url(
            "its port is not a number; if that is the password, @ and the host are missing"
        )
    return parameters


def invalid_url(reason: str) -> InvalidStore:
    """Return the error for a URL that cannot be read."""
    return InvalidStore(f"the URL of the store cannot be read ({reason}). Write {FORM}, {ESCAPED}")


def has_unescaped_at(url: str) -> bool:
    """Whether an @ would be read as a part of the host or of the database's name.

    That happens if a password has an unescaped @ or /.
    """
    rest = url.partition("://")[2]
    user, _, after_user = rest.partition("@")
    if "/" in user:  # the text before the slash is read as the host
        after_user = rest
    return "@" in after_user.partition("?")[0]


def address(url: str, purpose: Purpose) -> str:
    """Return the URL with defaults for what it leaves open, and the name of the connection.

    The defaults say how soon a dead connection is noticed, and that the server must accept writes.
    A URL of `Hosts` has the hosts in the order in which they are tried, and the name of the node.
    """
    parameters = read(url)
    options = {word: value for word, value in DEFAULTS.items() if word not in parameters}
    node = url.node if isinstance(url, Hosts) else None
    name = application_name(parameters.get("application_name"), node, purpose)
    if isinstance(url, Hosts) and url.are_several:
        options |= url.parameters()
    if is_pooled(url):
        options["client_encoding"] = "UTF8"
    return conninfo.make_conninfo(url, **options, application_name=name)


def is_pooled(url: str) -> bool:
    """Whether a URL is known to be that of a pooler of transactions."""
    return isinstance(url, Hosts) and url.is_pooled


def hosts_of(url: str, node: str | None = None) -> Hosts:
    """Return the URL with its hosts in this program's own order.

    Args:
        url: The URL.
        node: The name of the node whose connections it is for (default: they are of no node).

    Raises:
        InvalidStore: It is not a valid URL.
    """
    read(url)
    return Hosts(url, node)


def named(url: str) -> str:
    """Return the URL for messages: without its password."""
    parameters = read(url)
    pairs = zip(
        str(parameters.get("host", "")).split(","),
        (str(parameters.get("port", "")) + "," * 8).split(","),
    )
    hosts_with_ports = ",".join(f"{host}:{port}" if port else host for host, port in pairs)
    user = f"{parameters['user']}@" if parameters.get("user") else ""
    return f"postgresql://{user}{hosts_with_ports}/{parameters.get('dbname', '')}"


# -- the hosts of a URL, in the order in which they are tried

HOST_PATIENCE = 5.0
"""Seconds that a host has for its answer."""
HOST_LISTS = "host", "hostaddr", "port"
"""The parameters that have a value for each host."""


class Hosts(str):
    """A URL, with the order in which its hosts are tried.

    For all other uses it is the given URL.
    """

    def __new__(cls, url: str, node: str | None = None) -> Hosts:
        """Make the text of the URL."""
        return super().__new__(cls, url)

    def __init__(self, url: str, node: str | None = None) -> None:
        self.node = node
        """The name of the node whose connections these are, if they are of one."""
        self.is_pooled = False
        """Whether it is a pooler of transactions. It is found out when the store is opened."""
        self._hosts = host_parameters(conninfo.conninfo_to_dict(url))
        self._order = [*range(len(self._hosts))]
        self._asking = asyncio.Lock()
        self.turn = 0
        """The number of changes of the first host."""

    @property
    def are_several(self) -> bool:
        """Whether there is more than one host."""
        return len(self._order) > 1

    def parameters(self) -> dict[str, str]:
        """Return the connection parameters of the hosts, in their order."""
        hosts = [self._hosts[index] for index in self._order]
        return {name: ",".join(host[name] for host in hosts) for name in hosts[0]}

    async def choose(self, address: str) -> str | None:
        """Ask all hosts, and try the one with the highest timeline first from now on.

        Args:
            address: The parameters of a connection to any of the hosts.

        Returns:
            The highest timeline; None if no host accepts writes.
        """
        if not self.are_several or self._asking.locked():
            return None
        async with self._asking:
            questions = (timeline_of_host(address, self._hosts[index]) for index in self._order)
            timelines = dict(zip(self._order, await asyncio.gather(*questions)))
            best = max((timeline for timeline in timelines.values() if timeline), default=None)
            if best is not None and timelines[self._order[0]] != best:
                first = next(index for index in self._order if timelines[index] == best)
                rest = [index for index in self._order if index != first]
                self._order, self.turn = [first, *rest], self.turn + 1
            return best


def host_parameters(parameters: Mapping[str, Any]) -> list[dict[str, str]]:
    """Return the parameters of each host."""
    lists = {name: str(parameters[name]).split(",") for name in HOST_LISTS if parameters.get(name)}
    count = max((len(values) for values in lists.values()), default=1)
    return [
        {name: values[index if len(values) > 1 else 0] for name, values in lists.items()}
        for index in range(count)
    ]


async def timeline_of_host(address: str, host: Mapping[str, str]) -> str | None:
    """Return the timeline of a host; None if it does not accept writes, or does not answer."""
    try:
        async with asyncio.timeout(HOST_PATIENCE):
            single = conninfo.make_conninfo(address, **host)
            async with await psycopg.AsyncConnection.connect(single, autocommit=True) as connection:
                rows = await (await connection.execute(f"SELECT {TIMELINE}")).fetchall()
                return str(rows[0][0])
    except (psycopg.Error, OSError, TimeoutError):
        return None


# -- errors


@contextlib.contextmanager
def translate_errors(store_name: str) -> Iterator[None]:
    """Raise errors of PostgreSQL and of its connections as `StoreUnavailable`.

    If the connection is that of a pooler that pools transactions, it raises `InvalidStore`.
    """
    try:
        yield
    except TransactionPooled as error:
        raise InvalidStore(f"{store_name}: {error}") from error
    except CLIENT_ERRORS as error:
        raise store_unavailable(store_name, error) from error


def store_unavailable(store_name: str, error: Exception) -> StoreUnavailable:
    """Return an error as `StoreUnavailable`, with the error as its cause."""
    message = str(error).strip().splitlines()[0] if str(error).strip() else type(error).__name__
    if isinstance(error, errors.InsufficientPrivilege):
        message += f": {RIGHTS.format(role='NAME')}"
    unavailable = StoreUnavailable(f"{store_name}: {message}")
    unavailable.__cause__ = error
    return unavailable


def refused_login(store_name: str, error: Exception) -> InvalidStore:
    """Return the error for a database, or a role, that does not exist or may not log in."""
    message = str(store_unavailable(store_name, error))
    return InvalidStore(f"{message}. Check the database and the user of the URL")


async def tried(ask: Callable[[], Awaitable[T]]) -> T:
    """Repeat a query that may be executed twice, if its connection broke unnoticed."""
    for turn in range(5):
        try:
            return await ask()
        except StoreUnavailable as error:
            cause = error.__cause__
            is_cut = isinstance(cause, psycopg.OperationalError)
            if turn == 4 or not is_cut or isinstance(cause, NotReplicated):
                raise
    raise AssertionError


def was_cut(error: StoreUnavailable) -> bool:
    """Whether the connection had ended, as all do if the server restarts.

    Another connection may then work.
    """
    cause = error.__cause__
    if not isinstance(cause, psycopg.OperationalError) or isinstance(cause, NotReplicated):
        return False
    return cause.sqlstate is None or cause.sqlstate.startswith(CUT)


# -- connections, and a pool of them


async def connect(url: str, purpose: Purpose, settings: str = SETTINGS) -> Link:
    """Return a connection of the store's own, which commits each statement.

    A pooler of transactions gets no settings here: each transaction has its own.
    """
    if is_pooled(url):
        pooled = await PooledConnection.connect(
            address(url, purpose), autocommit=True, prepare_threshold=None
        )
        assert isinstance(pooled, Link)
        return pooled
    connection = await Link.connect(address(url, purpose), autocommit=True, prepare_threshold=1)
    assert isinstance(connection, Link)
    try:
        await check_sessions(connection, address(url, Purpose.HOSTS))
        await connection.execute(settings, prepare=False)
    except BaseException:
        await connection.close()
        raise
    return connection


async def reach(url: str) -> None:
    """Connect once.

    Raises:
        StoreUnavailable: The server does not answer, or does not accept connections yet.
        InvalidStore: The server refuses this user permanently.
    """
    store_name = named(url)
    try:
        with translate_errors(store_name):
            await (await connect(url, Purpose.HOSTS)).close()
    except StoreUnavailable as error:
        cause = error.__cause__
        if isinstance(cause, Exception) and FINAL.search(str(cause)):
            raise refused_login(store_name, cause) from error
        raise


async def check_access(url: Hosts, store_name: str, purpose: Purpose) -> None:
    """Find out whether it is a pooler of transactions, and whether the login is accepted.

    A pool would retry a login. Any other error may be temporary.

    Raises:
        InvalidStore: The server permanently refuses the login, or pools statements.
    """
    try:
        async with asyncio.timeout(LOGIN_TIMEOUT):
            await (await connect(url, purpose)).close()
    except StatementPooled as error:
        raise InvalidStore(f"{store_name}: {error}") from error
    except TransactionPooled:
        url.is_pooled = True
    except CLIENT_ERRORS as error:
        # otherwise the error keeps the connection open, and the server waits for a password
        if isinstance(error, psycopg.Error) and error.pgconn:
            with contextlib.suppress(psycopg.Error):
                error.pgconn.finish()
        if FINAL.search(str(error)):
            raise refused_login(store_name, error) from error


async def timeline_of(connection: Link) -> str:
    """Return the timeline of the server to which it is connected."""
    rows = await (await connection.execute(f"SELECT {TIMELINE}", prepare=False)).fetchall()
    return str(rows[0][0])


def connect_now(
    url: str,
    purpose: Purpose,
    settings: str = f"{SETTINGS}; {LIMITED}",
    statement_timeout: float | None = None,
) -> PlainStoreConnection:
    """See `connect`, for a connection of a thread.

    Args:
        statement_timeout: The timeout in `settings` (default: `PATIENCE`).
    """
    patience = (PATIENCE if statement_timeout is None else statement_timeout) + GRACE
    if is_pooled(url):
        pooled = PooledPlainConnection.connect(
            address(url, purpose), autocommit=True, prepare_threshold=None
        )
        assert isinstance(pooled, PlainStoreConnection)
        pooled.patience = patience
        return pooled
    connection = PlainStoreConnection.connect(address(url, purpose), autocommit=True)
    assert isinstance(connection, PlainStoreConnection)
    connection.patience = patience
    try:
        check_sessions_now(connection, address(url, Purpose.HOSTS))
        connection.execute(settings, prepare=False)
    except BaseException:
        connection.close()
        raise
    return connection


async def _configure(address: str, connection: psycopg.AsyncConnection[Any]) -> None:
    await check_sessions(connection, address)
    await connection.execute(f"{SETTINGS}; {LIMITED}; {ABANDONED}", prepare=False)


def pool(url: str, max_size: int, purpose: Purpose) -> AsyncConnectionPool:
    """Return a pool for short statements, each a transaction of its own.

    It is not open yet.

    The wait of a caller for a connection ends by the pool's own timeout. A waiter that is
    cancelled would keep its position, and the connection that it gets would be lost (psycopg_pool
    3.1). The pool stops connecting soon, so that the next caller makes it retry at once, for any
    duration of the outage.
    """
    configure = functools.partial(_configure, address(url, Purpose.HOSTS))
    return AsyncConnectionPool(
        address(url, purpose),
        connection_class=PooledConnection if is_pooled(url) else Link,
        min_size=1,
        max_size=max_size,
        open=False,
        kwargs={"autocommit": True, "prepare_threshold": None if is_pooled(url) else 2},
        configure=None if is_pooled(url) else configure,
        timeout=PATIENCE / 4,
        reconnect_timeout=2.0,
        name="sagas",
    )


class Attached(Protocol):
    """A connection that is renewed and closed together with a pool."""

    def cut(self) -> None:
        """End it at once. The next one is made when it is needed."""

    async def finish(self) -> None:
        """End it permanently, after the statements under way, unless they take long."""


class Asker:
    """Executes short statements over a pool."""

    def __init__(self, url: str, store_name: str, max_size: int, purpose: Purpose) -> None:
        self.store_name, self._url, self._max_size = store_name, url, max_size
        self._purpose = purpose
        self.pool = pool(url, max_size, purpose)
        self._attached: list[Attached] = []
        self._under_way: set[asyncio.Task[Any]] = set()
        self._used: set[Link] = set()
        self._barrier = replication.Barrier(self.ask)
        self.late: Callable[[], object] = lambda: None
        """Called if a statement took too long, as at a server that was replaced."""

    async def open(self) -> None:
        """Connect. Raises `StoreUnavailable`."""
        if is_pooled(self._url):
            self.pool = pool(self._url, self._max_size, self._purpose)
        with translate_errors(self.store_name):
            try:
                await self.pool.open(wait=True, timeout=2 * CONNECT)
            except PoolTimeout:
                await (
                    await connect(self._url, self._purpose)
                ).close()  # raises the error that the pool hides
                raise

    def attach(self, *attached: Attached) -> None:
        """Renew and close these connections with the pool."""
        self._attached += attached

    async def renew(self, cuts: bool = False) -> None:
        """Connect again, since another server has taken over.

        Attached connections end at once, and those of the pool after their statements. With `cuts`
        the latter end at once too, since the former server may never answer.
        """
        for attached in self._attached:
            attached.cut()
        old, self.pool = self.pool, pool(self._url, self._max_size, self._purpose)
        used = [*self._used] if cuts else []
        await self.pool.open()
        for connection in used:
            replication.shut(connection)
        await old.close(timeout=CONNECT)

    async def close(self) -> None:
        if self._under_way:
            await asyncio.wait(self._under_way, timeout=CONNECT)
        for attached in self._attached:
            await attached.finish()
        await self.pool.close(timeout=CONNECT)

    async def ask(self, text: str, **parameters: Any) -> list[Row]:
        """Return a statement's rows.

        Raises `StoreUnavailable`. Then it is unknown whether the statement was executed.

        If the caller is cancelled, the statement continues to its end: a connection with an
        unfinished statement is of no use.
        """
        return await self._execute_whole(text, parameters)

    async def _execute_whole(
        self, text: str, parameters: Mapping[str, Any] | Sequence[Any]
    ) -> list[Row]:
        return await self.whole(self._execute(text, parameters))

    async def whole(self, work: Coroutine[Any, Any, T]) -> T:
        """Return the result of a coroutine that takes a connection of the pool.

        If the caller is cancelled, the coroutine continues to its end. Otherwise the pool would
        lose the connection.
        """
        return await asyncio.shield(self.spawn(work))

    def spawn(self, work: Coroutine[Any, Any, T]) -> asyncio.Task[T]:
        """As `whole`, for a caller that does not wait. `close` waits."""
        job = asyncio.get_running_loop().create_task(work)
        self._under_way.add(job)
        job.add_done_callback(self._done)
        return job

    def _done(self, work: asyncio.Task[Any]) -> None:
        self._under_way.discard(work)
        if not work.cancelled():
            work.exception()  # a caller that was not cancelled has the error

    async def _execute(
        self, text: str, parameters: Mapping[str, Any] | Sequence[Any], turn: int = 0
    ) -> list[Row]:
        try:
            async with self.connection() as connection:
                cursor = await connection.execute(text, parameters)
                has_rows = cursor.pgresult and cursor.pgresult.nfields
                return await cursor.fetchall() if has_rows else []
        except StoreUnavailable as error:
            await conflicts.pause(error, turn)
        return await self._execute(text, parameters, turn + 1)

    @contextlib.asynccontextmanager
    async def connection(self) -> AsyncIterator[Link]:
        """Return a connection of the pool, for as long as a statement may take.

        Raises `StoreUnavailable`. Then it is unknown what was executed. Use it only within a task
        of its own (`whole`).
        """
        with translate_errors(self.store_name):
            async with self.pool.connection() as connection:
                assert isinstance(connection, Link)
                self._used.add(connection)
                try:
                    async with replication.limited(connection, PATIENCE + 1):
                        yield connection
                except (TimeoutError, errors.QueryCanceled):  # or another statement is late
                    self.late()
                    raise
                finally:
                    self._used.discard(connection)

    async def replicated(self) -> None:
        """Wait until the synchronous standbys have what is visible. Raises `StoreUnavailable`."""
        await self._barrier.passed()

    async def read(self, text: str, **parameters: Any) -> list[Row]:
        """As `ask`, for a query that may be executed twice, if its connection broke unnoticed."""
        return await tried(lambda: self._execute_whole(text, parameters))

    async def rows(self, text: str, *parameters: Any) -> list[Row]:
        """As `read`, for a query with a `%s` for each parameter."""
        return await tried(lambda: self._execute_whole(text, parameters))
