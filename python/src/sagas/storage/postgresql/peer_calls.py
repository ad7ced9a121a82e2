"""Calls between the services of one database.

Services call each other for what each has only in its memory.

A call is a row. The node that is called writes its answer into the row, and the caller deletes the
row. `NOTIFY` announces calls and messages to all nodes. Each node also looks by itself each second,
so that a lost notification has no effect.
"""

from __future__ import annotations

import asyncio
import contextlib
import json
import secrets
from collections.abc import Awaitable, Callable, Coroutine, Sequence
from typing import Any

from sagas.base.cancellation import cancel_all
from sagas.base.errors import OwnerUnavailable, SagasError, StoreUnavailable
from sagas.base.logger import logger
from sagas.storage.operator_requests import checked_answer
from sagas.storage.postgresql import connections, wire
from sagas.storage.postgresql.notifications import AT_ONCE, Listener, notify_statement
from sagas.storage.postgresql.server import SERVER

CHANNEL = "sagas_peers"
LOOK = 1.0
"""Seconds between two looks."""
GATHERED = 0.02
"""Seconds during which messages are gathered."""
MAX_GATHERED = 0.1
"""Minimum number of seconds between two notifications with messages."""
UNFOLLOWED = 1.0
"""The same while no other node follows the messages."""
FOLLOWED = 3.0
"""Seconds for which another node follows the messages after it has said so, which it repeats."""
HELLO = 2.0
"""Seconds that a node that opens waits for the answers of the others."""
ASKING = 1.0
"""Seconds that a node has to answer."""
MAX_MESSAGE = 7900
"""Maximum number of bytes of a message: PostgreSQL accepts 8,000."""
OLD = 60.0
"""Seconds after which a call is deleted."""
MAX_UNSENT = 10_000
"""Maximum number of messages that are kept while they cannot be sent."""

NOTIFY_WIRED = notify_statement(CHANNEL).replace("%(messages)s", "$1")
CALL_MESSAGE = "json_build_array('call', %(node)s::text)::text"
ANSWER_MESSAGE = "json_build_array('answer', id)::text"
CALL = f"""
WITH call AS (INSERT INTO peer_calls(id, node, command, payload)
  VALUES (%(id)s, %(node)s, %(command)s, %(payload)s))
SELECT {AT_ONCE}, {SERVER.notify(CHANNEL, CALL_MESSAGE)}
"""
CALLS = (
    "SELECT id, command, payload FROM peer_calls WHERE node = %(node)s AND answer IS NULL AND id "
    "<> ALL(%(known)s::text[]) ORDER BY at"
)
ANSWER = f"""
WITH call AS (UPDATE peer_calls SET answer = %(answer)s WHERE id = %(id)s RETURNING id)
SELECT {AT_ONCE}, {SERVER.notify(CHANNEL, ANSWER_MESSAGE)} FROM call
"""
ANSWERED = "DELETE FROM peer_calls WHERE id = %(id)s AND answer IS NOT NULL RETURNING answer"
GIVEN_UP = "DELETE FROM peer_calls WHERE id = %(id)s RETURNING answer"
MEET = """
WITH announced AS (
  UPDATE nodes SET serves = %(serves)s WHERE node = %(node)s AND serves <> %(serves)s)
SELECT node, EXISTS (SELECT 1 FROM peer_calls WHERE node = %(node)s AND answer IS NULL)
FROM nodes WHERE node <> %(node)s AND lease > now() AND serves
"""
FORGET = f"DELETE FROM peer_calls WHERE at < now() - interval '{OLD} s'"
OWNER = (
    "SELECT n.node FROM shards l JOIN nodes n ON n.node = l.owner WHERE l.name = %(name)s AND "
    "l.closed = 0 AND n.lease > now() AND n.serves"
)


dumps = json.JSONEncoder(separators=(",", ":"), check_circular=False).encode


class PostgreSQLPeers:
    """One node's part of the calls. `answers` has the handler of each command."""

    def __init__(self, url: str, asker: connections.Asker, node: str) -> None:
        self.node, self._asker = node, asker
        self.answers: dict[str, Callable[[Any], Awaitable[Any]]] = {"hello": self._greet}
        self.on_message: Callable[..., object] = lambda message: None
        """Called with each message that another node broadcast."""
        self.missed: Callable[..., object] = lambda: None
        """Called if this node may have missed a message."""
        self.others: set[str] = set()
        """The other nodes that answer, as far as this node knows."""
        self._waiting: dict[str, asyncio.Event] = {}
        self._doing: dict[str, asyncio.Task[None]] = {}
        self._jobs: set[asyncio.Task[None]] = set()
        self._fetching = self._fetch_again = self._closing = False
        self.follows: Callable[[], bool] = lambda: False
        """Returns whether this node needs the messages of the others at once."""
        self._unsent: list[str] = []
        self._sent_at = self._followed_until = 0.0
        self._sending: asyncio.TimerHandle | None = None
        self._listener = Listener(url, (CHANNEL,), self._heard, self._listens)
        self._has_listened = False

    # -- opening and closing

    async def open(self) -> None:
        """Listen, and announce this node.

        When it returns, all other nodes that answer know this node.
        """
        self._spawn(self._listener.run())
        with contextlib.suppress(TimeoutError):
            async with asyncio.timeout(connections.CONNECT):
                await self._listener.ready.wait()
        await self._asker.ask(FORGET)
        await self._meet()
        await asyncio.gather(
            *(self.call(node, "hello", None, HELLO) for node in self.others), return_exceptions=True
        )
        self._spawn(self._keep())

    async def close(self) -> None:
        """Stop: this node answers nothing more, and the others call it no more."""
        self._closing = True
        await cancel_all([*self._jobs, *self._doing.values()])
        with contextlib.suppress(StoreUnavailable):
            await self._asker.ask(MEET, node=self.node, serves=False)

    def _spawn(self, work: Coroutine[Any, Any, None]) -> None:
        job = asyncio.get_running_loop().create_task(work)
        self._jobs.add(job)
        job.add_done_callback(self._done)

    def _done(self, job: asyncio.Task[None]) -> None:
        self._jobs.discard(job)
        if not job.cancelled() and job.exception():
            logger.error("between nodes: %r", job.exception(), exc_info=job.exception())

    # -- the other nodes

    async def _greet(self, payload: Any) -> None:
        await self._meet()

    async def _keep(self) -> None:
        forgot = loop_time()
        while True:
            await asyncio.sleep(LOOK)
            with contextlib.suppress(StoreUnavailable):
                await self._meet()
                if loop_time() - forgot > OLD:
                    forgot = loop_time()
                    await self._asker.ask(FORGET)

    async def _meet(self) -> None:
        """Announce that this node answers, and look for other nodes and calls."""
        rows = await self._asker.ask(MEET, node=self.node, serves=True)
        self.others = {node for node, _ in rows}
        if any(is_called for _, is_called in rows):
            self._fetch()
        if self._unsent:
            self._send_soon()
        if self.follows():
            self.follow()

    async def owner(self, shard: str) -> str | None:
        """Return the node that owns the shard with this name, if that node answers."""
        rows = await self._asker.read(OWNER, name=shard)
        return rows[0][0] if rows else None

    # -- calls

    async def call_all(self, command: str) -> list[Any]:
        """Return the answers of all other nodes that answer."""
        results = await asyncio.gather(
            *(self.call(node, command, None, ASKING) for node in list(self.others)),
            return_exceptions=True,
        )
        return [answer for answer in results if not isinstance(answer, BaseException)]

    async def call(self, node: str, command: str, payload: Any, seconds: float = ASKING) -> Any:
        """Call a node, and return its answer.

        Raises `OwnerUnavailable` if it does not answer in time, the error that it raises, and
        `StoreUnavailable`.
        """
        id, until = secrets.token_hex(8), loop_time() + seconds
        answered = self._waiting[id] = asyncio.Event()
        try:
            await self._asker.ask(
                CALL, id=id, node=node, command=command, payload=json.dumps(payload)
            )
            while True:
                late = await self._is_unanswered(answered, until) and (
                    loop_time() >= until or node not in self.others
                )
                rows = await self._asker.ask(GIVEN_UP if late else ANSWERED, id=id)
                if rows and rows[0][0] is not None:
                    return checked_answer(json.loads(rows[0][0])).get("told")
                if late:
                    raise OwnerUnavailable(f"node {node} does not answer. Retry later")
        finally:
            del self._waiting[id]

    async def _is_unanswered(self, answered: asyncio.Event, until: float) -> bool:
        """Wait for the answer, at most until then or the next look.

        Return whether it did not come.
        """
        try:
            async with asyncio.timeout(max(0.0, min(LOOK, until - loop_time()))):
                await answered.wait()
        except TimeoutError:
            return True
        answered.clear()
        return False

    def _fetch(self) -> None:
        """Look for calls for this node."""
        self._fetch_again = True
        if not self._fetching and not self._closing:
            self._fetching = True
            self._spawn(self._fetched())

    async def _fetched(self) -> None:
        try:
            while self._fetch_again:
                self._fetch_again = False
                rows = await self._asker.read(CALLS, node=self.node, known=list(self._doing))
                for id, command, payload in rows:
                    if id not in self._doing:
                        work = self._answer(id, command, json.loads(payload))
                        self._doing[id] = asyncio.get_running_loop().create_task(work)
        except StoreUnavailable:
            pass  # the next look finds the calls
        finally:
            self._fetching = False

    async def _answer(self, id: str, command: str, payload: Any) -> None:
        try:
            try:
                if self._closing:
                    raise OwnerUnavailable("the node is closing")
                answer = {"told": await self.answers.get(command, self._unknown)(payload)}
            except SagasError as error:
                answer = {"error": f"{type(error).__name__}: {error}"}
            except Exception as error:
                logger.exception("a call of another node: %s", command)
                answer = {"error": f"SagasError: {error!r}"}
            with contextlib.suppress(StoreUnavailable):
                await self._asker.ask(ANSWER, id=id, answer=json.dumps(answer))
        finally:
            self._doing.pop(id, None)

    async def _unknown(self, payload: Any) -> None:
        raise OwnerUnavailable("this node does not know that call, because it has another release")

    # -- messages

    def broadcast(self, message: Any) -> bool:
        """Send a message to all other nodes soon. Return False if it is too long.

        If a node cannot be reached, it learns that it has missed a message.
        """
        text = dumps(message)
        if len(self._joined([text])) > MAX_MESSAGE:
            return False
        self._unsent.append(text)
        self._send_soon()
        return True

    def _joined(self, texts: Sequence[str]) -> str:
        """Return one notification of several messages."""
        return f'["messages",{dumps(self.node)},[{",".join(texts)}]]'

    def _notifications(self, texts: Sequence[str]) -> list[str]:
        """Return notifications of messages, each as long as PostgreSQL accepts it."""
        parts: list[list[str]] = []
        length = room = MAX_MESSAGE - len(self._joined([]))
        for text in texts:
            if length + len(text) + 1 > room:
                parts.append([])
                length = -1
            parts[-1].append(text)
            length += len(text) + 1
        return [self._joined(part) for part in parts]

    def follow(self) -> None:
        """Have the other nodes send their messages without much delay, for a few seconds."""
        if self.others:
            self._notify([dumps(["follow", self.node])], lambda is_sent: None)

    def _send_soon(self) -> None:
        if self.others and self._sending is None and not self._closing:
            now = loop_time()
            pause = MAX_GATHERED if now < self._followed_until else UNFOLLOWED
            pause = max(GATHERED, self._sent_at + pause - now)
            self._sending = asyncio.get_running_loop().call_later(pause, self._send)

    def _send(self) -> None:
        messages, self._unsent, self._sending = self._unsent, [], None
        self._sent_at = loop_time()

        def then(is_sent: bool) -> None:
            if not is_sent:
                self._unsent = (messages + self._unsent)[-MAX_UNSENT:]

        if messages and not self._closing:
            self._notify(self._notifications(messages), then)

    def _notify(self, notifications: Sequence[str], then: Callable[[bool], object]) -> None:
        """Send notifications over the connection that listens. `then` gets whether that worked."""
        connection = self._listener.wire
        if connection is None or connection.closed:
            then(False)
        else:
            parameters = [wire.array(notifications)]
            connection.ask(NOTIFY_WIRED, parameters, lambda rows, failure: then(failure is None))

    def _followed(self) -> None:
        """Note that another node needs the messages, and send those that wait."""
        was_followed = loop_time() < self._followed_until
        self._followed_until = loop_time() + FOLLOWED
        if self._sending is not None and not was_followed:
            self._sending.cancel()
            self._sending = None
            self._send_soon()

    def _listens(self) -> None:
        if self._has_listened:
            self.missed()
            self._fetch()
        self._has_listened = True

    def _heard(self, text: str) -> None:
        try:
            kind, addressee, *payload = json.loads(text)
            if kind == "answer" and addressee in self._waiting:
                self._waiting[addressee].set()
            elif kind == "call" and addressee == self.node:
                self._fetch()
            elif kind == "follow" and addressee != self.node:
                self._followed()
            elif kind == "messages" and addressee != self.node:
                for message in payload[0]:
                    self.on_message(message)
        except Exception:  # for example of another release: nothing depends on it
            logger.exception("a message between nodes was not understood: %.200s", text)


def loop_time() -> float:
    """Seconds of the loop's clock."""
    return asyncio.get_running_loop().time()
