"""LISTEN with reconnection, the callers that wait, and what commits send.

Callers that wait also look by themselves, because a notification may be lost with its connection.
"""

from __future__ import annotations

import asyncio
import contextlib
from collections import OrderedDict
from collections.abc import Callable, Iterable, Sequence
from typing import TYPE_CHECKING

import psycopg

from sagas.base.cancellation import cancel_all
from sagas.base.pauses import doubling_pauses
from sagas.storage.postgresql import connections
from sagas.storage.postgresql.application_name import Purpose
from sagas.storage.postgresql.server import SERVER
from sagas.storage.postgresql.wire import Wire

if TYPE_CHECKING:
    from sagas.storage.postgresql.commit_statement import Commit

CHANNEL = "sagas_nodes"
STARTS = "starts"
"""The message that there are starts of clients."""
TASKS = "tasks"
"""The message that tasks are offered."""
ENDED = "ended"
"""The message that sagas have ended, with their ids."""
FOLLOW = "follow_"
"""What a message begins with that asks for other messages without delay, before their name."""
FOLLOWED = 10.0
"""Seconds for which such a message holds. It is repeated as long as a caller waits."""
REPORTED = "reported"
"""The message that there are reports, with their shards or for all nodes."""
AT_ONCE = "set_config('synchronous_commit', 'off', true)"
"""A setting for transactions with a notification, so that they wait for no disk and no standby.

Such a transaction holds a lock over the whole server until it ends. It writes nothing else: after a
crash no connection listens.
"""


def notify_statement(channel: str) -> str:
    """Return the statement that sends `messages` to all listeners of a channel."""
    notify = SERVER.notify(channel, "v")
    return f"SELECT {AT_ONCE}, {notify} FROM unnest(%(messages)s::text[]) AS v"


NOTIFY = notify_statement(CHANNEL)
NOTIFY_WIRED = NOTIFY.replace("%(messages)s", "$1")
"""The same for a wire. `array_of` returns its parameter."""
MAX_IDS = 400  # ids per message: PostgreSQL accepts 8,000 bytes
FIRST_LOOK, MAX_LOOK = 0.5, 30.0  # seconds
POLL = 1.0
"""Maximum number of seconds between two looks without a connection that listens."""
RECENT = 10_000
FIRST_PAUSE, MAX_PAUSE = 0.1, 2.0  # seconds


def payloads(event: str, ids: Iterable[int]) -> list[str]:
    """Return the messages that report an event of these ids."""
    texts = [str(id) for id in ids]
    return [
        f"{event} {' '.join(texts[first : first + MAX_IDS])}"
        for first in range(0, len(texts), MAX_IDS)
    ]


def array_of(messages: Iterable[str]) -> bytes:
    """Return messages as a PostgreSQL array. They have only letters, digits and blanks."""
    return ('{"' + '","'.join(messages) + '"}').encode()


class Listener:
    """A connection that listens on channels, and connects again if it breaks.

    `on_message` is called with each message. `listens` is called whenever it has started to listen:
    messages may have been missed before.
    """

    def __init__(
        self,
        url: str,
        channels: Sequence[str],
        on_message: Callable[[str], object],
        listens: Callable[[], object],
    ) -> None:
        self._url, self._channels, self._heard, self._listens = url, channels, on_message, listens
        self.wire: Wire | None = None
        self.ready = asyncio.Event()

    def cut(self) -> None:
        """Connect again, since another server has taken over."""
        if self.wire:
            self.wire.close()

    async def finish(self) -> None:
        """See `Attached.finish`. `run` ends the connection when it is cancelled."""

    async def run(self) -> None:
        """Listen until it is cancelled."""
        pauses = doubling_pauses(FIRST_PAUSE, MAX_PAUSE)
        while True:
            try:
                wire = self.wire = Wire(
                    await connections.connect(self._url, Purpose.LISTEN), self._heard
                )
                try:
                    for channel in self._channels:
                        await wire.rows(SERVER.listen(channel))
                    pauses = doubling_pauses(FIRST_PAUSE, MAX_PAUSE)
                    self.ready.set()
                    self._listens()
                    await wire.gone.wait()
                finally:
                    wire.close()
            except (psycopg.Error, OSError, TimeoutError):
                pass
            await asyncio.sleep(next(pauses))


class Notifications:
    """Listens on a connection of its own.

    `look` is called for each message without an id, and whenever messages may have been missed.
    `reported` is called with the shards that have reports. Without a URL it does not listen. Then
    callers that wait look each second.
    """

    def __init__(
        self,
        url: str | None,
        look: Callable[[str], None],
        channels: Sequence[str] = (CHANNEL,),
        reported: Callable[[list[int]], object] = lambda shards: None,
    ) -> None:
        self._look, self._longest_wait = look, POLL if url is None else MAX_LOOK
        self._reported = reported
        self.listener = Listener(url or "", channels, self._heard, self._missed)
        self.followed: Callable[[str], object] = lambda event: None
        """Called if another program waits for messages of an event."""
        self._followed_until: dict[str, float] = {}
        self._following: asyncio.TimerHandle | None = None
        self._waiting: dict[tuple[str, int], list[asyncio.Future[None]]] = {}
        self._recent: OrderedDict[tuple[str, int], None] = OrderedDict()
        listening = self.listener.run() if url is not None else _nothing()
        self._job = asyncio.get_running_loop().create_task(listening)

    async def close(self, messages: Sequence[str] = ()) -> None:
        """Send the last messages, and stop. Callers that wait look once more."""
        if messages:
            sent = asyncio.Event()
            self.say(messages, sent.set)
            with contextlib.suppress(TimeoutError):
                async with asyncio.timeout(connections.CONNECT):
                    await sent.wait()
        if self._following:
            self._following.cancel()
        await cancel_all([self._job])
        for futures in self._waiting.values():
            _wake(futures)

    def say(self, messages: Sequence[str], then: Callable[[], object]) -> None:
        """Send messages, if the connection works now. Call `then` afterwards.

        All nodes that wait also look by themselves.
        """
        wire = self.listener.wire
        if messages and wire and not wire.closed:
            wire.ask(NOTIFY_WIRED, [array_of(messages)], lambda rows, failure: then())
        else:
            then()

    def _missed(self) -> None:
        self._recent.clear()  # another server may not have these commits
        self._followed_until.clear()
        for futures in self._waiting.values():
            _wake(futures)
        self._look("")

    def _heard(self, payload: str) -> None:
        event, *ids = payload.split()
        if event.startswith(FOLLOW):
            self._note_followed(event.removeprefix(FOLLOW))
            return
        if not ids:
            self._look(event)
        if event == REPORTED:
            self._reported([int(id) for id in ids])
            return
        for id in ids:
            event_and_id = event, int(id)
            self._recent[event_and_id] = None
            _wake(self._waiting.get(event_and_id, []))
        while len(self._recent) > RECENT:
            self._recent.popitem(last=False)

    def is_followed(self, event: str) -> bool:
        """Return whether a program waits for messages of an event, as far as this one knows."""
        return asyncio.get_running_loop().time() < self._followed_until.get(event, 0.0)

    def _note_followed(self, event: str) -> None:
        self._followed_until[event] = asyncio.get_running_loop().time() + FOLLOWED
        self.followed(event)

    def follow(self, event: str) -> None:
        """Ask all nodes to send messages of an event without delay, unless they do so."""
        now = asyncio.get_running_loop().time()
        if now >= self._followed_until.get(event, 0.0) - FOLLOWED / 2:
            self._followed_until[event] = now + FOLLOWED
            self.say([FOLLOW + event], lambda: None)

    def _follow_ends(self) -> None:
        """Follow the ends of sagas as long as a caller waits."""
        if self._waiting:
            self.follow(ENDED)
            loop = asyncio.get_running_loop()
            self._following = loop.call_later(FOLLOWED / 2, self._follow_ends)
        else:
            self._following = None

    async def of(self, id: int, turn: int) -> None:
        """Wait for a saga's end.

        An id below 0 is that of a start. Then it waits for the shard that takes the start.
        """
        await self.wait(*(("ended", id) if id >= 0 else ("begun", -id)), turn)

    async def wait(self, event: str, id: int, turn: int) -> None:
        """Return when the event was reported, or after a pause, which grows with each turn."""
        event_and_id = event, id
        if event_and_id in self._recent:
            return
        future = asyncio.get_running_loop().create_future()
        self._waiting.setdefault(event_and_id, []).append(future)
        if self._following is None:
            self._follow_ends()
        try:
            pause = min(self._longest_wait, FIRST_LOOK * 2.0 ** min(turn, 16))
            await asyncio.wait([future], timeout=pause)
        finally:
            self._waiting[event_and_id].remove(future)
            if not self._waiting[event_and_id]:
                del self._waiting[event_and_id]


async def _nothing() -> None:
    """Listen on no connection."""


def _wake(futures: list[asyncio.Future[None]]) -> None:
    for future in futures:
        if not future.done():
            future.set_result(None)


# -- what a node sends after its commits

SOON = 0.001
"""Seconds after a commit in which other processes are notified, or earlier, at the next commit.

The work on this node comes first.
"""
UNFOLLOWED = 0.25
"""The same for messages for which no program waits, as far as this node knows."""


class Announcer:
    """Sends notifications over the connection that listens.

    A commit that sends a notification takes a lock over the whole server. So the commits of shards
    send none.
    """

    def __init__(self, listening: Notifications, suffice: Callable[[Sequence[str]], bool]) -> None:
        """`suffice`: returns whether this node has a waiting claim for each offered task."""
        self.notifications, self._suffice = listening, suffice
        listening.followed = self._flush
        self._queued: list[str] = []
        self._timer: asyncio.TimerHandle | None = None
        self._is_sending = self._is_closed = False
        self._deferred: dict[str, list[int]] = {}  # the ids of events that no program waits for
        self._deferring: asyncio.TimerHandle | None = None

    def stop(self) -> None:
        """Send nothing more before `close`."""
        self._is_closed = True

    async def close(self) -> None:
        """Send what is left, and close the connection."""
        if self._deferring:
            self._deferring.cancel()
        messages, self._queued = [*self._queued, *self._take_deferred()], []
        await self.notifications.close(messages)

    def _defer(self, event: str, ids: list[int]) -> None:
        """Report an event soon if a program waits for it, otherwise together with later ones."""
        self._deferred.setdefault(event, []).extend(ids)
        if self.notifications.is_followed(event):
            self._flush(event)
        elif self._deferring is None and not self._is_closed:
            loop = asyncio.get_running_loop()
            self._deferring = loop.call_later(UNFOLLOWED, self._send_deferred)

    def _flush(self, event: str) -> None:
        """Report an event, because a program waits for it."""
        if (ids := self._deferred.pop(event, None)) is not None:
            self.say(payloads(event, ids) or [event])

    def _take_deferred(self) -> list[str]:
        deferred, self._deferred = self._deferred, {}
        return [text for event, ids in deferred.items() for text in payloads(event, ids) or [event]]

    def _send_deferred(self) -> None:
        self._deferring = None
        self.say(self._take_deferred())

    def hurry(self) -> None:
        """Send now what was to be sent soon: the server is at work anyway."""
        if self._timer:
            self._timer.cancel()
            self._send()

    def kept(self, commit: Commit) -> None:
        """Notify other processes of a commit that the store has."""
        if ended := commit.ended:
            self._defer(ENDED, ended)
        if commit.rare:
            self._kept_rare(commit)

    def _kept_rare(self, commit: Commit) -> None:
        has = {part for _, rare in commit.rare for part in vars(rare)}
        if "offers" in has:
            tasks = [row[6] for _, rare in commit.rare for row in rare.offers if row[6]]
            if tasks and not self._suffice(tasks):
                self._defer(TASKS, [])
        if "notes" in has or commit.has_moved:  # parents wait for notes
            self.say(["requests"])
        if "begun" in has:
            begun = [id for _, rare in commit.rare for id, _ in rare.begun]
            self.say(payloads("begun", begun))
        if "answers" in has:
            answered = [id for _, rare in commit.rare for _, id in rare.answers]
            self.say(payloads("answered", answered))

    def say(self, messages: list[str]) -> None:
        """Notify the other nodes and the clients, soon and not in a shard's commit."""
        self._queued += messages
        if self._queued and not self._is_sending and not self._is_closed:
            self._is_sending = True
            self._timer = asyncio.get_running_loop().call_later(SOON, self._send)

    def _send(self) -> None:
        self._timer, messages, self._queued = None, self._queued, []
        self.notifications.say(messages, self._sent)

    def _sent(self) -> None:
        """The messages were sent. Send those that came since then."""
        self._is_sending = False
        self.say([])
