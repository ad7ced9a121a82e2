"""The command `sagas serve --processes`: it starts the processes of a service, and keeps them.

Each process is a node with an HTTP server. All listen on one port, each at its own socket, and the
kernel spreads connections over them. The command keeps the sockets: while a process that has died
starts again, its new connections wait.
"""

from __future__ import annotations

import asyncio
import collections
import contextlib
import dataclasses
import functools
import json
import logging
import os
import secrets
import signal
import socket
import sys
import time
from collections.abc import Callable, Iterator
from typing import Any

from sagas.server.metric_sums import dumped, summed
from sagas.server.siblings import LINE, VARIABLE, EndedSessions, ProcessQuestion, State
from sagas.storage.record_file import VARIABLE as RECORD
from sagas.storage.store_name import node_name

GOOD, CANNOT, INTERRUPTED = 0, 4, 130
MAX_DEATHS, DEATH_TIME = 5, 60.0
"""How often one process may die in these seconds. With one more death, the command ends."""
METRICS_TIME = 2.0
"""Seconds for the metrics of a process. Later ones are those of the last answer."""
LAST_LINES = 1.0
"""Seconds for the last lines of a process that has ended. A process of a function may hold its
socket open.
"""
logger = logging.getLogger("sagas.server")


def bound(family: int, host: str, port: int) -> socket.socket:
    """Return a listening socket that others may share the port with, and that shares none itself.

    Raises `OSError`, also if other processes share this port.
    """
    result = socket.socket(family, socket.SOCK_STREAM, socket.IPPROTO_TCP)
    try:
        result.setsockopt(socket.SOL_SOCKET, socket.SO_REUSEADDR, 1)
        result.bind((host, port))
        result.setsockopt(socket.SOL_SOCKET, socket.SO_REUSEPORT, 1)
    except OSError:
        result.close()
        raise
    return result


def sharing(first: socket.socket) -> socket.socket:
    """Return another socket of the port."""
    result = socket.socket(first.family, socket.SOCK_STREAM, socket.IPPROTO_TCP)
    result.setsockopt(socket.SOL_SOCKET, socket.SO_REUSEADDR, 1)
    result.setsockopt(socket.SOL_SOCKET, socket.SO_REUSEPORT, 1)
    result.bind(first.getsockname())
    return result


@dataclasses.dataclass(slots=True)
class Member:
    """A process.

    Attributes:
        dump: The metrics that it answered last.
        answers: The questions that it was asked, by their numbers.
    """

    number: int
    process: asyncio.subprocess.Process
    writer: asyncio.StreamWriter
    state: State | None = None
    dump: list[Any] = dataclasses.field(default_factory=list)
    answers: dict[int, asyncio.Future[Any]] = dataclasses.field(default_factory=dict)

    def write(self, message: Any) -> None:
        """Send it a line."""
        self.writer.write(json.dumps(message).encode() + b"\n")

    async def ask(self, question: ProcessQuestion, argument: Any) -> Any:
        """Return its answer, or None if it ends before."""
        number = secrets.randbits(48)
        answer = self.answers[number] = asyncio.get_running_loop().create_future()
        self.write({"do": number, "question": question.value, "argument": argument})
        try:
            return await answer
        finally:
            del self.answers[number]


class Supervisor:
    """Keeps the processes of a service.

    Args:
        arguments: Those of `sagas serve`; each process gets them.
        count: How many processes there are.
        first: A bound socket of the port.
        opened: It is called when all processes serve.
        waits: It is called when the first one waits for the database.
    """

    def __init__(
        self,
        arguments: list[str],
        count: int,
        first: socket.socket,
        opened: Callable[[], None],
        waits: Callable[[], None],
    ) -> None:
        self._arguments, self._count = arguments, count
        self._sockets = {1: first}
        self._callbacks = {State.OPEN: opened, State.WAITS: waits}
        self._node, self._secret = node_name(None), secrets.token_urlsafe(32)
        self._members: dict[int, Member] = {}
        self._of_dead: list[Any] = []
        self._ended_sessions = EndedSessions()
        self._answering = set[asyncio.Task[None]]()
        self._is_open, self._stopping = False, False
        self._status = GOOD

    async def run(self, hung_up: Callable[[], None] | None) -> int:
        """Keep the processes until a signal, or until they cannot serve; return the exit status.

        `hung_up`: It is called at `SIGHUP` (default: `SIGHUP` ends the command).
        """
        self._first_open = asyncio.get_running_loop().create_future()
        with self._signals(hung_up):
            keeping = [asyncio.ensure_future(self._keep(1))]
            await asyncio.wait([self._first_open, *keeping], return_when=asyncio.FIRST_COMPLETED)
            if self._first_open.done():
                more = range(2, self._count + 1)
                keeping += [asyncio.ensure_future(self._keep(number)) for number in more]
            try:
                await asyncio.gather(*keeping)
            finally:
                self._end(CANNOT)
                await asyncio.gather(*keeping, return_exceptions=True)
        return self._status

    @contextlib.contextmanager
    def _signals(self, hung_up: Callable[[], None] | None) -> Iterator[None]:
        loop = asyncio.get_running_loop()
        handlers: dict[signal.Signals, Callable[[], None]] = {
            number: functools.partial(self._stop_on_signal, number)
            for number in (signal.SIGTERM, signal.SIGINT)
        }
        if hung_up:
            handlers[signal.SIGHUP] = functools.partial(self._hang_up, hung_up)
        for number, handler in handlers.items():
            loop.add_signal_handler(number, handler)
        try:
            yield
        finally:
            for number in handlers:
                loop.remove_signal_handler(number)

    def _hang_up(self, hung_up: Callable[[], None]) -> None:
        hung_up()
        self._signal_all(signal.SIGHUP)

    def _stop_on_signal(self, number: signal.Signals) -> None:
        """Stop all processes. A second signal has them abort their requests."""
        logger.info("service stops: %s", number.name)
        if not self._stopping and not self._is_open and number == signal.SIGINT:
            self._status = INTERRUPTED
        self._stop()

    def _stop(self) -> None:
        """Accept no further connections, and end the processes."""
        self._stopping = True
        for listening in self._sockets.values():
            listening.close()
        self._signal_all(signal.SIGTERM)

    def _signal_all(self, number: signal.Signals) -> None:
        for member in self._members.values():
            with contextlib.suppress(ProcessLookupError):
                member.process.send_signal(number)

    def _end(self, status: int) -> None:
        """End the command, because a process cannot serve."""
        if not self._stopping:
            self._status = status
            self._stop()

    # -- one process

    async def _keep(self, number: int) -> None:
        """Start a process, and start it again whenever it has ended."""
        deaths = collections.deque[float](maxlen=MAX_DEATHS)
        while not self._stopping:
            try:
                member, status = await self._execute(number)
            except OSError as error:
                logger.critical("process %d cannot be started: %s", number, error.strerror)
                self._end(CANNOT)
                return
            self._bury(member)
            if self._stopping:
                if status > 0:
                    self._status = max(self._status, status)
                return
            now = time.monotonic()
            if member.state is not State.OPEN and status > 0:
                self._end(status)
            elif len(deaths) == MAX_DEATHS and now - deaths[0] < DEATH_TIME:
                logger.critical("process %d died again and again: the service ends", number)
                self._end(CANNOT)
            else:
                how = signal.Signals(-status).name if status < 0 else f"status {status}"
                logger.error("process %d has ended (%s): it starts again", number, how)
            deaths.append(now)

    async def _execute(self, number: int) -> tuple[Member, int]:
        """Run a process; return it with its exit status."""
        if number not in self._sockets:
            self._sockets[number] = sharing(self._sockets[1])
        listening = self._sockets[number]
        listening.listen(2048)
        near, far = socket.socketpair()
        with far:
            numbers = listening.fileno(), far.fileno()
            process = await asyncio.create_subprocess_exec(
                *(sys.executable, "-P", "-m", "sagas", "serve", *self._arguments),
                pass_fds=numbers,
                env=self._environment(number, numbers),
                start_new_session=True,  # Ctrl-C reaches only the command
            )
        reader, writer = await asyncio.open_connection(sock=near, limit=LINE)
        member = self._members[number] = Member(number, process, writer)
        if self._stopping:
            process.terminate()
        member.write([number, self._node, self._secret])
        ended = self._ended_sessions.arguments()
        member.write({"do": 0, "question": ProcessQuestion.END_SESSIONS.value, "argument": ended})
        reading = asyncio.ensure_future(self._read(member, reader))
        try:
            status = await process.wait()
            await asyncio.wait([reading], timeout=LAST_LINES)
        finally:
            reading.cancel()
            writer.close()
        return member, status

    def _environment(self, number: int, descriptors: tuple[int, int]) -> dict[str, str]:
        """Return the environment of a process. Each has its own file of a record."""
        result = os.environ | {VARIABLE: " ".join(map(str, descriptors))}
        if RECORD in result:
            result[RECORD] = f"{result[RECORD]}.{number}"
        return result

    def _bury(self, member: Member) -> None:
        """Keep what a process that has ended counted, so that no sum of counters falls."""
        del self._members[member.number]
        for answer in member.answers.values():
            if not answer.done():
                answer.set_result(None)
        self._of_dead = dumped(summed([self._of_dead, member.dump], only_counters=True))

    # -- what processes report and ask

    async def _read(self, member: Member, reader: asyncio.StreamReader) -> None:
        with contextlib.suppress(OSError, ValueError):
            while line := await reader.readline():
                message = json.loads(line)
                if "state" in message:
                    self._changed(member, State(message["state"]))
                elif "done" in message:
                    answer = member.answers.get(message["done"])
                    if answer and not answer.done():
                        answer.set_result(message["value"])
                else:
                    job = asyncio.ensure_future(self._pass_on(member, message))
                    self._answering.add(job)
                    job.add_done_callback(self._answering.discard)

    def _changed(self, member: Member, state: State) -> None:
        member.state = state
        if state is State.WAITS:
            if member.number == 1 and not self._is_open:
                self._callbacks[state]()
            return
        if not self._first_open.done():
            self._first_open.set_result(None)
        states = [other.state for other in self._members.values()]
        if not self._is_open and states == [State.OPEN] * self._count:
            self._is_open = True
            self._callbacks[state]()

    async def _pass_on(self, asker: Member, message: dict[str, Any]) -> None:
        """Ask the other processes, and answer the one that asked."""
        question, argument = ProcessQuestion(message["question"]), message["argument"]
        if question is ProcessQuestion.METRICS:
            values = await self._metrics()
        else:
            if question is ProcessQuestion.END_SESSIONS:
                self._ended_sessions.add(*argument)
            others = [other for other in self._members.values() if other is not asker]
            values = [*await asyncio.gather(*(it.ask(question, argument) for it in others))]
        if message["ask"] is not None:
            asker.write({"answer": message["ask"], "values": values})

    async def _metrics(self) -> list[Any]:
        """Return the number of processes, and what they and those before them counted."""
        members = [*self._members.values()]
        fresh = await asyncio.gather(*(self._dump_of(member) for member in members))
        return [sum(fresh), dumped(summed([self._of_dead, *(it.dump for it in members)]))]

    async def _dump_of(self, member: Member) -> bool:
        """Ask a process for its metrics; return whether it answered in time."""
        try:
            async with asyncio.timeout(METRICS_TIME):
                dump = await member.ask(ProcessQuestion.METRICS, None)
        except TimeoutError:
            return False
        if dump is not None:
            member.dump = dump
        return dump is not None
