"""Engine processes: `sagas drive` over pipes, and the pool of them."""

from __future__ import annotations

import asyncio
import contextlib
import errno
import fcntl
import itertools
import os
import select
import subprocess
import time
from collections.abc import Iterable, Sequence
from typing import Generic, Protocol, TypeVar

from sagas.base.errors import EngineError
from sagas.base.fork_guard import private_descriptors
from sagas.base.program import TextFiles, memory_file, not_runnable
from sagas.definition.capacity import HEADER

PIPE_BYTES = 1 << 20  # bytes
READ_BYTES = (
    1 << 16
)  # bytes that are read at once: what is larger is mapped, and returned, at each read
WAIT = 1  # milliseconds
HUNG = 60.0  # seconds
AGAIN = 32
"""After a late answer: the number of requests until `wait` waits again."""
AGAIN_LATER = 0.01  # seconds
REPLY = "{"
"""The first character of each reply. Lines of the log begin with a plus, which sorts before it."""
IS_REPLY = REPLY.__le__
NOT_RUNNABLE = (errno.ENOEXEC, errno.EACCES, errno.ENOENT)
"""The errors of the system for a program that it cannot run: another processor, no permission or no
loader."""
EngineAnswer = tuple[list[str], str]
"""A reply for each line of the request, and the new lines of the event log."""


class Listener(Protocol):
    """The receiver of an engine's replies."""

    def answered(self, replies: list[str], log_text: str) -> None:
        """Take the replies to a request."""

    def died(self, engine: EngineProcess, last: str) -> None:
        """Take the last line of an engine that ended on its own. This is called once."""


REFUSED = 3
"""The status of an engine that refuses its event log, or a definition."""


class EngineProcess:
    """A process that executes one shard, one request at a time.

    Attributes:
        unanswered: The number of missing replies. No further request is sent until it is 0.
        is_dead: Whether it was stopped, or ended.
        process: The process.
        reaped: Done when the stopped process was reaped.
    """

    def __init__(
        self,
        program: str,
        definitions: Sequence[str],
        text: str,
        listener: Listener,
    ) -> None:
        """Start it.

        Args:
            program: The path of `sagas`.
            definitions: The shard's definitions.
            text: Its event log so far, without the header.
            listener: Its receiver of replies.

        Raises:
            EngineError: It cannot be started.
        """
        self._loop = asyncio.get_running_loop()
        self._listener = listener
        self.unanswered = 0
        self._sent_at = 0.0
        self._replies: list[str] = []  # that came
        self._log_lines: list[str] = []  # lines of the log that came, each with its plus
        self._partial_line = ""  # of a line that has not come whole
        self._unsent = b""
        self._writing = self.is_dead = False
        self.reaped: asyncio.Future[None] = self._loop.create_future()
        self._unwaited = 0  # questions whose answers are not waited for
        self._start(program, definitions, text)

    def _start(self, program: str, definitions: Sequence[str], text: str) -> None:
        self._stderr = -1
        self._texts: TextFiles | None = None
        try:
            self._stderr = memory_file("words")
            self._texts = TextFiles([*definitions, HEADER + text] if text else definitions)
            arguments = self._texts.paths
            if text:
                arguments = ["--from", arguments[-1], *arguments[:-1]]
            self._popen([program, "drive", "--lines", *arguments], self._texts.files)
            self._texts.close_passed_files()
        except OSError as error:
            self._close_files()
            if error.errno in NOT_RUNNABLE:
                raise not_runnable(program, str(error.strerror)) from error
            raise EngineError(f"{program}: cannot be started: {error.strerror}") from error
        for fd in (self._request_fd, self._reply_fd):
            os.set_blocking(fd, False)
            # (the system limits the pipe pages of a user, and some systems do not support it)
            with contextlib.suppress(AttributeError, OSError):
                fcntl.fcntl(fd, fcntl.F_SETPIPE_SZ, PIPE_BYTES)
        self._loop.add_reader(self._reply_fd, self._readable)
        self._poll = select.poll()
        self._poll.register(self._reply_fd, select.POLLIN)

    def _popen(self, arguments: Sequence[str], files: Sequence[int]) -> None:
        """Start the process so that no forked child inherits its pipes."""
        with private_descriptors.without_forks():
            self.process = subprocess.Popen(
                arguments,
                stdin=subprocess.PIPE,
                stdout=subprocess.PIPE,
                stderr=self._stderr,
                bufsize=0,
                pass_fds=files,
                start_new_session=True,
            )
            assert self.process.stdin and self.process.stdout
            self._request_fd, self._reply_fd = (
                self.process.stdin.fileno(),
                self.process.stdout.fileno(),
            )
            for fd in (self._request_fd, self._reply_fd):
                private_descriptors.add(fd)

    def ask(self, requests: Sequence[str]) -> None:
        """Send a request. The listener gets the replies, unless `wait` returns them."""
        assert not self.unanswered
        self.unanswered, self._sent_at = len(requests), time.monotonic()
        self._unsent += ("\n".join(requests) + "\n").encode()
        self._write()

    def has_refused(self) -> bool:
        """Whether it ended because it refuses its event log or a definition."""
        return self.process.returncode == REFUSED

    def is_hung(self, now: float) -> bool:
        """Whether its replies are overdue by `HUNG` seconds."""
        return self.unanswered > 0 and now - self._sent_at > HUNG

    def wait(self) -> EngineAnswer | None:
        """Wait for the replies, if recent replies came within `WAIT`.

        This takes less than a turn of the loop.

        Measured on 2026-11-28, in instructions a saga of three steps over SQLite: 15 % less for
        one saga at a time, nothing for 16, and 5 % less for 256.

        Returns:
            The replies; None if the listener gets them later.
        """
        if self._unwaited:
            self._unwaited -= 1
            return None
        if self._poll.poll(WAIT):
            return self._read()
        self._unwaited = AGAIN
        return None

    def _write(self) -> None:
        try:
            while self._unsent:
                self._unsent = self._unsent[os.write(self._request_fd, self._unsent) :]
        except BlockingIOError:
            if not self._writing:
                self._writing = True
                self._loop.add_writer(self._request_fd, self._write)
            return
        except OSError:
            self._loop.call_soon(self._die)
            return
        if self._writing:
            self._writing = False
            self._loop.remove_writer(self._request_fd)

    def _readable(self) -> None:
        answer = self._read()
        if answer is not None:
            self._listener.answered(*answer)

    def _read(self) -> EngineAnswer | None:
        """Read the available output. Return the replies if they are complete; else None."""
        try:
            data = os.read(self._reply_fd, READ_BYTES)
        except BlockingIOError:
            return None
        except OSError:
            data = b""
        if not data:
            self._die()
            return None
        lines = (self._partial_line + data.decode()).split(
            "\n"
        )  # all of ASCII: no character is cut
        self._partial_line = lines.pop()
        # a line of the log is shown before the reply that it belongs to
        self._replies += filter(IS_REPLY, lines)
        self._log_lines += itertools.filterfalse(IS_REPLY, lines)
        if not self.unanswered or len(self._replies) < self.unanswered:
            return None
        replies, self._replies, self.unanswered = self._replies, [], 0
        if not self._log_lines:
            return replies, ""
        self._log_lines.append("")
        text, self._log_lines = "\n".join(self._log_lines)[1:].replace("\n+", "\n"), []
        return replies, text.removeprefix(HEADER)

    def _die(self) -> None:
        if not self.is_dead:
            self.stop()
            self.process.wait()  # its output ended, so it is about to
            status = f"ended with status {self.process.returncode}"
            self._listener.died(self, self._last_error_line() or status)

    def _last_error_line(self) -> str:
        """Return the last line of its standard error."""
        end = os.pread(self._stderr, 4096, max(0, os.fstat(self._stderr).st_size - 4096))
        lines = [line for line in end.decode(errors="replace").splitlines() if line.strip()]
        return lines[-1] if lines else ""

    def stop(self) -> None:
        """Kill the process."""
        if self.is_dead:
            return
        self.is_dead = True
        self._loop.remove_reader(self._reply_fd)
        if self._writing:
            self._loop.remove_writer(self._request_fd)
        self.process.kill()
        assert self.process.stdin and self.process.stdout
        for pipe in (self.process.stdin, self.process.stdout):
            private_descriptors.discard(pipe.fileno())
            pipe.close()
        self._loop.call_soon(self._reap)

    def _reap(self) -> None:
        """Collect its exit status when it is available, without blocking the loop."""
        if self.process.poll() is not None:
            self._release()
            return
        try:
            pidfd = os.pidfd_open(self.process.pid)
        except (AttributeError, OSError):  # the system has none: try again soon
            self._loop.call_later(AGAIN_LATER, self._reap)
            return
        self._loop.add_reader(pidfd, self._ended, pidfd)

    def _ended(self, pidfd: int) -> None:
        self._loop.remove_reader(pidfd)
        os.close(pidfd)
        self.process.wait()
        self._release()

    def _close_files(self) -> None:
        if self._stderr >= 0:
            os.close(self._stderr)
        if self._texts is not None:
            self._texts.close()

    def _release(self) -> None:
        self._close_files()
        self.reaped.set_result(None)


# -- the pool


class Borrower(Protocol):
    """A shard that requests an engine process."""

    def granted(self) -> None:
        """Start an engine process now."""

    def rests(self) -> bool:
        """Whether its process may be replaced by that of another borrower."""

    def sleep(self) -> None:
        """Stop its process."""


T = TypeVar("T", bound=Borrower)


class EnginePool(Generic[T]):
    """A pool in which at most `capacity` shards have an engine process.

    A waiting shard gets a process when another shard rests.
    """

    def __init__(self, capacity: int) -> None:
        self.capacity = capacity
        self._up: dict[T, None] = {}
        self.waiting: dict[T, None] = {}
        """The shards that wait for a process."""

    def borrowers(self) -> Iterable[T]:
        """Return the shards that have a process or are about to start one."""
        return self._up

    def request_engine(self, borrower: T) -> None:
        """Request a process: `granted` is called when the shard may start it."""
        if borrower in self._up:
            borrower.granted()
        else:
            self.waiting[borrower] = None
            self.lend()

    def release(self, borrower: T) -> None:
        """Note that a shard has no process and does not wait for one."""
        self.waiting.pop(borrower, None)
        if borrower in self._up:
            del self._up[borrower]
            self.lend()

    def lend(self) -> None:
        """Stop processes of shards that rest, and grant them to shards that wait."""
        for borrower in list(self._up) if self.waiting and len(self._up) >= self.capacity else ():
            if len(self._up) < self.capacity:
                break
            if borrower.rests():
                del self._up[borrower]
                borrower.sleep()
        while self.waiting and len(self._up) < self.capacity:
            borrower = next(iter(self.waiting))
            del self.waiting[borrower]
            self._up[borrower] = None
            borrower.granted()
