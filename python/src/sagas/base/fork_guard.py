"""Protection of locks and pipes from forked children.

A forked child must not keep the lock of a store or the pipes to `sagas drive`. It must not use
stores and clients that were opened before the fork.
"""

from __future__ import annotations

import contextlib
import os
import threading
from collections.abc import Iterator

from sagas.base.errors import Closed


class _Private:
    """The descriptors that are closed in every forked child. A process has one such object."""

    def __init__(self) -> None:
        self.forks = 0
        """The number of forks from the first process to this one: it differs in each child."""
        self._fds: set[int] = set()
        self._forking = threading.RLock()
        os.register_at_fork(
            before=self._forking.acquire,
            after_in_parent=self._forking.release,
            after_in_child=self._close,
        )

    @contextlib.contextmanager
    def without_forks(self) -> Iterator[None]:
        """Block forks in other threads while a program is started.

        A forked child would keep the program's ends of the pipes open, so that no reader would see
        their end.
        """
        with self._forking:
            yield

    def add(self, fd: int) -> None:
        self._fds.add(fd)

    def discard(self, fd: int) -> None:
        self._fds.discard(fd)

    def _close(self) -> None:
        self.forks += 1
        for fd in self._fds:
            with contextlib.suppress(OSError):
                os.close(fd)
        self._fds.clear()
        self._forking.release()


private_descriptors = _Private()


class OpenState:
    """Whether a store or a client is open, and in which process.

    It is entered once. A process that was forked after that can neither use nor close it.
    """

    def __init__(self, subject: str) -> None:
        self._subject, self._forks = subject, -1

    @property
    def is_other_process(self) -> bool:
        """Whether another process opened it."""
        return self._forks not in (-1, private_descriptors.forks)

    def begin(self, operation: str) -> None:
        """Note that it is being opened. Raises `RuntimeError` if it is open, and as `check`."""
        self.check(operation)
        if self._forks != -1:
            raise RuntimeError(
                f"{operation}: {self._subject} is already open. Enter it once, and share it"
            )
        self._forks = private_descriptors.forks

    @contextlib.contextmanager
    def opening(self, operation: str) -> Iterator[None]:
        """Note that it is being opened; an exception in the block means that it is not open."""
        self.begin(operation)
        try:
            yield
        except BaseException:
            self.end()
            raise

    def end(self) -> None:
        """Note that it is closed, or could not be opened."""
        self._forks = -1

    def check(self, operation: str) -> None:
        """Raise `Closed` if another process opened it."""
        if self.is_other_process:
            raise Closed(
                f"{operation}: {self._subject} was opened in another process, before a fork. "
                "Create and open one in this process, after the fork"
            )
