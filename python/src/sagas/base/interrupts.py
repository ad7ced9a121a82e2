"""Ctrl-C while the main thread uses locks of other threads."""

from __future__ import annotations

import contextlib
import signal
import threading
import types
from collections.abc import Iterator


class DelayedInterrupt:
    """Whether Ctrl-C was pressed, so that the block should end."""

    is_pending = False


@contextlib.contextmanager
def delayed_interrupt() -> Iterator[DelayedInterrupt]:
    """Delay the `KeyboardInterrupt` of Ctrl-C until the block ends, and yield whether it is due.

    Python raises it between any two instructions. If the main thread has just taken a lock of a
    thread pool, that lock would be held for ever, and the threads would never end.

    Nothing is delayed in another thread, or if the program has its own handler of `SIGINT`.
    """
    interrupt = DelayedInterrupt()
    is_main = threading.current_thread() is threading.main_thread()
    if not is_main or signal.getsignal(signal.SIGINT) is not signal.default_int_handler:
        yield interrupt
        return

    def handle(_number: int, _frame: types.FrameType | None) -> None:
        interrupt.is_pending = True

    signal.signal(signal.SIGINT, handle)
    try:
        yield interrupt
    except BaseException as error:
        if interrupt.is_pending:
            raise KeyboardInterrupt from error
        raise
    finally:
        signal.signal(signal.SIGINT, signal.default_int_handler)
    if interrupt.is_pending:
        raise KeyboardInterrupt
