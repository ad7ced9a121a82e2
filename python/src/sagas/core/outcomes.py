"""Outcomes of calls, and how exceptions are classified."""

from __future__ import annotations

import functools
import inspect
import json
import traceback
from collections.abc import Callable
from typing import Any, NamedTuple, cast

from sagas.base.errors import (
    CannotDecode,
    Fail,
    NotSerializable,
    ProgramError,
    Retry,
    RetryAfter,
    StepFailed,
    Unknown,
    WouldWaitForever,
)
from sagas.base.events import PACKAGE_FOLDER, quoted
from sagas.base.logger import logger
from sagas.core.states import OutcomeKind
from sagas.definition import serialization
from sagas.definition.waits import Answer
from sagas.definition.payloads import LARGE_VALUE, BlobUnavailable, Payloads
from sagas.definition.call_options import Exceptions, Manner
from sagas.definition.task import Task

MAX_TEXT = 4000
"""The characters of an error text that are stored."""
SUCCEEDED, FAILED = OutcomeKind.SUCCEEDED, OutcomeKind.FAILED
PERMANENT, UNKNOWN = OutcomeKind.FAILED_PERMANENTLY, OutcomeKind.UNKNOWN
CANNOT_DECODE, ANSWERED = OutcomeKind.CANNOT_DECODE, OutcomeKind.ANSWERED
PROGRAM_ERROR = OutcomeKind.PROGRAM_ERROR
PROGRAM_ERRORS = (NameError, ImportError, ProgramError, WouldWaitForever)
"""Exceptions that a repetition raises again: the program has to change."""
SYNTAX_ERRORS = (SyntaxError, IndentationError, TabError)
"""These, too, but not their other subclasses, which parsers of data raise."""
HAS_TEXT = frozenset({UNKNOWN, CANNOT_DECODE, PROGRAM_ERROR})
"""Outcomes whose value is a plain text."""
UNREADABLE = "unreadable"
"""The key of a report whose task could not be given to a worker. No worker's report has it."""
TEMPORARY = "passes"
"""The value of that key if the task's values may be readable later."""
BUG = "program_error"
"""The key of a report of a worker whose function has a bug."""
PRECEDENCE = (PROGRAM_ERROR, UNKNOWN, CANNOT_DECODE, PERMANENT, FAILED)
"""The kind of a group of exceptions: the first of these that any member has."""


class Outcome(NamedTuple):
    """The outcome of a call.

    Attributes:
        kind: The kind of outcome.
        value: JSON of the result or of the error. A plain text if the outcome is unknown, the
            program has an error, or the values could not be decoded.
        called: Whether the function was called; else the attempt was given up.
        error: The exception that the function raised, for the log's traceback. None for a `Fail`
            and an `Unknown`.
        encoded: Whether the codec has encoded the value already.
    """

    kind: OutcomeKind
    value: str
    called: bool = True
    error: BaseException | None = None
    encoded: bool = False


_outcome = cast(
    "Callable[[tuple[OutcomeKind, str, bool, None, bool]], Outcome]",
    functools.partial(tuple.__new__, Outcome),
)
"""Make an `Outcome` from a tuple, faster than its constructor."""


class Unawaited(Exception):
    """A function returned an awaitable: for example, an `await` was forgotten."""

    def __init__(self, value: Any) -> None:
        super().__init__(value)
        self.value = value


def succeeded(value: Any, task: Task[Any] | None = None) -> Outcome:
    """Return the outcome of a function that returned `value`.

    A result that is not JSON is stored as `{"unstorable": ...}`, because its effect exists.

    Raises:
        Unawaited: The result is awaitable. Await it to get the result.
    """
    try:
        return _outcome((SUCCEEDED, serialization.write_value(value), True, None, False))
    except NotSerializable as error:
        if isinstance(value, Answer):
            return Outcome(ANSWERED, value.written())
        if inspect.isawaitable(value):
            raise Unawaited(value) from None
        subject = f" key={quoted(task.key)} saga={task.saga} step={task.step}" if task else ""
        logger.warning("result_unstorable%s detail=%s", subject, quoted(error))
        return Outcome(SUCCEEDED, json.dumps({"unstorable": str(error)[:MAX_TEXT]}))


def encode_result(payloads: Payloads, text: str) -> str:
    """Return a result as stored. If its codec fails, the error is stored: the effect exists."""
    try:
        return payloads.encode(text)
    except NotSerializable as error:
        logger.warning("result_unstorable detail=%s", quoted(error))
        return json.dumps({"unstorable": str(error)[:MAX_TEXT]})


def failure(
    text: str, final: bool = False, called: bool = True, retry_after: float | None = None
) -> Outcome:
    """Return a failure with this text.

    Args:
        text: Why it failed.
        final: Whether no further attempt is made.
        called: Whether the function was called; else the attempt was given up.
        retry_after: Seconds until the next attempt, in place of the step's backoff.
    """
    detail: dict[str, Any] = {"error": text[:MAX_TEXT]}
    if final:
        detail["final"] = True
    if not called:
        detail["called"] = False
    if retry_after is not None:
        detail["retry_after"] = retry_after
    return Outcome(PERMANENT if final else FAILED, serialization.write(detail), called)


def optional_failure(detail: str) -> Outcome:
    """Return the failure of an optional step, or of a collected item, as the engine gets it.

    It is stored as the result, and no codec encodes it. It is always held, because it is not a
    large value: a text that is too long with its escapes is cut. `detail`: what was raised.
    """
    text = serialization.write({serialization.FAILED: detail})
    while len(text) > LARGE_VALUE:
        detail = detail[: len(detail) * LARGE_VALUE // len(text)]
        text = serialization.write({serialization.FAILED: detail})
    return Outcome(SUCCEEDED, text, encoded=True)


def is_optional_failure(outcome: Outcome | None) -> bool:
    """Return whether an outcome is one of `optional_failure`."""
    return (
        outcome is not None
        and outcome.encoded
        and outcome.value.startswith(serialization.FAILED_HEAD)
    )


def values_unavailable(error: BlobUnavailable) -> Outcome:
    """Return the outcome of an attempt whose values the blob store cannot return now."""
    return _text_outcome(CANNOT_DECODE, str(error))._replace(error=error)


def unreadable(text: str, passes: bool = False) -> Outcome:
    """Return the report of a task whose stored values cannot be read.

    No function was called, and nothing has failed. `passes`: the values may be readable later.
    """
    report = {"error": text[:MAX_TEXT], "called": False, UNREADABLE: TEMPORARY if passes else True}
    return Outcome(FAILED, serialization.write(report), called=False)


def read_report(kind: OutcomeKind, value: str) -> Outcome:
    """Return the outcome of a stored report, for the node that executes the saga."""
    if kind is FAILED and UNREADABLE in value and (report := json.loads(value)).get(UNREADABLE):
        if report[UNREADABLE] == TEMPORARY:
            return values_unavailable(BlobUnavailable(str(report["error"])))
        return _text_outcome(CANNOT_DECODE, str(report["error"]))
    if kind is FAILED and BUG in value and (report := json.loads(value)).get(BUG):
        return program_error(str(report["error"]))
    return Outcome(kind, value)


def parked(text: str) -> Outcome:
    """Return the outcome of an attempt that only another program can make."""
    return _text_outcome(CANNOT_DECODE, text)


def program_error(text: str, error: BaseException | None = None) -> Outcome:
    """Return the outcome of a function with a bug."""
    return _text_outcome(PROGRAM_ERROR, text)._replace(error=error)


def worker_report(outcome: Outcome) -> Outcome:
    """Return an outcome as a worker's report stores it. `read_report` returns it again.

    A bug of the worker is a failure with a mark, so it counts only under the newest lease.
    """
    if outcome.kind is not PROGRAM_ERROR:
        return outcome
    return Outcome(FAILED, serialization.write({"error": outcome.value, BUG: True}))


def unknown(text: str) -> Outcome:
    """Return the outcome of a call whose effect may have happened."""
    return _text_outcome(UNKNOWN, text)


def _text_outcome(kind: OutcomeKind, text: str) -> Outcome:
    """Return an outcome with a text that every database can keep."""
    return Outcome(kind, serialization.clean(text[:MAX_TEXT])[:MAX_TEXT])


def overdue(text: str, manner: Manner) -> Outcome:
    """Return the outcome of a call that its timeout has ended."""
    return failure(text) if manner.transaction else unknown(text)


def raised(error: BaseException, manner: Manner) -> Outcome:
    """Return the outcome of a function that raised `error`."""
    kind = classify(error, manner.no_effect, manner.transaction)
    text = str(error) if isinstance(error, CannotDecode) else describe_error(error)
    if kind is CANNOT_DECODE:
        return _text_outcome(kind, text)
    if kind is UNKNOWN:
        return _text_outcome(kind, text)._replace(
            error=None if isinstance(error, Unknown) else error
        )
    if kind is PROGRAM_ERROR:
        return program_error(located(error, text), error)
    if kind is PERMANENT:
        return failure(text, final=True)
    after = error.seconds if isinstance(error, RetryAfter) else None
    return failure(text, retry_after=after)._replace(error=error)


def classify(
    error: BaseException, no_effect: Exceptions = (), is_rolled_back: bool = False
) -> OutcomeKind:
    """Return the kind of outcome of an exception.

    For a group, as `asyncio.TaskGroup` raises it, this is the first kind of `PRECEDENCE` that any
    member has.

    Args:
        error: What the function raised.
        no_effect: Exceptions that mean that there was no effect.
        is_rolled_back: Whether the function ran in a transaction, which is rolled back.
    """
    if isinstance(error, CannotDecode):
        return CANNOT_DECODE
    if isinstance(error, (Fail, StepFailed)):
        return PERMANENT
    if isinstance(error, Retry):
        return FAILED
    if isinstance(error, Unknown):
        return UNKNOWN
    if isinstance(error, PROGRAM_ERRORS) or type(error) in SYNTAX_ERRORS:
        return PROGRAM_ERROR
    if isinstance(error, BaseExceptionGroup):
        kinds = {classify(member, no_effect, is_rolled_back) for member in error.exceptions}
        return next(kind for kind in PRECEDENCE if kind in kinds)
    return FAILED if is_rolled_back or isinstance(error, no_effect) else UNKNOWN


def located(error: BaseException, text: str) -> str:
    """Return the text of an error with the file and the line of the user's code that raised it."""
    frame = user_frame(error)
    if frame is None and isinstance(error, BaseExceptionGroup):
        bugs = [member for member in error.exceptions if classify(member) is PROGRAM_ERROR]
        return located(bugs[0], text) if bugs else text
    return f"{text} ({frame})" if frame else text


def user_frame(error: BaseException) -> str | None:
    """Return file, line and function of the innermost frame outside of this package."""
    frames = traceback.extract_tb(error.__traceback__)
    for frame in reversed(frames):
        if not frame.filename.startswith((PACKAGE_FOLDER, "<frozen ")):
            return f"{frame.filename}:{frame.lineno} in {frame.name}"
    return None


def describe_error(error: BaseException) -> str:
    """Return an exception as a line; for a group, all its members."""
    if isinstance(error, BaseExceptionGroup):
        return "; ".join(describe_error(member) for member in error.exceptions)
    if isinstance(error, SyntaxError) or getattr(error, "__notes__", None):
        return "".join(traceback.format_exception_only(type(error), error)).strip()
    return _line_of(error)


def _line_of(error: BaseException) -> str:
    """Return the line of `traceback.format_exception_only`, in a tenth of its time."""
    kind = type(error)
    name = kind.__qualname__
    if kind.__module__ not in ("__main__", "builtins"):
        name = f"{kind.__module__}.{name}"
    try:
        text = str(error)
    except Exception:
        text = "<exception str() failed>"
    return f"{name}: {text}".strip() if text else name


def error_text(outcome: Outcome) -> str:
    """Return why an attempt did not succeed, for people; empty if it did."""
    if is_optional_failure(outcome):
        return serialization.optional_failure(outcome.value) or ""
    if outcome.kind in (SUCCEEDED, ANSWERED):
        return ""
    if outcome.kind in HAS_TEXT:
        return outcome.value
    return str(serialization.read(outcome.value).get("error"))


def approval_outcome(outcome: Outcome) -> Outcome:
    """Return the outcome of an approval that its function decided."""
    answer = json.loads(outcome.value)
    if "rejected" in answer:
        return failure(answer["rejected"], final=True)
    value = json.dumps(answer["approved"], separators=(",", ":"), sort_keys=True)
    return Outcome(SUCCEEDED, value)


def reported_outcome(result: Any, failed: str | None, final: bool = True) -> Outcome:
    """Return the outcome that a caller reports for an attempt.

    Args:
        result: The result, if it succeeded.
        failed: Why it failed, else None.
        final: Whether a failure is permanent.

    Raises:
        NotSerializable: The result is not JSON.
        TypeError: `failed` is not a text.
    """
    if failed is None:
        return Outcome(SUCCEEDED, serialization.write_value(result))
    if not isinstance(failed, str):
        raise TypeError(f"failed={type(failed).__name__}: must be a text that says why it failed")
    return failure(failed, final)
