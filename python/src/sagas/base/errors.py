"""Every public exception, in a hierarchy that callers can catch by group.

SagasError
|-- TemporaryError            try again: what failed may succeed later
|   |-- StoreLocked           another program has the file
|   |-- StoreUnavailable      the file or the server does not answer
|   |   `-- TransactionConflict  the caller's transaction met another one: repeat it as a whole
|   |-- OwnerUnavailable      the node that drives the saga does not answer
|   |-- ServiceUnavailable    no HTTP service answers in time
|   |-- StartsPaused          an operator has paused new sagas of the definition
|   `-- Closed                the store is closed, or is closing
|-- ConflictError             something else was there first, and counts
|   |-- KeyConflict           the key has another saga, version or input
|   |-- LeaseLost             another worker has the task, or it is over
|   |-- NotAbortable          the saga undoes a child, so it is not aborted
|   |-- NotRestartable        the saga is open, has completed, or is a child
|   |-- NotErasable           the saga is open, needs an operator, or is a child
|   |-- StepNotWaiting        the step waits for no report
|   `-- ConflictingReport     another outcome was reported before (a StepNotWaiting)
|-- InvalidError              an argument, or stored data, is not valid
|   |-- DefinitionError       a saga is not well made
|   |-- MissingStep           this program has no function for a step of an open saga
|   |-- WrongStore            a worker reports into another store
|   |-- InvalidStore          the file or database is not a store
|   |   |-- StoreSchemaTooNew it is of a later release
|   |   `-- MissingCodec      its values are encoded, and no codec was given
|   |-- InvalidSchedule       a schedule is not well made (a ValueError, too)
|   |-- InvalidLease          the lease was not issued for this task
|   |-- TooLarge              a saga has too many steps or needs for its input
|   |-- InvalidResult         a reported result does not have the type of its step
|   |-- CannotDecode          a stored value cannot be read as its type
|   |-- ProgramError          a function uses its task in a way that never works
|   |   `-- MissingResult     it asks for a result that its saga does not have
|   `-- NotSerializable       a value cannot be written as JSON (a TypeError, too)
|       |-- InvalidKey
|       |-- InvalidInput
|       |-- InvalidLabel
|       `-- ResultNotSerializable
|-- NoSuchSaga                no saga has the key
|-- NoSuchSchedule            no schedule has the name
|-- NoSuchPause               the scope is not paused
|-- NoSuchNode                no node has the name, or it is not drained
|-- NoSuchTask                no task has the attempt id
|-- EngineError               the program `sagas` cannot be started, or refuses a shard
|   `-- EngineNotRunnable
|-- WouldWaitForever          a step waits for something that ends only after it
|   `-- SlotsTaken            (an Unknown, too)
|-- Fail                      raised by a step: it had no effect, and never will
|-- Retry                     raised by a step: it had no effect now, and is tried again
|   `-- RetryAfter            the same, after a pause of its own
`-- Unknown                   raised by a step: its effect may have happened
"""

from __future__ import annotations


class SagasError(Exception):
    """Root of all exceptions of this package."""


class TemporaryError(SagasError):
    """What failed may succeed later: repeat the call, with the same key."""


class ConflictError(SagasError):
    """Something else was decided first, and counts. A repetition does not help."""


class InvalidError(SagasError):
    """An argument, or what is stored, is not valid. A repetition does not help."""


class DefinitionError(InvalidError):
    """A saga is declared wrongly. The message names file, line, saga and step."""


class StoreLocked(TemporaryError):
    """Another program has this file open. Close it first, or use PostgreSQL.

    Over PostgreSQL: a codec was given, and a node without one has the store open.
    """


class StoreUnavailable(TemporaryError):
    """The store cannot be written or read: the disk is full, or the server is away.

    Nothing was started, unless the message says that this is unknown. Make room, or wait, and
    repeat the call with the same key.
    """


class TransactionConflict(StoreUnavailable):
    """The server ended the caller's transaction because of a concurrent one.

    It is a serialization failure or a deadlock, in a start with `connection=`. Nothing of the
    transaction is kept. Roll it back, and repeat all of it: only its program knows its statements.
    """


class InvalidStore(InvalidError):
    """The file or the database is not a store that this program can open."""


class StoreSchemaTooNew(InvalidStore):
    """A later release changed the store's tables. Use that release, or a later one."""


class MissingCodec(InvalidStore):
    """The values of this store are encoded, and this program has no codec.

    Nothing was written. A store is noted as encoded when a program with `codec=` opens it for the
    first time. Give the same codec to every program that opens it.
    """


class ShardLost(SagasError):
    """Another node has the shard, or another saga has a key of it. Nothing was written.

    This exception is internal: callers never get it.
    """


class SagaMoved(SagasError):
    """Another node has the saga now: waiting calls continue there.

    This exception is internal: callers never get it.
    """


class WrongStore(InvalidError):
    """A worker would report to another store than the one that has the saga.

    Give the queue the same store. Over SQLite, worker and store have to share the file.
    """


class MissingStep(InvalidError):
    """An open saga needs a step, or a compensation, that this program does not have.

    That may be a compensation of a completed child, which a saga above it can still undo.
    Declare the function again, or run the older program with `open(..., accept_new=False)` until
    its sagas have ended. Over PostgreSQL another node may have it: then nothing is raised.
    """


class KeyConflict(ConflictError):
    """The key has another saga, version or input. Nothing was started.

    A key is taken as long as its saga is kept. Use another key.
    """


class NoSuchSaga(SagasError):
    """No saga of this store has the key. Check the key."""


class StepNotWaiting(ConflictError):
    """The step waits for no report now: it has not started, has ended, or runs."""


class NotAbortable(ConflictError):
    """The saga undoes a child, and such a saga is not aborted. Nothing was changed.

    An abort would leave the rest of the child in place. If a compensation waits for an operator,
    answer it by `Store.retry`, `Store.complete` or `Store.fail`.
    """


class NotRestartable(ConflictError):
    """The saga is open, has completed, or is a child. Nothing was started.

    Only stuck, recovered and resolved sagas are restarted. Wait for the end of an open saga, or
    abort it. Instead of a child, restart the saga that started it.
    """


class NotErasable(ConflictError):
    """The saga is open, needs an operator, or is a child. Nothing was erased.

    Only ended sagas are erased, with all sagas below them. Wait for the end and for the call of
    `on_end`, resolve what needs an operator, and instead of a child erase the saga at its root.
    """


class NoSuchSchedule(SagasError):
    """No schedule has this name."""


class InvalidSchedule(InvalidError, ValueError):
    """The name, the times or the time zone of a schedule are not valid."""


class NoSuchPause(SagasError):
    """The scope is not paused. `Store.pauses` returns what is."""


class NoSuchNode(SagasError):
    """No node has the name, or it is not drained. `Store.nodes` returns all."""


class StartsPaused(TemporaryError):
    """An operator has paused the definition, and new sagas of it are refused.

    Nothing was started. Start the saga again later, with the same key.
    """


class NoSuchTask(SagasError):
    """No task has this attempt id, or it never started. Claim another task."""


class OwnerUnavailable(TemporaryError):
    """The node that executes the saga does not answer.

    The call may still take effect: look at the saga, then repeat the call.
    """


class ServiceUnavailable(TemporaryError):
    """No HTTP service answered in time.

    The request may have been carried out: repeat the call, with the same key.
    """


class LeaseLost(ConflictError):
    """The lease is not the newest: another worker has the task, or it was reported.

    Stop, and claim another task.
    """


class InvalidLease(InvalidError):
    """The lease was not issued for this task to the worker that reports it.

    Nothing was recorded. Report a task with the attempt id and the lease of its claim.
    """


class ConflictingReport(StepNotWaiting):
    """Another outcome was reported first, and that one counts.

    The same outcome again is not an error. If your action had an effect, look at the saga.
    """


class TooLarge(InvalidError):
    """The saga has too many steps or needs for its input. Nothing was started.

    Only the start of a saga with `for_each` raises it. The message has the limit. Pass fewer
    items, or start several sagas.
    """


class InvalidResult(InvalidError):
    """A result that was reported by hand does not have the type of its step.

    The type is that of the function's return hint. Of a step that starts a child, it is the key of
    a child that this step started, or None in its place if there is nothing to undo: see
    `Store.complete`. Nothing was stored. The message does not have the result.
    """


class NotSerializable(InvalidError, TypeError):
    """A value cannot be written as JSON.

    Use dicts, lists, texts, numbers, dataclasses or pydantic models.
    """


class InvalidKey(NotSerializable):
    """The key is not a text of 1 to 512 printable characters, or is a child's (`/:`)."""


class InvalidInput(NotSerializable):
    """The input does not have a type that the saga or one of its functions names.

    Nothing was started. The message names the field and the rule, but not the value.
    """


class InvalidLabel(NotSerializable):
    """The label is not a short printable text with a name. Nothing was started."""


class ResultNotSerializable(NotSerializable):
    """A step's result was not JSON and could not be stored. Its effect is there.

    The message names the step: fix what it returns.
    """


class StepFailed(SagasError):
    """The result of a step was requested that is an optional failure.

    The step has failed, and the saga continued without it, because the step is optional, or an
    item that `collect` needs. If a function does not catch it, its
    step fails without another attempt, as by `Fail`.

    Attributes:
        step: The step's name.
        detail: What it raised.
    """

    def __init__(self, step: str, detail: str) -> None:
        super().__init__(
            f"step {step!r} failed, and the saga continued: {detail}. Call task.failure_of for it, "
            "or for all items task.result_of(sagas.collect(...))"
        )
        self.step, self.detail = step, detail

    def __reduce__(self) -> tuple[type[StepFailed], tuple[str, str]]:
        return type(self), (self.step, self.detail)


class CannotDecode(InvalidError):
    """A stored input or result does not fit the type of a hint, or cannot be decoded.

    The message names the place, but not the value. The attempt waits, and nothing is compensated:
    see `Store.attention`. It continues when a program that can read the value opens the store. For
    example, give a new field a default, or give the program the codec. Do not catch this in a
    step's function.
    """

    __module__ = "sagas"


class ProgramError(InvalidError):
    """A function uses its task in a way that this program cannot serve.

    It asks for the result of a step that is not in `needs=`, for a context that the store was
    opened without, or for an item or a connection that its step does not have. A repetition does
    not help, so the attempt waits, and nothing is compensated: see `Store.attention`. It continues
    when the next program opens the store, or by `Store.retry`. Do not catch this in a step's
    function.
    """

    __module__ = "sagas"


class MissingResult(ProgramError):
    """A function asks for the result of a step that its saga does not have.

    The saga was started before the step was declared, or before this step needed it, or the step
    does not exist for its input. The attempt waits, and nothing is compensated: see
    `Store.attention`. It continues when a program that serves both opens the store, by
    `task.result_of(step, default=None)`, or by `Store.retry`. Do not catch this in a step's
    function.
    """

    __module__ = "sagas"


class EngineError(SagasError):
    """The program `sagas` cannot be started, or ends while it opens a shard.

    The message is its last line; the reference of errors has the remedy.
    """


class DamagedShard(EngineError):
    """The engine refuses the stored data of one shard, or the data contradicts itself.

    The store sets the shard aside and serves the others.
    """


class EngineNotRunnable(EngineError):
    """This machine cannot run the program `sagas`, for example of another system.

    A repetition does not help. The message has the remedy.
    """


class Closed(TemporaryError):
    """The store is closed or closing. Open sagas continue when it is opened again."""


class Unknown(SagasError):
    """Raise this in a step's function if the effect may have happened.

    Every exception means so, except `Fail`, `Retry` and those in `no_effect=`. The same attempt
    repeats after its backoff, with the same idempotency key. After `max_unknown` such calls an
    operator is asked.

    Example:
        >>> def pay(task):
        ...     reply = bank.charge(key=task.idempotency_key)
        ...     if reply.status == "pending":
        ...         raise sagas.Unknown("the bank has not decided")
    """

    __module__ = "sagas"  # the name that users write and messages show


class Fail(SagasError):
    """Raise this in a step's function if there was no effect and there never will be.

    The remaining attempts are not made, and the step has failed. In a compensation an operator is
    asked.

    Example:
        >>> def pay(task):
        ...     if task.input["amount"] <= 0:
        ...         raise sagas.Fail("the amount is not positive")
    """

    __module__ = "sagas"


class Retry(SagasError):
    """Raise this in a step's function if there was no effect now.

    Another attempt follows after the pause of `backoff`, and the attempt counts. After the last one
    of `tries`, `on_exhausted` decides.

    Example:
        >>> def pay(task):
        ...     reply = bank.charge(key=task.idempotency_key)
        ...     if reply.status == 503:
        ...         raise sagas.Retry("the bank is closed")
    """

    __module__ = "sagas"


class RetryAfter(Retry):
    """Raise this in a step's function to be called again after a pause.

    As `Retry`, but the pause replaces that of `backoff`.

    Args:
        seconds: The pause.
        reason: Why, for the saga's log.

    Example:
        >>> def pay(task):
        ...     raise sagas.RetryAfter(30, "too many requests")
    """

    __module__ = "sagas"

    def __init__(self, seconds: float, reason: str = "") -> None:
        super().__init__(reason or f"in {seconds:g} s")
        self.seconds = float(seconds)


class WouldWaitForever(SagasError):
    """A step waits for what ends only after it, or reports its own approval.

    The message names both. Wait outside of the saga; in an approval's function, return `Approved`
    or `Rejected`.
    """

    __module__ = "sagas"


class SlotsTaken(WouldWaitForever, Unknown):
    """All slots are taken by functions that wait for sagas which need a slot.

    As with every `Unknown`, the attempt repeats after its backoff. Until then it takes no slot.
    Open the store with a larger `concurrency`.
    """

    __module__ = "sagas"
