"""Run sagas, and undo only what is worth undoing.

    order = sagas.Saga("order")

    @order.step(keep=9)
    def charge(task): ...   # its result is stored as JSON; if it raises, it had no effect

    @charge.compensation
    def refund(task): ...   # `task.result` is what the step returned

    @order.step(needs=[charge], skip=4)
    def send(task): ...

    with sagas.open_sync("orders.db", [order]) as store:            # or: async with sagas.open(...)
        end = store.start(order, "order-1", {"amount": 40}).wait()  # a SagaResult: look at end.ok

Every step is committed, or undone if that costs least, also if this program dies in between.

- To declare: `Saga`, with `step`, `wait`, `approval` and `child`; `Step.compensation`,
  `Backoff`, `NEVER`.
- In a function: `Task` (hand its `idempotency_key` to services), `Fail`, `Retry`, `RetryAfter`,
  `Unknown`; in an approval's, `Approved`, `Rejected`.
- To run: `open`, `open_sync`; `Store`, with `start`, `wait`, `abort`, `complete`, `fail`,
  `retry`, `list`, `attention`, `resolve`; `Run`, `SagaResult`, `Plan`.
- To test: `sagas.testing.run`.
- On other machines: `Client`, `ServiceClient`, `Worker`, `sagas.celery`. Without a store: `plan`,
  `check`, `audit`.

Modules that are not named here are internal.
"""

import importlib
import importlib.util
import sys
from typing import TYPE_CHECKING, Any

if sys.version_info < (3, 11):
    raise ImportError(f"sagas needs Python 3.11 or later, and this is {sys.version.split()[0]}")

from sagas.api.explanation import explain
from sagas.api.settings import Settings
from sagas.api.run import Run
from sagas.api.store import Store, open
from sagas.api.sync_store import SyncRun, SyncStore, open_sync
from sagas.api.async_service_client import (
    AsyncServiceClient,
    AsyncServiceEvents,
    AsyncServiceRun,
)
from sagas.api.service_client import ServiceClient, ServiceEvents, ServiceRun
from sagas.api.service_connection import ServiceRefused
from sagas.api.service_replies import ServiceEvent, ServiceSaga, ServiceSummary
from sagas.api.worker import Worker
from sagas.base.errors import (
    CannotDecode,
    Closed,
    ConflictError,
    ConflictingReport,
    DefinitionError,
    EngineError,
    EngineNotRunnable,
    Fail,
    InvalidError,
    InvalidInput,
    InvalidKey,
    InvalidLabel,
    InvalidLease,
    InvalidResult,
    InvalidSchedule,
    InvalidStore,
    KeyConflict,
    LeaseLost,
    MissingCodec,
    MissingResult,
    MissingStep,
    NoSuchNode,
    NoSuchPause,
    NoSuchSaga,
    NoSuchSchedule,
    NoSuchTask,
    NotAbortable,
    NotErasable,
    NotRestartable,
    NotSerializable,
    OwnerUnavailable,
    ProgramError,
    ResultNotSerializable,
    Retry,
    RetryAfter,
    SagasError,
    ServiceUnavailable,
    SlotsTaken,
    StartsPaused,
    StepFailed,
    StepNotWaiting,
    StoreLocked,
    StoreSchemaTooNew,
    StoreUnavailable,
    TransactionConflict,
    TemporaryError,
    TooLarge,
    Unknown,
    WouldWaitForever,
    WrongStore,
)
from sagas.base.events import Event
from sagas.core.attention import Attention, AttentionReason
from sagas.core.database_map import DatabaseMap
from sagas.core.decisions import DecidedSaga, DecisionEntry
from sagas.core.merged_lists import MergedList
from sagas.core.nodes import Drain, NodeState, NodeStatus
from sagas.core.pauses import Pause
from sagas.core.results import (
    ActiveAttempt,
    DefinitionCount,
    HistoryEvent,
    Summary,
)
from sagas.definition.end_calls import EndTask
from sagas.definition.saga_result import SagaResult
from sagas.definition.erasure import Erasure
from sagas.definition.waits import Approved, Rejected
from sagas.definition.payloads import BlobStore, Codec
from sagas.definition.step import Collected, FanOut, FanOutInclusion, Inclusion, Step, collect
from sagas.definition.task import CompensationTask, ItemTask, Task, TransactionTask
from sagas.definition.saga import Saga
from sagas.definition.step_options import StepOptions
from sagas.definition.call_options import Backoff, Cost, NEVER, NOTHING
from sagas.engine.library import InvalidText, Verdict, audit, check, plan
from sagas.engine.plan import Choice, Plan
from sagas.inspection.expected_cost import BetterOrder, ExpectedCost
from sagas.inspection.explanation import Explanation
from sagas.inspection.failure_cases import FailureCase
from sagas.runtime.leased_tasks import Heartbeat, LeasedTask, Queue
from sagas.storage import store_name
from sagas.storage.batches import BatchResult
from sagas.storage.folder_blobs import FolderBlobStore
from sagas.storage.postgresql.blob_store import PostgresBlobStore
from sagas.storage.schedules import Schedule

__version__ = "0.3.0"

if TYPE_CHECKING:
    from sagas import celery as celery
    from sagas import inspection as inspection
    from sagas import testing as testing
    from sagas.api.client import Client, ClientRun
    from sagas.api.client_set import ClientSet
    from sagas.api.store_set import StoreSet
    from sagas.api.sync_client import SyncClient, SyncClientRun

MODULES = ("celery", "inspection", "testing")
LATER = {
    "Client": "api.client",
    "ClientRun": "api.client",
    "ClientSet": "api.client_set",
    "StoreSet": "api.store_set",
    "SyncClient": "api.sync_client",
    "SyncClientRun": "api.sync_client",
}


def __getattr__(name: str) -> Any:
    """Load optional modules, and names that need psycopg, at the first access."""
    if name in MODULES:
        return importlib.import_module(f".{name}", __name__)
    if name not in LATER:
        raise AttributeError(f"module {__name__!r} has no attribute {name!r}")
    try:
        module = importlib.import_module(f".{LATER[name]}", __name__)
    except ImportError as error:
        raise store_name.missing_client(error) from error
    return getattr(module, name)


def _is_installed(name: str) -> bool:
    """Whether a module exists. A loaded module may have no spec, as Celery's."""
    return sys.modules.get(name) is not None or importlib.util.find_spec(name) is not None


def __dir__() -> list[str]:
    """Return the public names, without those whose requirements are not installed."""
    return sorted(
        [
            *__all__,
            *(name for name in MODULES if name != "celery" or _is_installed(name)),
            "__version__",
        ]
    )


__all__ = [
    "ActiveAttempt",
    "Approved",
    "AsyncServiceClient",
    "AsyncServiceEvents",
    "AsyncServiceRun",
    "Attention",
    "AttentionReason",
    "Backoff",
    "BatchResult",
    "BetterOrder",
    "BlobStore",
    "CannotDecode",
    "Choice",
    "Client",
    "ClientRun",
    "ClientSet",
    "Closed",
    "Codec",
    "Collected",
    "CompensationTask",
    "ConflictError",
    "ConflictingReport",
    "Cost",
    "DatabaseMap",
    "DecidedSaga",
    "DecisionEntry",
    "DefinitionCount",
    "DefinitionError",
    "Drain",
    "EngineError",
    "EngineNotRunnable",
    "EndTask",
    "Erasure",
    "Event",
    "ExpectedCost",
    "Explanation",
    "Fail",
    "FailureCase",
    "FanOut",
    "FanOutInclusion",
    "FolderBlobStore",
    "Heartbeat",
    "HistoryEvent",
    "Inclusion",
    "InvalidError",
    "InvalidInput",
    "InvalidKey",
    "InvalidLabel",
    "InvalidLease",
    "InvalidResult",
    "InvalidSchedule",
    "InvalidStore",
    "InvalidText",
    "ItemTask",
    "KeyConflict",
    "LeasedTask",
    "LeaseLost",
    "MergedList",
    "MissingCodec",
    "MissingResult",
    "MissingStep",
    "NEVER",
    "NOTHING",
    "NoSuchNode",
    "NoSuchPause",
    "NoSuchSaga",
    "NoSuchSchedule",
    "NoSuchTask",
    "NodeState",
    "NodeStatus",
    "NotAbortable",
    "NotErasable",
    "NotRestartable",
    "NotSerializable",
    "OwnerUnavailable",
    "Pause",
    "Plan",
    "PostgresBlobStore",
    "ProgramError",
    "Queue",
    "Rejected",
    "ResultNotSerializable",
    "Retry",
    "RetryAfter",
    "Run",
    "Saga",
    "SagaResult",
    "SagasError",
    "Schedule",
    "ServiceClient",
    "ServiceEvent",
    "ServiceEvents",
    "ServiceRefused",
    "ServiceRun",
    "ServiceSaga",
    "ServiceSummary",
    "ServiceUnavailable",
    "Settings",
    "SlotsTaken",
    "StartsPaused",
    "Step",
    "StepFailed",
    "StepNotWaiting",
    "StepOptions",
    "Store",
    "StoreLocked",
    "StoreSchemaTooNew",
    "StoreSet",
    "StoreUnavailable",
    "TransactionConflict",
    "Summary",
    "SyncClient",
    "SyncClientRun",
    "SyncRun",
    "SyncStore",
    "Task",
    "TemporaryError",
    "TooLarge",
    "TransactionTask",
    "Unknown",
    "Verdict",
    "Worker",
    "WouldWaitForever",
    "WrongStore",
    "audit",
    "check",
    "collect",
    "explain",
    "open",
    "open_sync",
    "plan",
]

if not _is_installed("psycopg"):  # an access by name says what to install
    for _name in LATER:
        __all__.remove(_name)
    del _name
