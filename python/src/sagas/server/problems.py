"""Errors of the service as problem details (RFC 9457)."""

from __future__ import annotations

import dataclasses
import logging
from typing import Any

from sagas.base.errors import SagasError
from sagas.server.json_bodies import Json

PREFIX = "urn:sagas:problem:"
"""The prefix of a problem's `type`, which never changes."""
MEDIA_TYPE = "application/problem+json"
MAX_DETAIL = 1000
logger = logging.getLogger("sagas.server")


@dataclasses.dataclass(frozen=True, slots=True)
class Kind:
    """A problem's status and title, and whether the same request is worth repeating."""

    status: int
    title: str
    repeat: bool = False


PROBLEMS = {
    "MalformedRequest": Kind(400, "The request cannot be read"),
    "InvalidJson": Kind(400, "The body is not JSON"),
    "Unauthorized": Kind(401, "The token is missing, unknown or expired"),
    "Forbidden": Kind(403, "The token does not allow this"),
    "CrossOrigin": Kind(403, "A page of another site sent the request"),
    "UnknownHost": Kind(403, "Without a token file, only local requests are accepted"),
    "InvalidLease": Kind(403, "The lease was not issued to this worker for this task"),
    "ExpiredForm": Kind(403, "The form is not of this session"),
    "NoSession": Kind(403, "The dashboard has no session"),
    "NotFound": Kind(404, "The path does not exist"),
    "NoSuchSaga": Kind(404, "No saga has this key"),
    "NoSuchTask": Kind(404, "No task has this attempt id"),
    "NoSuchDelivery": Kind(404, "No delivery has this id"),
    "NoSuchSchedule": Kind(404, "No schedule has this name"),
    "NoSuchPause": Kind(404, "The scope is not paused"),
    "NoSuchNode": Kind(404, "No node has this name, or it is not drained"),
    "NoSuchDefinition": Kind(404, "The service has no such definition"),
    "NoPlan": Kind(404, "The saga has no plan"),
    "MethodNotAllowed": Kind(405, "The path does not have this method"),
    "RequestTimeout": Kind(408, "The body did not arrive in time", repeat=True),
    "KeyConflict": Kind(409, "The key is already used with another saga, version or input"),
    "StepNotWaiting": Kind(409, "The saga or step is not waiting for this"),
    "ConflictingReport": Kind(409, "Another outcome was reported first"),
    "LeaseLost": Kind(409, "The task has a newer lease"),
    "NotAbortable": Kind(409, "The saga undoes a child, or calls on_end"),
    "NotRestartable": Kind(409, "The saga is open, has completed, or is a child"),
    "NotErasable": Kind(409, "The saga is open, needs an operator, or is a child"),
    "SagaOver": Kind(409, "The saga is over"),
    "CountChanged": Kind(409, "The filter now selects another number of sagas"),
    "BodyTooLarge": Kind(413, "The body exceeds the limit"),
    "UnsupportedMediaType": Kind(415, "The media type of the body is not supported"),
    "InvalidRequest": Kind(422, "The request does not fit the schema"),
    "InvalidKey": Kind(422, "The key cannot be stored"),
    "InvalidLabel": Kind(422, "A label is invalid"),
    "InvalidInput": Kind(422, "The input does not have the declared type"),
    "NotSerializable": Kind(422, "A value cannot be stored as JSON"),
    "InvalidResult": Kind(422, "The result does not have the type of the step"),
    "TooLarge": Kind(422, "The saga has too many steps or needs for its input"),
    "TooManyRequests": Kind(429, "Too many requests", repeat=True),
    "QuotaExceeded": Kind(429, "The token has too many open sagas", repeat=True),
    "InternalError": Kind(500, "The service has an internal error", repeat=True),
    "TooManyConnections": Kind(503, "There are too many connections", repeat=True),
    "TooManyWaits": Kind(503, "There are too many requests that wait", repeat=True),
    "TooManyStreams": Kind(503, "There are too many event streams", repeat=True),
    "Starting": Kind(503, "The service waits for its database", repeat=True),
    "Stopping": Kind(503, "The service is stopping", repeat=True),
    "Closed": Kind(503, "The store is closed", repeat=True),
    "RightsChanged": Kind(503, "The rights of the token have changed", repeat=True),
    "StartsPaused": Kind(503, "An operator has paused new sagas", repeat=True),
    "OwnerUnavailable": Kind(503, "The node that executes the saga does not answer", repeat=True),
    "StoreUnavailable": Kind(503, "The store cannot be read or written", repeat=True),
}
"""The problems by name. Problems of the package's exceptions have their names."""
RENAMED = {"DefinitionError": "NoSuchDefinition"}
REPEAT = sorted({kind.status for kind in PROBLEMS.values() if kind.repeat} | {502, 504})
"""Statuses of requests that are worth repeating. Only proxies send 502 and 504."""
SILENT = {
    "StoreUnavailable": "the store cannot be read or written at the moment. Retry the same request "
    "later; the service's log has the cause",
    "Closed": "the service is stopping. Retry the same request later",
    "OwnerUnavailable": "the node that executes the saga has not answered yet. The request may "
    "still take effect: read the saga, then retry the same request",
}
"""Details for errors whose text may name hosts, roles, files or nodes. The text itself is logged.
"""
HEADERS = {
    401: {"WWW-Authenticate": "Bearer"},
    429: {"Retry-After": "1"},
    503: {"Retry-After": "1"},
}


class Problem(Exception):
    """The request is not carried out: one of `PROBLEMS`, and what to do.

    Attributes:
        name: One of `PROBLEMS`.
        field: The parameter, or the path in the body, that is not valid.
        headers: Headers of the answer.
    """

    def __init__(
        self, name: str, text: str, field: str | None = None, headers: dict[str, str] | None = None
    ) -> None:
        super().__init__(text)
        self.name, self.field, self.headers = name, field, headers or {}

    @property
    def kind(self) -> Kind:
        """Return its status and title."""
        return PROBLEMS[self.name]


def of(error: SagasError) -> Problem:
    """Return the problem for an error of the package, by the name of its nearest base class."""
    names = (RENAMED.get(kind.__name__, kind.__name__) for kind in type(error).__mro__)
    name = next((name for name in names if name in PROBLEMS), "InternalError")
    if name not in SILENT:
        return Problem(name, str(error))
    logger.warning("%s: %s", type(error).__name__, error)
    return Problem(name, SILENT[name])


def body(problem: Problem, request_id: str | None = None) -> dict[str, Any]:
    """Return the problem details of a problem, and of its request if that has an id."""
    fields: dict[str, Any] = {
        "type": PREFIX + problem.name,
        "title": problem.kind.title,
        "status": problem.kind.status,
        "detail": str(problem)[:MAX_DETAIL],
    }
    if problem.field is not None:
        fields["field"] = problem.field
    if request_id is not None:
        fields["request_id"] = request_id
    return fields


def response(problem: Problem, request_id: str | None = None) -> Json:
    """Return the response for a problem, with `Retry-After` if the service is unavailable."""
    status = problem.kind.status
    headers = {**HEADERS.get(status, {}), **problem.headers}
    return Json(body(problem, request_id), status, headers, media_type=MEDIA_TYPE)
