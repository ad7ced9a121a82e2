"""Work of other programs: offers of attempts, signed leases, and orders to workers.

The key of the leases is a secret of the store, so that each node of a database can verify a lease
that another node issued.
"""

from __future__ import annotations

import dataclasses
import hmac
import re
from typing import TYPE_CHECKING, Any, NamedTuple

from sagas.base.errors import InvalidLease, SagasError
from sagas.core.shard.batch import OfferRow
from sagas.core.states import Action
from sagas.definition import tokens, undo_sagas
from sagas.definition.capacity import SHARD_CAPACITY

if TYPE_CHECKING:
    from sagas.core.attempt.model import Attempt

LEASE_PATTERN = re.compile(r"([1-9][0-9]{0,18})\.[0-9a-f]{32}", re.ASCII)
SIGNATURE_DIGITS = 32
"""Hex digits of the signature: 128 bits."""


# -- offers


def task_name(saga: str, step: str, action: str) -> str:
    """Return the name of a step's action, under which workers claim it."""
    return f"{saga}/{step}/{action}"


def offered_action(attempt: Attempt) -> tuple[str, str, str]:
    """Return the definition, the step and the action that an attempt performs.

    A step of a saga that undoes a child is the compensation of the child's step.
    """
    saga = attempt.instance.kind.saga
    if saga is not None and saga.undoes is not None and saga.undoes_step is not None:
        path = undo_sagas.declared_path(saga.undoes, saga.undoes_step)
        return saga.undoes.name, path or attempt.name, Action.COMPENSATE
    undoes = attempt.instance.kind.undoes
    if undoes is not None:
        return undoes, attempt.name, Action.COMPENSATE
    return attempt.saga, attempt.declared_name, attempt.kind


def offered_task_name(attempt: Attempt) -> str:
    """Return the name under which workers claim an attempt."""
    return task_name(*offered_action(attempt))


def offer_row(attempt: Attempt, shard: int, now: float) -> OfferRow:
    """Return the row that offers an attempt.

    An attempt of a queue gets a lease at once: it is sent as a message with the lease, and no
    worker claims it.
    """
    instance = attempt.instance
    why = instance.drain_reason if instance.draining and not attempt.undo else None
    if attempt.is_remote:
        return (attempt.token(), shard, *attempt.row, "", None, int(now * 1000), now, why)
    is_action = attempt.kind == Action.RUN and instance.kind.undoes is None
    bound = attempt.declared.concurrency if is_action else None
    return (attempt.token(), shard, *attempt.row, offered_task_name(attempt), bound, None, now, why)


def first_offer_row(attempt: Attempt, shard: int, now: float) -> OfferRow:
    """Return the row that offers an attempt in the commit that starts it."""
    row = offer_row(attempt, shard, now)
    attempt.rare.offered = row[8] or 0
    return row


# -- leases


class Signer:
    """Issue leases, and verify that a lease was issued.

    The hash of the key is computed once, and copied for each lease: 2 us in place of 7 us for
    `hmac.digest`, with OpenSSL 3 (measured on 2026-11-28).
    """

    def __init__(self, secret: bytes) -> None:
        self._keyed = hmac.new(secret, digestmod="sha256")

    def issue(self, token: str, number: int, holder: str) -> str:
        """Return the lease with a number, for an attempt and its holder."""
        signed_text = f"{token}\n{number}\n{holder}".encode("utf-8", "surrogatepass")
        signature = self._keyed.copy()
        signature.update(signed_text)
        return f"{number}.{signature.hexdigest()[:SIGNATURE_DIGITS]}"

    def number(self, token: str, lease: str, holder: str) -> int:
        """Return the number of a lease.

        Raises:
            InvalidLease: The lease was not issued for this attempt to this holder.
        """
        match = LEASE_PATTERN.fullmatch(lease)
        number = int(match[1]) if match else 0
        expected = self.issue(token, number, holder)
        if match is None or not hmac.compare_digest(expected.encode(), lease.encode()):
            raise InvalidLease(
                "this lease was not issued to you for this task. Nothing was recorded. "
                "Report the task with the attempt id and the lease of its claim"
            )
        return number


# -- orders


class AlreadyReported(SagasError):
    """Another message of this attempt was reported first: this transaction is rolled back."""


class AttemptTexts(NamedTuple):
    """The complete texts of an attempt, as JSON.

    `shape`: the definition and the stored shape, if the saga's steps come from its input.
    """

    input: str
    results: dict[str, str]
    result: str | None
    shape: tuple[str, str] | None = None


class Declared(NamedTuple):
    """The saga in which a step was declared, and its name there."""

    saga: str
    version: int
    step: str


class Position(NamedTuple):
    """The step whose result the order does not contain: the worker fetches it."""

    step: int


OrderMessage = dict[str, Any]


@dataclasses.dataclass(frozen=True, slots=True)
class Order:
    """An attempt as a message to a worker. Texts are JSON; None or a `Position` if the worker
    fetches them.

    Attributes:
        log: The name of the saga's shard.
        number: The saga's number in its shard.
        lease: Greater each time that the message is sent.
        declared: Where the step was declared, if the saga's steps come from its input.
    """

    saga: str
    version: int
    key: str
    log: str
    number: int
    step: str
    kind: str
    attempt: int
    lease: int
    input: str | None
    results: dict[str, str | Position]
    result: str | Position | None
    deadline: float | None = None
    traceparent: str | None = None
    declared: Declared | None = None

    @property
    def task(self) -> str:
        """The name of the step's action, under which workers register functions."""
        saga, version, step = self.declared or (self.saga, self.version, self.step)
        return f"{saga if version == 1 else f'{saga}@{version}'}.{step}.{self.kind}"

    @property
    def token(self) -> str:
        """The id of the attempt."""
        saga = tokens.saga_token(self.log, self.number)
        return tokens.attempt_id(tokens.idempotency_key(saga, self.step, self.kind), self.attempt)

    def written(self) -> OrderMessage:
        """Return the order as JSON values for a message."""
        return {field.name: getattr(self, field.name) for field in dataclasses.fields(self)}

    @classmethod
    def read(cls, message: OrderMessage) -> Order:
        """Return the order of a message.

        Raises:
            KeyError: A field is missing.
            TypeError: A field is unknown or invalid.
        """
        results = {name: _text_or_position(value) for name, value in message["results"].items()}
        declared = message.get("declared")
        fields: OrderMessage = {"results": results, "result": _text_or_position(message["result"])}
        fields["declared"] = Declared(*declared) if declared else None
        return cls(**message | fields)


def _text_or_position(value: Any) -> Any:
    return Position(*value) if isinstance(value, list) else value


def saga_id(log: int, number: int) -> int:
    """Return the id of a saga from the number of its shard and its number there."""
    return log * SHARD_CAPACITY + number
