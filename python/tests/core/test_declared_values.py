"""The values that functions of a definition return for an attempt, right and wrong; and lines of
errors.
"""

from __future__ import annotations

import dataclasses
import json
import traceback
from typing import Any

import pytest

import sagas
from sagas.core import outcomes
from sagas.core.attempt.directives import CALL, Decision, Do, REPORT
from sagas.core.attempt.machine import AttemptMachine
from sagas.core.attempt.model import Attempt
from sagas.core.attempt.instance import SagaInstance
from sagas.core.states import AttemptState, OutcomeKind, Suspension
from sagas.definition.registry import DefinitionRegistry


@dataclasses.dataclass
class Order:
    """An input with a type."""

    account: str


def by(order: Order) -> Any:
    """Return the key of an order's limit."""
    if order.account == "raises":
        raise LookupError("no account")
    if order.account == "fails":
        raise sagas.Fail("never")
    return object() if order.account == "odd" else [order.account]


def shop() -> sagas.Saga:
    """Return a saga with a step that is limited by its account."""
    saga = sagas.Saga("shop", fair_by=lambda value: value["account"])

    @saga.step(concurrency=1, concurrency_by=by)
    def pay(task: sagas.Task[Order]) -> None:
        ...

    @pay.compensation
    def unpay(task: sagas.Task[Order]) -> None:
        ...

    return saga


KIND = DefinitionRegistry([shop()]).kinds[0]


def attempt_of(value: Any, kind: str = "run") -> Attempt:
    """Return an attempt that was claimed."""
    instance = SagaInstance("k", json.dumps(value), KIND, 0)
    instance.token = "test-0"
    return Attempt(instance, 0, kind, 1, is_uncalled=True)


def limited(attempt: Attempt) -> tuple[str, Decision]:
    """Return the functions that were called for the limits of its step, and the decision."""
    decision, names = AttemptMachine().decide_limits(attempt, 5.0), ""
    if decision.do is Do.ASK:
        assert decision.option_calls and attempt.state is AttemptState.CLAIMED
        names = decision.option_calls.option_names
        attempt.rare.returned |= decision.option_calls.answers()
        decision = AttemptMachine().decide_limits(attempt, 5.0)
    return names, decision


def test_the_key_of_a_limit_is_computed_once() -> None:
    """A compensation has none; a saga that cannot say it is not called."""
    attempt = attempt_of({"account": "a"})
    assert (
        limited(attempt) == ("fair_by= and concurrency_by=", CALL)
        and attempt.rare.limit_key == '["a"]'
    )
    attempt.instance.text = "{}"
    assert limited(attempt) == ("", CALL)
    undo = attempt_of({"account": "raises"}, "undo")
    assert limited(undo) == ("fair_by=", CALL) and undo.rare.limit_key is None
    for value, kind in [
        ("raises", OutcomeKind.FAILED),
        ("fails", OutcomeKind.FAILED_PERMANENTLY),
        ("odd", OutcomeKind.FAILED),
    ]:
        attempt = attempt_of({"account": value})
        assert limited(attempt)[1] == REPORT and attempt.state is AttemptState.FINISHED
        assert attempt.outcome and attempt.outcome.kind is kind
    attempt = attempt_of({"number": 7})
    decision = limited(attempt)[1]
    assert decision.do is Do.SUSPEND and attempt.reason is Suspension.CANNOT_DECODE


def test_the_tenant_of_a_saga() -> None:
    """If its definition cannot return a tenant, the saga has none."""
    for value, tenant in (({"account": "a"}, '"a"'), ({}, "null")):
        attempt = attempt_of(value)
        assert attempt.instance.tenant is None
        limited(attempt)
        assert attempt.instance.tenant == tenant
        attempt.instance.forget()  # its functions that run have slots of this tenant
        assert attempt.instance.tenant == tenant


class Odd(Exception):
    """An error without a text."""

    def __str__(self) -> str:
        raise ValueError


def noted() -> Exception:
    """Return an error with a note."""
    error = ValueError("n")
    error.add_note("a note")
    return error


@pytest.mark.parametrize(
    "error",
    [
        ValueError("x"),
        ValueError(),
        ValueError(" "),
        ValueError("a\nb"),
        KeyError("k"),
        sagas.Fail("no"),
        SystemExit(1),
        json.JSONDecodeError("a", "b", 0),
        Odd(),
        OSError(2, "no"),
        SyntaxError("bad", ("f", 1, 2, "text")),
        noted(),
    ],
)
def test_the_line_of_an_error_is_pythons_own(error: BaseException) -> None:
    """It is made without `traceback`, which takes ten times as long."""
    assert (
        outcomes.describe_error(error)
        == "".join(traceback.format_exception_only(type(error), error)).strip()
    )
