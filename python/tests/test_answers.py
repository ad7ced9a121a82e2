"""Replies to requests, and how a caller reads them."""

from __future__ import annotations

import pytest

import sagas
from sagas.storage import operator_requests


@pytest.mark.parametrize("name", ["annotations", "SagasError", "Later", "__doc__", "", "no: "])
def test_an_answer_that_names_no_error_of_this_release(name: str) -> None:
    """It is an error anyway: the reply may be of another release."""
    with pytest.raises(sagas.SagasError) as raised:
        operator_requests.checked_answer({"error": f"{name}: why" if name else "why"})
    assert type(raised.value) is sagas.SagasError and str(raised.value)


def test_an_answer_that_names_an_error() -> None:
    """The error is raised, with its reason; any other reply is returned."""
    with pytest.raises(sagas.StepNotWaiting, match="^it is over: it is done$"):
        operator_requests.checked_answer({"error": "StepNotWaiting: it is over: it is done"})
    assert operator_requests.checked_answer(True) is True and operator_requests.checked_answer(
        {"a": 1}
    ) == {"a": 1}
