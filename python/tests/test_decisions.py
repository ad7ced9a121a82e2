"""The words for what an operator decides: the same in the dashboard, the command and the pages."""

from __future__ import annotations

import pathlib
import re

import pytest

from sagas.cli import store_command
from sagas.core.decisions import APPROVAL, CHOICES, TEXTS, Decision, is_primary
from sagas.inspection.attention_pages import KINDS
from sagas.server import buttons
from sagas.server.auth import Principal
from sagas.server.routes import inbox, nodes, operators, page_forms, pauses
from sagas.server.routes import sagas as saga_routes

OPERATOR = Principal("ann", frozenset({"operator"}))
DOCS = pathlib.Path(__file__).resolve().parents[2] / "docs"
ROW = re.compile(r"^\| (\w+) \| `(\w+)` \| (.+) \|$", re.M)
CONFIRMED = ("retry", "done", "failed", "abort", "resolve", "compensate")


def test_the_page_has_the_table() -> None:
    page = (DOCS / "reference" / "http-operators.md").read_text()
    table = page.split("## What an operator decides")[1].split("## ")[0]
    assert ROW.findall(table) == [
        (text.button, decision.value, text.meaning) for decision, text in TEXTS.items()
    ]
    assert [*TEXTS] == [*Decision]
    for kind, decisions in CHOICES.items():
        calls = ", ".join(f"`{decision}`" for decision in decisions)
        assert re.search(rf"^\| `{kind}` \| .* \| {calls or ''} ?\|$", page, re.M), kind


@pytest.mark.parametrize("decision", Decision)
def test_commands_and_calls_have_the_same_names(
    decision: Decision, capsys: pytest.CaptureFixture[str]
) -> None:
    with pytest.raises(SystemExit) as ended:
        store_command.main(["shop.db", decision.value, "--help"])
    assert ended.value.code == 0 and f"STORE {decision}" in capsys.readouterr().out
    routes = saga_routes.routes, operators.routes, nodes.routes
    calls = [operation for group in routes for operation in group.operations]
    names = {operation.name for operation in pauses.routes.operations}
    assert decision in names or any(operation.path.endswith(f"/{decision}") for operation in calls)


def test_retry_is_the_first_button() -> None:
    """No button of a report is highlighted: an operator knows whether it is true."""
    assert {*KINDS} == {*CHOICES}
    for kind in ("unknown", "exhausted", "program_error"):
        for shown in ([*buttons.of(kind, OPERATOR).values()], buttons.of_step(kind, OPERATOR)):
            assert [button.title for button in shown][:3] == ["Retry…", "Complete…", "Fail…"]
            assert [button.is_primary for button in shown][:2] == [True, False]
    titles = [button.title for button in buttons.of_step(APPROVAL, OPERATOR)]
    assert titles == ["Approve…", "Refuse…"]
    for kind, decisions in CHOICES.items():
        highlighted = [decision for decision in decisions if is_primary(decision, kind)]
        assert len(highlighted) <= 1
        assert kind == APPROVAL or not {Decision.COMPLETE, Decision.FAIL} & {*highlighted}


def test_confirmations_have_the_same_names() -> None:
    """The button of a confirmation has the word of the button that leads to it."""
    for kind in KINDS:
        for verb, button in buttons.of(kind, OPERATOR).items():
            word = button.title.removesuffix("…")
            text = inbox.confirmation_of(kind, verb, [("a", "b", False)])
            assert text.button == (f"{word} it", f"{word} them") and verb in CONFIRMED
            if verb in ("retry", "done", "failed"):
                question = page_forms.step_question("b", verb, False, kind == APPROVAL)
                assert question["verb"] == f"{word} it" and question["title"].startswith(word)
    for decision, question in (
        (Decision.ABORT, page_forms.ABORT),
        (Decision.RESOLVE, page_forms.RESOLVE),
        (Decision.COMPENSATE, page_forms.COMPENSATE),
        (Decision.RESTART, page_forms.RESTART),
        (Decision.ERASE, page_forms.ERASE),
    ):
        assert question["verb"] == f"{TEXTS[decision].button} it"
