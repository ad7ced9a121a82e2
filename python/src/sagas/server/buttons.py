"""The buttons of decisions on the pages of the dashboard."""

from __future__ import annotations

import dataclasses

from sagas.core import decisions
from sagas.core.decisions import CHOICES, Decision
from sagas.server.auth import Principal

VERBS = {Decision.COMPLETE: "done", Decision.FAIL: "failed"}
"""The words of forms and addresses for decisions that have another one there."""
DECISIONS = {VERBS.get(decision, decision.value): decision for decision in Decision}
"""The decisions by their words in forms and addresses."""
OF_STEPS = (Decision.RETRY, Decision.COMPLETE, Decision.FAIL)
"""The decisions that the page of a saga has for each step."""


@dataclasses.dataclass(frozen=True, slots=True)
class Button:
    """A button that leads to the confirmation of a decision.

    Attributes:
        verb: The word of the form or address.
        title: Its text.
        meaning: What the decision means.
        is_primary: Whether it is the one that the page suggests.
    """

    verb: str
    title: str
    meaning: str
    is_primary: bool


def of(reason: str, principal: Principal) -> dict[str, Button]:
    """Return the buttons for an entry with this reason, in their order, by their verbs.

    They are those of the decisions that the principal may make.
    """
    decisions = _permitted(reason, principal)
    return {button.verb: button for button in (_button(made, reason) for made in decisions)}


def of_step(reason: str, principal: Principal) -> list[Button]:
    """Return those that concern only the step."""
    decisions = _permitted(reason, principal)
    return [_button(decision, reason) for decision in decisions if decision in OF_STEPS]


def _permitted(reason: str, principal: Principal) -> list[Decision]:
    return [made for made in CHOICES[reason] if principal.may_decide(made, reason)]


def _button(decision: Decision, reason: str) -> Button:
    text = decisions.text_of(decision, reason)
    is_primary = decisions.is_primary(decision, reason)
    verb = VERBS.get(decision, decision.value)
    return Button(verb, f"{text.button}…", text.meaning, is_primary)
