"""The mark that a stored value has after its saga was erased: when, and by whom."""

from __future__ import annotations

import dataclasses
import datetime
import json

ERASED = "$erased"
ERASED_HEAD = f'{{"{ERASED}":'
"""The beginning of the stored text of an erased value. No codec encodes it."""
ERASED_TEXT = "erased"
"""What is left of an erased text: an error, or a note."""


@dataclasses.dataclass(frozen=True, slots=True)
class Erasure:
    """Tell when the data of a saga was erased.

    Attributes:
        at: When, in seconds since 1970.
        by: The person or program that erased it, or None.
    """

    at: float
    by: str | None

    @property
    def stored(self) -> str:
        """The text that replaces a stored value."""
        return json.dumps({ERASED: {"at": self.at, "by": self.by}}, separators=(",", ":"))

    @property
    def text(self) -> str:
        """When and by whom, for people."""
        moment = datetime.datetime.fromtimestamp(self.at, datetime.timezone.utc)
        by = "" if self.by is None else f" by {self.by}"
        return f"erased at {moment:%Y-%m-%d %H:%M:%S} UTC{by}"


def erasure_of(text: str) -> Erasure | None:
    """Return the erasure that a stored text marks, or None if it is a value."""
    if not text.startswith(ERASED_HEAD):
        return None
    about = json.loads(text)[ERASED]
    return Erasure(float(about["at"]), about["by"])
