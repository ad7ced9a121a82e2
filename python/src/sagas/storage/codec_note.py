"""The note in a store that its values are encoded.

A program with a codec writes the note when it opens the store. From then on, no program without a
codec opens the store or writes to it.
"""

from __future__ import annotations

from typing import TYPE_CHECKING

from sagas.base.errors import MissingCodec
from sagas.definition.payloads import Payloads

if TYPE_CHECKING:
    from sagas.storage.admin import Source

NOTED = "SELECT 1 FROM secrets WHERE name = 'codec'"
NOTE = "INSERT INTO secrets(name, value) VALUES('codec', 'noted') ON CONFLICT DO NOTHING"


def missing(store_name: str) -> MissingCodec:
    """Return the error for a program without a codec."""
    return MissingCodec(
        f"{store_name}: the values of this store are encoded, and this program has no codec. "
        "Give it codec=, or --app MODULE:NAME to a command"
    )


def check(connection: Source, payloads: Payloads) -> None:
    """Check that this program may write a value over a connection.

    Raises:
        MissingCodec: The store's values are encoded, and this program has no codec.
    """
    if payloads.codec is None and connection.ask(NOTED):
        raise missing(connection.name)
