"""A store as of one moment, for the commands that inspect it."""

from __future__ import annotations

import json
from typing import Any

from sagas.definition.payloads import unescaped
from sagas.inspection import saga
from sagas.inspection.question import Row, StoreReader
from sagas.inspection.views import SagaView
from sagas.storage import admin


def shown(text: str) -> Any:
    """Return a stored value for a command that does not print values."""
    return json.loads(unescaped(text))


class Snapshot(StoreReader):
    """Answers questions to a store. All answers are as of one moment."""

    def __init__(self, path: str, read: saga.Read = shown) -> None:
        """`read`: decodes stored values. Default: they are not encoded."""
        super().__init__(self)
        self.link, self.read = admin.connect(path), read

    def __enter__(self) -> Snapshot:
        self.link.begin()
        return self

    def __exit__(self, *_: object) -> None:
        self.close()

    def rows(self, query: str, *parameters: Any) -> list[Row]:
        """Return the rows of a query."""
        return self.link.ask(query, *parameters)

    def has_table(self, name: str) -> bool:
        """Return whether the store has a table: a store of an older release may not."""
        return self.link.has_table(name)

    def saga(self, key: str) -> SagaView:
        """Return the view of a saga. Raises `Trouble` if no saga has the key."""
        view = self.ask(saga.view(key, self.read))
        if view is None:
            raise self.link.missing_saga_error(key)
        return view

    def close(self) -> None:
        self.link.close()
