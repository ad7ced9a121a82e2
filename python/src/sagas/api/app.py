"""What `--app MODULE:NAME` of a command names: a saga, a list of sagas, or a store."""

from __future__ import annotations

import inspect
from collections.abc import Iterable, Mapping
from typing import Any

from sagas.api import store as store_module
from sagas.api.store import Store
from sagas.api.sync_store import SyncStore
from sagas.base.options import load_reference
from sagas.definition.payloads import BlobStore, Codec
from sagas.definition.saga import Saga

KINDS = "a saga, a list of sagas, or a store made by sagas.open"


class App:
    """The sagas of a module, and how the module opens their store.

    Attributes:
        location: The module and the name, for messages.
        sagas: The definitions. None of them undoes another saga.
        options: The arguments of `sagas.open` that differ from their defaults, if it is a store.
    """

    def __init__(self, location: str, value: Any) -> None:
        """`value`: what the module has under the name.

        Raises:
            ValueError: It is something else.
        """
        self.location = location
        self.options: Mapping[str, Any] = {}
        store = value._inner if isinstance(value, SyncStore) else value
        if isinstance(store, Store):
            defaults = inspect.signature(store_module.open).parameters
            self.options = {
                name: argument
                for name, argument in store.opened_with.items()
                if name not in ("path", "sagas") and argument is not defaults[name].default
            }
            # those that undo children are made again
            self.sagas = [saga for saga in store.sagas if saga.undoes is None]
            return
        listed = [value] if isinstance(value, Saga) else []
        if not listed and isinstance(value, Iterable):
            listed = list(value)
        if not listed or not all(isinstance(saga, Saga) for saga in listed):
            raise ValueError(f"--app {location}: must be {KINDS}")
        self.sagas = listed

    @property
    def codec(self) -> Codec | None:
        """The codec of the store, if it is one that has a codec."""
        return self.options.get("codec")

    @property
    def blobs(self) -> BlobStore | None:
        """The blob store of the store, if it is one that has a blob store."""
        return self.options.get("blobs")


def load_app(location: str) -> App:
    """Return what a module provides.

    Raises:
        ValueError: The module or the name does not exist, or it is something else.
    """
    return App(location, load_reference("--app", location))
