"""Labels of sagas: names and values that filters select by."""

from __future__ import annotations

from collections.abc import Mapping
from typing import Any

from sagas.base.errors import InvalidLabel
from sagas.definition.arguments import shown

Labels = Mapping[str, str]
TOKEN = "=token"
"""The name of a hidden label of sagas that a service started.

Its value is the size of the input in bytes and the name of the token. Callers cannot set it, and no
list shows it.
"""
RESTART = "=restart"
"""The name of a hidden label of sagas that restart another one.

Its value is the id and the key of that one, as `restart_value` writes them.
"""
NONE: dict[str, str] = {}
MAX_LABELS, MAX_NAME, MAX_VALUE = 16, 64, 256
RULE = (
    f"labels must be up to {MAX_LABELS} texts by name, names of 1 to {MAX_NAME} "
    f"printable characters without '=', values of 1 to {MAX_VALUE}"
)


def with_token(labels: Labels, token: str, size: int) -> Labels:
    """Return labels with the hidden one: the token of the start, and the input's size."""
    return {**labels, TOKEN: f"{size} {token}"}


def is_hidden(name: str) -> bool:
    """Return whether a label is one of the package, which no list shows."""
    return name.startswith("=")


def restart_value(id: int, key: str) -> str:
    """Return the value of the hidden label of a restart of the saga with this id and key."""
    return f"{id} {key}"


def restarted(value: str) -> tuple[int, str]:
    """Return the id and the key that a value of `restart_value` has."""
    id, _, key = value.partition(" ")
    return int(id), key


def is_text(value: Any, maximum: int) -> bool:
    """Return whether a value is a printable text of 1 to `maximum` characters."""
    return isinstance(value, str) and 0 < len(value) <= maximum and value.isprintable()


def selecting(labels: Any) -> Labels:
    """Return the labels of a filter for a command that changes sagas.

    Raises:
        InvalidLabel: They break `RULE`, or are empty and would select every saga.
    """
    if labels is not None and not checked(labels):
        raise InvalidLabel(
            "labels={} selects every saga, and nothing was changed. Omit labels= to select every "
            "saga, or name a label"
        )
    return checked(labels)


def checked(labels: Any) -> Labels:
    """Return the labels of a start or of a filter, checked and sorted.

    Raises:
        InvalidLabel: They break `RULE`.
    """
    if labels is None:
        return NONE
    if not isinstance(labels, Mapping):
        raise InvalidLabel(f'labels={shown(labels)}: {RULE}, for example {{"customer": "7"}}')
    if len(labels) > MAX_LABELS:
        raise InvalidLabel(f"{len(labels)} labels: {RULE}")
    for name, value in labels.items():
        if not is_text(name, MAX_NAME) or "=" in name:
            raise InvalidLabel(f"label name {shown(name)}: {RULE}")
        if not is_text(value, MAX_VALUE):
            raise InvalidLabel(f"label {name!r}: {shown(value)}: {RULE}")
    return dict(sorted(labels.items()))
