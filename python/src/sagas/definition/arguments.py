"""Checks of the arguments of `open`, `start` and `Client`, and values for messages.

Each check raises an error that names the argument, its value and the rule.
"""

from __future__ import annotations

import datetime
import difflib
import inspect
import os
import pathlib
from collections.abc import Iterable
from typing import Any

from sagas.base.errors import InvalidKey, InvalidStore

MAX_KEY = 512
MAX_ENDING = 16
"""Number of further characters of the key of a saga that calls `on_end`."""
MAX_SHOWN = 80
"""Maximum length of a value in a message, in characters."""
BELOW = "/:"
"""The separator in a child's key, between the parent's key and the name of the step."""
TIME = "must be seconds or a timedelta"


def shown(value: object) -> str:
    """Return a value for a message, shortened to `MAX_SHOWN` characters."""
    text = repr(value)
    if len(text) <= MAX_SHOWN:
        return text
    if isinstance(value, str):
        return f"{text[:MAX_SHOWN]}... ({len(value):,} characters)"
    return f"{text[:MAX_SHOWN]}..."


def count(name: str, value: Any) -> int:
    """Return the argument `name` as an integer of at least 1.

    Raises:
        ValueError: It is not such an integer.
    """
    if not is_count(value) or value < 1:
        raise ValueError(f"{name}={shown(value)}: must be an integer >= 1")
    return int(value)


def time(name: str, value: Any, *, none: bool = True) -> float:
    """Return the argument `name` in seconds.

    Args:
        name: The argument's name.
        value: Seconds, or a timedelta.
        none: Whether 0 is allowed.

    Raises:
        TypeError: It is not a duration.
        ValueError: It is negative or infinite, or 0 although that is not allowed.
    """
    seconds = value.total_seconds() if isinstance(value, datetime.timedelta) else value
    if not isinstance(seconds, (int, float)) or isinstance(seconds, bool):
        raise TypeError(f"{name}={shown(value)}: {TIME}, for example {name}=30")
    if not 0 <= seconds < float("inf") or not (seconds or none):
        raise ValueError(f"{name}={shown(value)}: {TIME}, {'>= 0' if none else '> 0'}")
    return float(seconds)


def calls(name: str, value: Any, purpose: str) -> None:
    """Check that the argument `name` is a plain function.

    Args:
        name: The argument's name.
        value: Its value.
        purpose: What the function takes or returns, for the message.

    Raises:
        TypeError: It is not a plain function.
    """
    if not callable(value):
        raise TypeError(f"{name}={shown(value)}: must be a function {purpose}")
    if inspect.iscoroutinefunction(value):
        raise TypeError(
            f"{name}={shown(value)}: must be a plain function {purpose}, because an async "
            "one would never be awaited"
        )


def text(name: str, value: Any, purpose: str) -> None:
    """Check that the argument `name` is a text that is not empty.

    Args:
        name: The argument's name.
        value: Its value.
        purpose: What the text is to describe, for the message.

    Raises:
        TypeError: It is not a text.
        ValueError: It is empty.
    """
    if not isinstance(value, str):
        raise TypeError(f"{name}={shown(value)}: must be a text that says {purpose}")
    if not value.strip():
        raise ValueError(f"{name}={shown(value)}: must not be empty. Say {purpose}")


def node(value: Any) -> None:
    """Check the argument `node`, the name of a node.

    Raises:
        TypeError: It is not a text.
    """
    if value is not None and not isinstance(value, str):
        raise TypeError(
            f"node={shown(value)}: must be a text, the name of this node, for example "
            'node="web-1"'
        )


def path(value: Any) -> str:
    """Return a store's name: the path of a file, or a URL.

    Raises:
        InvalidStore: It is neither a text nor a path.
    """
    try:
        name = os.fspath(value)
    except TypeError:
        name = None
    if not isinstance(name, str):
        raise InvalidStore(
            f"{shown(value)}: must be the path of a file, as a text or a pathlib.Path. For a "
            "test in memory, call sagas.testing.run"
        )
    return name


def record(value: Any) -> str | None:
    """Return the argument `record`, the path of a file, as a text.

    Raises:
        TypeError: It is not a path.
        ValueError: It is empty.
    """
    if value is None:
        return None
    if not isinstance(value, (str, os.PathLike)) or not isinstance(os.fspath(value), str):
        raise TypeError(f"record={shown(value)}: must be the path of a file")
    if not os.fspath(value):
        raise ValueError(f"record={shown(value)}: must not be empty. Pass the path of a file")
    return os.fspath(value)


def url(name: str, value: Any) -> str | None:
    """Return an argument that is the URL of a PostgreSQL server, or None.

    Messages do not have it, because of its password.

    Raises:
        TypeError: It is not a text.
        ValueError: It is not such a URL.
    """
    if value is None:
        return None
    if not isinstance(value, str):
        raise TypeError(f"{name}: must be a text, not a {type(value).__name__}")
    if not value.startswith(("postgresql://", "postgres://")):
        raise ValueError(f"{name}: must be a URL that begins with postgresql://")
    return value


def keeping(retention: Any, archive_dir: Any) -> None:
    """Check the arguments `retention` and `archive_dir`.

    Raises:
        TypeError: One of them has a wrong type.
        ValueError: The folder cannot be used, or `retention` is missing.
    """
    if retention is not None and not (
        isinstance(retention, datetime.timedelta) and retention >= datetime.timedelta(0)
    ):
        raise TypeError(
            f"retention={shown(retention)}: must be a timedelta >= 0, for example "
            "datetime.timedelta(days=30)"
        )
    if archive_dir is None:
        return
    if not isinstance(archive_dir, (str, os.PathLike)) or not isinstance(
        os.fspath(archive_dir), str
    ):
        raise TypeError(f"archive_dir={shown(archive_dir)}: must be the path of a folder")
    if retention is None:
        raise ValueError(
            f"archive_dir={shown(archive_dir)}: nothing is deleted without retention=. "
            "Set how long ended sagas are kept"
        )
    folder = pathlib.Path(os.path.abspath(archive_dir))
    if folder.exists() and not folder.is_dir():
        raise ValueError(
            f"archive_dir={shown(archive_dir)}: this is not a folder. Choose another path"
        )
    if not folder.parent.is_dir():
        raise ValueError(
            f"archive_dir={shown(archive_dir)}: folder {folder.parent} does not exist. "
            "Create it, or choose another path"
        )


def key(value: Any, or_child: bool = False) -> None:
    """Check the key of a saga.

    Args:
        value: The key.
        or_child: Whether the key of a child saga is allowed.

    Raises:
        InvalidKey: The key is not valid.
    """
    limit = MAX_KEY + MAX_ENDING if or_child else MAX_KEY
    if not isinstance(value, str) or not 0 < len(value) <= limit or not value.isprintable():
        raise InvalidKey(
            f"key={shown(value)}: must be a text of 1 to {MAX_KEY} printable characters"
        )
    if BELOW in value and not or_child:
        raise InvalidKey(
            f"key={shown(value)}: only keys of child sagas have {BELOW!r}, and their parents start "
            "them. Use another key"
        )


def root_of(key: str) -> str:
    """Return the key of the root saga: of the ancestor that no other saga started."""
    return key.partition(BELOW)[0]


def is_count(value: object) -> bool:
    """Return whether a value is an integer, and not a bool."""
    return isinstance(value, int) and not isinstance(value, bool)


def meant(name: str, names: Iterable[str]) -> str:
    """Return a question for the nearest name, for a message, or an empty text."""
    near = difflib.get_close_matches(name, names, 1)
    return f"; did you mean {near[0]!r}?" if near else ""
