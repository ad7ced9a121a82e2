"""Conversion of inputs and results to JSON and back."""

from __future__ import annotations

import contextlib
import dataclasses
import datetime
import decimal
import enum
import json
import re
import uuid
from collections.abc import Callable, Iterable, Mapping
from typing import Any

from sagas.base.errors import CannotDecode, NotSerializable, ResultNotSerializable, StepFailed

Decoder = Callable[[Any], Any]


def is_old_model(kind: type) -> bool:
    """Return whether a class is a model of pydantic 1, or of `pydantic.v1`."""
    return hasattr(kind, "__fields__") and hasattr(kind, "parse_obj")


NUMBERS = {int, float, bool}
UNSTORABLE = "unstorable"
FAILED = "$failed"
"""The only key of the stored result of an optional failure: of an optional step, or an item."""
FAILED_HEAD = f'{{"{FAILED}":'
"""The beginning of the stored text of an optional failure. No codec encodes it."""
MAX_LEVELS = 64
"""Maximum nesting of a value.

JSON libraries of all languages can read it together with the levels around it in a reply.
"""
SHORT = 2 * MAX_LEVELS
"""No text of this length has more levels than `MAX_LEVELS`."""
BRACKETS = b"[]{}"
OTHERS = bytes(byte for byte in range(256) if byte not in BRACKETS)
ALIKE = bytes.maketrans(b"{}", b"[]")
RUN = re.compile(rb"\[+|\]+")
FLAT = 4
"""Innermost levels that `is_deeper` removes by replacement. Few values have more levels."""
MAX_DEEP = 16
TOO_DEEP = f"it has more than {MAX_LEVELS} levels of lists and objects. Use fewer levels"


def _default(value: Any) -> Any:
    if dataclasses.is_dataclass(value) and not isinstance(value, type):
        return {field.name: getattr(value, field.name) for field in dataclasses.fields(value)}
    if hasattr(value, "model_dump"):
        return value.model_dump(mode="json")
    if is_old_model(type(value)):
        return _decode(value.json())
    if isinstance(value, enum.Enum):
        return value.value
    if isinstance(value, (datetime.datetime, datetime.date, datetime.time)):
        return value.isoformat()
    if isinstance(value, (uuid.UUID, decimal.Decimal)):
        return str(value)
    if isinstance(value, (set, frozenset)):
        return _in_order(value)
    raise TypeError(
        f"{type(value).__name__} is not JSON. Use dicts, lists, sets, texts, numbers, "
        "dataclasses or pydantic models"
    )


def _in_order(items: Iterable[Any]) -> list[Any]:
    """Return the items of a set in a fixed order.

    Numbers and texts are compared as they are, other items by their JSON.
    """
    kinds = {type(item) for item in items}
    return (
        sorted(items)
        if kinds <= NUMBERS or kinds == {str}
        else sorted(items, key=lambda item: "".join(_chunks(item, 0)))
    )


_encoder = json.JSONEncoder(
    sort_keys=True, separators=(",", ":"), allow_nan=False, default=_default
)
_decoder = json.JSONDecoder()
_scan: Callable[[str, int], tuple[Any, int]] = getattr(_decoder, "scan_once")


def _chunked() -> Callable[[Any, int], Iterable[str]]:
    """Return the encoder's function, with its C part created only once."""
    make: Callable[..., Callable[[Any, int], Iterable[str]]] | None = getattr(
        json.encoder, "c_make_encoder", None
    )
    if make is None:
        return lambda value, level: _encoder.iterencode(value)
    return make(
        None,
        _default,
        getattr(json.encoder, "encode_basestring_ascii"),
        None,
        ":",
        ",",
        True,
        False,
        False,
    )


_chunks = _chunked()


def _decode(text: str) -> Any:
    """Parse a JSON text, by the fast path in C if it has no blanks around it.

    Raises:
        CannotDecode: The text has too many levels.
    """
    try:
        try:
            value, end = _scan(text, 0)
        except StopIteration:
            end = -1
        return value if end == len(text) else _decoder.decode(text)
    except RecursionError:
        raise CannotDecode(f"it has more than {MAX_LEVELS} levels of lists and objects") from None


def is_deeper(text: str, levels: int = MAX_LEVELS) -> bool:
    """Return whether a JSON text has more nesting levels than `levels`.

    It does not recurse. For 1 MiB it takes at most 50 ms, for any order of brackets.
    """
    if text.count("[") + text.count("{") <= levels:
        return False
    data = text.encode("ascii", "replace").replace(b"\\\\", b"").replace(b'\\"', b"")
    brackets = b"".join(data.split(b'"')[::2]).translate(ALIKE, OTHERS)
    left, level = levels, 0
    for _ in range(min(FLAT, levels)):
        brackets = brackets.replace(b"[]", b"")
        left -= 1
    for run in RUN.findall(brackets):
        level += len(run) if run.startswith(b"[") else -len(run)
        if level > left:
            return True
    return False


def clean(text: str) -> str:
    """Return a text without NUL characters and lone surrogates, for a database."""
    if text.isprintable():
        return text
    return text.replace("\0", "\\0").encode("utf-8", "backslashreplace").decode()


def cleaned(parameters: Iterable[Any]) -> tuple[Any, ...]:
    """Return the parameters of a statement with clean texts."""
    return tuple(
        clean(parameter) if isinstance(parameter, str) else parameter for parameter in parameters
    )


def write(value: Any, name: str = "") -> str:
    """Return a value as canonical JSON: with sorted keys, and without spaces.

    Args:
        value: The value.
        name: The name of the value, for the message of an error.

    Raises:
        NotSerializable: The value cannot be written. The message has the path of the part.
    """
    if value is None:
        return "null"
    try:
        return "".join(_chunks(value, 0))
    except Exception as error:  # also of the value's own code
        raise _not_serializable(value, name, error) from error


def _not_serializable(value: Any, name: str, error: Exception) -> NotSerializable:
    path = name
    if not isinstance(error, RecursionError):
        with contextlib.suppress(Exception):
            path += _path(value, MAX_DEEP)
    return NotSerializable(f"{path}: {_reason(value, error)}" if path else _reason(value, error))


def write_value(value: Any, name: str = "") -> str:
    """Return an input, an item or a result as canonical JSON.

    Raises:
        NotSerializable: As `write`. Or the value has more than `MAX_LEVELS` levels, which not
            every program could read.
    """
    try:
        text = "null" if value is None else "".join(_chunks(value, 0))
    except Exception as error:  # also of the value's own code
        raise _not_serializable(value, name, error) from error
    if len(text) > SHORT and is_deeper(text):
        raise NotSerializable(f"{name}: {TOO_DEEP}" if name else TOO_DEEP)
    return text


def _reason(value: Any, error: Exception) -> str:
    if isinstance(error, RecursionError):
        return f"{TOO_DEEP}, and must not contain itself"
    text = str(error)
    if text.startswith("'<' not supported"):
        return "all keys of a dict must be texts"
    if text.startswith("Out of range float"):
        return "NaN and infinity are not JSON. Use a finite number or None"
    return (
        text
        if isinstance(error, (TypeError, ValueError))
        else f"{type(value).__name__}: {type(error).__name__}: {error}"
    )


def _path(value: Any, depth: int) -> str:
    """Return the path of the part that is not JSON, for example `["seats"][0].row`."""
    parts: Iterable[tuple[str, Any]] = ()
    if isinstance(value, dict):
        parts = (
            (f"[{json.dumps(key) if isinstance(key, str) else repr(key)}]", item)
            for key, item in value.items()
        )
    elif isinstance(value, (list, tuple)):
        parts = ((f"[{index}]", item) for index, item in enumerate(value))
    elif dataclasses.is_dataclass(value) and not isinstance(value, type):
        parts = (
            (f".{field.name}", getattr(value, field.name)) for field in dataclasses.fields(value)
        )
    for name, part in parts if depth else ():
        try:
            "".join(_chunks(part, 0))
        except Exception:
            return name + _path(part, depth - 1)
    return ""


def read(text: str, decoder: Decoder | None = None) -> Any:
    """Return the decoded value of a JSON text: a new object at each call."""
    value = _decode(text)
    return value if decoder is None else decoder(value)


def unstorable(value: Any) -> str | None:
    """Return why a result could not be stored, if the stored value says so; else None."""
    detail = value.get(UNSTORABLE) if type(value) is dict and len(value) == 1 else None
    return detail if isinstance(detail, str) else None


def failed(value: Any) -> str | None:
    """Return the error in the value of an optional failure; None for any other value."""
    detail = value.get(FAILED) if type(value) is dict and len(value) == 1 else None
    return detail if isinstance(detail, str) else None


def optional_failure(text: str | None) -> str | None:
    """Return the error in the stored text of an optional failure; None for any other text."""
    if text is None or not text.startswith(FAILED_HEAD):
        return None
    return failed(_decode(text))


def optional_failures(results: Mapping[int, str]) -> dict[int, str]:
    """Return the errors of the steps with an optional failure, from stored results by step."""
    return {
        step: detail
        for step, text in results.items()
        if text.startswith(FAILED_HEAD) and (detail := failed(_decode(text))) is not None
    }


def is_plain(value: Any) -> bool:
    """Return whether a stored value is an error instead of a result."""
    return unstorable(value) is not None or failed(value) is not None


def stored(value: Any, step: str) -> Any:
    """Return the stored result of a step.

    Raises:
        ResultNotSerializable: The result could not be stored.
        StepFailed: The step is optional, or an item that is collected, and has failed.
    """
    if (detail := failed(value)) is not None:
        raise StepFailed(step, detail)
    reason = unstorable(value)
    if reason is not None:
        raise ResultNotSerializable(f"step {step!r} returned a value that is not JSON: {reason}")
    return value


def returned(text: str, decoder: Decoder | None, step: str) -> Any:
    """Return the decoded result of a step.

    Raises:
        ResultNotSerializable: The result could not be stored.
        StepFailed: The step is optional, or an item that is collected, and has failed.
    """
    value = stored(_decode(text), step)
    return value if decoder is None else decoder(value)


def kept(text: str, decoder: Decoder | None) -> Any:
    """Return the decoded result of a step, or the stored error in its place as a dict."""
    value = _decode(text)
    return value if decoder is None or is_plain(value) else decoder(value)


def fitting(text: str, decoder: Decoder | None) -> Any:
    """Return the decoded value of a JSON text, or the JSON value if it cannot be.

    An operator may have reported such a value, or the result could not be stored.
    """
    return fitted(_decode(text), decoder)


def fitted(value: Any, decoder: Decoder | None) -> Any:
    """Return a decoded value, or the JSON value if it does not fit its type."""
    if decoder is None or is_plain(value):
        return value
    try:
        return decoder(value)
    except Exception:  # of the type's own code
        return value
