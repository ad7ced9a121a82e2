"""JSON of requests and responses, entity tags and times.

Requests are read strictly, so that every parser reads them alike.
"""

from __future__ import annotations

import datetime
import hashlib
import json
from collections.abc import Iterator
from typing import Any

from starlette.requests import Request
from starlette.responses import Response

from sagas.definition.serialization import TOO_DEEP
from sagas.inspection.wording import whole


def read_text(text: str) -> Any:
    """Parse a text. Raises `ValueError`, whose message contains no value of the text.

    It is raised if the text is not JSON, has too many levels, or has an object with duplicate
    keys.
    """
    try:
        return _decoder.decode(text)
    except RecursionError:
        raise ValueError(TOO_DEEP) from None


def read_bytes(body: bytes) -> Any:
    """Parse a body in UTF-8, UTF-16 or UTF-32."""
    return read_text(body.decode(json.detect_encoding(body), "surrogatepass"))


def _no_constant(text: str) -> None:
    raise ValueError(f"{text} is not JSON")


def _once(pairs: list[tuple[str, Any]]) -> dict[str, Any]:
    """Return an object without duplicate keys: parsers differ in which of them they use."""
    value = dict(pairs)
    if len(value) != len(pairs):
        raise ValueError("an object has a key twice")
    return value


_decoder = json.JSONDecoder(parse_constant=_no_constant, object_pairs_hook=_once)
"""One decoder for all texts. `json.loads` would create one for each."""


# -- responses


_encoder = json.JSONEncoder(allow_nan=False, separators=(",", ":"), default=whole)


class Json(Response):
    """A line of JSON in plain ASCII, so that no stored text can break it."""

    media_type = "application/json"

    def render(self, content: Any) -> bytes:
        return _encoder.encode(content).encode() + b"\n"


def parted(content: Any, *path: str) -> Response:
    """Return a response like `Json` for a large value, in a thread.

    Values on the path (`*`: each member) are serialized member by member. No other thread runs
    while one member is serialized.
    """
    text = "".join(_parts(content, path))
    return Response(text.encode() + b"\n", media_type=Json.media_type)


def _parts(content: Any, path: tuple[str, ...] | None) -> Iterator[str]:
    """Yield the members of a list or an object on the path; other values as a whole."""
    if path is None or not content or not isinstance(content, (dict, list)):
        yield _encoder.encode(content)
        return
    is_dict = isinstance(content, dict)
    before, end = ("{", "}") if is_dict else ("[", "]")
    for name in content if is_dict else range(len(content)):
        yield f"{before}{_encoder.encode(name)}:" if is_dict else before
        yield from _parts(content[name], path[1:] if path[:1] in (("*",), (name,)) else None)
        before = ","
    yield end


def tagged(request: Request, answer: Response) -> Response:
    """Return the response with an entity tag, or 304 if the client has this version."""
    tag = f'"{hashlib.sha256(bytes(answer.body)).hexdigest()[:32]}"'
    headers = {"etag": tag, "cache-control": "private, no-cache"}
    if has_tag(request.headers.get("if-none-match", ""), tag):
        return Response(status_code=304, headers=headers)
    answer.headers.update(headers)
    return answer


def has_tag(header: str, tag: str) -> bool:
    """Return whether an `If-None-Match` header names a tag. For GET, weak tags match, too."""
    return any(
        candidate.strip().removeprefix("W/") in (tag, "*") for candidate in header.split(",")
    )


def text_of(at: float) -> str:
    """Return a time as RFC 3339 text, in UTC and with milliseconds."""
    moment = datetime.datetime.fromtimestamp(at, datetime.timezone.utc)
    return moment.isoformat(timespec="milliseconds").replace("+00:00", "Z")


def name_of_text(name: str) -> str:
    """Return the name of the field that has a time as text: `started_at`, and `time` for `at`."""
    return "time" if name == "at" else f"{name}_at"


def times(**moments: float | None) -> dict[str, Any]:
    """Return each time in seconds since 1970, and as text: `started` and `started_at`."""
    fields: dict[str, Any] = {}
    for name, at in moments.items():
        fields[name], fields[name_of_text(name)] = at, None if at is None else text_of(at)
    return fields
