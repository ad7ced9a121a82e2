"""Stored forms of inputs and results: JSON, the output of a codec, or a reference to a blob."""

from __future__ import annotations

import base64
import hashlib
import json
import re
from collections.abc import Awaitable, Iterable
from typing import Any, NamedTuple, Protocol

from sagas.base.errors import CannotDecode, NotSerializable, StoreUnavailable
from sagas.definition import erasure, serialization
from sagas.definition.arguments import shown


class Codec(Protocol):
    """Encode inputs and results before they are stored, for example to encrypt them.

    Made by you, as a class with these two functions. Both are called in the event loop and in
    threads, so they must be fast.
    """

    def encode(self, data: bytes, /) -> bytes:
        """Return the bytes to store for a value.

        Args:
            data: The value as JSON, in UTF-8.
        """

    def decode(self, data: bytes, /) -> bytes:
        """Return the value that `encode` encoded, possibly with an older key.

        Args:
            data: The bytes that `encode` returned.
        """


# -- blobs: large values outside of the database


BLOB_HEAD = '{"$blob":"'
"""The beginning of a reference. A value that begins with it is stored escaped."""
REFERENCE = re.compile(
    r'\{"\$blob":"([0-9a-f/]{1,200})","bytes":(\d{1,15}),"digest":"([0-9a-f]{64})"\}\Z'
)
MIN_THRESHOLD = 256
"""The least threshold in bytes. References would be larger than values below it."""


class BlobStore(Protocol):
    """Keep large inputs and results outside the database.

    Made by you, as a class with these functions; or use `FolderBlobStore` or `PostgresBlobStore`.
    Plain functions are called in several threads at once. Coroutine functions are awaited in the
    event loop of the store. A key has up to 200 of the characters `0-9`, `a-f` and `/`, and no key
    is put with two different values. All nodes and clients of a store must reach the same blobs.
    """

    def put(self, key: str, data: bytes, /) -> Awaitable[None] | None:
        """Store a value. When it returns, the value survives a crash of the machine.

        Args:
            key: Its name.
            data: The value.
        """

    def get(self, key: str, /) -> Awaitable[bytes] | bytes:
        """Return a value that was put.

        Args:
            key: Its name.

        Raises:
            KeyError: No value has this name. Raise another exception if that is unknown.
        """

    def delete(self, key: str, /) -> Awaitable[None] | None:
        """Delete a value. It is not an error if there is none.

        Args:
            key: Its name.
        """

    def keys(self, prefix: str, before: float, /) -> Awaitable[Iterable[str]] | Iterable[str]:
        """Return the keys that begin with `prefix` and were put before a time.

        Args:
            prefix: The beginning of the keys.
            before: Seconds since 1970.
        """


class BlobUnavailable(StoreUnavailable):
    """The blob store cannot read or write one value."""


class Reference(NamedTuple):
    """The reference to a blob that a row has in place of a large value."""

    key: str
    size: int
    digest: str

    @classmethod
    def to(cls, key: str, text: str, size: int) -> Reference:
        """Return a reference to a value that the blob store has under this key."""
        return cls(key, size, _digest(key, text))

    @classmethod
    def of(cls, text: str) -> Reference | None:
        """Return the reference in a stored text, or None if the text is a value."""
        match = REFERENCE.match(text) if text.startswith(BLOB_HEAD) else None
        return None if match is None else cls(match[1], int(match[2]), match[3])

    def __str__(self) -> str:
        return f'{BLOB_HEAD}{self.key}","bytes":{self.size},"digest":"{self.digest}"}}'

    def is_of(self, text: str) -> bool:
        """Return whether it refers to this value, as JSON before a codec encodes it."""
        return self.digest == _digest(self.key, text)


def _digest(key: str, text: str) -> str:
    """Return the digest of a value with its key.

    Keys are random, so equal values have different digests.
    """
    return hashlib.sha256(f"{key} {text}".encode("utf-8", "surrogatepass")).hexdigest()


def check_blobs(blobs: Any, threshold: Any) -> None:
    """Check the arguments `blobs` and `blob_threshold`.

    Raises:
        TypeError: It is not a blob store, or the threshold is not a number.
        ValueError: The threshold is too small.
    """
    if isinstance(threshold, bool) or not isinstance(threshold, int):
        raise TypeError(f"blob_threshold={shown(threshold)}: must be a number of bytes")
    if threshold < MIN_THRESHOLD:
        raise ValueError(f"blob_threshold={threshold}: must be at least {MIN_THRESHOLD} bytes")
    for name in ("put", "get", "delete", "keys") if blobs is not None else ():
        if not callable(getattr(blobs, name, None)):
            raise TypeError(
                f"blobs={type(blobs).__name__}: must have the functions put, get, delete and keys"
            )


# -- stored texts


ENVELOPE = re.compile(r'\{"\$codec":"([A-Za-z0-9+/]*={0,2})"\}\Z')
"""A stored value that a codec encoded. It is JSON, so programs without the codec can list it."""
ESCAPED = '{"$plain":'
"""The beginning of a stored value that is escaped, because it begins as a reserved one."""
ABSENT = '{"$absent":true}'
"""The placeholder of a stored value that is not in memory. It is never stored."""
LARGE_VALUE = 4096
"""Characters: a longer stored value is not held all the time."""
RESERVED = (
    '{"$codec":',
    '{"$blob":',
    '{"$absent":',
    serialization.FAILED_HEAD,
    erasure.ERASED_HEAD,
    ESCAPED,
)
"""The beginnings of stored texts that are not plain values."""


class Payloads:
    """Encode and decode the JSON texts of a store.

    A plain value that begins as a reserved one is escaped, so that it is read as plain data. With
    a codec, texts that were stored without one can still be read.
    """

    def __init__(self, codec: Codec | None = None, has_blobs: bool = False) -> None:
        self.codec, self.has_blobs = codec, has_blobs

    @property
    def reads(self) -> bool:
        """Whether there is a codec or a blob store, so that texts may differ."""
        return self.codec is not None or self.has_blobs

    def is_encoded(self, text: str) -> bool:
        """Return whether a codec encoded a stored text, and this program has one."""
        return self.codec is not None and ENVELOPE.match(text) is not None

    def changes(self, text: str) -> bool:
        """Return whether the stored text of a value differs from its JSON."""
        return self.codec is not None or text.startswith(RESERVED)

    def encode(self, text: str) -> str:
        """Return the stored text of a value, given its JSON.

        Raises:
            NotSerializable: The codec failed.
        """
        if self.codec is None:
            return f"{ESCAPED}{text}}}" if text.startswith(RESERVED) else text
        try:
            data = base64.b64encode(self.codec.encode(text.encode())).decode()
        except Exception as error:  # of the codec: its message may contain the value
            raise NotSerializable(
                f"the codec could not encode it: {type(error).__name__}"
            ) from None
        return f'{{"$codec":"{data}"}}'

    def decode(self, text: str) -> str:
        """Return the JSON of a value, given its stored text.

        Raises:
            CannotDecode: The codec failed or is missing, or the text refers to a missing blob.
        """
        if not text.startswith(RESERVED):
            return text
        if text.startswith(ESCAPED):
            return text[len(ESCAPED) : -1]
        if text == ABSENT:
            raise CannotDecode("its value was not read from the store")
        if Reference.of(text):
            raise CannotDecode("its value is not in the blob store, or no blob store was given")
        envelope = ENVELOPE.match(text)
        if envelope is None:
            return text
        if self.codec is None:
            raise CannotDecode("it is encoded, and this program has no codec. Set codec=")
        try:
            return self.codec.decode(base64.b64decode(envelope[1])).decode()
        except Exception as error:
            raise CannotDecode(f"the codec could not decode it: {type(error).__name__}") from None

    def is_same(self, text: str, stored: str) -> bool:
        """Return whether two stored texts have the same value.

        A codec may encode a value differently each time. A large value is compared by its digest,
        since one of the texts may refer to the blob store.

        Args:
            text: A stored text that is not a reference.
            stored: Another stored text, or a reference to a blob.
        """
        if text == stored:
            return True
        try:
            value = self.decode(text)
            if reference := Reference.of(stored):
                return reference.is_of(value)
            return value == self.decode(stored)
        except CannotDecode:
            return False

    def encode_value(self, value: Any) -> Any:
        """Return the encoded form of a value that is a part of a stored value."""
        text = json.dumps(value, separators=(",", ":"))
        return json.loads(self.encode(text)) if self.changes(text) else value

    def decode_value(self, value: Any) -> Any:
        """Return the decoded form of a value that is a part of a stored value."""
        text = json.dumps(value, separators=(",", ":"))
        return json.loads(self.decode(text)) if text.startswith(RESERVED) else value

    def read(self, text: str) -> Any:
        """Return the value of a stored text. A reference to a blob is not followed.

        Raises:
            CannotDecode: As `decode`.
        """
        return json.loads(text if Reference.of(text) else self.decode(text))


def unescaped_value(value: Any) -> Any:
    """Return the parsed value of a stored text without its escape."""
    is_escaped = isinstance(value, dict) and [*value] == ["$plain"]
    return value["$plain"] if is_escaped else value


def unescaped(text: str) -> str:
    """Return a stored text without its escape, for display, still encoded."""
    return text[len(ESCAPED) : -1] if text.startswith(ESCAPED) else text


PLAIN = Payloads()


def checked(codec: Any, has_blobs: bool = False) -> Payloads:
    """Return the payloads of a store, after checking its argument `codec`.

    Raises:
        TypeError: It is not a codec.
    """
    if codec is not None:
        for name in ("encode", "decode"):
            if not callable(getattr(codec, name, None)):
                raise TypeError(
                    f"codec={type(codec).__name__}: must have the functions encode and decode, "
                    "each from bytes to bytes"
                )
    return PLAIN if codec is None and not has_blobs else Payloads(codec, has_blobs)
