"""Tokens with roles, sessions, and permissions of files that grant access."""

from __future__ import annotations

import dataclasses
import datetime
import enum
import hashlib
import hmac
import json
import os
import pathlib
import re
import secrets
import stat
import time
import tomllib
from collections import OrderedDict
from collections.abc import Callable, Collection, Iterable, Mapping
from typing import Any

from sagas.base.events import Event
from sagas.core.decisions import APPROVAL, Decision
from sagas.storage.filters import EVERYTHING, Scope

MAX_SESSIONS = 1000
RELOAD_INTERVAL = 1.0  # seconds between two looks at the token file
KEYS = (
    "name",
    "roles",
    "sha256",
    "definitions",
    "keys",
    "steps",
    "expires",
    "open_sagas",
    "open_bytes",
)
NAME = r"[a-z][a-z0-9_-]{0,31}"
DEFINITION = re.compile(NAME)
STEP = re.compile(rf"({NAME})/({NAME})(/undo)?")
"""A definition's step or its compensation, as workers request it."""
KEY = re.compile(r"(?!.*/:)[^*]{0,511}(?:[^*]|\*)")
"""A key, or with a `*` at the end a prefix of keys."""


class Permission(enum.Enum):
    """What a token can permit. Each route requires one of these."""

    LOOK = "read sagas"
    START = "start and abort sagas"
    APPROVE = "report how a step ended"
    WORK = "execute tasks"
    QUEUES = "read the queues of tasks"
    MEASURE = "read metrics"
    OPERATE = "resolve sagas and report any step"
    LOG_IN = "log in to the dashboard"
    BROWSE = "see the pages of sagas"


ROLES = {
    "caller": frozenset({Permission.LOOK, Permission.START}),
    "approver": frozenset({Permission.LOOK, Permission.APPROVE, Permission.LOG_IN}),
    "worker": frozenset({Permission.WORK, Permission.QUEUES}),
    "operator": frozenset(Permission),
    "metrics": frozenset({Permission.MEASURE}),
    "reader": frozenset({Permission.LOOK, Permission.QUEUES, Permission.LOG_IN, Permission.BROWSE}),
}
"""The permissions of each role."""
KEYED_ROLES = frozenset({"caller", "approver", "reader"})
"""The roles whose tokens may be restricted to keys."""
DECISIONS = {
    Decision.RETRY: Permission.OPERATE,
    Decision.COMPLETE: Permission.APPROVE,
    Decision.FAIL: Permission.APPROVE,
    Decision.ABORT: Permission.START,
    Decision.RESOLVE: Permission.OPERATE,
    Decision.COMPENSATE: Permission.OPERATE,
    Decision.RESTART: Permission.START,
    Decision.ERASE: Permission.OPERATE,
    Decision.DRAIN: Permission.OPERATE,
    Decision.UNDRAIN: Permission.OPERATE,
    Decision.PAUSE: Permission.OPERATE,
    Decision.RESUME: Permission.OPERATE,
}
"""What a token must permit for each decision. For reports of other steps than approvals see
`Principal.may_decide`.
"""
REPORTS = (Decision.COMPLETE, Decision.FAIL)


def roles_with(permission: Permission) -> list[str]:
    """Return the roles that have a permission."""
    return [role for role, permissions in ROLES.items() if permission in permissions]


class TokenFault(Exception):
    """The token file cannot be read. The text says where and why."""


@dataclasses.dataclass(frozen=True, slots=True)
class Limits:
    """Restrictions of a token. None: no restriction.

    Attributes:
        scope: The sagas that it may see.
        steps: The steps whose tasks it may claim.
        expires: When it expires.
        open_sagas: Its quota of open sagas. None: the service's default.
        open_bytes: Its quota of input bytes. None: the service's default.
    """

    scope: Scope = EVERYTHING
    steps: frozenset[str] | None = None
    expires: datetime.datetime | None = None
    open_sagas: int | None = None
    open_bytes: int | None = None


@dataclasses.dataclass(frozen=True, slots=True)
class Principal:
    """The owner of a token, with its roles and limits.

    An operator has the permissions of all other roles.
    """

    name: str
    roles: frozenset[str]
    digest: str = ""
    limits: Limits = Limits()

    def has_permission(self, permission: Permission) -> bool:
        """Return whether one of the roles has a permission."""
        return any(permission in ROLES[role] for role in self.roles)

    def may_decide(self, decision: Decision, reason: str) -> bool:
        """Return whether it may decide on an entry with this reason.

        An approver reports only approvals.
        """
        is_report = decision in REPORTS and reason != APPROVAL
        return self.has_permission(Permission.OPERATE if is_report else DECISIONS[decision])

    @property
    def definitions(self) -> frozenset[str] | None:
        """Return the definitions that it may see. None: all."""
        return self.scope.definitions

    @property
    def scope(self) -> Scope:
        """Return the sagas that it may see."""
        return self.limits.scope

    @property
    def is_unlimited(self) -> bool:
        """Return whether it may see all sagas."""
        return self.scope == EVERYTHING

    def sees(self, definition: str | None) -> bool:
        """Return whether it may see sagas of this definition.

        An event without a definition is visible only to principals that see all.
        """
        return self.scope.has_definition(definition)

    def sees_event(self, event: Event) -> bool:
        """Return whether it may see the saga of an event."""
        return self.scope.has_saga(event.saga, event.key)

    def does(self, step: str, ended: Mapping[str, str]) -> bool:
        """Return whether it may claim tasks of a step (`saga/step` or `saga/step/undo`).

        `ended`: the definition of the sagas that have ended, for each one that calls `on_end`.
        """
        definition = step.partition("/")[0]
        is_seen = self.sees(definition) or self.sees(ended.get(definition, definition))
        return is_seen and (self.limits.steps is None or step in self.limits.steps)

    @property
    def is_over(self) -> bool:
        """Return whether its token has expired."""
        return (
            self.limits.expires is not None
            and datetime.datetime.now(datetime.timezone.utc) >= self.limits.expires
        )


LOCAL_PRINCIPAL = Principal("local", frozenset(ROLES))
"""The principal of local connections without a token file."""


ANONYMOUS = Principal("nobody", frozenset())
"""The principal of requests that need no token. It has no permissions."""


def digest_of(token: str) -> str:
    return hashlib.sha256(token.encode(errors="replace")).hexdigest()


def read(path: pathlib.Path) -> dict[str, Principal]:
    """Read the token file: tables `[[token]]` with `name`, `roles` and `sha256`, the token's
    digest.

    Raises `TokenFault`.
    """
    return _tokens_in(path, _text_of(path))


def _text_of(path: pathlib.Path) -> str:
    """Return the file's text. Raises `TokenFault`."""
    try:
        check_mode(path)
        return path.read_text(encoding="utf-8")
    except (OSError, UnicodeDecodeError) as error:
        raise TokenFault(f"{path}: cannot be read: {error}") from error


def _tokens_in(path: pathlib.Path, text: str) -> dict[str, Principal]:
    """Return the tokens in the file's text, by digest. Raises `TokenFault`."""
    try:
        document = tomllib.loads(text)
    except tomllib.TOMLDecodeError as error:
        raise TokenFault(f"{path}: cannot be read: {error}") from error
    except RecursionError:
        raise TokenFault(f"{path}: cannot be read: too many lists in one another") from None
    entries = document.get("token", [])
    if set(document) - {"token"} or not isinstance(entries, list):
        raise TokenFault(f"{path}: only [[token]] tables are allowed")
    result: dict[str, Principal] = {}
    for number, entry in enumerate(entries, 1):
        try:
            principal = _read_one(entry)
        except ValueError as error:
            raise TokenFault(f"{path}: token {number}: {error}") from None
        result[principal.digest] = principal
    return result


def _read_one(entry: Any) -> Principal:
    """Return the principal of a table. Raises `ValueError`."""
    unknown = sorted(set(entry) - set(KEYS)) if isinstance(entry, dict) else ["?"]
    if unknown:  # a limit that is misspelt would be none
        raise ValueError(f"unknown key {unknown[0]!r}; the keys are {', '.join(KEYS)}")
    name, roles, digest = entry.get("name"), entry.get("roles"), entry.get("sha256")
    if not (isinstance(name, str) and 0 < len(name) <= 64 and name.isprintable()):
        raise ValueError("name must be a text of 1 to 64 printable characters")
    if not (
        isinstance(roles, list)
        and roles
        and all(isinstance(role, str) and role in ROLES for role in roles)
    ):
        raise ValueError(f"roles must be a list of one or more of {', '.join(ROLES)}")
    if not (
        isinstance(digest, str) and len(digest) == 64 and set(digest) <= set("0123456789abcdef")
    ):
        raise ValueError(
            "sha256 must be a digest of 64 hexadecimal digits, as `sagas token` writes it"
        )
    limits = limits_of(roles, entry)
    return Principal(name, frozenset(roles), digest, limits)


def limits_of(roles: Collection[str], table: Mapping[str, Any]) -> Limits:
    """Return the restrictions of a token with these roles. Raises `ValueError`."""
    names = _listed("definitions", table, DEFINITION, "names of definitions")
    keys = _listed("keys", table, KEY, "keys, or beginnings of keys with * at the end, without /:")
    steps = _listed("steps", table, STEP, "DEFINITION/STEP or DEFINITION/STEP/undo")
    quota = [_count(name, table, roles) for name in ("open_sagas", "open_bytes")]
    limits = Limits(Scope(names, keys), steps, _moment(table.get("expires")), *quota)
    if keys is not None and not KEYED_ROLES >= set(roles):
        raise ValueError(
            "keys can only restrict a token with the roles caller, approver and reader"
        )
    if limits.steps is not None and not {"worker", "operator"} & set(roles):
        raise ValueError("steps requires the role worker or operator")
    if names is not None and "metrics" in roles:
        raise ValueError(
            "definitions cannot restrict a token with the role metrics, "
            "because metrics cover all definitions"
        )
    return limits


def _listed(
    key: str, table: Mapping[str, Any], form: re.Pattern[str], description: str
) -> frozenset[str] | None:
    listed = table.get(key)
    if listed is None:
        return None
    if not (
        isinstance(listed, list)
        and listed
        and all(isinstance(text, str) and form.fullmatch(text) for text in listed)
    ):
        raise ValueError(f"{key} must be a list of one or more {description}")
    return frozenset(listed)


def _count(key: str, table: Mapping[str, Any], roles: Collection[str]) -> int | None:
    count = table.get(key)
    if count is None:
        return None
    if type(count) is not int or count < 0:
        raise ValueError(f"{key} must be an integer from 0")
    if not {"caller", "operator"} & set(roles):
        raise ValueError(f"{key} requires the role caller or operator")
    return count


def _moment(value: Any) -> datetime.datetime | None:
    """Return a moment with an offset from a TOML time or a text."""
    if value is None:
        return None
    try:
        moment = datetime.datetime.fromisoformat(value) if isinstance(value, str) else value
    except ValueError:
        moment = None
    if not isinstance(moment, datetime.datetime) or moment.tzinfo is None:
        raise ValueError("expires must be a time with an offset, for example 2027-01-01T00:00:00Z")
    return moment


def make(path: pathlib.Path, name: str, roles: list[str], limits: Limits = Limits()) -> str:
    """Create a token and append its digest to the file. Returns the token, which is not stored.

    A new file is readable only by its user. Symbolic links are not followed.

    Raises:
        TokenFault: The file is invalid, or would become invalid. It is unchanged.
        OSError: The file cannot be written.
    """
    token = f"sagas_{secrets.token_urlsafe(32)}"
    if path.is_symlink():
        raise TokenFault(f"{path}: this is a symbolic link; name the file itself")
    text = _text_of(path) if path.exists() else ""
    quoted = name.replace("\\", "\\\\").replace('"', '\\"')
    lines = [
        "[[token]]",
        f'name = "{quoted}"',
        f"roles = {_list_of(roles)}",
        f'sha256 = "{digest_of(token)}"',
    ]
    scope = limits.scope
    for key, values in (
        ("definitions", scope.definitions),
        ("keys", scope.keys),
        ("steps", limits.steps),
    ):
        lines += [f"{key} = {_list_of(sorted(values))}"] if values is not None else []
    lines += [f"expires = {limits.expires.isoformat()}"] if limits.expires else []
    for key, count in (("open_sagas", limits.open_sagas), ("open_bytes", limits.open_bytes)):
        lines += [f"{key} = {count}"] if count is not None else []
    separator = "\n" if text and not text.endswith("\n") else ""  # editors may leave it out
    added = separator + "\n".join(lines) + "\n\n"
    _tokens_in(path, text + added)
    fd = os.open(path, os.O_WRONLY | os.O_CREAT | os.O_APPEND | os.O_NOFOLLOW, 0o600)
    with os.fdopen(fd, "w", encoding="utf-8") as file:
        file.write(added)
    return token


def _list_of(texts: Iterable[str]) -> str:
    return json.dumps([*texts], ensure_ascii=False)


class Tokens:
    """The tokens of a file. A changed file is read again.

    If the file becomes unreadable, the previous tokens stay valid, and the file is read again
    at each check. A repair need not change the file's time stamp: `chown` does not.
    """

    def __init__(self, path: pathlib.Path, complain: Callable[[str], None]) -> None:
        self.path, self._complain, self._fault = path, complain, ""
        self._looked, self._stamp = 0.0, self._stamp_now()
        self._principals = read(path)

    def _stamp_now(self) -> tuple[int, int, int]:
        try:
            status = self.path.stat()
        except OSError:
            return 0, 0, 0
        return status.st_mtime_ns, status.st_size, status.st_ino

    def find(self, token: str) -> Principal | None:
        """Return the owner of a token.

        Tokens are compared by digest, so response times reveal nothing about a token.
        """
        return self.of(digest_of(token))

    def of(self, digest: str) -> Principal | None:
        """Return the owner of the token with this digest, or None if it is not valid."""
        principal = self._of(digest)
        return None if principal is None or principal.is_over else principal

    def has_expired(self, token: str) -> bool:
        """Return whether it is a known token that has expired."""
        principal = self._of(digest_of(token))
        return principal is not None and principal.is_over

    def _of(self, digest: str) -> Principal | None:
        now = time.monotonic()
        if now - self._looked > RELOAD_INTERVAL:
            self._looked = now
            stamp = self._stamp_now()
            if stamp == self._stamp:
                self._fault = ""
            else:
                self._again(stamp)
        return self._principals.get(digest)

    def _again(self, stamp: tuple[int, int, int]) -> None:
        try:
            self._principals, self._stamp, self._fault = read(self.path), stamp, ""
        except TokenFault as fault:
            if str(fault) != self._fault:
                self._complain(f"{fault}; the previous tokens stay valid until it is fixed")
            self._fault = str(fault)


@dataclasses.dataclass(slots=True)
class Session:
    """A dashboard session. `csrf` is sent with each form."""

    principal: Principal
    csrf: str
    until: float

    def owns_form(self, csrf: str) -> bool:
        """Return whether a form belongs to this session."""
        return hmac.compare_digest(self.csrf.encode(), csrf.encode(errors="replace"))


class Sessions:
    """The dashboard's sessions, in memory. A restart ends them. If there are too many, the oldest
    ends.
    """

    def __init__(self, seconds: float) -> None:
        self.seconds = seconds
        self._sessions: OrderedDict[str, Session] = OrderedDict()

    def begin(self, principal: Principal) -> tuple[str, Session]:
        """Start a session. Returns the cookie's value and the session."""
        name = secrets.token_urlsafe(32)
        session = self._sessions[digest_of(name)] = Session(
            principal, secrets.token_urlsafe(32), time.monotonic() + self.seconds
        )
        while len(self._sessions) > MAX_SESSIONS:
            self._sessions.popitem(last=False)
        return name, session

    def find(self, name: str) -> Session | None:
        """Return the session of a cookie, or None."""
        session = self._sessions.get(digest_of(name))
        if session and session.until < time.monotonic():
            self.end(name)
            return None
        return session

    def end(self, name: str) -> None:
        self._sessions.pop(digest_of(name), None)


# -- files that grant access


OTHERS_WRITE, OTHERS_READ, GROUP_WRITES = stat.S_IWOTH, stat.S_IROTH, stat.S_IWGRP


def check_mode(path: pathlib.Path) -> None:
    """Raise `PermissionError` if every user of the machine can write a file."""
    mode = os.stat(path).st_mode
    if mode & OTHERS_WRITE:
        raise PermissionError(f"every user may write it (mode {mode & 0o777:04o}): run chmod o-w")


def mode_warning(path: pathlib.Path) -> str | None:
    """Return a warning about the mode of a file that is still usable, or None."""
    try:
        mode = os.stat(path).st_mode
    except OSError:
        return None
    if not mode & (OTHERS_READ | GROUP_WRITES):
        return None
    problem = "every user may read it" if mode & OTHERS_READ else "its group may write it"
    return (
        f"{path}: {problem} (mode {mode & 0o777:04o}). Run chmod 600, or 640 for a group that reads"
    )
