"""The name of a store: the path of a file, or the URL of a database."""

from __future__ import annotations

import os
import re
import socket

from sagas.base.errors import InvalidStore

SCHEMES = ("postgresql:", "postgres:")
FORM = "postgresql://user@host/database"
BETWEEN = re.compile(r",(?=postgres(?:ql)?:)")
"""Between two URLs."""
NO_FILE = re.compile(
    r"(?P<scheme>[a-z][a-z0-9+.:-]*)://|(?P<url>postgres(?:ql)?(?::|//|/[^/]*@))"
    r"|(?:host|hostaddr|port|dbname|user|password|passfile|service)\s*=|\w+\s*=.*\s\w+\s*=",
    re.IGNORECASE | re.DOTALL,
)
"""Names that are meant for a database, and are not a valid URL of one."""


def urls_of(name: str) -> list[str]:
    """Return the databases that an argument of a command names: `URL,URL`, or one.

    A URL with several hosts has commas, too.
    """
    return BETWEEN.split(name)


def is_url(name: str) -> bool:
    """Whether a name is that of a PostgreSQL database, and not of a file."""
    return name.startswith(SCHEMES)


def supports_nodes(name: str) -> bool:
    """Whether several programs, the nodes, can open a store of this name at the same time."""
    return is_url(name)


def node_name(name: str | None) -> str:
    """Return the name of a node: the given one, or one of this machine and process."""
    return name or f"{socket.gethostname()}-{os.getpid()}"


def shown_name(name: str) -> str:
    """Return a name for messages: the path of a file, but never a URL, which has a password."""
    return "PostgreSQL" if is_url(name) else name


def check_name(name: str) -> None:
    """Check that a name is the path of a file, or the URL of a PostgreSQL database.

    Raises `InvalidStore`, which says what to write instead. It repeats no text that may have a
    password.
    """
    if is_url(name):
        return
    if not name or name == ":memory:" or name.startswith("file:"):
        raise InvalidStore(
            f"{name}: must be the path of a file. In memory, for a test: sagas.testing.run"
        )
    text = name.strip()
    match = NO_FILE.match(text)
    if match and match["scheme"] == "sqlite":
        raise InvalidStore(
            f"{name}: name a SQLite store by its path: "
            f"{text[len('sqlite://'):].removeprefix('/')}"
        )
    if match:
        form = f"{match['scheme']}://" if match["scheme"] else "a list of words"
        if match["url"] or is_url(text):
            form = "a URL after a space" if is_url(text) else "a misspelled URL"
        raise InvalidStore(f"{form}: a store is an SQLite file, or {FORM}")


def missing_client(error: ImportError) -> ImportError:
    """Return the error for a missing PostgreSQL client, with what to install."""
    if error.name is None:  # psycopg is installed, but does not find libpq
        return ImportError(
            f"PostgreSQL: {str(error).splitlines()[0]} psycopg needs libpq: apt-get install "
            "libpq5, or pip install 'psycopg[binary]'"
        )
    return ImportError(
        f"PostgreSQL needs {error.name}. Run pip install 'sagas[postgresql]', or apt-get install "
        "python3-psycopg python3-psycopg-pool",
        name=error.name,
    )
