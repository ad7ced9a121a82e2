"""A PostgreSQL server of the tests' own: a folder, a socket and a port, freed at the end."""

from __future__ import annotations

import atexit
import contextlib
import functools
import glob
import os
import pathlib
import shutil
import socket
import subprocess
import tempfile
import time
import uuid
from collections.abc import Iterator

import psycopg

from sagas.cli import store_command

OTHER = 65534
"""The user of the server if this process is root's: the server refuses to run as root."""


def folder_of_programs() -> pathlib.Path:
    """Return the folder of `initdb` and `postgres`: of Debian's package, or of the path."""
    for folder in sorted(glob.glob("/usr/lib/postgresql/*/bin"), reverse=True):
        if os.access(f"{folder}/initdb", os.X_OK):
            return pathlib.Path(folder)
    initdb = shutil.which("initdb")
    if not initdb:
        raise FileNotFoundError("initdb is missing: apt-get install postgresql")
    return pathlib.Path(initdb).parent


def free_port() -> int:
    """Return a port that no process uses."""
    with socket.socket() as connection:
        connection.bind(("127.0.0.1", 0))
        return int(connection.getsockname()[1])


@functools.cache
def made() -> pathlib.Path:
    """Return the files of a new server, made once by this process: each server has a copy
    of them.
    """
    folder = pathlib.Path(tempfile.mkdtemp(prefix="sagas-pg-", dir="/tmp"))
    atexit.register(shutil.rmtree, folder, ignore_errors=True)
    folder.chmod(0o755)
    server = Server(folder / "new")
    server.take_ownership()
    options = ["-U", "owner", "-A", "trust", "-E", "UTF8", "--no-locale", "--no-sync"]
    server.run("initdb", "-D", str(server.folder / "data"), *options)
    return server.folder / "data"


class Server:
    """A server that can be stopped and started; each test has its own database on it."""

    def __init__(self, folder: pathlib.Path, settings: dict[str, str] | None = None) -> None:
        self.folder, self.port, self._started = folder, free_port(), False
        self._settings = {"fsync": "off", "max_connections": "200", "log_min_messages": "fatal"} | (
            settings or {}
        )

    def take_ownership(self) -> None:
        """Make its folder, which belongs to its user."""
        self.folder.mkdir(parents=True, exist_ok=True)
        if os.geteuid() == 0:
            os.chown(self.folder, OTHER, OTHER)

    def make(self) -> None:
        """Make its files."""
        self.take_ownership()
        subprocess.run(["cp", "-a", str(made()), str(self.folder / "data")], check=True)

    def copy(self, primary: Server) -> None:
        """Make its files those of another server; it will start as the standby of that one."""
        self.take_ownership()
        options = [
            "-D",
            str(self.folder / "data"),
            "-h",
            "127.0.0.1",
            "-p",
            str(primary.port),
            "-U",
            "owner",
            "-R",
            "-X",
            "stream",
            "-c",
            "fast",
            "--no-sync",
        ]
        self.run("pg_basebackup", *options)

    def promote(self) -> None:
        """Promote the standby: it accepts writes from now on."""
        self.run("pg_ctl", "-D", str(self.folder / "data"), "-w", "-t", "180", "promote")

    def _as_other(self, name: str, *arguments: str) -> list[str]:
        first = (
            ["setpriv", f"--reuid={OTHER}", f"--regid={OTHER}", "--clear-groups"]
            if os.geteuid() == 0
            else []
        )
        return [*first, str(folder_of_programs() / name), *arguments]

    def run(self, name: str, *arguments: str) -> None:
        """Run one of PostgreSQL's programs, as the user of the server."""
        # a file: the server keeps its standard output
        with open(
            self.folder.parent / f"{self.folder.name}.said", "w+", encoding="utf-8"
        ) as output:
            done = subprocess.run(
                self._as_other(name, *arguments), stdout=output, stderr=output, cwd="/", check=False
            )
            if done.returncode:
                output.seek(0)
                raise RuntimeError(f"{name}: {output.read()}")

    def start(self) -> None:
        """Start it, and wait until it answers.

        It is not a child of this process. At its first start it takes another port if its own is
        used.
        """
        for turn in range(3):
            try:
                self._start()
                break
            except RuntimeError:
                if self._started or turn == 2:
                    raise
                self.port = free_port()
        self._started = True

    def _start(self) -> None:
        settings = {
            "listen_addresses": "127.0.0.1",
            "port": str(self.port),
            "unix_socket_directories": str(self.folder),
        } | self._settings
        options = " ".join(f"-c {name}={value}" for name, value in settings.items())
        options_of_files = ["-D", str(self.folder / "data"), "-l", str(self.folder / "output")]
        self.run("pg_ctl", *options_of_files, "-o", options, "-w", "-t", "180", "start")

    def stop(self, mode: str = "immediate") -> None:
        """Stop it: `fast`, or `immediate` as if its machine had failed."""
        if (self.folder / "data" / "postmaster.pid").exists():
            data = str(self.folder / "data")
            self.run("pg_ctl", "-D", data, "-m", mode, "-w", "-t", "180", "stop")

    def url(self, database: str, user: str = "owner", port: int | None = None) -> str:
        """Return the address of a database."""
        return f"postgresql://{user}@127.0.0.1:{port or self.port}/{database}"

    def create(self, template: str = "template1") -> str:
        """Create a database and return its address. A template must have no connections."""
        name = f"t{uuid.uuid4().hex}"
        with psycopg.connect(self.url("postgres"), autocommit=True) as link:
            link.execute(f"CREATE DATABASE {name} TEMPLATE {template}")
        return self.url(name)

    def as_user(self, url: str) -> str:
        """Make a store in a database, and return its address for a new user.

        The user has only the rights that a program over it needs.
        """
        with psycopg.connect(url, autocommit=True) as link:
            if link.execute("SELECT 1 FROM pg_roles WHERE rolname = 'app'").fetchone() is None:
                link.execute("CREATE ROLE app LOGIN")
        assert store_command.main([url, "init", "--role", "app"]) == 0
        return self.url(url.rpartition("/")[2], user="app")

    def drop(self, url: str) -> None:
        """Drop a database, with any connections to it."""
        name = url.rpartition("/")[2]
        with psycopg.connect(self.url("postgres"), autocommit=True) as link:
            link.execute(f"DROP DATABASE IF EXISTS {name} WITH (FORCE)")

    def back_up(self, url: str) -> pathlib.Path:
        """Make a backup of a database that may be in use."""
        backup = self.folder / f"{uuid.uuid4().hex}.backup"
        self.run("pg_dump", "-Fc", "-f", str(backup), url)
        return backup

    def snapshot(self, url: str) -> pathlib.Path:
        """Copy all its files, as of a machine that is off."""
        self.stop()
        snapshot = self.folder / f"{uuid.uuid4().hex}.snapshot"
        subprocess.run(["cp", "-a", str(self.folder / "data"), str(snapshot)], check=True)
        self.start()
        return snapshot

    def go_back(self, url: str, snapshot: pathlib.Path) -> None:
        """Replace its files by a copy."""
        self.stop()
        shutil.rmtree(self.folder / "data")
        snapshot.rename(self.folder / "data")
        self.start()

    def restore(self, url: str, backup: pathlib.Path) -> None:
        """Replace a database by a backup, despite any connections to it."""
        name, restored = url.rpartition("/")[2], self.create()
        self.run("pg_restore", "-d", restored, str(backup))
        self.drop(url)
        with psycopg.connect(self.url("postgres"), autocommit=True) as link:
            link.execute(f"ALTER DATABASE {restored.rpartition('/')[2]} RENAME TO {name}")


@contextlib.contextmanager
def serving(
    settings: dict[str, str] | None = None, inside: pathlib.Path | None = None
) -> Iterator[Server]:
    """Run a server in its own folder, or one below `inside`, until the block ends."""
    with _folder(inside) as folder:
        server = Server(folder / "server", settings)
        try:
            server.make()
            server.start()
            yield server
        finally:
            server.stop()


@contextlib.contextmanager
def _folder(inside: pathlib.Path | None = None) -> Iterator[pathlib.Path]:
    folder = pathlib.Path(tempfile.mkdtemp(prefix="sagas-pg-", dir=inside or "/tmp"))
    folder.chmod(0o755)
    try:
        yield folder
    finally:
        shutil.rmtree(folder, ignore_errors=True)


class Pair:
    """A primary and its standby, and one address for whichever takes writes."""

    def __init__(self, primary: Server, standby: Server) -> None:
        self.primary, self.standby = primary, standby

    def ask(self, text: str) -> list[tuple[object, ...]]:
        """Execute a statement on the primary."""
        with psycopg.connect(self.primary.url("postgres"), autocommit=True) as link:
            cursor = link.execute(text)  # type: ignore[arg-type]
            return cursor.fetchall() if cursor.description else []

    def url(self, database: str) -> str:
        """Return the address of a database, with both hosts."""
        hosts = f"127.0.0.1:{self.primary.port},127.0.0.1:{self.standby.port}"
        return f"postgresql://owner@{hosts}/{database}?target_session_attrs=read-write"

    def hold_back(self) -> None:
        """Let the standby have everything up to now, and nothing that comes later."""
        ((now,),) = self.ask("SELECT pg_current_wal_flush_lsn()")
        with psycopg.connect(self.standby.url("postgres"), autocommit=True) as link:
            until = time.monotonic() + 60
            while link.execute(
                "SELECT pg_last_wal_replay_lsn() >= %s::pg_lsn", (now,)
            ).fetchone() != (True,):
                if time.monotonic() > until:
                    raise TimeoutError("the standby does not follow")
                time.sleep(0.02)
            link.execute("ALTER SYSTEM SET primary_conninfo = ''")
            link.execute("SELECT pg_reload_conf()")
        while self.ask("SELECT 1 FROM pg_stat_replication"):
            time.sleep(0.02)

    def fail_over(self) -> None:
        """Let the primary fail and its standby take over."""
        self.primary.stop("immediate")
        self.standby.promote()


@contextlib.contextmanager
def paired(synchronous: bool) -> Iterator[Pair]:
    """Run a server and its standby.

    With a synchronous one no commit is acknowledged before the standby has it.
    """
    with serving() as primary, _folder() as folder:
        standby = Server(folder / "standby")
        pair = Pair(primary, standby)
        try:
            standby.copy(primary)
            standby.start()
            if synchronous:
                pair.ask("ALTER SYSTEM SET synchronous_standby_names = '*'")
                pair.ask("SELECT pg_reload_conf()")
            wanted, until = "sync" if synchronous else "async", time.monotonic() + 60
            while pair.ask("SELECT sync_state FROM pg_stat_replication") != [(wanted,)]:
                if time.monotonic() > until:
                    raise TimeoutError(f"the standby is not {wanted}")
                time.sleep(0.05)
            yield pair
        finally:
            standby.stop()
