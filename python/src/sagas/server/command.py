"""The commands `sagas serve` and `sagas token`.

`sagas serve STORE --definitions DIR` runs the coordinator as a service. `sagas token FILE NAME
ROLE...` creates a token for it.
"""

from __future__ import annotations

import argparse
import asyncio
import contextlib
import datetime
import errno
import functools
import gc
import ipaddress
import logging
import os
import pathlib
import re
import socket
import sys
from collections.abc import Iterator
from typing import Any

from sagas.api.app import App, load_app
from sagas.api.database_set import checked_direct
from sagas.api.settings import DEFAULTS
from sagas.base import options as options_module
from sagas.base.errors import DefinitionError, InvalidStore, SagasError
from sagas.base.options import age, integer_from, positive
from sagas.definition.payloads import MIN_THRESHOLD
from sagas.definition import arguments, definition_files, payloads
from sagas.definition.payloads import check_blobs
from sagas.definition.saga import Saga
from sagas.server import auth, log_format, processes
from sagas.server.settings import (
    LOOPBACK,
    ConcurrencySettings,
    Network,
    Quota,
    Settings,
    StoreSettings,
    StreamSettings,
    WebhookSettings,
    is_loopback,
)
from sagas.server.siblings import Position, Siblings, State, sockets_of_process
from sagas.server.webhooks import WebhookFault
from sagas.storage import folder_blobs, store_name

GOOD, NO, USAGE, CANNOT, OVERDUE, INTERRUPTED = 0, 1, 2, 4, 5, 130
GARBAGE = 5000
"""Net allocations before Python's cycle collector runs. Requests leave few cycles, and the default
of 700 costs a sixth of the processor's time.
"""
SWITCH = 0.0005
"""Seconds after which a computing thread yields to the event loop. With the default of 0.005, a
small request waits for that several times.
"""
BACKLOG = 2048
"""Connections that wait until the service accepts them."""
PACKAGES = "python3-starlette, python3-uvicorn, python3-jinja2 and python3-prometheus-client"


CONCURRENCY_OPTIONS = (
    ("--most-waits", 200, "requests of one token that wait for a saga"),
    ("--most-claims", 200, "claims of one token at once"),
    ("--most-streams", 50, "event streams of one token"),
    ("--most-token-connections", 500, "connections of one token with a request"),
    ("--most-address-connections", 1000, "connections of one address, except of trusted proxies"),
)
"""Options for limits on concurrency. Without a token file, they apply to each address."""


class Trouble(Exception):
    """An error that ends the command with a line on standard error."""


SERVE_ENDING = """\
Example:
  sagas serve shop.db --definitions definitions --token-file tokens.toml

Exit status:
  0    stopped by SIGTERM or Ctrl-C
  1    a definition is invalid
  2    invalid arguments, the address is in use, or sagas[server] is not installed
  4    the store, the token file or the webhook file cannot be used, also after --wait; or one of
       several processes dies again and again
  5    the stop took too long
  130  interrupted while it starts"""
TOKEN_ENDING = """\
Example:
  sagas token tokens.toml cars worker --step trip/car

Exit status:
  0    done
  2    invalid arguments
  4    the token file cannot be read or written"""


def parser() -> argparse.ArgumentParser:
    """Return the parser of `sagas serve`."""
    result = argparse.ArgumentParser(
        prog="sagas serve",
        description="Serve a store over HTTP: sagas, tasks for workers, and a dashboard.",
        epilog=SERVE_ENDING,
        formatter_class=argparse.RawDescriptionHelpFormatter,
    )
    store = (
        "SQLite file, created if missing, or postgresql:// URL for one or more services; of "
        "several databases: URL,URL"
    )
    result.add_argument("path", metavar="STORE", help=store)
    add_sagas(result)
    add_access(result)
    add_limits(result)
    add_nodes(result)
    result.add_argument(
        "--log",
        choices=["json", "text"],
        default="json",
        help="format of the log (default: json)",
    )
    result.add_argument(
        "--log-file",
        type=pathlib.Path,
        metavar="FILE",
        help="file for the log, opened again at SIGHUP (default: standard error)",
    )
    result.add_argument(
        "--log-level",
        choices=["debug", "info", "warning", "error"],
        default="info",
        help="least severity that is logged (default: info)",
    )
    return result


OF_APP = "default: that of a store of --app,"


def add_nodes(result: argparse.ArgumentParser) -> None:
    """Add the options of a store over PostgreSQL."""
    result.add_argument(
        "--node",
        metavar="NAME",
        help="PostgreSQL only: name of this service; a restart under the same name continues its "
        "sagas at once (default: made of host and process)",
    )
    result.add_argument(
        "--lease",
        type=positive,
        metavar="SECONDS",
        help="PostgreSQL only: seconds without a heartbeat before other services take over its "
        f"sagas ({OF_APP} or 10)",
    )
    result.add_argument(
        "--processes",
        type=integer_from(1),
        default=1,
        metavar="N",
        help="PostgreSQL only: number of processes on one port, each with a node (default: 1)",
    )
    result.add_argument(
        "--direct-url",
        metavar="URL",
        help="PostgreSQL only: URL of the server itself, if STORE is a pooler that pools "
        f"transactions ({OF_APP} or none)",
    )
    result.add_argument(
        "--wait",
        type=positive,
        metavar="SECONDS",
        help="PostgreSQL only: wait this long for the database at the start (default: 0, it must "
        "answer at once)",
    )
    result.add_argument(
        "--record",
        metavar="FILE",
        help="PostgreSQL only: file for a record of commits and acknowledgements, "
        "for `sagas store URL record` (default: $SAGAS_RECORD, or none)",
    )


def add_sagas(result: argparse.ArgumentParser) -> None:
    """Add the options for what is served."""
    result.add_argument(
        "--definitions",
        type=pathlib.Path,
        metavar="DIR",
        help="directory of definitions NAME.toml, whose steps external workers execute",
    )
    result.add_argument(
        "--app",
        metavar="MODULE:NAME",
        help="a saga, a list of sagas, or a store made by sagas.open; the service executes its "
        "steps",
    )
    result.add_argument(
        "--concurrency",
        type=integer_from(1),
        metavar="N",
        help=f"maximum number of functions of --app that run at once ({OF_APP} or 16)",
    )
    result.add_argument(
        "--context",
        metavar="MODULE:NAME",
        help="what functions of --app get as task.context: an object, or a function that returns a "
        f"context manager ({OF_APP} or none)",
    )
    result.add_argument(
        "--retention",
        type=age,
        metavar="TIME",
        help="delete sagas that ended this long ago, for example 30d or 12h "
        f"({OF_APP} or never)",
    )
    result.add_argument(
        "--archive-dir",
        metavar="DIR",
        help="with --retention: first write what is deleted into DIR, each shard into its own "
        f"subfolder ({OF_APP} or none)",
    )
    add_values(result)
    add_webhooks(result)


def add_values(result: argparse.ArgumentParser) -> None:
    """Add the options that say how values are stored."""
    result.add_argument(
        "--codec",
        metavar="MODULE:NAME",
        help=f"codec that encodes stored inputs and results ({OF_APP} or none)",
    )
    result.add_argument(
        "--blobs",
        metavar="DIR|MODULE:NAME",
        help="where large inputs and results are kept: a directory, or a blob store of a module "
        f"({OF_APP} or the database)",
    )
    result.add_argument(
        "--blob-threshold",
        type=integer_from(1),
        metavar="BYTES",
        help=f"size above which --blobs keeps a value ({OF_APP} or 65536)",
    )


def add_webhooks(result: argparse.ArgumentParser) -> None:
    """Add the options of webhooks."""
    result.add_argument(
        "--webhooks",
        type=pathlib.Path,
        metavar="FILE",
        help="file that says where to post events of sagas (default: none)",
    )
    result.add_argument(
        "--local-webhooks",
        action="store_true",
        help="allow --webhooks to post to loopback and link-local addresses (default: no)",
    )


def add_access(result: argparse.ArgumentParser) -> None:
    """Add the options for the address and for access."""
    result.add_argument(
        "--listen",
        default="127.0.0.1:8080",
        metavar="HOST:PORT",
        help="address to listen on (default: 127.0.0.1:8080)",
    )
    result.add_argument(
        "--token-file",
        type=pathlib.Path,
        metavar="FILE",
        help="file of tokens and their roles, see `sagas token --help` (default: none; the service "
        "then accepts local connections only)",
    )
    result.add_argument(
        "--trusted-proxies",
        type=networks_of,
        default=LOOPBACK,
        metavar="NETWORKS",
        help="comma-separated networks of proxies whose X-Forwarded-For and X-Forwarded-Proto are "
        'trusted; "" for none (default: 127.0.0.0/8,::1/128)',
    )


def add_limits(result: argparse.ArgumentParser) -> None:
    """Add the options for limits of requests."""
    result.add_argument(
        "--most-body",
        dest="max_body",
        type=integer_from(1),
        default=1 << 20,
        metavar="BYTES",
        help="maximum size of a request body (default: 1048576)",
    )
    result.add_argument(
        "--most-connections",
        dest="max_connections",
        type=integer_from(1),
        default=2000,
        metavar="N",
        help="maximum number of connections (default: 2000)",
    )
    for option, default, counted in CONCURRENCY_OPTIONS:
        result.add_argument(
            option,
            dest=option.removeprefix("--").replace("most-", "max_").replace("-", "_"),
            type=integer_from(1),
            default=default,
            metavar="N",
            help=f"maximum number of {counted} (default: {default})",
        )
    result.add_argument(
        "--kept-connections",
        type=integer_from(0),
        default=50,
        metavar="N",
        help="connections kept for health and operators, at most a quarter of all (default: 50)",
    )
    result.add_argument(
        "--rate",
        type=positive,
        default=5000.0,
        metavar="N",
        help="maximum number of requests per second for each token, or for each address if there "
        "is no token file (default: 5000)",
    )
    result.add_argument(
        "--open-sagas",
        type=integer_from(0),
        default=Quota().sagas,
        metavar="N",
        help="maximum number of open sagas that each token started, unless the token file "
        "has another value (default: 10000)",
    )
    result.add_argument(
        "--open-bytes",
        type=integer_from(0),
        default=Quota().bytes,
        metavar="BYTES",
        help="maximum size of their inputs as JSON, in all (default: 1073741824)",
    )


def networks_of(text: str) -> tuple[Network, ...]:
    """Return comma-separated networks or addresses. Raises `argparse.ArgumentTypeError`."""
    try:
        return tuple(
            ipaddress.ip_network(network.strip()) for network in text.split(",") if network.strip()
        )
    except ValueError as error:
        raise argparse.ArgumentTypeError(
            f"{error}; use networks or addresses, for example 10.0.0.0/8,192.0.2.7"
        ) from error


def listen_of(text: str) -> tuple[str, int]:
    """Return host and port. Raises `Trouble`."""
    host, separator, port = text.rpartition(":")
    if not separator or not re.fullmatch("[0-9]{1,5}", port) or int(port) > 65535:
        raise Trouble(f"invalid --listen {text!r}: use HOST:PORT, for example 127.0.0.1:8080")
    return host.strip("[]") or "127.0.0.1", int(port)


def loaded(option: str, location: str) -> Any:
    """Return the value of a name in a module. Raises `Trouble`."""
    try:
        return options_module.load_reference(option, location)
    except ValueError as error:
        raise Trouble(str(error)) from error


def blobs_of(location: str | None) -> Any:
    """Return the blob store of an option. Raises `Trouble`."""
    try:
        return None if location is None else folder_blobs.blobs_of(location)
    except ValueError as error:
        raise Trouble(str(error)) from error


def app_of(location: str | None) -> App | None:
    """Return what a module provides for the service. Raises `Trouble`."""
    if location is None:
        return None
    try:
        app = load_app(location)
        settings = app.options.get("settings", DEFAULTS)
        if not app.options.get("accept_new", True) or settings.clock is not DEFAULTS.clock:
            raise ValueError(
                f"--app {location}: its store has accept_new=False or a clock in its settings, "
                "which a service cannot have. Leave it out, or name a list of sagas"
            )
    except ValueError as error:
        raise Trouble(str(error)) from error
    return app


def options_of(parsed: argparse.Namespace, app: App | None) -> dict[str, Any]:
    """Return the options of the store: those of the command, else those of a store of `--app`.

    Raises `Trouble`.
    """
    result = dict(app.options) if app else {}
    set_options = {
        "concurrency": parsed.concurrency,
        "codec": parsed.codec and loaded("--codec", parsed.codec),
        "context": parsed.context and loaded("--context", parsed.context),
        "blobs": blobs_of(parsed.blobs),
        "blob_threshold": parsed.blob_threshold,
        "retention": None
        if parsed.retention is None
        else datetime.timedelta(seconds=parsed.retention),
        "archive_dir": parsed.archive_dir,
        "node": parsed.node,
        "lease": parsed.lease,
        "record": parsed.record,
        "direct_url": parsed.direct_url,
    }
    result |= {name: value for name, value in set_options.items() if value is not None}
    try:
        payloads.checked(result.get("codec"))
        check_blobs(result.get("blobs"), result.get("blob_threshold", MIN_THRESHOLD))
        arguments.keeping(result.get("retention"), result.get("archive_dir"))
        if (direct := result.get("direct_url")) is not None:
            urls = store_name.urls_of(direct) if isinstance(direct, str) else direct
            for url in checked_direct(urls, len(store_name.urls_of(parsed.path))):
                arguments.url("--direct-url", url)
    except (TypeError, ValueError) as error:
        raise Trouble(str(error)) from error
    return result


def check_file(parsed: argparse.Namespace) -> None:
    """Raise `Trouble` if the store is not a file that can be opened with these options."""
    only_server = {
        "--record": parsed.record,
        "--wait": parsed.wait,
        "--direct-url": parsed.direct_url,
        "--processes": parsed.processes > 1,
    }
    for option, value in only_server.items():
        if value:
            raise Trouble(f"{option} requires a postgresql:// URL")
    file = pathlib.Path(parsed.path)
    if file.is_dir():
        raise Trouble(f"{file} is a directory; pass the path of a file")
    if not file.absolute().parent.is_dir():
        raise Trouble(f"directory {file.parent} does not exist; create it first")


def check_access(parsed: argparse.Namespace) -> None:
    """Raise `Trouble` if users without a token could have access."""
    host, port = listen_of(parsed.listen)
    if parsed.token_file is not None and not parsed.token_file.exists():
        raise Trouble(
            f"--token-file {parsed.token_file}: file does not exist; create it with "
            f"`sagas token {parsed.token_file} NAME operator`"
        )
    if parsed.token_file is None and not is_loopback(host):
        raise Trouble(
            f"--listen {parsed.listen}: without --token-file, only a loopback address is "
            "allowed; "
            f"use 127.0.0.1:{port}, or create a file with `sagas token FILE NAME operator`"
        )


def check_store(parsed: argparse.Namespace) -> None:
    """Raise `Trouble` if the store cannot be opened with these options."""
    try:
        for name in store_name.urls_of(parsed.path):
            store_name.check_name(name)
    except InvalidStore as error:
        raise Trouble(str(error)) from error
    if not store_name.supports_nodes(parsed.path):
        check_file(parsed)


def name_process(options: dict[str, Any], position: Position) -> None:
    """Set the names that each of several processes has for itself."""
    options["node"] = f"{options.get('node') or position.node}-{position.number}"
    if "record" in options:
        options["record"] = f"{options['record']}.{position.number}"


def settings_of(parsed: argparse.Namespace, siblings: Siblings | None = None) -> Settings:
    """Return the settings from the parsed arguments. Raises `Trouble`, `DefinitionError`."""
    host, port = listen_of(parsed.listen)
    check_access(parsed)
    sagas = definition_files.read(parsed.definitions) if parsed.definitions else []
    app = app_of(parsed.app)
    sagas += app.sagas if app else []
    if not sagas:
        raise Trouble("nothing to serve: pass --definitions DIR or --app MODULE:NAME")
    check_store(parsed)
    options = options_of(parsed, app)
    if siblings:
        name_process(options, siblings.position)
    seconds, on_event = options.pop("shutdown_timeout", None), options.pop("on_event", None)
    more: dict[str, Any] = {}
    if seconds is not None:
        more["shutdown_timeout"] = arguments.time("shutdown_timeout", seconds, none=False)
    return Settings(
        parsed.path,
        sagas,
        host,
        port,
        parsed.token_file,
        WebhookSettings(parsed.webhooks, parsed.local_webhooks),
        max_body=parsed.max_body,
        streams=StreamSettings(max_each=parsed.max_streams),
        concurrency=ConcurrencySettings(
            parsed.max_connections,
            parsed.max_waits,
            parsed.max_claims,
            parsed.max_token_connections,
            parsed.max_address_connections,
            parsed.kept_connections,
        ),
        rate=parsed.rate,
        wait=parsed.wait or 0.0,
        quota=Quota(parsed.open_sagas, parsed.open_bytes),
        trusted_proxies=parsed.trusted_proxies,
        siblings=siblings,
        store=StoreSettings(options, on_event),
        **more,
    )


@contextlib.contextmanager
def missing_packages() -> Iterator[None]:
    """Import the service within it. Raises `Trouble` if a package is missing."""
    try:
        yield
    except ImportError as error:
        raise Trouble(
            f"module {error.name} is not installed; install Debian's {PACKAGES}, or run "
            "pip install 'sagas[server]'"
        ) from error


def begin_log(options: argparse.Namespace) -> log_format.LogFile | None:
    """Begin the log; return its file, if any. Raises `Trouble`."""
    try:
        return log_format.begin(options.log, options.log_level, sys.stderr, options.log_file)
    except OSError as error:
        raise Trouble(f"--log-file {options.log_file}: {error.strerror}") from error


@contextlib.contextmanager
def bound_socket(options: argparse.Namespace) -> Iterator[socket.socket]:
    """Yield a socket of the address. Raises `Trouble`."""
    host, port = listen_of(options.listen)
    family = socket.AF_INET6 if ":" in host else socket.AF_INET
    try:
        bound = processes.bound(family, host, port)
    except OSError as error:
        remedy = (
            "; stop the program that uses it, or use another port"
            if error.errno == errno.EADDRINUSE
            else ""
        )
        raise Trouble(f"cannot listen on {options.listen}: {error.strerror}{remedy}") from error
    with bound:
        yield bound


class Announcements:
    """What the command prints while it starts."""

    def __init__(self, options: argparse.Namespace, listening: socket.socket) -> None:
        host, port = listening.getsockname()[:2]
        self._address = f"http://{f'[{host}]' if ':' in host else host}:{port}/"
        self._has_tokens = options.token_file is not None

    def waits(self) -> None:
        """Print that the service waits."""
        print(f"sagas serve: {self._address} waits for the database", flush=True)

    def opened(self) -> None:
        """Print the address of the service."""
        if not self._has_tokens:
            print(
                "sagas serve: WARNING: authentication is off (no --token-file): every local "
                "user has full access. Remote connections are refused",
                file=sys.stderr,
            )
        print(f"sagas serve: {self._address}", flush=True)


def serve(options: argparse.Namespace, arguments: list[str]) -> int:
    """Serve until a signal stops the service."""
    with missing_packages():
        from sagas.server.uvicorn_server import run
    inherited = sockets_of_process()
    if options.processes > 1 and inherited is None:
        return supervise(options, arguments)
    siblings = Siblings(inherited[1]) if inherited else None
    settings = settings_of(options, siblings)
    log_file = begin_log(options)
    bound = contextlib.nullcontext(inherited[0]) if inherited else bound_socket(options)
    with bound as listening:
        listening.listen(BACKLOG)
        shown = Announcements(options, listening)
        opened, waits = shown.opened, shown.waits
        if siblings:
            opened = functools.partial(siblings.report, State.OPEN)
            waits = functools.partial(siblings.report, State.WAITS)
        gc.set_threshold(GARBAGE)
        sys.setswitchinterval(SWITCH)
        reopen = None if log_file is None else log_file.reopen
        asyncio.run(run(settings, listening, opened, overdue, reopen, waits=waits))
    return GOOD


def supervise(options: argparse.Namespace, arguments: list[str]) -> int:
    """Serve with several processes, until a signal stops them."""
    check_access(options)
    check_store(options)
    log_file = begin_log(options)
    with bound_socket(options) as first:
        shown = Announcements(options, first)
        number = options.processes
        supervisor = processes.Supervisor(arguments, number, first, shown.opened, shown.waits)
        reopen = None if log_file is None else log_file.reopen
        return asyncio.run(supervisor.run(reopen))


def overdue() -> None:
    """End the process because its stop takes too long."""
    logging.getLogger("sagas.server").critical(
        "the stop has taken too long: the process ends now. Everything acknowledged is stored"
    )
    logging.shutdown()
    os._exit(OVERDUE)


def main(argv: list[str]) -> int:
    """Run `sagas serve` and return its exit status. `SERVE_ENDING` lists the statuses."""
    try:
        return serve(parser().parse_args(argv), argv)
    except Trouble as trouble:
        print(f"sagas serve: {trouble}", file=sys.stderr)
        return USAGE
    except DefinitionError as error:
        print(f"sagas serve: {error}", file=sys.stderr)
        return NO
    except (SagasError, auth.TokenFault, WebhookFault, ImportError) as error:
        print(f"sagas serve: {error}", file=sys.stderr)
        return CANNOT
    except KeyboardInterrupt:
        print("sagas serve: interrupted", file=sys.stderr)
        return INTERRUPTED


def token_parser() -> argparse.ArgumentParser:
    """Return the parser of `sagas token`."""
    result = argparse.ArgumentParser(
        prog="sagas token",
        description="Print a new token, and add its digest to a token file.",
        epilog=TOKEN_ENDING,
        formatter_class=argparse.RawDescriptionHelpFormatter,
    )
    result.add_argument(
        "file", type=pathlib.Path, metavar="FILE", help="token file, created if missing"
    )
    result.add_argument(
        "name", metavar="NAME", help="name of the token's owner, stored with what the owner does"
    )
    roles = [*auth.ROLES]
    result.add_argument(
        "roles", nargs="+", choices=roles, metavar="ROLE", help=f"one or more of {', '.join(roles)}"
    )
    result.add_argument(
        "--definition",
        action="append",
        metavar="NAME",
        help="allow only this definition; repeat it for several (default: all)",
    )
    result.add_argument(
        "--key",
        action="append",
        metavar="PATTERN",
        help="for callers, approvers and readers: allow only sagas with this key; a * at the end "
        "matches any rest, for example 'team-a-*'; repeat it for several (default: all)",
    )
    result.add_argument(
        "--step",
        action="append",
        metavar="DEFINITION/STEP",
        help="for workers: allow only this step, or its compensation DEFINITION/STEP/undo; repeat "
        "it for several (default: all)",
    )
    result.add_argument(
        "--open-sagas",
        type=integer_from(0),
        metavar="N",
        help="maximum number of open sagas that it started (default: that of the service)",
    )
    result.add_argument(
        "--open-bytes",
        type=integer_from(0),
        metavar="BYTES",
        help="maximum size of their inputs as JSON, in all (default: that of the service)",
    )
    result.add_argument(
        "--expires",
        metavar="WHEN",
        help="end of validity, for example 2027-01-01T00:00:00Z (default: never)",
    )
    return result


def token(argv: list[str]) -> int:
    """Run `sagas token`: print a new token, and add its digest to the file."""
    options = token_parser().parse_args(argv)
    if not options.name.isprintable() or not 0 < len(options.name) <= 64:
        print("sagas token: invalid name: use 1 to 64 printable characters", file=sys.stderr)
        return USAGE
    try:
        table = {"definitions": options.definition, "keys": options.key, "steps": options.step}
        table |= {"open_sagas": options.open_sagas, "open_bytes": options.open_bytes}
        limits = auth.limits_of(options.roles, table | {"expires": options.expires})
    except ValueError as error:
        print(f"sagas token: {error}", file=sys.stderr)
        return USAGE
    try:
        print(auth.make(options.file, options.name, options.roles, limits), flush=True)
    except (auth.TokenFault, OSError) as error:
        print(f"sagas token: {error}", file=sys.stderr)
        return CANNOT
    return GOOD
