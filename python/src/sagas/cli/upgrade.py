"""`check`: whether a program can continue the open sagas of a store."""

from __future__ import annotations

import argparse
import dataclasses
from typing import Any, NamedTuple

from sagas.base.errors import DefinitionError
from sagas.base.options import load_reference
from sagas.base.wording import escaped
from sagas.cli.formatting import GOOD, NO, show_json, table
from sagas.definition.payloads import BlobStore, Codec
from sagas.definition.saga import Saga
from sagas.storage.admin import Trouble
from sagas.storage.folder_blobs import blobs_of
from sagas.testing.upgrade import check_upgrade

HEADS = ["PROBLEM", "SAGA", "SAGAS", "FIRST KEY", "DETAIL"]


class App(NamedTuple):
    """What `--app` names, with its codec and blob store."""

    sagas: list[Saga[Any]]
    codec: Codec | None
    blobs: BlobStore | None


def add_check_options(part: argparse.ArgumentParser) -> argparse.ArgumentParser:
    """Add the options of `check`; return the parser."""
    part.add_argument(
        "--app",
        metavar="MODULE:NAME",
        required=True,
        help="a saga, a list of sagas, or a store made by sagas.open: the program to check",
    )
    part.add_argument(
        "--codec",
        metavar="MODULE:NAME",
        help="the codec of the store (default: that of the store of --app, if any)",
    )
    part.add_argument(
        "--blobs",
        metavar="DIR|MODULE:NAME",
        help="the blob store (default: that of the store of --app, if any)",
    )
    return part


def app_of(options: argparse.Namespace) -> App:
    """Return the sagas of a program, and how it stores values. Raises `Trouble`."""
    from sagas.api.app import load_app

    try:
        app = load_app(options.app)
        codec = app.codec if options.codec is None else load_reference("--codec", options.codec)
        blobs = app.blobs if options.blobs is None else blobs_of(options.blobs)
    except ValueError as error:
        raise Trouble(str(error), 2) from error
    return App(app.sagas, codec, blobs)


def check(path: str, options: argparse.Namespace) -> int:
    """Check whether a program can continue the open sagas, before you deploy it.

    It lists functions and compensations that are missing, stored values that the program cannot
    read, and results that its functions ask for and an open saga does not have. For each problem it
    prints the number of sagas and the first key. It calls no function of the sagas, and changes
    nothing.
    """
    app = app_of(options)
    try:
        report = check_upgrade(path, app.sagas, codec=app.codec, blobs=app.blobs)
    except (DefinitionError, TypeError) as error:
        raise Trouble(f"--app {options.app}: {error}", 2) from error
    if options.json:
        show_json({**dataclasses.asdict(report), "ok": report.ok})
        return GOOD if report.ok else NO
    if not report.ok:
        rows = [
            (
                finding.kind,
                finding.definition,
                finding.count,
                finding.first_key,
                finding.detail,
            )
            for finding in report.findings
        ]
        print(table(HEADS, rows))
    print(escaped(f"{path}: {str(report).partition(chr(10))[0]}"))
    return GOOD if report.ok else NO
