"""Options that several commands have: `--app`, the filter of sagas, and `--limit`."""

from __future__ import annotations

import argparse
from typing import Any

from sagas.base.errors import CannotDecode, InvalidLabel
from sagas.base.options import integer_from, load_reference
from sagas.definition import labels as labels_module
from sagas.definition.payloads import PLAIN, Payloads, checked
from sagas.inspection.saga import Read
from sagas.storage.admin import CANNOT, Trouble
from sagas.storage.filters import Filter

APP_HELP = (
    "a saga, a list of sagas, or a store made by sagas.open, whose codec decodes the values of "
    "this store; or a client or a codec (default: values are not encoded)"
)


def add_app_option(part: argparse.ArgumentParser) -> argparse.ArgumentParser:
    """Add the option; return the parser."""
    part.add_argument("--app", metavar="MODULE:NAME", help=APP_HELP)
    return part


def read_by(options: argparse.Namespace) -> Read:
    """Return a function that decodes a stored value for display.

    Raises `Trouble`. So does the function if a value cannot be decoded.
    """
    payloads = payloads_of(options)

    def read(text: str) -> Any:
        try:
            return payloads.read(text)
        except CannotDecode as error:
            advice = "" if payloads.codec else ". Pass the codec of the store: --app MODULE:NAME"
            why = str(error) if payloads.codec else "the values of this store are encoded"
            raise Trouble(f"{why}{advice}", CANNOT) from error

    return read


def payloads_of(options: argparse.Namespace) -> Payloads:
    """Return how values are stored. Raises `Trouble`."""
    location = options.app
    if location is None:
        return PLAIN
    from sagas.api.app import KINDS, App

    try:
        value = load_reference("--app", location)
    except ValueError as error:
        raise Trouble(str(error), 2) from error
    try:
        return checked(App(location, value).codec)
    except ValueError:
        pass
    try:
        return checked(getattr(value, "codec", value))
    except TypeError as error:
        raise Trouble(f"--app {location}: must be {KINDS}, a client or a codec", 2) from error


def add_filter_options(part: argparse.ArgumentParser, prefix: str) -> None:
    """Add the options that select sagas."""
    part.add_argument("--saga", metavar="NAME", help=f"{prefix}only sagas of this name")
    part.add_argument(
        "--label",
        metavar="NAME=VALUE",
        action="append",
        default=[],
        help=f"{prefix}only sagas with this label; repeat it for several labels",
    )


def add_limit_option(part: argparse.ArgumentParser, noun: str) -> None:
    """Add the option for the maximum number of rows."""
    part.add_argument(
        "--limit",
        type=integer_from(0),
        default=100,
        metavar="N",
        help=f"maximum number of {noun}; 0: no limit (default: 100)",
    )


def filter_of(options: argparse.Namespace) -> Filter:
    """Return the filter that the options describe. Raises `Trouble`."""
    labels: dict[str, str] = {}
    for label in options.label:
        name, equals, value = label.partition("=")
        if not equals:
            raise Trouble(f"--label {label}: must be NAME=VALUE", 2)
        if labels.setdefault(name, value) != value:
            raise Trouble(f"--label {label}: a label can have only one value", 2)
    try:
        return Filter(saga=options.saga or None, labels=labels_module.checked(labels))
    except InvalidLabel as error:
        raise Trouble(f"--label: {error}", 2) from error


def check_keys(options: argparse.Namespace, has_keys: bool) -> None:
    """Raise `Trouble` unless either keys or --all select the sagas."""
    if has_keys == options.all:
        raise Trouble("pass the keys of sagas, or --all for every saga of --saga and --label", 2)
    if has_keys and (options.label or options.saga):
        raise Trouble("--saga and --label require --all", 2)
