"""`sagas explain`: what each failure of a saga would lead to, before it runs."""

from __future__ import annotations

import argparse
import json
import pathlib
import sys
from collections import Counter
from typing import Any

from sagas.base.errors import (
    DefinitionError,
    InvalidInput,
    InvalidStore,
    NotSerializable,
    SagasError,
    TooLarge,
)
from sagas.base.options import invalid, load_reference
from sagas.base.wording import escaped
from sagas.cli.formatting import (
    CANNOT,
    GOOD,
    INTERRUPTED,
    NO,
    drop_output,
    escape,
    lines,
    show_json,
)
from sagas.definition import definition_files, definition_text
from sagas.definition.saga import Saga
from sagas.inspection import explanation_text, failure_rates
from sagas.inspection.explanation import Explanation, of_definition
from sagas.inspection.failure_cases import Moment
from sagas.storage.admin import Trouble

USAGE = 2
DESCRIPTION = """\
Show what each failure of a saga would undo, keep, run and skip, and at which cost.

The program computes a plan for the permanent failure of each step, at two moments: each step that
does not depend on the failed one has committed (late), or only the steps that it needs (early). For
up to 64 steps, it also computes the plans of two failures together. It calls no step, and reads a
store only with --from.
"""
ENDING = """\
Example:
  sagas explain shop:order --rate charge=0.02

Exit status:
  0    done
  1    the definition or the input is not valid, or a step does not exist
  2    invalid arguments
  4    a file or the store cannot be read, or the output cannot be written
  130  interrupted
"""


def rate(text: str) -> tuple[str, float]:
    """Return the step and the rate of `STEP=RATE`. Raises `argparse.ArgumentTypeError`."""
    name, _, value = text.rpartition("=")
    try:
        number = float(value)
    except ValueError:
        number = -1.0
    if not name or not 0 <= number <= 1:
        raise invalid(text, "STEP=RATE, with a rate from 0 to 1, for example charge=0.02")
    return name, number


def parser() -> argparse.ArgumentParser:
    """Return the parser of the command."""
    result = argparse.ArgumentParser(
        prog="sagas explain",
        description=DESCRIPTION,
        epilog=ENDING,
        formatter_class=argparse.RawDescriptionHelpFormatter,
    )
    result.add_argument(
        "definition",
        metavar="FILE|MODULE:NAME",
        help="a definition file, or a saga, a list of sagas or a store of a module",
    )
    result.add_argument("--saga", metavar="NAME", help="the saga, if MODULE:NAME has more than one")
    result.add_argument(
        "--input",
        metavar="FILE",
        help="a JSON file with an example of an input, if steps or costs come from it (default: "
        "null)",
    )
    result.add_argument(
        "--rate",
        metavar="STEP=RATE",
        type=rate,
        action="append",
        default=[],
        help="the probability from 0 to 1 that a step fails permanently; repeat it for more "
        "steps (default: 0)",
    )
    result.add_argument(
        "--from",
        metavar="STORE",
        dest="store",
        help="take the rates of other steps from the ended sagas of this store (default: none)",
    )
    result.add_argument(
        "--pairs", action="store_true", help="also print the failures of two steps together"
    )
    forms = result.add_mutually_exclusive_group()
    forms.add_argument("--json", action="store_true", help="print JSON")
    forms.add_argument("--markdown", action="store_true", help="print a table in Markdown")
    forms.add_argument(
        "--draw",
        metavar="STEP",
        help="print the plan after the failure of this step for Graphviz; with --svg as an SVG "
        "picture",
    )
    result.add_argument(
        "--svg",
        action="store_true",
        help="print an SVG picture (default: of what may happen to each step)",
    )
    result.add_argument(
        "--early",
        action="store_true",
        help="with --draw: only the steps that the failed one needs have committed (default: all "
        "that do not depend on it)",
    )
    return result


def main(arguments: list[str] | None = None) -> int:
    """Run `sagas explain` and return its exit status."""
    escape()
    options = parser().parse_args(arguments)
    try:
        status = status_of(options)
        sys.stdout.flush()  # at exit, an error would not be reported
        return status
    except BrokenPipeError:  # as of `| head`
        drop_output()
        return CANNOT
    except OSError as error:
        drop_output()
        complain(f"{error.filename or 'cannot write the output'}: {error.strerror or error}")
        return CANNOT


def status_of(options: argparse.Namespace) -> int:
    """Run the command, and print why it was refused. Raises `OSError`."""
    try:
        check_options(options)
        show(explained(options), options)
        return GOOD
    except Trouble as trouble:
        complain(str(trouble))
        return trouble.status
    except SagasError as error:
        complain(str(error))
        return CANNOT
    except KeyboardInterrupt:
        complain("interrupted")
        return INTERRUPTED


def complain(text: str) -> None:
    """Print an error on one line of standard error."""
    line = " ".join(filter(None, map(str.strip, text.split("\n"))))
    print(f"sagas explain: {escaped(line)}", file=sys.stderr)


def check_options(options: argparse.Namespace) -> None:
    """Raise `Trouble` if options do not fit together."""
    if options.svg and (options.json or options.markdown):
        raise Trouble("--svg: not allowed with --json or --markdown", USAGE)
    if options.early and options.draw is None:
        raise Trouble("--early: requires --draw STEP", USAGE)
    if options.pairs and (options.svg or options.draw is not None):
        raise Trouble("--pairs: not allowed with a picture", USAGE)
    for name, count in Counter(name for name, _ in options.rate).items():
        if count > 1:
            raise Trouble(f"--rate {name}: a step has one rate", USAGE)


def explained(options: argparse.Namespace) -> Explanation:
    """Return the explanation. Raises `Trouble`."""
    text = text_of(options)
    try:
        rates, learned = dict[str, float](), None
        if options.store is not None:
            learned = failure_rates.of_store(options.store, definition_text.name_of(text))
            rates |= learned.of_definition(text)
        rates |= dict(options.rate)
        is_picture = options.svg or options.draw is not None
        sagas = None if learned is None else learned.sagas
        return of_definition(text, rates=rates, learned_from=sagas, pairs=not is_picture)
    except InvalidStore as error:
        raise Trouble(str(error), CANNOT) from error
    except KeyError as error:
        raise Trouble(str(error.args[0])) from error


def text_of(options: argparse.Namespace) -> str:
    """Return the text of the definition. Raises `Trouble`."""
    location: str = options.definition
    path = pathlib.Path(location)
    if ":" in location and not path.exists():
        return text_with_input(saga_of(location, options.saga), options)
    if options.saga is not None or options.input is not None:
        option = "--saga" if options.saga is not None else "--input"
        raise Trouble(f"{option}: a definition file has one saga, and no input", USAGE)
    if path.is_dir():
        raise Trouble(f"{location} is a folder: pass a definition file", CANNOT)
    if not path.exists():
        raise Trouble(f"{location}: file does not exist, and it is not MODULE:NAME", CANNOT)
    try:
        return definition_files.definition_text_of(path)
    except DefinitionError as error:
        raise Trouble(str(error)) from error


def saga_of(location: str, name: str | None) -> Saga[Any]:
    """Return the saga of a module. Raises `Trouble`."""
    from sagas.api.app import KINDS, App

    try:
        value = load_reference("DEFINITION", location)
    except DefinitionError as error:
        raise Trouble(str(error)) from error
    except ValueError as error:
        raise Trouble(str(error), USAGE) from error
    try:
        sagas = App(location, value).sagas
    except ValueError:
        raise Trouble(f"{location}: must be {KINDS}", USAGE) from None
    named = {saga.name: saga for saga in sorted(sagas, key=lambda saga: saga.version)}
    if name is None and len(named) == 1:
        return next(iter(named.values()))
    if name not in named:
        problem = "has more than one saga" if name is None else f"has no saga {name!r}"
        raise Trouble(f"{location} {problem}: pass --saga with {', '.join(sorted(named))}", USAGE)
    return named[name]


def text_with_input(saga: Saga[Any], options: argparse.Namespace) -> str:
    """Return the definition of a saga for the example of an input. Raises `Trouble`."""
    from sagas.api.explanation import reads_input

    try:
        if options.input is None and reads_input(saga):
            raise Trouble(
                f"saga {saga.name!r} depends on its input. Pass an example of an input: "
                "--input FILE"
            )
        return saga.toml(None if options.input is None else json_of(options.input))
    except (DefinitionError, InvalidInput, NotSerializable, TooLarge) as error:
        raise Trouble(str(error)) from error


def json_of(path: str) -> Any:
    """Return the value of a JSON file. Raises `Trouble`."""
    try:
        return json.loads(pathlib.Path(path).read_text(encoding="utf-8"))
    except UnicodeDecodeError:
        raise Trouble(f"--input {path}: it is not UTF-8") from None
    except json.JSONDecodeError as error:
        raise Trouble(f"--input {path}:{error.lineno}: invalid JSON: {error.msg}") from error
    except RecursionError:
        raise Trouble(f"--input {path}: invalid JSON: too many lists in one another") from None


def show(explanation: Explanation, options: argparse.Namespace) -> None:
    """Print the explanation in the form that the options name. Raises `Trouble`."""
    if options.svg or options.draw is not None:
        print(lines(picture(explanation, options).rstrip("\n")))
    elif options.json:
        show_json(explanation.json())
    elif options.markdown:
        print(lines(explanation_text.markdown(explanation, has_pairs=options.pairs)))
    else:
        print(lines(str(explanation)))
        if options.pairs:
            print(lines(f"\n{explanation_text.pairs_text(explanation)}"))


def picture(explanation: Explanation, options: argparse.Namespace) -> str:
    """Return the picture that the options name. Raises `Trouble`."""
    moment = (Moment.EARLY if options.early else Moment.LATE).value
    try:
        if options.svg:
            return explanation.svg(options.draw, moment=moment)
        return explanation.draw(options.draw, moment=moment)
    except KeyError as error:
        raise Trouble(str(error.args[0])) from error
    except ValueError as error:
        raise Trouble(str(error)) from error
