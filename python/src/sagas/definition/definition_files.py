"""Definitions from a directory: `NAME.toml` and `NAME.service.toml`.

`NAME.toml` is a definition (docs/FORMATS.md). The optional `NAME.service.toml` next to it has
what a definition cannot express. `tries` and `undo_tries` count in place of those of the
definition, and are 10 if no file has them:

    [step.review]
    kind = "approval"        # an operator decides; "wait": a timer; "work" (the default): a worker
    timeout = 86400          # of an approval: seconds after which it fails
    show = ["amount"]        # of an approval: fields of the input for those who decide
    until = 3600             # of a wait: seconds from the time when its needs are done
    backoff = { initial = 1, maximum = 60, multiplier = 2, jitter = 0.1 }  # between attempts
    tries = 20               # maximum number of attempts that had no effect, up to 1,000
    undo_tries = 20          # the same of its compensation
    max_unknown = 5          # calls with an unknown outcome before an operator is asked
    concurrency = 4          # maximum number of workers that have it at once
    on_exhausted = "ask"     # after the last attempt: fail (the default), ask or retry
    undo_on_exhausted = "ask"  # the same of its compensation, by default ask
    early_unused = "compensate"  # an unused early report: ask (the default) or compensate
    optional = true          # of each kind: if it fails, the saga continues without it

    [on_end]                 # a worker is called after the end, as for `Saga.on_end`
    tries = 20               # it may have tries, backoff, max_unknown, concurrency, on_exhausted

A table `[defaults]` in `NAME.toml` has options of all steps and compensations that do not have
their own: `tries`, `backoff`, `max_unknown` and `on_exhausted`. It is not a part of the definition,
so only the service reads it.
"""

from __future__ import annotations

import datetime
import pathlib
import re
import tomllib
from collections.abc import Callable, Iterator
from typing import Any, Union

from sagas.base.errors import DefinitionError
from sagas.definition.definition_text import is_written, version_of
from sagas.definition.saga import Saga
from sagas.definition.call_options import (
    DEFAULT_TRIES,
    ENGINE_TRIES,
    NEVER,
    Backoff,
    Cost,
    nothing,
)
from sagas.definition.call_options import CompensationOptions, SagaOptions
from sagas.definition.step import Step, StepName
from sagas.definition.waits import MAX_WITHIN

SERVICE = ".service.toml"
UNLIMITED = "unlimited"
"""The value of `max_unknown` with which no operator is asked."""
Json = dict[str, Any]
BACKOFF = {"initial", "maximum", "multiplier", "jitter"}
STEP = {"name", "needs", "run", "undo", "skip", "keep", "tries", "undo_tries"}
ON_END = {"tries", "backoff", "max_unknown", "concurrency", "on_exhausted"}
DEFAULTS = {"tries", "backoff", "max_unknown", "on_exhausted"}
KEYS = {
    "work": {
        "kind",
        "backoff",
        "tries",
        "undo_tries",
        "max_unknown",
        "concurrency",
        "on_exhausted",
        "undo_on_exhausted",
        "early_unused",
        "optional",
    },
    "approval": {"kind", "timeout", "optional", "show"},
    "wait": {"kind", "until", "optional"},
}


class Fault(Exception):
    """An error in a definition, at this path of its text.

    `is_in_service_file`: the error is in the service file.
    """

    def __init__(self, text: str, *path: str | int, is_in_service_file: bool = False) -> None:
        super().__init__(text)
        self.path, self.is_in_service_file = path, is_in_service_file


class File:
    """One of the two files of a definition, parsed, with the line numbers of its parts."""

    def __init__(self, path: pathlib.Path) -> None:
        self.path = path
        try:
            self.text = path.read_text(encoding="utf-8")
        except (OSError, UnicodeDecodeError) as error:
            raise DefinitionError(f"{path}: cannot be read: {error}") from error
        self.document = self._parsed()
        self._lines = LineNumbers(self.text)

    def _parsed(self) -> Json:
        try:
            return tomllib.loads(self.text)
        except RecursionError:
            why = "too many lists in one another"
            raise DefinitionError(f"{self.path}:1: invalid TOML: {why}") from None
        except tomllib.TOMLDecodeError as error:
            text, _, position = str(error).partition(" (at ")
            line = re.match(r"line (\d+)", position)
            number = (
                int(line[1]) if line else self.text.count("\n") + (not self.text.endswith("\n"))
            )
            raise DefinitionError(f"{self.path}:{max(1, number)}: invalid TOML: {text}") from error

    def at(self, *path: str | int) -> str:
        """Return the file and line of the part with this path."""
        return f"{self.path}:{self._lines.of(*path)}"


def read(folder: pathlib.Path) -> list[Saga[Any]]:
    """Read the sagas of a directory. Raises `DefinitionError`, which names file and line."""
    if not folder.is_dir():
        if folder.exists():
            raise DefinitionError(f"{folder} is a file; pass the directory that contains it")
        raise DefinitionError(f"directory {folder} does not exist")
    paths = sorted(path for path in folder.glob("*.toml") if not path.name.endswith(SERVICE))
    if not paths:
        raise DefinitionError(f"directory {folder} has no definition NAME.toml")
    sagas: dict[tuple[str, int], Saga[Any]] = {}
    for path in paths:
        saga = read_one(path)
        other = sagas.setdefault((saga.name, saga.version), saga)
        if other is not saga:
            location = other.where.rpartition(":")[0]
            remedy = f"use another name, or `# version {saga.version + 1}` as the first line"
            raise DefinitionError(
                f"{saga.where}: saga {saga.name!r} is already defined at {location}; {remedy}"
            )
    return [*sagas.values()]


def read_one(path: pathlib.Path) -> Saga[Any]:
    """Read the saga of a file. Raises `DefinitionError`."""
    file = File(path)
    service_path = service_path_of(path)
    service_file = File(service_path) if service_path.exists() else None
    try:
        return _built(file, service_file)
    except Fault as fault:
        faulty = service_file if fault.is_in_service_file and service_file else file
        raise DefinitionError(f"{faulty.at(*fault.path)}: {fault}") from None


def definition_text_of(path: pathlib.Path) -> str:
    """Return the text of the definition of a file, after a check as of `read_one`.

    It is the text of the file if the package wrote it: its comments say for example which steps
    come from an input. Otherwise it is the text of the saga, as the service starts it.

    Raises:
        DefinitionError: The file cannot be read, or its definition is not valid.
    """
    saga, text = read_one(path), path.read_text(encoding="utf-8")
    is_whole = is_written(text) and not service_path_of(path).exists()
    return text if is_whole else saga.toml()


def service_path_of(path: pathlib.Path) -> pathlib.Path:
    """Return the path of the service file of a definition, which may not exist."""
    return path.with_name(path.name.removesuffix(".toml") + SERVICE)


def _step_options(service_file: File) -> dict[str, Json]:
    """Return the options in the service file, by step. Raises `Fault`."""
    document = service_file.document
    steps = document.get("step", {})
    unknown = set(document) - {"step", "on_end"}
    if unknown or not isinstance(steps, dict):
        raise Fault(
            "only [step.NAME] tables and [on_end] are allowed",
            *sorted(unknown or {"step"})[:1],
            is_in_service_file=True,
        )
    for name, options in steps.items():
        _check_step_options(name, options)
    return steps


def _check_step_options(name: str, options: Any) -> None:
    def fault(text: str, *key: str) -> Fault:
        return Fault(f"step {name!r}: {text}", "step", name, *key, is_in_service_file=True)

    kind = options.get("kind", "work") if isinstance(options, dict) else None
    if not isinstance(kind, str) or kind not in KEYS:
        raise fault(f"kind must be one of {', '.join(KEYS)}", "kind")
    for option in sorted(set(options) - KEYS[kind]):
        raise fault(
            f"{kind} has no key {option!r}; its keys are {', '.join(sorted(KEYS[kind]))}", option
        )
    for option in ("timeout", "until"):
        if option in options and not (
            is_number(options[option]) and 0 <= options[option] <= MAX_WITHIN
        ):
            raise fault(f"{option} must be a number from 0 to {MAX_WITHIN:,.0f}", option)
    _check_max_unknown(options, fault)
    _check_backoff(options, fault)
    if kind == "wait" and "until" not in options:
        raise fault("kind 'wait' requires the key until")


def _add_on_end(saga: Saga[Any], service_file: File) -> None:
    """Declare the call after the end, if the service file has it. Raises `Fault`."""
    options = service_file.document.get("on_end")
    if options is None:
        return

    def fault(text: str, *key: str) -> Fault:
        return Fault(f"on_end: {text}", "on_end", *key, is_in_service_file=True)

    if not isinstance(options, dict):
        raise fault("must be a table [on_end]")
    for option in sorted(set(options) - ON_END):
        known = ", ".join(sorted(ON_END))
        raise fault(f"on_end has no key {option!r}; its keys are {known}", option)
    _check_max_unknown(options, fault)
    _check_backoff(options, fault)
    chosen: Any = dict(options)
    if "max_unknown" in chosen:
        chosen["max_unknown"] = _max_unknown_of(options)
    if "backoff" in chosen:
        chosen["backoff"] = Backoff(**options["backoff"])
    try:
        saga.on_end(external=True, **chosen)
    except DefinitionError as error:
        text = _message_of(error)
        named = re.search(r"\b(\w+)=", text)
        key = [named[1]] if named and named[1] in options else []
        raise DefinitionError(f"{service_file.at('on_end', *key)}: {text}") from None
    assert saga.end_saga is not None
    saga.end_saga.where = saga.end_saga.steps[0].where = service_file.at("on_end")


def _check_max_unknown(options: Json, fault: Callable[..., Fault]) -> None:
    limit = options.get("max_unknown", 1)
    if limit != UNLIMITED and not (type(limit) is int and limit >= 1):
        raise fault(f"max_unknown must be an integer >= 1, or {UNLIMITED!r}", "max_unknown")


def _check_backoff(options: Json, fault: Callable[..., Fault]) -> None:
    backoff = options.get("backoff", {})
    if (
        not isinstance(backoff, dict)
        or set(backoff) - BACKOFF
        or not all(map(is_number, backoff.values()))
    ):
        raise fault(
            f"backoff must have only the keys {', '.join(sorted(BACKOFF))}, each with a number",
            "backoff",
        )


def is_number(value: Any) -> bool:
    return isinstance(value, (int, float)) and not isinstance(value, bool)


def _built(file: File, service_file: File | None) -> Saga[Any]:
    """Build the saga of these files. Raises `Fault`, `DefinitionError`."""
    options_of_steps = _step_options(service_file) if service_file else {}
    document = {name: value for name, value in file.document.items() if name != "defaults"}
    _check_keys(document)
    defaults = _defaults_of(file)
    try:
        saga = Saga(document["name"], version=version_of(file.text), **defaults)
    except DefinitionError as error:
        text = _message_of(error)
        named = re.search(r": (\w+)[=(]", text)
        key = named[1].lower() if named else ""
        location = file.at("defaults", key) if key in defaults else file.at("name")
        raise DefinitionError(f"{location}: {text}") from None
    saga.where = file.at("name")
    for index, step in enumerate(document.get("step", [])):
        _add(saga, file, service_file, index, step, options_of_steps.get(step["name"], {}))
    for name in options_of_steps:
        if all(step.name != name for step in saga.steps):
            raise Fault(
                f"the definition has no step {name!r}", "step", name, is_in_service_file=True
            )
    if service_file is not None:
        _add_on_end(saga, service_file)
    saga.check()
    if _plain(document) != _plain(tomllib.loads(saga.toml())):
        raise Fault("this service does not support the definition", "name")
    return saga


def _defaults_of(file: File) -> SagaOptions:
    """Return the options of all steps. Raises `Fault`."""
    options = file.document.get("defaults", {})
    unknown = sorted(set(options) - DEFAULTS) if isinstance(options, dict) else [""]
    if unknown:
        known = ", ".join(sorted(DEFAULTS))
        raise Fault(f"defaults has only the keys {known}", "defaults", *unknown[:1])
    for check in (_check_max_unknown, _check_backoff):
        check(options, lambda text, *key: Fault(text, "defaults", *key))
    defaults: Any = dict(options)
    if "max_unknown" in defaults:
        defaults["max_unknown"] = _max_unknown_of(options)
    if "backoff" in defaults:
        defaults["backoff"] = Backoff(**defaults["backoff"])
    result: SagaOptions = defaults
    return result


def _check_keys(document: Json) -> None:
    """Raise `Fault` if a definition has unknown keys."""
    unknown = sorted(set(document) - {"format", "name", "step"})
    if document.get("format") not in (1, 2) or unknown:
        raise Fault(
            "invalid definition: a definition has the keys format (1 or 2), name and step",
            *(unknown or ["format"])[:1],
        )
    if "name" not in document:
        raise Fault("invalid definition: it has no name")
    steps = document.get("step", [])
    if not isinstance(steps, list) or not all(isinstance(step, dict) for step in steps):
        raise Fault("invalid definition: each step is a table [[step]]", "step")
    for index, step in enumerate(steps):
        for key in sorted(set(step) - STEP):
            known = ", ".join(sorted(STEP))
            raise Fault(
                f"invalid definition: step {step.get('name', index + 1)!r} has no key {key!r}; "
                f"its keys are {known}",
                "step",
                index,
                key,
            )
        for key in ("tries", "undo_tries"):
            if type(tries := step.get(key, 1)) is not int or not 1 <= tries <= ENGINE_TRIES:
                raise Fault(
                    f"invalid definition: step {step.get('name', index + 1)!r}: {key} must be an "
                    f"integer from 1 to {ENGINE_TRIES}; {SERVICE} may have more",
                    "step",
                    index,
                    key,
                )
        if not isinstance(step.get("name"), str):
            raise Fault(f"invalid definition: step {index + 1} has no name", "step", index, "name")


def _add(
    saga: Saga[Any], file: File, service_file: File | None, index: int, step: Json, options: Json
) -> None:
    """Add a step. Raises `Fault`, or `DefinitionError` with the line of the step or of the key in
    question.
    """
    kind = options.get("kind", "work")
    for name in sorted({"approval": {"run", "keep"}, "wait": {"run"}}.get(kind, set()) & set(step)):
        raise Fault(
            f"step {step['name']!r}: an approval cannot have run or keep, a wait cannot have run",
            "step",
            index,
            name,
        )
    build: dict[str, Callable[[Saga[Any], Json, Json], None]] = {
        "work": _work,
        "approval": _approval,
        "wait": _wait,
    }
    try:
        build[kind](saga, step, options)
    except DefinitionError as error:
        text = _message_of(error)
        named = re.search(r": (\w+)[=(]", text)
        key = named[1].lower() if named else "name"
        if key in options and service_file:
            raise DefinitionError(f"{service_file.at('step', step['name'], key)}: {text}") from None
        raise DefinitionError(f"{file.at('step', index, key)}: {text}") from None
    saga.steps[-1].where = file.at("step", index)


def _message_of(error: DefinitionError) -> str:
    """Return the message of an error without the line of this module."""
    return "saga " + str(error).partition(": saga ")[2]


def _cost_of(step: Json, name: str) -> Cost:
    value = step.get(name, 0)
    return NEVER if value == "never" else value


def _tries_of(saga: Saga[Any], step: Json, options: Json, name: str) -> int:
    """Return the number of attempts of a step (`tries`), or of its compensation (`undo_tries`)."""
    tries: int = options.get(name, step.get(name, saga.defaults.get("tries", DEFAULT_TRIES)))
    return tries


def _max_unknown_of(options: Json) -> int | None:
    limit = options["max_unknown"]
    return None if limit == UNLIMITED else limit


def _needs_of(step: Json) -> Any:
    """Return the names of the needed steps, which may come later in the file."""
    needs = step.get("needs", [])
    if not isinstance(needs, list):
        return needs  # which the saga refuses
    return [StepName(name) if isinstance(name, str) else name for name in needs]


def _work(saga: Saga[Any], step: Json, options: Json) -> None:
    defaults = saga.defaults
    backoff = defaults.get("backoff", Backoff())
    if "backoff" in options:
        backoff = Backoff(**options["backoff"])
    built: Step[Any] = saga.step(
        external=True,
        name=step["name"],
        needs=_needs_of(step),
        run=_cost_of(step, "run"),
        undo=_cost_of(step, "undo"),
        skip=_cost_of(step, "skip"),
        keep=_cost_of(step, "keep"),
        tries=_tries_of(saga, step, options, "tries"),
        backoff=backoff,
        concurrency=options.get("concurrency"),
        on_exhausted=options.get("on_exhausted", defaults.get("on_exhausted", "fail")),
        early_unused=options.get("early_unused", "ask"),
        optional=options.get("optional", False),
    )
    if built._costs["undo"] is not NEVER:
        undo: CompensationOptions = {"tries": _tries_of(saga, step, options, "undo_tries")}
        if "undo_on_exhausted" in options:
            undo["on_exhausted"] = options["undo_on_exhausted"]
        built.compensation(external=True, **undo)
    if "max_unknown" in options:
        built.run.max_unknown = built.undo.max_unknown = _max_unknown_of(options)


def _approval(saga: Saga[Any], step: Json, options: Json) -> None:
    timeout = datetime.timedelta(seconds=options["timeout"]) if "timeout" in options else None
    saga.approval(
        name=step["name"],
        needs=_needs_of(step),
        undo=_cost_of(step, "undo"),
        skip=_cost_of(step, "skip"),
        timeout=timeout,
        tries=_tries_of(saga, step, options, "tries"),
        optional=options.get("optional", False),
        show=options.get("show", ()),
    )(nothing)


def _wait(saga: Saga[Any], step: Json, options: Json) -> None:
    saga.wait(
        name=step["name"],
        needs=_needs_of(step),
        until=datetime.timedelta(seconds=options["until"]),
        undo=_cost_of(step, "undo"),
        skip=_cost_of(step, "skip"),
        keep=_cost_of(step, "keep"),
        tries=_tries_of(saga, step, options, "tries"),
        optional=options.get("optional", False),
    )(nothing)


def _plain(document: Json) -> list[Any]:
    """Return a definition in a canonical form, without its numbers of attempts."""
    result: list[Any] = [document["name"]]
    for step in document.get("step", ()):
        costs = [step.get(name, 0) for name in ("run", "undo", "skip", "keep")]
        result.append(
            [
                step["name"],
                [*step.get("needs", ())],
                *costs,
                sorted(set(step) - {"undo_tries", "tries", "needs", "run", "undo", "skip", "keep"}),
            ]
        )
    return result


# -- line numbers, for messages


KeyPath = tuple[Union[str, int], ...]
"""Keys from the outside in. A table of an array is given by its index, from 0."""
BLANK = re.compile(r"(?:[ \t\r\n]|#[^\n]*)*")
COMMENT = re.compile(r"#[^\n]*")
HEADER = re.compile(r"(\[\[?)((?:\"[^\"\n]*\"|'[^'\n]*'|[^\]\"'])*)\]\]?")
KEY_TEXT = re.compile(r"(?:\"(?:\\.|[^\"\n])*\"|'[^'\n]*'|[^=\"'])+")
STRING = re.compile(
    r'"""(?:\\.|[^\\])*?"{3,5}|\'\'\'.*?\'{3,5}|"(?:\\.|[^"\\\n])*"|\'[^\'\n]*\'', re.DOTALL
)


class LineNumbers:
    """The line numbers of a TOML text."""

    def __init__(self, text: str) -> None:
        self._lines: dict[KeyPath, int] = {}
        for path, line in _key_paths(text):
            self._lines.setdefault(path, line)

    def of(self, *path: Union[str, int]) -> int:
        """Return the line, from 1, of the part with this path, or of an enclosing part."""
        while path and path not in self._lines:
            path = path[:-1]
        return self._lines.get(path, 1)


def _key_paths(text: str) -> Iterator[tuple[KeyPath, int]]:
    """Yield the path and the line of each table and key."""
    table: KeyPath = ()
    at, before, line, counts = 0, 0, 1, dict[KeyPath, int]()
    while (at := _end_of_match(BLANK, text, at)) < len(text):
        line, before = line + text.count("\n", before, at), at
        header = HEADER.match(text, at)
        if header:
            names = _key_parts(header[2])
            if header[1] == "[[":
                counts[names] = counts.get(names, -1) + 1
            table, at = _table_path(names, counts), header.end()
            yield table, line
            continue
        end = _end_of_match(KEY_TEXT, text, at)
        names = _key_parts(text[at:end])
        for length in range(1, len(names) + 1):
            yield table + names[:length], line
        at = _end_of_value(text, end + 1)


def _end_of_match(form: re.Pattern[str], text: str, at: int) -> int:
    match = form.match(text, at)
    return max(match.end(), at + (form is not BLANK)) if match else at + 1


def _key_parts(text: str) -> KeyPath:
    """Return the parts of a dotted key."""
    value: Any = tomllib.loads(f"{text.strip()} = 0")
    names: list[str] = []
    while isinstance(value, dict):
        ((name, value),) = value.items()
        names.append(name)
    return tuple(names)


def _table_path(names: KeyPath, counts: dict[KeyPath, int]) -> KeyPath:
    """Return a table's path, with the current index of each array in it."""
    path: KeyPath = ()
    for length, name in enumerate(names, 1):
        path += (name,)
        if names[:length] in counts:
            path += (counts[names[:length]],)
    return path


def _end_of_value(text: str, at: int) -> int:
    """Return where a value ends: at the end of a line, outside of brackets and strings."""
    depth = 0
    while at < len(text):
        char = text[at]
        if char in "\"'":
            at = _end_of_match(STRING, text, at)
        elif char == "#":
            at = _end_of_match(COMMENT, text, at)
        elif char == "\n" and depth == 0:
            return at
        else:
            depth += (char in "[{") - (char in "]}")
            at += 1
    return at
