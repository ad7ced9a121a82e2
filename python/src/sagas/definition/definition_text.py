"""The text of a definition: its name, its steps, and what it says about their origins."""

from __future__ import annotations

import dataclasses
import functools
import hashlib
import re
from collections.abc import Collection, Iterable
from typing import Any, Union

import tomllib

VERSION = re.compile(r"# version (\d+)\n")
NAME = re.compile(r'^name = "(.*)"$', re.M)
WRITTEN = re.compile(
    r"# (?:version \d+|pivot \S+|undoes \S+|of \S+|includes \S+ \S+ \d+(?: given)?|sees.*"
    r"|compensated|nothing to undo|optional)"
)
"""The comments that the package writes."""


def digest_of(text: str) -> str:
    """Return the digest of one definition, given its text."""
    return hashlib.sha256(text.encode()).hexdigest()[:16]


def is_written(text: str) -> bool:
    """Return whether the package may have written a definition: it has only its comments."""
    lines = text.splitlines()
    return all(not line.startswith(("#", "[defaults")) or WRITTEN.fullmatch(line) for line in lines)


def version_of(text: str) -> int:
    """Return the version of the saga that a definition declares."""
    match = VERSION.match(text)
    return int(match[1]) if match else 1


def name_of(text: str) -> str:
    """Return the name of the saga that a definition declares."""
    match = NAME.search(text)
    assert match
    return match[1]


# -- steps


MAX_KEPT = 16
"""Number of parsed definitions in memory. A definition has up to 1 MiB and 1,024 steps."""
COMPENSATED = "# compensated"
"""The line after the name of a step that has a compensation.

The cost `undo` does not show it: a step that needs no compensation may have the cost 0, too.
"""
NOTHING = "# nothing to undo"
"""The line in its place for a step with `undo=NOTHING`.

A step without either line is a wait, an approval or a child, was declared with `undo=0` and no
compensation, or is of an older release.
"""
OPTIONAL = "# optional"
"""The line after that of a step whose failure does not make the saga recover."""
MARKED = re.compile(r'^name = "(.*)"\n((?:# .*\n)+)', re.M)
"""The name of a step, and the lines that say more about it."""
PIVOT_HEAD = "# pivot "
PIVOT = re.compile(rf"^{PIVOT_HEAD}(\S+)$", re.M)
"""The line of the head with the name of the step that is the saga's pivot."""
ListedCost = Union[int, str]
"""A cost in the text of a definition: a number, or `never`."""


@dataclasses.dataclass(frozen=True, slots=True)
class ListedStep:
    """A step in the text of a definition.

    Attributes:
        name: Its name.
        needs: The names of the steps that it needs.
        tries: The maximum number of attempts.
        run: The cost of running it.
        undo: The cost of its compensation.
        skip: The cost of ending without it.
        keep: The cost of leaving its effect in place.
        undo_tries: The maximum number of attempts of its compensation.
        is_compensated: Whether the program that started the saga had a compensation for it; False
            in definitions of old releases, which do not say it.
        has_nothing: Whether it was declared with `undo=NOTHING`.
        is_optional: Whether its failure does not make the saga recover.
    """

    name: str
    needs: tuple[str, ...]
    tries: int
    run: ListedCost
    undo: ListedCost
    skip: ListedCost
    keep: ListedCost
    undo_tries: int = 1
    is_compensated: bool = False
    has_nothing: bool = False
    is_optional: bool = False


def steps_with_nothing(text: str) -> frozenset[str]:
    """Return the names of the steps of a definition that have nothing to undo."""
    return _marked_steps(text, NOTHING)


@functools.lru_cache(MAX_KEPT)
def listed_steps(text: str) -> tuple[ListedStep, ...]:
    """Return the steps of a definition, in order.

    `tomllib` takes 30 ms for 1,024 steps, and one view of a saga needs them several times.
    """
    marks = {name: lines.splitlines() for name, lines in MARKED.findall(text)}
    return tuple(
        _listed_step(table, marks.get(table["name"], ())) for table in tomllib.loads(text)["step"]
    )


def optional_steps(text: str) -> frozenset[str]:
    """Return the names of the optional steps of a definition."""
    return _marked_steps(text, OPTIONAL)


def _marked_steps(text: str, mark: str) -> frozenset[str]:
    """Return the names of the steps of a definition that have this line."""
    if f"\n{mark}\n" not in text:
        return frozenset()
    return frozenset(name for name, lines in MARKED.findall(text) if mark in lines.splitlines())


def pivot_of(text: str) -> str | None:
    """Return the name of the pivot of a definition, whose costs the package computed; or None."""
    match = PIVOT.search(text)
    return match[1] if match else None


def _listed_step(table: dict[str, Any], marks: Collection[str]) -> ListedStep:
    run, undo, skip, keep = (table.get(name, 0) for name in ("run", "undo", "skip", "keep"))
    return ListedStep(
        table["name"],
        tuple(table.get("needs", ())),
        table.get("tries", 1),
        run,
        undo,
        skip,
        keep,
        table.get("undo_tries", 1),
        COMPENSATED in marks,
        NOTHING in marks,
        OPTIONAL in marks,
    )


# -- definitions that come from an input


OF = "# of "
"""The beginning of the line after the name of a step. The line has the path of the origin."""
INCLUDES = re.compile(r"^# includes (\S+) (\S+) (\d+)( given)?$", re.M)
"""A line of the head for each inclusion.

It has the inclusion's path, the included saga's name and version, and `given` if there is a
`given=`.
"""
COST_LINES = re.compile(r"^(?:run|undo|skip|keep) = .*\n", re.M)


def is_shaped(text: str) -> bool:
    """Return whether the steps of a definition come from the saga's input."""
    return f"\n{OF}" in text


def included(text: str) -> dict[str, tuple[str, int]]:
    """Return the names and versions of the sagas that a definition includes, by path."""
    return {path: (name, int(version)) for path, name, version, _ in INCLUDES.findall(text)}


def giving(text: str) -> frozenset[str]:
    """Return the paths of the inclusions that have a function `given=`."""
    return frozenset(path for path, _, _, ending in INCLUDES.findall(text) if ending)


def without_costs(text: str) -> str:
    """Return a definition without its costs."""
    return COST_LINES.sub("", text)


def shaped_steps(text: str) -> list[dict[str, Any]]:
    """Return the steps of a definition that `write` wrote, as `tomllib` would.

    The key `of` has the path of the origin. It takes a tenth of the time of `tomllib`.
    """
    steps = []
    for block in text.split("\n[[step]]\n")[1:]:
        step: dict[str, Any] = {}
        for line in block.splitlines():
            key, _, value = line.partition(" = ")
            if line.startswith(OF):
                step["of"] = line[len(OF) :]
            elif key == "needs":
                step[key] = value[2:-2].split('", "')
            elif value:
                step[key] = value[1:-1] if value[0] == '"' else int(value)
        steps.append(step)
    return steps


# -- definitions of sagas that the package makes


MAX_NAME = 32
"""Maximum length of the name of a saga or of a step, in characters."""
EACH_ENDING = "-each"
STARTS_EACH = re.compile(r"^# starts each child of (\S+)$", re.M)
"""The line of the head with the step whose children a saga starts, one for each item."""


def each_name_of(saga: str, step: str) -> str:
    """Return the name of the saga that starts the children of a step."""
    return _name_with(f"{saga}-{step}", EACH_ENDING)


def each_line(step: str) -> str:
    """Return the line of the head of a saga that starts the children of a step."""
    return f"# starts each child of {step}"


def starts_each(text: str) -> bool:
    """Return whether the sagas of a definition start the children of one step."""
    return STARTS_EACH.search(text) is not None


UNDO_ENDING = "-undo"
UNDOES = re.compile(r"^# undoes (\S+)$", re.M)
"""The line of the head with the name of the child."""
SEES = re.compile(r'^name = "(.*)"\n# sees(.*)$', re.M)
"""The lines with a step's name, and with the steps whose results its compensation may read."""


@dataclasses.dataclass(frozen=True, slots=True)
class Compensation:
    """A step of a saga that undoes a child.

    Attributes:
        name: The child's step that it undoes.
        needs: The steps whose compensations come first.
        cost: The cost of the compensation.
        skip: The cost of leaving the effect of the step in place.
        tries: The maximum number of attempts of the compensation.
        sees: The steps of the child whose results the compensation may read.
    """

    name: str
    needs: tuple[str, ...]
    cost: ListedCost
    skip: ListedCost
    tries: int
    sees: tuple[str, ...]


def undo_name_of(child: str) -> str:
    """Return the name of the saga that undoes the child with this name."""
    return _name_with(child, UNDO_ENDING)


def _name_with(saga: str, ending: str) -> str:
    """Return a saga's name with an ending, and shortened to `MAX_NAME` if it is too long."""
    if len(saga) + len(ending) <= MAX_NAME:
        return f"{saga}{ending}"
    digest = hashlib.sha256(saga.encode()).hexdigest()[:6]
    return f"{saga[: MAX_NAME - len(ending) - 7]}-{digest}{ending}"


def child_of(text: str) -> str | None:
    """Return the name of the child that a definition's sagas undo, or None."""
    match = UNDOES.search(text)
    return match[1] if match else None


def sees_of(text: str) -> dict[str, tuple[str, ...]]:
    """Return the steps whose results each compensation may read.

    The dict is empty for the definition of an old release, which does not list them.
    """
    return {name: tuple(seen.split()) for name, seen in SEES.findall(text)}


def write_undo_definition(child: str, version: int, steps: Iterable[Compensation]) -> str:
    """Return the definition of the saga that undoes a child.

    Args:
        child: The child's name.
        version: The child's version.
        steps: The compensations that undo it.
    """
    lines = [f"# version {version}"] if version != 1 else []
    lines += [f"# undoes {child}", "format = 2", f'name = "{undo_name_of(child)}"']
    for step in steps:
        lines += ["", "[[step]]", f'name = "{step.name}"', " ".join(("# sees", *step.sees))]
        if step.needs:
            lines.append("needs = [" + ", ".join(f'"{need}"' for need in step.needs) + "]")
        lines += (
            _undo_cost_line("run", step.cost)
            + ['undo = "never"']
            + _undo_cost_line("skip", step.skip)
        )
        if step.tries != 1:
            lines.append(f"tries = {step.tries}")
    return "\n".join(lines) + "\n"


def _undo_cost_line(word: str, cost: ListedCost) -> list[str]:
    """Return the line of a cost in a list, which is empty for the default 0."""
    if isinstance(cost, str):
        return [f'{word} = "{cost}"']
    return [f"{word} = {cost}"] if cost else []


def read_compensations(text: str) -> list[Compensation]:
    """Return the steps of a definition that `write` wrote."""
    sees = sees_of(text)
    return [
        Compensation(
            step.name, step.needs, step.run, step.skip, step.tries, sees.get(step.name, ())
        )
        for step in listed_steps(text)
    ]


# -- definitions of sagas that call `on_end`


END_ENDING = "-end"
ENDS = re.compile(r"^# ends (\S+)$", re.M)
"""The line of the head with the name of the saga after whose end the function is called."""


def end_name_of(saga: str) -> str:
    """Return the name of the saga that calls the `on_end` function of the saga with this name."""
    return _name_with(saga, END_ENDING)


def ended_of(text: str) -> str | None:
    """Return the name of the saga after whose end a definition's sagas call, or None."""
    match = ENDS.search(text)
    return match[1] if match else None
