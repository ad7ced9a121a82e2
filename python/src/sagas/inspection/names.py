"""Names of steps: in the rows of lists, of items, and those of a filter that nothing has."""

from __future__ import annotations

from collections.abc import Iterable, Iterator, Sequence

from sagas.definition import definition_text
from sagas.definition.drawing import Groups
from sagas.definition.labels import is_hidden
from sagas.definition.layout import ShapeValues, StepOrigin
from sagas.definition.definition_text import OF
from sagas.definition.arguments import meant
from sagas.inspection.question import Query, Question
from sagas.storage.filters import EVERYTHING, Filter

MANY = 500
"""How many definitions one query fetches."""


class Names:
    """The names of steps, by the digest of a definition.

    A definition that was deleted concurrently has no names: its sagas are deleted too.
    """

    def __init__(self, texts: dict[str, str]) -> None:
        self._texts = texts
        self._names: dict[str, list[str]] = {}
        self._declared: dict[str, list[str]] = {}

    def __contains__(self, digest: str) -> bool:
        return digest in self._texts

    def text(self, digest: str) -> str:
        """Return the text of a definition."""
        return self._texts[digest]

    def of(self, digest: str) -> list[str]:
        """Return the names of a definition's steps. Each text is parsed once."""
        if digest not in self._names:
            self._names[digest] = step_names(self.text(digest))
        return self._names[digest]

    def is_of(self, step: str, digest: str, index: int) -> bool:
        """Return whether the step at an index has this name or this declared name."""
        return step in (self.of(digest)[index], self.declared(digest)[index])

    def declared(self, digest: str) -> list[str]:
        """Return the declared names of a definition's steps, such as `hotel/room`."""
        if digest not in self._declared:
            spots = Groups.read(self.text(digest)).origins
            self._declared[digest] = [spot.declared for spot in spots] or self.of(digest)
        return self._declared[digest]


def step_names(definition: str) -> list[str]:
    """Return the names of a definition's steps."""
    return [step.name for step in definition_text.listed_steps(definition)]


def of_digests(digests: Iterable[str]) -> Question[Names]:
    """Return the names for the definitions with these digests."""
    wanted, texts = sorted(set(digests)), dict[str, str]()
    for start in range(0, len(wanted), MANY):
        batch = wanted[start : start + MANY]
        marks = ", ".join("?" * len(batch))
        text = f"SELECT definition, text FROM definitions WHERE definition IN ({marks})"
        rows = yield Query(text, (*batch,))
        texts |= dict(rows)  # type: ignore[arg-type]
    return Names(texts)


def item_texts(
    spots: Sequence[StepOrigin], names: Sequence[str], shape: str | None
) -> dict[str, str]:
    """Describe, by step name, the index of the step's item, and its key if it came from a dict.

    `shape` is the stored shape. If it is encoded, the keys are unknown.
    """
    values = ShapeValues() if shape is None else ShapeValues.read(shape)
    described = ((name, [*_item_parts(spot, values)]) for name, spot in zip(names, spots))
    return {name: "; ".join(parts) for name, parts in described if parts}


def _item_parts(spot: StepOrigin, values: ShapeValues) -> Iterator[str]:
    """Yield the item of each enclosing inclusion, and then that of the step."""
    for depth, (name, number) in enumerate((*spot.scope, (spot.name, spot.number))):
        if number is None:
            continue
        keys = values.keys_of(spot.scope[:depth], name)
        prefix = f"{name} " if depth < len(spot.scope) else ""
        yield f"{prefix}index {number}" + (f", key {keys[number]}" if keys else "")


MAX_NAMES, MAX_DEFINITIONS = 256, 256
"""How many label names and definitions are searched for a similar name."""


def unmatched_warnings(
    filter: Filter, step: str | None = None, declared: Iterable[str] = ()
) -> Question[list[str]]:
    """Return warnings about a filter that selects nothing.

    They name labels that no saga of the filter's scope has, and the step if no definition has
    it. In a restricted scope, names that others may use are not revealed.

    Args:
        filter: The filter.
        step: The name or declared name of a step that was also requested.
        declared: Names of steps of the program's definitions, in addition to those of the store.
    """
    warnings, is_whole = list[str](), filter.scope == EVERYTHING
    if step is not None and is_whole and (why := (yield from _step_warning(step, declared))):
        warnings.append(why)
    for name, value in filter.labels.items():
        condition, parameters = Filter(labels={name: value}, scope=filter.scope).condition()
        if (yield Query(f"SELECT 1 FROM sagas s WHERE {condition} LIMIT 1", (*parameters,))):
            continue
        names = (yield from _label_names()) if is_whole else [name]
        if name in names:
            warnings.append(f"no saga has the label {name}={value!r}")
        else:
            warnings.append(f"no saga has a label {name!r}{meant(name, names)}")
    return warnings


def _label_names() -> Question[list[str]]:
    """Return the names of labels. Uses the index for each, because there may be millions of
    labels.
    """
    names, last = list[str](), ""
    while len(names) < MAX_NAMES:
        ((name,),) = yield Query("SELECT min(name) FROM labels WHERE name > ?", (last,))
        if name is None:
            break
        last = str(name)
        names.append(last)
    return [name for name in names if not is_hidden(name)]


def _step_warning(name: str, declared: Iterable[str]) -> Question[str | None]:
    """Return a warning if no definition has a step, else None."""
    known = {*declared}
    if name in known:
        return None
    parameters = f'"{name}"', f"{OF}{name}"
    query = "SELECT 1 FROM definitions WHERE instr(text, ?) > 0 OR instr(text, ?) > 0 LIMIT 1"
    if (yield Query(query, parameters)):
        return None
    rows = yield Query(f"SELECT definition, text FROM definitions LIMIT {MAX_DEFINITIONS}")
    texts: dict[str, str] = {digest: text for digest, text in rows}
    names = Names(texts)
    for digest in texts:
        known |= {*names.of(digest), *names.declared(digest)}
    return f"no definition has a step {name!r}{meant(name, sorted(known))}" if known else None
