"""`DefinitionRegistry`: the sagas of an open store, and their definitions."""

from __future__ import annotations

import functools
import hashlib
import json
import weakref
from collections import OrderedDict
from collections.abc import Callable, Iterable, Iterator, Mapping, Sequence
from typing import Any, NamedTuple, TypeVar

from sagas.base.errors import DefinitionError, MissingStep, SagasError
from sagas.definition import definition_text, undo_sagas
from sagas.definition.capacity import MAX_DEFINITIONS, SHARD_CAPACITY
from sagas.definition.compiled import CompiledDefinition, Hooks
from sagas.definition.definition_text import listed_steps, name_of, version_of
from sagas.definition.payloads import PLAIN as PLAIN_PAYLOADS, Payloads
from sagas.definition.parts import SagaParts
from sagas.definition.saga import Saga, declared_text
from sagas.definition.declaration import Declaration
from sagas.definition.shape import Shape, Template
from sagas.definition.step import Step
from sagas.definition.task_data import Context
from sagas.definition.waits import check_is_saga


def digest_and_texts(sagas: Iterable[Saga[Any]]) -> tuple[str, list[str]]:
    """Return the digest of a set of definitions, and their texts sorted by name."""
    texts = [
        declared_text(saga) for saga in sorted(sagas, key=lambda saga: (saga.name, saga.version))
    ]
    return digest_of_texts(texts), texts


def digest_of_texts(texts: list[str]) -> str:
    """Return the digest of a set of definitions, given their texts."""
    return hashlib.sha256(json.dumps(texts).encode()).hexdigest()[:16]


class DefinitionSet(NamedTuple):
    """The definitions that a shard has when it is created.

    The set is empty for sagas whose steps come from their input, and for sagas that undo children
    of earlier definitions. Their shards get the definitions with the sagas.
    """

    digest: str = ""
    kinds: Sequence[CompiledDefinition] = ()


GROWING = DefinitionSet()


class Fitted(NamedTuple):
    """The definition of a saga for an input.

    Attributes:
        kind: The definition; None if it cannot be computed from the input.
        shape: The stored values of its shape, if its steps come from the input, else None.
        wrong: Why the saga cannot be started, or None.
    """

    kind: CompiledDefinition | None
    shape: str | None
    wrong: SagasError | None


def with_end_sagas(sagas: Mapping[tuple[str, int], Saga[Any]]) -> dict[tuple[str, int], Saga[Any]]:
    """Return the sagas of a store, with those that call `on_end` functions.

    Raises:
        DefinitionError: A saga has the name of one that calls such a function.
    """
    complete = dict(sagas)
    for saga in sagas.values():
        if (end_saga := saga.end_saga) is None:
            continue
        if (end_saga.name, end_saga.version) in complete:
            other = complete[end_saga.name, end_saga.version]
            raise DefinitionError(
                f"{other.where}: saga {other.name!r}: the saga that calls on_end of {saga.name!r} "
                "has this name. Set another name"
            )
        complete[end_saga.name, end_saga.version] = end_saga
    return complete


class DefinitionRegistry:
    """The sagas of an open store, and the definitions that it compiled for them.

    Attributes:
        declared: The sagas that the store was opened with.
        sagas: These sagas, by name and version, with the sagas that undo their children, and those
            that call their `on_end` functions.
        context: The context that their functions share.
        payloads: How inputs and results are stored.
        digest: The digest of the definitions.
        texts: The texts of the definitions.
        kinds: The definitions of the sagas with fixed steps.
        room: Maximum number of sagas of a shard.
        by_name: The definitions of the sagas with fixed steps, by name and version.
    """

    def __init__(self, sagas: Iterable[Saga[Any]], payloads: Payloads = PLAIN_PAYLOADS) -> None:
        self.sagas: dict[tuple[str, int], Saga[Any]] = {}
        self.context, self.payloads = Context(), payloads
        self._hooks: Callable[[str], Hooks] = lambda name: {}
        if isinstance(sagas, Saga) or not isinstance(sagas, Iterable):
            raise DefinitionError(
                f"expected a list of sagas, got {sagas!r}. Write open(..., [trip])"
            )
        for saga in sagas:
            if not isinstance(saga, Saga):
                raise DefinitionError(f"expected a sagas.Saga, got {saga!r}")
            name = (saga.name, saga.version)
            if name in self.sagas:
                raise DefinitionError(
                    f"{saga.where}: saga {saga.name!r}: another saga has this name and version, "
                    f"at {self.sagas[name].where}. Change one of them"
                )
            self.sagas[name] = saga
        if not self.sagas:
            raise DefinitionError("a store needs at least one saga")
        self.declared = list(self.sagas.values())
        self.sagas = with_end_sagas(undo_sagas.with_undo_sagas(self.sagas))
        self.digest, self.texts = digest_and_texts(self.sagas.values())
        self._kinds: dict[str, CompiledDefinition] = {}
        self._report_undos: dict[tuple[str, int, str], Saga[Any]] = {}
        self._shaped = ShapedKinds(self)
        self.kinds = [self.kind(saga.toml()) for saga in self._fixed()]
        self._check_queues()
        self.room = SHARD_CAPACITY
        self.by_name = {(kind.name, kind.version): kind for kind in self.kinds}
        self._fitted: dict[SagaParts, Fitted] = {
            saga: Fitted(self.by_name[name], None, None)
            for name, saga in self.sagas.items()
            if name in self.by_name
        }
        self._sets = dict(self._divided())
        self._calling: dict[SagaParts, bool] = {}  # whether functions compute the steps

    def end_kind(self, kind: CompiledDefinition) -> CompiledDefinition | None:
        """Return the definition of the saga that calls `on_end` after the end of another one.

        Args:
            kind: The definition that the saga ran with.

        Returns:
            None if this program has no such function for it.
        """
        end_saga = kind.saga.end_saga if kind.saga is not None else None
        return None if end_saga is None else self.by_name[end_saga.name, end_saga.version]

    def report_undo(self, saga: SagaParts, step: Step[Any]) -> Saga[Any]:
        """Return the saga that calls the compensation of a step with an unused report.

        `report_undos.fault` must allow it.
        """
        name = (
            definition_text.undo_name_of(saga.name),
            saga.version,
            undo_sagas.undo_step_name(saga, step),
        )
        if name not in self._report_undos:
            undo_saga = self._report_undos[name] = undo_sagas.report_undo_saga(saga, step)
            kind = CompiledDefinition(undo_saga.toml(), undo_saga, self.context, self.payloads)
            kind = self._kinds.setdefault(kind.text, kind)
            kind.hooks = self._hooks_of(kind)
            self._fitted[undo_saga] = Fitted(kind, None, None)
            self._sets[kind] = DefinitionSet(digest_of_texts([kind.text]), [kind])
        return self._report_undos[name]

    def _undoing(self, text: str) -> Saga[Any] | None:
        """Return the saga that undoes an unused report, given its stored definition."""
        name, version = name_of(text), version_of(text)
        if definition_text.child_of(text) is not None or not name.endswith(
            definition_text.UNDO_ENDING
        ):
            return None
        if len(steps := listed_steps(text)) != 1:
            return None
        for saga in self.sagas.values():
            if (definition_text.undo_name_of(saga.name), saga.version) != (name, version):
                continue
            for step in saga.all_steps:
                is_named = undo_sagas.undo_step_name(saga, step) == steps[0].name
                if (
                    is_named
                    and undo_sagas.is_reported(step)
                    and undo_sagas.report_fault(step) is None
                ):
                    return self.report_undo(saga, step)
        return None

    def _fixed(self) -> list[Saga[Any]]:
        """Return the sagas whose steps do not come from their input, sorted by name."""
        fixed = (saga for saga in self.sagas.values() if not saga.is_shaped)
        return sorted(fixed, key=lambda saga: (saga.name, saga.version))

    def _check_queues(self) -> None:
        """Check that workers of queues do not get encoded values or blobs.

        Raises:
            DefinitionError: They would.
        """
        option = "codec" if self.payloads.codec else "blobs"
        for saga in self.sagas.values() if self.payloads.reads else ():
            for step in (step for step in saga.all_steps if step.run.queue or step.undo.queue):
                raise DefinitionError(
                    f"saga {saga.name!r}, step {step.name!r}: a store with {option}= cannot "
                    "have steps with queue=, because their workers read stored values themselves"
                )

    def _divided(self) -> Iterator[tuple[CompiledDefinition, DefinitionSet]]:
        """Yield each definition with its set, in sets of `MAX_DEFINITIONS`."""
        for first in range(0, len(self.kinds), MAX_DEFINITIONS):
            kinds = self.kinds[first : first + MAX_DEFINITIONS]
            definitions = DefinitionSet(digest_of_texts([kind.text for kind in kinds]), kinds)
            yield from ((kind, definitions) for kind in kinds)

    def kind(self, text: str) -> CompiledDefinition:
        """Return the definition of a text."""
        if text not in self._kinds:  # those of shaped sagas are elsewhere
            if definition_text.is_shaped(text):
                return self._shaped.kind(text)
            saga = self._undoing(text) or self._saga(text)
            if text in self._kinds:
                return self._kinds[text]
            kind = self._kinds[text] = CompiledDefinition(text, saga, self.context, self.payloads)
            kind.hooks = self._hooks_of(kind)
        return self._kinds[text]

    def _saga(self, text: str) -> Saga[Any] | None:
        """Return the saga with the functions of a definition, or None.

        The saga that undoes a child follows the stored definition, even if the program declares
        another one.
        """
        version, child_name = version_of(text), definition_text.child_of(text)
        saga = self.sagas.get((name_of(text), version))
        if saga is not None and saga.undo_text == text:
            return saga
        if child_name is None and (saga is None or saga.undoes is None):
            return saga
        child = self.sagas.get((child_name, version)) if child_name else saga and saga.undoes
        return undo_sagas.undo_saga_of_text(child, text) if child else None

    def undo_kind(self, child: CompiledDefinition) -> CompiledDefinition | None:
        """Return the definition of the saga that undoes a completed child.

        Args:
            child: The definition that the child ran with.

        Returns:
            None if there is nothing to undo.

        Raises:
            MissingStep: This program does not have a compensation.
        """
        missing, saga = undo_sagas.lacks(child.saga, child.text), child.saga
        if missing is not None or saga is None:
            raise MissingStep(
                f"a child of saga {child.name!r} (version {child.version}) is to be undone, but "
                f"{missing}. Declare it again"
            )
        text = undo_sagas.undo_text_of_child(saga, child.text)
        return None if text is None else self.kind(text)

    def hooks(self, name: str) -> Hooks:
        """Return the webhooks that receive events of the sagas with this name."""
        return self._hooks(name)

    def fit(self, saga: SagaParts, text: str) -> Fitted | None:
        """Return the definition of a saga for an input.

        Args:
            saga: The saga.
            text: The input as JSON.

        Returns:
            None if functions compute the steps. Then `shaping` returns a function that calls them.

        Raises:
            DefinitionError: The store was not opened with this saga.
        """
        if not isinstance(saga, SagaParts):
            check_is_saga(saga)
        fitted = self._fitted.get(saga)
        if fitted is not None and (kind := fitted.kind) is not None:
            wrong = kind.input_types.error(text)
            return fitted if wrong is None else Fitted(kind, None, wrong)
        if self.sagas.get((saga.name, saga.version)) is not saga:
            raise DefinitionError(
                f"{saga.where}: saga {saga.name!r}: the store was not opened with it. Add it "
                "to open(..., [...])"
            )
        if saga not in self._calling:  # all of its parts are declared by now
            self._calling[saga] = saga.calls_functions
        return None if self._calling[saga] else self.shaped(text, self.shaping(saga, text)())

    def shaping(self, saga: SagaParts, text: str) -> Callable[[], Shape | SagasError]:
        """Return a function that computes the shape of a saga for an input.

        It calls functions of the declaration, which may be slow, so call it in a thread. It returns
        an error instead of raising it.
        """
        shape = self._shaped.shaping(saga, text)

        def computed() -> Shape | SagasError:
            try:
                return shape()
            except SagasError as error:
                return error

        return computed

    def shaped(self, text: str, shape: Shape | SagasError) -> Fitted:
        """Return the definition for an input and the shape, or the error, of `shaping`."""
        if isinstance(shape, SagasError):
            return Fitted(None, None, shape)
        try:
            kind, values = self._shaped.of(shape)
        except SagasError as error:
            return Fitted(None, None, error)
        return Fitted(kind, values, kind.input_types.error(text))

    def announce(self, hooks: Callable[[str], Hooks]) -> None:
        """Set the webhooks that receive events.

        Args:
            hooks: Returns the webhooks, given the name of the saga.
        """
        self._hooks = hooks
        for kind in (*self._kinds.values(), *self._shaped.all()):
            kind.hooks = self._hooks_of(kind)

    def _hooks_of(self, kind: CompiledDefinition) -> Hooks:
        """Return the webhooks that receive events of the sagas of a definition.

        If the sagas undo children, or call `on_end`, these are also the webhooks of the children,
        or of the sagas that have ended.
        """
        saga = kind.saga
        hooks, other = self._hooks(kind.name), saga and (saga.undoes or saga.ends)
        if not other:
            return hooks
        more = self._hooks(other.name)
        types = dict.fromkeys((*hooks, *more))
        return {
            name: (*dict.fromkeys((*hooks.get(name, ()), *more.get(name, ()))),) for name in types
        }

    def set_of(self, kind: CompiledDefinition) -> DefinitionSet:
        """Return the definitions of the shards for new sagas of a definition."""
        return self._sets.get(kind, GROWING)


# -- definitions that come from inputs


MAX_RECENT = 256
"""Number of recent definitions and of recent templates in the cache.

Definitions of open shards are cached as well, for as long as the shards have them.
"""
T = TypeVar("T")


class Structure:
    """The common part of all definitions that differ only in their costs.

    Attributes:
        template: The template of their texts.
        kind: One of the definitions; None before the first one is made.
    """

    __slots__ = ("kind", "template")

    def __init__(self, template: Template) -> None:
        self.template = template
        self.kind: CompiledDefinition | None = None


class ShapedKinds:
    """The definitions of a store's sagas whose steps come from their input."""

    def __init__(self, registry: DefinitionRegistry) -> None:
        self._registry = registry
        self._kinds: weakref.WeakValueDictionary[
            str, CompiledDefinition
        ] = weakref.WeakValueDictionary()
        self._alike: weakref.WeakValueDictionary[
            str, CompiledDefinition
        ] = weakref.WeakValueDictionary()
        self._recent: OrderedDict[tuple[Any, ...], CompiledDefinition] = OrderedDict()
        self._structures: OrderedDict[tuple[Any, ...], Structure] = OrderedDict()
        self._declared: dict[tuple[str, int], Declaration] = {}

    def all(self) -> Iterator[CompiledDefinition]:
        """Return the definitions that are in use."""
        return iter([*self._kinds.values()])

    def kind(self, text: str) -> CompiledDefinition:
        """Return the definition of a text."""
        kind = self._kinds.get(text)
        if kind is None:
            alike = definition_text.without_costs(text)
            like = self._alike.get(alike)
            kind = self._made(text) if like is None else like.with_costs(text)
            self._kinds[text] = self._alike[alike] = kind
        return kind

    def _made(self, text: str) -> CompiledDefinition:
        registry, declared = self._registry, self._declaration(name_of(text), version_of(text))
        kind = CompiledDefinition(
            text, declared.root, registry.context, registry.payloads, declared
        )
        kind.hooks = registry.hooks(kind.name)
        return kind

    def _declaration(self, name: str, version: int) -> Declaration:
        """Return the cached declaration of a saga."""
        if (name, version) not in self._declared:
            self._declared[name, version] = Declaration(self._registry.sagas.get((name, version)))
        return self._declared[name, version]

    def shaping(self, saga: SagaParts, text: str) -> Callable[[], Shape]:
        """Return a function that computes the shape of a saga for an input.

        A thread may call it. It raises `InvalidInput` if the steps cannot be computed from the
        input, and `TooLarge` if there are too many of them.

        Args:
            saga: The saga.
            text: The input as JSON.
        """
        return functools.partial(Shape, saga, text, self._declaration(saga.name, saga.version))

    def of(self, shape: Shape) -> tuple[CompiledDefinition, str]:
        """Return the definition of a shape, and the stored text of its values.

        Raises:
            TooLarge: The shape has too many steps or needs.
        """
        saga = shape.saga
        structure = (saga.name, saga.version, *shape.structure)
        signature = (structure, *shape.costs)
        kind = self._recent.get(signature)
        if kind is None:
            kind = _cached(self._recent, signature, self._written(structure, shape))
        else:
            self._recent.move_to_end(signature)
        return kind, self._registry.payloads.encode(shape.values.text())

    def _written(self, key: tuple[Any, ...], shape: Shape) -> CompiledDefinition:
        """Return the definition of a shape, by the cached structure if there is one."""
        structure = self._structures.get(key)
        if structure is None:
            structure = _cached(self._structures, key, Structure(Template(shape)))
        else:
            self._structures.move_to_end(key)
        text = structure.template.text(shape.costs)
        if structure.kind is None:
            structure.kind = self.kind(text)
            return structure.kind
        kind = self._kinds.get(text)
        if kind is None:
            kind = self._kinds[text] = structure.kind.with_costs(text)
        return kind


def _cached(recent: OrderedDict[tuple[Any, ...], T], key: tuple[Any, ...], value: T) -> T:
    """Cache a value, and remove the least recently used one if the cache is full."""
    recent[key] = value
    if len(recent) > MAX_RECENT:
        recent.popitem(last=False)
    return value
