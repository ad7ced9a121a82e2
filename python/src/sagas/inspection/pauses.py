"""Questions about pauses: which there are, and whether a scope covers anything."""

from __future__ import annotations

from collections.abc import Collection, Mapping

from sagas.core.pauses import Pause, PauseScope
from sagas.definition import definition_text
from sagas.definition.arguments import meant
from sagas.inspection.names import Names
from sagas.inspection.question import Query, Question
from sagas.storage import pauses as pauses_module
from sagas.storage.admin import Source

MAX_DEFINITIONS = 256
"""How many stored definitions are searched for a name."""
Declared = Mapping[str, Collection[str]]
"""The names of a program's definitions, each with the declared names of its steps."""
Known = dict[str, set[str]]


def pauses() -> Question[list[Pause]]:
    """Return the pauses, the oldest first."""
    rows = yield Query(pauses_module.ALL)
    return [pauses_module.of_row(row) for row in rows]


def check_names(link: Source, scope: PauseScope, declared: Declared) -> None:
    """Check the names of a scope.

    A pause with a misspelled name would pause nothing, and the operator would not notice.

    Args:
        link: A connection to the store.
        scope: The scope.
        declared: The definitions of the program, in addition to those of the store and its nodes.

    Raises:
        ValueError: No definition has the name, or the definition no such step.
    """
    if scope.saga is None:
        return
    known: Known = {name: {*steps} for name, steps in declared.items()}
    if not _is_known(scope, known):
        for name, steps in _stored(link, scope.saga).items():
            known.setdefault(name, set()).update(steps)
    if _is_known(scope, known):
        return
    of_nodes = link.node_definitions()
    if scope.saga in known:
        assert scope.step is not None
        similar = meant(scope.step, sorted(known[scope.saga]))
        why = f"the definition {scope.saga!r} has no step {scope.step!r}{similar}"
    elif scope.saga in of_nodes:
        return  # no saga of it was started, so only its nodes know its steps
    else:
        rows = link.ask("SELECT DISTINCT saga FROM sagas ORDER BY saga LIMIT ?", MAX_DEFINITIONS)
        names = sorted({*known, *of_nodes, *(str(name) for (name,) in rows)})
        why = f"no definition {scope.saga!r} is known here{meant(scope.saga, names)}"
    raise ValueError(f"nothing is paused: {why}")


def _is_known(scope: PauseScope, known: Known) -> bool:
    if scope.step is None:
        return scope.saga in known
    return scope.step in known.get(scope.saga or "", ())


def _stored(link: Source, saga: str) -> Known:
    """Return the declared steps of the stored definitions with this name."""
    query = "SELECT definition, text FROM definitions WHERE instr(text, ?) > 0 LIMIT ?"
    rows = link.ask(query, f'name = "{saga}"', MAX_DEFINITIONS)
    names = Names({str(digest): str(text) for digest, text in rows})
    known: Known = {}
    for digest, text in rows:
        if definition_text.name_of(str(text)) == saga:
            known.setdefault(saga, set()).update(names.declared(str(digest)))
    return known
