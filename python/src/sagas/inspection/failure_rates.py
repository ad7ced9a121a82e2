"""Rates of failure that the history of a store shows."""

from __future__ import annotations

import contextlib
import dataclasses
from collections import Counter
from collections.abc import Mapping

from sagas.base.errors import InvalidStore
from sagas.definition import definition_text, serialization
from sagas.definition.drawing import Groups
from sagas.inspection import names as names_module
from sagas.inspection.question import Query, Question, Row, StoreReader
from sagas.storage import admin
from sagas.storage.queries import OF_SHARD

MAX_SAGAS = 10_000
"""How many of the latest ended sagas are read."""
ENDED = f"""SELECT id, definition_index FROM sagas WHERE saga = ? AND phase IS NOT NULL
ORDER BY id DESC LIMIT {MAX_SAGAS}"""
COUNT = f"SELECT count(*) FROM ({ENDED}) s"
OUTCOMES = f"""
SELECT d.definition, r.step,
  CASE WHEN r.event = 'fail' OR substr(r.value, 2, 10) = '"{serialization.FAILED}":'
  THEN 'failed' ELSE 'committed' END, count(*)
FROM ({ENDED}) s {OF_SHARD}
JOIN attempts r ON r.id = s.id AND r.action = 'run' AND r.event IN ('fail', 'commit')
GROUP BY 1, 2, 3
"""


@dataclasses.dataclass(frozen=True, slots=True)
class LearnedRates:
    """The outcomes of steps in the ended sagas of a store.

    Attributes:
        sagas: The number of sagas.
        rates: How often a step failed permanently, of those times that it ended: by declared name.
    """

    sagas: int
    rates: Mapping[str, float]

    def of_definition(self, text: str) -> dict[str, float]:
        """Return the rates of the steps that a definition has."""
        origins = Groups.read(text).origins
        declared = [origin.declared for origin in origins] or [
            step.name for step in definition_text.listed_steps(text)
        ]
        return {name: self.rates[name] for name in dict.fromkeys(declared) if name in self.rates}


def learned(saga: str) -> Question[LearnedRates]:
    """Return the rates of failure in the latest ended sagas of a name, whatever their version."""
    ((sagas,),) = yield Query(COUNT, (saga,))
    rows = yield Query(OUTCOMES, (saga,))
    names = yield from names_module.of_digests(digest for digest, *_ in rows)
    counts = dict[str, Counter[str]]()
    for digest, step, outcome, count in rows:
        if digest in names:  # else it was deleted concurrently
            counts.setdefault(names.declared(digest)[step], Counter())[outcome] += count
    rates = {name: tally["failed"] / tally.total() for name, tally in counts.items()}
    return LearnedRates(sagas, rates)


def of_store(store: str, saga: str) -> LearnedRates:
    """Return the rates of failure in a store: a file, or the URL of a database.

    Raises:
        InvalidStore: It cannot be read.
    """
    try:
        with contextlib.closing(_SourceReader(store)) as reader:
            return StoreReader(reader).ask(learned(saga))
    except admin.Trouble as trouble:
        raise InvalidStore(str(trouble)) from trouble


class _SourceReader:
    """Reads a store as of one moment."""

    def __init__(self, store: str) -> None:
        self._link = admin.connect(store)
        self._link.begin()

    def rows(self, query: str, *parameters: object) -> list[Row]:
        """Return the rows of a query."""
        return self._link.ask(query, *parameters)

    def close(self) -> None:
        """Close the connection."""
        self._link.close()
