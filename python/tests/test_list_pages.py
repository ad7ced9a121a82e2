"""Pages of any filter, however they are found, are those of a list that is sorted as a whole."""

from __future__ import annotations

import contextlib
import random
from typing import Any

import pytest
from cases import run, simple

import sagas
from sagas.core.results import Summary
from sagas.inspection import pages
from sagas.inspection.question import StoreReader
from sagas.server.routes import filters
from sagas.storage import admin
from sagas.storage.filters import NOTHING, Filter, Scope
from sagas.storage.postgresql.lookups import Reader as DatabaseReader
from sagas.storage.sqlite.store_file import Reader as FileReader

COUNT = 400
FILTERS: dict[str, dict[str, Any]] = {
    "all": {},
    "open": {"phase": "open"},
    "completed": {"phase": "completed"},
    "recovered": {"phase": "recovered"},
    "stuck": {"phase": "stuck"},
    "undo_failed": {"phase": "undo_failed"},
    "resolved": {"phase": "resolved"},
    "definition": {"saga": "often"},
    "rare definition": {"saga": "rare"},
    "label": {"labels": {"half": "0"}},
    "rare label": {"labels": {"rare": "yes"}},
    "labels": {"labels": {"half": "0", "rare": "yes"}},
    "search": {"search": "k1"},
    "rare search": {"search": "k17"},
    "no search": {"search": "%"},
    "since": {"started_after": 1_000_050.0},
    "until": {"started_before": 1_000_050.0},
    "between": {"started_after": 1_000_020.0, "started_before": 1_000_060.0},
    "none between": {"started_after": 1_000_060.0, "started_before": 1_000_020.0},
    "error": {"error": "sold"},
    "rare error": {"error": "sold 17"},
    "none": {"scope": NOTHING},
    "some": {"scope": Scope(frozenset({"often", "rare"}))},
    "keyed": {"scope": Scope(keys=frozenset({"k1*", "k77"}))},
    "recovered since": {"phase": "recovered", "started_after": 1_000_040.0},
    "open label": {"phase": "open", "labels": {"half": "0"}},
    "label until": {"labels": {"half": "0"}, "started_before": 1_000_070.0},
}


def fill(location: str) -> None:
    """Make sagas of some shards. Some started at the same time."""
    chance = random.Random(7)
    with contextlib.closing(admin.connect(location, "rw")) as link, link.transaction():
        true, false = (True, False) if location.startswith("postgresql:") else (1, 0)
        for shard in () if true is True else range(3):  # a file uses them to find open sagas
            link.changed("INSERT INTO shards(shard, name) VALUES(?, ?)", shard, f"s{shard}")
        for number in range(COUNT):
            id, at = 1000 * (number % 3) + number, 1_000_000.0 + chance.randrange(100)
            phase, note = chance.choice(
                [(None, None), ("stuck", None), ("stuck", "n")] + 5 * [("ended", None)]
            )
            recovered = phase == "ended" and chance.random() < 0.3
            failed = recovered and chance.random() < 0.3
            saga = "rare" if number % 97 == 0 else "often" if number % 3 else "other"
            link.changed(
                "INSERT INTO sagas(id, key, saga, definition_index, input, at, phase, recovered, "
                "undo_failed, ended, note) VALUES(?, ?, ?, 0, 'null', ?, ?, ?, ?, ?, ?)",
                *(id, f"k{number}", saga, at, phase, true if recovered else false),
                *(true if failed else false, at, "n" if failed and number % 2 else note),
            )
            label = "INSERT INTO labels VALUES(?, ?, ?)"
            link.changed(label, id, "half", str(number % 2))
            if number % 50 == 0:
                link.changed(label, id, "rare", "yes")
            link.changed(
                "INSERT INTO attempts VALUES(?, 0, 'run', 1, ?, ?, 0)",
                *(id, "fail" if number % 4 else "commit", f'{{"error": "sold {number}"}}'),
            )


def of_pages(reader: StoreReader, of: Filter, newest: bool, limit: int) -> list[Summary]:
    """Return all pages, one after the other."""
    summaries: list[Summary] = []
    word, cursor = "before" if newest else "after", None
    while True:
        options: dict[str, Any] = {word: cursor}
        page = reader.ask(pages.page(of=of, newest=newest, limit=limit, **options))
        summaries += page
        if len(page) < limit:
            return summaries
        cursor = filters.position_of(filters.cursor_of(pages.position_of(page[-1])))


@pytest.mark.parametrize("few, near, max_near", [(1, 2, 7), (60, 1, 40), (0, 100, 20_000)])
def test_pages_of_any_filter(
    location: str, few: int, near: int, max_near: int, monkeypatch: pytest.MonkeyPatch
) -> None:
    """This holds whether the near ones are enough, or not, or all."""
    for name, value in (("FEW", few), ("NEAR", near), ("MAX_NEAR", max_near)):
        monkeypatch.setattr(pages, name, value)

    async def main() -> None:
        async with sagas.open(location, [simple(lambda task: 7)]):
            pass

    run(main())
    fill(location)
    is_database = location.startswith("postgresql:")
    reader = StoreReader(DatabaseReader(location, "db") if is_database else FileReader(location))
    every = reader.ask(pages.page(limit=None))
    assert len(every) == COUNT and len({summary.started for summary in every}) <= 100
    assert every == sorted(every, key=lambda summary: (summary.started, summary.id), reverse=True)
    for name, options in FILTERS.items():
        whole = reader.ask(pages.page(of=Filter(**options), limit=None))
        ids = {summary.id for summary in whole}
        assert len(ids) == reader_count(location, Filter(**options)), name
        wanted = [summary for summary in every if summary.id in ids]
        for limit in (3, 50):
            assert of_pages(reader, Filter(**options), True, limit) == wanted, (name, limit)
            assert of_pages(reader, Filter(**options), False, limit) == wanted[::-1], (name, limit)
    reader.close()


def reader_count(location: str, of: Filter) -> int:
    """Return how many sagas of a filter there are."""
    condition, parameters = of.condition()
    with contextlib.closing(admin.connect(location)) as link:
        return int(link.ask(f"SELECT count(*) FROM sagas s WHERE {condition}", *parameters)[0][0])


def test_cursors_round_trip() -> None:
    """Any float, without an exponent, whose sign would be a second one."""
    chance = random.Random(7)
    floats = [chance.uniform(0, 4e9) for _ in range(2000)]
    floats += [0.0, 1e-7, 5e-324, 1e16, 1e22, 2.0**60, -1.5, 1795934845.949, 0.1 + 0.2]
    for at in floats:
        text = filters.cursor_of((at, 1_048_577))
        assert filters.parse_position(text) == (at, 1_048_577) and "e" not in text
        assert len(text) > 64 or filters.CURSOR.read(text, "after") == text
    assert filters.cursor_of((1795934845.949, 1048577)) == "1795934845.949-1048577"
    assert filters.parse_position(f"1.5-{10**30}") == (1.5, 2**62)
