"""The verifier's checks of erased sagas in a round of `kills_features.py`."""

from __future__ import annotations

import json
import re
from collections import Counter, defaultdict
from collections.abc import Callable, Iterable, Mapping
from typing import Any

from features_shop import MARK
from features_store import ERASED, ERASED_TEXT, FAILED, Instance

Json = dict[str, Any]
MARKED = re.compile(rf"{MARK} (\d+)")
"""A mark of an input, with the number of its root saga."""
RESULT = re.compile(r"of: ?\[([^,\]]+), ?[^,\]]+\]")
"""A result of a function without its quotes, with the key of its saga."""
ROOT = re.compile(r"(k\d+)(?=x?(?:/|$))")
BLOBS = re.compile(r'"\$blob":"([^"]+)"')
DECIDED = "SELECT key, value FROM operator_commands WHERE command = 'erase'"
TREE = "key = '{key}' OR key LIKE '{key}/:%'"
REFERENCES = """
SELECT input FROM sagas WHERE {tree}
UNION ALL SELECT value FROM attempts JOIN sagas USING (id) WHERE value IS NOT NULL AND ({tree})
UNION ALL SELECT shape FROM shapes JOIN sagas USING (id) WHERE {tree}
"""
Rows = list[tuple[Any, ...]]


def blobs_of(rows: Callable[[str], Rows], key: str) -> list[str]:
    """Return the keys of the blobs to which a saga and those below it refer."""
    texts = rows(REFERENCES.format(tree=TREE.format(key=key)))
    return [blob for (text,) in texts for blob in BLOBS.findall(text)]


class ErasureCheck:
    """The checks of the erased sagas of a store.

    Attributes:
        erased: The erased sagas of the database.
    """

    def __init__(
        self,
        by_key: Mapping[str, list[Instance]],
        notes: Iterable[Json],
        fault: Callable[[str, object], None],
        frees_keys: bool,
    ) -> None:
        self._by_key, self._fault, self._frees_keys = by_key, fault, frees_keys
        self._requested = {note["key"] for note in notes if note["what"] == "erasing"}
        self._acknowledged = [note for note in notes if note["what"] == "erased"]
        instances = [instance for same in by_key.values() for instance in same]
        self.erased = [saga for saga in instances if saga.is_erased and not saga.is_archived]

    def check(self, decisions: Rows, blobs: Iterable[str]) -> None:
        """Check acknowledgements, what is below erased sagas, rows, decisions and blobs."""
        left = set(blobs)
        for note in self._acknowledged:
            same = self._by_key.get(note["key"], [])
            if not any(saga.is_erased or saga.is_archived for saga in same):
                self._fault("erased", f"{note} is acknowledged, and the saga has its data")
            if note["new"] and (kept := left & {*note["blobs"]}):
                self._fault("erased", f"{note['key']} has the blobs {kept}")
        for saga in self.erased:
            if saga.key.partition("/:")[0] not in self._requested:
                self._fault("erased", f"{saga.key} is erased, and no operator requested it")
            self._blank(saga)
            self._below(saga)
        self._decided(decisions)

    def _blank(self, saga: Instance) -> None:
        """Check that the rows of an erased saga have no value, error or label."""
        for attempt, (event, value) in saga.values.items():
            if (
                value is None
                or isinstance(value, dict)
                and (
                    [*value] == [ERASED]
                    or value.get("error") == ERASED_TEXT
                    or value == {FAILED: ERASED_TEXT}
                )
            ):
                continue
            self._fault("erased", f"{saga.key} {attempt} {event} has {value}")

    def _below(self, saga: Instance) -> None:
        """Check that all sagas below an erased one are erased."""
        for key, same in self._by_key.items() if not self._frees_keys else ():
            if key.startswith(f"{saga.key}/:"):
                for below in same:
                    if not below.is_erased:
                        self._fault("erased", f"{saga.key} is erased, and {key} below it is not")

    def _decided(self, decisions: Rows) -> None:
        """Check that the list of decisions has each erasure once, with a name."""
        counts = Counter[str]()
        for key, value in decisions:
            counts[key] += 1
            if not json.loads(value)["by"]:
                self._fault("erased", f"the erasure of {key} has no name: {value}")
        erased = Counter(saga.key for saga in self.erased)
        for key in counts.keys() | erased.keys():
            if counts[key] != erased[key] and not self._frees_keys:
                text = f"{erased[key]} times, with {counts[key]} decisions"
                self._fault("erased", f"{key} is erased {text}")

    def search(self, texts: Iterable[tuple[str, str]]) -> None:
        """Check that no stored text has a value of an erased saga."""
        keys, roots = defaultdict[str, list[bool]](list), defaultdict[str, list[bool]](list)
        for key, same in self._by_key.items():
            is_erased = all(saga.is_erased for saga in same)
            keys[key].append(is_erased)
            if root := ROOT.match(key):  # a restarted saga has the same input
                roots[root[1]].append(is_erased)
        erased = {key for key, flags in keys.items() if all(flags)}
        numbers = {root[1:] for root, flags in roots.items() if all(flags)}
        for subject, text in texts if erased else ():
            plain = re.sub(r'[\\"]', "", text)
            for match in MARKED.finditer(plain):
                if match[1] in numbers:
                    self._shown(subject, plain, match)
            for match in RESULT.finditer(plain):
                if match[1] in erased:
                    self._shown(subject, plain, match)

    def _shown(self, subject: str, text: str, match: re.Match[str]) -> None:
        around = text[max(0, match.start() - 60) : match.end() + 60]
        self._fault("erased", f"{subject} has {match[0]}: {around!r}")
