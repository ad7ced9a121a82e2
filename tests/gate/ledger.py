"""The ledger of mutants: for which texts the prover has refused all mutants of a crate.

`crates/mutants.csv` has a row for each crate with mutants: a digest of all that the verdicts depend
on, the number of mutants, the number of those that were refused, the logic that refused them, and
the day. The digest covers

- the mutants of the crate, its line of `crates.txt`, its sources, definitions and proofs;
- of each crate below it, what a proof above can cite: types, contracts, definitions and lemmas,
  without comments and bodies of functions;
- the file HANDLES, and the logic of the toolchain, whatever the letter of its release is.

A row says that a run refused all mutants. Only a run shows that it is true, so the suite tries a
part of the rounds again each time, and a release tries all."""

from __future__ import annotations

import csv
import hashlib
from dataclasses import astuple, dataclass, fields
from pathlib import Path

from crates import Tree


class InvalidLedger(Exception):
    """The ledger cannot be read, or says what cannot be."""


@dataclass(frozen=True)
class Row:
    """What the ledger has of a crate."""

    crate: str
    digest: str
    mutants: int
    refused: int
    logic: str
    date: str


def file_of(tree: Tree) -> Path:
    """Return where a checkout has its ledger."""
    return tree.top / "crates/mutants.csv"


def files_of(tree: Tree, crate: str) -> list[Path]:
    """Return the mutants of a crate, patches too. Its twins are no part of a verdict."""
    folder = tree.folder(crate) / "mutants"
    return sorted([*folder.glob("*.edit"), *folder.glob("*.patch")])


def digest_of(tree: Tree, crate: str, logic: str) -> str:
    """Return the digest of all that the verdicts on a crate's mutants depend on."""
    handles = (tree.top / "HANDLES").read_text(encoding="utf-8")
    mutants = [(it.name, it.read_text(encoding="utf-8")) for it in files_of(tree, crate)]
    parts: list[object] = [logic, handles, mutants, tree.crates[crate].line]
    parts.append(tree.digest(crate, is_public=False))
    for name in tree.below(crate):
        parts.append((tree.crates[name].line, tree.digest(name, is_public=True)))
    return hashlib.sha256(repr(parts).encode()).hexdigest()[:32]


def read(file: Path) -> dict[str, Row]:
    """Read a ledger by crate. A file that is missing has no rows.

    Raises:
        InvalidLedger: it is not such a table.
    """
    if not file.exists():
        return {}
    rows: dict[str, Row] = {}
    with file.open(encoding="utf-8", newline="") as lines:
        table = csv.DictReader(lines, strict=True)
        try:
            if table.fieldnames != [field.name for field in fields(Row)]:
                raise InvalidLedger(f"{file.name}: the columns are {table.fieldnames}")
            for line in table:
                counts = int(line["mutants"]), int(line["refused"])
                row = Row(line["crate"], line["digest"], *counts, line["logic"], line["date"])
                if row.crate in rows:
                    raise InvalidLedger(f"{file.name}: two rows for {row.crate}")
                if row.refused != row.mutants:
                    raise InvalidLedger(
                        f"{file.name}: {row.crate} has mutants that were not refused"
                    )
                rows[row.crate] = row
        except (csv.Error, TypeError, ValueError) as error:
            raise InvalidLedger(f"{file.name}, line {table.line_num}: {error}") from None
    return rows


def write(file: Path, rows: dict[str, Row]) -> None:
    """Write a ledger, its rows sorted by crate."""
    with file.open("w", encoding="utf-8", newline="") as lines:
        table = csv.writer(lines, lineterminator="\n")
        table.writerow([field.name for field in fields(Row)])
        table.writerows(astuple(rows[crate]) for crate in sorted(rows))


def why_stale(tree: Tree, rows: dict[str, Row], crate: str, logic: str) -> str:
    """Return why the mutants of a crate have to be tried, or nothing if the ledger has them.

    Raises:
        InvalidLedger: the row has this digest and another number of mutants.
    """
    row = rows.get(crate)
    if row is None:
        return "no row"
    if row.logic != logic:
        return f"refused by the logic {row.logic}, and this is {logic}"
    if row.digest != digest_of(tree, crate, logic):
        return "changed since"
    if row.mutants != len(files_of(tree, crate)):
        raise InvalidLedger(
            f"{crate}: {row.mutants} mutants, and there are {len(files_of(tree, crate))}"
        )
    return ""


def check(tree: Tree, crates: list[str]) -> dict[str, Row]:
    """Read a checkout's ledger; each of its rows is of a crate with mutants.

    Raises:
        InvalidLedger: it is broken.
    """
    rows = read(file_of(tree))
    unknown = sorted(rows.keys() - set(crates))
    if unknown:
        raise InvalidLedger(
            f"mutants.csv: rows of crates that have no mutants: {', '.join(unknown)}"
        )
    return rows
