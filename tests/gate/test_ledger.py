"""What makes the mutants of a crate stale, and what breaks a ledger."""

from __future__ import annotations

import random
import shutil
from pathlib import Path

import ledger
import pytest
import trials
from crates import PARTS, TOP, Tree
from mutants import crates_with_mutants, read_all, texts_with

LOGIC = "0123456789abcdef"


@pytest.fixture(scope="module")
def copied(tmp_path_factory: pytest.TempPathFactory) -> Path:
    """A copy of the crates, with a ledger that has all of their mutants."""
    top = tmp_path_factory.mktemp("checkout")
    for name in ("crates.txt", "HANDLES"):
        shutil.copy(TOP / name, top)
    for crate in Tree().crates:
        for part in (*PARTS, "mutants"):
            if (TOP / "crates" / crate / part).is_dir():
                shutil.copytree(TOP / "crates" / crate / part, top / "crates" / crate / part)
    tree = Tree(top)
    rows = {
        name: ledger.Row(
            name,
            ledger.digest_of(tree, name, LOGIC),
            len(ledger.files_of(tree, name)),
            len(ledger.files_of(tree, name)),
            LOGIC,
            "2026-11-29",
        )
        for name in crates_with_mutants(tree)
    }
    ledger.write(ledger.file_of(tree), rows)
    return top


@pytest.fixture
def checkout(copied: Path, tmp_path: Path) -> Path:
    """A copy of one's own."""
    return Path(shutil.copytree(copied, tmp_path / "checkout"))


def stale(checkout: Path, logic: str = LOGIC) -> set[str]:
    """Return the crates whose mutants have to be tried."""
    tree = Tree(checkout)
    crates = crates_with_mutants(tree)
    rows = ledger.check(tree, crates)
    return {name for name in crates if ledger.why_stale(tree, rows, name, logic)}


def with_mutants_above(checkout: Path, crate: str) -> set[str]:
    """Return a crate and those above it, as far as they have mutants."""
    tree = Tree(checkout)
    return tree.above({crate}) & {*crates_with_mutants(tree)}


def replace(file: Path, old: str, new: str) -> None:
    """Replace the first place of a text that the file has."""
    text = file.read_text(encoding="utf-8")
    assert old in text
    file.write_text(text.replace(old, new, 1), encoding="utf-8")


def test_an_unchanged_checkout_needs_nothing(checkout: Path) -> None:
    assert stale(checkout) == set()


@pytest.mark.parametrize("crate", ["saga_fleet", "saga_log"])
def test_a_letter_of_a_contract_concerns_all_above(checkout: Path, crate: str) -> None:
    files = sorted((checkout / "crates" / crate / "src").rglob("*.rt"))
    file = next(it for it in files if "ensures" in it.read_text(encoding="utf-8"))
    replace(file, "ensures", "ensures_")
    assert stale(checkout) == with_mutants_above(checkout, crate)
    assert crate in stale(checkout)


def test_a_definition_concerns_all_above(checkout: Path) -> None:
    replace(checkout / "crates/saga_case/specs/Terms.antt", "AtMost", "AtMosts")
    assert stale(checkout) == with_mutants_above(checkout, "saga_case")
    assert len(stale(checkout)) > 10


def test_a_body_concerns_its_crate_alone(checkout: Path) -> None:
    tree = Tree(checkout)
    changed = read_all(tree, "saga_case")[0]
    assert not changed.is_alone
    for file, text in texts_with(tree.folder("saga_case"), [changed]).items():
        (tree.folder("saga_case") / file).write_text(text, encoding="utf-8")
    assert stale(checkout) == {"saga_case"}


def test_a_comment_elsewhere_changes_nothing(checkout: Path) -> None:
    for file in sorted((checkout / "crates/saga_rows/src").rglob("*.rt")):
        file.write_text("// A comment.\n" + file.read_text(encoding="utf-8"), encoding="utf-8")
    assert stale(checkout) == {"saga_rows"}


def test_a_mutant_concerns_its_crate(checkout: Path) -> None:
    replace(checkout / "crates/saga_bytes/mutants/line_feed_kept.edit", "new: ", "new:  ")
    assert stale(checkout) == {"saga_bytes"}
    (checkout / "crates/saga_json/mutants/another.edit").write_text("file: src/lib.rt\n")
    assert stale(checkout) == {"saga_bytes", "saga_json"}


def test_another_logic_concerns_all(checkout: Path) -> None:
    assert stale(checkout, "fedcba9876543210") == {*crates_with_mutants(Tree(checkout))}


def test_a_ledger_of_another_tree_is_found(checkout: Path) -> None:
    files = sorted((checkout / "crates/saga_def/specs").glob("*.antt"))
    replace(files[0], "pub ", "pub  ")
    other = ledger.file_of(Tree(checkout))
    assert stale(checkout) == with_mutants_above(checkout, "saga_def")
    rows = ledger.read(other)
    assert rows.keys() == {*crates_with_mutants(Tree(checkout))}


HEAD = "crate,digest,mutants,refused,logic,date\n"

BROKEN = {
    "no table": "nothing\n",
    "another column": "crate,digest,mutants,refused,logic\n",
    "no number": HEAD + "saga_def,0,many,5,0,2026-11-29\n",
    "a row too short": HEAD + "saga_def,0\n",
    "a row twice": HEAD + "saga_def,0,5,5,0,2026-11-29\n" * 2,
    "a mutant that passed": HEAD + "saga_def,0,5,4,0,2026-11-29\n",
    "a crate without mutants": HEAD + "saga_tool,0,0,0,0,2026-11-29\n",
}


@pytest.mark.parametrize("text", BROKEN.values(), ids=BROKEN)
def test_a_broken_ledger_fails(checkout: Path, text: str) -> None:
    tree = Tree(checkout)
    ledger.file_of(tree).write_text(text, encoding="utf-8")
    with pytest.raises(ledger.InvalidLedger):
        ledger.check(tree, crates_with_mutants(tree))


def test_a_count_that_differs_fails(checkout: Path) -> None:
    tree = Tree(checkout)
    rows = ledger.read(ledger.file_of(tree))
    row = rows["saga_def"]
    fewer = ledger.Row(row.crate, row.digest, 1, 1, row.logic, row.date)
    ledger.write(ledger.file_of(tree), {**rows, "saga_def": fewer})
    with pytest.raises(ledger.InvalidLedger):
        stale(checkout)


def test_the_suite_tries_what_the_ledger_lacks_and_a_share_of_the_rest(checkout: Path) -> None:
    tree = Tree(checkout)
    rows = ledger.read(ledger.file_of(tree))
    del rows["saga_desk"]
    ledger.write(ledger.file_of(tree), rows)
    plan = trials.plan_of(tree, LOGIC, 0.0, random.Random(1), twins=False)
    assert plan.rounds.keys() == {"saga_desk"}
    tried = sum(len(it.mutants) for it in plan.rounds["saga_desk"])
    assert tried == len(ledger.files_of(tree, "saga_desk"))
    assert plan.known == plan.total - tried
    shares = [
        sum(
            map(
                len, trials.plan_of(tree, LOGIC, 0.5, random.Random(n), twins=False).rounds.values()
            )
        )
        for n in range(20)
    ]
    whole = sum(
        map(len, trials.plan_of(tree, LOGIC, 1.0, random.Random(1), twins=False).rounds.values())
    )
    assert len({*shares}) > 1 and 0.3 * whole < sum(shares) / 20 < 0.7 * whole
