"""Which mutants a run tries, what it says of them, and what it writes to the ledger."""

from __future__ import annotations

import datetime
import random
from dataclasses import dataclass, field

import ledger
import mutants
from crates import Tree
from mutants import Mutant, Outcome, Round, Tried


@dataclass
class Plan:
    """The rounds of a run, why each crate is tried, and the mutants that the ledger has."""

    rounds: dict[str, list[Round]] = field(default_factory=dict)
    reasons: dict[str, str] = field(default_factory=dict)
    known: int = 0
    total: int = 0


def plan_of(tree: Tree, logic: str, share: float, chance: random.Random, *, twins: bool) -> Plan:
    """Return the rounds of crates that the ledger lacks, and of the others a random share.

    Args:
        share: how much of the rounds of the other crates is tried, from 0 to 1.
        twins: whether all twins are tried too.

    Raises:
        InvalidMutant, ledger.InvalidLedger: a mutant cannot be applied, or the ledger is broken.
    """
    crates = mutants.crates_with_mutants(tree)
    rows = ledger.check(tree, crates)
    plan = Plan()
    for crate in crates:
        wrong = mutants.read_all(tree, crate)
        same = mutants.read_all(tree, crate, ".twin")
        reason = ledger.why_stale(tree, rows, crate, logic)
        rounds = mutants.rounds_of(wrong, same)
        if not reason and share < 1:
            rounds = [it for it in rounds if chance.random() < share]
            plan.known += len(wrong) - sum(len(it.mutants) for it in rounds)
        if twins and same:
            rounds += mutants.rounds_of(same, same)
        if rounds:
            plan.rounds[crate] = rounds
            plan.reasons[crate] = reason or ("all" if share >= 1 else "chosen by chance")
        plan.total += len(wrong)
    return plan


@dataclass
class Report:
    """What a run has seen so far."""

    outcomes: list[Outcome] = field(default_factory=list)
    seconds: dict[str, float] = field(default_factory=dict)

    def add(self, crate: str, tried: Tried) -> None:
        """Add a round."""
        self.outcomes += tried.outcomes
        self.seconds[crate] = self.seconds.get(crate, 0.0) + tried.seconds

    def refused(self, crate: str | None = None) -> int:
        """Return the mutants that were refused, of a crate or in all."""
        return sum(
            it.is_right and not it.mutant.is_twin and crate in (None, it.mutant.crate)
            for it in self.outcomes
        )

    def wrong(self) -> list[Outcome]:
        """Return mutants that were not refused, and twins that were refused without a reason."""
        return [it for it in self.outcomes if not it.is_right]


def line_of(outcome: Outcome) -> str:
    """Return a line on an outcome."""
    why = "" if outcome.verdict is mutants.Verdict.PROVED else f": {outcome.why[:160]}"
    return f"{outcome.mutant.label}: {outcome.verdict.value}{why}"


def record(tree: Tree, logic: str, report: Report) -> list[str]:
    """Write a row for each crate whose mutants were all refused, and return these crates."""
    crates = mutants.crates_with_mutants(tree)
    file = ledger.file_of(tree)
    rows = {crate: row for crate, row in ledger.read(file).items() if crate in crates}
    passed: list[str] = []
    for crate in crates:
        count = len(ledger.files_of(tree, crate))
        if report.refused(crate) == count:
            digest = ledger.digest_of(tree, crate, logic)
            today = datetime.date.today().isoformat()
            rows[crate] = ledger.Row(crate, digest, count, count, logic, today)
            passed.append(crate)
    ledger.write(file, rows)
    return passed


def chosen(tree: Tree, crate: str, names: list[str]) -> list[Mutant]:
    """Return the mutants and twins of a crate, or those of some names."""
    every = [*mutants.read_all(tree, crate), *mutants.read_all(tree, crate, ".twin")]
    return [it for it in every if not names or it.name in names]
