"""Prove and test everything, and print the costs.

    ./test                      the full suite: scripts of seconds first, then `rt ci`, with
                                mutants and the other scripts in parallel
    ./test --mutants            the same with all mutants and twins; writes crates/mutants.csv
    ./test --mutants CRATE ...  the mutants and twins of crates, or CRATE/NAME, over the crates that
                                ./build has built
    ./test --since REVISION     the parts that a change needs, over built crates; not the full suite
    ./test --quick [NAME ...]   all scripts, or the scripts named, over the release; proves nothing

The status of a script `tests/NAME.sh` is 0, or 77 if the machine lacks the subject of the script.
The last line on standard output is `N passed, M failed`, and `, K skipped` if something was
skipped. The lines before it name the failed and skipped parts, and the reasons. Standard error gets
the costs.

The suite tries all mutants of the crates that crates/mutants.csv lacks, and a random tenth of the
rounds of the others.
"""

from __future__ import annotations

import argparse
import os
import random
import subprocess
import sys
import threading
from dataclasses import dataclass, field

import ledger
import mutants
import scripts
import since
import trials
from costs import Cost
from crates import Tree
from mutants import InvalidMutant, Round, Toolchain
from proofs import Proofs
from schedule import Job, Schedule

SHARE = 0.1
"""The share of the rounds that is tried for a crate that the ledger has."""


@dataclass
class Tally:
    """The passed, failed and skipped parts, and the cost of each."""

    passed: int = 0
    failed: int = 0
    skipped: dict[str, str] = field(default_factory=dict)
    faults: list[str] = field(default_factory=list)
    costs: dict[str, Cost] = field(default_factory=dict)
    crates: dict[str, dict[str, float]] = field(default_factory=dict)
    lock: threading.Lock = field(default_factory=threading.Lock)

    def add_script(self, ran: scripts.Ran, *, may_skip: bool) -> None:
        """Add the outcome of a script."""
        with self.lock:
            self.costs[f"tests/{ran.name}.sh"] = ran.cost
            if ran.status == 0:
                self.passed += 1
            elif ran.status == scripts.SKIPPED and may_skip:
                self.skipped[ran.name] = ran.last
            else:
                self.fail(f"tests/{ran.name}.sh")

    def fail(self, fault: str) -> None:
        """Add a failed part."""
        self.failed += 1
        self.faults.append(fault)
        print(f"failed: {fault}", flush=True)

    def add_proofs(self, proofs: Proofs) -> None:
        """Add the outcome of `rt ci`."""
        self.passed += proofs.passed
        self.failed += proofs.failed
        self.faults += proofs.faults
        self.costs = {**proofs.costs, **self.costs}
        for crate, kinds in proofs.crates.items():
            self.crates.setdefault(crate, {}).update(kinds)

    def last_lines(self) -> str:
        """Return the last lines of a run."""
        lines = [f"failed: {fault}" for fault in self.faults]
        if self.skipped:
            reasons = "; ".join(f"{name}: {why}" for name, why in self.skipped.items())
            lines.append(f"skipped: {reasons}")
        counts = f"{self.passed} passed, {self.failed} failed"
        return "\n".join(
            [*lines, counts + (f", {len(self.skipped)} skipped" if self.skipped else "")]
        )


def table(tally: Tally) -> str:
    """Return a table of all costs."""
    lines = [f"{'':28}{'processor minutes':>20}{'wall minutes':>15}"]
    for name, cost in tally.costs.items():
        lines.append(f"{name:28}{cost.processor / 60:20.1f}{cost.wall / 60:15.1f}")
    total = sum(cost.processor for cost in tally.costs.values())
    lines.append(f"{'in all':28}{total / 60:20.1f}")
    if tally.crates:
        lines.append(f"\n{'processor seconds':28}{'proof':>10}{'tests':>10}{'mutants':>10}")
    for crate, kinds in sorted(tally.crates.items()):
        proof = kinds.get("proofs", 0.0) + kinds.get("programs", 0.0)
        tests, tried = kinds.get("tests", 0.0), kinds.get("mutants", 0.0)
        lines.append(f"{crate:28}{proof:10.0f}{tests:10.0f}{tried:10.0f}")
    return "\n".join(lines)


class Suite:
    """One run of the full suite."""

    def __init__(self, tree: Tree, toolchain: Toolchain, options: argparse.Namespace) -> None:
        self.tree = tree
        self.toolchain = toolchain
        self.is_whole = options.mutants is not None
        self.seed = (
            options.seed if options.seed is not None else random.SystemRandom().randrange(10**6)
        )
        self.tally = Tally()
        self.report = trials.Report()
        self.plan = trials.Plan()
        self.schedule = Schedule()
        self.proofs: Proofs | None = None

    def run(self) -> Tally:
        """Run the cheap scripts, and then everything else in parallel."""
        for name in scripts.FIRST:
            self.run_script(name)
            if name == "release" and self.tally.failed:
                print(
                    "test: the other scripts run over the release, so nothing else is run",
                    flush=True,
                )
                return self.tally
        if self.tally.failed:
            print("test: nothing is proved before these are fixed", flush=True)
            return self.tally
        self.plan = trials.plan_of(
            self.tree,
            self.toolchain.logic,
            1.0 if self.is_whole else SHARE,
            random.Random(self.seed),
            twins=self.is_whole,
        )
        self.proofs = Proofs(self.tree, self.schedule.wake)
        try:
            self.fill()
            self.schedule.run(self.proofs)
        finally:
            if not self.proofs.is_over:
                self.proofs.stop()
        self.sum_up(self.proofs)
        return self.tally

    def fill(self) -> None:
        """Add the scripts, and the rounds of mutants, as jobs."""
        for name in scripts.names(self.tree.top):
            if name not in scripts.FIRST:
                self.add_script(name)
        for crate, rounds in self.plan.rounds.items():
            for round_ in rounds:
                self.add_round(crate, round_)

    def add_script(self, name: str) -> None:
        """Add a script as a job. One over what `rt ci` builds waits for it."""
        self.schedule.add(
            Job(
                name,
                lambda: self.run_script(name),
                lambda: self.may_run(name),
                scripts.WIDE.get(name, 1),
                is_script=True,
            )
        )

    def may_run(self, name: str) -> bool:
        """Return whether a script may start. Some need the crates that `rt ci` builds."""
        proofs = self.proofs
        if proofs is None or not proofs.is_over:
            return name not in (*scripts.TIMED, *scripts.LAST)
        return name not in scripts.LAST or not proofs.failed

    def add_round(self, crate: str, round_: Round) -> None:
        """Add a round as a job that waits for its crate."""

        def is_ready() -> bool:
            return self.proofs is not None and self.proofs.has(crate)

        self.schedule.add(Job(f"mutants of {crate}", lambda: self.try_round(round_), is_ready))

    def run_script(self, name: str) -> None:
        """Run a script. The full suite may not skip it."""
        self.tally.add_script(scripts.run(self.tree.top, name, is_quick=False), may_skip=False)

    def try_round(self, round_: Round) -> None:
        """Try a round. Each unclear mutant is tried again alone."""
        tried = mutants.try_round(self.tree, self.toolchain, round_)
        with self.tally.lock:
            self.report.add(round_.crate, tried)
            for outcome in tried.outcomes:
                print(f"mutant {trials.line_of(outcome)}", flush=True)
        twins = mutants.read_all(self.tree, round_.crate, ".twin") if tried.again else []
        for mutant in tried.again:
            self.add_round(round_.crate, mutants.with_control([mutant], twins))

    def sum_up(self, proofs: Proofs) -> None:
        """Add the proofs and the mutants to the tally, and the jobs that never started."""
        self.tally.add_proofs(proofs)
        add_mutants(self.tally, self.plan, self.report)
        for job in self.schedule.waiting:
            self.tally.faults.append(f"{job.name}: not run, since what it needs is not proved")
            self.tally.failed += 1
        if self.is_whole:
            passed = trials.record(self.tree, self.toolchain.logic, self.report)
            print(f"mutants: crates/mutants.csv has new rows of {len(passed)} crates", flush=True)
        print(f"mutants: --seed {self.seed} chooses the same rounds", flush=True)


def add_mutants(tally: Tally, plan: trials.Plan, report: trials.Report) -> None:
    """Add the tried rounds to a tally."""
    wrong = report.wrong()
    tally.passed += len(report.outcomes) - len(wrong)
    for outcome in wrong:
        tally.fail(f"mutant {trials.line_of(outcome)}")
    seconds = sum(report.seconds.values())
    tally.costs["mutants"] = Cost(seconds, 0.0)
    for crate, cost in report.seconds.items():
        tally.crates.setdefault(crate, {})["mutants"] = cost
    for crate, reason in plan.reasons.items():
        print(f"mutants of {crate}: {reason}: {len(plan.rounds[crate])} rounds", flush=True)
    print(
        f"mutants: {plan.total}, {report.refused()} of them refused now, and {plan.known} by "
        "crates/mutants.csv",
        flush=True,
    )


def quick(tree: Tree, names: list[str], has_toolchain: bool) -> Tally:
    """Run scripts over the release."""
    tally = Tally()
    for name in names or scripts.names(tree.top):
        tally.add_script(scripts.run(tree.top, name, is_quick=True), may_skip=True)
    if not has_toolchain and not names:
        tally.skipped[
            f"{len(tree.crates)} crates"
        ] = "the toolchain (rt), which proves them, is missing"
    return tally


def lacks_library(tree: Tree, crates: list[str]) -> list[str]:
    """Return the crates below others whose library is missing or older than its sources."""
    lower = {name for crate in crates for name in tree.below(crate)}
    lacking: list[str] = []
    for name in tree.crates:
        if name in lower:
            file = tree.folder(name) / f"out/rlib/{name}.rlib/format"
            command = [str(tree.top / "sources"), "--newer", str(file), name]
            newer = (
                subprocess.run(command, capture_output=True, text=True) if file.exists() else None
            )
            if newer is None or newer.returncode or newer.stdout.strip():
                lacking.append(name)
    return lacking


def try_chosen(tree: Tree, toolchain: Toolchain, chosen: list[str]) -> Tally:
    """Try the mutants and twins of crates, or single ones, over built crates."""
    tally, report, plan = Tally(), trials.Report(), trials.Plan()
    crates = [*dict.fromkeys(it.partition("/")[0] for it in chosen)]
    if lacking := lacks_library(tree, crates):
        tally.fail(f"there are no libraries of {', '.join(lacking)}: run ./build {crates[0]}")
        return tally
    schedule = Schedule()
    for crate in crates:
        names = {it.partition("/")[2] for it in chosen if it.partition("/")[0] == crate}
        every = trials.chosen(tree, crate, [] if "" in names else sorted(names))
        twins = mutants.read_all(tree, crate, ".twin")
        wrong, same = ([it for it in every if it.is_twin is kind] for kind in (False, True))
        plan.rounds[crate] = [*mutants.rounds_of(wrong, twins), *mutants.rounds_of(same, twins)]
        plan.reasons[crate] = "chosen"
        plan.total += len(wrong)
        for round_ in plan.rounds[crate]:
            add_chosen(schedule, tree, toolchain, report, round_)
    schedule.run(None)
    add_mutants(tally, plan, report)
    for crate in trials.record(tree, toolchain.logic, report):
        print(f"mutants: crates/mutants.csv has a new row of {crate}", flush=True)
    return tally


def add_chosen(
    schedule: Schedule, tree: Tree, toolchain: Toolchain, report: trials.Report, round_: Round
) -> None:
    """Add a round as a job. Each unclear mutant is tried again alone."""

    def run() -> None:
        tried = mutants.try_round(tree, toolchain, round_)
        with schedule.changed:
            report.add(round_.crate, tried)
        for outcome in tried.outcomes:
            print(f"mutant {trials.line_of(outcome)}", flush=True)
        twins = mutants.read_all(tree, round_.crate, ".twin") if tried.again else []
        for mutant in tried.again:
            add_chosen(schedule, tree, toolchain, report, mutants.with_control([mutant], twins))

    schedule.add(Job(f"mutants of {round_.crate}", run, lambda: True))


def run_since(tree: Tree, toolchain: Toolchain | None, revision: str) -> Tally:
    """Run the parts that a change needs, and print the others."""
    needs = since.needs_of(tree, since.changed_files(tree.top, revision))
    print(f"test: {len(needs.files)} files changed since {revision}", flush=True)
    print(f"test: crates: {' '.join(needs.crates) or 'none'}", flush=True)
    print(f"test: scripts: {' '.join(needs.scripts) or 'none'}", flush=True)
    tally = Tally()
    if needs.crates and toolchain is None:
        tally.skipped[
            f"{len(needs.crates)} crates"
        ] = "the toolchain (rt), which proves them, is missing"
    elif toolchain is not None and needs.crates:
        for name in since.tops(tree, needs.crates):
            status = subprocess.run([tree.top / "build", name]).returncode
            if status:
                tally.fail(f"./build {name}")
                return tally
            tally.passed += 1
        crates = [it for it in mutants.crates_with_mutants(tree) if it in needs.crates]
        rows = ledger.check(tree, mutants.crates_with_mutants(tree))
        stale = [it for it in crates if ledger.why_stale(tree, rows, it, toolchain.logic)]
        if stale:
            tried = try_chosen(tree, toolchain, stale)
            tally.passed += tried.passed
            tally.failed += tried.failed
            tally.faults += tried.faults
    for name in needs.scripts:
        tally.add_script(scripts.run(tree.top, name, is_quick=True), may_skip=True)
    left = [*needs.left_crates, *(f"tests/{name}.sh" for name in needs.left_scripts)]
    print(
        f"test: left out, so that this is not the full suite: {' '.join(left) or 'nothing'}",
        flush=True,
    )
    return tally


def arguments(tree: Tree) -> argparse.Namespace:
    """Return the options of the command line."""
    names = scripts.names(tree.top)
    parser = argparse.ArgumentParser(
        prog="./test",
        description="Prove and test everything; the last line is 'N passed, M failed'.",
    )
    parser.add_argument(
        "--quick", action="store_true", help="run scripts over the release, and prove nothing"
    )
    parser.add_argument(
        "--mutants",
        action="store_true",
        help="try all mutants and twins, or those of CRATE or CRATE/NAME",
    )
    parser.add_argument(
        "--since", metavar="REVISION", help="run what the change since a revision needs"
    )
    parser.add_argument(
        "--seed", type=int, help="choose the rounds of mutants as an earlier run did"
    )
    parser.add_argument("--read", action="store_true", help=argparse.SUPPRESS)
    parser.add_argument(
        "--install",
        action="store_true",
        help="install the Debian packages that are missing, as root",
    )
    parser.add_argument(
        "names", nargs="*", metavar="NAME", help=f"with --quick: {', '.join(names)}"
    )
    options = parser.parse_args()
    if options.quick + options.mutants + bool(options.since) > 1:
        parser.error("--quick, --mutants and --since exclude each other")
    if options.names and not (options.quick or options.mutants):
        parser.error("names go with --quick or --mutants")
    known = names if options.quick else [*tree.crates]
    unknown = sorted({it.partition("/")[0] for it in options.names} - {*known})
    if unknown:
        parser.error(f"there is no {', '.join(unknown)}; there are {', '.join(known)}")
    options.mutants = options.names if options.mutants else None
    return options


def run(tree: Tree, options: argparse.Namespace) -> Tally:
    """Run the parts that the options name."""
    toolchain = Toolchain.find()
    if options.since:
        return run_since(tree, toolchain, options.since)
    if options.quick:
        return quick(tree, options.names, toolchain is not None)
    if toolchain is None:
        if options.mutants is not None:
            tally = Tally()
            tally.fail("the toolchain (rt), which mutants need, is missing")
            return tally
        print(
            "test: the toolchain (rt) is missing: nothing is proved; the scripts run over dist/",
            flush=True,
        )
        return quick(tree, [], False)
    if options.mutants:
        return try_chosen(tree, toolchain, options.mutants)
    return Suite(tree, toolchain, options).run()


def read_mutants(tree: Tree) -> Tally:
    """Read all mutants and twins, and the ledger, without a trial."""
    tally = Tally()
    crates = mutants.crates_with_mutants(tree)
    ledger.check(tree, crates)
    for crate in crates:
        tally.passed += len(mutants.read_all(tree, crate))
        tally.passed += len(mutants.read_all(tree, crate, ".twin"))
        wrong = sorted(
            it.name
            for it in (tree.folder(crate) / "mutants").iterdir()
            if it.suffix not in (".edit", ".patch", ".twin")
        )
        if wrong:
            tally.fail(f"{crate}/mutants: neither a mutant nor a twin: {', '.join(wrong)}")
    return tally


def main() -> int:
    """Run the suite, and return its status."""
    tree = Tree()
    options = arguments(tree)
    if options.install:
        os.environ["SAGAS_INSTALL"] = "1"
    try:
        tally = read_mutants(tree) if options.read else run(tree, options)
    except (InvalidMutant, ledger.InvalidLedger) as error:
        tally = Tally()
        tally.fail(str(error))
    if tally.costs:
        print(table(tally), file=sys.stderr, flush=True)
    print(tally.last_lines())
    return 0 if tally.failed == 0 and tally.passed > 0 else 1


if __name__ == "__main__":
    sys.exit(main())
