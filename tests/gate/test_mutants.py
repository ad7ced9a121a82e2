"""How mutants are read, put into rounds, and judged by what the prover says."""

from __future__ import annotations

from pathlib import Path

import mutants
import pytest
from crates import Tree, contracts, declarations
from mutants import Answer, InvalidMutant, Mutant, Round, Verdict

SOURCE = """\
pub struct Book {
    pub count: u32,
}

impl Book {
    /// A count.
    pub fn more(&self) -> u32
    ensures { result ≡ self.now.count + 1 }
    {
        self.count + 1
    }
}

fn less(count: u32) -> u32
requires { 1 ≤ count }
{
    count - 1
}

pub extern "C" fn same(count: u32) -> u32 {
    // { a brace
    count
}
"""


@pytest.fixture
def tree(tmp_path: Path) -> Tree:
    """A checkout with one crate of a few functions."""
    (tmp_path / "crates.txt").write_text("book:\n")
    (tmp_path / "HANDLES").write_text("Handles allowed: none.\n")
    (tmp_path / "crates/book/src").mkdir(parents=True)
    (tmp_path / "crates/book/src/lib.rt").write_text(SOURCE, encoding="utf-8")
    (tmp_path / "crates/book/mutants").mkdir()
    return Tree(tmp_path)


def mutant(tree: Tree, name: str, *changes: tuple[str, str], only: str = "") -> Mutant:
    """Write and read a mutant, or a twin."""
    path = tree.folder("book") / "mutants" / name
    lines = [*([f"only: {only}"] if only else []), "file: src/lib.rt"]
    for old, new in changes:
        lines += [f"old: {old}", f"new: {new}"]
    path.write_text("\n".join(lines) + "\n", encoding="utf-8")
    return mutants.read_mutant(tree, path)


def test_functions_have_their_names_and_lines() -> None:
    shown = {it.path: (it.first, it.last) for it in mutants.functions("src/lib.rt", SOURCE)}
    assert shown == {"Book::more": (7, 11), "less": (14, 18), "same": (20, 23)}


@pytest.mark.parametrize(
    "head, owner",
    [
        ("impl<'d> Book<'d> {", "Book"),
        ("impl From<AllocError> for JsonFault {", "JsonFaultFromAllocError"),
        ("impl<T: Drop> From<AllocFailed<T>> for Fault {", "FaultFromAllocFailed"),
        ("impl Gate for Residual<'_> {", "ResidualGate"),
        ("impl<G: Gate> Gate for Backward<'_, G> {", "BackwardGate"),
        ("impl<'a, R: Files<File = File> + Print> Outside for System<'a, R> {", "SystemOutside"),
        ("pub trait Device: Drop {", "Device"),
    ],
)
def test_a_method_has_its_name_of_the_prover(head: str, owner: str) -> None:
    shown = mutants.functions("src/far/away.rt", f"{head}\n    fn go(&self) {{\n    }}\n}}\n")
    assert [it.path for it in shown] == [f"{owner}::go"]


def test_a_mutant_is_about_the_function_that_it_changes(tree: Tree) -> None:
    read = mutant(tree, "one.edit", ("        self.count + 1", "        self.count"))
    assert [it.path for it in read.functions] == ["Book::more"]
    assert not read.is_alone and not read.is_twin


@pytest.mark.parametrize(
    "old, why",
    [
        ("count + 7", "0 times"),
        ("count", "times"),
        ("pub count: u32,", "name a function by 'only:'"),
    ],
)
def test_a_mutant_that_cannot_be_applied_is_refused(tree: Tree, old: str, why: str) -> None:
    with pytest.raises(InvalidMutant, match=why):
        mutant(tree, "bad.edit", (old, "x"))


@pytest.mark.parametrize(
    "text", ["", "file: src/lib.rt\n", "old: a\nnew: b\n", "file: a\nnew: b\n"]
)
def test_a_text_without_changes_is_refused(tree: Tree, text: str) -> None:
    path = tree.folder("book") / "mutants/bad.edit"
    path.write_text(text)
    with pytest.raises(InvalidMutant):
        mutants.read_mutant(tree, path)


def test_a_twin_may_say_why_it_is_refused(tree: Tree) -> None:
    twin = mutant(tree, "a.twin", ("    count - 1", "    count - (1)"))
    path = tree.folder("book") / "mutants/a.twin"
    path.write_text("refused: the proof names the number\n" + path.read_text(encoding="utf-8"))
    known = mutants.read_mutant(tree, path)
    for read, is_right in ((twin, False), (known, True)):
        tried = mutants.judge(
            Round("book", (read,), None), answer(tree, "fn book::less: not proved")
        )
        assert [it.is_right for it in tried.outcomes] == [is_right]
    path.rename(path.with_suffix(".edit"))
    with pytest.raises(InvalidMutant, match="only a twin"):
        mutants.read_mutant(tree, path.with_suffix(".edit"))


def test_mutants_of_different_functions_share_a_round(tree: Tree) -> None:
    first = mutant(tree, "a.edit", ("        self.count + 1", "        self.count"))
    second = mutant(tree, "b.edit", ("    count - 1", "    count"))
    third = mutant(tree, "c.edit", ("    count - 1", "    count - 0"))
    alone = mutant(tree, "d.edit", ("pub count: u32,", "pub count: u64,"), only="less")
    twin = mutant(tree, "e.twin", ("    // { a brace", "    // another"))
    rounds = mutants.rounds_of([first, second, third, alone], [twin])
    assert [[it.name for it in round_.mutants] for round_ in rounds] == [["a", "b"], ["c"], ["d"]]
    assert [it.control.name if it.control else "" for it in rounds] == ["e", "e", ""]


def answer(tree: Tree, *lines: str, last: str = "only=2 proved=0") -> Answer:
    """Return what the prover says, over the functions of the crate."""
    known = {it.key: [it] for it in mutants.functions("src/lib.rt", SOURCE)}
    return Answer([*lines, last, ""], 1, 1.0, known)


OPEN = (
    "note: src/lib.rt:10:9: it is not proved that what the function ensures holds when it returns"
)


@pytest.mark.parametrize(
    "lines, verdict",
    [
        ([OPEN, "fn book::Book::more: not proved"], Verdict.REFUSED),
        (["fn book::Book::more: no proof: expected answers in ./proofs"], Verdict.REFUSED),
        (
            ["fn book::Book::more: not proved; it calls `book::less`, which is not proved"],
            Verdict.UNCLEAR,
        ),
        ([OPEN, "fn book::Book::more: not proved; it calls `book::less`"], Verdict.REFUSED),
        ([OPEN.replace(":10:", ":16:"), "fn book::Book::more: proved"], Verdict.PROVED),
        (["fn book::Book::more: proved"], Verdict.PROVED),
        (["fn book::books::Book::more: proved, may wait"], Verdict.PROVED),
        ([], Verdict.UNCLEAR),
    ],
)
def test_a_verdict_is_by_what_is_said_of_the_function(
    tree: Tree, lines: list[str], verdict: Verdict
) -> None:
    changed = mutant(tree, "one.edit", ("        self.count + 1", "        self.count"))
    assert mutants.verdict_of("book", changed, answer(tree, *lines))[0] is verdict


def test_a_mutant_that_is_proved_is_wrong_and_so_is_a_twin_that_is_refused(tree: Tree) -> None:
    wrong = mutant(tree, "one.edit", ("        self.count + 1", "        self.count"))
    same = mutant(tree, "two.twin", ("    count - 1", "    count - (1)"))
    reply = answer(tree, "fn book::Book::more: proved", "fn book::less: not proved")
    tried = mutants.judge(Round("book", (wrong, same), None), reply)
    assert [it.is_right for it in tried.outcomes] == [False, False]


@pytest.mark.parametrize(
    "lines, last",
    [
        (["fn book::Book::more: not proved", "fn book::less: not proved"], "only=2 proved=0"),
        (["src/lib.rt:10:9: error: expected an expression"], "rattle: the crate is rejected"),
    ],
)
def test_a_round_whose_control_fails_counts_for_nothing(
    tree: Tree, lines: list[str], last: str
) -> None:
    wrong = mutant(tree, "one.edit", ("        self.count + 1", "        self.count"))
    other = mutant(tree, "two.edit", ("    // { a brace", "    // another"))
    control = mutant(tree, "control.twin", ("    count - 1", "    count - (1)"))
    tried = mutants.judge(Round("book", (wrong, other), control), answer(tree, *lines, last=last))
    assert tried.outcomes == [] and tried.again == [wrong, other]
    alone = mutants.judge(Round("book", (wrong,), control), answer(tree, *lines, last=last))
    assert [it.is_right for it in alone.outcomes] == [False]


def test_what_a_crate_above_sees() -> None:
    assert "self.count + 1" not in contracts(SOURCE) and "count + 1" in contracts(SOURCE)
    assert "A count" not in contracts(SOURCE) and "a brace" not in contracts(SOURCE)
    assert "pub count : u32" in contracts(SOURCE)
    assert declarations("a : B -- why\n-- all\n\nb : C\n") == "a : B\nb : C"


PROVED = """\
#![tactic(auto)]

ghost use Rattle.std.specs.Prelude.{◌≡◌, ◌+◌, ◌≤◌};

pub fn next(count: u32) -> u32
    requires { count ≤ 7 }
    ensures { result ≡ count + 1 }
{
    count + 1
}

pub fn same(number: u32) -> u32
    ensures { result ≡ number }
{
    number
}
"""


LAYERED = """\
#![tactic(auto)]

ghost use Rattle.std.specs.Prelude.{◌≡◌, ◌+◌, ◌≤◌};

fn more(count: u32) -> u32
    requires { count ≤ 7 }
    ensures { result ≡ count + 1 }
{
    count + 1
}

pub fn next(count: u32) -> u32
    requires { count ≤ 7 }
    ensures exact { result ≡ count + 1 }
    ensures above { 1 ≤ result }
{
    more(count)
}

pub fn same(number: u32) -> u32
    ensures { result ≡ number }
{
    number
}
"""
SKIPS = """\
--- a/src/lib.rt
+++ b/src/lib.rt
@@ -4,9 +4,9 @@
 
 fn more(count: u32) -> u32
     requires { count ≤ 7 }
-    ensures { result ≡ count + 1 }
+    ensures { result ≡ count + 2 }
 {
-    count + 1
+    count + 2
 }
 
 pub fn next(count: u32) -> u32
"""


def patched(tree: Tree, head: str, diff: str = SKIPS) -> Mutant:
    """Write and read a patch of a crate with a private function below a public one."""
    (tree.folder("book") / "src/lib.rt").write_text(LAYERED, encoding="utf-8")
    path = tree.folder("book") / "mutants/skips.patch"
    path.write_text(head + diff, encoding="utf-8")
    return mutants.read_mutant(tree, path)


def test_a_patch_is_about_a_public_clause(tree: Tree) -> None:
    read = patched(tree, "at: next exact\nonly: more\n")
    assert read.patch and read.patch.clauses == {"exact"} and read.files == {"src/lib.rt"}
    assert [it.path for it in read.functions] == ["next", "more"]
    assert read.is_alone and not read.is_twin
    assert mutants.read_all(tree, "book") == [read] and mutants.crates_with_mutants(tree) == [
        "book"
    ]


@pytest.mark.parametrize(
    "head, diff, why",
    [
        ("only: more\n", SKIPS, "first line is not 'at:"),
        ("at: next\n", SKIPS, "first line is not 'at:"),
        ("at: next exact\n", "", "it has no diff"),
        ("at: next exact\n", SKIPS.replace("{ count ≤ 7 }", "{ count ≤ 8 }"), "cannot be applied"),
        ("at: later exact\n", SKIPS, "function later is missing"),
        ("at: next exact\nonly: later\n", SKIPS, "function later is missing"),
        ("at: more exact\n", SKIPS, "changes the contract of more"),
        ("at: next exact\n", SKIPS.replace("src/lib.rt", "out/lib.rt"), "not below src/"),
    ],
)
def test_a_patch_that_shows_nothing_is_refused(tree: Tree, head: str, diff: str, why: str) -> None:
    with pytest.raises(InvalidMutant, match=why):
        patched(tree, head, diff)


def test_a_patch_changes_no_definition(tree: Tree) -> None:
    specs = tree.folder("book") / "specs"
    specs.mkdir()
    (specs / "Rules.antt").write_text("old\n")
    diff = "--- a/specs/Rules.antt\n+++ b/specs/Rules.antt\n@@ -1 +1 @@\n-old\n+new\n"
    with pytest.raises(InvalidMutant, match="changes definitions: specs/Rules.antt"):
        patched(tree, "at: next exact\n", diff)
    more = "--- /dev/null\n+++ b/specs/More.antt\n@@ -0,0 +1 @@\n+new\n"
    assert patched(tree, "at: next exact\n", SKIPS + more).files == {
        "src/lib.rt",
        "specs/More.antt",
    }


GOAL = (
    "note: src/lib.rt:17:5: it is not proved that what the function ensures holds when it returns"
)
EXACT, ABOVE = (f"{GOAL} (`returns-clause-{it}`)" for it in ("exact", "above"))
REFUSED = "fn book::next: not proved"


@pytest.mark.parametrize(
    "lines, verdict",
    [
        ([EXACT, REFUSED, "fn book::more: proved"], Verdict.REFUSED),
        ([EXACT, ABOVE, REFUSED, "fn book::more: proved"], Verdict.UNCLEAR),
        ([ABOVE, REFUSED, "fn book::more: proved"], Verdict.UNCLEAR),
        ([EXACT, REFUSED, "fn book::more: not proved"], Verdict.UNCLEAR),
        ([EXACT, REFUSED, "fn book::more: proved", "fn book::less: not proved"], Verdict.UNCLEAR),
        (["fn book::next: proved", "fn book::more: proved"], Verdict.PROVED),
    ],
)
def test_a_patch_is_refused_at_its_clause_alone(
    tree: Tree, lines: list[str], verdict: Verdict
) -> None:
    read = patched(tree, "at: next exact\nonly: more\n")
    known = {it.key: [it] for it in mutants.functions("src/lib.rt", LAYERED)}
    reply = Answer([*lines, "only=3 proved=2", ""], 1, 1.0, known)
    assert mutants.verdict_of("book", read, reply)[0] is verdict


def test_the_prover_refuses_a_patch_at_a_public_clause(tree: Tree) -> None:
    """With the real prover: the private function is proved, and the public clause is not."""
    toolchain = mutants.Toolchain.find()
    if toolchain is None:
        pytest.skip("there is no toolchain (rt) on this machine")
    for head, verdict in (("exact", Verdict.REFUSED), ("above", Verdict.UNCLEAR)):
        read = patched(tree, f"at: next {head}\nonly: more\n")
        control = mutant(tree, "control.twin", ("    number", "    let it = number; it"))
        tried = mutants.try_round(tree, toolchain, Round("book", (read,), control))
        assert [it.verdict for it in tried.outcomes] == [verdict]


def test_the_prover_refuses_a_mutant_and_proves_what_means_the_same(tree: Tree) -> None:
    """With the real prover: a mutant that it does not refuse fails, and so does a wrong twin."""
    toolchain = mutants.Toolchain.find()
    if toolchain is None:
        pytest.skip("there is no toolchain (rt) on this machine")
    (tree.folder("book") / "src/lib.rt").write_text(PROVED, encoding="utf-8")
    wrong = mutant(tree, "wrong.edit", ("    count + 1", "    count + 2"))
    harmless = mutant(tree, "harmless.edit", ("    count + 1", "    1 + count"))
    control = mutant(tree, "control.twin", ("    number", "    let it = number; it"))
    tried = [
        mutants.try_round(tree, toolchain, Round("book", (it,), control)).outcomes[0]
        for it in (wrong, harmless)
    ]
    assert [it.verdict for it in tried] == [Verdict.REFUSED, Verdict.PROVED]
    assert [it.is_right for it in tried] == [True, False]
