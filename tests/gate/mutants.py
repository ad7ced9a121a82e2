"""Mutants of the crates: wrong variants that the prover must refuse, tried many at a time.

A mutant is a file `crates/CRATE/mutants/NAME.edit`: a line `file: src/..`, and then pairs of lines
`old: TEXT` and `new: TEXT`. Each old text occurs in that file exactly once. A mutant of a
definition, or of anything outside of a function's body, names functions in lines `only: FUNCTION`.
The prover must refuse one of them.

The proof of a function reads the contracts of the functions that it calls, and not their bodies. So
mutants of different functions go into one copy of the crate, a *round*, and one `rattle check
--only` answers for all of them. A function counts as refused only by a message about itself. If it
only calls a refused function (`it calls .., which is not proved`), it is unclear, and its mutant
goes into a later round. A mutant with `only:` goes alone.

A *twin* is a file `NAME.twin` of the same form that changes the text and not the meaning. The
prover must not refuse it. If it refuses the twin of a mutant, then the refusal of the mutant shows
only that the text of a proof no longer fits, and nothing about the contract. Such a twin has a line
`refused: WHY`. Each round has one twin as its control. If the prover refuses the control, the round
has no result.

A *patch* is a mutant of a public contract, a file `NAME.patch`; `patches.py` describes it. It goes
alone.
"""

from __future__ import annotations

import enum
import os
import re
import resource
import shutil
import subprocess
import tempfile
from collections.abc import Iterable, Sequence
from dataclasses import dataclass
from pathlib import Path

import patches
from crates import PARTS, Tree, contracts
from patches import InvalidPatch, Patch

FOLDERS = tuple(f"{part}/" for part in PARTS)
"""The beginnings of the paths that a mutant may change."""

CANNOT_READ = re.compile(
    r"is not in scope|has no field|is no name|operand is missing|expected the end|cannot continue"
)
"""The messages of the prover about a definition that it cannot read."""


class InvalidMutant(Exception):
    """A mutant cannot be applied, or cannot be read by the prover."""


class Verdict(enum.Enum):
    """The result of a round for a mutant or a twin."""

    REFUSED = "refused"
    PROVED = "proved"
    UNCLEAR = "unclear"


@dataclass(frozen=True)
class Function:
    """A function of a crate: its file, its name, and its lines.

    The name of a method begins with its type. If the method is of a trait, the names of the trait
    and of its parameters follow the type, as in `JsonFaultFromAllocError::from`.
    """

    file: str
    name: str
    first: int
    last: int

    @property
    def path(self) -> str:
        """The path below the crate, or the end of it, by which the prover knows the function.

        Of a method it is the name: the prover puts the module of the type before it, which need
        not be the module of the method.
        """
        module = self.file.removeprefix("src/").removesuffix(".rt").replace("/", "::")
        is_whole = module in ("lib", "main") or "::" in self.name
        return self.name if is_whole else f"{module}::{self.name}"

    @property
    def key(self) -> tuple[str, str]:
        """The identity of the function, without its lines."""
        return self.file, self.name


HEAD = re.compile(r"(?:unsafe )?(?:impl|(?:pub )?trait)\b")
"""The beginning of an `impl` or a trait in a formatted text."""
SIGNATURE = re.compile(
    r'(\s*)(?:pub(?:\([^)]*\))? )?(?:const )?(?:unsafe )?(?:extern "C" )?fn (\w+)'
)


def functions(file: str, text: str) -> list[Function]:
    """Return the functions of a formatted text of Rattle."""
    listed: list[Function] = []
    owner, lines = "", text.split("\n")
    for number, line in enumerate(lines, 1):
        if HEAD.match(line):
            owner = owner_of(line)
        elif line.startswith("}"):
            owner = ""
        if signature := SIGNATURE.match(line):
            indent, name = signature[1], signature[2]
            ends = (n for n in range(number, len(lines) + 1) if lines[n - 1] == indent + "}")
            name = f"{owner}::{name}" if owner and indent else name
            listed.append(Function(file, name, number, next(ends, number)))
    return listed


def owner_of(line: str) -> str:
    """Return the beginning of methods' names: their type, and the trait with its parameters."""
    rest = HEAD.sub("", line).strip()
    parameters: set[str] = set()
    if rest.startswith("<"):
        end = bracket_end(rest)
        parameters = {*re.findall(r"(?:^<|, )'?(\w+)", rest[:end])}
        rest = rest[end:].strip()
    trait, is_of_trait, target = rest.rpartition(" for ")
    names = re.findall(r"\w+", target)[:1]
    if is_of_trait:
        names += [it for it in re.findall(r"(?<!')\b\w+", trait) if it not in parameters]
    return "".join(names)


def bracket_end(text: str) -> int:
    """Return the index after the angle brackets at the beginning of a text."""
    depth = 0
    for index, letter in enumerate(text):
        depth += (letter == "<") - (letter == ">")
        if not depth:
            return index + 1
    return len(text)


@dataclass(frozen=True)
class Change:
    """A text of a file, and its replacement."""

    file: str
    old: str
    new: str


@dataclass(frozen=True)
class Mutant:
    """A mutant or a twin of a crate, with the functions that it changes.

    A twin has a reason if the prover refuses it, although it means the same. The first function of
    a patch is the one that the prover must refuse.
    """

    crate: str
    name: str
    is_twin: bool
    is_alone: bool
    reason: str
    changes: tuple[Change, ...]
    functions: tuple[Function, ...]
    patch: Patch | None = None

    @property
    def files(self) -> set[str]:
        """The files that it changes."""
        return {
            *(change.file for change in self.changes),
            *(self.patch.files if self.patch else ()),
        }

    @property
    def label(self) -> str:
        """The name in a report."""
        return f"{self.crate}/{self.name}{' (twin)' if self.is_twin else ''}"

    @property
    def keys(self) -> set[tuple[str, str]]:
        """The identities of the functions."""
        return {function.key for function in self.functions}

    @property
    def size(self) -> int:
        """The lines of its functions."""
        return sum(function.last - function.first + 1 for function in self.functions)


def read_changes(text: str) -> tuple[tuple[Change, ...], list[str], str]:
    """Return the changes of a mutant, the functions that it names, and the reason of a twin.

    Raises:
        InvalidMutant: a line is out of order.
    """
    file, old, reason = "", "", ""
    changes: list[Change] = []
    only: list[str] = []
    for line in text.split("\n"):
        word, _, rest = line.partition(": ") if not line.startswith("new:") else ("new", "", "")
        if word == "file":
            file = rest.strip()
        elif word == "only":
            only.append(rest.strip())
        elif word == "refused":
            reason = rest.strip()
        elif word == "old":
            old = rest
        elif word == "new":
            if not file or not old:
                raise InvalidMutant("a line 'new:' comes before any 'file:' or 'old:'")
            changes.append(Change(file, old, line[len("new:") :].removeprefix(" ")))
            old = ""
    if not changes or old:
        raise InvalidMutant("it has no pair of 'old:' and 'new:'")
    return tuple(changes), only, reason


def read_mutant(tree: Tree, path: Path) -> Mutant:
    """Read a mutant or a twin, and find the functions that it changes.

    Raises:
        InvalidMutant: it cannot be applied to the crate as it is.
    """
    crate = path.parent.parent.name
    folder = tree.folder(crate)
    try:
        if path.suffix == ".patch":
            return read_patched(folder, path)
        changes, only, reason = read_changes(path.read_text(encoding="utf-8"))
        held = [function_of(folder, change) for change in changes]
        if only:
            held = [function_named(folder, name) for name in only]
        elif None in held:
            raise InvalidMutant(
                "it changes a text outside of a function's body: name a function by 'only:'"
            )
        if reason and path.suffix != ".twin":
            raise InvalidMutant("only a twin has a line 'refused:'")
    except (InvalidMutant, InvalidPatch) as error:
        raise InvalidMutant(f"{crate}/{path.name}: {error}") from None
    unique = {function.key: function for function in held if function}
    is_twin = path.suffix == ".twin"
    return Mutant(crate, path.stem, is_twin, bool(only), reason, changes, tuple(unique.values()))


def copy_crate(source: Path, folder: Path) -> None:
    """Copy what the prover reads of a crate."""
    for part in PARTS:
        if (source / part).is_dir():
            shutil.copytree(source / part, folder / part)


def read_patched(folder: Path, path: Path) -> Mutant:
    """Read a patch of a crate, and find the functions that it names in the patched crate.

    Raises:
        InvalidMutant, InvalidPatch: it cannot be applied, or changes the contract that it is about.
    """
    patch = patches.read_patch(path.read_text(encoding="utf-8"))
    if changed := patches.definitions_changed(patch, folder):
        raise InvalidMutant(f"it changes definitions: {', '.join(changed)}")
    if outside := sorted(it for it in patch.files if not it.startswith(FOLDERS)):
        raise InvalidMutant(f"{outside[0]} is not below src/, specs/ or proofs/")
    before = contract_of(folder, function_named(folder, patch.target))
    with tempfile.TemporaryDirectory(prefix="mutants-") as name:
        copy = Path(name)
        copy_crate(folder, copy)
        patches.apply(patch, copy)
        named = [function_named(copy, it) for it in (patch.target, *patch.proved)]
        if contract_of(copy, named[0]) != before:
            raise InvalidMutant(f"it changes the contract of {patch.target}")
    return Mutant(folder.name, path.stem, False, True, "", (), tuple(named), patch)


def contract_of(folder: Path, function: Function) -> str:
    """Return the signature and the clauses of a function."""
    lines = (folder / function.file).read_text(encoding="utf-8").split("\n")
    return contracts("\n".join(lines[function.first - 1 : function.last]))


def function_of(folder: Path, change: Change) -> Function | None:
    """Return the function whose body has the old text, or None if it is elsewhere.

    Raises:
        InvalidMutant: the file is missing, or the text does not occur in it once.
    """
    if not change.file.startswith(FOLDERS):
        raise InvalidMutant(f"{change.file} is not below src/, specs/ or proofs/")
    try:
        text = (folder / change.file).read_text(encoding="utf-8")
    except OSError:
        raise InvalidMutant(f"file {change.file} is missing") from None
    if text.count(change.old) != 1:
        count = text.count(change.old)
        raise InvalidMutant(f"an 'old:' text occurs in {change.file} {count} times, and not once")
    if change.old == change.new:
        raise InvalidMutant(f"a text of {change.file} is replaced by itself")
    line = text[: text.index(change.old)].count("\n") + 1
    inside = [it for it in functions(change.file, text) if it.first < line <= it.last]
    return inside[-1] if inside and change.file.startswith("src/") else None


def function_named(folder: Path, path: str) -> Function:
    """Return the function of a path below the crate.

    Raises:
        InvalidMutant: the function does not exist.
    """
    for file in sorted((folder / "src").rglob("*.rt")):
        for function in functions(str(file.relative_to(folder)), file.read_text(encoding="utf-8")):
            if function.path == path:
                return function
    raise InvalidMutant(f"function {path} is missing")


def read_all(tree: Tree, crate: str, suffix: str = ".edit") -> list[Mutant]:
    """Return the mutants of a crate with its patches, or its twins, by name.

    Raises:
        InvalidMutant: one cannot be applied.
    """
    suffixes = (suffix, ".patch") if suffix == ".edit" else (suffix,)
    files = [it for it in (tree.folder(crate) / "mutants").glob("*") if it.suffix in suffixes]
    files.sort()
    return [read_mutant(tree, path) for path in files]


def crates_with_mutants(tree: Tree) -> list[str]:
    """Return the crates that have mutants, lowest first."""
    suffixes = {".edit", ".patch"}
    folders = {it: tree.folder(it) / "mutants" for it in tree.crates}
    names = [
        it for it, folder in folders.items() if suffixes & {f.suffix for f in folder.glob("*")}
    ]
    return sorted(names, key=lambda name: (len(tree.below(name)), name))


def texts_with(folder: Path, mutants: Iterable[Mutant]) -> dict[str, str]:
    """Return the changed files with all changes of these mutants."""
    texts: dict[str, str] = {}
    for change in (change for mutant in mutants for change in mutant.changes):
        text = texts.get(change.file)
        if text is None:
            text = (folder / change.file).read_text(encoding="utf-8")
        if text.count(change.old) != 1:
            raise InvalidMutant(f"two changes of {change.file} meet at one text")
        texts[change.file] = text.replace(change.old, change.new)
    return texts


@dataclass(frozen=True)
class Round:
    """Mutants that are checked together, and the twin that is the control."""

    crate: str
    mutants: tuple[Mutant, ...]
    control: Mutant | None

    @property
    def all(self) -> tuple[Mutant, ...]:
        """The mutants and the control."""
        return (*self.mutants, *([self.control] if self.control else []))


def fits(mutant: Mutant, others: Sequence[Mutant]) -> bool:
    """Return whether a mutant can share a round with others."""
    if not others:
        return True
    if mutant.is_alone or any(other.is_alone for other in others):
        return False
    lines = {change.old for other in others for change in other.changes}
    return not any(mutant.keys & other.keys for other in others) and not any(
        change.old in line or line in change.old for change in mutant.changes for line in lines
    )


def with_control(mutants: Sequence[Mutant], twins: Sequence[Mutant]) -> Round:
    """Return a round of these mutants, with a twin as its control: `control`, or a small one."""
    changed = {file for it in mutants for file in it.files if it.is_alone}
    for twin in sorted(twins, key=lambda it: (it.name != "control", it.size, it.name)):
        if twin in mutants or twin.reason or any(twin.keys & it.keys for it in mutants):
            continue
        if not changed & {change.file for change in twin.changes}:
            return Round(mutants[0].crate, tuple(mutants), twin)
    return Round(mutants[0].crate, tuple(mutants), None)


def rounds_of(mutants: Sequence[Mutant], twins: Sequence[Mutant]) -> list[Round]:
    """Return rounds of these mutants, as few as a greedy choice finds."""
    groups: list[list[Mutant]] = []
    for mutant in sorted(mutants, key=lambda it: it.is_alone):
        for group in groups:
            if fits(mutant, group):
                group.append(mutant)
                break
        else:
            groups.append([mutant])
    return [with_control(group, twins) for group in groups]


@dataclass(frozen=True)
class Toolchain:
    """The folder of the Rattle toolchain."""

    folder: Path

    @classmethod
    def find(cls) -> Toolchain | None:
        """Return the toolchain whose `rt` is on the path, or None."""
        command = shutil.which("rt")
        return cls(Path(command).resolve().parent.parent) if command else None

    @property
    def logic(self) -> str:
        """The name of its logic, which is the same for several releases."""
        fields = (self.folder / "KIT-ID").read_text(encoding="utf-8").split()
        return fields[fields.index("logic") + 1]

    def command(self, tree: Tree, name: str) -> list[str]:
        """Return the command that checks a crate over the libraries in `crates/*/out/rlib`."""
        crate, below = tree.crates[name], tree.below(name)
        rlib = {it: tree.folder(it) / f"out/rlib/{it}.rlib" for it in below}
        root = "src/main.rt" if tree.is_program(name) else "src/lib.rt"
        arguments = [f"{self.folder}/bin/rattle", "check", "--crate-name", name, root]
        for library in ["std", *crate.libraries]:
            file = rlib.get(library, self.folder / f"rlibs/{library}.rlib")
            arguments += ["--extern", f"{library}={file}"]
        arguments += ["-L", f"dependency={self.folder}/rlibs"]
        arguments += [it for lower in below for it in ("-L", f"dependency={rlib[lower].parent}")]
        arguments += ["--antt-project", f"{self.folder}/rattle/logic/antt-project.json"]
        arguments += ["--logic-built", f"{self.folder}/logic_built", "--links", f"{name}="]
        return [
            *arguments,
            "--jobs",
            "1",
            *(["--crate-type", "staticlib"] if crate.is_static else []),
        ]


@dataclass(frozen=True)
class Answer:
    """The output of the prover for a round."""

    lines: list[str]
    status: int
    seconds: float
    functions: dict[tuple[str, str], list[Function]]

    @property
    def last(self) -> str:
        """The last line that is not empty."""
        return next((line for line in reversed(self.lines) if line.strip()), "")

    @property
    def reached_the_prover(self) -> bool:
        """Whether the check was completed; else the prover could not read the text."""
        return self.last.startswith("only=")


def check_round(tree: Tree, toolchain: Toolchain, round_: Round) -> Answer:
    """Check a copy of the crate with the changes of a round."""
    source = tree.folder(round_.crate)
    with tempfile.TemporaryDirectory(prefix="mutants-") as name:
        folder = Path(name)
        copy_crate(source, folder)
        for mutant in round_.mutants:
            if mutant.patch:
                patches.apply(mutant.patch, folder)
        for file, text in texts_with(folder, round_.all).items():
            (folder / file).write_text(text, encoding="utf-8")
        paths = sorted({it.path for mutant in round_.all for it in mutant.functions})
        arguments = toolchain.command(tree, round_.crate)
        arguments += [it for path in paths for it in ("--only", path)]
        output, status, seconds = run(arguments, folder)
        files = {file for mutant in round_.all for file, _ in mutant.keys}
        known: dict[tuple[str, str], list[Function]] = {}
        for file in sorted(files):
            for function in functions(file, (folder / file).read_text(encoding="utf-8")):
                known.setdefault(function.key, []).append(function)
    return Answer(output.split("\n"), status, seconds, known)


def run(command: list[str], folder: Path) -> tuple[str, int, float]:
    """Run a command in a folder; return its output, its status and its processor seconds."""
    with tempfile.TemporaryFile("w+", errors="replace") as output:
        child = subprocess.Popen(
            command, cwd=folder, stdin=subprocess.DEVNULL, stdout=output, stderr=output
        )
        try:
            _, status, used = os.wait4(child.pid, 0)
        except BaseException:
            child.kill()
            child.wait()
            raise
        child.returncode = os.waitstatus_to_exitcode(status)
        output.seek(0)
        return output.read(), child.returncode, used_seconds(used)


def used_seconds(used: resource.struct_rusage) -> float:
    """Return the processor seconds of a process and its children."""
    return used.ru_utime + used.ru_stime


def verdict_of(crate: str, mutant: Mutant, answer: Answer) -> tuple[Verdict, str]:
    """Return the verdict of an answer on a mutant, and the line with the verdict."""
    if mutant.patch:
        return verdict_of_patch(crate, mutant, mutant.patch, answer)
    verdicts = [verdict_of_function(crate, it, answer) for it in mutant.functions]
    for verdict in (Verdict.REFUSED, Verdict.UNCLEAR, Verdict.PROVED):
        for candidate, line in verdicts:
            if candidate is verdict:
                return verdict, line
    return Verdict.UNCLEAR, answer.last


def verdict_of_patch(
    crate: str, mutant: Mutant, patch: Patch, answer: Answer
) -> tuple[Verdict, str]:
    """Return the verdict of an answer on a patch, and the line with the verdict.

    It is refused if its function is, at its clauses and at no other goal, and all else is proved.
    """
    target, *others = mutant.functions
    for other in others:
        verdict, line = verdict_of_function(crate, other, answer)
        if verdict is not Verdict.PROVED:
            return Verdict.UNCLEAR, line
    for line in answer.lines:
        state = re.match(r"fn (\S+): (.*)", line)
        if state and not state[2].startswith("proved") and not ends_with(state[1], target.path):
            return Verdict.UNCLEAR, line
    verdict, line = verdict_of_function(crate, target, answer)
    goals = goals_of(target, answer)
    if verdict is Verdict.REFUSED and goals != patch.clauses:
        return Verdict.UNCLEAR, f"{target.path} is refused at {', '.join(sorted(goals)) or line}"
    return verdict, line


def ends_with(path: str, end: str) -> bool:
    """Return whether a path of the prover ends with the path of a function."""
    return f"::{path}".endswith(f"::{end}")


def goals_of(function: Function, answer: Answer) -> set[str]:
    """Return the clauses of a function that are not proved, and its other goals by their names."""
    lines = [line for line in answer.lines if is_goal_of(function, line, answer)]
    names = [match[1] for match in (re.search(r"\(`([^`]+)`\)", line) for line in lines) if match]
    return {name.rpartition("-clause-")[2] if is_return(name) else name for name in names}


def is_return(goal: str) -> bool:
    """Return whether a goal is a clause of what a function ensures."""
    return goal.startswith("returns") and "-clause-" in goal


def verdict_of_function(crate: str, function: Function, answer: Answer) -> tuple[Verdict, str]:
    """Return the verdict of an answer on one function, and the line with the verdict."""
    path = function.path
    line_of = re.compile(rf"fn {crate}::(?:.*::)?{re.escape(path)}: (.*)")
    states = [match for match in map(line_of.match, answer.lines) if match]
    state, message = (states[0][0], states[0][1]) if states else ("", "")
    goal = next((it for it in answer.lines if is_goal_of(function, it, answer)), "")
    if re.match(r"proved\b", message):
        return Verdict.PROVED, state
    if goal or message.startswith(("no proof", "not proved")) and "it calls" not in message:
        return Verdict.REFUSED, goal or state
    proof = re.compile(rf"(?:\./)?proofs/(?:.*/)?{re.escape(path.replace('::', '/'))}/.*: error")
    for line in answer.lines:
        if proof.match(line):
            if "was not admitted" not in line and "it calls" not in message:
                return Verdict.REFUSED, line
    return Verdict.UNCLEAR, state or answer.last


def is_goal_of(function: Function, line: str, answer: Answer) -> bool:
    """Return whether a line reports an open goal of the function, or refuses the function."""
    at = re.match(r"(?:note: )?(?:\./)?(\S+?):(\d+):\d+: (.*)", line)
    if not at or at[1] != function.file:
        return False
    number, message = int(at[2]), at[3]
    spans = answer.functions.get(function.key, [])
    inside = any(it.first <= number <= it.last for it in spans)
    return inside and ("not proved" in message or message.startswith("error"))


def cannot_read(lines: Iterable[str], mutants: Iterable[Mutant]) -> str:
    """Return the first line that reports a changed text as unreadable, or an empty text."""
    changed = {file for mutant in mutants for file in mutant.files}
    for line in lines:
        at = re.match(r"(?:\./)?(\S+?):\d+:\d+: error: (?:(`[^`]*`): )?(.*)", line)
        if at and at[1] in changed and not at[1].startswith("proofs/"):
            if not at[2] or CANNOT_READ.search(re.sub(r"`[^`]*`", "", at[3])):
                return line
    return ""


@dataclass(frozen=True)
class Outcome:
    """The verdict on a mutant or a twin, and the line with the reason."""

    mutant: Mutant
    verdict: Verdict
    why: str

    @property
    def is_right(self) -> bool:
        """Whether a mutant was refused, or a twin without a reason was proved."""
        is_proved = self.mutant.is_twin and not self.mutant.reason
        return self.verdict is (Verdict.PROVED if is_proved else Verdict.REFUSED)


@dataclass(frozen=True)
class Tried:
    """The result of a round: outcomes, mutants to try again alone, and processor seconds."""

    outcomes: list[Outcome]
    again: list[Mutant]
    seconds: float


def judge(round_: Round, answer: Answer) -> Tried:
    """Return the outcome of each mutant of a round by the prover's answer.

    If the prover could not read a round of several mutants, or did not prove its control, the round
    has no result, and each of its mutants is tried again alone. If the control of a single mutant
    is not proved, that mutant is unclear.
    """
    is_single = len(round_.mutants) == 1
    bad = cannot_read(answer.lines, round_.all)
    fault = bad or ("" if answer.reached_the_prover else f"the check did not end: {answer.last}")
    if round_.control and not fault:
        verdict, line = verdict_of(round_.crate, round_.control, answer)
        if verdict is not Verdict.PROVED:
            fault = f"the control {round_.control.label} is not proved: {line}"
    if fault:
        outcomes = [Outcome(it, Verdict.UNCLEAR, fault) for it in round_.mutants]
        return Tried(
            outcomes if is_single else [], [] if is_single else [*round_.mutants], answer.seconds
        )
    outcomes, again = [], []
    for mutant in round_.mutants:
        verdict, why = verdict_of(round_.crate, mutant, answer)
        if verdict is Verdict.UNCLEAR and not is_single:
            again.append(mutant)
        else:
            outcomes.append(Outcome(mutant, verdict, why))
    return Tried(outcomes, again, answer.seconds)


def try_round(tree: Tree, toolchain: Toolchain, round_: Round) -> Tried:
    """Try a round, and return its result."""
    return judge(round_, check_round(tree, toolchain, round_))
