#!/usr/bin/env python3
"""Refuse each growth of memory to the program `sagas`, and to public calls without a command.

The script runs the commands of the table ROWS with each growth refused alone, and then with all
later growths refused too, until a run meets no refusal. Each run must print the same as with ample
memory, or report that memory was refused, with no other output except the report of a run that
stopped. Then its log and the replies of a drive must be correct as far as they exist.

`saga_trials` (crates/saga_trials) tries the calls. After a refused growth everything must be
unchanged, and a repeated call must return the expected value. For each row the script prints the
number of refused growths. It prints `none` for a call that must succeed without a growth, and
requested none, and `ample` for a call at the greatest sizes. Rows run in parallel, one for each
processor.
"""

from __future__ import annotations

import json
import os
import re
import sys
import tempfile
from concurrent.futures import Future, ProcessPoolExecutor
from dataclasses import dataclass
from pathlib import Path

from refusing import Run, build, path_of, refused, run

# The maximum number of growths of one row.
MAX_GROWTHS = 5000

STEPS = (
    'step = [{{ name = "a", undo = 1, keep = 5{a} }}, '
    '{{ name = "b", undo = 2, keep = 5, needs = ["a"]{b} }}, '
    '{{ name = "c", needs = ["b"]{c} }}]\n'
)
LEAVING = '{{"cost":{},"kept":[],"kind":"plan","leave":[{}],"links":[{}],"stand":[{}]}}'


def definition(head: str, a: str = "", b: str = "", c: str = "") -> str:
    """Return a definition of three steps in a chain, with more keys for each."""
    return f"{head}\n{STEPS.format(a=a, b=b, c=c)}"


def history(*events: str) -> str:
    """Return a log of saga 0. An event is a name and a step, or `adopt` and a plan."""
    lines = []
    for event in events:
        name, _, step = event.partition(" ")
        number = f',"saga":0,"step":{step}' if step and name != "adopt" else ',"saga":0'
        before = '"def":0,' if name == "open" else f'"answer":{step},' if name == "adopt" else ""
        lines.append(f'{{{before}"event":"{name}"{number}}}\n')
    return "".join(lines)


PLAN = LEAVING.format(3, "1,2,0", "0,0", "1,2,0")
GONE = (
    "open",
    "start_run 0",
    "commit 0",
    "start_run 1",
    "commit 1",
    "start_run 2",
    "fail 2",
    "start_plan",
    f"adopt {PLAN}",
)
BACK = ("start_undo 1", "undone 1", "start_undo 0", "undone 0")
HEADER = '{"format":2}\n'

# The files that the rows name.
FILES = {
    "trip": definition('format = 1\nname = "trip"'),
    "costly": definition('format = 1\nname = "trip"')
    .replace("undo = 1", "undo = 70000")
    .replace("keep = 5", "keep = 900000"),
    "free": definition('format = 1\nname = "trip"')
    .replace("undo = 1", "undo = 0")
    .replace("undo = 2", "undo = 0"),
    "stubborn": definition('format = 2\nname = "stubborn"', b=", tries = 3, undo_tries = 3"),
    "forced": definition('format = 1\nname = "forced"', c=', skip = "never"'),
    "ring": definition('format = 1\nname = "ring"').replace(
        'name = "a"', 'name = "a", needs = ["c"]'
    ),
    "case": '{"states":["committed","committed","failed"]}\n',
    "answer": f"{PLAN}\n",
    "chain": '{"chain":[2],"kind":"blocked"}\n',
    "dear": LEAVING.format(2**64 - 1, "1,70000", "0", f"{2**64 - 1},2") + "\n",
    "fails": "0 c run fail\n",
    "misses": "0 b run fail 1\n0 c run fail\n0 b undo fail 1\n",
    "aborts": "0 b run abort\n",
    "both": "0 c run fail\n1 c run fail\n",
    "record": (
        "fleet 1 sync\ntook 1 0 0\nheard 0\nsent 0 81\nwrote 0 0 81\nsafe 1\nheard 0\ntold 0 1\n"
    ),
    "early": "fleet 1 sync\ntook 1 0 0\nheard 0\nsent 0 81\nwrote 0 0 81\nheard 0\n",
    "parts": "",
    "log": history(*GONE, *BACK),
    "log2": HEADER + history("open", "start_run 0", "commit 0", "start_run 1", "missed 1", "abort"),
    "going": HEADER + history(*GONE, *BACK[:3]),
    "cut": HEADER + history(*GONE) + '{"event":"start_un',
    "planning": HEADER + history(*GONE[:8]),
    "broken": HEADER + history(*GONE[:3]) + "{}\n",
    "many": "".join(
        history(*GONE, *BACK).replace('"saga":0', f'"saga":{saga}') for saga in range(3)
    ),
}
FILES["parts"] = "---\n".join(FILES[name] for name in ("trip", "case", "answer"))


def request_of(**keys: object) -> bytes:
    """Return the line of a request."""
    return json.dumps(keys, separators=(",", ":")).encode() + b"\n"


def report_of(outcome: str, step: int) -> bytes:
    """Return the request that reports the outcome of a step."""
    return request_of(do="report", outcome=outcome, saga=0, step=step)


NEXT, BUSY, SHOW = request_of(do="next"), request_of(do="busy"), request_of(do="show", saga=0)

# Requests of each kind, on the trip.
TALK = b"".join(
    [
        request_of(do="open", **{"def": 0}),
        NEXT,
        BUSY,
        report_of("ok", 0),
        request_of(do="take", saga=0, step=1),
        report_of("ok", 1),
        SHOW,
        NEXT,
        report_of("fail", 2),
        NEXT,
        NEXT,
        report_of("ok", 1),
        request_of(do="open", **{"def": 0}),
        request_of(do="abort", saga=1),
        NEXT,
        BUSY,
        request_of(do="show", saga=7),
        b"{\n",
        SHOW,
        request_of(do="open", **{"def": 0}),
        request_of(do="ready"),
        request_of(do="list", phase="going"),
        request_of(do="status"),
    ]
)

# Commands: a name, and arguments, in which `{x}` is the path of the file x. After `<` comes the
# file of standard input, or the talk.
ROWS = [
    ("check", "check {trip} {case} {answer}"),
    ("check,refused", "check {free} {case} {answer}"),
    ("check,chain", "check {forced} {case} {chain}"),
    ("check,great-amounts", "check {trip} {case} {dear}"),
    ("check,cycle", "check {ring} {case} {answer}"),
    ("check,parts", "< {parts}"),
    ("plan", "plan {trip} {case}"),
    ("plan,great-amounts", "plan {costly} {case}"),
    ("plan,chain", "plan {forced} {case}"),
    ("run", "run --script {fails} --log {made} {trip}"),
    ("run,second-format", "run --script {misses} --log {made} {stubborn}"),
    ("run,abort", "run --script {aborts} --log {made} {trip}"),
    ("run,stuck", "run --script {fails} --log {made} {forced}"),
    ("run,two-workers", "run --workers 2 --shards 2 --script {both} --log {made} {trip} {trip}"),
    ("audit", "audit {log} {trip}"),
    ("audit,second-format", "audit {log2} {stubborn}"),
    ("audit,three-sagas", "audit {many} {trip}"),
    ("audit,no", "audit {log} {free}"),
    ("audit,record", "audit --fleet {record}"),
    ("audit,record-no", "audit --fleet {early}"),
    ("draw", "draw {trip}"),
    ("draw,case", "draw {trip} {case}"),
    ("draw,plan", "draw {trip} {case} {answer}"),
    ("draw,chain", "draw {forced} {case} {chain}"),
    ("drive", "drive {trip} < talk"),
    ("drive,log", "drive --log {made} {trip} < talk"),
    ("drive,goes-on", "drive --log {going} {trip} < talk"),
    ("drive,cut", "drive --log {cut} {trip} < talk"),
    ("drive,planning", "drive --log {planning} {trip} < talk"),
    ("drive,not-legal", "drive --log {going} {free} < talk"),
    ("drive,faulty", "drive --log {broken} {trip} < talk"),
    ("--help", "--help"),
]

NO_MEMORY = b'{"fault":"out-of-memory"}'
NOTE = re.compile(rb"sagas: log: cut line taken away: \d+ bytes\n")
STOPPED = re.compile(rb"^sagas (\d+) ended \d+ stuck 0 events (\d+)\n\Z", re.MULTILINE)


@dataclass(frozen=True)
class Command:
    """A command with its own folder."""

    arguments: list[str]
    stdin: Path
    log: Path | None
    room: Path

    @staticmethod
    def of(row: str, room: Path) -> Command:
        """Write the files of a row to the folder, and return its command."""
        arguments, _, stdin = row.partition("<")
        (room / "talk").write_bytes(TALK)
        paths = {name: str(room / name) for name in ("made", *FILES)}
        named = arguments.format(**paths).split()
        log = Path(named[named.index("--log") + 1]) if "--log" in named else None
        return Command(
            [path_of("program"), *named],
            room / stdin.strip("{} ") if stdin else Path(os.devnull),
            log,
            room,
        )

    def laid(self) -> None:
        """Write the files again that a run may have changed."""
        if self.log:
            self.log.unlink(missing_ok=True)
            if self.log.name in FILES:
                self.log.write_text(FILES[self.log.name])

    def written(self) -> bytes | None:
        """Return the content of the log, if it exists."""
        return self.log.read_bytes() if self.log and self.log.exists() else None


def kept_of(command: Command) -> bytes:
    """Return the lines that a drive keeps of its first log.

    These are the whole lines, except a last one that begins a plan.
    """
    start = FILES.get(command.log.name, "").encode() if command.log else b""
    lines = [line for line in start.splitlines(keepends=True) if line.endswith(b"\n")]
    return b"".join(lines[:-1] if lines and b'"start_plan"' in lines[-1] else lines)


def is_legal(log: bytes, command: Command) -> bool:
    """Return whether an audit accepts the log of a run."""
    path = command.room / "audited"
    path.write_bytes(log)
    definitions = [
        word for word in command.arguments if Path(word).name in ("trip", "stubborn", "forced")
    ]
    return run([path_of("program"), "audit", str(path), *definitions], command.room).out.startswith(
        b"yes "
    )


def stopped_rightly(command: Command, ran: Run, whole: bytes | None) -> bool:
    """Return whether a run that stopped has whole events.

    Its report has the number of events of its log, the log is legal, no step is busy and no saga is
    planning. With one worker they are the first events of the whole run, except a plan that was
    dropped.
    """
    report, log = STOPPED.search(ran.out), command.written()
    if not report or re.search(rb"running|undoing|planning", ran.out):
        return False
    if log is None:
        return True
    events = log.decode().removeprefix(HEADER).splitlines()
    kept = (
        events[:-1]
        if events and '"drop_plan"' in events[-1] and '"start_plan"' in events[-2]
        else events
    )
    alone = "--workers" not in command.arguments
    first = (whole or b"").decode().removeprefix(HEADER).splitlines()[: len(kept)]
    return len(events) == int(report[2]) and (not alone or kept == first) and is_legal(log, command)


def replied_rightly(command: Command, ran: Run, whole: Run, before: bytes) -> bool:
    """Return whether the replies of a drive are right, and its log has exactly their events.

    They must equal those with ample memory up to the first that reports a refusal.
    """
    replies, expected = ran.out.splitlines(), whole.out.splitlines()
    if len(replies) != len(expected) or ran.err != whole.err:
        return False
    first = replies.index(NO_MEMORY) if NO_MEMORY in replies else len(replies)
    if replies[:first] != expected[:first]:
        return False
    log = command.written()
    if log is None or before and not log.startswith(before):
        return not command.log
    events = [reply["event"] for reply in map(json.loads, replies) if "event" in reply]
    added = [json.loads(line) for line in log.removeprefix(before or HEADER.encode()).splitlines()]
    starts_of_tasks = ("start_run", "start_undo", "start_plan", "adopt")
    tasks = sum(
        {"run": 1, "undo": 1, "plan": 2}.get(json.loads(reply).get("task"), 0) for reply in replies
    )
    return [line for line in added if line["event"] not in starts_of_tasks] == events and len(
        added
    ) == len(events) + tasks


def is_right(command: Command, ran: Run, whole: Run, log: bytes | None) -> bool:
    """Return whether a run with refused memory ended in an allowed way."""
    if command.arguments[1:2] == ["drive"] and ran.status == whole.status == 0:
        return replied_rightly(command, ran, whole, kept_of(command))
    if ran.status == whole.status:
        return (ran.out, ran.err, command.written()) == (whole.out, whole.err, log)
    if ran.status != 4:
        return False
    if ran.err == b"sagas: stopped: out-of-memory\n":
        return stopped_rightly(command, ran, log)
    start = FILES.get(command.log.name, "").encode() if command.log else b""
    note = NOTE.match(ran.err)
    starts = (kept_of(command),) if note else (None, start, HEADER.encode())
    return (
        ran.err[note.end() if note else 0 :] == b"sagas: out of memory\n"
        and not ran.out
        and command.written() in starts
    )


def commanded(library: Path, row: str, the_rest: bool) -> tuple[int, str]:
    """Run a command until it meets no refusal, and return the number of refusals, and the fault."""
    with tempfile.TemporaryDirectory(prefix="memory-") as folder:
        room = Path(folder)
        for name, text in FILES.items():
            (room / name).write_text(text)
        command = Command.of(row, room)
        command.laid()
        whole = run(command.arguments, room, command.stdin)
        log = command.written()
        more = {"COUNT": "all", **({"REST": "1"} if the_rest else {})}
        for number in range(MAX_GROWTHS):
            command.laid()
            ran, report = refused(library, number, command.arguments, room, command.stdin, **more)
            if report is None or not is_right(command, ran, whole, log):
                return (
                    number,
                    f"growth {number}: status {ran.status}: {ran.err[:200]!r} "
                    f"{ran.out[-300:]!r} {command.written()!r}",
                )
            if report.refused == 0:
                return number, ""
    return MAX_GROWTHS, "growths without end"


def tried(library: Path, how: str, name: str) -> tuple[int, str]:
    """Try a call until it meets no refusal, and return the number of refusals, and the fault."""
    with tempfile.TemporaryDirectory(prefix="memory-") as folder:
        for number in range(MAX_GROWTHS):
            ran, report = refused(library, number, [path_of("trials"), "try", name], Path(folder))
            if report is None or ran.status != 0 or ran.out not in (b"whole\n", b"refused\n"):
                return number, f"growth {number}: status {ran.status}: {ran.err[:200]!r}"
            if how == "none" and report.growths:
                return number, f"it asks for memory, {report.growths} times"
            if how != "each" or report.refused == 0:
                return number, ""
    return MAX_GROWTHS, "growths without end"


def trials(room: Path) -> list[tuple[str, str]]:
    """Return the kind and the name of each trial."""
    lines = run([path_of("trials"), "names"], room).out.decode().splitlines()
    return [(how, name) for how, _, name in (line.partition(" ") for line in lines)]


def main(arguments: list[str]) -> int:
    """Run all rows, or only the commands with `commands`, and return the status."""
    path_of("program")
    with tempfile.TemporaryDirectory(prefix="memory-") as folder, ProcessPoolExecutor(
        os.cpu_count()
    ) as pool:
        library = build(Path(folder))
        rows: list[tuple[str, str, Future[tuple[int, str]]]] = []
        for name, row in ROWS:
            for the_rest in (False, True):
                rows.append(
                    (
                        f"sagas {name}{', and all later growths' if the_rest else ''}",
                        "each",
                        pool.submit(commanded, library, row, the_rest),
                    )
                )
        for how, name in [] if arguments == ["commands"] else trials(Path(folder)):
            rows.append((name, how, pool.submit(tried, library, how, name)))
        met = wrong = 0
        for name, how, task in rows:
            count, fault = task.result()
            wrong += bool(fault)
            met += count
            if how == "each" and count == 0 and not fault:
                fault, wrong = "no growth was refused", wrong + 1
            print(
                f"wrong: {name}: {fault}"
                if fault
                else f"{name:48} {count if how == 'each' else how:>5}"
            )
    print(f"memory: {len(rows)} rows, {met} growths refused in turn, {wrong} wrong")
    return 1 if wrong or not rows else 0


if __name__ == "__main__":
    sys.exit(main(sys.argv[1:]))
