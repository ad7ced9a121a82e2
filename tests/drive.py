"""Test `sagas drive`: conversations, logs, kills, power failures, other faults, and the examples.

    tests/drive.py [--program P] [--fixed-shelf] [--libraries FOLDER] [--only SECTION] [--kills N]
        [--seed S]

SECTION is `conversations`, `starts`, `random`, `lines`, `room`, `kills`, `power`, `cuts`, `writes`,
`memory`, `lock` or `service`. FOLDER has the libraries of tests/unwritten.c, tests/power.c and
tests/refusing.c, as tests/drive.sh builds them. With `--fixed-shelf` the program adds no
definitions while it runs, also if it shows its lines.
"""
import argparse
import concurrent.futures
import contextlib
import errno
import fcntl
import itertools
import json
import os
import pathlib
import random
import shutil
import signal
import subprocess
import sys
import tempfile
import threading
import time
import zlib

import follower

ROOT = pathlib.Path(__file__).resolve().parent.parent
EXAMPLES = ROOT / "examples"
PROCESSORS = len(os.sched_getaffinity(0))
HEADER = b'{"format":2}\n'
NEXT, BUSY = {"do": "next"}, {"do": "busy"}
NO_MEMORY = {"fault": "out-of-memory"}

# The bytes of requests that the program reads at once.
AT_ONCE = 65_536

# Definitions, by name. In `pair` step b needs step a. If b fails, a is undone. If that fails too, a
# remains in effect.
DEFINITIONS = {
    "pair": 'format = 2\nname = "pair"\n'
    'step = [{ name = "a", tries = 2, undo = 1, undo_tries = 2, keep = 9 },'
    ' { name = "b", needs = ["a"], skip = 1 }]\n',
    "must": 'format = 1\nname = "must"\nstep = [{ name = "a", skip = "never" }]\n',
    "chain3": 'format = 2\nname = "chain3"\n'
    'step = [{ name = "a", undo = 1, keep = 2, tries = 2 },'
    ' { name = "b", needs = ["a"], undo = "never", tries = 2 },'
    ' { name = "c", needs = ["b"], skip = 1 }]\n',
    "chain6": 'format = 2\nname = "chain6"\n'
    'step = [{ name = "a", undo = 1, keep = 9 },'
    ' { name = "b", needs = ["a"], tries = 2, undo = 1, keep = 3 },'
    ' { name = "c", needs = ["b"], undo = 1, keep = 3, undo_tries = 3 },'
    ' { name = "d", needs = ["c"], undo = 4, keep = 3, tries = 9 },'
    ' { name = "e", needs = ["d"], undo = 1, keep = 8 },'
    ' { name = "f", needs = ["e"], run = 2, skip = 1 }]\n',
}


class State:
    """The state of a section: the options of the script, a folder, and the faults."""

    def __init__(self, options, folder):
        self.program, self.libraries, self.kills, self.seed = (
            options.program,
            options.libraries,
            options.kills,
            options.seed,
        )
        self.grows = not options.fixed_shelf
        self.folder = pathlib.Path(folder)
        self.wrong = []
        for name, text in DEFINITIONS.items():
            (self.folder / f"{name}.toml").write_text(text, encoding="utf-8")

    def defined(self, *names):
        """Return the files of definitions."""
        return [
            self.folder / f"{name}.toml" if name in DEFINITIONS else EXAMPLES / f"{name}.toml"
            for name in names
        ]

    def fail(self, *why):
        """Note a fault."""
        self.wrong.append(" ".join(map(str, why)))

    def expect(self, label, actual, expected):
        """Note a fault if two values differ."""
        if actual != expected:
            actual, expected = str(actual), str(expected)
            alike = len(os.path.commonprefix([actual, expected]))
            begin = max(0, alike - 100)
            self.fail(
                f"{label}: from {alike} on: {actual[begin : alike + 200]} "
                f"instead of {expected[begin : alike + 200]}"
            )

    def command(self, definitions, log):
        return [self.program, "drive", *(["--log", log] if log else []), *definitions]

    def ran(self, definitions, log, text, settings=None, seconds=60):
        """Run the program on some input, and return its status, replies and standard error."""
        done = subprocess.run(
            self.command(definitions, log),
            input=text,
            env=os.environ | (settings or {}),
            capture_output=True,
            check=False,
            timeout=seconds,
        )
        return done.returncode, done.stdout, done.stderr

    def audited(self, log, definitions):
        """Check that an audit accepts the whole lines of a log."""
        whole = log.with_name(f"{log.name}.whole")
        whole.write_bytes(b"".join(whole_lines(log)))
        done = subprocess.run(
            [self.program, "audit", whole, *definitions], capture_output=True, check=False
        )
        if done.returncode != 0 or not done.stdout.startswith(b"yes "):
            self.fail(f"audit of {log.name}: {done.stdout.decode()}{done.stderr.decode()}")


class Driven:
    """A running `sagas drive`, with its requests and replies."""

    def __init__(self, state, definitions, log=None, settings=None):
        pipes = {"stdin": subprocess.PIPE, "stdout": subprocess.PIPE, "stderr": subprocess.PIPE}
        self.child = subprocess.Popen(
            state.command(definitions, log), env=os.environ | (settings or {}), **pipes
        )

    def send(self, *requests):
        """Send requests together, and return whether the program could read them."""
        try:
            self.child.stdin.write(b"".join(line_of(request) for request in requests))
            self.child.stdin.flush()
            return True
        except BrokenPipeError:
            return False

    def reply(self):
        """Return the next reply, or None if the program has ended."""
        line = self.child.stdout.readline()
        return json.loads(line) if line.endswith(b"\n") else None

    def ask(self, request):
        return self.reply() if self.send(request) else None

    def replies(self, count):
        """Return `count` replies, while the program waits for more requests.

        If they do not come within a minute, the program is killed, and there are fewer.
        """
        late = threading.Timer(60, self.child.kill)
        late.start()
        received = list(
            itertools.takewhile(
                lambda reply: reply is not None, (self.reply() for _ in range(count))
            )
        )
        late.cancel()
        return received

    def rest(self):
        """Return all remaining replies."""
        return [
            json.loads(line)
            for line in self.child.stdout.read().splitlines(True)
            if line.endswith(b"\n")
        ]

    def end(self):
        """Close standard input, and return the status and the text on standard error."""
        try:
            self.child.stdin.close()
        except BrokenPipeError:
            pass
        errors = self.child.stderr.read().decode()
        self.child.stdout.close()
        self.child.stderr.close()
        return self.child.wait(60), errors

    def kill(self):
        """Kill the program, and return the replies that it had written."""
        self.child.send_signal(signal.SIGKILL)
        replies = self.rest()
        self.end()
        return replies


def written(value):
    """Return a value as the program writes it."""
    return json.dumps(value, separators=(",", ":"), sort_keys=True)


def line_of(request):
    """Return the line of a request; bytes remain unchanged."""
    return request if isinstance(request, bytes) else written(request).encode() + b"\n"


def whole_lines(log):
    """Return the lines of a file that end with a line feed."""
    return (
        [line for line in log.read_bytes().splitlines(True) if line.endswith(b"\n")]
        if log.exists()
        else []
    )


def events_of(reply):
    """Return the lines of the events in a reply."""
    if reply is None:
        return []
    if "tasks" in reply:
        return lines_of_events(reply["tasks"])
    if "event" in reply:
        events = [reply["event"]]
    elif reply.get("task") in ("run", "undo"):
        events = [{"event": "start_" + reply["task"], "saga": reply["saga"], "step": reply["step"]}]
    elif reply.get("task") == "plan":
        events = [
            {"event": "start_plan", "saga": reply["saga"]},
            {"answer": reply["answer"], "event": "adopt", "saga": reply["saga"]},
        ]
    else:
        events = []
    return [written(event).encode() + b"\n" for event in events]


def lines_of_events(replies):
    """Return the lines of the events in replies."""
    return [line for reply in replies for line in events_of(reply)]


def opening(definition):
    return {"def": definition, "do": "open"}


def shown(saga):
    return {"do": "show", "saga": saga}


def aborting(saga):
    return {"do": "abort", "saga": saga}


def report(saga, step, outcome, attempted=None):
    """Return a report, which names the attempt of a task, if any."""
    named = (
        {} if attempted is None else {"attempt": attempted["attempt"], "task": attempted["task"]}
    )
    return named | {"do": "report", "outcome": outcome, "saga": saga, "step": step}


def many(limit):
    return {"do": "next", "most": limit}


def named(name, saga):
    """Return a request that opens a saga by the name of its definition, with a number."""
    return {"do": "open", "name": name, "saga": saga}


def defining(text):
    return {"definition": text, "do": "define"}


def event(word, saga, step=None, phase="going"):
    return {
        "event": {"event": word, "saga": saga} | ({} if step is None else {"step": step}),
        "phase": phase,
    }


def opened(saga, definition=0):
    return {"event": {"def": definition, "event": "open", "saga": saga}, "phase": "going"}


def task(word, saga, step, name, attempt=1):
    return {"attempt": attempt, "name": name, "saga": saga, "step": step, "task": word}


def state_reply(saga, name, phase, states, kept, aborted=False, answer=None):
    answered = {} if answer is None else {"answer": answer["answer"]}
    return answered | {
        "aborted": aborted,
        "kept": kept,
        "name": name,
        "phase": phase,
        "saga": saga,
        "states": states.split(),
    }


def none(settled):
    return {"settled": settled, "task": "none"}


def plan(saga, cost, kept, leave, links, stand, phase="going"):
    answer = {
        "cost": cost,
        "kept": kept,
        "kind": "plan",
        "leave": leave,
        "links": links,
        "stand": stand,
    }
    return {"answer": answer, "phase": phase, "saga": saga, "task": "plan"}


# ---- requests and replies

# Answers that are adopted: nothing is kept, a is kept, and no plan is feasible.
NONE_KEPT = plan(0, 2, [], [1, 1], [0], [1, 1])
A_KEPT = plan(0, 10, [0], [9, 1], [0], [9, 1], "ended")
CHAIN = {"answer": {"chain": [0], "kind": "blocked"}, "phase": "stuck", "saga": 0, "task": "plan"}

# A saga whose step b fails, so that a is undone, at its second attempt.
UNDONE = [
    (opening(0), opened(0)),
    (NEXT, task("run", 0, 0, "a")),
    (NEXT, none(False)),
    (BUSY, {"busy": [task("run", 0, 0, "a")]}),
    (shown(0), state_reply(0, "pair", "going", "running waiting", [0, 1])),
    (report(0, 0, "fail"), event("missed", 0, 0)),
    (NEXT, task("run", 0, 0, "a", 2)),
    (report(0, 0, "ok"), event("commit", 0, 0)),
    (report(0, 0, "ok"), {"refused": "not-taken"}),
    (NEXT, task("run", 0, 1, "b")),
    (report(0, 1, "fail"), event("fail", 0, 1, "draining")),
    (shown(0), state_reply(0, "pair", "draining", "committed failed", [])),
    (NEXT, NONE_KEPT),
    (shown(0), state_reply(0, "pair", "going", "committed failed", [], answer=NONE_KEPT)),
    (NEXT, task("undo", 0, 0, "a")),
    (BUSY, {"busy": [task("undo", 0, 0, "a")]}),
    (report(0, 0, "fail"), event("undo_missed", 0, 0)),
    (NEXT, task("undo", 0, 0, "a", 2)),
]

CONVERSATIONS = [
    (
        "nothing",
        ["pair"],
        [(BUSY, {"busy": []}), (NEXT, none(True)), (shown(0), {"refused": "no-such-saga"})],
    ),
    (
        "commits",
        ["must"],
        [
            (opening(0), opened(0)),
            (NEXT, task("run", 0, 0, "a")),
            (report(0, 0, "ok"), event("commit", 0, 0, "ended")),
            (shown(0), state_reply(0, "must", "ended", "committed", [0])),
            (NEXT, none(True)),
            (aborting(0), {"refused": "not-now"}),
        ],
    ),
    (
        "undone",
        ["pair"],
        UNDONE
        + [
            (report(0, 0, "ok"), event("undone", 0, 0, "ended")),
            (shown(0), state_reply(0, "pair", "ended", "undone failed", [], answer=NONE_KEPT)),
            (NEXT, none(True)),
        ],
    ),
    (
        "not undone",
        ["pair"],
        UNDONE
        + [
            (report(0, 0, "fail"), event("undo_fail", 0, 0, "draining")),
            (shown(0), state_reply(0, "pair", "draining", "fixed failed", [], answer=NONE_KEPT)),
            (NEXT, A_KEPT),
            (shown(0), state_reply(0, "pair", "ended", "fixed failed", [0], answer=A_KEPT)),
            (NEXT, none(True)),
        ],
    ),
    (
        "stuck",
        ["must"],
        [
            (opening(0), opened(0)),
            (NEXT, task("run", 0, 0, "a")),
            (report(0, 0, "fail"), event("fail", 0, 0, "draining")),
            (NEXT, CHAIN),
            (shown(0), state_reply(0, "must", "stuck", "failed", [], answer=CHAIN)),
            (aborting(0), {"refused": "not-now"}),
            (NEXT, none(True)),
        ],
    ),
    (
        "aborted",
        ["pair"],
        [
            (opening(0), opened(0)),
            (opening(0), opened(1)),
            (NEXT, task("run", 0, 0, "a")),
            (aborting(0), event("abort", 0, phase="draining")),
            (aborting(0), {"refused": "not-now"}),
            (shown(0), state_reply(0, "pair", "draining", "running waiting", [], True)),
            (NEXT, task("run", 1, 0, "a")),
            (BUSY, {"busy": [task("run", 0, 0, "a"), task("run", 1, 0, "a")]}),
            (report(0, 0, "ok"), event("commit", 0, 0, "draining")),
            (NEXT, NONE_KEPT),
            (NEXT, task("undo", 0, 0, "a")),
            (report(0, 0, "ok"), event("undone", 0, 0, "ended")),
            (shown(0), state_reply(0, "pair", "ended", "undone waiting", [], True, NONE_KEPT)),
            (NEXT, none(False)),
            (BUSY, {"busy": [task("run", 1, 0, "a")]}),
        ],
    ),
    (
        "refused",
        ["pair", "must"],
        [
            (opening(2), {"refused": "no-such-definition"}),
            (opening(2**32 - 1), {"refused": "no-such-definition"}),
            (report(0, 0, "ok"), {"refused": "no-such-saga"}),
            (aborting(0), {"refused": "no-such-saga"}),
            (opening(1), opened(0, 1)),
            (opening(0), opened(1)),
            (shown(2), {"refused": "no-such-saga"}),
            (shown(2**32 - 1), {"refused": "no-such-saga"}),
            (report(2, 9, "ok"), {"refused": "no-such-saga"}),
            (report(0, 1, "ok"), {"refused": "no-such-step"}),
            (report(0, 65535, "fail"), {"refused": "no-such-step"}),
            (report(1, 1, "fail"), {"refused": "not-taken"}),
            (report(1, 0, "ok"), {"refused": "not-taken"}),
        ],
    ),
]

# A line of the maximum length.
LONGEST = b'{"do":"busy"' + b" " * (65536 - 13) + b"}"

# Lines on a book with one saga, of `pair`, whose first step is running.
IDLE = {"busy": [task("run", 0, 0, "a")]}
LINES = [
    (b"", {"fault": "not-json"}),
    (b"  ", {"fault": "not-json"}),
    (b"{", {"fault": "not-json"}),
    (b'{"do":"busy"}}', {"fault": "not-json"}),
    (b'{"do":"busy"} {"do":"busy"}', {"fault": "not-json"}),
    (b'{"do":"busy",}', {"fault": "not-json"}),
    (b"{'do':'busy'}", {"fault": "not-json"}),
    (b'{"do":"busy"}\0', {"fault": "not-json"}),
    (b'{"do":"bus\xff"}', {"fault": "not-json"}),
    (b"\xef\xbb\xbf" + b'{"do":"busy"}', {"fault": "not-json"}),
    (b"[" * 200 + b"]" * 200, {"fault": "not-json"}),
    (b'{"do":"show","saga":' + b"7" * 1000 + b"}", {"fault": "not-json"}),
    (b"[]", {"fault": "kind"}),
    (b'"busy"', {"fault": "kind"}),
    (b"7", {"fault": "kind"}),
    (b"null", {"fault": "kind"}),
    (b"{}", {"fault": "kind"}),
    (b'{"do":7}', {"fault": "kind"}),
    (b'{"do":"Busy"}', {"fault": "kind"}),
    (b'{"do":"close","saga":0}', {"fault": "kind"}),
    (b'{"Do":"busy"}', {"fault": "kind"}),
    (b'{"saga":0,"x":1}', {"fault": "kind"}),
    (b'{"do":"busy","saga":0}', {"fault": "unknown-key"}),
    (b'{"do":"next","":0}', {"fault": "unknown-key"}),
    (b'{"do":"open","x":0}', {"fault": "unknown-key"}),
    (b'{"do":"open","def":"a","name":"a"}', {"fault": "unknown-key"}),
    (b'{"do":"show","saga":0,"step":0}', {"fault": "unknown-key"}),
    (b'{"do":"open"}', {"fault": "missing-key"}),
    (b'{"do":"open","saga":"a"}', {"fault": "missing-key"}),
    (b'{"do":"report","outcome":"ok","saga":"a","step":0,"task":"run"}', {"fault": "missing-key"}),
    (b'{"attempt":1,"do":"report","outcome":"ok","saga":0,"step":"a"}', {"fault": "missing-key"}),
    (b'{"do":"open","def":"a","saga":0}', {"fault": "bad-type"}),
    (b'{"do":"open","name":["pair"]}', {"fault": "bad-type"}),
    (b'{"do":"next","most":0}', {"fault": "bad-type"}),
    (b'{"do":"next","most":1001}', {"fault": "bad-type"}),
    (b'{"do":"show"}', {"fault": "missing-key"}),
    (b'{"do":"abort"}', {"fault": "missing-key"}),
    (b'{"do":"report","outcome":"ok","saga":"a"}', {"fault": "missing-key"}),
    (b'{"do":"report","saga":0,"step":0}', {"fault": "missing-key"}),
    (b'{"do":"report","outcome":"ok","step":0}', {"fault": "missing-key"}),
    (b'{"do":"open","def":"0"}', {"fault": "bad-type"}),
    (b'{"do":"open","def":-1}', {"fault": "bad-type"}),
    (b'{"do":"open","def":0.0}', {"fault": "bad-type"}),
    (b'{"do":"open","def":1e0}', {"fault": "bad-type"}),
    (b'{"do":"open","def":null}', {"fault": "bad-type"}),
    (b'{"do":"open","def":4294967296}', {"fault": "bad-type"}),
    (b'{"do":"show","saga":4294967296}', {"fault": "bad-type"}),
    (b'{"do":"show","saga":18446744073709551616}', {"fault": "bad-type"}),
    (b'{"do":"abort","saga":[0]}', {"fault": "bad-type"}),
    (b'{"do":"report","outcome":"ok","saga":0,"step":65536}', {"fault": "bad-type"}),
    (b'{"do":"report","outcome":"done","saga":0,"step":0}', {"fault": "bad-type"}),
    (b'{"do":"report","outcome":true,"saga":0,"step":0}', {"fault": "bad-type"}),
    (LONGEST, IDLE),
    (LONGEST + b" ", {"fault": "too-long"}),
    (b"x" * 65536, {"fault": "not-json"}),
    (b"x" * 65537, {"fault": "too-long"}),
    (b"x" * 300000, {"fault": "too-long"}),
    (b'{"do":"busy"}\r', IDLE),
    (b' \t{ "do" :\t"busy" } ', IDLE),
    (b'{"\\u0064o":"b\\u0075sy"}', IDLE),
    (b'{"do":"next","do":"busy"}', IDLE),
    (
        b'{"saga":1,"do":"show","saga":0}',
        state_reply(0, "pair", "going", "running waiting", [0, 1]),
    ),
    (b'{"saga":0,"do":"show"}', state_reply(0, "pair", "going", "running waiting", [0, 1])),
    (b'{"step":0,"saga":0,"outcome":"fail","do":"report"}', event("missed", 0, 0)),
]


def seen(driven, sagas):
    """Return the replies that show the whole state of a book."""
    return [driven.ask(shown(saga)) for saga in range(sagas)] + [driven.ask(BUSY)]


def converse(state, name, definitions, pairs):
    """Hold a conversation with a log, request by request.

    A refused request changes nothing, and the log has the events of the replies.
    """
    log = state.folder / f"said.{name}.log"
    driven = Driven(state, state.defined(*definitions), log)
    replies = []
    sagas = 0
    for request, expected in pairs:
        changes = "fault" not in expected and "refused" not in expected
        before = None if changes else (seen(driven, sagas), log.read_bytes())
        replies.append(driven.ask(request))
        if not changes:
            state.expect(
                f"{name}: after the refused {request}",
                (seen(driven, sagas), log.read_bytes()),
                before,
            )
        sagas += "open" in str(events_of(expected))
        state.expect(f"{name}: {str(request)[:80]}", replies[-1], expected)
        state.expect(
            f"{name}: the log", log.read_bytes(), HEADER + b"".join(lines_of_events(replies))
        )
    state.expect(f"{name}: the end", driven.end(), (0, ""))


# The keys of each request, its optional keys, and the bounds of numbers.
KEYS = {
    "open": [],
    "next": [],
    "take": ["saga"],
    "report": ["outcome", "saga", "step"],
    "abort": ["saga"],
    "show": ["saga"],
    "busy": [],
}
KEYS |= {"ready": [], "list": [], "status": [], "define": ["definition"]}
OPTIONAL = {
    "open": ["def", "name", "saga"],
    "next": ["most"],
    "take": ["step"],
    "report": ["attempt", "task"],
}
OPTIONAL |= {"ready": ["from"], "list": ["from", "phase"]}
BOUNDS = {
    "def": 2**32,
    "saga": 2**32,
    "from": 2**32,
    "step": 65536,
    "attempt": 65536,
    "most": 1001,
}
VALUES = {"outcome": ("ok", "fail", "void"), "task": ("run", "undo"), "phase": follower.PHASES}


def is_of_type(key, value):
    """Return whether a request may have this value at a key."""
    if key in VALUES:
        return value in VALUES[key]
    if key in ("name", "definition"):
        return isinstance(value, str)
    return type(value) is int and (key == "most") <= value < BOUNDS[key]


def fault_of(line):
    """Return the first fault of a line by docs/FORMATS.md, or None for a request."""
    try:
        value = json.loads(line.decode("utf-8"))
    except ValueError:
        return "not-json"
    word = value.get("do") if isinstance(value, dict) else None
    keys = KEYS.get(word) if isinstance(word, str) else None
    if keys is None:
        return "kind"
    if set(value) - {"do", *keys, *OPTIONAL.get(word, [])} or {"def", "name"} <= set(value):
        return "unknown-key"
    if (
        set(keys) - set(value)
        or (word == "open" and not {"def", "name"} & set(value))
        or ("task" in value) != ("attempt" in value)
    ):
        return "missing-key"
    return None if all(is_of_type(key, value[key]) for key in value if key != "do") else "bad-type"


def hostile(state):
    """Send hostile lines, and compare the faults with those of `fault_of`.

    The lines are each prefix of each request, each request with one byte changed, and objects of
    random keys and values, in their usual spelling and in another one.
    """
    draw = random.Random(state.seed)
    questions = [
        named("a", 0),
        many(64),
        report(0, 0, "ok", task("run", 0, 0, "a")),
        BUSY,
        {"do": "ready", "from": 0},
        {"do": "list", "phase": "stuck"},
        {"do": "status"},
        defining("x"),
    ]
    shortest = [
        written(request).encode()
        for request in (
            opening(0),
            opening(0) | {"saga": 0},
            NEXT,
            report(0, 0, "ok"),
            aborting(0),
            shown(0),
            *questions,
        )
    ]
    lines = [text[:position] for text in shortest for position in range(len(text))]
    lines += [
        text[:position] + byte + text[position + 1 :]
        for text in shortest
        for position in range(len(text))
        for byte in (b"\0", b"\xff", b"}")
    ]
    values = [
        0,
        1,
        3,
        65535,
        65536,
        2**32 - 1,
        2**32,
        -1,
        1.5,
        "ok",
        "fail",
        "run",
        "going",
        "0",
        "",
        None,
        True,
        [],
        {},
        {"do": "next"},
    ]
    for _ in range(2000):
        word = draw.choice([*KEYS, *KEYS, "close", 7])
        others = [
            "def",
            "definition",
            "name",
            "saga",
            "step",
            "outcome",
            "task",
            "attempt",
            "most",
            "from",
            "phase",
            "x",
        ]
        keys = [
            *KEYS.get(word, []),
            *OPTIONAL.get(word, []),
            *draw.sample(others, draw.choice([0, 0, 0, 1])),
        ]
        pairs = [("do", word)] + [(key, draw.choice(values)) for key in keys if draw.random() < 0.9]
        draw.shuffle(pairs)
        lines.append(draw.choice([written, json.dumps])(dict(pairs)).encode())
    status, replies, _ = state.ran(
        state.defined("pair"), None, b"".join(line + b"\n" for line in lines)
    )
    faults = [json.loads(reply).get("fault") for reply in replies.splitlines()]
    state.expect("hostile: the end", (status, len(faults)), (0, len(lines)))
    for line, fault in zip(lines, faults):
        state.expect(f"hostile: {line}", fault, fault_of(line))
    return len(lines)


def in_pieces(state):
    """Send lines in pieces, and lines that are longer than a read. Each line gets its reply."""
    text = b"".join(line_of(request) for request, _ in UNDONE)
    replies = [expected for _, expected in UNDONE]
    for size in (1, 7, 64):
        driven = Driven(state, state.defined("pair"))
        for first in range(0, len(text), size):
            driven.send(text[first : first + size])
        state.expect(f"in pieces of {size}", [driven.reply() for _ in replies], replies)
        state.expect(f"in pieces of {size}: the end", driven.end(), (0, ""))
    driven = Driven(state, state.defined("pair"))
    driven.send(b'{"do":"busy"}\n{"do":"bu')
    state.expect("before a line's end", driven.reply(), {"busy": []})
    driven.send(b'sy"}\n')
    state.expect("after a line's end", (driven.reply(), driven.end()), ({"busy": []}, (0, "")))
    draw = random.Random(state.seed)
    lines = [
        b'{"do":"next"%s}\n' % (b" " * draw.choice([0, 1, 50, 5000, 65000])) for _ in range(500)
    ]
    state.expect(
        "500 long lines",
        state.ran(state.defined("pair"), None, b"".join(lines)),
        (0, line_of(none(True)) * 500, b""),
    )


def together(state):
    """Send requests together: exactly the bytes of one read, and 4,000 in one write.

    The replies to the latter are more than a pipe holds. The program answers each request once and
    in order, while it waits for more.
    """
    whole = Driven(state, state.defined("pair"))
    questions = [{"do": "status"}] * (AT_ONCE // len(line_of({"do": "status"})))
    whole.send(*questions)
    none_yet = {
        "definitions": ["pair"],
        "ended": 0,
        "events": 0,
        "opened": 0,
        "room": 1000,
        "stuck": 0,
    }
    state.expect("a read's bytes", sum(map(len, map(line_of, questions))), AT_ONCE)
    replies = whole.replies(len(questions))
    state.expect("a read's bytes: the replies", replies, [none_yet] * len(questions))
    state.expect("a read's bytes: the end", whole.end(), (0, ""))
    log = state.folder / "at-once.log"
    many = Driven(state, state.defined("pair"), log)
    begin = [request for _ in range(8) for request in (opening(0), NEXT)]
    many.send(*begin)
    many.replies(len(begin))
    taken = [task("run", saga, 0, "a") for saga in range(8)]
    expected = [{"busy": taken}] * 4000
    state.expect(
        "4,000 at once: the replies are many", len(line_of(expected[0])) * 4000 > 1_048_576, True
    )
    begun = log.read_bytes()
    many.send(*[BUSY] * 3999, aborting(7))
    actual = many.replies(4000)
    state.expect("4,000 at once: the replies", actual[:-1], expected[:-1])
    last = {"event": {"event": "abort", "saga": 7}, "phase": "draining"}
    state.expect("4,000 at once: the last", actual[-1:], [last])
    state.expect(
        "4,000 at once: the log",
        log.read_bytes().removeprefix(begun),
        b"".join(lines_of_events([last])),
    )
    state.expect("4,000 at once: the end", many.end(), (0, ""))
    return len(questions) + len(begin) + 4000


def conversations(state):
    """Hold all conversations: with a log and without, line by line and at once.

    The last line may have no line feed.
    """
    begun = [UNDONE[0], UNDONE[1]]
    lines = ("lines", ["pair"], begun + [(line + b"\n", expected) for line, expected in LINES])
    for name, definitions, pairs in CONVERSATIONS + [lines]:
        converse(state, name, definitions, pairs)
        text = b"".join(line_of(request) for request, _ in pairs)
        replies = b"".join(line_of(expected) for _, expected in pairs)
        log = state.folder / f"said.{name}.once.log"
        for at_once in [text, text[:-1]]:
            log.unlink(missing_ok=True)
            state.expect(
                f"{name}, at once",
                state.ran(state.defined(*definitions), log, at_once),
                (0, replies, b""),
            )
            state.expect(
                f"{name}, without a log",
                state.ran(state.defined(*definitions), None, at_once),
                (0, replies, b""),
            )
        state.expect(
            f"{name}: the log, at once",
            log.read_bytes(),
            (state.folder / f"said.{name}.log").read_bytes(),
        )
    in_pieces(state)
    count = hostile(state) + together(state)
    many = line_of(opening(0)) * 1001
    expected = b"".join(line_of(opened(saga)) for saga in range(1000)) + line_of(
        {"refused": "full"}
    )
    log = state.folder / "said.full.log"
    state.expect("1,001 openings", state.ran(state.defined("must"), log, many), (0, expected, b""))
    state.expect(
        "after them",
        state.ran(state.defined("must"), log, line_of(opening(0))),
        (0, line_of({"refused": "full"}), b""),
    )
    with log.open("ab") as file:
        file.write(b'{"def":0,"event":"open","saga":1000}\n')
    state.expect(
        "a log of 1,001",
        state.ran(state.defined("must"), log, b""),
        (3, b"", b"sagas: log: no 1000 full\n"),
    )
    return sum(len(pairs) for _, _, pairs in CONVERSATIONS) + len(LINES) + count + 1001, "requests"


# ---- the start: lines on standard error

OPEN = b'{"def":0,"event":"open","saga":0}\n'
RUN = b'{"event":"start_run","saga":0,"step":0}\n'
LOGS = [
    (b"", 0, ""),
    (HEADER, 0, ""),
    (HEADER[:5], 0, "sagas: log: cut line taken away: 5 bytes"),
    (HEADER + OPEN[:-1], 0, "sagas: log: cut line taken away: 33 bytes"),
    (HEADER + OPEN + RUN, 0, ""),
    (HEADER + b' { "saga" :0,"event":"open","def":0}\r\n', 0, ""),
    (b'{ "format":2}\n' + OPEN, 3, "sagas: log: no-header"),
    (OPEN, 3, "sagas: log: no-header"),
    (OPEN[:-1], 3, "sagas: log: no-header"),
    (b"hello", 3, "sagas: log: no-header"),
    (OPEN + RUN[:9], 3, "sagas: log: no-header"),
    (b"\n", 3, "sagas: log: no-header"),
    (HEADER + b"\n", 3, "sagas: log: line 2: not-json"),
    (HEADER + OPEN + b"{}\n" + RUN[:9], 3, "sagas: log: line 3: kind"),
    (HEADER + HEADER, 3, "sagas: log: line 2: kind"),
    (b'{"format":3}\n', 3, "sagas: log: no-header"),
    (b'{"format":2,"x":0}\n', 3, "sagas: log: no-header"),
    (HEADER + b'{"event":"abort"}\n', 3, "sagas: log: line 2: missing-key"),
    (HEADER + OPEN + OPEN, 3, "sagas: log: no 1 double-open"),
    (HEADER + b'{"def":1,"event":"open","saga":0}\n', 3, "sagas: log: no 0 no-such-definition"),
    (HEADER + RUN, 3, "sagas: log: no 0 no-such-saga"),
    (HEADER + OPEN + RUN.replace(b'"step":0', b'"step":2'), 3, "sagas: log: no 1 no-such-step"),
    (HEADER + OPEN + RUN + RUN, 3, "sagas: log: no 2 not-now"),
    (HEADER + OPEN + b'{"event":"commit","saga":0,"step":0}\n', 3, "sagas: log: no 1 not-taken"),
    (HEADER + OPEN + b'{"event":"drop_plan","saga":0}\n', 3, "sagas: log: no 1 not-planning"),
    (HEADER + b'{"def":0,"event":"open","saga":1}\n', 3, "sagas: log: no 0 not-numbered"),
    (HEADER + OPEN + b'{"def":0,"event":"open","saga":2}\n', 3, "sagas: log: no 1 not-numbered"),
]

# The outcome of a closed stream: the log may not get its number.
CLOSED = [
    ("<&-", 4, [b"sagas: cannot read -\n"]),
    (">&-", 4, [b"sagas: cannot write -\n"]),
    ("2>&-", 0, []),
]


def starts(state):
    """Start the program on good and bad logs, and with bad arguments.

    Compare the line on standard error and the status. A refused log must be unchanged.
    """
    pair = state.defined("pair")
    log = state.folder / "starts.log"
    for text, status, line in LOGS:
        log.write_bytes(text)
        actual = state.ran(pair, log, b"")
        state.expect(
            f"start on {text}", actual, (status, b"", f"{line}\n".encode() if line else b"")
        )
        whole = text[: text.rfind(b"\n") + 1] or HEADER
        state.expect(
            f"the file after {text}", log.read_bytes() or HEADER, whole if status == 0 else text
        )
    log.unlink()
    none, bad = state.folder / "none", state.folder / "bad.toml"
    bad.write_text("x")
    log.write_bytes(OPEN)
    rows = [
        ([*pair, bad], log, 3, "sagas: definition 1: not-toml"),
        (pair * 65, log, 3, "sagas: too many definitions"),
        ([none], None, 4, f"sagas: cannot read {none}"),
        (pair, state.folder, 4, f"sagas: cannot write {state.folder}"),
        (pair, none / "log", 4, f"sagas: cannot write {none / 'log'}"),
    ]
    for definitions, log_path, status, line in rows:
        actual = state.ran(definitions, log_path, b"")
        state.expect(
            f"start on {str(definitions)[-80:]} {log_path}",
            actual,
            (status, b"", f"{line}\n".encode()),
        )
    log.unlink()
    torn = state.folder / "torn.log"
    unfinished = torn.with_name(f"{torn.name}.definitions.new")
    unfinished.write_bytes(file_of(pair)[:20])
    state.expect("start with unfinished definitions", state.ran(pair, torn, b""), (0, b"", b""))
    state.expect(
        "the definitions then",
        (definitions_file(torn).read_bytes(), unfinished.exists()),
        (file_of(pair), False),
    )
    for arguments in [["drive"], ["drive", "--lines"], ["drive", "--lock", *pair]]:
        done = subprocess.run(
            [state.program, *arguments], stdin=subprocess.DEVNULL, capture_output=True, check=False
        )
        state.expect(f"{arguments}", (done.returncode, done.stdout), (2, b""))
        state.expect(f"a log after {arguments}", log.exists(), False)
    with open("/dev/full", "wb") as full:
        text = line_of(opening(0)) + line_of(BUSY)
        done = subprocess.run(
            state.command(pair, log), input=text, stdout=full, stderr=subprocess.PIPE, check=False
        )
    state.expect(
        "a full standard output", (done.returncode, done.stderr), (4, b"sagas: cannot write -\n")
    )
    state.expect("the log then", log.read_bytes(), HEADER + OPEN)
    for stream, status, line in CLOSED:
        log.write_bytes(HEADER + OPEN + RUN[:7])
        arguments = ["bash", "-c", f'"$0" "$@" {stream}', *state.command(pair, log)]
        done = subprocess.run(
            arguments,
            input=line_of(NEXT),
            stdout=subprocess.DEVNULL,
            stderr=subprocess.PIPE,
            check=False,
        )
        state.expect(
            f"with {stream}", (done.returncode, done.stderr.splitlines(True)[-1:]), (status, line)
        )
        lines = HEADER + OPEN + (RUN if status == 0 else RUN[:7])
        state.expect(f"the log with {stream}", log.read_bytes(), lines)
    return len(LOGS) + len(rows) + 8, "starts"


# ---- random conversations


def random_definition(draw, path):
    """Return a random definition, whose steps need earlier ones."""
    lines = ['format = 2\nname = "drawn"\n']
    for number in range(draw.randint(1, 6)):
        lines.append(f'[[step]]\nname = "s{number}"')
        needs = sorted(draw.sample(range(number), min(number, draw.choice([0, 1, 1, 2]))))
        lines.append("needs = [" + ", ".join(f'"s{need}"' for need in needs) + "]")
        for key in ["run", "undo", "skip", "keep"]:
            cost = '"never"' if draw.random() < 0.1 else draw.choice([0, 0, 1, 2, 5, 10])
            lines.append(f"{key} = {cost}")
        lines.append(f"tries = {draw.randint(1, 3)}\nundo_tries = {draw.randint(1, 2)}\n")
    path.write_text("\n".join(lines), encoding="utf-8")
    return path


def random_report(draw, book):
    """Return a report on a busy step, mostly with its attempt, or on any step."""
    busy, outcome = book.busy()["busy"], draw.choice(["ok", "ok", "ok", "fail", "void"])
    if not busy or draw.random() < 0.1:
        other = task(draw.choice(["run", "undo"]), 0, 0, "", draw.randint(1, 3))
        return report(
            draw.randrange(len(book.sagas) + 1),
            draw.randrange(7),
            outcome,
            draw.choice([None, other]),
        )
    busy_task = draw.choice(busy)
    wrong = draw.choice(
        [
            busy_task | {"attempt": busy_task["attempt"] - 1},
            busy_task | {"task": draw.choice(["run", "undo"])},
        ]
    )
    return report(
        busy_task["saga"],
        busy_task["step"],
        outcome,
        draw.choice([None, busy_task, busy_task, busy_task, wrong]),
    )


def random_request(draw, book):
    """Return a random request, mostly an acceptable one."""
    number, sagas, definitions = draw.random(), len(book.sagas), book.definitions
    if sagas == 0 or number < 0.06:
        by_number = opening(draw.randrange(len(definitions) + (number < 0.005)))
        return draw.choice(
            [
                by_number,
                named(draw.choice(definitions)["name"], sagas),
                named("none", 0),
                by_number | {"saga": draw.choice([0, sagas])},
            ]
        )
    if number < 0.36:
        return NEXT
    if number < 0.46:
        return many(draw.choice([1, 2, 3, 64]))
    if number < 0.55:
        step = draw.randrange(-1, 6)
        return {"do": "take", "saga": draw.randrange(sagas + 1)} | (
            {} if step < 0 else {"step": step}
        )
    if number < 0.9:
        return random_report(draw, book)
    if number < 0.93:
        return aborting(draw.randrange(sagas + 1))
    if number < 0.95:
        return defining(
            draw.choice(["x", "", 'format = 1\nname = "more"\nstep = [{ name = "x" }]\n'])
        )
    return draw.choice(
        [b"{\n", b'{"do":"close"}\n', b'{"do":"open","def":0,"x":1}\n', b'{"do":"next","most":0}\n']
    )


def random_conversation(state, seed):
    """Compare a random conversation with the reference model, and with restarts on its log."""
    draw = random.Random(seed)
    name = f"random {seed}"
    folder = state.folder / f"random{seed}"
    folder.mkdir()
    definitions = [
        random_definition(draw, folder / "drawn.toml"),
        *state.defined(*draw.sample(["trip", "order", "server", "licence", "pair"], 2)),
    ]
    log = folder / "log"
    driven = Driven(state, definitions, log)
    pairs, book = [], follower.Book(definitions, logged=True)
    for _ in range(150):
        request = random_request(draw, book)
        reply = driven.ask(request)
        if reply is None:
            break
        pairs.append((request, reply))
        expected = (
            {"fault": fault_of(request)}
            if isinstance(request, bytes)
            else book.replied(request, reply)
        )
        state.expect(f"{name}: {request}", reply, expected)
        for question, expected in book.questions(draw):
            answered = driven.ask(question)
            pairs.append((question, answered))
            state.expect(f"{name}: {question}", answered, expected)
    sagas = len(book.sagas)
    lines = lines_of_events(reply for _, reply in pairs)
    state.expect(f"{name}: the log", log.read_bytes(), HEADER + b"".join(lines))
    state_before = seen(driven, sagas)
    state.audited(log, definitions)
    shutil.copy(log, folder / "copy")
    ahead = [driven.ask(NEXT) for _ in range(30)]
    state.expect(f"{name}: the end", driven.end(), (0, ""))
    again = Driven(state, definitions, folder / "copy")
    state.expect(f"{name}: after another start", seen(again, sagas), state_before)
    state.expect(f"{name}: next after another start", [again.ask(NEXT) for _ in range(30)], ahead)
    state.expect(f"{name}: the other end", again.end(), (0, ""))
    state.expect(f"{name}: the other log", (folder / "copy").read_bytes(), log.read_bytes())
    text = b"".join(line_of(request) for request, _ in pairs)
    replies = b"".join(line_of(reply) for _, reply in pairs)
    state.expect(
        f"{name}: at once, without a log", state.ran(definitions, None, text), (0, replies, b"")
    )
    return len(pairs)


def random_ones(state):
    """Hold random conversations. Each log is legal and complete; a restart has the same state."""
    with concurrent.futures.ThreadPoolExecutor(PROCESSORS) as pool:
        return (
            sum(
                pool.map(
                    lambda seed: random_conversation(state, seed),
                    range(state.seed, state.seed + 30),
                )
            ),
            "requests",
        )


# ---- lines that are shown before their replies


def ran_with_lines(state, definitions, text, begun=None):
    """Run the program with `--lines`, from a log in a pipe, if any.

    Returns:
        The status, the lines without their `+`, the replies, and standard error.
    """
    out, into = os.pipe()
    known = [] if begun is None else ["--from", f"/dev/fd/{out}"]
    command = [state.program, "drive", "--lines", *known, *definitions]
    with open(out, "rb"), concurrent.futures.ThreadPoolExecutor(1) as pool:
        done = pool.submit(
            subprocess.run,
            command,
            input=text,
            capture_output=True,
            check=False,
            timeout=60,
            pass_fds=[out],
        )
        with open(into, "wb") as log:
            log.write(begun or b"")
        run = done.result()
    printed = run.stdout.splitlines(True)
    lines = b"".join(line[1:] for line in printed if line.startswith(b"+"))
    return (
        run.returncode,
        lines,
        b"".join(line for line in printed if not line.startswith(b"+")),
        run.stderr,
    )


def drawn_lines(draw, book, driven, added):
    """Return the lines of random requests, those that add a definition with their reply.

    Such a request adds the next of the added definitions, or has a fault if there is none. It is
    refused if the definitions are fixed. The drive has all definitions from the start, and gets the
    other requests.
    """
    questions, coming = [], list(added)
    while len(questions) < 100:
        request = defining("") if draw.random() < 0.04 else random_request(draw, book)
        if isinstance(request, bytes):
            questions.append((request, None))
        elif request["do"] == "define":
            request = defining(coming.pop(0).read_text(encoding="utf-8") if coming else "x")
            questions.append((line_of(request), book.replied(request, {})))
        elif request.get("def", 0) < len(book.definitions):
            book.replied(request, driven.ask(request))
            questions.append((line_of(request), None))
    return questions


def with_definition_numbers(questions, replies, more):
    """Return the replies to all requests, after a start with `more` definitions."""
    others = iter(replies.splitlines(True))
    placed = [
        reply | {"def": reply["def"] + more} if reply and "def" in reply else reply
        for _, reply in questions
    ]
    return b"".join(next(others) if reply is None else line_of(reply) for reply in placed)


def lines_of_a_conversation(state, seed):
    """Compare the replies and the log of random requests with `--lines` and with a file.

    The starts are from nothing, and from some beginnings of the log. A definition that a request
    adds serves like one from the start.
    """
    draw = random.Random(seed)
    name, log = f"lines {seed}", state.folder / f"lines{seed}"
    definitions = state.defined(*draw.sample(["trip", "order", "server", "licence", "pair"], 2))
    added = [
        random_definition(draw, state.folder / f"lines{seed}.{number}.toml") for number in range(3)
    ]
    longer = [*definitions, *added] if state.grows else definitions
    driven = Driven(state, longer, log)
    questions = drawn_lines(draw, follower.Book(definitions, grows=state.grows), driven, added)
    state.expect(f"{name}: the end", driven.end(), (0, ""))
    text, whole = b"".join(line for line, _ in questions), whole_lines(log)
    others = b"".join(line for line, reply in questions if reply is None)
    for count in [None, 0, 1, draw.randrange(1, len(whole)), len(whole)]:
        begun = None if count is None else b"".join(whole[:count])
        known_definitions = longer if begun else definitions
        file = state.folder / f"lines{seed}.{count}"
        file.write_bytes(begun or b"")
        status, replies, errors = state.ran(longer, file, others)
        left = begun or b""
        if errors:  # the plan of its last line is made again
            left = b"".join(whole[: count - 1])
        expected = (
            status,
            file.read_bytes().removeprefix(left),
            with_definition_numbers(questions, replies, len(known_definitions) - len(definitions)),
            errors,
        )
        state.expect(
            f"{name}: from {count} lines",
            ran_with_lines(state, known_definitions, text, begun),
            expected,
        )
    return 5 * len(questions)


def lines(state):
    """Test lines on standard output, and logs that are only read, from a pipe."""
    with concurrent.futures.ThreadPoolExecutor(PROCESSORS) as pool:
        return (
            sum(
                pool.map(
                    lambda seed: lines_of_a_conversation(state, seed),
                    range(state.seed, state.seed + 12),
                )
            ),
            "requests with lines",
        )


# ---- the room of a log

LOG_FULL = {"refused": "log-full"}
OPENED = {"def": 0, "event": "open"}

# Two definitions, by their steps and needs. Four sagas of the first and one of the second exactly
# fit into a log. Or one byte is missing, and the last one is refused.
EDGES = [((1020, 8159), (662, 5735), True), ((1024, 8175), (802, 3750), False)]


def large(state, name, steps, needs, first="", tries=""):
    """Return a definition of this size with the greatest costs. Steps need those before them."""
    each = f"run = 1_000_000_000\n{tries}"
    lines = [f'format = 2\nname = "{name}"\n[[step]]\nname = "s0"\n{each}{first}']
    for step in range(1, steps):
        count = min(step, -(-needs // (steps - step)))
        needs -= count
        lines.append(
            f'[[step]]\nname = "s{step}"\n{each}needs = ['
            + ", ".join(f'"s{need}"' for need in range(step - count, step))
            + "]\n"
        )
    path = state.folder / f"{name}.toml"
    path.write_text("".join(lines), encoding="utf-8")
    return path


class Conversation:
    """A conversation with a log. The reference model has its expected replies."""

    def __init__(self, state, name, definitions):
        self.state, self.name, self.definitions = state, name, definitions
        self.log, self.book, self.pairs = (
            state.folder / f"{name}.log",
            follower.Book(definitions, logged=True),
            [],
        )
        self.start()

    def start(self):
        """Start the program on the log."""
        self.driven = Driven(self.state, self.definitions, self.log)

    def ask(self, *requests):
        """Send requests together, and return the last reply."""
        self.driven.send(*requests)
        for request in requests:
            reply = self.driven.reply() or {}
            self.pairs.append((request, reply))
            self.state.expect(f"{self.name}: {request}", reply, self.book.replied(request, reply))
        return self.pairs[-1][1]

    def fill(self, definition):
        """Open sagas until one is refused, and return their number. The refusal changes nothing."""
        before = len(self.book.sagas)
        while not self.state.wrong and self.ask(opening(definition)) != LOG_FULL:
            pass
        status, log = self.driven.ask({"do": "status"}), self.log.read_bytes()
        self.ask(opening(definition))
        self.state.expect(
            f"{self.name}: after a refusal",
            (self.driven.ask({"do": "status"}), self.log.read_bytes()),
            (status, log),
        )
        return len(self.book.sagas) - before

    def abort(self, saga):
        """Abort a saga that has not started, and plan it, so that it has ended or is stuck."""
        self.ask(aborting(saga), opening(0))  # before its plan it may write events
        return self.ask({"do": "take", "saga": saga}).get("phase")

    def end(self):
        """End the program. The log is legal, and has the events of the replies."""
        self.state.expect(f"{self.name}: the end", self.driven.end(), (0, ""))
        self.state.expect(
            f"{self.name}: the log",
            self.log.read_bytes(),
            HEADER + b"".join(lines_of_events(reply for _, reply in self.pairs)),
        )
        self.state.audited(self.log, self.definitions)


def room(state):
    """Open sagas as long as the log has room for their ends, and again after one has ended.

    The same holds after a kill and a restart. Shown lines count like those of a file. Without a
    log, nothing is limited.
    """
    definitions = [
        large(state, "long", 256, 255),
        large(state, "must", 256, 255, 'skip = "never"\n'),
        *state.defined("pair"),
    ]
    conversation = Conversation(state, "room", definitions)
    opened_sagas = follower.CAPACITY // conversation.book.max_bytes[0]
    state.expect("room: the number of sagas", conversation.fill(0), opened_sagas)
    conversation.ask(
        opening(9),
        named("none", 0),
        opening(0) | {"saga": 0},
        opening(2),
        opening(1),
        named("long", len(conversation.book.sagas) + 1),
    )
    state.expect(
        "room: one that is aborted", (conversation.abort(0), conversation.fill(0)), ("ended", 1)
    )
    for first in range(0, 256, 64):
        steps = range(first, first + 64)
        conversation.ask(
            *(
                request
                for step in steps
                for request in ({"do": "take", "saga": 1, "step": step}, report(1, step, "ok"))
            )
        )
    state.expect("room: one that is run", conversation.fill(0), 1)
    stuck = len(conversation.book.sagas)
    state.expect(
        "room: one that is stuck has not ended",
        (
            conversation.abort(2),
            conversation.fill(1),
            conversation.abort(stuck),
            conversation.fill(0),
        ),
        ("ended", 1, "stuck", 0),
    )
    conversation.driven.kill()
    begun, before = conversation.log.read_bytes(), len(conversation.pairs)
    conversation.start()
    state.expect(
        "room: after a kill",
        (conversation.fill(0), conversation.abort(3), conversation.fill(0)),
        (0, "ended", 1),
    )
    conversation.end()
    shown_from(state, conversation, begun, before)
    return (
        len(conversation.pairs)
        + edges(state)
        + crowd(state)
        + full(state)
        + unlimited(state, definitions),
        "requests of full logs",
    )


def shown_from(state, conversation, begun, before):
    """Repeat the requests with `--lines`, from nothing and from the log of a kill."""
    for known, first in [(None, 0), (begun, before)]:
        questions, replies = (
            b"".join(line_of(pair[index]) for pair in conversation.pairs[first:])
            for index in (0, 1)
        )
        expected = conversation.log.read_bytes().removeprefix(known or b"")
        state.expect(
            f"room: lines after {first} requests",
            ran_with_lines(state, conversation.definitions, questions, known),
            (0, expected, replies, b""),
        )


def edges(state):
    """Fill logs to their last byte. A log has room for four sagas of the greatest definition."""
    for number, (first, second, fits) in enumerate(EDGES):
        conversation = Conversation(
            state,
            f"edge{number}",
            [large(state, f"first{number}", *first), large(state, f"second{number}", *second)],
        )
        conversation.ask(opening(0), opening(0), opening(0), opening(0))
        state.expect(f"room: the edge {number}", conversation.ask(opening(1)) != LOG_FULL, fits)
        conversation.end()
    greatest = Conversation(
        state,
        "greatest",
        [large(state, "greatest", 1024, 8192, tries="tries = 9\nundo_tries = 9\n")],
    )
    state.expect("room: of the greatest definition", greatest.fill(0), 4)
    greatest.end()
    return 5 * len(EDGES) + 5


# A saga of a start, fifty items that need it, and a step that needs all items. To run an item costs
# less than to skip it.
ITEMS = 50


def crowded(state):
    """Write the definition of such a saga, and return its path."""
    items = "".join(
        f'[[step]]\nname = "item{item}"\nneeds = ["start"]\nskip = 1_000_000\n'
        for item in range(ITEMS)
    )
    names = ", ".join(f'"item{item}"' for item in range(ITEMS))
    path = state.folder / "crowd.toml"
    text = (
        'format = 2\nname = "crowd"\n[[step]]\nname = "start"\nundo = 1\nkeep = 900_000\n'
        f'{items}[[step]]\nname = "join"\nneeds = [{names}]\n'
    )
    path.write_text(text, encoding="utf-8")
    return path


def failing(saga):
    """Return the requests by which a saga of a crowd ends in the worst way.

    Each item except one fails, one after another, and each failure is planned. Then the saga is
    aborted, and the compensation of its start fails too.
    """
    take, planned = {"do": "take", "saga": saga}, [{"do": "take", "saga": saga}]
    failed = [
        [take | {"step": item}, report(saga, item, "fail"), *planned] for item in range(1, ITEMS)
    ]
    undone = [aborting(saga), *planned, take | {"step": 0}, report(saga, 0, "fail"), *planned]
    return [
        take | {"step": 0},
        report(saga, 0, "ok"),
        *(request for part in failed for request in part),
        *undone,
    ]


def crowd(state):
    """End a thousand sagas of 52 steps in the worst way. The log has room for every line."""
    definition, log = crowded(state), state.folder / "crowd.log"
    requests = [
        line_of(opening(0)) * 1000,
        *(line_of(request) for saga in range(1000) for request in failing(saga)),
        line_of({"do": "status"}),
    ]
    status, replies, wrong = state.ran([definition], log, b"".join(requests), seconds=600)
    answers = replies.splitlines()
    state.expect("crowd: the end", (status, wrong), (0, b""))
    state.expect(
        "crowd: refused",
        [line for line in answers if line.startswith((b'{"refused"', b'{"fault"'))][:1],
        [],
    )
    events = 1000 * (1 + 2 + 2 * (ITEMS - 1) + 3 + 2 * (ITEMS + 1))
    expected = {
        "definitions": ["crowd"],
        "ended": 1000,
        "events": events,
        "opened": 1000,
        "room": 0,
        "stuck": 0,
    }
    state.expect("crowd: the status", json.loads(answers[-1]), expected)
    state.audited(log, [definition])
    return len(answers)


START, DROP = b'{"event":"start_plan","saga":0}\n', b'{"event":"drop_plan","saga":0}\n'


PLANS = 8192


def filled(state, log, left):
    """Write a log that is full except for `left` bytes, and return its size.

    It has two sagas. Plans of the first one were started and dropped, and blanks precede the first
    event.
    """
    begun = b"".join(
        event.encode() + b"\n"
        for event in map(
            written, [OPENED | {"saga": 0}, OPENED | {"saga": 1}, {"event": "abort", "saga": 0}]
        )
    )
    rest = begun + (START + DROP) * PLANS
    with log.open("wb") as file:
        file.write(HEADER)
        for first in range(0, follower.MAX_LOG - left - len(HEADER) - len(rest), 1_048_576):
            file.write(
                b" " * min(1_048_576, follower.MAX_LOG - left - len(HEADER) - len(rest) - first)
            )
        file.write(rest)
    state.expect("full: the log's bytes", log.stat().st_size, follower.MAX_LOG - left)
    return log.stat().st_size


def tail_of(log, size):
    """Return the bytes of a log from an offset."""
    with log.open("rb") as file:
        file.seek(size)
        return file.read()


def full(state):
    """Fill a log to its last byte. An event that does not fit is neither written nor reported."""
    pair = state.defined("pair")
    log = state.folder / "full.log"
    line = line_of({"event": "abort", "saga": 1})
    wrong = f"sagas: cannot write {log}\n"
    aborted = {"event": {"event": "abort", "saga": 1}, "phase": "draining"}
    for left, more in [(len(line), True), (len(line) - 1, False)]:
        before = filled(state, log, left)
        definitions_file(log).unlink(missing_ok=True)
        driven = Driven(state, pair, log)
        state.expect(
            f"full: an abort with {left} bytes left",
            driven.ask(aborting(1)),
            aborted if more else None,
        )
        state.expect(f"full: the next task with {left} bytes left", driven.ask(NEXT), None)
        state.expect(f"full: the end with {left} bytes left", driven.end(), (4, wrong))
        state.expect(
            f"full: the written bytes with {left} bytes left",
            tail_of(log, before),
            line if more else b"",
        )
        state.expect(
            f"full: a start with {left} bytes left", state.ran(pair, log, b""), (0, b"", b"")
        )
    log.unlink()
    return 4


def unlimited(state, definitions):
    """Open a thousand sagas of any size without a log."""
    questions = line_of(opening(0)) * 1001
    expected = b"".join(line_of(opened(saga)) for saga in range(1000)) + line_of(
        {"refused": "full"}
    )
    state.expect(
        "room: without a log",
        state.ran([large(state, "whole", 1024, 8192), *definitions], None, questions),
        (0, expected, b""),
    )
    return 1001


# ---- the durable part of a log


class Disk:
    """The durable part of a log, as the library of tests/power.c notes it."""

    def __init__(self, state, log, kept=0):
        self.library, self.log = state.libraries / "power.so", log
        self.known = log.with_name(f"{log.name}.disk")
        self.image = log.with_name(f"{log.name}.disk.image")
        self.note(kept)

    def note(self, kept):
        """Note that `kept` bytes are durable, and the name of the log if it exists."""
        log, definitions = (int(path.exists()) for path in (self.log, definitions_file(self.log)))
        self.known.write_text(f"kept {kept:12} named {log} beside {definitions} early 0\n")
        self.image.unlink(missing_ok=True)

    def settings(self, stop=0):
        """Return the settings of the library, which notes the state, and stops before a call."""
        return {
            "LD_PRELOAD": str(self.library),
            "LOG": str(self.log),
            "DISK": str(self.known),
            "STOP": str(stop),
        }

    def definitions_fault(self, expected):
        """Return the fault of the file of definitions, if any.

        It exists as a whole or not, and is durable before an event.
        """
        fields = self.known.read_text().split()
        actual = (
            definitions_file(self.log).read_bytes() if definitions_file(self.log).exists() else None
        )
        if fields[7] != "0":
            return "it was not on the disk before an event, or got its name before its bytes"
        return (
            "" if actual == expected or actual is None and fields[5] == "0" else f"it is {actual}"
        )

    def may_be(self):
        """Return all possible contents of the log after a power failure.

        It has its durable part, and any prefix of the rest. The same holds for the state before a
        cut that was not synced. If its name is not durable, the log may not exist.
        """
        fields = self.known.read_text().split()
        kept, named = int(fields[1]), fields[3] == "1"
        files = [file.read_bytes() for file in (self.log, self.image) if file.exists()]
        return [text[:end] for text in files for end in range(kept, len(text) + 1)] + (
            [] if named else [None]
        )

    def leave(self, text):
        """Set the content of the log after a power failure; all of it is durable."""
        if text is None:
            self.log.unlink(missing_ok=True)
        else:
            self.log.write_bytes(text)
        self.note(len(text or b""))


def definitions_file(log):
    """Return the path of the file of definitions of a log."""
    return log.with_name(f"{log.name}.definitions")


def file_of(definitions):
    """Return the content of the file of definitions."""
    texts = [pathlib.Path(path).read_bytes() for path in definitions]
    return b"".join(b"definition of %d bytes\n%b\n" % (len(text), text) for text in texts)


# ---- kills

CHAINS = ["chain3", "chain6", "pair", "must"]
OF_A_BOOK = 24


def outcome_of(busy_task):
    """Return the outcome of a task, which depends only on its saga, step, action and attempt."""
    key = f"{busy_task['saga']} {busy_task['step']} {busy_task['task']} {busy_task['attempt']}"
    return "fail" if zlib.crc32(key.encode()) % 4 == 0 else "ok"


class Load:
    """A client that opens sagas and executes them, over any number of restarts of the program."""

    def __init__(self, state, log, draw):
        self.state, self.log, self.draw = state, log, draw
        self.definitions = state.defined(*CHAINS, "trip")
        self.base = []
        self.reported = []
        self.sure = []
        self.disk = Disk(state, log) if state.libraries else None

    def start(self):
        """Start the program on the log, and continue its sagas."""
        before = whole_lines(self.log)
        # The adoption of a last plan was cut off, so the plan is made again.
        while before and b'"start_plan"' in before[-1]:
            before.pop()
        cut = self.log.exists() and self.log.read_bytes()[sum(map(len, before)) :]
        self.base = [line for line in before if line != HEADER]
        self.reported = []
        self.line = f"sagas: log: cut line taken away: {len(cut)} bytes\n" if cut else ""
        self.sagas = sum(b'"open"' in line for line in self.base)
        self.child = Driven(
            self.state, self.definitions, self.log, self.disk and self.disk.settings()
        )
        self.tasks = []
        self.settled = False
        self.started = False

    def batch(self):
        """Return the requests that are sent together."""
        if not self.started:
            return [BUSY]
        requests = [
            opening((self.sagas + number) % len(self.definitions))
            for number in range(min(3, OF_A_BOOK - self.sagas))
        ]
        requests += [
            report(busy_task["saga"], busy_task["step"], outcome_of(busy_task))
            for busy_task in self.tasks
        ]
        requests += [NEXT] * self.draw.randint(1, 6)
        return requests

    def take(self, replies):
        """Apply replies in their order."""
        for reply in replies:
            self.reported += events_of(reply)
            if "busy" in reply:
                self.started, self.tasks = True, reply["busy"]
            elif reply.get("task") in ("run", "undo"):
                self.tasks.append(reply)
            elif "step" in reply.get("event", {}):
                ended = reply["event"]
                self.tasks = [
                    busy_task
                    for busy_task in self.tasks
                    if (busy_task["saga"], busy_task["step"]) != (ended["saga"], ended["step"])
                ]
            elif "def" in reply.get("event", {}):
                self.sagas += 1
            elif reply.get("task") == "none":
                self.settled = reply["settled"] and self.sagas == OF_A_BOOK
            elif "task" not in reply:
                self.state.fail("kills: refused:", reply)

    def step(self):
        """Send a batch, and apply its replies."""
        requests = self.batch()
        self.settled = False
        self.child.send(*requests)
        self.take(filter(None, (self.child.reply() for _ in requests)))

    def killed(self):
        """Send a batch, kill the program at some moment, and check the log."""
        if self.draw.random() < 0.9:
            self.child.send(*self.batch())
            time.sleep(self.draw.choice([0, 0.0002, 0.001, 0.003]) * self.draw.random())
        self.take(self.child.kill())
        self.look(self.base + self.reported)
        if self.disk and self.draw.random() < 0.5:
            # With a power failure too: the log has all acknowledged events, and those before.
            self.sure = self.base + self.reported if self.started else self.sure
            self.disk.leave(self.draw.choice(self.disk.may_be()))
            self.look(self.sure)

    def look(self, sure):
        """Check that the log is legal, and begins with these events."""
        self.state.expect(
            "kills: the log after a kill", whole_lines(self.log)[1:][: len(sure)], sure
        )
        self.state.audited(self.log, self.definitions)

    def end(self):
        """End the program, and return the state and the events of each saga."""
        shown_states = [self.child.ask(shown(saga)) for saga in range(OF_A_BOOK)]
        self.state.expect("kills: the end of a book", self.child.end(), (0, self.line))
        self.look(self.base + self.reported)
        stories = [[] for _ in range(OF_A_BOOK)]
        for line in whole_lines(self.log)[1:]:
            event_of_line = json.loads(line)
            stories[event_of_line["saga"]].append(event_of_line)
        return shown_states, stories


def driven_to_its_end(state, log, draw, kills):
    """Execute the sagas of a book, with at most `kills` kills.

    Returns:
        The number of kills, and the states and events of the sagas.
    """
    load = Load(state, log, draw)
    load.start()
    count = 0
    while not load.settled:
        if count < kills and draw.random() < 0.3:
            load.killed()
            count += 1
            load.start()
        load.step()
        if load.child.child.poll() is not None:
            state.fail("kills: the program ended:", load.child.end())
            return count, None
    return count, load.end()


def kills(state):
    """Kill at random moments. No reported event is lost, and all sagas end as without kills."""
    draw = random.Random(state.seed)
    folder = state.folder / "kills"
    folder.mkdir()
    _, whole = driven_to_its_end(state, folder / "whole.log", draw, 0)
    count = books = 0
    while count < state.kills and not state.wrong:
        log = folder / f"killed{books}.log"
        actual, book = driven_to_its_end(state, log, draw, state.kills - count)
        count, books = count + actual, books + 1
        if book is None or whole is None:
            break
        for saga, (now, then, story, expected) in enumerate(
            zip(book[0], whole[0], book[1], whole[1])
        ):
            # The steps of a chain run in order, so there is only one sequence of events.
            if saga % (len(CHAINS) + 1) < len(CHAINS):
                state.expect(f"kills: saga {saga}", (now, story), (then, expected))
            elif now["phase"] not in ("ended", "stuck"):
                state.fail(f"kills: saga {saga}: {now}")
    return count, f"kills of {books} books"


# ---- power cuts


def stopped(state, disk, requests, stop):
    """Send requests one by one to a program that stops before a call.

    Returns:
        The replies, and whether the program was stopped.
    """
    driven = Driven(state, state.defined("pair"), disk.log, disk.settings(stop))
    replies = []
    for request in requests:
        reply = driven.ask(request)
        if reply is None:
            break
        replies.append(reply)
    with contextlib.suppress(BrokenPipeError):
        driven.child.stdin.close()
    replies += driven.rest()
    status, errors = driven.end()
    if status not in (0, -signal.SIGKILL):
        state.fail(f"power: status {status}: {errors}")
    return replies, status != 0


def left_whole(state, disk, name, sure):
    """Restart on each possible log after a power failure, and return their number.

    Each log then begins with these lines.
    """
    left = disk.may_be()
    for number, text in enumerate(left):
        path = disk.log.with_name(f"{disk.log.name}.left")
        path.unlink(missing_ok=True)
        if text is not None:
            path.write_bytes(text)
        status, _, _ = state.ran(state.defined("pair"), path, line_of(BUSY))
        actual = whole_lines(path)[1:][: len(sure)]
        state.expect(f"{name}: {number} of {len(left)} left", (status, actual), (0, sure))
    return len(left)


def settled_lines(log):
    """Return the events with which a start continues, without a cut line and a last plan."""
    lines = whole_lines(log)[1:]
    while lines and b'"start_plan"' in lines[-1]:
        lines.pop()
    return lines


def power_at(state, case, stop):
    """Fail the power as the program comes to a call, and return the number of possible logs.

    A case is the log at the start, its durable bytes, and the requests. The number is 0 if the
    program ended before the call.
    """
    name, text, kept, requests = case
    disk = Disk(state, state.folder / f"power.{name}.{stop}")
    if text is not None:
        disk.leave(text)
        disk.note(kept)
    before = settled_lines(disk.log)
    sure = before if kept == len(text or b"") else []
    replies, was_stopped = stopped(state, disk, requests, stop)
    state.expect(
        f"power: {name} at call {stop}: the file of definitions",
        disk.definitions_fault(file_of(state.defined("pair"))),
        "",
    )
    sure = before + lines_of_events(replies) if replies else sure
    count = left_whole(state, disk, f"power: {name} at call {stop}", sure)
    return count if was_stopped else 0


def power(state):
    """Fail the power between any two system calls. Each possible log has all reported events."""
    requests = [request for request, _ in UNDONE] + [report(0, 0, "ok"), NEXT]
    at_once = [b"".join(line_of(request) for request in requests)]
    lines = HEADER + OPEN + RUN
    cases = [
        ("new", None, 0, requests),
        ("at once", None, 0, at_once),
        ("nothing kept", lines, 0, [BUSY, *requests[2:]]),
        ("a line not kept", lines, len(HEADER + OPEN), [BUSY, shown(0)]),
        ("a cut line", lines + RUN[:9], len(lines) + 9, [BUSY, shown(0)]),
        ("a cut line not kept", lines + RUN[:9], len(HEADER), [BUSY, shown(0)]),
        ("a cut header", HEADER[:5], 0, [BUSY, opening(0)]),
    ]
    with concurrent.futures.ThreadPoolExecutor(PROCESSORS) as pool:

        def tried(case):
            counts = []
            while not counts or counts[-1]:
                counts.append(power_at(state, case, len(counts) + 1))
            return counts

        actual = list(pool.map(tried, cases))
    for case, counts in zip(cases, actual):
        if len(counts) < 10:
            state.fail(f"power: {case[0]}: {len(counts)} calls")
    return sum(map(sum, actual)), "logs left by power cuts"


# ---- logs that are cut or changed


def continued(state, definitions, log):
    """Continue a book from its log. Its sagas can end, and the log is legal then."""
    name = f"cuts: {log.read_bytes()[-60:]}: continued"
    driven = Driven(state, definitions, log)
    tasks = driven.ask(BUSY)["busy"]
    for _ in range(100):
        next_task = tasks.pop() if tasks else driven.ask(NEXT)
        if next_task.get("task") in ("run", "undo"):
            driven.ask(report(next_task["saga"], next_task["step"], "ok"))
        elif next_task.get("task") == "none":
            break
    state.expect(name, next_task, none(True))
    state.expect(name, driven.end(), (0, ""))
    state.audited(log, definitions)


def cuts(state):
    """Cut a log at each byte, and change each byte.

    The program refuses it and leaves it unchanged, or continues it from its last whole line.
    """
    pair = state.defined("pair")
    whole = state.folder / "cuts.log"
    pairs = UNDONE + [
        (report(0, 0, "fail"), None),
        (NEXT, None),
        (opening(0), None),
        (NEXT, None),
        (aborting(1), None),
    ]
    status, _, _ = state.ran(pair, whole, b"".join(line_of(request) for request, _ in pairs))
    state.expect("cuts: the log", status, 0)
    text = whole.read_bytes()
    questions = line_of(shown(0)) + line_of(shown(1)) + line_of(BUSY)
    books = {}

    def taken(end):
        """Return the end of the lines that are used, without a last line that begins a plan."""
        last = text.rfind(b"\n", 0, max(end - 1, 0)) + 1
        return last if b'"start_plan"' in text[last:end] else end

    def noted(count):
        return f"sagas: log: cut line taken away: {count} bytes\n".encode() if count else b""

    for end in [0] + [position + 1 for position, byte in enumerate(text) if byte == 10]:
        whole.write_bytes(text[:end])
        actual = state.ran(pair, whole, questions)
        books[end] = (actual[1], whole.read_bytes())
        left = taken(end)
        expected = (0, noted(end - left), True)
        state.expect(
            f"cuts: {end} bytes",
            (actual[0], actual[2], books[end][1].startswith(text[:left])),
            expected,
        )
        continued(state, pair, whole)

    def tried(number, changed):
        position = state.folder / f"cuts.{number}"
        position.write_bytes(changed)
        end = changed.rfind(b"\n") + 1
        actual = state.ran(pair, position, questions)
        after = position.read_bytes()
        position.unlink()
        if text.startswith(changed[:end]) and (end > 0 or HEADER.startswith(changed)):
            note = noted(len(changed) - taken(end))
            state.expect(
                f"cuts: {changed[-60:]}", (actual, after), ((0, books[end][0], note), books[end][1])
            )
            return
        line = actual[2].decode()
        named = (
            line == "sagas: log: no-header\n"
            or line.startswith(("sagas: log: line ", "sagas: log: no "))
            and line.count("\n") == 1
        )
        state.expect(
            f"cuts: {line}: {changed[:80]}",
            (actual[0], actual[1], named, after),
            (3, b"", True, changed),
        )

    texts = [text[:position] for position in range(len(text))]
    texts += [
        text[:position] + byte + text[position + 1 :]
        for position in range(len(text))
        for byte in (b"\0", b"\xff", b"}")
    ]
    with concurrent.futures.ThreadPoolExecutor(PROCESSORS) as pool:
        list(pool.map(tried, range(len(texts)), texts))
    return len(texts), "texts"


# ---- refused writes and memory


def calls_of(path):
    """Return the refused calls and the last number of a library's report, or -1 without it."""
    fields = path.read_text().split() if path.exists() else ["", "0", "", "-1", "", "0"]
    return int(fields[3]), int(fields[5])


def story(state, log, settings, at_once):
    """Execute sagas of `pair` until the program ends or no task is left.

    Returns:
        The replies, the status and the text on standard error.
    """
    driven = Driven(state, state.defined("pair"), log, settings)
    requests = [request for request, _ in UNDONE] + [
        report(0, 0, "ok"),
        opening(0),
        NEXT,
        aborting(1),
        report(1, 0, "fail"),
        NEXT,
    ]
    replies = []
    if at_once:
        driven.send(*requests)
        with contextlib.suppress(BrokenPipeError):
            driven.child.stdin.close()
        replies = driven.rest()
    else:
        for request in requests:
            reply = driven.ask(request)
            if reply is None:
                break
            replies.append(reply)
    return replies, *driven.end()


# The calls of a kind that a first start makes for the file of definitions.
DEFINING = {"write": [1], "half": [1], "sync": [1, 2], "folder": [1]}


def refusal(log, kind, number, error):
    """Return the error line of a refused call: for the definitions, the log or standard input."""
    if kind != "read":
        path = definitions_file(log) if number in DEFINING.get(kind, ()) else log
        return f"sagas: cannot write {path}\n"
    return "sagas: out of memory\n" if error == errno.ENOMEM else "sagas: cannot read -\n"


def refused_once(state, kind, number, error, at_once, cut):
    """Refuse a call on the log, or a read of requests, and return whether there was such a call.

    The log has the events of all replies.
    """
    name = f"writes: {kind} {number} {errno.errorcode[error]}{' at once' if at_once else ''}"
    log = state.folder / f"writes.{kind}.{number}.{error}.{at_once}"
    report_file = log.with_name(f"{log.name}.told")
    log.write_bytes(cut)
    library = state.libraries / "unwritten.so"
    settings = {
        "LD_PRELOAD": str(library),
        "FAIL": kind,
        "NUMBER": str(number),
        "ERROR": str(error),
        "TOLD": str(report_file),
    }
    replies, status, error_text = story(state, log, settings, at_once)
    refusals, early = calls_of(report_file)
    if refusals < 0:
        return state.fail(f"{name}: status {status}: {error_text}") or False
    state.expect(f"{name}: replies before a sync", early, 0)
    note = f"sagas: log: cut line taken away: {len(cut) - cut.rfind(LF) - 1} bytes\n" if cut else ""
    if refusals != 0:
        state.expect(
            name, (refusals > 0, status, error_text), (True, 4, refusal(log, kind, number, error))
        )
        if cut and not replies and log.read_bytes() == cut:
            return True
    else:
        state.expect(f"{name}, {report_file.read_text()}", (status, error_text), (0, note))
    kept = whole_lines(log)[1:]
    lines = lines_of_events(replies)
    state.expect(f"{name}: the log", kept[: len(lines)], lines)
    driven = Driven(state, state.defined("pair"), log)
    driven.ask(BUSY)
    status, line = driven.end()
    state.expect(
        f"{name}: another start",
        (status, line if not line.startswith("sagas: log: cut line taken away: ") else ""),
        (0, ""),
    )
    # The plan of a last line is made again.
    left = kept[:-1] if kept and b'"start_plan"' in kept[-1] else kept
    state.expect(f"{name}: the log after it", whole_lines(log)[1:], left)
    state.audited(log, state.defined("pair"))
    return refusals != 0


LF = b"\n"

# The number of calls of a kind, by whether all requests come at once. Then the definitions, their
# folder, the header, its folder and all events have one sync each.
CALLS = {("folder", False): 2, ("sync", True): 5}


def writes(state):
    """Refuse each write, sync and cut of the log, the sync of its folder and each read in turn.

    The requests come one at a time, or all at once.
    """
    refused = 0
    cases = [
        (kind, error, at_once, b"")
        for kind in ("write", "half", "sync")
        for error in (errno.ENOSPC, errno.EIO)
        for at_once in (False, True)
    ]
    cases += [
        ("read", error, at_once, b"")
        for error in (errno.EIO, errno.ENOMEM)
        for at_once in (False, True)
    ]
    cases += [("folder", errno.EIO, False, b""), ("truncate", errno.EIO, False, HEADER + OPEN[:7])]

    def tried(case):
        kind, error, at_once, cut = case
        for number in range(1, 200):
            if not refused_once(state, kind, number, error, at_once, cut):
                return number - 1
        return state.fail(f"writes: {kind} without end") or 0

    with concurrent.futures.ThreadPoolExecutor(PROCESSORS) as pool:
        actual = list(pool.map(tried, cases))
    for case, count in zip(cases, actual):
        if count == 0:
            state.fail("writes: none was refused:", case)
        state.expect(f"writes: calls of {case}", count, CALLS.get((case[0], case[2]), count))
        refused += count
    return refused, "refused calls"


def events_in(log):
    """Return the bytes of a log after its header, which may not exist yet."""
    return log.read_bytes().removeprefix(HEADER) if log.exists() else b""


def memory_once(state, number, the_rest, expected):
    """Refuse a growth of memory, or all from it on, and return whether it was refused.

    Each reply is right, or reports the refusal and changes nothing.
    """
    name = f"memory: growth {number}{' and the rest' if the_rest else ''}"
    log = state.folder / f"memory.{number}.{the_rest}"
    report_file = log.with_name(f"{log.name}.told")
    settings = {
        "LD_PRELOAD": str(state.libraries / "refusing.so"),
        "COUNT": "all",
        "REFUSE": str(number),
        "TOLD": str(report_file),
    }
    driven = Driven(
        state, state.defined("pair"), log, settings | ({"REST": "1"} if the_rest else {})
    )
    replies, faults = [], 0
    for request, reply in expected:
        before = events_in(log)
        actual = driven.ask(request)
        if actual == NO_MEMORY:
            faults += 1
            state.expect(f"{name}: {request}: the log", events_in(log), before)
            if the_rest:
                break
            actual = driven.ask(request)
        if actual is None:
            break
        replies.append(actual)
        state.expect(f"{name}: {request}", actual, reply)
    status, line = driven.end()
    refusals, _ = calls_of(report_file)
    if refusals < 0:
        return state.fail(f"{name}: status {status}: {line}") or False
    started = line != "sagas: out of memory\n"
    state.expect(
        f"{name}: the end", (status, line), (0, "") if started else (4, "sagas: out of memory\n")
    )
    if not started and replies:
        state.fail(f"{name}: it ended after replies")
    if refusals == 0 and faults:
        state.fail(f"{name}: no growth was refused")
    state.expect(f"{name}: the log", events_in(log), b"".join(lines_of_events(replies)))
    log.unlink(missing_ok=True)
    report_file.unlink(missing_ok=True)
    return refusals > 0


# The number of sagas that start a task each: the reply with all of them grows more than once.
TOGETHER = 12


def many_refused_once(state, number, the_rest):
    """Refuse a growth of memory, or all from it on, during a request for many tasks.

    The replies have each started task once.

    Returns:
        Whether the growth was refused, and whether it came after some tasks.
    """
    name = f"memory: many tasks, growth {number}{' and the rest' if the_rest else ''}"
    log = state.folder / f"many.{number}.{the_rest}"
    report_file = log.with_name(f"{log.name}.told")
    settings = {
        "LD_PRELOAD": str(state.libraries / "refusing.so"),
        "COUNT": "all",
        "REFUSE": str(number),
        "TOLD": str(report_file),
    }
    driven = Driven(
        state, state.defined("pair"), log, settings | ({"REST": "1"} if the_rest else {})
    )
    opened_count, tasks, faults, cut = 0, [], 0, False
    while opened_count < TOGETHER or tasks[-1:] != [task("run", TOGETHER - 1, 0, "a")]:
        before = events_in(log)
        actual = driven.ask(opening(0) if opened_count < TOGETHER else many(64))
        if actual == NO_MEMORY:
            state.expect(f"{name}: the log of a request without memory", events_in(log), before)
            faults += 1
        elif actual is not None and "tasks" in actual:
            tasks += actual["tasks"]
            cut = cut or "settled" not in actual
        elif actual is not None:
            opened_count += 1
        if actual is None or (faults and the_rest):
            break
    status, line = driven.end()
    refusals, _ = calls_of(report_file)
    if status == 0:
        state.expect(
            f"{name}: tasks",
            tasks,
            [task("run", saga, 0, "a") for saga in range(len(tasks) if faults else TOGETHER)],
        )
        state.expect(
            f"{name}: the log",
            events_in(log).splitlines(True)[opened_count:],
            lines_of_events(tasks),
        )
    else:
        state.expect(f"{name}: the end", (status, line, tasks), (4, "sagas: out of memory\n", []))
    log.unlink(missing_ok=True)
    report_file.unlink(missing_ok=True)
    return refusals > 0, cut


def many_refused(state):
    """Refuse each growth of memory in turn during requests for many tasks.

    It is refused alone, or with all later ones.

    Returns:
        The number of refused growths.
    """
    refused, cut = 0, False
    with concurrent.futures.ThreadPoolExecutor(PROCESSORS) as pool:
        for the_rest in (False, True):
            for first in range(0, 5000, 64):
                tried = list(
                    pool.map(
                        lambda number: many_refused_once(state, number, the_rest),
                        range(first, first + 64),
                    )
                )
                refused += sum(met for met, _ in tried)
                cut = cut or any(of_one for _, of_one in tried)
                if not all(met for met, _ in tried):
                    break
    state.expect("memory: many tasks: growths after some tasks", cut, True)
    return refused


def memory(state):
    """Refuse each growth of memory in turn, alone and with all later ones."""
    requests = [request for request, _ in UNDONE] + [
        report(0, 0, "ok"),
        opening(0),
        NEXT,
        aborting(1),
        report(1, 0, "fail"),
        NEXT,
        b"{\n",
    ]
    requests += [opening(0), {"do": "ready"}, {"do": "list"}, {"do": "status"}, shown(0)]
    _, replies, _ = state.ran(state.defined("pair"), None, b"".join(map(line_of, requests)))
    expected = list(zip(requests, map(json.loads, replies.splitlines())))
    refused = 0
    with concurrent.futures.ThreadPoolExecutor(PROCESSORS) as pool:
        for the_rest in (False, True):
            for first in range(0, 5000, 64):
                met = list(
                    pool.map(
                        lambda number: memory_once(state, number, the_rest, expected),
                        range(first, first + 64),
                    )
                )
                refused += sum(met)
                if not all(met):
                    break
    if refused == 0:
        state.fail("memory: no growth was refused")
    return refused + many_refused(state), "refused growths"


# ---- the lock

LOCKED = (4, b"", b"sagas: log: locked\n")


def lock(state):
    """Start a second process on a log. It is refused until the first one has ended."""
    pair, log = state.defined("pair"), state.folder / "lock.log"
    driven = Driven(state, pair, log)
    state.expect("lock: the first", driven.ask(opening(0)), opened(0))
    before = log.read_bytes()
    state.expect("lock: the second", state.ran(pair, log, line_of(opening(0))), LOCKED)
    (state.folder / "link.log").symlink_to(log)
    state.expect("lock: by a link", state.ran(pair, state.folder / "link.log", b""), LOCKED)
    state.expect("lock: the log", log.read_bytes(), before)
    state.expect("lock: the first continues", driven.ask(NEXT), task("run", 0, 0, "a"))
    state.expect("lock: the end of the first", driven.end(), (0, ""))
    state.expect(
        "lock: after it",
        state.ran(pair, log, line_of(BUSY)),
        (0, line_of({"busy": [task("run", 0, 0, "a")]}), b""),
    )
    with log.open("rb") as file:
        fcntl.flock(file, fcntl.LOCK_SH)
        state.expect("lock: of a reader", state.ran(pair, log, b""), LOCKED)
    return 4 + refused_runs(state, pair, log) + held_by_a_run(state, pair, log), "locks"


def run_of(state, log, definitions):
    """Run definitions with a log, and return the status, the output and the errors."""
    done = subprocess.run(
        [state.program, "run", "--log", log, *definitions],
        capture_output=True,
        check=False,
        timeout=60,
    )
    return done.returncode, done.stdout, done.stderr


def refused_runs(state, pair, log):
    """Run on a log that another process holds. The run is refused before it writes anything."""
    driven = Driven(state, pair, log)
    # After its first reply it holds the log.
    state.expect(
        "lock: the drive before the runs", driven.ask(BUSY), {"busy": [task("run", 0, 0, "a")]}
    )
    before = log.read_bytes()
    for name, path in [("its path", log), ("a link", state.folder / "link.log")]:
        state.expect(f"lock: a run by {name}", run_of(state, path, pair), LOCKED)
        state.expect(f"lock: the log after a run by {name}", log.read_bytes(), before)
    bad = state.folder / "bad.toml"
    bad.write_text("x")
    state.expect("lock: a run of an invalid definition", run_of(state, log, [bad]), LOCKED)
    none = state.folder / "none"
    state.expect(
        "lock: a run without a file",
        run_of(state, log, [none]),
        (4, b"", f"sagas: cannot read {none}\n".encode()),
    )
    state.expect("lock: the drive continues", driven.ask(BUSY), {"busy": [task("run", 0, 0, "a")]})
    state.expect("lock: the end of the drive", driven.end(), (0, ""))
    with log.open("rb") as file:
        fcntl.flock(file, fcntl.LOCK_SH)
        state.expect("lock: a run, of a reader", run_of(state, log, pair), LOCKED)
    state.expect("lock: the log after the runs", log.read_bytes(), before)
    status, report, errors = run_of(state, log, pair)
    state.expect("lock: a run after them", (status, errors), (0, b""))
    state.expect(
        "lock: its log", run_of(state, state.folder / "other.log", pair), (status, report, b"")
    )
    state.expect("lock: the file", log.read_bytes(), (state.folder / "other.log").read_bytes())
    return 5


def full_pipe():
    """Return a full pipe."""
    out, into = os.pipe()
    os.set_blocking(into, False)
    with contextlib.suppress(BlockingIOError):
        while True:
            os.write(into, b" " * 4096)
    os.set_blocking(into, True)
    return out, into


def is_held(log):
    """Return whether a process holds a log, by the kernel's list of locks.

    A trial of the lock would refuse it to others.
    """
    held = pathlib.Path("/proc/locks").read_text().split("\n")
    return any("FLOCK" in line and f":{log.stat().st_ino} " in line for line in held)


def held_by_a_run(state, pair, log):
    """Hold a log by a run. A drive and another run are refused until the run has written it."""
    before = log.read_bytes() + b"{"
    log.write_bytes(before)
    out, into = full_pipe()
    child = subprocess.Popen(
        [state.program, "run", "--log", log, *pair], stdout=into, stderr=subprocess.PIPE
    )
    os.close(into)
    patience = time.monotonic() + 60
    while not is_held(log) and child.poll() is None and time.monotonic() < patience:
        time.sleep(0.01)
    state.expect("lock: a drive during a run", state.ran(pair, log, b""), LOCKED)
    state.expect("lock: a run during a run", run_of(state, log, pair), LOCKED)
    state.expect("lock: the log before the report is taken", log.read_bytes(), before)
    with open(out, "rb") as report:
        report.read()
    state.expect("lock: the end of the run", (child.wait(60), child.stderr.read()), (0, b""))
    child.stderr.close()
    state.expect(
        "lock: the log of the run", log.read_bytes(), (state.folder / "other.log").read_bytes()
    )
    return 2


# ---- the booking service

SERVICES = [["python3", EXAMPLES / "booking.py"], ["node", EXAMPLES / "booking.js"]]

# The same services, with bookings that execute each request, and reply only to its repetition.
LATE = [
    [
        "python3",
        "-c",
        """
import pathlib, sys
sys.path.insert(0, str(pathlib.Path(sys.argv[1]).parent))
import booking
kept, late = booking.Bookings.note, set()
def note(self, *entry):
    done = kept(self, *entry)
    if entry not in late:
        late.add(entry)
        raise TimeoutError
    return done
booking.Bookings.note = note
booking.main(pathlib.Path(sys.argv[2]))
""",
        EXAMPLES / "booking.py",
    ],
    [
        "node",
        "-e",
        """
const { Bookings, main } = require(process.argv[1]);
const [kept, late] = [Bookings.prototype.note, new Set()];
Bookings.prototype.note = function note(...entry) {
  const done = kept.apply(this, entry);
  if (late.has(`${entry}`)) return done;
  late.add(`${entry}`);
  throw Object.assign(new Error("no answer in time"), { code: "ETIMEDOUT" });
};
main(process.argv[2]);
""",
        EXAMPLES / "booking.js",
    ],
]


def serve(state, service, folder, lines=None):
    """Run the service in a folder, and return its lines.

    After `lines` lines it is killed, with its child.
    """
    settings = os.environ | {"SAGAS": str(state.program), "PYTHONDONTWRITEBYTECODE": "1"}
    child = subprocess.Popen(
        [*service, folder], env=settings, stdout=subprocess.PIPE, text=True, start_new_session=True
    )
    printed = []
    for line in child.stdout:
        printed.append(line)
        if len(printed) == lines:
            os.killpg(child.pid, signal.SIGKILL)
    child.stdout.close()
    status = child.wait(60)
    if lines is None:
        state.expect(f"{service[-1].name}: status", status, 0)
    return printed


def late(state, service, expected):
    """Delay the replies of bookings. Each success is reported, and nothing is booked twice."""
    folder = state.folder / f"late{service[-1].suffix}"
    folder.mkdir()
    printed = serve(state, service, folder)
    actual = (printed[-2:], sorted(json.loads((folder / "bookings.json").read_text())))
    state.expect(f"{service[-1].name}: late answers", actual, expected)
    state.audited(folder / "trips.log", state.defined("booking"))


def service_at(state, service, lines, expected):
    """Kill the service after some lines, and start it again. It does nothing twice."""
    folder = state.folder / f"{service[1].suffix}{lines}"
    folder.mkdir()
    serve(state, service, folder, lines)
    with (folder / "trips.log").open("rb") as log:  # wait for the end of the killed child
        fcntl.flock(log, fcntl.LOCK_EX)
    printed = serve(state, service, folder)
    entries = json.loads((folder / "bookings.json").read_text())
    actual = (printed[-2:], sorted(entries))
    state.expect(f"{service[1].name}: killed after {lines} lines", actual, expected)
    state.audited(folder / "trips.log", state.defined("booking"))
    return 1


def service(state):
    """Kill the examples after each of their lines. They end the same, and book nothing twice."""
    runs = []
    for service_command, answers_late in zip(SERVICES, LATE, strict=True):
        if not shutil.which(service_command[0]):
            continue
        folder = state.folder / f"whole{service_command[1].suffix}"
        folder.mkdir()
        printed = serve(state, service_command, folder)
        expected = (printed[-2:], sorted(json.loads((folder / "bookings.json").read_text())))
        ended = [
            "trip 0: ended: committed committed committed\n",
            "trip 1: ended: committed undone failed\n",
        ]
        state.expect(
            f"{service_command[1].name}: the end", (printed[-2:], len(expected[1])), (ended, 6)
        )
        late(state, answers_late, expected)
        runs += [(service_command, lines, expected) for lines in range(1, len(printed) - 1)]
    with concurrent.futures.ThreadPoolExecutor(PROCESSORS) as pool:
        return sum(pool.map(lambda run: service_at(state, *run), runs)), "services killed"


SECTIONS = {
    "said": conversations,
    "starts": starts,
    "random": random_ones,
    "lines": lines,
    "room": room,
    "kills": kills,
    "power": power,
    "cuts": cuts,
    "writes": writes,
    "memory": memory,
    "lock": lock,
    "service": service,
}


def main():
    """Run the sections, and return the status."""
    parser = argparse.ArgumentParser(description=__doc__.splitlines()[0])
    parser.add_argument(
        "--program",
        type=pathlib.Path,
        default=ROOT / "crates/saga_tool/out/saga_tool",
        help="the program `sagas`",
    )
    parser.add_argument(
        "--fixed-shelf", action="store_true", help="the program adds no definitions while it runs"
    )
    parser.add_argument(
        "--libraries",
        type=pathlib.Path,
        help="the folder of the preloaded libraries (default: no refusals and power failures)",
    )
    parser.add_argument("--only", choices=SECTIONS, help="run only this section")
    parser.add_argument("--kills", type=int, default=50, help="the number of kills (default: 50)")
    parser.add_argument("--seed", type=int, default=1, help="the first seed (default: 1)")
    options = parser.parse_args()
    bad = 0
    counts = []
    for name, section in SECTIONS.items():
        if options.only not in (None, name) or (
            name in ("power", "writes", "memory") and not options.libraries
        ):
            continue
        with tempfile.TemporaryDirectory() as folder:
            state = State(options, folder)
            begin = time.monotonic()
            count, unit = section(state)
            took = time.monotonic() - begin
            print(f"{name}: {count:,} {unit}, {len(state.wrong)} wrong, {took:.1f} s", flush=True)
        for line in state.wrong[:8]:
            print(f"wrong: {line}")
        counts.append(count)
        bad += len(state.wrong)
    print(f"drive: {sum(counts):,} requests, starts and runs, {bad} wrong")
    return 1 if bad or not counts else 0


if __name__ == "__main__":
    sys.exit(main())
