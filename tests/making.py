"""Texts for the rows: those at a limit, and those of a regular form."""

from __future__ import annotations

import json
from collections.abc import Iterable


def padded(content: str, size: int, with_: str) -> str:
    """Return a text, padded to a size in bytes with a character of one byte."""
    return content + with_ * (size - len(content.encode()))


def chain(steps: int) -> str:
    """Return a definition of steps in a chain. A committed step costs 1 to undo and 2 to keep."""
    text = 'format = 1\nname = "chain"\n'
    for step in range(steps):
        text += f'\n[[step]]\nname = "s{step}"\nundo = 1\nkeep = 2\n'
        text += f'needs = ["s{step - 1}"]\n' if step else ""
    return text


def greatest(steps: int) -> str:
    """Return a definition of steps with the greatest costs, which cannot be run or kept."""
    costs = 'run = "never"\nundo = 1000000000\nskip = 1000000000\nkeep = "never"\n'
    return 'format = 1\nname = "greatest"\n' + "".join(
        f'\n[[step]]\nname = "s{step}"\n{costs}' for step in range(steps)
    )


def greatest_plan(steps: int, first: int = 2_000_000_000) -> str:
    """Return the plan for such steps, all committed, with an amount for leaving out the first."""
    amounts = [2_000_000_000] * steps
    plan = {
        "cost": sum(amounts),
        "kept": [],
        "kind": "plan",
        "leave": [first, *amounts[1:]],
        "links": [],
        "stand": amounts,
    }
    return json.dumps(plan, separators=(",", ":")) + "\n"


def states(count: int, word: str, last: str) -> str:
    """Return a case of `count` steps, all of one state except the last."""
    return json.dumps({"states": [word] * (count - 1) + [last]}, separators=(",", ":"))


def named(name: str, needs: int, steps: int = 1024, lines: str = "") -> str:
    """Return a definition of steps with this number of needs.

    The first step has the name. A step needs at most nine steps, the last ones before it. Each step
    has the lines too.
    """
    names = [name] + [f"s{step}" for step in range(1, steps)]
    text, left = 'format = 1\nname = "named"\n', needs
    for step in range(steps):
        count = min(9, step, left)
        left -= count
        needed = ",".join(f'"{names[step - before]}"' for before in range(1, count + 1))
        text += f'\n[[step]]\nname = "{names[step]}"\nneeds = [{needed}]\n{lines}'
    return text


def alike(steps: int, lines: str) -> str:
    """Return a definition of steps without needs, which have these lines."""
    return 'format = 1\nname = "alike"\n' + "".join(
        f'\n[[step]]\nname = "s{step}"\n{lines}\n' for step in range(steps)
    )


def backward(steps: int) -> str:
    """Return a definition of steps in a chain. Each needs the next one in the file."""
    needs = [f'needs = ["s{step}"]\n' for step in range(1, steps)] + [""]
    return 'format = 1\nname = "backward"\n' + "".join(
        f'\n[[step]]\nname = "s{step}"\n{need}' for step, need in enumerate(needs)
    )


def plan_of(
    cost: int, kept: list[int], leave: list[int], stand: list[int], links: list[int]
) -> str:
    """Return the text of a plan as the program writes it."""
    plan = {
        "cost": cost,
        "kept": kept,
        "kind": "plan",
        "leave": leave,
        "links": links,
        "stand": stand,
    }
    return json.dumps(plan, separators=(",", ":")) + "\n"


def broken(content: str, position: int, byte: int = ord("}")) -> bytes:
    """Return a text with another byte at a position."""
    whole = content.encode()
    return whole[:position] + bytes([byte]) + whole[position + 1 :]


NEW_EVENTS = ("missed", "undo_missed", "void", "abort")


def event(name: str, answer: str = "null") -> str:
    """Return the line of an event: `start_run 2` (of saga 0), `7:abort`, or `open 1`."""
    saga, _, action = name.rpartition(":")
    word, _, number = action.partition(" ")
    keys = {"event": word, "saga": int(saga or 0)}
    if word == "open":
        keys["def"] = int(number or 0)
    elif number:
        keys["step"] = int(number)
    if word == "adopt":
        keys["answer"] = json.loads(answer)
    return json.dumps(keys, separators=(",", ":"), sort_keys=True) + "\n"


def log(events: str, *answers: str, header: bool = False) -> str:
    """Return the log of events that commas separate, with the adopted answers in order.

    It has a header if an event needs one, or if `header` is true.
    """
    left = iter(answers)
    actions = [name.strip() for name in events.split(",") if name.strip()]
    lines = [event(name, next(left) if name.endswith("adopt") else "null") for name in actions]
    is_new = any(name.rpartition(":")[2].partition(" ")[0] in NEW_EVENTS for name in actions)
    return ('{"format":2}\n' if header or is_new else "") + "".join(lines)


def committed(sagas: int, steps: int) -> str:
    """Return the events of sagas with steps without needs, which commit one after another."""
    of_each = [
        [f"{saga}:{word} {step}" for step in range(steps) for word in ("start_run", "commit")]
        for saga in range(sagas)
    ]
    return ",".join(
        name for saga, events in enumerate(of_each) for name in [f"{saga}:open", *events]
    )


def started(sagas: int, steps: int) -> str:
    """Return the events of sagas, all open, and then of their steps without needs, all started."""
    opened_sagas = [f"{saga}:open" for saga in range(sagas)]
    starts = [f"{saga}:start_run {step}" for saga in range(sagas) for step in range(steps)]
    return ",".join(opened_sagas + starts)


def given_up(sagas: int) -> str:
    """Return the events of sagas whose only step fails, so that each adopts a plan."""
    events = ("open", "start_run 0", "fail 0", "start_plan", "adopt")
    return ",".join(f"{saga}:{word}" for saga in range(sagas) for word in events)


def changed(events: str, position: int, *others: str) -> str:
    """Return events with others, or none, instead of the one at a position."""
    actions = events.split(",")
    return ",".join(actions[:position] + list(others) + actions[position + 1 :])


def doubled(events: str, position: int) -> str:
    """Return events with one of them twice."""
    name = events.split(",")[position]
    return changed(events, position, name, name)


def swapped(events: str, position: int) -> str:
    """Return events with one and its successor swapped."""
    actions = events.split(",")
    return ",".join(
        actions[:position] + [actions[position + 1], actions[position]] + actions[position + 2 :]
    )


def up_to(events: str, count: int) -> str:
    """Return the first events."""
    return ",".join(events.split(",")[:count])


def requests_of(talk: str, first: int = 0) -> str:
    """Return the requests of a talk from the first one on. Its replies are indented."""
    return "".join(
        f"{line}\n"
        for line in [line for line in talk.splitlines() if not line.startswith("    ")][first:]
    )


def replies_of(talk: str, first: int = 0) -> str:
    """Return the replies of a talk from the first one on."""
    return "".join(
        f"{line[4:]}\n"
        for line in [line for line in talk.splitlines() if line.startswith("    ")][first:]
    )


def replied(**value) -> str:
    """Return the line of a reply."""
    return json.dumps(value, separators=(",", ":"), sort_keys=True) + "\n"


def opened(saga: int) -> str:
    """Return the reply to the opening of a saga by the first definition."""
    return replied(event={"def": 0, "event": "open", "saga": saga}, phase="going")


def runs(sagas: Iterable[int], steps: int) -> list[dict[str, object]]:
    """Return the first attempts of all steps of these sagas, of the definition `alike`."""
    return [
        {"attempt": 1, "name": f"s{step}", "saga": saga, "step": step, "task": "run"}
        for saga in sagas
        for step in range(steps)
    ]


def ready(*sagas: int, steps: int = 60, more: int | None = None) -> str:
    """Return the reply that all steps of these sagas, of the definition `alike`, may start."""
    return replied(ready=runs(sagas, steps), **({} if more is None else {"more": more}))


def busy(sagas: int, steps: int) -> str:
    """Return the reply that all steps of the sagas, of the definition `alike`, are under way."""
    return replied(busy=runs(range(sagas), steps))


def ended(sagas: int, steps: int) -> str:
    """Return the report of a run of sagas of the definition `alike`, without a failure."""
    of_steps = "".join(f"{step:4} committed s{step}\n" for step in range(steps))
    of_sagas = "".join(
        f"saga {saga} alike ended\n{of_steps}plans 0 cost none\n" for saga in range(sagas)
    )
    return f"{of_sagas}sagas {sagas} ended {sagas} stuck 0 events {sagas * (1 + 2 * steps)}\n"


def listed(sagas: Iterable[int], more: int | None = None) -> str:
    """Return the reply that these sagas, of the definition `two`, are open."""
    rows = [{"name": "two", "phase": "going", "saga": saga} for saga in sagas]
    return replied(sagas=rows, **({} if more is None else {"more": more}))


def kept(*texts: str) -> str:
    """Return the file of definitions of a log."""
    return "".join(f"definition of {len(text.encode())} bytes\n{text}\n" for text in texts)
