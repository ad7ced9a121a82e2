#!/usr/bin/env python3
"""A booking service that leaves its decisions to `sagas drive`: the next task, and the recovery.

`booking.py FOLDER` executes two trips. The tour has one seat, so the second trip fails there: its
plan keeps the flight and cancels the hotel. FOLDER keeps trips.log, which `sagas drive` writes, and
bookings.json, the records of the service. If it is killed at any moment and started again, it
continues, and books nothing twice.
"""
import contextlib
import json
import os
import pathlib
import subprocess
import sys

TOP = pathlib.Path(__file__).resolve().parent.parent
PROGRAM = os.environ.get("SAGAS", TOP / "sagas")
TRIPS, SEATS = 2, 1


class Bookings:
    """The records of the service: all bookings and cancellations in order.

    A second execution of a step, in any attempt, changes nothing.
    """

    def __init__(self, path):
        self.path = path
        self.entries = json.loads(path.read_text()) if path.exists() else []

    def run(self, trip, name):
        """Book a step, and return whether it is booked."""
        others = sum(
            action == "booked" and step == "tour" and booked_for != trip
            for action, booked_for, step in self.entries
        )
        return (name != "tour" or others < SEATS) and self.note("booked", trip, name)

    def undo(self, trip, name):
        """Cancel a step, and return whether it is cancelled."""
        return self.note("cancelled", trip, name)

    def execute(self, task):
        """Execute a task, and return whether it succeeded.

        After a timeout the outcome is unknown, so the task is executed again before the report.
        """
        while True:
            with contextlib.suppress(TimeoutError):
                return getattr(self, task["task"])(task["saga"], task["name"])

    def note(self, *entry):
        """Add an entry unless it exists."""
        if list(entry) not in self.entries:
            self.entries.append(list(entry))
            self.path.with_suffix(".new").write_text(json.dumps(self.entries))
            # The file has all entries or is unchanged. A true service has a transaction here.
            self.path.with_suffix(".new").replace(self.path)
        return True


class Drive:
    """`sagas drive` as a child process, which answers each line with a line."""

    def __init__(self, log, *definitions):
        self.child = subprocess.Popen(
            [PROGRAM, "drive", "--log", log, *definitions],
            stdin=subprocess.PIPE,
            stdout=subprocess.PIPE,
            text=True,
        )

    def ask(self, request):
        """Send a request, and return the reply."""
        print(json.dumps(request), file=self.child.stdin, flush=True)
        line = self.child.stdout.readline()
        return json.loads(line or sys.exit("booking: sagas drive has ended"))


def perform(task, drive, bookings):
    """Execute a task and report its outcome. A task `plan` needs neither."""
    if task["task"] != "plan":
        done = bookings.execute(task)
        outcome = "done" if done else "failed"
        print(f"trip {task['saga']}: {task['task']} {task['name']}: {outcome}", flush=True)
        drive.ask(
            {"do": "report", "outcome": "ok" if done else "fail"}
            | {key: task[key] for key in ("attempt", "saga", "step", "task")}
        )


def main(folder):
    """Execute two trips, or continue them."""
    bookings = Bookings(folder / "bookings.json")
    drive = Drive(folder / "trips.log", TOP / "examples" / "booking.toml")
    # Tasks that started before a restart: the records say whether they succeeded.
    for task in drive.ask({"do": "busy"})["busy"]:
        perform(task, drive, bookings)
    for trip in range(TRIPS):
        # The program refuses a trip that was opened before a restart.
        drive.ask({"do": "open", "name": "trip", "saga": trip})
    while (task := drive.ask({"do": "next"}))["task"] != "none":
        perform(task, drive, bookings)
    for trip in range(TRIPS):
        shown = drive.ask({"do": "show", "saga": trip})
        print(f"trip {trip}: {shown['phase']}: {' '.join(shown['states'])}")


if __name__ == "__main__":
    main(pathlib.Path(sys.argv[1]))
