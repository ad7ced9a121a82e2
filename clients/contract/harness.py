"""Drivers as processes, and a service for them."""

from __future__ import annotations

import contextlib
import itertools
import json
import os
import pathlib
import shutil
import signal
import subprocess
import sys
import tempfile
import threading
from collections.abc import Callable, Iterator
from concurrent.futures import Future
from typing import Any

TOP = pathlib.Path(__file__).resolve().parents[2]
LONG = 60.0
JACKSON = "/usr/share/java/jackson"
QUICK = ["-XX:TieredStopAtLevel=1", "-XX:+UseSerialGC"]
"""Options of a JVM that runs for seconds."""
WARM = """{"id": 1, "do": "open", "url": "http://127.0.0.1:9", "token": null}
{"id": 2, "do": "get", "key": ""}
{"id": 3, "do": "end"}
"""
"""What Java's driver does once, so that its classes are archived."""
Json = dict[str, Any]


class Refused(Exception):
    """An error that a driver returned."""

    def __init__(self, name: str, status: int, text: str) -> None:
        super().__init__(f"{name} ({status}): {text}")
        self.name, self.status, self.text = name, status, text


def command_of(language: str, room: pathlib.Path) -> list[str]:
    """Return the command that starts a language's driver; those of Go and Java are built first."""
    if language == "python":
        return [sys.executable, str(TOP / "clients/contract/driver.py")]
    if language == "node":
        return ["node", str(TOP / "clients/node/contract/driver.mjs")]
    if language == "java":
        return java_command(room)
    program = room / "driver"
    cache = {"GOCACHE": os.environ.get("GOCACHE", str(room / "cache")), "GOFLAGS": "-mod=mod"}
    build = ["go", "build", "-o", str(program), "./internal/contractdriver"]
    subprocess.run(build, cwd=TOP / "clients/go", env=os.environ | cache, check=True, timeout=240)
    return [str(program)]


def java_command(room: pathlib.Path) -> list[str]:
    """Build the driver with the client, and return the command: one that starts quickly."""
    java = ["java", *QUICK, "-cp"]
    java += [java_classes(room, TOP / "clients/java/contract/ContractDriver.java")]
    archive = room / "driver.jsa"
    archived = [*java, f"-XX:ArchiveClassesAtExit={archive}", "ContractDriver"]
    subprocess.run(archived, input=WARM.encode(), check=True, timeout=240, capture_output=True)
    return [*java, f"-XX:SharedArchiveFile={archive}", "ContractDriver"]


def java_classes(room: pathlib.Path, program: pathlib.Path) -> str:
    """Build a program with the client of Java, and return its class path."""
    jar, classes = room / "program.jar", room / "classes"
    jackson = [f"{JACKSON}-{part}.jar" for part in ("annotations", "core", "databind")]
    paths = os.pathsep.join([str(jar), *jackson])
    sources = [*(TOP / "clients/java/src/main/java/sagas").glob("*.java"), program]
    compiler = ["javac", *(f"-J{option}" for option in QUICK), "-cp", paths, "-d", str(classes)]
    for build in (
        [*compiler, *map(str, sources)],
        ["jar", "--create", "--file", str(jar), "-C", str(classes), "."],
    ):
        subprocess.run(build, check=True, timeout=240)
    return paths


def languages() -> list[str]:
    """Return the languages that are requested and installed."""
    wanted = os.environ.get("SAGAS_CLIENTS", "python,node,go,java").split(",")
    return [
        language for language in wanted if language != "go" or (TOP / "clients/go/go.mod").exists()
    ]


@contextlib.contextmanager
def commands() -> Iterator[Callable[[str], list[str]]]:
    """Return the commands of all languages; each is made once."""
    room = pathlib.Path(tempfile.mkdtemp(prefix="sagas-drivers-"))
    made: dict[str, list[str]] = {}
    try:
        yield lambda language: _made(made, language, room)
    finally:
        shutil.rmtree(room)


def _made(made: dict[str, list[str]], language: str, room: pathlib.Path) -> list[str]:
    if language not in made:
        made[language] = command_of(language, room)
    return made[language]


class Driver:
    """A running driver."""

    def __init__(self, command: list[str]) -> None:
        path = f"{TOP / 'python/src'}{os.pathsep}{os.environ.get('PYTHONPATH', '')}"
        self.errors = tempfile.TemporaryFile()
        self.process = subprocess.Popen(
            command,
            stdin=subprocess.PIPE,
            stdout=subprocess.PIPE,
            stderr=self.errors,
            env=os.environ | {"PYTHONPATH": path},
        )
        self.notes: list[Json] = []
        self._numbers = itertools.count(1)
        self._answers: dict[int, Future[Any]] = {}
        self._changed = threading.Condition()
        self._reader = threading.Thread(target=self._read, daemon=True)
        self._reader.start()

    def _read(self) -> None:
        assert self.process.stdout
        for line in self.process.stdout:
            message = json.loads(line)
            with self._changed:
                if "note" in message:
                    self.notes.append(message)
                    self._changed.notify_all()
                    continue
                answer = self._answers.pop(message["id"])
            if "error" in message:
                error = message["error"]
                answer.set_exception(Refused(error["name"], error["status"], error["text"]))
            else:
                answer.set_result(message["value"])
        with self._changed:
            for answer in self._answers.values():
                answer.set_exception(EOFError("the driver has ended"))
            self._changed.notify_all()

    def send(self, word: str, **arguments: Any) -> Future[Any]:
        """Send a command; its reply comes later."""
        answer: Future[Any] = Future()
        number = next(self._numbers)
        with self._changed:
            self._answers[number] = answer
        assert self.process.stdin
        text = json.dumps({"id": number, "do": word, **arguments}, ensure_ascii=False)
        self.process.stdin.write(text.encode() + b"\n")
        self.process.stdin.flush()
        return answer

    def ask(self, word: str, **arguments: Any) -> Any:
        """Send a command and wait for its reply."""
        return self.send(word, **arguments).result(LONG)

    def refused(self, word: str, **arguments: Any) -> str:
        """Return the name of the error of a command."""
        error = self.send(word, **arguments).exception(LONG)
        assert isinstance(error, Refused), (word, arguments, error)
        return error.name

    def heard(self, note: str, count: int = 1, **fields: Any) -> list[Json]:
        """Wait until `count` notes with this content have arrived."""
        matches: list[Json] = []

        def enough() -> bool:
            wanted = {"note": note, **fields}
            matches[:] = [note for note in self.notes if wanted.items() <= note.items()]
            return len(matches) >= count

        with self._changed:
            assert self._changed.wait_for(enough, LONG), (
                note,
                fields,
                self.notes[-20:],
                self.error_output(),
            )
        return matches

    def calls(self, key: str, name: str) -> list[Json]:
        """Return the calls of a step of a saga up to now."""
        with self._changed:
            wanted = {"note": "called", "key": key, "name": name}
            return [note for note in self.notes if wanted.items() <= note.items()]

    def error_output(self) -> str:
        """Return what the driver wrote to its standard error."""
        self.errors.seek(0)
        return self.errors.read().decode(errors="replace")

    def kill(self) -> None:
        self.process.kill()
        self.process.wait(LONG)
        self._close()

    def end(self) -> None:
        """Ask the driver to end, and check that it does."""
        if self.process.poll() is None:
            self.ask("end")
            assert self.process.wait(LONG) == 0
        self._close()

    def _close(self) -> None:
        self._reader.join(LONG)
        assert self.process.stdin and self.process.stdout
        with contextlib.suppress(BrokenPipeError):
            self.process.stdin.close()
        self.process.stdout.close()

    @contextlib.contextmanager
    def paused(self) -> Iterator[None]:
        """Stop the driver's process for the block."""
        self.process.send_signal(signal.SIGSTOP)
        try:
            yield
        finally:
            self.process.send_signal(signal.SIGCONT)
