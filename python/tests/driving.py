"""`sagas drive` as a plain child process, for tests: one request, one reply."""

from __future__ import annotations

import json
import os
import pathlib
import subprocess
from collections.abc import Sequence
from types import TracebackType
from typing import Any

Json = dict[str, Any]


def program() -> str:
    """Return the released program, or the one that SAGAS_PROGRAM names."""
    here = pathlib.Path(__file__).resolve()
    return os.environ.get("SAGAS_PROGRAM") or str(here.parents[2] / "dist" / "sagas")


class Drive:
    """A running `sagas drive` over some definitions, with a log or without."""

    def __init__(
        self, folder: pathlib.Path, texts: Sequence[str], log: pathlib.Path | None = None
    ) -> None:
        paths = []
        for number, text in enumerate(texts):
            paths.append(folder / f"def-{number}.toml")
            paths[-1].write_text(text)
        command = [program(), "drive", *(["--log", str(log)] if log else []), *map(str, paths)]
        self.process = subprocess.Popen(command, stdin=subprocess.PIPE, stdout=subprocess.PIPE)

    def __enter__(self) -> Drive:
        return self

    def __exit__(
        self,
        kind: type[BaseException] | None,
        error: BaseException | None,
        at: TracebackType | None,
    ) -> None:
        assert self.process.stdin and self.process.stdout
        self.process.stdin.close()
        self.process.stdout.close()
        self.process.wait(20)

    def ask(self, *requests: Json) -> list[Json]:
        """Send requests in one write, and return the replies."""
        assert self.process.stdin and self.process.stdout
        self.process.stdin.write(
            "".join(json.dumps(request) + "\n" for request in requests).encode()
        )
        self.process.stdin.flush()
        return [json.loads(self.process.stdout.readline()) for _ in requests]


def audit(log: pathlib.Path, paths: Sequence[pathlib.Path]) -> str:
    """Return the output of `sagas audit` for a log."""
    command = [program(), "audit", str(log), *map(str, paths)]
    done = subprocess.run(command, capture_output=True, text=True, check=False)
    return (done.stdout + done.stderr).strip()
