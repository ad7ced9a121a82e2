#!/usr/bin/python3 -S
"""Run the program of the C file with a log: keeping.py ENGINE COMMAND [ARGUMENT ...]

The script executes `drive --log F` as the package does it: by `drive --lines --from F`. It appends
the lines to F before it prints their reply, and cuts an incomplete end off F. It does not store the
definitions in a file, and does not lock or sync F. Any other command runs unchanged. So the
conversations of tests/drive.py and tests/rows run over the C file.
"""

from __future__ import annotations

import os
import subprocess
import sys
from typing import BinaryIO

CUT = b"sagas: log: cut line taken away: "


def keep(engine: str, path: str, arguments: list[str]) -> int:
    """Drive with a log, and return the status."""
    with open(path, "ab") as log:
        text = ["--from", path] if log.tell() else []
        command = [engine, "drive", "--lines", *text, *arguments]
        with subprocess.Popen(
            command, stdout=subprocess.PIPE, stderr=subprocess.PIPE, bufsize=0
        ) as child:
            assert child.stdout and child.stderr
            left = b""
            is_first = True
            while data := os.read(child.stdout.fileno(), 1 << 20):
                *lines, left = (left + data).split(b"\n")
                if is_first:
                    cut(log, child.stderr.fileno())
                    is_first = False
                log.write(b"".join(line[1:] + b"\n" for line in lines if line[:1] == b"+"))
                log.flush()
                put(1, b"".join(line + b"\n" for line in lines if line[:1] != b"+"))
            if is_first:
                cut(log, child.stderr.fileno())
            put(2, child.stderr.read())
            return child.wait()


def cut(log: BinaryIO, stream: int) -> None:
    """Cut the log if the program has ignored its end, and print the program's note."""
    os.set_blocking(stream, False)
    try:
        line = os.read(stream, 4096)
    except BlockingIOError:
        line = b""
    os.set_blocking(stream, True)
    if line.startswith(CUT):
        log.truncate(log.tell() - int(line[len(CUT) :].split()[0]))
    put(2, line)


def put(to: int, data: bytes) -> None:
    """Write all bytes."""
    while data:
        data = data[os.write(to, data) :]


def main() -> int:
    """Execute the command line."""
    engine, *arguments = sys.argv[1:]
    if arguments[:1] != ["drive"] or "--log" not in arguments:
        os.execv(engine, [engine, *arguments])
    position = arguments.index("--log")
    return keep(engine, arguments[position + 1], arguments[1:position] + arguments[position + 2 :])


if __name__ == "__main__":
    sys.exit(main())
