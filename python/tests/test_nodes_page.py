"""The tutorial on two nodes, executed: a server, two nodes, a client.

One node is killed, and the saga ends.
"""

from __future__ import annotations

import contextlib
import os
import pathlib
import re
import signal
import subprocess
import sys
import time

from driving import program
from server import Server
from serving import command

import sagas

TOP = pathlib.Path(sagas.__file__).resolve().parents[3]
PAGE = (TOP / "docs/tutorials/cluster.md").read_text()


def code(name: str) -> str:
    """Return the block of the page that is to be saved under this name."""
    match = re.search(rf"as `{name}`:\n\n```python\n(.*?)^```$", PAGE, re.S | re.M)
    assert match, name
    return match[1]


def test_two_nodes_and_a_client(url: str, postgresql: Server, tmp_path: pathlib.Path) -> None:
    """The client prints what the page says, though the node that had the saga was killed."""
    for name in ("trip.py", "node.py", "client.py"):
        (tmp_path / name).write_text(code(name).replace("asyncio.sleep(10)", "asyncio.sleep(3)"))
    environment = os.environ | {
        "PYTHONPATH": str(pathlib.Path(sagas.__file__).resolve().parents[1]),
        "SAGAS_PROGRAM": program(),
        "STORE": url,
        "PYTHONUNBUFFERED": "1",
    }

    def start(*arguments: str) -> subprocess.Popen[str]:
        return subprocess.Popen(
            [sys.executable, *arguments],
            cwd=tmp_path,
            env=environment,
            stdout=subprocess.PIPE,
            text=True,
        )

    with contextlib.ExitStack() as stack:
        nodes = {}
        for name in ("one", "two"):
            nodes[name] = stack.enter_context(start("node.py", name))
            stack.callback(nodes[name].kill)
            assert nodes[name].stdout and nodes[name].stdout.readline() == f"node {name}\n"
        client = stack.enter_context(start("client.py", "order-1"))
        stack.callback(client.kill)
        owner = None
        until = time.monotonic() + 120
        while owner is None and time.monotonic() < until:
            # a start that no node has taken yet is below the table
            table, _, _ = command("store", url, "nodes").stdout.partition("\n\n")
            owner = next(
                (line.split()[0] for line in table.splitlines()[1:] if line.split()[-1] == "1"),
                None,
            )
            time.sleep(0.05)
        assert owner
        nodes[owner].send_signal(signal.SIGKILL)
        out, _ = client.communicate(timeout=200)
        (printed,) = re.findall(r"prints:\n\n```text\n(.*?)```", PAGE, re.S)[:1]
        assert out == printed
        show_nodes = [sys.executable, "-m", "sagas", "store", url, "nodes"]
        output = subprocess.check_output(show_nodes, env=environment, text=True)
        other = "two" if owner == "one" else "one"
        assert other in [line.split()[0] for line in output.splitlines()[1:] if line]
        nodes[other].send_signal(signal.SIGTERM)
        assert nodes[other].wait(120) == 0
