"""What only the client of Java has, and its example, at a real service. See README.md."""

from __future__ import annotations

import os
import pathlib
import signal
import subprocess

import pytest
from harness import LONG, QUICK, TOP, java_classes, languages
from serving import served

pytestmark = pytest.mark.skipif("java" not in languages(), reason="SAGAS_CLIENTS has no java")
SINGLE = 'format = 2\nname = "one"\n[[step]]\nname = "a"\nundo = "never"\ntries = 3\n'
DEFINITIONS = {
    "one.toml": SINGLE,
    "one.service.toml": "[step.a]\nbackoff = { initial = 0.01 }\n",
    "spent.toml": SINGLE.replace("one", "spent").replace("tries = 3", "tries = 1"),
    "spent.service.toml": '[step.a]\non_exhausted = "ask"\n',
    "asked.toml": SINGLE.replace("one", "asked"),
    "asked.service.toml": '[step.a]\nkind = "approval"\n',
}


@pytest.mark.xdist_group("sqlite")
def test_what_only_java_has(tmp_path: pathlib.Path) -> None:
    """Outcomes and types by tables, stops, executors, batches, events by request, and errors."""
    paths = java_classes(tmp_path, TOP / "clients/java/src/test/java/Tour.java")
    trips = TOP / "examples/service/definitions"
    files = {name: (trips / name).read_text() for name in ("trip.toml", "trip.service.toml")}
    with served(tmp_path, DEFINITIONS | files) as service:
        command = ["java", *QUICK, "-cp", paths]
        tour = [*command, "Tour", service.url]
        done = subprocess.run(tour, capture_output=True, timeout=4 * LONG, check=False)
        errors = done.stderr.decode()
        assert (done.returncode, done.stdout) == (0, b'{"tour":"ended"}\n'), errors[-4000:]
        assert "secret" not in errors
        example = [*command, str(TOP / "examples/service/java/Trip.java"), service.url, "order-1"]
        with subprocess.Popen(example, stdout=subprocess.PIPE, env=os.environ) as trip:
            with service.client() as client:
                saga = {"phase": "open"}
                while saga["phase"] == "open":
                    answer = client.get("/v1/sagas/order-1/wait", params={"seconds": 5})
                    saga = answer.json() if answer.status_code == 200 else saga
            trip.send_signal(signal.SIGTERM)
            output = trip.communicate(timeout=LONG)[0]
        assert saga["phase"] == "recovered" and saga["states"]["car"] == "failed", saga
        assert output == (b"canceled: room 21\n" if saga["states"]["hotel"] == "undone" else b"")
