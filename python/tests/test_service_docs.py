"""The tutorial on the service, executed: its commands in order in one shell, each output compared.

The routes of reference/http.md, the unit and the alerts are checked too.
"""

from __future__ import annotations

import configparser
import json
import os
import pathlib
import re
import shlex
import shutil
import signal
import subprocess
import sys

import pytest
import tomllib
from serving import LONG, environment, host, served, start, take, token

from sagas.inspection import store_figures
from sagas.server.metrics import INTERNAL_ERRORS

TOP = pathlib.Path(__file__).resolve().parents[2]
REFERENCE = TOP / "docs" / "reference"
PAGE = (REFERENCE / "http.md").read_text()
TUTORIAL = (TOP / "docs" / "tutorials" / "service.md").read_text()


def commands() -> list[tuple[str, str]]:
    """Return each command of the tutorial, with its output."""
    pairs = []
    for kind, block in re.findall(r"^```(\w*)\n(.*?)^```$", TUTORIAL, re.S | re.M):
        if kind:  # it is not a shell's
            continue
        for part in re.split(r"^\$ ", block, flags=re.M)[1:]:
            command, _, output = part.partition("\n")
            pairs.append((command, output))
    return pairs


def folder_of(tmp_path: pathlib.Path) -> dict[str, str]:
    """Return the environment of a folder with the checkout's parts, and `python3` and `sagas` as
    the page has them.
    """
    for name in ("python", "examples"):
        (tmp_path / name).symlink_to(TOP / name)
    (tmp_path / "bin").mkdir()
    for name, arguments in (("python3", ""), ("sagas", "-m sagas ")):
        (tmp_path / "bin" / name).write_text(
            f'#!/bin/sh\nexec {shlex.quote(sys.executable)} {arguments}"$@"\n'
        )
        (tmp_path / "bin" / name).chmod(0o755)
    variables = {name: value for name, value in environment().items() if name != "PYTHONPATH"}
    return variables | {"PATH": f"{tmp_path / 'bin'}:{os.environ['PATH']}"}


OF_SEVERAL = {"sagas_database_up", "sagas_generation"}
"""Metrics of a service over several databases: `test_service_databases.py` reads them."""


def test_the_page(tmp_path: pathlib.Path) -> None:
    """From the start of the service to a resolved stuck saga."""
    tutorial, address = commands(), host()
    assert len(tutorial) > 20
    script = ["trap 'kill $(jobs -p) 2>/dev/null; wait' EXIT"]
    for number, (command, _) in enumerate(tutorial):
        script.append(
            f"{{ {command.replace('127.0.0.1', address)}\n}} >{tmp_path}/out.{number} 2>&1"
        )
        if "sagas serve" in command:
            script.append(f"until [ -s {tmp_path}/out.{number} ]; do sleep 0.1; done")
    done = subprocess.run(
        ["bash", "-c", "\n".join(script)],
        cwd=tmp_path,
        env=folder_of(tmp_path),
        stdin=subprocess.DEVNULL,
        stdout=subprocess.PIPE,
        stderr=subprocess.STDOUT,
        text=True,
        timeout=240,
    )
    log = (tmp_path / "service.log").read_text()
    for number, (command, wanted) in enumerate(tutorial):
        out = (tmp_path / f"out.{number}").read_text().replace(address, "127.0.0.1")
        if not (command.endswith("&") and not wanted):
            assert (
                out == wanted
            ), f"$ {command}\n{out}instead of\n{wanted}\n{done.stdout}\n{log[-3000:]}"
    assert "Traceback" not in log


def test_each_path_is_described() -> None:
    """The reference has each call of the schema, and no other."""
    routes = re.findall(r"`(?:GET|POST|DELETE) (/[^`?\s]*)", PAGE)
    described = {re.sub(r"KEY|STEP|ATTEMPT_ID|ID|NODE|NAME", "{}", path) for path in routes}
    from sagas.server.app import operations

    assert {re.sub(r"\{\w+\}", "{}", operation.path) for operation in operations()} == described


def test_each_command_is_described() -> None:
    """The pages have each command of `sagas store`, and each option of these, `serve`, `token`,
    `demo` and `new`.
    """
    from sagas.cli.new_project import parser as new
    from sagas.cli.store_command import parser as store
    from sagas.server.command import parser as serve
    from sagas.server.command import token_parser
    from sagas.server.demo import parser as demo

    (commands,) = (action.choices for action in store()._actions if action.dest == "command")
    page = (REFERENCE / "cli-store.md").read_text()
    headings = " ".join(re.findall(r"^## (.*)$", page, re.M))
    assert {name for name in commands if not re.search(rf"`{name}[ `]", headings)} == set()
    pages = {
        page: commands.values(),
        (TOP / "docs" / "guides" / "service.md").read_text(): (serve(), token_parser()),
        (REFERENCE / "cli.md").read_text(): (demo(), new()),
    }
    for text, parsers in pages.items():
        options = {
            word
            for parser in parsers
            for action in parser._actions
            for word in action.option_strings
            if word.startswith("--")
        }
        assert {word for word in options - {"--help"} if not re.search(rf"{word}\b", text)} == set()


def test_metrics_are_described(tmp_path: pathlib.Path) -> None:
    """The reference has each metric of a service, and each one that an alert names is
    among them.
    """
    alerts = " ".join(
        re.findall(r"expr: (.*)", (TOP / "examples" / "service" / "alerts.yml").read_text())
    )
    board = json.loads((TOP / "examples" / "service" / "grafana.json").read_text())
    assert "Service level" in [
        panel["title"] for panel in board["panels"] if panel["type"] == "row"
    ]
    targets = [target for panel in board["panels"] for target in panel["targets"]]
    shown = " ".join(target["expr"] for target in targets)
    names = {
        re.sub("_(bucket|count)$", "", name)
        for name in re.findall(r"sagas_\w+", f"{alerts} {shown}")
    }
    names = {name.removesuffix("_total") if name.endswith("_total") else name for name in names}
    for text in (alerts, shown):
        reasons = set("|".join(re.findall(r'reason=~?"([\w|]+)"', text)).split("|"))
        assert reasons >= {*store_figures.REASONS} - {"approval"}, reasons
    assert len({panel["id"] for panel in board["panels"]}) == len(board["panels"])
    with served(tmp_path) as service, service.client() as client:
        text = client.get("/metrics").text
        for kind in INTERNAL_ERRORS:  # an alert sees no increase in the first value of a series
            assert f'sagas_internal_errors_total{{kind="{kind}"}} 0.0' in text
        assert 'outcome="program_error",saga="trip",step="car"} 0.0' in text
        assert 'sagas_ended_total{phase="stuck",saga="few"} 0.0' in text
        start(client, "trip", "a")
        take(client, "trip/flight")
        text = client.get("/metrics").text
    metrics = {
        name for name in re.findall(r"# TYPE (sagas_\w+)", text) if not name.endswith("_created")
    }
    counted = {name.removesuffix("_total") for name in metrics}
    assert names and names <= counted, names - counted
    assert metrics | OF_SEVERAL == set(
        re.findall(r"`(sagas_\w+[a-z])[{`]", (REFERENCE / "metrics.md").read_text())
    )


def test_each_wait_is_described() -> None:
    """The reference has each reason for which an attempt waits, and the page on troubleshooting the
    command's text for it.
    """
    from sagas.cli.listings import NEEDS, waits_for
    from sagas.core.states import WAITS_FOR, Suspension

    table = PAGE.partition("| `why` |")[2].partition("\n\n")[0]
    inner = {Suspension.STEP_LIMIT, Suspension.FLEET_LIMIT}  # the names in the store
    assert {*WAITS_FOR, "no_node"} - inner == set(
        re.findall(r"`(\w+)`", re.sub(r"(?m)^(\|[^|]*)\|.*", r"\1", table))
    )
    page = (TOP / "docs" / "guides" / "troubleshooting.md").read_text()
    assert {word for word in NEEDS.values() if word != "stuck" and f"`{word}`" not in page} == set()
    rows = [re.sub("NAME|N", ".+", row) for row in re.findall(r"^\| ([^|]*) \|", page, re.M)]
    fields = {"until": None, "count": 1, "worker": "w", "saga": "trip", "version": 1}
    kinds = ["unknown", "exhausted", "retry", "cannot_decode", "program_error"]
    kinds += ["node", "approval", "wait", "child"]
    texts = [waits_for(fields | {"why": why}) for why in kinds]
    texts += [
        waits_for(fields | {"why": "external", "until": 4e9}),
        waits_for(fields | {"why": "unknown", "until": 4e9}),
    ]
    assert [text for text in texts if not any(re.match(row, text) for row in rows)] == []


@pytest.mark.parametrize("engine", ["podman", "docker"])
def test_the_containers_have_one_image_and_its_tokens_can_be_read(
    tmp_path: pathlib.Path, engine: str
) -> None:
    """With docker, root owns the files that a container writes: token files must be readable for
    others.
    """
    deploy = shutil.copytree(TOP / "examples" / "deploy", tmp_path / "deploy")
    paths = (TOP / "docs" / "guides" / "service.md", deploy / "Containerfile")
    (image,) = {
        name
        for path in paths
        for name in re.findall(r"podman build .* -t (\S+) \.", path.read_text())
    }
    (tmp_path / "bin").mkdir()
    text = (
        '#!/bin/bash\nwhile [ "$1" != --volume ]; do shift; done; folder=${2%:*}; image=$5;'
        " script=${7//\\/made/$folder}\n"
    )
    text += (
        f'(umask 022; bash -ec "$script") && stat -c "%a $image" "$folder"/* >>{tmp_path}/made\n'
    )
    (tmp_path / "bin" / engine).write_text(text)
    (tmp_path / "bin" / "sagas").write_text(
        f'#!/bin/sh\nexec {shlex.quote(sys.executable)} -m sagas "$@"\n'
    )
    for path in (tmp_path / "bin").iterdir():
        path.chmod(0o755)
    for name in ("bash", "sh", "dirname", "mktemp", "rm", "stat", "od", "tr", "cat", "cp", "chmod"):
        (tmp_path / "bin" / name).symlink_to(str(shutil.which(name)))
    done = subprocess.run(
        [deploy / "setup"],
        env=environment() | {"PATH": str(tmp_path / "bin")},
        capture_output=True,
        text=True,
        check=True,
    )
    assert re.fullmatch(r"caller:   sagas_\S+\noperator: sagas_\S+\n", done.stdout)
    assert (
        "SAGAS_WORKER_TOKEN=sagas_" in (deploy / ".env").read_text()
        and (deploy / ".env").stat().st_mode & 0o077 == 0
    )
    assert set((tmp_path / "made").read_text().splitlines()) == {f"644 {image}"}
    assert f"SAGAS_IMAGE:-{image}}}" in (deploy / "compose.yaml").read_text() and image.startswith(
        "localhost/"
    )


def test_the_unit_starts_a_service(tmp_path: pathlib.Path) -> None:
    """It runs its command, with the folders of this test; it has time to end, and descriptors for
    its connections.
    """
    unit = configparser.ConfigParser(interpolation=None, strict=False)
    unit.read(TOP / "examples" / "service" / "sagas.service")
    service = unit["Service"]
    assert int(service["TimeoutStopSec"]) > 20 and int(service["LimitNOFILE"]) > 2000
    (tmp_path / "definitions").symlink_to(TOP / "examples" / "service" / "definitions")
    token(tmp_path, "shop", "caller")
    command = [
        re.sub("^(/var/lib|/etc)/sagas", str(tmp_path), word)
        for word in shlex.split(service["ExecStart"])
    ]
    assert command[:2] == ["/usr/bin/sagas", "serve"] and command[-2:] == [
        "--listen",
        "127.0.0.1:8080",
    ]
    command[:1], command[-1] = [sys.executable, "-m", "sagas"], f"{host()}:0"
    with subprocess.Popen(
        command, env=environment(), cwd=tmp_path, stdout=subprocess.PIPE, text=True
    ) as process:
        try:
            assert process.stdout and "http://" in process.stdout.readline()
            process.send_signal(signal.SIGTERM)
            assert process.wait(LONG) == 0
        finally:
            process.kill()
    assert (tmp_path / "store.db").exists()


def test_the_unit_is_hardened() -> None:
    """By systemd's own measure of a service's exposure: at most 2.0 of 10."""
    unit = TOP / "examples" / "service" / "sagas.service"
    command = [
        "systemd-analyze",
        "security",
        "--offline=true",
        "--no-pager",
        "--threshold=20",
        str(unit),
    ]
    done = subprocess.run(command, capture_output=True, text=True, check=False)
    assert done.returncode == 0, done.stdout[-300:] + done.stderr


@pytest.mark.parametrize("name", ["trip.toml", "trip.service.toml", "licence.toml"])
def test_examples_are_toml(name: str) -> None:
    tomllib.loads((TOP / "examples" / "service" / "definitions" / name).read_text())
