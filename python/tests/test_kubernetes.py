"""The manifests of examples/deploy/kubernetes, read and compared with the real service."""

from __future__ import annotations

import pathlib
import re
import subprocess
import sys
from typing import Any

import httpx
import pytest
import yaml
from server import Server
from serving import LONG, environment, token

TOP = pathlib.Path(__file__).resolve().parents[2]
FOLDER = TOP / "examples" / "deploy" / "kubernetes"
PAGE = (TOP / "docs" / "guides" / "kubernetes.md").read_text()
LIMIT = 45
"""Seconds after which a service that does not stop ends itself."""


def objects() -> dict[tuple[str, str], Any]:
    """Return each object of the manifests, by its kind and its name."""
    return {
        (item["kind"], item["metadata"]["name"]): item
        for path in FOLDER.glob("*.yaml")
        if path.name != "kustomization.yaml"
        for item in yaml.safe_load_all(path.read_text())
    }


OBJECTS = objects()
PODS = {
    name: OBJECTS[name]["spec"]["template"]
    for name in (("StatefulSet", "sagas-node"), ("Deployment", "sagas-http"), ("Job", "sagas-init"))
}
SERVING = [name for name in PODS if name[0] != "Job"]


def container(name: tuple[str, str]) -> Any:
    """Return the only container of a pod."""
    (only,) = PODS[name]["spec"]["containers"]
    return only


def command(name: tuple[str, str], values: dict[str, str]) -> list[str]:
    """Return the command of a container, with its environment variables and paths replaced."""
    return [sys.executable, "-m", "sagas"] + [
        re.sub(r"\$\((\w+)\)|/etc/sagas/(?:definitions|tokens)", lambda it: values[it[0]], word)
        for word in container(name)["args"]
    ]


def test_the_kustomization_has_each_file() -> None:
    resources = yaml.safe_load((FOLDER / "kustomization.yaml").read_text())["resources"]
    files = {path.name for path in FOLDER.glob("*.yaml")}
    assert files - {*resources} == {"kustomization.yaml", "secrets.example.yaml"}
    assert all(path.name in PAGE for path in FOLDER.glob("*.yaml") if path.name != "namespace.yaml")


@pytest.mark.parametrize("name", PODS, ids="/".join)
def test_names_are_those_of_other_objects(name: tuple[str, str]) -> None:
    """Secrets, volumes, variables and labels that a pod names exist."""
    pod, only = PODS[name], container(name)
    volumes = {it["name"]: it for it in pod["spec"].get("volumes", ())}
    assert {it["name"] for it in only.get("volumeMounts", ())} == {*volumes}
    references = [it["valueFrom"] for it in only["env"]]
    secrets = [it["secretKeyRef"] for it in references if "secretKeyRef" in it]
    assert all(it["key"] in OBJECTS["Secret", it["name"]]["stringData"] for it in secrets)
    mounted = [it["secret"]["secretName"] for it in volumes.values() if "secret" in it]
    assert all(("Secret", it) in OBJECTS and it in PAGE for it in mounted)
    maps = [it["configMap"]["name"] for it in volumes.values() if "configMap" in it]
    assert all(f"create configmap {it}" in PAGE for it in maps)
    variables = {it["name"] for it in only["env"]}
    assert {*re.findall(r"\$\((\w+)\)", " ".join(only["args"]))} == variables - {"PGPASSWORD"}


@pytest.mark.parametrize("name", SERVING, ids="/".join)
def test_ports_and_selectors_agree(name: tuple[str, str]) -> None:
    """Each Service and each budget selects the pods, and targets their port."""
    labels, only = PODS[name]["metadata"]["labels"], container(name)
    assert OBJECTS[name]["spec"]["selector"]["matchLabels"] == labels
    services = [it for (kind, _), it in OBJECTS.items() if kind == "Service"]
    (service,) = [it for it in services if it["spec"]["selector"] == labels]
    budgets = [it for (kind, _), it in OBJECTS.items() if kind == "PodDisruptionBudget"]
    assert [it for it in budgets if it["spec"]["selector"]["matchLabels"] == labels]
    (port,) = only["ports"]
    assert [it["targetPort"] for it in service["spec"]["ports"]] == [port["name"]]
    assert f"--listen=0.0.0.0:{port['containerPort']}" in only["args"]
    probes = [only[it]["httpGet"] for it in ("startupProbe", "livenessProbe", "readinessProbe")]
    assert {it["port"] for it in probes} == {port["name"]}
    assert PODS[name]["spec"]["terminationGracePeriodSeconds"] > LIMIT
    if name[0] == "StatefulSet":
        assert OBJECTS[name]["spec"]["serviceName"] == service["metadata"]["name"]


def started(name: tuple[str, str], values: dict[str, str]) -> subprocess.Popen[str]:
    """Start the command of a container at an address of its own."""
    line = command(name, values | {"$(SAGAS_NODE)": f"{name[1]}-0"})
    line[-1] = "--listen=127.0.0.1:0"
    return subprocess.Popen(line, env=environment(), stdout=subprocess.PIPE, text=True)


def probed(name: tuple[str, str], address: str) -> dict[str, int]:
    """Return the status that each probe of a container gets."""
    probes = ("startupProbe", "livenessProbe", "readinessProbe")
    paths = {probe: container(name)[probe]["httpGet"]["path"] for probe in probes}
    return {it: httpx.get(address + path, timeout=LONG).status_code for it, path in paths.items()}


def test_the_commands_run(postgresql: Server, url: str, tmp_path: pathlib.Path) -> None:
    """Each service starts before the job, and is alive; after the job it is ready.

    It ends on SIGTERM. The services have a role that owns nothing.
    """
    as_app = postgresql.as_user(postgresql.create()).rpartition("/")[0]  # makes the role
    token(tmp_path, "shop", "caller")
    values = {
        "$(SAGAS_STORE)": f"{as_app}/{url.rpartition('/')[2]}",
        "/etc/sagas/definitions": str(TOP / "examples" / "service" / "definitions"),
        "/etc/sagas/tokens": str(tmp_path),
    }
    alive = {"startupProbe": 200, "livenessProbe": 200}
    processes = {name: started(name, values) for name in SERVING}
    try:
        lines = {name: it.stdout.readline() for name, it in processes.items() if it.stdout}
        for name, line in lines.items():
            assert line.endswith("waits for the database\n"), line
            assert probed(name, line.split()[2].rstrip("/")) == alive | {"readinessProbe": 503}
        job = command(("Job", "sagas-init"), values | {"$(SAGAS_STORE)": url})
        subprocess.run(job, env=environment(), check=True)
        for name, process in processes.items():
            assert process.stdout
            address = process.stdout.readline().split()[-1].rstrip("/")
            assert probed(name, address) == alive | {"readinessProbe": 200}
            process.terminate()
            assert process.wait(LONG) == 0
    finally:
        for process in processes.values():
            process.kill()
            process.communicate()
