"""README.md, executed: installed from a checkout into an empty environment.

Its code is saved, each command is run, and each output compared.
"""

from __future__ import annotations

import importlib
import os
import pathlib
import platform
import re
import struct
import subprocess
import sys
import tarfile
import zipfile
from collections.abc import Iterator
from typing import Any

import pytest

import sagas

PACKAGE = pathlib.Path(sagas.__file__).resolve().parents[2]
PAGE = (PACKAGE / "README.md").read_text()
INTERPRETER = 3
"""The type of a program header that names a loader."""


@pytest.fixture(scope="module")
def folder(tmp_path_factory: pytest.TempPathFactory) -> pathlib.Path:
    """Return an empty folder next to the package, with `python`, `pip` and `sagas` of an
    environment. The page's first command has installed the package there.
    """
    folder = tmp_path_factory.mktemp("page")
    subprocess.run(
        [sys.executable, "-m", "venv", "--without-pip", "environment"], cwd=folder, check=True
    )
    (folder / "python").symlink_to(PACKAGE)
    command = [
        sys.executable,
        "-m",
        "pip",
        "--python",
        str(folder / "environment/bin/python"),
        "install",
        "--no-index",
        "-q",
        "./python",
    ]
    subprocess.run(command, cwd=folder, check=True, env=clean(), capture_output=True)
    return folder


def clean() -> dict[str, str]:
    return {
        name: value
        for name, value in os.environ.items()
        if not name.startswith(("PYTHON", "SAGAS", "PIP"))
    }


def shell(folder: pathlib.Path, command: str) -> str:
    """Return the output of a command; unbuffered, so that it has what was printed before a kill."""
    path = f"{folder / 'environment/bin'}:{os.environ['PATH']}"
    env = clean() | {"PATH": path, "PYTHONUNBUFFERED": "1"}
    return subprocess.run(
        ["bash", "-c", command],
        cwd=folder,
        env=env,
        stdout=subprocess.PIPE,
        stderr=subprocess.STDOUT,
        text=True,
        timeout=60,
    ).stdout


def blocks(language: str, page: str = PAGE) -> list[str]:
    """Return the blocks of a page that are of this language."""
    matches = re.findall(r"^```(\w*)\n(.*?)^```$", page, re.S | re.M)
    return [text for block_language, text in matches if block_language == language]


def commands() -> list[tuple[str, str]]:
    """Return each command of the page, with its output."""
    pairs = []
    for block in blocks(""):
        for part in re.split(r"^\$ ", block, flags=re.M)[1:]:
            command, _, output = part.partition("\n")
            pairs.append((command, output))
    return pairs


def test_the_page(folder: pathlib.Path) -> None:
    """Its first command installs the package, and the dozen lines print what it says."""
    (code,) = blocks("python")
    (folder / "order.py").write_text(code)
    assert commands()[0] == ("pip install ./python", "")
    for command, output in commands()[1:]:
        assert shell(folder, command) == output, command


def test_the_guide_to_steps() -> None:
    """Its fragments declare what it says they do."""
    guide = (PACKAGE.parent / "docs/guides/steps.md").read_text()
    calls = ("open_sync", "await ")  # of a store, which does not exist here
    fragments = [
        code for code in blocks("python", guide) if not any(word in code for word in calls)
    ]
    there: dict[str, object] = {}
    exec("".join(fragments), there)
    trip = there["trip"]
    assert isinstance(trip, sagas.Saga)
    assert [(step.name, step.kind) for step in trip.steps[2:]] == [
        ("tour", "step"),
        ("reminder", "wait"),
        ("billing", "step"),
    ]
    tour, _, billing = trip.steps[2:]
    assert tour.concurrency == 4 and tour.bounds is not None and billing.run.external
    assert 'name = "billing"' in trip.toml()


def test_the_commands(folder: pathlib.Path) -> None:
    """`sagas` and `python -m sagas` are the program; `sagas store` looks at the store."""
    root = PACKAGE.parent / "examples"
    case = (
        f"check {root / 'licence.toml'} {root / 'licence.case.json'} {root / 'licence.answer.json'}"
    )
    for command in ("sagas", "python -m sagas"):
        assert shell(folder, f"{command} --version").startswith("sagas ")
        assert shell(folder, f"{command} {case}") == "blocked\n"
        assert "list" in shell(folder, f"{command} store --help")
    assert shell(folder, "echo 'nothing' | sagas; echo $?").strip().endswith("3")


def test_the_help(folder: pathlib.Path) -> None:
    """This holds also if the dependencies for PostgreSQL and Celery are not installed."""
    output = shell(
        folder,
        (
            "python -m pydoc sagas; python -c 'from sagas import *; import inspect, sagas;"
            " print(len(inspect.getmembers(sagas)), open_sync)'"
        ),
    )
    assert (
        "NAME\n    sagas" in output
        and "SyncStore" in output
        and "Error" not in output.splitlines()[-1]
        and "<function open_sync" in output.splitlines()[-1]
    )


@pytest.fixture
def wheels(monkeypatch: pytest.MonkeyPatch) -> Iterator[Any]:
    """Return the module that builds the wheels."""
    monkeypatch.syspath_prepend(str(PACKAGE / "packaging"))
    yield importlib.import_module("wheels")
    sys.modules.pop("wheels", None)


@pytest.mark.parametrize(("processor", "machine"), [("x86_64", 62), ("aarch64", 183)])
def test_a_wheel_and_an_archive(
    tmp_path: pathlib.Path, wheels: Any, processor: str, machine: int
) -> None:
    """`pip wheel` needs no network; the archive builds the same wheel; the same sources give the
    same bytes. The wheel is for glibc and musl, and has its processor's files.
    """
    first, second = (tmp_path / name for name in ("first", "second"))
    for folder in (first, second):
        folder.mkdir()
    name = wheels.build_wheel(str(first), {"processor": processor})
    assert wheels.build_wheel(str(second), {"processor": processor}) == name
    assert name.endswith(f"-py3-none-manylinux_2_17_{processor}.musllinux_1_1_{processor}.whl")
    assert (first / name).read_bytes() == (second / name).read_bytes()
    archive = wheels.build_sdist(str(tmp_path))
    is_other = processor != platform.machine()
    settings = [f"--config-settings=processor={processor}"] if is_other else []
    folders = ["-w", str(tmp_path / "again"), str(tmp_path / archive)]
    command = [sys.executable, "-m", "pip", "wheel", "--no-index", "-q", *settings, *folders]
    subprocess.run(command, check=True, env=clean(), capture_output=True)
    assert (tmp_path / "again" / name).read_bytes() == (first / name).read_bytes()
    check_license(first / name)
    with tarfile.open(tmp_path / archive) as packed:
        files = {name.partition("/dist/")[2] for name in packed.getnames()}
    assert {"sagas.c.xz", "engine.c", "sagas.h", "sagas", "aarch64/sagas"} <= files
    with zipfile.ZipFile(first / name) as wheel:
        carried = [wheel.read(f"sagas/bin/{part}") for part in ("sagas", "libsagas.so")]
        metadata = wheel.read(f"{name.partition('-py3')[0]}.dist-info/WHEEL").decode().splitlines()
        assert package_files() <= {*wheel.namelist()}
    tags = [line.removeprefix("Tag: py3-none-") for line in metadata if line.startswith("Tag: ")]
    assert [struct.unpack_from("<H", data, 18)[0] for data in carried] == [machine, machine]
    assert not asks_for_a_loader(carried[0])
    assert tags == [f"manylinux_2_17_{processor}", f"musllinux_1_1_{processor}"]


def package_files() -> set[str]:
    """Return the files of the package: its modules, pages and templates."""
    source = PACKAGE / "src"
    paths = [path for path in (source / "sagas").rglob("*") if path.is_file()]
    return {
        path.relative_to(source).as_posix() for path in paths if "__pycache__" not in path.parts
    }


def asks_for_a_loader(program: bytes) -> bool:
    """Return whether a 64-bit program names a loader: a statically linked one does not."""
    (start,), (size, count) = (
        struct.unpack_from(form, program, at) for form, at in (("<Q", 32), ("<HH", 54))
    )
    heads = range(start, start + size * count, size)
    return any(struct.unpack_from("<I", program, head)[0] == INTERPRETER for head in heads)


def check_license(wheel: pathlib.Path) -> None:
    """Check that the wheel has the license's text, and its metadata name the license and the
    authors.
    """
    with zipfile.ZipFile(wheel) as archive:
        folder = "-".join(wheel.name.split("-")[:2]) + ".dist-info"
        metadata = archive.read(f"{folder}/METADATA").decode().partition("\n\n")[0].splitlines()
        assert archive.read(f"{folder}/LICENSE") == (PACKAGE.parent / "LICENSE").read_bytes()
    wanted = {"License: Apache-2.0", "License-File: LICENSE", "Author: The sagas developers"}
    assert wanted <= set(metadata)


def elsewhere(monkeypatch: pytest.MonkeyPatch, system: str, machine: str) -> str:
    """Make the build believe that it is on another machine; return the text that names it."""
    monkeypatch.setattr(platform, "system", lambda: system)
    monkeypatch.setattr(platform, "machine", lambda: machine)
    return re.escape(f"{system} on {machine}")


OTHERS = [
    ("Windows", "AMD64", "cc", "cannot be installed here: this is {}.*WSL.*dist/sagas.html"),
    ("Darwin", "arm64", "no-compiler", "no C compiler 'no-compiler'.*({}).*xcode-select --install"),
    ("Linux", "riscv64", "no-compiler -m64", "no C compiler 'no-compiler'.*({}).*install gcc"),
    ("FreeBSD", "amd64", "false", "false cannot compile the engine for this machine .{}.*Set CC"),
    ("Linux", "riscv64", "true", "compiled engine does not run on this machine .{}.*Set CC"),
]


@pytest.mark.parametrize(("system", "machine", "compiler", "message"), OTHERS)
def test_a_machine_that_gets_no_engine(
    tmp_path: pathlib.Path,
    wheels: Any,
    monkeypatch: pytest.MonkeyPatch,
    system: str,
    machine: str,
    compiler: str,
    message: str,
) -> None:
    """No wheel is left, and a sentence has the reason and the remedy."""
    name = elsewhere(monkeypatch, system, machine)
    monkeypatch.setenv("CC", compiler)
    with pytest.raises(SystemExit, match=message.format(name)):
        wheels.build_wheel(str(tmp_path))
    assert list(tmp_path.iterdir()) == []


SAGA = """
import sagas
order = sagas.Saga("order")
@order.step
def charge(task): return task.input
@charge.compensation
def refund(task): assert task.result == 40
@order.step(needs=[charge])
def send(task): raise sagas.Fail("no such address")
for key in ("first", "second"):
    with sagas.open_sync("orders.db", [order]) as store:
        print(store.start(order, key, 40).wait(60).states)
print(sagas.plan(order.toml(), '{"states":["committed","failed"]}').yes)
"""


def test_a_machine_that_compiles_its_engine(
    tmp_path: pathlib.Path, wheels: Any, monkeypatch: pytest.MonkeyPatch
) -> None:
    """If no program was released for a processor, the wheel has one that the machine's compiler
    made of the C file, with a tag for this machine only. The package drives sagas with it. (It is
    compiled without optimization here, which takes a third of the time.)
    """
    compiler = tmp_path / "compiler"
    compiler.write_text('#!/bin/sh\nexec cc "$@" -O0\n')
    compiler.chmod(0o755)
    monkeypatch.setenv("CC", str(compiler))
    elsewhere(monkeypatch, "Linux", "another")
    name = wheels.build_wheel(str(tmp_path))
    monkeypatch.undo()
    assert name.endswith(f"-py3-none-linux_{platform.machine()}.whl")
    target = tmp_path / "environment"
    subprocess.run([sys.executable, "-m", "venv", "--without-pip", str(target)], check=True)
    python = [sys.executable, "-m", "pip", "--python", str(target / "bin/python")]
    command = [*python, "install", "--no-index", "-q", str(tmp_path / name)]
    subprocess.run(command, check=True, env=clean(), capture_output=True)
    (tmp_path / "order.py").write_text(SAGA)
    output = shell(tmp_path, "sagas --version; python order.py")
    line = "{'charge': 'undone', 'send': 'failed'}"
    assert (
        output.startswith("sagas ") and output.count(line) == 2 and output.endswith("True\n")
    ), output
