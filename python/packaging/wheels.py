"""Builds the wheel and the source archive of this package, with only the standard library
(PEP 517, PEP 660).

The wheel is for one system and processor: those of this machine, or Linux on the processor that
`--config-settings processor=aarch64` names. It carries the engine for it (`engines.py`): what was
released, or on other machines what the machine's C compiler makes of the released C file."""

from __future__ import annotations

import base64
import hashlib
import io
import pathlib
import re
import sys
import tarfile
import zipfile
from collections.abc import Iterator
from typing import Any

if sys.version_info < (3, 11):
    raise SystemExit(f"sagas needs Python 3.11 or later, and this is {sys.version.split()[0]}")

import tomllib  # of Python 3.11

import engines

HERE = pathlib.Path(__file__).resolve().parent.parent
SOURCE = HERE / "src" / "sagas"
PACKAGING = ("packaging/wheels.py", "packaging/engines.py")
TIME = (2020, 1, 1, 0, 0, 0)


def project() -> dict[str, Any]:
    """What pyproject.toml says of the package, with its version, which the package itself has."""
    project_table: dict[str, Any] = tomllib.loads((HERE / "pyproject.toml").read_text())["project"]
    version = re.search(r'^__version__ = "(.*)"$', (SOURCE / "__init__.py").read_text(), re.M)
    assert version, "the package has no __version__"
    return project_table | {"version": version[1]}


def engine_for(config_settings: dict[str, Any] | None) -> engines.Engine:
    """What a wheel carries."""
    processor = (config_settings or {}).get("processor")
    return engines.engine(None if processor is None else str(processor), project()["version"])


def license_text() -> bytes:
    """The license: the checkout's, or that of an unpacked source archive."""
    paths = (HERE / "LICENSE", HERE.parent / "LICENSE")
    existing = next((candidate for candidate in paths if candidate.is_file()), None)
    if existing is None:
        raise FileNotFoundError(
            f"there is no {paths[1]}. Build from a whole checkout, or from the source archive"
        )
    return existing.read_bytes()


def sources() -> Iterator[tuple[str, bytes]]:
    for path in sorted(SOURCE.rglob("*")):
        if path.is_file() and path.suffix in (
            ".py",
            ".typed",
            ".html",
            ".css",
            ".js",
            ".json",
            ".svg",
            ".template",
        ):
            yield path.relative_to(HERE / "src").as_posix(), path.read_bytes()


def metadata() -> str:
    metadata_table = project()
    lines = [
        "Metadata-Version: 2.1",
        f"Name: {metadata_table['name']}",
        f"Version: {metadata_table['version']}",
        f"Summary: {metadata_table['description']}",
        f"Author: {', '.join(author['name'] for author in metadata_table['authors'])}",
        f"License: {metadata_table['license']}",
        f"Keywords: {','.join(metadata_table['keywords'])}",
        *(f"Project-URL: {name}, {url}" for name, url in metadata_table["urls"].items()),
        *(f"License-File: {name}" for name in metadata_table["license-files"]),
        f"Requires-Python: {metadata_table['requires-python']}",
        *(f"Classifier: {word}" for word in metadata_table["classifiers"]),
    ]
    for extra, wanted in metadata_table["optional-dependencies"].items():
        lines += [
            f"Provides-Extra: {extra}",
            *(f'Requires-Dist: {requirement}; extra == "{extra}"' for requirement in wanted),
        ]
    return "\n".join(
        [
            *lines,
            "Description-Content-Type: text/markdown",
            "",
            (HERE / metadata_table["readme"]).read_text(),
        ]
    )


def info(tags: list[str]) -> dict[str, str]:
    """Return the files that describe the wheel, which has these tags."""
    scripts = "\n".join(f"{name} = {function}" for name, function in project()["scripts"].items())
    return {
        "METADATA": metadata(),
        "WHEEL": "Wheel-Version: 1.0\nGenerator: wheels\nRoot-Is-Purelib: false\n"
        + "".join(f"Tag: {tag}\n" for tag in tags),
        "entry_points.txt": f"[console_scripts]\n{scripts}\n",
        "top_level.txt": "sagas\n",
    }


def named() -> str:
    return f"{project()['name']}-{project()['version']}"


class Wheel:
    """A zip whose last file has the digests of the others. The same sources give the same bytes."""

    def __init__(self, folder: str, tags: list[str]) -> None:
        self.tags = tags
        systems = ".".join(tag.removeprefix("py3-none-") for tag in self.tags)
        self.name = f"{named()}-py3-none-{systems}.whl"
        self._zip = zipfile.ZipFile(pathlib.Path(folder) / self.name, "w", zipfile.ZIP_DEFLATED)
        self._record = ""

    def add(self, name: str, data: bytes, mode: int = 0o644) -> None:
        entry = zipfile.ZipInfo(name, TIME)
        entry.external_attr, entry.compress_type = (0o100000 | mode) << 16, zipfile.ZIP_DEFLATED
        self._zip.writestr(entry, data)
        digest = base64.urlsafe_b64encode(hashlib.sha256(data).digest()).rstrip(b"=").decode()
        self._record += f"{name},sha256={digest},{len(data)}\n"

    def end(self) -> str:
        for name, text in info(self.tags).items():
            self.add(f"{named()}.dist-info/{name}", text.encode())
        self.add(f"{named()}.dist-info/LICENSE", license_text())
        record = f"{named()}.dist-info/RECORD"
        self._zip.writestr(zipfile.ZipInfo(record, TIME), self._record + f"{record},,\n")
        self._zip.close()
        return self.name


def build_wheel(
    wheel_directory: str, config_settings: Any = None, metadata_directory: str | None = None
) -> str:
    engine = engine_for(config_settings)
    wheel = Wheel(wheel_directory, engine.tags)
    for name, data in sources():
        wheel.add(name, data)
    for name, data in engine.files.items():
        wheel.add(f"sagas/bin/{name}", data, 0o755)
    planner = engines.of_dist("", engines.PLANNER).read_bytes()
    wheel.add(f"sagas/bin/{engines.PLANNER}", planner)
    return wheel.end()


def build_editable(
    wheel_directory: str, config_settings: Any = None, metadata_directory: str | None = None
) -> str:
    if not engines.has_release():
        raise SystemExit(
            "sagas: an editable install takes the program of dist/, and none was released for this "
            "machine: install it without -e, or set PYTHONPATH to python/src and SAGAS_PROGRAM to "
            "the program"
        )
    wheel = Wheel(wheel_directory, engine_for(config_settings).tags)
    wheel.add("__editable__.sagas.pth", f"{HERE / 'src'}\n".encode())
    return wheel.end()


def build_sdist(sdist_directory: str, config_settings: Any = None) -> str:
    name = f"{named()}.tar.gz"
    with tarfile.open(
        pathlib.Path(sdist_directory) / name, "w:gz", format=tarfile.PAX_FORMAT
    ) as archive:
        for path, data in [
            *((f"src/{path}", data) for path, data in sources()),
            *(
                (path, (HERE / path).read_bytes())
                for path in ("pyproject.toml", "README.md", *PACKAGING)
            ),
            *engines.archived(),
            ("LICENSE", license_text()),
            ("PKG-INFO", metadata().encode()),
        ]:
            entry = tarfile.TarInfo(f"{named()}/{path}")
            is_program = path.startswith("dist/") and path.endswith(engines.RELEASED)
            entry.size, entry.mode = len(data), 0o755 if is_program else 0o644
            archive.addfile(entry, io.BytesIO(data))
    return name
