"""The command `sagas new`: a small project that runs at once, in one of four languages.

The files are those of `projects/LANGUAGE`, each with the suffix `.template`.
"""

from __future__ import annotations

import argparse
import contextlib
import os
import pathlib
import shutil
import sys
import tempfile
from collections.abc import Iterator

from sagas.cli.formatting import CANNOT, GOOD
from sagas.storage.admin import Trouble

LANGUAGES = ("python", "node", "go", "java")
PROJECTS = pathlib.Path(__file__).with_name("projects")
COMMON = "common"
"""The folder of the files that the languages with a service have in common."""
SUFFIX = ".template"
USAGE, INTERRUPTED = 2, 130
ENDING = """\
Example:
  sagas new shop --language python

Exit status:
  0    done
  2    invalid arguments, or DIR is not an empty directory
  4    DIR cannot be written
  130  interrupted"""


def parser() -> argparse.ArgumentParser:
    """Return the parser of `sagas new`."""
    result = argparse.ArgumentParser(
        prog="sagas new",
        description="Create a project: an order of two steps, its functions, a test, a unit for "
        "systemd, and a README that says how to run it.",
        epilog=ENDING,
        formatter_class=argparse.RawDescriptionHelpFormatter,
    )
    result.add_argument("directory", metavar="DIR", help="a new directory, or an empty one")
    result.add_argument(
        "--language",
        choices=LANGUAGES,
        help="language of the project (default: asked in a terminal, else python)",
    )
    return result


def language_of(wanted: str | None) -> str:
    """Return the language: as wanted, or as the user of a terminal answers."""
    if wanted is not None or not (sys.stdin.isatty() and sys.stdout.isatty()):
        return wanted or LANGUAGES[0]
    while True:
        answer = input(f"Language ({', '.join(LANGUAGES)}) [{LANGUAGES[0]}]: ").strip().lower()
        matches = [name for name in LANGUAGES if name.startswith(answer)]
        if matches:
            return matches[0]
        print(f"Write one of {', '.join(LANGUAGES)}.")


def sources(language: str) -> Iterator[tuple[pathlib.PurePath, pathlib.Path]]:
    """Yield the path of each file of a project, and that of its template."""
    folders = (
        [PROJECTS / language] if language == "python" else [PROJECTS / COMMON, PROJECTS / language]
    )
    for folder in folders:
        for path in sorted(folder.rglob(f"*{SUFFIX}")):
            yield path.relative_to(folder).with_suffix(""), path


def check_directory(directory: pathlib.Path) -> None:
    """Raise `Trouble` if a project cannot be created there."""
    if directory.is_dir():
        if any(directory.iterdir()):
            raise Trouble(f"{directory} is not empty; pass a new directory, or an empty one", USAGE)
    elif os.path.lexists(directory):
        raise Trouble(f"{directory} exists, and is not a directory; pass a new directory", USAGE)
    elif not directory.parent.is_dir():
        raise Trouble(f"directory {directory.parent} does not exist; create it first", USAGE)


def create(directory: pathlib.Path, language: str) -> list[str]:
    """Create the project, all of it or nothing; return the names of its files.

    Raises `Trouble` if the directory is not empty, and `OSError`.
    """
    check_directory(directory)
    existed = directory.is_dir()
    parent = directory if existed else directory.parent
    names = []
    with tempfile.TemporaryDirectory(prefix=".sagas-new-", dir=parent) as folder:
        staging = pathlib.Path(folder) / "project"
        for name, template in sources(language):
            path = staging / name
            path.parent.mkdir(parents=True, exist_ok=True)
            shutil.copyfile(template, path)
            names.append(str(name))
        if not existed:
            staging.rename(directory)
        else:
            move_all(staging, directory)
    return sorted(names)


def move_all(source: pathlib.Path, target: pathlib.Path) -> None:
    """Move what a directory has into another one; if that fails, none of it stays there."""
    moved = []
    try:
        for path in sorted(source.iterdir()):
            path.rename(target / path.name)
            moved.append(path)
    except BaseException:
        for path in moved:
            with contextlib.suppress(OSError):
                (target / path.name).rename(path)
        raise


def main(argv: list[str]) -> int:
    """Run `sagas new` and return its exit status. `ENDING` lists the statuses."""
    options = parser().parse_args(argv)
    directory = pathlib.Path(options.directory)
    try:
        check_directory(directory)
        names = create(directory, language_of(options.language))
        print(f"{directory}: {', '.join(names)}. Read {directory / 'README.md'}", flush=True)
        return GOOD
    except Trouble as trouble:
        print(f"sagas new: {trouble}", file=sys.stderr)
        return trouble.status
    except OSError as error:
        print(f"sagas new: cannot write {directory}: {error.strerror}", file=sys.stderr)
        return CANNOT
    except (KeyboardInterrupt, EOFError):
        print("sagas new: interrupted; nothing was created", file=sys.stderr)
        return INTERRUPTED
