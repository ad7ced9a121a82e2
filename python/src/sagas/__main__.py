"""`python -m sagas`."""

from __future__ import annotations

import os
import sys

from sagas.base import program
from sagas.base.errors import EngineError
from sagas.cli import OVERVIEW

HELP = ("-h", "--help", "help")


def main(arguments: list[str] | None = None) -> int:
    """Run the command and return its exit status."""
    arguments = sys.argv[1:] if arguments is None else arguments
    if arguments[:1] in ([word] for word in HELP) or (not arguments and sys.stdin.isatty()):
        print(OVERVIEW, end="", flush=True)
        return 0
    if arguments[:1] == ["store"]:
        from sagas.cli import store_command

        return store_command.main(arguments[1:])
    if arguments[:1] == ["new"]:
        from sagas.cli import new_project

        return new_project.main(arguments[1:])
    if arguments[:1] == ["explain"]:
        from sagas.cli import explanation

        return explanation.main(arguments[1:])
    if arguments[:1] in (["demo"], ["serve"], ["token"]):
        try:
            from sagas.server import command as service, demo
        except ImportError as error:
            print(
                f"sagas: {error.name} is missing. Run pip install 'sagas[server]'",
                file=sys.stderr,
            )
            return 4
        commands = {"demo": demo.main, "serve": service.main, "token": service.token}
        return commands[arguments[0]](arguments[1:])
    try:
        path = program.path()
    except EngineError as error:
        print(f"sagas: {error}", file=sys.stderr)
        return 4
    os.execv(path, ["sagas", *arguments])


if __name__ == "__main__":
    sys.exit(main())
