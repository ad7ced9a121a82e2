"""The map of the package: each module with the first line of its docstring.

    python3 python/tests/package_map.py

It writes the pages docs/dev/architecture/modules*.md; `test_architecture.py`
compares them with the modules.
"""

from __future__ import annotations

import ast
import pathlib
import textwrap

TOP = pathlib.Path(__file__).resolve().parents[2]
SRC = TOP / "python/src/sagas"
PAGES = {
    "modules.md": ("Modules of the core", ("base", "definition", "core", "engine")),
    "modules-store.md": (
        "Modules of storage and runtime",
        ("storage", "inspection", "runtime", "api"),
    ),
    "modules-above.md": (
        "Modules of commands and services",
        ("testing", "cli", "server", "celery", ""),
    ),
}
HEAD = """# {}

*Reference. For contributors who look for a module of the package. `python3
python/tests/package_map.py` writes this page from the modules' docstrings.*
"""


def lines(layer: str) -> list[str]:
    """Return a line for each module of a layer; `""` is the package's own folder."""
    entries = []
    for path in sorted(SRC.glob("*.py") if not layer else (SRC / layer).rglob("*.py")):
        name = path.relative_to(SRC).as_posix()
        docstring = ast.get_docstring(ast.parse(path.read_text())) or ""
        if name != "__init__.py":
            entries.append(f"- `{name}`: {docstring.splitlines()[0]}")
    return entries


def page(name: str) -> str:
    """Return the text of a page."""
    title, layers = PAGES[name]
    parts = [HEAD.format(title)]
    for layer in layers:
        parts.append(f"\n## {f'`{layer}`' if layer else 'The package itself'}\n\n")
        for line in lines(layer):
            parts.append(textwrap.fill(line, 100, subsequent_indent="  ", break_on_hyphens=False))
            parts.append("\n")
    return "".join(parts)


if __name__ == "__main__":
    for name in PAGES:
        (TOP / "docs/dev/architecture" / name).write_text(page(name), encoding="utf-8")
