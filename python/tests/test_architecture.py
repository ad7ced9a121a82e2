"""The pages of docs/dev/architecture describe the package as it is."""

from __future__ import annotations

import ast
import re

import message_pages
import package_map

from sagas.core.shard.batch import RareRows
from sagas.storage.postgresql import commit_statement
from sagas.storage.sqlite import writer

FOLDER = package_map.TOP / "docs/dev/architecture"
CHANGES = re.compile(r"\b(INSERT INTO|UPDATE (?!SET\b|OF\b)|DELETE FROM)")
"""A part of a statement that changes rows. `SERVER.notify` reports that they changed."""
LISTED = "storage/postgresql/server.py"
"""The module of the server's functions. Nothing executes the statements of its list."""


def statements(body: list[ast.stmt], owner: str) -> list[str]:
    """Return the names of a module that have such a statement."""
    changing: list[str] = []
    for node in body:
        if isinstance(node, ast.ClassDef):
            changing += statements(node.body, f"{owner}.{node.name}")
            continue
        if isinstance(node, (ast.FunctionDef, ast.AsyncFunctionDef)):
            names = [node.name]
        elif isinstance(node, (ast.Assign, ast.AnnAssign)):
            targets = node.targets if isinstance(node, ast.Assign) else [node.target]
            names = [target.id for target in targets if isinstance(target, ast.Name)]
        else:
            continue
        within = [*ast.walk(node)]
        prose = {id(node.value) for node in within if isinstance(node, ast.Expr)}
        texts = [
            node.value
            for node in within
            if isinstance(node, ast.Constant) and id(node) not in prose
        ]
        notifies = [node for node in within if isinstance(node, ast.Attribute)]
        if any(isinstance(text, str) and CHANGES.search(text) for text in texts) or any(
            ast.unparse(node) == "SERVER.notify" for node in notifies
        ):
            changing += [f"{owner}.{name}" for name in names]
    return changing


def test_each_statement_that_changes_rows_has_its_fence() -> None:
    """The page names each statement on PostgreSQL, and none that was removed."""
    page = (FOLDER / "statements.md").read_text(encoding="utf-8")
    stated: set[str] = set()
    for path in package_map.SRC.rglob("*.py"):
        if "sqlite" not in path.parts and not path.match(LISTED):
            stated |= {*statements(ast.parse(path.read_text(encoding="utf-8")).body, path.stem)}
    rows = "\n".join(line for line in page.splitlines() if line.startswith("| `"))
    assert stated == {name for name in re.findall(r"`([\w.]+)`", rows) if "." in name}


def test_the_map_is_the_tree() -> None:
    """Each module has its line, and no line is of a module that was removed."""
    for name in package_map.PAGES:
        written = (FOLDER / name).read_text(encoding="utf-8")
        assert written == package_map.page(name), "run python3 python/tests/package_map.py"


def test_the_pages_of_messages_are_those_of_the_source() -> None:
    """Each message has its line, and no line is of a message that was removed."""
    for name, text in message_pages.pages().items():
        written = (message_pages.PAGES / name).read_text(encoding="utf-8")
        assert written == text, "run python3 python/tests/message_pages.py"


def test_each_layer_is_in_a_page() -> None:
    """A folder of the package without a page would have no line."""
    layers = {layer for _, layers in package_map.PAGES.values() for layer in layers if layer}
    folders = {path.parent for path in package_map.SRC.rglob("*.py")} - {package_map.SRC}
    assert layers == {path.relative_to(package_map.SRC).parts[0] for path in folders}


def test_each_line_is_short() -> None:
    """It fits into a line of 120 columns."""
    layers = [layer for _, layers in package_map.PAGES.values() for layer in layers]
    assert [line for layer in layers for line in package_map.lines(layer) if len(line) > 120] == []


def test_each_part_of_a_batch_has_its_statement() -> None:
    """A part that no statement names would be lost without an error."""
    parts = {*RareRows.__annotations__}
    assert parts - {*writer.PARTS} == {"begun", "defined"}, "of SQLite"
    assert parts - {*commit_statement.COLUMNS} == {"work"}, "of PostgreSQL"
    assert {*commit_statement.PLAIN} <= parts
