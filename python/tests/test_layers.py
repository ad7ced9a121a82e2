"""The layers of the package's modules: which may import which, and how large one may be."""

from __future__ import annotations

import ast
import pathlib
from collections.abc import Iterator

import pytest

SRC = pathlib.Path(__file__).parents[1] / "src" / "sagas"
LAYERS = (
    "base",
    "definition",
    "core",
    "engine",
    "storage",
    "inspection",
    "runtime",
    "api testing",
    "cli server celery",
)
"""From the lowest one: a module imports modules of its own layer and of lower ones."""
RANK = {name: rank for rank, names in enumerate(LAYERS) for name in names.split()}
APART = (
    "inspection runtime",
    "runtime inspection",
    "cli server celery",
    "server celery cli",
    "celery cli server",
)
"""A package, and those that it does not import although their layer is not above it."""
PURE = {
    "asyncio",
    "concurrent",
    "multiprocessing",
    "os",
    "psycopg",
    "psycopg_pool",
    "select",
    "socket",
    "sqlite3",
    "subprocess",
    "threading",
    "time",
}
"""Modules that `core` does not import: it has no input and no output, and gets the time as an
argument.
"""
DATABASES = {
    "psycopg": (
        "storage.postgresql",
        "runtime.transactional",
        "api.client",
        "api.client_start",
        "api.sync_client",
    ),
    "psycopg_pool": ("storage.postgresql", "runtime.transactional"),
    "sqlite3": ("storage.sqlite", "storage.admin"),
}
"""Drivers of databases, and the only modules (or their prefixes) that import them."""
ADVERBS = set(
    "active answering answered anywhere asking begun between called calling carried carrying doing"
    " elsewhere faults forks given guarded guessing holding looks misfits moving news restoring"
    " sending sharing spoken starting under_way unread unreadable waiting".split()
)
"""Names that no module has: a module is named for the noun that it holds."""
MAX_LINES, MAX_COLUMNS, MAX_ATTRIBUTES, MAX_OF_FUNCTION = 800, 100, 24, 60


def name_of(path: pathlib.Path) -> str:
    """Return a module's name, without the package's: `core.plan`; of the package itself nothing."""
    parts = path.relative_to(SRC).with_suffix("").parts
    return ".".join(parts[:-1] if parts[-1] == "__init__" else parts)


MODULES = {name_of(path): path for path in sorted(SRC.rglob("*.py"))}


def imports(module: str, tree: ast.AST) -> Iterator[str]:
    """Return all that a module imports, also for types only and in functions."""
    for node in ast.walk(tree):
        if isinstance(node, ast.Import):
            yield from (alias.name for alias in node.names)
        elif isinstance(node, ast.ImportFrom):
            assert node.level == 0, f"{module}, line {node.lineno}: write the module's whole name"
            names = {f"{node.module}.{alias.name}" for alias in node.names}
            modules = {name for name in names if name.removeprefix("sagas.") in MODULES}
            yield from modules
            if names - modules and node.module:
                yield node.module


def is_apart(package: str, other: str) -> bool:
    """Return whether a package must not import another one that is not above it."""
    return any(package == (of := names.split())[0] and other in of[1:] for names in APART)


def import_faults(module: str, tree: ast.AST) -> Iterator[str]:
    """Return the imports that a module may not have.

    Those at the top, `sagas` and `sagas.__main__`, may have all.
    """
    package = module.partition(".")[0]
    for name in imports(module, tree):
        first, _, rest = name.partition(".")
        if first == "sagas" and package in RANK:
            other = rest.partition(".")[0]
            if RANK.get(other, len(RANK)) > RANK[package]:
                yield f"imports {name}, of a higher layer"
            elif is_apart(package, other):
                yield f"imports {name}, which is apart"
        elif package == "core" and first in PURE:
            yield f"imports {first}"
        if first in DATABASES and not module.startswith(DATABASES[first]):
            yield f"imports {first}, a driver"


def attributes(node: ast.ClassDef) -> set[str]:
    """Return the attributes that a class declares, and those of `self` that its own
    functions set.
    """
    declared = {
        statement.target.id
        for statement in node.body
        if isinstance(statement, ast.AnnAssign) and isinstance(statement.target, ast.Name)
    }
    for inner in ast.walk(node):
        if isinstance(inner, ast.Attribute) and isinstance(inner.ctx, ast.Store):
            if isinstance(inner.value, ast.Name) and inner.value.id == "self":
                declared.add(inner.attr)
    return declared


def body_lines(node: ast.FunctionDef | ast.AsyncFunctionDef) -> int:
    """Return how many lines a function has below its signature and its docstring."""
    first = node.body[ast.get_docstring(node) is not None :] or node.body
    return (node.end_lineno or 0) - first[0].lineno + 1


def size_faults(module: str, text: str, tree: ast.AST) -> Iterator[str]:
    """Return what is too large in a module."""
    lines = text.splitlines()
    if len(lines) > MAX_LINES:
        yield f"over {MAX_LINES} lines"
    if any(len(line) > MAX_COLUMNS for line in lines):
        yield f"lines over {MAX_COLUMNS} columns"
    for node in ast.walk(tree):
        if isinstance(node, ast.ClassDef) and len(attributes(node)) > MAX_ATTRIBUTES:
            yield f"{node.name} has over {MAX_ATTRIBUTES} attributes"
        if isinstance(node, (ast.FunctionDef, ast.AsyncFunctionDef)):
            if body_lines(node) > MAX_OF_FUNCTION:
                yield f"{node.name} has over {MAX_OF_FUNCTION} lines"


@pytest.mark.parametrize("module", MODULES)
def test_a_module_keeps_to_its_layer_and_size(module: str) -> None:
    text = MODULES[module].read_text()
    tree = ast.parse(text)
    faults = {*import_faults(module, tree), *size_faults(module, text, tree)}
    if module.rpartition(".")[2] in ADVERBS:
        faults.add("is not named for a noun")
    assert faults == set(), "see the rules at the head of this file"


def test_only_storage_reads_what_a_name_of_a_store_means() -> None:
    """Other layers ask what a store supports: `supports_nodes`, `answers_at_once`."""
    users = {module for module, path in MODULES.items() if "is_url(" in path.read_text()}
    assert users and {module.partition(".")[0] for module in users} == {"storage"}
