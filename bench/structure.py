#!/usr/bin/env python3
"""Report how the Python package is divided into modules, and how they import each other.

    python3 bench/structure.py [--long] [SOURCE]

SOURCE is the folder of the package, by default python/src/sagas. Each line has a name, a number and
a unit. With `--long`, the modules of the largest cycles and of the longest chain follow.

Three graphs are reported. The first has the imports that run when a module is imported. The second
has the imports inside functions, too. The third has those for type checkers (`TYPE_CHECKING`), too.
An import of a name is an import of the module that defines it: `from sagas.core import states` is
one of `sagas.core.states`. What a package's `__init__` imports is counted for the package. A chain
counts the modules on a longest path, and a cycle is one module of it.
"""

from __future__ import annotations

import argparse
import ast
import collections
import pathlib
from collections.abc import Iterator

TOP = pathlib.Path(__file__).resolve().parents[1]
KINDS = ("at import", "in functions", "for types")
Graph = dict[str, set[str]]


def module_name(path: pathlib.Path, source: pathlib.Path) -> str:
    """Return the dotted name of a module."""
    parts = (source.name, *path.relative_to(source).with_suffix("").parts)
    return ".".join(parts[:-1] if parts[-1] == "__init__" else parts)


def is_for_types(node: ast.AST) -> bool:
    """Return whether a statement is `if TYPE_CHECKING`."""
    return isinstance(node, ast.If) and "TYPE_CHECKING" in ast.unparse(node.test)


def imports(tree: ast.AST, kind: int = 0) -> Iterator[tuple[int, ast.stmt]]:
    """Yield each import with its kind, as an index of `KINDS`."""
    for node in ast.iter_child_nodes(tree):
        if isinstance(node, (ast.Import, ast.ImportFrom)):
            yield kind, node
        elif isinstance(node, (ast.FunctionDef, ast.AsyncFunctionDef, ast.Lambda)):
            yield from imports(node, max(kind, 1))
        elif is_for_types(node):
            yield from imports(node, 2)
        else:
            yield from imports(node, kind)


def targets(node: ast.stmt, modules: set[str]) -> Iterator[str]:
    """Yield the modules of the package that a statement imports."""
    if isinstance(node, ast.Import):
        yield from (alias.name for alias in node.names if alias.name in modules)
    elif isinstance(node, ast.ImportFrom) and node.module and not node.level:
        for alias in node.names:
            member = f"{node.module}.{alias.name}"
            if member in modules or node.module in modules:
                yield member if member in modules else node.module


def graphs(trees: dict[str, ast.Module]) -> list[Graph]:
    """Return the three graphs, each with the imports of those before it."""
    result: list[Graph] = [{name: set() for name in trees} for _ in KINDS]
    for name, tree in trees.items():
        for kind, node in imports(tree):
            for target in targets(node, set(trees)):
                for graph in result[kind:]:
                    graph[name] |= {target} - {name}
    return result


def components(graph: Graph) -> list[list[str]]:
    """Return the strongly connected components, importers last (Tarjan 1972)."""
    number: dict[str, int] = {}
    low: dict[str, int] = {}
    stack: list[str] = []
    result: list[list[str]] = []

    def visit(name: str) -> None:
        number[name] = low[name] = len(number)
        stack.append(name)
        for target in sorted(graph[name]):
            if target not in number:
                visit(target)
                low[name] = min(low[name], low[target])
            elif target in stack:
                low[name] = min(low[name], number[target])
        if low[name] == number[name]:
            component = []
            while not component or component[-1] != name:
                component.append(stack.pop())
            result.append(sorted(component))

    for name in sorted(graph):
        if name not in number:
            visit(name)
    return result


def longest_chain(graph: Graph) -> list[str]:
    """Return a longest path, with one module for each cycle."""
    order = components(graph)
    position = {name: index for index, component in enumerate(order) for name in component}
    longest: list[list[str]] = []
    for index, component in enumerate(order):
        below = {position[target] for name in component for target in graph[name]} - {index}
        best = max((longest[other] for other in below), key=len, default=[])
        longest.append([component[0], *best])
    return max(longest, key=len)


def main() -> None:
    """Print the report."""
    parser = argparse.ArgumentParser(description=__doc__.splitlines()[0])
    parser.add_argument("source", nargs="?", default=TOP / "python/src/sagas", type=pathlib.Path)
    parser.add_argument("--long", action="store_true", help="name the modules, too")
    options = parser.parse_args()
    source: pathlib.Path = options.source.resolve()
    texts = {module_name(path, source): path.read_text() for path in source.rglob("*.py")}
    trees = {name: ast.parse(text) for name, text in texts.items()}
    lines = {name: text.count("\n") for name, text in texts.items()}
    statements = sum(
        isinstance(node, ast.stmt) for tree in trees.values() for node in ast.walk(tree)
    )
    layers = collections.Counter(".".join(name.split(".")[1:2]) or "(top)" for name in trees)
    print(f"modules,{len(trees)},")
    print(f"lines,{sum(lines.values())},")
    print(f"statements,{statements},")
    print(f"longest module,{max(lines.values())},lines")
    for layer, count in sorted(layers.items()):
        print(f"modules of {layer},{count},")
    for kind, graph in zip(KINDS, graphs(trees)):
        cycle = max(components(graph), key=len)
        print(f"largest cycle of imports {kind},{len(cycle)},modules")
        if options.long and len(cycle) > 1:
            print(*(f"  {name}" for name in cycle), sep="\n")
    chain = longest_chain(graphs(trees)[0])
    print(f"longest chain of imports at import,{len(chain)},modules")
    if options.long:
        print(*(f"  {name}" for name in chain), sep="\n")


if __name__ == "__main__":
    main()
