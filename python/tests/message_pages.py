"""The pages of all messages: the texts of exceptions, problems and commands, by their names.

    python3 python/tests/message_pages.py

It writes the pages docs/reference/messages*.md. `test_architecture.py` compares them with the
source. A word in capitals is a value of a message, and `...` for a part of it.
"""

from __future__ import annotations

import ast
import builtins
import inspect
import pathlib
import re
import sys
import textwrap
from collections.abc import Iterator

TOP = pathlib.Path(__file__).resolve().parents[2]
SRC = TOP / "python/src/sagas"
PAGES = TOP / "docs/reference"
SERVICE = ("Problem",)
COMMANDS = ("Trouble",)
DEMO = SRC / "server/demo_orders.py"
"""The functions of a demo fail as those of a user do. Their texts are no messages."""
EXCEPTIONS = (
    "[Exceptions](exceptions.md) says what each name means, and whether to repeat the call."
)


def wrapped(text: str, indent: str = "") -> str:
    """Return a paragraph in lines of at most 100 columns."""
    return textwrap.fill(text, 100, subsequent_indent=indent, break_on_hyphens=False)


def head(title: str, readers: str, subject: str, more: str) -> str:
    """Return the beginning of a page."""
    kind = (
        f"*Reference. For {readers}. It lists the texts of {subject}. `python3 "
        "python/tests/message_pages.py` writes this page from the source.*"
    )
    rule = f"A word in capitals is a value, and `...` is a part that depends on the call. {more}"
    return f"# {title}\n\n{wrapped(kind)}\n\n{wrapped(rule)}\n"


def template(node: ast.expr) -> str | None:
    """Return the text of an expression with a word for each value, or None if it is not a text."""
    if isinstance(node, ast.Constant):
        return node.value if isinstance(node.value, str) else None
    if isinstance(node, ast.JoinedStr):
        parts = (
            part.value if isinstance(part, ast.Constant) else placeholder(part.value)
            for part in node.values
            if isinstance(part, (ast.Constant, ast.FormattedValue))
        )
        return "".join(map(str, parts))
    if isinstance(node, ast.BinOp) and isinstance(node.op, ast.Add):
        left, right = template(node.left), template(node.right)
        return None if left is None and right is None else f"{left or '...'}{right or '...'}"
    return None


def placeholder(node: ast.expr) -> str:
    """Return the word for a value: its last name in capitals."""
    if isinstance(node, ast.IfExp):
        return "..."
    names = re.findall(r"[A-Za-z_]+", ast.unparse(node))
    return names[-1].strip("_").upper() if names and len(names) <= 3 else "..."


def messages() -> Iterator[tuple[str, str]]:
    """Yield the name and the template of each message."""
    for path in sorted({*SRC.rglob("*.py")} - {DEMO}):
        for node in ast.walk(ast.parse(path.read_text(encoding="utf-8"))):
            if not isinstance(node, ast.Call):
                continue
            function = node.func.value if isinstance(node.func, ast.Attribute) else node.func
            if isinstance(function, ast.Name):
                for argument in node.args:
                    text = template(argument)
                    if text and " " in text.strip():
                        yield function.id, " ".join(text.split())


def groups() -> dict[str, tuple[str, ...]]:
    """Return the names of the exceptions of each page."""
    sys.path.insert(0, str(SRC.parent))
    import sagas

    bases = {
        "messages-temporary.md": (sagas.TemporaryError, sagas.ConflictError),
        "messages-invalid.md": (sagas.InvalidError,),
        "messages.md": (sagas.SagasError,),
    }
    result: dict[str, tuple[str, ...]] = {}
    taken: set[str] = set()
    for page, classes in bases.items():
        names = [
            name
            for name, value in vars(sagas).items()
            if inspect.isclass(value) and issubclass(value, classes) and not hasattr(builtins, name)
        ]
        result[page] = tuple(sorted(set(names) - taken))
        taken |= set(names)
    return {**result, "messages-service.md": SERVICE, "messages-commands.md": COMMANDS}


HEADS = {
    "messages-temporary.md": head(
        title="Messages of temporary errors and conflicts",
        readers="Python developers",
        subject="exceptions after which a call may be repeated, or was decided otherwise",
        more=EXCEPTIONS,
    ),
    "messages-invalid.md": head(
        title="Messages of invalid arguments and stores",
        readers="Python developers",
        subject="exceptions that a repetition of the call does not help",
        more=EXCEPTIONS,
    ),
    "messages.md": head(
        title="Messages of other exceptions",
        readers="Python developers",
        subject="exceptions",
        more=EXCEPTIONS,
    ),
    "messages-service.md": head(
        title="Messages of the HTTP service",
        readers="developers of callers and workers",
        subject="`detail` in a problem",
        more="[HTTP errors](http-errors.md) has the status of each type.",
    ),
    "messages-commands.md": head(
        title="Messages of the commands",
        readers="operators",
        subject="errors of `sagas store` and `sagas serve`",
        more="A command that prints one has status 2, or 4 for a file.",
    ),
}


def item(text: str) -> str:
    """Return a message as an item of a list."""
    code = f"`` {text} ``" if "`" in text else f"`{text}`"
    return wrapped(f"- {code}", "  ")


def pages() -> dict[str, str]:
    """Return the text of each page."""
    texts: dict[str, set[str]] = {}
    for name, text in messages():
        texts.setdefault(name, set()).add(text)
    result = {}
    for page, names in groups().items():
        parts = [HEADS[page]]
        for name in names:
            if name in texts:
                title = "" if len(names) == 1 else f"## `{name}`\n\n"
                parts.append(title + "\n".join(map(item, sorted(texts[name]))) + "\n")
        result[page] = "\n".join(parts)
    return result


if __name__ == "__main__":
    for page, text in pages().items():
        (PAGES / page).write_text(text, encoding="utf-8")
