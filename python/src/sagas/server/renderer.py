"""Templates, pages and static files.

All values of a template are escaped, except pictures, which escape their own texts.
"""

from __future__ import annotations

import hashlib
import pathlib
import time
from collections.abc import Awaitable, Callable
from typing import Any
from urllib.parse import quote

from jinja2 import Environment, FileSystemLoader
from starlette.responses import HTMLResponse

from sagas.inspection import wording

HERE = pathlib.Path(__file__).resolve().parent
KINDS = {
    ".css": "text/css; charset=utf-8",
    ".js": "text/javascript; charset=utf-8",
    ".svg": "image/svg+xml",
}


def _environment() -> Environment:
    environment = Environment(
        loader=FileSystemLoader(HERE / "templates"),
        autoescape=True,
        trim_blocks=True,
        lstrip_blocks=True,
    )
    environment.filters.update(
        ago=lambda at: wording.ago(time.time() - at),
        iso=wording.iso,
        clock=wording.clock,
        precise=lambda at: wording.iso(at).replace("T", " ").removesuffix("Z"),
        span=wording.span,
        short=wording.short,
        pretty=wording.pretty,
        phase=lambda phase: wording.PHASES[phase],
        event=lambda event: wording.EVENTS.get(event, event),
        tone=lambda event: wording.TONES.get(event, ""),
        outcome=lambda outcome: wording.OUTCOMES[outcome],
        wait=wording.wait,
        decision=lambda decision: wording.DECISIONS[decision],
        act=lambda command: wording.ACTS.get(command, command),
        waited_for=lambda why: wording.WAITED_FOR.get(why, why),
        cost=cost_text,
        count=lambda number: f"{number:,}",
        path=lambda key: quote(key, safe=""),
    )
    return environment


def cost_text(cost: int | str | None) -> str:
    """Return a cost as text. A cost that depends on the input has no number here."""
    if isinstance(cost, str):
        return f"by {cost}"
    return "never" if cost is None else f"{cost:,}"


def _static() -> dict[str, tuple[str, bytes, str]]:
    files = {}
    for path in (HERE / "static").iterdir():
        data = path.read_bytes()
        files[path.name] = KINDS[path.suffix], data, f'"{hashlib.sha256(data).hexdigest()[:16]}"'
    return files


ENVIRONMENT = _environment()
STATIC = _static()
"""Media type, content and entity tag of each static file, by name."""


def render(template: str, values: dict[str, Any]) -> str:
    """Render a template."""
    return ENVIRONMENT.get_template(template).render(values)


Within = Callable[[Callable[[], bytes]], Awaitable[bytes]]
"""Executes work in another thread and returns its result."""


class Page(HTMLResponse):
    """A page that is rendered when it is sent, `within` a thread because a large one takes long."""

    def __init__(self, within: Within, template: str, values: dict[str, Any], status: int) -> None:
        super().__init__(status_code=status)
        del self.headers["content-length"]
        self._within, self._template, self._values = within, template, values

    async def __call__(self, *arguments: Any) -> None:
        self.body = await self._within(lambda: encoded(render(self._template, self._values)))
        self.headers["content-length"] = str(len(self.body))
        await super().__call__(*arguments)


def compile_all() -> None:
    """Compile the templates in a thread, so that the first request does not wait for it."""
    for name in ENVIRONMENT.list_templates():
        ENVIRONMENT.get_template(name)


def encoded(text: str) -> bytes:
    """Return an encoded page or picture. Lone surrogates from JSON are shown as escapes."""
    return text.encode("utf-8", "backslashreplace")
