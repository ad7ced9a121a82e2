"""Build the documentation site, and check its links and anchors, and some pages in Chromium.

The script checks links twice: in the built site, and in the pages of the repository.
"""

from __future__ import annotations

import ast
import functools
import http.server
import importlib
import importlib.util
import os
import re
import shutil
import subprocess
import sys
import tempfile
import threading
from collections.abc import Iterator
from html.parser import HTMLParser
from pathlib import Path
from urllib.parse import unquote, urlsplit

import known_names
from selenium import webdriver
from selenium.webdriver.chrome.options import Options
from selenium.webdriver.chrome.service import Service
from selenium.webdriver.common.by import By
from selenium.webdriver.support.ui import WebDriverWait

TOP = Path(__file__).resolve().parent.parent
LOOKED_AT = (
    "index.html",
    "tutorials/first-saga.html",
    "concepts/least-cost.html",
    "reference/glossary.html",
    "dev/style.html",
)
WIDTHS = (1400, 360)
PAGES = (
    "README.md",
    "CHANGELOG.md",
    "CONTRIBUTING.md",
    "SECURITY.md",
    "python/*.md",
    "bench/*.md",
    "models/*.md",
    "docs/**/*.md",
)
MUTANTS = ("docs/dev/mutants.md", "docs/dev/mutants-logs.md", "docs/dev/mutants-program.md")
PYTHON = re.compile(r"^```python\n(.*?)^```", re.M | re.S)
NAME = re.compile(r"(?<![\w/.\"])sagas\.([A-Z]\w*|[a-z_]+(?=\())")
BLOCK = re.compile(r"^```.*?^```[ ]*$", re.M | re.S)
LINK = re.compile(r"\]\(([^)\s]+)\)")
HEADING = re.compile(r"^#+ (.*)$", re.M)
WIDE = """
return [...document.querySelectorAll(".md-content *, .md-header, .md-tabs")].filter((one) => {
  const box = one.getBoundingClientRect();
  const style = getComputedStyle(one);
  if (!box.width || box.right <= innerWidth + 1 || style.position === "fixed") return false;
  for (let up = one.parentElement; up; up = up.parentElement) {
    const { overflowX, position } = getComputedStyle(up);
    if (["auto", "scroll"].includes(overflowX) || position === "fixed") return false;
  }
  return true;
}).map((one) => one.tagName + "." + one.className);
"""
GROUND = "return getComputedStyle(document.body).backgroundColor"
ELSEWHERE = """
const names = performance.getEntriesByType("resource").map((one) => one.name);
return names.filter((name) => !name.startsWith(location.origin) && !name.startsWith("data:"));
"""


class Names(HTMLParser):
    """The links of a page, its anchors, and what it loads."""

    def __init__(self, path: Path) -> None:
        super().__init__()
        self.links: set[str] = set()
        self.anchors: set[str] = set()
        self.loaded: set[str] = set()
        self.feed(path.read_text(encoding="utf-8"))

    def handle_starttag(self, tag: str, attrs: list[tuple[str, str | None]]) -> None:
        """Collect what a tag names."""
        attributes = {name: value for name, value in attrs if value}
        self.anchors |= {attributes[name] for name in ("id", "name") if name in attributes}
        if tag == "a" and "href" in attributes:
            self.links.add(attributes["href"])
        self.loaded |= {attributes[name] for name in ("src", "srcset") if name in attributes}
        if tag == "link" and "href" in attributes:
            self.loaded.add(attributes["href"])


def wrong_in_site(site: Path) -> Iterator[str]:
    """Link and anchors that lead nowhere, and what a page loads from elsewhere."""
    pages = {path: Names(path) for path in site.rglob("*.html")}
    for path, names in pages.items():
        name = path.relative_to(site)
        yield from (
            f"{name} loads {link} from elsewhere" for link in names.loaded if urlsplit(link).netloc
        )
        for link in names.links | names.loaded:
            parts = urlsplit(link)
            if parts.scheme or parts.netloc or name.name == "404.html":
                continue
            target = (
                Path(os.path.normpath(path.parent / unquote(parts.path))) if parts.path else path
            )
            target = target / "index.html" if target.is_dir() else target
            if not target.is_file():
                yield f"{name} has a link to {link}, which does not exist"
            elif (
                parts.fragment
                and target in pages
                and unquote(parts.fragment) not in pages[target].anchors | {"__search"}
            ):
                yield f"{name} has a link to {link}, an anchor that does not exist"


def missing_names(site: Path) -> Iterator[str]:
    """Yield public names of the package that no reference page has."""
    sys.path.insert(0, str(TOP / "python/src"))
    package = importlib.import_module("sagas")
    text = "".join(page.read_text(encoding="utf-8") for page in (site / "reference").glob("*.html"))
    for name in package.__all__:
        if not re.search(rf'id="sagas\.{name}"|<code>sagas\.{name}</code>', text):
            yield f"no page of the reference has sagas.{name}"


def wrong_in_code() -> Iterator[str]:
    """Python on the site's pages that cannot be read, and names that the package has not."""
    package = importlib.import_module("sagas")
    for page in sorted((TOP / "docs").rglob("*.md")):
        text, name = page.read_text(encoding="utf-8"), page.relative_to(TOP)
        for block in PYTHON.findall(text):
            try:
                compile(block, str(name), "exec", ast.PyCF_ALLOW_TOP_LEVEL_AWAIT)
            except SyntaxError as error:
                yield f"{name} has Python that cannot be read: {error.text}"
        # A page on Go means the Go package of this name: only its blocks of Python are checked.
        searched = "".join(PYTHON.findall(text)) if "```go\n" in text else text
        for word in sorted(set(NAME.findall(searched))):
            if not hasattr(package, word) and not importlib.util.find_spec(f"sagas.{word}"):
                yield f"{name} has sagas.{word}, which the package has not"


def wrong_in_mutants() -> Iterator[str]:
    """Yield mutants without an entry in the pages of mutants, and entries without a mutant."""
    files = [
        *TOP.glob("crates/*/mutants/*.edit"),
        *TOP.glob("crates/*/mutants/*.patch"),
        *TOP.glob("python/tests/wrong*/[!_]*.py"),
    ]
    mutants = {path.relative_to(TOP).with_suffix("").as_posix() for path in files}
    entries = set()
    for page in MUTANTS:
        for section in re.split(r"^##+ ", (TOP / page).read_text(encoding="utf-8"), flags=re.M):
            crate = re.match(r"saga_\w+", section)
            tests = re.search(r"`(python/tests/\w+)`", section)
            folder = f"crates/{crate[0]}/mutants" if crate else tests[1] if tests else None
            names = re.findall(r"^- `(\w+)`:", section, re.M) if folder else []
            entries |= {f"{folder}/{name}" for name in names}
    yield from (f"no page has the mutant {name}" for name in mutants - entries)
    yield from (f"a page has the mutant {name}, which does not exist" for name in entries - mutants)


def anchors(path: Path) -> set[str]:
    """Return the anchors that GitHub makes of a page's headings."""
    numbers: dict[str, int] = {}
    names = set()
    for heading in HEADING.findall(BLOCK.sub("", path.read_text(encoding="utf-8"))):
        text = re.sub(r"\[([^\]]*)\]\([^)]*\)", r"\1", heading.strip())
        slug = re.sub(r"[^\w\- ]", "", text.lower()).replace(" ", "-")
        numbers[slug] = numbers.get(slug, -1) + 1
        names.add(f"{slug}-{numbers[slug]}" if numbers[slug] else slug)
    return names


def wrong_in_files() -> Iterator[str]:
    """Link of the repository's pages that lead to no file or no heading."""
    for page in sorted(path for pattern in PAGES for path in TOP.glob(pattern)):
        for link in LINK.findall(BLOCK.sub("", page.read_text(encoding="utf-8"))):
            parts = urlsplit(link)
            target = (
                Path(os.path.normpath(page.parent / unquote(parts.path))) if parts.path else page
            )
            if parts.scheme:
                continue
            if not target.exists():
                yield f"{page.relative_to(TOP)} has a link to {link}, which does not exist"
            elif (
                parts.fragment and target.suffix == ".md" and parts.fragment not in anchors(target)
            ):
                yield f"{page.relative_to(TOP)} has a link to {link}, a heading that does not exist"


def browser() -> webdriver.Chrome:
    """Return a Chromium without a window."""
    options = Options()
    options.binary_location = str(shutil.which("chromium"))
    for word in ("--headless=new", "--no-sandbox", "--disable-gpu", "--disable-dev-shm-usage"):
        options.add_argument(word)
    return webdriver.Chrome(service=Service(shutil.which("chromedriver")), options=options)


def show(driver: webdriver.Chrome, address: str, width: int, scheme: str) -> None:
    """Show a page at a width, in light or dark colors."""
    metrics = {"width": width, "height": 900, "deviceScaleFactor": 1, "mobile": width < 500}
    driver.execute_cdp_cmd("Emulation.setDeviceMetricsOverride", metrics)
    feature = {"name": "prefers-color-scheme", "value": scheme}
    driver.execute_cdp_cmd("Emulation.setEmulatedMedia", {"features": [feature]})
    driver.get(address)


def wrong_in_browser(driver: webdriver.Chrome, address: str) -> Iterator[str]:
    """Yield what is too wide or loaded from elsewhere; and whether dark is dark."""
    grounds = []
    for scheme in ("light", "dark"):
        show(driver, f"{address}/index.html", WIDTHS[0], scheme)
        grounds.append(driver.execute_script(GROUND))
        driver.execute_script("localStorage.clear()")  # it keeps the scheme
    if grounds[0] == grounds[1]:
        yield f"light and dark have the same ground: {grounds[0]}"
    for name in LOOKED_AT:
        for width in WIDTHS:
            show(driver, f"{address}/{name}", width, "light")
            for element in driver.execute_script(WIDE):
                yield f"{name} at {width} pixels: {element} is too wide"
            for url in driver.execute_script(ELSEWHERE):
                yield f"{name} loads {url} from elsewhere"
    show(driver, f"{address}/index.html?q=idempotency", WIDTHS[0], "light")
    results = (By.CSS_SELECTOR, ".md-search-result__link")
    WebDriverWait(driver, 30, 0.1).until(lambda _: driver.find_elements(*results))


class Quiet(http.server.SimpleHTTPRequestHandler):
    """Serves files, and logs nothing."""

    def log_message(self, *_: object) -> None:
        """Log nothing."""


def look(site: Path) -> list[str]:
    """Serve the site, and looks at it in Chromium."""
    handler = functools.partial(Quiet, directory=str(site))
    with http.server.ThreadingHTTPServer(("127.0.0.1", 0), handler) as server:
        threading.Thread(target=server.serve_forever, daemon=True).start()
        driver = browser()
        try:
            return list(wrong_in_browser(driver, f"http://127.0.0.1:{server.server_address[1]}"))
        finally:
            driver.quit()
            server.shutdown()


def main() -> int:
    """Check the site, and return the exit status."""
    with tempfile.TemporaryDirectory() as folder:
        site = Path(folder) / "site"
        built = subprocess.run(
            ["mkdocs", "build", "--strict", "-d", str(site)],
            cwd=TOP,
            capture_output=True,
            text=True,
            check=False,
        )
        if built.returncode or 'not included in the "nav"' in built.stderr:
            print(built.stderr, end="")
            return 1
        wrong = [
            *wrong_in_site(site),
            *missing_names(site),
            *wrong_in_code(),
            *wrong_in_files(),
            *wrong_in_mutants(),
            *known_names.unknown(TOP),
            *look(site),
        ]
    print("\n".join(sorted(set(wrong))), end="\n" if wrong else "")
    print(f"docs: {len(wrong)} wrong")
    return 1 if wrong else 0


if __name__ == "__main__":
    sys.exit(main())
