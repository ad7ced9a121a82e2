#!/usr/bin/python3
"""Take a picture of each page of the dashboard, and measure whether everybody can use it.

    tests/by-hand/screens.py [--sagas N] [--only TEXT] FOLDER

It starts a service with N sagas (default: 3,000), and opens each page in Chromium at two widths, in
light and dark colors. The pictures go into FOLDER. On each page it measures, by WCAG 2.2 AA:

- the contrast of each text against its background: 4.5, or 3 for large text;
- the contrast of the borders of fields, and of the lines of pictures: 3;
- that Tab reaches each control in order, and that a ring shows the focus;
- that each field has a label and each control has a name;
- that headings have no gaps, and that the page has a language and a title;
- that nothing is wider than the window.

It ends with 1 and a list if something is wrong. It needs Debian's chromium, chromium-driver and
python3-selenium, and takes some minutes.
"""

from __future__ import annotations

import argparse
import base64
import contextlib
import datetime
import json
import os
import random
import shutil
import subprocess
import sys
import tempfile
import time
import urllib.request
from bisect import bisect_left
from collections import Counter
from collections.abc import Iterator
from pathlib import Path
from typing import Any

TOP = Path(__file__).resolve().parents[2]
sys.path.insert(0, str(TOP / "python/src"))
import sagas  # noqa: E402 (the line above)

SAGAS, SECONDS = 3000, 300.0
WIDTHS, SCHEMES = (1280, 390), ("light", "dark")
QUICK = sagas.Backoff(initial=0.05, maximum=0.2)
CITIES = ("Rome", "Oslo", "Bern", "Lima", "Cork")
Task = sagas.Task[Any]

# -- what the service executes


def order() -> sagas.Saga[Any]:
    """Return a saga that succeeds, fails, waits or is unknown, by the last digits of its key."""
    saga: sagas.Saga[Any] = sagas.Saga("order", backoff=QUICK)

    def number(task: Task) -> int:
        return int(task.key.rpartition("-")[2])

    @saga.step(undo=1, keep=2)
    async def reserve(task: Task) -> dict[str, Any]:
        return {"id": f"r-{number(task)}"}

    @reserve.compensation
    async def release(task: Task) -> None:
        return None

    @saga.step(needs=[reserve], undo=3, keep=5, tries=2, max_unknown=1)
    async def charge(task: Task) -> dict[str, Any]:
        if number(task) % 11 == 3:
            raise sagas.Fail("the card is declined")
        if number(task) % 211 == 5:
            raise ConnectionError("the bank does not answer")
        if number(task) % 97 == 7 and task.attempt == 1:
            raise sagas.Retry("the bank answers 503")
        return {"receipt": number(task)}

    @charge.compensation(tries=1, on_exhausted="fail")
    async def refund(task: Task) -> None:
        if number(task) % 3 == 0:
            raise sagas.Fail("the account is closed")

    @saga.approval(needs=[charge], when=is_large)
    async def review(task: Task) -> None:
        return None

    @saga.step(needs=[review], undo=sagas.NEVER, tries=1)
    async def ship(task: Task) -> None:
        if number(task) % 53 == 9:
            raise sagas.Fail("no such address <b>here</b>")

    saga.step(name="mail", needs=[ship], external=True, undo=sagas.NEVER, skip=2)
    return saga


def is_large(value: Any) -> bool:
    """Return whether a person has to look at an order."""
    return bool(value["amount"] > 900)


def server() -> sagas.Saga[Any]:
    """Return a saga that gets stuck."""
    saga: sagas.Saga[Any] = sagas.Saga("server")

    @saga.step(undo=sagas.NEVER, skip=sagas.NEVER)
    async def machine(task: Task) -> None:
        return None

    @saga.step(needs=[machine], undo=sagas.NEVER, skip=sagas.NEVER, tries=1)
    async def license(task: Task) -> None:
        raise sagas.Fail("there are no licenses left")

    return saga


def wide() -> sagas.Saga[Any]:
    """Return a saga of 24 parallel steps that fail for one reason, and some that wait."""
    saga: sagas.Saga[Any] = sagas.Saga("wide", backoff=QUICK)

    @saga.step(undo=sagas.NOTHING)
    async def begin(task: Task) -> None:
        return None

    async def part(task: Task) -> None:
        raise NameError("name 'pirnter' is not defined")

    parts = [
        saga.step(name=f"part-{n}", needs=[begin], undo=sagas.NOTHING)(part) for n in range(1, 25)
    ]
    saga.step(name="collect", needs=parts, undo=sagas.NEVER, external=True)
    return saga


def trip() -> list[sagas.Saga[Any]]:
    """Return a saga with a child, a wait and items, and the child."""
    hotel: sagas.Saga[Any] = sagas.Saga("hotel")

    @hotel.step(undo=sagas.NOTHING)
    async def room(task: Task) -> None:
        return None

    saga: sagas.Saga[Any] = sagas.Saga("trip", backoff=QUICK)
    saga.child(hotel, name="stay", input=lambda task: None, undo=2)

    @saga.step(for_each=lambda value: value["cities"], undo=sagas.NOTHING)
    async def flight(task: Task) -> None:
        return None

    saga.wait(name="pause", needs=[flight], until=datetime.timedelta(days=1))(lambda task: None)
    return [saga, hotel]


def mesh() -> sagas.Saga[Any]:
    """Return a saga whose picture is larger than a window."""
    saga: sagas.Saga[Any] = sagas.Saga("mesh")

    async def work(task: Task) -> None:
        return None

    steps: list[Any] = []
    for x in range(7):
        before = steps[-8:]
        for y in range(8):
            name, options = f"s-{x}-{y}", {"needs": before[y : y + 2], "undo": sagas.NEVER}
            if (x, y) == (5, 3):
                steps.append(saga.step(name=name, external=True, **options))
            else:
                steps.append(saga.step(name=name, **options)(work))
    return saga


EXECUTED = [order(), server(), wide(), mesh(), *trip()]
"""What `sagas serve --app` executes."""


def starts(count: int) -> Iterator[tuple[str, str, Any]]:
    """Yield the definition, the key and the input of each saga."""
    for number in range(1, count + 1):
        if number % 300 == 17:
            yield "server", f"server-{number}", None
        elif number % 1000 == 21:
            yield "wide", f"wide-{number}", None
        elif number % 1000 == 25:
            yield "mesh", f"mesh-{number}", None
        elif number % 150 == 29:
            yield "trip", f"trip-{number}", {"cities": [*CITIES]}
        else:
            amount = 1000 if number % 400 == 33 else number % 800
            yield "order", f"order-{number}", {"amount": amount, "city": CITIES[number % 5]}


# -- the service


def fill_trends(store: Path) -> None:
    """Add counts of a week, which the service would need a week for."""
    from sagas.core import trends
    from sagas.storage import admin
    from sagas.storage import trends as table

    draw, now = random.Random(7), time.time()
    with admin.writing(str(store)) as connection:
        rows: list[trends.TrendRow] = []
        for minutes in range(1, 7 * 24 * 60, 7):
            counts: Counter[tuple[str, str]] = Counter()
            for _ in range(draw.randrange(12)):
                end = trends.COMPLETED if draw.randrange(10) else trends.RECOVERED
                bucket = bisect_left(trends.BOUNDS, draw.lognormvariate(-1, 1))
                counts.update(
                    ("order", measure)
                    for measure in (trends.STARTED, end, trends.DURATIONS[bucket])
                )
            if not draw.randrange(20):
                counts.update([("server", trends.STUCK), ("server", trends.FAILED_STEPS)])
            counts["order", trends.OLDEST_TASK] = draw.randrange(1, 900)
            rows += trends.rows_of(counts, now - 60 * minutes)
        table.add(connection, rows, now)


@contextlib.contextmanager
def served(folder: Path, count: int) -> Iterator[tuple[str, str]]:
    """Run a service with this many sagas; yield its address and an operator's token."""
    environment = os.environ | {"PYTHONPATH": f"{TOP / 'python/src'}:{Path(__file__).parent}"}
    command = [sys.executable, "-m", "sagas"]
    tokens, store = folder / "tokens.toml", folder / "store.db"
    make = [*command, "token", str(tokens), "ada", "operator"]
    token = subprocess.run(
        make, env=environment, check=True, capture_output=True, text=True
    ).stdout.strip()
    serve = [*command, "serve", str(store), "--app", "screens:EXECUTED", "--listen"]
    serve += ["127.0.0.1:0", "--token-file", str(tokens), "--log-level", "error"]
    serve += ["--log-file", str(folder / "log")]
    with subprocess.Popen(serve, env=environment, stdout=subprocess.PIPE, text=True) as process:
        try:
            assert process.stdout is not None
            url = process.stdout.readline().split()[-1].rstrip("/")
            fill(url, token, count)
            fill_trends(store)
            yield url, token
        finally:
            process.terminate()
            process.wait(SECONDS)


def fill(url: str, token: str, count: int) -> None:
    """Start the sagas, and wait until they rest."""
    with sagas.ServiceClient(url, token=token) as client:
        for definition, key, value in starts(count):
            city = value["city"] if definition == "order" else "Rome"
            labels = {"city": city, "channel": "web"} if city != "Lima" else None
            client.start(definition, key, value, labels=labels)
    deadline, before = time.monotonic() + SECONDS, ""
    while time.monotonic() < deadline:
        now = counts(url, token)
        if now == before:
            return
        before = now
        time.sleep(3)


def counts(url: str, token: str) -> str:
    """Return the counts of sagas by definition and phase."""
    request = urllib.request.Request(f"{url}/v1/definitions")
    request.add_header("Authorization", f"Bearer {token}")
    opener = urllib.request.build_opener(urllib.request.ProxyHandler({}))
    with opener.open(request, timeout=SECONDS) as reply:
        return str([entry["sagas"] for entry in json.load(reply)["definitions"]])


def pages(count: int) -> dict[str, str]:
    """Return the addresses of the pages by the names of their pictures."""
    result = {"inbox": "/ui", "inbox-day": "/ui?range=day", "inbox-week": "/ui?range=week"}
    kinds = ("stuck", "undo_failed", "unknown", "exhausted", "program_error", "approval")
    result |= {f"inbox-{kind}": f"/ui?kind={kind}" for kind in kinds}
    result |= {"sagas": "/ui/sagas", "sagas-open": "/ui/sagas?phase=open"}
    result |= {"sagas-none": "/ui/sagas?search=none&label=city%3DRome&since=2026-01-01"}
    result |= {"definitions": "/ui/definitions"}
    result |= {
        f"definition-{name}": f"/ui/definitions/{name}"
        for name in ("order", "wide", "mesh", "trip")
    }
    result |= {
        name: f"/ui/{name}"
        for name in ("workers", "schedules", "pauses", "decisions", "webhooks", "start", "planner")
    }
    first: dict[str, str] = {}
    for definition, key, value in starts(count):
        number = int(key.rpartition("-")[2])
        for name, is_so in [
            ("completed", definition == "order" and number == 1),
            ("recovered", definition == "order" and number % 11 == 3),
            ("unknown", definition == "order" and number % 211 == 5 and number % 11 != 3),
            ("approval", definition == "order" and value["amount"] == 1000),
            ("stuck", definition == "server"),
            ("wide", definition == "wide"),
            ("mesh", definition == "mesh"),
            ("trip", definition == "trip"),
        ]:
            if is_so:
                first.setdefault(name, key)
    result |= {f"saga-{name}": f"/ui/sagas/{key}" for name, key in first.items()}
    if "completed" in first:
        result["saga-abort"] = f"/ui/sagas/{first['completed']}/abort"
    if "approval" in first:
        result["saga-approve"] = f"/ui/sagas/{first['approval']}/steps/review/done"
    return result


# -- the browser


@contextlib.contextmanager
def browser() -> Iterator[Any]:
    """Run a Chromium without a window."""
    from selenium import webdriver
    from selenium.webdriver.chrome.options import Options
    from selenium.webdriver.chrome.service import Service

    options = Options()
    options.binary_location = str(shutil.which("chromium"))
    for word in ("--headless=new", "--no-sandbox", "--disable-gpu", "--disable-dev-shm-usage"):
        options.add_argument(word)
    driver = webdriver.Chrome(service=Service(shutil.which("chromedriver")), options=options)
    try:
        yield driver
    finally:
        driver.quit()


def look(driver: Any, width: int, scheme: str) -> None:
    """Set the width of the window, and the colors."""
    metrics = {"width": width, "height": 900, "deviceScaleFactor": 1, "mobile": width < 500}
    driver.execute_cdp_cmd("Emulation.setDeviceMetricsOverride", metrics)
    feature = {"name": "prefers-color-scheme", "value": scheme}
    driver.execute_cdp_cmd("Emulation.setEmulatedMedia", {"features": [feature]})


def take(driver: Any, path: Path) -> None:
    """Take a picture of a whole page."""
    width, height = driver.execute_script(
        "return [innerWidth, Math.min(6000, document.documentElement.scrollHeight)]"
    )
    clip = {"x": 0, "y": 0, "width": width, "height": height, "scale": 1}
    options = {"format": "png", "clip": clip, "captureBeyondViewport": True}
    reply = driver.execute_cdp_cmd("Page.captureScreenshot", options)
    path.write_bytes(base64.b64decode(reply["data"]))


def script(name: str) -> str:
    """Return the text of a script that runs in the page."""
    return (Path(__file__).parent / "screens" / f"{name}.js").read_text()


MEASURE = script("measure")
CONTROLS = script("controls")
FOCUSED = script("focused")
MAX_TABS = 400
"""Maximum number of times that Tab is pressed on a page."""


def measure(driver: Any) -> list[str]:
    """Return what is wrong on the page."""
    faults: list[str] = driver.execute_script(MEASURE)
    return faults


def press_tab(driver: Any) -> None:
    """Press the key Tab."""
    key = {"key": "Tab", "code": "Tab", "windowsVirtualKeyCode": 9}
    for kind in ("rawKeyDown", "keyUp"):
        driver.execute_cdp_cmd("Input.dispatchKeyEvent", {"type": kind, **key})


def walk(driver: Any) -> list[str]:
    """Return what is wrong if Tab is pressed until all controls had the focus."""
    faults, last = [], -1
    count = driver.execute_script(CONTROLS)
    for _ in range(MAX_TABS):
        if last == count - 1:
            return faults
        press_tab(driver)
        position, name, has_ring, is_shown = driver.execute_script(FOCUSED)
        if position < 0 and name.startswith("div") and last >= 0:
            continue  # a frame that the browser lets scroll by keys
        if position == last and "input" in name:
            continue  # the parts of a time
        if position <= last:
            faults.append(f"Tab leads from control {last} to {position}: {name}")
            break
        if position > last + 1:
            faults.append(f"Tab skips {position - last - 1} controls before {name}")
        if not has_ring:
            faults.append(f"no ring shows the focus of {name}")
        if not is_shown:
            faults.append(f"the focus is out of sight: {name}")
        last = position
    if last < count - 1 and not faults:
        faults.append(f"Tab reaches {last + 1} of {count} controls")
    return faults


def open_page(driver: Any, url: str) -> None:
    """Open a page, and wait until it is whole."""
    from selenium.webdriver.support.ui import WebDriverWait

    driver.get(url)
    ready = "return document.readyState === 'complete' && document.fonts.status === 'loaded'"
    WebDriverWait(driver, SECONDS, 0.05).until(lambda _: driver.execute_script(ready))


def main() -> int:
    """Run the command."""
    parser = argparse.ArgumentParser(description=(__doc__ or "").partition("\n")[0])
    parser.add_argument("folder", type=Path, metavar="FOLDER")
    parser.add_argument("--sagas", type=int, default=SAGAS, metavar="N")
    parser.add_argument("--only", default="", metavar="TEXT", help="only pages with this name")
    options = parser.parse_args()
    options.folder.mkdir(parents=True, exist_ok=True)
    faults: dict[str, list[str]] = {}
    with tempfile.TemporaryDirectory() as folder, contextlib.ExitStack() as stack:
        url, token = stack.enter_context(served(Path(folder), options.sagas))
        driver = stack.enter_context(browser())
        login = {"login": "/ui/login"}
        for width in WIDTHS:
            for scheme in SCHEMES:
                look(driver, width, scheme)
                driver.delete_all_cookies()
                for name, path in (login | pages(options.sagas)).items():
                    if options.only not in name and name != "login":
                        continue
                    open_page(driver, url + path)
                    take(driver, options.folder / f"{name}-{width}-{scheme}.png")
                    of_page = measure(driver)
                    if scheme == SCHEMES[0]:
                        of_page += walk(driver)
                    if of_page:
                        faults[f"{name} {width} {scheme}"] = of_page
                    if name == "login":
                        field = driver.find_element("name", "token")
                        field.send_keys(token)
                        field.submit()
                        open_page(driver, url + "/ui")
    for page, of_page in faults.items():
        print(page)
        for fault in of_page:
            print(f"  {fault}")
    print(
        f"{datetime.date.today()}: {sum(map(len, faults.values()))} faults on {len(faults)} pages"
    )
    return 1 if faults else 0


if __name__ == "__main__":
    sys.exit(main())
