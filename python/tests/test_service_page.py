"""The page in a real Chromium: what a person sees, clicks and types.

Screenshots stay in the test's folder.
"""

from __future__ import annotations

import contextlib
import json
import pathlib
import shutil
import sqlite3
import time
from collections.abc import Iterator
from typing import Any

import httpx
import pytest
from selenium import webdriver
from selenium.webdriver.chrome.options import Options
from selenium.webdriver.chrome.service import Service as Driver
from selenium.webdriver.common.by import By
from selenium.webdriver.common.keys import Keys
from selenium.webdriver.support.ui import WebDriverWait
from serving import DEFINITIONS, LONG, Served, all_done, report, served, start, stuck, take, token

MANY = 100_000
CONTRAST = """
const parse = (text) => text.match(/[\\d.]+/g).map(Number);
const light = ([r, g, b]) => {
  const f = (v) => (v /= 255) <= .04045 ? v / 12.92 : ((v + .055) / 1.055) ** 2.4;
  return .2126 * f(r) + .7152 * f(g) + .0722 * f(b);
};
const ground = (element) => {
  for (; element; element = element.parentElement) {
    const c = parse(getComputedStyle(element).backgroundColor);
    if (c.length < 4 || c[3] > .9) return c;
  }
  return [255, 255, 255];
};
const hasText = (node) => node.nodeType === 3 && node.textContent.trim();
const faults = [];
for (const element of document.querySelectorAll("body *")) {
  if (element.closest("svg, .skip, .sr") || ![...element.childNodes].some(hasText)) continue;
  const a = light(parse(getComputedStyle(element).color)), b = light(ground(element));
  const ratio = (Math.max(a, b) + .05) / (Math.min(a, b) + .05);
  const text = element.textContent.trim().slice(0, 30);
  if (ratio < 4.5) {
    faults.push(`${element.tagName}.${element.className} "${text}" ${ratio.toFixed(2)}`);
  }
}
return faults;
"""
FOCUSABLE = (
    "return [...document.querySelectorAll('a[href], button, input:not([type=hidden]), select,"
    ' textarea, [tabindex="0"]\')].filter((e) => e.getClientRects().length &&'
    " e.checkVisibility()).length"
)


class Browser:
    """A Chromium that looks at a service. `shots` is the folder of its pictures."""

    def __init__(self, service: Served, shots: pathlib.Path) -> None:
        options = Options()
        options.binary_location = str(shutil.which("chromium"))
        for word in (
            "--headless=new",
            "--no-sandbox",
            "--disable-gpu",
            "--disable-dev-shm-usage",
            f"--user-data-dir={shots / 'profile'}",
        ):
            options.add_argument(word)
        options.set_capability("goog:loggingPrefs", {"browser": "ALL"})
        self.driver = webdriver.Chrome(
            service=Driver(shutil.which("chromedriver")), options=options
        )
        self.driver.set_page_load_timeout(LONG)
        self.service, self.shots = service, shots

    def size(self, width: int, dark: bool = False) -> None:
        metrics = {"width": width, "height": 900, "deviceScaleFactor": 1, "mobile": width < 500}
        self.driver.execute_cdp_cmd("Emulation.setDeviceMetricsOverride", metrics)
        feature = {"name": "prefers-color-scheme", "value": "dark" if dark else "light"}
        self.driver.execute_cdp_cmd("Emulation.setEmulatedMedia", {"features": [feature]})

    def go(self, path: str) -> None:
        self.driver.get(self.service.url + path)

    def click(self, css: str, text: str = "") -> None:
        """Click the matching element, once it exists."""
        self.wait(lambda: self._click(css, text))

    def _click(self, css: str, text: str) -> bool:
        for find_element in self.driver.find_elements(By.CSS_SELECTOR, css):
            if text in (
                find_element.text or find_element.get_attribute("aria-label") or ""
            ) or text in (find_element.get_attribute("aria-label") or ""):
                find_element.click()
                return True
        return False

    def type(self, css: str, text: str) -> None:
        element = self.driver.find_element(By.CSS_SELECTOR, css)
        element.clear()
        element.send_keys(text)

    def wait(self, condition: Any) -> None:
        """Wait for a condition; the page may be renewed in the meantime."""

        def ask(_: Any) -> bool:
            try:
                return bool(condition())
            except Exception as error:
                if "stale" in str(error).lower():
                    return False
                raise

        WebDriverWait(self.driver, LONG, 0.1).until(ask)

    def has(self, text: str) -> None:
        self.wait(lambda: text in self.driver.find_element(By.TAG_NAME, "body").text)

    @property
    def text(self) -> str:
        return str(self.driver.execute_script("return document.body.innerText"))

    def shot(self, name: str) -> None:
        self.driver.save_screenshot(str(self.shots / f"{name}.png"))

    def is_quiet(self) -> None:
        """Check that the console has no error."""
        assert [
            entry
            for entry in self.driver.get_log("browser")
            if entry["level"] in ("SEVERE", "WARNING")
        ] == []


@pytest.fixture(scope="module")
def shots(tmp_path_factory: pytest.TempPathFactory) -> pathlib.Path:
    return tmp_path_factory.mktemp("page")


@pytest.fixture(scope="module")
def service(shots: pathlib.Path) -> Iterator[Served]:
    with served(shots) as service:
        with service.client() as client:
            seed(client)
        yield service


@pytest.fixture(scope="module")
def browser(service: Served, shots: pathlib.Path) -> Iterator[Browser]:
    browser = Browser(service, shots)
    try:
        browser.size(1280)
        yield browser
    finally:
        browser.driver.quit()


def seed(client: httpx.Client) -> None:
    """Make one of each kind: failed, stuck, unknown, to approve, running."""
    start(client, "trip", "failed-1", {"to": "Rome"})
    all_done(client, "trip/flight", "trip/car")
    for _ in range(2):
        (tour,) = take(client, "trip/tour")
        report(client, tour, "fail", error="the tour is full")
    all_done(client, "trip/car/undo")
    assert client.get("/v1/sagas/failed-1/wait?seconds=60").json()["over"]
    start(client, "trip", "fixed-1")
    all_done(
        client,
        "trip/flight",
        "trip/car",
        "trip/tour",
        "trip/car/undo",
        failing=["trip/tour", "trip/car/undo"],
    )
    assert client.get("/v1/sagas/fixed-1/wait?seconds=60").json()["over"]
    stuck(client, "stuck-1")
    stuck(client, "stuck-2")
    start(client, "trip", "hazy-1")
    all_done(client, "trip/flight", "trip/car")
    (tour,) = take(client, "trip/tour")
    report(client, tour, "unknown", error="the line went dead")
    for key in ("order-1", "order-2"):
        start(client, "order", key)
    start(client, "trip", "work-1")
    take(client, "trip/flight", lease=3000)


def test_a_failed_saga_shows_kept_steps(browser: Browser) -> None:
    """Its picture has each step, the steps that were kept and why, and the cost of the plan."""
    browser.go("/ui/sagas/failed-1")
    titles = browser.driver.execute_script(
        "return [...document.querySelectorAll('svg.picture g.step title')].map((t) =>"
        " t.textContent)"
    )
    assert titles == [
        "flight: done, plan: keep",
        "car: undone, plan: undo, costs 5",
        "tour: failed, plan: skip, costs 10",
    ]
    text = browser.text
    assert "plan of cost 15" in text and "the tour is full" in text and "Timeline" in text
    bars = browser.driver.execute_script(
        "return [...document.querySelectorAll('svg.timeline g.run title')].map((t) =>"
        " t.textContent)"
    )
    assert len(bars) == 5 and bars[2].startswith(
        "tour, action, attempt 1: failed, will be retried after"
    )
    browser.shot("failed")
    browser.driver.find_element(By.LINK_TEXT, "the certificate").click()
    browser.has('"cost": 15')
    browser.driver.back()
    browser.driver.find_element(By.LINK_TEXT, "Replay it").click()
    browser.has("Car is undone")
    browser.has("It follows the plan of event")
    browser.driver.find_element(By.ID, "first").click()
    browser.has("The saga is opened")
    browser.shot("replay")
    browser.is_quiet()
    with browser.service.client() as client:
        exported = client.get("/v1/sagas/failed-1/export").json()
    assert exported["saga"]["phase"] == "recovered" and exported["history"]
    assert exported["events"][0]["event"] == "open" and all(
        line["at"] for line in exported["events"]
    )


def test_a_stuck_saga_is_resolved_in_two_clicks(browser: Browser) -> None:
    """From the first page: look, mark as resolved; then a confirmation, with a note that
    is stored.
    """
    browser.go("/ui")
    browser.shot("inbox")
    browser.click("summary", "stuck-1")
    browser.click("a.button", "Look at stuck-1")
    browser.has("It is stuck")
    assert "because of licence" in browser.text
    browser.shot("stuck")
    browser.click("a.button", "Resolve…")
    browser.has("Resolve this saga?")
    browser.shot("resolve")
    browser.click("main button", "Resolve it")
    assert "/resolve" in browser.driver.current_url  # a note is needed
    browser.type("textarea[name=note]", "bought a licence by hand")
    browser.click("main button", "Resolve it")
    browser.has("It was stuck, and is resolved")
    assert "local resolved it" in browser.text and "bought a licence by hand" in browser.text
    browser.go("/ui")
    assert "stuck-1" not in browser.text and "stuck-2" in browser.text
    browser.is_quiet()


def test_a_key_is_copied(browser: Browser) -> None:
    """The button exists with a script only. It works by keyboard, and the key stays a link."""
    browser.go("/ui/sagas/failed-1")
    assert browser.driver.find_element(By.CSS_SELECTOR, "h1").text == "failed-1"
    button = browser.driver.find_element(By.CSS_SELECTOR, "main .copy")
    assert button.is_displayed() and button.get_attribute("aria-label") == "Copy failed-1"
    button.send_keys(Keys.ENTER)
    status = "return document.getElementById('said').textContent"
    browser.wait(lambda: browser.driver.execute_script(status) == "Copied.")
    browser.go("/ui/sagas?search=failed-1")
    field = browser.driver.find_element(By.CSS_SELECTOR, "[name=search]")
    field.send_keys(Keys.CONTROL, "a")
    field.send_keys(Keys.CONTROL, "v")
    assert field.get_attribute("value") == "failed-1"
    browser.driver.execute_script("document.documentElement.classList.remove('scripted')")
    assert not browser.driver.find_element(By.CSS_SELECTOR, "main .copy").is_displayed()
    browser.is_quiet()


def test_an_approval(browser: Browser) -> None:
    """It is listed on the first page, decided with a result and a note, and the saga continues."""
    browser.go("/ui")
    browser.click(".tabs a", "Approvals")
    browser.click("a.button", "Look at order-1")
    browser.has("review waits to be approved")
    assert "Start send" in browser.text  # the effect of the answer
    browser.click("a.button", "Approve…")
    browser.has("Approve step review?")
    browser.type("textarea[name=result]", "yes")
    browser.type("textarea[name=note]", "asked the boss")
    browser.click("main button", "Approve it")
    browser.has("The result is not valid JSON")
    assert all("422" in entry["message"] for entry in browser.driver.get_log("browser"))
    browser.type("textarea[name=result]", '{"by": "Ada"}')
    browser.click("main button", "Approve it")
    browser.has("asked the boss")
    assert '"by": "Ada"' in browser.text and "review is done" in browser.text
    browser.shot("approved")
    with browser.service.client() as client:
        all_done(client, "order/send")
    # it came by itself
    browser.wait(lambda: browser.driver.find_elements(By.CSS_SELECTOR, ".head .badge.completed"))
    browser.is_quiet()


def test_an_unknown_outcome_and_an_abort(browser: Browser) -> None:
    """An operator reports that it had no effect, and why; another saga is aborted."""
    browser.go("/ui/sagas/hazy-1")
    browser.has("The outcome of tour is unknown")
    # to look for it in the other system
    assert "-tour-run" in browser.text.split("with the same idempotency key,")[1].split(".")[0]
    assert (
        browser.text.count("Undo car, keep flight: costs 15") == 1
        and "The saga is completed" in browser.text
    )
    browser.click("a.button", "Fail…")
    browser.has("Now it would: Undo car, keep flight: costs 15.")
    browser.type("input[name=failed]", "they have no booking")
    browser.click("main button", "Fail it")
    browser.has("they have no booking")
    with browser.service.client() as client:
        all_done(client, "trip/car/undo")
        assert client.get("/v1/sagas/hazy-1/wait?seconds=60").json()["states"] == {
            "flight": "committed",
            "car": "undone",
            "tour": "failed",
        }
    browser.go("/ui/sagas/order-2")
    browser.click("a.button", "Abort…")
    browser.has("Abort this saga?")
    browser.has("Now it would: Nothing has to be undone: costs 0")
    browser.type("textarea[name=note]", "ordered twice")
    browser.click("main button", "Abort it")
    browser.has("Aborted")
    browser.has("ordered twice")
    browser.go("/ui/workers")
    browser.has("work-1")
    browser.shot("workers")
    browser.is_quiet()


def test_steps_without_a_worker(browser: Browser) -> None:
    """A step that waits for a worker says so, and workers that claim an unknown step are shown."""
    with browser.service.client() as client:
        start(client, "trip", "idle-1")
        take(client, "trip/train", wait=0)
        browser.go("/ui/sagas/idle-1")
        browser.has("waits for a worker")
        assert "flight: waits for a worker" in client.get("/v1/sagas/idle-1/picture.svg").text
        browser.go("/ui/workers")
        browser.has("no definition has trip/train")
        client.post("/v1/sagas/idle-1/abort", json={})
    browser.go("/ui/sagas?definition=trip")
    browser.has("failed-1")  # the page may be renewed in the meantime: its rows are read at once
    rows = browser.driver.execute_script(
        "return [...document.querySelectorAll('tbody tr')].map((row) => row.innerText)"
    )
    assert any("failed-1" in row and "Recovered" in row for row in rows)
    browser.is_quiet()


def test_a_saga_is_started_by_hand(browser: Browser) -> None:
    """The form shows its errors, and keeps the entries."""
    browser.go("/ui/sagas?definition=order")
    browser.click("a.button", "Start a saga")
    browser.has("Start a saga")
    browser.type("[name=key]", "by-hand-1")
    browser.type("[name=input]", "{to: Oslo}")
    browser.click("button.primary")
    browser.has("The input is not valid JSON")
    assert (
        browser.driver.find_element(By.CSS_SELECTOR, "[name=key]").get_attribute("value")
        == "by-hand-1"
    )
    browser.type("[name=input]", '{"to": "Oslo"}')
    browser.click("button.primary")
    browser.wait(lambda: browser.driver.current_url.endswith("/ui/sagas/by-hand-1"))
    browser.has("Approve")
    with browser.service.client() as client:
        saga = client.get("/v1/sagas/by-hand-1").json()
        assert (saga["definition"], saga["input"]) == ("order", {"to": "Oslo"})
    browser.go("/ui/start?definition=trip")
    browser.type("[name=key]", "by-hand-1")
    browser.click("button.primary")
    browser.has("by-hand-1")
    browser.wait(lambda: browser.driver.find_elements(By.CSS_SELECTOR, ".fault"))
    browser.driver.get_log("browser")  # it shows each response that is not 200


def test_the_first_page_shows_what_is_new_by_itself(browser: Browser) -> None:
    """An approval that is requested while the page is open appears, also in the figures, without a
    click.
    """
    browser.go("/ui?kind=approval&order=newest&search=late")
    with browser.service.client() as client:
        for number in range(3):
            start(client, "order", f"late-{number}")
            browser.wait(
                lambda: browser.driver.find_elements(
                    By.CSS_SELECTOR, f"[aria-label='Look at late-{number}']"
                )
            )
            count = len(client.get("/v1/sagas?search=late-").json()["sagas"])
            browser.wait(lambda: f"Approvals {count}" in browser.text)  # those of the filter
            if number == 0:  # the selection stays when the page is renewed
                browser.click("input[name=group]")
        assert browser.driver.find_element(By.CSS_SELECTOR, "input[name=group]").is_selected()
        for number in range(3):
            assert (
                client.post(
                    f"/v1/sagas/late-{number}/steps/review/complete", json={"result": 1}
                ).status_code
                == 200
            )
        browser.wait(
            lambda: not browser.driver.find_elements(
                By.CSS_SELECTOR, "[aria-label^='Look at late-']"
            )
        )
    browser.is_quiet()


def test_the_page_shows_when_it_is_not_live(tmp_path: pathlib.Path) -> None:
    """It does once its stream has ended, and no more once it has one again, with the events in
    between.
    """
    with served(tmp_path) as service:
        browser = Browser(service, tmp_path)
        try:
            browser.go("/ui")
            notice = browser.driver.find_element(By.ID, "lapsed")
            assert not notice.is_displayed()
            service.kill()
            browser.wait(notice.is_displayed)
            assert "Not live" in notice.text
            browser.shot("not-live")
            service.start()
            with service.client() as client:
                start(client, "trip", "meanwhile")
            browser.wait(lambda: not notice.is_displayed())
            browser.has("1 open")
        finally:
            browser.driver.quit()


def test_the_page_shows_when_its_stream_is_refused(tmp_path: pathlib.Path) -> None:
    """A service that has too many streams refuses one: it is requested again, and the page then
    shows that it is live.
    """
    with served(tmp_path) as service, contextlib.ExitStack() as stack:
        client = stack.enter_context(service.client())
        client.get("/ui")
        there = [stack.enter_context(client.stream("GET", "/ui/events")) for _ in range(50)]
        assert {answer.status_code for answer in there} == {200}
        browser = Browser(service, tmp_path)
        try:
            browser.go("/ui")
            notice = browser.driver.find_element(By.ID, "lapsed")
            browser.wait(notice.is_displayed)
            there[0].close()
            browser.wait(lambda: not notice.is_displayed())
        finally:
            browser.driver.quit()


def test_those_that_ended_by_plan(browser: Browser) -> None:
    """They have their own list."""
    browser.go("/ui/sagas")
    browser.click(".tabs a", "Recovered")
    browser.has("failed-1")
    badges = {row.text for row in browser.driver.find_elements(By.CSS_SELECTOR, "tbody td .badge")}
    assert badges == {"Recovered", "Undo failed"}
    browser.click(".tabs a", "Undo failed")
    browser.wait(
        lambda: [
            row.text for row in browser.driver.find_elements(By.CSS_SELECTOR, "tbody td .badge")
        ]
        == ["Undo failed"]
    )
    browser.click("a.key", "fixed-1")
    browser.has("Undoing car failed permanently: “no”. Its effect still exists.")
    browser.shot("undo-failed")
    with browser.service.client() as client:
        listed = client.get("/v1/sagas?phase=recovered").json()["sagas"]
        assert "failed-1" in [summary["key"] for summary in listed] and all(
            summary["phase"] == "recovered" for summary in listed
        )
    browser.is_quiet()


def test_a_definition_shows_what_each_failure_leads_to(browser: Browser) -> None:
    browser.go("/ui/definitions/trip")
    browser.has("undo car, keep flight")
    browser.has("Point of no return\nflight")
    browser.click("#failures tbody a", "tour")
    browser.has("If tour fails:")
    drawn = browser.driver.find_element(By.CSS_SELECTOR, "#failures svg").text
    assert "is undone" in drawn and "fails" in drawn
    browser.click("#failures a", "hide the picture")
    browser.wait(lambda: "If tour fails" not in browser.text)
    with browser.service.client() as client:
        page = client.get("/ui/definitions/licence?fails=licence&when=early").text
        assert "stuck: licence failed and must not be left out" in page
        assert client.get("/ui/definitions/trip?fails=nothing").is_success
        assert client.get("/ui/definitions/trip?when=never").status_code == 422
    browser.is_quiet()


PATHS = (
    "/ui",
    "/ui?kind=undo_failed",
    "/ui/definitions",
    "/ui/definitions/trip?fails=tour",
    "/ui/sagas",
    "/ui/start",
    "/ui/sagas/failed-1",
    "/ui/sagas/fixed-1",
    "/ui/sagas/stuck-2",
    "/ui/sagas/work-1",
    "/ui/workers",
    "/ui/nodes",
    "/ui/webhooks",
    "/ui/sagas/work-1/abort",
    "/ui/sagas/nobody",
)


WIDTH = "return document.documentElement.scrollWidth"


@pytest.mark.parametrize("width", [1280, 360])
def test_each_page_can_be_read(browser: Browser, width: int) -> None:
    """Nothing is wider than the screen, and all text has enough contrast, light and dark."""
    try:
        for path in PATHS:
            browser.size(width)
            browser.go(path)
            for dark in (False, True):
                browser.size(width, dark)
                name = path.strip("/").replace("/", "-")
                browser.shot(f"{name}-{width}{'-dark' if dark else ''}")
                assert browser.driver.execute_script(WIDTH) <= width, path
                assert browser.driver.execute_script(CONTRAST) == [], (path, dark)
    finally:
        browser.size(1280)
    logged = [
        entry for entry in browser.driver.get_log("browser") if "nobody" not in entry["message"]
    ]
    assert logged == []


def test_each_control_has_a_name_and_is_reached_by_keyboard(browser: Browser) -> None:
    """By the accessibility tree, and by the Tab key only."""
    for path in PATHS:
        browser.go(path)
        nodes = browser.driver.execute_cdp_cmd("Accessibility.getFullAXTree", {})["nodes"]
        roles = ("link", "button", "textbox", "searchbox", "combobox", "img", "table")
        nameless = [
            node["role"]["value"]
            for node in nodes
            if not node["ignored"]
            and node["role"]["value"] in roles
            and not node["name"].get("value", "").strip()
        ]
        assert nameless == [], path
        wanted = browser.driver.execute_script(FOCUSABLE)
        browser.driver.execute_script(
            "document.activeElement.blur(); window.seen = new Set();"
            " document.addEventListener('focusin', (e) => seen.add(e.target))"
        )
        for _ in range(4):  # a page may be renewed in the meantime
            browser.driver.switch_to.active_element.send_keys(Keys.TAB * (wanted + 2))
            if (seen := browser.driver.execute_script("return seen.size")) >= wanted:
                break
        assert seen >= wanted, path
    browser.go("/ui/sagas")
    browser.driver.find_element(By.TAG_NAME, "body").send_keys("/")
    assert browser.driver.switch_to.active_element.get_attribute("name") == "search"
    browser.driver.get_log("browser")


def fill(store: pathlib.Path, count: int) -> None:
    """Make a store of `count` sagas that ended, some of them stuck, in closed logs."""
    end = json.dumps(
        {"aborted": False, "answer": None, "kept": [0, 1], "states": ["committed"] * 2}
    )
    rows = (
        (
            1_000_000 + n,
            f"old-{n:06}",
            "licence",
            0,
            '{"n":%d,"more":"%s"}' % (n, "x" * 200),
            1.7e9 + n,
            "stuck" if n % 1000 == 0 else "ended",
            end,
            1.7e9 + n + 60,
            None,
        )
        for n in range(count)
    )
    with sqlite3.connect(store) as db:
        for log in range(1000, 1000 + count // 1000):
            db.execute(
                "INSERT INTO shards(shard, name, closed) VALUES(?, ?, 1)", (log, f"{log:016x}")
            )
            db.execute(
                (
                    "INSERT INTO shard_definitions SELECT ?, place, definition FROM"
                    " shard_definitions WHERE shard = 0"
                ),
                (log,),
            )
        db.executemany(
            (
                "INSERT INTO sagas(id, key, saga, definition_index, input, at, phase, outcome,"
                " ended, note) VALUES(?, ?, ?, ?, ?, ?, ?, ?, ?, ?)"
            ),
            rows,
        )
    db.close()


def test_a_hundred_thousand_sagas(tmp_path: pathlib.Path, shots: pathlib.Path) -> None:
    """The list, its pages, filters and search stay usable; a stuck one is still on the
    first page.
    """
    with served(tmp_path) as service:
        with service.client() as client:
            start(client, "licence", "newest")
        service.stop()
        fill(pathlib.Path(service.store), MANY)
        service.start()
        browser = Browser(service, tmp_path)
        try:
            browser.size(1280)
            browser.go("/ui")
            assert "99,900 completed" in browser.text and "Stuck 100" in browser.text
            browser.shots = shots
            browser.shot("many-inbox")
            browser.go("/ui/sagas")
            assert len(browser.driver.find_elements(By.CSS_SELECTOR, "tbody tr")) == 50
            browser.click("a.button", "Older →")
            browser.has("old-099950")
            browser.click("a.button", "← Newer")
            browser.has("old-099999")
            browser.type("[data-search]", "old-012345")
            browser.driver.find_element(By.CSS_SELECTOR, "[data-search]").send_keys(Keys.ENTER)
            browser.wait(
                lambda: len(browser.driver.find_elements(By.CSS_SELECTOR, "tbody tr")) == 1
            )
            browser.go("/ui/sagas?phase=stuck")
            assert len(browser.driver.find_elements(By.CSS_SELECTOR, "tbody tr")) == 50
            browser.shot("many-stuck")
            browser.is_quiet()
        finally:
            browser.driver.quit()
        with service.client() as client:
            began = time.monotonic()
            for path in (
                "/ui/sagas",
                "/ui/sagas?phase=completed&definition=licence",
                "/ui/sagas?phase=recovered",
                "/ui/sagas?search=99999",
                "/ui/sagas?before=1700050000.0-1050000",
            ):
                assert client.get(path).status_code == 200
            assert time.monotonic() - began < LONG


KEPT = """
const all = (css) => [...document.querySelectorAll(css)], at = document.activeElement;
const frame = document.querySelector(".scroll.pad"), picture = frame?.querySelector("svg");
return {
  fields: Object.fromEntries(all(".filter label input").map((one) => [one.name, one.value])),
  selected: all("input:checked").map((one) => one.ariaLabel),
  open: all("details").filter((one) => one.open).map((one) => one.dataset.keep ?? one.className),
  focus: [at.nodeName, at.name ?? "", at.getAttribute("href") ?? "", at.selectionStart ?? -1],
  picture: [picture?.getAttribute("width"), frame?.scrollLeft],
  scrolled: document.querySelector("pre")?.scrollTop,
};
"""
HEARD = """
window.heard = [];
const said = document.getElementById("said");
const hear = () => heard.push([performance.now(), said.textContent]);
new MutationObserver(hear).observe(said, { childList: true });
"""


def kept(browser: Browser) -> Any:
    """Return the state of this page: typed, unfolded, focused, zoomed and scrolled to."""
    return browser.driver.execute_script(KEPT)


def focus(browser: Browser, css: str) -> None:
    browser.driver.execute_script("document.querySelector(arguments[0]).focus()", css)


def test_new_rows_keep_the_state_of_the_page(browser: Browser) -> None:
    """A list shows new sagas also to a user who types; typed, unfolded and focused elements stay.

    Screen readers are notified, and not once a second.
    """
    browser.go("/ui/sagas")
    browser.driver.execute_script(HEARD)
    browser.click(".further summary")
    browser.type("[name=error]", "no such")
    browser.type("[name=search]", "fixed")
    browser.driver.switch_to.active_element.send_keys(Keys.ARROW_LEFT)
    before = kept(browser)
    assert before["fields"]["search"] == "fixed" and before["open"] == ["further"]
    assert before["focus"] == ["INPUT", "search", "", 4]
    with browser.service.client() as client:
        for number, css in enumerate(("[name=search]", ".filter button", ".further summary")):
            focus(browser, css)
            before = kept(browser)
            start(client, "trip", f"typed-{number}")
            browser.has(f"typed-{number}")
            assert kept(browser) == before
    heard = browser.driver.execute_script("return heard")
    assert heard[0][1].startswith("This page changed at ")
    assert all(later[0] - earlier[0] > 20_000 for earlier, later in zip(heard, heard[1:]))
    focus(browser, "[name=search]")
    browser.driver.switch_to.active_element.send_keys(Keys.ENTER)
    browser.wait(lambda: "search=fixed" in browser.driver.current_url)
    assert "error=no+such" in browser.driver.current_url
    browser.is_quiet()


def test_an_entry_before_the_others_moves_no_focus(browser: Browser) -> None:
    """In the inbox it stays on its button and on its saga, and so does the selection."""
    with browser.service.client() as client:
        start(client, "order", "moved-0")
        browser.go("/ui?kind=approval&order=newest&search=moved")
        browser.click("[aria-label='Select moved-0']")
        for number, css in enumerate(
            ("[aria-label='Look at moved-0']", ".bulk button", "[aria-label='Select moved-0']"), 1
        ):
            focus(browser, css)
            before = kept(browser)
            start(client, "order", f"moved-{number}")
            look = f"[aria-label='Look at moved-{number}']"
            browser.wait(lambda: browser.driver.find_elements(By.CSS_SELECTOR, look))
            after = kept(browser)
            assert after["focus"] == before["focus"] and after["selected"] == ["Select moved-0"]
            assert number == 1 or after == before  # the first one's group has become a fold
    browser.is_quiet()


def test_a_page_keeps_its_view_while_its_saga_continues(browser: Browser) -> None:
    """Its picture stays at its position and zoom, and its input at its scroll position."""
    with browser.service.client() as client:
        start(client, "trip", "looked-at", {"lines": ["word " * 9] * 99})
        try:
            browser.size(360)
            browser.go("/ui/sagas/looked-at")
            browser.click(".tools button", "+")
            browser.click(".tools button", "+")
            browser.driver.execute_script(
                "document.querySelector('.scroll.pad').scrollLeft = 77;"
                "document.querySelector('pre').scrollTop = 300"
            )
            focus(browser, "pre")
            before = kept(browser)
            assert before["picture"][1] == 77 and before["scrolled"] == 300
            assert client.post("/v1/sagas/looked-at/abort", json={}).status_code == 200
            browser.has("Aborted")
            assert kept(browser) == before
            assert len(browser.driver.find_elements(By.CSS_SELECTOR, ".tools")) == 1
        finally:
            browser.size(1280)
    browser.is_quiet()


ANSWERED = """
window.asked = [];
const statuses = [...arguments], real = window.fetch, lapsed = document.getElementById("lapsed");
window.fetch = async (...words) => {
  const one = { status: statuses.shift() ?? 200, isLive: lapsed.hidden, began: performance.now() };
  asked.push(one);
  const answer = await real(...words);
  await new Promise((done) => setTimeout(done, 300));
  one.ended = performance.now();
  return one.status === 200 ? answer : new Response("", { status: one.status });
};
"""


GONE = """
history.replaceState(null, "", "/ui/sagas/not-kept");
document.dispatchEvent(new Event("visibilitychange"));
"""


def test_a_page_that_is_not_answered_is_taken_later(browser: Browser) -> None:
    """It shows that it is not live, and is renewed without another event.

    A slow page is requested less often. For a saga that was deleted it shows that.
    """
    browser.go("/ui/sagas?search=page")
    browser.driver.execute_script(ANSWERED, 503)
    with browser.service.client() as client:
        start(client, "trip", "late-page")
        browser.has("late-page")
        assert not browser.driver.find_element(By.ID, "lapsed").is_displayed()
        start(client, "trip", "slow-page")
        browser.has("slow-page")
    refused, first, second = browser.driver.execute_script("return asked")[:3]
    assert [answer["status"] for answer in (refused, first, second)] == [503, 200, 200]
    assert [answer["isLive"] for answer in (refused, first, second)] == [True, False, True]
    pause, took = second["began"] - first["ended"], first["ended"] - first["began"]
    assert pause > 5 * took - 5  # milliseconds
    browser.is_quiet()
    browser.driver.execute_script(GONE)
    browser.has("Unknown saga")
    assert not browser.driver.find_element(By.ID, "lapsed").is_displayed()
    browser.driver.get("about:blank")
    browser.driver.get_log("browser")  # it shows each response that is not 200


CUT = """
const boxes = "header, main, .card, .scroll:not(.pad)";
return [...document.querySelectorAll(boxes)].filter((one) => one.scrollWidth > one.clientWidth + 1)
  .map((one) => `${one.className || one.nodeName} ${one.scrollWidth} > ${one.clientWidth}`);
"""


def test_long_names_are_not_cut_off(browser: Browser, tmp_path: pathlib.Path) -> None:
    """Those of a token, a label, a worker and a key: the page is not wider, and each box has the
    full name.
    """
    secret, key = token(tmp_path, "N" * 64, "operator"), "K" * 300
    paths = (f"sagas/{key}", f"sagas/{key}/abort", "sagas", "workers", "sagas/" + "Q" * 400)
    with served(tmp_path, DEFINITIONS, "--token-file", str(tmp_path / "tokens.toml")) as service:
        with service.client(secret) as client:
            more = {"key": key, "labels": {"L" * 64: "V" * 256}}
            client.post("/v1/sagas", json={"definition": "trip", **more}).raise_for_status()
            take(client, "trip/flight")
        try:
            browser.driver.get(f"{service.url}/ui/login")
            browser.type("[name=token]", secret)
            browser.click("button.primary")
            browser.has("Inbox")
            browser.size(600)
            assert browser.driver.execute_script(WIDTH) <= 600
            for width in (360, 1280):
                browser.size(width)
                for number, path in enumerate(paths):
                    browser.driver.get(f"{service.url}/ui/{path}")
                    browser.shot(f"long-{number}-{width}")
                    assert browser.driver.execute_script(WIDTH) <= width, path
                    assert browser.driver.execute_script(CUT) == [], (path, width)
        finally:
            browser.driver.get("about:blank")  # its stream ends before the service does
            browser.driver.get_log("browser")
            browser.size(1280)


MENDED = """
const [paths, done] = arguments, parser = new DOMParser();
const main = async (path) => {
  const answer = await fetch(path);
  return parser.parseFromString(await answer.text(), "text/html").getElementById("main");
};
Promise.all(paths.map(main)).then((pages) => done(pages.flatMap((from, a) => pages.map((to, b) => {
  const old = document.importNode(from, true);
  patch(old, document.importNode(to, true));
  return old.isEqualNode(to) ? null : `${paths[a]} to ${paths[b]}`;
}).filter((wrong) => wrong))), (error) => done([String(error)]));
"""


def test_a_renewed_page_is_the_new_page(browser: Browser) -> None:
    """Whatever was there before: elements that stay are never ones that the service does
    not send.
    """
    browser.go("/ui")
    shown = ("/ui?kind=unknown", "/ui?kind=approval", "/ui?order=newest", "/ui/sagas?phase=open")
    paths = [*shown, *(path for path in PATHS if "nobody" not in path)]
    assert browser.driver.execute_async_script(MENDED, paths) == []
    browser.is_quiet()
