"""The inbox in a real Chromium: many sagas of one cause are resolved together.

Everything that needs an operator is always reachable.
"""

from __future__ import annotations

import html
import pathlib
import re
import time
from collections.abc import Iterator

import httpx
import pytest
from selenium.webdriver.common.by import By
from serving import DEFINITIONS, LONG, Served, all_done, report, served, start, take
from test_service_page import Browser

import sagas
from sagas.server.routes.inbox import confirmation_of
from sagas.server.routes.operators import Target

STUCK, APPROVALS = 40, 25
PANEL = [f"ask-{number}" for number in range(APPROVALS)]
FILES = DEFINITIONS | {
    "panel.toml": 'format = 2\nname = "panel"\n'
    + "".join(f'[[step]]\nname = "{name}"\n' for name in PANEL),
    "panel.service.toml": "".join(f'[step.{name}]\nkind = "approval"\n' for name in PANEL),
}


def closed_shop(folder: pathlib.Path) -> None:
    """Leave a saga in the store, of a definition that the service does not have."""
    shop = sagas.Saga("closed-shop")

    @shop.step
    def sell(task: sagas.Task) -> None:
        pass

    with sagas.open_sync(folder / "store.db", [shop]) as store:
        assert store.start(shop, "sold-1").wait().ok


@pytest.fixture(scope="module")
def service(tmp_path_factory: pytest.TempPathFactory) -> Iterator[Served]:
    folder = tmp_path_factory.mktemp("inbox")
    closed_shop(folder)
    with served(folder, FILES) as service, service.client() as client:
        for number in range(STUCK + 3):
            start(client, "licence", f"stuck-{number}")
        for step in ("server", "licence"):
            left = STUCK + 3
            while left:
                for task in take(client, f"licence/{step}", limit=50):
                    number = int(task["key"].rpartition("-")[2])
                    word, outcome = "complete", {"result": 1}
                    if step == "licence":
                        why = f"HTTP 503 of request {number * 7919}" if number < STUCK else "none"
                        word, outcome = "fail", {"error": why, "final": True}
                    path = f"/v1/tasks/{task['attempt_id']}/{word}"
                    client.post(path, json={"lease": task["lease"], **outcome})
                    left -= 1
        for number in range(60):
            start(client, "order", f"asked-{number:02}")
        while client.get("/v1/attention").json()["counts"]["stuck"] < STUCK + 3:
            time.sleep(0.2)
        yield service


def test_forty_of_one_cause_are_resolved(service: Served, tmp_path: pathlib.Path) -> None:
    """It takes four clicks: the numbers in their errors do not separate them."""
    browser, clicks = Browser(service, tmp_path), 0
    try:
        browser.size(1400)
        browser.go("/ui")
        browser.wait(lambda: "Stuck 43" in browser.text)
        groups = browser.driver.find_elements(By.CSS_SELECTOR, ".group .line")
        assert len(groups) == 2 and "HTTP … of request … 40" in groups[0].text, groups[0].text
        browser.shot("inbox")
        for css, text in (
            (".group input[name=group]", ""),
            ("button", "Resolve…"),
            ("main button", "Resolve them"),
            ("a.button", "Back to the inbox"),
        ):
            if text == "Resolve them":
                browser.has("Resolve 40 sagas?")
                browser.type("textarea[name=note]", "bought by hand")
            browser.click(css, text)
            clicks += 1
            if text == "Resolve them":
                browser.has("40 done")
        browser.wait(lambda: "Stuck 3" in browser.text)
        browser.is_quiet()
        with service.client() as client:
            resolved = client.get("/v1/sagas?phase=resolved&limit=1000").json()["sagas"]
            assert len(resolved) == STUCK and {row["note"] for row in resolved} == {
                "bought by hand"
            }
        assert clicks <= 8
    finally:
        browser.driver.quit()


def csrf_of(client: httpx.Client) -> str:
    match = re.search(r'name="csrf" value="([^"]+)"', client.get("/ui").text)
    assert match
    return match[1]


def hidden(text: str) -> dict[str, str]:
    """Return the hidden fields of a page's form, as a browser sends them."""
    form = text.split('<form class="confirm card')[1].split("</form>")[0]
    fields = re.findall(r'<input type="hidden" name="([^"]+)" value="([^"]*)"', form)
    return {name: html.unescape(value) for name, value in fields}


def question_page(client: httpx.Client, kind: str, verb: str, **more: str) -> httpx.Response:
    """Return the form for a selection and an action: by default the first group."""
    search = more.get("search", "")
    if "one" not in more:
        text = client.get("/ui", params={"kind": kind, "search": search}).text
        more["group"] = text.split('name="group" value="')[1].split('"')[0]
    form = {"csrf": csrf_of(client), "kind": kind, "verb": verb, **more}
    return client.post("/ui/inbox", data=form)


def waits(client: httpx.Client, key: str, why: str) -> None:
    deadline = time.monotonic() + LONG
    while why not in [wait["why"] for wait in client.get(f"/v1/sagas/{key}").json()["waits"]]:
        assert time.monotonic() < deadline
        time.sleep(0.02)


def test_each_is_within_reach(service: Served) -> None:
    """They are on the pages of a group; without JavaScript, too.

    Errors of a form are shown, and refused sagas are counted.
    """
    with service.client() as client:
        text = client.get("/ui?kind=approval").text
        group = text.split('name="group" value="')[1].split('"')[0]
        listed = set()
        for page in (1, 2):
            shown = client.get(f"/ui?kind=approval&group={group}&page={page}").text
            listed |= {
                f"asked-{number:02}" for number in range(60) if f">asked-{number:02}<" in shown
            }
        assert len(listed) == 60
        newest = client.get(f"/ui?kind=approval&group={group}&order=newest").text
        assert newest.index(">asked-59<") < newest.index(">asked-58<")
        question = question_page(client, "approval", "done").text
        assert "Approve 60 steps of 60 sagas?" in question
        sixty = hidden(question)
        no_json = client.post("/ui/inbox", data={**sixty, "result": "{"})
        assert no_json.status_code == 422 and "not valid JSON" in no_json.text
        refused = client.post("/ui/inbox", data={**sixty, "result": "[" * 65 + "]" * 65}).text
        assert "0 done, 60 refused" in refused and "the first 50" in refused
        assert refused.count('<li class="line">') == 50
        row_id = shown.split('name="one" value="')[1].split('"')[0]
        question = question_page(client, "approval", "failed", **{"one": row_id}).text
        assert "Refuse 1 step of 1 saga?" in question
        form = hidden(question)
        answer = client.post("/ui/inbox", data={**form, "failed": "too expensive"})
        assert "1 done" in answer.text
        assert client.get("/v1/attention").json()["counts"]["approval"] == 59
        again = client.post("/ui/inbox", data={**sixty, "result": "{"})
        assert "Approve 59 steps of 59 sagas?" in again.text
        for other in ({**form, "csrf": "x"}, {**form, "verb": "resolve"}, {**form, "kind": "x"}):
            assert client.post("/ui/inbox", data=other).status_code in (403, 422)


def test_unseen_sagas_are_not_approved(service: Served) -> None:
    """A form is for the sagas that it was shown with, as far as they still wait.

    It is not for others that have come to their group, also if it was sent before.
    """
    with service.client() as client:
        for key in ("seen-1", "seen-2"):
            start(client, "order", key)
            waits(client, key, "approval")
        question = question_page(client, "approval", "done", search="seen-").text
        assert "Approve 2 steps of 2 sagas?" in question
        form = {**hidden(question), "result": "1"}
        fraud = {"error": "fraud"}
        assert client.post("/v1/sagas/seen-1/steps/review/fail", json=fraud).status_code == 200
        start(client, "order", "seen-3")
        waits(client, "seen-3", "approval")
        done = client.post("/ui/inbox", data=form).text
        assert "1 done" in done and "1 of the entries that you saw had changed" in done, done
        assert client.get("/v1/sagas/seen-2").json()["states"]["review"] == "committed"
        gone = client.post("/ui/inbox", data=form)
        assert gone.status_code == 422 and "Nothing is selected" in gone.text
        assert client.get("/v1/sagas/seen-3").json()["states"]["review"] == "begun"
        client.post("/v1/sagas/seen-3/abort", json={})


def test_a_form_is_for_the_sagas_it_showed(service: Served) -> None:
    """An outcome is not reported of a step that a worker has again, nor once its next outcome is
    unknown: the form is shown again. If it is sent twice, it is executed once.
    """
    url = "/ui/sagas/hazy/steps/tour/failed"
    form = {"failed": "they have no booking"}
    with service.client() as client:
        start(client, "trip", "hazy")
        all_done(client, "trip/flight", "trip/car")
        (tour,) = take(client, "trip/tour")
        report(client, tour, "unknown", error="the line went dead")
        waits(client, "hazy", "unknown")
        old = {**hidden(client.get(url).text), **form}
        many = hidden(question_page(client, "unknown", "failed", search="hazy").text) | form
        retry = {**hidden(client.get(url.replace("failed", "retry")).text), "note": "it is up"}
        assert client.post(url.replace("failed", "retry"), data=retry).status_code == 303
        (tour,) = take(client, "trip/tour")
        again = client.post(url, data=old)
        assert again.status_code == 409 and "w claimed it" in again.text
        assert 'value="they have no booking"' in again.text
        report(client, tour, "unknown", error="the line went dead")
        waits(client, "hazy", "unknown")
        again = client.post(url, data=old)
        assert again.status_code == 409 and "unknown again" in again.text
        assert client.post("/ui/inbox", data=many).status_code == 422  # none of them waits
        assert client.get("/v1/sagas/hazy").json()["states"]["tour"] == "begun"
        undo = client.get("/ui/sagas/hazy/steps/car/failed?undo=true").text
        assert "The compensation fails permanently" in undo and "plan of least cost" not in undo
        now = hidden(again.text) | form
        assert client.post(url, data=now).status_code == 303
        deadline = time.monotonic() + LONG
        while client.get("/v1/sagas/hazy").json()["states"]["tour"] != "failed":
            assert time.monotonic() < deadline  # its second attempt is given up by then
        assert client.post(url, data=now).status_code == 303
        all_done(client, "trip/car/undo")
        assert client.get("/v1/sagas/hazy/wait?seconds=60").json()["states"]["tour"] == "failed"


def test_a_definition_s_page(service: Served) -> None:
    """It shows the number at each step, and the time of attempts.

    For a definition that the service does not have it lists the sagas.
    """
    with service.client() as client:
        page = client.get("/ui/definitions/licence").text
        assert "Share recovered" in page and "3 failed" in page
        assert client.get("/ui/definitions/order").text.count("for an operator") >= 2
        assert client.get("/ui/definitions/none").status_code == 404
        assert 'href="/ui/definitions/closed-shop"' in client.get("/ui/definitions").text
        assert "<option>closed-shop</option>" in client.get("/ui").text
        gone = client.get("/ui/definitions/closed-shop")
        assert gone.status_code == 200 and "does not have the definition" in gone.text
        assert "Cost of recoveries" in gone.text and "Start one" not in gone.text
        assert 'href="/ui/sagas?definition=closed-shop&amp;phase=completed">1</a>' in gone.text


STEP, UNDO, OTHER = ("a", "car", False), ("a", "car", True), ("b", "car", True)
QUESTIONS: list[tuple[str, list[Target], str, str]] = [
    ("failed", [STEP], "Fail 1 step of 1 saga?", "Each step fails"),
    ("failed", [UNDO], "Fail undoing 1 step of 1 saga?", "Each compensation fails"),
    ("failed", [STEP, OTHER], "Fail 2 steps of 2 sagas?", "Each step fails"),
    ("done", [STEP], "Complete 1 step of 1 saga?", "the sagas continue"),
    ("done", [UNDO, OTHER], "Complete undoing 2 steps of 2 sagas?", "the sagas continue"),
    ("retry", [UNDO], "Retry undoing 1 step of 1 saga?", "Each is called"),
    ("abort", [("a", "", False)], "Abort 1 saga?", "No further step starts"),
]


def test_questions_about_steps_and_compensations() -> None:
    """An operator who reports on a compensation is asked about that, and not about its step."""
    for verb, targets, title, text in QUESTIONS:
        dialog = confirmation_of("unknown", verb, targets).of(targets, verb)
        assert dialog["title"] == title and text in dialog["text"], dialog


def tabs(text: str) -> dict[str, int]:
    """Return the number of each kind, and which is shown."""
    tab_rows = re.findall(
        r'(aria-current="true")?>([A-Z][a-z ]+) <span class="pill[^>]*>(\d+)', text
    )
    return {("*" if shown else "") + name: int(count) for shown, name, count in tab_rows}


def test_a_filter_of_the_inbox(service: Served) -> None:
    """It shows the first kind that it selects from, and counts its matches. Each link keeps it."""
    with service.client() as client:
        start(client, "panel", "panel-1")
        deadline = time.monotonic() + LONG
        while len(client.get("/v1/sagas/panel-1").json()["waits"]) < APPROVALS:
            assert time.monotonic() < deadline
            time.sleep(0.02)
        page = client.get("/ui/sagas/panel-1").text
        (link,) = re.findall(r'5 more steps wait for an operator: see <a href="([^"]+)"', page)
        shown = client.get(html.unescape(link)).text
        assert shown.count(">panel-1<") >= 5
        for path in ("/ui?definition=panel", html.unescape(link)):
            counts = tabs(client.get(path).text)
            assert (counts["*Approvals"], counts["Stuck"]) == (APPROVALS, 0), path
        assert "Nothing matches the filter" in client.get("/ui?kind=stuck&search=panel").text
        question = question_page(client, "approval", "abort", search="panel").text
        assert "Abort 1 saga?" in question
        question = question_page(client, "approval", "done", search="panel").text
        assert "Approve 1 step of 1 saga?" in question  # each step has a group
        for query in ("search=oldest", "definition=oldest"):
            links = re.findall(r'href="(/ui\?[^"]+)"', client.get(f"/ui?{query}").text)
            assert links and all(query in link for link in links), links
        client.post("/v1/sagas/panel-1/abort", json={})


def test_a_small_screen(service: Served, tmp_path: pathlib.Path) -> None:
    """The first page is at most three screens of 360 by 900 long."""
    browser = Browser(service, tmp_path)
    try:
        browser.size(360)
        browser.go("/ui")
        browser.shot("inbox-360")
        assert browser.driver.execute_script("return document.documentElement.scrollHeight") <= 2700
    finally:
        browser.driver.quit()
