"""The page in a real browser: examples, faults, clicks, keys, hostile texts, widths and colors."""

from __future__ import annotations

import http.server
import json
import os
import random
import sys
import threading
from collections.abc import Iterator
from pathlib import Path

import pytest
from browsers import Chromium
from selenium.webdriver.common.keys import Keys

TOP = Path(__file__).resolve().parent.parent.parent
sys.path[:0] = [str(TOP / "tests"), str(TOP / "tests" / "library"), str(TOP / "python" / "src")]

import making  # noqa: E402
import same  # noqa: E402
from sagas.engine import library  # noqa: E402

PAGE = TOP / "dist" / "sagas.html"
PICTURES = Path(os.environ.get("PAGE_PICTURES") or TOP / "out" / "page")
TRIP = (TOP / "examples" / "trip.toml").read_text()
TRIP_CASE = (TOP / "examples" / "trip.case.json").read_text().strip()
TRIP_ANSWER = (TOP / "examples" / "trip.answer.json").read_text().strip()
HOSTILE = (
    "<img src=x onerror=\"document.title='broken'\"></script>"
    '<script>document.title="broken"</script>'
)


@pytest.fixture(scope="session")
def browser() -> Iterator[Chromium]:
    """One browser for all tests."""
    made = Chromium()
    yield made
    made.close()


class Quiet(http.server.SimpleHTTPRequestHandler):
    """A server of dist/ without a log."""

    requested: list[str] = []

    def __init__(self, *arguments: object, **more: object) -> None:
        super().__init__(*arguments, directory=str(PAGE.parent), **more)  # type: ignore[arg-type]

    def do_GET(self) -> None:
        self.requested.append(self.path)
        super().do_GET()

    def log_message(self, *_: object) -> None:
        pass


@pytest.fixture(scope="session")
def served() -> Iterator[str]:
    """The address of the page at a server."""
    server = http.server.ThreadingHTTPServer(("127.0.0.1", 0), Quiet)
    thread = threading.Thread(target=server.serve_forever)
    thread.start()
    yield f"http://127.0.0.1:{server.server_port}/{PAGE.name}"
    server.shutdown()
    thread.join()
    server.server_close()


@pytest.fixture
def page(browser: Chromium) -> Iterator[Chromium]:
    """The page, opened from the disk. At the end the log is empty, and the title unchanged."""
    browser.look(1280, False)
    browser.open(PAGE.as_uri())
    browser.new_log()
    yield browser
    assert browser.new_log() == []
    assert browser.driver.title == "sagas: recovery planner"


EXAMPLES: list[tuple[str, int, str, str, int, list[str]]] = [
    (
        "plan",
        0,
        "good",
        "Plan of minimum cost 38: keep flight, car",
        2,
        ["keep", "keep", "skip", "skip"],
    ),
    (
        "plan",
        1,
        "good",
        "Plan of minimum cost 8: keep nothing; undo reserve, charge, pack",
        0,
        ["undo", "undo", "undo", "skip"],
    ),
    (
        "plan",
        2,
        "good",
        "Plan of minimum cost 20: keep machine, disk",
        2,
        ["keep", "keep", "skip", "skip"],
    ),
    ("plan", 3, "no", "No plan is feasible", 2, ["", ""]),
    (
        "judge",
        0,
        "good",
        "Valid: a plan of minimum cost 38: keep flight, car",
        2,
        ["keep", "keep", "skip", "skip"],
    ),
    ("judge", 3, "no", "Valid: no plan is feasible", 2, ["", ""]),
    ("judge", 4, "no", "This certificate is not valid", 0, ["", "", "", ""]),
    ("audit", 0, "good", "Valid: every event was allowed", 0, []),
    ("audit", 1, "no", "Invalid: event 2, in line 4, was not allowed", 0, []),
    ("audit", 2, "bad", "The log cannot be read", 0, []),
    ("replay", 0, "good", "The saga adopts a plan", 2, ["keep", "keep", "skip", "skip"]),
]


@pytest.mark.parametrize("way", ["disk", "server"])
def test_examples(page: Chromium, served: str, way: str) -> None:
    if way == "server":
        page.open(served)
    for mode, example, kind, verdict, marked, shall in EXAMPLES:
        page_state = page.show(mode, example)
        assert (page_state["kind"], page_state["verdict"], page_state["shall"]) == (
            kind,
            verdict,
            shall,
        )
        assert mode == "audit" or (page_state["marked"], page_state["nodes"]) == (
            marked,
            len(shall),
        )
    assert set(Quiet.requested) <= {f"/{PAGE.name}"}


def test_the_certificate_is_the_programs(page: Chromium) -> None:
    assert page.show("plan", 0)["text"] == TRIP_ANSWER
    judged = page.change("document.getElementById('judge').click()")
    assert judged["verdict"].startswith("Valid: a plan of minimum cost 38")
    page.show("plan", 0)
    page.run("document.getElementById('copy').click()")
    assert page.until("return document.getElementById('copied').textContent").startswith(
        "The certificate is"
    )


FAULTS = [
    ({"definition": "name"}, "definition", "sagas: definition: not-toml"),
    ({"definition": "", "case": ""}, "definition", "sagas: definition: bad-format"),
    (
        {"definition": TRIP + '[[step]]\nname = "x"\nneeds = ["x"]\n'},
        "definition",
        "sagas: definition: cycle",
    ),
    ({"definition": TRIP.replace("car", "c\u00e4r")}, "definition", "sagas: definition: bad-name"),
    ({"definition": TRIP.replace("trip", HOSTILE)}, "definition", "sagas: definition: not-toml"),
    (
        {"definition": f"format = 1\nname = 't'\nstep = [{{ name = {json.dumps(HOSTILE)} }}]"},
        "definition",
        "sagas: definition: bad-name",
    ),
    ({"case": "{"}, "case", "sagas: case: not-json"),
    ({"case": HOSTILE}, "case", "sagas: case: not-json"),
    ({"case": '{"states":["failed"]}'}, "case", "sagas: case: wrong-length"),
    ({"case": TRIP_CASE.replace("failed", "running")}, "case", "sagas: case: busy 2"),
]


@pytest.mark.parametrize(
    ("texts", "field", "line"),
    FAULTS,
    ids=[f"{field} {number}" for number, (_, field, _) in enumerate(FAULTS)],
)
def test_faults_are_shown_at_their_field(
    page: Chromium, texts: dict[str, str], field: str, line: str
) -> None:
    page.show("plan", 0)
    page_state = page.put(texts)
    assert (page_state["kind"], page_state["faults"], page_state["checked"]) == (
        "bad",
        [field],
        line,
    )
    assert len(page_state["fault"]) > 20
    # If the definition is right, its steps remain visible, and a click repairs the case.
    if field == "case":
        assert page_state["nodes"] == 4
        repaired = page.change("document.getElementById('waiting').click()")
        assert json.loads(repaired["case"])["states"] == ["waiting"] * 4
        assert repaired["kind"] == "good"


def test_a_pasted_definition_is_planned_at_once(page: Chromium) -> None:
    """Its steps are waiting. A case that was typed for it stays, also if it is wrong."""
    page.show("plan", 0)
    pasted = page.put({"definition": 'format = 1\nname = "other"\n[[step]]\nname = "one"\n'})
    assert (json.loads(pasted["case"]), pasted["nodes"]) == ({"states": ["waiting"]}, 1)
    assert pasted["verdict"].startswith("Plan of minimum cost 0")
    assert json.loads(page.put({"case": " "})["case"]) == {"states": ["waiting"]}
    assert page.put({"case": '{"states":[]}'})["checked"] == "sagas: case: wrong-length"


def test_a_line_that_is_no_toml_is_named(page: Chromium) -> None:
    """The first one is named, also after a list of several lines and in a second definition.

    A repeated key is named too. The selection of the user does not change.
    """
    page.show("plan", 0)
    several = TRIP.replace('needs = ["flight"]', 'needs = [\n  "flight",\n]')
    for text, wrong in (
        (TRIP, "undo = five"),
        (several, "undo = five"),
        (several, "keep = 3\nkeep = 4"),
        (TRIP, "undo = "),
    ):
        text = text.replace("keep = 3" if "keep" in wrong else "undo = 5", wrong)
        line = wrong.split("\n")[-1]
        page_state = page.put({"definition": text})
        assert (
            page_state["checked"] == "sagas: definition: not-toml"
            and f"line {text.split(chr(10)).index(line) + 1}:" in page_state["remedy"]
        ), page_state
        assert page_state["fault"].endswith(f": {line}")
    page.run(
        "const it = document.getElementById('definition'); it.focus(); it.setSelectionRange(7, 7)"
    )
    page.change("document.getElementById('definition').dispatchEvent(new Event('input'))")
    assert page.run("return document.getElementById('definition').selectionEnd") == 7
    page.show("audit", 0)
    page_state = page.put({"definition": TRIP + "---\n" + TRIP.replace("undo = 5", "undo = five")})
    assert (
        f"line {2 + TRIP.count(chr(10)) + TRIP.split(chr(10)).index('undo = 5')}:"
        in page_state["remedy"]
    ), page_state


WRONG = [
    ("undo = 5", "undo = 5\nundoo = 5", "undoo = 5", "unknown-key"),
    ("undo = 5", "undo = 'five'", "undo = 'five'", "bad-type"),
    ("undo = 5", "undo = 2000000000", "undo = 2000000000", "price-too-large"),
    ("undo = 5", "undo = 5\ntries = 10", "tries = 10", "tries-out-of-range"),
    ('name = "car"', 'name = "a car"', 'name = "a car"', "bad-name"),
    ('name = "car"', 'name = "flight"', 'name = "flight"', "double-name"),
    ('name = "car"\n', "", "[[step]]", "missing-key"),
    ('needs = ["flight"]', 'needs = ["flght"]', 'needs = ["flght"]', "unknown-step"),
    ('needs = ["flight"]', 'needs = [\n"flight", "flight",\n]', "needs = [", "double-need"),
    ('needs = ["flight"]', 'needs = ["car"]', 'needs = ["car"]', "cycle"),
    ("format = 2", "format = 7", "format = 7", "bad-format"),
]


@pytest.mark.parametrize(("good", "wrong", "line", "word"), WRONG, ids=[row[3] for row in WRONG])
def test_the_line_of_an_error_is_named(
    page: Chromium, good: str, wrong: str, line: str, word: str
) -> None:
    page.show("plan", 0)
    start = TRIP.index(good)
    text = TRIP[:start] + wrong + TRIP[start + len(good) :]
    at = text.rindex(line, 0, start) if line == "[[step]]" else text.index(line, start)
    number = text[:at].count("\n") + 1
    page_state = page.put({"definition": text})
    assert page_state["checked"] == f"sagas: definition: {word}"
    assert page_state["verdict"] == f"The definition cannot be read: line {number}", text
    shown = text.split("\n")[number - 1]
    assert page_state["fault"].endswith(f"{number}: {shown}")
    selected = "const it = document.getElementById('definition');"
    selected += "return it.value.slice(it.selectionStart, it.selectionEnd)"
    assert page.run(selected) == shown


def test_faults_of_certificates_and_logs(page: Chromium) -> None:
    page.show("judge", 0)
    for answer, kind, checked in (
        ("[]", "bad", "sagas: answer: kind"),
        (HOSTILE, "bad", "sagas: answer: not-json"),
        (TRIP_ANSWER.replace("[0,1]", "[0]", 1), "no", "Verified here"),
    ):
        page_state = page.put({"answer": answer})
        assert (page_state["kind"], page_state["faults"]) == (kind, ["answer"]) and page_state[
            "checked"
        ].startswith(checked)
    page.show("audit", 0)
    page_state = page.put({"log": '{"format":2}\n{}\n'})
    assert (page_state["kind"], page_state["faults"], page_state["checked"]) == (
        "bad",
        ["log"],
        "sagas: log: line 2: kind",
    ) and "2: {}" in page_state["fault"]
    page_state = page.put({"definition": TRIP + "---\nname"})
    assert page_state["checked"] == "sagas: log: line 2: kind"
    page_state = page.put({"log": ""})
    assert (page_state["faults"], page_state["checked"]) == (
        ["definition"],
        "sagas: definition 1: not-toml",
    )
    page_state = page.put({"definition": TRIP + "---\n" + TRIP})
    assert page_state["verdict"].startswith("Valid")


def test_states_by_clicks_and_keys(page: Chromium) -> None:
    page.show("plan", 0)
    page_state = page.change(
        "document.querySelector('[data-step=\"2\"]')"
        ".dispatchEvent(new MouseEvent('click', { bubbles: true }))"
    )
    assert json.loads(page_state["case"])["states"] == [
        "committed",
        "committed",
        "undone",
        "waiting",
    ]
    page.run("document.querySelector('.node[data-step=\"1\"]').focus()")
    before = page.run("return document.body.dataset.rounds")
    page.driver.switch_to.active_element.send_keys(Keys.ENTER)
    page.until("return document.body.dataset.rounds !== arguments[0]", before)
    assert json.loads(page.shown()["case"])["states"] == [
        "committed",
        "failed",
        "undone",
        "waiting",
    ]
    assert page.run("return document.activeElement.dataset.step") == "1"
    page_state = page.change(
        "const it = document.querySelector('select[data-step=\"0\"]'); it.value = 'waiting';"
        "it.dispatchEvent(new Event('change'))"
    )
    assert json.loads(page_state["case"])["states"] == ["waiting", "failed", "undone", "waiting"]
    page_state = page.change("document.getElementById('aborted').click()")
    assert json.loads(page_state["case"]) == {
        "aborted": True,
        "states": ["waiting", "failed", "undone", "waiting"],
    }
    assert page_state["shall"] == ["skip"] * 4


def prices(page: Chromium) -> list[list[str]]:
    """The costs to keep and to drop each step, and the reason."""
    rows: list[list[str]] = page.run(
        "return [...document.querySelectorAll('#steps tbody tr')].map(row =>"
        " [row.cells[2], row.cells[3], row.cells[6]].map(cell => cell.textContent))"
    )
    return rows


NEEDED = """format = 1
name = "needed"
step = [{ name = "a", undo = 5, skip = "never", keep = 9 }, { name = "b", needs = ["a"] }]
"""
VOID_LOG = """{"format":2}
{"def":0,"event":"open","saga":0}
{"event":"start_run","saga":0,"step":0}
{"event":"void","saga":0,"step":0}
{"event":"start_run","saga":0,"step":1}
{"event":"fail","saga":0,"step":1}
{"event":"start_plan","saga":0}
"""
ADOPTED = (
    '{"answer":{"cost":0,"kept":[0],"kind":"plan","leave":[0,0],"links":[0],"stand":[0,0]},'
    '"event":"adopt","saga":0}\n'
)


def test_a_step_without_an_effect(page: Chromium) -> None:
    """It costs nothing, in a plan and in the replay of a log. It may have to stay."""
    page.show("plan", 0)
    page_state = page.change(
        "const it = document.querySelector('select[data-step=\"1\"]'); it.value = 'void';"
        "it.dispatchEvent(new Event('change'))"
    )
    assert json.loads(page_state["case"])["states"][1] == "void"
    assert page_state["kind"] == "good" and prices(page)[1][:2] == ["0", "0"]
    state = "document.querySelector('.node[data-step=\"1\"] text.line').textContent"
    assert page.run(f"return {state}") == "without effect"
    page.change(
        "document.querySelector('.node[data-step=\"1\"]')"
        ".dispatchEvent(new MouseEvent('click', { bubbles: true }))"
    )
    assert json.loads(page.shown()["case"])["states"][1] == "waiting", "it is the last state"
    page_state = page.put({"definition": NEEDED, "case": '{"states":["void","failed"]}'})
    assert page_state["verdict"] == "Plan of minimum cost 0: keep a"
    assert page_state["shall"] == ["keep", "skip"]
    assert prices(page) == [["0", "never", "it is mandatory"], ["never", "0", "it has failed"]]
    page.show("replay", 0)
    page.put({"definition": NEEDED, "log": VOID_LOG + ADOPTED})
    assert moment(page) == ("6 of 6", "The saga adopts a plan", ["without effect", "failed"])
    page.change("document.querySelectorAll('#events button')[2].click()")
    assert moment(page) == ("2 of 6", "A ends without an effect", ["without effect", "waiting"])
    assert otherwise(page) == ["not possible", "0"]


def moment(page: Chromium) -> tuple[str, str, list[str]]:
    """The number of the event that is shown, its words, and the states of the steps."""
    return tuple(
        page.run(
            """return [
        document.getElementById('count').textContent,
        document.getElementById('verdict').textContent,
        [...document.querySelectorAll('#steps td.is')].map(cell => cell.textContent)]"""
        )
    )


def otherwise(page: Chromium) -> list[str]:
    """The costs of the other decisions, once all are computed."""
    cells = "[...document.querySelectorAll('#steps td.otherwise')].map(cell => cell.textContent)"
    page.until(f"return {cells}.every(text => text)")
    texts: list[str] = page.run(f"return {cells}")
    return texts


def test_a_log_is_replayed_event_by_event(page: Chromium) -> None:
    """By the buttons, the slider, the list and the keys; with the costs of other decisions."""
    page.show("replay", 0)
    done = ["done", "done", "failed", "waiting"]
    assert moment(page) == ("12 of 12", "The saga adopts a plan", done)
    assert otherwise(page) == ["not possible", "40", "not possible", "not possible"]
    page.change("document.getElementById('first').click()")
    assert moment(page) == ("0 of 12", "The saga is opened", ["waiting"] * 4)
    page.change(
        "const it = document.getElementById('moment'); it.value = '5';"
        "it.dispatchEvent(new Event('input'))"
    )
    assert moment(page) == ("5 of 12", "Hotel starts", ["done", "done", "running", "waiting"])
    assert otherwise(page) == ["not possible", "15", "38", "33"]
    page.run("document.activeElement.blur()")
    for key, count in ((Keys.ARROW_LEFT, 4), (Keys.END, 12), (Keys.ARROW_RIGHT, 12)):
        before = page.run("return document.body.dataset.rounds")
        page.driver.switch_to.active_element.send_keys(key)
        page.until("return document.body.dataset.rounds !== arguments[0]", before)
        assert moment(page)[0] == f"{count} of 12"
    page.change("document.querySelectorAll('#events button')[2].click()")
    assert moment(page)[1] == "Flight is done"
    cut = (TOP / "examples" / "trip.log").read_text().replace('"event":"commit"', '"event":"fail"')
    page.put({"log": cut})
    assert moment(page)[:2] == ("2 of 2", "Flight has failed"), "the next event is not allowed"


def test_an_export_is_dropped_and_linked(page: Chromium, served: str) -> None:
    """A link has the export and the moment, and another browser shows the same."""
    log = (TOP / "examples" / "trip.log").read_text()
    drop = (
        "const data = new DataTransfer(); data.items.add(new File([arguments[0]], 'saga.json'));"
        "document.body.dispatchEvent("
        "new DragEvent('drop', { dataTransfer: data, bubbles: true, cancelable: true }))"
    )
    page.show("plan", 1)
    page.change(drop, json.dumps({"export": 1, "key": "x", "definition": TRIP, "log": log}))
    page.until("return document.getElementById('count').textContent === '12 of 12'")
    page.change("document.getElementById('previous').click()")
    page.run("document.getElementById('link').click()")
    page.until("return document.getElementById('link').textContent !== 'Copy link'")
    link = page.run("return location.hash")
    assert link.endswith("&moment=11") and len(link) > 500
    page.go("about:blank")
    page.open(served + link)
    assert moment(page) == (
        "11 of 12",
        "The saga is planned",
        ["done", "done", "failed", "waiting"],
    )
    assert all("replay" not in path for path in Quiet.requested)
    for wrong in ("[]", "{", json.dumps({"definition": TRIP}), HOSTILE):
        page_state = page.change(drop, wrong)
        assert (page_state["faults"], page_state["verdict"]) == (
            ["export"],
            "The export cannot be read",
        )
    page.change(drop, json.dumps({"definition": TRIP, "log": HOSTILE}))
    page.until("return document.getElementById('verdict').textContent === 'The log cannot be read'")
    page.go("about:blank")
    page.open(served + "#replay=%ff&moment=x")
    assert page.shown()["verdict"] == "The export cannot be read"


def test_by_the_keyboard_alone(page: Chromium) -> None:
    page.show("plan", 0)
    page.run("document.activeElement.blur()")
    seen = []
    for _ in range(40):
        page.driver.switch_to.active_element.send_keys(Keys.TAB)
        seen.append(
            page.run(
                "const it = document.activeElement;"
                "return it.id || it.name || it.dataset.step || it.tagName"
            )
        )
        if seen[-1] == "judge":
            break
    for wanted in (
        "mode",
        "example",
        "definition",
        "case",
        "aborted",
        "waiting",
        "0",
        "3",
        "copy",
        "judge",
    ):
        assert wanted in seen, seen
    page.run("document.querySelector('input[name=mode]:checked').focus()")
    before = page.run("return document.body.dataset.rounds")
    page.driver.switch_to.active_element.send_keys(Keys.ARROW_RIGHT)
    page.until("return document.body.dataset.rounds !== arguments[0]", before)
    assert page.run("return document.body.dataset.mode") == "judge"


def test_names_for_readers(page: Chromium) -> None:
    for mode in ("plan", "judge", "audit"):
        page.show(mode, 0)
        unnamed = page.run(
            """const named = 'button, select, textarea, input, [tabindex="0"], table, section';
            return [...document.querySelectorAll(named)].filter(it => it.getClientRects().length)
              .filter(it => !(it.getAttribute('aria-label') || it.labels?.length
                || it.textContent.trim()))
              .map(it => it.outerHTML.slice(0, 80));"""
        )
        assert unnamed == []
    assert page.run(
        "const it = document.getElementById('told');"
        "return [it.getAttribute('role'), it.getAttribute('aria-live')]"
    ) == ["status", "polite"]


def test_the_programs_bytes(page: Chromium) -> None:
    library_path = library.path()
    loaded = library.loaded(library_path) if library_path else None
    assert loaded is not None
    questions: list[same.Question] = []
    for number in range(int(os.environ.get("PAGE_SAGAS", "75"))):
        questions += same.at_random(random.Random(f"page {number}"), loaded)
    long = b" " * (1 << 20) + b"x"
    questions += [
        ("plan", [b"", b""]),
        ("plan", [b"\xff\0", b"{}"]),
        ("draw", [long]),
        ("check", [b"format=1", long, long]),
        ("audit_all", [b"\0\n\xff", b""]),
    ]
    questions += [
        ("plan", [TRIP.encode(), b"[" * 100000]),
        ("plan", [TRIP.encode(), b'{"states":[' + b"0," * 300000 + b"0]}"]),
        ("audit_all", [b"", *[b""] * 65]),
    ]
    assert page.calls(questions) == [same.by_program(question) for question in questions]


def test_costs_and_reasons(page: Chromium) -> None:
    page.show("plan", 0)
    plans = 0
    for number in range(30):
        chance = random.Random(f"costs {number}")
        definition, count = same.definition(chance)
        page_state = page.put({"definition": definition, "case": same.case(chance, count)})
        costs, reasons = (
            page.run(
                "return [...document.querySelectorAll(arguments[0])].map(it => it.textContent)",
                selector,
            )
            for selector in ("#steps td.price.taken", "#steps td.why")
        )
        if page_state["kind"] == "good":
            plans += 1
            cost = (
                page_state["checked"]
                .removeprefix("Planned, then verified here by the proved checker: least ")
                .rstrip(".")
            )
            assert sum(int(part.replace(",", "")) for part in costs) == int(cost)
            assert len(reasons) == count and all(reasons)
    assert plans > 5


def test_the_longest_texts(page: Chromium) -> None:
    page_state = page.run_async(
        """const [definition, done] = arguments;
        (async () => { const replies = [];
          for (const size of [67108865, 67108864]) {
            const reply = await call('plan', [bytes_of(definition), new Uint8Array(size)]);
            replies.push(text_of(reply.bytes) + (reply.error || ''));
          }
          const reply = await call('draw', [bytes_of(definition)]);
          replies.push(reply.status);
          return replies; })().then(done, error => done(String(error)));""",
        TRIP,
    )
    assert page_state == ["sagas: case: too-long\n", "sagas: case: not-json\n", 0]


def test_a_saga_of_1024_steps(page: Chromium) -> None:
    page.show("plan", 0)
    definition, case = making.named("s0", 8192), making.states(1024, "committed", "failed")
    page_state = page.put({"definition": definition, "case": case})
    assert page_state["kind"] == "good" and page_state["rows"] == 100 and page_state["nodes"] == 0
    page.run("document.getElementById('all').click()")
    assert page.shown()["rows"] == 1024
    took = page.run_async(
        """const done = arguments[0];
        (async () => { let best = Infinity;
          for (let i = 0; i < 10; i++) {
            const began = performance.now();
            await call('plan', [given('definition'), given('case')]);
            best = Math.min(best, performance.now() - began);
          }
          return best; })().then(done);"""
    )
    print(f"a plan of 1,024 steps and 8,192 needs: {took:.0f} ms at best of ten")
    page.run("document.getElementById('draw').click()")
    assert page.shown()["nodes"] == 1024


def test_a_browser_that_cannot(browser: Chromium) -> None:
    for script, why in (
        ("delete window.WebAssembly;", "WebAssembly"),
        (
            "WebAssembly.compile = async () => { throw new WebAssembly.CompileError('unknown'); };",
            "unknown",
        ),
    ):
        added = browser.command("Page.addScriptToEvaluateOnNewDocument", source=script)
        try:
            browser.open(PAGE.as_uri())
            page_state = browser.shown()
            assert (page_state["kind"], page_state["verdict"]) == (
                "bad",
                "This browser cannot run the page",
            )
            assert why in page_state["checked"] and "Safari 15" in page_state["remedy"]
        finally:
            browser.command(
                "Page.removeScriptToEvaluateOnNewDocument", identifier=added["identifier"]
            )


@pytest.mark.parametrize("width", [360, 1280])
@pytest.mark.parametrize("is_dark", [False, True], ids=["light", "dark"])
def test_looks(page: Chromium, width: int, is_dark: bool) -> None:
    page.look(width, is_dark)
    PICTURES.mkdir(parents=True, exist_ok=True)
    for mode, example in (("plan", 0), ("plan", 3), ("judge", 4), ("audit", 1)):
        page.show(mode, example)
        assert page.run("return document.documentElement.scrollWidth") <= width
        page.picture(PICTURES / f"{width}-{'dark' if is_dark else 'light'}-{mode}-{example}.png")
    ground = page.run(
        "return getComputedStyle(document.body).backgroundColor.match(/\\d+/g).map(Number)"
    )
    assert (max(ground) < 80) == is_dark
