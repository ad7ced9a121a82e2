"""The dashboard folds the items of a step, and included sagas, and unfolds them by its address."""

from __future__ import annotations

import asyncio
import contextlib
import html
import pathlib
import re
import threading
import time
import tomllib
from collections.abc import Iterator
from typing import Any

import httpx
import pytest
import shaped
from hypothesis import given, settings, strategies as st
from selenium.webdriver.common.by import By
from serving import Served, served, start, take
from shaped import Hotel, Package, Trip, parcels
from test_service_page import CONTRAST, Browser
from test_service_workers import ONE_STEP

import sagas
from sagas.cli.store_command import main
from sagas.definition.drawing import ALL, Groups
from sagas.inspection import layout, picture, saga as one_saga
from sagas.inspection.picture import MAX_ITEMS, StepDisplay, boxes_of
from sagas.inspection.question import StoreReader
from sagas.inspection.views import SagaView
from sagas.server.auth import Principal
from sagas.server import declared_steps, json_views
from sagas.server.routes import saga_pages
from sagas.server.table_rows import FEW

DONE = StepDisplay("done", "", False, "committed", "committed")
FAILED = StepDisplay("failed", "no", False, "failed", "failed")
INPUT = Trip(Package(Hotel("Rome", ["a", "b"], True), ["vw", "bmw"]))
SHOP = pathlib.Path(__file__).with_name("unfolding_shop.py")


def steps_of(text: str) -> list[tuple[str, list[str]]]:
    """Return the names and needs of a definition's steps."""
    matches = re.findall(r'name = "(\S+)"\n# of .*\n(?:needs = \[(.*)\]\n)?', text)
    return [(name, re.findall(r'"([^"]+)"', needs)) for name, needs in matches]


def test_the_groups_of_a_definition() -> None:
    """Inclusions two deep, an inclusion for each item, and items; a single one is not a group."""
    groups = Groups.read(shaped.trip.toml(INPUT))
    titles = {name: group.title for name, group in groups.by_name.items()}
    assert titles == {
        "p": "p: 7 steps",
        "p/hotel": "p/hotel: 5 steps",
        "p/car": "p/car ×2",
        "p/hotel/room": "p/hotel/room ×2",
    }

    def shown(*unfold: str) -> list[Any]:
        blocks = groups.blocks(len(groups.origins), unfold)
        return [block.group.name if block.group else block.steps[0] for block in blocks]

    assert shown() == [0, "p", 8]
    assert shown("p") == [0, "p/hotel", "p/car", 8] == shown("p", "nobody")
    assert shown("p", "p/hotel", "p/car") == [0, 1, "p/hotel/room", 4, 5, 6, 7, 8]
    assert shown(ALL) == [*range(9)]
    row = Groups.read(shaped.order.toml(parcels(1)))
    assert row.by_name == {} and len(row.origins) == 4
    assert Groups.read(shaped.plain.toml()).origins == []


def test_inserted_steps_are_not_items() -> None:
    """A step that the package puts after a fan-out is drawn with it, and is not counted."""
    saga = sagas.Saga("wide")
    first = saga.step(name="first", for_each="n", undo=0)(lambda task: 1)
    saga.step(name="second", for_each="n", needs=[first], undo=0)(lambda task: 1)
    groups = Groups.read(saga.toml({"n": [1] * 40}))
    assert "first--all" in saga.toml({"n": [1] * 40})
    assert groups.by_name["first"].title == "first ×40"
    blocks = groups.blocks(len(groups.origins), ())
    assert [len(block.steps) for block in blocks] == [41, 40]


@settings(max_examples=50, deadline=None)
@given(st.sets(st.sampled_from(["p", "p/hotel", "p/car", "p/hotel/room"])), st.integers(0, 30))
def test_a_picture_has_no_circle(unfold: set[str], rooms: int) -> None:
    """Whatever is unfolded, each step is in one box, and the boxes have an order."""
    text = shaped.trip.toml(Trip(Package(Hotel("Rome", ["a"] * rooms, True), ["vw", "bmw"])))
    steps, groups = steps_of(text), Groups.read(text)
    displays = [FAILED if index % 5 == 3 else DONE for index in range(len(steps))]
    shown = boxes_of(groups.blocks(len(steps), unfold), [name for name, _ in steps], displays)
    assert sorted(step for box in shown for step in box.steps) == [*range(len(steps))]
    needs, over = picture.needs_of(steps, shown), set[int]()
    while len(over) < len(shown):
        free = {index for index, some in enumerate(needs) if over.issuperset(some)} - over
        assert free
        over |= free
    assert len(layout.layers_of(needs)) == len(shown)
    assert "<svg" in picture.drawn(steps, shown, "")


def test_the_boxes_of_items() -> None:
    """A group has counts; of its items the urgent ones are drawn, and the others as one."""
    text = shaped.order.toml(parcels(50))
    names, groups = [name for name, _ in steps_of(text)], Groups.read(text)
    displays = [FAILED if name in ("ship-7", "ship-49") else DONE for name in names]
    folded = boxes_of(groups.blocks(len(names), ()), names, displays)
    assert [(box.title, box.display.state, box.display.why) for box in folded] == [
        ("reserve", "done", ""),
        ("ship ×50", "2 failed", "48 done"),
        ("label ×50", "50 done", ""),
        ("mail", "done", ""),
    ]
    items = boxes_of(groups.blocks(len(names), {"ship"}), names, displays)
    titles = [box.title for box in items]
    assert {"ship-7", "ship-49", "ship: 38 more", "label ×50"} <= {*titles}
    assert len(titles) == MAX_ITEMS + 4


def test_drawings_for_graphviz(tmp_path: pathlib.Path, capsys: Any) -> None:
    """Of a definition, and of a saga with its plan, also by the command; each may be unfolded."""
    value = parcels(4, 1)
    assert '  "ship" [shape=box label="ship ×4\\nundo 10"];' in shaped.order.draw(value)
    assert '  "mail" -> "label";' in shaped.order.draw(value)
    whole = shaped.order.draw(value, unfold=["*"])
    assert '"ship-3"' in whole and '"ship"' not in whole
    location = str(tmp_path / "store.db")
    with sagas.open_sync(location, [shaped.order]) as store:
        assert store.start(shaped.order, "k", value).wait().phase == "recovered"
        assert r'label="ship ×4\n3 committed, kept\n1 failed\nundo 10"' in store.draw("k")
        some = store.draw("k", unfold=["ship"])
        assert '  "ship-1" [shape=octagon' in some and '  "label" -> "ship-1";' in some
        plan = store.plan("k")
        assert plan and plan.draw() == store.draw("k")
        assert store.start(shaped.order, "good", parcels(2)).wait().ok
        assert 'label="ship ×2\\nundo 10"' in store.draw("good")

    def command(*arguments: str) -> str:
        assert main([location, "draw", "k", *arguments]) == 0
        return str(capsys.readouterr().out)

    assert command() == plan.draw()
    assert command("--unfold", "ship") == some
    assert command("--unfold", "*") == plan.draw(unfold="*")
    assert "ship ×4" in command("--svg") and "ship-1" not in command("--svg")
    assert "ship-1" in command("--svg", "--unfold", "ship", "--unfold", "label")


def test_declared_steps() -> None:
    """Also of a saga whose steps come from its input: names, needs, and costs that come from it."""
    by_name = {step.name: step for step in declared_steps.of(shaped.trip)}
    assert by_name["p/hotel/room"].needs == ["p/hotel/book"] and by_name["p/hotel/room"].for_each
    assert by_name["p/car/take"].needs == ["p/hotel/confirm"]
    assert by_name["tour"].needs == ["p/car/take"] and not by_name["tour"].for_each
    assert by_name["p/hotel/breakfast"].note == "for some inputs"
    costs = {step.name: step.costs for step in declared_steps.of(shaped.order)}
    assert costs["ship"] == {"run": 0, "undo": 10, "skip": 0, "keep": "input"}
    assert costs["mail"]["skip"] == "input" and costs["reserve"]["keep"] == 0


def test_a_definition_is_read_once(tmp_path: pathlib.Path, monkeypatch: pytest.MonkeyPatch) -> None:
    """For the steps, the attempts, the plan and the picture of a page, however many need it."""
    loads, texts = tomllib.loads, list[str]()

    def counted(text: str) -> dict[str, Any]:
        texts.append(text)
        return loads(text)

    async def main() -> SagaView | None:
        async with sagas.open(str(tmp_path / "store.db"), [shaped.order]) as store:
            await store.start(shaped.order, "k", parcels(5, 2))
            assert (await store.wait("k")).phase == "recovered"
            with contextlib.closing(StoreReader(store._reader())) as looks:
                monkeypatch.setattr(tomllib, "loads", counted)
                return looks.ask(one_saga.view("k"))

    view = asyncio.run(main())
    assert view and view.plan
    page = saga_pages.template_values(
        view, Principal("ann", frozenset({"operator"})), lambda name, text: set(), time.time(), "*"
    )
    assert [*page["choices"]] == [step.name for step in view.steps] and page["attempts"].shown
    assert json_views.timeline(view, time.time())["attempts"]
    assert len(texts) <= 1


# -- in a service


@pytest.fixture(scope="module")
def shots(tmp_path_factory: pytest.TempPathFactory) -> pathlib.Path:
    return tmp_path_factory.mktemp("unfolding")


@pytest.fixture(scope="module")
def service(shots: pathlib.Path) -> Iterator[Served]:
    (shots / "shop.py").write_text(SHOP.read_text())
    with served(shots, {"one.toml": ONE_STEP}, "--app", "shop:store") as service:
        with service.client() as client:
            for count in (0, 1, 3, 50, 500):
                parcels: Any = [f"t{number}" for number in range(count)]
                if count == 50:
                    parcels = {f"key {number}/é": to for number, to in enumerate(parcels)}
                    parcels["key 7/é"] = parcels["key 9/é"] = "nowhere"
                start(client, "order", f"of-{count}", {"parcels": parcels})
            start(client, "trip", "trip", {"stays": [{"rooms": ["a", "b"]}, {"rooms": ["c"]}]})
            for count in (0, 1, 3, 500):
                take(client, "order/mail")
            assert client.get("/v1/sagas/of-50/wait?seconds=60").json()["phase"] == "recovered"
            assert client.get("/v1/sagas/trip/wait?seconds=60").json()["phase"] == "completed"
        yield service


def rows(text: str, table: str = "Steps") -> list[tuple[str, str]]:
    """Return the first two cells of the visible rows of a table."""
    part = text[text.index(f'aria-label="{table}"') :]
    part = part[: part.index("</table>")]
    matches = re.findall(r'<th scope="row"[^>]*>(.*?)</th><td>(.*?)</td>', part, re.S)
    plain = [tuple(html.unescape(re.sub(r"<[^>]*>", "", cell)) for cell in row) for row in matches]
    return [(name, state) for name, state in plain]


def page(client: httpx.Client, path: str) -> str:
    answer = client.get(path)
    assert answer.status_code == 200
    return answer.text


@pytest.mark.parametrize(
    ("count", "wanted"),
    [
        (0, []),
        (1, [("ship-0 index 0", "done")]),
        (3, [("ship ×3", "3 done")]),
        (50, [("ship ×50", "2 failed, 48 done")]),
        (500, [("ship ×500", "500 done")]),
    ],
)
def test_a_fan_out_is_one_node(service: Served, count: int, wanted: list[tuple[str, str]]) -> None:
    """In the picture, and in the tables of steps, attempts and events; a single item is itself."""
    with service.client() as client:
        text = page(client, f"/ui/sagas/of-{count}")
        shown = rows(text)
        assert shown[:-1] == wanted and shown[-1][0] == "mail"
        drawing = text[
            text.index('class="picture"') : text.index("</svg>", text.index('class="picture"'))
        ]
        boxes = re.findall(r"<title>([^<]*)</title>", drawing)
        assert len(boxes) == len(wanted) + 1
        if count > 1:
            assert boxes[0].startswith(f"ship ×{count}: ")
            assert f"ship ×{count}" in text[text.index('class="timeline"') :]
            assert rows(text, "Attempts")[0][0] == f"ship ×{count}"
            assert 'href="/ui/sagas/of-%d?unfold=ship#steps"' % count in text
            assert len(text) < 60_000


def test_reads_do_not_wait_for_pages(service: Served) -> None:
    """While five people look at a large saga again and again, lists are read more often."""
    pages, is_over = list[int](), threading.Event()

    def looks() -> None:
        with service.client() as client:
            while not is_over.is_set():
                pages.append(len(page(client, "/ui/sagas/of-500")))

    people = [threading.Thread(target=looks) for _ in range(5)]
    for thread in people:
        thread.start()
    reads = 0
    with service.client() as client:
        while len(pages) < 20 and all(thread.is_alive() for thread in people):
            assert client.get("/v1/sagas?limit=1").status_code == 200
            reads += 1
    is_over.set()
    for thread in people:
        thread.join()
    assert len(pages) >= 20 and reads > 20, reads


def test_items_are_unfolded_by_the_address(service: Served) -> None:
    """Failed ones come first; each has its index, and its key if there is one."""
    with service.client() as client:
        text = page(client, "/ui/sagas/of-50?unfold=ship")
        shown = rows(text)
        assert shown[0] == ("ship ×50", "2 failed, 48 done")
        assert [state for _, state in shown[1:3]] == ["failed", "failed"]
        keys = sorted(name.partition(", ")[2] for name, _ in shown[1:3])
        assert keys == ["key key 7/é", "key key 9/é"]
        assert len(shown) == FEW + 2
        assert "35 more steps" in text and text.count('scope="row">ship-') >= 50
        assert "ship: 38 more" in text
        assert 'href="/ui/sagas/of-50#steps"' in text  # folds it
        assert rows(text, "Attempts")[0][0].startswith("ship-")
        many = page(client, "/ui/sagas/of-500?unfold=*,nobody&amp;x=1")
        assert "ship: 488 more" in many and "485 more steps" in many
        assert page(client, "/ui/sagas/of-3?unfold=nobody").count("?unfold=ship#steps") > 0


def test_included_sagas_are_groups(service: Served) -> None:
    """Also of a definition, whose page has the declared steps, and counts all items of each."""
    with service.client() as client:
        folded = rows(page(client, "/ui/sagas/trip"))
        assert [name for name, _ in folded] == ["flight", "stay ×2", "tour"]
        text = page(client, "/ui/sagas/trip?unfold=stay,stay/room")
        assert [name for name, _ in rows(text)] == [
            "flight",
            "stay ×2",
            "stay/book ×2",
            "stay/room ×3",
            *(
                f"stay-{stay}-room-{room} stay index {stay}; index {room}"
                for stay, room in ((0, 0), (0, 1), (1, 0))
            ),
            "tour",
        ]
        assert "?unfold=stay#steps" in text  # folds only the rooms
        whole = page(client, "/ui/definitions/trip")
        assert "stay: 2 steps" in whole and "?unfold=stay#steps" in whole
        parts = page(client, "/ui/definitions/trip?unfold=stay")
        assert "stay/room" in parts and "for each item" in parts
        of_order = page(client, "/ui/definitions/order")
        assert "by input" in of_order and "for some inputs" in of_order
        (bad,) = re.findall(r'data-title="Failed">2<', of_order)
        assert bad


def test_the_service_has_the_same_in_its_api(service: Served) -> None:
    """The picture, and the definitions."""
    with service.client() as client:
        folded = client.get("/v1/sagas/of-50/picture.svg").text
        assert "ship ×50" in folded and "<a " not in folded
        assert "ship: 38 more" in client.get("/v1/sagas/of-50/picture.svg?unfold=ship").text
        assert "ship ×50" not in client.get("/v1/sagas/of-50/picture.svg?unfold=*").text
        definitions = client.get("/v1/definitions").json()["definitions"]
        steps = {
            definition["name"]: {step["name"]: step for step in definition["steps"]}
            for definition in definitions
        }
        ship, room = steps["order"]["ship"], steps["trip"]["stay/room"]
        assert (ship["for_each"], ship["computed"], ship["keep"]) == (True, ["keep"], None)
        assert (room["needs"], room["for_each"], room["conditional"]) == (
            ["stay/book"],
            True,
            False,
        )


def test_folded_and_unfolded_in_a_browser(service: Served, shots: pathlib.Path) -> None:
    """A click unfolds a group and folds it, without a script too; the address has the state."""
    browser = Browser(service, shots)
    try:
        browser.size(1400)
        browser.go("/ui/sagas/of-50")
        browser.has("ship ×50")
        browser.driver.find_element(By.CSS_SELECTOR, "svg.picture a").click()
        browser.has("ship-0")
        assert browser.driver.current_url.endswith("/ui/sagas/of-50?unfold=ship#steps")
        browser.click("a.group-link", "ship ×50")
        browser.wait(lambda: "unfold" not in browser.driver.current_url)
        assert "ship-0" not in browser.driver.find_element(By.CSS_SELECTOR, "#steps table").text
        browser.driver.execute_cdp_cmd("Emulation.setScriptExecutionDisabled", {"value": True})
        browser.click("a.group-link", "ship ×50")
        browser.wait(lambda: browser.driver.current_url.endswith("?unfold=ship#steps"))
        browser.driver.execute_cdp_cmd("Emulation.setScriptExecutionDisabled", {"value": False})
        for width in (1400, 360):
            for dark in (False, True):
                browser.size(width, dark)
                for name, query in (("folded", ""), ("unfolded", "?unfold=ship")):
                    browser.go(f"/ui/sagas/of-50{query}")
                    browser.has("ship ×50")
                    run = browser.driver.execute_script
                    assert run(CONTRAST) == []
                    assert run("return document.documentElement.scrollWidth") <= width
                    browser.shot(f"{name}-{width}-{'dark' if dark else 'light'}")
        browser.size(1400)
        browser.go("/ui/sagas/of-500")
        browser.has("ship ×500")
        assert browser.driver.execute_script("return document.documentElement.scrollHeight") < 2700
        browser.is_quiet()
    finally:
        browser.driver.quit()
