"""Approvals in the inbox: the fields of the input that they show, and decisions on many at once.

The store has a codec and a blob store, and the cases run over both databases.
"""

from __future__ import annotations

import dataclasses
import html
import json
import pathlib
import re
import time
from collections.abc import Iterator
from typing import Any

import httpx
import pytest
from serving import LONG, Served, served, token

import sagas
from sagas.base.errors import DefinitionError
from sagas.definition.definition_files import read_one
from sagas.inspection.attention_pages import Entry
from sagas.inspection.shown_fields import MAX_LENGTH, rank_of
from sagas.server.routes import operators
from sagas.server.routes.inbox import Selection

COUNT = 60
"""More approvals than a page has."""
APP = """
import dataclasses, pathlib, sagas

class Codec:
    def encode(self, data):
        return data[::-1]

    def decode(self, data):
        if pathlib.Path("no-key").exists():
            raise ValueError("no key")
        return data[::-1]

@dataclasses.dataclass
class Customer:
    name: str

@dataclasses.dataclass
class Refund:
    amount: int
    customer: Customer
    article: str = ""

refund = sagas.Saga("refund", input=Refund)

@refund.approval(show=["amount", "customer.name", "article"])
def approve(task): pass

@refund.step(needs=[approve])
def pay(task: sagas.Task[Refund]):
    return task.input.amount

batch = sagas.Saga("batch")
batch.include(refund, for_each="refunds")

other = sagas.Saga("other")

@other.approval
def sign(task): pass

store = sagas.open("other.db", [refund, batch, other], codec=Codec(),
                   blobs=sagas.FolderBlobStore("blobs"), blob_threshold=400)
"""
TOKENS = {
    "operator": ("operator",),
    "caller": ("caller",),
    "approver": ("approver",),
    "team-a": ("approver", "--key", "a-*"),
    "reader": ("reader", "--definition", "other"),
}
LARGE = "a long name " * 60


class Shop:
    """A service whose approvals show amounts."""

    def __init__(self, service: Served, tokens: dict[str, str]) -> None:
        self.service, self.tokens = service, tokens
        self.clients: list[httpx.Client] = []

    def bearer(self, name: str) -> httpx.Client:
        """Return a client with a token."""
        self.clients.append(self.service.client(self.tokens[name]))
        return self.clients[-1]

    def page(self, name: str) -> httpx.Client:
        """Return a client that is logged in."""
        client = self.service.client()
        self.clients.append(client)
        assert client.post("/ui/login", data={"token": self.tokens[name]}).status_code == 303
        return client

    def start(self, definition: str, key: str, value: Any, **labels: str) -> None:
        """Start a saga."""
        body = {"definition": definition, "key": key, "input": value, "labels": labels}
        assert self.bearer("caller").post("/v1/sagas", json=body).status_code == 201, key

    def entries(self, name: str = "operator", **query: Any) -> list[dict[str, Any]]:
        """Return what waits for a decision."""
        query = {"kind": "approval", "limit": 1000, **query}
        entries: list[dict[str, Any]]
        entries = self.bearer(name).get("/v1/attention", params=query).json()["entries"]
        return entries

    def wait_for(self, count: int, **query: Any) -> None:
        """Wait until this number of approvals is listed."""
        deadline = time.monotonic() + LONG
        while len(self.entries(**query)) != count:
            assert time.monotonic() < deadline, len(self.entries(**query))
            time.sleep(0.05)


def input_of(amount: int, name: str = "Ada", article: str = "") -> dict[str, Any]:
    return {"amount": amount, "customer": {"name": name}, "article": article}


@pytest.fixture(scope="module")
def shop(tmp_path_factory: pytest.TempPathFactory, store: str | None) -> Iterator[Shop]:
    folder = tmp_path_factory.mktemp("approvals")
    (folder / "refund_app.py").write_text(APP)
    (folder / "empty").mkdir()
    tokens = {name: token(folder, name, *roles) for name, roles in TOKENS.items()}
    options = ("--app", "refund_app:store", "--token-file", str(folder / "tokens.toml"))
    files = {"plain.toml": 'format = 2\nname = "plain"\n[[step]]\nname = "x"\n'}
    with served(folder, files, *options, store=store) as service:
        shop = Shop(service, tokens)
        for number in range(COUNT):
            team = "a" if number % 3 == 0 else "b"
            value = input_of(number * 37 % 101, f"Ada {number}")
            shop.start("refund", f"{team}-{number:02}", value, team=team)
        shop.wait_for(COUNT)
        yield shop
        for client in shop.clients:
            client.close()


def csrf_of(client: httpx.Client) -> str:
    match = re.search(r'name="csrf" value="([^"]+)"', client.get("/ui").text)
    assert match
    return match[1]


def hidden(text: str) -> dict[str, str]:
    """Return the hidden fields of the form of a confirmation, as a browser sends them."""
    form = text.split('<form class="confirm card')[1].split("</form>")[0]
    fields = re.findall(r'<input type="hidden" name="([^"]+)" value="([^"]*)"', form)
    return {name: html.unescape(value) for name, value in fields}


def keys_of(text: str) -> list[str]:
    """Return the keys of the table of a page, in their order."""
    return re.findall(r'<th scope="row"><(?:a|b) class="key"[^>]*>([^<]+)</', text)


def test_the_fields_are_shown(shop: Shop) -> None:
    """They are decoded for each token that may see the saga, over HTTP and in the inbox."""
    shown = {entry["key"]: entry["shown"] for entry in shop.entries()}
    assert len(shown) == COUNT
    assert shown["b-02"] == {"amount": 74, "customer.name": "Ada 2", "article": ""}
    own_entries = shop.entries("team-a")
    assert {entry["key"] for entry in own_entries} == {
        f"a-{number:02}" for number in range(0, COUNT, 3)
    }
    assert shop.entries("reader", definition="other") == []
    text = shop.page("approver").get("/ui").text
    assert "customer.name" in text and "Ada 2<" in text and "team=b" in text
    text = shop.page("team-a").get("/ui").text
    assert "Ada 3<" in text and "Ada 2<" not in text
    files = [shop.service.errors, *shop.service.folder.glob("store.db*")]
    for file in files:  # the log and a store of a file have no plain value
        assert b"Ada 2" not in file.read_bytes() and b"2 adA" not in file.read_bytes(), file


def test_a_large_and_an_unreadable_input(shop: Shop) -> None:
    """A large input is in the blob store. What cannot be read is said in place of each field."""
    folder = shop.service.folder
    shop.start("refund", "large", input_of(7, LARGE))
    shop.start("refund", "longer", input_of(8, "x" * 2 * MAX_LENGTH))
    shop.start("other", "bare", {"amount": 1})
    shop.wait_for(COUNT + 3)
    shown = {entry["key"]: entry["shown"] for entry in shop.entries()}
    assert shown["large"] == {"amount": 7, "customer.name": LARGE, "article": ""}
    name = shown["longer"]["customer.name"]
    assert len(name) == MAX_LENGTH and name.endswith("x...") and shown["bare"] == {}
    (folder / "no-key").touch()
    try:
        shown = {entry["key"]: entry["shown"] for entry in shop.entries()}
        assert {*shown["large"].values(), *shown["a-00"].values()} == {"encrypted"}
        assert "encrypted" in shop.page("approver").get("/ui?order=up.amount").text
    finally:
        (folder / "no-key").unlink()
    (folder / "blobs").rename(folder / "away")
    try:
        shown = {entry["key"]: entry["shown"] for entry in shop.entries()}
        assert {*shown["large"].values()} == {"not available"}
        assert shown["a-03"]["amount"] == 10
    finally:
        (folder / "away").rename(folder / "blobs")
    for key in ("large", "longer", "bare"):
        assert shop.bearer("caller").post(f"/v1/sagas/{key}/abort", json={}).status_code == 200
    shop.wait_for(COUNT)


def test_an_included_saga_shows_its_own_input(shop: Shop) -> None:
    """Each item has the fields of its input, and not those of the saga that includes it."""
    value = {"amount": 0, "refunds": [input_of(5, "Bob"), input_of(6, "Eve")]}
    shop.start("batch", "many", value)
    shop.wait_for(2, definition="batch")
    amounts = {
        entry["step"]: entry["shown"]["amount"] for entry in shop.entries(definition="batch")
    }
    assert amounts == {"refund-0-approve": 5, "refund-1-approve": 6}
    page = shop.page("approver")
    text = page.get("/ui/sagas/many/steps/refund-1-approve/done").text
    assert "Eve" in text and "Bob" not in text and "Results in effect" not in text
    shop.bearer("caller").post("/v1/sagas/many/abort", json={})
    shop.wait_for(COUNT)


def test_filters_order_and_pages(shop: Shop) -> None:
    """They select, sort and divide the approvals, by links and a form without a script."""
    page = shop.page("approver")
    first = keys_of(page.get("/ui").text)
    second = keys_of(page.get("/ui?kind=approval&page=2").text)
    assert len(first) == 50 and len({*first, *second}) == COUNT
    assert first[0].endswith("-00") and keys_of(page.get("/ui?order=newest").text)[0].endswith("59")
    amounts = {entry["key"]: entry["shown"]["amount"] for entry in shop.entries()}
    for order, reverse in (("up.amount", False), ("down.amount", True)):
        text = page.get("/ui", params={"order": order}).text
        expected = sorted(amounts.values(), reverse=reverse)[:50]
        assert [amounts[key] for key in keys_of(text)] == expected, order
        rest = keys_of(page.get("/ui", params={"order": order, "page": 2}).text)
        assert [amounts[key] for key in rest] == sorted(amounts.values(), reverse=reverse)[50:]
    selections = {
        "label=team%3Da": COUNT // 3,
        "label=team%3Dc": 0,
        "search=b-0": 6,
        "definition=refund": 50,
        "definition=other": 0,
        "step=approve": 50,
        "step=pay": 0,
        "age=1h": 0,
    }
    for query, count in selections.items():
        text = page.get(f"/ui?kind=approval&{query}").text
        assert len(keys_of(text)) == count, query
        assert ("Nothing matches the filter" in text) == (count == 0), query
        for link in re.findall(r'href="(/ui\?[^"]+order=[^"]+)"', text):
            assert query in html.unescape(link), link
    assert "a label must be NAME=VALUE" in page.get("/ui?label=team").text
    assert page.get("/ui?order=sideways").status_code == 422


def test_a_selection_is_approved(shop: Shop) -> None:
    """The page before shows each with its amount; the decision has the name and the note."""
    for number, amount in enumerate((11, 12, 13)):
        shop.start("refund", f"chosen-{number}", input_of(amount, f"Zoe {amount}"))
    shop.wait_for(3, search="chosen-")
    page = shop.page("approver")
    text = page.get("/ui?kind=approval&search=chosen-").text
    ids = re.findall(r'name="one" value="([^"]+)"', text)
    assert len(ids) == 3
    form = {"csrf": csrf_of(page), "kind": "approval", "search": "chosen-", "verb": "done"}
    question = page.post("/ui/inbox", data={**form, "one": ids[:2]}).text
    assert "Approve 2 steps of 2 sagas?" in question and keys_of(question) == [
        "chosen-0",
        "chosen-1",
    ]
    assert "Zoe 11" in question and "Zoe 12" in question and "Zoe 13" not in question
    answer = page.post("/ui/inbox", data={**hidden(question), "note": "I called them"})
    assert "2 done" in answer.text, answer.text
    for text in (question, answer.text):  # the way back has the filter
        assert 'href="/ui?kind=approval&amp;search=chosen-"' in text
    client = shop.bearer("operator")
    for number in range(2):
        ended = client.get(f"/v1/sagas/chosen-{number}/wait?seconds=60").json()
        assert ended["states"]["approve"] == "committed" and ended["phase"] == "completed"
    assert client.get("/v1/sagas/chosen-2").json()["states"]["approve"] == "begun"
    (entry,) = client.get("/v1/decisions?decision=complete&limit=1").json()["decisions"]
    assert (entry["by"], entry["note"], entry["via"]) == ("approver", "I called them", "dashboard")
    assert entry["bulk"] and {saga["key"] for saga in entry["sagas"]} == {"chosen-0", "chosen-1"}
    refusal = page.post("/ui/inbox", data={**form, "verb": "failed", "all": "1"}).text
    refusal_form = {**hidden(refusal), "failed": "no receipt", "note": "asked twice"}
    assert "1 done" in page.post("/ui/inbox", data=refusal_form).text
    ended = client.get("/v1/sagas/chosen-2/wait?seconds=60").json()
    assert ended["errors"]["approve"] == "no receipt"


def test_all_that_match_are_approved_and_no_later_ones(shop: Shop) -> None:
    """The filtered set is that of the page: what comes in after it still waits."""
    page = shop.page("team-a")
    form = {"csrf": csrf_of(page), "kind": "approval", "label": "team=a", "verb": "done"}
    question = page.post("/ui/inbox", data={**form, "all": "1", "order": "down.amount"}).text
    count = COUNT // 3
    assert f"Approve {count} steps of {count} sagas?" in question
    listed = keys_of(question)
    amounts = {entry["key"]: entry["shown"]["amount"] for entry in shop.entries("team-a")}
    assert [amounts[key] for key in listed] == sorted(amounts.values(), reverse=True)
    shop.start("refund", "a-late", input_of(1000), team="a")
    shop.wait_for(1, search="a-late")
    other = {"error": "fraud"}
    url = "/v1/sagas/a-00/steps/approve/fail"
    assert shop.bearer("operator").post(url, json=other).status_code == 200
    done = page.post("/ui/inbox", data={**hidden(question), "note": "monthly"}).text
    assert f"{count - 1} done" in done and "1 of the entries that you saw had changed" in done
    left = {entry["key"] for entry in shop.entries("team-a")}
    assert left == {"a-late"}
    (entry,) = (
        shop.bearer("operator").get("/v1/decisions?decision=complete&limit=1").json()["decisions"]
    )
    assert entry["count"] == count - 1 and entry["note"] == "monthly"
    gone = page.post("/ui/inbox", data=hidden(question))
    assert gone.status_code == 422 and "Nothing is selected" in gone.text
    text = shop.service.log_text()
    assert "monthly" not in text and "Ada" not in text


def test_forged_selections(shop: Shop) -> None:
    """No form reaches beyond the scope of its token: neither by an id nor by a wait."""
    operator, narrow = shop.page("operator"), shop.page("team-a")
    whole = operator.get("/ui?kind=approval&search=b-01").text
    (id,) = re.findall(r'name="one" value="([^"]+)"', whole)
    form = {"csrf": csrf_of(operator), "kind": "approval", "verb": "done", "one": id}
    waits = hidden(operator.post("/ui/inbox", data=form).text)["waits"]
    for more in ({"one": id}, {"waits": waits}):
        sent = {"csrf": csrf_of(narrow), "kind": "approval", "verb": "done", **more}
        answer = narrow.post("/ui/inbox", data=sent)
        assert answer.status_code == 422 and "Nothing is selected" in answer.text
    url = "/v1/sagas/b-01"
    assert shop.bearer("operator").get(url).json()["states"]["approve"] == "begun"


@pytest.mark.parametrize("kind, left", [("approval", 1), ("stuck", 0)])
def test_a_selection_is_as_long_as_its_page(kind: str, left: int) -> None:
    """Approvals are listed one by one, so no more are selected than one action changes."""
    count = operators.MAX_TARGETS + 1
    rows = [
        Entry(
            kind, 0.0, number, 0, f"refund-{number}", "refund", "approve", False, [], None, 0, None
        )
        for number in range(count)
    ]
    selection = Selection.of(rows)
    assert len(selection.entries) == count - left and selection.left == left
    assert len(selection.waits.split()) == len(selection.entries)


# -- declarations


@dataclasses.dataclass
class Person:
    name: str


@dataclasses.dataclass
class Order:
    amount: int
    customer: Person
    extra: dict[str, Any]


WRONG = [
    (["amuont"], "Order has no field 'amuont'; did you mean 'amount'?"),
    (["customer.nam"], "Person has no field 'nam'; did you mean 'name'?"),
    (["amount.cents"], "a value of type int has no field 'cents'"),
    (["amount", "amount"], "must name each field only once"),
    (["a b"], "must be a list of up to 16 fields of the input"),
    (["a..b"], "must be a list of up to 16 fields of the input"),
    ("amount", "must be a list of up to 16 fields of the input"),
    ([1], "must be a list of up to 16 fields of the input"),
    ([f"x{number}" for number in range(17)], "must be a list of up to 16 fields of the input"),
]


@pytest.mark.parametrize("show, says", WRONG, ids=range(len(WRONG)))
def test_fields_that_cannot_be_shown(show: Any, says: str) -> None:
    """An unknown field is an error of the declaration, by the type of the saga or the function."""
    saga = sagas.Saga("order", input=Order)
    with pytest.raises(DefinitionError, match="show=") as fault:
        saga.approval(show=show, name="review")(lambda task: None)
    assert says in str(fault.value)

    def review(task: sagas.Task[Order]) -> None:
        pass

    with pytest.raises(DefinitionError, match="show="):
        sagas.Saga("order").approval(show=show)(review)


def test_fields_that_can_be_shown() -> None:
    """A part of a value without a declared form may have any field."""
    saga = sagas.Saga("order", input=Order)
    fields = ["amount", "customer.name", "extra.a.b"]
    step = saga.approval(show=fields, name="review")(lambda task: None)
    assert step.shown_fields == tuple(fields)
    free = sagas.Saga("free").approval(show=["any.thing"], name="review")(lambda task: None)
    assert free.shown_fields == ("any.thing",)
    assert saga.toml() == saga.toml().replace("show", "")  # not part of the definition


def test_fields_of_a_definition_file(tmp_path: pathlib.Path) -> None:
    """`show` is a key of an approval in the service file; a fault names its line."""
    path = tmp_path / "order.toml"
    path.write_text('format = 2\nname = "order"\n[[step]]\nname = "review"\n')
    service_file = tmp_path / "order.service.toml"
    service_file.write_text(
        '[step.review]\nkind = "approval"\nshow = ["amount", "customer.name"]\n'
    )
    assert read_one(path).steps[0].shown_fields == ("amount", "customer.name")
    service_file.write_text('[step.review]\nkind = "approval"\nshow = ["a b"]\n')
    with pytest.raises(DefinitionError, match=r"order\.service\.toml:3: .*show="):
        read_one(path)
    service_file.write_text('[step.review]\nshow = ["amount"]\n')
    with pytest.raises(DefinitionError, match="work has no key 'show'"):
        read_one(path)


def test_values_are_sorted_by_their_kinds() -> None:
    """Numbers come before texts, and a text that is a number counts as one."""
    values = [{"a": 1}, "beta", "10.50", 9, "Alpha", 2.5, True, "-3"]
    ranked = sorted(values, key=lambda value: rank_of(value))
    assert [json.dumps(value) for value in ranked[:4]] == ['"-3"', "2.5", "9", '"10.50"']
    assert ranked[4:6] == ["Alpha", "beta"]
