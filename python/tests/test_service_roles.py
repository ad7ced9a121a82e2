"""Who may: each role's answer on each route of the API and of the dashboard.

The routes are those of the application, and the table is that of the page of tokens. A route
without a row fails. The pages of each role are followed link by link: what a role may not do has
no button there.
"""

from __future__ import annotations

import contextlib
import html
import pathlib
import re
from collections import deque
from collections.abc import Iterator

import httpx
import pytest
from serving import (
    DEFINITIONS,
    LONG,
    Served,
    all_done,
    command,
    error_of,
    report,
    served,
    start,
    stuck,
    take,
    token,
)

from sagas.server import renderer
from sagas.server.app import API, PAGES
from sagas.server.auth import ROLES, Permission, roles_with

PAGE = pathlib.Path(__file__).resolve().parents[2] / "docs" / "reference" / "tokens.md"
COLUMNS = ("caller", "approver", "worker", "metrics", "reader", "operator")
PEOPLE = ("approver", "reader", "operator")
"""The roles whose tokens log in to the dashboard."""
LOOK, START, WORK = "caller approver reader operator", "caller operator", "worker operator"
DECIDE, OPERATE, BROWSE = "approver operator", "operator", "reader operator"
ENTER, ALL = "approver reader operator", "all"
TABLE: dict[str, tuple[str, int]] = {
    "POST /v1/sagas": (START, 422),
    "GET /v1/sagas": (LOOK, 200),
    "GET /v1/sagas/{key}": (LOOK, 404),
    "GET /v1/sagas/{key}/wait": (LOOK, 404),
    "GET /v1/sagas/{key}/log": (LOOK, 404),
    "GET /v1/sagas/{key}/timeline": (LOOK, 404),
    "GET /v1/sagas/{key}/picture.svg": (LOOK, 404),
    "GET /v1/sagas/{key}/certificate": (LOOK, 404),
    "GET /v1/sagas/{key}/export": (LOOK, 404),
    "POST /v1/sagas/{key}/what-if": (LOOK, 422),
    "POST /v1/sagas/{key}/abort": (START, 404),
    "POST /v1/sagas/{key}/restart": (START, 422),
    "POST /v1/sagas/{key}/steps/{step}/complete": (DECIDE, 422),
    "POST /v1/sagas/{key}/steps/{step}/fail": (DECIDE, 422),
    "POST /v1/sagas/{key}/steps/{step}/retry": (OPERATE, 404),
    "POST /v1/sagas/{key}/steps/{step}/compensate": (OPERATE, 404),
    "POST /v1/sagas/{key}/resolve": (OPERATE, 422),
    "POST /v1/sagas/{key}/erase": (OPERATE, 404),
    "GET /v1/events": (LOOK, 200),
    "GET /v1/definitions": (LOOK, 200),
    "GET /v1/trends": (LOOK, 200),
    "GET /v1/attention": (LOOK, 200),
    "GET /v1/decisions": (LOOK, 200),
    "GET /v1/schedules": (LOOK, 200),
    "POST /v1/schedules/{name}/pause": (OPERATE, 404),
    "POST /v1/schedules/{name}/resume": (OPERATE, 404),
    "DELETE /v1/schedules/{name}": (OPERATE, 404),
    "GET /v1/pauses": (LOOK, 200),
    "POST /v1/pauses": (OPERATE, 422),
    "DELETE /v1/pauses": (OPERATE, 404),
    "GET /v1/nodes": (OPERATE, 200),
    "POST /v1/nodes/{node}/drain": (OPERATE, 422),
    "POST /v1/nodes/{node}/undrain": (OPERATE, 404),
    "POST /v1/bulk/abort": (OPERATE, 422),
    "POST /v1/bulk/resolve": (OPERATE, 422),
    "POST /v1/bulk/retry": (OPERATE, 422),
    "POST /v1/bulk/complete": (OPERATE, 422),
    "POST /v1/bulk/fail": (OPERATE, 422),
    "POST /v1/tasks/claim": (WORK, 422),
    "POST /v1/tasks/claim/end": (WORK, 200),
    "POST /v1/tasks/{attempt_id}/heartbeat": (WORK, 422),
    "POST /v1/tasks/{attempt_id}/complete": (WORK, 422),
    "POST /v1/tasks/{attempt_id}/fail": (WORK, 422),
    "POST /v1/tasks/{attempt_id}/unknown": (WORK, 422),
    "POST /v1/tasks/report": (WORK, 422),
    "GET /v1/queues": ("worker reader operator", 200),
    "GET /v1/webhooks/deliveries": (OPERATE, 200),
    "POST /v1/webhooks/deliveries/{id}/redeliver": (OPERATE, 404),
    "GET /metrics": ("metrics operator", 200),
    "GET /health/live": (ALL, 200),
    "GET /health/ready": (ALL, 200),
    "GET /openapi.json": (ALL, 200),
    "GET /": (ALL, 303),
    "GET /favicon.ico": (ALL, 200),
    "GET /ui/static/{name}": (ALL, 200),
    "GET /ui/planner": (ALL, 200),
    "GET /ui/login": (ALL, 200),
    "POST /ui/login": (ENTER, 303),
    "POST /ui/logout": (ENTER, 303),
    "GET /ui": (ENTER, 200),
    "GET /ui/events": (ENTER, 200),
    "POST /ui/inbox": (DECIDE, 422),
    "GET /ui/sagas": (BROWSE, 200),
    "GET /ui/sagas/{key}": (BROWSE, 404),
    "GET /ui/sagas/{key}/export": (BROWSE, 404),
    "GET /ui/sagas/{key}/certificate": (BROWSE, 404),
    "GET /ui/definitions": (BROWSE, 200),
    "GET /ui/definitions/{name}": (BROWSE, 404),
    "GET /ui/workers": (BROWSE, 200),
    "GET /ui/nodes": (BROWSE, 200),
    "GET /ui/schedules": (BROWSE, 200),
    "GET /ui/pauses": (BROWSE, 200),
    "GET /ui/decisions": (BROWSE, 200),
    "GET /ui/start": (OPERATE, 200),
    "POST /ui/start": (OPERATE, 422),
    "GET /ui/sagas/{key}/abort": (OPERATE, 200),
    "POST /ui/sagas/{key}/abort": (OPERATE, 409),
    "GET /ui/sagas/{key}/restart": (OPERATE, 200),
    "POST /ui/sagas/{key}/restart": (OPERATE, 422),
    "GET /ui/sagas/{key}/steps/{step}/{outcome}": (DECIDE, 200),
    "POST /ui/sagas/{key}/steps/{step}/{outcome}": (DECIDE, 409),
    "GET /ui/sagas/{key}/steps/{step}/compensate": (OPERATE, 200),
    "POST /ui/sagas/{key}/steps/{step}/compensate": (OPERATE, 409),
    "GET /ui/sagas/{key}/resolve": (OPERATE, 200),
    "POST /ui/sagas/{key}/resolve": (OPERATE, 422),
    "GET /ui/sagas/{key}/erase": (OPERATE, 200),
    "POST /ui/sagas/{key}/erase": (OPERATE, 409),
    "GET /ui/schedules/{name}/{change}": (OPERATE, 404),
    "POST /ui/schedules/{name}/{change}": (OPERATE, 409),
    "POST /ui/nodes": (OPERATE, 422),
    "POST /ui/pauses": (OPERATE, 422),
    "POST /ui/pauses/resume": (OPERATE, 422),
    "GET /ui/webhooks": (OPERATE, 200),
    "POST /ui/webhooks/{id}/redeliver": (OPERATE, 404),
}
"""The roles that may use each route, and its answer to them, for a key and a name that nothing has.

Pages that only an operator may open are also open to a person with the role `caller`, if HTTP
permits the decision to callers: see `test_two_roles_of_a_person`.
"""
NAMES = {
    "{key}": "none",
    "{step}": "none",
    "{outcome}": "done",
    "{attempt_id}": "none",
    "{name}": "none",
    "{id}": "none",
    "{node}": "none",
    "{change}": "remove",
}
NO_SESSION = [
    (303, ""),
    (403, "The form is not of this session"),
    (403, "The dashboard has no session"),
]
"""The answers of pages without a session."""
REFUSED = ("Forbidden", "The token does not allow this", "The form is not of this session")
"""The problems and titles of answers that are for a missing right."""
SESSIONS = ("POST /ui/login", "POST /ui/logout")
LATER = "POST /ui/sagas/{key}/steps/{step}/{outcome}", "GET /ui/sagas/{key}/steps/{step}/{outcome}"
"""Routes whose answer to an approver depends on the step."""


def address_of(route: str) -> str:
    """Return an address of a route."""
    path = route.partition(" ")[2].replace("static/{name}", "static/style.css")
    for name, value in NAMES.items():
        path = path.replace(name, value)
    return path


class Roles:
    """A service with a token and a session of each role."""

    def __init__(self, service: Served, tokens: dict[str, str]) -> None:
        self.service, self.tokens = service, tokens

    @contextlib.contextmanager
    def page(self, role: str) -> Iterator[httpx.Client]:
        """Yield a client that is logged in with the token of a role, if the role may."""
        with self.service.client() as client:
            client.post("/ui/login", data={"token": self.tokens[role]})
            yield client


@pytest.fixture(scope="module")
def roles(tmp_path_factory: pytest.TempPathFactory) -> Iterator[Roles]:
    folder = tmp_path_factory.mktemp("roles")
    tokens = {role: token(folder, role, role) for role in COLUMNS}
    tokens["both"] = token(folder, "both", "reader", "approver")
    tokens["starter"] = token(folder, "starter", "reader", "caller")
    more = "--definition", "order", "--key", "mine-*"
    tokens["narrow"] = token(folder, "narrow", "reader", "approver", *more)
    with served(folder, DEFINITIONS, "--token-file", str(folder / "tokens.toml")) as service:
        yield Roles(service, tokens)


def answer_of(client: httpx.Client, route: str, csrf: str) -> tuple[int, str]:
    """Return the status of a route, and the name or the title of its problem."""
    method, path = route.split()[0], address_of(route)
    sent = {} if method == "GET" else {"json": {}} if "/v1/" in path else {"data": {"csrf": csrf}}
    if method == "DELETE":
        sent = {}
    with client.stream(method, path, **sent) as answer:  # type: ignore[arg-type]
        kind = answer.headers.get("content-type", "").partition(";")[0]
        if kind == "text/event-stream":
            return answer.status_code, ""
        answer.read()
        if kind == "application/problem+json":
            return answer.status_code, error_of(answer)
        title = re.search(r"<h1>([^<]*)</h1>", answer.text) if kind == "text/html" else None
        return answer.status_code, title[1] if title else ""


def csrf_of(client: httpx.Client, path: str = "/ui") -> str:
    """Return the token of the forms of a session."""
    match = re.search(r'name="csrf" value="([^"]+)"', client.get(path).text)
    return match[1] if match else ""


def test_each_route_has_a_row() -> None:
    """The table has each route of the application, and its permission has the roles of the row."""
    operations = {
        f"{operation.method} {operation.path}": operation
        for routes in (*API, *PAGES)
        for operation in routes.operations
    }
    assert {*operations} == {*TABLE}
    assert {*COLUMNS} == {*ROLES} and [*PEOPLE] == sorted(
        roles_with(Permission.LOG_IN), key=PEOPLE.index
    )
    for route, (permitted, _) in TABLE.items():
        permission = operations[route].permission
        if permission is None:
            assert permitted == ALL or route == "POST /ui/login", route
            continue
        having = {*roles_with(permission)}
        if " /ui" in route:  # without a session, a role has no pages
            having &= {*PEOPLE}
        assert having == {*permitted.split()}, route


def test_each_role_on_each_route(roles: Roles) -> None:
    """A role gets the answer of the row, or 403; without a token it is 401 or the login."""
    wrong = []
    for role in COLUMNS:
        with roles.service.client(roles.tokens[role]) as bearer, roles.page(role) as page:
            csrf = csrf_of(page)
            for route in TABLE:
                if route in SESSIONS:  # each session begins and ends here
                    continue
                returned = answer_of(page if " /ui" in route else bearer, route, csrf)
                if not is_expected(role, route, *returned):
                    wrong.append((role, route, returned))
            out = page.post("/ui/logout", data={"csrf": csrf})
            assert out.status_code == (303 if role in PEOPLE else 403)
    assert not wrong, wrong
    with roles.service.client() as stranger:
        for route, (permitted, status) in TABLE.items():
            code, _ = answer_of(stranger, route, "")
            allowed = (status,) if permitted == ALL else (401, 429, 303, 403)
            assert code in allowed, (route, code)


def is_expected(role: str, route: str, code: int, name: str) -> bool:
    """Return whether a role may get this answer: a status, and a problem or a page's title."""
    permitted, status = TABLE[route]
    if permitted == ALL or role in permitted.split():
        status = 404 if role == "approver" and route in LATER else status  # no such saga
        return code == status and name not in REFUSED
    if " /ui" not in route:
        return (code, name) == (403, "Forbidden")
    if role in PEOPLE:
        return (code, name) == (403, "The token does not allow this")
    return (code, name) in NO_SESSION


def test_only_people_log_in(roles: Roles) -> None:
    """A token of a program begins no session, and its message names the roles."""
    for role in COLUMNS:
        with roles.service.client() as client:
            answer = client.post("/ui/login", data={"token": roles.tokens[role]})
            while "Too many invalid tokens from this address" in answer.text:  # of other tests
                answer = client.post("/ui/login", data={"token": roles.tokens[role]})
            assert answer.status_code == (303 if role in PEOPLE else 403), role
            if role not in PEOPLE:
                assert "does not have the role" in answer.text and "reader" in answer.text
                assert client.get("/ui").headers["location"] == "/ui/login?next=%2Fui"


def test_a_login_leads_to_a_page_of_the_role(roles: Roles) -> None:
    """A page that the role may not open is replaced by the inbox."""
    for role, wanted, target in (
        ("approver", "/ui/sagas/x", "/ui"),
        ("approver", "/ui/sagas/x/steps/y/done", "/ui/sagas/x/steps/y/done"),
        ("reader", "/ui/sagas/x", "/ui/sagas/x"),
        ("reader", "/ui/start", "/ui"),
        ("operator", "/ui/start", "/ui/start"),
    ):
        with roles.service.client() as client:
            sent = {"token": roles.tokens[role], "next": wanted}
            answer = client.post("/ui/login", data=sent)
            assert answer.headers["location"] == target, (role, wanted)


def test_templates_ask_for_routes() -> None:
    """Each address whose permission a template asks for is that of a route."""
    pages = {route for route in TABLE if " /ui" in route}
    count = 0
    for template in (pathlib.Path(renderer.HERE) / "templates").glob("*.html"):
        for path, method in re.findall(r'can\("([^"]+)"(?:, "([A-Z]+)")?\)', template.read_text()):
            assert f"{method or 'GET'} {path}" in pages, (template.name, path)
            count += 1
    assert count > 10


def test_the_page_has_the_table() -> None:
    """The reference page of tokens has the rows of this test."""
    lines = PAGE.read_text().splitlines()
    rows = [re.split(r" *\| *", line.strip("| ")) for line in lines if line.startswith("| `")]
    listed = {
        row[0].strip("`"): [column for column, cell in zip(COLUMNS, row[1:]) if cell == "yes"]
        for row in rows
        if len(row) == len(COLUMNS) + 1
    }
    expected = {
        route: [role for role in COLUMNS if permitted == ALL or role in permitted.split()]
        for route, (permitted, _) in TABLE.items()
    }
    assert listed == expected
    head = next(line for line in lines if line.startswith("| Route"))
    assert re.split(r" *\| *", head.strip("| "))[1:] == [*COLUMNS]


# -- pages by role


@pytest.fixture(scope="module")
def busy(roles: Roles) -> Roles:
    """The service, with sagas in all states that have buttons."""
    with roles.service.client(roles.tokens["operator"]) as client:
        stuck(client, "is-stuck")
        start(client, "order", "asks", {"amount": 5})
        start(client, "order", "mine-1")
        start(client, "trip", "works")
        start(client, "trip", "unknown")
        all_done(client, "trip/flight", "trip/flight", "trip/car", "trip/car")
        for task in take(client, "trip/tour", limit=2):
            if task["key"] == "unknown":
                report(client, task, "unknown", error="the line went dead")
        start(client, "few", "done")
        all_done(client, "few/a", "few/b", "few/a/undo", failing=["few/b"])
        assert client.get("/v1/sagas/done/wait?seconds=60").json()["phase"] == "recovered"
        client.post("/v1/pauses", json={"definition": "few", "note": "a test"})
        for key in ("asks", "mine-1"):
            while not client.get(f"/v1/sagas/{key}").json()["waits"]:
                pass
        while client.get("/v1/attention").json()["counts"]["unknown"] < 1:
            pass
    return roles


MAX_PAGES = 120
SKIPPED = ("/ui/static/", "/ui/planner", "/ui/events", "/ui/logout")


def links_of(text: str) -> set[str]:
    """Return the links of a page, and the addresses of its pictures."""
    links = {html.unescape(link) for link in re.findall(r'href="(/ui[^"]*)"', text)}
    return {link.partition("#")[0] for link in links if not link.startswith(SKIPPED)}


def walked(client: httpx.Client) -> tuple[dict[str, str], set[str]]:
    """Return the pages that a user reaches from the inbox, and the addresses of their forms."""
    pages: dict[str, str] = {}
    forms, left = set[str](), deque(["/ui"])
    while left and len(pages) < MAX_PAGES:
        address = left.popleft()
        parameters = ("unfold=", "&", "range=")
        if address in pages or sum(address.count(word) for word in parameters) > 1:
            continue
        answer = client.get(address)
        assert answer.status_code == 200, (address, answer.status_code)
        pages[address] = answer.text
        for form in re.findall(r"<form[^>]*>", answer.text):
            if 'method="post"' in form:
                action = re.search(r'action="([^"]+)"', form)
                forms.add(html.unescape(action[1]) if action else address)
        left.extend(sorted(links_of(answer.text)))
    return pages, forms - {"/ui/logout"}


def test_a_page_has_only_what_its_role_may(busy: Roles) -> None:
    """Each link of each page opens, and no form is refused for want of a right."""
    for role in (*PEOPLE, "both", "starter", "narrow"):
        with busy.page(role) as client:
            pages, forms = walked(client)
            for form in forms:
                answer = client.post(form, data={"csrf": "wrong"})
                assert "The form is not of this session" in answer.text, (role, form)
            if role in ("reader", "approver"):
                assert forms == ({"/ui/inbox"} if role == "approver" else set()), (role, forms)
            if role == "approver":
                assert all(address.startswith("/ui?") or address == "/ui" for address in pages)
            if role == "reader":
                text = "".join(pages.values())
                for button in ("Abort…", "Resolve…", "Retry…", "Approve…", "Restart…", "Erase…"):
                    assert button not in text, button
                assert {"/ui/sagas/asks", "/ui/sagas/is-stuck", "/ui/workers"} <= {*pages}
            if role == "starter":
                assert {"/ui/start", "/ui/sagas/asks/abort"} <= {*pages}
            if role == "both":
                assert "/ui/sagas/asks/steps/review/done" in pages
                assert "/ui/sagas/unknown/steps/tour/done" not in pages


def test_an_approver_sees_its_approvals_only(busy: Roles) -> None:
    """It decides them in the inbox, and reports nothing else."""
    with busy.page("approver") as client:
        text = client.get("/ui").text
        assert ">asks<" in text and "is-stuck" not in text and "Stuck" not in text
        assert "/ui/sagas" not in text and "Approve…" in text and "Abort…" not in text
        assert client.get("/ui?kind=stuck").status_code == 403
        csrf = csrf_of(client)
        for kind, verb in (("approval", "abort"), ("stuck", "resolve"), ("unknown", "done")):
            form = {"csrf": csrf, "kind": kind, "verb": verb, "all": "1"}
            assert client.post("/ui/inbox", data=form).status_code == 403, (kind, verb)
        url = "/ui/sagas/asks/steps/review/done"
        shown = client.get(url).text
        assert "Approve step review?" in shown and "Results in effect" not in shown
        for wrong in ("unknown/steps/tour/done", "asks/steps/review/retry", "asks/steps/send/done"):
            assert client.get(f"/ui/sagas/{wrong}").status_code == 403, wrong
            form = {"csrf": csrf, "result": "1", "failed": "x"}
            assert client.post(f"/ui/sagas/{wrong}", data=form).status_code == 403, wrong


def test_a_reader_of_some_keys(busy: Roles) -> None:
    """It sees only what its definitions and keys permit, on each page."""
    with busy.page("narrow") as client:
        pages, _ = walked(client)
        text = "".join(pages.values())
        assert ">mine-1<" in text
        for hidden in ("asks", "is-stuck", "works", "unknown", "licence"):
            assert f">{hidden}<" not in text, hidden
        for key in ("asks", "is-stuck", "none"):
            assert client.get(f"/ui/sagas/{key}").status_code == 404
            assert client.get(f"/ui/sagas/{key}/steps/review/done").status_code == 404
    with busy.service.client(busy.tokens["narrow"]) as bearer:
        assert bearer.get("/v1/queues").json() == {"queues": []}
        assert [saga["key"] for saga in bearer.get("/v1/sagas").json()["sagas"]] == ["mine-1"]


def test_keys_restrict_readers_and_not_workers(tmp_path: pathlib.Path) -> None:
    """Work is claimed for all keys, so a worker's token has none."""
    file = str(tmp_path / "tokens.toml")
    assert command("token", file, "a", "reader", "--key", "a*").returncode == 0
    assert command("token", file, "b", "reader", "worker", "--key", "a*").returncode != 0
    assert LONG > 0
