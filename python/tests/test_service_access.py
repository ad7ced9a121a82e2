"""Permissions: tokens with roles, sessions with their forms, requests of other pages, and texts as
markup.
"""

from __future__ import annotations

import contextlib
import html
import pathlib
import re
import time
from collections.abc import Iterator
from typing import Any
from urllib.parse import parse_qs, urlencode, urlsplit

import httpx
import pytest
from serving import DEFINITIONS, LONG, Served, error_of, served, start, stuck, token
from test_service_denial import answered, raw

from sagas.server.app import API, PAGES

NASTY = "<script>alert('x')</script>\"'&{{7*7}}"


class Guarded:
    """A service with tokens."""

    def __init__(self, service: Served, tokens: dict[str, str]) -> None:
        self.service, self.tokens = service, tokens

    def client(self, role: str | None) -> httpx.Client:
        return self.service.client(self.tokens[role] if role else None)


@pytest.fixture(scope="module")
def guarded(tmp_path_factory: pytest.TempPathFactory) -> Iterator[Guarded]:
    folder = tmp_path_factory.mktemp("guarded")
    tokens = {role: token(folder, role, role) for role in ROLES}
    with served(folder, DEFINITIONS | LATE, "--token-file", str(folder / "tokens.toml")) as service:
        yield Guarded(service, tokens)


LATE = {
    "late.toml": """format = 2
name = "late"
[[step]]
name = "pay"
[[step]]
name = "sign"
needs = ["pay"]
[[step]]
name = "seal"
needs = ["pay"]
""",
    "late.service.toml": '[step.sign]\nkind = "approval"\n[step.seal]\nkind = "approval"\n',
}
"""Approvals that do not start as long as no worker comes."""


ROLES = ("caller", "approver", "worker", "operator", "metrics")
LOOK, START, APPROVE, WORK, OPERATE = "caller approver", "caller", "approver", "worker", ""
FORGED = {"lease": "1." + "0" * 32}
WAITING = {"kind": "approval", "step": "none"}
CALLS: list[tuple[str, str, str, Any, int]] = [
    (START, "POST", "/v1/sagas", {"definition": "trip", "key": "roles"}, 200),
    (LOOK, "GET", "/v1/sagas", None, 200),
    (LOOK, "GET", "/v1/sagas/roles", None, 200),
    (LOOK, "GET", "/v1/sagas/roles/log", None, 200),
    (LOOK, "GET", "/v1/sagas/roles/timeline", None, 200),
    (LOOK, "GET", "/v1/sagas/roles/picture.svg", None, 200),
    (LOOK, "GET", "/v1/sagas/roles/certificate", None, 404),
    (LOOK, "GET", "/v1/sagas/roles/export", None, 200),
    (LOOK, "GET", "/v1/sagas/roles/wait?seconds=0", None, 200),
    (LOOK, "GET", "/v1/events", None, 200),
    (APPROVE, "POST", "/v1/sagas/asks/steps/review/complete", {"result": 1, "undo": True}, 409),
    (APPROVE, "POST", "/v1/sagas/asks/steps/review/fail", {"error": "no", "undo": True}, 409),
    (START, "POST", "/v1/sagas/nobody/abort", {}, 404),
    (START, "POST", "/v1/sagas/nobody/restart", {"key": "again"}, 404),
    (WORK, "POST", "/v1/tasks/claim", {"steps": ["order/send"], "wait": 0}, 200),
    (WORK, "POST", "/v1/tasks/claim/end", {"worker": "w"}, 200),
    (WORK, "POST", "/v1/tasks/x/heartbeat", FORGED, 403),
    (WORK, "POST", "/v1/tasks/x/complete", FORGED, 403),
    (WORK, "POST", "/v1/tasks/x/fail", {**FORGED, "error": "no"}, 403),
    (WORK, "POST", "/v1/tasks/x/unknown", FORGED, 403),
    (WORK, "POST", "/v1/tasks/report", {"reports": []}, 422),
    (WORK, "GET", "/v1/queues", None, 200),
    (OPERATE, "POST", "/v1/sagas/roles/resolve", {"note": "x"}, 409),
    (OPERATE, "POST", "/v1/sagas/roles/steps/review/compensate", {}, 409),
    (OPERATE, "POST", "/v1/sagas/roles/erase", {}, 409),
    (LOOK, "GET", "/v1/definitions", None, 200),
    (LOOK, "GET", "/v1/trends?range=day", None, 200),
    (LOOK, "GET", "/v1/attention", None, 200),
    (LOOK, "POST", "/v1/sagas/roles/what-if", {"abort": True}, 200),
    (OPERATE, "GET", "/v1/webhooks/deliveries", None, 200),
    (OPERATE, "POST", "/v1/webhooks/deliveries/{id}/redeliver", None, 404),
    (OPERATE, "POST", "/v1/bulk/abort", {"filter": {"search": "nobody"}}, 200),
    (OPERATE, "POST", "/v1/bulk/resolve", {"filter": {"kind": "stuck"}, "note": "x"}, 200),
    (OPERATE, "POST", "/v1/bulk/complete", {"filter": WAITING, "result": 1}, 200),
    (OPERATE, "POST", "/v1/bulk/fail", {"filter": WAITING, "error": "no"}, 200),
    (OPERATE, "POST", "/v1/bulk/retry", {"filter": {"kind": "exhausted", "step": "none"}}, 200),
    (OPERATE, "POST", "/v1/sagas/asks/steps/review/retry", {}, 409),
    (LOOK, "GET", "/v1/decisions", None, 200),
    (LOOK, "GET", "/v1/schedules", None, 200),
    (OPERATE, "POST", "/v1/schedules/{name}/pause", None, 404),
    (OPERATE, "POST", "/v1/schedules/{name}/resume", None, 404),
    (OPERATE, "DELETE", "/v1/schedules/{name}", None, 404),
    (LOOK, "GET", "/v1/pauses", None, 200),
    (OPERATE, "POST", "/v1/pauses", {"definition": "none", "note": "x"}, 422),
    (OPERATE, "DELETE", "/v1/pauses", None, 404),
    (OPERATE, "GET", "/v1/nodes", None, 200),
    (OPERATE, "POST", "/v1/nodes/{node}/drain", {"note": "x"}, 404),
    (OPERATE, "POST", "/v1/nodes/{node}/undrain", {}, 404),
    ("metrics", "GET", "/metrics", None, 200),
]
"""The roles that may besides operators, the call, and its status for them."""
FREE = [
    "/health/live",
    "/health/ready",
    "/openapi.json",
    "/",
    "/favicon.ico",
    "/ui/static/{name}",
    "/ui/login",
]
"""Routes without a token."""


def answer_of(client: httpx.Client, method: str, path: str, body: Any) -> tuple[int, str]:
    """Return a status, and the name of an error; of a stream only its head."""
    with client.stream(method, path, json=body) as answer:
        if answer.headers["content-type"] == "application/problem+json":
            answer.read()
            return answer.status_code, error_of(answer)
        return answer.status_code, ""


def test_each_route_has_its_roles(guarded: Guarded) -> None:
    """The calls of the test below are complete."""
    routes = {
        (operation.method, operation.path)
        for some in (*API, *PAGES)
        for operation in some.operations
    }
    tested = {
        (method, re.sub(r"/v1/sagas/(roles|asks|nobody)", "/v1/sagas/{key}", path))
        for _, method, path, _, _ in CALLS
    }
    tested = {
        (
            method,
            path.replace("/v1/tasks/x/", "/v1/tasks/{attempt_id}/").replace(
                "steps/review", "steps/{step}"
            ),
        )
        for method, path in tested
    }
    tested = {(method, path.partition("?")[0]) for method, path in tested}
    pages = {(method, path) for method, path in routes if path.startswith("/ui")}
    assert routes - pages - tested == {("GET", path) for path in FREE if not path.startswith("/ui")}
    assert {path for method, path in pages if method == "POST"} == {
        "/ui/login",
        *(path.replace("KEY", "{key}").replace("msg_1", "{id}") for path in POSTED),
    }


def test_roles(guarded: Guarded) -> None:
    """Each call is for its roles, and for operators; a missing or wrong token is refused."""
    clients = {role: guarded.client(role) for role in ROLES}
    strangers = [
        guarded.client(None),
        guarded.service.client("wrong"),
        guarded.service.client(guarded.tokens["operator"][:-1]),
    ]
    start(clients["caller"], "trip", "roles")
    start(clients["caller"], "order", "asks")
    try:
        for good, method, path, body, status in CALLS:
            for role, client in clients.items():
                returned, name = answer_of(client, method, path, body)
                if role == "approver" and path.startswith("/v1/sagas/asks/steps/review/"):
                    # a compensation is not an approval: see below
                    assert (returned, name) == (
                        403,
                        "Forbidden",
                    )
                elif role in (*good.split(), "operator"):
                    assert returned == status and name != "Forbidden", (
                        role,
                        method,
                        path,
                        returned,
                        name,
                    )
                else:
                    assert (returned, name) == (403, "Forbidden"), (
                        role,
                        method,
                        path,
                        returned,
                        name,
                    )
            for stranger in strangers:
                assert answer_of(stranger, method, path, body)[0] in (401, 429), (method, path)
        anonymous = strangers[0]
        assert (
            anonymous.get("/health/live").status_code
            == anonymous.get("/health/ready").status_code
            == 200
        )
        assert anonymous.get("/ui/events").status_code == 403
    finally:
        for client in (*clients.values(), *strangers):
            client.close()


POSTED = (
    "/ui/logout",
    "/ui/start",
    "/ui/inbox",
    "/ui/sagas/KEY/abort",
    "/ui/sagas/KEY/resolve",
    "/ui/sagas/KEY/restart",
    "/ui/sagas/KEY/erase",
    "/ui/sagas/{key}/steps/{step}/compensate",
    "/ui/sagas/{key}/steps/{step}/{outcome}",
    "/ui/schedules/{name}/{change}",
    "/ui/pauses",
    "/ui/pauses/resume",
    "/ui/nodes",
    "/ui/webhooks/{id}/redeliver",
)


def test_pages_have_no_roles_but_a_session(guarded: Guarded) -> None:
    """No bearer token opens them, and none of them does anything: each form is refused before it is
    read.
    """
    for role in (None, *ROLES):
        with guarded.client(role) as client:
            for path in POSTED:
                path = (
                    path.replace("KEY", "asks")
                    .replace("{key}", "asks")
                    .replace("{step}", "review")
                    .replace("{outcome}", "done")
                    .replace("{change}", "pause")
                    .replace("{id}", "msg_1")
                )
                answer = client.post(path, data={"csrf": "x", "result": "1"})
                assert (
                    answer.status_code == 403 and "The form is not of this session" in answer.text
                )
    with logged_in(guarded) as client:
        for outcome in ("approve", "Done", "x"):
            assert client.get(f"/ui/sagas/asks/steps/review/{outcome}").status_code == 404


def waits(client: httpx.Client, key: str, why: str) -> None:
    deadline = time.monotonic() + LONG
    while why not in [wait["why"] for wait in client.get(f"/v1/sagas/{key}").json()["waits"]]:
        assert time.monotonic() < deadline


BOTH = [
    ("complete", {}, "result: is required"),
    ("complete", {"note": "NO"}, "result: is required"),
    ("complete", {"undo": False}, "result: is required"),
    ("complete", {"result": 1, "error": "x"}, "error: unknown field"),
    ("complete", {"approved": True, "result": 1}, "approved: unknown field"),
    ("complete", {"result": 1, "note": 5}, "note: must be a string"),
    ("complete", {"result": 1, "undo": "no"}, "undo: must be true or false"),
    ("complete", [], "the body: must be an object"),
    ("complete", [["result", 1]], "the body: must be an object"),
    ("fail", {}, "error: is required"),
    ("fail", {"error": "x", "result": 1}, "result: unknown field"),
    ("fail", {"error": None}, "error: must be a string"),
    ("fail", {"error": 5}, "error: must be a string"),
    ("fail", [["error", "x"]], "the body: must be an object"),
]


def test_an_approval_is_given_on_purpose(guarded: Guarded) -> None:
    """It needs a `result` or an `error`; else the response says so, and nothing is done."""
    with guarded.client("approver") as approver, guarded.client("caller") as caller:
        start(caller, "order", "purpose")
        waits(approver, "purpose", "approval")
        for word, body, says in BOTH:
            answer = approver.post(f"/v1/sagas/purpose/steps/review/{word}", json=body)
            assert (answer.status_code, error_of(answer)) == (
                422,
                "InvalidRequest",
            ) and says in answer.json()["detail"], (body, answer.text)
        assert caller.get("/v1/sagas/purpose").json()["states"]["review"] == "begun"
        assert (
            approver.post(
                "/v1/sagas/purpose/steps/review/complete", json={"result": None}
            ).status_code
            == 200
        )
        assert caller.get("/v1/sagas/purpose").json()["results"]["review"] is None
        start(caller, "order", "refused")
        waits(approver, "refused", "approval")
        assert (
            approver.post(
                "/v1/sagas/refused/steps/review/fail", json={"error": "too expensive", "note": "no"}
            ).status_code
            == 200
        )
        assert caller.get("/v1/sagas/refused/wait?seconds=60").json()["errors"] == {
            "review": "too expensive"
        }


def test_the_right_to_approve(guarded: Guarded) -> None:
    """Neither the token that starts a saga nor a worker's may; and an approver reports no other
    step.
    """
    with contextlib.ExitStack() as stack:
        clients = {role: stack.enter_context(guarded.client(role)) for role in ROLES}
        caller, approver, operator = clients["caller"], clients["approver"], clients["operator"]
        start(caller, "order", "by-whom")
        waits(caller, "by-whom", "approval")
        for role in ("caller", "worker", "metrics"):
            assert (
                clients[role]
                .post("/v1/sagas/by-whom/steps/review/complete", json={"result": 1})
                .status_code
                == 403
            )
        for step in ("send", "none", "review%2F", "x" * 70):
            answer = approver.post(f"/v1/sagas/by-whom/steps/{step}/complete", json={"result": 1})
            assert (answer.status_code, error_of(answer)) == (
                403,
                "Forbidden",
            ) and "is not an approval" in answer.json()["detail"]
        assert (
            approver.post("/v1/sagas/nobody/steps/review/complete", json={"result": 1}).status_code
            == 404
        )
        assert (
            approver.post("/v1/sagas/by-whom/steps/review/complete", json={"result": 1}).status_code
            == 200
        )
        start(caller, "trip", "by-an-operator")
        waits(caller, "by-an-operator", "worker")
        assert (
            approver.post(
                "/v1/sagas/by-an-operator/steps/flight/complete", json={"result": 1}
            ).status_code
            == 403
        )
        assert (
            operator.post(
                "/v1/sagas/by-an-operator/steps/flight/complete", json={"result": 1}
            ).status_code
            == 200
        )


def test_an_approval_before_it_begins(guarded: Guarded) -> None:
    """A token that may approve may do so; an approver reports no other step of the saga.

    The page of the saga has it, with a form.
    """
    with guarded.client("caller") as caller, guarded.client("approver") as approver:
        start(caller, "late", "ahead")
        url = "/v1/sagas/ahead/steps"
        body = {"result": 1}
        for client, step, status in (
            (caller, "sign", 403),
            (approver, "pay", 403),
            (approver, "sign", 200),
        ):
            assert client.post(f"{url}/{step}/complete", json=body).status_code == status
        late = approver.post(f"{url}/seal/fail", json={"error": "no", "early": False})
        assert (late.status_code, error_of(late)) == (409, "StepNotWaiting")
        with logged_in(guarded) as page:
            page_text = page.get("/ui/sagas/ahead").text
            assert "its success is reported" in page_text and "Approve sign before" not in page_text
            assert "Approve seal before it begins" in page_text
            form = "/ui/sagas/ahead/steps/seal/failed"
            assert "Refuse step seal?" in page.get(form).text
            sent = {"csrf": csrf_of(page, form), "failed": "too expensive"}
            assert page.post(form, data=sent).status_code == 303
            assert "its failure is reported" in page.get("/ui/sagas/ahead").text
        page_text = {"seal": "fail", "sign": "complete"}
        assert caller.get("/v1/sagas/ahead").json()["early"] == page_text


@contextlib.contextmanager
def logged_in(guarded: Guarded) -> Iterator[httpx.Client]:
    with guarded.client(None) as client:
        answer = client.post("/ui/login", data={"token": guarded.tokens["operator"], "next": "/ui"})
        assert answer.status_code == 303 and answer.headers["location"] == "/ui", answer.text
        yield client


def csrf_of(client: httpx.Client, path: str) -> str:
    match = re.search(r'name="csrf" value="([^"]+)"', client.get(path).text)
    assert match
    return match[1]


def test_the_page_wants_a_session(guarded: Guarded) -> None:
    """It redirects to the login, which takes an operator's token only, and redirects to no other
    site.
    """
    with guarded.client(None) as client:
        for path in (
            "/ui",
            "/ui/sagas",
            "/ui/sagas/x",
            "/ui/workers",
            "/ui/sagas/x/abort",
            "/ui/sagas/x/resolve",
            "/ui/sagas/x/steps/y/done",
            "/ui/sagas/x/certificate",
            "/ui/sagas/x/export",
        ):
            assert client.get(path).headers["location"].startswith("/ui/login?next="), path
        for bad in (guarded.tokens["caller"], "x"):
            assert client.post("/ui/login", data={"token": bad}).status_code == 403
        for url in ("https://elsewhere.example/", "//elsewhere.example", "/ui\\@x", "/v1/sagas"):
            answer = client.post(
                "/ui/login", data={"token": guarded.tokens["operator"], "next": url}
            )
            assert answer.headers["location"] == "/ui"
            cookie = answer.headers["set-cookie"]
            assert (
                "HttpOnly" in cookie
                and "SameSite=lax" in cookie
                and "Path=/ui" in cookie
                and guarded.tokens["operator"] not in cookie
            )
    with guarded.client(None) as client:
        paths = [
            f"/ui/sagas/{key}"
            for key in (
                "order%237",
                "100%2541",
                "what%3Fx%3D1?unfold=all",
                "a%2Fb",
                "%C3%A9?unfold=a&b=%26",
            )
        ]
        queries = [urlsplit(client.get(path).headers["location"]).query for path in paths]
        assert [parse_qs(query)["next"] for query in queries] == [[path] for path in paths]
        for path in paths:
            answer = client.post(
                "/ui/login", data={"token": guarded.tokens["operator"], "next": path}
            )
            assert answer.headers["location"] == path
    with guarded.client("operator") as bearer:
        assert bearer.get("/ui").status_code == 303  # a bearer token is not a session


FOREIGN = (
    (
        {"Origin": "https://elsewhere.example"},
        "has the Origin 'https://elsewhere.example' and the Host 'HOST'",
    ),
    ({"Origin": "null"}, "has the Origin 'null' and the Host 'HOST'"),
    (
        {"Origin": "http://own.example:8443", "Host": "own.example"},
        "A proxy must forward the browser's Host header, with its port",
    ),
    ({"Sec-Fetch-Site": "cross-site"}, "has the Sec-Fetch-Site 'cross-site'"),
    ({"Sec-Fetch-Site": "same-site"}, "has the Sec-Fetch-Site 'same-site'"),
)
"""Headers of requests that come from other pages, and their responses."""


def test_forms_are_the_session_s_own(guarded: Guarded) -> None:
    """Without its CSRF token, or with another session's, a form does nothing; and no other page's
    request changes anything.
    """
    with guarded.client("caller") as caller:
        start(caller, "order", "forms")
    with logged_in(guarded) as client, logged_in(guarded) as other:
        right, foreign = csrf_of(client, "/ui/sagas/forms/abort"), csrf_of(
            other, "/ui/sagas/forms/abort"
        )
        for csrf in ("", "x", foreign, "ü"):
            assert client.post("/ui/sagas/forms/abort", data={"csrf": csrf}).status_code == 403
        for headers, message in FOREIGN:
            answer = client.post("/ui/sagas/forms/abort", data={"csrf": right}, headers=headers)
            assert (answer.status_code, answer.headers["content-type"]) == (
                403,
                "text/html; charset=utf-8",
            )
            assert "A page of another site sent the request" in answer.text
            assert message.replace("HOST", guarded.service.address) in html.unescape(answer.text)
            with guarded.client("caller") as caller:
                answer = caller.post("/v1/sagas/forms/abort", json={}, headers=headers)
                assert (answer.status_code, error_of(answer)) == (403, "CrossOrigin")
                assert message.replace("HOST", guarded.service.address) in answer.json()["detail"]
        assert (
            client.post(
                "/ui/sagas/forms/abort", content=b"{}", headers={"content-type": "text/plain"}
            ).status_code
            == 415
        )
        with guarded.client("caller") as caller:
            assert caller.get("/v1/sagas/forms").json()["aborted"] is False
        answer = client.post(
            "/ui/sagas/forms/abort",
            data={"csrf": right, "note": "enough"},
            headers={"Origin": guarded.service.url},
        )
        assert answer.status_code == 303
        assert (
            "enough" in client.get("/ui/sagas/forms").text
            and "<b>operator</b>" in client.get("/ui/sagas/forms").text
        )
        assert client.post("/ui/logout", data={"csrf": right}).status_code == 303
        assert client.get("/ui").status_code == 303


def test_the_cookies_of_two_services(guarded: Guarded) -> None:
    """A browser sends those of a host to all of its ports: each service has its own name."""
    port = guarded.service.address.rpartition(":")[2]
    with guarded.client(None) as client:
        for host, name in (
            (f"other:{port}", f"sagas_session_{port}"),
            ("[::1]:81", "sagas_session_81"),
            ("other", "sagas_session"),
            ("[::1]", "sagas_session"),
        ):
            answer = client.post(
                "/ui/login", data={"token": guarded.tokens["operator"]}, headers={"Host": host}
            )
            assert answer.headers["set-cookie"].partition("=")[0] == name
        client.cookies.clear()
    with logged_in(guarded) as client:
        client.cookies.set("sagas_session_81", "another service's")
        client.cookies.set("sagas_session", "another one's")
        assert client.get("/ui").status_code == 200


@contextlib.contextmanager
def half_sent(
    service: Served, path: str, kind: str, body: bytes, **headers: str
) -> Iterator[tuple[Any, bytes]]:
    """Send a request except for its body; return its connection, and the rest.

    Its token was checked: the service has asked for the body, and has its first byte.
    """
    fields = {
        "Host": service.address,
        "Content-Type": f"application/{kind}",
        "Content-Length": str(len(body)),
        "Expect": "100-continue",
        **headers,
    }
    head = "".join(f"{name}: {value}\r\n" for name, value in fields.items())
    with raw(service) as connection:
        connection.sendall(f"POST {path} HTTP/1.1\r\n{head}\r\n".encode())
        assert b" 100 " in connection.recv(1000)
        connection.sendall(body[:1])
        yield connection, body[1:]


def test_a_revoked_token(tmp_path: pathlib.Path) -> None:
    """Its bearer and its sessions end with it, without a restart, and so does a request whose body
    is still to come; if the file cannot be read, the others stay valid.
    """
    tokens = {
        role: token(tmp_path, role, role.rpartition("-")[2])
        for role in ("an-operator", "a-caller", "second-operator")
    }
    file = tmp_path / "tokens.toml"
    assert file.stat().st_mode & 0o077 == 0 and tokens["an-operator"] not in file.read_text()
    with contextlib.ExitStack() as stack:
        service = stack.enter_context(served(tmp_path, DEFINITIONS, "--token-file", str(file)))
        first, caller, second = (
            stack.enter_context(service.client(word)) for word in tokens.values()
        )
        page = stack.enter_context(service.client())
        assert first.get("/v1/sagas").status_code == second.get("/v1/sagas").status_code == 200
        page.post("/ui/login", data={"token": tokens["an-operator"]})
        assert page.get("/ui").status_code == 200
        start(second, "order", "late")
        note, form = (
            b'{"note": "late"}',
            urlencode({"csrf": csrf_of(page, "/ui/sagas/late/abort")}).encode(),
        )
        cookie = "; ".join(f"{name}={value}" for name, value in page.cookies.items())
        call = half_sent(
            service,
            "/v1/sagas/late/abort",
            "json",
            note,
            Authorization=f"Bearer {tokens['an-operator']}",
        )
        narrowed = half_sent(
            service,
            "/v1/sagas/late/abort",
            "json",
            note,
            Authorization=f"Bearer {tokens['a-caller']}",
        )
        sent = half_sent(
            service, "/ui/sagas/late/abort", "x-www-form-urlencoded", form, Cookie=cookie
        )
        some = [stack.enter_context(manager) for manager in (call, narrowed, sent)]
        kept = file.read_text().split("[[token]]\n")[2:]
        file.write_text("[[token]]\n" + '[[token]]\ndefinitions = ["trip"]\n'.join(reversed(kept)))
        deadline = time.monotonic() + LONG
        while first.get("/v1/sagas").status_code != 401:
            assert time.monotonic() < deadline
            time.sleep(0.1)
        assert caller.get("/v1/sagas/late").status_code == 404
        for connection, rest in some:
            connection.sendall(rest)
        assert [answered(connection) for connection, _ in some] == [
            (401, "Unauthorized"),
            (503, "RightsChanged"),
            (403, ""),
        ]
        assert second.get("/v1/sagas/late").json()["aborted"] is False
        assert page.get("/ui").status_code == 303 and second.get("/v1/sagas").status_code == 200
        file.write_text("[[token]\n")
        while "tokens.toml: cannot be read" not in service.log_text():
            assert second.get("/v1/sagas").status_code == 200 and time.monotonic() < deadline
            time.sleep(0.1)
        assert "the previous tokens stay valid until it is fixed" in service.log_text()


def test_texts_are_no_markup(guarded: Guarded) -> None:
    """Keys, inputs, results, errors, notes and names are shown as text in pages and pictures."""
    key = f"k{NASTY}/../x"
    with guarded.client("operator") as client, logged_in(guarded) as page:
        stuck(client, "plain")
        start(client, "order", key, {NASTY: NASTY})
        client.post(
            f"/v1/sagas/{quoted(key)}/steps/review/complete", json={"result": NASTY, "note": NASTY}
        )
        (task,) = client.post(
            "/v1/tasks/claim", json={"steps": ["order/send"], "worker": NASTY[:60], "lease": 600}
        ).json()["tasks"]
        texts = [
            page.get(f"/ui/{path}").text
            for path in (
                f"sagas/{quoted(key)}",
                "sagas",
                f"sagas?search={quoted(NASTY)}",
                "workers",
                "",
                f"sagas/{quoted(key)}/steps/send/done",
            )
        ]
        assert "complete…" in texts[0]
        client.post(
            f"/v1/tasks/{task['attempt_id']}/fail",
            json={"lease": task["lease"], "error": NASTY, "final": True},
        )
        texts += [
            page.get(f"/ui/sagas/{quoted(key)}").text,
            client.get(f"/v1/sagas/{quoted(key)}/picture.svg").text,
        ]
        client.post("/v1/sagas/plain/resolve", json={"note": NASTY})
        texts += [
            page.get("/ui/sagas/plain").text,
            page.get("/ui/sagas?phase=resolved").text,
            page.get(f"/ui/sagas/{quoted(NASTY)}").text,
        ]
        for number, text in enumerate(texts):
            assert "<script>alert" not in text and "49" not in re.findall(
                r"&#39;&amp;(\d+)", text
            ), number
        assert sum("&lt;script&gt;" in text for text in texts) >= 9


def quoted(text: str) -> str:
    from urllib.parse import quote

    return quote(text, safe="")


def test_headers(guarded: Guarded) -> None:
    """Each response forbids fetching from elsewhere, framing, sniffing and caching."""
    with guarded.client("operator") as client, logged_in(guarded) as page:
        for answer in (
            page.get("/ui"),
            client.get("/v1/sagas"),
            client.get("/nowhere"),
            client.get("/health/live"),
        ):
            assert (
                "default-src 'none'" in answer.headers["content-security-policy"]
                and "unsafe" not in answer.headers["content-security-policy"]
            )
            assert (
                answer.headers["x-content-type-options"] == "nosniff"
                and answer.headers["cache-control"] == "no-store"
            )
            assert answer.headers["x-frame-options"] == "DENY" and "server" not in answer.headers
        assert (
            "http://" not in page.get("/ui").text.replace("http://www.w3.org", "")
            and "https://" not in page.get("/ui").text
        )


def test_without_tokens_only_the_loopback_s_names(tmp_path: pathlib.Path) -> None:
    """A request for a name that another page made point here gets no answer; and rates
    are limited.
    """
    with served(tmp_path, DEFINITIONS, "--rate", "0.4") as service, service.client() as client:
        assert (
            error_of(client.get("/v1/sagas", headers={"Host": "elsewhere.example"}))
            == "UnknownHost"
        )
        for name in ("localhost:1", "127.0.0.1", "[::1]:80"):
            assert client.get("/health/live", headers={"Host": name}).status_code == 200
        assert "every local user has full access" in service.log_text()
        statuses = {client.get("/v1/sagas").status_code for _ in range(60)}
        assert 429 in statuses and statuses <= {200, 429}
        deadline = time.monotonic() + LONG
        while client.get("/v1/sagas").status_code != 200:
            assert time.monotonic() < deadline
            time.sleep(0.5)
