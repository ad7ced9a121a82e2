"""What the service shows to which client, and who may read its files."""

from __future__ import annotations

import os
import pathlib
import re
from collections.abc import Iterator

import httpx
import pytest
from cases import run, simple
from server import Server
from serving import DEFINITIONS, LONG, Served, command, served, start, stuck, token

import sagas
from sagas.server import auth
from sagas.storage.folder_blobs import FolderBlobStore
from sagas.storage.record_file import RecordFile

PAGES = [
    "/ui",
    "/ui?kind=unknown&search=a%26b",
    "/ui/sagas?label=a%3Db#top",
    "/ui/workers",
    "/ui/start",
    "/ui/sagas/order-1",
    "/ui/sagas/a%2Fb%23c%3F%25/abort",
    "/ui/definitions/trip",
]
ELSEWHERE = [
    "",
    "/",
    "/uix",
    "/ui//evil.example",
    "/ui/../v1/sagas",
    "/ui/..//evil.example",
    "//evil.example",
    "https://evil.example/ui",
    "/ui\\evil.example",
    "/ui/sagas/a/b/c/d",
    "/ui/nothing",
    "/ui/events",
    "/ui/static/page.js",
    "/ui/login?next=/ui",
    "/ui/sagas/\r\nX: y",
    "/ui/sagas/\u202e",
    "/v1/sagas",
]


@pytest.fixture(scope="module")
def service(tmp_path_factory: pytest.TempPathFactory) -> Iterator[tuple[Served, str]]:
    folder = tmp_path_factory.mktemp("secrets")
    operator = token(folder, "op", "operator")
    options = ("--token-file", str(folder / "tokens.toml"))
    with served(folder, DEFINITIONS, *options) as service:
        yield service, operator


def leads_to(service: Served, token: str, wanted: str) -> str:
    """Return the target of a login that was requested with this target."""
    with service.client() as client:
        answer = client.post("/ui/login", data={"token": token, "next": wanted})
    assert answer.status_code == 303
    return answer.headers["location"]


@pytest.mark.parametrize("wanted", PAGES)
def test_a_login_leads_back(service: tuple[Served, str], wanted: str) -> None:
    assert leads_to(*service, wanted) == wanted


@pytest.mark.parametrize("wanted", ELSEWHERE, ids=range(len(ELSEWHERE)))
def test_a_login_leads_nowhere_else(service: tuple[Served, str], wanted: str) -> None:
    assert leads_to(*service, wanted) == "/ui"


BODIES = [
    '{"definition":"trip","key":"a","key":"b"}',
    '{"definition":"trip","key":"a","input":{"x":{"role":"user","role":"admin"}}}',
    '{"definition":"trip","key":"a","input":[{"\\u0061":1,"a":2}]}',
]


@pytest.mark.parametrize("body", BODIES)
def test_a_key_comes_once(service: tuple[Served, str], body: str) -> None:
    """Of two keys, programs differ in which one counts."""
    with service[0].client(service[1]) as client:
        headers = {"content-type": "application/json"}
        answer = client.post("/v1/sagas", content=body, headers=headers)
        assert answer.status_code == 400 and "an object has a key twice" in answer.text
        assert client.get("/v1/sagas/a").status_code == client.get("/v1/sagas/b").status_code == 404


QUERIES = [
    ("limit", "1_0"),
    ("limit", "٣"),
    ("limit", "+5"),
    ("limit", " 5"),
    ("limit", "1e1"),
    ("limit", "5.0"),
    ("limit", "１"),
    ("started_after", "1_000"),
    ("started_after", "١"),
    ("started_after", "inf"),
    ("started_after", "nan"),
    ("started_after", "٢027-01-01T00:00:00Z"),
    ("after", "١-١"),
]


@pytest.mark.parametrize("name, value", QUERIES)
def test_numbers_are_those_of_json(service: tuple[Served, str], name: str, value: str) -> None:
    with service[0].client(service[1]) as client:
        answer = client.get("/v1/sagas", params={name: value})
        assert answer.status_code == 422 and answer.json()["field"] == name, answer.text
        assert client.get("/v1/sagas?limit=10&started_after=1.5e3").status_code == 200


def test_the_document_has_each_answer(service: tuple[Served, str]) -> None:
    """Of each operation: the response to a parameter that it does not have.

    The client compares each response with the document.
    """
    with service[0].client(service[1]) as client:
        document = client.get("/openapi.json")
        for path, methods in document.json()["paths"].items():
            for method, operation in methods.items():
                assert "422" in operation["responses"], (method, path)
                if method == "get":
                    answer = client.get(re.sub(r"\{\w+\}", "x", path), params={"unknown": "1"})
                    assert answer.status_code == 422, (path, answer.text)
        tag = document.headers["etag"]
        assert client.get("/openapi.json", headers={"if-none-match": tag}).status_code == 304
        assert "304" in document.json()["paths"]["/openapi.json"]["get"]["responses"]
        stuck(client, "stuck")
        text = client.get("/v1/sagas/stuck/certificate?form=text")
        operation = document.json()["paths"]["/v1/sagas/{key}/certificate"]["get"]["responses"][
            "200"
        ]
        assert text.headers["content-type"].startswith("text/plain")
        assert set(operation["content"]) == {"application/json", "text/plain"}


def test_a_lost_database_is_not_named(postgresql: Server, tmp_path: pathlib.Path) -> None:
    """Its role, host, port and name are only in the log."""
    url = postgresql.create()
    name = url.rpartition("/")[2]
    names = {role: token(tmp_path, role, role) for role in ("caller", "worker", "operator")}
    options = ("--token-file", str(tmp_path / "tokens.toml"), "--node", "secret-node")
    with served(tmp_path, DEFINITIONS, *options, store=url) as service:
        with service.client(names["caller"]) as client:
            start(client, "trip", "k")
        postgresql.drop(url)
        requests = [
            ("caller", "GET", "/v1/sagas/k", None),
            ("caller", "GET", "/v1/sagas", None),
            ("caller", "POST", "/v1/sagas", {"definition": "trip", "key": "x"}),
            ("worker", "POST", "/v1/tasks/claim", {"steps": ["trip/flight"], "wait": 0}),
            ("worker", "GET", "/v1/queues", None),
            ("operator", "POST", "/v1/sagas/k/steps/flight/complete", {"result": 1}),
        ]
        statuses = set()
        for role, method, path, body in requests:
            with service.client(names[role]) as client:
                answer = client.request(method, path, json=body)
            statuses.add(answer.status_code)
            for secret in (name, "owner", "127.0.0.1", "secret-node", "postgresql://"):
                assert secret not in answer.text, (path, answer.text)
        ready = httpx.get(f"{service.url}/health/ready", trust_env=False, timeout=LONG).text
        assert 503 in statuses and name not in ready
        assert name in service.log_text()


def modes(folder: pathlib.Path) -> dict[str, int]:
    """Return the modes of all files of a folder and below."""
    return {path.name: path.stat().st_mode & 0o777 for path in folder.rglob("*") if path.is_file()}


def test_files_are_private(tmp_path: pathlib.Path) -> None:
    """Those of SQLite, of a record and of a blob store, whatever the umask."""
    (tmp_path / "blobs").mkdir()
    before = os.umask(0)
    try:

        async def main() -> dict[str, int]:
            saga = simple(lambda task: None)
            async with sagas.open(str(tmp_path / "store.db"), [saga]) as store:
                await (await store.start(saga, "k")).wait()
                return modes(tmp_path)

        file_modes = run(main())
        assert "store.db-wal" in file_modes
        FolderBlobStore(tmp_path / "blobs").put("00/ff", b"secret")
        record = RecordFile(str(tmp_path / "record"), "run")
        record.open()
        record.close()
    finally:
        os.umask(before)
    file_modes |= modes(tmp_path)
    # it is empty, and names the program that has the store open
    assert file_modes.pop("store.db.lock") == 0o644
    assert {*file_modes.values()} == {0o600}, file_modes


def test_files_of_rights(tmp_path: pathlib.Path) -> None:
    """A file that every user may write is refused; one that others may read is logged.

    `sagas token` follows no link, and keeps the mode of a file.
    """
    token(tmp_path, "a", "caller")
    path = tmp_path / "tokens.toml"
    assert path.stat().st_mode & 0o777 == 0o600 and auth.mode_warning(path) is None
    os.umask(before := os.umask(0))
    os.umask(0)
    try:
        (tmp_path / "other").mkdir()
        token(tmp_path / "other", "a", "caller")
    finally:
        os.umask(before)
    assert (tmp_path / "other" / "tokens.toml").stat().st_mode & 0o777 == 0o600
    for mode, says in (
        (0o640, None),
        (0o644, "every user may read"),
        (0o660, "its group may write"),
    ):
        path.chmod(mode)
        token(tmp_path, f"b{mode}", "caller")
        assert path.stat().st_mode & 0o777 == mode and len(auth.read(path)) > 1
        message = auth.mode_warning(path)
        assert message is says is None or (message and says and says in message)
    path.chmod(0o666)
    with pytest.raises(auth.TokenFault, match="every user may write it .mode 0666.: run chmod o-w"):
        auth.read(path)
    path.chmod(0o600)
    link = tmp_path / "link.toml"
    for target in (path, tmp_path / "nothing"):
        link.symlink_to(target)
        done = command("token", str(link), "x", "caller")
        assert done.returncode == 4 and "symbolic link" in done.stderr
        link.unlink()
    assert not (tmp_path / "nothing").exists()
    hooks = tmp_path / "hooks.toml"
    hooks.write_text("")
    hooks.chmod(0o644)
    with served(tmp_path, DEFINITIONS, "--webhooks", str(hooks)) as service:
        assert "hooks.toml: every user may read it" in service.log_text()
    hooks.chmod(0o602)
    (tmp_path / "definitions").mkdir(exist_ok=True)
    done = command(
        "serve",
        str(tmp_path / "s.db"),
        "--definitions",
        str(tmp_path / "definitions"),
        "--webhooks",
        str(hooks),
    )
    assert done.returncode == 4 and "every user may write it" in done.stderr
