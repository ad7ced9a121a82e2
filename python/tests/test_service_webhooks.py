"""Webhooks: posts that a receiver can verify, retries, and the list of deliveries."""

from __future__ import annotations

import asyncio
import base64
import contextlib
import hashlib
import hmac
import http.server
import json
import pathlib
import socket
import threading
import time
from collections.abc import Iterator
from typing import Any

import httpx
import pytest
from serving import DEFINITIONS, LONG, all_done, host, report, served, start, stuck, take, token

import sagas
from sagas.cli.snapshot import Snapshot
from sagas.core.webhook_rows import TYPES
from sagas.inspection import delivery_questions
from sagas.server import webhooks
from sagas.server.webhooks import Webhook, WebhookFault, Webhooks
from sagas.storage.webhook_deliveries import Claimed

SECRET = base64.b64encode(b"k" * 32).decode()


class Receiver:
    """A server outside of the package, which answers with these statuses first, and then
    with 204.
    """

    def __init__(self, *statuses: int) -> None:
        self.got: list[tuple[dict[str, str], bytes]] = []
        self.left = left = [*statuses]
        got = self.got

        class Handler(http.server.BaseHTTPRequestHandler):
            def do_POST(self) -> None:
                body = self.rfile.read(int(self.headers["content-length"]))
                headers = {name.lower(): value for name, value in self.headers.items()}
                got.append((headers | {"came": str(time.time())}, body))
                self.send_response(left.pop(0) if left else 204)
                self.send_header("location", "/elsewhere")
                self.send_header("content-length", "0")
                self.end_headers()

            def log_message(self, *arguments: Any) -> None:
                ...

        self.server = http.server.ThreadingHTTPServer((host(), 0), Handler)
        threading.Thread(target=self.server.serve_forever, daemon=True).start()

    @property
    def url(self) -> str:
        return f"http://{self.server.server_address[0]!s}:{self.server.server_address[1]}/hook?a=1"

    def wait(self, count: int) -> list[dict[str, Any]]:
        """Return `count` verified posts, in the order of their times."""
        deadline = time.monotonic() + LONG
        while len(self.got) < count:
            assert time.monotonic() < deadline, self.got
            time.sleep(0.05)
        for headers, body in self.got:
            text = f"{headers['webhook-id']}.{headers['webhook-timestamp']}.".encode() + body
            code = hmac.new(b"k" * 32, text, hashlib.sha256).digest()
            assert headers["webhook-signature"] == f"v1,{base64.b64encode(code).decode()}"
            assert abs(int(headers["webhook-timestamp"]) - float(headers["came"])) < LONG
        return [json.loads(body) for _, body in self.got]


@pytest.fixture
def receiver() -> Iterator[Receiver]:
    receiver = Receiver()
    yield receiver
    receiver.server.shutdown()


def written(folder: pathlib.Path, *tables: str) -> str:
    """Return a file of webhooks."""
    path = folder / "webhooks.toml"
    path.write_text("".join(f"[[webhook]]\n{table}\n" for table in tables))
    return str(path)


def table(url: str, more: str = "") -> str:
    return f'name = "one"\nurl = "{url}"\nsecret = "whsec_{SECRET}"\n{more}'


def test_posts_of_a_webhook(tmp_path: pathlib.Path, receiver: Receiver) -> None:
    """Ends, stuck sagas, and what needs an operator; no input, result or error is in it."""
    options = ("--local-webhooks", "--webhooks", written(tmp_path, table(receiver.url)))
    with served(tmp_path, DEFINITIONS, *options) as service, service.client() as client:
        start(client, "trip", "good", {"secret": "input"})
        all_done(client, "trip/flight", "trip/car", "trip/tour")
        start(client, "trip", "bad")
        all_done(
            client, "trip/flight", "trip/car", "trip/tour", "trip/car/undo", failing=["trip/tour"]
        )
        stuck(client, "stuck-1")
        start(client, "order", "asked")
        start(client, "trip", "hazy")
        all_done(client, "trip/flight", "trip/car")
        (task,) = take(client, "trip/tour")
        report(client, task, "unknown", error="the line went dead")
        posts = receiver.wait(5)
        posts_by_key = {(post["type"], post["data"]["key"]): post["data"] for post in posts}
        assert {*posts_by_key} == {
            ("saga.completed", "good"),
            ("saga.recovered", "bad"),
            ("saga.stuck", "stuck-1"),
            ("saga.attention", "asked"),
            ("saga.attention", "hazy"),
        }
        assert posts_by_key["saga.attention", "asked"]["kind"] == "approval"
        assert posts_by_key["saga.attention", "hazy"] == {
            "key": "hazy",
            "definition": "trip",
            "kind": "unknown",
            "step": "tour",
            "undo": False,
        }
        assert not any(b"secret" in body or b"dead" in body for _, body in receiver.got)
        listed = client.get("/v1/webhooks/deliveries?state=delivered").json()["deliveries"]
        assert len(listed) == 5 and listed[0]["attempts"] == 1 and SECRET not in str(listed)


def test_it_is_repeated(tmp_path: pathlib.Path) -> None:
    """It has the same id, also after a redirect, which is not followed; 410 ends it."""
    first, second = Receiver(500, 302), Receiver(410)
    tables = (
        table(first.url),
        table(second.url, 'definitions = ["order"]\ntypes = ["saga.attention"]').replace(
            "one", "two"
        ),
    )
    options = ("--local-webhooks", "--webhooks", written(tmp_path, *tables))
    with served(tmp_path, DEFINITIONS, *options) as service, service.client() as client:
        start(client, "trip", "t")
        all_done(client, "trip/flight", "trip/car", "trip/tour")
        start(client, "order", "o")
        first.wait(4)
        ids = [headers["webhook-id"] for headers, body in first.got if b"saga.completed" in body]
        assert len(set(ids)) == 1
        deadline = time.monotonic() + LONG
        while True:
            listed = client.get("/v1/webhooks/deliveries").json()["deliveries"]
            states = sorted((summary["webhook"], summary["state"]) for summary in listed)
            if states == [("one", "delivered"), ("one", "delivered"), ("two", "failed")]:
                break
            assert time.monotonic() < deadline, states
            time.sleep(0.1)
        assert sum(summary["attempts"] for summary in listed if summary["webhook"] == "one") == 4
        assert service.stop() == 0


def delivered(client: httpx.Client) -> dict[tuple[str, str, str], dict[str, Any]]:
    """Return all deliveries, once each is over, by webhook, type and key."""
    deadline = time.monotonic() + LONG
    while True:
        deliveries: list[dict[str, Any]] = client.get("/v1/webhooks/deliveries").json()[
            "deliveries"
        ]
        if deliveries and all(delivery["state"] != "pending" for delivery in deliveries):
            return {
                (delivery["webhook"], delivery["type"], delivery["key"]): delivery
                for delivery in deliveries
            }
        assert time.monotonic() < deadline, deliveries
        time.sleep(0.1)


def test_it_survives_a_kill(tmp_path: pathlib.Path, store: str | None) -> None:
    """A delivery that was not posted when the service was killed is posted by the next one, under
    its id; one that was posted before is not. Over PostgreSQL two services share the posts: each is
    posted once. A delivery that was given up is posted again if an operator requests it, and only
    then.
    """
    receiver = Receiver(410, *[500] * 3)
    options = (
        "--local-webhooks",
        "--webhooks",
        written(tmp_path, table(receiver.url, 'definitions = ["order", "trip"]')),
    )
    tokens = {role: token(tmp_path, role, role) for role in ("caller", "operator")}
    options += ("--token-file", str(tmp_path / "tokens.toml"))
    with served(tmp_path, DEFINITIONS, *options, store=store) as service, service.client(
        tokens["operator"]
    ) as client:
        start(client, "order", "given-up")
        receiver.wait(1)
        ((_, _, key),) = delivered(client)
        for count in range(3):
            start(client, "order", f"held-{count}")
        receiver.wait(4)
        service.kill()
        assert len({headers["webhook-id"] for headers, _ in receiver.got}) == 4
        service.start()
        with contextlib.ExitStack() as others:
            if store:
                other = tmp_path / "other"
                other.mkdir()
                others.enter_context(served(other, DEFINITIONS, *options, store=store))
            deliveries = delivered(client)
            assert {delivery["state"] for delivery in deliveries.values()} == {
                "delivered",
                "failed",
            }
            ids = [headers["webhook-id"] for headers, _ in receiver.got]
            assert ids.count(deliveries["one", "saga.attention", "given-up"]["id"]) == 1
            assert all(
                ids.count(deliveries["one", "saga.attention", f"held-{n}"]["id"]) == 2
                for n in range(3)
            )
            before = len(receiver.got)
            for count in range(12):
                start(client, "order", f"o-{count}")
            receiver.wait(before + 12)
            assert len(delivered(client)) == 16
            assert (
                len({headers["webhook-id"] for headers, _ in receiver.got[before:]})
                == len(receiver.got) - before
                == 12
            )
        given_up = deliveries["one", "saga.attention", "given-up"]
        again = f"/v1/webhooks/deliveries/{given_up['id']}/redeliver"
        with service.client(tokens["caller"]) as caller:
            assert caller.post(again, json={}).status_code == 403
        assert client.post(again.replace("msg_", "msg_x"), json={}).status_code == 404
        assert client.post(again, json={}).json()["state"] == "pending"
        receiver.wait(before + 13)
        assert delivered(client)["one", "saga.attention", "given-up"]["attempts"] == 1
    receiver.server.shutdown()


def test_events_without_a_webhook_are_not_stored(tmp_path: pathlib.Path) -> None:
    """An event without a webhook has no row."""
    options = (
        "--local-webhooks",
        "--webhooks",
        written(
            tmp_path,
            table("http://127.0.0.1:9/", 'types = ["saga.stuck"]\ndefinitions = ["licence"]'),
        ),
    )
    with served(tmp_path, DEFINITIONS, *options) as service, service.client() as client:
        start(client, "order", "asked")
        start(client, "licence", "good")
        all_done(client, "licence/server", "licence/licence")
        assert client.get("/v1/webhooks/deliveries").json() == {"deliveries": []}


def test_the_right_to_see_deliveries(tmp_path: pathlib.Path) -> None:
    """Only operators may."""
    tokens = {role: token(tmp_path, role, role) for role in ("caller", "operator", "worker")}
    options = ("--token-file", str(tmp_path / "tokens.toml"))
    with served(tmp_path, DEFINITIONS, *options) as service:
        for role, status in (("caller", 403), ("worker", 403), ("operator", 200)):
            with service.client(tokens[role]) as client:
                assert client.get("/v1/webhooks/deliveries").status_code == status


@pytest.mark.parametrize(
    "text, says",
    [
        ('[[webhook]]\nname = "a"\nurl = "ftp://x/"', "url must be an http or https address"),
        ('[[webhook]]\nname = "a"\nurl = "https://u:p@x/"', "a user or a password"),
        ('[[webhook]]\nname = "a"\nurl = "https://x/"\nsecret = "abc"', "secret must be whsec_"),
        ('[[webhook]]\nname = "a"\nurl = "https://x/"\nsecret = "whsec_YWJj"', "at least 24"),
        ("[[webhook]]\nurls = 1", "unknown key 'urls'"),
        (f"[[webhook]]\n{table('https://x/')}\ntypes = ['saga.lost']", "unknown type 'saga.lost'"),
        (
            f"[[webhook]]\n{table('https://x/')}\n[[webhook]]\n{table('https://x/')}",
            "duplicate name",
        ),
        ("[[webhook", "cannot be read"),
        *(
            (f"[[webhook]]\n{table(url)}", "percent-encoded path")
            for url in (
                "https://x:80800/?secret",
                "https://x:p/?secret",
                "https://a..b/?secret",
                "https://x/zürich?secret",
                "https://x/?secret=ü",
                "https://x/a b?secret",
                "https://x y/?secret",
                "https://[::1/?secret",
            )
        ),
    ],
)
def test_an_invalid_file(tmp_path: pathlib.Path, text: str, says: str) -> None:
    """The error has the location and the rule, and no secret."""
    (tmp_path / "w.toml").write_text(text)
    with pytest.raises(WebhookFault, match=says) as error:
        webhooks.read_file(tmp_path / "w.toml")
    assert SECRET not in str(error.value) and "?secret" not in str(error.value)


def test_a_host_beyond_ascii(tmp_path: pathlib.Path) -> None:
    """Its name is sent in its ASCII form."""
    (hook,) = webhooks.read_file(
        pathlib.Path(written(tmp_path, table("https://zürich.example:8443/a%20b?c=%C3%BC")))
    )
    assert hook.url == "https://zürich.example:8443/a%20b?c=%C3%BC"


def test_whatever_a_post_raises(location: str) -> None:
    """It is the error of the attempt, and the post is repeated."""
    hook = Webhook("one", "http://127.0.0.1:80800/", b"k" * 32, frozenset(TYPES), None)
    trip = sagas.Saga("trip")
    trip.step(name="car")(lambda task: None)

    def are_there() -> list[tuple[bool, str | None]]:
        with Snapshot(location) as store:
            return [
                (row.attempts > 1, row.error)
                for row in store.ask(delivery_questions.listed(None, None, 10))
            ]

    async def main() -> None:
        store = sagas.open(location, [trip])
        posts = Webhooks([hook], store.deliveries, allow_local=True)
        async with store, asyncio.timeout(LONG):
            posts.begin()
            await (await store.start(trip, "k")).wait()
            posts.look()
            while are_there() != [(True, "ValueError: Port out of range 0-65535")]:
                await asyncio.sleep(0.05)
            await posts.end()

    asyncio.run(main())


async def trickling(
    back: asyncio.StreamReader, there: asyncio.StreamWriter, first: bytes, part: bytes
) -> None:
    """Run a receiver whose response never ends."""
    with contextlib.suppress(OSError):
        await back.readuntil(b"\r\n\r\n")
        there.write(first)
        while not there.is_closing():
            there.write(part)
            await there.drain()
            await asyncio.sleep(0.05 if len(part) < 1000 else 0)


ANSWERS: list[tuple[bytes, bytes, Any]] = [
    # its head never ends, and its status is complete
    (b"HTTP/1.1 204 No Content\r\n", b"X: y\r\n", 204),
    (b"HTTP/1.1 ", b"2", TimeoutError),
    (b"", b"", TimeoutError),
    (b"HTTP/1.1 100 Continue\r\n", b"X: y\r\n", TimeoutError),
    (b"HTTP/1.1 100 Continue\r\n\r\n", b"HTTP/1.1 200 OK\r\n", 200),
    (b"HTTP/1.1 100 Continue\r\n", b"X: y\r\n" * 1000, webhooks.InvalidAnswer),
    (b"", b"x" * 10_000, webhooks.InvalidAnswer),
    (b"SSH-2.0-secret-banner\r\n", b"", webhooks.InvalidAnswer),
]


@pytest.mark.parametrize("first, part, wanted", ANSWERS, ids=range(len(ANSWERS)))
def test_a_receiver_that_trickles(first: bytes, part: bytes, wanted: Any) -> None:
    """The whole exchange has one deadline, and the response a number of bytes.

    No error has the text of a receiver that does not speak HTTP.
    """
    claimed = Claimed("msg_1", "saga.completed", "k", "{}", 1, 1)

    async def main() -> None:
        async def receive(back: asyncio.StreamReader, there: asyncio.StreamWriter) -> None:
            await trickling(back, there, first, part)

        server = await asyncio.start_server(receive, host(), 0)
        name, port = server.sockets[0].getsockname()[:2]
        hook = Webhook("one", f"http://{name}:{port}/", b"k" * 32, frozenset(TYPES), None)
        seconds = 1.0 if wanted is TimeoutError else LONG
        if isinstance(wanted, int):
            assert await webhooks.post(hook, claimed, seconds, allow_local=True) == wanted
        else:
            with pytest.raises(wanted) as error:
                await webhooks.post(hook, claimed, seconds, allow_local=True)
            assert "banner" not in str(error.value)
        server.close()

    asyncio.run(asyncio.wait_for(main(), LONG))


def test_a_stop_does_not_wait_for_a_receiver(tmp_path: pathlib.Path) -> None:
    """It answers byte by byte, or not at all."""
    posted = threading.Event()
    with socket.create_server((host(), 0)) as listening:
        name, port = listening.getsockname()

        def receive() -> None:
            with contextlib.suppress(OSError):
                while True:
                    link, _ = listening.accept()
                    held.append(link)
                    link.recv(10)
                    posted.set()
                    link.sendall(b"HTTP/1.1 ")

        held: list[socket.socket] = []
        threading.Thread(target=receive, daemon=True).start()
        options = (
            "--local-webhooks",
            "--webhooks",
            written(tmp_path, table(f"http://{name}:{port}/")),
        )
        with served(tmp_path, DEFINITIONS, *options) as service, service.client() as client:
            start(client, "order", "asked")
            assert posted.wait(LONG)
            began = time.monotonic()
            assert service.stop() == 0
            assert time.monotonic() - began < webhooks.PATIENCE * 0.8
        for link in held:
            link.close()


@pytest.mark.parametrize(
    "address",
    [
        "127.0.0.1",
        "localhost",
        "[::1]",
        "169.254.169.254",
        "[fe80::1]",
        "[::ffff:127.0.0.1]",
        "0.0.0.0",
    ],
)
def test_a_local_receiver(tmp_path: pathlib.Path, address: str) -> None:
    """It is refused unless the file allows it, wherever a name leads."""
    path = pathlib.Path(written(tmp_path, table(f"http://{address}:9/")))
    with pytest.raises(WebhookFault, match="webhook 1: url must not be .* --local-webhooks"):
        webhooks.read_file(path)
    (hook,) = webhooks.read_file(path, allow_local=True)
    claimed = Claimed("msg_1", "saga.completed", "k", "{}", 1, 1)
    if "fe80" in address:
        return
    with pytest.raises(webhooks.LocalReceiver, match="is local: start the service with"):
        asyncio.run(webhooks.post(hook, claimed, LONG, allow_local=False))
