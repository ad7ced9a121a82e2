"""The options that `sagas serve` takes from a store of `--app`, and the values that clients decode.
"""

from __future__ import annotations

import argparse
import contextlib
import datetime
import importlib
import pathlib
import sys
from collections.abc import Iterator
from typing import Any

import pytest
from cases import run
from serving import FEW, command, served

import sagas
from sagas.api.service_replies import ServiceValues
from sagas.server import command as command_module
from sagas.api.app import App
from sagas.cli.options import payloads_of
from sagas.storage.admin import connect

BIG = "big " * 200
APP = """
import contextlib, datetime, sagas
class Codec:
    def encode(self, data): return data[::-1]
    def decode(self, data): return data[::-1]
codec, seen = Codec(), []
@contextlib.asynccontextmanager
async def shop():
    yield {"shop": "ours"}
leaf, mid, top, order = (sagas.Saga(name) for name in ("leaf", "mid", "top", "order"))
@leaf.step(keep=9)
def hold(task): return "held"
@hold.compensation
def free(task): return seen.append("freed")
kid = mid.child(leaf, name="kid", input=lambda task: {})
m = top.child(mid, name="m", input=lambda task: {})
@top.step(needs=[m])
def tour(task): raise sagas.Fail("no")
@order.step
def charge(task):
    return {"shop": task.context["shop"], "big": task.input["big"], "seen": seen}
options = dict(
    codec=codec, context=shop, blobs=sagas.FolderBlobStore("blobs"), blob_threshold=300,
    concurrency=3, retention=datetime.timedelta(days=1), on_event=lambda event: None,
    shutdown_timeout=7, lease=datetime.timedelta(seconds=4),
)
store = sagas.open("other.db", [top, mid, leaf, order], **options)
blocking = sagas.open_sync("other.db", [top, mid, leaf, order], **options)
old = sagas.open("other.db", [order], accept_new=False)
clock = sagas.open("other.db", [order], settings=sagas.Settings(clock=lambda: 1.0))
plain = [order]
"""


@pytest.fixture
def shop(tmp_path: pathlib.Path, monkeypatch: pytest.MonkeyPatch) -> Iterator[Any]:
    """Return the module of the store, in the current folder."""
    (tmp_path / "app_shop.py").write_text(APP)
    monkeypatch.chdir(tmp_path)
    monkeypatch.syspath_prepend(str(tmp_path))
    sys.modules.pop("app_shop", None)
    yield importlib.import_module("app_shop")
    sys.modules.pop("app_shop", None)


def settings(*arguments: str) -> Any:
    """Return the settings of arguments of `sagas serve`."""
    return command_module.settings_of(command_module.parser().parse_args(["x.db", *arguments]))


def test_options_of_a_store_are_taken(shop: Any) -> None:
    """Each option of the store is taken; an option of the command precedes it.

    An option that a service cannot have is refused.
    """
    for name in ("store", "blocking"):
        taken = settings("--app", f"app_shop:{name}")
        options = taken.store.options
        assert options["codec"] is shop.codec and options["context"] is shop.shop
        assert options["concurrency"] == 3 and options["blob_threshold"] == 300
        assert options["retention"] == datetime.timedelta(days=1)
        assert taken.store.on_event is shop.options["on_event"] and taken.shutdown_timeout == 7
        assert not {"path", "sagas", "on_event", "settings"} & options.keys()
        assert sorted(saga.name for saga in taken.sagas) == ["leaf", "mid", "order", "top"]
    arguments = (
        "--concurrency",
        "5",
        "--retention",
        "12h",
        "--archive-dir",
        "old",
        "--context",
        "app_shop:seen",
    )
    options = settings("--app", "app_shop:store", *arguments, "--blobs", "more").store.options
    assert (options["concurrency"], options["archive_dir"], options["context"]) == (
        5,
        "old",
        shop.seen,
    )
    assert (
        options["retention"] == datetime.timedelta(hours=12)
        and options["blobs"] is not shop.options["blobs"]
    )
    assert settings("--app", "app_shop:plain").store.options == {}
    for name, says in (("old", "accept_new="), ("clock", "a clock in"), ("seen", "must be a saga")):
        done = command("serve", "x.db", "--app", f"app_shop:{name}")
        assert done.returncode == 2 and says in done.stderr, done
    done = command("serve", "x.db", "--app", "app_shop:plain", "--archive-dir", "old")
    assert done.returncode == 2 and "retention" in done.stderr, done
    done = command("serve", "x.db", "--app", "app_shop:plain", "--retention", "soon")
    assert done.returncode == 2 and "30d" in done.stderr, done


@pytest.mark.parametrize(
    "name, has_codec",
    [("order", False), ("plain", False), ("store", True), ("blocking", True), ("codec", True)],
)
def test_commands_of_a_store_take_the_same(shop: Any, name: str, has_codec: bool) -> None:
    """A saga and a list of sagas name no codec; a store names its own."""
    payloads = payloads_of(argparse.Namespace(app=f"app_shop:{name}"))
    assert (payloads.codec is shop.codec) == has_codec


def test_a_store_is_served(shop: Any, tmp_path: pathlib.Path) -> None:
    """It has its context, codec and blobs.

    Children of children are undone. Clients of the service read values with the codec and the
    blobs, and others get the stored form.
    """
    with served(tmp_path, {"few.toml": FEW}, "--app", "app_shop:store") as service:
        options: dict[str, Any] = {"codec": shop.codec, "blobs": shop.options["blobs"]}
        with sagas.ServiceClient(service.url, **options) as client, sagas.ServiceClient(
            service.url
        ) as plain:
            small = {"shop": "ours", "big": "x", "seen": []}
            assert client.start("order", "small", {"big": "x"}).wait(60).results["charge"] == small
            end = client.start("order", "large", {"big": BIG}).wait(60)
            assert end.results["charge"]["big"] == BIG and end.input == {"big": BIG}
            stored = plain.wait("large", 60)
            assert "$blob" in stored.input and "$blob" in stored.results["charge"]
            assert "$codec" in plain.wait("small", 60).results["charge"]
            with sagas.ServiceClient(service.url, codec=shop.codec) as half:
                assert half.wait("small", 60).results["charge"] == small
                with pytest.raises(sagas.CannotDecode, match="blob store"):
                    half.wait("large", 60)
            failed = client.start("top", "family", {}).wait(60)
            assert failed.phase == "recovered" and failed.states["m"] == "undone"
            assert client.start("order", "later", {"big": "x"}).wait(60).results["charge"][
                "seen"
            ] == ["freed"]
    with contextlib.closing(connect(str(tmp_path / "store.db"))) as link:
        assert "ours" not in repr(link.ask("SELECT value FROM attempts"))


class Later:
    """A blob store with coroutines."""

    def __init__(self, values: dict[str, bytes]) -> None:
        self.values = values

    async def put(self, key: str, data: bytes) -> None:
        self.values[key] = data

    async def get(self, key: str) -> bytes:
        if key == "ab/3/c":
            raise OSError("secret")
        return self.values[key]

    async def delete(self, key: str) -> None:
        ...

    async def keys(self, prefix: str, before: float) -> list[str]:
        return []


def test_values_of_a_service() -> None:
    """Blobs of coroutines are read also if a loop runs; missing ones are reported without
    values.
    """
    blob = {"$blob": "ab/1/c", "bytes": 3, "digest": "0" * 64}
    values = ServiceValues(None, Later({"ab/1/c": b"[1]"}))

    async def main() -> Any:
        return values.read(blob)

    assert run(main()) == [1] == values.read(blob)
    assert values.read({"$codec": "AAAA"}) == {"$codec": "AAAA"} and values.read([blob]) == [blob]
    for key, says in (
        ("ab/2/c", "is not in the blob store"),
        ("ab/3/c", "the blob store raised OSError"),
    ):
        with pytest.raises(sagas.CannotDecode, match=says) as error:
            values.read({**blob, "$blob": key})
        assert "secret" not in str(error.value)
    assert ServiceValues(None, None).read(blob) == blob
    for wrong in ({"codec": 1}, {"blobs": 1}):
        with pytest.raises(TypeError):
            sagas.ServiceClient("http://127.0.0.1:1", **wrong)  # type: ignore[arg-type]
    with pytest.raises(ValueError, match="must be a saga"):
        App("m:x", 7)
