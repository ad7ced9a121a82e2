"""Quotas of tokens: how many sagas that they started may be open, and with how much input."""

from __future__ import annotations

import pathlib
import re
from collections.abc import Iterator
from concurrent.futures import ThreadPoolExecutor

import httpx
import pytest
from serving import DEFINITIONS, LONG, Served, error_of, start, token

from sagas.server import auth

TOKENS: dict[str, tuple[str, ...]] = {
    "three": ("caller", "--open-sagas", "3"),
    "small": ("caller", "--open-bytes", "3000"),
    "usual": ("caller",),
    "many": ("caller", "--open-sagas", "100"),
    "operator": ("operator", "--open-sagas", "1000"),
}
OPTIONS = ("--open-sagas", "5", "--open-bytes", "100000")


@pytest.fixture(scope="module")
def service(
    tmp_path_factory: pytest.TempPathFactory, store: str | None
) -> Iterator[tuple[Served, dict[str, str]]]:
    folder = tmp_path_factory.mktemp("quotas")
    tokens = {name: token(folder, name, *options) for name, options in TOKENS.items()}
    options = ("--token-file", str(folder / "tokens.toml"), *OPTIONS)
    served = Served(folder, DEFINITIONS, *options, store=store)
    served.start()
    yield served, tokens
    served.kill()


def begun(client: httpx.Client, name: str, count: int, value: object = None) -> list[int]:
    return [start(client, "order", f"{name}-{at}", value).status_code for at in range(count)]


def test_open_sagas_of_a_quota(service: tuple[Served, dict[str, str]]) -> None:
    """This holds also after a restart.

    A repeated start is answered, and a saga that ends frees its share.
    """
    served, tokens = service
    with served.client(tokens["three"]) as client, served.client(tokens["operator"]) as operator:
        assert begun(client, "three", 3) == [201] * 3
        refused = start(client, "order", "three-more")
        assert (refused.status_code, error_of(refused)) == (429, "QuotaExceeded")
        assert refused.headers["retry-after"] and "3 open sagas" in refused.json()["detail"]
        assert start(client, "order", "three-1").json()["new"] is False
        assert error_of(start(client, "order", "three-1", "other")) == "KeyConflict"
        assert start(operator, "order", "operators").status_code == 201
        assert client.get("/v1/sagas/three-1").json()["labels"] == {}
        assert operator.get("/v1/sagas?label==token=x").status_code == 422
        served.stop()
        served.start()
    with served.client(tokens["three"]) as client, served.client(tokens["operator"]) as operator:
        assert start(client, "order", "three-more").status_code == 429
        assert operator.post("/v1/sagas/three-0/abort", json={}).status_code == 200
        assert operator.get("/v1/sagas/three-0/wait?seconds=60").json()["over"]
        assert start(client, "order", "three-more").status_code == 201
        assert start(client, "order", "three-last").status_code == 429


def test_so_much_input_is_open(service: tuple[Served, dict[str, str]]) -> None:
    served, tokens = service
    with served.client(tokens["small"]) as client:
        assert begun(client, "small", 4, "x" * 900) == [201] * 3 + [429]
        assert start(client, "order", "small-4").status_code == 201
    with served.client(tokens["usual"]) as client:  # as the service has it
        assert start(client, "order", "large", "x" * 100_000).status_code == 429
        assert begun(client, "usual", 6) == [201] * 5 + [429]


def test_starts_at_the_same_time(service: tuple[Served, dict[str, str]]) -> None:
    """No more than the quota, and all of it."""
    served, tokens = service

    def start_saga(number: int) -> int:
        with served.client(tokens["many"]) as client:
            return begun(client, f"many-{number}", 15).count(201)

    with ThreadPoolExecutor(10) as threads:
        assert sum(threads.map(start_saga, range(10), timeout=3 * LONG)) == 100


@pytest.mark.parametrize(
    "role, line, says",
    [
        ("caller", "open_sagas = -1", "open_sagas must be an integer from 0"),
        ("caller", 'open_bytes = "1"', "open_bytes must be an integer from 0"),
        ("caller", "open_sagas = true", "open_sagas must be an integer from 0"),
        ("worker", "open_sagas = 1", "open_sagas requires the role caller or operator"),
    ],
)
def test_faults_of_the_file(tmp_path: pathlib.Path, role: str, line: str, says: str) -> None:
    file = tmp_path / "tokens.toml"
    file.write_text(f'[[token]]\nname = "a"\nroles = ["{role}"]\nsha256 = "{"0" * 64}"\n{line}\n')
    with pytest.raises(auth.TokenFault, match=re.escape(says)):
        auth.read(file)
