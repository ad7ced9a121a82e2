"""Settings of the service."""

from __future__ import annotations

import dataclasses
import functools
import ipaddress
import pathlib
from collections.abc import Mapping
from typing import TYPE_CHECKING, Any, NamedTuple, Union

from sagas.base.events import Hook
from sagas.definition.saga import Saga

if TYPE_CHECKING:
    from sagas.server.siblings import Siblings

Network = Union[ipaddress.IPv4Network, ipaddress.IPv6Network]
LOOPBACK: tuple[Network, ...] = (
    ipaddress.ip_network("127.0.0.0/8"),
    ipaddress.ip_network("::1/128"),
)


class Quota(NamedTuple):
    """The maximum number of open sagas, and of bytes of their inputs as JSON."""

    sagas: int = 10_000
    bytes: int = 1 << 30


@dataclasses.dataclass(frozen=True, slots=True)
class StreamSettings:
    """Limits of event streams: in total, per token, and reserved for the dashboard."""

    maximum: int = 200
    max_each: int = 50
    kept: int = 40


@dataclasses.dataclass(frozen=True, slots=True)
class ConcurrencySettings:
    """Limits of connections and of concurrent requests.

    Attributes:
        connections: Connections in total.
        waits: Requests of one token that wait for a saga.
        claims: Claims of one token.
        connections_of_token: Connections of one token with an active request.
        connections_of_address: Connections of one address.
        kept: Connections reserved for health checks and operators, at most a quarter of all.
    """

    connections: int = 2000
    waits: int = 200
    claims: int = 200
    connections_of_token: int = 500
    connections_of_address: int = 1000
    kept: int = 50


@dataclasses.dataclass(frozen=True, slots=True)
class WebhookSettings:
    """The file of webhooks, if any, and whether they may post to this machine."""

    file: pathlib.Path | None = None
    allow_local: bool = False


@dataclasses.dataclass(frozen=True, slots=True)
class StoreSettings:
    """How the store is opened.

    Attributes:
        options: Arguments of `sagas.open`, without those that the service sets itself.
        on_event: A function that is called with each event, after the service itself.
    """

    options: Mapping[str, Any] = dataclasses.field(default_factory=dict)
    on_event: Hook | None = None


@dataclasses.dataclass(frozen=True, slots=True)
class Settings:
    """Settings of the service. Sizes are in bytes, times in seconds.

    Attributes:
        tokens: The token file. None: it listens on the loopback only, and every local user has full
            access.
        rate: Average requests per second of each token, or without tokens of each address. Up to
            two seconds' worth accumulate.
        quota: The default quota of each token.
        trusted_proxies: The networks of proxies whose forwarding headers are trusted.
        wait: Seconds that the service waits for its database at the start. 0: it ends at once if
            the database does not answer.
        siblings: The other processes of the same command, if it has several.
    """

    path: str
    sagas: list[Saga[Any]]
    host: str = "127.0.0.1"
    port: int = 8080
    tokens: pathlib.Path | None = None
    webhooks: WebhookSettings = WebhookSettings()
    max_body: int = 1 << 20
    streams: StreamSettings = StreamSettings()
    concurrency: ConcurrencySettings = ConcurrencySettings()
    trusted_proxies: tuple[Network, ...] = LOOPBACK
    rate: float = 5000.0
    quota: Quota = Quota()
    head_time: float = 10.0
    body_time: float = 30.0
    send_time: float = 30.0
    session_time: float = 12 * 3600.0
    shutdown_timeout: float = 20.0
    patience: float = 20.0  # for an answer of another node
    wait: float = 0.0
    siblings: Siblings | None = None
    store: StoreSettings = dataclasses.field(default_factory=StoreSettings)


def is_loopback(host: str) -> bool:
    """Return whether an address, or `localhost`, is this machine's own."""
    try:
        return ipaddress.ip_address(host.strip("[]")).is_loopback
    except ValueError:
        return host == "localhost"


def is_address(host: str) -> bool:
    """Return whether a text is an IP address."""
    try:
        ipaddress.ip_address(host)
    except ValueError:
        return False
    return True


@functools.lru_cache(1024)
def is_among(host: str, networks: tuple[Network, ...]) -> bool:
    """Return whether an address is in one of these networks."""
    try:
        address = ipaddress.ip_address(host)
    except ValueError:
        return False
    if isinstance(address, ipaddress.IPv6Address) and address.ipv4_mapped:
        address = address.ipv4_mapped
    return any(address in network for network in networks if network.version == address.version)
