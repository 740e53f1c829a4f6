"""Buses by their addresses."""

from __future__ import annotations

from typing import Optional
from urllib.parse import urlsplit

from .bus import Bus
from .etcd import EtcdBus
from .jetstream import JetStreamBus
from .nats import NatsBus
from .tls import Tls


def open_bus(
    url: str, hears_all: bool = False, tls: Tls = Tls(), secret: Optional[bytes] = None
) -> Bus:
    """The bus of an address, which is not connected yet.

    With `hears_all` it hears each digest of others, as one that waits for them has to. `tls` is
    for NATS and JetStream. With a `secret` what goes over the bus is sealed, and what is not is
    passed over. Raises `ValueError` if the address is none or a file can't be used, and
    `ImportError` if psycopg2 is needed and not installed.
    """
    parts = urlsplit(url)
    if parts.scheme in ("nats", "tls"):
        is_wanted = tls.is_wanted or parts.scheme == "tls"
        return NatsBus(parts, hears_all, tls._replace(is_wanted=is_wanted), secret)
    if parts.scheme == "jetstream":
        return JetStreamBus(parts, tls, secret)
    if tls != Tls():
        raise ValueError("the words of TLS are for nats://, tls:// and jetstream://")
    if parts.scheme == "etcd":
        return EtcdBus(parts, secret)
    if parts.scheme in ("postgres", "postgresql"):
        # Only who has this bus needs psycopg2.
        from .postgres import PostgresBus  # pylint: disable=import-outside-toplevel

        return PostgresBus(url, secret)
    schemes = "nats://, tls://, jetstream://, postgres:// or etcd://"
    raise ValueError(f"{url}: an address begins with {schemes}")
