"""A connection to a NATS server."""

from __future__ import annotations

import json
import ssl
from itertools import cycle, islice
from typing import Any, Dict, List, Optional, Sequence
from urllib.parse import SplitResult, unquote

from .bus import BusError
from .nats_text import Op, Parser
from .sockets import is_readable, servers
from .tls import Tls
from .wire import Wire

_PORT = 4222
#: How long a server may take to answer, or to take bytes.
PATIENCE = 5.0
#: Until the server says what it takes.
_LEAST = 1 << 10


class NatsLink:
    """Talks to the first server of an address that is there, and after a fault to the next one."""

    def __init__(self, url: SplitResult, tls: Tls = Tls()) -> None:
        """That of an address `..://[USER[:PASSWORD]@]HOST[:PORT][,..]`.

        Raises `ValueError` if a file of certificates or keys can't be used.
        """
        found = servers(url, _PORT)
        self._servers, self._count = cycle(found), len(found)
        self._login = _login(url)
        self._tls = tls
        #: Made at once if there are files that could be wrong.
        self._context: Optional[ssl.SSLContext] = None if tls == Tls() else tls.context()
        self._wire: Optional[Wire] = None
        self._parser = Parser()
        #: What the server says of itself.
        self._info: Dict[str, Any] = {}
        #: The most bytes that the server takes in a message.
        self.most = _LEAST

    @property
    def is_open(self) -> bool:
        """Whether it is connected."""
        return self._wire is not None

    def connect(self, subscriptions: Sequence[str]) -> None:
        """Connects, with these subscriptions `SUBJECT GROUP ID`. It tries each server once.

        Raises `BusError`.
        """
        faults = []
        for server in islice(self._servers, self._count):
            try:
                self._wire = Wire(server, PATIENCE)
                self._greet(subscriptions)
                return
            except (OSError, BusError) as error:
                self.close()
                faults.append(f"{server[0]}:{server[1]}: {error}")
        raise BusError(", ".join(faults))

    def _greet(self, subscriptions: Sequence[str]) -> None:
        """Says who this is and what it wants to hear, once the server has said what it can."""
        self._parser = Parser()
        self._until("INFO")
        self._secure()
        options = {"verbose": False, "pedantic": False, "echo": False, "headers": False}
        about = {"name": "squall", "lang": "python3", "version": "1", "protocol": 1}
        lines = [
            "CONNECT " + json.dumps({**options, **about, **self._login}),
            *(f"SUB {it}" for it in subscriptions),
            "PING",
        ]
        self.write("".join(f"{line}\r\n" for line in lines).encode())
        self._until("PONG")

    def _secure(self) -> None:
        """Goes on by TLS, if this node or the server asks for it."""
        is_required = self._info.get("tls_required")
        if not is_required and not self._tls.is_wanted:
            return
        if not is_required and not self._info.get("tls_available"):
            raise BusError("the server has no TLS, and nothing is sent to it in the clear")
        if self._info.get("tls_verify") and self._tls.cert is None:
            raise BusError("the server asks for a certificate, and none is given (--tls-own-cert)")
        if not self._parser.is_empty:
            raise BusError("the server sent more than INFO before TLS")
        if self._context is None:
            self._context = self._tls.context()
        self._open().secure(self._context)

    def close(self) -> None:
        """Ends the connection, if there is one."""
        if self._wire is not None:
            self._wire.close()
            self._wire = None

    def publish(self, subject: str, data: bytes) -> None:
        """Sends a message. The subject may be followed by the one of replies. Raises `BusError`."""
        self.write(b"PUB %s %d\r\n%s\r\n" % (subject.encode(), len(data), data))

    def write(self, data: bytes) -> None:
        """Sends bytes. Raises `BusError`."""
        self._open().write(data)

    def hear(self, seconds: float) -> List[Op]:
        """The messages that have come. If there is none, it waits for at most this time.

        Raises `BusError`.
        """
        if not is_readable(self._open(), seconds):
            return []
        return [op for op in self._read() if op.name == "MSG"]

    def _open(self) -> Wire:
        if self._wire is None:
            raise BusError("there is no connection")
        return self._wire

    def _read(self) -> List[Op]:
        """Heeds what has come."""
        ops = self._parser.feed(self._open().read())
        for op in ops:
            self._heed(op)
        return ops

    def _until(self, name: str) -> None:
        while all(op.name != name for op in self._read()):
            pass

    def _heed(self, op: Op) -> None:
        if op.name == "PING":
            self.write(b"PONG\r\n")
        elif op.name == "INFO":
            self._learn(op.rest)
        elif op.name == "-ERR":
            raise BusError(op.rest.strip("'"))

    def _learn(self, text: str) -> None:
        """What a server says of itself when a node connects, and when that changes."""
        try:
            self._info = dict(json.loads(text))
            self.most = int(self._info.get("max_payload", self.most))
        except (ValueError, TypeError) as error:
            raise BusError("the server's INFO can't be read") from error


def _login(url: SplitResult) -> Dict[str, str]:
    """What of an address says who this is. A user without password is a token."""
    if url.username is None:
        return {}
    if url.password is None:
        return {"auth_token": unquote(url.username)}
    return {"user": unquote(url.username), "pass": unquote(url.password)}
