"""What connections of several buses need."""

from __future__ import annotations

import select
import socket
from typing import Any, List, Tuple
from urllib.parse import SplitResult, urlsplit

#: A host and a port.
Server = Tuple[str, int]


def servers(url: SplitResult, port: int) -> List[Server]:
    """The servers of an address `..://[LOGIN@]HOST[:PORT][,HOST[:PORT]]..`.

    Raises `ValueError` if a port is none.
    """
    hosts = url.netloc.rpartition("@")[2].split(",")
    found = [urlsplit(f"//{it}") for it in hosts]
    return [(it.hostname or "127.0.0.1", it.port or port) for it in found]


def is_readable(connection: Any, seconds: float) -> bool:
    """Whether something comes within the time. `connection` has a `fileno`."""
    poll = select.poll()
    poll.register(connection, select.POLLIN)
    return bool(poll.poll(seconds * 1000))


def give_up_after(connection: socket.socket, seconds: float) -> None:
    """Ends the connection if the other end answers nothing for about this time."""
    pause = max(1, int(seconds / 2))
    connection.setsockopt(socket.SOL_SOCKET, socket.SO_KEEPALIVE, 1)
    for name, value in (
        ("TCP_NODELAY", 1),
        ("TCP_KEEPIDLE", pause),
        ("TCP_KEEPINTVL", pause),
        ("TCP_USER_TIMEOUT", int(seconds * 1000)),
    ):
        connection.setsockopt(socket.IPPROTO_TCP, getattr(socket, name), value)
