"""What a NATS server sends, read piece by piece."""

from __future__ import annotations

from typing import List, NamedTuple, Optional

from .bus import BusError

#: No line of a server is longer, and no payload larger.
_LINE = 1 << 16
_PAYLOAD = 64 << 20
_END = b"\r\n"


class Op(NamedTuple):
    """A line, with its payload if it has one."""

    #: The first word, in capital letters: INFO, MSG, PING, PONG, +OK or -ERR.
    name: str
    #: The rest of the line.
    rest: str
    #: What follows the line of a MSG.
    payload: bytes = b""


class Parser:
    """Reads lines and payloads from a stream that is cut anywhere."""

    def __init__(self) -> None:
        self._kept = bytearray()

    @property
    def is_empty(self) -> bool:
        """Whether nothing of a line or a payload is kept."""
        return not self._kept

    def feed(self, data: bytes) -> List[Op]:
        """What is whole now. Raises `BusError` if the bytes are not of this protocol."""
        self._kept += data
        return list(iter(self._next, None))

    def _next(self) -> Optional[Op]:
        end = self._kept.find(_END, 0, _LINE)
        if end < 0:
            if len(self._kept) >= _LINE:
                raise BusError("a line of the server has no end")
            return None
        line = self._kept[:end].decode("utf-8", "replace")
        name, _, rest = line.partition(" ")
        name = name.upper()
        begin = end + len(_END)
        if name != "MSG":
            del self._kept[:begin]
            return Op(name, rest.strip())
        stop = begin + _size(rest)
        if len(self._kept) < stop + len(_END):
            return None
        if self._kept[stop : stop + len(_END)] != _END:
            raise BusError("a message of the server has another length than its line says")
        payload = bytes(self._kept[begin:stop])
        del self._kept[: stop + len(_END)]
        return Op(name, rest, payload)


def _size(rest: str) -> int:
    """The length of the payload: the last word of `SUBJECT SID [REPLY] SIZE`."""
    words = rest.split()
    last = words[-1] if len(words) in (3, 4) else ""
    if not (last.isascii() and last.isdigit() and int(last) <= _PAYLOAD):
        raise BusError(f"the server sent MSG {rest}")
    return int(last)
