"""Frames as keys of etcd, by its JSON gateway."""

from __future__ import annotations

import json
import os
import socket
from base64 import b64decode, b64encode
from hashlib import sha256
from http.client import HTTPConnection, HTTPException
from itertools import cycle
from typing import Any, Callable, Dict, Iterable, Iterator, List, Optional
from urllib.parse import SplitResult, unquote

from .bus import BusError, KeepingBus, Merged, Message, TooLarge
from .etcd_watch import Watch
from .pieces import is_delta, joined
from .seal import Letters
from .sockets import Server, servers

Json = Dict[str, Any]

_PORT = 2379
#: How long a server may take to answer.
_PATIENCE = 5.0
#: How many keys are read or removed in one request. etcd takes 128 in a transaction.
_AT_ONCE = 100
#: The code of a request that is larger than the server takes.
_RESOURCE, _INVALID = 8, 3


class EtcdBus(KeepingBus):
    """Keeps each frame under a key, which its bytes name. `place` is the revision read last.

    Below `NAME/frames/` are the frames, and below `NAME/courses/` the numbers that were drawn.
    """

    def __init__(self, url: SplitResult, secret: Optional[bytes] = None) -> None:
        """A bus by an address `etcd://[USER:PASSWORD@]HOST[:PORT][,..][/NAME]`.

        It connects to the first server, and after a fault to the next one.

        With a secret each frame is sealed, and one of anybody else is passed over.
        """
        self._servers = cycle(servers(url, _PORT))
        self._server: Server = ("", 0)
        self._login = unquote(url.username or ""), unquote(url.password or "")
        self._headers: Dict[str, str] = {}
        name = url.path.strip("/") or "squall"
        self._frames, self._courses = f"{name}/frames/".encode(), f"{name}/courses/".encode()
        self._letters = Letters(secret, name)
        self._connection: Optional[HTTPConnection] = None
        self._watch: Optional[Watch] = None
        #: Transactions that were refused, since another program had drawn the number.
        self.refused = 0

    @property
    def foreign(self) -> int:
        """How many frames were passed over."""
        return self._letters.foreign

    def connect(self) -> None:
        if self._connection is None:
            self._server = next(self._servers)
            self._connection = HTTPConnection(*self._server, timeout=_PATIENCE)
            self._headers = {}
            if self._login[0]:
                self._log_in()

    def _log_in(self) -> None:
        """Gets a token, which all requests of this connection show."""
        try:
            answer = self._ask("auth/authenticate", dict(zip(("name", "password"), self._login)))
        except BusError:
            self.close()
            raise
        self._headers = {"Authorization": str(answer["token"])}

    def close(self) -> None:
        if self._connection is not None:
            self._connection.close()
        if self._watch is not None:
            self._watch.close()
        self._connection = self._watch = None

    def send(self, frame: bytes) -> None:
        self._ask("kv/put", {"key": _text(self._key(frame)), "value": _text(self._closed(frame))})

    def hear(self, seconds: float) -> List[Message]:
        if self._watch is None:
            return self._begin()
        found = self._watch.next(seconds)
        if found is None:
            return []
        if found.get("canceled"):
            # What came after `place` is no longer kept as history. All keys are.
            self._watch.close()
            self._watch, self.place = None, 0
            return []
        events = found.get("events", [])
        # The answer's own revision may be ahead of the events that are still to come.
        self.place = max([self.place, *(int(it["kv"]["mod_revision"]) for it in events)])
        return self._opened(it["kv"] for it in events if it.get("type") != "DELETE")

    def _begin(self) -> List[Message]:
        """Watches what comes after `place`. If there is no place, it reads all keys first."""
        now = self._revision()
        messages: List[Message] = []
        if not 0 < self.place <= now:
            messages = self._opened(self._list(now))
            self.place = now
        keys = {**_range(self._frames), "start_revision": str(self.place + 1)}
        self._watch = Watch(self._server, _PATIENCE, keys, self._headers)
        return messages

    def merge(self) -> Merged:
        """The board is there before the first other key goes."""
        old = list(self._list(self._revision()))
        good = [it.frame for it in self._opened(old) if is_delta(it.frame)]
        board = joined(good)
        for frame in board:
            self.send(frame)
        kept = {_text(self._key(frame)) for frame in board}
        gone = [it["key"] for it in old if it["key"] not in kept]
        for at in range(0, len(gone), _AT_ONCE):
            steps = [{"requestDeleteRange": {"key": key}} for key in gone[at : at + _AT_ONCE]]
            self._ask("kv/txn", {"success": steps})
        return Merged(len(old), len(old) - len(good), len(board))

    def compact(self) -> None:
        """Lets the server forget the history of all its keys up to now. Raises `BusError`."""
        self._ask("kv/compaction", {"revision": str(self._revision())})

    def draw(self, issue: Optional[Callable[[int], bytes]] = None) -> int:
        """Draws the number of the next course, which no other program draws.

        `issue` gives the frame of the course of that number. It is sent in the same transaction.
        The number's key says which host and process has drawn it. Raises `BusError`. Then a number
        may have been drawn, with its issue.
        """
        mine = f"{socket.gethostname()} {os.getpid()}".encode()
        while True:
            number = self._newest() + 1
            key = self._course(number)
            puts = {key: mine}
            if issue is not None:
                frame = issue(number)
                puts[self._key(frame)] = self._closed(frame)
            if self._put_new(key, puts):
                return number
            self.refused += 1

    def _newest(self) -> int:
        """The greatest number that was drawn. Course 1 needs no drawing."""
        query = {**_range(self._courses), "limit": "1", "keys_only": True}
        found = self._ask("kv/range", {**query, "sort_order": "DESCEND", "sort_target": "KEY"})
        kvs = found.get("kvs", [])
        return int(_bytes(kvs[0]["key"])[len(self._courses) :]) if kvs else 1

    def _put_new(self, key: bytes, puts: Dict[bytes, bytes]) -> bool:
        """Writes all of it in one step, if that key is not there: whether it was done."""
        is_new = {"key": _text(key), "target": "VERSION", "result": "EQUAL", "version": "0"}
        steps = [
            {"requestPut": {"key": _text(it), "value": _text(value)}} for it, value in puts.items()
        ]
        answer = self._ask("kv/txn", {"compare": [is_new], "success": steps})
        return bool(answer.get("succeeded", False))

    def _key(self, frame: bytes) -> bytes:
        """The key of a frame. The same bytes have the same key, so it may be sent again."""
        return self._frames + sha256(frame).hexdigest()[:32].encode()

    def _closed(self, frame: bytes) -> bytes:
        """The value of a frame's key."""
        return self._letters.closed(self._frames.decode(), frame)

    def _opened(self, entries: Iterable[Json]) -> List[Message]:
        """The frames of keys, but for those that are passed over."""
        opened = (self._letters.opened(self._frames.decode(), _value(it)) for it in entries)
        return [Message(it) for it in opened if it is not None]

    def _course(self, number: int) -> bytes:
        return self._courses + b"%010d" % number

    def _revision(self) -> int:
        found = self._ask("kv/range", {**_range(self._frames), "count_only": True})
        return int(found["header"]["revision"])

    def _list(self, revision: int) -> Iterator[Json]:
        """All keys of frames at that revision, with their values."""
        query = {**_range(self._frames), "limit": str(_AT_ONCE), "revision": str(revision)}
        while True:
            found = self._ask("kv/range", query)
            kvs = found.get("kvs", [])
            yield from kvs
            if not found.get("more"):
                return
            query["key"] = _text(_bytes(kvs[-1]["key"]) + b"\0")

    def _ask(self, path: str, body: Json) -> Json:
        """What the server answers."""
        if self._connection is None:
            raise BusError("there is no connection")
        try:
            self._connection.request("POST", f"/v3/{path}", json.dumps(body), self._headers)
            response = self._connection.getresponse()
            answer: Json = json.loads(response.read())
        except (OSError, HTTPException, ValueError) as error:
            raise BusError(f"{self._server[0]}:{self._server[1]}: {error}") from error
        if response.status != 200:
            fault = TooLarge if _is_too_large(answer) else BusError
            raise fault(_why(answer))
        return answer


def _why(answer: Json) -> str:
    """What a server says of a fault: up to etcd 3.4 in `error`, and later in `message`."""
    return str(answer.get("error") or answer.get("message") or answer)


def _is_too_large(answer: Json) -> bool:
    code, text = answer.get("code"), _why(answer)
    return code in (_RESOURCE, _INVALID) and ("too large" in text or "larger than" in text)


def _text(data: bytes) -> str:
    """Bytes as the gateway writes them."""
    return b64encode(data).decode()


def _bytes(text: str) -> bytes:
    return b64decode(text)


def _value(entry: Json) -> bytes:
    """The value of a key. The gateway leaves out empty ones."""
    return _bytes(entry.get("value", ""))


def _range(prefix: bytes) -> Json:
    """All keys that begin so."""
    return {"key": _text(prefix), "range_end": _text(prefix[:-1] + bytes([prefix[-1] + 1]))}
