"""Frames in a stream of NATS JetStream."""

from __future__ import annotations

import json
import time
from itertools import count
from secrets import token_hex
from typing import Any, Dict, List, Optional, Tuple
from urllib.parse import SplitResult

from .bus import BusError, KeepingBus, Merged, Message
from .nats_link import PATIENCE, NatsLink
from .nats_text import Op
from .pieces import cut, is_delta, joined, refuse
from .seal import Letters
from .sockets import servers
from .tls import Tls

Json = Dict[str, Any]

#: How many messages a consumer is asked for at once, and for how many seconds it may wait for them.
_BATCH, _EXPIRES = 256, 2.0
#: A consumer that nobody has asked for so many seconds is removed by the server.
_FORGOTTEN = 300.0
_SECOND = 10**9
#: The code of a stream that is not there, and those of servers that have not found each other yet.
_NO_STREAM, _NOT_YET = 10059, (10005, 10008)
#: How long servers may take to find a leader, and when they are asked again.
_ELECTION, _AGAIN = 15.0, 0.2


class _NoAnswer(BusError):
    """JetStream may answer later."""


class JetStreamBus(KeepingBus):
    """Keeps frames in a stream of the subject `NAME.frames`. `place` is the message read last.

    A node of core NATS hears the same subject, and what it publishes is kept too.
    """

    def __init__(self, url: SplitResult, tls: Tls = Tls(), secret: Optional[bytes] = None) -> None:
        """A bus by an address `jetstream://[USER[:PASSWORD]@]HOST[:PORT][,..][/NAME]`.

        It connects to the first server, and after a fault to the next one.

        With a secret each message is sealed, and one of anybody else is passed over.
        """
        self._link = NatsLink(url, tls)
        self._name = url.path.strip("/") or "squall"
        self._letters = Letters(secret, self._name)
        self._stream = self._name.replace(".", "_")
        #: How many servers keep each message.
        self._replicas = 3 if len(servers(url, 0)) >= 3 else 1
        self._inbox = f"_INBOX.{token_hex(16)}"
        self._count = count()
        self._consumer: Optional[str] = None
        #: When it was asked last, and how many messages it may still send.
        self._asked, self._left = float("-inf"), 0
        #: The messages that were read, each with its place.
        self._ready: List[Tuple[int, Message]] = []

    @property
    def _subject(self) -> str:
        """To which frames are sent."""
        return f"{self._name}.frames"

    def connect(self) -> None:
        if not self._link.is_open:
            self._link.connect([f"{self._inbox}.* 1"])
            self._consumer = None

    def close(self) -> None:
        self._link.close()
        self._ready = []

    def setup(self) -> None:
        """Makes the stream, if it is not there: on three servers, if the address names as many."""
        self.connect()
        config: Json = {"name": self._stream, "subjects": [self._subject]}
        config.update(num_replicas=self._replicas, storage="file", retention="limits")
        self._api(f"STREAM.CREATE.{self._stream}", config)

    def send(self, frame: bytes) -> None:
        most = self._link.most - self._letters.head
        pieces = cut(frame, most)
        for it in pieces.fit:
            self._keep(it)
        refuse(pieces, most)

    def _keep(self, frame: bytes) -> int:
        """Publishes a frame, and waits until the stream has it: its place there."""
        answer = self._request(self._subject, self._letters.closed(self._subject, frame))
        if answer.get("stream") != self._stream:
            raise BusError(f"the stream {self._stream} has not taken a frame: {_why(answer)}")
        return int(answer["seq"])

    def hear(self, seconds: float) -> List[Message]:
        return [it for _, it in self._heard(seconds)]

    def _heard(self, seconds: float) -> List[Tuple[int, Message]]:
        """The same, each message with its place."""
        if self._consumer is None:
            self._begin()
        if not self._ready:
            now = time.monotonic()
            if now - self._asked > 2 * _EXPIRES:
                self._pull(now)
            for op in self._link.hear(seconds):
                self._take(op)
        ready, self._ready = self._ready, []
        return ready

    def _begin(self) -> None:
        """Makes a consumer that begins after `place`.

        It is durable, so that it stays if its server is killed. It asks for no acknowledgements:
        what a node has is in its board, beside the place.
        """
        if self.place > int(self._state()["last_seq"]):
            self.place = 0
        name = f"{self._stream}-{token_hex(8)}"
        config: Json = {"durable_name": name, "ack_policy": "none", "replay_policy": "instant"}
        config.update(deliver_policy="by_start_sequence", opt_start_seq=self.place + 1)
        config.update(inactive_threshold=int(_FORGOTTEN * _SECOND))
        words = {"stream_name": self._stream, "config": config}
        self._api(f"CONSUMER.DURABLE.CREATE.{self._stream}.{name}", words)
        self._consumer, self._asked, self._ready = name, float("-inf"), []

    def _pull(self, now: float) -> None:
        """Asks for the next messages. The server ends the request with an empty message."""
        words = json.dumps({"batch": _BATCH, "expires": int(_EXPIRES * _SECOND)}).encode()
        subject = f"$JS.API.CONSUMER.MSG.NEXT.{self._stream}.{self._consumer}"
        self._link.publish(f"{subject} {self._inbox}.next", words)
        self._asked, self._left = now, _BATCH

    def _take(self, op: Op) -> None:
        """Takes a message of the consumer. Others are of requests that were given up."""
        words = op.rest.split()
        if not words[0].endswith(".frames"):
            if words[0] == f"{self._inbox}.next":
                self._asked = float("-inf")
            return
        consumer, place = _told(words[2] if len(words) == 4 else "")
        # One that was made before may still send what it was asked for.
        if consumer != self._consumer or place <= self.place:
            return
        self.place = place
        frame = self._letters.opened(self._subject, op.payload)
        if frame is not None:
            self._ready.append((place, Message(frame)))
        self._left -= 1
        if self._left == 0:
            self._asked = float("-inf")

    def merge(self) -> Merged:
        """The board is there before the first other message goes."""
        last = int(self._state()["last_seq"])
        old = self._up_to(last)
        good = [frame for frame in old if is_delta(frame)]
        board = joined(good)
        for frame in board:
            self.send(frame)
        self._api(f"STREAM.PURGE.{self._stream}", {"seq": last + 1})
        return Merged(len(old), len(old) - len(good), len(board))

    def _up_to(self, last: int) -> List[bytes]:
        """The frames of the stream up to this place."""
        place, self.place = self.place, 0
        frames: List[bytes] = []
        self._begin()
        while self.place < last:
            before = self.place
            heard = self._heard(PATIENCE)
            # A batch may go beyond.
            frames += [it.frame for place, it in heard if place <= last]
            if not heard and self.place == before and int(self._state()["messages"]) == 0:
                break
        self.place, self._consumer = place, None
        return frames

    def _state(self) -> Json:
        """What the stream holds."""
        state: Json = self._api(f"STREAM.INFO.{self._stream}", {})["state"]
        return state

    def _api(self, name: str, words: Json) -> Json:
        """Asks JetStream, which may have to find a leader first. Raises `BusError`."""
        until = time.monotonic() + _ELECTION
        while True:
            try:
                answer = self._request(f"$JS.API.{name}", json.dumps(words).encode())
                code = answer.get("error", {}).get("err_code")
                if code == _NO_STREAM:
                    raise BusError(f"there is no stream {self._stream}: run squall-bus setup")
                if "error" not in answer:
                    return answer
                raise (_NoAnswer if code in _NOT_YET else BusError)(_why(answer))
            except _NoAnswer:
                if time.monotonic() > until:
                    raise
                time.sleep(_AGAIN)

    def _request(self, subject: str, data: bytes) -> Json:
        """The answer to a message. Messages of the consumer may come before it."""
        inbox = f"{self._inbox}.{next(self._count)}"
        self._link.publish(f"{subject} {inbox}", data)
        until = time.monotonic() + PATIENCE
        while (left := until - time.monotonic()) > 0:
            answer: Optional[bytes] = None
            for op in self._link.hear(left):
                if op.rest.split()[0] == inbox:
                    answer = op.payload
                else:
                    self._take(op)
            if answer is not None:
                return _json(answer)
        raise _NoAnswer("JetStream does not answer")


def _json(data: bytes) -> Json:
    """An answer. An empty one says that nobody listens."""
    if not data:
        raise _NoAnswer("nobody answers: JetStream is off, or has no leader")
    try:
        answer: Json = json.loads(data)
    except ValueError as error:
        raise BusError("an answer of another form") from error
    return answer


def _why(answer: Json) -> str:
    return str(answer.get("error", {}).get("description", answer))


def _told(reply: str) -> Tuple[str, int]:
    """The consumer and the place in the stream that the subject of an acknowledgement names.

    It is `$JS.ACK.STREAM.CONSUMER.TIMES.PLACE..`, or has two more words before the stream.
    """
    words = reply.split(".")
    at = 3 if len(words) == 9 else 5
    if len(words) < at + 3 or not words[at + 2].isdigit():
        return "", 0
    return words[at], int(words[at + 2])
