"""Frames over core NATS, by its text protocol."""

from __future__ import annotations

from secrets import token_hex
from typing import List, Optional
from urllib.parse import SplitResult

from .bus import Bus, Message
from .nats_link import NatsLink
from .pieces import cut, refuse
from .seal import Letters
from .tls import Tls


class NatsBus(Bus):
    """Sends frames to all nodes that are connected now. A server keeps none.

    Reports go to the subject `NAME.frames`. A digest goes to `NAME.digests`, and names a subject of
    its node alone, to which the repair goes.
    """

    loses = True

    def __init__(
        self,
        url: SplitResult,
        hears_all: bool = False,
        tls: Tls = Tls(),
        secret: Optional[bytes] = None,
    ) -> None:
        """A bus by an address `nats://[USER[:PASSWORD]@]HOST[:PORT][,..][/NAME]`, or `tls://..`.

        It connects to the first server, and after a fault to the next one.

        Of all nodes that do not hear all, the server gives each digest to one. A node that hears
        all gets each digest too.

        With a secret each message is sealed, and one of anybody else is passed over.
        """
        self._link = NatsLink(url, tls)
        self._name = url.path.strip("/") or "squall"
        self._hears_all = hears_all
        self._inbox = f"_INBOX.{token_hex(16)}"
        self._letters = Letters(secret, self._name)

    @property
    def foreign(self) -> int:
        """How many messages were passed over."""
        return self._letters.foreign

    def connect(self) -> None:
        if not self._link.is_open:
            group = "" if self._hears_all else self._name
            digests = f"{self._name}.digests {group} 2"
            self._link.connect([f"{self._name}.frames 1", digests, f"{self._inbox} 3"])

    def close(self) -> None:
        self._link.close()

    def send(self, frame: bytes) -> None:
        self._publish(f"{self._name}.frames", frame)

    def ask(self, digest: bytes) -> None:
        self._publish(f"{self._name}.digests", digest, self._inbox)

    def answer(self, reply: str, frame: bytes) -> None:
        self._publish(reply, frame)

    def hear(self, seconds: float) -> List[Message]:
        heard = []
        for op in self._link.hear(seconds):
            words = op.rest.split()
            # A stream of JetStream may answer who has sent a frame. That is no matter of others.
            is_digest = words[0] == f"{self._name}.digests" and len(words) == 4
            reply = words[2] if is_digest else None
            frame = self._letters.opened(words[0], op.payload, reply)
            if frame is not None:
                heard.append(Message(frame, reply, words[0] == self._inbox))
        return heard

    def _publish(self, place: str, frame: bytes, reply: Optional[str] = None) -> None:
        """Publishes a frame, in pieces if the server takes none of its length."""
        most = self._link.most - self._letters.head
        subject = place if reply is None else f"{place} {reply}"
        pieces = cut(frame, most)
        for it in pieces.fit:
            self._link.publish(subject, self._letters.closed(place, it, reply))
        refuse(pieces, most)
