"""The seal of messages: a code that only programs with the deployment's secret can make.

PROTOCOL.md says what it is made of. The programs for Redis have the same.
"""

from __future__ import annotations

import hmac
import sys
from hashlib import sha256
from pathlib import Path
from secrets import token_hex
from typing import NamedTuple, Optional, Tuple

#: The most bytes that come before a frame: the code, the length of the sender's name, and the name.
HEAD = 64
#: How many bytes a code has, and the least of a secret. A shorter one could be found by trying all.
_CODE, _LEAST = 32, 16


def _code(key: bytes, *pieces: bytes) -> bytes:
    text = b"".join(len(it).to_bytes(8, "big") + it for it in pieces)
    return hmac.new(key, text, sha256).digest()


class About(NamedTuple):
    """What a message says beside its frame."""

    #: The subject to which it is sent.
    place: str
    #: The program that sends it.
    sender: str
    #: The subject to which answers go, if it is a digest.
    reply: Optional[str] = None


class Seal:
    """Seals the messages of one deployment, and opens them."""

    def __init__(self, secret: bytes, name: str) -> None:
        """The seal of the deployment of that secret and name."""
        self._key = _code(secret, b"squall bus")
        self._name = name

    def code(self, about: About, frame: bytes) -> bytes:
        """The code of a message."""
        texts = (self._name, about.place, about.sender, about.reply or "")
        return _code(self._key, b"squall entry 1", *(it.encode() for it in texts), frame)

    def envelope(self, about: About, frame: bytes) -> bytes:
        """The bytes of a message. The sender's name has at most 31."""
        sender = about.sender.encode()
        return self.code(about, frame) + bytes([len(sender)]) + sender + frame

    def open(self, place: str, reply: Optional[str], data: bytes) -> Optional[Tuple[str, bytes]]:
        """The sender and the frame of such bytes, or None if they do not have the right code."""
        if len(data) <= _CODE:
            return None
        end = _CODE + 1 + data[_CODE]
        try:
            sender = data[_CODE + 1 : end].decode()
        except UnicodeDecodeError:
            return None
        right = self.code(About(place, sender, reply), data[end:])
        is_right = len(data) >= end and hmac.compare_digest(right, data[:_CODE])
        return (sender, data[end:]) if is_right else None


class Letters:
    """Frames as they go over NATS: sealed if there is a secret, and else as they are."""

    def __init__(self, secret: Optional[bytes], name: str) -> None:
        """Those of the deployment of that secret and name."""
        self._seal = None if secret is None else Seal(secret, name)
        self._sender = f"bus-{token_hex(8)}"
        #: How many bytes may come before a frame.
        self.head = 0 if secret is None else HEAD
        #: How many messages were passed over.
        self.foreign = 0

    def closed(self, place: str, frame: bytes, reply: Optional[str] = None) -> bytes:
        """The bytes of a message of a frame to a subject."""
        if self._seal is None:
            return frame
        return self._seal.envelope(About(place, self._sender, reply), frame)

    def opened(self, place: str, data: bytes, reply: Optional[str] = None) -> Optional[bytes]:
        """The frame of a message, or None if it is passed over."""
        if self._seal is None:
            return data
        opened = self._seal.open(place, reply, data)
        if opened is not None:
            return opened[1]
        if self.foreign == 0:
            why = "a message is passed over that no program with this --secret-file has sent"
            print(f"bus: {why}", file=sys.stderr, flush=True)
        self.foreign += 1
        return None


def read_secret(path: Path) -> bytes:
    """The secret of a file: its first line. Raises `OSError`, and `ValueError` if it is none."""
    secret = path.read_bytes().split(b"\n")[0].rstrip(b"\r")
    if b" " in secret or b"\t" in secret or len(secret) < _LEAST:
        made = "`openssl rand -hex 32 > FILE` makes one"
        raise ValueError(f"{path}: no secret of {_LEAST} or more characters; {made}")
    return secret
