"""Writes to a bus what no program of the deployment would: the tests in bus.sh say what has to come of it.

  forge.py redis://HOST:PORT|nats://HOST:PORT load N SUB PART LO HI      the report of a load
  forge.py .. issue N OLD NEW                                            that of a course
  forge.py .. turned COUNT                                               frames of which one or two bits are turned

--secret-file FILE seals it as the deployment would. It is sealed by a wrong code otherwise, or over Redis by none.
"""

import argparse
import hashlib
import hmac
import random
import secrets
import socket
import sys
import time
from pathlib import Path

from squall import Course, Plan, Rank, frame


def code(key: bytes, *pieces: bytes) -> bytes:
    text = b"".join(len(piece).to_bytes(8, "big") + piece for piece in pieces)
    return hmac.new(key, text, hashlib.sha256).digest()


def seal(secret: bytes, name: str, place: str, sender: str, re: str, it: bytes) -> bytes:
    fields = [field.encode() for field in (name, place, sender, re)]
    return code(code(secret, b"squall bus"), b"squall entry 1", *fields, it)


class RedisBus:
    def __init__(self, at):
        self.socket = socket.create_connection(at, timeout=10)
        self.file = self.socket.makefile("rb")

    def ask(self, *words):
        words = [word if isinstance(word, bytes) else str(word).encode() for word in words]
        bulks = b"".join(b"$%d\r\n%s\r\n" % (len(word), word) for word in words)
        self.socket.sendall(b"*%d\r\n%s" % (len(words), bulks))
        return self.read()

    def read(self):
        line = self.file.readline()
        kind, rest = line[:1], line[1:].strip()
        if kind == b"-":
            raise OSError(rest)
        if kind == b"$":
            count = int(rest)
            return None if count < 0 else self.file.read(count + 2)[:-2]
        return [self.read() for _ in range(int(rest))] if kind == b"*" else rest

    def write(self, place, sender, re, mac, it):
        words = ["XADD", "squall:" + place, "*", "from", sender, "frame", it]
        self.ask(*words, *(["re", re] if re else []), *([] if mac is None else ["mac", mac]))

    def end(self):
        """All was answered."""

    def entries(self):
        for place in ("frames", "digests"):
            for _, fields in self.ask("XRANGE", "squall:" + place, "-", "+"):
                it = dict(zip(fields[::2], fields[1::2]))
                yield place, it[b"from"].decode(), it.get(b"re", b"").decode(), it[b"mac"], it[b"frame"]


class NatsBus:
    def __init__(self, at):
        self.socket = socket.create_connection(at, timeout=10)
        self.file = self.socket.makefile("rb")
        self.socket.sendall(b'CONNECT {"verbose":false,"echo":false}\r\nSUB squall.* 1\r\nPING\r\n')
        while self.file.readline().strip() != b"PONG":
            pass

    def write(self, place, sender, re, mac, it):
        body = (mac or secrets.token_bytes(32)) + bytes([len(sender)]) + sender.encode() + it
        self.socket.sendall(f"PUB squall.{place} {re} {len(body)}\r\n".encode() + body + b"\r\n")

    def end(self):
        """Waits until the server has taken all."""
        self.socket.sendall(b"PING\r\n")
        while self.file.readline().strip() != b"PONG":
            pass

    def entries(self):
        until = time.monotonic() + 3
        while time.monotonic() < until:
            words = self.file.readline().decode().split()
            if words[:1] == ["PING"]:
                self.socket.sendall(b"PONG\r\n")
            if words[:1] != ["MSG"]:
                continue
            body = self.file.read(int(words[-1]) + 2)[:-2]
            name = body[33 : 33 + body[32]]
            re = words[3] if len(words) == 5 else ""
            yield words[1].split(".")[1], name.decode(), re, body[:32], body[33 + body[32] :]


def turned(bus, count):
    """Whole entries with a bit or two of the frame turned, and their own codes."""
    known = list(bus.entries())
    for _ in range(count):
        place, sender, re, mac, it = random.choice(known)
        bits = int.from_bytes(it, "big")
        for at in random.sample(range(8 * len(it)), random.choice((1, 2))):
            bits ^= 1 << at
        bus.write(place, sender, re, mac, bits.to_bytes(len(it), "big"))


def main() -> None:
    words = argparse.ArgumentParser()
    words.add_argument("bus")
    words.add_argument("kind", choices=("load", "issue", "turned"))
    words.add_argument("values", nargs="+")
    words.add_argument("--secret-file", type=Path)
    options = words.parse_args()
    scheme, at = options.bus.split("://")
    host, port = at.split(":")
    bus = (NatsBus if scheme == "nats" else RedisBus)((host, int(port)))
    values = options.values
    if options.kind == "turned":
        turned(bus, int(values[0]))
    else:
        if options.kind == "load":
            it = frame.loaded(*map(int, values[:3]), *map(Rank.parse, values[3:]))
        else:
            it = Course(int(values[0]), *(Plan(Path(name).read_bytes()) for name in values[1:])).frame()
        codes = [secrets.token_bytes(32)] + ([None] if scheme == "redis" else [])
        if options.secret_file:
            place = "squall" + (":" if scheme == "redis" else ".") + "frames"
            secret = options.secret_file.read_bytes().split(b"\n")[0]
            codes = [seal(secret, "squall", place, "forger", "", it)]
        for mac in codes:
            bus.write("frames", "forger", "", mac, it)
    bus.end()


if __name__ == "__main__":
    sys.exit(main())
