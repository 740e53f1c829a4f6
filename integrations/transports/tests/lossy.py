"""The program `squall-bus`, which on purpose misses a share of all messages.

    python3 -m tests.lossy PERCENT WORD ..

In the end it says on standard error how many it missed.
"""

from __future__ import annotations

import random
import sys
from typing import List

from squall_bus import Bus, Message
from squall_bus.program import main


class Lossy(Bus):
    """A bus of which a share of all messages is missed."""

    loses = True

    def __init__(self, bus: Bus, percent: int) -> None:
        self._bus, self._percent = bus, percent
        self.came = self.missed = 0

    def connect(self) -> None:
        self._bus.connect()

    def close(self) -> None:
        self._bus.close()

    def send(self, frame: bytes) -> None:
        self._bus.send(frame)

    def ask(self, digest: bytes) -> None:
        self._bus.ask(digest)

    def answer(self, reply: str, frame: bytes) -> None:
        self._bus.answer(reply, frame)

    def hear(self, seconds: float) -> List[Message]:
        came = self._bus.hear(seconds)
        heard = [it for it in came if random.randrange(100) >= self._percent]
        self.came += len(came)
        self.missed += len(came) - len(heard)
        return heard


def run(percent: int, words: List[str]) -> int:
    """The status of the program."""
    made: List[Lossy] = []

    def wrap(bus: Bus) -> Bus:
        made.append(Lossy(bus, percent))
        return made[0]

    try:
        return main(words, wrap)
    finally:
        for it in made:
            print(f"missed {it.missed} of {it.came}", file=sys.stderr, flush=True)


if __name__ == "__main__":
    sys.exit(run(int(sys.argv[1]), sys.argv[2:]))
