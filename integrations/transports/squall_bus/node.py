"""A router that hears a bus."""

from __future__ import annotations

import random
import sys
import time
from functools import partial
from typing import Callable, Optional

from squall import FrameError, Plan, Router, TooLongError

from .bus import Bus, BusError, Message, TooLarge
from .pieces import is_digest

#: How long a node waits before it connects again.
AGAIN = 0.2
#: The share of its pace after which a node shows its digest once it has seen a gap, and how much
#: longer it waits after each further digest.
QUICK, MORE = 1 / 16, 1.25


class Rhythm:
    """When a node shows its digest: each `pace` seconds, and more often while it sees gaps.

    A gap is that nodes know different things. It counts if the node has learnt something since the
    last gap. If it has not, others have nothing for it, or the bus brings it nothing.
    """

    def __init__(self, pace: float) -> None:
        self.pace = self._wait = pace
        self._next = float("-inf")
        self._gap_at: Optional[bytes] = None

    def is_due(self) -> bool:
        """Whether it is time. The next time is then set."""
        now = time.monotonic()
        if now < self._next:
            return False
        self._next = now + self._wait
        self._wait = min(MORE * self._wait, self.pace)
        return True

    def reset(self) -> None:
        """It is time now."""
        self._next = float("-inf")

    def see_gap(self, digest: bytes) -> None:
        """A gap was seen by the node of this digest.

        Nodes wait for times of their own, so that not all show their digests at once.
        """
        if digest != self._gap_at:
            self._gap_at, self._wait = digest, QUICK * self.pace
            soon = time.monotonic() + random.uniform(0.0, self._wait)
            self._next = min(self._next, soon)


class Node:
    """A router that hears the other nodes of a bus. One thread uses it.

    It begins with course 1, which moves nothing, and hears of all others.
    """

    def __init__(self, bus: Bus, first: Plan, pace: float = 1.0) -> None:
        """A node that shows its digest each `pace` seconds, if the bus may lose frames.

        `first` is the plan of course 1. Raises `squall.PlanError` if it is none.
        """
        self.bus = bus
        self.router = Router(1, first, first)
        #: Frames that were taken, and messages that were no frames.
        self.taken = 0
        self.refused = 0
        #: Frames of repairs that were sent.
        self.repairs = 0
        #: When a digest was heard last that is this node's own, and one that differs.
        self.equal = self.differed = float("-inf")
        self._rhythm = Rhythm(pace)
        self._is_gap = False
        self._said: Optional[str] = None

    def tell(self, frame: bytes) -> None:
        """Takes a report, and tries until the bus has taken it too.

        Raises `squall.FrameError` if it is no frame, and `TooLarge`.
        """
        self.router.hear(frame)
        while not self._reached(lambda: self.bus.send(frame)):
            time.sleep(AGAIN)

    def turn(self, seconds: float) -> bool:
        """Hears others for at most this time: whether a frame of reports was taken.

        It answers digests, and shows its own if it is time. If the server can't be reached, it says
        so once on standard error. The next turn connects again.
        """
        before = self.taken
        if not self._reached(lambda: self._hear(seconds)):
            time.sleep(min(AGAIN, seconds))
        return self.taken != before

    def settle(self, quiet: float, most: float) -> bool:
        """Hears others until one has shown that it knows the same, and none differs for `quiet`.

        Whether that came about within `most` seconds. If the bus loses nothing, it is so at once.
        """
        began = time.monotonic()
        self.equal, self.differed = float("-inf"), began
        while self.bus.loses:
            self.turn(self._rhythm.pace / 4)
            now = time.monotonic()
            if self.equal > began and now - self.differed >= quiet:
                return True
            if now - began >= most:
                return False
        return True

    def _reached(self, act: Callable[[], None]) -> bool:
        """Whether the server did this."""
        try:
            self.bus.connect()
            act()
        except BusError as error:
            self.bus.close()
            self._rhythm.reset()
            self._say(str(error))
            return False
        self._said = None
        return True

    def _hear(self, seconds: float) -> None:
        if self.bus.loses and self._rhythm.is_due():
            digest = self._digest()
            if digest is not None:
                self._fitting(partial(self.bus.ask, digest))
        self._is_gap = False
        for message in self.bus.hear(seconds):
            self._take(message)
        if self._is_gap:
            self._rhythm.see_gap(self._digest() or b"")

    def _take(self, message: Message) -> None:
        """Handles a message. Bytes that are no frame are counted and ignored."""
        try:
            self.router.hear(message.frame)
        except FrameError:
            self.refused += 1
            return
        if is_digest(message.frame):
            self._repair(message)
        else:
            self.taken += 1
            self._is_gap = self._is_gap or message.mends

    def _repair(self, message: Message) -> None:
        """Answers the digest that was heard."""
        if message.frame == self._digest():
            self.equal = time.monotonic()
            return
        self.differed = time.monotonic()
        self._is_gap = True
        reply = message.reply
        if reply is not None:
            for frame in self.router.repair():
                self._fitting(partial(self.bus.answer, reply, frame))
                self.repairs += 1

    def _digest(self) -> Optional[bytes]:
        """The router's digest, or None if it is longer than a frame may be."""
        try:
            return self.router.digest()
        except TooLongError as error:
            self._say(f"a digest is not shown: {error}")
            return None

    def _fitting(self, act: Callable[[], None]) -> None:
        """Does this, and says if the bus takes no message of this length."""
        try:
            act()
        except TooLarge as error:
            self._say(str(error))

    def _say(self, text: str) -> None:
        if text != self._said:
            print(f"bus: {text}", file=sys.stderr, flush=True)
            self._said = text
