"""How fast a mover moves rows, and what it says of that."""

from __future__ import annotations

import sys
import threading
import time
from typing import Dict, NamedTuple, Optional, TextIO

from squall import Move, Rank


class Pace(NamedTuple):
    """How fast rows may move."""

    #: About how many rows a chunk has. The statements of its keys wait while it is copied.
    chunk: int = 1000
    #: Seconds after each chunk.
    pause: float = 0.0
    #: At most so many rows a second of each source; 0 for no limit.
    rate: float = 0.0

    def size(self) -> int:
        """How many rows the next chunk has: at a low rate no more than a tenth of a second's."""
        if self.rate <= 0:
            return self.chunk
        return max(1, min(self.chunk, int(self.rate / 10)))

    def wait(self, rows: int) -> None:
        """Waits after a chunk of so many rows."""
        seconds = max(self.pause, rows / self.rate if self.rate > 0 else 0.0)
        if seconds > 0:
            time.sleep(seconds)


class Progress:
    """What was moved, for people. Threads may share it."""

    def __init__(self, out: Optional[TextIO] = None, each: float = 1.0) -> None:
        """Says it on `out`, standard error, each so many seconds."""
        self._out = sys.stderr if out is None else out
        self._each = each
        self._lock = threading.Lock()
        self._began = self._next = time.monotonic()
        #: Rows and chunks of this run, and how often it has begun again.
        self.rows = self.chunks = self.lost = 0
        #: Up to where the keys of a move are known to be loaded, by the move's first key.
        self._reached: Dict[Rank, Rank] = {}

    def add(self, number: int, rows: int) -> None:
        """A chunk was loaded."""
        with self._lock:
            self.rows += rows
            self.chunks += 1
            now = time.monotonic()
            if now >= self._next + self._each:
                self._next = now
                self.say(f"course {number}: {self.rows} rows in {self.chunks} chunks")

    def reach(self, move: Move, edge: Rank) -> None:
        """The keys of a move are loaded up to there."""
        with self._lock:
            self._reached[move.lo] = max(edge, self._reached.get(move.lo, edge))

    def loaded(self) -> int:
        """How many keys are known to be loaded."""
        with self._lock:
            return sum(edge - lo for lo, edge in self._reached.items())

    def say(self, text: str) -> None:
        """Says a line."""
        print(text, file=self._out, flush=True)

    def took(self) -> float:
        """Seconds since it began."""
        return time.monotonic() - self._began
