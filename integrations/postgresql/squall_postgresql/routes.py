"""What a program knows of courses: a router that hears the bus, and asks partitions."""

from __future__ import annotations

import threading
import time
from typing import Any, Optional

from squall import Course, Plan, Router, View
from squall_bus import Bus, Node

from .partition import rank_of

#: How long the thread waits for frames before it looks whether it is to end.
_TURN = 0.1
#: How often partitions are asked for news, if routes lag behind.
_EACH = 1.0


class Routes:
    """Routes of keys, which threads may share.

    With a bus a thread of its own hears reports. Without one, partitions say what they know.
    """

    def __init__(self, first: Plan, bus: Optional[Bus] = None) -> None:
        """`first` is the plan of course 1. Raises `squall.PlanError`."""
        self._node = None if bus is None else Node(bus, first)
        self._router = self._node.router if self._node else Router(1, first, first)
        self._lock = threading.Lock()
        self._view = self._router.view()
        self._next = 0.0
        self._is_over = False
        self._thread = threading.Thread(target=self._hear, daemon=True, name="routes")
        if self._node is not None:
            self._thread.start()

    @property
    def view(self) -> View:
        """What is known now."""
        return self._view

    def close(self) -> None:
        """Ends the thread."""
        self._is_over = True
        if self._node is not None:
            self._thread.join()
            self._node.bus.close()

    def is_due(self) -> bool:
        """Whether a partition that has a key which came to it may be asked for news now."""
        with self._lock:
            now = time.monotonic()
            is_due = now >= self._next
            if is_due:
                self._next = now + _EACH
        return is_due

    def learn(self, cursor: Any) -> None:
        """Takes what a partition knows: the course, and what was loaded there.

        Raises `psycopg2.Error`, and `squall.FrameError` if it does not say a frame.
        """
        cursor.execute("select number, issue, lo, edge from squall.news()")
        rows = cursor.fetchall()
        for _, issue, _, _ in rows[:1]:
            if issue is not None:
                self._router.hear(bytes(issue))
        with self._router.course() as course:
            for number, _, lo, edge in rows:
                if lo is not None and number == course.number:
                    self._loaded(course, lo, edge)
        self._turn()

    def _loaded(self, course: Course, lo: int, edge: int) -> None:
        begin, end = rank_of(lo), rank_of(edge)
        for move in course.moves():
            if move.lo == begin:
                self._router.loaded(course.number, move.sub, move.dest, begin, end)

    def _turn(self) -> None:
        """Puts a new view where readers find it. Whoever has the old one may go on with it."""
        with self._lock:
            self._view = self._router.view()

    def _hear(self) -> None:
        assert self._node is not None
        while not self._is_over:
            if self._node.turn(_TURN):
                self._turn()
