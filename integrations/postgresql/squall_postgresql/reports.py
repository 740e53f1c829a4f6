"""Reports of a mover, which go to the bus while it moves rows."""

from __future__ import annotations

import queue
import threading
import time
from typing import Optional, Tuple

from squall_bus import Node


class Reports(threading.Thread):
    """Tells a node frames, in their order. No step waits for that: routers may lag behind.

    The node connects again by itself if the bus is away, and says so once.
    """

    def __init__(self, node: Node) -> None:
        super().__init__(daemon=True, name="reports")
        self._node = node
        self._frames: "queue.Queue[bytes]" = queue.Queue()
        self._fault: Optional[Exception] = None
        self.start()

    def put(self, frame: bytes) -> None:
        """Sends a frame some time."""
        self._frames.put(frame)

    def run(self) -> None:
        while True:
            frame = self._frames.get()
            try:
                self._node.tell(frame)
            except Exception as error:  # pylint: disable=broad-except
                # Whoever waits for the end hears of it.
                self._fault = error
            self._frames.task_done()

    def waiting(self) -> int:
        """How many frames the bus has not taken yet."""
        return self._frames.unfinished_tasks

    def counts(self) -> Tuple[int, int, int]:
        """The frames that the node has taken and refused, and those of repairs that it has sent."""
        return self._node.taken, self._node.refused, self._node.repairs

    def settle(self, seconds: float) -> bool:
        """Waits until the bus has all frames: whether it has them in that time."""
        until = time.monotonic() + seconds
        while self._frames.unfinished_tasks and time.monotonic() < until:
            time.sleep(0.02)
        if self._fault is not None:
            raise self._fault
        return not self._frames.unfinished_tasks
