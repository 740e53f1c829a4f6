"""A router's board in a file, beside the place up to which its bus was read."""

from __future__ import annotations

import os
from pathlib import Path

from .node import Node


class BoardFile:
    """A board file, as `squall status` reads it. A second file, `NAME.place`, has the place."""

    def __init__(self, path: Path) -> None:
        self._path = path
        self._place = path.with_name(path.name + ".place")

    def load(self, node: Node) -> None:
        """Gives the node what the files have, if they are there.

        Raises `OSError`, `squall.FrameError`, and `ValueError` if the place is no number.
        """
        if self._path.exists():
            node.router.feed(self._path.read_bytes())
            if self._place.exists():
                node.bus.place = int(self._place.read_text("ascii"))

    def save(self, node: Node) -> None:
        """Writes what the node knows. Raises `OSError`.

        The board comes first. So after a crash the place may be too early, and never too late.
        """
        _replace(self._path, b"".join(node.router.board()))
        _replace(self._place, b"%d\n" % node.bus.place)


def _replace(path: Path, data: bytes) -> None:
    """Puts a file with these bytes there. At each moment it is the old or the new one."""
    fresh = path.with_name(f"{path.name}.{os.getpid()}")
    with open(fresh, "wb") as file:
        file.write(data)
        file.flush()
        os.fsync(file.fileno())
    os.replace(fresh, path)
    folder = os.open(path.parent, os.O_RDONLY | os.O_DIRECTORY)
    try:
        os.fsync(folder)
    finally:
        os.close(folder)
