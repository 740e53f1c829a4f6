"""A program that prints routes as frames come."""

from __future__ import annotations

import time
from typing import Iterator, List, Optional, Sequence

from squall import Rank, Router

from .board_file import BoardFile
from .node import Node

#: How long a turn waits at most, and how often the board is written.
_TURN = 0.1
_SAVE = 1.0


def follow(node: Node, keys: Sequence[Rank], file: Optional[BoardFile]) -> None:
    """Prints lines when they change, and keeps the board in the file, until the program is ended.

    The file has nothing that was not printed, whenever the program ends. Raises `OSError` if the
    file can't be written.
    """
    shown: List[str] = []
    saved = time.monotonic()
    try:
        while True:
            shown = _show(node, keys, shown)
            if file is not None and time.monotonic() - saved >= _SAVE:
                file.save(node)
                saved = time.monotonic()
            node.turn(_TURN)
    finally:
        _show(node, keys, shown)
        if file is not None:
            file.save(node)


def _show(node: Node, keys: Sequence[Rank], shown: Sequence[str]) -> List[str]:
    """Prints the lines that were not shown before: all lines of now."""
    lines = list(describe(node.router, keys))
    for line in lines:
        if line not in shown:
            print(line, flush=True)
    return lines


def describe(router: Router, keys: Sequence[Rank]) -> Iterator[str]:
    """How far the router's course is, and where it sends the keys."""
    with router.course() as course, router.view() as view:
        number, moves = course.number, course.moves()
        loaded = sum(all(leg.part == it.dest for leg in view.legs(it.lo, it.hi)) for it in moves)
        yield f"course {number} loaded {loaded} of {len(moves)} moves"
        for key in keys:
            yield f"key {key} partition {view.route(key)} course {number}"
