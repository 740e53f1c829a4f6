"""A program that tells a bus how a course comes along."""

from __future__ import annotations

import time
from typing import Iterable, Iterator

from squall import Course, Rank, frame

from .node import Node


def work_off(course: Course, chunks: int) -> Iterator[bytes]:
    """The frames of a course that is worked off: each move in so many chunks, and no row is moved.

    This is what a mover reports, for trials.
    """
    yield course.frame()
    number, moves = course.number, course.moves()
    for sub in range(course.subplans):
        yield frame.opened(number, sub)
        for move in (it for it in moves if it.sub == sub):
            ends = [move.lo + (move.hi - move.lo) * at // chunks for at in range(chunks + 1)]
            for lo, hi in zip(ends, ends[1:]):
                if lo < hi:
                    yield frame.loaded(number, sub, move.dest, lo, hi)
        for part in course.receivers(sub):
            yield frame.done(number, sub, part)


def reported(lines: Iterable[str]) -> Iterator[bytes]:
    """The frames of lines `loaded N S P LO HI`, `done N S P` and `opened N S`.

    Raises `ValueError` at a line of another form.
    """
    for line in lines:
        if line.strip():
            yield _report(line.split())


def _report(words: Iterable[str]) -> bytes:
    name, *rest = words
    try:
        if name == "loaded":
            number, sub, part = map(int, rest[:3])
            lo, hi = map(Rank.parse, rest[3:])
            return frame.loaded(number, sub, part, lo, hi)
        if name == "done":
            number, sub, part = map(int, rest)
            return frame.done(number, sub, part)
        if name == "opened":
            number, sub = map(int, rest)
            return frame.opened(number, sub)
    except ValueError as error:
        raise ValueError(f"{' '.join([name, *rest])}: {error}") from error
    raise ValueError(f"{name} is no report")


def publish(node: Node, frames: Iterable[bytes], pause: float) -> int:
    """Tells all frames, and hears others for `pause` seconds after each: how many it told.

    Raises `TooLarge`.
    """
    count = 0
    for it in frames:
        node.tell(it)
        count += 1
        due = time.monotonic() + pause
        while (left := due - time.monotonic()) > 0:
            node.turn(left)
    return count
