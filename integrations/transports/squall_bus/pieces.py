"""Frames that are too long for a bus, as several shorter ones."""

from __future__ import annotations

import struct
from typing import Iterable, Iterator, List, NamedTuple, Optional, Tuple

from squall import Course, FrameError, Plan, Rank, Router, TooLongError, frame

from .bus import TooLarge

#: A plan for routers that only join reports.
ANY = Plan('{"plan":[{"part":0,"from":[0,0],"to":"end"}]}')
_OTHER = Plan('{"plan":[{"part":1,"from":[0,0],"to":"end"}]}')

_DELTA, _DIGEST = 1, 2
_HEAD = 8
_CLASH = 2


class Pieces(NamedTuple):
    """What `cut` makes of a frame. Together they say what the frame says."""

    #: Those of at most the given length.
    fit: List[bytes]
    #: Those of one report each that are longer.
    too_long: List[bytes]


def is_digest(data: bytes) -> bool:
    """Whether a frame is one of a digest."""
    return data[3:4] == bytes([_DIGEST])


def joined(frames: Iterable[bytes], most: Optional[int] = None) -> List[bytes]:
    """The frames of the board with the reports of all these frames, each of at most `most` bytes.

    Raises `squall.TooLongError` if a single report needs a longer one.
    """
    with Router(1, ANY, ANY) as outbox:
        for it in frames:
            outbox.hear(it)
        return outbox.board(limit=most)


def is_delta(data: bytes) -> bool:
    """Whether these bytes are a frame of reports."""
    with Router(1, ANY, ANY) as outbox:
        try:
            outbox.hear(data)
        except FrameError:
            return False
    return not is_digest(data)


def cut(data: bytes, most: int) -> Pieces:
    """Frames of at most `most` bytes that say together what this one says.

    `data` is a frame that the library made or took.
    """
    if len(data) <= most:
        return Pieces([data], [])
    if is_digest(data):
        return Pieces([], [data])
    try:
        return Pieces(joined([data], most), [])
    except TooLongError:
        single = list(reports(data))
    fit = joined([it for it in single if len(it) <= most], most)
    return Pieces(fit, [it for it in single if len(it) > most])


def refuse(pieces: Pieces, most: int) -> None:
    """Raises `TooLarge`, if there are frames that can't be cut."""
    for data in pieces.too_long:
        raise TooLarge(f"{_name(data)} takes {len(data)} bytes, and a message at most {most}")


def _name(data: bytes) -> str:
    if is_digest(data):
        return "a digest"
    reader = _Reader(data)
    reader.skip_openings()
    if data[2] == 2 and reader.word():
        return f"the issue of course {reader.word()}"
    return "a report"


class _Reader:
    """Reads the numbers of a frame's body, one after the other."""

    def __init__(self, data: bytes) -> None:
        self._data = data
        self._at = _HEAD

    def take(self, form: str) -> Tuple[int, ...]:
        """The numbers of this form, big-endian."""
        found = struct.unpack_from(">" + form, self._data, self._at)
        self._at += struct.calcsize(">" + form)
        return found

    def word(self) -> int:
        """A number of 32 bits."""
        return self.take("I")[0]

    def skip_openings(self) -> None:
        """Passes over all openings."""
        count = self.word()
        self._at += 8 * count


def reports(data: bytes) -> Iterator[bytes]:
    """A frame for each report that a delta has. `data` is a frame that the library made or took."""
    reader = _Reader(data)
    for _ in range(reader.word()):
        number, count = reader.take("II")
        yield frame.opened(number, count - 1)
    if data[2] == 2:
        for _ in range(reader.word()):
            yield from _issue(reader)
    for _ in range(reader.word()):
        yield from _cell(reader)


def _issue(reader: _Reader) -> Iterator[bytes]:
    """The issue of a course. A clash is what two different ones give."""
    number, mark = reader.take("IB")
    if mark == _CLASH:
        plans = [(ANY, ANY), (_OTHER, _OTHER)]
    else:
        plans = [(_plan(reader), _plan(reader))]
    for old, new in plans:
        with Course(number, old, new) as course:
            yield course.frame()


def _plan(reader: _Reader) -> Plan:
    ranges, lo = [], 0
    for _ in range(reader.word()):
        hi, part = reader.take("QI")
        ranges.append((lo, hi, part))
        lo = hi
    return Plan.of(ranges)


def _cell(reader: _Reader) -> Iterator[bytes]:
    number, sub, part, is_done, spans = reader.take("IIIBI")
    if is_done:
        yield frame.done(number, sub, part)
    for _ in range(spans):
        lo, hi = reader.take("QQ")
        yield frame.loaded(number, sub, part, Rank.of(lo), Rank.of(hi))
