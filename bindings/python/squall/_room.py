"""Rooms, the memory in which handles of the library live, and the records of `squall.h`."""

from __future__ import annotations

import ctypes
from typing import Any, ClassVar, List, Tuple, Type, TypeVar

from ._fork import REFUSED

#: What the address of a room is a multiple of.
ALIGN = 16

R = TypeVar("R", bound="Room")


class Room(ctypes.Structure):
    """A room. What was opened in it is closed when nothing refers to the room any more.

    A call of ctypes refers to its arguments. So nothing is closed while a call with it runs,
    whatever other threads, signal handlers and the garbage collector do meanwhile.
    """

    #: Whether something was opened here, so that it has to be closed.
    is_open = False

    _memory: ClassVar[Any]
    _close: ClassVar[Any]

    @classmethod
    def prepare(cls, size: int, close: Any) -> None:
        """Says how many bytes such a room has, and by which function of C it is closed."""
        cls._memory = ctypes.c_char * (size + ALIGN - 1)
        cls._close = close

    @classmethod
    def make(cls: Type[R]) -> R:
        """A room in which nothing was opened."""
        memory = cls._memory()
        return cls.from_buffer(memory, -ctypes.addressof(memory) % ALIGN)

    def __del__(self) -> None:
        if self.is_open and not REFUSED:
            self._close(self)


class RouterRoom(Room):
    """A room for a router."""


class ViewRoom(Room):
    """A room for a view."""


class CourseRoom(Room):
    """A room for a course."""


class ErrandRoom(Room):
    """A room for an errand."""


class PartRoom(Room):
    """A room for a partition."""


class LeaderRoom(Room):
    """A room for a leader."""


def _fields(size: Type[Any], *names: str) -> List[Tuple[str, Type[Any]]]:
    """The fields of a record with these names, all of them of one type."""
    return [(name, size) for name in names]


class SpanRecord(ctypes.Structure):
    """A span, as `squall.h` has it."""

    _fields_ = _fields(ctypes.c_uint64, "lo", "hi")
    lo: int
    hi: int


# Records that begin as that of a span does have its fields.


class LegRecord(SpanRecord):
    """A leg, as `squall.h` has it."""

    _fields_ = _fields(ctypes.c_uint32, "part")
    part: int


class MoveRecord(SpanRecord):
    """A move, as `squall.h` has it."""

    _fields_ = _fields(ctypes.c_uint32, "source", "dest", "sub")
    source: int
    dest: int
    sub: int


class ChunkRecord(SpanRecord):
    """A chunk, as `squall.h` has it."""

    _fields_ = _fields(ctypes.c_uint32, "number", "sub", "source", "dest")
    number: int
    sub: int
    source: int
    dest: int


class CountsRecord(ctypes.Structure):
    """How much a router heard, as `squall.h` has it."""

    _fields_ = _fields(ctypes.c_uint64, "cells", "spans", "opened", "issues")
    cells: int
    spans: int
    opened: int
    issues: int


class AnswerRecord(ctypes.Structure):
    """The reply of a partition, as `squall.h` has it."""

    _fields_ = _fields(ctypes.c_uint32, "reply", "part", "number")
    reply: int
    part: int
    number: int


#: A place, as `squall.h` has it: the numbers `part`, `source`, `dest` and `sub`.
PlaceRecord = ctypes.c_uint32 * 4
