"""Courses, and where keys stand in them."""

from __future__ import annotations

import ctypes
from typing import Any, Callable, Iterable, List, NamedTuple, Optional, Tuple, Type, TypeVar

from . import _library as lib
from ._fork import REFUSED, refuse
from ._handle import Handle
from ._room import CourseRoom, LegRecord, MoveRecord, SpanRecord
from ._status import check
from ._written import written
from .keys import NOWHERE, Leg, Rank, rank, word
from .plan import Plan, PlanText

#: How many moves or ranges one call of C gives, and how many receivers the first one may.
_AT_ONCE = 256
#: How much more room receivers get if it was too short.
_MORE = 8

_NO_MEMORY = 1
_LIMIT = 2

Record = TypeVar("Record", LegRecord, MoveRecord)


class Move(NamedTuple):
    """The keys from `lo` on, below `hi`, move from a partition to another in a sub-plan."""

    #: The first key.
    lo: Rank
    #: Where the keys end: a key, or `END`.
    hi: Rank
    #: The partition that gives the keys, from 0 to 9999.
    source: int
    #: The partition that loads them, from 0 to 9999.
    dest: int
    #: The sub-plan, from 0.
    sub: int

    def __str__(self) -> str:
        return f"[{self.lo},{self.hi}) {self.source} to {self.dest} sub {self.sub}"


class Place(NamedTuple):
    """Where a key stands, as `View.place` and `View.locate` say it."""

    #: The partition to ask.
    part: int
    #: The partition of the key in the old plan.
    source: int
    #: The partition of the key in the new plan.
    dest: int
    #: The sub-plan in which the key moves, from 0, or None if it does not move.
    sub: Optional[int]

    @property
    def is_settled(self) -> bool:
        """Whether the key stays where it is until another course begins.

        It is settled if it does not move, or if its load is known.
        """
        return self.part == self.dest


def places_of(numbers: Iterable[int]) -> List[Optional[Place]]:
    """The places of these numbers of C, four each, and None for a rank that is no key's."""
    words, new = iter(numbers), tuple.__new__
    # To call the class or a function for each would take half as long again.
    return [
        None
        if part == NOWHERE
        else new(Place, (part, source, dest, sub if sub != NOWHERE else None))
        for part, source, dest, sub in zip(words, words, words, words)
    ]


class Course(Handle):
    """A numbered change from an old plan to a new one.

    It says which keys move, from which partition to which. In each sub-plan a partition gives keys
    to at most one other. The sub-plans are worked off one after the other, from 0. A course never
    changes.

    >>> course = Course(1, old, new)
    >>> for move in course.moves(): print(move)
    [0:0,5:0) 1 to 3 sub 0
    >>> course.subplans, course.receivers(0)
    (1, [3])

    `Router.course` and `Router.first_course` give those that a router knows. Threads may share a
    course, but its calls wait for each other.
    """

    __slots__ = ()

    _kind = CourseRoom
    _call_status = lib.course_status

    def __init__(self, number: int, old: PlanText, new: PlanText) -> None:
        """The course `number` from the plan `old` to the plan `new`.

        Other threads run while it reads the plans.

        Raises `NumberError` if the number is not from 1 to 4294967295, before any text is looked
        at, `PlanError` if a text is no plan, and `NoMemory`.
        """
        if REFUSED:
            refuse()
        before, after = Plan(old).text, Plan(new).text
        room = CourseRoom.make()
        lib.course_open(word(number), before, len(before), after, len(after), room)
        room.is_open = True
        check(lib.course_status(room), lib.course_fault_at(room))
        self._room = room

    @property
    def number(self) -> int:
        """The number of the course, from 1 on. Raises `ClosedError`."""
        return self._ask(lib.course_number)

    @property
    def subplans(self) -> int:
        """How many sub-plans it has: 0 if nothing moves. Raises `ClosedError`."""
        return self._ask(lib.course_subplans)

    def moves(self) -> List[Move]:
        """The moves by rising key.

        Each key that moves lies in exactly one, and no other key in any. Raises `ClosedError`.
        """
        records = self._ask(_records, lib.course_moves, MoveRecord)
        new = int.__new__
        return [
            Move(new(Rank, it.lo), new(Rank, it.hi), it.source, it.dest, it.sub) for it in records
        ]

    def old_plan(self) -> List[Leg]:
        """The ranges of the old plan by rising key. Neighbours have different partitions.

        `Plan.of` makes a plan of them. Raises `ClosedError`.
        """
        return self._ranges(lib.course_old)

    def new_plan(self) -> List[Leg]:
        """The ranges of the new plan, as `old_plan` has those of the old one."""
        return self._ranges(lib.course_new)

    def _ranges(self, call: Callable[..., int]) -> List[Leg]:
        records = self._ask(_records, call, LegRecord)
        new = int.__new__
        return [Leg(new(Rank, it.lo), new(Rank, it.hi), it.part) for it in records]

    def old_text(self) -> str:
        """The old plan as a JSON text: its ranges by rising key, without spaces.

        `Plan` reads it as the same plan. Raises `NoMemory` and `ClosedError`.
        """
        return self._ask(_text, lib.course_old_text)

    def new_text(self) -> str:
        """The new plan, as `old_text` is the old one."""
        return self._ask(_text, lib.course_new_text)

    def left(self, loaded: Iterable[Tuple[int, int]]) -> str:
        """The plan of where the course leaves the keys if it ends early, as a JSON text.

        `Leader.begin_from` begins the next course from it. A key of the spans is loaded, and at its
        new partition. Any other is at its old one. The spans may overlap, and come in any order.

        Raises `NumberError` if a rank has no 64 bits, if a span has no keys or ends above `END`, or
        if the plan would have more than 4096 ranges. Raises `NoMemory` and `ClosedError`.
        """
        spans = [SpanRecord(rank(lo), rank(hi)) for lo, hi in loaded]
        return self._ask(_left, (SpanRecord * len(spans))(*spans))

    def receivers(self, sub: int) -> List[int]:
        """The partitions to which keys move in the sub-plan, by rising number.

        There are none if there is no such sub-plan. Raises `NumberError` if `sub` has no 32 bits,
        `NoMemory` and `ClosedError`.
        """
        return self._ask(_receivers, word(sub))

    def frame(self) -> bytes:
        """The frame of the report that this course was issued.

        A router that hears it knows the course. Raises `NoMemory` and `ClosedError`.
        """
        return self._ask(_frame)


def _records(room: CourseRoom, call: Callable[..., int], kind: Type[Record]) -> List[Record]:
    """All moves or ranges that the call gives, block by block."""
    found: List[Record] = []
    while True:
        block: Any = (kind * _AT_ONCE)()
        count = call(room, len(found), block, _AT_ONCE)
        found += block[:count]
        if count < _AT_ONCE:
            return found


def _text(room: CourseRoom, call: Callable[..., int]) -> str:
    return written(call, room).decode("ascii")


def _left(room: CourseRoom, spans: ctypes.Array[SpanRecord]) -> str:
    text = written(lib.course_left, room, spans, len(spans))
    if not text:
        check(_LIMIT)
    return text.decode("ascii")


def _receivers(room: CourseRoom, sub: int) -> List[int]:
    found: List[int] = []
    size = _AT_ONCE
    while True:
        block = (ctypes.c_uint32 * size)()
        count = lib.course_receivers(room, sub, len(found), block, size)
        if count == lib.NO_COUNT:
            check(_NO_MEMORY)
        found += block[:count]
        # As many as there is room for: there may be more.
        if count < size:
            return found
        size *= _MORE


def _frame(room: CourseRoom) -> bytes:
    return written(lib.course_frame, room)
