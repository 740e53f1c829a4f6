"""Leaders."""

from __future__ import annotations

import ctypes
from typing import Tuple

from . import _library as lib
from ._fork import REFUSED, refuse
from ._frames import Hears
from ._room import LeaderRoom
from ._status import check
from .course import Course
from .errors import ClosedError, IdleError, NotDoneError, PlanError
from .keys import word
from .plan import Plan, PlanText

_NOT_DONE = 94


class Leader(Hears):
    """Begins one course after another, and opens their sub-plans, one at a time.

    It hears from partitions what is done, and sends all that it knows.

    >>> leader = Leader(old)
    >>> leader.begin(new)
    >>> leader.course().number, leader.open_next()
    (1, 0)
    >>> leader.open_next()
    Traceback (most recent call last):
    squall.errors.NotDoneError: partition 3 has not reported that it has all keys of sub-plan 0
    >>> leader.hear(frame.done(1, 0, 3))
    >>> leader.finished
    True

    Keep a list of the calls that raised nothing, and of the frames that were heard. The same calls,
    made of a new leader of the same plan, lead to the same leader. Only one leader may run at a
    time: to choose it is for the program.

    Frames go as those of routers do. Threads may share a leader, but its calls wait for each other.
    """

    __slots__ = ()

    _kind = LeaderRoom
    _call_status = lib.leader_status
    _calls = lib.leader_frames

    def __init__(self, plan: PlanText, last: int = 0) -> None:
        """A leader of keys that lie as the plan says, with no course begun.

        Its first course has the number `last` plus 1. Give 0 if no number was used before. Routers
        that were opened as course 1, from this plan to the same plan, have used 1. Other threads
        run while it reads the plan.

        Raises `PlanError` if the text is no plan, `NumberError` if `last` has no 32 bits, and
        `NoMemory`.
        """
        if REFUSED:
            refuse()
        text, room = Plan(plan).text, LeaderRoom.make()
        lib.leader_open(text, len(text), word(last), room)
        room.is_open = True
        try:
            check(lib.leader_status(room), lib.leader_fault_at(room))
        except PlanError as error:
            # A leader has one plan here, and no old and new one.
            raise PlanError(None, error.fault, error.index, error.bound) from None
        self._room = room

    @classmethod
    def resume(cls, course: Course) -> Leader:
        """A leader that has begun this course, and has heard nothing else.

        It is as if `begin` had just begun the course, which is shared and not copied. If it is the
        newest course of a router, let the leader hear that router's `board`. It opens all sub-plans
        again, one after the other, which changes no route.

        Raises `NoMemory`, and `ClosedError` if the course is closed.
        """
        return cls._opened(lambda room: course._ask(lib.leader_resume, room))

    def begin(self, plan: PlanText) -> None:
        """Begins the course from its newest plan to this one.

        The number of the course is the last one plus 1, and its plan is the newest one then.
        `board` has the report of it, and `course` gives it. Other threads run while it reads the
        plan.

        Raises `RunningError` if the course begun last is not over, `NoNumberError` if the greatest
        number is used, `PlanError` if the text is no plan, `NoMemory` and `ClosedError`.
        """
        text = Plan(plan).text

        def steps(room: LeaderRoom) -> Tuple[int, int]:
            status = lib.leader_begin(room, text, len(text))
            return status, lib.leader_fault_at(room)

        check(*self._undisturbed(steps))

    def begin_from(self, old: PlanText, new: PlanText) -> None:
        """Begins the course from the old plan to the new one, also if another one is not over.

        That one may end early so. The number of the course is the last one plus 1, and the new plan
        is the newest one then. `board` has the report of it, and `course` gives it. Other threads
        run while it reads the plans.

        The old plan has to say where the keys are. Each partition holds what that plan gives it. It
        has closed the course before if such a key was to leave it. What was given is loaded.

        Raises `PlanError` if a text is no plan, of the first one that is none, `NoNumberError` if
        the greatest number is used, `NoMemory` and `ClosedError`.
        """
        one, other = Plan(old).text, Plan(new).text

        def steps(room: LeaderRoom) -> Tuple[int, int]:
            status = lib.leader_begin_from(room, one, len(one), other, len(other))
            return status, lib.leader_fault_at(room)

        check(*self._undisturbed(steps))

    def course(self) -> Course:
        """The course that it began last. Nothing is copied.

        Raises `IdleError` if it has begun none, `NoMemory` if a course has more owners than can be
        counted, and `ClosedError`.
        """
        try:
            return self._ask_for(Course, lib.leader_course)
        except ClosedError:
            if self.closed:
                raise
        raise IdleError("no course is begun")

    def open_next(self) -> int:
        """Opens the next sub-plan of the course begun last: its number, from 0.

        `board` has the report of it.

        Raises `NotDoneError` if a partition has not reported that it has all keys of the sub-plan
        opened last. Its `part` is the least such partition, and its `sub` the sub-plan. Raises
        `NoMoreError` if all sub-plans are opened and the last one is done, and `IdleError` if no
        course is begun. Raises `NoMemory` and `ClosedError`.
        """
        out = (ctypes.c_uint32 * 2)()
        status = self._ask(lib.leader_open_next, out, len(out))
        sub: int = out[0]
        if status == _NOT_DONE:
            raise NotDoneError(out[1], sub)
        check(status)
        return sub

    @property
    def finished(self) -> bool:
        """Whether all sub-plans of the course begun last are opened and the last one is done.

        Not so if no course is begun. Raises `ClosedError`.
        """
        return self._ask(lib.leader_finished) == 1
