"""Routers."""

from __future__ import annotations

from typing import Callable, NamedTuple, Optional, Tuple

from . import _library as lib
from ._fork import REFUSED, refuse
from ._frames import Hears, limit_of
from ._room import CountsRecord, RouterRoom
from ._routes import Routes
from ._status import check
from ._written import written
from .course import Course
from .keys import rank, word
from .plan import Plan, PlanText
from .view import View

#: No frame has more bytes.
FRAME_BYTES = 1048584

_NO_MEMORY = 1


class Counts(NamedTuple):
    """How much a router heard. A number that does not fit 64 bits is the greatest one that does."""

    #: Of how many partitions in a sub-plan of a course something was reported.
    cells: int
    #: The spans of keys that were loaded, over all cells.
    spans: int
    #: The sub-plans that are opened, over all courses.
    opened: int
    #: The numbers under which plans were issued.
    issues: int


class Router(Routes, Hears):
    """Says for each key which partition to ask.

    It knows an old and a new plan, and takes reports of what was loaded where. Reports may come in
    any order and more than once: routers that took the same reports say the same.

    >>> router = Router(1, old, new)
    >>> router.route(Rank(2, 7))
    1
    >>> router.loaded(1, 0, 3, Rank(2, 0), Rank(3, 0))
    >>> router.route(Rank(2, 7))
    3

    Threads may share a router, but its calls wait for each other. Threads that route at the same
    time have a `view` each.
    """

    __slots__ = ()

    _kind = RouterRoom
    _call_status = lib.router_status
    _call_route = lib.router_route
    _call_legs = lib.router_legs
    _call_number = lib.router_number
    _call_errand = lib.errand_start
    _calls = lib.router_frames

    def __init__(self, number: int, old: PlanText, new: PlanText) -> None:
        """A router of the course `number` from the plan `old` to the plan `new`.

        Nothing was reported to it. Other threads run while it reads the plans.

        Raises `NumberError` if the number is not from 1 to 4294967295, before any text is looked
        at, `PlanError` if a text is no plan, and `NoMemory`.
        """
        if REFUSED:
            refuse()
        texts = Plan(old).text, Plan(new).text
        room = RouterRoom.make()
        lib.router_open(word(number), texts[0], len(texts[0]), texts[1], len(texts[1]), room)
        room.is_open = True
        check(lib.router_status(room), lib.router_fault_at(room))
        self._room = room

    def loaded(self, number: int, sub: int, part: int, lo: int, hi: int) -> None:
        """Takes the report that a partition has loaded the keys from `lo` on, below `hi`.

        It has loaded them in the sub-plan `sub` of the course `number`.

        Raises `NumberError` if there is no such report: a number that is not from 1 to 4294967295,
        a sub-plan or a partition that is not from 0 to 9999, a rank above `END`, or no keys. Raises
        `NoMemory` and `ClosedError`.
        """
        words = word(number), word(sub), word(part), rank(lo), rank(hi)
        check(self._ask(lib.router_loaded, *words))

    def done(self, number: int, sub: int, part: int) -> None:
        """Takes the report that a partition has all the keys that the sub-plan brings it.

        Raises what `loaded` raises.
        """
        check(self._ask(lib.router_done, word(number), word(sub), word(part)))

    def opened(self, number: int, sub: int) -> None:
        """Takes the report that the sub-plan has been opened, and each before it.

        This changes no route. Raises what `loaded` raises.
        """
        check(self._ask(lib.router_opened, word(number), word(sub)))

    def issued(self, number: int, plan: PlanText) -> None:
        """Takes the report that the course `number` leads from the router's new plan to this one.

        The router's new plan is the one that it was opened with. Routes go by the course of the
        greatest number for which one pair of plans is known.

        Raises `NumberError` if the number is not from 1 to 4294967295, `PlanError` if the text is
        no plan, `NoMemory` and `ClosedError`.
        """
        text, course = Plan(plan).text, word(number)

        def steps(room: RouterRoom) -> Tuple[int, int]:
            status = lib.router_issued(room, course, text, len(text))
            return status, lib.router_fault_at(room)

        check(*self._undisturbed(steps))

    def limit(
        self,
        *,
        cells: Optional[int] = None,
        spans: Optional[int] = None,
        opened: Optional[int] = None,
        issues: Optional[int] = None,
    ) -> None:
        """Sets the most that the router may tell after a frame, as `counts` counts it.

        From then on `hear` and `feed` raise `FullError`, and nothing changes, if the router would
        tell more with the deltas that the bytes bring. That is so too if it tells more already, and
        they bring nothing new. Digests are never refused, and `loaded`, `done`, `opened` and
        `issued` are not limited.

        A number that is None has no limit. Each call takes the place of the one before it, and so
        `limit()` takes the limit away. At first there is none.

        >>> peer = Router(1, old, new)
        >>> peer.limit(cells=1000, spans=100_000, opened=1000, issues=100)

        Raises `NumberError` if a number has no 64 bits, and `ClosedError`.
        """
        most = [limit_of(it) for it in (cells, spans, opened, issues)]
        check(self._ask(lib.router_limit, *most))

    @property
    def taken(self) -> int:
        """How many frames it has taken by `hear` and `feed`, boards and digests.

        It stops at the greatest number of 64 bits. Raises `ClosedError`.
        """
        return self._ask(lib.router_taken)

    def clashed(self) -> bool:
        """Whether it heard of different pairs of plans under a number above that of its course.

        Such a number has no course. Raises `NoMemory` and `ClosedError`.
        """
        return _counted(self._ask(lib.router_clashed)) == 1

    def counts(self) -> Counts:
        """How much it heard.

        >>> Router(1, old, new).counts()
        Counts(cells=0, spans=0, opened=0, issues=0)

        Raises `NoMemory` and `ClosedError`.
        """
        found = CountsRecord()
        _counted(self._ask(lib.router_counts, found, 1))
        return Counts(found.cells, found.spans, found.opened, found.issues)

    def status_text(self) -> str:
        """How far its course has come, in the lines of the command `squall status`.

        >>> print(Router(1, new, new).status_text(), end="")
        course 1 moves 0 of 0 sub-plans 0 of 0 open none loaded 0 of 0 keys share 1000/1000

        Other threads run meanwhile. Raises `NoMemory` and `ClosedError`.
        """
        return self._ask(_text, lib.router_status_text)

    def picture(self) -> str:
        """A picture of how far its course has come, in SVG, as `squall picture` draws it.

        Other threads run meanwhile. Raises `NoMemory` and `ClosedError`.
        """
        return self._ask(_text, lib.router_picture)

    def view(self) -> View:
        """A view of what the router says now. This copies the router's table.

        Other threads run meanwhile. Raises `NoMemory` and `ClosedError`.
        """
        return self._ask_for(View, lib.view_open)

    def course(self) -> Course:
        """The course by which the router routes now: its newest.

        The router may have heard of it from a frame. What it takes later changes no course. Nothing
        is copied. Raises `NoMemory` if a course has more owners than can be counted, and
        `ClosedError`.
        """
        return self._ask_for(Course, lib.course_newest)

    def first_course(self) -> Course:
        """The course with which the router was opened. Raises what `course` raises."""
        return self._ask_for(Course, lib.course_first)


def _counted(count: int) -> int:
    """The answer of a call, unless an allocation failed."""
    if count == lib.NO_COUNT:
        check(_NO_MEMORY)
    return count


def _text(room: RouterRoom, call: Callable[..., int]) -> str:
    """The text of ASCII that the call writes."""
    return written(call, room).decode("ascii")
