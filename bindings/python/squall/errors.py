"""Why a call did not do what it was asked for.

Each exception is a `SquallError`, and of a class of Python's own too if one fits: `NumberError` is
a `ValueError`, and `NoMemory` a `MemoryError`. If the documentation of a call says nothing else,
the call has changed nothing.
"""

from __future__ import annotations

import enum
from typing import TYPE_CHECKING, Dict, Optional

if TYPE_CHECKING:
    from .keys import Rank


class SquallError(Exception):
    """Base of all exceptions of this package.

    It is raised itself only for a status that this version of the package does not know.
    """

    #: The status in `squall.h`, or None if no call of the library was made.
    status: Optional[int] = None


class LibraryError(SquallError, ImportError):
    """`import squall` found no shared library, or one that lacks a function.

    The text says where it looked.
    """


class ForkError(SquallError, RuntimeError):
    """This process is the child of a fork of a process that had several threads.

    In such a child the library must not be called. Start the process by the methods `spawn` or
    `forkserver` of `multiprocessing`, or fork before the first thread starts.
    """


class NoMemory(SquallError, MemoryError):
    """An allocation failed. The same call may be tried again."""

    status = 1


class NumberError(SquallError, ValueError):
    """A number or a rank is outside its limits, or a span has no keys."""

    status = 2


class ClosedError(SquallError, ValueError):
    """The router, view, course, errand, partition or leader was closed."""

    status = 3


class StreamError(SquallError, ValueError):
    """The stream of `Router.feed` ended with a `FrameError` before, and takes no more bytes."""

    status = 4


class TooLongError(SquallError):
    """A frame would have more bytes than it may have.

    It is that of a digest, which is not cut, or of a single report.
    """

    status = 5


class NoDigestError(SquallError):
    """No digest was heard that could be answered."""

    status = 6


class FullError(SquallError):
    """A router would hear of more than the limit that `Router.limit` has set."""

    status = 7


class PartError(SquallError):
    """A partition does not give, load or finish. Each reason is a class of its own below this."""


class NotOpenError(PartError):
    """As far as the partition knows, the sub-plan is not opened."""

    status = 71


class NothingLeftError(PartError):
    """The partition holds no key that goes out in the sub-plan opened last."""

    status = 72


class ZeroMaxError(PartError, ValueError):
    """No key was asked for."""

    status = 73


class NotOutgoingError(PartError):
    """The key does not go out in the sub-plan opened last."""

    status = 74


class GivenError(PartError):
    """The key was given under this course before."""

    status = 75


class NotHeldError(PartError):
    """The key goes out, and is neither given nor held."""

    status = 76


class StrangerError(PartError):
    """The course is not known, or does not bring these keys to this partition so."""

    status = 77


class NotAllError(PartError):
    """Keys that come in are missing."""

    status = 78


class NothingDueError(PartError):
    """No key comes in, in that sub-plan."""

    status = 79


class EndedError(PartError):
    """The partition gives no more in its newest course, which `Part.close_course` closed."""

    status = 81


class LeaderError(SquallError):
    """A leader does not go on. Each reason is a class of its own below this."""


class RunningError(LeaderError):
    """The course begun last is not over."""

    status = 91


class NoNumberError(LeaderError):
    """The greatest number is used, so no course can be begun."""

    status = 92


class IdleError(LeaderError):
    """No course is begun."""

    status = 93


class NotDoneError(LeaderError):
    """A partition has not reported that it has all keys of the sub-plan opened last."""

    status = 94

    #: The least such partition, from 0 to 9999.
    part: int
    #: The sub-plan, from 0.
    sub: int

    def __init__(self, part: int, sub: int) -> None:
        super().__init__(part, sub)
        self.part, self.sub = part, sub

    def __str__(self) -> str:
        return f"partition {self.part} has not reported that it has all keys of sub-plan {self.sub}"


class NoMoreError(LeaderError):
    """All sub-plans are opened, and the last one is done."""

    status = 95


class _Fault(enum.IntEnum):
    """A fault, with its name in docs/FORMATS.md."""

    @property
    def word(self) -> str:
        """The name in docs/FORMATS.md, as `TooLong`."""
        return self.name.title().replace("_", "")


class PlanFault(_Fault):
    """Why a text is no plan. The values are the statuses of an old plan in `squall.h`."""

    #: The bytes are no JSON, or no UTF-8.
    JSON = 11
    #: The text is no object with an array `plan`, or the entry `index` lacks a member, or has one
    #: of another form.
    SHAPE = 12
    #: The partition of the entry `index` is above 9999.
    BAD_PART = 13
    #: The entry `index` has a pair that is no bound.
    BAD_BOUND = 14
    #: The `from` of the entry `index` is not below its `to`.
    EMPTY_RANGE = 15
    #: There are more than 4096 entries.
    TOO_MANY = 16
    #: The key `bound` is in two ranges, and no lesser one is.
    OVERLAP = 17
    #: The key `bound` is in no range, and each lesser one is in one.
    GAP = 18


class FrameFault(_Fault):
    """Why bytes are no frame. The values are the statuses in `squall.h`."""

    #: The first two bytes are not those of a frame.
    MAGIC = 51
    #: The version is not known.
    VERSION = 52
    #: The kind is neither that of a delta nor that of a digest.
    KIND = 53
    #: The body is to have more than 1,048,576 bytes.
    TOO_LONG = 54
    #: The bytes end within the frame. A stream waits for more instead.
    SHORT = 55
    #: The body has too few bytes left for its next item.
    COUNT = 56
    #: A field is outside its limits, or a cell says nothing.
    RANGE = 57
    #: An item does not come after the one before it.
    ORDER = 58
    #: Bytes are left in the body after its last item, or follow a whole frame.
    SPARE = 59


#: What the library says of each fault. `_library`, which takes its exceptions from here, writes it.
MEANS: Dict[_Fault, str] = {}


class PlanError(SquallError, ValueError):
    """A text is no plan.

    Its text has the fault's name of docs/FORMATS.md and its place: `.. is no plan: Gap 3:5: ..`.
    """

    #: Which plan the text was to be: "old" or "new". None for `Plan.check`, and for the plan with
    #: which a leader is opened.
    plan: Optional[str]
    #: What is wrong with it.
    fault: PlanFault
    #: The index of the entry with the fault, from 0, if the fault is one of an entry.
    index: Optional[int]
    #: The key with the fault, if it is an overlap or a gap.
    bound: Optional[Rank]

    def __init__(
        self,
        plan: Optional[str],
        fault: PlanFault,
        index: Optional[int] = None,
        bound: Optional[Rank] = None,
    ) -> None:
        super().__init__(plan, fault, index, bound)
        self.plan, self.fault, self.index, self.bound = plan, fault, index, bound
        self.status = int(fault) + (20 if plan == "new" else 0)

    def __str__(self) -> str:
        means = MEANS[self.fault]
        if self.fault is PlanFault.SHAPE and self.index is None:
            means = "it is no object with a member 'plan' that is an array"
        words = [self.fault.word]
        words += [str(it) for it in (self.index, self.bound) if it is not None]
        text = f"the {self.plan} text" if self.plan else "the text"
        return f"{text} is no plan: {' '.join(words)}: {means}"


class FrameError(SquallError, ValueError):
    """Bytes are no frame.

    Its text has the fault's name of docs/FORMATS.md: `no frame: Short: ..`.
    """

    #: What is wrong with them.
    fault: FrameFault

    def __init__(self, fault: FrameFault) -> None:
        super().__init__(fault)
        self.fault = fault
        self.status = int(fault)

    def __str__(self) -> str:
        return f"no frame: {self.fault.word}: {MEANS[self.fault]}"
