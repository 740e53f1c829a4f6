"""squall: which partition to ask for a key while partitions move.

A `Router` knows an old and a new plan, and takes reports of what was loaded where. It says for each
key which partition to ask. A `View` is what a router said at one moment, for threads that only
read. An `Errand` follows the replies of partitions until a key is found. A `Course` says which keys
move, and the module `frame` makes frames of single reports. A `Part` keeps which keys a partition
holds while they move, and a `Leader` begins courses and opens their sub-plans.

>>> from squall import END, Plan, Rank, Router
>>> old = Plan.of([(0, END, 1)])
>>> new = Plan.of([(0, Rank(2, 0), 1), (Rank(2, 0), END, 3)])
>>> with Router(1, old, new) as router:
...     router.loaded(1, 0, 3, Rank(2, 0), Rank(3, 0))
...     router.route(Rank(2, 7))
3

All of this is done by the C library of squall, `libsquall.so.3`, which is proved. This package,
which calls it by `ctypes`, is not. The library is loaded when the package is imported: from the
folder that the environment variable SQUALL_DIR names, or else from where the system's loader looks.
"""

from . import frame
from ._library import version
from ._version import __version__
from .course import Course, Move, Place
from .errand import Errand, Next, Reply
from .errors import (
    ClosedError,
    EndedError,
    ForkError,
    FrameError,
    FrameFault,
    FullError,
    GivenError,
    IdleError,
    LeaderError,
    LibraryError,
    NoDigestError,
    NoMemory,
    NoMoreError,
    NoNumberError,
    NotAllError,
    NotDoneError,
    NotHeldError,
    NothingDueError,
    NothingLeftError,
    NotOpenError,
    NotOutgoingError,
    NumberError,
    PartError,
    PlanError,
    PlanFault,
    RunningError,
    SquallError,
    StrangerError,
    StreamError,
    TooLongError,
    ZeroMaxError,
)
from .keys import END, NOWHERE, Leg, Rank, Span, key_of
from .leader import Leader
from .part import Answer, Chunk, Part
from .plan import Plan
from .router import FRAME_BYTES, Counts, Router
from .view import View

__all__ = [
    "END",
    "FRAME_BYTES",
    "NOWHERE",
    "Answer",
    "Chunk",
    "ClosedError",
    "Counts",
    "Course",
    "EndedError",
    "Errand",
    "ForkError",
    "FrameError",
    "FrameFault",
    "FullError",
    "GivenError",
    "IdleError",
    "Leader",
    "LeaderError",
    "Leg",
    "LibraryError",
    "Move",
    "Next",
    "NoDigestError",
    "NoMemory",
    "NoMoreError",
    "NoNumberError",
    "NotAllError",
    "NotDoneError",
    "NotHeldError",
    "NotOpenError",
    "NotOutgoingError",
    "NothingDueError",
    "NothingLeftError",
    "NumberError",
    "Part",
    "PartError",
    "Place",
    "Plan",
    "PlanError",
    "PlanFault",
    "Rank",
    "Reply",
    "Router",
    "RunningError",
    "Span",
    "SquallError",
    "StrangerError",
    "StreamError",
    "TooLongError",
    "View",
    "ZeroMaxError",
    "__version__",
    "frame",
    "key_of",
    "version",
]
