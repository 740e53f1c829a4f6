"""The functions of `squall.h`, where their rules and answers are.

Python runs one thread at a time, the one that has its lock (the GIL). A function that may take long
lets other threads run meanwhile. One that ends within some microseconds does not: to let the lock
go and to wait for it again would often take longer.
"""

from __future__ import annotations

import ctypes
import os
from typing import Any, Callable, NamedTuple, Tuple, Union

from ._room import (
    AnswerRecord,
    ChunkRecord,
    CountsRecord,
    CourseRoom,
    ErrandRoom,
    LeaderRoom,
    LegRecord,
    MoveRecord,
    PartRoom,
    RouterRoom,
    SpanRecord,
    ViewRoom,
)
from .errors import MEANS, FrameFault, LibraryError, PlanFault

SONAME = "libsquall.so.3"
VARIABLE = "SQUALL_DIR"
#: No count, since an allocation failed.
NO_COUNT = ctypes.c_size_t(-1).value

#: An address, or bytes, whose own address is passed on.
Bytes = Union[int, bytes]
#: An address, or something that ctypes has made, whose own address is passed on.
Out = Any

_U32 = ctypes.c_uint32
_U64 = ctypes.c_uint64
_SIZE = ctypes.c_size_t
_ADDRESS = ctypes.c_void_p
_ROUTER = ctypes.POINTER(RouterRoom)
_VIEW = ctypes.POINTER(ViewRoom)
_ERRAND = ctypes.POINTER(ErrandRoom)
_COURSE = ctypes.POINTER(CourseRoom)
_PART = ctypes.POINTER(PartRoom)
_LEADER = ctypes.POINTER(LeaderRoom)
_LEGS = ctypes.POINTER(LegRecord)
_MOVES = ctypes.POINTER(MoveRecord)
_SPANS = ctypes.POINTER(SpanRecord)
_COUNTS = ctypes.POINTER(CountsRecord)
_CHUNK = ctypes.POINTER(ChunkRecord)
_ANSWER = ctypes.POINTER(AnswerRecord)


def _find() -> Tuple[str, str]:
    """What the loader is asked for, and where it looks."""
    beside = os.path.join(os.path.dirname(os.path.abspath(__file__)), SONAME)
    if os.path.exists(beside):
        return beside, "the folder of the package, whose wheel brought it"
    folder = os.environ.get(VARIABLE)
    if folder:
        return os.path.join(os.path.abspath(folder), SONAME), f"the folder {folder} of {VARIABLE}"
    return SONAME, f"the folders of the system's loader ({VARIABLE} names no other one)"


def _load() -> Tuple[ctypes.PyDLL, ctypes.CDLL]:
    """The library, for calls that keep Python's lock and for calls that let it go."""
    name, where = _find()
    try:
        return ctypes.PyDLL(name), ctypes.CDLL(name)
    except OSError as error:
        raise LibraryError(f"{SONAME} can't be loaded from {where}: {error}") from error


_short, _long = _load()


def _bind(library: ctypes.CDLL, name: str, answer: Any, takes: Tuple[Any, ...]) -> Any:
    try:
        function = library["squall_" + name]
    except AttributeError as error:
        raise LibraryError(f"{SONAME} from {_find()[1]} is too old: {error}") from error
    function.restype = answer
    function.argtypes = takes
    return function


def _quick(name: str, answer: Any, *takes: Any) -> Any:
    """A function that keeps Python's lock."""
    return _bind(_short, name, answer, takes)


def _slow(name: str, answer: Any, *takes: Any) -> Any:
    """A function that lets other threads run."""
    return _bind(_long, name, answer, takes)


class FrameCalls(NamedTuple):
    """The functions by which a router, a partition or a leader takes frames, and makes its own."""

    feed: Callable[[Any, Bytes, int], int]
    hear: Callable[[Any, Bytes, int], int]
    #: The same with Python's lock. Bytes of Python can't change, but those of a bytearray can while
    #: another thread runs, which the library must not see.
    feed_kept: Callable[[Any, Bytes, int], int]
    hear_kept: Callable[[Any, Bytes, int], int]
    waiting: Callable[[Any], int]
    board: Callable[[Any, int], int]
    digest: Callable[[Any, int], int]
    repair: Callable[[Any, int], int]
    frame: Callable[[Any, Out, int], int]


def _frames(kind: str, room: Any) -> FrameCalls:
    """The functions of handles of this kind, which live in such a room."""
    taking, gathering = (_U32, room, _ADDRESS, _SIZE), (_U32, room, _SIZE)
    return FrameCalls(
        feed=_slow(f"{kind}_feed", *taking),
        hear=_slow(f"{kind}_hear", *taking),
        feed_kept=_quick(f"{kind}_feed", *taking),
        hear_kept=_quick(f"{kind}_hear", *taking),
        waiting=_quick(f"{kind}_waiting", _SIZE, room),
        board=_slow(f"{kind}_gather_board", *gathering),
        digest=_slow(f"{kind}_gather_digest", *gathering),
        repair=_slow(f"{kind}_gather_repair", *gathering),
        frame=_quick(f"{kind}_frame", _SIZE, room, _ADDRESS, _SIZE),
    )


# Keys of rows.

key_of: Callable[[Bytes, int], int] = _quick("key_of", _U64, _ADDRESS, _SIZE)

# Routers.

router_size: Callable[[], int] = _quick("router_size", _SIZE)
router_close: Callable[[RouterRoom], None] = _slow("router_close", None, _ROUTER)
router_open: Callable[[int, bytes, int, bytes, int, RouterRoom], None]
router_open = _slow("router_open", None, _U32, _ADDRESS, _SIZE, _ADDRESS, _SIZE, _ROUTER)
router_status: Callable[[RouterRoom], int] = _quick("router_status", _U32, _ROUTER)
router_fault_at: Callable[[RouterRoom], int] = _quick("router_fault_at", _U64, _ROUTER)

router_loaded: Callable[[RouterRoom, int, int, int, int, int], int]
router_loaded = _quick("router_loaded", _U32, _ROUTER, _U32, _U32, _U32, _U64, _U64)
router_done: Callable[[RouterRoom, int, int, int], int]
router_done = _slow("router_done", _U32, _ROUTER, _U32, _U32, _U32)
router_opened: Callable[[RouterRoom, int, int], int]
router_opened = _quick("router_opened", _U32, _ROUTER, _U32, _U32)
router_issued: Callable[[RouterRoom, int, bytes, int], int]
router_issued = _slow("router_issued", _U32, _ROUTER, _U32, _ADDRESS, _SIZE)

router_frames: FrameCalls = _frames("router", _ROUTER)

router_limit: Callable[[RouterRoom, int, int, int, int], int]
router_limit = _quick("router_limit", _U32, _ROUTER, _U64, _U64, _U64, _U64)
router_taken: Callable[[RouterRoom], int] = _quick("router_taken", _U64, _ROUTER)

router_route: Callable[[RouterRoom, int], int] = _quick("router_route", _U32, _ROUTER, _U64)
router_legs: Callable[[RouterRoom, int, int, Out, int], int]
router_legs = _slow("router_legs", _SIZE, _ROUTER, _U64, _U64, _LEGS, _SIZE)
router_number: Callable[[RouterRoom], int] = _quick("router_number", _U32, _ROUTER)

router_clashed: Callable[[RouterRoom], int] = _slow("router_clashed", _SIZE, _ROUTER)
router_counts: Callable[[RouterRoom, CountsRecord, int], int]
router_counts = _slow("router_counts", _SIZE, _ROUTER, _COUNTS, _SIZE)
router_status_text: Callable[[RouterRoom, Out, int], int]
router_status_text = _slow("router_status_text", _SIZE, _ROUTER, _ADDRESS, _SIZE)
router_picture: Callable[[RouterRoom, Out, int], int]
router_picture = _slow("router_picture", _SIZE, _ROUTER, _ADDRESS, _SIZE)

# Views.

view_size: Callable[[], int] = _quick("view_size", _SIZE)
view_close: Callable[[ViewRoom], None] = _slow("view_close", None, _VIEW)
view_open: Callable[[RouterRoom, ViewRoom], None] = _slow("view_open", None, _ROUTER, _VIEW)
view_again: Callable[[ViewRoom, ViewRoom], None] = _quick("view_again", None, _VIEW, _VIEW)
view_status: Callable[[ViewRoom], int] = _quick("view_status", _U32, _VIEW)
view_route: Callable[[ViewRoom, int], int] = _quick("view_route", _U32, _VIEW, _U64)
view_routes: Callable[[ViewRoom, Bytes, int, Out, int], int]
view_routes = _slow("view_routes", _SIZE, _VIEW, _ADDRESS, _SIZE, _ADDRESS, _SIZE)
# For many keys, and for one.
view_locate: Callable[[ViewRoom, Bytes, int, Out, int], int]
view_locate = _slow("view_locate", _SIZE, _VIEW, _ADDRESS, _SIZE, _ADDRESS, _SIZE)
view_place: Callable[[ViewRoom, Bytes, int, Out, int], int]
view_place = _quick("view_locate", _SIZE, _VIEW, _ADDRESS, _SIZE, _ADDRESS, _SIZE)
view_legs: Callable[[ViewRoom, int, int, Out, int], int]
view_legs = _slow("view_legs", _SIZE, _VIEW, _U64, _U64, _LEGS, _SIZE)
view_number: Callable[[ViewRoom], int] = _quick("view_number", _U32, _VIEW)
view_changes: Callable[[ViewRoom, ViewRoom, int, int, Out, int], int]
view_changes = _slow("view_changes", _SIZE, _VIEW, _VIEW, _U64, _U64, _SPANS, _SIZE)

# Courses. A call for moves or ranges is short, since it gives no more than there is room for.

course_size: Callable[[], int] = _quick("course_size", _SIZE)
course_close: Callable[[CourseRoom], None] = _slow("course_close", None, _COURSE)
course_open: Callable[[int, bytes, int, bytes, int, CourseRoom], None]
course_open = _slow("course_open", None, _U32, _ADDRESS, _SIZE, _ADDRESS, _SIZE, _COURSE)
course_newest: Callable[[RouterRoom, CourseRoom], None]
course_newest = _quick("course_newest", None, _ROUTER, _COURSE)
course_first: Callable[[RouterRoom, CourseRoom], None]
course_first = _quick("course_first", None, _ROUTER, _COURSE)
course_status: Callable[[CourseRoom], int] = _quick("course_status", _U32, _COURSE)
course_fault_at: Callable[[CourseRoom], int] = _quick("course_fault_at", _U64, _COURSE)
course_number: Callable[[CourseRoom], int] = _quick("course_number", _U32, _COURSE)
course_subplans: Callable[[CourseRoom], int] = _quick("course_subplans", _U32, _COURSE)
course_moves: Callable[[CourseRoom, int, Out, int], int]
course_moves = _quick("course_moves", _SIZE, _COURSE, _SIZE, _MOVES, _SIZE)
course_old: Callable[[CourseRoom, int, Out, int], int]
course_old = _quick("course_old", _SIZE, _COURSE, _SIZE, _LEGS, _SIZE)
course_new: Callable[[CourseRoom, int, Out, int], int]
course_new = _quick("course_new", _SIZE, _COURSE, _SIZE, _LEGS, _SIZE)
course_receivers: Callable[[CourseRoom, int, int, Out, int], int]
course_receivers = _slow("course_receivers", _SIZE, _COURSE, _U32, _SIZE, _ADDRESS, _SIZE)
course_old_text: Callable[[CourseRoom, Out, int], int]
course_old_text = _slow("course_old_text", _SIZE, _COURSE, _ADDRESS, _SIZE)
course_new_text: Callable[[CourseRoom, Out, int], int]
course_new_text = _slow("course_new_text", _SIZE, _COURSE, _ADDRESS, _SIZE)
course_left: Callable[[CourseRoom, Out, int, Out, int], int]
course_left = _slow("course_left", _SIZE, _COURSE, _SPANS, _SIZE, _ADDRESS, _SIZE)
course_frame: Callable[[CourseRoom, Out, int], int]
course_frame = _slow("course_frame", _SIZE, _COURSE, _ADDRESS, _SIZE)

# Frames of reports.

frame_loaded: Callable[[int, int, int, int, int, Out, int], int]
frame_loaded = _quick("frame_loaded", _SIZE, _U32, _U32, _U32, _U64, _U64, _ADDRESS, _SIZE)
frame_done: Callable[[int, int, int, Out, int], int]
frame_done = _quick("frame_done", _SIZE, _U32, _U32, _U32, _ADDRESS, _SIZE)
frame_opened: Callable[[int, int, Out, int], int]
frame_opened = _quick("frame_opened", _SIZE, _U32, _U32, _ADDRESS, _SIZE)

# Errands.

errand_size: Callable[[], int] = _quick("errand_size", _SIZE)
errand_close: Callable[[ErrandRoom], None] = _quick("errand_close", None, _ERRAND)
errand_start: Callable[[RouterRoom, int, ErrandRoom], None]
errand_start = _quick("errand_start", None, _ROUTER, _U64, _ERRAND)
errand_start_at: Callable[[ViewRoom, int, ErrandRoom], None]
errand_start_at = _quick("errand_start_at", None, _VIEW, _U64, _ERRAND)
errand_status: Callable[[ErrandRoom], int] = _quick("errand_status", _U32, _ERRAND)
errand_asked: Callable[[ErrandRoom], int] = _quick("errand_asked", _U32, _ERRAND)
errand_number: Callable[[ErrandRoom], int] = _quick("errand_number", _U32, _ERRAND)
errand_heed: Callable[[ErrandRoom, int, int, int], int]
errand_heed = _quick("errand_heed", _U32, _ERRAND, _U32, _U32, _U32)

# Partitions.

part_size: Callable[[], int] = _quick("part_size", _SIZE)
part_close: Callable[[PartRoom], None] = _slow("part_close", None, _PART)
part_open: Callable[[int, CourseRoom, PartRoom], None]
part_open = _slow("part_open", None, _U32, _COURSE, _PART)
part_status: Callable[[PartRoom], int] = _quick("part_status", _U32, _PART)
part_frames: FrameCalls = _frames("part", _PART)
part_give: Callable[[PartRoom, int, ChunkRecord], int]
part_give = _slow("part_give", _U32, _PART, _U64, _CHUNK)
part_give_at: Callable[[PartRoom, int, ChunkRecord], int]
part_give_at = _slow("part_give_at", _U32, _PART, _U64, _CHUNK)
part_load: Callable[[PartRoom, ChunkRecord], int] = _slow("part_load", _U32, _PART, _CHUNK)
part_fresh: Callable[[PartRoom, ChunkRecord, int, SpanRecord], int]
part_fresh = _slow("part_fresh", _U32, _PART, _CHUNK, _U64, _SPANS)
part_finish: Callable[[PartRoom, int], int] = _slow("part_finish", _U32, _PART, _U32)
part_close_course: Callable[[PartRoom], int] = _quick("part_close_course", _U32, _PART)
part_course_closed: Callable[[PartRoom, int], int]
part_course_closed = _quick("part_course_closed", _U32, _PART, _U32)
part_serve: Callable[[PartRoom, int, int, AnswerRecord], int]
part_serve = _quick("part_serve", _U32, _PART, _U64, _U32, _ANSWER)
part_held: Callable[[PartRoom, int, Out, int], int]
part_held = _slow("part_held", _SIZE, _PART, _SIZE, _SPANS, _SIZE)
part_given: Callable[[PartRoom, int, int, Out, int], int]
part_given = _slow("part_given", _SIZE, _PART, _U32, _SIZE, _SPANS, _SIZE)
part_loaded: Callable[[PartRoom, int, int, Out, int], int]
part_loaded = _slow("part_loaded", _SIZE, _PART, _U32, _SIZE, _SPANS, _SIZE)

# Leaders.

leader_size: Callable[[], int] = _quick("leader_size", _SIZE)
leader_close: Callable[[LeaderRoom], None] = _slow("leader_close", None, _LEADER)
leader_open: Callable[[bytes, int, int, LeaderRoom], None]
leader_open = _slow("leader_open", None, _ADDRESS, _SIZE, _U32, _LEADER)
leader_resume: Callable[[CourseRoom, LeaderRoom], None]
leader_resume = _slow("leader_resume", None, _COURSE, _LEADER)
leader_status: Callable[[LeaderRoom], int] = _quick("leader_status", _U32, _LEADER)
leader_fault_at: Callable[[LeaderRoom], int] = _quick("leader_fault_at", _U64, _LEADER)
leader_frames: FrameCalls = _frames("leader", _LEADER)
leader_begin: Callable[[LeaderRoom, bytes, int], int]
leader_begin = _slow("leader_begin", _U32, _LEADER, _ADDRESS, _SIZE)
leader_begin_from: Callable[[LeaderRoom, bytes, int, bytes, int], int]
leader_begin_from = _slow("leader_begin_from", _U32, _LEADER, _ADDRESS, _SIZE, _ADDRESS, _SIZE)
leader_course: Callable[[LeaderRoom, CourseRoom], None]
leader_course = _quick("leader_course", None, _LEADER, _COURSE)
leader_open_next: Callable[[LeaderRoom, Out, int], int]
leader_open_next = _slow("leader_open_next", _U32, _LEADER, _ADDRESS, _SIZE)
leader_finished: Callable[[LeaderRoom], int] = _slow("leader_finished", _U32, _LEADER)

RouterRoom.prepare(router_size(), router_close)
ViewRoom.prepare(view_size(), view_close)
CourseRoom.prepare(course_size(), course_close)
ErrandRoom.prepare(errand_size(), errand_close)
PartRoom.prepare(part_size(), part_close)
LeaderRoom.prepare(leader_size(), leader_close)

# The library.

_version: Callable[[], bytes] = _quick("version", ctypes.c_char_p)
_message: Callable[[int], bytes] = _quick("message", ctypes.c_char_p, _U32)
# Asked for once: a process that was forked may have to make no call. The last number is no status.
_VERSION = _version().decode("ascii")
_MESSAGES = [_message(it).decode("ascii") for it in range(256)]


def version() -> str:
    """The version of the shared library that is loaded, as `1.2.3`."""
    return _VERSION


def message(status: int) -> str:
    """What the library says of a status."""
    return _MESSAGES[min(status, len(_MESSAGES) - 1)]


# Without the words before it, which say that a text is no plan or that bytes are no frame.
MEANS.update({it: message(it).partition(": ")[2] for it in (*PlanFault, *FrameFault)})
