"""Partitions, and the keys that they send each other."""

from __future__ import annotations

from typing import Callable, List, NamedTuple, Optional

from . import _library as lib
from ._fork import REFUSED, refuse
from ._frames import Hears
from ._room import AnswerRecord, ChunkRecord, PartRoom, SpanRecord
from ._status import check
from .course import Course
from .errand import WITH_PART, Reply
from .keys import Rank, Span, rank, wide, word

#: How many spans are asked for first, and how much more if they are too few.
_FIRST = 64
_MORE = 16

_LOADED_BEFORE = 80


class Chunk(NamedTuple):
    """The keys from `lo` on, below `hi`, on their way from a partition to another.

    Send these numbers to the partition `dest`, with the rows of the keys.
    """

    #: The first key.
    lo: Rank
    #: Where the keys end: a key, or `END`.
    hi: Rank
    #: The number of the course, from 1 on.
    number: int
    #: The sub-plan, from 0.
    sub: int
    #: The partition that gave the keys, from 0 to 9999.
    source: int
    #: The partition that is to load them, from 0 to 9999.
    dest: int

    def __str__(self) -> str:
        words = f"{self.source} to {self.dest} course {self.number} sub {self.sub}"
        return f"[{self.lo},{self.hi}) {words}"


class Answer(NamedTuple):
    """The reply of a partition. An errand takes it by `errand.heed(*answer)`."""

    #: What it replies.
    reply: Reply
    #: The partition that comes with `MOVED`, `PENDING` and `ELSEWHERE`, or None.
    part: Optional[int]
    #: The number of the course that comes with `MOVED`, or None.
    number: Optional[int]


class Part(Hears):
    """Keeps which keys a partition holds, gave and loaded. The rows stay with the program.

    Make each call in the transaction in which the rows move, or keep a list of the calls that
    raised nothing. The same calls, made of a new partition of the same course, lead to the same
    partition.

    >>> course = Course(1, old, new)
    >>> with Part(1, course) as source, Part(3, course) as dest:
    ...     for part in source, dest:
    ...         part.hear(frame.opened(1, 0))
    ...     chunk = source.give(1000)
    ...     print(chunk)
    ...     print(source.serve(0), dest.serve(0, after=1).reply.name)
    ...     print(dest.load(chunk), dest.load(chunk))
    ...     print(*dest.held())
    [0:0,0:1000) 1 to 3 course 1 sub 0
    Answer(reply=<Reply.MOVED: 1>, part=3, number=1) PENDING
    True False
    [0:0,0:1000)

    Frames go as those of routers do. Threads may share a partition, but its calls wait for each
    other.
    """

    __slots__ = ()

    _kind = PartRoom
    _call_status = lib.part_status
    _calls = lib.part_frames

    def __init__(self, part: int, course: Course) -> None:
        """The partition `part` with the keys that the old plan of the course gives it.

        It has heard nothing. Raises `NumberError` if `part` is not from 0 to 9999, `NoMemory`, and
        `ClosedError` if the course is closed.
        """
        if REFUSED:
            refuse()
        mine, room = word(part), PartRoom.make()
        course._ask(lambda its: lib.part_open(mine, its, room))
        room.is_open = True
        check(lib.part_status(room))
        self._room = room

    def give(self, most: int) -> Chunk:
        """Gives the first keys, at most `most`, that go out in the sub-plan opened last.

        They are keys that the partition still holds. It holds them no longer.

        Raises `EndedError` if `close_course` closed its newest course, `NotOpenError` if no
        sub-plan of that is opened, `NothingLeftError` if it holds no such key, `ZeroMaxError` if
        `most` is 0, and `NumberError` if `most` has no 64 bits. Raises `NoMemory` and
        `ClosedError`.
        """
        return self._give(lib.part_give, wide(most))

    def give_at(self, key: int) -> Chunk:
        """Gives one key, as a request needs it now.

        Raises `NumberError` if the rank is no key's. Or else the first of these that is so:
        `EndedError`, `NotOpenError`, `NotOutgoingError`, `GivenError` or `NotHeldError`. Raises
        `NoMemory` and `ClosedError`.
        """
        return self._give(lib.part_give_at, rank(key))

    def _give(self, call: Callable[..., int], number: int) -> Chunk:
        it = ChunkRecord()
        check(self._ask(call, number, it))
        return Chunk(Rank.of(it.lo), Rank.of(it.hi), it.number, it.sub, it.source, it.dest)

    def load(self, chunk: Chunk) -> bool:
        """Takes a chunk: whether it brought a key. False if each was loaded before.

        If it is True, the keys that were not loaded before are loaded and held now, and `board` has
        the report of the whole chunk. `frame.loaded` makes the frame of that report alone. If it is
        False, nothing has changed: drop the rows. Keys that were given since count as loaded.

        Raises `NotOpenError` if the chunk's sub-plan is not opened, and `StrangerError` if its
        course is not known, or does not bring these keys so. Raises `NumberError` if there is no
        such chunk, `NoMemory` and `ClosedError`.
        """
        status = self._ask(lib.part_load, _record(chunk))
        if status == _LOADED_BEFORE:
            return False
        check(status)
        return True

    def fresh(self, chunk: Chunk) -> List[Span]:
        """The spans of the keys of the chunk that are new here, by rising key.

        They are neither loaded under its number nor held. Put the chunk's rows of these keys in
        place before `load`, and no others: the partition may have changed the row of any other key
        since.

        Raises what `load` raises.
        """
        return _spans_of(self._ask(_fresh_records, _record(chunk)))

    def finish(self, sub: int) -> None:
        """Reports that it has all keys that the sub-plan of its newest course brings it.

        A repeat reports the same. `frame.done` makes the frame of that report alone.

        Raises the first of these that is so: `NotOpenError`, `NotAllError` or `NothingDueError`.
        Raises `NumberError` if `sub` has no 32 bits, `NoMemory` and `ClosedError`.
        """
        check(self._ask(lib.part_finish, word(sub)))

    def close_course(self) -> int:
        """Ends what it gives in the newest course that it knows: the number of that course.

        `give` and `give_at` raise `EndedError` then, until it hears of a newer course. It loads as
        before. A repeat changes nothing, and returns the same. Put the call into the list before
        the number is passed on.

        Raises `ClosedError`.
        """
        return self._ask(lib.part_close_course)

    def course_closed(self, number: int) -> bool:
        """Whether it gives no more under the number of a course.

        Not so if it has not heard of the course. Raises `NumberError` if the number has no 32 bits,
        and `ClosedError`.
        """
        return self._ask(lib.part_course_closed, word(number)) == 1

    def serve(self, key: int, after: int = 0) -> Answer:
        """The reply to a request for a key, which the client's errand heeds.

        `after` is the `Errand.number` of the client: the number of the `MOVED` that the request
        followed to this partition, or 0 if it followed none.

        Raises `NumberError` if the rank is no key's, and `ClosedError`.
        """
        it = AnswerRecord()
        check(self._ask(lib.part_serve, rank(key), word(after), it))
        reply = Reply(it.reply)
        part = it.part if reply in WITH_PART else None
        return Answer(reply, part, it.number if reply is Reply.MOVED else None)

    def held(self) -> List[Span]:
        """The spans of the keys that it holds, by rising key. Neighbours do not touch.

        Raises `ClosedError`.
        """
        return self._spans(lib.part_held)

    def given(self, number: int) -> List[Span]:
        """The spans of the keys that it gave under the number of a course, as `held` has them.

        There are none if it does not know the course. Raises `NumberError` if the number has no 32
        bits, and `ClosedError`.
        """
        return self._spans(lib.part_given, word(number))

    def loaded(self, number: int) -> List[Span]:
        """The spans of the keys that it loaded under the number. As `given` in all else."""
        return self._spans(lib.part_loaded, word(number))

    def _spans(self, call: Callable[..., int], *words: int) -> List[Span]:
        return _spans_of(self._ask(_records, call, *words))


def _spans_of(records: List[SpanRecord]) -> List[Span]:
    new = int.__new__
    return [Span(new(Rank, it.lo), new(Rank, it.hi)) for it in records]


def _record(chunk: Chunk) -> ChunkRecord:
    lo, hi, number, sub, source, dest = chunk
    words = word(number), word(sub), word(source), word(dest)
    return ChunkRecord(rank(lo), rank(hi), *words)


def _fresh_records(room: PartRoom, chunk: ChunkRecord) -> List[SpanRecord]:
    # All in one call, as in `_records`.
    records: List[SpanRecord] = []
    first = 0
    while True:
        found = SpanRecord()
        check(lib.part_fresh(room, chunk, first, found))
        if found.lo == found.hi:
            return records
        records.append(found)
        first = found.hi


def _records(room: PartRoom, call: Callable[..., int], *words: int) -> List[SpanRecord]:
    # All in one call: a signal handler between two could change the partition.
    size = _FIRST
    while True:
        block = (SpanRecord * size)()
        count = call(room, *words, 0, block, size)
        if count < size:
            return block[:count]
        size *= _MORE
