"""What routers, partitions and leaders have in common: they take frames, and make their own."""

from __future__ import annotations

import ctypes
from typing import TYPE_CHECKING, Any, Callable, ClassVar, List, Optional, Tuple

from ._buffers import Lent
from ._fork import REFUSED, refuse
from ._handle import Handle, T
from ._library import FrameCalls
from ._room import Room
from ._status import check
from .keys import wide

if TYPE_CHECKING:
    from _typeshed import ReadableBuffer

_SMALL = 4096

# SQUALL_NO_LIMIT.
_NO_LIMIT = 0xFFFFFFFFFFFFFFFF


def limit_of(limit: Optional[int]) -> int:
    """The limit as the library takes it. Raises `NumberError` if it has no 64 bits."""
    return _NO_LIMIT if limit is None else wide(limit)


class Hears(Handle):
    """Takes frames of others, and makes frames of what it knows."""

    __slots__ = ("_gathered",)

    _calls: ClassVar[FrameCalls]

    _gathered: object

    def hear(self, frame: ReadableBuffer) -> None:
        """Takes one whole frame, for transports that keep messages apart.

        A delta is taken as reports, and a digest is kept for `repair`. No byte is copied for the
        call. Other threads run meanwhile if `frame` is of type `bytes`. The stream that `feed`
        takes has nothing to do with this.

        >>> router.hear(frame.opened(1, 0))

        Raises `FrameError` if the bytes are no frame, or more than one, and of a router `FullError`
        if it would tell more than `Router.limit` allows. The next frame may come then. Raises
        `NoMemory` and `ClosedError`.
        """
        self._take(frame, self._calls.hear, self._calls.hear_kept)

    def feed(self, data: ReadableBuffer) -> None:
        """Takes the next bytes of a stream of frames, which may be cut anywhere.

        Deltas are taken as reports, and the last digest is kept for `repair`. What is left waits
        for the next bytes. No byte is copied for the call. Other threads run meanwhile if `data`
        is of type `bytes`.

        Raises `FrameError` if bytes are no frame. The messages before them were taken, and each
        later call raises `StreamError`. A log of calls of a partition or a leader needs such a call
        too. Raises `NoMemory`, and of a router `FullError` if it would tell more than
        `Router.limit` allows: after both the same bytes may be fed again. Raises `ClosedError`.
        """
        self._take(data, self._calls.feed, self._calls.feed_kept)

    @property
    def waiting(self) -> int:
        """How many bytes that `feed` took wait for the rest of their frame.

        It is 0 if none do, or if a `FrameError` has ended the stream. If it is above 0 when the
        stream ends, the stream was cut within a frame. Raises `ClosedError`.
        """
        return self._ask(self._calls.waiting)

    def _take(
        self,
        data: ReadableBuffer,
        call: Callable[[Any, Any, int], int],
        kept: Callable[[Any, Any, int], int],
    ) -> None:
        # A subclass may say that it has more bytes than it has.
        if type(data) is bytes:  # pylint: disable=unidiomatic-typecheck
            check(self._ask(call, data, len(data)))
        else:
            # They may change if another thread runs, so Python's lock is kept.
            with Lent(data) as lent:
                check(self._ask(kept, lent.at, lent.size))

    def board(self, *, limit: Optional[int] = None) -> List[bytes]:
        """The frames of all that was reported to it or that it reports itself; none if nothing was.

        They have at most 1,048,584 bytes each, and at most `limit`, for a transport that limits its
        messages. A limit of 98,337 is enough for any report, and one of 49 for all but courses.

        Raises `TooLongError` if a single report needs a longer frame, `NumberError` if the limit
        has no 64 bits, `NoMemory` and `ClosedError`.
        """
        return self._frames(self._calls.board, limit)

    def digest(self, *, limit: Optional[int] = None) -> bytes:
        """The frame of a digest of what `board` has.

        Another one that hears it says by `repair` what this one lacks. Raises `TooLongError` if the
        digest has more rows than a frame holds, or more bytes than `limit`: it is not cut. Raises
        `NumberError` as `board` does, `NoMemory` and `ClosedError`.
        """
        return self._frames(self._calls.digest, limit)[0]

    def repair(self, *, limit: Optional[int] = None) -> List[bytes]:
        """The frames of what the digest that was heard last does not show; none if it shows all.

        They have at most `limit` bytes each. Raises `NoDigestError` if none was heard, and all that
        `board` raises.
        """
        return self._frames(self._calls.repair, limit)

    def _frames(self, gather: Callable[[Any, int], int], limit: Optional[int]) -> List[bytes]:
        most = limit_of(limit)

        def steps(room: Room) -> Tuple[int, List[bytes]]:
            status = gather(room, most)
            return status, [] if status else list(iter(lambda: self._next_frame(room), b""))

        status, frames = self._undisturbed(steps)
        check(status)
        return frames

    def _next_frame(self, room: Room) -> bytes:
        """The next frame that waits, or no bytes."""
        out = ctypes.create_string_buffer(_SMALL)
        size = self._calls.frame(room, out, len(out))
        # Once more at most, if no signal handler puts a larger frame there in between.
        while size > len(out):
            out = ctypes.create_string_buffer(size)
            size = self._calls.frame(room, out, len(out))
        return ctypes.string_at(out, size)

    def _undisturbed(self, steps: Callable[[Any], T]) -> T:
        """What several calls answer that belong together.

        A signal handler of this thread may have taken such steps between two of the calls, and
        what these left there. Then they are done again.
        """
        # First, since a thread that is not in this process any more may have the lock.
        if REFUSED:
            refuse()
        with self._lock:
            while True:
                self._gathered = mine = object()
                answer = self._ask(steps)
                if self._gathered is mine:
                    return answer
