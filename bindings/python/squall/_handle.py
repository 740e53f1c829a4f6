"""What routers, views, courses, errands, partitions and leaders have in common."""

from __future__ import annotations

import threading
from types import TracebackType
from typing import Any, Callable, ClassVar, ContextManager, NoReturn, Optional, Type, TypeVar

from ._fork import REFUSED, refuse
from ._room import Room
from ._status import check
from .errors import ClosedError

T = TypeVar("T")
H = TypeVar("H", bound="Handle")


class Handle:
    """Something that was opened in a room, with a lock: the library serves one call at a time.

    The lock lets in a signal handler of the thread that has it. That is no call at the same time:
    Python runs handlers before or after a call of C. Calls that only read a view need no lock.
    """

    __slots__ = ("_room", "_lock", "__weakref__")

    #: In what it is opened, and how the library says how that went.
    _kind: ClassVar[Type[Room]]
    _call_status: ClassVar[Any]

    _room: Optional[Room]
    _lock: ContextManager[Any]

    def __new__(cls: Type[H], *_args: object, **_names: object) -> H:
        self = super().__new__(cls)
        self._room = None
        self._lock = threading.RLock()
        return self

    def _ask(self, call: Callable[..., T], *args: object) -> T:
        """What the call answers for what was opened here, with no other call at the same time."""
        # First, since a thread that is not in this process any more may have the lock.
        if REFUSED:
            refuse()
        with self._lock:
            room = self._room
            if room is None:
                raise ClosedError(f"this {type(self).__name__} is closed")
            return call(room, *args)

    def _ask_for(self, handle: Type[H], call: Callable[..., None], *args: object) -> H:
        """A handle of this type, which the call opens by what was opened here."""
        return handle._opened(lambda room: self._ask(call, *args, room))

    @classmethod
    def _opened(cls: Type[H], opens: Callable[[Any], None]) -> H:
        """A handle of a room in which something is opened."""
        made = cls.__new__(cls)
        room = cls._kind.make()
        opens(room)
        room.is_open = True
        check(cls._call_status(room))
        made._room = room
        made._prepare()
        return made

    def _prepare(self) -> None:
        """Does what is left to do once it was opened, while no other thread has it."""

    @property
    def closed(self) -> bool:
        """Whether it was closed."""
        return self._room is None

    def close(self) -> None:
        """Frees the memory. A call of another thread that runs is waited for.

        Each later call but `close` and `closed` raises `ClosedError`. To close it twice is no
        error. What is not closed is closed by the garbage collector.
        """
        if REFUSED:
            # Nothing of the library is called, and nothing is waited for.
            self._room = None
            return
        with self._lock:
            self._room = None

    def __enter__(self: H) -> H:
        return self

    def __exit__(
        self,
        kind: Optional[Type[BaseException]],
        error: Optional[BaseException],
        trace: Optional[TracebackType],
    ) -> None:
        self.close()

    def __reduce_ex__(self, protocol: object) -> NoReturn:
        raise TypeError(f"a {type(self).__name__} can't be pickled or copied")

    def __repr__(self) -> str:
        return f"<{type(self).__name__}, {'closed' if self.closed else 'open'}>"
