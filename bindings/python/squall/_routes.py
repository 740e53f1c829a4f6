"""What routers and views both say."""

from __future__ import annotations

from typing import Any, ClassVar, List, Optional

from ._handle import Handle
from ._room import LegRecord, Room
from .errand import Errand
from .keys import NOWHERE, Leg, Rank, rank

#: How many legs are asked for first, and how much more if they are too few.
_FIRST = 64
_MORE = 16


class Routes(Handle):
    """Says for each key which partition to ask."""

    __slots__ = ()

    # Functions of C, which are no methods.
    _call_route: ClassVar[Any]
    _call_legs: ClassVar[Any]
    _call_number: ClassVar[Any]
    _call_errand: ClassVar[Any]

    def route(self, key: int) -> Optional[int]:
        """The partition to ask for a key, from 0 to 9999, or None if the rank is no key's.

        >>> router.route(Rank(2, 7)), router.route(END)
        (1, None)

        Raises `NumberError` if the rank has no 64 bits, and `ClosedError`.
        """
        part: int = self._ask(self._call_route, rank(key))
        return None if part == NOWHERE else part

    def legs(self, lo: int, hi: int) -> List[Leg]:
        """The legs of the keys from `lo` on, below `hi`, by rising key.

        Neighbours have different partitions. The first and the last leg are cut to the span. There
        are none if `lo` is not below `hi`, or a rank is above `END`.

        >>> for leg in router.legs(0, END): print(leg)
        [0:0,5:0) 1
        [5:0,end) 2

        Raises `NumberError` if a rank has no 64 bits, and `ClosedError`.
        """
        records = self._ask(self._records, rank(lo), rank(hi))
        # These are ranks: to look at each again would double the time.
        new = int.__new__
        return [Leg(new(Rank, it.lo), new(Rank, it.hi), it.part) for it in records]

    def _records(self, room: Room, lo: int, hi: int) -> List[LegRecord]:
        # All in one call: a signal handler between two could change the router.
        size = _FIRST
        while True:
            block = (LegRecord * size)()
            count: int = self._call_legs(room, lo, hi, block, size)
            if count < size:
                return block[:count]
            size *= _MORE

    @property
    def number(self) -> int:
        """The number of the course by which routes go, from 1 on.

        It is the greatest for which one pair of plans is known. Raises `ClosedError`.
        """
        course: int = self._ask(self._call_number)
        return course

    def errand(self, key: int) -> Errand:
        """An errand for a key, which begins at the partition to which the key is routed now.

        Raises `NumberError` if the rank is no key's, and `ClosedError`.
        """
        return self._ask_for(Errand, self._call_errand, rank(key))
