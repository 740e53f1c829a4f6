"""Errands."""

from __future__ import annotations

import enum
from typing import Optional

from . import _library as lib
from ._handle import Handle
from ._room import ErrandRoom
from .errors import NumberError
from .keys import word

_BAD_REPLY = 255


class Reply(enum.IntEnum):
    """What a partition replies if it is asked for a key."""

    #: It holds the key.
    HELD = 0
    #: It gave the key to `part` in the course `number`.
    MOVED = 1
    #: The key is on its way to it from `part`.
    PENDING = 2
    #: It has not heard of the course by which the key was sent to it.
    BEHIND = 3
    #: It neither has the key nor awaits it: the old plan has it at `part`.
    ELSEWHERE = 4


class Next(enum.IntEnum):
    """What to do after a reply."""

    #: The key was found: nothing is left to do.
    SERVED = 0
    #: Ask the partition `Errand.asked`, to which the key went.
    ASK = 1
    #: Ask the partition `Errand.asked` again, later.
    AGAIN = 2
    #: Replies contradict each other: start a new errand once the router has heard more.
    LOST = 3


#: The replies that come with a partition.
WITH_PART = (Reply.MOVED, Reply.PENDING, Reply.ELSEWHERE)


class Errand(Handle):
    """The search for the partition that holds a key.

    It begins where a router or a view sends the key, and follows the replies of partitions.
    `Router.errand` and `View.errand` start one.

    >>> with router.errand(Rank(2, 0)) as errand:
    ...     print(errand.asked)
    ...     print(repr(errand.heed(Reply.MOVED, part=3, number=1)))
    ...     print(errand.asked, errand.number)
    ...     print(repr(errand.heed(Reply.HELD)))
    1
    <Next.ASK: 1>
    3 1
    <Next.SERVED: 0>
    """

    __slots__ = ()

    _kind = ErrandRoom
    _call_status = lib.errand_status

    def __init__(self) -> None:
        raise TypeError("Router.errand and View.errand start errands")

    @property
    def asked(self) -> int:
        """The partition to ask, from 0 to 9999. Raises `ClosedError`."""
        return self._ask(lib.errand_asked)

    @property
    def number(self) -> int:
        """The number of the last `Reply.MOVED` that was followed, 0 before the first.

        Send it to the partition that is asked. Raises `ClosedError`.
        """
        return self._ask(lib.errand_number)

    def heed(self, reply: int, part: Optional[int] = None, number: Optional[int] = None) -> Next:
        """Takes the reply of the partition that was asked, and says what to do.

        `MOVED`, `PENDING` and `ELSEWHERE` come with a partition, and `MOVED` with the number of a
        course too. Others are not looked at. After `Next.SERVED` or `Next.LOST` the answer to any
        reply stays the same.

        Raises `NumberError` if there is no such reply or the partition is above 9999, `TypeError`
        if the reply lacks its partition or number, and `ClosedError`. Nothing has changed then.
        """
        if part is None and reply in WITH_PART:
            raise TypeError(f"the reply {Reply(reply).name} comes with a partition")
        if number is None and reply == Reply.MOVED:
            raise TypeError("the reply MOVED comes with the number of a course")
        words = word(reply), word(part or 0), word(number or 0)
        following = self._ask(lib.errand_heed, *words)
        if following == _BAD_REPLY:
            raise NumberError(f"there is no reply {reply} with partition {part}")
        return Next(following)
