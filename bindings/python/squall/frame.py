"""Frames of single reports, for programs that send reports and keep no router.

A router takes them by `Router.hear`, and none has more than 49 bytes. `Course.frame` gives the
frame of the fourth kind of report: that a course was issued.

>>> from squall import frame
>>> sent = frame.done(1, 0, 3)
>>> len(sent)
33
>>> router.hear(sent)
"""

from __future__ import annotations

from typing import Callable

from . import _library as lib
from ._fork import REFUSED, refuse
from ._status import check
from ._written import written
from .keys import rank, word

_LIMIT = 2


def loaded(number: int, sub: int, part: int, lo: int, hi: int) -> bytes:
    """The frame of the report that a partition has loaded the keys from `lo` on, below `hi`.

    It has loaded them in the sub-plan `sub` of the course `number`. The frame has 49 bytes.

    Raises `NumberError` if there is no such report, as `Router.loaded` says it, and `NoMemory`.
    """
    return _report(lib.frame_loaded, word(number), word(sub), word(part), rank(lo), rank(hi))


def done(number: int, sub: int, part: int) -> bytes:
    """The frame of the report that a partition has all the keys that the sub-plan brings it.

    It has 33 bytes. Raises what `loaded` raises.
    """
    return _report(lib.frame_done, word(number), word(sub), word(part))


def opened(number: int, sub: int) -> bytes:
    """The frame of the report that the sub-plan has been opened, and each before it.

    It has 24 bytes. Raises what `loaded` raises.
    """
    return _report(lib.frame_opened, word(number), word(sub))


def _report(call: Callable[..., int], *words: int) -> bytes:
    if REFUSED:
        refuse()
    sent = written(call, *words)
    if not sent:
        check(_LIMIT)
    return sent
