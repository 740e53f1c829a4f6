"""Frames that one call of C writes."""

from __future__ import annotations

import ctypes
from typing import Callable

from . import _library as lib
from ._status import check

#: Room for the frame of any report but that a course was issued.
_FIRST = 512

_NO_MEMORY = 1


def written(call: Callable[..., int], *words: object) -> bytes:
    """The frame that the call writes for these words; no bytes if it answers that there is none.

    If its first room is too short, nothing was written, and the answer says how long the next has
    to be. Raises `NoMemory`.
    """
    out = ctypes.create_string_buffer(_FIRST)
    size = call(*words, out, len(out))
    # Once more at most, unless the library answers another size the second time.
    while len(out) < size < lib.NO_COUNT:
        out = ctypes.create_string_buffer(size)
        size = call(*words, out, len(out))
    if size == lib.NO_COUNT:
        check(_NO_MEMORY)
    return ctypes.string_at(out, size)
