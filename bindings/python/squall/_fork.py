"""What a fork leaves.

A child of a process with one thread has copies of all handles, and may use them. If there were
several threads, another one may have been within a call at the moment of the fork. The header
forbids such a child all calls, and here they are refused.
"""

from __future__ import annotations

import os
import threading
import time
from typing import List, NoReturn

from .errors import ForkError

#: Has an entry if this process must not call the library. A list, since modules import it by name.
REFUSED: List[str] = []

#: How many threads there were before the fork that is under way.
_counted: List[int] = []


def refuse() -> NoReturn:
    """Raises the exception for a call in a process that must make none."""
    raise ForkError(
        "this process was forked from one that had several threads: squall can't be called here "
        "(start it by the method 'spawn' or 'forkserver', or fork before threads start)"
    )


def _count_threads() -> int:
    """How many threads there are, also those that Python did not start."""
    try:
        return len(os.listdir("/proc/self/task"))
    except OSError:
        return threading.active_count()


def _before() -> None:
    # A thread that was joined may take a moment more to end.
    for _ in range(5):
        if _count_threads() == 1 or threading.active_count() > 1:
            break
        time.sleep(0.001)
    _counted[:] = [_count_threads()]


def _in_child() -> None:
    # Before a fork that Python did not announce nobody has counted.
    if _counted != [1]:
        REFUSED.append("forked")
    _counted.clear()


os.register_at_fork(before=_before, after_in_parent=_counted.clear, after_in_child=_in_child)
