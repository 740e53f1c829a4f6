"""Does a course: begins it at all partitions, moves its rows, and reports that."""

from __future__ import annotations

import threading
import time
from contextlib import ExitStack, closing
from functools import partial
from typing import Callable, Dict, Iterable, List, Mapping, Optional, Type

from squall import Course, Move, frame

from .errors import LostError, StepError, StoppedError
from .feeder import Feeder, Job
from .partition import Partition

#: How long a mover waits before it begins again.
_AGAIN = 0.5


class Mover:
    """A course and the addresses of all partitions. It keeps nothing: another one goes on."""

    #: What it connects to partitions by: tests have others.
    partition: Type[Partition] = Partition
    feeder: Type[Feeder] = Feeder

    def __init__(self, course: Course, addresses: Mapping[int, str], job: Job) -> None:
        """Raises `ValueError` if a partition of the course has no address."""
        self._course = course
        self._addresses = dict(addresses)
        self._job = job
        #: The partitions to which the old plan gives keys.
        self._old = sorted({it.part for it in course.old_plan()})
        named = {it.part for it in course.new_plan()}.union(self._old)
        for part in sorted(named.difference(self._addresses)):
            raise ValueError(f"a plan names partition {part}, which has no address")

    def init(self, patience: float = 60.0) -> None:
        """Begins course 1, which moves nothing. It begins again, and raises, as `run` does."""
        self._patiently(partial(self._begin_all, True), patience)

    def run(self, patience: float = 60.0) -> None:
        """Does the whole course, from wherever an earlier run has stopped.

        If a connection is lost, it begins again by itself, unless there was no progress for so many
        seconds. Raises `LostError` then, and `StepError` if a partition refuses a step.
        """
        self._patiently(self._attempt, patience)

    def _patiently(self, act: Callable[[], None], patience: float) -> None:
        until, chunks, said = time.monotonic() + patience, -1, ""
        while True:
            try:
                act()
                return
            except LostError as error:
                self._job.progress.lost += 1
                if chunks != self._job.progress.chunks:
                    until, chunks = time.monotonic() + patience, self._job.progress.chunks
                if time.monotonic() > until:
                    raise
                if str(error) != said:
                    said = str(error)
                    self._job.progress.say(f"{said}; this is tried again")
            time.sleep(_AGAIN)

    def preview(self) -> Iterable[Move]:
        """What would move. Nothing changes."""
        return self._course.moves()

    def _attempt(self) -> None:
        self._job.is_over = False
        self._begin_all(False)
        self._job.report(self._course.frame())
        self._job.after("issue")
        number, moves = self._course.number, self._course.moves()
        for sub in range(self._course.subplans):
            self._job.report(frame.opened(number, sub))
            self._feed([it for it in moves if it.sub == sub])
            for part in self._course.receivers(sub):
                self._job.report(frame.done(number, sub, part))
                self._job.after("done")

    # ---- to begin

    def _begin_all(self, is_first: bool) -> None:
        """Nothing is given before all partitions have begun the course.

        They are asked in one order, those of the old plan first. So of two movers that draw one
        number the first partition refuses one, before it has changed anything.
        """
        with ExitStack() as stack:
            order = [*self._old, *sorted(set(self._addresses).difference(self._old))]
            all_of_them = [stack.enter_context(closing(self._open(it))) for it in order]
            _compare(all_of_them)
            _compare_tables(all_of_them)
            for it in all_of_them:
                said = it.begin_fault(self._course, self._is_fresh(it, is_first))
                if said not in ("", "again"):
                    raise StepError(f"{it.name}: {said}")
            for it in all_of_them:
                it.begin(self._course, self._is_fresh(it, is_first))
                self._job.after("begin")
            if not is_first:
                issue = self._course.frame()
                for it in all_of_them:
                    it.tell(self._course.number, issue)
                    self._job.after("tell")

    def _is_fresh(self, it: Partition, is_first: bool) -> bool:
        return is_first or it.part not in self._old

    def _open(self, part: int) -> Partition:
        return self.partition(part, self._addresses[part]).enter()

    # ---- to move

    def _feed(self, moves: List[Move]) -> None:
        """The moves of a sub-plan, those of each source in a thread of its own."""
        sources: Dict[int, List[Move]] = {}
        for move in moves:
            sources.setdefault(move.source, []).append(move)
        threads = [_Thread(self._job, partial(self._feed_one, it)) for it in sources.values()]
        for thread in threads:
            thread.join()
        faults = [it.fault for it in threads if it.fault is not None]
        # One that does not pass comes first, and last those that stopped because of another one.
        for fault in sorted(
            faults, key=lambda it: [isinstance(it, LostError), isinstance(it, StoppedError)]
        ):
            raise fault

    def _feed_one(self, moves: List[Move]) -> None:
        with closing(self._open(moves[0].source)) as source:
            with closing(self._open(moves[0].dest)) as dest:
                self.feeder(self._job, source, dest).feed(moves)


class _Thread(threading.Thread):
    """A source's, which keeps the fault that ended it."""

    def __init__(self, job: Job, act: Callable[[], None]) -> None:
        super().__init__(daemon=True)
        self._job = job
        self._act = act
        self.fault: Optional[BaseException] = None
        self.start()

    def run(self) -> None:
        try:
            self._act()
        except BaseException as error:  # pylint: disable=broad-except
            self._job.is_over = True
            self.fault = error


def _compare(all_of_them: List[Partition]) -> None:
    """Refuses a partition of which another one has seen a later step: it has lost some.

    What was seen is asked first. A generation only rises, so one that is asked later is not below.
    """
    seen = [(it, other, least) for it in all_of_them for other, least in it.seen().items()]
    now = {it.part: it.generation() for it in all_of_them}
    for it, other, least in seen:
        if other in now and now[other] < least:
            raise StepError(
                f"partition {other} has come back with less: it has done {now[other]} steps, and "
                f"{it.name} has seen {least}; give the server its data back"
            )


def _compare_tables(all_of_them: List[Partition]) -> None:
    """Refuses partitions whose tables differ, before a chunk is given that can't be loaded."""
    first = all_of_them[0]
    for it in all_of_them[1:]:
        if it.tables() != first.tables():
            raise StepError(f"{it.name} and {first.name} have other tables, or other columns")
