"""The moves of one source in a sub-plan, chunk by chunk."""

from __future__ import annotations

from typing import Callable, List

from squall import Move, Rank, Span, frame

from .errors import StoppedError
from .pace import Pace, Progress
from .partition import Partition, Step


class Job:
    """What all sources of a course share."""

    def __init__(self, number: int, report: Callable[[bytes], None], pace: Pace) -> None:
        self.number = number
        self.report = report
        self.pace = pace
        self.progress = Progress()
        #: Called after each step with its name: tests end the mover there.
        self.after: Callable[[str], None] = lambda name: None
        #: Whether a source has failed: the others stop after their chunk.
        self.is_over = False


class Feeder:
    """A source and its one destination. It moves what an earlier run has left."""

    def __init__(self, job: Job, source: Partition, dest: Partition) -> None:
        self._job = job
        self._source = source
        self._dest = dest

    def feed(self, moves: List[Move]) -> None:
        """Moves the keys of these moves, which have this source and this destination."""
        for move in sorted(moves):
            self._run(move)

    def _run(self, move: Move) -> None:
        number = self._job.number
        given = self._source.give(number, move.lo, move.lo)
        loaded = Step(self._dest.stand(number, move.lo).edge, self._dest.generation())
        forgot = self._source.stand(number, move.lo).forgot
        if loaded.edge > move.lo:
            self._report(move, Span(move.lo, loaded.edge))
        while True:
            if loaded.edge > forgot:
                forgot = self._forget(move, loaded)
            if loaded.edge >= move.hi:
                return
            if self._job.is_over:
                raise StoppedError("another source has stopped")
            if given.edge <= loaded.edge:
                given = self._give(move)
            if given.edge > loaded.edge:
                loaded = self._load(move, Span(loaded.edge, given.edge), given)

    def _give(self, move: Move) -> Step:
        number, size = self._job.number, self._job.pace.size()
        edge = self._source.chunk_end(number, move.lo, size)
        step = self._source.give(number, move.lo, edge)
        self._job.after("give")
        return step

    def _load(self, move: Move, chunk: Span, given: Step) -> Step:
        """Copies a chunk that was given, and loads it. All who wrote its keys have committed."""
        rows = self._source.rows(*chunk)
        self._job.after("copy")
        step = self._dest.load(self._job.number, move.lo, chunk, rows, given.generation)
        self._job.after("load")
        self._report(move, Span(chunk.lo, step.edge))
        count = sum(it.count(b"\n") for it in rows.values())
        self._job.progress.add(self._job.number, count)
        self._job.pace.wait(count)
        return step

    def _report(self, move: Move, keys: Span) -> None:
        self._job.progress.reach(move, keys.hi)
        self._job.report(frame.loaded(self._job.number, move.sub, move.dest, keys.lo, keys.hi))
        self._job.after("report")

    def _forget(self, move: Move, loaded: Step) -> Rank:
        """The load has committed, so the destination has it on its disk."""
        number, edge, seen = self._job.number, loaded.edge, loaded.generation
        step = self._source.forget(number, move.lo, edge, seen)
        self._job.after("forget")
        return step.edge
