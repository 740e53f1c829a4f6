"""Tests over partitions of their own, on one server."""

from __future__ import annotations

import io
import unittest
from typing import ClassVar

from squall import Rank, Span
from squall_postgresql import Job, Mover, Pace, Partition, StepError
from squall_postgresql.pace import Progress

from .deploy import Deployment, Server, course


def silent_job(number: int) -> Job:
    """A job of small chunks that reports nothing, and says nothing."""
    job = Job(number, lambda frame: None, Pace(chunk=2))
    job.progress = Progress(io.StringIO())
    return job


class PartitionsTest(unittest.TestCase):
    """Each test has empty partitions, in course 1."""

    server: ClassVar[Server]
    shared: ClassVar[Deployment]
    #: Whether each test has databases of its own, since it changes more than rows.
    is_apart = False

    @classmethod
    def setUpClass(cls) -> None:
        cls.server = Server()
        cls.addClassCleanup(cls.server.remove)
        if not cls.is_apart:
            cls.shared = Deployment(cls.server)

    def setUp(self) -> None:
        self.deployment = Deployment(self.server) if self.is_apart else self.shared
        self.deployment.empty()
        self.deployment.begin()
        self.source, self.dest = self.partition(1), self.partition(3)

    def partition(self, part: int) -> Partition:
        """A mover's connection."""
        it = Partition(part, self.deployment.addresses[part]).enter()
        self.addCleanup(it.close)
        return it

    def begin(self) -> None:
        """Begins course 2 at all partitions, and gives nothing."""
        job = silent_job(2)

        def after(name: str) -> None:
            if name == "issue":
                raise StepError("enough")

        job.after = after
        with self.assertRaisesRegex(StepError, "enough"):
            self.mover(job).run()

    def mover(self, job: Job) -> Mover:
        """A mover of course 2."""
        return Mover(course(2), self.deployment.addresses, job)

    def give(self, edge: Rank = Rank(100, 0)) -> int:
        """Gives keys from 0:0 on: the generation then."""
        return self.source.give(2, Rank(0, 0), edge).generation

    def load(self, given: int, edge: Rank = Rank(100, 0)) -> None:
        """Copies and loads what was given."""
        chunk = Span(Rank(0, 0), edge)
        rows = self.source.rows(*chunk)
        self.assertEqual(self.dest.load(2, Rank(0, 0), chunk, rows, given).edge, edge)
