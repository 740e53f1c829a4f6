"""Partitions and movers with a fault built in, which the load has to notice."""

from __future__ import annotations

import io
import threading
import time
from contextlib import closing, redirect_stderr
from typing import Dict, Type

import psycopg2

from squall import Move, Rank, Span
from squall_postgresql import Client, Mover, Pace, Partition, Routes
from squall_postgresql.feeder import Feeder
from squall_postgresql.partition import Step

from . import load
from .deploy import PLANS, course, execute
from .parts import PartitionsTest, silent_job

#: How long a fault may go unnoticed: the machine may be busy with much else.
_MOST = 300.0
_THREADS = 8


class LoadsInTwo(Partition):
    """Its edge rises in a transaction of its own, before the rows are there."""

    def load(self, number: int, lo: Rank, chunk: Span, rows: Dict[str, bytes], given: int) -> Step:
        nothing = dict.fromkeys(rows, b"")
        step = super().load(number, lo, chunk, nothing, given)
        with self._transaction() as cursor:
            self._put(cursor, rows)
        return step


class CopiesFirst(Feeder):
    """It copies rows before they are given, while statements still write them."""

    _rows: Dict[str, bytes] = {}

    def _give(self, move: Move) -> Step:
        number = self._job.number
        edge = self._source.chunk_end(number, move.lo, self._job.pace.size())
        self._rows = self._source.rows(self._source.stand(number, move.lo).edge, edge)
        return self._source.give(number, move.lo, edge)

    def _load(self, move: Move, chunk: Span, given: Step) -> Step:
        number = self._job.number
        step = self._dest.load(number, move.lo, chunk, self._rows, given.generation)
        self._report(move, Span(chunk.lo, step.edge))
        return step


class ForgetsFirst(Feeder):
    """It deletes rows at the source before they are loaded, and copies them afterwards."""

    def _give(self, move: Move) -> Step:
        step = super()._give(move)
        self._source.forget(self._job.number, move.lo, step.edge, 0)
        return step


class FaultsTest(PartitionsTest):
    """Faults one by one."""

    def faulty(self, words: str) -> None:
        """Gives each partition a function with a fault."""
        for url in self.deployment.addresses.values():
            execute(url, f"set role squall_mover; create or replace function squall.{words}")

    def is_noticed(
        self, partition: Type[Partition] = Partition, feeder: Type[Feeder] = Feeder
    ) -> bool:
        """Whether the load finds a fault, while courses go to and fro."""
        tally, done = load.Tally(), threading.Event()
        routes = Routes(PLANS[0])
        words = (
            self.deployment.apps,
            routes,
            range(_THREADS),
            lambda: not done.is_set(),
            tally,
            0.2,
        )
        thread = threading.Thread(target=load.run, args=words, daemon=True)
        until, number = time.monotonic() + _MOST, 1
        with redirect_stderr(io.StringIO()):
            thread.start()
            while time.monotonic() < until and not tally.counts["wrong"]:
                number += 1
                self.move(number, partition, feeder, tally)
            done.set()
            thread.join()
        with closing(Client(self.deployment.apps, routes)) as client:
            faults = load.judge_shared([tally], client)
        return bool(tally.counts["wrong"] + tally.counts["lost"] + len(faults))

    def move(
        self, number: int, partition: Type[Partition], feeder: Type[Feeder], tally: load.Tally
    ) -> None:
        """Does a course with a mover of these parts."""
        job = silent_job(number)
        job.pace = Pace(chunk=20)
        mover = Mover(course(number), self.deployment.addresses, job)
        mover.partition, mover.feeder = partition, feeder
        try:
            mover.run()
        except psycopg2.Error as error:
            # Rows that a server refuses are noticed too.
            tally.fault("wrong", str(error))

    def test_a_give_that_does_not_wait_is_noticed(self) -> None:
        self.faulty("exclude(its_slot integer) returns void language sql as ''")
        self.assertTrue(self.is_noticed())

    def test_an_edge_in_another_transaction_is_noticed(self) -> None:
        self.assertTrue(self.is_noticed(partition=LoadsInTwo))

    def test_a_copy_before_the_give_is_noticed(self) -> None:
        self.assertTrue(self.is_noticed(feeder=CopiesFirst))

    def test_rows_that_are_deleted_too_early_are_noticed(self) -> None:
        self.assertTrue(self.is_noticed(feeder=ForgetsFirst))

    def test_a_source_that_serves_what_it_gave_is_noticed(self) -> None:
        self.faulty(
            "look(place bigint) returns text language sql stable as"
            " $$ select 'HELD ' || number from squall.state $$"
        )
        self.assertTrue(self.is_noticed())
