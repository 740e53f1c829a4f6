"""Whole courses, with movers that end anywhere."""

from __future__ import annotations

import io
import threading
import time
from contextlib import closing
from http.client import HTTPConnection
from typing import Any, Dict, List, Tuple

import psycopg2

from squall import Rank, Router
from squall_bus import Node, open_bus
from squall_postgresql import Job, Mover, Pace, Reports
from squall_postgresql.metrics import Metrics, serve
from squall_postgresql.pace import Progress

from .deploy import PLANS, course, execute
from .parts import PartitionsTest, silent_job

ROOTS = range(0, 1000, 80)


class Killed(BaseException):
    """Ends a mover: it closes its connections, and does no more."""


class MoverTest(PartitionsTest):
    """Rows are at the places of the plan in the end, each once."""

    def setUp(self) -> None:
        super().setUp()
        with Router(1, PLANS[0], PLANS[0]) as router:
            for root in ROOTS:
                part = router.route(Rank(root, 1))
                assert part is not None
                execute(
                    self.deployment.addresses[part],
                    "set role squall_mover; insert into squall_rows.notes values (%s, 1, 'v', %s);"
                    "insert into squall_rows.entries values (%s, 1, 1, 'a'), (%s, 1, 2, 'b')",
                    *[root] * 4,
                )

    def rows(self) -> List[Tuple[Any, ...]]:
        """All rows: the partition, the root, the number, and how many entries it has."""
        found: List[Tuple[Any, ...]] = []
        for part, url in self.deployment.addresses.items():
            words = (
                "select %s::integer, root, n, (select count(*) from squall_rows.entries e"
                " where e.root = notes.root) from squall_rows.notes"
            )
            found += execute(url, words, part)
        return sorted(found, key=lambda it: int(it[1]))

    def is_as(self, number: int) -> None:
        """All rows are where the new plan of the course has them."""
        with Router(1, *[course(number).new_text()] * 2) as router:
            wanted = [(router.route(Rank(root, 1)), root, root, 2) for root in ROOTS]
        self.assertEqual(self.rows(), wanted)

    def test_a_course_and_its_reports(self) -> None:
        with closing(open_bus(self.deployment.bus)) as bus, closing(
            open_bus(self.deployment.bus)
        ) as other:
            reports = Reports(Node(bus, PLANS[0]))
            for number in (2, 3):
                job = silent_job(number)
                job.report = reports.put
                Mover(course(number), self.deployment.addresses, job).run()
                self.assertTrue(reports.settle(60))
                self.is_as(number)
            node = Node(other, PLANS[0])
            while node.turn(0.2):
                pass
            self.assertEqual(node.router.number, 3)
            self.assertIn("moves 4 of 4 sub-plans 2 of 2", node.router.status_text())
            self.assertNotIn("open none", node.router.status_text())
            self.assertEqual(node.router.view().route(Rank(10, 1)), 1)

    def test_a_mover_may_end_after_each_step(self) -> None:
        names: List[str] = []
        at = 0
        for number in (2, 3):
            at = 0
            while True:
                at += 1
                try:
                    self.mover_until(number, at, names).run()
                    break
                except Killed:
                    continue
            self.is_as(number)
        steps = {"begin", "tell", "issue", "give", "copy", "load", "report", "forget", "done"}
        self.assertEqual(set(names), steps)

    def mover_until(self, number: int, at: int, names: List[str]) -> Mover:
        """One that ends after so many steps, and after the first one of each kind."""
        job = silent_job(number)
        count = [0]

        def after(name: str) -> None:
            count[0] += 1
            if count[0] >= at or name not in names:
                names.append(name)
                raise Killed

        job.after = after
        return Mover(course(number), self.deployment.addresses, job)

    def test_two_movers_share_a_course(self) -> None:
        for number in (2, 3):
            movers = [
                Mover(course(number), self.deployment.addresses, silent_job(number))
                for _ in range(2)
            ]
            threads = [threading.Thread(target=it.run) for it in movers]
            for thread in threads:
                thread.start()
            for thread in threads:
                thread.join()
            self.is_as(number)

    def test_a_long_transaction_does_not_stop_others(self) -> None:
        with closing(psycopg2.connect(self.deployment.apps[1])) as slow, slow.cursor() as cursor:
            cursor.execute("select squall.guard(80, 1, 'write')")
            cursor.execute("update public.notes set v = 'late' where root = 80")
            mover = threading.Thread(target=self.mover(silent_job(2)).run)
            mover.start()
            time.sleep(1.5)
            self.assertTrue(mover.is_alive())
            with closing(psycopg2.connect(self.deployment.apps[1])) as quick:
                began = time.monotonic()
                with quick, quick.cursor() as other:
                    other.execute("select squall.guard(0, 1, 'read'); select v from notes")
                self.assertLess(time.monotonic() - began, 5)
            slow.commit()
        mover.join()
        self.is_as(2)
        (found,) = execute(
            self.deployment.addresses[3], "select v from squall_rows.notes where root = 80"
        )
        self.assertEqual(found, ("late",))

    def test_a_mover_goes_on_without_the_bus(self) -> None:
        port = self.server.port
        with closing(open_bus(f"postgres://nobody@127.0.0.1:{port}/none")) as away:
            reports = Reports(Node(away, PLANS[0]))
            job = silent_job(2)
            job.report = reports.put
            self.mover(job).run()
            self.assertFalse(reports.settle(0.1))
        self.is_as(2)

    def test_a_mover_says_how_far_it_is(self) -> None:
        out = io.StringIO()
        job = Job(2, lambda frame: None, Pace(chunk=2, pause=0.01, rate=1000))
        job.progress = Progress(out, 0.05)
        self.mover(job).run()
        self.assertIn("course 2: ", out.getvalue())
        self.assertEqual(
            job.progress.rows,
            3 * len([it for it in ROOTS if it < 250 or 400 <= it < 550 or it >= 700]),
        )
        lines = self.source.progress()
        self.assertIn("partition 1: course 2", lines)
        self.assertIn("out [0:0,250:0) 3: done below 250:0, forgotten below 250:0", lines)

    def test_a_mover_shows_what_it_counts(self) -> None:
        job = silent_job(2)
        with closing(open_bus(self.deployment.bus)) as bus, course(2) as plan:
            reports = Reports(Node(bus, PLANS[0]))
            job.report = reports.put
            server = serve("127.0.0.1:0", Metrics(plan, job, reports).page)
            self.addCleanup(server.server_close)
            self.addCleanup(server.shutdown)
            before = self.metrics(server.server_port)
            self.mover(job).run()
            self.assertTrue(reports.settle(60))
            after = self.metrics(server.server_port)
        keys = sum(it.hi - it.lo for it in course(2).moves())
        for page, loaded in ((before, 0), (after, keys)):
            self.assertEqual(page["squall_course"], 2)
            self.assertEqual(
                (page["squall_moving_keys"], page["squall_loaded_keys"]), (keys, loaded)
            )
        self.assertEqual(before["squall_moved_rows_total"], 0)
        self.assertEqual(after["squall_moved_rows_total"], job.progress.rows)
        self.assertEqual(after["squall_moved_chunks_total"], job.progress.chunks)
        self.assertEqual(after["squall_reports_waiting"], 0)
        self.assertEqual(after["squall_rate_limit_rows"], 0)

    def metrics(self, port: int) -> Dict[str, int]:
        """What a port shows. Another path is not there."""
        with closing(HTTPConnection("127.0.0.1", port, timeout=60)) as client:
            client.request("GET", "/")
            with client.getresponse() as answer:
                self.assertEqual((answer.status, answer.read()), (404, b"/metrics\n"))
        with closing(HTTPConnection("127.0.0.1", port, timeout=60)) as client:
            client.request("GET", "/metrics")
            lines = client.getresponse().read().decode().splitlines()
        pairs = [it.split(" ") for it in lines if not it.startswith("#")]
        return {name: int(value) for name, value in pairs}

    def test_where_metrics_are_is_a_port(self) -> None:
        for wrong in ("9000", "host:", "host:x"):
            with self.assertRaisesRegex(ValueError, "not of the form HOST:PORT"):
                serve(wrong, str)

    def test_an_address_that_is_missing_is_named(self) -> None:
        addresses = {it: url for it, url in self.deployment.addresses.items() if it != 2}
        with self.assertRaisesRegex(ValueError, "partition 2, which has no address"):
            Mover(course(2), addresses, silent_job(2))
