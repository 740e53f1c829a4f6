"""What a partition does and refuses of a mover's steps."""

from __future__ import annotations

from typing import Optional

import psycopg2

from squall import Course, Plan, Rank, Span
from squall_postgresql import Mover, StepError

from .deploy import EAST, PLANS, WEST, course, execute, plan
from .parts import PartitionsTest, silent_job

START = Rank(0, 0)


class StepTest(PartitionsTest):
    """Steps one by one."""

    def fill(self, *roots: int) -> None:
        """Writes rows as the mover may."""
        url = self.deployment.addresses[1]
        for root in roots:
            execute(
                url, "set role squall_mover; insert into squall_rows.notes values (%s, 1)", root
            )

    def count(self, part: int) -> int:
        """How many notes a partition has."""
        url = self.deployment.addresses[part]
        ((count,),) = execute(url, "select count(*) from squall_rows.notes")
        return int(count)

    def refuses(self, said: str, number: int, old: Plan, new: Optional[Plan] = None) -> None:
        """Partition 1 does not begin this."""
        asked = Course(number, old, new or PLANS[0])
        with self.assertRaisesRegex(StepError, f"partition 1: {said}$"):
            self.source.begin(asked, False)

    def test_a_course_begins_only_after_the_one_before(self) -> None:
        self.refuses("GAP 1", 3, PLANS[0])
        self.refuses("OTHER 1", 2, PLANS[1])
        self.refuses("CLASH 1", 1, PLANS[1])
        self.begin()
        before = self.source.generation()
        self.begin()
        self.assertEqual(self.source.generation(), before)
        self.refuses("CLASH 2", 2, PLANS[0])
        self.refuses("LATE 2", 1, PLANS[0])
        self.refuses("RUNNING 2 0:0", 3, PLANS[1])
        self.source.part = 2
        with self.assertRaisesRegex(StepError, "STRANGER 1"):
            self.source.begin(course(2), False)

    def test_a_partition_without_a_course_has_no_keys(self) -> None:
        execute(self.deployment.addresses[1], "truncate squall.state")
        self.refuses("EMPTY", 2, PLANS[0])

    def test_a_new_partition_may_have_missed_courses(self) -> None:
        execute(self.deployment.addresses[3], "truncate squall.state, squall.moves, squall.legs")
        two = plan([(0, 400, 1), (400, None, 2)])
        three = plan([(0, 400, 1), (400, 700, 2), (700, None, 3)])
        for part in (1, 2):
            url = self.deployment.addresses[part]
            execute(
                url,
                "update squall.state set number = 8, new_plan = %s",
                Course(1, two, two).new_text(),
            )
        job = silent_job(9)
        Mover(Course(9, two, three), self.deployment.addresses, job).run()
        self.assertIn("course 9", self.dest.progress()[0])

    def test_steps_that_were_done_change_nothing(self) -> None:
        self.fill(10, 11, 12)
        self.begin()
        given = self.give()
        chunk, rows = Span(START, Rank(100, 0)), self.source.rows(START, Rank(100, 0))
        first = self.dest.load(2, START, chunk, rows, given)
        again = self.dest.load(2, START, chunk, {}, given)
        self.assertEqual(first, again)
        self.assertEqual((self.count(1), self.count(3)), (3, 3))
        for _ in range(2):
            step = self.source.forget(2, START, Rank(100, 0), first.generation)
        self.assertEqual((step.edge, self.count(1), self.count(3)), (Rank(100, 0), 0, 3))
        self.assertEqual(self.give(Rank(50, 0)), step.generation)

    def test_rows_that_are_nobodys_go_with_a_load(self) -> None:
        execute(
            self.deployment.addresses[3],
            "set role squall_mover;"
            " insert into squall_rows.notes values (10, 1, 'old'), (99, 1, '')",
        )
        self.fill(10)
        self.begin()
        self.load(self.give())
        self.assertEqual(self.count(3), 1)

    def test_a_load_that_fails_leaves_nothing(self) -> None:
        self.fill(10, 11)
        self.begin()
        given = self.give()
        chunk = Span(START, Rank(100, 0))
        rows = self.source.rows(*chunk)
        rows["squall_rows.notes"] += b"no row\n"
        with self.assertRaisesRegex(Exception, "invalid input syntax"):
            self.dest.load(2, START, chunk, rows, given)
        self.assertEqual((self.count(3), self.dest.stand(2, START).edge), (0, START))

    def test_steps_of_others_are_refused(self) -> None:
        self.begin()
        for number, lo in ((1, START), (3, START), (2, Rank(5, 0)), (2, Rank(400, 0))):
            with self.assertRaisesRegex(StepError, "COURSE 2|STRANGER"):
                self.source.give(number, lo, Rank(600, 0))
        with self.assertRaisesRegex(StepError, "STRANGER"):
            self.source.forget(2, START, Rank(1, 0), 5)
        with self.assertRaisesRegex(StepError, "another course"):
            self.source.stand(3, START)

    def test_a_chunk_has_whole_keys(self) -> None:
        self.fill(10, 20, 30)
        url = self.deployment.addresses[1]
        execute(
            url,
            "set role squall_mover; insert into squall_rows.entries"
            " select 10, 1, at, '' from generate_series(1, 9) at",
        )
        self.begin()
        self.assertEqual(self.source.chunk_end(2, START, 5), Rank(10, 1))
        self.give(Rank(10, 1))
        self.assertEqual(self.source.chunk_end(2, START, 5), Rank(10, 2))
        self.give(Rank(10, 2))
        self.assertEqual(self.source.chunk_end(2, START, 1), Rank(30, 1))
        self.assertEqual(self.source.chunk_end(2, START, 5), Rank(250, 0))

    def test_who_has_come_back_with_less_is_found(self) -> None:
        self.begin()
        self.load(self.give())
        execute(self.deployment.addresses[1], "update squall.clock set generation = 1")
        with self.assertRaisesRegex(StepError, "partition 1 has come back with less"):
            self.mover(silent_job(2)).run()

    def test_plans_of_the_tests_have_sub_plans(self) -> None:
        self.assertEqual((len(WEST), len(EAST), course(2).subplans), (3, 4, 2))


class TablesTest(PartitionsTest):
    """Tables that are put under the guard, or changed there."""

    is_apart = True

    def test_tables_that_differ_are_found(self) -> None:
        url = self.deployment.addresses[3]
        execute(url, "alter table squall_rows.notes add column more text")
        with self.assertRaisesRegex(StepError, "other tables, or other columns"):
            self.mover(silent_job(2)).run()

    def test_tables_that_cannot_move_are_refused(self) -> None:
        url = self.deployment.addresses[1]
        for columns in (
            "root bigint, second bigint",
            "root bigint not null, second bigint not null",
        ):
            execute(url, f"create table public.odd ({columns})")
            with self.assertRaisesRegex(psycopg2.Error, "odd has no"):
                execute(url, "select squall.adopt('public.odd')")
            execute(url, "drop table public.odd")

    def test_new_columns_move_too(self) -> None:
        url = self.deployment.addresses[1]
        execute(url, "alter table squall_rows.notes add column more text default 'm'")
        execute(url, "select squall.adopt('public.notes')")
        execute(url, "set role squall_mover; insert into squall_rows.notes values (10, 1, 'a')")
        words = "select squall.guard(10, 1, 'read'); select more from public.notes"
        self.assertEqual(execute(url, words), [("m",)])
        rows = self.partition(1).rows(Rank(10, 0), Rank(11, 0))
        self.assertEqual(rows["squall_rows.notes"], b"m\t0\t10\t1\ta\n")
