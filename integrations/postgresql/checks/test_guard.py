"""The guard, statement by statement."""

from __future__ import annotations

import io
import threading
from concurrent.futures import ThreadPoolExecutor
from contextlib import closing
from typing import Any, List

import psycopg2
from tests.programs import until

from squall import END, Rank
from squall_postgresql.partition import place_of

from .deploy import execute
from .parts import PartitionsTest

COUNT = "update public.notes set n = n + 1 where root = %s and second = 1"
READ = "select n from public.notes where root = %s and second = 1"


class GuardTest(PartitionsTest):
    """Root 10 moves from partition 1 to 3, and 300 stays."""

    def setUp(self) -> None:
        super().setUp()
        self.app, self.other = self.connect(1), self.connect(1)
        for root in (10, 300):
            self.say(self.app, root, "write", "insert into public.notes values (%s, 1, 'a', 0)")

    def connect(self, part: int) -> Any:
        """A connection of a program's role."""
        connection = psycopg2.connect(self.deployment.apps[part])
        connection.autocommit = True
        self.addCleanup(connection.close)
        return connection

    def say(self, connection: Any, root: int, mode: str, words: str) -> List[Any]:
        """What a guarded statement answers."""
        with connection.cursor() as cursor:
            count = words.count("%s")
            values = [root, mode, *[root] * count]
            cursor.execute("select squall.guard(%s, 1, %s);" + words, values)
            return list(cursor.fetchall()) if cursor.description else []

    def run_words(self, connection: Any, *words: str) -> None:
        """Does these statements."""
        with connection.cursor() as cursor:
            for it in words:
                cursor.execute(it)

    def refuses(self, code: str, said: str, connection: Any, *words: str) -> None:
        """The statements end with this error."""
        with self.assertRaises(psycopg2.Error) as caught:
            self.run_words(connection, *words)
        self.assertEqual(
            (caught.exception.pgcode, caught.exception.diag.message_primary), (code, said)
        )
        self.run_words(connection, "rollback")

    def test_no_statement_passes_without_a_key(self) -> None:
        for words in (
            "select * from public.notes",
            "select count(*) from public.notes where root = 5 and second = 1",
            "select exists (select from public.notes where root = 5)",
            "select * from (values (1)) it left join public.notes on root = 5",
            "insert into public.notes values (5, 1)",
            "insert into public.notes values (5, 1) on conflict do nothing",
            "update public.notes set n = 1",
            "update public.notes set n = 1 where root = 5 and second = 1",
            "delete from public.notes where root = 5",
            "select v from public.notes where root = 5 for update",
            "with gone as (delete from public.notes returning *) select * from gone",
        ):
            with self.subTest(words):
                self.refuses("SQ003", "UNGUARDED", self.app, words)
        with self.app.cursor() as cursor, self.assertRaisesRegex(psycopg2.Error, "UNGUARDED"):
            cursor.copy_expert("copy (select * from public.notes) to stdout", io.BytesIO())

    def test_a_role_reaches_no_table(self) -> None:
        for words in (
            "select * from squall_rows.notes",
            "delete from squall_rows.notes",
            "truncate squall_rows.notes",
            "select * from squall.moves",
            "update squall.state set number = 5",
            "select squall.give(2, 0, 5)",
            "select squall.delete_rows(0, 5)",
            "set role squall_mover",
        ):
            with self.subTest(words), self.assertRaises(psycopg2.errors.InsufficientPrivilege):
                self.run_words(self.app, words)
        # Nor does a superuser write by mistake.
        with self.assertRaisesRegex(psycopg2.Error, "UNGUARDED"):
            execute(self.deployment.addresses[1], "delete from squall_rows.notes")

    def test_a_statement_has_only_the_rows_that_it_has_named(self) -> None:
        self.assertEqual(self.say(self.app, 10, "read", "select root from public.notes"), [(10,)])
        self.say(self.app, 10, "write", "update public.notes set n = 5")
        self.say(self.app, 10, "write", "delete from public.notes where root = 300")
        self.assertEqual(self.say(self.app, 300, "read", READ), [(0,)])
        guard = "select squall.guard(10, 1, 'write')"
        insert = "insert into public.notes values (11, 1)"
        with self.assertRaises(psycopg2.errors.WithCheckOptionViolation):
            self.run_words(self.app, "begin", guard, insert)
        self.run_words(self.app, "rollback", "begin", guard, "select squall.guard(11, 1, 'write')")
        self.run_words(self.app, insert, "commit")
        # What was named is forgotten with the transaction.
        self.refuses("SQ003", "UNGUARDED", self.app, "select * from public.notes")

    def test_replies_say_where_a_key_is(self) -> None:
        self.begin()
        self.assertEqual(self.say(self.app, 10, "read", READ), [(0,)])
        guards = {at: f"select squall.guard({at}, 1, 'read')" for at in (10, 300, 500, 900)}
        dest, second = self.connect(3), self.connect(2)
        self.refuses("SQ001", "PENDING 1", dest, guards[10])
        self.refuses("SQ001", "ELSEWHERE 1", second, guards[10])
        self.refuses("SQ001", "COURSE 2", second, guards[300])
        self.refuses("SQ001", "PENDING 2", self.app, guards[500])
        given = self.give()
        self.refuses("SQ001", "MOVED 3 2", self.app, guards[10])
        self.refuses("SQ001", "PENDING 1", dest, guards[10])
        self.load(given)
        self.assertEqual(self.say(dest, 10, "read", READ), [(0,)])
        self.refuses("SQ001", "MOVED 3 2", self.app, guards[10])

    def test_a_forged_name_gets_nothing(self) -> None:
        self.begin()
        self.give()
        forged = f"select set_config('squall.claim', '{place_of(Rank(10, 1))}', true)"
        for words in (READ % 10, COUNT % 10, "insert into public.notes values (10, 1)"):
            self.refuses("SQ001", "MOVED 3 2", self.app, "begin", forged, words)

    def test_a_give_waits_for_statements_in_flight(self) -> None:
        self.begin()
        self.run_words(self.app, "begin", "select squall.guard(10, 1, 'write')", COUNT % 10)
        # A read, and a write of a key that stays, wait for nothing.
        self.run_words(self.other, "begin", "select squall.guard(300, 1, 'write')", COUNT % 300)
        thread = threading.Thread(target=self.give)
        thread.start()
        thread.join(0.8)
        self.assertTrue(thread.is_alive())
        self.run_words(self.app, COUNT % 10, "commit")
        thread.join()
        self.refuses("SQ001", "MOVED 3 2", self.app, "select squall.guard(10, 1, 'write')")
        self.run_words(self.other, COUNT % 300, "commit")
        self.assertIn(b"10\t1\t", self.source.rows(Rank(0, 0), END)["squall_rows.notes"])

    def test_a_statement_that_waited_for_a_give_is_refused(self) -> None:
        self.begin()
        gives = psycopg2.connect(self.deployment.addresses[1])
        self.addCleanup(gives.close)
        edge = place_of(Rank(100, 0))
        with gives.cursor() as cursor:
            words = [place_of(Rank(0, 0)), edge]
            cursor.execute("set role squall_mover; select squall.give(2, %s, %s)", words)
        timer = threading.Timer(0.2, gives.commit)
        timer.start()
        guard = "select squall.guard(10, 1, 'write')"
        self.refuses("SQ001", "MOVED 3 2", self.app, "begin", guard, COUNT % 10)
        timer.join()

    def test_a_snapshot_from_before_a_load_is_not_used(self) -> None:
        """A statement that began before the load, and is guarded after it, lacks the rows."""
        self.begin()
        given = self.give()
        name = f"select set_config('squall.claim', '{place_of(Rank(10, 1))}', true)"
        # The server does what the statement selects before what it updates.
        slow = f"with it as ({COUNT % 10} returning n) select 1 from pg_advisory_xact_lock(7)"
        url = self.deployment.addresses[3]
        pool = ThreadPoolExecutor(1)
        self.addCleanup(pool.shutdown)
        with closing(psycopg2.connect(url)) as holds, holds.cursor() as cursor:
            cursor.execute("select pg_advisory_xact_lock(7)")
            says = ("SQ001", "AGAIN", self.connect(3), "begin", name, slow)
            refused = pool.submit(self.refuses, *says)
            waits = "select 1 from pg_locks where locktype = 'advisory' and not granted"
            until("the statement waits", lambda: bool(execute(url, waits)))
            self.load(given)
            holds.rollback()
            refused.result()
        self.assertEqual(self.say(self.connect(3), 10, "write", slow), [(1,)])
        self.assertEqual(self.say(self.connect(3), 10, "read", READ), [(1,)])

    def test_one_snapshot_for_all_statements_is_guarded_too(self) -> None:
        self.begin()
        self.run_words(self.app, "begin isolation level repeatable read", "select 1")
        self.give()
        with self.assertRaises(psycopg2.errors.SerializationFailure):
            self.run_words(self.app, "select squall.guard(10, 1, 'write')")
        self.run_words(self.app, "rollback")
