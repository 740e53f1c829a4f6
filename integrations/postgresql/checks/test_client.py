"""Clients of partitions, and the programs."""

from __future__ import annotations

import subprocess
import sys
import tempfile
import threading
from contextlib import closing
from pathlib import Path
from typing import Any, List, Optional

import psycopg2

from tests.programs import until

from squall import Rank
from squall_bus import open_bus
from squall_postgresql import AwayError, Client, Mover, Routes, UnknownError

from .deploy import PLANS, course, execute, write_plans
from .parts import PartitionsTest, silent_job

HERE = Path(__file__).resolve().parent.parent
KEY, NEAR, FAR = Rank(10, 1), Rank(11, 1), Rank(300, 1)
WRITE = (
    "insert into public.notes values (%s, %s, %s, 1)"
    " on conflict (root, second) do update set v = excluded.v, n = notes.n + 1 returning n"
)
READ = "select v, n from public.notes where root = %s and second = %s"


class ClientTest(PartitionsTest):
    """Key 10:1 moves from partition 1 to 3 and back, and 300:1 stays at 1."""

    def client(self, bus: Optional[str] = None, patience: float = 60.0) -> Client:
        """A client with routes of its own."""
        routes = Routes(PLANS[0], None if bus is None else open_bus(bus))
        it = Client(self.deployment.apps, routes, patience)
        self.addCleanup(it.close)
        self.addCleanup(routes.close)
        return it

    def move(self, number: int) -> None:
        """Does a whole course."""
        Mover(course(number), self.deployment.addresses, silent_job(number)).run()

    def write(self, client: Client, key: Rank, text: str) -> Any:
        """How often the key was written."""
        ((count,),) = client.execute(key, "write", WRITE, (key.root, key.second, text))
        return count

    def read(self, client: Client, key: Rank) -> Any:
        """What is there of a key."""
        return client.execute(key, "read", READ, (key.root, key.second))

    def test_a_program_without_a_bus_finds_each_key(self) -> None:
        old = self.client()
        self.assertEqual(self.write(old, KEY, "a"), 1)
        for number in range(2, 6):
            self.move(number)
            self.assertEqual(self.write(old, KEY, str(number)), number)
            new = self.client()
            self.assertEqual(self.read(new, KEY), [(str(number), number)])
        # It has learned by now.
        before = old.refusals
        self.assertEqual(self.read(old, KEY), [("5", 5)])
        self.assertLessEqual(old.refusals, before + 1)

    def test_a_key_that_is_on_its_way_is_waited_for(self) -> None:
        client = self.client()
        self.write(client, KEY, "a")
        self.begin()
        given = self.give()

        def load_late() -> None:
            until("the client has asked again", lambda: client.refusals > 2)
            self.load(given)

        thread = threading.Thread(target=load_late)
        thread.start()
        self.assertEqual(self.write(client, KEY, "b"), 2)
        thread.join()

    def test_who_waits_too_long_is_told(self) -> None:
        client = self.client(patience=0.3)
        self.begin()
        self.give()
        # On a busy machine the time may be over before the second partition is asked.
        with self.assertRaisesRegex(AwayError, "key 10:1: partition (3: PENDING 1|1: MOVED 3 2)$"):
            self.read(client, KEY)

    def test_a_transaction_has_several_keys(self) -> None:
        client = self.client()

        def act(cursor: Any) -> int:
            for key in (KEY, NEAR):
                cursor.execute(WRITE, [key.root, key.second, "a"])
            cursor.execute("select count(*) from public.notes")
            ((count,),) = cursor.fetchall()
            return int(count)

        self.assertEqual(client.transact([KEY, NEAR], act), 2)
        self.move(2)
        self.assertEqual(client.transact([KEY, NEAR], act), 2)
        with self.assertRaisesRegex(AwayError, "MOVED|COURSE|ELSEWHERE"):
            self.client(patience=0.5).transact([KEY, FAR], act)
        self.assertEqual(self.read(client, KEY), [("a", 2)])

    def test_faults_of_a_statement_are_the_program_s(self) -> None:
        client = self.client()
        with self.assertRaises(psycopg2.errors.UndefinedColumn):
            client.execute(KEY, "read", "select x from public.notes")

        def act(cursor: Any) -> None:
            cursor.execute(WRITE, [KEY.root, KEY.second, "a"])
            raise KeyError("mine")

        with self.assertRaisesRegex(KeyError, "mine"):
            client.transact([KEY], act)
        self.assertEqual(self.read(client, KEY), [])

    def test_a_cut_connection_leaves_a_write_in_doubt(self) -> None:
        client = self.client()
        self.write(client, KEY, "a")
        cut = (
            "select pg_terminate_backend(pid) from pg_stat_activity"
            " where usename = 'app' and datname = current_database()"
        )
        execute(self.deployment.addresses[1], cut)
        with self.assertRaises(UnknownError):
            self.write(client, KEY, "b")
        self.assertEqual(self.write(client, KEY, "b"), 2)
        execute(self.deployment.addresses[1], cut)
        self.assertEqual(self.read(client, KEY), [("b", 2)])

    def test_reports_reach_a_program_by_the_bus(self) -> None:
        client = self.client(self.deployment.bus)
        self.write(client, KEY, "a")
        folder = tempfile.mkdtemp()
        west, east = write_plans(folder)
        parts = [f"--part={part}={url}" for part, url in self.deployment.addresses.items()]
        words = ["--number", "2", "--old", west, "--new", east, *parts]
        dry = self.program("move", *words, "--dry-run")
        self.assertIn("move [0:0,250:0) 1 to 3 sub 0\n", dry)
        said = self.program("move", *words, "--bus", self.deployment.bus, "--first", west)
        self.assertIn("course 2: moved 1 rows in ", said)
        self.assertIn("in [0:0,250:0) 1: done below 250:0\n", self.program("show", *parts))
        until("the routes follow", lambda: client.routes.view.route(KEY) == 3)
        before = client.refusals
        self.assertEqual(self.write(client, KEY, "b"), 2)
        self.assertEqual(client.refusals, before)
        wrong = self.program("move", *words[:2], "--old", east, "--new", west, *parts, status=1)
        self.assertIn("CLASH 2", wrong)
        self.assertIn("N=ADDRESS", self.program("show", "--part", "x", status=2))

    def program(self, *words: str, status: int = 0) -> str:
        """What the program says."""
        done = subprocess.run(
            [sys.executable, str(HERE / "squall-postgresql"), *words],
            check=False,
            stdout=subprocess.PIPE,
            stderr=subprocess.STDOUT,
            text=True,
        )
        self.assertEqual(done.returncode, status, done.stdout)
        return done.stdout

    def test_the_example_counts(self) -> None:
        words = [f"--part={part}={url}" for part, url in self.deployment.apps.items()]
        west, _ = write_plans(tempfile.mkdtemp())
        said = self.example(
            *words, "--first", west, "--key", "10:1", "--turns", "2", "--pause", "0"
        )
        self.assertEqual(said, ["10:1 is 1 at partition 1", "10:1 is 2 at partition 1"])
        self.move(2)
        said = self.example(
            *words, "--first", west, "--key", "10:1", "--turns", "1", "--pause", "0"
        )
        self.assertEqual(said, ["10:1 is 3 at partition 3"])

    def example(self, *words: str) -> List[str]:
        """The lines that the example prints."""
        path = str(HERE / "example" / "count.py")
        done = subprocess.run(
            [sys.executable, path, *words], check=True, stdout=subprocess.PIPE, text=True
        )
        return done.stdout.splitlines()

    def test_a_client_may_be_closed_twice(self) -> None:
        with closing(self.client()) as client:
            self.write(client, KEY, "a")
            client.close()
