"""Frames in a table of PostgreSQL."""

from __future__ import annotations

import threading
import unittest
from typing import Any, ClassVar

try:
    import psycopg2
except ImportError:
    psycopg2 = None

from squall import FRAME_BYTES, Router
from squall_bus import BusError, Message
from squall_bus.pieces import ANY

from . import kept
from .kept import FRAMES
from .programs import HERE
from .servers import Postgres, find

IS_THERE = psycopg2 is not None and find("postgres") is not None


@unittest.skipUnless(IS_THERE, "no postgres or no psycopg2")
class PostgresTest(kept.Merged):
    """All over one server. Each test has a table of its own."""

    server: ClassVar[Postgres]  # type: ignore[misc]
    pause = 0.08

    @classmethod
    def setUpClass(cls) -> None:
        cls.server = Postgres()
        cls.addClassCleanup(cls.server.remove)
        cls.server.start()

    def setUp(self) -> None:
        self.url = self.server.url()
        with self.raw() as connection, connection.cursor() as cursor:
            cursor.execute("drop table if exists squall_frames")
        connection.close()
        self.bus().setup()
        self.bus().setup()

    def raw(self) -> Any:
        """A connection that knows nothing of squall."""
        return psycopg2.connect(self.server.url())

    def test_a_reader_reads_on_after_all_mishaps(self) -> None:
        self.works_in_spite_of_mishaps()

    def test_programs_for_redis_make_the_same_table(self) -> None:
        folder = HERE.parent / "redis" / "src" / "bus"
        text = (HERE / "squall_bus" / "postgres.sql").read_text("utf-8")
        self.assertEqual(text, (folder / "postgres.sql").read_text("utf-8"))

    def test_ids_rise_in_the_order_of_commits(self) -> None:
        reader, writer = self.bus(), self.bus()
        with self.raw() as slow, slow.cursor() as cursor:
            cursor.execute("call squall_append(array[%s::bytea])", [FRAMES[0]])
            thread = threading.Thread(target=writer.send, args=[FRAMES[1]])
            thread.start()
            thread.join(0.3)
            self.assertTrue(thread.is_alive(), "the second writer did not wait")
            self.assertEqual(reader.hear(0.1), [])
        slow.close()
        thread.join()
        self.assertEqual(reader.hear(1), [Message(FRAMES[0]), Message(FRAMES[1])])

    def test_without_that_order_a_reader_misses_a_frame(self) -> None:
        reader = self.bus()
        insert = "insert into squall_frames (frame) values (%s)"
        with self.raw() as slow, slow.cursor() as cursor:
            cursor.execute(insert, [FRAMES[0]])
            with self.raw() as quick, quick.cursor() as other:
                other.execute(insert, [FRAMES[1]])
            quick.close()
            self.assertEqual(reader.hear(0.1), [Message(FRAMES[1])])
        slow.close()
        self.assertEqual(reader.hear(0.2), [])

    def test_a_reader_is_woken(self) -> None:
        reader, writer = self.bus(), self.bus()
        self.assertEqual(reader.hear(0.0), [])
        threading.Timer(0.2, writer.send, [FRAMES[0]]).start()
        # Far later than the tests' end, if it is not woken.
        self.assertEqual(reader.hear(60.0), [Message(FRAMES[0])])

    def test_the_longest_frame_fits(self) -> None:
        with Router(1, ANY, ANY) as router:
            for at in range(65534):
                router.loaded(2, 0, 3, 2 * at, 2 * at + 1)
            (board,) = router.board()
        self.assertGreater(len(board), FRAME_BYTES - 16)
        bus = self.bus()
        bus.send(board)
        self.assertEqual(self.bus().hear(1), [Message(board)])

    def test_a_table_that_is_not_there_is_named(self) -> None:
        with self.raw() as connection, connection.cursor() as cursor:
            cursor.execute("drop table squall_frames")
        connection.close()
        with self.assertRaisesRegex(BusError, "squall_frames"):
            self.bus().hear(0.1)
