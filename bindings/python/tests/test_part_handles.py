"""How partitions and leaders are closed."""

import gc
import unittest
from typing import Any, Callable, List, Type
from unittest import mock

from squall import ClosedError, Course, Leader, Part
from squall._room import LeaderRoom, PartRoom

from .test_handles import Count, fresh_leader, open_part
from .worked import NEW, OLD


class Closing(unittest.TestCase):
    """Closing, by hand and by the garbage collector."""

    def setUp(self) -> None:
        self.parts, self.leaders = Count(PartRoom._close), Count(LeaderRoom._close)
        pairs: List[Any] = [(PartRoom, self.parts), (LeaderRoom, self.leaders)]
        for room, count in pairs:
            patch = mock.patch.object(room, "_close", count)
            patch.start()
            self.addCleanup(patch.stop)

    def ended(self, parts: int, leaders: int) -> None:
        """Looks whether this many partitions and leaders were closed."""
        self.assertEqual((self.parts.count, self.leaders.count), (parts, leaders))

    def refuse(self, error: Type[Exception], *openings: Callable[[], object]) -> None:
        """Looks whether each opening raises this, and collects the garbage."""
        for opens in openings:
            with self.assertRaises(error):
                opens()
        gc.collect()

    def test_a_handle_is_closed_once(self) -> None:
        course = Course(1, OLD, NEW)
        with Part(1, course) as part, Leader(OLD) as leader, Leader.resume(course):
            self.assertEqual((repr(part), repr(leader)), ("<Part, open>", "<Leader, open>"))
            leader.close()
            leader.close()
            self.assertTrue(leader.closed)
            self.ended(0, 1)
        self.ended(1, 2)

    def test_the_garbage_collector_closes(self) -> None:
        ring: List[Any] = [open_part(1), fresh_leader()]
        ring.append(ring)
        del ring
        gc.collect()
        self.ended(1, 1)

    def test_what_was_not_opened_is_closed_too(self) -> None:
        course = Course(1, OLD, NEW)
        self.refuse(ValueError, lambda: Part(10000, course), lambda: Leader("{}"))
        self.ended(1, 1)

    def test_openings_that_make_no_call(self) -> None:
        course = Course(1, OLD, NEW)
        self.refuse(ValueError, lambda: Part(-1, course), lambda: Leader(OLD, -1))
        course.close()
        self.refuse(ClosedError, lambda: Part(1, course), lambda: Leader.resume(course))
        self.ended(0, 0)

    def test_handles_may_be_opened_again(self) -> None:
        # pylint: disable=unnecessary-dunder-call
        part, leader = open_part(1), fresh_leader()
        part.__init__(2, Course(1, OLD, NEW))  # type: ignore[misc]
        leader.__init__(NEW, 6)  # type: ignore[misc]
        leader.begin(OLD)
        self.assertEqual((str(*part.held()), leader.course().number), ("[3:0,5:0)", 7))
        self.ended(1, 1)


if __name__ == "__main__":
    unittest.main()
